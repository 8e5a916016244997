//! The table: how it begins, its mappings in order, the host calls, bytes through the raw form.
use iommufd::command::{Copy, Map, Unmap};
use iommufd::{request, Access, Errno, Mapping, Place, Range, Rights, Table};
use std::sync::Mutex;

static KEPT: Mutex<Table> = Mutex::new(Table::empty());

fn map(space: u32, address: u64, length: u64) -> Map {
    Map { space, rights: Rights::READ, memory: 0x10_0000, length, place: Place::Fixed(address) }
}

#[test]
fn empty_is_a_good_table_with_limit_0() {
    let mut t = Table::empty();
    assert_eq!(t, Table::new(0).unwrap());
    assert_eq!(t.charge(), Ok(0));
    assert_eq!(t.alloc_space(), Ok(1));
    assert_eq!(t.map(map(1, 0, 1)), Err(Errno::NoMem));
}

#[test]
fn limits() {
    assert!(Table::new(1 << 36).is_ok());
    assert_eq!(Table::new((1 << 36) + 1), Err(Errno::Inval));
    assert_eq!(Table::new(u64::MAX), Err(Errno::Inval));
}

#[test]
fn fresh_empties_a_table_or_leaves_it() {
    let mut t = Table::new(9).unwrap();
    t.alloc_space().unwrap();
    t.map(map(1, 0, 5)).unwrap();
    let before = t.clone();
    assert_eq!(t.fresh(u64::MAX), Err(Errno::Inval));
    assert_eq!(t, before);
    assert_eq!(t.fresh(9), Ok(()));
    assert_eq!(t, Table::new(9).unwrap());
}

#[test]
fn a_static_behind_a_lock() {
    let mut t = KEPT.lock().unwrap();
    t.fresh(1).unwrap();
    assert_eq!(t.alloc_space(), Ok(1));
    assert_eq!(t.map(map(1, 0, 1)), Ok(0));
}

fn addresses(t: &Table, space: u32) -> Vec<u64> {
    t.mappings_of(space).map(|mapping| mapping.address).collect()
}

#[test]
fn mappings_ascend_whatever_their_records() {
    let mut t = Table::new(1 << 36).unwrap();
    assert_eq!([t.alloc_space(), t.alloc_space()], [Ok(1), Ok(2)]);
    assert_eq!(addresses(&t, 1), []);
    for address in [50, 10, u64::MAX, 30, 0, 1 << 63] {
        t.map(map(1, address, 1)).unwrap();
    }
    t.map(map(2, 20, 1)).unwrap();
    t.unmap(Unmap { space: 1, address: 10, length: 1 }).unwrap();
    t.map(map(1, 40, 1)).unwrap();
    assert_eq!(addresses(&t, 1), [0, 30, 40, 50, 1 << 63, u64::MAX]);
    assert_eq!(addresses(&t, 2), [20]);
    assert_eq!([addresses(&t, 0), addresses(&t, 3), addresses(&t, u32::MAX)], [vec![], vec![], vec![]]);
    assert_eq!([t.mappings_of(1).len(), t.mappings_of(2).len(), t.mappings_of(3).len()], [6, 1, 0]);
}

/// A table has its index with it: a copy is a table of its own.
#[test]
fn a_clone_goes_its_own_way() {
    let mut t = Table::new(1 << 36).unwrap();
    assert_eq!([t.alloc_space(), t.alloc_space()], [Ok(1), Ok(2)]);
    for (space, address) in [(2, 9), (1, 7), (2, 5), (1, 3)] {
        t.map(map(space, address, 1)).unwrap();
    }
    let mut other = t.clone();
    assert_eq!(other.unmap(Unmap::all(1)), Ok(2));
    assert_eq!(other.map(map(2, 7, 1)), Ok(7));
    assert_eq!((addresses(&other, 1), addresses(&other, 2)), (vec![], vec![5, 7, 9]));
    assert_eq!((addresses(&t, 1), addresses(&t, 2)), (vec![3, 7], vec![5, 9]));
    assert_eq!(t.charge(), Ok(4));
}

#[test]
fn the_next_mapping() {
    let mut t = Table::new(1 << 36).unwrap();
    assert_eq!([t.alloc_space(), t.alloc_space(), t.bind(1, &[])], [Ok(1), Ok(2), Ok(3)]);
    let next = |t: &Table, space, address| t.next(space, address).map(|found| found.map(|m| m.address));
    assert_eq!(next(&t, 1, 0), Ok(None));
    for (space, address) in [(1, u64::MAX - 3), (1, 0x20), (2, 0x18), (1, 0x10)] {
        t.map(map(space, address, 4)).unwrap();
    }
    let before = t.clone();
    let told = [(0, 0x10), (0x10, 0x10), (0x13, 0x10), (0x14, 0x20), (0x23, 0x20), (0x24, u64::MAX - 3), (u64::MAX, u64::MAX - 3)];
    for (address, found) in told {
        assert_eq!(next(&t, 1, address), Ok(Some(found)));
    }
    assert_eq!([0, 0x1B, 0x1C, u64::MAX].map(|address| next(&t, 2, address)), [Ok(Some(0x18)), Ok(Some(0x18)), Ok(None), Ok(None)]);
    assert_eq!([0, 3, 4, 33, u32::MAX].map(|space| next(&t, space, 0)), [Err(Errno::NoEnt); 5]);
    assert_eq!(t.next(1, 0x11), Ok(t.mappings_of(1).next()));
    assert_eq!(t, before);
}

/// What the walk tells beforehand is what an UNMAP takes, and nothing else.
#[test]
fn the_mappings_of_a_range() {
    let mut t = Table::new(1 << 36).unwrap();
    assert_eq!([t.alloc_space(), t.alloc_space()], [Ok(1), Ok(2)]);
    for (space, address) in [(1, u64::MAX - 3), (1, 4), (1, 0), (2, 8), (1, 12)] {
        t.map(map(space, address, 4)).unwrap();
    }
    let walked = |t: &Table, start, last| t.mappings_in(1, Range::new(start, last)).map(|m| m.address).collect::<Vec<u64>>();
    let whole = [(0, 3, vec![0]), (0, 11, vec![0, 4]), (4, 15, vec![4, 12]), (12, u64::MAX, vec![12, u64::MAX - 3]), (0, u64::MAX - 4, vec![0, 4, 12])];
    for (start, last, expected) in whole {
        assert_eq!(walked(&t, start, last), expected);
        let mut after = t.clone();
        assert_eq!(after.unmap(Unmap { space: 1, address: start, length: last - start + 1 }), Ok(4 * expected.len() as u64));
        let stay = addresses(&t, 1).into_iter().filter(|address| !expected.contains(address)).collect::<Vec<u64>>();
        assert_eq!(addresses(&after, 1), stay);
    }
    assert_eq!(walked(&t, 0, u64::MAX), addresses(&t, 1));
    // cut at either end, and none
    assert_eq!([walked(&t, 3, 4), walked(&t, 15, 15), walked(&t, u64::MAX, u64::MAX)], [vec![0, 4], vec![12], vec![u64::MAX - 3]]);
    assert_eq!([walked(&t, 8, 11), walked(&t, 16, u64::MAX - 4), walked(&t, 2, 1)], [const { vec![] }; 3]);
    assert_eq!([0, 3, 33].map(|space| t.mappings_in(space, Range::new(0, u64::MAX)).count()), [0; 3]);
    let mut walk = t.mappings_in(2, Range::new(0, u64::MAX));
    assert_eq!((walk.next().map(|m| m.range()), walk.next(), walk.next()), (Some(Range::new(8, 11)), None, None));
}

/// After a mapping at the last address nothing comes, however often it is asked.
#[test]
fn the_last_address_ends_the_mappings() {
    let mut t = Table::new(4).unwrap();
    t.alloc_space().unwrap();
    t.map(map(1, u64::MAX, 1)).unwrap();
    let mut mappings = t.mappings_of(1);
    assert_eq!(mappings.next().map(|m| m.range()), Some(Range::new(u64::MAX, u64::MAX)));
    assert_eq!([mappings.next(), mappings.next(), mappings.next()], [None; 3]);
    assert_eq!(t.unmap(Unmap::all(1)), Ok(1));
    assert_eq!(t.mappings_of(1).next(), None);
}

#[test]
fn a_full_table_is_listed_whole() {
    let mut t = Table::new(1 << 36).unwrap();
    t.alloc_space().unwrap();
    for k in 0..128u64 {
        t.map(map(1, u64::MAX - (k * 37 % 128) * 0x1000, 1)).unwrap();
    }
    assert_eq!(t.map(map(1, 0, 1)), Err(Errno::NoMem));
    let listed = addresses(&t, 1);
    assert_eq!(listed, (0..128).rev().map(|k| u64::MAX - k * 0x1000).collect::<Vec<u64>>());
}

fn only(t: &Table, space: u32) -> Mapping {
    let mut mappings = t.mappings_of(space);
    let (first, second) = (mappings.next(), mappings.next());
    assert_eq!(second, None);
    first.expect("a mapping")
}

#[test]
fn what_a_mapping_tells() {
    let mut t = Table::new(8).unwrap();
    assert_eq!([t.alloc_space(), t.alloc_space()], [Ok(1), Ok(2)]);
    t.map(Map { space: 1, rights: Rights::READ_WRITE, memory: 0xABC, length: 0x1001, place: Place::Fixed(0x7000) }).unwrap();
    let copy = |rights| Copy { target: 2, rights, place: Place::Fixed(5), source: 1, source_address: 0x7000, length: 0x1001 };
    t.copy(copy(Rights::WRITE)).unwrap();
    let (founded, copied) = (only(&t, 1), only(&t, 2));
    assert_eq!((founded.address, founded.length, founded.memory), (0x7000, 0x1001, 0xABC));
    assert_eq!((founded.rights, copied.rights), (Rights::READ_WRITE, Rights::WRITE));
    assert!(!copied.rights.read() && copied.rights.write());
    assert_eq!((copied.memory, copied.backing), (founded.memory, founded.backing));
    assert_eq!((founded.range(), copied.range()), (Range::new(0x7000, 0x8000), Range::new(5, 0x1005)));
    t.unmap(Unmap::all(2)).unwrap();
    t.copy(copy(Rights::READ)).unwrap();
    assert_eq!(only(&t, 2).rights, Rights::READ);
}

#[test]
fn host_calls() {
    let mut t = Table::new(8).unwrap();
    let range = Range::new(0x10, 0x1F);
    assert_eq!(t.alloc_space(), Ok(1));
    assert_eq!(t.bind(1, &[range; 4]), Ok(2));
    assert_eq!([t.bind(1, &[range; 5]), t.bind(0, &[]), t.bind(0x2000, &[]), t.bind(1, &[Range::new(1, 0)])], [Err(Errno::Inval); 4]);
    assert_eq!([t.attach(3, 1), t.attach(2, 2)], [Err(Errno::NoEnt); 2]);
    assert_eq!(t.detach(2), Err(Errno::Inval));
    t.map(map(1, 0x1F, 1)).unwrap();
    assert_eq!(t.attach(2, 1), Err(Errno::AddrInUse));
    t.unmap(Unmap::all(1)).unwrap();
    t.map(map(1, 0x20, 0x10)).unwrap();
    assert_eq!([t.attach(2, 1), t.attach(2, 1)], [Ok(()), Err(Errno::Busy)]);
    assert_eq!(t.reach(2, 0x28, 8, Access::Read), Ok(0x10_0008));
    assert_eq!(t.reach(2, 0x28, 8, Access::Write), Err(Errno::Perm));
    assert_eq!(t.reach(2, 0x28, 9, Access::Read), Err(Errno::Fault));
    assert_eq!(t.reach(2, 0x28, 0, Access::Read), Err(Errno::Inval));
    assert_eq!(t.reach(2, u64::MAX, 2, Access::Read), Err(Errno::Overflow));
    assert_eq!(t.charge(), Ok(1));
    assert_eq!([t.detach(2), t.detach(2)], [Ok(()), Err(Errno::Inval)]);
    assert_eq!(t.reach(2, 0x28, 8, Access::Read), Err(Errno::Inval));
}

#[test]
fn bytes_of_any_kind() {
    let mut t = Table::new(8).unwrap();
    assert_eq!(t.call(0x3B7F, &mut [], &mut []), Err(Errno::NoTty));
    assert_eq!(t.call(request::MAP, &mut [], &mut []), Err(Errno::Fault));
    assert_eq!(t.call(request::MAP, &mut [39, 0, 0, 0], &mut []), Err(Errno::Inval));
    assert_eq!(t.call(request::MAP, &mut [40, 0, 0, 0], &mut []), Err(Errno::Fault));
    let mut alloc = [16, 0, 0, 0, 0, 0, 0, 0, 9, 9, 9, 9, 0, 0, 0, 1];
    assert_eq!(t.call(request::IOAS_ALLOC, &mut alloc, &mut []), Err(Errno::TooBig));
    alloc[15] = 0;
    assert_eq!(t.preview(request::IOAS_ALLOC, &mut alloc.clone(), &mut []), Ok(()));
    assert_eq!(t.call(request::IOAS_ALLOC, &mut alloc, &mut []), Ok(()));
    assert_eq!(alloc, [16, 0, 0, 0, 0, 0, 0, 0, 1, 0, 0, 0, 0, 0, 0, 0]);
    alloc[4] = 1;
    assert_eq!(t.call(request::IOAS_ALLOC, &mut alloc, &mut []), Err(Errno::OpNotSupp));
}
