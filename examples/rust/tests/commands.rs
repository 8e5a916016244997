//! Each command with a type against the bytes that it stands for: written out, and sent through the raw form to a table that is the same.
use iommufd::command::{AllowIovas, Copy, Destroy, IoasAlloc, IovaRanges, Map, Unmap};
use iommufd::{request, Errno, FreeRanges, Place, Range, Rights, Table, MOST_RANGES};

// ---- the bytes, from the paper

fn halves(numbers: &[u32]) -> Vec<u8> {
    numbers.iter().flat_map(|number| number.to_le_bytes()).collect()
}

fn words(numbers: &[u64]) -> Vec<u8> {
    numbers.iter().flat_map(|number| number.to_le_bytes()).collect()
}

fn bytes(small: &[u32], large: &[u64]) -> Vec<u8> {
    [halves(small), words(large)].concat()
}

#[test]
fn map_byte_by_byte() {
    let map = Map {
        space: 0x0403_0201,
        rights: Rights::WRITE,
        memory: 0x1817_1615_1413_1211,
        length: 0x2827_2625_2423_2221,
        place: Place::Fixed(0x38),
    };
    #[rustfmt::skip]
    let expected = [
        40, 0, 0, 0,  3, 0, 0, 0,  0x01, 0x02, 0x03, 0x04,  0, 0, 0, 0,
        0x11, 0x12, 0x13, 0x14, 0x15, 0x16, 0x17, 0x18,
        0x21, 0x22, 0x23, 0x24, 0x25, 0x26, 0x27, 0x28,
        0x38, 0, 0, 0, 0, 0, 0, 0,
    ];
    assert_eq!(map.bytes(), expected);
}

#[test]
fn flags() {
    let flags = |rights, place| Map { space: 1, rights, memory: 2, length: 3, place }.bytes()[4..8].to_vec();
    let copied = |rights, place| Copy { target: 1, rights, place, source: 2, source_address: 3, length: 4 }.bytes()[4..8].to_vec();
    let cases = [
        (Rights::READ, Place::Automatic, 4),
        (Rights::WRITE, Place::Automatic, 2),
        (Rights::READ_WRITE, Place::Automatic, 6),
        (Rights::READ, Place::Fixed(9), 5),
        (Rights::WRITE, Place::Fixed(9), 3),
        (Rights::READ_WRITE, Place::Fixed(9), 7),
    ];
    for (rights, place, expected) in cases {
        assert_eq!(flags(rights, place), halves(&[expected]));
        assert_eq!(copied(rights, place), halves(&[expected]));
    }
}

#[test]
fn fields_in_order() {
    let map = Map { space: 7, rights: Rights::READ, memory: 8, length: 9, place: Place::Automatic };
    assert_eq!(map.bytes().to_vec(), bytes(&[40, 4, 7, 0], &[8, 9, 0]));
    let copy = Copy { target: 5, rights: Rights::READ, place: Place::Fixed(6), source: 7, source_address: 8, length: 9 };
    assert_eq!(copy.bytes().to_vec(), bytes(&[40, 5, 5, 7], &[9, 6, 8]));
    assert_eq!(Unmap { space: 5, address: 6, length: 7 }.bytes().to_vec(), bytes(&[24, 5], &[6, 7]));
    assert_eq!(Unmap::all(5).bytes().to_vec(), bytes(&[24, 5], &[0, u64::MAX]));
    assert_eq!(IoasAlloc.bytes().to_vec(), bytes(&[12, 0, 0], &[]));
    assert_eq!(Destroy { id: 5 }.bytes().to_vec(), bytes(&[8, 5], &[]));
    assert_eq!(IovaRanges { space: 5, room: 6 }.bytes().to_vec(), bytes(&[32, 5, 6, 0], &[0, 0]));
    let ranges = [Range::new(1, 2), Range::new(3, 4)];
    let allow = AllowIovas { space: 5, ranges: &ranges };
    assert_eq!(allow.bytes().to_vec(), bytes(&[24, 5, 2, 0], &[0]));
    assert_eq!(allow.area().to_vec(), words(&[1, 2, 3, 4, 0, 0, 0, 0, 0, 0, 0, 0, 0, 0, 0, 0]));
}

#[test]
fn request_numbers() {
    assert_eq!(Map::REQUEST, request::MAP);
    assert_eq!(Copy::REQUEST, request::COPY);
    assert_eq!(Unmap::REQUEST, request::UNMAP);
    assert_eq!(IoasAlloc::REQUEST, request::IOAS_ALLOC);
    assert_eq!(Destroy::REQUEST, request::DESTROY);
    assert_eq!(AllowIovas::REQUEST, request::ALLOW_IOVAS);
    assert_eq!(IovaRanges::REQUEST, request::IOVA_RANGES);
}

// ---- typed and raw on the same table

/// Spaces 1 and 2, each with a device; in space 1 a page that may be written at 0x1000 and one that may not at 0x3000; space 3 without a device; a loose device 6.
fn table() -> Table {
    let mut t = Table::new(16).unwrap();
    assert_eq!([t.alloc_space(), t.alloc_space(), t.alloc_space()], [Ok(1), Ok(2), Ok(3)]);
    let reserved = [Range::new(0xFEE0_0000, 0xFEEF_FFFF)];
    assert_eq!([t.bind(0x1000, &reserved), t.bind(0x1000, &[]), t.bind(1, &[])], [Ok(4), Ok(5), Ok(6)]);
    assert_eq!([t.attach(4, 1), t.attach(5, 2)], [Ok(()); 2]);
    let page = |rights, address| Map { space: 1, rights, memory: 0x10_0000 + address, length: 0x1000, place: Place::Fixed(address) };
    assert_eq!(t.map(page(Rights::READ_WRITE, 0x1000)), Ok(0x1000));
    assert_eq!(t.map(page(Rights::READ, 0x3000)), Ok(0x3000));
    t
}

/// Sends bytes; the answer is what is read off the reply. Typed answers, previews and both tables afterwards have to be the same.
fn alike<T: PartialEq + std::fmt::Debug>(
    typed: impl Fn(&mut Table) -> Result<T, Errno>,
    preview: impl Fn(&Table) -> Result<T, Errno>,
    raw: (u32, Vec<u8>, Vec<u8>),
    read: impl Fn(&[u8]) -> T,
) -> Result<T, Errno> {
    let (request, sent, area) = raw;
    let (before, mut one, mut other) = (table(), table(), table());
    let (mut command, mut lent) = (sent.clone(), area.clone());
    let answer = other.call(request, &mut command, &mut lent).map(|()| read(&command));
    if answer.is_err() {
        assert_eq!((&command, &lent, &other), (&sent, &area, &before));
    }
    let (mut asked, mut asked_area) = (sent.clone(), area.clone());
    assert_eq!(before.preview(request, &mut asked, &mut asked_area).map(|()| read(&asked)), answer);
    assert_eq!((asked, asked_area), (command, lent));
    assert_eq!(preview(&before), answer);
    assert_eq!(before, table());
    assert_eq!(typed(&mut one), answer);
    assert_eq!(one, other);
    answer
}

fn half_at(at: usize) -> impl Fn(&[u8]) -> u32 {
    move |bytes| u32::from_le_bytes(bytes[at..at + 4].try_into().unwrap())
}

fn word_at(at: usize) -> impl Fn(&[u8]) -> u64 {
    move |bytes| u64::from_le_bytes(bytes[at..at + 8].try_into().unwrap())
}

#[test]
fn map() {
    let page = Map { space: 1, rights: Rights::READ, memory: 0x2000, length: 0x1000, place: Place::Automatic };
    let try_map = |map: Map| alike(|t| t.map(map), |t| t.preview_map(map), (request::MAP, map.bytes().to_vec(), vec![]), word_at(32));
    assert_eq!(try_map(page), Ok(0));
    assert_eq!(try_map(Map { length: 0x2000, ..page }), Ok(0x4000));
    assert_eq!(try_map(Map { place: Place::Fixed(0x2000), ..page }), Ok(0x2000));
    assert_eq!(try_map(Map { place: Place::Fixed(u64::MAX - 0xFFF), ..page }), Ok(u64::MAX - 0xFFF));
    assert_eq!(try_map(Map { space: 3, length: 1, place: Place::Fixed(u64::MAX), ..page }), Ok(u64::MAX));
    assert_eq!(try_map(Map { place: Place::Fixed(0x1000), ..page }), Err(Errno::Exist));
    assert_eq!(try_map(Map { place: Place::Fixed(0xFEE0_0000), ..page }), Err(Errno::Inval));
    assert_eq!(try_map(Map { length: 1, ..page }), Err(Errno::Inval));
    assert_eq!(try_map(Map { space: 4, ..page }), Err(Errno::NoEnt));
    assert_eq!(try_map(Map { memory: u64::MAX, ..page }), Err(Errno::Overflow));
    assert_eq!(try_map(Map { length: 0xF000, ..page }), Err(Errno::NoMem));
}

#[test]
fn copy() {
    let page = Copy { target: 2, rights: Rights::READ, place: Place::Automatic, source: 1, source_address: 0x3000, length: 0x1000 };
    let try_copy =
        |copy: Copy| alike(|t| t.copy(copy), |t| t.preview_copy(copy), (request::COPY, copy.bytes().to_vec(), vec![]), word_at(24));
    assert_eq!(try_copy(page), Ok(0));
    assert_eq!(try_copy(Copy { target: 1, ..page }), Ok(0));
    assert_eq!(try_copy(Copy { place: Place::Fixed(0x8000), ..page }), Ok(0x8000));
    assert_eq!(try_copy(Copy { source_address: 0x1000, rights: Rights::READ_WRITE, ..page }), Ok(0));
    assert_eq!(try_copy(Copy { rights: Rights::WRITE, ..page }), Err(Errno::Perm));
    assert_eq!(try_copy(Copy { length: 0x2000, ..page }), Err(Errno::NoEnt));
    assert_eq!(try_copy(Copy { source: 2, ..page }), Err(Errno::NoEnt));
    assert_eq!(try_copy(Copy { target: 1, place: Place::Fixed(0x3000), ..page }), Err(Errno::Exist));
}

#[test]
fn unmap() {
    let try_unmap =
        |unmap: Unmap| alike(|t| t.unmap(unmap), |t| t.preview_unmap(unmap), (request::UNMAP, unmap.bytes().to_vec(), vec![]), word_at(16));
    assert_eq!(try_unmap(Unmap { space: 1, address: 0x1000, length: 0x1000 }), Ok(0x1000));
    assert_eq!(try_unmap(Unmap { space: 1, address: 0, length: 0x10000 }), Ok(0x2000));
    assert_eq!(try_unmap(Unmap::all(1)), Ok(0x2000));
    assert_eq!(try_unmap(Unmap::all(2)), Ok(0));
    assert_eq!(try_unmap(Unmap { space: 1, address: 0x1000, length: 0x2001 }), Err(Errno::NoEnt));
    assert_eq!(try_unmap(Unmap { space: 2, address: 0x1000, length: 0x1000 }), Err(Errno::NoEnt));
    assert_eq!(try_unmap(Unmap { space: 1, address: 1, length: u64::MAX }), Ok(0x2000));
    assert_eq!(try_unmap(Unmap { space: 1, address: 2, length: u64::MAX }), Err(Errno::Overflow));
    assert_eq!(try_unmap(Unmap { space: 1, address: 0, length: 0 }), Err(Errno::Inval));
    assert_eq!(try_unmap(Unmap::all(9)), Err(Errno::NoEnt));
}

#[test]
fn alloc_space_and_destroy() {
    let raw = (request::IOAS_ALLOC, IoasAlloc.bytes().to_vec(), vec![]);
    assert_eq!(alike(|t| t.alloc_space(), |t| t.preview_alloc_space(), raw, half_at(8)), Ok(7));
    let try_destroy =
        |id| alike(|t| t.destroy(id), |t| t.preview_destroy(id), (request::DESTROY, Destroy { id }.bytes().to_vec(), vec![]), |_| ());
    assert_eq!(try_destroy(3), Ok(()));
    assert_eq!(try_destroy(6), Ok(()));
    assert_eq!(try_destroy(1), Err(Errno::Busy));
    assert_eq!(try_destroy(4), Err(Errno::Busy));
    assert_eq!(try_destroy(7), Err(Errno::NoEnt));
    assert_eq!(try_destroy(u32::MAX), Err(Errno::NoEnt));
}

#[test]
fn a_full_table_has_no_space() {
    let mut t = Table::new(0).unwrap();
    for id in 1..=32 {
        assert_eq!(t.preview_alloc_space(), Ok(id));
        assert_eq!(t.alloc_space(), Ok(id));
    }
    assert_eq!((t.alloc_space(), t.preview_alloc_space()), (Err(Errno::NoMem), Err(Errno::NoMem)));
}

#[test]
fn allow() {
    let try_allow = |space, ranges: &[Range]| {
        let area: Vec<u8> = ranges.iter().flat_map(|range| words(&[range.start, range.last])).collect();
        let command = bytes(&[24, space, ranges.len() as u32, 0], &[0]);
        alike(|t| t.allow(space, ranges), |t| t.preview_allow(space, ranges), (request::ALLOW_IOVAS, command, area), |_| ())
    };
    let eight: Vec<Range> = (0..8).map(|k| Range::new(k << 20, (k << 20) + 5)).collect();
    let nine: Vec<Range> = (0..9).map(|k| Range::new(k << 20, (k << 20) + 5)).collect();
    assert_eq!(try_allow(1, &[]), Ok(()));
    assert_eq!(try_allow(1, &[Range::new(0x10_0000, 0x1F_FFFF)]), Ok(()));
    assert_eq!(try_allow(1, &eight), Ok(()));
    assert_eq!(try_allow(1, &nine), Err(Errno::NoMem));
    assert_eq!(try_allow(1, &nine.repeat(100)), Err(Errno::NoMem));
    assert_eq!(try_allow(1, &[Range::new(2, 1)]), Err(Errno::Inval));
    assert_eq!(try_allow(1, &[Range::new(1, 2), Range::new(2, 3)]), Err(Errno::Inval));
    assert_eq!(try_allow(1, &[Range::new(0xFEE0_0000, 0xFEE0_0000)]), Err(Errno::AddrInUse));
    assert_eq!(try_allow(4, &[]), Err(Errno::NoEnt));
}

#[test]
fn an_allow_list_is_kept_in_order() {
    let mut t = table();
    let list = [Range::new(0x20_0000, 0x20_0FFF), Range::new(0x10_0000, 0x10_0FFF)];
    t.allow(1, &list).unwrap();
    let page = Map { space: 1, rights: Rights::READ, memory: 0, length: 0x1000, place: Place::Automatic };
    assert_eq!([t.map(page), t.map(page), t.map(page)], [Ok(0x10_0000), Ok(0x20_0000), Err(Errno::NoSpc)]);
}

// ---- IOVA_RANGES

const FILLER: Range = Range::new(7, 7);

/// The answer, and the list with what it held before behind it, by the typed form; the raw form has to write the same.
fn free(t: &Table, space: u32, room: usize) -> (Result<FreeRanges, Errno>, Vec<Range>) {
    let mut ranges = vec![FILLER; room];
    let answer = t.iova_ranges(space, &mut ranges);
    let mut command = bytes(&[32, space, room as u32, 0], &[0, 0]);
    let mut area = words(&[7, 7]).repeat(room);
    let raw = t.clone().call(request::IOVA_RANGES, &mut command, &mut area);
    let listed: Vec<Range> = area.chunks(16).map(|range| Range::new(word_at(0)(range), word_at(8)(range))).collect();
    assert_eq!(ranges, listed);
    match answer {
        Ok(free) => {
            assert_eq!(free.complete(), raw.is_ok());
            assert!(raw.is_ok() || raw == Err(Errno::MsgSize));
            assert_eq!((free.total as u32, free.alignment), (half_at(8)(&command), word_at(24)(&command)));
        }
        Err(errno) => assert_eq!(raw, Err(errno)),
    }
    (answer, ranges)
}

#[test]
fn ranges_with_and_without_room() {
    let t = table();
    let (low, high) = (Range::new(0, 0xFEDF_FFFF), Range::new(0xFEF0_0000, u64::MAX));
    let told = |written| Ok(FreeRanges { total: 2, written, alignment: 0x1000 });
    assert_eq!(free(&t, 1, 0), (told(0), vec![]));
    assert_eq!(free(&t, 1, 1), (told(1), vec![low]));
    assert_eq!(free(&t, 1, 2), (told(2), vec![low, high]));
    assert_eq!(free(&t, 1, 3), (told(2), vec![low, high, FILLER]));
    assert_eq!(free(&t, 3, 1), (Ok(FreeRanges { total: 1, written: 1, alignment: 1 }), vec![Range::new(0, u64::MAX)]));
    assert_eq!(free(&t, 4, 2), (Err(Errno::NoEnt), vec![FILLER; 2]));
    assert!(!told(1).unwrap().complete() && told(2).unwrap().complete());
}

/// 31 devices with 4 ranges each: no space has more free ranges, and more room than that changes nothing.
#[test]
fn the_most_ranges() {
    let mut t = Table::new(0).unwrap();
    assert_eq!(t.alloc_space(), Ok(1));
    for device in 0..31 {
        let reserved: Vec<Range> = (0..4).map(|k| 4 * device + k).map(|k| Range::new((k << 20) + 1, (k << 20) + 1)).collect();
        let id = t.bind(1, &reserved).unwrap();
        t.attach(id, 1).unwrap();
    }
    for room in [MOST_RANGES - 1, MOST_RANGES, MOST_RANGES + 1, 1000] {
        let (answer, ranges) = free(&t, 1, room);
        assert_eq!(answer, Ok(FreeRanges { total: MOST_RANGES, written: room.min(MOST_RANGES), alignment: 1 }));
        assert!(ranges.windows(2).take(room.min(MOST_RANGES) - 1).all(|two| two[0].last < two[1].start));
    }
}
