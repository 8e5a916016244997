//! Why a MAP or a COPY is refused: every reason, with what it names; that it has the call's errno, and that there is none exactly where the call is accepted.
use iommufd::command::{Copy, Map, Unmap};
use iommufd::{request, Errno, Place, Range, Reason, Rights, Run, Table};

/// Why bytes are refused. The call on a clone has to answer the reason's errno, or to be accepted where there is none; the table stays.
fn why(t: &Table, request: u32, bytes: &[u8]) -> Option<Reason> {
    let before = t.clone();
    let told = t.explain(request, bytes).expect("a good table, and a MAP or a COPY");
    assert_eq!(t, &before);
    let answer = t.clone().call(request, &mut bytes.to_vec(), &mut []);
    assert_eq!(answer.err(), told.map(Reason::errno), "{told:?}");
    told
}

fn why_map(t: &Table, map: Map) -> Option<Reason> {
    let told = why(t, request::MAP, &map.bytes());
    assert_eq!(t.explain_map(map), Ok(told));
    told
}

fn why_copy(t: &Table, copy: Copy) -> Option<Reason> {
    let told = why(t, request::COPY, &copy.bytes());
    assert_eq!(t.explain_copy(copy), Ok(told));
    told
}

/// Space 1 with the devices 3 and 4 of 4 KiB pages, of which the lower id reserves the higher range; space 2 without one. Record 1 is a page at 0x5000 that may not be written,
/// record 2 one at 0x3000 that may; each charges a page of 6.
fn table() -> Table {
    let mut t = Table::new(6).unwrap();
    assert_eq!([t.alloc_space(), t.alloc_space()], [Ok(1), Ok(2)]);
    let reserved = [Range::new(0x9000, 0x9FFF), Range::new(0x8000, 0x8FFF)];
    assert_eq!([t.bind(0x1000, &reserved[..1]), t.bind(0x1000, &reserved[1..])], [Ok(3), Ok(4)]);
    assert_eq!([t.attach(3, 1), t.attach(4, 1)], [Ok(()); 2]);
    assert_eq!(t.map(Map { rights: Rights::READ, place: Place::Fixed(0x5000), ..page() }), Ok(0x5000));
    assert_eq!(t.map(Map { place: Place::Fixed(0x3000), ..page() }), Ok(0x3000));
    t
}

fn page() -> Map {
    Map { space: 1, rights: Rights::READ_WRITE, memory: 0x10_0000, length: 0x1000, place: Place::Automatic }
}

fn copied() -> Copy {
    Copy { target: 2, rights: Rights::READ, place: Place::Automatic, source: 1, source_address: 0x5000, length: 0x1000 }
}

#[test]
fn the_opening() {
    let t = table();
    for (request, right) in [(request::MAP, page().bytes().to_vec()), (request::COPY, copied().bytes().to_vec())] {
        assert_eq!(why(&t, request, &right), None);
        assert_eq!([why(&t, request, &[]), why(&t, request, &right[..3])], [Some(Reason::NoSizeField); 2]);
        assert_eq!(why(&t, request, &right[..39]), Some(Reason::SizePastBytes));
        let sized = |size: u8, tail: u8| why(&t, request, &[&[size], &right[1..], &[0, tail]].concat());
        assert_eq!([sized(39, 0), sized(43, 0), sized(42, 1)], [Some(Reason::SizeTooSmall), Some(Reason::SizePastBytes), Some(Reason::TailNotZero)]);
        // what lies beyond the size field is not looked at
        assert_eq!([sized(41, 1), sized(42, 0)], [None; 2]);
    }
}

/// A field of 32 bits, changed: the types do not let through what is wrong with these.
fn spoiled(mut bytes: [u8; 40], at: usize, number: u32) -> [u8; 40] {
    bytes[at..at + 4].copy_from_slice(&number.to_le_bytes());
    bytes
}

#[test]
fn the_numbers_of_a_map() {
    let t = table();
    assert_eq!([(4, 8), (12, 1)].map(|(at, number)| why(&t, request::MAP, &spoiled(page().bytes(), at, number))), [Some(Reason::Flags); 2]);
    assert_eq!(why(&t, request::MAP, &spoiled(page().bytes(), 4, 0)), Some(Reason::NoRight));
    assert_eq!([0, (1 << 40) + 1].map(|length| why_map(&t, Map { length, ..page() })), [Some(Reason::WrongLength); 2]);
    assert_eq!(why_map(&t, Map { memory: u64::MAX - 0xFFE, ..page() }), Some(Reason::MemoryPasses));
    assert_eq!(why_map(&t, Map { place: Place::Fixed(u64::MAX - 0xFFE), ..page() }), Some(Reason::AddressPasses));
    assert_eq!([0, 3, 5].map(|space| why_map(&t, Map { space, ..page() })), [Some(Reason::NoSpace); 3]);
}

#[test]
fn the_numbers_of_a_copy() {
    let t = table();
    assert_eq!(why(&t, request::COPY, &spoiled(copied().bytes(), 4, 8)), Some(Reason::Flags));
    assert_eq!(why(&t, request::COPY, &spoiled(copied().bytes(), 4, 1)), Some(Reason::NoRight));
    assert_eq!(why_copy(&t, Copy { length: 0, ..copied() }), Some(Reason::WrongLength));
    assert_eq!(why_copy(&t, Copy { source_address: u64::MAX, ..copied() }), Some(Reason::SourcePasses));
    assert_eq!(why_copy(&t, Copy { place: Place::Fixed(u64::MAX), ..copied() }), Some(Reason::AddressPasses));
    assert_eq!(why_copy(&t, Copy { target: 9, source: 9, ..copied() }), Some(Reason::NoSpace));
    assert_eq!(why_copy(&t, Copy { source: 9, ..copied() }), Some(Reason::NoSourceSpace));
    assert_eq!(why_copy(&t, Copy { source_address: 0x4000, ..copied() }), Some(Reason::NoSource));
    assert_eq!(why_copy(&t, Copy { length: 0x800, ..copied() }), Some(Reason::NoSource));
    assert_eq!(why_copy(&t, Copy { rights: Rights::WRITE, ..copied() }), Some(Reason::NotWriteable));
    assert_eq!(why_copy(&t, Copy { rights: Rights::WRITE, source_address: 0x3000, ..copied() }), None);
    assert_eq!(why_copy(&t, Copy { target: 1, place: Place::Fixed(0x5000), ..copied() }), Some(Reason::TouchesMapping(1)));
}

/// The lowest id and the lowest record, not the lowest address.
#[test]
fn what_a_fixed_range_touches() {
    let t = table();
    let at = |address, length| why_map(&t, Map { length, place: Place::Fixed(address), ..page() });
    assert_eq!([at(0x100, 0x1000), at(0, 0x1100)], [Some(Reason::Misaligned); 2]);
    assert_eq!(at(0x8000, 0x2000), Some(Reason::TouchesReserved(3)));
    assert_eq!(at(0x8000, 0x1000), Some(Reason::TouchesReserved(4)));
    assert_eq!(at(0x3000, 0x6000), Some(Reason::TouchesReserved(4)));
    assert_eq!(at(0x3000, 0x3000), Some(Reason::TouchesMapping(1)));
    assert_eq!(at(0x2000, 0x3000), Some(Reason::TouchesMapping(2)));
    assert_eq!(at(0x4000, 0x1000), None);
}

#[test]
fn no_place() {
    let mut t = table();
    assert_eq!(why_map(&t, Map { length: 0x1001, ..page() }), Some(Reason::LengthMisaligned));
    let longest = |t: &Table, length| why_map(t, Map { length, ..page() });
    let run = |start, length| Some(Reason::NoPlace(Some(Run { start, length })));
    // past the mapping at 0x5000, and no further than the list
    t.allow(1, &[Range::new(0x5000, 0x7FFF)]).unwrap();
    assert_eq!([longest(&t, 0x2000), longest(&t, 0x3000)], [None, run(0x6000, 0x2000)]);
    // a run need not end on a multiple, and starts at one; the lowest of equals, in whatever order the list has them
    t.allow(1, &[Range::new(0x2_0000, 0x2_0FFF), Range::new(0x1_0800, 0x1_27FE)]).unwrap();
    assert_eq!(longest(&t, 0x2000), run(0x1_1000, 0x17FF));
    t.allow(1, &[Range::new(0x2_0000, 0x2_0FFF), Range::new(0x1_0000, 0x1_0FFF)]).unwrap();
    assert_eq!(longest(&t, 0x2000), run(0x1_0000, 0x1000));
    // addresses are free, and no multiple is
    t.allow(1, &[Range::new(0x1_0001, 0x1_0FFF)]).unwrap();
    assert_eq!(longest(&t, 0x1000), Some(Reason::NoPlace(None)));
    assert_eq!(why_copy(&t, Copy { target: 1, ..copied() }), Some(Reason::NoPlace(None)));
}

#[test]
fn no_room() {
    let mut t = table();
    assert_eq!([0x4000, 0x5000].map(|length| why_map(&t, Map { length, ..page() })), [None, Some(Reason::OverLimit)]);
    for address in 0x100..0x100 + 126 {
        t.copy(Copy { place: Place::Fixed(address << 12), ..copied() }).unwrap();
    }
    assert_eq!(why_map(&t, Map { length: 0x5000, ..page() }), Some(Reason::NoRecord));
    assert_eq!(why_copy(&t, copied()), Some(Reason::NoRecord));
}

/// Other requests are the tool's own refusal, whatever their bytes.
#[test]
fn other_requests() {
    let t = table();
    assert_eq!(t.explain(request::UNMAP, &Unmap::all(1).bytes()), Err(Errno::NoTty));
    for request in (request::DESTROY - 1..=request::UNMAP + 1).filter(|request| ![request::MAP, request::COPY].contains(request)) {
        assert_eq!(t.explain(request, &[]), Err(Errno::NoTty));
    }
}

#[test]
fn in_words() {
    let run = Run { start: 0x6000, length: 0x2000 };
    let words = [
        (Reason::NoSpace, "there is no such space"),
        (Reason::TouchesReserved(3), "the range touches what a device reserves: object 3"),
        (Reason::TouchesMapping(128), "the range touches a mapping: record 128"),
        (Reason::NoPlace(Some(run)), "no free place is long enough: the longest free run is 0x2000 bytes at 0x6000"),
        (Reason::NoPlace(None), "no free place is long enough: no multiple of the alignment is free"),
        (Reason::Other(77), "no reason of this interface: 77"),
    ];
    for (reason, text) in words {
        assert_eq!(reason.to_string(), text);
    }
}

/// Numbers at random in a small space: whatever comes, `why` holds tool and call together. Accepted calls are done, so that the table fills.
#[test]
fn at_random() {
    let mut t = table();
    let mut state = 1u64;
    let mut dice = |below: u64| {
        state = state.wrapping_mul(6364136223846793005).wrapping_add(1442695040888963407);
        (state >> 33) % below
    };
    let (mut accepted, mut refused) = (0, 0);
    for step in 0..4000 {
        if step % 50 == 0 {
            t = table();
            let start = dice(12) << 12;
            t.allow(2, &[Range::new(start, start + dice(0x6000))]).unwrap();
        }
        let mut rights = || [Rights::READ, Rights::WRITE, Rights::READ_WRITE][dice(3) as usize];
        let (rights, length) = (rights(), 0x800 * dice(6));
        let place = if dice(2) == 0 { Place::Automatic } else { Place::Fixed(0x800 * dice(24)) };
        let (space, memory) = (1 + dice(3) as u32, 0x1000 * dice(4));
        let told = if dice(3) == 0 {
            let copy = Copy { target: space, rights, place, source: 1 + dice(2) as u32, source_address: 0x1000 * dice(12), length: 0x1000 };
            let told = why_copy(&t, copy);
            assert_eq!(t.copy(copy).err(), told.map(Reason::errno));
            told
        } else {
            let map = Map { space, rights, memory, length, place };
            let told = why_map(&t, map);
            assert_eq!(t.map(map).err(), told.map(Reason::errno));
            told
        };
        *if told.is_none() { &mut accepted } else { &mut refused } += 1;
        if let Some(Reason::NoPlace(Some(run))) = told {
            assert!(run.length < length.max(0x1000));
        }
    }
    assert!(accepted > 200 && refused > 1000, "{accepted} accepted, {refused} refused");
}
