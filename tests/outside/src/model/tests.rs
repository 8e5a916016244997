//! The model against the numbers that document 01 gives itself, the places where its words are easily misread, small tables searched address by address, and every
//! index of a small table.
use super::{bad, bad_rules, checks, judge, Check};
use crate::calls::{Call, Lent};
use iommufd::raw::{Mapping, Number, Object, Reserved};
use std::collections::BTreeSet;

const DESTROY: u32 = 0x3B80;
const IOAS_ALLOC: u32 = 0x3B81;
const ALLOW_IOVAS: u32 = 0x3B82;
const COPY: u32 = 0x3B83;
const IOVA_RANGES: u32 = 0x3B84;
const MAP: u32 = 0x3B85;
const UNMAP: u32 = 0x3B86;

const FIXED: u32 = 1;
const WRITEABLE: u32 = 2;
const READABLE: u32 = 4;

// ---- calls in few words

/// A table, the checks met so far, and the reply of the last command.
struct Bench {
    lent: Lent,
    met: BTreeSet<Check>,
    bytes: Vec<u8>,
    area: Vec<u8>,
}

fn words(numbers: &[u32]) -> Vec<u8> {
    numbers.iter().flat_map(|number| number.to_le_bytes()).collect()
}

fn longs(numbers: &[u64]) -> Vec<u8> {
    numbers.iter().flat_map(|number| number.to_le_bytes()).collect()
}

fn map_bytes(flags: u32, space: u32, memory: u64, length: u64, address: u64) -> Vec<u8> {
    [words(&[40, flags, space, 0]), longs(&[memory, length, address])].concat()
}

fn copy_bytes(flags: u32, target: u32, source: u32, length: u64, to: u64, from: u64) -> Vec<u8> {
    [words(&[40, flags, target, source]), longs(&[length, to, from])].concat()
}

fn list(ranges: &[(u64, u64)]) -> Reserved {
    let mut list = Reserved { count: ranges.len() as u32, ..Reserved::default() };
    for (i, (start, last)) in ranges.iter().enumerate() {
        (list.starts[i], list.lasts[i]) = (*start, *last);
    }
    list
}

/// The index, by looking for the next mapping of each space again and again.
fn index_by_hand(lent: &Lent) -> Vec<u64> {
    let mut index = vec![];
    for space in 1..=32 {
        let mut from = 0;
        let next = |from: u128| {
            let behind = (1..).zip(&lent.mappings).filter(|(_, mapping)| mapping.space == space && u128::from(mapping.address) >= from);
            behind.min_by_key(|(_, mapping)| mapping.address)
        };
        while let Some((number, mapping)) = next(from) {
            index.push(number);
            from = u128::from(mapping.address) + 1;
        }
    }
    index.resize(128, 0);
    index
}

const UNTOUCHED: u64 = 0x5A5A_5A5A_5A5A_5A5A;

/// What explain answers, and its words. A refusal leaves them, and it never writes the bytes.
fn explained(lent: &mut Lent, request: u32, bytes: &[u8], met: &mut BTreeSet<Check>) -> (i32, [u64; 5]) {
    let mut call = Call::Explain { request, bytes: bytes.to_vec(), words: [UNTOUCHED; 5] };
    let (number, check) = judge(lent, &mut call);
    met.insert(check);
    assert!(checks().contains(&check), "{check:?}");
    assert_eq!((number.result, number.value), (-check.errno, 0));
    let Call::Explain { bytes: after, words, .. } = call else { unreachable!() };
    assert_eq!(after, bytes);
    assert!(number.result == 0 || words == [UNTOUCHED; 5]);
    (number.result, words)
}

impl Bench {
    /// A fresh table with the spaces 1, 2, ..
    fn new(limit: u64, spaces: u32) -> Bench {
        let mut bench = Bench { lent: Lent::zeroed(), met: BTreeSet::new(), bytes: vec![], area: vec![] };
        assert_eq!(bench.host(Call::Fresh { limit }), 0);
        for id in 1..=spaces {
            assert_eq!((bench.alloc(), bench.u32_at(8)), (0, id));
        }
        bench
    }

    /// Every call of every test goes through here: a refusal writes nothing, a preview answers alike, a command is explained with its errno, good tables stay good,
    /// the index lists what it should, and the check is on the list.
    fn judge(&mut self, mut call: Call) -> (Number, Call) {
        let (before, asked, was_good) = (self.lent.clone(), call.clone(), bad(&self.lent).is_none());
        let (number, check) = judge(&mut self.lent, &mut call);
        self.met.insert(check);
        assert!(checks().contains(&check), "{check:?}");
        assert_eq!(number.result.min(0), -check.errno);
        if number.result < 0 {
            assert_eq!(self.lent, before, "{check:?}");
            assert!(call == asked || check.errno == 90, "{check:?}");
            assert_eq!(number.value, 0);
        }
        assert!(!was_good || bad(&self.lent).is_none(), "{check:?}");
        if was_good || number.result >= 0 {
            assert_eq!(self.lent.index, index_by_hand(&self.lent), "{check:?}");
        }
        if let (Call::Command { request, bytes, area }, Call::Command { bytes: old_bytes, area: old_area, .. }) = (&call, &asked) {
            let (mut lent, mut preview) = (before.clone(), Call::Preview { request: *request, bytes: old_bytes.clone(), area: old_area.clone() });
            assert_eq!(judge(&mut lent, &mut preview), (number, check));
            assert_eq!((&lent, preview), (&before, Call::Preview { request: *request, bytes: bytes.clone(), area: area.clone() }));
            let (told, words) = explained(&mut lent, *request, old_bytes, &mut self.met);
            let own = [(MAP, -117), (COPY, -117)].contains(&(*request, number.result)) || ![MAP, COPY].contains(request);
            let refused = if number.result == -117 { -117 } else { -25 };
            assert_eq!(told, if own { refused } else { 0 });
            assert_eq!(words[1], if own { UNTOUCHED } else { -number.result as u64 });
            assert_eq!(words[0] == 0, !own && number.result == 0);
            assert_eq!(lent, before);
        }
        (number, call)
    }

    fn host(&mut self, call: Call) -> i32 {
        self.judge(call).0.result
    }

    fn command(&mut self, request: u32, bytes: Vec<u8>, area: Vec<u8>) -> i32 {
        let (number, call) = self.judge(Call::Command { request, bytes, area });
        if let Call::Command { bytes, area, .. } = call {
            (self.bytes, self.area) = (bytes, area);
        }
        number.result
    }

    fn map(&mut self, flags: u32, space: u32, memory: u64, length: u64, address: u64) -> i32 {
        self.command(MAP, map_bytes(flags, space, memory, length, address), vec![])
    }

    fn fixed(&mut self, space: u32, address: u64, length: u64) -> i32 {
        self.map(FIXED | READABLE, space, 0, length, address)
    }

    /// The address of an automatic MAP.
    fn automatic(&mut self, space: u32, length: u64) -> Result<u64, i32> {
        match self.map(READABLE, space, 0, length, 77) {
            0 => Ok(self.u64_at(32)),
            refused => Err(refused),
        }
    }

    fn copy(&mut self, flags: u32, target: u32, source: u32, length: u64, to: u64, from: u64) -> i32 {
        self.command(COPY, copy_bytes(flags, target, source, length, to, from), vec![])
    }

    /// The bytes removed.
    fn unmap(&mut self, space: u32, address: u64, length: u64) -> Result<u64, i32> {
        match self.command(UNMAP, [words(&[24, space]), longs(&[address, length])].concat(), vec![]) {
            0 => Ok(self.u64_at(16)),
            refused => Err(refused),
        }
    }

    fn allow(&mut self, space: u32, ranges: &[(u64, u64)]) -> i32 {
        let area = ranges.iter().flat_map(|(start, last)| longs(&[*start, *last])).collect();
        self.command(ALLOW_IOVAS, words(&[24, space, ranges.len() as u32, 0, 9, 9]), area)
    }

    /// Result, full count, alignment and the whole area, which holds 0x55 where nothing was written.
    fn iova_ranges(&mut self, space: u32, room: u32) -> (i32, u32, u64, Vec<u64>) {
        let result = self.command(IOVA_RANGES, words(&[32, space, room, 0, 9, 9, 5, 5]), vec![0x55; 16 * room as usize]);
        let area = self.area.chunks(8).map(|long| u64::from_le_bytes(long.try_into().unwrap())).collect();
        (result, self.u32_at(8), self.u64_at(24), area)
    }

    fn alloc(&mut self) -> i32 {
        self.command(IOAS_ALLOC, words(&[12, 0, 99]), vec![])
    }

    fn destroy(&mut self, id: u32) -> i32 {
        self.command(DESTROY, words(&[8, id]), vec![])
    }

    fn bind(&mut self, bitmap: u64, ranges: &[(u64, u64)]) -> i32 {
        self.host(Call::Bind { bitmap, reserved: list(ranges) })
    }

    fn attach(&mut self, device: u32, space: u32) -> i32 {
        self.host(Call::Attach { device, space })
    }

    /// A device that is bound and attached.
    fn with_device(&mut self, space: u32, bitmap: u64, ranges: &[(u64, u64)]) -> u32 {
        let id = self.bind(bitmap, ranges) as u32;
        assert_eq!(self.attach(id, space), 0);
        id
    }

    fn detach(&mut self, device: u32) -> i32 {
        self.host(Call::Detach { device })
    }

    fn reach(&mut self, device: u32, address: u64, length: u64, write: u32) -> (i32, u64) {
        let number = self.judge(Call::Reach { device, address, length, write }).0;
        (number.result, number.value)
    }

    fn charge(&mut self) -> u64 {
        self.judge(Call::Charge).0.value
    }

    fn next(&mut self, space: u32, address: u64) -> (i32, u64) {
        let number = self.judge(Call::Next { space, address }).0;
        (number.result, number.value)
    }

    /// The words with which a command is explained; the table stays.
    fn why(&mut self, request: u32, bytes: Vec<u8>) -> [u64; 5] {
        let before = self.lent.clone();
        let (result, words) = explained(&mut self.lent, request, &bytes, &mut self.met);
        assert_eq!((result, &self.lent), (0, &before));
        words
    }

    fn why_map(&mut self, flags: u32, space: u32, memory: u64, length: u64, address: u64) -> [u64; 5] {
        self.why(MAP, map_bytes(flags, space, memory, length, address))
    }

    fn why_copy(&mut self, flags: u32, target: u32, source: u32, length: u64, to: u64, from: u64) -> [u64; 5] {
        self.why(COPY, copy_bytes(flags, target, source, length, to, from))
    }

    /// Start and length of the longest run that is told where so many bytes have no place.
    fn longest_run(&mut self, space: u32, length: u64) -> (u64, u64) {
        let words = self.why_map(READABLE, space, 0, length, 77);
        assert_eq!(words[..3], [19, 28, 0]);
        (words[3], words[4])
    }

    /// The first words of the index.
    fn index(&self, words: usize) -> &[u64] {
        &self.lent.index[..words]
    }

    fn u32_at(&self, at: usize) -> u32 {
        u32::from_le_bytes(self.bytes[at..at + 4].try_into().unwrap())
    }

    fn u64_at(&self, at: usize) -> u64 {
        u64::from_le_bytes(self.bytes[at..at + 8].try_into().unwrap())
    }
}

/// K1 to K12 are on this one.
fn fresh_space() -> Bench {
    Bench::new(1 << 36, 1)
}

const PLAN_RESERVED: (u64, u64) = (0xFEE0_0000, 0xFEEF_FFFF);

// ---- the plan and K1 to K12

#[test]
fn the_plan() {
    let mut bench = Bench::new(4, 1);
    assert_eq!(bench.bind(4096, &[PLAN_RESERVED]), 2);
    assert_eq!(bench.attach(2, 1), 0);
    let unmap = [words(&[24, 1]), longs(&[0, 0x3000])].concat();
    let steps = [
        (MAP, map_bytes(READABLE, 1, 0x10000, 0x2000, 0), 0, 2),
        (MAP, map_bytes(READABLE | FIXED, 1, 0, 0x1000, 0x1000), -17, 2),
        (MAP, map_bytes(READABLE | FIXED, 1, 0, 0x1000, 0xFEE0_0000), -22, 2),
        (MAP, map_bytes(READABLE, 1, 0x20800, 0x1000, 0), 0, 4),
        (UNMAP, unmap, 0, 0),
        (0x3B7F, vec![], -25, 0),
    ];
    for (request, bytes, result, charge) in steps {
        assert_eq!((bench.command(request, bytes, vec![]), bench.charge()), (result, charge));
    }
}

#[test]
fn k1_k2_k3() {
    let mut bench = fresh_space();
    assert_eq!(bench.command(MAP, vec![40, 0, 0], vec![]), -14);
    let sized = |size: u32, tail: &[u8]| {
        let mut bytes = map_bytes(READABLE, 1, 0, 1, 0);
        bytes[..4].copy_from_slice(&size.to_le_bytes());
        bytes.extend(tail);
        bytes
    };
    assert_eq!(bench.command(MAP, sized(39, &[]), vec![]), -22);
    assert_eq!(bench.command(MAP, sized(48, &[0; 8]), vec![]), 0);
    assert_eq!(bench.command(MAP, sized(48, &[0, 0, 0, 0, 0, 0, 0, 1]), vec![]), -7);
    // Bytes past the size are ignored, and a size near 2^32 does not wrap.
    assert_eq!(bench.command(MAP, sized(47, &[0, 0, 0, 0, 0, 0, 0, 1]), vec![]), 0);
    assert_eq!(bench.command(MAP, sized(u32::MAX, &[0; 8]), vec![]), -14);
    // The size field is judged before the bytes lent.
    assert_eq!(bench.command(MAP, words(&[39]), vec![]), -22);
    assert_eq!(bench.command(MAP, words(&[40]), vec![]), -14);
}

#[test]
fn k4_k5_k6() {
    let mut bench = fresh_space();
    assert_eq!(bench.map(READABLE, 1, 4095, 2, 77), 0);
    assert_eq!((bench.u64_at(32), bench.charge()), (0, 2));

    let mut bench = fresh_space();
    assert_eq!(bench.fixed(1, u64::MAX, 2), -75);
    assert_eq!(bench.fixed(1, u64::MAX, 1), 0);

    let mut bench = fresh_space();
    assert_eq!(bench.automatic(1, (1 << 40) + 1), Err(-22));
    assert_eq!(bench.automatic(1, 1 << 40), Ok(0));
    assert_eq!(bench.charge(), 1 << 28);
}

#[test]
fn k7() {
    let mut bench = fresh_space();
    assert_eq!(bench.fixed(1, 0, 4096), 0);
    assert_eq!(bench.fixed(1, 4096, 4096), 0);
    assert_eq!(bench.unmap(1, 0, 6000), Err(-2));
    assert_eq!(bench.charge(), 2);
    assert_eq!(bench.unmap(1, 0, 8192), Ok(8192));
    assert_eq!(bench.unmap(1, 0, 8192), Err(-2));
    assert_eq!(bench.unmap(1, 0, u64::MAX), Ok(0));
}

#[test]
fn k8_k9() {
    let mut bench = fresh_space();
    bench.with_device(1, 4096, &[PLAN_RESERVED]);
    assert_eq!(bench.iova_ranges(1, 2), (0, 2, 4096, vec![0, 0xFEDF_FFFF, 0xFEF0_0000, u64::MAX]));
    assert_eq!(bench.iova_ranges(1, 1), (-90, 2, 4096, vec![0, 0xFEDF_FFFF]));
    // The other fields of the reply stay: size, space, reserved and pointer.
    assert_eq!((&bench.bytes[..8], &bench.bytes[12..24]), (&words(&[32, 1])[..], &words(&[0, 9, 9])[..]));
    assert_eq!(bench.iova_ranges(1, 0), (-90, 2, 4096, vec![]));
    // Room that is not used is not written.
    let untouched = 0x5555_5555_5555_5555;
    assert_eq!(bench.iova_ranges(1, 3).3[4..], [untouched, untouched]);
}

#[test]
fn k10() {
    let mut bench = fresh_space();
    assert_eq!(bench.allow(1, &[(0x10_0000, 0x1F_FFFF)]), 0);
    assert_eq!(bench.automatic(1, 0x10_0000), Ok(0x10_0000));
    assert_eq!(bench.automatic(1, 1), Err(-28));
    assert_eq!(bench.unmap(1, 0, u64::MAX), Ok(0x10_0000));
    assert_eq!(bench.automatic(1, 0x10_0001), Err(-28));
    assert_eq!(bench.fixed(1, 0, 1), 0);
    // The allow list plays no part in IOVA_RANGES.
    assert_eq!(bench.iova_ranges(1, 1), (0, 1, 1, vec![0, u64::MAX]));
}

#[test]
fn k11_k12() {
    let mut bench = Bench::new(1 << 36, 2);
    assert_eq!(bench.automatic(1, 4096), Ok(0));
    assert_eq!(bench.copy(READABLE, 2, 1, 4096, 77, 0), 0);
    assert_eq!((bench.u64_at(24), bench.charge()), (0, 1));
    assert_eq!(bench.copy(READABLE | WRITEABLE, 2, 1, 4096, 77, 0), -1);
    assert_eq!((bench.unmap(1, 0, 4096), bench.charge()), (Ok(4096), 1));
    assert_eq!((bench.unmap(2, 0, 4096), bench.charge()), (Ok(4096), 0));
}

// ---- the index

#[test]
fn l9_records_by_space_and_then_by_address() {
    let mut bench = Bench::new(1 << 36, 3);
    let places = [(2, 100, &[1][..]), (3, 0, &[1, 2]), (2, u64::MAX, &[1, 3, 2]), (2, 0, &[4, 1, 3, 2]), (1, 50, &[5, 4, 1, 3, 2])];
    for (space, address, listed) in places {
        assert_eq!(bench.fixed(space, address, 1), 0);
        assert_eq!((bench.index(listed.len()), bench.lent.index[listed.len()]), (listed, 0));
    }
    // A refusal leaves it, a copy joins it, and of what is removed nothing stays.
    assert_eq!(bench.fixed(2, 100, 1), -17);
    assert_eq!(bench.copy(READABLE | FIXED, 1, 2, 1, 51, 100), 0);
    assert_eq!(bench.index(7), [5, 6, 4, 1, 3, 2, 0]);
    assert_eq!(bench.unmap(2, 100, u64::MAX - 100), Ok(1)); // up to the last address, and not with it
    assert_eq!(bench.index(6), [5, 6, 4, 3, 2, 0]);
    assert_eq!(bench.automatic(3, 1), Ok(1)); // in record 1, which is free again
    assert_eq!(bench.index(7), [5, 6, 4, 3, 2, 1, 0]);
    assert_eq!(bench.destroy(2), 0);
    assert_eq!(bench.index(5), [5, 6, 2, 1, 0]);
    assert_eq!(bench.unmap(1, 0, u64::MAX), Ok(2));
    assert_eq!(bench.index(3), [2, 1, 0]);
    assert_eq!(bench.host(Call::Fresh { limit: 1 }), 0);
    assert_eq!(bench.lent.index, [0; 128]);
}

/// A full table has no zero in its index, and a new mapping may go before all others.
#[test]
fn l9_a_full_index() {
    let mut bench = fresh_space();
    for k in 0..128 {
        assert_eq!(bench.fixed(1, 127 - k, 1), 0);
    }
    assert_eq!(bench.lent.index, (1..=128).rev().collect::<Vec<u64>>());
    assert_eq!(bench.fixed(1, 128, 1), -12);
}

/// Of all indexes one agrees, and the named rules leave no other.
#[test]
fn l9_any_other_index_is_bad() {
    let mut bench = Bench::new(1 << 36, 3);
    for (space, address) in [(3, 5), (1, 9), (3, 2)] {
        assert_eq!(bench.fixed(space, address, 1), 0);
    }
    let mut found = 0;
    let pool = [0, 1, 2, 3, 4, 128, 129, 1 << 32 | 1, u64::MAX];
    for k in 0..pool.len().pow(4) {
        let mut lent = bench.lent.clone();
        for at in 0..4 {
            lent.index[at] = pool[k / pool.len().pow(at as u32) % pool.len()];
        }
        let agrees = lent.index == bench.lent.index;
        assert_eq!(bad(&lent).is_none(), agrees, "{:?}", &lent.index[..4]);
        found += u32::from(agrees);
    }
    assert_eq!((found, bench.index(4)), (1, &[2, 3, 1, 0][..]));
    // The words behind are judged too, and their number.
    for at in 4..128 {
        let mut lent = bench.lent.clone();
        lent.index[at] = 4;
        assert!(bad(&lent).is_some());
    }
    for words in [0, 1, 3, 127, 129, 256] {
        let mut lent = bench.lent.clone();
        lent.index.resize(words, 0);
        assert!(bad(&lent).is_some());
        let before = lent.clone();
        assert_eq!((judge(&mut lent, &mut Call::Fresh { limit: u64::MAX }).0.result, &lent), (-117, &before));
    }
}

/// It takes any words of an index but not any number of them.
#[test]
fn l9_fresh_over_any_index() {
    let mut lent = Lent::zeroed();
    lent.index.fill(u64::MAX);
    let before = lent.clone();
    assert_eq!((judge(&mut lent, &mut Call::Fresh { limit: u64::MAX }).0.result, &lent), (-22, &before));
    assert_eq!(judge(&mut lent, &mut Call::Fresh { limit: 0 }).0.result, 0);
    assert_eq!(lent, Lent::zeroed());
}

// ---- the tool that explains

#[test]
fn l1_the_reasons_of_map() {
    let max = u64::MAX;
    let mut bench = Bench::new(4, 1);
    assert_eq!((bench.bind(4096, &[PLAN_RESERVED]), bench.attach(2, 1)), (2, 0));
    let sized = |size: u32, tail: &[u8]| [&size.to_le_bytes()[..], &map_bytes(READABLE, 1, 0, 4096, 0)[4..], tail].concat();
    assert_eq!(bench.why(MAP, vec![]), [1, 14, 0, 0, 0]);
    assert_eq!(bench.why(MAP, vec![40, 0, 0]), [1, 14, 0, 0, 0]);
    assert_eq!(bench.why(MAP, sized(39, &[])), [2, 22, 0, 0, 0]);
    assert_eq!(bench.why(MAP, vec![39, 0, 0, 0]), [2, 22, 0, 0, 0]);
    assert_eq!(bench.why(MAP, sized(41, &[])), [3, 14, 0, 0, 0]);
    assert_eq!(bench.why(MAP, sized(41, &[1])), [4, 7, 0, 0, 0]);
    assert_eq!(bench.why(MAP, sized(40, &[1])), [0, 0, 0, 0, 0]);
    assert_eq!(bench.why_map(8, 0, max, 0, max), [5, 95, 0, 0, 0]);
    // M1: one check
    let mut field = map_bytes(READABLE, 1, 0, 4096, 0);
    field[12] = 1;
    assert_eq!(bench.why(MAP, field), [5, 95, 0, 0, 0]);
    assert_eq!(bench.why_map(FIXED, 0, max, 0, max), [6, 22, 0, 0, 0]);
    assert_eq!(bench.why_map(READABLE | FIXED, 0, max, 0, max), [7, 22, 0, 0, 0]);
    assert_eq!(bench.why_map(READABLE | FIXED, 0, max, (1 << 40) + 1, max), [7, 22, 0, 0, 0]);
    assert_eq!(bench.why_map(READABLE | FIXED, 0, max, 2, max), [8, 75, 0, 0, 0]);
    assert_eq!(bench.why_map(READABLE | FIXED, 0, 0, 2, max), [10, 75, 0, 0, 0]);
    assert_eq!(bench.why_map(READABLE, 2, 0, 2, max), [11, 2, 0, 0, 0]); // a device is no space
    assert_eq!(bench.why_map(READABLE | FIXED, 1, 0, 4096, 1), [15, 22, 0, 0, 0]);
    assert_eq!(bench.why_map(READABLE | FIXED, 1, 0, 4095, 0), [15, 22, 0, 0, 0]);
    assert_eq!(bench.why_map(READABLE | FIXED, 1, 0, 4096, 0xFEE0_0000), [16, 22, 2, 0, 0]);
    assert_eq!(bench.automatic(1, 0x2000), Ok(0));
    assert_eq!(bench.why_map(READABLE | FIXED, 1, 0, 4096, 4096), [17, 17, 1, 0, 0]);
    assert_eq!(bench.why_map(READABLE, 1, 0, 4095, 0), [18, 22, 0, 0, 0]);
    assert_eq!(bench.allow(1, &[(0, 0x4FFF)]), 0);
    assert_eq!(bench.why_map(READABLE, 1, 0, 0x4000, 0), [19, 28, 0, 0x2000, 0x3000]);
    assert_eq!(bench.why_map(READABLE, 1, 0, 0x3000, 0), [21, 12, 0, 0, 0]);
    assert_eq!(bench.why_map(READABLE, 1, 0, 0x2000, 0), [0, 0, 0, 0, 0]);
}

#[test]
fn l1_the_reasons_of_copy() {
    let max = u64::MAX;
    let mut bench = Bench::new(1 << 36, 2);
    bench.with_device(2, 16, &[(4096, 8191)]);
    assert_eq!(bench.fixed(1, 0, 16), 0);
    assert_eq!(bench.why(COPY, vec![0; 3]), [1, 14, 0, 0, 0]);
    assert_eq!(bench.why_copy(8, 0, 0, 0, max, max), [5, 95, 0, 0, 0]);
    assert_eq!(bench.why_copy(FIXED, 0, 0, 0, max, max), [6, 22, 0, 0, 0]);
    assert_eq!(bench.why_copy(READABLE | FIXED, 0, 0, 0, max, max), [7, 22, 0, 0, 0]);
    assert_eq!(bench.why_copy(READABLE | FIXED, 0, 0, 2, max, max), [9, 75, 0, 0, 0]);
    assert_eq!(bench.why_copy(READABLE | FIXED, 0, 0, 2, max, 0), [10, 75, 0, 0, 0]);
    assert_eq!(bench.why_copy(READABLE, 0, 0, 2, max, 0), [11, 2, 0, 0, 0]);
    assert_eq!(bench.why_copy(READABLE, 2, 0, 2, max, 0), [12, 2, 0, 0, 0]);
    assert_eq!(bench.why_copy(READABLE, 2, 1, 2, max, 0), [13, 2, 0, 0, 0]);
    assert_eq!(bench.why_copy(WRITEABLE, 2, 1, 16, max, 0), [14, 1, 0, 0, 0]);
    assert_eq!(bench.why_copy(READABLE | FIXED, 2, 1, 16, 8, 0), [15, 22, 0, 0, 0]);
    assert_eq!(bench.why_copy(READABLE | FIXED, 2, 1, 16, 4096, 0), [16, 22, 3, 0, 0]);
    assert_eq!(bench.copy(READABLE | FIXED, 2, 1, 16, 32, 0), 0);
    assert_eq!(bench.why_copy(READABLE | FIXED, 2, 1, 16, 32, 0), [17, 17, 2, 0, 0]);
    // the record of the source space is another's: only the target is asked
    assert_eq!(bench.why_copy(READABLE | FIXED, 2, 1, 16, 0, 0), [0, 0, 0, 0, 0]);
    assert_eq!(bench.fixed(1, 100, 8), 0);
    assert_eq!(bench.why_copy(READABLE, 2, 1, 8, 0, 100), [18, 22, 0, 0, 0]);
    assert_eq!(bench.allow(2, &[(9, 31), (40, 60)]), 0);
    assert_eq!(bench.fixed(1, 200, 32), 0);
    assert_eq!(bench.why_copy(READABLE, 2, 1, 32, 0, 200), [19, 28, 0, 16, 16]);
    for k in 0..124 {
        assert_eq!(bench.fixed(1, 1000 + k, 1), 0);
    }
    assert_eq!(bench.why_copy(READABLE, 2, 1, 16, 0, 0), [20, 12, 0, 0, 0]);
    assert_eq!(bench.why_map(READABLE, 1, 0, 16, 0), [20, 12, 0, 0, 0]);
}

/// L1a: the lowest number, not the lowest address, and of this space alone.
#[test]
fn l1a_the_lowest_number_is_named() {
    let mut bench = Bench::new(1 << 36, 2);
    assert_eq!(bench.fixed(2, 0, 100), 0); // record 1, of another space
    for address in [50, 30, 40, 10] {
        assert_eq!(bench.fixed(1, address, 5), 0);
    }
    assert_eq!(bench.why_map(FIXED | READABLE, 1, 0, 60, 0), [17, 17, 2, 0, 0]);
    assert_eq!(bench.why_map(FIXED | READABLE, 1, 0, 30, 14), [17, 17, 3, 0, 0]);
    assert_eq!(bench.why_map(FIXED | READABLE, 1, 0, 27, 14), [17, 17, 3, 0, 0]);
    assert_eq!(bench.why_map(FIXED | READABLE, 1, 0, 4, 11), [17, 17, 5, 0, 0]);
    assert_eq!(bench.unmap(1, 50, 5), Ok(5));
    assert_eq!(bench.fixed(1, 20, 5), 0); // record 2 again
    assert_eq!(bench.why_map(FIXED | READABLE, 1, 0, 60, 0), [17, 17, 2, 0, 0]);

    let mut bench = Bench::new(1 << 36, 2);
    for (space, ranges) in [(2, &[(0, 99)][..]), (1, &[(60, 69), (40, 49)]), (1, &[(20, 29), (65, 66)]), (1, &[])] {
        bench.with_device(space, 1, ranges);
    }
    assert_eq!(bench.why_map(FIXED | READABLE, 1, 0, 100, 0), [16, 22, 4, 0, 0]);
    assert_eq!(bench.why_map(FIXED | READABLE, 1, 0, 40, 0), [16, 22, 5, 0, 0]);
    assert_eq!(bench.why_map(FIXED | READABLE, 1, 0, 41, 0), [16, 22, 4, 0, 0]);
    // a loose device reserves nothing, and reserved comes before mapped
    assert_eq!(bench.detach(4), 0);
    assert_eq!(bench.fixed(1, 0, 1), 0);
    assert_eq!(bench.why_map(FIXED | READABLE, 1, 0, 100, 0), [16, 22, 5, 0, 0]);
}

/// L1b, L1c, L1d.
#[test]
fn l1b_l1c_l1d_the_longest_run() {
    let mut bench = fresh_space();
    bench.with_device(1, 16, &[(100, u64::MAX)]);
    // its start is a multiple, its end need not be one
    assert_eq!(bench.longest_run(1, 112), (0, 100));
    assert_eq!(bench.fixed(1, 32, 16), 0);
    assert_eq!(bench.longest_run(1, 64), (48, 52));
    // the lowest of equals; a gap that is longer may have a shorter run
    assert_eq!(bench.allow(1, &[(64, 95), (0, 31)]), 0);
    assert_eq!(bench.longest_run(1, 48), (0, 32));
    assert_eq!(bench.allow(1, &[(1, 31), (64, 80)]), 0);
    assert_eq!(bench.longest_run(1, 48), (64, 17));
    // neighbours in the list are not joined
    assert_eq!(bench.allow(1, &[(64, 79), (80, 95)]), 0);
    assert_eq!(bench.longest_run(1, 32), (64, 16));
    // free addresses that hold no multiple do not count, and what is mapped does not either
    assert_eq!(bench.allow(1, &[(65, 79), (81, 99), (32, 47)]), 0);
    assert_eq!(bench.longest_run(1, 16), (96, 4));
    assert_eq!(bench.allow(1, &[(65, 79), (81, 95), (32, 47)]), 0);
    assert_eq!(bench.longest_run(1, 16), (0, 0));

    // up to the last address
    let mut bench = fresh_space();
    bench.with_device(1, 4096, &[(0, u64::MAX - 8192)]);
    assert_eq!(bench.longest_run(1, 12288), (u64::MAX - 8191, 8192));
    let mut bench = fresh_space();
    bench.with_device(1, 1, &[(1, u64::MAX)]);
    assert_eq!(bench.longest_run(1, 2), (0, 1));
    assert_eq!(bench.fixed(1, 0, 1), 0);
    assert_eq!(bench.longest_run(1, 1), (0, 0));
}

/// L1e: 117 first, and then 25 for every other request, UNMAP too.
#[test]
fn l1e_what_the_tool_refuses() {
    let mut met = BTreeSet::new();
    let mut lent = fresh_space().lent;
    for request in [UNMAP, IOVA_RANGES, ALLOW_IOVAS, IOAS_ALLOC, DESTROY, 0, 0x3B87, MAP + (1 << 16), u32::MAX] {
        assert_eq!(explained(&mut lent, request, &[], &mut met).0, -25);
    }
    lent.index[5] = 1;
    for request in [MAP, COPY, UNMAP, 0] {
        assert_eq!(explained(&mut lent, request, &[], &mut met).0, -117);
    }
}

// ---- what is easily misread

#[test]
fn m5_a_sum_of_2_to_the_64_is_a_multiple() {
    let mut bench = fresh_space();
    bench.with_device(1, 4096, &[]);
    assert_eq!(bench.fixed(1, u64::MAX - 4095, 4096), 0);
    assert_eq!(bench.fixed(1, u64::MAX - 8191, 4095), -22);
    assert_eq!(bench.fixed(1, u64::MAX - 8190, 4095), -22);
}

#[test]
fn m13_neighbouring_allowed_ranges_are_not_joined() {
    let mut bench = fresh_space();
    assert_eq!(bench.allow(1, &[(0, 9), (10, 19)]), 0);
    assert_eq!(bench.automatic(1, 11), Err(-28));
    assert_eq!(bench.fixed(1, 5, 11), 0);
}

#[test]
fn m14_lowest_over_the_whole_list() {
    let mut bench = fresh_space();
    assert_eq!(bench.allow(1, &[(100, 199), (20, 29)]), 0);
    assert_eq!(bench.automatic(1, 10), Ok(20));
    assert_eq!(bench.automatic(1, 10), Ok(100));
    // The list is stored as it was given.
    assert_eq!(bench.lent.head.objects[0].allow_starts[..2], [100, 20]);
}

#[test]
fn m15_m17_candidates_are_multiples_up_to_the_last_page() {
    let mut bench = fresh_space();
    bench.with_device(1, 4096, &[(0, u64::MAX - 4097)]);
    assert_eq!(bench.automatic(1, 4096), Ok(u64::MAX - 4095));
    assert_eq!(bench.automatic(1, 4096), Err(-28));
    assert_eq!(bench.automatic(1, 4095), Err(-22));
    let mut bench = fresh_space();
    bench.with_device(1, 4096, &[]);
    assert_eq!(bench.allow(1, &[(1, 8191), (u64::MAX - 4095, u64::MAX)]), 0);
    assert_eq!(bench.automatic(1, 4096), Ok(4096));
    assert_eq!(bench.automatic(1, 4096), Ok(u64::MAX - 4095));
}

#[test]
fn m8_m9_m20_charge_and_backings() {
    let mut bench = Bench::new(3, 2);
    for address in 0..3 {
        assert_eq!(bench.fixed(1, address, 1), 0);
    }
    assert_eq!(bench.fixed(1, 3, 1), -12);
    assert_eq!(bench.copy(READABLE, 2, 1, 1, 0, 1), 0); // joins backing 2, without the charge check
    assert_eq!(bench.unmap(1, 0, 2), Ok(2));
    assert_eq!(bench.fixed(1, 0, 1), 0); // record 0 and number 1 are free again, number 2 is the copy's
    assert_eq!(bench.lent.mappings[0].backing, 1);
    assert_eq!(bench.fixed(1, 1, 1), -12);
    assert_eq!(bench.unmap(2, 0, 1), Ok(1));
    assert_eq!(bench.fixed(1, 1, 1), 0);
    assert_eq!((bench.lent.mappings[1].backing, bench.lent.mappings[3]), (2, Mapping::default()));
}

#[test]
fn c3_c4_c5_the_founder_counts() {
    let mut bench = fresh_space();
    assert_eq!(bench.map(WRITEABLE, 1, 0, 10, 0), 0);
    assert_eq!(bench.copy(READABLE | FIXED, 1, 1, 10, 20, 0), 0); // reading is not asked of the founder
    assert_eq!(bench.copy(WRITEABLE | FIXED, 1, 1, 10, 30, 20), 0); // of a copy, that may not write itself
    assert_eq!(bench.copy(READABLE | FIXED, 1, 1, 5, 50, 0), -2);
    assert_eq!(bench.copy(READABLE | FIXED, 1, 1, 20, 50, 20), -2);
}

#[test]
fn u1_exactly_that_pair_removes_all() {
    let mut bench = Bench::new(1 << 36, 2);
    for space in [1, 2] {
        assert_eq!(bench.fixed(space, 0, 2), 0);
        assert_eq!(bench.fixed(space, u64::MAX, 1), 0);
    }
    assert_eq!(bench.unmap(1, 1, u64::MAX), Err(-2)); // 1 to U64MAX is an ordinary range, and cuts the first mapping
    assert_eq!(bench.unmap(1, 0, u64::MAX - 1), Ok(2)); // 0 to U64MAX - 2 does not hold the last address
    assert_eq!(bench.unmap(1, 0, u64::MAX), Ok(1));
    assert_eq!(bench.unmap(1, 0, u64::MAX), Ok(0));
    assert_eq!(bench.unmap(2, 2, u64::MAX), Err(-75));
    assert_eq!(bench.charge(), 2); // space 2 has its own
    assert_eq!(bench.unmap(2, 1, u64::MAX - 1), Err(-2));
    assert_eq!(bench.unmap(2, 2, u64::MAX - 1), Ok(1));
}

#[test]
fn u4_u5_one_cut_mapping_keeps_all() {
    let mut bench = fresh_space();
    for address in [0, 100, 200] {
        assert_eq!(bench.fixed(1, address, 10), 0);
    }
    for (address, length) in [(0, 205), (5, 205), (105, 1), (109, 200)] {
        assert_eq!(bench.unmap(1, address, length), Err(-2));
    }
    assert_eq!(bench.charge(), 3);
    assert_eq!(bench.unmap(1, 0, 110), Ok(20));
    assert_eq!(bench.charge(), 1);
}

#[test]
fn r5_r6_gaps_and_ends() {
    let max = u64::MAX;
    let mut bench = fresh_space();
    let first = bench.with_device(1, 0x3000, &[(30, 39), (0, 9), (20, 29), (25, 45)]);
    let second = bench.with_device(1, 1, &[(46, 50), (max, max)]);
    bench.bind(1, &[(12, 13)]); // loose: no part
    assert_eq!(bench.iova_ranges(1, 2), (0, 2, 4096, vec![10, 19, 51, max - 1]));
    assert_eq!(bench.detach(first), 0);
    assert_eq!(bench.iova_ranges(1, 2), (0, 2, 1, vec![0, 45, 51, max - 1]));
    assert_eq!(bench.detach(second), 0);
    bench.with_device(1, 1, &[(5, max), (0, 4)]);
    assert_eq!(bench.iova_ranges(1, 0), (0, 0, 1, vec![]));
}

#[test]
fn h6_the_new_alignment_is_the_higher() {
    let mut bench = fresh_space();
    assert_eq!(bench.fixed(1, 0, 1024), 0);
    bench.with_device(1, 1024, &[]);
    let small = bench.bind(512 + 4096, &[]) as u32;
    let large = bench.bind(4096, &[]) as u32;
    assert_eq!(bench.attach(large, 1), -98);
    assert_eq!(bench.attach(small, 1), 0);
    assert_eq!(bench.iova_ranges(1, 1).2, 1024);
    assert_eq!(bench.fixed(1, 1024, 512), -22);
}

#[test]
fn h1_places_past_the_count_are_zero() {
    let mut bench = fresh_space();
    let reserved = Reserved { count: 1, spare: 5, starts: [1, 9, 9, 9], lasts: [2, 3, 3, 3] };
    assert_eq!(bench.host(Call::Bind { bitmap: 1, reserved }), 2);
    assert_eq!((bench.lent.head.objects[1].reserved_starts, bench.lent.head.objects[1].reserved_lasts), ([1, 0, 0, 0], [2, 0, 0, 0]));
}

#[test]
fn h8_h10_reach() {
    let max = u64::MAX;
    let mut bench = fresh_space();
    let device = bench.with_device(1, 1, &[]);
    assert_eq!(bench.map(FIXED | READABLE, 1, max - 9, 10, max - 9), 0);
    assert_eq!(bench.map(FIXED | WRITEABLE, 1, 0, 10, max - 19), 0);
    assert_eq!(bench.reach(device, max, 1, 0), (0, max));
    assert_eq!(bench.reach(device, max, 1, 7), (-1, 0));
    assert_eq!(bench.reach(device, max - 15, 2, 1), (0, 4));
    assert_eq!(bench.reach(device, max - 10, 2, 0), (-14, 0)); // two neighbours do not add up
    assert_eq!(bench.reach(device, max, 2, 0), (-75, 0));
}

#[test]
fn a6_mappings_stay_and_b6_the_table_is_good() {
    let mut bench = fresh_space();
    assert_eq!(bench.fixed(1, 0, 10), 0);
    assert_eq!(bench.allow(1, &[(5, 20)]), 0);
    assert_eq!(bench.automatic(1, 1), Ok(10));
    assert_eq!(bench.allow(1, &[]), 0);
    assert_eq!(bench.lent.head.objects[0], Object { kind: 1, ..Object::default() });
}

#[test]
fn d3_a_backing_of_another_space_stays() {
    let mut bench = Bench::new(1 << 36, 2);
    assert_eq!(bench.automatic(1, 4096), Ok(0));
    assert_eq!(bench.copy(READABLE, 2, 1, 4096, 0, 0), 0);
    assert_eq!(bench.destroy(1), 0);
    assert_eq!(bench.charge(), 1);
    assert_eq!((bench.alloc(), bench.u32_at(8)), (0, 1));
    assert_eq!(bench.unmap(1, 0, u64::MAX), Ok(0));
}

/// Of the mappings of the space that end at or after the address, the one with the lowest address, by the number of its record.
#[test]
fn next_mapping() {
    let max = u64::MAX;
    let mut bench = Bench::new(1 << 36, 2);
    let device = bench.bind(1, &[]) as u32;
    assert_eq!(bench.next(1, 0), (0, 0));
    // records 1 to 4 in another order than their addresses, and one of the other space between
    for (space, address, length) in [(1, max - 1, 2), (1, 20, 10), (2, 5, 40), (1, 8, 4)] {
        assert_eq!(bench.fixed(space, address, length), 0);
    }
    let told = [(0, 4), (7, 4), (8, 4), (11, 4), (12, 2), (19, 2), (20, 2), (29, 2), (30, 1), (max - 1, 1), (max, 1)];
    for (address, number) in told {
        assert_eq!(bench.next(1, address), (0, number));
    }
    assert_eq!([0, 44, 45, max].map(|address| bench.next(2, address)), [(0, 3), (0, 3), (0, 0), (0, 0)]);
    assert_eq!([0, device, 4, 33, u32::MAX].map(|space| bench.next(space, 0)), [(-2, 0); 5]);
    assert_eq!(bench.unmap(1, max - 1, 2), Ok(2));
    assert_eq!(bench.next(1, 30), (0, 0));
}

/// The walk that the header shows sees what an UNMAP of the range takes.
#[test]
fn next_walks_over_a_range() {
    let max = u64::MAX;
    let mut bench = Bench::new(1 << 36, 1);
    for (address, length) in [(max, 1), (0, 1), (40, 8), (1, 3), (30, 10), (48, 2)] {
        assert_eq!(bench.fixed(1, address, length), 0);
    }
    let ranges = [(0, max, vec![2, 4, 5, 3, 6, 1]), (1, 3, vec![4]), (4, 29, vec![]), (30, 47, vec![5, 3]), (48, max, vec![6, 1]), (50, max - 1, vec![])];
    for (first, last, expected) in ranges {
        let (mut seen, mut bytes, mut from) = (vec![], 0u128, Some(first));
        while let Some(address) = from {
            let (result, number) = bench.next(1, address);
            assert_eq!(result, 0);
            let Some(record) = (number as usize).checked_sub(1).map(|at| bench.lent.mappings[at]).filter(|record| record.address <= last) else { break };
            seen.push(number);
            bytes += u128::from(record.length);
            from = (record.address + (record.length - 1)).checked_add(1);
        }
        assert_eq!(seen, expected);
        let whole = if last - first == max { max } else { last - first + 1 };
        let before = bench.lent.clone();
        let removed = bench.unmap(1, first, whole);
        assert_eq!(removed, if seen.is_empty() { Err(-2) } else { Ok(bytes as u64) });
        assert_eq!(bench.lent.mappings.iter().filter(|record| record.space != 0).count(), 6 - seen.len());
        bench.lent = before;
    }
}

// ---- everything that is on a list is reached

/// For each command one that is opened, with the request and the table's size.
const COMMANDS: [(u32, usize); 7] = [(MAP, 40), (COPY, 40), (UNMAP, 24), (ALLOW_IOVAS, 24), (IOVA_RANGES, 32), (IOAS_ALLOC, 12), (DESTROY, 8)];

#[test]
fn every_check_is_reached() {
    let max = u64::MAX;
    let mut met = BTreeSet::new();
    let mut all = |bench: Bench| met.extend(bench.met);

    let mut bench = fresh_space();
    for (request, size) in COMMANDS {
        let sized = |size: usize, lent: usize| {
            let mut bytes = vec![1; lent];
            bytes[..4].copy_from_slice(&(size as u32).to_le_bytes());
            bytes
        };
        assert_eq!(bench.command(request, vec![0; 3], vec![]), -14);
        assert_eq!(bench.command(request, sized(size - 1, size + 9), vec![]), -22);
        assert_eq!(bench.command(request, sized(size + 1, size), vec![]), -14);
        assert_eq!(bench.command(request, sized(size + 1, size + 1), vec![]), -7);
    }
    assert_eq!(bench.command(0x3B87, vec![], vec![]), -25);
    assert_eq!(bench.host(Call::Fresh { limit: (1 << 36) + 1 }), -22);
    bench.lent.mappings.pop();
    for request in COMMANDS.iter().map(|command| command.0).chain([0]) {
        assert_eq!(bench.command(request, vec![], vec![]), -117);
    }
    assert_eq!(bench.host(Call::Fresh { limit: max }), -117);
    assert_eq!(bench.bind(0, &[]), -117);
    assert_eq!(bench.attach(0, 0), -117);
    assert_eq!(bench.detach(0), -117);
    assert_eq!(bench.reach(0, 0, 0, 0), (-117, 0));
    assert_eq!(bench.host(Call::Charge), -117);
    assert_eq!(bench.next(0, 0), (-117, 0));
    bench.lent.mappings.push(Mapping::default());
    bench.lent.index.pop();
    assert_eq!(bench.host(Call::Fresh { limit: max }), -117);
    all(bench);

    // MAP, on a space with alignment 16 and 4,096 to 8,191 reserved
    let mut bench = Bench::new(128, 1);
    bench.with_device(1, 16, &[(4096, 8191)]);
    assert_eq!(bench.map(8, 0, max, 0, max), -95);
    let mut reserved = map_bytes(0, 0, max, 0, max);
    reserved[15] = 1;
    assert_eq!(bench.command(MAP, reserved, vec![]), -95);
    assert_eq!(bench.map(FIXED, 0, max, 0, max), -22);
    assert_eq!(bench.map(FIXED | READABLE, 0, max, 0, max), -22);
    assert_eq!(bench.map(FIXED | READABLE, 0, max, max, max), -22);
    assert_eq!(bench.map(FIXED | READABLE, 0, max, 2, max), -75);
    assert_eq!(bench.map(FIXED | READABLE, 0, 0, 2, max), -75);
    assert_eq!(bench.map(READABLE, 0, 0, 2, max), -2);
    assert_eq!(bench.map(READABLE, 2, 0, 2, max), -2);
    assert_eq!(bench.fixed(1, 8, 8), -22);
    assert_eq!(bench.fixed(1, 0, 8), -22);
    assert_eq!(bench.fixed(1, 4080, 32), -22);
    assert_eq!(bench.fixed(1, 0, 16), 0);
    assert_eq!(bench.fixed(1, 0, 32), -17);
    assert_eq!(bench.automatic(1, 8), Err(-22));
    assert_eq!(bench.allow(1, &[(1, 30)]), 0);
    assert_eq!(bench.automatic(1, 16), Err(-28));
    assert_eq!(bench.allow(1, &[]), 0);
    for i in 1..128 {
        assert_eq!(bench.automatic(1, 16), Ok(16 * i));
    }
    assert_eq!(bench.automatic(1, 16), Err(-12));
    assert_eq!(bench.copy(READABLE, 1, 1, 16, 0, 0), -12);
    assert_eq!(bench.unmap(1, 0, 32), Ok(32));
    assert_eq!(bench.map(READABLE, 1, 4095, 16, 0), 0);
    assert_eq!(bench.automatic(1, 16), Err(-12));
    all(bench);

    // COPY, from space 1 to a space with alignment 16 and 4,096 to 8,191 reserved
    let mut bench = Bench::new(128, 2);
    let device = bench.with_device(2, 16, &[(4096, 8191)]);
    assert_eq!(bench.copy(8, 0, 0, 0, max, max), -95);
    assert_eq!(bench.copy(FIXED, 0, 0, 0, max, max), -22);
    assert_eq!(bench.copy(FIXED | READABLE, 0, 0, 0, max, max), -22);
    assert_eq!(bench.copy(FIXED | READABLE, 0, 0, max, max, max), -22);
    assert_eq!(bench.copy(FIXED | READABLE, 0, 0, 2, max, max), -75);
    assert_eq!(bench.copy(FIXED | READABLE, 0, 0, 2, max, 0), -75);
    assert_eq!(bench.copy(READABLE, device, device, 2, max, 0), -2);
    assert_eq!(bench.copy(READABLE, 2, device, 2, max, 0), -2);
    assert_eq!(bench.copy(READABLE | WRITEABLE, 2, 1, 8, max, 0), -2);
    for (address, length) in [(0, 8), (8, 16), (32, 32)] {
        assert_eq!(bench.fixed(1, address, length), 0);
    }
    assert_eq!(bench.copy(READABLE | WRITEABLE, 2, 1, 8, max, 0), -1);
    assert_eq!(bench.copy(FIXED | READABLE, 2, 1, 8, 8, 0), -22);
    assert_eq!(bench.copy(FIXED | READABLE, 2, 1, 8, 0, 0), -22);
    assert_eq!(bench.copy(FIXED | READABLE, 2, 1, 32, 4080, 32), -22);
    assert_eq!(bench.copy(FIXED | READABLE, 2, 1, 16, 0, 8), 0);
    assert_eq!(bench.copy(FIXED | READABLE, 2, 1, 32, 0, 32), -17);
    assert_eq!(bench.copy(READABLE, 2, 1, 8, 0, 0), -22);
    assert_eq!(bench.copy(READABLE, 2, 1, 16, 0, 8), 0);
    assert_eq!(bench.allow(2, &[(0, 47)]), 0);
    assert_eq!(bench.copy(READABLE, 2, 1, 32, 0, 32), -28);
    all(bench);

    // UNMAP, ALLOW_IOVAS, IOVA_RANGES
    let mut bench = fresh_space();
    assert_eq!(bench.unmap(0, max, 0), Err(-22));
    assert_eq!(bench.unmap(0, max, 2), Err(-75));
    assert_eq!(bench.unmap(0, 0, max), Err(-2));
    assert_eq!(bench.unmap(1, 0, 1), Err(-2));
    assert_eq!(bench.fixed(1, 0, 2), 0);
    assert_eq!(bench.unmap(1, 0, 1), Err(-2));
    assert_eq!(bench.unmap(1, 0, 3), Ok(2));
    assert_eq!(bench.unmap(1, 0, max), Ok(0));
    bench.with_device(1, 1, &[(10, 19), (30, 39)]);
    assert_eq!(bench.command(ALLOW_IOVAS, words(&[24, 0, 9, 1, 0, 0]), vec![]), -95);
    assert_eq!(bench.command(ALLOW_IOVAS, words(&[24, 0, 9, 0, 0, 0]), vec![]), -2);
    assert_eq!(bench.command(ALLOW_IOVAS, words(&[24, 1, 9, 0, 0, 0]), vec![]), -12);
    assert_eq!(bench.command(ALLOW_IOVAS, words(&[24, 1, 1, 0, 0, 0]), vec![0; 15]), -14);
    assert_eq!(bench.allow(1, &[(10, 12), (8, 7)]), -22);
    assert_eq!(bench.allow(1, &[(10, 12), (12, 13)]), -22);
    assert_eq!(bench.allow(1, &[(20, 22), (0, 10)]), -98);
    assert_eq!(bench.allow(1, &[(20, 22), (0, 9)]), 0);
    assert_eq!(bench.command(IOVA_RANGES, words(&[32, 0, 1, 1, 0, 0, 0, 0]), vec![]), -95);
    assert_eq!(bench.command(IOVA_RANGES, words(&[32, 0, 1, 0, 0, 0, 0, 0]), vec![]), -2);
    assert_eq!(bench.command(IOVA_RANGES, words(&[32, 1, u32::MAX, 0, 0, 0, 0, 0]), vec![0; 48]), -14);
    assert_eq!(bench.iova_ranges(1, 2).0, -90);
    assert_eq!(bench.iova_ranges(1, 3).0, 0);
    all(bench);

    // objects and host calls
    let mut bench = fresh_space();
    assert_eq!(bench.bind(0, &[]), -22);
    assert_eq!(bench.bind(8192, &[]), -22);
    assert_eq!(bench.host(Call::Bind { bitmap: 1, reserved: Reserved { count: 5, ..Reserved::default() } }), -22);
    assert_eq!(bench.bind(1, &[(0, 1), (1, 0)]), -22);
    let device = bench.bind(4096, &[(100, 199)]) as u32;
    assert_eq!(bench.attach(0, 0), -2);
    assert_eq!(bench.attach(1, 1), -2);
    assert_eq!(bench.attach(device, device), -2);
    assert_eq!(bench.detach(1), -2);
    assert_eq!(bench.detach(device), -22);
    assert_eq!(bench.reach(33, 0, 0, 0), (-2, 0));
    assert_eq!(bench.reach(device, 0, 0, 0), (-22, 0));
    assert_eq!(bench.fixed(1, 199, 1), 0);
    assert_eq!(bench.attach(device, 1), -98);
    assert_eq!(bench.unmap(1, 199, 1), Ok(1));
    assert_eq!(bench.allow(1, &[(0, 100)]), 0);
    assert_eq!(bench.attach(device, 1), -98);
    assert_eq!(bench.allow(1, &[]), 0);
    assert_eq!(bench.fixed(1, 200, 1), 0);
    assert_eq!(bench.attach(device, 1), -98);
    assert_eq!(bench.unmap(1, 200, 1), Ok(1));
    assert_eq!(bench.attach(device, 1), 0);
    assert_eq!(bench.attach(device, 1), -16);
    assert_eq!(bench.reach(device, max, 0, 0), (-22, 0));
    assert_eq!(bench.reach(device, max, 2, 0), (-75, 0));
    assert_eq!(bench.reach(device, max, 1, 0), (-14, 0));
    assert_eq!(bench.fixed(1, 4096, 4096), 0);
    assert_eq!(bench.map(WRITEABLE | FIXED, 1, 0, 4096, 8192), 0);
    assert_eq!(bench.reach(device, 4096, 1, 1), (-1, 0));
    assert_eq!(bench.reach(device, 8192, 1, 0), (-1, 0));
    assert_eq!(bench.reach(device, 8193, 4095, 1), (0, 1));
    assert_eq!(bench.next(device, 0), (-2, 0));
    assert_eq!(bench.next(1, 8191), (0, 1));
    assert_eq!(bench.next(1, 12287), (0, 2));
    assert_eq!(bench.next(1, 12288), (0, 0));
    for id in [0, 3, 33, u32::MAX] {
        assert_eq!(bench.destroy(id), -2);
    }
    assert_eq!(bench.destroy(device), -16);
    assert_eq!(bench.destroy(1), -16);
    assert_eq!(bench.detach(device), 0);
    assert_eq!(bench.destroy(device), 0);
    assert_eq!(bench.command(IOAS_ALLOC, words(&[12, 1, 0]), vec![]), -95);
    for id in 2..=32 {
        assert_eq!((bench.alloc(), bench.u32_at(8)), (0, id));
    }
    assert_eq!(bench.alloc(), -12);
    assert_eq!(bench.bind(1, &[]), -12);
    assert_eq!(bench.charge(), 2);
    all(bench);

    let listed = checks();
    assert_eq!(listed.iter().copied().collect::<BTreeSet<_>>(), met);
    assert_eq!(listed.len(), met.len(), "a check is listed twice");
}

/// Space 1 with alignment 16, 4,096 to 8,191 reserved, an allowed range and a mapping; its backing also in space 3; device 2 attached, device 4 loose.
fn full_table() -> Lent {
    let mut bench = Bench::new(10, 1);
    bench.with_device(1, 16, &[(4096, 8191)]);
    assert_eq!(bench.alloc(), 0);
    assert_eq!(bench.bind(1, &[]), 4);
    assert_eq!(bench.allow(1, &[(0, 4095)]), 0);
    assert_eq!(bench.map(FIXED | READABLE | WRITEABLE, 1, 0, 16, 0), 0);
    assert_eq!(bench.copy(FIXED | READABLE, 3, 1, 16, 0, 0), 0);
    assert_eq!(bad(&bench.lent), None);
    bench.lent
}

#[test]
fn every_bad_rule_is_reached() {
    type Damage = (&'static str, fn(&mut Lent));
    let breaks: &[Damage] = &[
        ("the mapping records are not 128", |lent| lent.mappings.push(Mapping::default())),
        ("no index is lent", |lent| lent.index.clear()),
        ("the index has fewer than 128 words", |lent| lent.index.truncate(127)),
        ("the index has more than 128 words", |lent| lent.index.push(0)),
        ("an object record is neither free, a space nor a device", |lent| lent.head.objects[9].kind = 7),
        ("a free object record is not zero", |lent| lent.head.objects[9].allow_lasts[7] = 1),
        ("a field that a space does not use is not zero", |lent| lent.head.objects[0].home = 1),
        ("a field that a device does not use is not zero", |lent| lent.head.objects[1].allow_starts[0] = 1),
        ("a loose device names a space", |lent| lent.head.objects[3].home = 1),
        ("a device has over 4 reserved ranges", |lent| lent.head.objects[3].reserved_count = u32::MAX),
        ("an allow list has over 8 ranges", |lent| lent.head.objects[0].allow_count = u32::MAX),
        ("an unused place of a device's reserved ranges is not zero", |lent| lent.head.objects[1].reserved_count = 0),
        ("an unused place of an allow list is not zero", |lent| lent.head.objects[0].allow_lasts[1] = 1),
        ("a released mapping record is not zero", |lent| lent.mappings[127].memory = 1),
        ("a mapping has a right that is neither to write nor to read", |lent| lent.mappings[0].rights = 77),
        ("a mapping's founding right to write is neither 0 nor 1", |lent| lent.mappings[0].founder = 9),
        ("the limit is above 2^36", |lent| lent.head.limit = (1 << 36) + 1),
        ("a mapping has length 0", |lent| lent.mappings[0].length = 0),
        ("a mapping has a length over 2^40", |lent| lent.mappings[0].length = (1 << 40) + 1),
        ("a mapping has no right", |lent| lent.mappings[0].rights = 0),
        ("a mapping runs past U64MAX in its space", |lent| lent.mappings[0].address = u64::MAX - 14),
        ("a mapping runs past U64MAX in memory", |lent| lent.mappings[0].memory = u64::MAX - 14),
        ("a backing number is not from 1 to 128", |lent| lent.mappings[0].backing = 129),
        ("a mapping names a record that is not a space", |lent| lent.mappings[0].space = 2),
        ("an attached device names a record that is not a space", |lent| lent.head.objects[1].home = 33),
        ("a device's bitmap is 0", |lent| lent.head.objects[3].bitmap = 0),
        ("the lowest bit of a device's bitmap is above 4,096", |lent| lent.head.objects[3].bitmap = 8192),
        ("a reserved range has its start above its last", |lent| lent.head.objects[1].reserved_starts[0] = 8192),
        ("an allowed range has its start above its last", |lent| lent.head.objects[0].allow_starts[0] = 4096),
        ("two ranges of an allow list overlap", |lent| lent.head.objects[0].allow_count = 2), // 0 to 0 again
        ("an allowed range touches a reserved range of its space", |lent| lent.head.objects[0].allow_lasts[0] = 4096), // B1
        ("two mappings of one space share an address", |lent| lent.mappings[2] = Mapping { address: 15, ..lent.mappings[0] }),
        ("a mapping touches a reserved range of its space", |lent| lent.mappings[0].address = 8191),
        ("a mapping is misaligned in its space", |lent| lent.mappings[0].address = 17),
        ("mappings of one backing differ in memory start", |lent| lent.mappings[1].memory = 1),
        ("mappings of one backing differ in length", |lent| lent.mappings[1].length = 1),
        ("mappings of one backing differ in the founding right to write", |lent| lent.mappings[1].founder = 0),
        ("a mapping may write without the founding right", |lent| (lent.mappings[0].founder, lent.mappings[1].founder) = (0, 0)),
        ("the limit is below the charge", |lent| lent.head.limit = 0),
        ("the index has a number past 128", |lent| lent.index[2] = 129),
        ("the index has a number behind a zero", |lent| lent.index.swap(1, 2)),
        ("the index lists a released record", |lent| lent.index[2] = 3),
        ("the index lists a record twice", |lent| lent.index[2] = 2),
        ("the index misses a mapping", |lent| lent.index[1] = 0),
        ("the index has the spaces out of order", |lent| lent.index.swap(0, 1)),
        ("the index has the addresses of a space out of order", |lent| {
            lent.mappings[2] = Mapping { address: 32, ..lent.mappings[0] };
            lent.index[..3].copy_from_slice(&[3, 1, 2]);
        }),
    ];
    for (rule, damage) in breaks {
        let mut lent = full_table();
        damage(&mut lent);
        assert_eq!(bad(&lent), Some(*rule));
        let before = lent.clone();
        let (number, check) = judge(&mut lent, &mut Call::Charge);
        assert_eq!((number.result, check.errno, &lent), (-117, 117, &before));
    }
    assert_eq!(breaks.iter().map(|(rule, _)| *rule).collect::<Vec<_>>(), bad_rules());
}

#[test]
fn good_tables_that_look_odd() {
    // B3, B4: numbers and records need not be the lowest, two spaces may map the same addresses, rights of one backing may differ, the limit may be the charge.
    let mut lent = full_table();
    lent.mappings.swap(0, 127);
    lent.index[0] = 128;
    (lent.mappings[127].backing, lent.mappings[1].backing, lent.head.limit) = (128, 128, 1);
    assert_eq!(bad(&lent), None);
    // Two backings of the same memory are two charges.
    lent.mappings[1].backing = 5;
    assert_eq!(bad(&lent), Some("the limit is below the charge"));
    // A fresh table is made over any memory.
    lent.head.objects[0].kind = 7;
    assert_eq!(judge(&mut lent, &mut Call::Fresh { limit: 0 }).0.result, 0);
    assert_eq!(lent, Lent::zeroed());
}

// ---- numbers from a die

/// A plain generator of numbers below a bound.
struct Dice(u64);

impl Dice {
    fn below(&mut self, bound: u64) -> u64 {
        self.0 = self.0.wrapping_mul(6364136223846793005).wrapping_add(1442695040888963407);
        (self.0 >> 33) % bound
    }

    /// A range within the addresses 0 to 63.
    fn range(&mut self) -> (u64, u64) {
        let start = self.below(60);
        (start, start + self.below(4))
    }
}

#[test]
fn placement_and_iova_ranges_of_small_tables() {
    let mut dice = Dice(1);
    let (mut placed, mut runs) = (0, 0);
    for _ in 0..1000 {
        let mut bench = Bench::new(1 << 36, 1);
        let mut reserved = Vec::new();
        let mut alignment = 1;
        for _ in 0..dice.below(3) {
            let ranges = (0..dice.below(3)).map(|_| dice.range()).collect::<Vec<_>>();
            let page = 1 << dice.below(3);
            bench.with_device(1, page, &ranges);
            alignment = alignment.max(page);
            reserved.extend(ranges);
        }
        let mut blocked = reserved.clone();
        for _ in 0..dice.below(5) {
            let (address, length) = (dice.below(64), 1 + dice.below(8));
            if bench.fixed(1, address, length) == 0 {
                blocked.push((address, address + length - 1));
            }
        }
        let mut allowed = (0..dice.below(4)).map(|_| (dice.below(64), dice.below(64))).collect::<Vec<_>>();
        if bench.allow(1, &allowed) != 0 {
            allowed.clear();
        }
        let holds = |ranges: &[(u64, u64)], address: u64| ranges.iter().any(|(start, last)| (*start..=*last).contains(&address));

        let length = 1 + dice.below(9);
        let is_candidate = |start: &u64| {
            let whole = *start..*start + length;
            start.is_multiple_of(alignment)
                && whole.clone().all(|address| !holds(&blocked, address))
                && (allowed.is_empty() || allowed.iter().any(|range| whole.clone().all(|address| holds(&[*range], address))))
        };
        let expected = match length % alignment {
            0 => (0..100).find(is_candidate).ok_or(-28),
            _ => Err(-22),
        };
        placed += expected.is_ok() as u32;

        // Where everything above 99 is reserved too, every run can be looked at.
        let mut closed = Bench { lent: bench.lent.clone(), met: BTreeSet::new(), bytes: vec![], area: vec![] };
        let above = closed.bind(1, &[(100, u64::MAX)]) as u32;
        if closed.attach(above, 1) == 0 {
            let is_free = |address: u64| address < 100 && !holds(&blocked, address);
            let end = |start: u64, in_range: &dyn Fn(u64) -> bool| (start..).find(|address| !is_free(*address) || !in_range(*address)).unwrap();
            let run = |start: u64| match &allowed[..] {
                [] => end(start, &|_| true) - start,
                list => list.iter().map(|range| end(start, &|address| holds(&[*range], address)) - start).max().unwrap(),
            };
            let starts = (0..100u64).filter(|start| start.is_multiple_of(alignment)).map(|start| (run(start), start));
            let longest = starts.filter(|(length, _)| *length > 0).max_by_key(|(length, start)| (*length, u64::MAX - start)).unwrap_or((0, 0));
            let asked = (longest.0 + 1).next_multiple_of(alignment);
            assert_eq!(closed.longest_run(1, asked), (longest.1, longest.0));
            runs += 1;
        }
        assert_eq!(bench.automatic(1, length), expected);

        // A range starts where a free address follows a reserved one, and ends where it is the other way about.
        let is_free = |address: u64| !holds(&reserved, address);
        let starts = (0..100).filter(|address| is_free(*address) && (*address == 0 || !is_free(address - 1)));
        let mut lasts = (0..100).filter(|address| is_free(*address) && !is_free(address + 1)).collect::<Vec<_>>();
        lasts.push(u64::MAX);
        let expected = starts.zip(lasts).flat_map(|(start, last)| [start, last]).collect::<Vec<_>>();
        let count = expected.len() as u32 / 2;
        assert_eq!(bench.iova_ranges(1, count), (0, count, alignment, expected));
    }
    assert!(placed > 300 && runs > 300, "{placed} {runs}");
}

/// Any numbers in the memory and the arguments: every call answers, and `Bench::judge` holds.
#[test]
fn any_memory_is_answered() {
    let pool = [0, 1, 2, 3, 4, 5, 8, 9, 15, 16, 17, 32, 33, 77, 127, 128, 129, 4095, 4096, 8191, 8192, 1 << 32, 1 << 36, 1 << 40, u64::MAX - 15, u64::MAX];
    let mut dice = Dice(2);
    let (mut good, mut broken) = (0, BTreeSet::new());
    let whole = full_table();
    for _ in 0..1000 {
        let mut bench = Bench { lent: whole.clone(), met: BTreeSet::new(), bytes: vec![], area: vec![] };
        let mut any = || pool[dice.below(pool.len() as u64) as usize];
        let (object, mapping) = (&mut bench.lent.head.objects[any() as usize % 5], &mut bench.lent.mappings[any() as usize % 3]);
        match any() % 23 {
            0 => object.kind = any() as u32,
            1 => object.home = any() as u32,
            2 => object.bitmap = any(),
            3 => object.reserved_count = any() as u32,
            4 => object.allow_count = any() as u32,
            5 => object.reserved_starts[any() as usize % 4] = any(),
            6 => object.reserved_lasts[any() as usize % 4] = any(),
            7 => object.allow_starts[any() as usize % 8] = any(),
            8 => object.allow_lasts[any() as usize % 8] = any(),
            9 => mapping.space = any() as u32,
            10 => mapping.rights = any() as u32,
            11 => mapping.founder = any() as u32,
            12 => mapping.backing = any() as u32,
            13 => mapping.address = any(),
            14 => mapping.length = any(),
            15 => mapping.memory = any(),
            16 => bench.lent.head.limit = any(),
            17 => bench.lent.mappings.resize(any() as usize % 200, Mapping::default()),
            18 => bench.lent.index.resize(any() as usize % 200, 0),
            19 => bench.lent.index[any() as usize % 5] = any(),
            _ => {}
        }
        match bad(&bench.lent) {
            Some(rule) => broken.insert(rule),
            None => {
                good += 1;
                true
            }
        };
        let (a, b, c) = (any(), any(), any());
        bench.map(any() as u32 % 8, any() as u32, a, b, c);
        bench.copy(any() as u32 % 8, any() as u32, any() as u32, a, b, c);
        let _ = bench.unmap(any() as u32, a, b);
        bench.allow(any() as u32, &[(a, b), (b, c)]);
        bench.iova_ranges(any() as u32, any() as u32 % 9);
        bench.destroy(any() as u32);
        bench.alloc();
        bench.bind(any(), &[(a, b), (b, c)]);
        bench.attach(any() as u32, any() as u32);
        bench.reach(any() as u32, a, b, any() as u32);
        bench.detach(any() as u32);
        bench.charge();
        bench.next(a as u32, b);
        bench.host(Call::Fresh { limit: any() });
    }
    assert!(good > 200 && broken.len() > 25, "{good} {broken:?}");
}
