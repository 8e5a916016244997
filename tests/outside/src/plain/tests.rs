//! K1 to K12 of document 01 on the plain program, with and without its check.
use super::*;
use crate::calls::System;
use iommufd::request::{ALLOW_IOVAS, COPY, DESTROY, IOAS_ALLOC, IOVA_RANGES, MAP, UNMAP};
use iommufd::{FIXED, READABLE, WRITEABLE};

const MAX: u64 = u64::MAX;

/// A table with the space 1, and who answers calls on it.
struct Bench {
    system: System,
    lent: Lent,
}

fn bytes(small: &[u32], large: &[u64]) -> Vec<u8> {
    small.iter().flat_map(|n| n.to_le_bytes()).chain(large.iter().flat_map(|n| n.to_le_bytes())).collect()
}

fn at(bytes: &[u8], at: usize) -> u64 {
    wire::read64(bytes, at)
}

impl Bench {
    fn new(system: System) -> Bench {
        let mut bench = Bench { system, lent: Lent::zeroed() };
        assert_eq!(bench.ask(&mut Call::Fresh { limit: MAX_LIMIT }).result, 0);
        bench.space();
        bench
    }

    fn ask(&mut self, call: &mut Call) -> Number {
        (self.system)(&mut self.lent, call)
    }

    /// The result, the reply and the range area of a command.
    fn command(&mut self, request: u32, bytes: Vec<u8>, area: Vec<u8>) -> (i32, Vec<u8>, Vec<u8>) {
        let mut call = Call::Command { request, bytes, area };
        let told = self.ask(&mut call);
        let Call::Command { bytes, area, .. } = call else { unreachable!() };
        (told.result, bytes, area)
    }

    fn space(&mut self) {
        assert_eq!(self.command(IOAS_ALLOC, bytes(&[12, 0, 0], &[]), vec![]).0, 0);
    }

    /// A readable MAP in space 1: the result and the address.
    fn map(&mut self, flags: u32, memory: u64, length: u64, address: u64) -> (i32, u64) {
        let (result, reply, _) = self.command(MAP, bytes(&[40, flags | READABLE, 1, 0], &[memory, length, address]), vec![]);
        (result, at(&reply, 32))
    }

    /// An UNMAP: the result and the length.
    fn unmap(&mut self, space: u32, address: u64, length: u64) -> (i32, u64) {
        let (result, reply, _) = self.command(UNMAP, bytes(&[24, space], &[address, length]), vec![]);
        (result, at(&reply, 16))
    }

    fn copy(&mut self, flags: u32, length: u64) -> i32 {
        self.command(COPY, bytes(&[40, flags, 2, 1], &[length, 0, 0]), vec![]).0
    }

    fn charge(&mut self) -> u64 {
        let told = self.ask(&mut Call::Charge);
        assert_eq!(told.result, 0);
        told.value
    }

    /// The device of the plan, attached to space 1.
    fn device(&mut self) {
        let mut reserved = Reserved { count: 1, ..Reserved::default() };
        reserved.starts[0] = 0xFEE0_0000;
        reserved.lasts[0] = 0xFEEF_FFFF;
        assert_eq!(self.ask(&mut Call::Bind { bitmap: 4096, reserved }).result, 2);
        assert_eq!(self.ask(&mut Call::Attach { device: 2, space: 1 }).result, 0);
    }

    /// IOVA_RANGES with room for the count.
    fn ranges(&mut self, count: u32) -> (i32, Vec<u8>, Vec<u8>) {
        self.command(IOVA_RANGES, bytes(&[32, 1, count, 0], &[0, 0]), vec![0; 16 * count as usize])
    }
}

fn both(case: fn(Bench)) {
    case(Bench::new(checked));
    case(Bench::new(trusting));
}

#[test]
fn k1_k2_k3_opening() {
    both(|mut b| {
        assert_eq!(b.command(MAP, vec![40, 0, 0], vec![]).0, -14);
        let map = |size| bytes(&[size, READABLE, 1, 0], &[0, 1, 0]);
        assert_eq!(b.command(MAP, map(39), vec![]).0, -22);
        let tail = |last| [map(48), vec![0, 0, 0, 0, 0, 0, 0, last]].concat();
        assert_eq!(b.command(MAP, tail(0), vec![]).0, 0);
        assert_eq!(b.command(MAP, tail(1), vec![]).0, -7);
    });
}

#[test]
fn k4_pages_touched() {
    both(|mut b| {
        assert_eq!(b.map(0, 4095, 2, 9), (0, 0));
        assert_eq!(b.charge(), 2);
    });
}

#[test]
fn k5_last_address() {
    both(|mut b| {
        assert_eq!(b.map(FIXED, 0, 2, MAX), (-75, MAX));
        assert_eq!(b.map(FIXED, 0, 1, MAX), (0, MAX));
    });
}

#[test]
fn k6_longest() {
    both(|mut b| {
        assert_eq!(b.map(0, 0, (1 << 40) + 1, 0).0, -22);
        assert_eq!(b.map(0, 0, 1 << 40, 0).0, 0);
        assert_eq!(b.charge(), 1 << 28);
    });
}

#[test]
fn k7_unmap() {
    both(|mut b| {
        assert_eq!(b.map(FIXED, 0, 4096, 0).0, 0);
        assert_eq!(b.map(FIXED, 0, 4096, 4096).0, 0);
        let before = b.lent.clone();
        assert_eq!(b.unmap(1, 0, 6000), (-2, 6000));
        assert_eq!(b.lent, before);
        assert_eq!(b.unmap(1, 0, 8192), (0, 8192));
        assert_eq!(b.unmap(1, 0, 8192), (-2, 8192));
        assert_eq!(b.unmap(1, 0, MAX), (0, 0));
    });
}

#[test]
fn k8_k9_ranges() {
    both(|mut b| {
        b.device();
        let (result, reply, area) = b.ranges(2);
        assert_eq!((result, reply), (0, bytes(&[32, 1, 2, 0], &[0, 4096])));
        assert_eq!(area, bytes(&[], &[0, 0xFEDF_FFFF, 0xFEF0_0000, MAX]));
        let (result, reply, area) = b.ranges(1);
        assert_eq!((result, reply), (-90, bytes(&[32, 1, 2, 0], &[0, 4096])));
        assert_eq!(area, bytes(&[], &[0, 0xFEDF_FFFF]));
    });
}

#[test]
fn k10_allow() {
    both(|mut b| {
        let list = bytes(&[], &[0x10_0000, 0x1F_FFFF]);
        assert_eq!(b.command(ALLOW_IOVAS, bytes(&[24, 1, 1, 0], &[0]), list).0, 0);
        assert_eq!(b.map(0, 0, 0x10_0001, 0).0, -28);
        assert_eq!(b.map(0, 0, 0x10_0000, 0), (0, 0x10_0000));
        assert_eq!(b.map(0, 0, 1, 0).0, -28);
        assert_eq!(b.map(FIXED, 0, 1, 0).0, 0);
    });
}

#[test]
fn k11_copy_shares_the_charge() {
    both(|mut b| {
        b.space();
        assert_eq!(b.map(0, 0, 4096, 0).0, 0);
        assert_eq!(b.copy(READABLE, 4096), 0);
        assert_eq!(b.charge(), 1);
        assert_eq!(b.unmap(1, 0, 4096), (0, 4096));
        assert_eq!(b.charge(), 1);
        assert_eq!(b.unmap(2, 0, 4096), (0, 4096));
        assert_eq!(b.charge(), 0);
    });
}

#[test]
fn k12_right_to_write() {
    both(|mut b| {
        b.space();
        assert_eq!(b.map(0, 0, 4096, 0).0, 0);
        assert_eq!(b.copy(WRITEABLE, 4096), -1);
    });
}

#[test]
fn a_bad_table() {
    let mut b = Bench::new(checked);
    b.lent.head.limit = MAX_LIMIT + 1;
    let before = b.lent.clone();
    assert_eq!(b.map(0, 0, 4096, 0), (-117, 0));
    assert_eq!(b.command(0, vec![], vec![]).0, -117);
    assert_eq!(b.lent, before);
    b.lent.head.limit = MAX_LIMIT;
    b.lent.mappings.pop();
    assert_eq!(b.ask(&mut Call::Charge), Number { result: -117, value: 0 });
}

#[test]
fn the_index_is_kept() {
    both(|mut b| {
        b.space();
        for (address, listed) in [(8, &[1, 0][..]), (0, &[2, 1, 0]), (4, &[2, 3, 1, 0]), (12, &[2, 3, 1, 4, 0])] {
            assert_eq!(b.map(FIXED, 0, 4, address).0, 0);
            assert_eq!(b.lent.index[..listed.len()], *listed);
        }
        assert_eq!(b.copy(READABLE, 4), 0);
        assert_eq!(b.lent.index[..6], [2, 3, 1, 4, 5, 0]);
        assert_eq!(b.unmap(1, 4, 8), (0, 8));
        assert_eq!(b.lent.index[..4], [2, 4, 5, 0]);
        assert_eq!(b.map(0, 0, 4, 0), (0, 4));
        assert_eq!(b.lent.index[..5], [2, 1, 4, 5, 0]);
        assert_eq!(b.command(DESTROY, bytes(&[8, 1], &[]), vec![]).0, 0);
        assert_eq!(b.lent.index[..2], [5, 0]);
    });
}

#[test]
fn next_mapping() {
    both(|mut b| {
        b.space();
        assert_eq!(b.map(FIXED, 0, 1, u64::MAX).0, 0);
        assert_eq!(b.map(FIXED, 0, 4, 8).0, 0);
        assert_eq!(b.map(FIXED, 0, 4, 0).0, 0);
        assert_eq!(b.command(COPY, bytes(&[40, READABLE | FIXED, 2, 1], &[4, 100, 8]), vec![]).0, 0);
        let before = b.lent.clone();
        let told = [(1, 0, 3), (1, 3, 3), (1, 4, 2), (1, 11, 2), (1, 12, 1), (1, u64::MAX, 1), (2, 0, 4), (2, 103, 4), (2, 104, 0), (2, u64::MAX, 0)];
        for (space, address, value) in told {
            assert_eq!(b.ask(&mut Call::Next { space, address }), Number { result: 0, value });
        }
        for space in [0, 3, 33, u32::MAX] {
            assert_eq!(b.ask(&mut Call::Next { space, address: 0 }), Number { result: -2, value: 0 });
        }
        assert_eq!(b.lent, before);
    });
}

#[test]
fn another_index() {
    let others: [fn(&mut Vec<u64>); 9] = [
        |index| index.swap(0, 1),
        |index| index.swap(1, 2),
        |index| index[2] = 2,
        |index| index[2] = 3,
        |index| index[1] = 0,
        |index| index[0] += 1 << 32,
        |index| index[127] = 2,
        |index| index.truncate(127),
        |index| index.push(0),
    ];
    for other in others {
        let mut b = Bench::new(checked);
        b.space();
        assert_eq!(b.map(0, 0, 4, 0).0, 0);
        assert_eq!(b.copy(READABLE, 4), 0);
        other(&mut b.lent.index);
        let before = b.lent.clone();
        assert_eq!(b.map(0, 0, 4, 9), (-117, 9));
        assert_eq!(b.ask(&mut Call::Charge), Number { result: -117, value: 0 });
        assert_eq!(b.ask(&mut Call::Next { space: 1, address: 0 }), Number { result: -117, value: 0 });
        assert_eq!(b.lent, before);
        let told = b.ask(&mut Call::Fresh { limit: 0 }).result;
        assert_eq!(told, if before.index.len() == 128 { 0 } else { -117 });
    }
}
