//! Ranges of addresses with an inclusive last one.

/// From start to last; a start above its last holds no address.
#[derive(Clone, Copy, Debug, Default, PartialEq, Eq)]
pub struct Range {
    pub start: u64,
    pub last: u64,
}

impl Range {
    pub const ALL: Range = Range { start: 0, last: u64::MAX };

    /// The addresses of `length` bytes, `None` where there are none or they pass U64MAX.
    pub fn of(start: u64, length: u64) -> Option<Range> {
        let last = start.checked_add(length.checked_sub(1)?)?;
        Some(Range { start, last })
    }

    pub fn is_valid(self) -> bool {
        self.start <= self.last
    }

    /// Whether the two, both valid, have an address in common.
    pub fn shares(self, other: Range) -> bool {
        self.start <= other.last && other.start <= self.last
    }

    pub fn is_inside(self, other: Range) -> bool {
        other.start <= self.start && self.last <= other.last
    }
}

/// A stored list: the first `count` of its places.
pub fn ranges<'a>(starts: &'a [u64], lasts: &'a [u64], count: u32) -> impl Iterator<Item = Range> + Clone + 'a {
    starts.iter().zip(lasts).take(count as usize).map(|(&start, &last)| Range { start, last })
}

/// Whether two of the ranges have an address in common.
pub fn overlap(ranges: impl Iterator<Item = Range> + Clone) -> bool {
    let mut rest = ranges;
    while let Some(r) = rest.next() {
        if rest.clone().any(|q| q.shares(r)) {
            return true;
        }
    }
    false
}

/// Whether a range of the one list has an address in common with one of the other.
pub fn touch(mut ranges: impl Iterator<Item = Range>, others: impl Iterator<Item = Range> + Clone) -> bool {
    ranges.any(|r| others.clone().any(|q| q.shares(r)))
}
