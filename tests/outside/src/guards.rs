//! The archive on memory with guard bytes around every part that is lent, the command and the area at any address, odd ones too. What a host call does not read of its words
//! is left to chance.
use crate::boundary::{self, Own, Parts};
use crate::calls::{Call, Lent};
use crate::dice::Dice;
use iommufd::raw::{Head, Host, Mapping, Number, HOST_WORDS};

const FENCE: usize = 24;
const FENCE_RECORDS: usize = 2;

/// Bytes in the middle of others.
struct FencedBytes {
    memory: Vec<u8>,
    from: usize,
    len: usize,
    pattern: [u8; 8],
}

impl FencedBytes {
    fn around(part: &[u8], dice: &mut Dice) -> FencedBytes {
        let (from, pattern) = (FENCE + dice.below(8), dice.roll().to_le_bytes());
        let mut memory: Vec<u8> = pattern.iter().copied().cycle().take(from + part.len() + FENCE).collect();
        memory[from..from + part.len()].copy_from_slice(part);
        FencedBytes { memory, from, len: part.len(), pattern }
    }

    fn lent(&mut self) -> &mut [u8] {
        &mut self.memory[self.from..self.from + self.len]
    }

    fn intact(&self) -> bool {
        let part = self.from..self.from + self.len;
        self.memory.iter().enumerate().all(|(k, byte)| part.contains(&k) || *byte == self.pattern[k % 8])
    }
}

/// A head in the middle of other words.
#[repr(C)]
struct FencedHead {
    before: [u64; FENCE],
    head: Head,
    after: [u64; FENCE],
}

impl FencedHead {
    fn around(head: &Head, pattern: u64) -> FencedHead {
        FencedHead { before: [pattern; FENCE], head: head.clone(), after: [pattern; FENCE] }
    }

    fn intact(&self, pattern: u64) -> bool {
        self.before == [pattern; FENCE] && self.after == [pattern; FENCE]
    }
}

fn fence_record(pattern: u64) -> Mapping {
    let half = pattern as u32;
    Mapping { space: half, rights: half, founder: half, backing: half, address: pattern, length: pattern, memory: pattern }
}

fn fenced_records(records: &[Mapping], fence: Mapping) -> Vec<Mapping> {
    let fence = [fence; FENCE_RECORDS];
    [&fence, records, &fence].concat()
}

/// Words in the middle of others.
struct FencedWords {
    memory: Vec<u64>,
    len: usize,
    pattern: u64,
}

impl FencedWords {
    fn around(words: &[u64], pattern: u64) -> FencedWords {
        let fence = [pattern; FENCE];
        FencedWords { memory: [&fence, words, &fence].concat(), len: words.len(), pattern }
    }

    fn lent(&mut self) -> &mut [u64] {
        &mut self.memory[FENCE..FENCE + self.len]
    }

    fn intact(&self) -> bool {
        let (before, rest) = self.memory.split_at(FENCE);
        before == [self.pattern; FENCE] && rest[self.len..] == [self.pattern; FENCE]
    }
}

/// The bits of each word that a kind of host call reads.
fn bits_read(kind: u32) -> [u64; HOST_WORDS] {
    const ALL: u64 = u64::MAX;
    const LOW: u64 = u32::MAX as u64;
    match kind {
        Host::FRESH => [ALL, 0, 0, 0, 0, 0, 0, 0, 0, 0],
        Host::BIND => [ALL, LOW, ALL, ALL, ALL, ALL, ALL, ALL, ALL, ALL],
        Host::ATTACH => [LOW, LOW, 0, 0, 0, 0, 0, 0, 0, 0],
        Host::DETACH => [LOW, 0, 0, 0, 0, 0, 0, 0, 0, 0],
        Host::REACH => [LOW, ALL, ALL, ALL, 0, 0, 0, 0, 0, 0],
        Host::NEXT => [LOW, ALL, 0, 0, 0, 0, 0, 0, 0, 0],
        _ => [0; HOST_WORDS],
    }
}

/// The words of a host call in the middle of others, at times with some more behind them.
struct FencedHost {
    words: FencedWords,
    given: Vec<u64>,
}

impl FencedHost {
    fn around(host: &Host, dice: &mut Dice) -> FencedHost {
        let (pattern, more) = (dice.roll(), dice.below(3));
        let read = host.words.iter().zip(bits_read(host.kind));
        let mut given: Vec<u64> = read.map(|(word, bits)| (word & bits) | (dice.roll() & !bits)).collect();
        given.extend((0..more).map(|_| dice.roll()));
        FencedHost { words: FencedWords::around(&given, pattern), given }
    }

    fn lent(&mut self) -> &mut [u64] {
        self.words.lent()
    }

    /// Only the first word may be another, where the call tells something.
    fn intact(&mut self, tells: bool) -> bool {
        let words = self.words.lent();
        let stay = words[1..] == self.given[1..] && (tells || words[0] == self.given[0]);
        stay && self.words.intact()
    }
}

/// The call through libiommufd.a, or which guard it wrote to.
pub fn run(dice: &mut Dice, lent: &mut Lent, call: &mut Call) -> Result<Number, &'static str> {
    let pattern = dice.roll();
    let (bytes, area) = call.lent_bytes();
    let (mut bytes, mut area) = (FencedBytes::around(bytes, dice), FencedBytes::around(area, dice));
    let mut head = FencedHead::around(&lent.head, pattern);
    let fence = fence_record(pattern);
    let mut memory = fenced_records(&lent.mappings, fence);
    let (before, rest) = memory.split_at_mut(FENCE_RECORDS);
    let (records, after) = rest.split_at_mut(lent.mappings.len());
    let mut index = FencedWords::around(&lent.index, pattern);
    let mut told = FencedWords::around(call.lent_words(), pattern);

    let mut words_intact = true;
    let mut parts = Parts { head: &mut head.head, mappings: records, index: index.lent() };
    let own = Own { bytes: bytes.lent(), area: area.lent(), words: told.lent() };
    let number = boundary::lend(&mut parts, call, own, |parts, host| {
        let mut words = FencedHost::around(host, dice);
        let result = boundary::enter(parts, host.kind, words.lent());
        words_intact = words.intact(result == 0 && host.kind != Host::FRESH);
        host.words[0] = words.lent()[0];
        result
    });

    *lent.head = head.head.clone();
    lent.mappings.copy_from_slice(records);
    lent.index.copy_from_slice(index.lent());
    call.put_back(bytes.lent(), area.lent(), told.lent());
    let intact = [
        (head.intact(pattern), "memory beside the head was written"),
        (before.iter().chain(after.iter()).all(|record| *record == fence), "memory beside the mapping records was written"),
        (index.intact(), "memory beside the index was written"),
        (bytes.intact(), "memory beside the command was written"),
        (area.intact(), "memory beside the range area was written"),
        (told.intact(), "memory beside the words of an explanation was written"),
        (words_intact, "words of a host call, or memory beside them, were written that tell nothing"),
    ];
    intact.iter().find(|(holds, _)| !holds).map_or(Ok(number), |(_, broken)| Err(broken))
}

#[cfg(test)]
mod tests {
    use super::*;

    #[test]
    fn a_byte_on_either_side_is_noticed() {
        let mut dice = Dice::new(3);
        for len in [0, 1, 40] {
            let part = vec![9; len];
            let mut fenced = FencedBytes::around(&part, &mut dice);
            fenced.lent().fill(1);
            assert!(fenced.intact());
            for at in [fenced.from - 1, fenced.from + len] {
                fenced.memory[at] ^= 1;
                assert!(!fenced.intact());
                fenced.memory[at] ^= 1;
            }
        }
    }

    #[test]
    fn a_word_that_tells_nothing_is_noticed() {
        let (mut dice, host) = (Dice::new(4), Host::attach(1, 2));
        for _ in 0..9 {
            let mut fenced = FencedHost::around(&host, &mut dice);
            assert_eq!([fenced.lent()[0] as u32, fenced.lent()[1] as u32], [1, 2]);
            assert!(fenced.intact(false));
            fenced.lent()[0] ^= 1;
            assert!(fenced.intact(true) && !fenced.intact(false));
            for at in [FENCE - 1, FENCE + 1, FENCE + fenced.given.len() - 1, FENCE + fenced.given.len()] {
                fenced.words.memory[at] ^= 1;
                assert!(!fenced.intact(true));
                fenced.words.memory[at] ^= 1;
            }
        }
    }

    #[test]
    fn a_word_beside_the_index_is_noticed() {
        for len in [0, 1, 127, 128] {
            let mut fenced = FencedWords::around(&vec![7; len], 5);
            fenced.lent().fill(9);
            assert!(fenced.intact());
            for at in [FENCE - 1, FENCE + len] {
                fenced.memory[at] ^= 1;
                assert!(!fenced.intact());
                fenced.memory[at] ^= 1;
            }
        }
    }

    #[test]
    fn a_word_beside_the_head_is_noticed() {
        let mut fenced = FencedHead::around(&Head::default(), 5);
        fenced.head.limit = 1;
        assert!(fenced.intact(5));
        fenced.after[0] = 0;
        assert!(!fenced.intact(5));
    }
}
