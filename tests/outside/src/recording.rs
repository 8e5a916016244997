//! What the archive was given and what it answered, call by call, as bytes that tests/replay/replay.c reads.
//!
//! All numbers are little-endian. A head, a mapping record and a list of reserved ranges are the memory of their structs in include/iommufd.h, which have no gaps.
//! A recording is the 8 bytes `IOMMUFD2`, then items. An item is a u32 that says what it is, and what stands beside it here; the
//! calls have their names in the header:
//!
//! | u32 | what it is | what follows |
//! |---|---|---|
//! | 0 | the end | u64 digest of all bytes before it |
//! | 1 | a sequence begins | u64 seed, the number that `differential --sequence` takes |
//! | 2 | the table's memory was changed from outside | u32 number of records that are lent, u32 number of words of the index, head, so many records, so many words |
//! | 3 | `iommufd_fresh` | u64 limit |
//! | 4 | `iommufd_call` | u32 request, u32 size of the command, u32 size of the area, the bytes of both |
//! | 5 | `iommufd_preview` | the same |
//! | 6 | `iommufd_bind` | u64 bitmap, reserved ranges |
//! | 7 | `iommufd_attach` | u32 device, u32 space |
//! | 8 | `iommufd_detach` | u32 device |
//! | 9 | `iommufd_reach` | u32 device, u64 address, u64 length, u32 write |
//! | 10 | `iommufd_charge` | |
//! | 11 | `iommufd_next` | u32 space, u64 address; its number is recorded as the value, beside result 0 |
//! | 12 | `iommufd_explain` | as for a command; the area is the memory of the five words |
//!
//! The items from 3 on are calls, on the table as the item before left it. Behind the arguments of each stands its answer: i32 result, u64 value (0 where the call gives
//! none), u64 digest of head, records, index, command and area after the call. The first call of a sequence has an item 2 before it. A digest is FNV-1a of 64 bits.
use crate::calls::{Call, Lent};
use crate::compare::{Answer, Difference, Tried};
use crate::coverage::Coverage;
use crate::runs;
use crate::steps::Step;
use iommufd::raw::{Head, Mapping, Reserved};
use std::slice;

const BEGINNING: [u8; 8] = *b"IOMMUFD2";

enum Item {
    End,
    Sequence,
    Table,
    Fresh,
    Call,
    Preview,
    Bind,
    Attach,
    Detach,
    Reach,
    Charge,
    Next,
    Explain,
}

/// Numbers beside each other without a gap.
///
/// # Safety
/// Every byte of such a value belongs to a number.
unsafe trait Plain {}
// SAFETY: their sizes, which examples/rust/src/raw.rs asserts, are the sums of those of their fields.
unsafe impl Plain for Head {}
unsafe impl Plain for Mapping {}
unsafe impl Plain for Reserved {}
unsafe impl Plain for u64 {}

/// Values as they lie in memory.
fn memory<T: Plain>(values: &[T]) -> &[u8] {
    // SAFETY: the bytes are borrowed as long as the values are, and each of them belongs to a number.
    unsafe { slice::from_raw_parts(values.as_ptr().cast(), size_of_val(values)) }
}

/// FNV-1a, over parts one after the other.
#[derive(Clone, Copy, Debug, PartialEq, Eq)]
struct Digest(u64);

impl Digest {
    const NONE: Digest = Digest(0xCBF2_9CE4_8422_2325);

    fn with(self, part: &[u8]) -> Digest {
        Digest(part.iter().fold(self.0, |digest, byte| (digest ^ u64::from(*byte)).wrapping_mul(0x0000_0100_0000_01B3)))
    }
}

pub struct Recording {
    bytes: Vec<u8>,
    sequences: u64,
    calls: u64,
    /// Of all answers.
    answers: Digest,
}

impl Default for Recording {
    fn default() -> Recording {
        Recording { bytes: BEGINNING.to_vec(), sequences: 0, calls: 0, answers: Digest::NONE }
    }
}

impl Recording {
    /// Runs a sequence beside the model and records its calls, or tells the first difference.
    pub fn sequence(&mut self, tried: Tried, seed: u64, coverage: &mut Coverage) -> Result<(), Difference> {
        self.sequences += 1;
        self.item(Item::Sequence).large(seed);
        let (mut changed, mut difference) = (Some(Lent::zeroed()), None);
        runs::walk(tried, seed, |step, came, pair| match (step, came) {
            (Step::Call(call), Ok(Some(answer))) => {
                coverage.count(&answer);
                changed.take().iter().for_each(|table| self.table(table));
                self.call(&call);
                self.answer(&answer, pair.table());
            }
            (_, Ok(_)) => changed = Some(pair.table().clone()),
            (_, Err(told)) => difference = Some(told),
        });
        difference.map_or(Ok(()), Err)
    }

    /// The line with which replay.c ends.
    pub fn line(&self) -> String {
        format!("{} sequences, {} calls, digest of all answers {:016x}", self.sequences, self.calls, self.answers.0)
    }

    /// All bytes of the recording.
    pub fn finish(mut self) -> Vec<u8> {
        self.item(Item::End);
        self.large(Digest::NONE.with(&self.bytes).0);
        self.bytes
    }
}

// ---- items
impl Recording {
    fn part(&mut self, bytes: &[u8]) -> &mut Recording {
        self.bytes.extend(bytes);
        self
    }

    fn small(&mut self, number: u32) -> &mut Recording {
        self.part(&number.to_le_bytes())
    }

    fn large(&mut self, number: u64) -> &mut Recording {
        self.part(&number.to_le_bytes())
    }

    fn item(&mut self, item: Item) -> &mut Recording {
        self.small(item as u32)
    }

    fn table(&mut self, lent: &Lent) {
        self.item(Item::Table).small(lent.mappings.len() as u32).small(lent.index.len() as u32);
        self.part(memory(slice::from_ref(&*lent.head))).part(memory(&lent.mappings)).part(memory(&lent.index));
    }

    fn call(&mut self, call: &Call) {
        match call {
            Call::Fresh { limit } => self.item(Item::Fresh).large(*limit),
            Call::Command { request, bytes, area } => self.item(Item::Call).command(*request, bytes, area),
            Call::Preview { request, bytes, area } => self.item(Item::Preview).command(*request, bytes, area),
            Call::Bind { bitmap, reserved } => self.item(Item::Bind).large(*bitmap).part(memory(slice::from_ref(reserved))),
            Call::Attach { device, space } => self.item(Item::Attach).small(*device).small(*space),
            Call::Detach { device } => self.item(Item::Detach).small(*device),
            Call::Reach { device, address, length, write } => self.item(Item::Reach).small(*device).large(*address).large(*length).small(*write),
            Call::Charge => self.item(Item::Charge),
            Call::Next { space, address } => self.item(Item::Next).small(*space).large(*address),
            Call::Explain { request, bytes, words } => self.item(Item::Explain).command(*request, bytes, memory(words)),
        };
    }

    fn command(&mut self, request: u32, bytes: &[u8], area: &[u8]) -> &mut Recording {
        self.small(request).small(bytes.len() as u32).small(area.len() as u32).part(bytes).part(area)
    }

    /// The table is the model's, which was found alike.
    fn answer(&mut self, answer: &Answer, lent: &Lent) {
        let (bytes, area) = match &answer.call {
            Call::Explain { bytes, words, .. } => (&bytes[..], memory(words)),
            call => call.lent_bytes(),
        };
        let table = Digest::NONE.with(memory(slice::from_ref(&*lent.head))).with(memory(&lent.mappings)).with(memory(&lent.index));
        let from = self.bytes.len();
        self.part(&answer.number.result.to_le_bytes()).large(answer.number.value).large(table.with(bytes).with(area).0);
        self.answers = self.answers.with(&self.bytes[from..]);
        self.calls += 1;
    }
}

#[cfg(test)]
mod tests {
    use super::*;
    use crate::{guards, model};

    /// The numbers are those of the paper of FNV.
    #[test]
    fn digests_are_fnv_1a() {
        assert_eq!(Digest::NONE.with(b"a"), Digest(0xAF63_DC4C_8601_EC8C));
        assert_eq!(Digest::NONE.with(b"foo").with(b"bar"), Digest(0x8594_4171_F739_67E8));
    }

    fn recorded(tried: Tried) -> Result<Vec<u8>, Difference> {
        let mut recording = Recording::default();
        recording.sequence(tried, 1, &mut Coverage::default())?;
        Ok(recording.finish())
    }

    #[test]
    fn a_recording_is_made_of_what_was_answered_alike() {
        let archive = recorded(guards::run).unwrap();
        assert_eq!(archive, recorded(|_, lent, call| Ok(model::run(lent, call))).unwrap());
        let (bytes, digest) = archive.split_at(archive.len() - 8);
        assert_eq!(Digest::NONE.with(bytes).0.to_le_bytes(), digest);
        assert!(recorded(|_, _, _| Err("memory beside the head was written")).is_err());
    }

    /// What replay.c takes for the memory of a head is that of the numbers in the header's order.
    #[test]
    fn memory_is_in_order() {
        let mut head = Head { limit: 1, ..Head::default() };
        head.objects[31].allow_lasts[7] = 2;
        let bytes = memory(slice::from_ref(&head));
        assert_eq!((bytes.len(), &bytes[..8], &bytes[bytes.len() - 8..]), (6920, &1u64.to_le_bytes()[..], &2u64.to_le_bytes()[..]));
    }
}
