//! The archive as a system: each call through its C entry.
use crate::calls::{Call, Lent};
use iommufd::raw::{self, Head, Host, Mapping, Number};
use std::mem::take;

/// The parts of a table, each lent by itself.
pub struct Parts<'a> {
    pub head: &'a mut Head,
    pub mappings: &'a mut [Mapping],
    pub index: &'a mut [u64],
}

/// The call through libiommufd.a.
pub fn run(lent: &mut Lent, call: &mut Call) -> Number {
    let mut parts = Parts { head: &mut lent.head, mappings: &mut lent.mappings, index: &mut lent.index };
    if let Call::Explain { request, bytes, words } = call {
        return explain(&parts, *request, bytes, words);
    }
    let (mut bytes, mut area) = match call {
        Call::Command { bytes, area, .. } | Call::Preview { bytes, area, .. } => (take(bytes), take(area)),
        _ => (vec![], vec![]),
    };
    let own = Own { bytes: &mut bytes, area: &mut area, words: &mut [] };
    let number = lend(&mut parts, call, own, |parts, host| enter(parts, host.kind, &mut host.words));
    if let Call::Command { bytes: b, area: a, .. } | Call::Preview { bytes: b, area: a, .. } = call {
        (*b, *a) = (bytes, area);
    }
    number
}

/// What is lent beside the table: the bytes and the area of a command, and the words that an explanation goes into.
pub struct Own<'a> {
    pub bytes: &'a mut [u8],
    pub area: &'a mut [u8],
    pub words: &'a mut [u64],
}

/// The call on parts of memory that are lent one by one. The bytes, the area and the words are those lent here, not those in the call. A host call goes to its entry
/// by a way of its own, which leaves what it was told in the first word, and gives the result.
pub fn lend(parts: &mut Parts, call: &Call, own: Own, way: impl FnOnce(&mut Parts, &mut Host) -> i32) -> Number {
    let Own { bytes, area, words } = own;
    let mut host = match call {
        Call::Command { request, .. } => return command(parts, *request, bytes, area),
        Call::Preview { request, .. } => return preview(parts, *request, bytes, area),
        Call::Explain { request, .. } => return explain(parts, *request, bytes, words),
        Call::Fresh { limit } => Host::fresh(*limit),
        Call::Bind { bitmap, reserved } => Host::bind(*bitmap, reserved),
        Call::Attach { device, space } => Host::attach(*device, *space),
        Call::Detach { device } => Host::detach(*device),
        Call::Reach { device, address, length, write } => Host::reach(*device, *address, *length, *write),
        Call::Charge => Host::charge(),
        Call::Next { space, address } => Host::next(*space, *address),
    };
    let result = way(parts, &mut host);
    answer(&host, result)
}

/// A result as the header's functions give it: bind's id is its result, and fresh tells nothing. Next's number, which is its result there, stands here as the whole
/// word in which it comes.
fn answer(host: &Host, result: i32) -> Number {
    match host.kind {
        _ if result < 0 => Number { result, value: 0 },
        Host::FRESH => Number { result, value: 0 },
        Host::BIND => Number { result: host.words[0] as i32, value: 0 },
        _ => Number { result, value: host.words[0] },
    }
}

fn command(Parts { head, mappings, index }: &mut Parts, request: u32, bytes: &mut [u8], area: &mut [u8]) -> Number {
    let ((mappings, count), (index, words)) = ((mappings.as_mut_ptr(), mappings.len()), (index.as_mut_ptr(), index.len()));
    let ((bytes, size), (area, area_size)) = ((bytes.as_mut_ptr(), bytes.len()), (area.as_mut_ptr(), area.len()));
    // SAFETY: head, records, index, command and area are borrowed, distinct and valid for the whole call; an empty slice's pointer is aligned and not null.
    let result = unsafe { raw::iommufd_call(*head, mappings, count, index, words, request, bytes, size, area, area_size) };
    Number { result, value: 0 }
}

fn preview(Parts { head, mappings, index }: &Parts, request: u32, bytes: &mut [u8], area: &mut [u8]) -> Number {
    let ((mappings, count), (index, words)) = ((mappings.as_ptr(), mappings.len()), (index.as_ptr(), index.len()));
    let ((bytes, size), (area, area_size)) = ((bytes.as_mut_ptr(), bytes.len()), (area.as_mut_ptr(), area.len()));
    // SAFETY: as for a command.
    let result = unsafe { raw::iommufd_preview(*head, mappings, count, index, words, request, bytes, size, area, area_size) };
    Number { result, value: 0 }
}

fn explain(Parts { head, mappings, index }: &Parts, request: u32, bytes: &[u8], told: &mut [u64]) -> Number {
    assert_eq!(size_of_val(told), size_of::<raw::Explanation>());
    let ((mappings, count), (index, words)) = ((mappings.as_ptr(), mappings.len()), (index.as_ptr(), index.len()));
    // SAFETY: as for a command; five words are lent, and neither table nor bytes are written.
    let result = unsafe { raw::iommufd_explain(*head, mappings, count, index, words, request, bytes.as_ptr(), bytes.len(), told.as_mut_ptr().cast()) };
    Number { result, value: 0 }
}

/// The entry of the host calls.
pub fn enter(Parts { head, mappings, index }: &mut Parts, kind: u32, words: &mut [u64]) -> i32 {
    let ((mappings, count), (index, index_words)) = ((mappings.as_mut_ptr(), mappings.len()), (index.as_mut_ptr(), index.len()));
    // SAFETY: head, records and index as for a command; the words are borrowed too.
    unsafe { raw::iommufd_host(*head, mappings, count, index, index_words, kind, words.as_mut_ptr(), words.len()) }
}
