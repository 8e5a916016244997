//! The index of a table that is lent in parts, through the raw entries: what it lists after each call, and that any other is refused.
use iommufd::command::{Copy, Destroy, IoasAlloc, Map, Unmap};
use iommufd::raw::{self, Explanation, Head, Host, Mapping};
use iommufd::{Place, Rights};

const FILLER: Explanation = Explanation { reason: 91, error: 92, number: 93, start: 94, length: 95 };

#[derive(Clone, PartialEq, Debug)]
struct Parts {
    head: Head,
    mappings: Vec<Mapping>,
    index: Vec<u64>,
}

impl Parts {
    /// Over memory that held anything.
    fn fresh() -> Parts {
        let mut parts = Parts { head: Head { limit: 9, ..Head::EMPTY }, mappings: vec![Mapping::RELEASED; raw::MAPPINGS], index: vec![77; raw::INDEX_WORDS] };
        assert_eq!(parts.host(Host::fresh(1 << 36)), 0);
        assert_eq!(parts.index, [0; raw::INDEX_WORDS]);
        parts
    }

    fn host(&mut self, mut host: Host) -> i32 {
        let (mappings, index) = ((self.mappings.as_mut_ptr(), self.mappings.len()), (self.index.as_mut_ptr(), self.index.len()));
        let words = (host.words.as_mut_ptr(), host.words.len());
        // SAFETY: all parts are borrowed or a variable here, and apart.
        unsafe { raw::iommufd_host(&mut self.head, mappings.0, mappings.1, index.0, index.1, host.kind, words.0, words.1) }
    }

    fn call(&mut self, request: u32, bytes: &mut [u8]) -> i32 {
        let (mappings, index) = ((self.mappings.as_mut_ptr(), self.mappings.len()), (self.index.as_mut_ptr(), self.index.len()));
        let (command, size) = (bytes.as_mut_ptr(), bytes.len());
        // SAFETY: as above; no range area is lent.
        unsafe { raw::iommufd_call(&mut self.head, mappings.0, mappings.1, index.0, index.1, request, command, size, std::ptr::null_mut(), 0) }
    }

    /// Why a MAP is refused: the entry's result, and what it leaves where numbers stood before.
    fn explain(&self, request: u32, bytes: &[u8]) -> (i32, Explanation) {
        let mut told = FILLER;
        let (mappings, index) = ((self.mappings.as_ptr(), self.mappings.len()), (self.index.as_ptr(), self.index.len()));
        // SAFETY: as above; the entry only reads what is borrowed by `&`.
        let result = unsafe { raw::iommufd_explain(&self.head, mappings.0, mappings.1, index.0, index.1, request, bytes.as_ptr(), bytes.len(), &mut told) };
        (result, told)
    }

    fn space(&mut self) {
        assert_eq!(self.call(IoasAlloc::REQUEST, &mut IoasAlloc.bytes()), 0);
    }

    fn map(&mut self, space: u32, address: u64) -> i32 {
        let map = Map { space, rights: Rights::READ, memory: 0x10_0000, length: 0x10, place: Place::Fixed(address) };
        self.call(Map::REQUEST, &mut map.bytes())
    }

    /// The numbers before the zeros, of which there have to be all others.
    fn listed(&self) -> &[u64] {
        let (listed, rest) = self.index.split_at(self.index.iter().position(|number| *number == 0).unwrap_or(self.index.len()));
        assert!(rest.iter().all(|number| *number == 0), "{:?}", self.index);
        listed
    }
}

/// Records 1 to 4 in two spaces, none of them in the order of addresses.
fn four() -> Parts {
    let mut parts = Parts::fresh();
    parts.space();
    parts.space();
    for (space, address, listed) in [(2, 0x100, &[1][..]), (1, 0x300, &[2, 1]), (1, 0x200, &[3, 2, 1]), (2, 0, &[3, 2, 4, 1])] {
        assert_eq!(parts.map(space, address), 0);
        assert_eq!(parts.listed(), listed);
    }
    parts
}

#[test]
fn every_call_keeps_it() {
    let mut parts = four();
    let copy = Copy { target: 1, rights: Rights::READ, place: Place::Fixed(0x250), source: 2, source_address: 0, length: 0x10 };
    assert_eq!(parts.call(Copy::REQUEST, &mut copy.bytes()), 0);
    assert_eq!(parts.listed(), [3, 5, 2, 4, 1]);
    assert_eq!(parts.call(Unmap::REQUEST, &mut Unmap { space: 1, address: 0x200, length: 0x60 }.bytes()), 0);
    assert_eq!(parts.listed(), [2, 4, 1]);
    assert_eq!(parts.map(2, 0x50), 0); // in the lowest record that is free
    assert_eq!(parts.listed(), [2, 4, 3, 1]);
    let map = Map { space: 2, rights: Rights::READ, memory: 0x10_0000, length: 0x10, place: Place::Fixed(0x58) };
    assert_eq!(parts.explain(Map::REQUEST, &map.bytes()), (0, Explanation { reason: 17, error: 17, number: 3, start: 0, length: 0 }));
    assert_eq!(parts.explain(Unmap::REQUEST, &Unmap::all(2).bytes()), (-25, FILLER));
    assert_eq!([parts.map(2, 0x58), parts.map(3, 0)], [-17, -2]);
    assert_eq!(parts.host(Host::charge()), 0);
    assert_eq!(parts.listed(), [2, 4, 3, 1]);
    assert_eq!(parts.call(Destroy::REQUEST, &mut Destroy { id: 2 }.bytes()), 0);
    assert_eq!(parts.listed(), [2]);
    assert_eq!(parts.host(Host::fresh(0)), 0);
    assert_eq!(parts.listed(), []);
}

#[test]
fn any_other_is_a_bad_table() {
    let others: [fn(&mut Vec<u64>); 10] = [
        |index| index.swap(0, 1),
        |index| index.swap(1, 2),
        |index| index[1] = 3,
        |index| index[4] = 5,
        |index| index[3] = 0,
        |index| index[0] |= 1 << 32,
        |index| index[127] = 1,
        |index| index.truncate(127),
        |index| index.push(0),
        Vec::clear,
    ];
    for other in others {
        let mut parts = four();
        other(&mut parts.index);
        let before = parts.clone();
        assert_eq!([parts.map(1, 0), parts.host(Host::charge()), parts.host(Host::detach(3)), parts.call(0x3B7F, &mut [])], [-117; 4]);
        assert_eq!(parts.host(Host::next(1, 0)), -117);
        assert_eq!([parts.explain(Map::REQUEST, &[]), parts.explain(0x3B7F, &[])], [(-117, FILLER); 2]);
        assert_eq!(parts, before);
        let is_long_enough = parts.index.len() == raw::INDEX_WORDS;
        assert_eq!(parts.host(Host::fresh(1)), if is_long_enough { 0 } else { -117 });
    }
}
