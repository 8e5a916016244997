//! The table and the calls on it. All unsafe code of the wrapper stands here: the calls of the archive's C entries, and the reading of its version.
#![allow(unsafe_code)]
use crate::command::Range;
use crate::errno::{done, Errno};
use crate::mappings::{Mapping, Mappings, Walk};
use crate::raw::{self, Host};
use crate::reason::Reason;

/// A table: spaces, devices, mappings and the index of the mappings, 13 KB, laid out as C's `struct iommufd_table`. What it holds comes from the archive alone, so that it
/// is never bad; a clone is as good as what it was made from.
#[repr(C)]
#[derive(Clone, Debug, PartialEq, Eq)]
pub struct Table {
    head: raw::Head,
    mappings: [raw::Mapping; raw::MAPPINGS],
    index: [u64; raw::INDEX_WORDS],
}

/// What a device does at an address.
#[derive(Clone, Copy, Debug, PartialEq, Eq, Hash)]
pub enum Access {
    /// It reads.
    Read,
    /// It writes.
    Write,
}

impl Table {
    /// A table without objects whose limit is 0 pages. All its bytes are 0, so that a static of it takes no room in a kernel's image; [`Table::fresh`] gives it a limit.
    pub const fn empty() -> Table {
        Table { head: raw::Head::EMPTY, mappings: [raw::Mapping::RELEASED; raw::MAPPINGS], index: [0; raw::INDEX_WORDS] }
    }

    /// A table without objects and with a charge limit in pages, at most 2^36; above that [`Errno::Inval`]. It comes by value, 13 KB on the stack: who cannot afford that calls
    /// [`Table::fresh`] on a table that stands where it is to stay.
    pub fn new(limit: u64) -> Result<Table, Errno> {
        let mut table = Table::empty();
        table.fresh(limit)?;
        Ok(table)
    }

    /// Makes this table one without objects, whatever it held, with a charge limit in pages, at most 2^36. Above that [`Errno::Inval`], and the table stays as it was.
    pub fn fresh(&mut self, limit: u64) -> Result<(), Errno> {
        self.host(Host::fresh(limit)).map(|_| ())
    }
}

/// A driver's command as bytes.
impl Table {
    /// Runs a command: a request number, the command's bytes and the range area, with the list of ALLOW_IOVAS or room for that of IOVA_RANGES. Any number and any bytes are
    /// answered. The reply is written into the bytes and the area; a refusal writes nothing, but that of [`Errno::MsgSize`].
    pub fn call(&mut self, request: u32, command: &mut [u8], area: &mut [u8]) -> Result<(), Errno> {
        // SAFETY: head, records and index are fields of a table that is borrowed for the call, so valid, aligned, apart, and nobody else's, with the layout of the header,
        // which tests/header.rs compares; the lengths are theirs. Command and area are slices borrowed by `&mut`: valid for their lengths, apart from each other and from
        // the table, and a slice's pointer is not null where the slice is empty.
        let result = unsafe {
            raw::iommufd_call(
                &mut self.head,
                self.mappings.as_mut_ptr(),
                self.mappings.len(),
                self.index.as_mut_ptr(),
                self.index.len(),
                request,
                command.as_mut_ptr(),
                command.len(),
                area.as_mut_ptr(),
                area.len(),
            )
        };
        done(result).map(|_| ())
    }

    /// What [`Table::call`] would answer now, with the same reply in the bytes and the area. The table stays.
    pub fn preview(&self, request: u32, command: &mut [u8], area: &mut [u8]) -> Result<(), Errno> {
        // SAFETY: head, records and index are borrowed by `&`, and the entry only reads them; the rest as in `call`.
        let result = unsafe {
            raw::iommufd_preview(
                &self.head,
                self.mappings.as_ptr(),
                self.mappings.len(),
                self.index.as_ptr(),
                self.index.len(),
                request,
                command.as_mut_ptr(),
                command.len(),
                area.as_mut_ptr(),
                area.len(),
            )
        };
        done(result).map(|_| ())
    }

    /// Why [`Table::call`] would refuse this MAP or COPY now; nothing where it would accept it. Any other request is [`Errno::NoTty`]. Table and bytes stay.
    pub fn explain(&self, request: u32, command: &[u8]) -> Result<Option<Reason>, Errno> {
        let mut told = raw::Explanation::default();
        // SAFETY: as in `preview`; the command is borrowed by `&` and only read, and the explanation is a variable of this function.
        let result = unsafe {
            raw::iommufd_explain(
                &self.head,
                self.mappings.as_ptr(),
                self.mappings.len(),
                self.index.as_ptr(),
                self.index.len(),
                request,
                command.as_ptr(),
                command.len(),
                &mut told,
            )
        };
        done(result).map(|_| Reason::of(&told))
    }
}

/// The two ways to the host calls. What the call tells, 0 where that is nothing.
impl Table {
    fn host(&mut self, mut host: Host) -> Result<u64, Errno> {
        let (mappings, index) = ((self.mappings.as_mut_ptr(), self.mappings.len()), (self.index.as_mut_ptr(), self.index.len()));
        let words = (host.words.as_mut_ptr(), host.words.len());
        // SAFETY: the table as in `call`; the words are a variable of this function.
        let result = unsafe { raw::iommufd_host(&mut self.head, mappings.0, mappings.1, index.0, index.1, host.kind, words.0, words.1) };
        done(result).map(|_| host.words[0])
    }

    /// For the kinds that only read, which is their caller's to see to: reach, charge and next.
    fn ask(&self, mut host: Host) -> Result<u64, Errno> {
        let head = (&raw const self.head).cast_mut();
        let (mappings, index) = ((self.mappings.as_ptr().cast_mut(), self.mappings.len()), (self.index.as_ptr().cast_mut(), self.index.len()));
        let words = (host.words.as_mut_ptr(), host.words.len());
        // SAFETY: head, records and index are borrowed by `&`, and for a kind that only reads the entry writes none of them; the rest as in `host`.
        let result = unsafe { raw::iommufd_host(head, mappings.0, mappings.1, index.0, index.1, host.kind, words.0, words.1) };
        done(result).map(|_| host.words[0])
    }
}

/// The host calls, and what a table tells.
impl Table {
    /// A new device, attached to nothing, with its page sizes and at most 4 reserved ranges; more are refused. The answer is its id.
    pub fn bind(&mut self, bitmap: u64, ranges: &[Range]) -> Result<u32, Errno> {
        let mut reserved = raw::Reserved { count: u32::try_from(ranges.len()).unwrap_or(u32::MAX), ..raw::Reserved::default() };
        let places = reserved.starts.iter_mut().zip(reserved.lasts.iter_mut());
        for ((start, last), range) in places.zip(ranges) {
            (*start, *last) = (range.start, range.last);
        }
        // an id is at most 32
        self.host(Host::bind(bitmap, &reserved)).map(|id| id as u32)
    }

    /// A device to a space, whose mappings and allow list have to fit the device's page size and reserved ranges.
    pub fn attach(&mut self, device: u32, space: u32) -> Result<(), Errno> {
        self.host(Host::attach(device, space)).map(|_| ())
    }

    /// A device from its space. Mappings stay.
    pub fn detach(&mut self, device: u32) -> Result<(), Errno> {
        self.host(Host::detach(device)).map(|_| ())
    }

    /// The memory that a device gets to with so many bytes at an address: they lie wholly inside one mapping of its space that has the right.
    pub fn reach(&self, device: u32, address: u64, length: u64, access: Access) -> Result<u64, Errno> {
        self.ask(Host::reach(device, address, length, u32::from(access == Access::Write)))
    }

    /// The pages of all backings, each counted once. They never pass the limit.
    pub fn charge(&self) -> Result<u64, Errno> {
        self.ask(Host::charge())
    }

    /// The mapping with the lowest address among those of a space that end at an address or behind it.
    pub fn next(&self, space: u32, address: u64) -> Result<Option<Mapping>, Errno> {
        self.ask(Host::next(space, address)).map(|number| Mapping::numbered(&self.mappings, number))
    }

    /// The mappings of a space that share an address with a range, in ascending address, each by [`Table::next`]; none for an id that is no space. An accepted UNMAP of the
    /// range takes exactly these, so that who has to unpin what goes walks here before.
    pub fn mappings_in(&self, space: u32, range: Range) -> Walk<'_> {
        Walk::over(self, space, range)
    }

    /// The mappings of a space in ascending address; none for an id that is no space.
    pub fn mappings_of(&self, space: u32) -> Mappings<'_> {
        Mappings::of(&self.mappings, &self.index, space)
    }
}

/// The version of the header that the archive was built with. This wrapper is of [`raw::VERSION`]; a kernel compares the two once, before its first table.
pub fn archive_version() -> u32 {
    // SAFETY: the archive has this number among its constants, and nobody writes it.
    unsafe { raw::iommufd_archive_version }
}
