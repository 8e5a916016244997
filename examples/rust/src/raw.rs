//! The layout of include/iommufd.h and its entries, as C has them, for a caller that lends memory of its own. What each entry asks of its caller stands in the header.
use core::mem::{align_of, size_of};

/// The version of the header that is written down here.
pub const VERSION: u32 = 4;

/// The object records of a table.
pub const OBJECTS: usize = 32;
/// The mapping records of a table.
pub const MAPPINGS: usize = 128;
/// The words of a table's index: the numbers of the mapping records in use, n for record n - 1, by space and then by address, and zeros behind them.
pub const INDEX_WORDS: usize = 128;

/// A mapping's right to write.
pub const RIGHT_WRITE: u32 = 1;
/// A mapping's right to read.
pub const RIGHT_READ: u32 = 2;

/// An object record. Kinds: 0 free, 1 space, 2 loose device, 3 device attached to the space `home`.
#[repr(C)]
#[derive(Clone, Copy, Debug, Default, PartialEq, Eq)]
pub struct Object {
    /// What the record is.
    pub kind: u32,
    /// The space that a device is attached to.
    pub home: u32,
    /// A device's page sizes.
    pub bitmap: u64,
    /// How many ranges a device reserves.
    pub reserved_count: u32,
    /// How many ranges a space's allow list has.
    pub allow_count: u32,
    /// The first addresses of the reserved ranges.
    pub reserved_starts: [u64; 4],
    /// Their last addresses.
    pub reserved_lasts: [u64; 4],
    /// The first addresses of the allow list.
    pub allow_starts: [u64; 8],
    /// Their last addresses.
    pub allow_lasts: [u64; 8],
}

impl Object {
    /// A record that is no object.
    pub const FREE: Object = Object {
        kind: 0,
        home: 0,
        bitmap: 0,
        reserved_count: 0,
        allow_count: 0,
        reserved_starts: [0; 4],
        reserved_lasts: [0; 4],
        allow_starts: [0; 8],
        allow_lasts: [0; 8],
    };
}

/// The limit and the objects. Object i has the id i + 1.
#[repr(C)]
#[derive(Clone, Debug, Default, PartialEq, Eq)]
pub struct Head {
    /// The most pages that may be charged.
    pub limit: u64,
    /// The object records.
    pub objects: [Object; OBJECTS],
}

impl Head {
    /// No objects, and a limit of 0 pages.
    pub const EMPTY: Head = Head { limit: 0, objects: [Object::FREE; OBJECTS] };
}

/// A mapping record. A released record is all zero.
#[repr(C)]
#[derive(Clone, Copy, Debug, Default, PartialEq, Eq)]
pub struct Mapping {
    /// The space's id, 0 where the record is released.
    pub space: u32,
    /// [`RIGHT_WRITE`] and [`RIGHT_READ`].
    pub rights: u32,
    /// 1 where the founding MAP was writeable.
    pub founder: u32,
    /// The backing's number, 1 to 128.
    pub backing: u32,
    /// The first address.
    pub address: u64,
    /// The length in bytes.
    pub length: u64,
    /// The first byte of memory.
    pub memory: u64,
}

impl Mapping {
    /// A record that is no mapping.
    pub const RELEASED: Mapping = Mapping { space: 0, rights: 0, founder: 0, backing: 0, address: 0, length: 0, memory: 0 };
}

/// The words of a host call.
pub const HOST_WORDS: usize = 10;

/// A host call for `iommufd_host`: its kind, and its numbers in ten words. What it tells comes back in the first.
#[derive(Clone, Copy, Debug, PartialEq, Eq)]
pub struct Host {
    /// Which call it is.
    pub kind: u32,
    /// Its numbers, from the first word on.
    pub words: [u64; HOST_WORDS],
}

impl Host {
    /// An empty table with a charge limit.
    pub const FRESH: u32 = 0;
    /// A new device.
    pub const BIND: u32 = 1;
    /// A device to a space.
    pub const ATTACH: u32 = 2;
    /// A device from its space.
    pub const DETACH: u32 = 3;
    /// The memory that a device gets to. The entry writes neither head nor records nor index.
    pub const REACH: u32 = 4;
    /// The pages that are charged. The entry writes neither head nor records nor index.
    pub const CHARGE: u32 = 5;
    /// The mapping of a space from an address on. The entry writes neither head nor records nor index.
    pub const NEXT: u32 = 6;

    #[inline]
    fn of(kind: u32, numbers: &[u64]) -> Host {
        let mut words = [0; HOST_WORDS];
        for (word, number) in words.iter_mut().zip(numbers) {
            *word = *number;
        }
        Host { kind, words }
    }

    /// C's `iommufd_fresh`.
    #[inline]
    pub fn fresh(limit: u64) -> Host {
        Host::of(Host::FRESH, &[limit])
    }

    /// C's `iommufd_bind`.
    #[inline]
    pub fn bind(bitmap: u64, reserved: &Reserved) -> Host {
        let (count, [s0, s1, s2, s3], [l0, l1, l2, l3]) = (reserved.count.into(), reserved.starts, reserved.lasts);
        Host::of(Host::BIND, &[bitmap, count, s0, s1, s2, s3, l0, l1, l2, l3])
    }

    /// C's `iommufd_attach`.
    #[inline]
    pub fn attach(device: u32, space: u32) -> Host {
        Host::of(Host::ATTACH, &[device.into(), space.into()])
    }

    /// C's `iommufd_detach`.
    #[inline]
    pub fn detach(device: u32) -> Host {
        Host::of(Host::DETACH, &[device.into()])
    }

    /// C's `iommufd_reach`.
    #[inline]
    pub fn reach(device: u32, address: u64, length: u64, write: u32) -> Host {
        Host::of(Host::REACH, &[device.into(), address, length, write.into()])
    }

    /// C's `iommufd_charge`.
    #[inline]
    pub fn charge() -> Host {
        Host::of(Host::CHARGE, &[])
    }

    /// C's `iommufd_next`.
    #[inline]
    pub fn next(space: u32, address: u64) -> Host {
        Host::of(Host::NEXT, &[space.into(), address])
    }
}

/// The reserved ranges of a device to bind.
#[repr(C)]
#[derive(Clone, Copy, Debug, Default, PartialEq, Eq)]
pub struct Reserved {
    /// How many; at most 4 are taken.
    pub count: u32,
    /// Not read.
    pub spare: u32,
    /// Their first addresses.
    pub starts: [u64; 4],
    /// Their last addresses.
    pub lasts: [u64; 4],
}

/// The words of an [`Explanation`].
pub const EXPLAIN_WORDS: usize = 5;

/// Why a MAP or a COPY is refused, in numbers; [`crate::Reason`] has it in words.
#[repr(C)]
#[derive(Clone, Copy, Debug, Default, PartialEq, Eq)]
pub struct Explanation {
    /// C's `enum iommufd_reason`.
    pub reason: u64,
    /// The errno that the call would answer, as a positive number; 0 where it would be accepted.
    pub error: u64,
    /// The object or the mapping record that is named, else 0.
    pub number: u64,
    /// The start of the longest free run.
    pub start: u64,
    /// Its length; 0 where there is no run.
    pub length: u64,
}

/// A result with a number beside it.
#[repr(C)]
#[derive(Clone, Copy, Debug, Default, PartialEq, Eq)]
pub struct Number {
    /// 0 or the negative of an errno.
    pub result: i32,
    /// 0 beside a refusal.
    pub value: u64,
}

// The archive takes the head as 865 words, two fields of 32 bits in one of them.
const _: () = assert!(cfg!(target_endian = "little") && align_of::<Head>() == 8 && align_of::<Mapping>() == 8);
const _: () = assert!(size_of::<Object>() == 216);
const _: () = assert!(size_of::<Head>() == 865 * 8);
const _: () = assert!(size_of::<Mapping>() == 40);
const _: () = assert!(size_of::<Reserved>() == 72);
const _: () = assert!(size_of::<Number>() == 16);
const _: () = assert!(size_of::<Explanation>() == 8 * EXPLAIN_WORDS);

#[allow(missing_docs)] // include/iommufd.h says what each entry does; `beside` is the index
extern "C" {
    pub static iommufd_archive_version: u32;
    pub fn iommufd_call(
        head: *mut Head,
        mappings: *mut Mapping,
        count: usize,
        beside: *mut u64,
        beside_count: usize,
        request: u32,
        command: *mut u8,
        command_size: usize,
        area: *mut u8,
        area_size: usize,
    ) -> i32;
    pub fn iommufd_preview(
        head: *const Head,
        mappings: *const Mapping,
        count: usize,
        beside: *const u64,
        beside_count: usize,
        request: u32,
        command: *mut u8,
        command_size: usize,
        area: *mut u8,
        area_size: usize,
    ) -> i32;
    pub fn iommufd_explain(
        head: *const Head,
        mappings: *const Mapping,
        count: usize,
        beside: *const u64,
        beside_count: usize,
        request: u32,
        command: *const u8,
        command_size: usize,
        explanation: *mut Explanation,
    ) -> i32;
    pub fn iommufd_host(
        head: *mut Head,
        mappings: *mut Mapping,
        count: usize,
        beside: *mut u64,
        beside_count: usize,
        kind: u32,
        words: *mut u64,
        words_count: usize,
    ) -> i32;
}
