//! The map from device addresses to memory, for a kernel in Rust: a safe wrapper of the proved archive libiommufd.a. It needs no std and never allocates.
//!
//! A [`Table`] is 13 KB of plain memory. A kernel keeps it in a static behind its own lock; a call takes the table by `&mut`, or by `&` where it only reads, so that one call
//! runs at a time:
//!
//! ```
//! use iommufd::{command::Map, Access, Errno, Place, Range, Rights, Table};
//! use std::sync::Mutex; // the kernel's own lock
//!
//! static TABLE: Mutex<Table> = Mutex::new(Table::empty());
//!
//! # fn main() -> Result<(), Errno> {
//! let mut table = TABLE.lock().unwrap();
//! table.fresh(1024)?;
//! let space = table.alloc_space()?;
//! let camera = table.bind(4096, &[Range::new(0xFEE0_0000, 0xFEEF_FFFF)])?;
//! table.attach(camera, space)?;
//! let address = table.map(Map { space, rights: Rights::READ, memory: 0x10_0000, length: 0x4000, place: Place::Automatic })?;
//! assert_eq!(table.reach(camera, address + 0x1000, 8, Access::Read), Ok(0x10_1000));
//! assert_eq!(table.reach(camera, address + 0x1000, 8, Access::Write), Err(Errno::Perm));
//! # Ok(())
//! # }
//! ```
//!
//! - Commands that the kernel itself gives have types in [`command`], and a method of [`Table`] each.
//! - A driver's command comes as a request number and bytes: [`Table::call`] takes them where the kernel has copied them; [`ioctl::Ioctl`] does the copying too.
//! - Beside each command stands a `preview`: what it would answer now, while the table stays. A kernel pins pages and programs hardware between the two.
//! - Where a MAP or a COPY is refused, [`Table::explain`] says which check failed, which object or record stands in the way, and how long the longest free run is.
//! - [`raw`] has C's own layout and entries, for a caller that lends memory of its own.
//!
//! What the types do not say, and a kernel owes: the stack that include/iommufd.h states as IOMMUFD_STACK, below every call, and memcpy, memmove and memset to link with.
#![no_std]
#![forbid(unsafe_op_in_unsafe_fn)]
#![deny(unsafe_code)]
#![warn(missing_docs)]

pub mod command;
mod errno;
pub mod ioctl;
mod mappings;
pub mod raw;
mod reason;
mod table;
mod typed;

pub use command::{FreeRanges, Place, Range, Rights, FIXED, MOST_ALLOWED, MOST_RANGES, READABLE, WRITEABLE};
pub use errno::Errno;
pub use mappings::{Mapping, Mappings, Walk};
pub use reason::{Reason, Run};
pub use table::{archive_version, Access, Table};

/// The request numbers of the seven commands.
pub mod request {
    /// An object that nothing is attached to goes, a space with its mappings.
    pub const DESTROY: u32 = 0x3B80;
    /// A new space.
    pub const IOAS_ALLOC: u32 = 0x3B81;
    /// A space's allow list, from the range area.
    pub const ALLOW_IOVAS: u32 = 0x3B82;
    /// A mapping of a source's memory in a target space.
    pub const COPY: u32 = 0x3B83;
    /// What no device of a space reserves.
    pub const IOVA_RANGES: u32 = 0x3B84;
    /// A new mapping.
    pub const MAP: u32 = 0x3B85;
    /// The mappings inside a range go.
    pub const UNMAP: u32 = 0x3B86;
}
