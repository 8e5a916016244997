//! A driver's command from user space: copied in, run, and its reply copied back. A kernel gives the two ways to a program's memory, and its ioctl is
//!
//! ```
//! # use iommufd::{ioctl::{Ioctl, UserMemory}, Table};
//! # fn handler(lock: &std::sync::Mutex<Table>, request: u32, argument: u64, user: &mut impl UserMemory) -> i32 {
//! let mut ioctl = Ioctl::receive(request, argument, user);
//! let answer = ioctl.run(&mut lock.lock().unwrap());
//! ioctl.reply(answer, user)
//! # }
//! ```
//!
//! so that the lock is held while nothing is copied. Each byte of the program is read once: what it changes meanwhile is not seen.
use crate::command::{at, half, word, AllowIovas, IovaRanges, MOST_ALLOWED, MOST_RANGES, RANGE};
use crate::{request, Errno, Table};
use core::ops::Range;

/// The most bytes of a command that are copied. A command that says more is refused with [`Errno::Fault`], as one that says more than it lends.
pub const LONGEST_COMMAND: usize = 256;

const SIZE_FIELD: usize = 4;

/// The memory of the program that sends a command, as the kernel gets to it. Addresses are the program's.
pub trait UserMemory {
    /// Fills `into` from an address on. False where a byte of it cannot be read.
    fn read(&mut self, from: u64, into: &mut [u8]) -> bool;

    /// Writes bytes from an address on. False where a byte of it cannot be written.
    fn write(&mut self, to: u64, bytes: &[u8]) -> bool;
}

/// A command on its way, with the kernel's copy of its bytes and of its list of ranges: 2.3 KB.
#[derive(Clone, Debug)]
pub struct Ioctl {
    request: u32,
    /// Where the command lies in the program's memory.
    argument: u64,
    command: [u8; LONGEST_COMMAND],
    /// How many bytes of the command are lent to the archive.
    lent: usize,
    area: [u8; RANGE * MOST_RANGES],
    /// How many ranges of the area are lent to the archive.
    room: usize,
}

impl Ioctl {
    /// Copies a command, and the list of an ALLOW_IOVAS. What cannot be read is not lent, so that the archive refuses it in its due place among the checks.
    pub fn receive(request: u32, argument: u64, user: &mut impl UserMemory) -> Ioctl {
        let (command, area) = ([0; LONGEST_COMMAND], [0; RANGE * MOST_RANGES]);
        let mut ioctl = Ioctl { request, argument, command, lent: 0, area, room: 0 };
        ioctl.receive_command(user);
        match request {
            request::ALLOW_IOVAS if ioctl.lent >= AllowIovas::SIZE => ioctl.receive_list(user),
            request::IOVA_RANGES if ioctl.lent >= IovaRanges::SIZE => ioctl.make_room(),
            _ => {}
        }
        ioctl
    }

    /// Runs the command on a table.
    pub fn run(&mut self, table: &mut Table) -> Result<(), Errno> {
        table.call(self.request, first(&mut self.command, self.lent), first(&mut self.area, RANGE * self.room))
    }

    /// What [`Ioctl::run`] would answer now. The table stays, and so does the command.
    pub fn preview(&mut self, table: &Table) -> Result<(), Errno> {
        let mut command = self.command;
        table.preview(self.request, first(&mut command, self.lent), first(&mut self.area, RANGE * self.room))
    }

    /// Copies back what the command has written, and gives the result of the ioctl: 0 or the negative of an errno. Where the program's memory cannot be written that is
    /// [`Errno::Fault`], though an accepted command has changed the table.
    pub fn reply(&self, answer: Result<(), Errno>, user: &mut impl UserMemory) -> i32 {
        match answer {
            Ok(()) | Err(Errno::MsgSize) if !self.copy_back(user) => Errno::Fault.result(),
            Ok(()) => 0,
            Err(errno) => errno.result(),
        }
    }

    /// The size field, then as many bytes as it says.
    fn receive_command(&mut self, user: &mut impl UserMemory) {
        let (size, rest) = self.command.split_at_mut(SIZE_FIELD);
        if !user.read(self.argument, size) {
            return;
        }
        self.lent = SIZE_FIELD;
        let more = (half(size, 0) as usize).saturating_sub(SIZE_FIELD).min(rest.len());
        let from = self.argument.checked_add(SIZE_FIELD as u64);
        if from.is_some_and(|from| user.read(from, first(rest, more))) {
            self.lent = SIZE_FIELD + more;
        }
    }

    /// The list of an ALLOW_IOVAS. A count above the most that are allowed is refused before a range is read.
    fn receive_list(&mut self, user: &mut impl UserMemory) {
        let count = self.count().min(MOST_ALLOWED);
        if user.read(word(&self.command, at::POINTER), first(&mut self.area, RANGE * count)) {
            self.room = count;
        }
    }

    /// Room for the list of an IOVA_RANGES. A count above the most that there can be is answered as that most is.
    fn make_room(&mut self) {
        self.room = self.count().min(MOST_RANGES);
        self.command[at::COUNT..at::COUNT + 4].copy_from_slice(&(self.room as u32).to_le_bytes());
    }

    /// The count of a list, or after an IOVA_RANGES the full number.
    fn count(&self) -> usize {
        half(&self.command, at::COUNT) as usize
    }

    /// The list of an IOVA_RANGES, as far as it was written, then the output fields.
    fn copy_back(&self, user: &mut impl UserMemory) -> bool {
        let written = if self.request == request::IOVA_RANGES { self.count().min(self.room) } else { 0 };
        let list = self.area.get(..RANGE * written).unwrap_or_default();
        let listed = list.is_empty() || user.write(word(&self.command, at::POINTER), list);
        listed && outputs(self.request).iter().all(|field| self.copy_field(field.clone(), user))
    }

    fn copy_field(&self, field: Range<usize>, user: &mut impl UserMemory) -> bool {
        let to = self.argument.checked_add(field.start as u64);
        to.zip(self.command.get(field)).is_some_and(|(to, bytes)| user.write(to, bytes))
    }
}

/// So many bytes from the start, or all where there are fewer.
fn first(bytes: &mut [u8], count: usize) -> &mut [u8] {
    let end = count.min(bytes.len());
    &mut bytes[..end]
}

/// The fields that a command's reply writes.
fn outputs(request: u32) -> &'static [Range<usize>] {
    const fn half(at: usize) -> Range<usize> {
        at..at + 4
    }
    const fn word(at: usize) -> Range<usize> {
        at..at + 8
    }
    match request {
        request::IOAS_ALLOC => const { &[half(at::SPACE_MADE)] },
        request::COPY => const { &[word(at::COPY_ADDRESS)] },
        request::IOVA_RANGES => const { &[half(at::COUNT), word(at::ALIGNMENT)] },
        request::MAP => const { &[word(at::MAP_ADDRESS)] },
        request::UNMAP => const { &[word(at::REMOVED)] },
        _ => &[],
    }
}
