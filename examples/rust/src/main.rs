//! A small kernel shell over the wrapper: two cameras, two spaces, a private and a shared buffer, and what each camera reaches; a mapping at the last address; a driver's
//! bytes through the ioctl.
use iommufd::command::{self, Map, Unmap};
use iommufd::ioctl::{Ioctl, UserMemory};
use iommufd::{request, Access, Errno, Place, Range, Rights, Table};
use std::sync::Mutex;

/// Where a kernel keeps its table: behind a lock of its own.
static TABLE: Mutex<Table> = Mutex::new(Table::empty());

const LAST_PAGE: u64 = u64::MAX - 0xFFF;

fn show<T>(what: &str, answer: Result<T, Errno>) -> Option<T> {
    match answer {
        Ok(value) => {
            println!("{what:<46} done");
            Some(value)
        }
        Err(errno) => {
            println!("{what:<46} refused with {}: {errno}", errno.number());
            None
        }
    }
}

/// A step that has to be accepted.
fn must<T>(what: &str, answer: Result<T, Errno>) -> T {
    show(what, answer).expect("the step is accepted")
}

/// A MAP, and why it was refused: a refusal leaves the table, so that it can be asked behind it.
fn map(table: &mut Table, what: &str, map: Map) -> Option<u64> {
    let address = show(what, table.map(map));
    if let Some(reason) = table.explain_map(map).expect("a good table").filter(|_| address.is_none()) {
        println!("  {reason}");
    }
    address
}

fn reach(table: &Table, what: &str, device: u32, address: u64, length: u64, access: Access) {
    match table.reach(device, address, length, access) {
        Ok(memory) => println!("{what:<46} memory {memory:#x}"),
        Err(errno) => println!("{what:<46} refused with {}: {errno}", errno.number()),
    }
}

fn print_space(table: &Table, space: u32) {
    println!("space {space}, charge of the table {}", table.charge().expect("a good table"));
    for m in table.mappings_of(space) {
        let (range, read, write) = (m.range(), if m.rights.read() { 'r' } else { '-' }, if m.rights.write() { 'w' } else { '-' });
        println!("  {:#010x} to {:#010x} -> memory {:#010x}  {read}{write}  backing {}", range.start, range.last, m.memory, m.backing);
    }
    if table.mappings_of(space).next().is_none() {
        println!("  nothing mapped");
    }
}

/// What an UNMAP is going to take, told before it is run.
fn print_going(table: &Table, space: u32, range: Range) {
    for m in table.mappings_in(space, range) {
        println!("  to unpin: {:#x} bytes from memory {:#x}", m.length, m.memory);
    }
}

fn print_free(table: &Table, what: &str, space: u32, room: usize) {
    let mut ranges = vec![Range::default(); room];
    let free = must(what, table.iova_ranges(space, &mut ranges));
    println!("  {} of {}, alignment {}", free.written, free.total, free.alignment);
    for range in &ranges[..free.written] {
        println!("  {:#x} to {:#x}", range.start, range.last);
    }
}

/// Two cameras with a space each; what the kernel itself asks for. The answer is the space that stays.
fn cameras(t: &mut Table) -> u32 {
    show("a table above the highest limit", t.fresh((1 << 36) + 1));
    must("a table of at most 64 pages", t.fresh(64));
    let left = must("the left camera's space", t.alloc_space());
    let right = must("the right camera's space", t.alloc_space());
    let reserved = [Range::new(0xFEE0_0000, 0xFEEF_FFFF)];
    let left_camera = must("the left camera", t.bind(4096, &reserved));
    let right_camera = must("the right camera", t.bind(4096, &reserved));
    must("left camera to its space", t.attach(left_camera, left));
    must("right camera to its space", t.attach(right_camera, right));

    let buffer = |memory, length, place| Map { space: left, rights: Rights::READ_WRITE, memory, length, place };
    let private = must("a private buffer, writeable", t.map(buffer(0x10_0000, 0x4000, Place::Automatic)));
    let shared = must("a shared buffer, writeable", t.map(buffer(0x20_0000, 0x2000, Place::Automatic)));
    map(t, "a second buffer on the private one", buffer(0x30_0000, 0x1000, Place::Fixed(private)));
    map(t, "a buffer where the camera reserves", buffer(0x30_0000, 0x1000, Place::Fixed(0xFEE0_0000)));
    must("64 KiB for the left camera", t.allow(left, &[Range::new(0x1_0000, 0x1_FFFF)]));
    map(t, "a buffer of 128 KiB", buffer(0x30_0000, 0x2_0000, Place::Automatic));
    must("any place for the left camera", t.allow(left, &[]));
    let copy = command::Copy {
        target: right,
        rights: Rights::READ,
        place: Place::Automatic,
        source: left,
        source_address: shared,
        length: 0x2000,
    };
    must("the copy, asked for beforehand", t.preview_copy(copy));
    let copied = must("the shared buffer, copied for reading", t.copy(copy));
    print_space(t, left);
    print_space(t, right);

    reach(t, "left camera writes its private buffer", left_camera, private + 0x1000, 0x1000, Access::Write);
    reach(t, "right camera reads the shared buffer", right_camera, copied, 0x2000, Access::Read);
    reach(t, "right camera writes the shared buffer", right_camera, copied, 0x2000, Access::Write);
    print_free(t, "free ranges with room for one", left, 1);
    print_free(t, "free ranges with room for all", left, iommufd::MOST_RANGES);

    print_going(t, left, Range::new(private, private + 0x3FFF));
    let removed = must("the private buffer goes", t.unmap(Unmap { space: left, address: private, length: 0x4000 }));
    println!("  {removed:#x} bytes removed");
    print_space(t, left);
    show("its space destroyed while the camera is there", t.destroy(left));
    must("left camera detached", t.detach(left_camera));
    must("its space destroyed", t.destroy(left));
    print_space(t, left);
    print_space(t, right);

    last_address(t, right, right_camera);
    right
}

/// The end of the address space is an address like others.
fn last_address(t: &mut Table, space: u32, camera: u32) {
    let page = Map { space, rights: Rights::WRITE, memory: 0x40_0000, length: 0x1000, place: Place::Fixed(LAST_PAGE) };
    must("a buffer in the last page", t.map(page));
    map(t, "a buffer past the last address", Map { length: 0x2000, ..page });
    print_space(t, space);
    reach(t, "right camera writes the last byte", camera, u64::MAX, 1, Access::Write);
    print_going(t, space, Range::new(0, u64::MAX));
    let removed = must("all mappings of the space go", t.unmap(Unmap::all(space)));
    println!("  {removed:#x} bytes removed");
    print_space(t, space);
}

/// The memory of a driver, from an address of its own on.
struct Program {
    memory: [u8; 64],
}

const PROGRAM: u64 = 0x7000_0000;

impl Program {
    /// The bytes at an address, where the program has them all.
    fn at(&mut self, address: u64, length: usize) -> Option<&mut [u8]> {
        let from = usize::try_from(address.checked_sub(PROGRAM)?).ok()?;
        self.memory.get_mut(from..from.checked_add(length)?)
    }
}

impl UserMemory for Program {
    fn read(&mut self, from: u64, into: &mut [u8]) -> bool {
        self.at(from, into.len()).is_some_and(|bytes| {
            into.copy_from_slice(bytes);
            true
        })
    }

    fn write(&mut self, to: u64, bytes: &[u8]) -> bool {
        self.at(to, bytes.len()).is_some_and(|place| {
            place.copy_from_slice(bytes);
            true
        })
    }
}

/// The kernel's ioctl. The lock is held while the command runs, and not while bytes are copied.
fn ioctl(request: u32, argument: u64, program: &mut Program) -> i32 {
    let mut ioctl = Ioctl::receive(request, argument, program);
    let answer = ioctl.run(&mut TABLE.lock().expect("no step panics"));
    ioctl.reply(answer, program)
}

/// A driver that sends bytes.
fn driver(space: u32) {
    let mut program = Program { memory: [0; 64] };
    let map = Map { space, rights: Rights::READ, memory: 0x50_0000, length: 0x3000, place: Place::Automatic };
    program.memory[..Map::SIZE].copy_from_slice(&map.bytes());
    println!("{:<46} {}", "a driver's MAP", ioctl(request::MAP, PROGRAM, &mut program));
    println!("{:<46} {}", "a driver's MAP that its memory cuts", ioctl(request::MAP, PROGRAM + 62, &mut program));
    println!("{:<46} {}", "a driver's request that is none", ioctl(0x3B7F, PROGRAM, &mut program));
}

fn main() {
    let space = cameras(&mut TABLE.lock().expect("no step panics"));
    driver(space);
    print_space(&TABLE.lock().expect("no step panics"), space);
}
