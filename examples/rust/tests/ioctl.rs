//! Commands from a program's memory: what is copied in, what is copied back, and what a program sees where its memory ends.
use iommufd::command::{AllowIovas, Copy, Destroy, IoasAlloc, IovaRanges, Map, Unmap};
use iommufd::ioctl::{Ioctl, UserMemory, LONGEST_COMMAND};
use iommufd::{request, Errno, Place, Range, Rights, Table, MOST_RANGES};

/// A program's memory from `BASE` on. From `fixed` on it can be read and not written.
struct Program {
    memory: Vec<u8>,
    fixed: usize,
    reads: Vec<(u64, usize)>,
    writes: Vec<(u64, usize)>,
}

const BASE: u64 = 0x7000_0000;
const LIST: u64 = BASE + 0x400;
const SIZE: usize = 0x2000;

impl Program {
    fn new() -> Program {
        Program { memory: vec![0xEE; SIZE], fixed: SIZE, reads: vec![], writes: vec![] }
    }

    fn with(command: &[u8]) -> Program {
        let mut program = Program::new();
        program.memory[..command.len()].copy_from_slice(command);
        program
    }

    /// The command with its pointer field set to the list.
    fn with_list(command: &[u8], list: u64) -> Program {
        let mut program = Program::with(command);
        program.memory[16..24].copy_from_slice(&list.to_le_bytes());
        program
    }

    fn place(&self, address: u64, length: usize, end: usize) -> Option<std::ops::Range<usize>> {
        let from = usize::try_from(address.checked_sub(BASE)?).ok()?;
        let to = from.checked_add(length)?;
        (to <= end).then_some(from..to)
    }

    fn word(&self, at: usize) -> u64 {
        u64::from_le_bytes(self.memory[at..at + 8].try_into().unwrap())
    }

    fn half(&self, at: usize) -> u32 {
        u32::from_le_bytes(self.memory[at..at + 4].try_into().unwrap())
    }

    fn sends(&mut self, t: &mut Table, request: u32) -> i32 {
        self.sends_from(t, request, BASE)
    }

    fn sends_from(&mut self, t: &mut Table, request: u32, argument: u64) -> i32 {
        let mut ioctl = Ioctl::receive(request, argument, self);
        let asked = ioctl.preview(t);
        let answer = ioctl.run(t);
        assert_eq!(asked, answer);
        ioctl.reply(answer, self)
    }
}

impl UserMemory for Program {
    fn read(&mut self, from: u64, into: &mut [u8]) -> bool {
        self.reads.push((from, into.len()));
        let place = self.place(from, into.len(), self.memory.len());
        place.is_some_and(|place| {
            into.copy_from_slice(&self.memory[place]);
            true
        })
    }

    fn write(&mut self, to: u64, bytes: &[u8]) -> bool {
        self.writes.push((to, bytes.len()));
        let place = self.place(to, bytes.len(), self.fixed);
        place.is_some_and(|place| {
            self.memory[place].copy_from_slice(bytes);
            true
        })
    }
}

fn refused(errno: Errno) -> i32 {
    errno.result()
}

/// A space 1 with a device that reserves one range, a space 2, and a page mapped in the first.
fn table() -> Table {
    let mut t = Table::new(64).unwrap();
    assert_eq!([t.alloc_space(), t.alloc_space()], [Ok(1), Ok(2)]);
    let device = t.bind(4096, &[Range::new(0xFEE0_0000, 0xFEEF_FFFF)]).unwrap();
    t.attach(device, 1).unwrap();
    t.map(page()).unwrap();
    t
}

fn page() -> Map {
    Map { space: 1, rights: Rights::READ, memory: 0x5000, length: 0x1000, place: Place::Automatic }
}

#[test]
fn output_fields_and_no_others_are_written() {
    let copy = Copy { target: 2, rights: Rights::READ, place: Place::Fixed(0x9000), source: 1, source_address: 0, length: 0x1000 };
    let cases = [
        (request::MAP, page().bytes().to_vec(), vec![(32, 8)]),
        (request::COPY, copy.bytes().to_vec(), vec![(24, 8)]),
        (request::UNMAP, Unmap::all(1).bytes().to_vec(), vec![(16, 8)]),
        (request::IOAS_ALLOC, IoasAlloc.bytes().to_vec(), vec![(8, 4)]),
        (request::DESTROY, Destroy { id: 2 }.bytes().to_vec(), vec![]),
    ];
    for (request, command, fields) in cases {
        let (mut t, mut direct, mut reply) = (table(), table(), command.clone());
        let mut program = Program::with(&command);
        assert_eq!(program.sends(&mut t, request), 0);
        assert_eq!(direct.call(request, &mut reply, &mut []), Ok(()));
        assert_eq!((t, &program.memory[..reply.len()]), (direct, &reply[..]));
        assert!(program.memory[reply.len()..].iter().all(|byte| *byte == 0xEE));
        let written: Vec<(u64, usize)> = fields.iter().map(|(at, wide)| (BASE + at, *wide)).collect();
        assert_eq!(program.writes, written);
    }
}

#[test]
fn a_refusal_writes_nothing() {
    for (request, command, errno) in [
        (request::MAP, Map { space: 9, ..page() }.bytes().to_vec(), Errno::NoEnt),
        (request::DESTROY, Destroy { id: 1 }.bytes().to_vec(), Errno::Busy),
        (0x3B7F, page().bytes().to_vec(), Errno::NoTty),
        (request::IOVA_RANGES, IovaRanges { space: 9, room: 2 }.bytes().to_vec(), Errno::NoEnt),
    ] {
        let (mut t, mut program) = (table(), Program::with(&command));
        let before = program.memory.clone();
        assert_eq!(program.sends(&mut t, request), refused(errno));
        assert_eq!((t, program.memory, program.writes), (table(), before, vec![]));
    }
}

#[test]
fn a_command_that_memory_cuts() {
    let mut t = table();
    let end = BASE + SIZE as u64;
    for (argument, errno) in [
        (0, Errno::Fault),
        (u64::MAX, Errno::Fault),
        (u64::MAX - 3, Errno::Fault),
        (end, Errno::Fault),
        (end - 3, Errno::Fault),
        // the size field alone says 0xEEEEEEEE
        (end - 4, Errno::Fault),
    ] {
        let mut program = Program::new();
        assert_eq!(program.sends_from(&mut t, request::MAP, argument), refused(errno), "{argument:#x}");
        assert_eq!(program.sends_from(&mut t, 0x3B7F, argument), refused(Errno::NoTty));
        assert!(program.writes.is_empty());
    }
    let mut program = Program::new();
    program.memory[SIZE - 4..].copy_from_slice(&3u32.to_le_bytes());
    assert_eq!(program.sends_from(&mut t, request::MAP, end - 4), refused(Errno::Inval));
    program.memory[SIZE - 4..].copy_from_slice(&40u32.to_le_bytes());
    assert_eq!(program.sends_from(&mut t, request::MAP, end - 4), refused(Errno::Fault));
    assert_eq!(t, table());
}

#[test]
fn sizes_beyond_the_known_one() {
    let map = page().bytes();
    let sized = |size: usize, odd: Option<usize>| {
        let mut command = vec![0; 400];
        command[..map.len()].copy_from_slice(&map);
        command[..4].copy_from_slice(&(size as u32).to_le_bytes());
        if let Some(at) = odd {
            command[at] = 1;
        }
        Program::with(&command).sends(&mut table(), request::MAP)
    };
    assert_eq!(sized(48, None), 0);
    assert_eq!(sized(48, Some(47)), refused(Errno::TooBig));
    assert_eq!(sized(48, Some(48)), 0);
    assert_eq!(sized(39, None), refused(Errno::Inval));
    assert_eq!(sized(0, None), refused(Errno::Inval));
    assert_eq!(sized(LONGEST_COMMAND, None), 0);
    assert_eq!(sized(LONGEST_COMMAND, Some(LONGEST_COMMAND - 1)), refused(Errno::TooBig));
    assert_eq!(sized(LONGEST_COMMAND + 1, None), refused(Errno::Fault));
    assert_eq!(sized(u32::MAX as usize, None), refused(Errno::Fault));
}

#[test]
fn a_reply_that_cannot_be_written() {
    let (mut t, mut program) = (table(), Program::with(&page().bytes()));
    program.fixed = 39;
    assert_eq!(program.sends(&mut t, request::MAP), refused(Errno::Fault));
    assert_eq!(t.mappings_of(1).count(), 2);
}

// ---- lists

fn allow(count: u32, list: u64) -> Program {
    let mut command = AllowIovas { space: 1, ranges: &[] }.bytes();
    command[8..12].copy_from_slice(&count.to_le_bytes());
    let mut program = Program::with_list(&command, list);
    for k in 0..9 {
        let at = 0x400 + 16 * k;
        let start = (k as u64 + 1) << 20;
        program.memory[at..at + 8].copy_from_slice(&start.to_le_bytes());
        program.memory[at + 8..at + 16].copy_from_slice(&(start + 0xFFFF).to_le_bytes());
    }
    program
}

#[test]
fn an_allow_list_is_read() {
    for count in [0, 1, 2, 8] {
        let (mut t, mut direct) = (table(), table());
        let ranges: Vec<Range> = (1..=u64::from(count)).map(|k| Range::new(k << 20, (k << 20) + 0xFFFF)).collect();
        let mut program = allow(count, LIST);
        assert_eq!(program.sends(&mut t, request::ALLOW_IOVAS), 0);
        assert_eq!((direct.allow(1, &ranges), program.writes), (Ok(()), vec![]));
        assert_eq!(t, direct);
    }
}

#[test]
fn an_allow_list_that_is_refused() {
    let nowhere = BASE + SIZE as u64 - 8;
    let mut t = table();
    for (count, list, result) in [
        (9, LIST, refused(Errno::NoMem)),
        (u32::MAX, LIST, refused(Errno::NoMem)),
        (u32::MAX, nowhere, refused(Errno::NoMem)),
        (1, nowhere, refused(Errno::Fault)),
        (1, u64::MAX, refused(Errno::Fault)),
        (0, nowhere, 0),
    ] {
        assert_eq!(allow(count, list).sends(&mut t, request::ALLOW_IOVAS), result);
    }
    assert_eq!(t, table());
}

/// Each byte is read once, and of a list no more than a list may have.
#[test]
fn what_is_read() {
    let mut program = allow(u32::MAX, LIST);
    assert_eq!(program.sends(&mut table(), request::ALLOW_IOVAS), refused(Errno::NoMem));
    assert_eq!(program.reads, [(BASE, 4), (BASE + 4, 20), (LIST, 128)]);
    let mut program = Program::with_list(&IovaRanges { space: 1, room: 2 }.bytes(), LIST);
    assert_eq!(program.sends(&mut table(), request::IOVA_RANGES), 0);
    assert_eq!(program.reads, [(BASE, 4), (BASE + 4, 28)]);
}

fn ranges(program: &Program, count: usize) -> Vec<Range> {
    (0..count).map(|k| 0x400 + 16 * k).map(|at| Range::new(program.word(at), program.word(at + 8))).collect()
}

#[test]
fn free_ranges_are_written() {
    let (low, high) = (Range::new(0, 0xFEDF_FFFF), Range::new(0xFEF0_0000, u64::MAX));
    let filler = Range::new(0xEEEE_EEEE_EEEE_EEEE, 0xEEEE_EEEE_EEEE_EEEE);
    for (room, result, list) in [
        (0, refused(Errno::MsgSize), [filler, filler, filler]),
        (1, refused(Errno::MsgSize), [low, filler, filler]),
        (2, 0, [low, high, filler]),
        (3, 0, [low, high, filler]),
        (MOST_RANGES as u32 + 1, 0, [low, high, filler]),
        (u32::MAX, 0, [low, high, filler]),
    ] {
        let (mut t, mut program) = (table(), Program::with_list(&IovaRanges { space: 1, room }.bytes(), LIST));
        assert_eq!(program.sends(&mut t, request::IOVA_RANGES), result);
        assert_eq!((program.half(8), program.word(16), program.word(24)), (2, LIST, 4096));
        assert_eq!(ranges(&program, 3), list);
        assert_eq!(t, table());
    }
}

#[test]
fn free_ranges_that_cannot_be_written() {
    let command = IovaRanges { space: 1, room: 3 }.bytes();
    let mut t = table();
    for list in [0, u64::MAX, BASE + SIZE as u64 - 31] {
        let mut program = Program::with_list(&command, list);
        assert_eq!(program.sends(&mut t, request::IOVA_RANGES), refused(Errno::Fault));
        assert_eq!(program.half(8), 3);
    }
}

/// The kernel's memory does not get out: behind the ranges that were written nothing is copied, whatever the count says.
#[test]
fn no_more_ranges_than_there_are() {
    let (mut t, mut program) = (table(), Program::with_list(&IovaRanges { space: 2, room: 100 }.bytes(), LIST));
    assert_eq!(program.sends(&mut t, request::IOVA_RANGES), 0);
    assert_eq!(program.writes, [(LIST, 16), (BASE + 8, 4), (BASE + 24, 8)]);
}
