//! The commands that a kernel gives itself: each is sent as bytes through [`Table::call`] or [`Table::preview`], and its reply read back.
use crate::command::{at, half, word, AllowIovas, Copy, Destroy, FreeRanges, IoasAlloc, IovaRanges, Map, Range, Unmap, MOST_RANGES, RANGE};
use crate::{Errno, Reason, Table};

/// What is to come of a command: its effect, or only its answer.
enum Door<'a> {
    Call(&'a mut Table),
    Preview(&'a Table),
}

impl Door<'_> {
    fn send(self, request: u32, command: &mut [u8], area: &mut [u8]) -> Result<(), Errno> {
        match self {
            Door::Call(table) => table.call(request, command, area),
            Door::Preview(table) => table.preview(request, command, area),
        }
    }

    fn map(self, map: Map) -> Result<u64, Errno> {
        let mut bytes = map.bytes();
        self.send(Map::REQUEST, &mut bytes, &mut [])?;
        Ok(word(&bytes, at::MAP_ADDRESS))
    }

    fn copy(self, copy: Copy) -> Result<u64, Errno> {
        let mut bytes = copy.bytes();
        self.send(Copy::REQUEST, &mut bytes, &mut [])?;
        Ok(word(&bytes, at::COPY_ADDRESS))
    }

    fn unmap(self, unmap: Unmap) -> Result<u64, Errno> {
        let mut bytes = unmap.bytes();
        self.send(Unmap::REQUEST, &mut bytes, &mut [])?;
        Ok(word(&bytes, at::REMOVED))
    }

    fn alloc_space(self) -> Result<u32, Errno> {
        let mut bytes = IoasAlloc.bytes();
        self.send(IoasAlloc::REQUEST, &mut bytes, &mut [])?;
        Ok(half(&bytes, at::SPACE_MADE))
    }

    fn destroy(self, id: u32) -> Result<(), Errno> {
        self.send(Destroy::REQUEST, &mut Destroy { id }.bytes(), &mut [])
    }

    fn allow(self, space: u32, ranges: &[Range]) -> Result<(), Errno> {
        let allow = AllowIovas { space, ranges };
        self.send(AllowIovas::REQUEST, &mut allow.bytes(), &mut allow.area())
    }
}

/// The commands with types. Each `preview` gives what its sister would answer now, and the table stays.
impl Table {
    /// Maps memory into a space. The answer is the address.
    pub fn map(&mut self, map: Map) -> Result<u64, Errno> {
        Door::Call(self).map(map)
    }

    /// What [`Table::map`] would answer.
    pub fn preview_map(&self, map: Map) -> Result<u64, Errno> {
        Door::Preview(self).map(map)
    }

    /// Why [`Table::map`] would be refused; nothing where it would be accepted.
    pub fn explain_map(&self, map: Map) -> Result<Option<Reason>, Errno> {
        self.explain(Map::REQUEST, &map.bytes())
    }

    /// Maps the memory of a mapping a second time, in the same or another space. The answer is the address in the target space.
    pub fn copy(&mut self, copy: Copy) -> Result<u64, Errno> {
        Door::Call(self).copy(copy)
    }

    /// What [`Table::copy`] would answer.
    pub fn preview_copy(&self, copy: Copy) -> Result<u64, Errno> {
        Door::Preview(self).copy(copy)
    }

    /// Why [`Table::copy`] would be refused; nothing where it would be accepted.
    pub fn explain_copy(&self, copy: Copy) -> Result<Option<Reason>, Errno> {
        self.explain(Copy::REQUEST, &copy.bytes())
    }

    /// Removes the mappings inside a range, or with [`Unmap::all`] every mapping of the space. The answer is the bytes removed.
    pub fn unmap(&mut self, unmap: Unmap) -> Result<u64, Errno> {
        Door::Call(self).unmap(unmap)
    }

    /// What [`Table::unmap`] would answer.
    pub fn preview_unmap(&self, unmap: Unmap) -> Result<u64, Errno> {
        Door::Preview(self).unmap(unmap)
    }

    /// Makes a space. The answer is its id.
    pub fn alloc_space(&mut self) -> Result<u32, Errno> {
        Door::Call(self).alloc_space()
    }

    /// What [`Table::alloc_space`] would answer.
    pub fn preview_alloc_space(&self) -> Result<u32, Errno> {
        Door::Preview(self).alloc_space()
    }

    /// Removes a loose device, or a space without devices, with its mappings.
    pub fn destroy(&mut self, id: u32) -> Result<(), Errno> {
        Door::Call(self).destroy(id)
    }

    /// What [`Table::destroy`] would answer.
    pub fn preview_destroy(&self, id: u32) -> Result<(), Errno> {
        Door::Preview(self).destroy(id)
    }

    /// Replaces the allow list of a space, at most [`crate::MOST_ALLOWED`] ranges. No range empties it: then automatic mappings may go anywhere.
    pub fn allow(&mut self, space: u32, ranges: &[Range]) -> Result<(), Errno> {
        Door::Call(self).allow(space, ranges)
    }

    /// What [`Table::allow`] would answer.
    pub fn preview_allow(&self, space: u32, ranges: &[Range]) -> Result<(), Errno> {
        Door::Preview(self).allow(space, ranges)
    }

    /// Writes the ranges that no device of a space reserves, ascending, as many as there is room for; [`MOST_RANGES`] are always enough. Too little room is no refusal here: the
    /// answer has how many there are and how many were written. Places behind those stay as they were. The command only reads the table, so that it is its own preview.
    pub fn iova_ranges(&self, space: u32, ranges: &mut [Range]) -> Result<FreeRanges, Errno> {
        let room = ranges.len().min(MOST_RANGES);
        let mut bytes = IovaRanges { space, room: room as u32 }.bytes();
        let mut area = [0; RANGE * MOST_RANGES];
        match self.preview(IovaRanges::REQUEST, &mut bytes, &mut area) {
            Ok(()) | Err(Errno::MsgSize) => {}
            Err(errno) => return Err(errno),
        }
        let total = half(&bytes, at::COUNT) as usize;
        let written = total.min(room);
        for (range, bytes) in ranges.iter_mut().zip(area.chunks_exact(RANGE)).take(written) {
            *range = Range::of_bytes(bytes);
        }
        Ok(FreeRanges { total, written, alignment: word(&bytes, at::ALIGNMENT) })
    }
}
