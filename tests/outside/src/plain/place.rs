//! Where a new mapping lands: at the address asked, or at the lowest candidate, and where in the index.
use super::range::Range;
use super::table::{allowed, extent, Table};
use super::{refuse, Answer, EEXIST, EINVAL, ENOSPC};
use iommufd::raw::Object;

/// What MAP and COPY ask: so many bytes in a space, at the address where it is fixed.
pub struct Target {
    pub id: u32,
    pub fixed: bool,
    pub length: u64,
    pub address: u64,
}

/// An address, and the place in the index of the mapping that follows there.
pub struct Landing {
    pub address: u64,
    pub place: usize,
}

/// Where a target goes in its space.
pub fn place(t: Table, space: &Object, target: &Target) -> Answer<Landing> {
    let alignment = t.alignment(target.id);
    if target.fixed {
        fixed(t, alignment, target)
    } else {
        refuse(target.length & (alignment - 1) != 0, EINVAL)?;
        lowest(t, space, alignment, target).ok_or(ENOSPC)
    }
}

fn fixed(t: Table, alignment: u64, target: &Target) -> Answer<Landing> {
    refuse((target.address | target.length) & (alignment - 1) != 0, EINVAL)?;
    let range = Range { start: target.address, last: target.address + (target.length - 1) };
    refuse(t.reserved(target.id).any(|r| r.shares(range)), EINVAL)?;
    let place = t.seek(target.id, range.start);
    refuse(t.at(place, target.id).is_some_and(|m| m.address <= range.last), EEXIST)?;
    Ok(Landing { address: target.address, place })
}

/// The lowest candidate in one of the ranges that the space allows, or anywhere.
fn lowest(t: Table, space: &Object, alignment: u64, target: &Target) -> Option<Landing> {
    let search = Search { t, id: target.id, alignment, length: target.length };
    if space.allow_count == 0 {
        return search.lowest_in(Range::ALL);
    }
    allowed(space).filter_map(|window| search.lowest_in(window)).min_by_key(|landing| landing.address)
}

struct Search<'a> {
    t: Table<'a>,
    id: u32,
    /// A power of two.
    alignment: u64,
    length: u64,
}

impl Search<'_> {
    /// One walk over the gaps between the mappings: the candidate moves past each that it touches. In a gap that is long enough it moves past what is reserved
    /// too, and is found where that does not move it.
    fn lowest_in(&self, window: Range) -> Option<Landing> {
        let mut candidate = self.from(window.start)?;
        let mut place = self.t.seek(self.id, candidate.start);
        while candidate.is_inside(window) {
            let next = self.t.at(place, self.id).map(extent);
            if let Some(mapped) = next.filter(|m| m.start <= candidate.last) {
                place += 1;
                if candidate.start <= mapped.last {
                    candidate = self.from(mapped.last.checked_add(1)?)?;
                }
            } else {
                let moved = self.past_reserved(candidate)?;
                if moved == candidate {
                    return Some(Landing { address: candidate.start, place });
                }
                candidate = moved;
            }
        }
        None
    }

    /// The candidate behind each reserved range in turn that it touches. They are read where they lie.
    fn past_reserved(&self, candidate: Range) -> Option<Range> {
        self.t.reserved(self.id).try_fold(candidate, |c, r| if c.shares(r) { self.from(r.last.checked_add(1)?) } else { Some(c) })
    }

    /// The bytes from the lowest multiple of the alignment that is not below x.
    fn from(&self, x: u64) -> Option<Range> {
        Range::of(x.checked_add(self.alignment - 1)? & !(self.alignment - 1), self.length)
    }
}
