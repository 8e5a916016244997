//! The table of document 01 as plain data, with the index that document 02's L9 keeps beside it: how they lie in the lent memory, what the papers say of them, and when
//! the table is bad.
use crate::calls::Lent;
use iommufd::raw;

// All addresses, lengths and sums are u128, so that no sum of them can wrap.
pub const U64MAX: u128 = u64::MAX as u128;
pub const PAGE: u128 = 4096;
pub const LONGEST_MAPPING: u128 = 1 << 40;
pub const HIGHEST_LIMIT: u128 = 1 << 36;
pub const MOST_RESERVED: u32 = 4;
pub const MOST_ALLOWED: u32 = 8;
const MAPPINGS: usize = 128;
const INDEX_WORDS: usize = 128;
const HIGHEST_BACKING: u32 = 128;

/// Addresses with an inclusive last one.
#[derive(Clone, Copy, Debug, PartialEq, Eq)]
pub struct Range {
    pub first: u128,
    pub last: u128,
}

impl Range {
    /// `length` addresses from `first` on. Length 0 is refused, or the table bad, before anyone asks for its range.
    pub fn new(first: u128, length: u128) -> Range {
        Range { first, last: (first + length).saturating_sub(1) }
    }

    /// How many addresses.
    pub fn length(self) -> u128 {
        self.last - self.first + 1
    }

    /// The two share an address.
    pub fn touches(self, other: Range) -> bool {
        self.first <= other.last && other.first <= self.last
    }

    pub fn is_inside(self, other: Range) -> bool {
        other.first <= self.first && self.last <= other.last
    }

    pub fn is_past_u64max(self) -> bool {
        self.last > U64MAX
    }

    pub fn is_reversed(self) -> bool {
        self.first > self.last
    }

    /// Both ends, the address after the last one included, are multiples of the alignment. That address can be 2^64.
    pub fn fits(self, alignment: u128) -> bool {
        self.first.is_multiple_of(alignment) && (self.last + 1).is_multiple_of(alignment)
    }
}

/// Some two of the ranges share an address.
pub fn overlap(ranges: &[Range]) -> bool {
    ranges.iter().enumerate().any(|(i, a)| ranges[i + 1..].iter().any(|b| a.touches(*b)))
}

#[derive(Clone, Debug, PartialEq, Eq)]
pub enum Object {
    Free,
    /// The allow list is in the order given.
    Space { allow: Vec<Range> },
    Device(Device),
}

#[derive(Clone, Debug, PartialEq, Eq)]
pub struct Device {
    pub bitmap: u64,
    pub reserved: Vec<Range>,
    /// The space it is attached to; a loose device has none.
    pub home: Option<u32>,
}

impl Device {
    /// The lowest set bit of the page-size bitmap. A bitmap of 0 has none and gives 2^64.
    pub fn smallest_page(&self) -> u128 {
        lowest_bit(self.bitmap)
    }
}

pub fn lowest_bit(bitmap: u64) -> u128 {
    1 << bitmap.trailing_zeros()
}

#[derive(Clone, Copy, Debug, PartialEq, Eq)]
pub struct Mapping {
    pub space: u32,
    pub address: u128,
    pub length: u128,
    pub memory: u128,
    pub write: bool,
    pub read: bool,
    pub backing: u32,
    /// The MAP that founded the backing was writeable.
    pub founder_write: bool,
}

impl Mapping {
    pub fn addresses(&self) -> Range {
        Range::new(self.address, self.length)
    }

    pub fn memory_range(&self) -> Range {
        Range::new(self.memory, self.length)
    }
}

/// How many pages the memory touches.
pub fn pages(memory: Range) -> u128 {
    memory.last / PAGE - memory.first / PAGE + 1
}

#[derive(Clone, Debug, PartialEq, Eq)]
pub struct Table {
    pub limit: u128,
    /// Record i has the id i + 1.
    pub objects: Vec<Object>,
    /// A released record is `None`.
    pub mappings: Vec<Option<Mapping>>,
    /// The words of the index. A table whose index is not the agreeing one is bad.
    pub index: Vec<u64>,
}

// ---- what the papers say of a table

impl Table {
    /// The object with this id; ids outside 1 to 32 name none.
    pub fn object(&self, id: u32) -> Option<&Object> {
        let record = (id as usize).checked_sub(1)?;
        self.objects.get(record).filter(|object| **object != Object::Free)
    }

    pub fn device(&self, id: u32) -> Option<&Device> {
        match self.object(id) {
            Some(Object::Device(device)) => Some(device),
            _ => None,
        }
    }

    /// A space's allow list; `None` where the id is no space.
    pub fn allow_list(&self, id: u32) -> Option<&[Range]> {
        match self.object(id) {
            Some(Object::Space { allow }) => Some(allow),
            _ => None,
        }
    }

    pub fn is_space(&self, id: u32) -> bool {
        self.allow_list(id).is_some()
    }

    /// Puts an object into the record of an id.
    pub fn set(&mut self, id: u32, object: Object) {
        if let Some(record) = (id as usize).checked_sub(1).and_then(|i| self.objects.get_mut(i)) {
            *record = object;
        }
    }

    /// The id of the lowest free object record.
    pub fn free_id(&self) -> Option<u32> {
        (1..).zip(&self.objects).find(|(_, object)| **object == Object::Free).map(|(id, _)| id)
    }

    /// The lowest free mapping record.
    pub fn free_mapping(&self) -> Option<usize> {
        self.mappings.iter().position(Option::is_none)
    }

    pub fn space_ids(&self) -> impl Iterator<Item = u32> + '_ {
        (1..).zip(&self.objects).filter(|(_, object)| matches!(object, Object::Space { .. })).map(|(id, _)| id)
    }

    pub fn devices(&self) -> impl Iterator<Item = &Device> {
        self.objects.iter().filter_map(|object| match object {
            Object::Device(device) => Some(device),
            _ => None,
        })
    }

    /// The devices, each with its id.
    pub fn device_ids(&self) -> impl Iterator<Item = (u64, &Device)> {
        (1..).zip(&self.objects).filter_map(|(id, object)| match object {
            Object::Device(device) => Some((id, device)),
            _ => None,
        })
    }

    /// The devices attached to a space.
    pub fn devices_of(&self, space: u32) -> impl Iterator<Item = &Device> {
        self.devices().filter(move |device| device.home == Some(space))
    }

    /// The mappings that exist.
    pub fn mapped(&self) -> impl Iterator<Item = &Mapping> {
        self.mappings.iter().flatten()
    }

    pub fn mappings_of(&self, space: u32) -> impl Iterator<Item = &Mapping> {
        self.mapped().filter(move |mapping| mapping.space == space)
    }

    /// The mappings that exist, each with the number of its record, from 1.
    pub fn records(&self) -> impl Iterator<Item = (u64, &Mapping)> {
        (1..).zip(&self.mappings).filter_map(|(number, record)| Some((number, record.as_ref()?)))
    }

    /// For each space, its mapping records in ascending address: one list for all spaces, by space and then by address (L9a). A record is named by its number from 1,
    /// and zeros fill the words behind the last.
    pub fn agreeing(&self) -> Vec<u64> {
        let mut used = self.records().collect::<Vec<_>>();
        used.sort_by_key(|(_, mapping)| (mapping.space, mapping.address));
        let mut words = used.into_iter().map(|(number, _)| number).collect::<Vec<u64>>();
        words.resize(INDEX_WORDS, 0);
        words
    }

    /// The numbers that the index lists: its words that are not 0.
    fn listed(&self) -> Vec<u64> {
        self.index.iter().copied().filter(|number| *number != 0).collect()
    }

    /// The mapping in the record that has a number from 1 on; none in a released one, and no other number has one.
    fn numbered(&self, number: u64) -> Option<&Mapping> {
        let record = usize::try_from(number).ok()?.checked_sub(1)?;
        self.mappings.get(record)?.as_ref()
    }

    /// The mappings that the index lists, each with the one behind it.
    fn neighbours(&self) -> Vec<(&Mapping, &Mapping)> {
        let mappings = self.listed().into_iter().filter_map(|number| self.numbered(number)).collect::<Vec<_>>();
        mappings.windows(2).map(|two| (two[0], two[1])).collect()
    }

    /// Alignment of a space: the highest of its devices' smallest pages, 1 with no device.
    pub fn alignment(&self, space: u32) -> u128 {
        self.devices_of(space).map(Device::smallest_page).max().unwrap_or(1)
    }

    /// Reserved in a space: all ranges of its attached devices.
    pub fn reserved(&self, space: u32) -> Vec<Range> {
        self.devices_of(space).flat_map(|device| device.reserved.iter().copied()).collect()
    }

    /// One mapping of each backing, at the place of the backing's number.
    fn backings(&self) -> Vec<Option<&Mapping>> {
        let mut one_of = vec![None; HIGHEST_BACKING as usize + 1];
        for mapping in self.mapped() {
            if let Some(place) = one_of.get_mut(mapping.backing as usize) {
                place.get_or_insert(mapping);
            }
        }
        one_of
    }

    /// The pages of all backings, each counted once.
    pub fn charge(&self) -> u128 {
        self.backings().into_iter().flatten().map(|mapping| pages(mapping.memory_range())).sum()
    }

    /// The lowest backing number from 1 that no mapping has. With a free mapping record at most 127 of the 128 are in use.
    pub fn free_backing(&self) -> u32 {
        let used = self.backings();
        (1..HIGHEST_BACKING).find(|number| used[*number as usize].is_none()).unwrap_or(HIGHEST_BACKING)
    }

    /// Releases the mappings that are named; gives their bytes.
    pub fn release(&mut self, named: impl Fn(&Mapping) -> bool) -> u128 {
        let mut bytes = 0;
        for record in &mut self.mappings {
            if let Some(mapping) = record.take_if(|mapping| named(mapping)) {
                bytes += mapping.length;
            }
        }
        bytes
    }
}

// ---- how a table lies in the lent memory

const FREE: u32 = 0;
const SPACE: u32 = 1;
const LOOSE: u32 = 2;
const ATTACHED: u32 = 3;

const WRITE: u32 = 1;
const READ: u32 = 2;

fn range(first: u64, last: u64) -> Range {
    Range { first: first.into(), last: last.into() }
}

/// The first `count` places of a list.
pub fn list(count: u32, starts: &[u64], lasts: &[u64]) -> Vec<Range> {
    starts.iter().zip(lasts).take(count as usize).map(|(first, last)| range(*first, *last)).collect()
}

/// The list from the first place on, 0 in the unused places.
fn places<const N: usize>(list: &[Range], end: impl Fn(&Range) -> u128) -> [u64; N] {
    let mut places = [0; N];
    for (place, range) in places.iter_mut().zip(list) {
        *place = end(range) as u64;
    }
    places
}

fn read_object(object: &raw::Object) -> Object {
    let reserved = || list(object.reserved_count, &object.reserved_starts, &object.reserved_lasts);
    match object.kind {
        SPACE => Object::Space { allow: list(object.allow_count, &object.allow_starts, &object.allow_lasts) },
        LOOSE => Object::Device(Device { bitmap: object.bitmap, reserved: reserved(), home: None }),
        ATTACHED => Object::Device(Device { bitmap: object.bitmap, reserved: reserved(), home: Some(object.home) }),
        _ => Object::Free,
    }
}

fn store_object(object: &Object) -> raw::Object {
    match object {
        Object::Free => raw::Object::default(),
        Object::Space { allow } => raw::Object {
            kind: SPACE,
            allow_count: allow.len() as u32,
            allow_starts: places(allow, |range| range.first),
            allow_lasts: places(allow, |range| range.last),
            ..raw::Object::default()
        },
        Object::Device(Device { bitmap, reserved, home }) => raw::Object {
            kind: if home.is_some() { ATTACHED } else { LOOSE },
            home: home.unwrap_or(0),
            bitmap: *bitmap,
            reserved_count: reserved.len() as u32,
            reserved_starts: places(reserved, |range| range.first),
            reserved_lasts: places(reserved, |range| range.last),
            ..raw::Object::default()
        },
    }
}

fn read_mapping(mapping: &raw::Mapping) -> Option<Mapping> {
    if mapping.space == 0 {
        return None;
    }
    Some(Mapping {
        space: mapping.space,
        address: mapping.address.into(),
        length: mapping.length.into(),
        memory: mapping.memory.into(),
        write: mapping.rights & WRITE != 0,
        read: mapping.rights & READ != 0,
        backing: mapping.backing,
        founder_write: mapping.founder != 0,
    })
}

fn store_mapping(mapping: &Option<Mapping>) -> raw::Mapping {
    mapping.as_ref().map_or(raw::Mapping::default(), |mapping| raw::Mapping {
        space: mapping.space,
        rights: if mapping.write { WRITE } else { 0 } | if mapping.read { READ } else { 0 },
        founder: mapping.founder_write.into(),
        backing: mapping.backing,
        address: mapping.address as u64,
        length: mapping.length as u64,
        memory: mapping.memory as u64,
    })
}

impl Table {
    pub fn empty(limit: u128) -> Table {
        Table { limit, objects: vec![Object::Free; 32], mappings: vec![None; MAPPINGS], index: vec![0; INDEX_WORDS] }
    }

    fn read(lent: &Lent) -> Table {
        Table {
            limit: lent.head.limit.into(),
            objects: lent.head.objects.iter().map(read_object).collect(),
            mappings: lent.mappings.iter().map(read_mapping).collect(),
            index: lent.index.clone(),
        }
    }

    pub fn store(&self, lent: &mut Lent) {
        lent.head.limit = self.limit as u64;
        for (place, object) in lent.head.objects.iter_mut().zip(&self.objects) {
            *place = store_object(object);
        }
        for (place, mapping) in lent.mappings.iter_mut().zip(&self.mappings) {
            *place = store_mapping(mapping);
        }
        lent.index.clone_from(&self.index);
    }
}

// ---- a bad table

/// A clause of "a table is bad", and whether it holds.
type Rule<T> = (&'static str, fn(&T) -> bool);

fn of_kind(lent: &Lent, kind: u32) -> impl Iterator<Item = &raw::Object> {
    lent.head.objects.iter().filter(move |object| object.kind == kind)
}

fn lent_devices(lent: &Lent) -> impl Iterator<Item = &raw::Object> {
    lent.head.objects.iter().filter(|object| object.kind == LOOSE || object.kind == ATTACHED)
}

fn is_unused_place_not_zero(count: u32, starts: &[u64], lasts: &[u64]) -> bool {
    starts.iter().zip(lasts).skip(count as usize).any(|place| place != (&0, &0))
}

/// What makes a table bad in the lent memory itself: numbers that no table in plain data stands for.
const LENT_RULES: &[Rule<Lent>] = &[
    ("the mapping records are not 128", |lent| has_other_than_128_records(lent)),
    ("no index is lent", |lent| lent.index.is_empty()),
    ("the index has fewer than 128 words", |lent| (1..INDEX_WORDS).contains(&lent.index.len())),
    ("the index has more than 128 words", |lent| lent.index.len() > INDEX_WORDS),
    ("an object record is neither free, a space nor a device", |lent| lent.head.objects.iter().any(|object| object.kind > ATTACHED)),
    ("a free object record is not zero", |lent| of_kind(lent, FREE).any(|object| *object != raw::Object::default())),
    ("a field that a space does not use is not zero", |lent| {
        of_kind(lent, SPACE).any(|space| {
            let unused = (space.home, space.bitmap, space.reserved_count, space.reserved_starts, space.reserved_lasts);
            unused != (0, 0, 0, [0; 4], [0; 4])
        })
    }),
    ("a field that a device does not use is not zero", |lent| {
        lent_devices(lent).any(|device| (device.allow_count, device.allow_starts, device.allow_lasts) != (0, [0; 8], [0; 8]))
    }),
    ("a loose device names a space", |lent| of_kind(lent, LOOSE).any(|device| device.home != 0)),
    ("a device has over 4 reserved ranges", |lent| lent_devices(lent).any(|device| device.reserved_count > MOST_RESERVED)),
    ("an allow list has over 8 ranges", |lent| of_kind(lent, SPACE).any(|space| space.allow_count > MOST_ALLOWED)),
    ("an unused place of a device's reserved ranges is not zero", |lent| {
        lent_devices(lent).any(|device| is_unused_place_not_zero(device.reserved_count, &device.reserved_starts, &device.reserved_lasts))
    }),
    ("an unused place of an allow list is not zero", |lent| {
        of_kind(lent, SPACE).any(|space| is_unused_place_not_zero(space.allow_count, &space.allow_starts, &space.allow_lasts))
    }),
    ("a released mapping record is not zero", |lent| lent.mappings.iter().any(|mapping| mapping.space == 0 && *mapping != raw::Mapping::default())),
    ("a mapping has a right that is neither to write nor to read", |lent| lent.mappings.iter().any(|mapping| mapping.rights > (WRITE | READ))),
    ("a mapping's founding right to write is neither 0 nor 1", |lent| lent.mappings.iter().any(|mapping| mapping.founder > 1)),
];

/// The other clauses of "a table is bad". Fields are judged before what is asked of them together, so that every range below is a range.
const TABLE_RULES: &[Rule<Table>] = &[
    ("the limit is above 2^36", |table| table.limit > HIGHEST_LIMIT),
    ("a mapping has length 0", |table| table.mapped().any(|mapping| mapping.length == 0)),
    ("a mapping has a length over 2^40", |table| table.mapped().any(|mapping| mapping.length > LONGEST_MAPPING)),
    ("a mapping has no right", |table| table.mapped().any(|mapping| !mapping.write && !mapping.read)),
    ("a mapping runs past U64MAX in its space", |table| table.mapped().any(|mapping| mapping.addresses().is_past_u64max())),
    ("a mapping runs past U64MAX in memory", |table| table.mapped().any(|mapping| mapping.memory_range().is_past_u64max())),
    ("a backing number is not from 1 to 128", |table| table.mapped().any(|mapping| !(1..=HIGHEST_BACKING).contains(&mapping.backing))),
    ("a mapping names a record that is not a space", |table| table.mapped().any(|mapping| !table.is_space(mapping.space))),
    ("an attached device names a record that is not a space", |table| {
        table.devices().any(|device| device.home.is_some_and(|home| !table.is_space(home)))
    }),
    ("a device's bitmap is 0", |table| table.devices().any(|device| device.bitmap == 0)),
    ("the lowest bit of a device's bitmap is above 4,096", |table| table.devices().any(|device| device.smallest_page() > PAGE)),
    ("a reserved range has its start above its last", |table| table.devices().any(|device| device.reserved.iter().any(|range| range.is_reversed()))),
    ("an allowed range has its start above its last", |table| {
        table.space_ids().any(|space| table.allow_list(space).is_some_and(|list| list.iter().any(|range| range.is_reversed())))
    }),
    ("two ranges of an allow list overlap", |table| table.space_ids().any(|space| table.allow_list(space).is_some_and(overlap))),
    ("an allowed range touches a reserved range of its space", |table| {
        table.space_ids().any(|space| {
            let reserved = table.reserved(space);
            table.allow_list(space).is_some_and(|list| list.iter().any(|range| reserved.iter().any(|other| range.touches(*other))))
        })
    }),
    ("two mappings of one space share an address", |table| {
        table.space_ids().any(|space| overlap(&table.mappings_of(space).map(Mapping::addresses).collect::<Vec<_>>()))
    }),
    ("a mapping touches a reserved range of its space", |table| {
        table.space_ids().any(|space| {
            let reserved = table.reserved(space);
            table.mappings_of(space).any(|mapping| reserved.iter().any(|range| mapping.addresses().touches(*range)))
        })
    }),
    ("a mapping is misaligned in its space", |table| {
        table.space_ids().any(|space| {
            let alignment = table.alignment(space);
            table.mappings_of(space).any(|mapping| !mapping.addresses().fits(alignment))
        })
    }),
    ("mappings of one backing differ in memory start", |table| differs(table, |mapping| mapping.memory)),
    ("mappings of one backing differ in length", |table| differs(table, |mapping| mapping.length)),
    ("mappings of one backing differ in the founding right to write", |table| differs(table, |mapping| mapping.founder_write.into())),
    ("a mapping may write without the founding right", |table| table.mapped().any(|mapping| mapping.write && !mapping.founder_write)),
    ("the limit is below the charge", |table| table.limit < table.charge()),
    // An index that breaks none of these is the agreeing one, which the tests try.
    ("the index has a number past 128", |table| table.index.iter().any(|number| *number > MAPPINGS as u64)),
    ("the index has a number behind a zero", |table| table.index.windows(2).any(|two| two[0] == 0 && two[1] != 0)),
    ("the index lists a released record", |table| {
        table.listed().iter().any(|number| *number <= MAPPINGS as u64 && table.numbered(*number).is_none())
    }),
    ("the index lists a record twice", |table| {
        let listed = table.listed();
        listed.iter().enumerate().any(|(k, number)| listed[..k].contains(number))
    }),
    ("the index misses a mapping", |table| {
        let listed = table.listed();
        (1..).zip(&table.mappings).any(|(number, record)| record.is_some() && !listed.contains(&number))
    }),
    ("the index has the spaces out of order", |table| table.neighbours().iter().any(|(one, next)| one.space > next.space)),
    ("the index has the addresses of a space out of order", |table| {
        table.neighbours().iter().any(|(one, next)| one.space == next.space && one.address > next.address)
    }),
];

pub fn has_other_than_128_records(lent: &Lent) -> bool {
    lent.mappings.len() != MAPPINGS
}

pub fn has_other_than_128_words(lent: &Lent) -> bool {
    lent.index.len() != INDEX_WORDS
}

/// The index that agrees with the mapping records, whatever else the memory holds.
pub fn agreeing_index(lent: &Lent) -> Vec<u64> {
    Table::read(lent).agreeing()
}

/// Some mapping has this field different from another of its backing. Being equal to one of them is being equal to all.
fn differs(table: &Table, field: impl Fn(&Mapping) -> u128) -> bool {
    let one_of = table.backings();
    let other = |mapping: &Mapping| one_of.get(mapping.backing as usize).copied().flatten();
    table.mapped().any(|mapping| other(mapping).is_some_and(|other| field(other) != field(mapping)))
}

/// The table in plain data, or the name of the first rule that it breaks.
pub fn good(lent: &Lent) -> Result<Table, &'static str> {
    if let Some((name, _)) = LENT_RULES.iter().find(|(_, broken)| broken(lent)) {
        return Err(name);
    }
    let table = Table::read(lent);
    match TABLE_RULES.iter().find(|(_, broken)| broken(&table)) {
        Some((name, _)) => Err(name),
        None => Ok(table),
    }
}

/// Why a table is bad: the first rule that it breaks. `None` for a good one.
pub fn bad(lent: &Lent) -> Option<&'static str> {
    good(lent).err()
}

/// The names of all rules that make a table bad, in the order in which they are asked.
pub fn bad_rules() -> Vec<&'static str> {
    let lent = LENT_RULES.iter().map(|(name, _)| *name);
    lent.chain(TABLE_RULES.iter().map(|(name, _)| *name)).collect()
}
