#!/usr/bin/env python3
"""The differential run would notice a slip: one rule of the model is changed at a time, and the archive then has to differ from it.

    mutations.py [--only WORDS]     WORDS are a part of a name

Each change is built in a copy of tests/outside, and the fixed sequences run until the first difference. Needs the built archive
(target/archives/x86_64/libiommufd.a). Ends with status 0 if every change was noticed, 1 if one was not or could not be tried, 2 without an archive.
"""
import os
import re
import shutil
import subprocess
import sys
import tempfile
from collections import namedtuple
from concurrent.futures import ThreadPoolExecutor
from queue import Queue

ROOT = os.path.dirname(os.path.dirname(os.path.abspath(__file__)))
ARCHIVE = os.path.join(ROOT, 'target', 'archives', 'x86_64')
WORKERS = 2
WAIT = 600                                                             # seconds for a build or a run

# The old text stands in the file exactly once.
Mutation = namedtuple('Mutation', 'name file old new')
FIRST, COMMANDS, HOST, TABLE, EXPLAIN = 'model.rs', 'model/commands.rs', 'model/host.rs', 'model/table.rs', 'model/explain.rs'


def swapped(name, file, one, other, indent=4):
    """Two lines, or one line and those behind it, in the other order."""
    one, other = (' ' * indent + lines + '\n' for lines in (one, other))
    return Mutation(name, file, one + other, other + one)


def without(name, file, line, indent=4):
    return Mutation(name, file, ' ' * indent + line + '\n', '')


def no_rule(of, words):
    """A clause of the bad table that never holds; it asks the lent memory or the table in plain data."""
    return Mutation('bad table without: ' + words, TABLE, '("%s", |%s|' % (words, of), '("%s", |%s| false &&' % (words, of))


def also(name, rule, reason):
    """A rule is an earlier reason than its own."""
    return Mutation('explain: ' + name, EXPLAIN, '], "%s")' % reason, ', "%s"], "%s")' % (rule, reason))


OPENING = [
    Mutation('opening: five bytes wanted at least', COMMANDS, 'bytes.len() < 4, 14', 'bytes.len() < 5, 14'),
    Mutation('opening: unknown request 22', COMMANDS, 'need(known, 25,', 'need(known, 22,'),
    Mutation('opening: exact size refused', COMMANDS, 'size < known_size', 'size <= known_size'),
    Mutation('opening: size above the lent bytes 22', COMMANDS, 'size > bytes.len(), 14', 'size > bytes.len(), 22'),
    swapped('opening: lent bytes before the size', COMMANDS,
            'name.refuse(size < known_size, 22, "size field below the table\'s size")?;',
            'name.refuse(size > bytes.len(), 14, "size field above the bytes lent")?;'),
    Mutation('opening: tail up to the lent end', COMMANDS, 'bytes[known_size..size]', 'bytes[known_size..]'),
    Mutation('opening: only the first tail byte', COMMANDS, 'bytes[known_size..size].iter()', 'bytes[known_size..size].iter().take(1)'),
    Mutation('opening: last tail byte forgotten', COMMANDS, 'bytes[known_size..size].iter()', 'bytes[known_size..size].iter().rev().skip(1)'),
    Mutation('opening: tail 22', COMMANDS, '!= 0), 7, "a byte', '!= 0), 22, "a byte'),
    Mutation('opening: request before the bad table', FIRST, 'Call::Command { request, bytes, area } => change(',
             'Call::Command { request, .. } if commands::name(*request) == checks::UNKNOWN => Err(checks::UNKNOWN.check(25, "unknown request")),\n'
             '        Call::Command { request, bytes, area } => change('),
]

MAP = [
    Mutation('MAP and COPY: flag bit 3 known', COMMANDS, 'unknown: bits > 7', 'unknown: bits > 15'),
    Mutation('MAP: reserved field not read', COMMANDS, 'flags.unknown || reserved_field != 0', 'flags.unknown'),
    Mutation('MAP: fixed is a right', COMMANDS, '!flags.write && !flags.read, 22', '!flags.write && !flags.read && !flags.fixed, 22'),
    Mutation('MAP: length 2^40 refused', COMMANDS, 'length > LONGEST_MAPPING, 22', 'length >= LONGEST_MAPPING, 22'),
    Mutation('MAP and COPY: length 0 is 75', COMMANDS, 'name.refuse(length == 0, 22', 'name.refuse(length == 0, 75'),
    swapped('MAP: memory sum before the length', COMMANDS, 'asked(MAP, flags, length)?;',
            'let memory_range = Range::new(memory, length);\n    MAP.refuse(memory_range.is_past_u64max(), 75, "memory + length - 1 past U64MAX")?;'),
    Mutation('MAP: sum without - 1', COMMANDS, 'MAP.refuse(memory_range.is_past_u64max()', 'MAP.refuse(memory + length > U64MAX'),
    Mutation('MAP: automatic address is an input', COMMANDS, 'flags.fixed && Range::new(address, length)', 'Range::new(address, length)'),
    swapped('MAP: space before the address sum', COMMANDS, 'MAP.refuse(is_past, 75, "fixed and address + length - 1 past U64MAX")?;',
            'MAP.refuse(!table.is_space(space), 2, "no such space")?;'),
    Mutation('MAP: charge equal to the limit refused', COMMANDS, '> table.limit, 12', '>= table.limit, 12'),
    swapped('MAP: charge before the place', COMMANDS, 'let (address, record) = place(table, MAP, space, flags.fixed.then_some(address), length)?;',
            'MAP.refuse(table.charge() + pages(memory_range) > table.limit, 12, "charge would pass the limit")?;'),
    Mutation('MAP: limit not asked', COMMANDS, 'table.charge() + pages(memory_range) > table.limit', 'table.charge() > table.limit'),
    Mutation('MAP: every founder writeable', COMMANDS, '(table.free_backing(), flags.write)', '(table.free_backing(), true)'),
    without('MAP: address not written', COMMANDS, 'put_u64(bytes, 32, address);'),
    Mutation('MAP: rights read for write', COMMANDS, 'memory, write: flags.write, read: flags.read, backing',
             'memory, write: flags.read, read: flags.write, backing'),
    Mutation('MAP: highest free backing', TABLE, '(1..HIGHEST_BACKING).find(', '(1..HIGHEST_BACKING).rev().find('),
    Mutation('MAP: highest free record', TABLE, 'self.mappings.iter().position(', 'self.mappings.iter().rposition('),
]

PLACE = [
    Mutation('place: address not asked for alignment', COMMANDS, '!address.is_multiple_of(alignment)', '!address.is_multiple_of(1)'),
    Mutation('place: end not asked for alignment', COMMANDS, '!(address + length).is_multiple_of(alignment)',
             '!(address + length).is_multiple_of(1)'),
    Mutation('place: end of 2^64 no multiple', COMMANDS, '!(address + length).is_multiple_of(alignment)',
             '(address + length > U64MAX && alignment > 1) || !(address + length).is_multiple_of(alignment)'),
    Mutation('place: reserved 98', COMMANDS, 'touches(asked)), 22, "fixed: touches reserved"', 'touches(asked)), 98, "fixed: touches reserved"'),
    Mutation('place: mapping before reserved', COMMANDS, 'let asked = Range::new(address, length);\n            name',
             'let asked = Range::new(address, length);\n'
             '            let mapped = table.mappings_of(space).any(|mapping| mapping.addresses().touches(asked));\n'
             '            name.refuse(asked.fits(alignment) && mapped, 17, "early")?;\n            name'),
    Mutation('place: fixed only inside the allow list', COMMANDS, 'name.refuse(is_mapped, 17',
             'let listed = table.allow_list(space).unwrap_or(&[]);\n'
             '            name.refuse(!listed.is_empty() && !listed.iter().any(|range| asked.is_inside(*range)), 28, "not allowed")?;\n'
             '            name.refuse(is_mapped, 17'),
    Mutation('place: automatic length not asked', COMMANDS, '!length.is_multiple_of(alignment), 22', '!length.is_multiple_of(1), 22'),
    Mutation('place: no candidate 12', COMMANDS, 'length), 28, "not fixed', 'length), 12, "not fixed'),
    Mutation('place: record before the address', COMMANDS, 'let address = match fixed {',
             'name.need(table.free_mapping(), 12, "no free mapping record")?;\n    let address = match fixed {'),
    Mutation('candidate: allow list not asked', COMMANDS, '(allowed.is_empty() ||', '(allowed.len() < 99 ||'),
    Mutation('candidate: begins in an allowed range', COMMANDS, 'whole.is_inside(*range)', 'Range::new(*address, 1).is_inside(*range)'),
    Mutation('candidate: allowed ranges joined', COMMANDS, 'allowed.iter().any(|range| whole.is_inside(*range))',
             'allowed.iter().any(|a| allowed.iter().any(|b| (a == b || a.last + 1 == b.first) '
             '&& whole.is_inside(Range { first: a.first, last: b.last })))'),
    Mutation('candidate: first range of the list', COMMANDS, '    tries.sort_unstable();\n', ''),
    Mutation('candidate: highest', COMMANDS, 'tries.into_iter().find(', 'tries.into_iter().rev().find('),
    Mutation('candidate: last address never', COMMANDS, '!whole.is_past_u64max()', 'whole.last < U64MAX'),
    Mutation('candidate: allowed start rounded down', COMMANDS, 'range.first.next_multiple_of(alignment)', 'range.first / alignment * alignment'),
    Mutation('candidate: reserved not asked', COMMANDS, 'let mut blocked = table.reserved(space);', 'let mut blocked: Vec<Range> = Vec::new();'),
    Mutation('candidate: one page between mappings', COMMANDS, '(range.last + 1).next_multiple_of(alignment)',
             '(range.last + 2).next_multiple_of(alignment)'),
    Mutation('candidate: address 0 never', COMMANDS, 'let mut tries = vec![0];', 'let mut tries = vec![alignment];'),
    Mutation('alignment: lowest of the devices', TABLE, '.map(Device::smallest_page).max()', '.map(Device::smallest_page).min()'),
    Mutation('alignment: a page without device', TABLE, '.unwrap_or(1)', '.unwrap_or(PAGE)'),
    Mutation('alignment: space 32 forgotten', TABLE, 'self.devices_of(space).map(Device::smallest_page)',
             'self.devices_of(space).filter(|_| space < 32).map(Device::smallest_page)'),
    Mutation('alignment: all devices', TABLE, 'self.devices_of(space).map(', 'self.devices().map('),
    Mutation('reserved: all devices', TABLE, 'self.devices_of(space).flat_map(', 'self.devices().flat_map('),
    Mutation('reserved: first three ranges', TABLE, 'device.reserved.iter().copied()).collect()',
             'device.reserved.iter().copied().take(3)).collect()'),
]

COPY = [
    Mutation('COPY: unknown flags 22', COMMANDS, 'COPY.refuse(flags.unknown, 95', 'COPY.refuse(flags.unknown, 22'),
    swapped('COPY: flags after rights and length', COMMANDS, 'COPY.refuse(flags.unknown, 95, "unknown flags")?;', 'asked(COPY, flags, length)?;'),
    Mutation('COPY: source sum not asked', COMMANDS, 'Range::new(source_address, length).is_past_u64max(), 75', 'source_address > U64MAX, 75'),
    Mutation('COPY: automatic target is an input', COMMANDS, 'flags.fixed && Range::new(target_address, length)',
             'Range::new(target_address, length)'),
    swapped('COPY: target space before its sum', COMMANDS, 'COPY.refuse(is_past, 75, "fixed and target address + length - 1 past U64MAX")?;',
            'COPY.refuse(!table.is_space(target), 2, "no target space")?;'),
    Mutation('COPY: a part of a mapping', COMMANDS, 'mapping.address == source_address && mapping.length == length',
             'Range::new(source_address, length).is_inside(mapping.addresses())'),
    Mutation('COPY: length of the source not asked', COMMANDS, 'mapping.address == source_address && mapping.length == length',
             'mapping.address == source_address'),
    Mutation('COPY: source in any space', COMMANDS, 'table.mappings_of(source).find(', 'table.mapped().find('),
    Mutation('COPY: right of the source, not of the founder', COMMANDS, 'flags.write && !exact.founder_write', 'flags.write && !exact.write'),
    Mutation('COPY: right to read asked too', COMMANDS, 'flags.write && !exact.founder_write',
             '(flags.write && !exact.founder_write) || (flags.read && !exact.read)'),
    swapped('COPY: right after the place', COMMANDS,
            'COPY.refuse(flags.write && !exact.founder_write, 1, "writeable asked where the founding MAP was not")?;',
            'let (address, record) = place(table, COPY, target, flags.fixed.then_some(target_address), length)?;'),
    Mutation('COPY: charged like MAP', COMMANDS, '    // The copy joins',
             '    COPY.refuse(table.charge() + pages(exact.memory_range()) > table.limit, 12, "charge")?;\n    // The copy joins'),
    Mutation('COPY: a backing of its own', COMMANDS, 'read: flags.read, ..exact', 'read: flags.read, backing: table.free_backing(), ..exact'),
    Mutation('COPY: rights of the source', COMMANDS, 'address, write: flags.write, read: flags.read, ..exact', 'address, ..exact'),
    without('COPY: address not written', COMMANDS, 'put_u64(bytes, 24, address);'),
    Mutation('COPY: source address before the target\'s', COMMANDS, '(u64_at(bytes, 16), u64_at(bytes, 24), u64_at(bytes, 32));\n\n    COPY',
             '(u64_at(bytes, 16), u64_at(bytes, 32), u64_at(bytes, 24));\n\n    COPY'),
]

UNMAP = [
    Mutation('UNMAP: length 0 is 2', COMMANDS, 'UNMAP.refuse(length == 0, 22', 'UNMAP.refuse(length == 0, 2'),
    swapped('UNMAP: space before the sum', COMMANDS, 'UNMAP.refuse(asked.is_past_u64max(), 75, "address + length - 1 past U64MAX")?;',
            'UNMAP.refuse(!table.is_space(space), 2, "no such space")?;'),
    Mutation('UNMAP: all by a length one less', COMMANDS, 'address == 0 && length == U64MAX', 'address == 0 && length >= U64MAX - 1'),
    Mutation('UNMAP: all from address 1', COMMANDS, 'address == 0 && length == U64MAX', 'address <= 1 && length == U64MAX'),
    Mutation('UNMAP: all is an ordinary range', COMMANDS, 'if address == 0 && length == U64MAX {', 'if address == 0 && length > U64MAX {'),
    Mutation('UNMAP: all of every space', COMMANDS, 'table.release(|mapping| mapping.space == space);', 'table.release(|_| true);'),
    Mutation('UNMAP: all fails on none', COMMANDS, '        put_u64(bytes, 16, removed);\n        return',
             '        UNMAP.refuse(removed == 0, 2, "none")?;\n        put_u64(bytes, 16, removed);\n        return'),
    Mutation('UNMAP: a cut mapping is left', COMMANDS, 'UNMAP.refuse(is_cut, 2', 'UNMAP.refuse(is_cut && length == 0, 2'),
    Mutation('UNMAP: one that ends with the range stays', COMMANDS, 'mapping.space == space && is_inside(mapping)',
             'mapping.space == space && is_inside(mapping) && mapping.addresses().last < asked.last'),
    Mutation('UNMAP: removes in every space', COMMANDS, 'mapping.space == space && is_inside(mapping)', 'is_inside(mapping)'),
    Mutation('UNMAP: none inside succeeds', COMMANDS, '!table.mappings_of(space).any(is_inside), 2', 'table.mapped().next().is_none(), 2'),
    Mutation('UNMAP: length is the range\'s', COMMANDS, '    put_u64(bytes, 16, removed);\n    UNMAP',
             '    let _ = removed;\n    put_u64(bytes, 16, length);\n    UNMAP'),
    Mutation('ranges: inside is strictly inside', TABLE, 'self.last <= other.last', 'self.last < other.last'),
    Mutation('ranges: touching at one address overlooked', TABLE, 'self.first <= other.last', 'self.first < other.last'),
    Mutation('ranges: U64MAX is past', TABLE, 'self.last > U64MAX', 'self.last >= U64MAX'),
]

ALLOW = [
    swapped('ALLOW_IOVAS: space before the reserved field', COMMANDS, 'ALLOW_IOVAS.refuse(reserved_field != 0, 95, "reserved field not 0")?;',
            'ALLOW_IOVAS.refuse(!table.is_space(space), 2, "no such space")?;'),
    Mutation('ALLOW_IOVAS: eight ranges too many', COMMANDS, 'count > MOST_ALLOWED, 12', 'count >= MOST_ALLOWED, 12'),
    Mutation('ALLOW_IOVAS: area before the count', COMMANDS, 'ALLOW_IOVAS.refuse(count > MOST_ALLOWED',
             'ALLOW_IOVAS.refuse(area.len() < in_area(count as usize), 14, "early")?;\n    ALLOW_IOVAS.refuse(count > MOST_ALLOWED'),
    Mutation('ALLOW_IOVAS: exact area short', COMMANDS, 'area.len() < in_area(count), 14', 'area.len() <= in_area(count), 14'),
    Mutation('ALLOW_IOVAS: longer area refused', COMMANDS, 'area.len() < in_area(count), 14', 'area.len() != in_area(count), 14'),
    Mutation('ALLOW_IOVAS: one address is reversed', TABLE, 'self.first > self.last', 'self.first >= self.last'),
    Mutation('ALLOW_IOVAS: only neighbours in the list overlap', TABLE, 'ranges[i + 1..].iter().any(', 'ranges[i + 1..].iter().take(1).any('),
    Mutation('ALLOW_IOVAS: adjoining overlaps', COMMANDS, 'ALLOW_IOVAS.refuse(overlap(&ranges), 22',
             'let adjoins = ranges.iter().any(|a| ranges.iter().any(|b| a.last + 1 == b.first));\n'
             '    ALLOW_IOVAS.refuse(adjoins || overlap(&ranges), 22'),
    Mutation('ALLOW_IOVAS: reserved before overlap', COMMANDS, 'ALLOW_IOVAS.refuse(overlap(&ranges), 22',
             'ALLOW_IOVAS.refuse(ranges.iter().any(|range| table.reserved(space).iter().any(|other| range.touches(*other))), 98, "early")?;\n'
             '    ALLOW_IOVAS.refuse(overlap(&ranges), 22'),
    Mutation('ALLOW_IOVAS: reserved not asked', COMMANDS, 'ALLOW_IOVAS.refuse(touches_reserved, 98',
             'ALLOW_IOVAS.refuse(touches_reserved && count > 8, 98'),
    Mutation('ALLOW_IOVAS: list sorted', COMMANDS, 'table.set(space, Object::Space { allow: ranges });',
             'let mut ranges = ranges;\n    ranges.sort_by_key(|range| range.first);\n    table.set(space, Object::Space { allow: ranges });'),
    Mutation('ALLOW_IOVAS: count 0 keeps the list', COMMANDS, 'table.set(space, Object::Space { allow: ranges });',
             'if count > 0 {\n        table.set(space, Object::Space { allow: ranges });\n    }'),
]

RANGES = [
    swapped('IOVA_RANGES: space before the reserved field', COMMANDS, 'IOVA_RANGES.refuse(reserved_field != 0, 95, "reserved field not 0")?;',
            'IOVA_RANGES.refuse(!table.is_space(space), 2, "no such space")?;'),
    Mutation('IOVA_RANGES: 16 * count in 32 bits', COMMANDS, 'area.len() < in_area(room), 14, "range area shorter than 16 times count")?;',
             'area.len() < count.wrapping_mul(16) as usize, 14, "16 times count")?;\n    let room = room.min(area.len() / 16);'),
    Mutation('IOVA_RANGES: exact room too small', COMMANDS, 'ranges.len() > room, 90', 'ranges.len() >= room, 90'),
    Mutation('IOVA_RANGES: 90 writes nothing', COMMANDS, '    for (i, range) in ranges.iter().take(room).enumerate() {',
             '    IOVA_RANGES.refuse(ranges.len() > room, 90, "early")?;\n    for (i, range) in ranges.iter().take(room).enumerate() {'),
    Mutation('IOVA_RANGES: count is what was written', COMMANDS, 'put_u32(bytes, 8, ranges.len() as u32);',
             'put_u32(bytes, 8, ranges.len().min(room) as u32);'),
    Mutation('IOVA_RANGES: count never shrinks', COMMANDS, 'put_u32(bytes, 8, ranges.len() as u32);',
             'put_u32(bytes, 8, ranges.len().max(room) as u32);'),
    without('IOVA_RANGES: alignment not written', COMMANDS, 'put_u64(bytes, 24, table.alignment(space));'),
    Mutation('IOVA_RANGES: unused room zeroed', COMMANDS, '    put_u32(bytes, 8, ranges.len() as u32);\n',
             '    area[in_area(ranges.len().min(room))..in_area(room)].fill(0);\n    put_u32(bytes, 8, ranges.len() as u32);\n'),
    Mutation('IOVA_RANGES: inner range ends the outer', COMMANDS, 'next = next.max(range.last + 1);', 'next = range.last + 1;'),
    Mutation('IOVA_RANGES: order of the devices', COMMANDS, '    reserved.sort_unstable_by_key(|range| range.first);\n', ''),
    Mutation('IOVA_RANGES: last address alone forgotten', COMMANDS, 'if next <= U64MAX {', 'if next < U64MAX {'),
    Mutation('IOVA_RANGES: address 0 alone forgotten', COMMANDS, 'if next < range.first {', 'if next + 1 < range.first {'),
    Mutation('IOVA_RANGES: allow list hides its gaps', COMMANDS, 'let ranges = not_reserved(table, space);',
             'let listed = table.allow_list(space).unwrap_or(&[]).to_vec();\n'
             '    let ranges = if listed.is_empty() { not_reserved(table, space) } else { listed };'),
]

OBJECTS = [
    Mutation('IOAS_ALLOC: low half of the flags', COMMANDS, 'flags != 0, 95', 'flags & 0xFFFF != 0, 95'),
    swapped('IOAS_ALLOC: record before the flags', COMMANDS, 'IOAS_ALLOC.refuse(flags != 0, 95, "flags not 0")?;',
            'let id = IOAS_ALLOC.need(table.free_id(), 12, "no free object record")?;'),
    without('IOAS_ALLOC: id not written', COMMANDS, 'put_u32(bytes, 8, id);'),
    Mutation('objects: highest free record', TABLE, '.find(|(_, object)| **object == Object::Free).map(',
             '.filter(|(_, object)| **object == Object::Free).last().map('),
    Mutation('objects: 31 of them', TABLE, 'pub fn free_id(&self) -> Option<u32> {\n        (1..)',
             'pub fn free_id(&self) -> Option<u32> {\n        (1..32)'),
    Mutation('objects: id 0 is id 1', TABLE, 'let record = (id as usize).checked_sub(1)?;', 'let record = (id as usize).saturating_sub(1);'),
    Mutation('DESTROY: attached device goes', COMMANDS, 'device.home.is_some()), 16, "an attached',
             'device.home.is_some() && device.bitmap == 0), 16, "an attached'),
    Mutation('DESTROY: space with a device goes', COMMANDS, 'table.devices_of(id).next().is_some(), 16', 'table.devices_of(id).nth(1).is_some(), 16'),
    without('DESTROY: mappings stay', COMMANDS, 'table.release(|mapping| mapping.space == id);'),
    Mutation('DESTROY: a loose device is in use', COMMANDS, 'is_some_and(|device| device.home.is_some()), 16', 'is_some(), 16'),
    Mutation('DESTROY: in use 22', COMMANDS, '16, "a space with an', '22, "a space with an'),
]

HOST_CALLS = [
    Mutation('fresh: limit 2^36 refused', HOST, 'limit > HIGHEST_LIMIT, 22', 'limit >= HIGHEST_LIMIT, 22'),
    Mutation('fresh: bad memory refused', HOST, 'has_other_than_128_records(lent), 117', 'super::table::bad(lent).is_some(), 117'),
    Mutation('bind: lowest bit 4,096 refused', HOST, 'lowest_bit(bitmap) > PAGE', 'lowest_bit(bitmap) >= PAGE'),
    Mutation('bind: the highest bit judged', HOST, 'lowest_bit(bitmap) > PAGE', 'u128::from(bitmap) > PAGE'),
    Mutation('bind: four ranges too many', HOST, 'reserved.count > MOST_RESERVED', 'reserved.count >= MOST_RESERVED'),
    Mutation('bind: places past the count judged', HOST, 'let reserved = list(reserved.count, &reserved.starts, &reserved.lasts);\n',
             'let all = list(4, &reserved.starts, &reserved.lasts);\n    let reserved = list(reserved.count, &reserved.starts, &reserved.lasts);\n'
             '    BIND.refuse(all.iter().any(|range| range.is_reversed()), 22, "past the count")?;\n'),
    Mutation('bind: overlapping ranges refused', HOST, 'BIND.refuse(reserved.iter().any(|range| range.is_reversed())',
             'BIND.refuse(super::table::overlap(&reserved) || reserved.iter().any(|range| range.is_reversed())'),
    Mutation('bind: record before the fields', HOST, 'BIND.refuse(bitmap == 0, 22',
             'BIND.need(table.free_id(), 12, "early")?;\n    BIND.refuse(bitmap == 0, 22'),
    Mutation('bind: result 0', HOST, 'BIND.give(id as i32, 0,', 'BIND.give(0, id.into(),'),
    swapped('attach: attached before the space', HOST, 'let allowed = ATTACH.need(table.allow_list(space), 2, "no space")?;',
            'ATTACH.refuse(device.home.is_some(), 16, "already attached")?;'),
    Mutation('attach: moves an attached device', HOST, 'ATTACH.refuse(device.home.is_some(), 16', 'ATTACH.refuse(device.home == Some(space), 16'),
    Mutation('attach: mappings not asked for reserved', HOST, 'ATTACH.refuse(on_mapping, 98', 'ATTACH.refuse(on_mapping && id == 0, 98'),
    Mutation('attach: allow list not asked', HOST, 'allowed.iter().any(|range| touches_reserved(*range)), 98', 'allowed.len() > 8, 98'),
    Mutation('attach: mapping against reserved 22', HOST, 'on_mapping, 98', 'on_mapping, 22'),
    Mutation('attach: old alignment only', HOST, 'table.alignment(space).max(device.smallest_page())', 'table.alignment(space)'),
    Mutation('attach: ends not asked for alignment', TABLE, 'self.first.is_multiple_of(alignment) && (self.last + 1).is_multiple_of(alignment)',
             'self.first.is_multiple_of(alignment)'),
    Mutation('detach: loose is 2', HOST, 'device.home.is_none(), 22', 'device.home.is_none(), 2'),
    without('detach: stays attached', HOST, 'table.set(id, Object::Device(loose));'),
    Mutation('reach: not attached 2', HOST, 'device.home, 22', 'device.home, 2'),
    Mutation('reach: length 0 is 14', HOST, 'length == 0, 22', 'length == 0, 14'),
    Mutation('reach: sum not asked', HOST, 'asked.is_past_u64max(), 75', 'asked.is_past_u64max() && length == 0, 75'),
    Mutation('reach: first byte inside is enough', HOST, 'asked.is_inside(mapping.addresses())',
             'Range::new(address, 1).is_inside(mapping.addresses())'),
    Mutation('reach: founder\'s right', HOST, 'write && !mapping.write', 'write && !mapping.founder_write'),
    Mutation('reach: a writer may read', HOST, '!write && !mapping.read, 1', '!write && !mapping.read && !mapping.write, 1'),
    Mutation('reach: memory start', HOST, '(mapping.memory + (address - mapping.address)) as u64', 'mapping.memory as u64'),
    Mutation('reach: only 1 writes', FIRST, '*write != 0', '*write == 1'),
]

CHARGE = [
    Mutation('charge: length / 4,096', TABLE, 'memory.last / PAGE - memory.first / PAGE + 1', '(memory.last - memory.first) / PAGE + 1'),
    Mutation('charge: end page not counted', TABLE, 'memory.last / PAGE - memory.first / PAGE + 1',
             '(memory.last + 1) / PAGE - memory.first / PAGE + 1'),
    Mutation('charge: each mapping counts', TABLE, 'self.backings().into_iter().flatten().map(|mapping| pages', 'self.mapped().map(|mapping| pages'),
    Mutation('next: the ends after the address alone', HOST, 'mapping.addresses().last >= address', 'mapping.addresses().last > address'),
    Mutation('next: the beginnings from the address on', HOST, 'mapping.addresses().last >= address', 'mapping.address >= address'),
    Mutation('next: the lowest record', HOST, 'ending.min_by_key(|(_, mapping)| mapping.address)', 'ending.min_by_key(|(number, _)| *number)'),
    Mutation('next: the highest address', HOST, 'ending.min_by_key(', 'ending.max_by_key('),
    Mutation('next: the mappings of every space', HOST, 'mapping.space == space && mapping.addresses().last >= address',
             'mapping.addresses().last >= address'),
    Mutation('next: records from 0', HOST, 'NEXT.give(0, number, ', 'NEXT.give(0, number - 1, '),
    Mutation('next: none is 2', HOST, 'None => NEXT.give(0, 0, "done, none")', 'None => Err(NEXT.check(2, "no such space"))'),
    Mutation('next: an object of any kind is a space', HOST, 'NEXT.refuse(!table.is_space(space), 2', 'NEXT.refuse(table.object(space).is_none(), 2'),
    Mutation('preview: the table changes', FIRST, 'Call::Preview { request, bytes, area } => look(',
             'Call::Preview { request, bytes, area } => change('),
]

KEEPS = 'table.index = table.agreeing();'                               # where the model keeps the index
INDEX = [
    Mutation('index: order by address alone', TABLE, '(mapping.space, mapping.address));', 'mapping.address);'),
    Mutation('index: order by record in a space', TABLE, '(mapping.space, mapping.address));', 'mapping.space);'),
    Mutation('index: spaces from the highest on', TABLE, '(mapping.space, mapping.address));',
             '(std::cmp::Reverse(mapping.space), mapping.address));'),
    Mutation('index: records from 0', TABLE, '(1..).zip(&self.mappings).filter_map(', '(0..).zip(&self.mappings).filter_map('),
    Mutation('index: a new record one place late', FIRST, KEEPS,
             'let new = table.agreeing();\n    let old = std::mem::replace(&mut table.index, new);\n'
             '    if let Some(at) = (0..127).find(|at| !old.contains(&table.index[*at]) && table.index[at + 1] != 0) {\n'
             '        table.index.swap(at, at + 1);\n    }'),
    Mutation('index: a new record at the end', FIRST, KEEPS,
             'let new = table.agreeing();\n    let mut kept = table.index.iter().copied().filter(|number| new.contains(number) && *number != 0).collect::<Vec<_>>();\n'
             '    kept.extend(new.iter().filter(|number| **number != 0 && !table.index.contains(number)));\n'
             '    kept.resize(128, 0);\n    table.index = kept;'),
    Mutation('index: a removed record is kept', FIRST, KEEPS,
             'let new = table.agreeing();\n    if table.index.iter().all(|number| new.contains(number)) {\n        table.index = new;\n    }'),
    Mutation('index: no zeros behind a removal', FIRST, KEEPS,
             'let new = table.agreeing();\n    let listed = new.iter().filter(|number| **number != 0).count();\n'
             '    table.index[..listed].copy_from_slice(&new[..listed]);'),
    Mutation('index: not asked', TABLE, 'match TABLE_RULES.iter().find(',
             'match TABLE_RULES.iter().filter(|(name, _)| !name.contains("the index")).find('),
    Mutation('index: low half of a word', TABLE, '*number > MAPPINGS as u64)),', '*number as u32 > MAPPINGS as u32)),'),
    Mutation('index: the last word not asked', TABLE, 'table.index.windows(2).any(', 'table.index[..INDEX_WORDS - 1].windows(2).any('),
    Mutation('fresh: the index stays', HOST, 'Table::empty(limit).store(lent);',
             'let kept = lent.index.clone();\n    Table::empty(limit).store(lent);\n    lent.index = kept;'),
    Mutation('fresh: words of the index not counted', HOST, 'has_other_than_128_words(lent), 117', 'lent.index.is_empty(), 117'),
]

ANOTHER = 'EXPLAIN.refuse(name != MAP && name != COPY, 25, "another request than MAP and COPY")?;'
EXPLAINED = [
    Mutation('explain: request before the bad table', FIRST, 'Call::Explain { request, bytes, words } => look(',
             'Call::Explain { request, .. } if ![0x3B83, 0x3B85].contains(request) => Err(checks::EXPLAIN.check(25, "another request than MAP and COPY")),\n'
             '        Call::Explain { request, bytes, words } => look('),
    Mutation('explain: a bad table writes', FIRST, 'Call::Explain { request, bytes, words } => look(',
             'Call::Explain { words, .. } if table::bad(lent).is_some() => {\n            words[0] = 0;\n'
             '            Err(checks::EXPLAIN.check(117, "bad table"))\n        }\n        Call::Explain { request, bytes, words } => look('),
    Mutation('explain: another request 22', EXPLAIN, 'name != COPY, 25', 'name != COPY, 22'),
    Mutation('explain: another request writes', EXPLAIN, ANOTHER, 'if name != MAP && name != COPY {\n        words[0] = 0;\n    }\n    ' + ANOTHER),
    Mutation('explain: COPY is another request', EXPLAIN, 'name != MAP && name != COPY, 25', 'name != MAP, 25'),
    Mutation('explain: an accepted command stays untold', EXPLAIN, '    *words = [',
             '    if code == ACCEPTED {\n        return EXPLAIN_MAP.done(called(code));\n    }\n    *words = ['),
    Mutation('explain: errno left out', EXPLAIN, 'errno as u64, named', '0, named'),
    Mutation('explain: negative errno', EXPLAIN, 'errno as u64, named', '-i64::from(errno) as u64, named'),
    Mutation('explain: codes from 1', EXPLAIN, '*words = [code as u64,', '*words = [code as u64 + 1,'),
    also('size too small is no size', "size field below the table's size", '1 NoSizeField'),
    also('size past the bytes is too small', 'size field above the bytes lent', '2 SizeTooSmall'),
    also('a tail is past the bytes', 'a byte beyond the known size is not zero', '3 SizePastBytes'),
    also('length 0 is no right', 'length 0', '6 NoRight'),
    also('a length over 2^40 is no right', 'length over 2^40', '6 NoRight'),
    also('a fixed address that passes is memory', 'fixed and address + length - 1 past U64MAX', '8 MemoryPasses'),
    also('a source that passes is memory', 'source address + length - 1 past U64MAX', '8 MemoryPasses'),
    also('a target that passes is the source', 'fixed and target address + length - 1 past U64MAX', '9 SourcePasses'),
    also('no source space is no space', 'no source space', '11 NoSpace'),
    also('no source is no source space', 'no source mapping with exactly this address and length', '12 NoSourceSpace'),
    also('a length off the alignment is misaligned', 'not fixed: length not a multiple of the alignment', '15 Misaligned'),
    also('a mapping is reserved', 'fixed: touches a mapping of the space', '16 TouchesReserved'),
    also('a charge is a record', 'charge would pass the limit', '20 NoRecord'),
    also('an end off the alignment is no right', 'fixed: address + length not a multiple of the alignment', '14 NotWriteable'),
    Mutation('explain: the highest object', EXPLAIN, 'reserving(table, at).map(|(id, _)| id).min()', 'reserving(table, at).map(|(id, _)| id).max()'),
    Mutation('explain: the object with the lowest address', EXPLAIN, 'reserving(table, at).map(|(id, _)| id).min()',
             'reserving(table, at).min_by_key(|(_, ranges)| ranges.iter().filter(|range| range.touches(at.range)).map(|range| range.first).min())'
             '.map(|(id, _)| id)'),
    Mutation('explain: objects from 0', EXPLAIN, 'named = lowest_object(table, landing(request, bytes))',
             'named = lowest_object(table, landing(request, bytes)) - 1'),
    Mutation('explain: objects of every space', EXPLAIN, 'device.home == Some(at.space)', 'device.home.is_some()'),
    Mutation('explain: the first range of an object', EXPLAIN, 'device.reserved.iter().any(|range| range.touches(at.range))',
             'device.reserved.iter().take(1).any(|range| range.touches(at.range))'),
    Mutation('explain: any object that reserves', EXPLAIN, 'device.reserved.iter().any(|range| range.touches(at.range))', '!device.reserved.is_empty()'),
    Mutation('explain: the highest record', EXPLAIN, 'mapped(table, at).map(|(number, _)| number).min()', 'mapped(table, at).map(|(number, _)| number).max()'),
    Mutation('explain: the record with the lowest address', EXPLAIN, 'mapped(table, at).map(|(number, _)| number).min()',
             'mapped(table, at).min_by_key(|(_, mapping)| mapping.address).map(|(number, _)| number)'),
    Mutation('explain: records from 0', EXPLAIN, 'named = lowest_record(table, landing(request, bytes))',
             'named = lowest_record(table, landing(request, bytes)) - 1'),
    Mutation('explain: records of every space', EXPLAIN, 'mapping.space == at.space && mapping.addresses().touches(at.range)',
             'mapping.addresses().touches(at.range)'),
    Mutation('explain: any record of the space', EXPLAIN, 'mapping.space == at.space && mapping.addresses().touches(at.range)', 'mapping.space == at.space'),
    Mutation('explain: the source space of a COPY', COMMANDS, 'Landing { space: u32_at(bytes, 8), range',
             'Landing { space: u32_at(bytes, if name(request) == COPY { 12 } else { 8 }), range'),
    Mutation('run: from any address', EXPLAIN, 'let alignment = table.alignment(space);\n    let mut blocked', 'let alignment = 1;\n    let mut blocked'),
    Mutation('run: reserved not asked', EXPLAIN, 'let mut blocked = table.reserved(space);', 'let mut blocked: Vec<Range> = Vec::new();'),
    Mutation('run: mappings not asked', EXPLAIN, 'table.mappings_of(space).map(Mapping::addresses)', 'table.mappings_of(0).map(Mapping::addresses)'),
    Mutation('run: mappings of every space', EXPLAIN, 'table.mappings_of(space).map(Mapping::addresses)', 'table.mapped().map(Mapping::addresses)'),
    Mutation('run: allow list not asked', EXPLAIN, '.filter(|list| !list.is_empty())', '.filter(|list| list.len() > 8)'),
    Mutation('run: only the first allowed range', EXPLAIN, 'for window in allowed {', 'for window in &allowed[..1] {'),
    Mutation('run: allowed ranges joined', EXPLAIN, 'before_blocked.fold(window.last, u128::min)',
             'before_blocked.fold(allowed.iter().find(|next| next.first == window.last + 1).unwrap_or(window).last, u128::min)'),
    Mutation('run: never the last address', EXPLAIN, 'Range { first: 0, last: U64MAX }', 'Range { first: 0, last: U64MAX - 1 }'),
    Mutation('run: not from address 0', EXPLAIN, 'Range { first: 0, last: U64MAX }', 'Range { first: 1, last: U64MAX }'),
    Mutation('run: only from the first multiple of a window', EXPLAIN, '        starts.extend(blocked.iter().map(|range| (range.last + 1)'
             '.next_multiple_of(alignment)));\n', ''),
    Mutation('run: only behind what is blocked', EXPLAIN, 'vec![window.first.next_multiple_of(alignment)]', 'vec![]'),
    Mutation('run: ends on a multiple', EXPLAIN, 'before_blocked.fold(window.last, u128::min) }',
             '(before_blocked.fold(window.last, u128::min) + 1) / alignment * alignment - 1 }'),
    Mutation('run: with what blocks it', EXPLAIN, '.map(|range| range.first - 1);', '.map(|range| range.first);'),
    Mutation('run: the highest of equals', EXPLAIN, 'runs.into_iter().find(', 'runs.into_iter().rev().find('),
    Mutation('run: the lowest', EXPLAIN, '.max()?;', '.next()?;'),
    Mutation('run: the shortest', EXPLAIN, '.max()?;', '.min()?;'),
    Mutation('run: last for length', EXPLAIN, '(run.first, run.length()))', '(run.first, run.last))'),
    Mutation('run: length without the last', TABLE, 'self.last - self.first + 1\n    }\n\n    /// The two', 'self.last - self.first\n    }\n\n    /// The two'),
    Mutation('run: start left where there is none', EXPLAIN, 'longest.map_or((0, 0), |run|', 'longest.map_or((words[3].into(), 0), |run|'),
    Mutation('run: told of every refusal of a place', EXPLAIN, 'TOUCHES_MAPPING => named = lowest_record(table, landing(request, bytes)),',
             'TOUCHES_MAPPING => {\n            named = lowest_record(table, landing(request, bytes));\n'
             '            longest = longest_run(table, landing(request, bytes).space);\n        }'),
]

BAD = [no_rule('lent', words) for words in (
    'no index is lent',
    'the index has fewer than 128 words',
    'the index has more than 128 words',
    'an object record is neither free, a space nor a device',
    'a free object record is not zero',
    'a field that a space does not use is not zero',
    'a field that a device does not use is not zero',
    'a loose device names a space',
    'a device has over 4 reserved ranges',
    'an allow list has over 8 ranges',
    "an unused place of a device's reserved ranges is not zero",
    'an unused place of an allow list is not zero',
    'a released mapping record is not zero',
    'a mapping has a right that is neither to write nor to read',
    "a mapping's founding right to write is neither 0 nor 1",
)] + [no_rule('table', words) for words in (
    'the limit is above 2^36',
    'a mapping has length 0',
    'a mapping has a length over 2^40',
    'a mapping has no right',
    'a mapping runs past U64MAX in its space',
    'a mapping runs past U64MAX in memory',
    'a backing number is not from 1 to 128',
    'a mapping names a record that is not a space',
    'an attached device names a record that is not a space',
    "the lowest bit of a device's bitmap is above 4,096",
    'a reserved range has its start above its last',
    'an allowed range has its start above its last',
    'two ranges of an allow list overlap',
    'an allowed range touches a reserved range of its space',
    'two mappings of one space share an address',
    'a mapping touches a reserved range of its space',
    'a mapping is misaligned in its space',
    'mappings of one backing differ in memory start',
    'mappings of one backing differ in length',
    'mappings of one backing differ in the founding right to write',
    'a mapping may write without the founding right',
    'the limit is below the charge',
    'the index has a number past 128',
    'the index has a number behind a zero',
    'the index lists a released record',
    'the index lists a record twice',
    'the index misses a mapping',
    'the index has the spaces out of order',
    'the index has the addresses of a space out of order',
)] + [
    Mutation('bad table: more than 128 records are fine', TABLE, 'lent.mappings.len() != MAPPINGS', 'lent.mappings.len() < MAPPINGS'),
    Mutation('bad table: length 2^40', TABLE, 'mapping.length > LONGEST_MAPPING', 'mapping.length >= LONGEST_MAPPING'),
    Mutation('bad table: limit 2^36', TABLE, '|table| table.limit > HIGHEST_LIMIT', '|table| table.limit >= HIGHEST_LIMIT'),
    Mutation('bad table: limit equal to the charge', TABLE, 'table.limit < table.charge()', 'table.limit <= table.charge()'),
    Mutation('bad table: backing 128', TABLE, '!(1..=HIGHEST_BACKING)', '!(1..HIGHEST_BACKING)'),
    Mutation('bad table: loose devices not judged', TABLE, 'table.devices().any(|device| device.smallest_page() > PAGE)',
             'table.devices().any(|device| device.home.is_some() && device.smallest_page() > PAGE)'),
    Mutation('bad table: only starts of unused places', TABLE, 'any(|place| place != (&0, &0))', 'any(|place| *place.0 != 0)'),
    Mutation('bad table: spaces share addresses', TABLE, 'table.space_ids().any(|space| overlap(&table.mappings_of(space).map(',
             'table.space_ids().take(1).any(|_| overlap(&table.mapped().map('),
    Mutation('bad table: mapping outside the allow list', TABLE, '("the limit is below the charge", |table|',
             '("outside", |table| table.mapped().any(|mapping| table.allow_list(mapping.space).is_some_and(|list| !list.is_empty() '
             '&& !list.iter().any(|range| mapping.addresses().is_inside(*range))))),\n    ("the limit is below the charge", |table|'),
    Mutation('bad table: rights of one backing differ', TABLE, '("the limit is below the charge", |table|',
             '("rights", |table| differs(table, |mapping| mapping.read.into())),\n    ("the limit is below the charge", |table|'),
    Mutation('bad table: a founder without a writer', TABLE, 'mapping.write && !mapping.founder_write', 'mapping.write != mapping.founder_write'),
]

MUTATIONS = OPENING + MAP + PLACE + COPY + UNMAP + ALLOW + RANGES + OBJECTS + HOST_CALLS + CHARGE + INDEX + EXPLAINED + BAD


class Faulty(Exception):
    """A mutation that cannot be tried."""


class Workshop:
    """A copy of the crate in a folder of its own, with what was built there before."""

    def __init__(self, folder):
        self.crate = os.path.join(folder, 'tests', 'outside')
        self.env = dict(os.environ, CARGO_TARGET_DIR=os.path.join(folder, 'built'), IOMMUFD_LIB=ARCHIVE,
                        CARGO_PROFILE_RELEASE_OPT_LEVEL='1', CARGO_PROFILE_RELEASE_INCREMENTAL='true', CARGO_PROFILE_RELEASE_DEBUG='0')
        shutil.copytree(os.path.join(ROOT, 'tests', 'outside'), self.crate, ignore=shutil.ignore_patterns('target'))
        os.symlink(os.path.join(ROOT, 'examples'), os.path.join(folder, 'examples'))

    def path(self, file):
        return os.path.join(self.crate, 'src', file)

    def changed(self, mutation):
        """The text with the change. The unchanged one stays on the disk of the repository."""
        with open(os.path.join(ROOT, 'tests', 'outside', 'src', mutation.file)) as file:
            text = file.read()
        if text.count(mutation.old) != 1 or mutation.new == mutation.old:
            raise Faulty('its old text stands %d times in %s' % (text.count(mutation.old), mutation.file))
        return text.replace(mutation.old, mutation.new)

    def build(self):
        words = ['cargo', 'build', '--quiet', '--offline', '--release', '--bin', 'differential']
        ended = subprocess.run(words, cwd=self.crate, env=self.env, timeout=WAIT, capture_output=True, text=True)
        if ended.returncode:
            raise Faulty('does not compile:\n' + ended.stderr[-2000:])

    def run(self):
        program = os.path.join(self.env['CARGO_TARGET_DIR'], 'release', 'differential')
        ended = subprocess.run([program, '--no-shrink'], timeout=WAIT, capture_output=True, text=True)
        return ended.returncode, ended.stdout

    def unchanged(self):
        self.build()
        return self.run()

    def tried(self, mutation):
        """The calls after which a difference was told, None if there was none."""
        text = self.changed(mutation)
        try:
            with open(self.path(mutation.file), 'w') as file:
                file.write(text)
            self.build()
            status, told = self.run()
        finally:
            shutil.copy(os.path.join(ROOT, 'tests', 'outside', 'src', mutation.file), self.path(mutation.file))
        found = re.search(r'^# difference after (\d+) calls', told, re.M)
        if status == 1 and found:
            return int(found[1])
        if status != 0 and not found and 'NOT REACHED' not in told:
            raise Faulty('the run ended with status %d' % status)
        return None


def outcome(workshops, mutation):
    """A line about it, and if it was noticed."""
    workshop = workshops.get()
    try:
        calls = workshop.tried(mutation)
        return ('%9d  %s' % (calls, mutation.name), True) if calls is not None else ('NOT NOTICED  ' + mutation.name, False)
    except (Faulty, subprocess.TimeoutExpired) as fault:
        return 'FAULTY  %s: %s' % (mutation.name, fault), False
    finally:
        workshops.put(workshop)


def try_all(mutations, folder):
    first, others = Workshop(os.path.join(folder, '0')), range(1, WORKERS)
    status, told = first.unchanged()
    if status != 0:
        print(told + 'mutations.py: the unchanged model has to pass first')
        return False
    workshops = Queue()
    for workshop in [first] + [Workshop(os.path.join(folder, str(k))) for k in others]:
        workshops.put(workshop)
    print('    calls  noticed change')
    noticed = 0
    with ThreadPoolExecutor(WORKERS) as pool:
        for line, was in pool.map(lambda mutation: outcome(workshops, mutation), mutations):
            print(line, flush=True)
            noticed += was
    print('mutations.py: %d of %d changes noticed' % (noticed, len(mutations)))
    return noticed == len(mutations)


def main(given):
    if given and (len(given) != 2 or given[0] != '--only'):
        print(__doc__.strip(), file=sys.stderr)
        return 2
    if not os.path.exists(os.path.join(ARCHIVE, 'libiommufd.a')):
        print('mutations.py: no archive at %s; build it first' % ARCHIVE, file=sys.stderr)
        return 2
    mutations = [m for m in MUTATIONS if not given or given[1] in m.name]
    with tempfile.TemporaryDirectory() as folder:
        return 0 if mutations and try_all(mutations, folder) else 1


if __name__ == '__main__':
    sys.exit(main(sys.argv[1:]))
