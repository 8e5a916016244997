#!/usr/bin/env python3
"""Brings this repository's own definitions, laws and fields to today's spelling, after /opt/rattle/port/port.py: words in snake case, a dash only behind a whole name.

usage: respell.py            applies tools/respelled.tsv to crates/ (source, specs, proofs, edits) and to the papers and scripts that name what it renames
       respell.py --table    writes that table anew from the names that specs/ and proofs/ declare

Functions of src/, exported names, strings, inputs and outputs keep their names. A name of two that would fall together is left as it is, and told.
"""

import collections
import glob
import os
import re
import sys

TOP = os.path.dirname(os.path.dirname(os.path.abspath(__file__)))
TABLE = os.path.join(TOP, 'tools', 'respelled.tsv')
NAME = r'[^\s(){}.;,@"«»`\[\]]+'
DECLARED = re.compile(r'(?m)^ *(?:(?:pub|abbrev|unfoldable|mutual) +)*(' + NAME + r')(?: \{[^{}\n]*\})* : (.*)$')
HEADED = re.compile(r'(?m)^ *(?:(?:pub|abbrev|unfoldable) +)*(?:record|data|ruleset) +(' + NAME + ')')
CONSTRUCTOR = re.compile(r'(?m)^  (' + NAME + r')(?: \{[^{}\n]*\})* : ')
# Said by hand: `result` is what a function returns now, and of two names that would fall together the law's says what it is a law of.
BY_HAND = {
    'result': 'signed_result',
    'attach-order': 'order_in-attach', 'attachOrder': 'attach_order', 'bind-order': 'order_in-bind', 'bindOrder': 'bind_order',
    'bench-set': 'bench_set-holds', 'benchSet': 'bench_set', 'board-after': 'board_run-after', 'boardAfter': 'board_after',
    'board-trace': 'board_trace-run', 'boardTrace': 'board_trace', 'clear_of': 'clear_of-none', 'clear-of': 'clear_of-none', 'clearOf': 'clear_of',
    'copy-decided': 'copy_decided-gives', 'copyDecided': 'copy_decided', 'map-decided': 'map_decided-gives', 'mapDecided': 'map_decided',
    'copy-fields': 'copy_fields-are', 'copyFields': 'copy_fields', 'map-fields': 'map_fields-are', 'mapFields': 'map_fields',
    'unmap-fields': 'unmap_fields-are', 'unmapFields': 'unmap_fields', 'destroy-edit': 'destroy_edit-is', 'destroyEdit': 'destroy_edit',
    'in_second': 'In-second', 'in-second': 'In-second', 'inSecond': 'in_second', 'in_window': 'in_window-candidate', 'in-window': 'in_window-candidate',
    'inWindow': 'in_window', 'list-fits': 'list_fits-is', 'listFits': 'list_fits', 'map_first': 'map_names-first', 'map-first': 'map_names-first',
    'mapFirst': 'map_first', 'no_record': 'object_at-zero', 'no-record': 'object_at-zero', 'noRecord': 'no_record', 'of_space': 'of_space-is',
    'of-space': 'of_space-is', 'ofSpace': 'of_space', 'or-none': 'bit_or-none', 'orNone': 'or_none', 'record-at': 'record_at-is',
    'recordAt': 'record_at', 'same_bytes': 'same_bytes-equal', 'same-bytes': 'same_bytes-equal', 'sameBytes': 'same_bytes',
    'unmap-bytes': 'unmap_bytes-mapped', 'unmapBytes': 'unmap_bytes', 'with-device': 'with_device-alignment', 'withDevice': 'with_device',
    'zero-raw': 'zero_raw-is', 'zeroRaw': 'zero_raw',
}


def read(path):
    with open(path, encoding='utf-8', newline='') as f:
        return f.read()


def laws_files():
    """The files that are written whole by hand: not the proof of one function, whose names Rattle makes."""
    found = glob.glob(os.path.join(TOP, 'crates/*/specs/**/*.antt'), recursive=True) + glob.glob(os.path.join(TOP, 'crates/*/proofs/*.antt'))
    return sorted(found)


def snake(name):
    words = re.sub(r'(?<=[a-z0-9])([A-Z])', lambda m: '_' + m[1].lower(), name)
    return words


def table():
    declared = collections.defaultdict(set)
    for path in laws_files():
        text = re.sub(r'--[^\n]*', '', read(path))
        for m in DECLARED.finditer(text):
            declared[m[1]].add(m[2])
        for m in HEADED.finditer(text):
            declared[m[1]].add('Type')
    # what a law can be about: what is no law itself. A law's statement ends in an equation, an order, a fact or a pair.
    whole = {n for n in declared if '-' not in n}
    whole_new = {snake(n) if n[0].islower() else n for n in whole}
    renamed = {}
    for n in sorted(declared):
        if n in BY_HAND or n == 'and-true':  # a law of the library is called so too
            continue
        new = n
        if n[0].islower() or '-' in n:
            parts = [p if p[:1].isupper() else snake(p) for p in n.split('-')]
            # the longest head that is a whole name keeps its dash
            head = 0
            for i in range(len(parts) - 1, 0, -1):
                if '_'.join(parts[:i]) in whole_new:
                    head = i
                    break
            rest = '_'.join(parts[head:])
            new = '_'.join(parts[:head]) + '-' + rest if head else rest
        if new != n:
            renamed[n] = new
    # names that fall together stay, the later one in the order of names
    taken = collections.Counter(list(declared) + [])
    for n in list(renamed):
        new = renamed[n]
        if new in declared or sum(1 for m in renamed.values() if m == new) > 1:
            print('respell: %s would be %s, which is taken: it stays' % (n, new), file=sys.stderr)
            del renamed[n]
    renamed.update({k: v for k, v in BY_HAND.items() if k in declared})
    with open(TABLE, 'w', encoding='utf-8') as f:
        for n in sorted(renamed):
            f.write('%s\t%s\n' % (n, renamed[n]))
    print('respell: %d of %d names' % (len(renamed), len(declared)))


TOKEN = re.compile(r'--[^\n]*|"(?:[^"\\\n]|\\.)*"|' + NAME)


def rows():
    return dict(line.split('\t') for line in read(TABLE).splitlines())


def turn_antt(text, names, generated):
    """generated: the names that Rattle makes may stand in this file, behind a head of its own."""
    out, last = [], 0
    for m in TOKEN.finditer(text):
        word = m[0]
        if word.startswith('--') or word.startswith('"') or word not in names:
            continue
        before = text[:m.start()]
        if word == 'result' and (before.endswith('.') or re.match(r' *[:=]', text[m.end():]) or before.rstrip().endswith('open')):
            continue
        if generated and (re.search(r'(?:\bc|\btie|\bgoal|\bbefore)\.$', before[-12:]) or re.search(r'(?m)(?:^|\n)$', before)):
            continue
        out.append(text[last:m.start()] + names[word])
        last = m.end()
    return ''.join(out) + text[last:]


CLAUSE = re.compile(r'(?m)^ *(?:requires|ensures)\*?(?: \w+)? \{|^ *ghost use [^;]*;|^ *ghost \w+[:=]? ?[:=]? ?\{')


def turn_rt(text, names):
    """Only inside clauses and ghost imports."""
    out, last = [], 0
    for m in CLAUSE.finditer(text):
        if m.start() < last:
            continue
        end = m.end()
        if not m[0].rstrip().endswith(';'):
            deep = 1
            while deep and end < len(text):
                deep += (text[end] == '{') - (text[end] == '}')
                end += 1
        part = text[m.start():end]
        turned = turn_antt(part, {k: v for k, v in names.items() if k != 'result' or m[0].lstrip().startswith('ghost use')}, False)
        out.append(text[last:m.start()] + turned)
        last = end
    return ''.join(out) + text[last:]


def turn_paper(text, names):
    """In papers and scripts: whole words with a capital inside or a dash, between backquotes or in a path of a crate."""
    def one(m):
        return re.sub(NAME, lambda w: names.get(w[0], w[0]) if w[0] != 'result' else w[0], m[0])
    return re.sub(r'`[^`\n]*`', one, text)


def main(argv):
    if argv == ['--table']:
        table()
        return
    names = rows()
    changed = 0
    for path in sorted(glob.glob(os.path.join(TOP, 'crates/**/*'), recursive=True)):
        if '/out/' in path or not os.path.isfile(path):
            continue
        rel = os.path.relpath(path, TOP)
        if path.endswith('.antt'):
            own = re.match(r'crates/[^/]+/(?:specs/.*|proofs/[^/]+)\.antt$', rel)
            text = read(path)
            new = turn_antt(text, names, not own)
        elif path.endswith('.rt'):
            text = read(path)
            new = turn_rt(text, names)
        elif path.endswith('.edit'):
            text = read(path)
            new = re.sub(r'(?m)^((?:old|new): )(.*)$', lambda m: m[1] + turn_antt(m[2], names, False), text) if re.search(r'(?m)^file: (specs|proofs)/', text) else text
        else:
            continue
        if new != text:
            with open(path, 'w', encoding='utf-8', newline='') as f:
                f.write(new)
            changed += 1
    for path in [os.path.join(TOP, 'README.md')] + sorted(glob.glob(os.path.join(TOP, 'docs/*.md'))):
        if os.path.basename(path).startswith('PORT'):
            continue
        text = read(path)
        new = turn_paper(text, names)
        if new != text:
            with open(path, 'w', encoding='utf-8', newline='') as f:
                f.write(new)
            changed += 1
    print('respell: %d files changed' % changed)


main(sys.argv[1:])
