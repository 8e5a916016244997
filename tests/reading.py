#!/usr/bin/env python3
"""What a reviewer has to read to believe the public contracts and the theorems that README names first, found by following each name to the definition that it stands for.

  reading.py            writes docs/READING.md (the list, in the order of document 01) and docs/FLOORS.md (the crates by floor, from crates.txt)
  reading.py --check    fails where one of the two is not what would be written
  reading.py --faults   texts with one fault each: each has to be told

Both runs fail where a contract rests on a definition outside the rules and the ground, where a theorem rests on one that is in none of these and in no crate of laws,
where a file has no place in the order, and where the contracts rest on more than MOST lines. Lines are those of a declaration, without its comment.
"""
import os
import re
import sys

ROOT = os.path.join(os.path.dirname(os.path.abspath(__file__)), '..')
# 1,000 for document 01; the index of L9 adds what it is, when it is another, and how it follows a change (100); L1 adds the names of the checks beside the checks, three
# tables with a line for each of the 22 reasons (its errno, its number, what it names), and the longest run, as it is computed (200)
MOST = 1300
# the public contracts: a crate and its functions, or all that it exports
CONTRACTS = [('boundary', None), ('iommufd', ['fresh', 'call', 'bind', 'attach', 'detach', 'reach']), ('explain', ['explain'])]
# README's table whose theorems are followed
FIRST = '| asked | theorem | file |'
# where the definitions may stand, by the headings of crates.txt: those of contracts; the words of theorems also among the laws
FLOORS = ('The ground', 'The rules')
LAWS = 'Laws'

# the order to read in: document 01's. The ground is looked up where a rule cites it
ORDER = [
    ('Commands, bytes, numbers', 'Commands and their bytes; Errno numbers', ['rules_calls/src/lib.rt', 'rules_calls/specs/Requests.antt', 'rules_calls/specs/Opening.antt', 'rules_table/specs/Flags.antt', 'rules_calls/specs/Results.antt']),
    ('The table', 'Table', ['rules_table/specs/Limits.antt', 'rules_table/src/lib.rt', 'rules_table/specs/Records.antt', 'rules_table/specs/Spaces.antt', 'rules_table/specs/Charge.antt']),
    ('A bad table', '"A table is bad, and every call on it answers 117"', ['rules_table/specs/Fits.antt', 'rules_table/specs/Good.antt', 'rules_calls/specs/Gate.antt']),
    ('What a call changes and gives back', '"A refusal writes nothing"', ['rules_calls/specs/Edits.antt', 'rules_calls/specs/Answers.antt']),
    ('MAP, COPY, UNMAP', 'Rules of the commands', ['rules_calls/specs/Landing.antt', 'rules_calls/specs/Map.antt', 'rules_calls/specs/Copy.antt', 'rules_calls/specs/Unmap.antt']),
    ('ALLOW_IOVAS, IOVA_RANGES, IOAS_ALLOC, DESTROY', 'Rules of the commands', ['rules_calls/specs/Allow.antt', 'rules_calls/specs/Ranges.antt', 'rules_calls/specs/Objects.antt']),
    ('Bind, attach, detach, reach, next', 'Host calls', ['rules_calls/specs/Bind.antt', 'rules_calls/specs/Attach.antt', 'rules_calls/specs/Reach.antt', 'rules_calls/specs/Next.antt', 'rules_calls/specs/Orders.antt']),
    ('The door', '"Opening a command, in order"', ['rules_calls/specs/Call.antt', 'rules_calls/specs/Named.antt']),
    ('The index', 'Document 02: L9, "Find the mapping without reading all 128 records"', ['rules_index/specs/Index.antt', 'rules_index/specs/Board.antt']),
    ('Why a MAP or a COPY is refused', 'Document 02: L1, "Say what stood in the way"', ['rules_reasons/src/lib.rt', 'rules_reasons/specs/Reasons.antt', 'rules_reasons/specs/Explain.antt']),
    ('Sequences of calls', "Demand 3's ledger", ['rules_history/specs/Calls.antt', 'rules_history/specs/Ledger.antt', 'rules_history/specs/Told.antt']),
    ('Isolation', '"A call on one space changes no mapping, list or device of another"', ['rules_table/specs/Untouched.antt', 'rules_history/specs/Alike.antt']),
    ("The caller's memory", '"A lent slice of mapping records"', ['rules_table/specs/Layout.antt', 'rules_table/specs/Words.antt', 'rules_lent/specs/Lent.antt', 'rules_lent/specs/Entries.antt', 'rules_lent/specs/Explaining.antt', 'rules_lent/specs/Boards.antt', 'rules_lent/specs/Sequence.antt']),
]

# a paper is document 01 where it does not say another
def named(paper):
    return paper if paper.startswith('Document') else f'Document 01: {paper}'


NAME = r'[^\s(){}.;,@"«»]+'
TOKEN = re.compile(r'--[^\n]*|"(?:[^"\\]|\\.)*"|' + NAME + r'|[(){}.;,@]')
USE = re.compile(r'(?m)^(?:ghost )?(?:pub )?use (?P<path>[^\s{};]+?)(?:\.\{(?P<items>[^}]*)\})?(?: as (?P<alias>[^\s;]+))?;?[ \t]*$')


class Fault(Exception):
    pass


def read_tree(root=ROOT):
    """path -> text of what the lists are made from."""
    texts = {}
    for top in ('crates.txt', 'README.md'):
        with open(os.path.join(root, top), encoding='utf-8') as f:
            texts[top] = f.read()
    for base, dirs, files in os.walk(os.path.join(root, 'crates')):
        # out/ has copies that rt makes
        dirs[:] = sorted(d for d in dirs if d != 'out')
        for name in sorted(files):
            if name.endswith(('.rt', '.antt')):
                path = os.path.join(base, name)
                with open(path, encoding='utf-8') as f:
                    texts[os.path.relpath(path, root)] = f.read()
    return texts


def floors(crates_txt):
    """(name, what it says of itself, crates, what each reads) of each floor, from the ground up."""
    out = []
    for line in crates_txt.split('\n'):
        heading = re.match(r'# ([^:.,]+)(.*)', line)
        row = re.match(r'(\w+)(?: staticlib)?:(.*)', line)
        if heading:
            out.append((heading[1], heading[2].lstrip(':., ').strip(), [], {}))
        elif row:
            out[-1][2].append(row[1])
            out[-1][3][row[1]] = row[2].split()
    return [f for f in out if f[2]]


# ---- declarations

class Decl:
    """Lines [first, last] of a file, from 0; `law` is true of what states something, `around` are the headers of the sections that it stands in."""

    def __init__(self, name, first, indent, law, around):
        self.name, self.first, self.last, self.indent, self.law, self.around = name, first, first, indent, law, around

    def finish(self, lines):
        body = lines[self.first:self.last + 1]
        sign = 1
        while sign < len(body) and len(body[sign]) - len(body[sign].lstrip()) > self.indent:
            sign += 1
        headers = [text for _, text in self.around]
        self.body, self.says = '\n'.join(headers + body), '\n'.join(headers + body[:sign])
        self.lines = sum(bool(line.strip()) for line in body)
        # the lines of a statement: the headers of its sections, then its own
        self.stated = [n for n, _ in self.around] + [self.first + 1 if sign == 1 else f'{self.first + 1}-{self.first + sign}']


def declarations(text):
    """The declarations of an .antt file. A law is a signature that is neither unfoldable nor an abbreviation."""
    lines, out, sections, i = text.split('\n'), [], [], 0
    while i < len(lines):
        line = lines[i]
        indent = len(line) - len(line.lstrip())
        if line.strip():
            while sections and indent <= sections[-1][0]:
                sections.pop()
        here = sections[-1][0] + 2 if sections else 0
        if indent == here and line.strip() and not line.lstrip().startswith(('--', 'use ', 'pub use ', 'pub mod ', 'mod ')):
            if re.match(r'\s*module _', line):
                j = i
                while not lines[j].rstrip().endswith('where'):
                    j += 1
                sections.append((indent, (i + 1, '\n'.join(lines[i:j + 1]))))
                i = j + 1
                continue
            shape = re.match(r'\s*((?:unfoldable |abbrev |pub |axiom )*)(record |data )?(' + NAME + r')(?= :| \(| \{|$)', line)
            if shape and (shape[2] or re.match(r'\s*' + re.escape(shape[1]) + re.escape(shape[3]) + ' :', line)):
                law = not shape[2] and 'unfoldable' not in shape[1] and 'abbrev' not in shape[1]
                out.append(Decl(shape[3], i, indent, law, [s[1] for s in sections]))
                i += 1
                continue
        if out and line.strip() and not (indent == here and line.lstrip().startswith('--')):
            out[-1].last = i
        i += 1
    for d in out:
        d.finish(lines)
    return out


def types(text):
    """The structs, enums and aliases of an .rt file."""
    out, lines = [], text.split('\n')
    for i, line in enumerate(lines):
        m = re.match(r'pub (?:struct|enum|type) (\w+)', line)
        if m:
            d = Decl(m[1], i, 0, False, [])
            while not line.endswith(';') and lines[d.last] != '}':
                d.last += 1
            d.body, d.lines = '\n'.join(lines[i:d.last + 1]), d.last - i + 1
            out.append(d)
    return out


# ---- from a name to what it stands for

def place(crate, folder, module):
    """Where the names of a file in specs/ or proofs/ stand. The two folders may have a file of one name."""
    return crate, module if folder == 'specs' else f'{folder}.{module}'


def place_of(path):
    m = re.match(r'crates/(\w+)/(specs|proofs)/(\w+)\.antt$', path)
    return place(*m.groups()) if m else None


class Tree:
    def __init__(self, texts):
        self.texts, self.at, self.envs = texts, {}, {}
        for path, text in texts.items():
            here = place_of(path)
            if here:
                for d in declarations(text):
                    self.at[here + (d.name,)] = (path, d)
            elif re.match(r'crates/\w+/src/', path):
                for d in types(text):
                    self.at[(path.split('/')[1], 'declared', d.name)] = (path, d)

    def env(self, path):
        """What a file means by a name, and by a name before a dot."""
        if path not in self.envs:
            names, modules = {}, {}
            for m in USE.finditer(self.texts[path]):
                p = re.match(r'Rattle\.(\w+)\.(specs|proofs)\.(.*)$', m['path'])
                if p:
                    parts = p[3].split('.')
                    # a declared type, or one of its cases
                    where = (p[1], 'declared', parts[1]) if parts[0] == 'declared' else place(p[1], p[2], parts[0])
                    if m['items'] is None:
                        modules[m['alias'] or parts[-1]] = where
                    for item in re.split(r'\s*,\s*', (m['items'] or '').strip()):
                        if item:
                            name, _, local = item.partition(' as ')
                            names[(local or name).strip()] = where if len(where) == 3 else where + (name.strip(),)
            here = place_of(path)
            if here:
                for k in self.at:
                    if k[:2] == here:
                        names[k[2]] = k
            elif path.endswith('.rt'):
                for m in re.finditer(r'(?m)^(?:pub )?use (\w+)::(?:(\w+)|\{([^{}]*)\});', self.texts[path]):
                    for name in re.findall(r'\w+', m[2] or m[3]):
                        names.setdefault(name, (m[1], 'declared', name))
                for k in self.at:
                    if k[:2] == (path.split('/')[1], 'declared'):
                        names.setdefault(k[2], k)
            self.envs[path] = (names, modules)
        return self.envs[path]

    def cited(self, text, path):
        names, modules = self.env(path)
        out, before = set(), None
        for m in TOKEN.finditer(text):
            t = m.group()
            if t.startswith('--') or t[0] == '"':
                continue
            dotted = m.start() > 0 and text[m.start() - 1] == '.'
            if not dotted and t in names:
                out.add(names[t])
            elif dotted and before in modules:
                where = modules[before]
                out.add(where if len(where) == 3 else where + (t,))
            before = t if t != '.' else before
        return out

    def closure(self, start):
        """The definitions and types that these names rest on. Laws are not followed: a definition that cites one is as true without it."""
        seen, todo = set(), list(start)
        while todo:
            k = todo.pop()
            if k in self.at and k not in seen and not self.at[k][1].law:
                seen.add(k)
                path, d = self.at[k]
                # in its own file a definition cites what stands above it; a name from below is a parameter of the same name
                todo += [c for c in self.cited(d.body, path) if not (path.endswith('.antt') and c in self.at and self.at[c][0] == path and self.at[c][1].first > d.first)]
        return seen

    def contracts(self):
        """What the contracts of the public functions cite."""
        out, functions = set(), []
        for crate, wanted in CONTRACTS:
            path = f'crates/{crate}/src/lib.rt'
            for m in re.finditer(r'(?ms)^pub (?:extern "C" )?fn (\w+)(.*?)^\{', self.texts[path]):
                if wanted is None or m[1] in wanted:
                    functions.append(f'{crate}::{m[1]}')
                    # what stands before the first brace is the signature, and behind it the name of a clause, or the body begins
                    if not re.search(r'\n +(?:requires|ensures)(?: \w+)? $', m[2].split('{')[0]) or not re.search(r'\n +ensures(?: \w+)? \{', m[2]):
                        raise Fault(f'{crate}::{m[1]} has no contract')
                    out |= self.cited(m[2], path)
        for crate, wanted in CONTRACTS:
            for f in wanted or []:
                if f'{crate}::{f}' not in functions:
                    raise Fault(f'there is no {crate}::{f}')
        return functions, out

    def theorems(self):
        """(name, key) of README's first theorems."""
        out = []
        for cells in rows(self.texts['README.md'], FIRST):
            files = re.findall(r'`([^`]+)`', cells[2])
            for name in re.findall(r'`([^`]+)`', cells[1]):
                keys = [k for k, (p, d) in self.at.items() if k[2] == name and p in ['crates/' + f for f in files]]
                if not keys:
                    raise Fault(f'README names {name} in {", ".join(files)}, and it is not there')
                out.append((name, keys[0]))
        return out


def rows(text, header):
    """The cells of each row of the table with this header. `same` is the cell above."""
    out, lines = [], text.split('\n')
    if header not in lines:
        raise Fault(f'README has no table {header}')
    for line in lines[lines.index(header) + 2:]:
        if not line.startswith('|'):
            break
        cells = [c.strip() for c in line.strip().strip('|').split('|')]
        out.append([above if c == 'same' else c for c, above in zip(cells, out[-1] if out else cells)])
    return out


# ---- what is written

def many(n, what):
    return f'{n:,} {what}' + ('' if n == 1 else 's')


def size(tree, keys):
    return sum(tree.at[k][1].lines for k in keys)


def by_file(tree, keys):
    files = {}
    for k in keys:
        path, d = tree.at[k]
        files.setdefault(path, []).append(d)
    return {path: sorted(ds, key=lambda d: d.first) for path, ds in files.items()}


def file_rows(files, paths):
    out = ['| file | definitions | lines | each with its lines |', '|---|---|---|---|']
    for path in paths:
        ds = files[path]
        out.append(f"| `{path}` | {len(ds)} | {sum(d.lines for d in ds)} | {', '.join(f'`{d.name}` {d.first + 1}-{d.last + 1}' for d in ds)} |")
    return out


def reading(texts):
    tree = Tree(texts)
    functions, cited = tree.contracts()
    under = tree.closure(cited)
    theorems = tree.theorems()
    stated = set()
    for name, k in theorems:
        path, d = tree.at[k]
        stated |= tree.closure(tree.cited(d.says, path) - {k})
    floor = {c: f[0] for f in floors(texts['crates.txt']) for c in f[2]}
    wrong = [f'{k[0]}: {k[2]}' for k in under if floor[k[0]] not in FLOORS]
    beside = {k for k in stated if floor[k[0]] not in FLOORS}
    wrong += [f'{k[0]}: {k[2]}' for k in beside if floor[k[0]] != LAWS]
    if wrong:
        raise Fault('a contract or a theorem rests on a definition outside the rules and the ground: ' + ', '.join(sorted(set(wrong))))
    if size(tree, under) > MOST:
        raise Fault(f'the contracts rest on {size(tree, under)} lines; at most {MOST} are wanted')
    ground = [c for f in floors(texts['crates.txt']) if f[0] == FLOORS[0] for c in f[2]]
    everything = by_file(tree, under | stated)
    placed = ['crates/' + p for _, _, paths in ORDER for p in paths]
    for path in everything:
        if path not in placed and path.split('/')[1] not in ground and path not in by_file(tree, beside):
            raise Fault(f'{path} has no place in the order of tests/reading.py')

    more = stated - under - beside
    out = ['# What to read', '']
    out += ['Made by `python3 tests/reading.py`; the gate fails where it is not what the script makes. Whoever wants to believe the public contracts and the first theorems of `README.md` has to read what is listed here, and nothing else: these definitions, the',
            'contracts and the statements themselves. Each name was followed to its definition and on from there. Laws, proofs and code are not in the list: the prover has them. What comes from the kit (numbers, lists, booleans) is not either.', '']
    out += [f'- The contracts of {", ".join(f"`{f}`" for f in functions)}: **{many(len(under), "definition")}, {size(tree, under):,} lines** in {many(len(by_file(tree, under)), "file")}, types included. The gate allows {MOST:,}.',
            f'- The statements of {many(len(theorems), "theorem")} ({", ".join(f"`{n}`" for n, _ in theorems)}): {many(len(stated), "definition")}, {size(tree, stated):,} lines, of which the contracts do not need {many(len(more | beside), "definition")}, {size(tree, more | beside):,} lines.', '']
    out += ['## By crate', '', '| crate | floor | under the contracts | lines | only under the theorems | lines |', '|---|---|---|---|---|---|']
    for f in floors(texts['crates.txt']):
        for c in f[2]:
            a, b = [k for k in under if k[0] == c], [k for k in more | beside if k[0] == c]
            if a or b:
                out.append(f'| `{c}` | {f[0]} | {len(a)} | {size(tree, a)} | {len(b)} | {size(tree, b)} |')
    out.append(f'| together | | {len(under)} | {size(tree, under)} | {len(more | beside)} | {size(tree, more | beside)} |')

    files = by_file(tree, under)
    out += ['', '## Under the contracts, in the order of document 01', '', 'The ground is looked up where a rule cites it; `README.md` has a table of the laws that pin it.', '']
    step = 0
    for title, paper, paths in ORDER:
        here = ['crates/' + p for p in paths if 'crates/' + p in files]
        if here:
            step += 1
            out += [f'### {step}. {title}', '', f'{named(paper)}.', ''] + file_rows(files, here) + ['']
    out += ['### The ground', ''] + file_rows(files, [p for c in ground for p in sorted(files) if p.split('/')[1] == c])

    files = by_file(tree, more)
    out += ['', '## Only under the theorems', '']
    for title, paper, paths in ORDER:
        here = ['crates/' + p for p in paths if 'crates/' + p in files]
        if here:
            out += [f'### {title}', '', f'{named(paper)}.', ''] + file_rows(files, here) + ['']
    here = [p for c in ground for p in sorted(files) if p.split('/')[1] == c]
    if here:
        out += ['### The ground, for the theorems', ''] + file_rows(files, here) + ['']
    files = by_file(tree, beside)
    out += ['### Words of the theorems themselves', '', 'They stand with the laws; `CandidateIn`, what `map_lowest` calls a candidate in a space, beside the code that finds it.', ''] + file_rows(files, sorted(files)) + ['']
    out += ['## The statements', '', 'Lines before the last one of a row are the `module _` headers that the theorem stands under: their parameters are its hypotheses.', '', '| theorem | file | lines |', '|---|---|---|']
    for name, k in theorems:
        path, d = tree.at[k]
        out.append(f"| `{name}` | `{path}` | {', '.join(map(str, d.stated))} |")
    return '\n'.join(out) + '\n'


def picture(crates_txt):
    """The floors as bands, the ground below; in a floor's column a star at each floor that reads it, and the arrow's head at the floor itself."""
    fs = floors(crates_txt)
    of = {c: i for i, f in enumerate(fs) for c in f[2]}
    reads = [{of[d] for ds in f[3].values() for d in ds if d in of} - {i} for i, f in enumerate(fs)]
    width = 110
    out = []
    for i in range(len(fs) - 1, -1, -1):
        name, says, crates, _ = fs[i]
        lines, line = [], ''
        for c in crates:
            if line and len(line) + 2 + len(c) > width - 4:
                lines.append(line)
                line = ''
            line += ('  ' if line else '') + c
        lines.append(line)
        above = [{j for j in range(len(fs)) if any(j in reads[k] for k in range(i + 1, len(fs)))}, reads[i]]

        def columns(mark):
            return ''.join('   ' + mark(j) for j in range(len(fs) - 2, -1, -1)).rstrip()

        passing = lambda j: '|' if j < i and j in above[0] else ' '
        title = f' {name} '
        out.append('+-' + title + '-' * (width - 3 - len(title)) + '+' + columns(lambda j: 'v' if j == i and j in above[0] else passing(j)))
        for k, text in enumerate(lines):
            star = lambda j: '*' if k == 0 and j in reads[i] else '|' if j < i and (j in above[0] or (k > 0 and j in reads[i])) else ' '
            out.append('| ' + text.ljust(width - 4) + ' |' + columns(star))
        under = lambda j: '|' if j < i and (j in above[0] or j in reads[i]) else ' '
        out.append('+' + '-' * (width - 2) + '+' + columns(under))
        if i:
            out.append(' ' * width + columns(under))
    return '\n'.join(line.rstrip() for line in out)


def picture_page(texts):
    fs = floors(texts['crates.txt'])
    out = ['# The floors', '', 'Made by `python3 tests/reading.py` from `crates.txt`; the gate fails where it is not what the script makes. A floor reads only floors under it, and a crate only crates above it in its list. A star is a floor that reads, the `v` under it the floor that is read.', '', '```', picture(texts['crates.txt']), '```', '']
    out += ['| floor, as `crates.txt` has it | crates |', '|---|---|']
    for line in reversed(texts['crates.txt'].split('\n')):
        for name, _, crates, _ in fs:
            if line.startswith('# ' + name):
                out.append(f'| {line[2:]} | {len(crates)} |')
    return '\n'.join(out) + '\n'


def pages(texts):
    return {'docs/READING.md': reading(texts), 'docs/FLOORS.md': picture_page(texts)}


# ---- faults that have to be told

def faults(texts):
    def slip(path, *pairs):
        text = texts[path]
        for old, new in pairs:
            if old not in text:
                raise Fault(f'the fault has no place in {path}: {old}')
            text = text.replace(old, new, 1)
        return {**texts, path: text}

    answers, results = 'crates/rules_calls/specs/Answers.antt', 'crates/rules_calls/specs/Results.antt'
    moved = slip(answers, ('specs.Results.{signed_result}', 'specs.Signs.{signed_result}'))
    moved['crates/rules_calls/specs/Signs.antt'] = texts[results]
    own, head = 'crates/iommufd/src/lib.rt', 'ghost use Rattle.rules_table.'
    clause = 'ensures { result ≡ outcome t (host_edit t (detach_order'
    cases = [
        ('a contract that cites a definition of the code', slip(own, (head, 'ghost use Rattle.lent_edit.specs.Edits.{object_of};\n' + head), ('result ≡ fresh_answer limit', 'result ≡ object_of fresh_answer limit'))),
        ('a rule that cites a definition of the code', slip(answers, ('use Rattle.wire.', 'use Rattle.lent_edit.specs.Edits.{object_of}\nuse Rattle.wire.'), ('table = applied t e }', 'table = object_of t e }'))),
        ('a theorem that cites a definition of the code', slip('crates/laws_refusal/specs/BadTable.antt', ('pub bad-117 : (c : Call)', 'pub bad-117 : (c : Left)'), ('use Rattle.rules_history', 'use Rattle.iommufd.specs.Deciding.{Left}\nuse Rattle.rules_history'))),
        ('a theorem of proofs/ that cites a definition of the code', slip('crates/laws_reasons/proofs/Says.antt', ('pub told-so : (b : Board)', 'pub told-so : (b : Left)'), ('use Rattle.rules_index', 'use Rattle.iommufd.specs.Deciding.{Left}\nuse Rattle.rules_index'))),
        ('a function that is gone', slip(own, ('pub fn detach(', 'pub fn let_go('))),
        ('a function without a contract', slip(own, (clause, clause.replace('ensures', 'promises')))),
        ('a function without a contract, before one that has it', slip(own, ('    ensures { result ≡ fresh_answer limit }\n{', '{'), ('-> Answer\n{', '-> Answer {'))),
        ('a theorem that is not in the file named', slip('README.md', ('| `demand_3` |', '| `demand_4` |'))),
        ('a file without a place in the order', moved),
        ('more lines than are wanted', slip(answers, ('outcome t e =', 'outcome t e =' + '\n    t' * 300))),
    ]
    for what, case in cases:
        try:
            pages(case)
        except Fault as e:
            print(f'reading: told: {what}: {e}'[:240])
            continue
        raise Fault(f'not told: {what}')


def main():
    texts = read_tree()
    if sys.argv[1:] == ['--faults']:
        faults(texts)
        return
    for path, text in pages(texts).items():
        where = os.path.join(ROOT, path)
        if sys.argv[1:] == ['--check']:
            old = open(where, encoding='utf-8').read() if os.path.exists(where) else ''
            if old != text:
                raise Fault(f'{path} is not what python3 tests/reading.py makes: run it')
        elif not sys.argv[1:]:
            with open(where, 'w', encoding='utf-8') as f:
                f.write(text)
        else:
            raise Fault('reading.py [--check | --faults]')


if __name__ == '__main__':
    try:
        main()
    except Fault as e:
        sys.exit(f'reading: {e}')
