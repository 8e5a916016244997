#!/usr/bin/env python3
"""Whether the papers name what is there: README.md, docs/DECISIONS.md, docs/PROVING.md, docs/PERFORMANCE.md and docs/WALK.md against the tree.

  papers.py             fails on each of these, with the paper and the line:
                        a file or folder, in backquotes or in a code block, that does not exist (crates/, tests/, examples/ and the like; CRATE/specs/.. stands for crates/CRATE/specs/..);
                        `crate::name` where the crate is none, or has no such function or type; a crate of before (the table in DECISIONS.md), unless its name is something else now;
                        a name in backquotes that stands nowhere in the tree; a must-fail edit that no crate has;
                        in README's tables with a column `file`: a definition, theorem or function that does not stand in a file of its row;
                        a crate of crates.txt without a row in README's tables of crates, under its own floor, and a row without a crate
  papers.py --faults    copies of the papers with one slip each: each has to be told
"""
import os
import re
import sys

import reading

ROOT = reading.ROOT
PAPERS = ['README.md', 'docs/DECISIONS.md', 'docs/PROVING.md', 'docs/PERFORMANCE.md', 'docs/WALK.md']
TOPS = ('crates/', 'tests/', 'examples/', 'plans/', 'include/', 'archives/', 'docs/', '.ci/')
PARTS = ('specs', 'src', 'proofs', 'must-fail')
CRATES = '## The crates, from the ground up'
BEFORE = '| crate of before | crate now |'
# made by a build or a check, not kept
MADE = re.compile(r'target/|crates/\w+/out/')
# names in backquotes that are the kit's, C's, Rust's or the platform's, and stand nowhere in the tree
FOREIGN = {'rattle-cases'}


class Tree:
    def __init__(self):
        self.texts = reading.read_tree()
        self.crates = [c for f in reading.floors(self.texts['crates.txt']) for c in f[2]]
        self.files, words = set(), []
        for base, dirs, files in os.walk(ROOT):
            dirs[:] = [d for d in dirs if d not in ('.git', 'target', '__pycache__', 'out')]
            for name in files:
                path = os.path.relpath(os.path.join(base, name), ROOT)
                self.files.add(path)
                self.files.update(path[:m.start() + 1] for m in re.finditer('/', path))
                # tools/ has names of before
                if not path.endswith('.md') and path != 'tests/papers.py' and not path.startswith('tools/'):
                    with open(os.path.join(base, name), encoding='utf-8', errors='ignore') as f:
                        words.append(f.read())
        text = '\n'.join(words)
        self.words = set(re.findall(r"[\w′'-]+", text)) | set(re.findall(r'\w+', text))
        # path -> what it declares
        self.declared = {}
        for path, text in self.texts.items():
            if path.endswith('.antt'):
                self.declared[path] = {d.name for d in reading.declarations(text)}
            elif path.endswith('.rt'):
                self.declared[path] = set(re.findall(r'(?m)^\s*(?:pub )?(?:extern "C" )?(?:fn|struct|enum|const) (\w+)', text))
        self.names = set().union(*self.declared.values())
        # the modules of the wrapper in Rust
        self.wrapper = {}
        for path in self.files:
            m = re.fullmatch(r'examples/rust/src/(\w+)\.rs', path)
            if m:
                with open(os.path.join(ROOT, path), encoding='utf-8') as f:
                    self.wrapper[m[1]] = set(re.findall(r'pub (?:fn|struct|enum|const) (\w+)', f.read()))

    def has(self, path):
        return path in self.files or path + '/' in self.files

    def path(self, word, beside=None):
        """The path that a word in backquotes means, or None. `beside` is a file of the same crate that was named before it."""
        if word.startswith(TOPS):
            return word
        head = word.split('/')[0]
        if '/' in word and word.split('/')[1] in PARTS:
            return 'crates/' + word
        if beside and head in PARTS:
            return '/'.join(beside.split('/')[:2]) + '/' + word
        if beside and re.fullmatch(r'\w+\.antt', word):
            return os.path.dirname(beside) + '/' + word
        return None


def quoted(text):
    """(line, what stands in backquotes), and each line of a code block as one."""
    fenced = False
    for n, line in enumerate(text.split('\n'), 1):
        if line.startswith('```'):
            fenced = not fenced
        elif fenced or line.startswith('    '):
            yield n, line + ' '
        else:
            for m in re.finditer(r'`([^`]+)`', line):
                yield n, m[1]


def tables(text):
    """(line of the row, header cells, cells) of each row of each table; a cell `same` is the one above it."""
    header, above, wait = None, None, 0
    for n, line in enumerate(text.split('\n'), 1):
        if not line.startswith('|'):
            header = None
            continue
        cells = [c.strip() for c in line.strip().strip('|').split('|')]
        if header is None:
            header, above = cells, None
        elif not set(line) <= set('|-: '):
            cells = [a if c == 'same' else c for c, a in zip(cells, above or cells)]
            above = cells
            yield n, header, cells


def old_crates(papers):
    """The crates of before, and their table's lines."""
    text = papers['docs/DECISIONS.md']
    lines = text.split('\n')
    if BEFORE not in lines:
        return {}, set()
    out, at = {}, set()
    n = lines.index(BEFORE) + 2
    while n < len(lines) and lines[n].startswith('|'):
        cells = lines[n].strip().strip('|').split('|')
        for name in re.findall(r'`([^`]+)`', cells[0]):
            out[name] = re.findall(r'`([^`]+)`', cells[1])
        at.add(n + 1)
        n += 1
    return out, at


def look(papers, tree):
    """All faults, each as a line."""
    out = []
    before, before_at = old_crates(papers)

    def say(paper, n, what):
        out.append(f'{paper}:{n}: {what}')

    # ---- what stands in backquotes anywhere
    for paper, text in papers.items():
        for n, token in quoted(text):
            told = paper == 'docs/DECISIONS.md' and n in before_at
            for word in token.split():
                word = word.rstrip(',;')
                path = tree.path(word)
                if path and not MADE.match(path) and '*' not in path and '..' not in path and 'NAME' not in path:
                    if not tree.has(path.rstrip('/')):
                        say(paper, n, f'`{token.strip()}`: there is no {path}')
            if re.fullmatch(r'\w+\.edit', token) and not any(f.endswith('/must-fail/' + token) for f in tree.files):
                say(paper, n, f'`{token}` is no must-fail edit')
            pair = re.fullmatch(r'([a-z]\w*)::(\w+)', token)
            if pair and pair[2] not in tree.wrapper.get(pair[1], ()):
                if pair[1] not in tree.crates:
                    say(paper, n, f'`{token}`: there is no crate {pair[1]}')
                elif not any(pair[2] in tree.declared[p] for p in tree.declared if p.startswith(f'crates/{pair[1]}/src/')):
                    say(paper, n, f'`{token}`: nothing of that name in the code of {pair[1]}')
            if token in before and token not in tree.crates and token not in tree.names and not told:
                say(paper, n, f'`{token}` is a crate of before: now {", ".join(before[token]) or "none"}')
            if re.fullmatch(r"[A-Za-z][\w′'-]*", token) and token not in tree.words and token not in tree.crates and token not in FOREIGN and not told and token not in before:
                say(paper, n, f'`{token}` stands nowhere in the tree')

    # ---- README's tables of theorems, definitions and contracts
    readme = papers['README.md']
    for n, header, cells in tables(readme):
        if header[-1] != 'file' or len(cells) != len(header):
            if header[-1] == 'file':
                say('README.md', n, 'a row with another number of cells than its table')
            continue
        paths, beside = [], None
        for word in re.findall(r'`([^`]+)`', cells[-1]):
            path = tree.path(word, beside)
            beside = path if path and path.startswith('crates/') else beside
            if path:
                paths.append(path)
                if not tree.has(path.rstrip('/')):
                    say('README.md', n, f'there is no {path}')
        if not paths:
            say('README.md', n, 'the row names no file')
        here = set()
        for p in paths:
            here |= set().union(*[tree.declared[q] for q in tree.declared if q == p or (p.endswith('/') and q.startswith(p))] or [set()])
        for name in re.findall(r'`([^`]+)`', ' '.join(cells[1:-1])):
            if tree.path(name) or ' ' in name:
                continue
            bare = name.split('::')[-1]
            if bare.endswith('..'):
                found = any(x.startswith(bare[:-2]) for x in here)
            else:
                found = bare in here
            if not found:
                say('README.md', n, f'`{name}` does not stand in {", ".join(paths) or "a file"}')
        for name in re.findall(r'`([^`]+)`', cells[0]):
            if re.fullmatch(r"[A-Za-z][\w′'-]*", name) and name not in tree.names and name not in tree.words:
                say('README.md', n, f'`{name}` is declared nowhere')

    # ---- README's tables of crates, floor by floor
    rows, floor, inside = {}, None, False
    for n, line in enumerate(readme.split('\n'), 1):
        if line.startswith('## '):
            inside = line == CRATES
        elif inside and line.startswith('### '):
            floor = line[4:]
        elif inside and line.startswith('| `'):
            for name in re.findall(r'`([^`]+)`', line.split('|')[1]):
                rows[name] = (n, floor)
    at = {c: f[0] for f in reading.floors(tree.texts['crates.txt']) for c in f[2]}
    for c in tree.crates:
        if c not in rows:
            say('README.md', 0, f'the crate {c} of crates.txt has no row in the tables of crates')
        elif rows[c][1] != at[c]:
            say('README.md', rows[c][0], f'the crate {c} stands under "{rows[c][1]}", in crates.txt under "{at[c]}"')
    for c, (n, _) in rows.items():
        if c not in at:
            say('README.md', n, f'a row for {c}, which crates.txt has not')
    return sorted(set(out), key=lambda s: (s.split(':')[0], int(s.split(':')[1])))


def read_papers():
    out = {}
    for p in PAPERS:
        with open(os.path.join(ROOT, p), encoding='utf-8') as f:
            out[p] = f.read()
    return out


# ---- slips that have to be told

SLIPS = [
    ('README.md', '`rules_table/specs/Good.antt`', '`rules_table/specs/Bad.antt`', 'there is no crates/rules_table/specs/Bad.antt'),
    ('README.md', '    tests/kernel.sh --kit', '    tests/kernels.sh --kit', 'there is no tests/kernels.sh'),
    ('README.md', '`tests/model.py`', '`tests/modell.py`', 'there is no tests/modell.py'),
    ('README.md', '`examples/rust`', '`examples/go`', 'there is no examples/go'),
    ('README.md', '`demand_3_lent` | `laws_lent/specs/Lending.antt`', '`demand_3_lent` | `laws_lent/specs/Refused.antt`', '`demand_3_lent` does not stand in'),
    ('README.md', '`map_lowest`', '`map_highest`', '`map_highest` does not stand in'),
    ('README.md', '| `host_calls::decide_host`', '| `hostcalls::decide_host`', 'there is no crate hostcalls'),
    ('README.md', '`equal_charge_refused.edit`', '`equal_charge_taken.edit`', '`equal_charge_taken.edit` is no must-fail edit'),
    ('README.md', '`iommufd::decide`', '`iommufd::decides`', 'nothing of that name in the code of iommufd'),
    ('README.md', '\n| `wire` |', '\n| `wires` |', 'the crate wire of crates.txt has no row'),
    ('README.md', '\n| `wire` |', '\n| `wires` |', 'a row for wires, which crates.txt has not'),
    ('README.md', '### The rules\n', '### The law\n', 'the crate rules_table stands under "The law"'),
    ('docs/DECISIONS.md', '`lent_records::store`', '`lent_records::stores`', 'nothing of that name in the code of lent_records'),
    ('docs/DECISIONS.md', '`laws_good` was made', '`mappinglaws` was made', '`mappinglaws` is a crate of before'),
    ('docs/DECISIONS.md', '`lowest_tried`', '`lowest_ever`', '`lowest_ever` stands nowhere in the tree'),
    ('docs/PROVING.md', '`first-fires`', '`first-fired`', '`first-fired` stands nowhere in the tree'),
]


def faults(papers, tree):
    missed = 0
    for paper, old, new, said in SLIPS:
        if old not in papers[paper]:
            print(f'papers: the slip has no place in {paper}: {old}', file=sys.stderr)
            missed += 1
            continue
        told = [s for s in look({**papers, paper: papers[paper].replace(old, new, 1)}, tree) if said in s]
        print(f'papers: {"told" if told else "not told"}: {told[0] if told else said}', file=sys.stdout if told else sys.stderr)
        missed += not told
    return missed


def main():
    papers, tree = read_papers(), Tree()
    if sys.argv[1:] == ['--faults']:
        sys.exit(1 if faults(papers, tree) else 0)
    if sys.argv[1:]:
        sys.exit('papers.py [--faults]')
    found = look(papers, tree)
    for line in found:
        print(line)
    sys.exit(f'papers: {len(found)} names that are not so' if found else 0)


if __name__ == '__main__':
    main()
