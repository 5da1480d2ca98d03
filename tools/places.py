#!/usr/bin/env python3
"""tools/places.py [ROOT]: the places of src/ that docs/DESIGN-PASS.md counts, point by point, each with its file and line."""
import collections
import pathlib
import re
import sys

root = pathlib.Path(sys.argv[1] if len(sys.argv) > 1 else '.')
files = {p.relative_to(root / 'crates').as_posix(): p.read_text() for p in sorted(root.glob('crates/*/src/**/*.rt'))}


def bare(text):
    """The text with comments blanked out."""
    return re.sub(r'//[^\n]*', lambda m: ' ' * len(m.group()), text)


def line(text, at):
    return text.count('\n', 0, at) + 1


def block(text, at):
    """What stands between the brace at `at` and its end."""
    depth = 0
    for i in range(at, len(text)):
        depth += {'{': 1, '}': -1}.get(text[i], 0)
        if depth == 0:
            return text[at + 1:i]
    return ''


def functions():
    """File, line, name, head and body of each function."""
    for file, text in files.items():
        code = bare(text)
        for m in re.finditer(r'\bfn (\w+)', code):
            start = re.compile(r'^\s*\{$', re.M).search(code, m.end())
            same = re.compile(r'\)[^\n;{]*\{$', re.M).search(code, m.end())
            opening = min((x.end() - 1 for x in (start, same) if x), default=None)
            if opening is not None:
                yield file, line(text, m.start()), m.group(1), code[m.start():opening], block(code, opening)


def say(point, places):
    places = list(places)
    print(f'{point}: {len(places)}')
    for place in places:
        print('   ', place)


def own_enums():
    for file, text in files.items():
        code = bare(text)
        for m in re.finditer(r'\benum (\w+) \{', code):
            cases = [c for c in re.findall(r'^    (\w+)(\([^)]*\))?', block(code, m.end() - 1), re.M)]
            loaded = [c for c in cases if c[1]]
            if len(cases) == 2 and loaded or any(c[0] in ('Refused', 'Fails', 'Failed', 'Undefined') for c in cases):
                yield f'{file}:{line(text, m.start())}: {m.group(1)} ' + ', '.join(a + b for a, b in cases)


def flags():
    marked = r'or 0[.,:;]|or 0 with|a position of 0|where there is none|one past the last where|the answer is 0|No answer:'
    for file, text in files.items():
        for m in re.finditer(rf'^\s*//.*(?:{marked}).*$|^\s+(?:pub )?refusal: u8,$', text, re.M):
            yield f'{file}:{line(text, m.end())}: {m.group().strip()[:110]}'


def number_lists():
    for file, text in files.items():
        run = []
        for m in list(re.finditer(r'^(?:pub(?:\(crate\))? )?const (\w+): (u8|u16|u32) = (0x[0-9a-fA-F]+|\d+);', text, re.M)) + [None]:
            if m and (not run or not re.search(r'\b(?:fn|enum|struct|use)\b', bare(text[run[-1].end():m.start()]))):
                run.append(m)
                continue
            if len(run) >= 3:
                yield f'{file}:{line(text, run[0].start())}: {len(run)} numbers, {run[0].group(1)} to {run[-1].group(1)}'
            run = [m] if m else []


def functions_with(least, pattern, what):
    """The functions in which the pattern stands at least so many times."""
    for file, at, name, head, body in functions():
        found = len(re.findall(pattern, body, re.M))
        if found >= least:
            yield f'{file}:{at}: {name}, {found} {what}'


def ladders():
    test = r'^\s*if (?:\w+(?:\.\w+)* [=!<>]=? [\w:]+|[\w:]+ <=? \w+(?:\.\w+)*) \{\n\s*return [^\n]*;\n\s*\}'
    return functions_with(2, test, 'steps')


def twins():
    kinds = collections.defaultdict(list)
    for file, at, name, head, body in functions():
        words = re.findall(r'b?"[^"]*"|b\'[^\']*\'|\w+|[^\s\w]', body)
        if len(words) < 9:
            continue
        keep = {'if', 'else', 'match', 'while', 'for', 'in', 'return', 'let', 'mut', 'as', 'self', 'Self', 'true', 'false'}
        names = {}
        shape = tuple(w if w in keep or not re.match(r'[\w"]|b"|b\'', w) else 'x' for w in words)
        kinds[shape].append(f'{file}:{at}: {name}')
    for group in kinds.values():
        if len(group) > 1:
            yield ' = '.join(group)


def loops():
    for file, text in files.items():
        for m in re.finditer(r'^\s*while [^\n]*', bare(text), re.M):
            yield f'{file}:{line(text, m.start() + len(m.group()) - len(m.group().lstrip()))}: {m.group().strip()}'


def copies():
    for file, text in files.items():
        for m in re.finditer(r'^\s+(\w+): \1,$', bare(text), re.M):
            yield f'{file}:{line(text, m.end())}: {m.group().strip()}'


def conversions():
    for file, at, name, head, body in functions():
        if re.fullmatch(r'\s*\w+ as \w+\s*', body):
            yield f'{file}:{at}: {name}, a cast alone'
        if re.fullmatch(r'\s*if (\w+) < (\w+) \{\s*return \1;\s*\}\s*\2\s*', body):
            yield f'{file}:{at}: {name}, a minimum'


def facts():
    seen = collections.defaultdict(set)
    for file, at, name, head, body in functions():
        m = re.search(r'requires \{(.*)\}', head)
        if m:
            for fact in re.split(r' × ', m.group(1).replace('(', '').replace(')', '')):
                seen[file.split('/')[0], fact.strip()].add(f'{file}:{name}')
    for (crate, fact), where in sorted(seen.items()):
        if len(where) >= 3:
            yield f'{crate}: "{fact}" in {len(where)} contracts'


def parameters():
    seen = collections.defaultdict(set)
    for file, at, name, head, body in functions():
        m = re.search(r'\(([^()]*(?:\([^()]*\)[^()]*)*)\)', head, re.S)
        names = re.findall(r'(\w+):', m.group(1)) if m else []
        for i in range(len(names)):
            for j in range(i + 3, len(names) + 1):
                seen[file.split('/')[0], tuple(names[i:j])].add(name)
    best = {k: v for k, v in seen.items() if len(v) >= 3}
    for (crate, names), where in sorted(best.items()):
        if not any(c == crate and set(names) < set(n) and w >= where for (c, n), w in best.items()):
            yield f'{crate}: {", ".join(names)} in {len(where)} functions'


def buffers():
    for file, at, name, head, body in functions():
        if re.search(r'out: &mut \[u8\],\s*at: usize', head):
            yield f'{file}:{at}: {name}, a buffer and a place in it'
    for file, text in files.items():
        for m in re.finditer(r'b"(?:\w+ +){3,}', bare(text)):
            yield f'{file}:{line(text, m.start())}: packed names'
        for m in re.finditer(r'\*b"\\', bare(text)):
            yield f'{file}:{line(text, m.start())}: packed names'


def switches():
    return functions_with(3, r'^\s*[A-Z_]{2,}(?: \| [A-Z_]+)* => \w+(?:::\w+)*\(', 'arms')


def walks():
    for p in sorted(root.glob('crates/*/proofs/**/Proof.antt')):
        yield p.relative_to(root / 'crates').as_posix()


say('1 own enums of the shape of Option or Result', own_enums())
say('1 a flag or a marked number beside a value', flags())
say('1 lists of numbers', number_lists())
say('1 ladders of tests against numbers', ladders())
say('2 functions of one shape', twins())
say('3 loops by hand', loops())
say('4 fields copied by name', copies())
say('4 conversions and minima by hand', conversions())
say('5 facts in three or more contracts of a crate', facts())
say('5 parameters that travel together in three or more functions', parameters())
say('6 buffers with a place beside, packed names', buffers())
say('7 switches on numbers that choose a function', switches())
found = list(walks())
print(f'8 proofs that walk the code by hand: {len(found)}')
