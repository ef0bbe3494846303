#!/usr/bin/env python3
"""Counts the places in crates/*/src that read like an older language, point by point (docs/DESIGN-PASS.md says what each point is).

usage: places.py [--list] [FOLDER]

FOLDER is a checkout; without it, this one. --list prints each place too. The last part counts the answers in crates/*/proofs.
"""
import difflib
import pathlib
import re
import sys

BUFFERS = ['text', 'types', 'boundaries', 'char_pos', 'byte_pos', 'cell_starts', 'cell_lengths', 'tag_bytes']
SHORT = ['text', 'types', 'marks', 'chars', 'bytes', 'cells', 'lens', 'tags']


def functions(text):
    """Each function of a file: its line, its name, its head up to the body, its body."""
    for m in re.finditer(r'^( *)(?:pub )?(?:extern "C" )?fn (\w+)', text, flags=re.M):
        start = m.start()
        body = re.compile(r'^' + m.group(1) + r'\{$', re.M).search(text, start)
        one = re.compile(r'\{$', re.M).search(text, start)
        if body is None or (one is not None and one.start() < body.start() and '\n' not in text[start:one.start()]):
            body = one
        end = re.compile(r'^' + m.group(1) + r'\}$', re.M).search(text, body.start() if body else start)
        if body is None or end is None:
            continue
        yield text.count('\n', 0, start) + 1, m.group(2), text[start:body.start()], text[body.start():end.end()]


def parameters(head):
    inside = re.search(r'\((.*?)\)\s*(?:->|requires|ensures|where|$)', head, flags=re.S)
    return re.findall(r'(\w+): (&mut \[|&\[|&\'\w+ \[|\w+)', inside.group(1)) if inside else []


def lines_of(pattern):
    rule = re.compile(pattern)

    def places(text):
        for number, line in enumerate(text.split('\n'), 1):
            if not line.lstrip().startswith('//') and rule.search(line):
                yield number, line.strip()
    return places


def result_shaped(text):
    """An enum of two variants of which one holds a value, or with a variant for a refusal."""
    for m in re.finditer(r'^(?:pub )?enum (\w+)[^{]*\{(.*?)^\}', text, flags=re.M | re.S):
        variants = re.findall(r'^    (\w+)(\(|\s*\{|,)', m.group(2), flags=re.M)
        holds = [v for v in variants if v[1] != ',']
        if any(v[0].startswith('Refuse') for v in variants) or (len(variants) == 2 and holds):
            yield text.count('\n', 0, m.start()) + 1, 'enum ' + m.group(1)


def together(text):
    """A function with four or more of a sheet's buffers as parameters."""
    for line, name, head, _ in functions(text):
        names = [p for p, kind in parameters(head) if '[' in kind]
        if sum(n in BUFFERS for n in names) >= 4 or sum(n in SHORT for n in names) >= 4:
            yield line, name


def beside(text):
    """A buffer with a place or a count beside it: an output and where it ends, an array and how much of it counts."""
    for line, name, head, _ in functions(text):
        names = dict(parameters(head))
        if any(k == '&mut [' for k in names.values()) and 'at' in names and names['at'] == 'usize':
            yield line, name + ': a buffer and a place in it'
        if 'cell_starts' in names and 'cell_lengths' in names and '[' in names['cell_starts']:
            yield line, name + ': starts and lengths as two arrays'
    for m in re.finditer(r'struct (\w+)[^;{]*\{(.*?)^\}', text, flags=re.M | re.S):
        if re.search(r': \[\w+; \w+\]', m.group(2)) and re.search(r'\b(n|len): usize', m.group(2)):
            yield text.count('\n', 0, m.start()) + 1, 'struct ' + m.group(1)


def switches(text):
    """A function that is told by a number or a flag which step to run."""
    for line, name, head, body in functions(text):
        if re.search(r"match (which|call|how|kind|form)\b", body) or re.search(r'in_partial: bool|key: bool|update: bool', head):
            yield line, name
        elif len(re.findall(r"(?:if|\|) \(?(?:kind|which|call) == b'", body)) > 1:
            yield line, name


def shape(head, body):
    """The words of a function without its comments and its own names."""
    words = re.findall(r"b?'.'|\w+|[^\s\w]", re.sub(r'//.*', '', head + body))
    return words[:2] + words[3:]


def twins(all_functions):
    """Two functions of one file whose words are the same but for one in eight."""
    for path, found in all_functions.items():
        for i, (line, name, head, body) in enumerate(found):
            for other, name2, head2, body2 in found[i + 1:]:
                a, b = shape(head, body), shape(head2, body2)
                if min(len(a), len(b)) < 40:
                    continue
                match = difflib.SequenceMatcher(None, a, b, autojunk=False)
                if match.real_quick_ratio() > 0.87 and match.quick_ratio() > 0.87 and match.ratio() > 0.87:
                    yield path, line, name + ' and ' + name2


POINTS = [
    ('1 own enums like Option or Result', result_shaped),
    ('1 flags as fields', lines_of(r'^(pub )?\w+: bool,$|^\s+(pub )?\w+: bool,$')),
    ('1 numbers for kinds and refusals', lines_of(
        r'\b(number|kind|which|call|how|letter|form): u(8|32)\b|in_partial: bool|pub const [A-Z]+: u8 = \d|return refuse\(\d|refused\(\d')),
    ('1 a number that says none', lines_of(r'\bneeded > 0|\.number > 0|return 255;|== 256|> 255\b|\bd > 9\b|=> 10,|=> 16,')),
    ('3 loops by hand', lines_of(r'^(while|loop)\b|^\s+(while|loop)\b')),
    ('4 conversions by hand', lines_of(r' as (u8|u16|u32|u64|i32|usize|isize)\b')),
    ('4 functions that the library has', lines_of(r'\bfn (max|wide|opened|at_most|code|first|find)\b')),
    ('5 the eight buffers as parameters', together),
    ('6 buffers with a length or a twin beside', beside),
    ('7 switches on a step', switches),
]


def main():
    arguments = [a for a in sys.argv[1:] if a != '--list']
    root = pathlib.Path(arguments[0] if arguments else pathlib.Path(__file__).resolve().parent.parent)
    files = sorted(p for p in root.glob('crates/*/src/**/*.rt'))
    if not files:
        sys.exit(f'places.py: no crates/*/src in {root}')
    texts = {str(p.relative_to(root / 'crates')): p.read_text() for p in files}
    for title, rule in POINTS:
        found = [(path, line, what) for path, text in texts.items() for line, what in rule(text)]
        print(f'{title}: {len(found)}')
        if '--list' in sys.argv:
            for path, line, what in found:
                print(f'    {path}:{line}: {what}')
    found = list(twins({path: list(functions(text)) for path, text in texts.items()}))
    print(f'2 twins: {len(found)}')
    if '--list' in sys.argv:
        for path, line, what in found:
            print(f'    {path}:{line}: {what}')
    proofs = [p for p in root.glob('crates/*/proofs/**/*.antt')]
    answers = sum(len(re.findall(r'^pub [\w-]+ : goal\.', p.read_text(), flags=re.M)) for p in proofs)
    print(f'8 answers: {answers}, in {sum(p.read_text().count(chr(10)) for p in proofs)} lines of proofs')
    print(f'lines in crates/*/src: {sum(t.count(chr(10)) for t in texts.values())}')


main()
