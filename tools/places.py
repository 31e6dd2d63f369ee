#!/usr/bin/env python3
"""Lists places in src/ to look at, by the points of docs/DESIGN-PASS.md: python3 tools/places.py [-v] [TOP]

It finds lines, and judges nothing: most of what it lists is as it should be. -v prints the lines, else their number alone.
"""
import re
import sys
from collections import defaultdict
from pathlib import Path

VERBOSE = '-v' in sys.argv
NAMED = [a for a in sys.argv[1:] if a != '-v']
TOP = Path(NAMED[0] if NAMED else '.')
FILES = sorted(p for p in TOP.glob('crates/*/src/**/*.rt') if 'out' not in p.parts)
FUNCTION = r'^( *)(?:pub(?:\(crate\))? )?fn '
LINES = [(f'{p.relative_to(TOP / "crates")}:{i}', line) for p in FILES for i, line in enumerate(p.read_text().split('\n'), 1)]
CODE = [(at, line) for at, line in LINES if not re.match(r'\s*(//|ghost |ensures|requires)', line)]
CLAUSES = [(at, line) for at, line in LINES if re.match(r'\s*(ensures|requires)', line)]


def say(point, what, found):
    print(f'{point}  {len(found):4}  {what}')
    if VERBOSE:
        for at, text in found:
            print(f'           {at}  {text.strip()}')


def lines(point, what, pattern, among=None):
    say(point, what, [(at, line) for at, line in (among or CODE) if re.search(pattern, line)])


def items(start):
    """Each item that begins with a line of this form, to the end of its braces."""
    for p in FILES:
        text = p.read_text()
        for m in re.finditer(start, text, re.M):
            at = text.find('{\n', m.start())
            end = re.compile(r'^' + m.group(1) + r'\}', re.M).search(text, m.start())
            if at >= 0 and end:
                line = text.count('\n', 0, m.start()) + 1
                yield f'{p.relative_to(TOP / "crates")}:{line}', text[m.start():end.end()]


def parameters(text):
    depth = 0
    for i in range(text.find('('), len(text)):
        depth += {'(': 1, ')': -1}.get(text[i], 0)
        if depth == 0:
            return text[text.find('('):i]


def alike(point, what, start):
    """Items that are one another but for names, types and numbers."""
    groups = defaultdict(list)
    for at, text in items(start):
        body = re.sub(r'^\s*(//|ensures|requires|ghost).*$', '', text, flags=re.M)
        shape = re.sub(r'\s+', ' ', re.sub(r'\b(?!fn|let|if|else|match|for|in|return|impl|pub|enum|struct|self|Some|None|Ok|Err)\w+\b', 'x', body))
        if len(shape) > 40:
            groups[shape].append((at, text.split('\n')[0]))
    say(point, what, [one for group in groups.values() if len(group) > 1 for one in group])


def repeated(point, what, pairs):
    groups = defaultdict(list)
    for key, at in pairs:
        groups[key].append(at)
    say(point, what, [(f'{len(ats)} times, first {ats[0]}', key) for key, ats in sorted(groups.items()) if len(ats) > 2])


lines('1', 'enums', r'\benum \w+')
lines('1', 'a bool in a field or a parameter, or beside another result', r'(^|[(,]|\s)\w+: (&mut |&)?bool\b')
lines('1', 'an answer by a bool or a small number', r'-> (bool|u8)\b')
lines('1', 'a match that hands on a Some, None, Ok or Err', r'(Some|Ok)\((\w+)\) => (Some|Ok)\(|(None|Err\(_\)) => (return )?(None|Err|false|self)')
alike('2', 'functions alike but for names, types and numbers', FUNCTION)
alike('2', 'impls alike but for names, types and numbers', r'^( *)impl\b')
alike('2', 'types alike but for names, types and numbers', r'^( *)(?:pub(?:\(crate\))? )?(?:struct|enum) ')
lines('3', 'loops', r'^\s*(for|while|loop)\b.*\{$')
lines('3', 'an index beside a length', r'[<>]=? \w+(\.\w+)*\.len\(\)|\w\[\w+( \+ \w+)?\]')
lines('4', 'impls of comparison, conversion and printing', r'impl.* (PartialEq|Eq|Ord|Clone|Copy|From<.*>|TryFrom<.*>|FromStr|(fmt::)?Display|Default) for')
lines('4', 'functions named as a comparison, a conversion or a text', r'fn (same_\w+|is_same|to_\w+|\w+_value|\w+_number|number|boolean|value|view\w*|prefix|infix|named|\w+_text|binary|unary)\b')
repeated('5', 'clauses that stand three times', [(re.sub(r'\s+', ' ', line.strip()), at) for at, line in CLAUSES])
repeated('5', 'pairs of parameters that stand together three times', [
    (f'{a}, {b}', at) for at, text in items(FUNCTION)
    for names in [re.findall(r'(\w+): ', parameters(text))] for i, a in enumerate(names) for b in names[i + 1:]])
lines('6', 'arrays of a fixed length', r'\[[^\[\]]+; ?\w+\]')
lines('6', 'a first place or a length as a number', r'\b(len|length|start|first|at|used): (u\w+)')
lines('6', 'slices that are lent to be written', r'&(\'\w+ )?mut \[')
lines('7', 'functions as values', r'\b(fn\(|dyn |impl Fn|: Fn(Mut|Once)?\()')
lines('7', 'arms that call a function by a case', r'::\w+(\(\w*\))?( \{ .* \})? => \w+\(')
answers = [(str(p), '') for p in TOP.glob('crates/*/proofs/**/Answers.antt') if 'out' not in p.parts]
say('8', 'files of answers', answers)
say('8', 'answers', [(str(p), line) for p, _ in answers for line in Path(p).read_text().split('\n') if re.match(r'pub \S+ :', line)])
proofs = [p for p in TOP.glob('crates/*/proofs/**/*.antt') if 'out' not in p.parts]
say('8', 'lines of proofs', [(str(p), line) for p in proofs for line in p.read_text().split('\n')[:-1]])
