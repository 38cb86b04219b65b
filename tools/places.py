#!/usr/bin/env python3
"""Candidate places of the design pass in src/: `python3 tools/places.py [FOLDER]`, FOLDER a checkout (default: this one).

Each line is one candidate: its point, its file and line, and what was found there. The counts stand at the end. It goes by
text, so it finds more than there is and cannot see a meaning: docs/DESIGN-PASS.md says of each what it is.
"""
import collections
import os
import re
import sys

TOP = sys.argv[1] if len(sys.argv) > 1 else os.path.join(os.path.dirname(os.path.abspath(__file__)), '..')
KEYWORDS = set('if else match for in let mut return fn self Self Ok Err Some None as u8 u16 u32 u64 u128 usize'.split())
FN = re.compile(r'^( *)(?:pub(?:\([a-z]+\))? )?(?:extern "C" )?fn (\w+)')


class Function:
    def __init__(self, file, line, name, head, body):
        self.file, self.line, self.name, self.head, self.body = file, line, name, head, body

    def clauses(self):
        for kind, text in re.findall(r'^ *(requires|ensures)[^{]*\{ (.*) \}$', self.head, re.M):
            for part in re.split(r' × ', text):
                yield kind, re.sub(r'\s+', ' ', part).strip('() ')

    def parameters(self):
        inside = self.head.split('\n        requires')[0].split('\n    requires')[0].split('->')[0]
        return [p.strip() for p in re.findall(r'(\w+: &?(?:mut )?\[?\w+[^,)\n]*)', inside)]

    def shape(self):
        """The body with every name and number made alike."""
        words = re.findall(r'\w+|[^\w\s]', self.body)
        return ' '.join(w if w in KEYWORDS or not re.match(r'\w', w) else '_' for w in words)


def functions(file, text):
    lines = text.split('\n')
    at = 0
    while at < len(lines):
        found = FN.match(lines[at])
        if not found:
            at += 1
            continue
        indent, start = found.group(1), at
        while at < len(lines) and lines[at] != indent + '{' and not lines[at].rstrip().endswith((' {', ';')):
            at += 1
        body = at + 1
        while at < len(lines) and lines[at] != indent + '}':
            if lines[at].rstrip().endswith(';') and at == body - 1:
                break
            at += 1
        yield Function(file, start + 1, found.group(2), '\n'.join(lines[start:body]), '\n'.join(lines[body:at]))
        at += 1


def main():
    texts = {}
    for folder, _, names in os.walk(os.path.join(TOP, 'crates')):
        if '/src' in folder and '/out' not in folder:
            for name in names:
                if name.endswith('.rt'):
                    path = os.path.join(folder, name)
                    texts[os.path.relpath(path, TOP)] = open(path).read()
    found = collections.defaultdict(list)
    all_functions = [f for file in sorted(texts) for f in functions(file, texts[file])]

    line_rules = [
        ('1 codes', r'match self\.number\(\)|self as u8|Refused\(u32|place: u32|-> u8$|=> 0,$|Err\(_\) => 0'),
        ('1 flags', r'^\s*\w+: bool,$|-> \(bool,'),
        ('3 loops', r'^\s*(while |loop |for .* in .*(\.\.|enumerate\(\)))'),
        ('4 impls', r'^impl .*\b(PartialEq|Eq|PartialOrd|Ord|Clone|Copy|Default|Debug|Display|From|TryFrom)\b.* for '),
        ('4 conversions', r'fn (of|from_\w+|to_\w+|into_\w+|name|label|word|number|rank)\b'),
        ('4 printing', r'fn print_|\{lower\}|\{name\}'),
        ('4 zeros', r'^\s*let none = \w+ \{'),
        ('6 buffers', r'^\s*place: usize,|place \+ |\[0; [A-Z]+\]|\[0u\w+; '),
        ('6 parallel', r'^\s*(pub(\(crate\))? )?\w+: \[.*; \w+\],$'),
        ('7 function values', r'fn\(|dyn |impl Fn|: Fn\('),
    ]
    for file in sorted(texts):
        for number, line in enumerate(texts[file].split('\n'), 1):
            if line.strip().startswith('//'):
                continue
            for point, rule in line_rules:
                if re.search(rule, line):
                    found[point].append((file, number, line.strip()))

    shapes = collections.defaultdict(list)
    for f in all_functions:
        if len(f.body.strip().split('\n')) > 1:
            shapes[f.shape()].append(f)
    for same in shapes.values():
        if len(same) > 1:
            for f in same:
                found['2 twins'].append((f.file, f.line, f.name + ' like ' + ', '.join(sorted({g.name for g in same if g is not f} or {f.name}))))

    facts = collections.defaultdict(dict)
    for f in all_functions:
        crate = f.file.split('/')[1]
        for kind, fact in f.clauses():
            if not fact.startswith('Outcome') and 'result ≡' not in fact:
                facts[crate, fact][f.file, f.line, f.name] = kind
    for (crate, fact), places in sorted(facts.items()):
        if len(places) > 2:
            for file, line, name in places:
                found['5 facts'].append((file, line, name + ': ' + fact))
    groups = collections.defaultdict(list)
    for f in all_functions:
        ps = [p for p in f.parameters() if not p.startswith(('rt:', 'self:'))]
        for i in range(len(ps)):
            for j in range(i + 1, len(ps)):
                groups[tuple(sorted((ps[i], ps[j])))].append(f)
    for pair, fs in sorted(groups.items()):
        if len(fs) > 2:
            for f in fs:
                found['5 parameters'].append((f.file, f.line, f.name + ': ' + ' and '.join(pair)))
    for f in all_functions:
        calls = re.findall(r'=> (?:\{\s*)?(?:self\.)?(\w+)\(', f.body)
        for name, times in collections.Counter(calls).items():
            if times > 2 and name not in ('Ok', 'Some', 'Err'):
                found['7 switches'].append((f.file, f.line, '%s: %d arms call %s' % (f.name, times, name)))

    for point in sorted(found):
        for file, number, what in found[point]:
            print('%s\t%s:%d\t%s' % (point, file, number, what[:150]))
    print()
    for point in sorted(found):
        places = {(file, number) for file, number, _ in found[point]}
        print('%-18s %4d' % (point, len(places)))


main()
