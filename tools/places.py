#!/usr/bin/env python3
"""Counts the places of src/ that are written as in an older language, a count for each kind of place; docs/DESIGN-PASS.md has the points.

    tools/places.py [-v] [FOLDER]

With -v it says where each stands. FOLDER is the top of a checkout, this one if none is given. It goes by text alone, so what it lists
has still to be read."""
import glob
import os
import re
import sys

words = [w for w in sys.argv[1:] if w != '-v']
os.chdir(words[0] if words else os.path.join(os.path.dirname(os.path.abspath(__file__)), '..'))
text, functions = {}, []
for file in sorted(glob.glob('crates/*/src/*.rt')):
    text[file] = re.sub(r'//[^\n]*', '', open(file).read())
    for m in re.finditer(r'^( *)(?:pub(?:\(crate\))? )?(?:extern "C" )?fn (\w+)(.*?)\n?\1\{\n(.*?)\n\1\}\n|'
                         r'^( *)(?:pub(?:\(crate\))? )?fn (\w+)([^\n]*) \{\n(.*?)\n\5\}\n', text[file], re.M | re.S):
        g = m.groups()
        name, head, body = g[1:4] if g[1] else g[5:8]
        functions.append((file + ': ' + name, name, head, body))


def show(what, places):
    print('%4d  %s' % (len(places), what))
    if '-v' in sys.argv:
        for place in places:
            print('          ' + place)


def lines(pattern):
    return ['%s:%d: %s' % (file, n, line.strip()) for file in text
            for n, line in enumerate(text[file].split('\n'), 1) if re.search(pattern, line)]


def enums(test):
    return [file + ': ' + name for file in text for name, body in re.findall(r'enum (\w+)[^{]*\{\n(.*?)\n\}', text[file], re.S)
            if test(re.findall(r'^    (\w+[^\n]*)$', body, re.M))]


def where(test):
    return [place for place, name, head, body in functions if test(name, head, body)]


print('1. Option, Result, enums')
show('enums of two variants that carry a value in one or both', enums(lambda v: len(v) == 2 and any(re.search(r'[({]', x) for x in v)))
none = re.compile(r'(Nothing|Nowhere|Nobody|None|Refused|No)\b')
show('enums with a variant for none or for a refusal beside two others or more', enums(lambda v: len(v) > 2 and any(none.match(x) for x in v)))
show('flags in a struct', lines(r'^    (pub(\(crate\))? )?\w+: bool,$'))
show('numbers that stand for none', lines(
    r'^(pub )?const \w+: (u64|usize) = (0xffff_ffff\w*|0xa5a5\w*|u64::MAX|257);|'
    r'^\s+(number|erases|serial|wanted): (256|40|4294967296|18446744073709551615),$|'
    r'^\s+(return )?(16|256);?$|else \{ 256 \}|^\s+_ => one\(99\)|number: 99'))
show('words, kinds and refusals as numbers', lines(
    r'^(pub )?const \w+: u64 = 0x[0-9a-f]{6,};|^\s+\w+\(\d+, answer\)|^\s+\d+ => (Command|State|Request)::|if (value|way|n) == [01] \{'))

print('2. Twins')
same = {}
for place, name, head, body in functions:
    body = re.sub(r'\b[ui](8|16|32|64|size)\b', 'T', body)
    body = re.sub(r'\b(\d\w*)\b', 'N', re.sub(r'b"[^"]*"', 'TEXT', body))
    parameters = re.match(r'(?:<[^>]*>)?\((.*?)\)\s*(->|\n|$)', head, re.S)
    for k, p in enumerate(re.findall(r'(\w+):', parameters.group(1) if parameters else '')):
        body = re.sub(r'\b%s\b' % p, 'p%d' % k, body)
    for k, l in enumerate(sorted(set(re.findall(r'\blet (?:mut )?(\w+)\b', body)))):
        body = re.sub(r'\b%s\b' % l, 'l%d' % k, body)
    body = re.sub(r'\s+', ' ', body).strip()
    if len(body) > 20:
        same.setdefault(body, []).append(place)
show('functions with the same body but for types, numbers, texts and names', sum((v for v in same.values() if len(v) > 1), []))
library = re.compile(r'(copy|lesser|greater|larger|larger_count|smaller|wide|least|at_most|at_most_64|same_text|same_row|same_byte_row|'
                     r'put_number|one_more|one_if|without|times_ten|put_bytes|narrow|byte|filled_to|digit|digit_value)$')
show('functions that the library has', where(lambda name, head, body: library.match(name) and not (name == 'put_bytes' and 'at: usize' in head)))

print('3. Loops')
show('while loops that count by hand', where(lambda name, head, body: re.search(r'while [^{]*\{.*?\w+ [+-]= 1;', body, re.S)))
show('for loops over the numbers from 0', sum(([place] * len(re.findall(r'for (?!_ )\w+ in 0\.\.', body)) for place, name, head, body in functions), []))

print('4. Derives, conversions, printing')
show('functions that compare field by field or row by row', where(lambda name, head, body: name.startswith('same_')))
show('tests of a variant by a match to true and false', where(lambda name, head, body: '=> true,' in body and '=> false,' in body))
show('lines that print by descriptor number', lines(r'io::(write_all|print_\w+)\('))
show('lines that print a piece of a line', lines(r'^\s+(\w.*=> )?say(_\w+)?\('))

print('5. Facts and parameters that stand again and again')
facts = {}
for place, name, head, body in functions:
    for clause in re.findall(r'requires(?: \w+)? \{ (.*?) \}(?:\n|$)', head):
        for fact in clause.split(' × '):
            fact = re.sub(r'\.(old|now|new)\b', '', fact.strip('()')).replace('summary.config', 'config')
            facts.setdefault(fact, set()).add(place)
for fact in sorted(facts):
    if len(facts[fact]) > 2:
        show('functions that ask: ' + fact, sorted(facts[fact]))
show('functions that take store, words and bytes', where(lambda name, head, body: re.search(r'store: &(mut )?\[u64\],\s+words: &mut \[u64\],\s+bytes: &mut \[u8\]', head)))
show('functions that take the seven numbers of a configuration', where(lambda name, head, body: re.search(r'pages: u64,\s+dies: u64', head)))

print('6. Rows')
show('fields that are rows of a fixed length', lines(r'^    (pub(\(crate\))? )?\w+: \[\w+; \w+\],$'))
show('functions that take a row and how much of it counts', where(lambda name, head, body: re.search(r'&(mut )?\[\w+\],\s+(most|count|length|filled): usize', head)))

print('7. Flags that choose a step')
show('functions that take a flag', where(lambda name, head, body: re.search(r'\b\w+: bool\b', head.split('ensures')[0])))

print('8. Proofs')
proofs = [p for p in glob.glob('crates/*/proofs/**/*.antt', recursive=True)]
show('functions with answers', sorted(p for p in proofs if p.endswith('/Answers.antt')))
print('%4d  lines of proofs' % sum(open(p).read().count('\n') for p in proofs))
print('%4d  lines of code' % sum(open(f).read().count('\n') for f in text))
