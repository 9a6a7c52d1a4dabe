#!/usr/bin/env python3
"""Counts the places of docs/DESIGN-PASS.md in crates/*/src, point by point, and lists them.

usage: tools/places.py [POINT]     at the top of the repository

1  enums; fields and parameters of type bool beside others of the same struct; kinds, codes and refusals as numbers
2  functions of one name in two crates or more, or of one body but for types, names and numbers
3  loops by hand: `while`
4  matches that turn an enum into a number or a number into an enum
5  conjuncts of clauses that stand in three functions or more; parameters that stand side by side in three functions or more
6  an array or a slice with a length, a count or a place beside it, in a signature or a struct
7  matches on a number of a kind
8  answers of proofs (`pub NAME : goal.NAME`)
"""
import collections
import glob
import re
import sys

FN = re.compile(r'^( *)(?:pub(?:\(crate\))? )?(?:extern "C" )?fn (\w+)(?:<[^>]*>)?\((.*?)\)(?: -> ([^{]*?))?\n?(?=\s*(?:requires|ensures|where|\{))', re.S | re.M)


def sources():
    for path in sorted(glob.glob('crates/*/src/*.rt')):
        yield path, open(path).read()


def line(text, at):
    return text.count('\n', 0, at) + 1


def functions():
    for path, text in sources():
        for found in FN.finditer(text):
            end = re.compile(rf'^{found[1]}}}$', re.M).search(text, found.end())
            rest = text[found.end():end.end() if end else len(text)]
            parts = re.split(rf'^{found[1]}\{{$|(?<=\) )\{{$|(?<=> )\{{$', rest, maxsplit=1, flags=re.M)
            yield path, line(text, found.start()), found[2], re.sub(r'\s+', ' ', found[3]).strip(' ,'), found[4] or '', parts[0], parts[-1]


def show(title, rows):
    print(f'{title}: {len(rows)}')
    for row in rows:
        print('   ', row)


def matches(pattern):
    return [f'{path}:{line(text, m.start())} {m[0].strip()}' for path, text in sources() for m in re.finditer(pattern, text, re.M)]


def point1():
    show('enums', matches(r'^(?:pub(?:\(crate\))? )?enum \w+'))
    show('flags in structs', matches(r'^ +(?:pub(?:\(crate\))? )?\w+: bool,$'))
    show('kinds and codes as numbers', matches(r'\b(?:kind|code|field|errno|reason): (?:u8|u32|u64|i32)\b') + matches(r'-> (?:u8|u32|u64|i32)\n(?=    ensures \{ result ≡ (?:errno|reason)_number)'))


def point2():
    named, bodies = collections.defaultdict(list), collections.defaultdict(list)
    for path, at, name, arguments, result, clauses, body in functions():
        named[name].append(f'{path}:{at}')
        words = re.findall(r'\w+|[^\s\w]', body)
        if len(words) > 6:
            bodies[' '.join('x' if re.match(r'[a-z_0-9]', w) and w not in ('if', 'else', 'while', 'for', 'match', 'let', 'mut', 'return') else w for w in words)].append(f'{path}:{at} {name}')
    show('one name', [f'{name}: {", ".join(places)}' for name, places in sorted(named.items()) if len({p.split('/')[1] for p in places}) > 1])
    show('one body but for names and numbers', [', '.join(places) for places in bodies.values() if len(places) > 1])


def point3():
    show('loops by hand', matches(r'^ *while .*'))


def point4():
    show('numbers to enums and back', [f'{path}:{at} {name}' for path, at, name, _, _, _, body in functions()
                                       if re.search(r'=> \d+,|^ *\d+ => \w+(?:::\w+)?[,(]', body, re.M)])


def point5():
    facts, pairs = collections.defaultdict(set), collections.defaultdict(set)
    for path, at, name, arguments, _, clauses, _ in functions():
        place = f'{path.split("/")[1]}::{name}'
        for clause in re.findall(r'(?:requires|ensures)\*?(?: \w+)? \{ (.*?) \}\n', clauses + '\n'):
            for part in re.split(r' × |(?<=\))(?= ×)', clause):
                part = part.strip('() ')
                if 'result' not in part and len(part) > 5:
                    facts[part].add(place)
        split = [a.strip() for a in re.split(r',(?![^\[<(]*[\]>)])', arguments) if ':' in a]
        for width in (2, 3, 4):
            for i in range(len(split) - width + 1):
                pairs[', '.join(split[i:i + width])].add(place)
    show('facts in three functions or more', [f'{len(p)} {fact}' for fact, p in sorted(facts.items(), key=lambda x: -len(x[1])) if len(p) > 2])
    show('parameters side by side in three functions or more', [f'{len(p)} ({group})' for group, p in sorted(pairs.items(), key=lambda x: -len(x[1])) if len(p) > 2])


def point6():
    buffer, length = r'\w+: &?(?:mut )?\[[^\]]*\]', r'\b(?:n|m|count|k|at|from|to|end|len|text|w|log): usize'
    show('signatures', [f'{path}:{at} {name}({arguments})' for path, at, name, arguments, _, _, _ in functions()
                        if re.search(buffer, arguments) and re.search(length, arguments)])
    show('structs', [f'{path}:{line(text, m.start())} {m[1]}' for path, text in sources() for m in re.finditer(r'struct (\w+)(?:<.*?>)? \{(.*?)\n\}', text, re.S)
                     if re.search(buffer, m[2]) and re.search(length, m[2])])


def point7():
    show('switches on a number', matches(r'^ *match (?:kind|op|n|code|cmp|field|code % 4) \{'))


def point8():
    counts = collections.Counter()
    for path in glob.glob('crates/*/proofs/**/Answers.antt', recursive=True):
        counts[path.split('/')[1]] += len(re.findall(r'^pub (\S+) : goal\.\1$', open(path).read(), re.M))
    show('answers', [f'{crate}: {n}' for crate, n in sorted(counts.items())])
    print('answers in all:', sum(counts.values()))


for number in sys.argv[1:] or '12345678':
    print(f'== point {number}')
    globals()[f'point{number}']()
