#!/usr/bin/env python3
"""Spells this repository's own definitions and lemmas in snake case: `threadNumber` becomes `thread_number`, `no-lost-wake` becomes `no_lost_wake`.

usage: tools/respell.py [--check]      at the top of the repository, once, after the kit's own script

What turns: each name that an .antt file of crates/ declares, in lower camel case or with dashes, wherever .antt files, the clauses and `ghost use` items of
.rt files and the edits of must-fail/ name it. Types and modules are in camel case already. Functions of src/ and what the prover makes of them keep their names:
a name with a dash stays right after a dot, if what stands before the dot is no module.
Where a definition and a law of it would fall together, the law gets `_lem`; OTHER has the names that need another word.
--check writes nothing, and prints the table.
"""
import collections
import os
import re
import sys

WORD = re.compile(r'[^\s(){}.;,@"«»]+')
QUIET = re.compile(r'"(?:[^"\\\n]|\\.)*"|(?<![^\s(){}.;,@"«»])--[^\n]*')
DECLARED = re.compile(
    r'^ *(?:(?:pub|abbrev|unfoldable) )*([^\s(){}.;,@"«»]+)(?: \{[^{}\n]*\})*(?: \([^()\n]*\))* :(?: |$)'
)
LET = re.compile(r'\blet ([^\s(){}.;,@"«»]+) (?::|=)')
CLAUSE = re.compile(r"(?:requires|ensures)\s*\*?\s*(?:\w+\s*)?\{|ghost\s*(?:\w+\s*(?::\s*)?)?\{")
USE = re.compile(r"(?m)\buse ([^\s;{]+?)(?:\.\{([^}]*)\})?(?: as \S+)?;?$")
GHOST_USE = re.compile(r"ghost\s+use\b[^;]*;")
OTHER = """
at_first at_first_lem
by_rank by_rank_lem
call_rows call_rows_lem
numbers_of numbers_of_lem
owner_at owner_at_lem
released-in released_of
moved_in moved_of
left_by left_by_plan
"""


def snake(name):
    return re.sub(r"(?<=[a-z0-9])[A-Z]", lambda m: "_" + m[0].lower(), name).replace("-", "_")


def files(top, ends):
    for folder, dirs, names in os.walk(top):
        dirs[:] = sorted(d for d in dirs if d != "out")
        for name in sorted(names):
            if name.endswith(ends):
                yield os.path.join(folder, name)


def read(path):
    with open(path, encoding="utf-8") as f:
        return f.read()


def declared(texts):
    """The names that the texts declare, and those that the prover makes: what a proof file declares at `tie.NAME`."""
    names, made = set(), set()
    for text in texts:
        for line in text.split("\n"):
            if line.lstrip().startswith("--"):
                continue
            found = DECLARED.match(line)
            if found:
                names.add(found[1])
                made.update(re.findall(r"\b(?:tie|goal)\.(%s)(?= |$)" % re.escape(found[1]), line))
            names.update(m[1] for m in LET.finditer(line))
    return names, made


def lent(texts):
    """The names that the texts take from a library: these keep their spelling everywhere."""
    own, names = set(os.listdir("crates")), set()
    for text in texts:
        for path, items in USE.findall(text):
            steps = path.split(".")
            if steps[0] != "Rattle" or steps[1] not in own:
                names.update(WORD.findall(items) or steps[-1:])
    return names


def table_of(texts):
    names, made = declared(texts)
    made = made | lent(texts)
    other = dict(row.split() for row in OTHER.strip().split("\n"))
    table = {old: new for old, new in other.items() if old in names}
    groups = collections.defaultdict(list)
    for old in names - made - set(table):
        if old[0].islower() and ("-" in old or re.search(r"[a-z0-9][A-Z]", old)):
            groups[snake(old)].append(old)
    for new, olds in groups.items():
        plain = [old for old in olds if "-" not in old]
        taken = new in names and new not in table
        for old in olds:
            law = "-" in old and (plain or taken)
            table[old] = new + "_lem" if law else new
            if not law and taken:
                print(f"look: {old} and {new} fall together")
    for new, count in collections.Counter(table.values()).items():
        if count > 1:
            print("look: fall together:", new, [o for o in table if table[o] == new])
    for old, new in table.items():
        if new in names and new not in table:
            print("look: taken:", old, new)
    return table


def turned(text, table):
    def one(m):
        word = m[0]
        bare = word.rstrip("'")
        new = table.get(word) or (bare in table and table[bare] + word[len(bare):])
        if not new:
            return word
        if text[m.start() - 1 : m.start()] == "." and "-" in word:
            head = re.search(r'([^\s(){}.;,@"«»]+)\.$', text[: m.start()])
            if not head or not head[1][0].isupper():
                return word
        return new

    return WORD.sub(one, text)


def antt(text, table):
    """Names turn in comments, too."""
    return turned(text, table)


def closing(text, at):
    depth = 1
    while at < len(text) and depth:
        depth += {"{": 1, "}": -1}.get(text[at], 0)
        at += 1
    return at


def rt(text, table):
    out, at = [], 0
    pattern = re.compile(f"//[^\\n]*|\"(?:\\\\.|[^\"\\\\])*\"|{GHOST_USE.pattern}|{CLAUSE.pattern}")
    for m in pattern.finditer(text):
        if m.start() < at:
            continue
        out.append(text[at : m.start()])
        word = m[0]
        if word[:2] == "//":
            out.append(re.sub(r"`[^`\n]*`", lambda s: turned(s[0], table), word))
            at = m.end()
        elif word[0] == '"':
            out.append(word)
            at = m.end()
        elif word[-1] == "{":
            end = closing(text, m.end())
            out.append(word + turned(text[m.end() : end], table))
            at = end
        else:
            out.append(turned(word, table))
            at = m.end()
    return "".join(out) + text[at:]


def main():
    check = "--check" in sys.argv
    sources = list(files("crates", ".antt"))
    table = table_of([read(p) for p in sources])
    if check:
        for old in sorted(table):
            print(old, table[old], sep="\t")
        return
    for path in sources + list(files("crates", ".rt")):
        old = read(path)
        new = (antt if path.endswith(".antt") else rt)(old, table)
        if new != old:
            with open(path, "w", encoding="utf-8") as f:
                f.write(new)


if __name__ == "__main__":
    main()
