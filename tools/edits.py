#!/usr/bin/env python3
"""The must-fail edits of the repository, brought over to the text as it is now.

usage: tools/edits.py                   at the top of the repository: says of each edit whether it can be applied: each old text stands once, in turn
       tools/edits.py turn OLD FOLDER   writes the edits of the commit OLD as they read today. FOLDER is for copies, and is kept: in each copy as many of the wrong
                                        programs and definitions of OLD are put in as fit, the kit's port.py and tools/respell.py turn all of it, and what
                                        differs from a copy with none is what the edit has to say. What needs a hand is printed, and stays as it was

A text that an edit names is the shortest that has the change, what the old edit named about it, and as much of its line as it takes to stand once.
"""
import collections
import difflib
import glob
import os
import re
import shutil
import subprocess
import sys

sys.dont_write_bytecode = True
sys.path.insert(0, os.path.dirname(os.path.abspath(__file__)))
import respell

PORT = "/opt/rattle/port/port.py"
MOVED = {"log": "logs"}
# words of a library that read otherwise now
WORDS = {"getD": "get_or", "negℤ": "neg_ℤ", "subℕ": "sub_ℕ"}
TOKEN = re.compile(r"\s+\.(?=\w)|\w+|\S")

# one replacement of an edit: `at` is the number of its line `old:`, `group` the number of its `wrong:` in the edit
Pair = collections.namedtuple("Pair", "crate label group file old new at")


def read(path):
    with open(path, encoding="utf-8") as file:
        return file.read()


def write(path, text):
    with open(path, "w", encoding="utf-8") as file:
        file.write(text)


def pairs_of(crate, label, text):
    file = old = at = None
    group = 0
    for number, line in enumerate(text.split("\n")):
        group += line.startswith("wrong: ")
        if line.startswith("file: "):
            file = line[6:].strip()
        elif line.startswith("old: "):
            old, at = line[5:], number
        elif line.startswith("new:"):
            yield Pair(crate, label, group, file, old, line[4:].removeprefix(" "), at)


def edits(top):
    """The edits below a folder: crate, label, text."""
    for path in sorted(glob.glob(f"{top}/crates/*/must-fail/*.edit")):
        yield path.split("/")[-3], os.path.basename(path)[:-5], read(path)


def check(top="."):
    """Says what cannot be applied, and counts."""
    count, bad = 0, 0
    for crate, label, text in edits(top):
        texts = {}
        for pair in pairs_of(crate, label, text):
            count += 1
            path = f"{top}/crates/{crate}/{pair.file}"
            now = texts[pair.file] if pair.file in texts else read(path) if os.path.exists(path) else ""
            if now.count(pair.old) != 1 or pair.old == pair.new:
                bad += 1
                print(f"edits: {crate}/{label}.edit:{pair.at + 1}: stands {now.count(pair.old)} times in {pair.file}: {pair.old}")
            texts[pair.file] = now.replace(pair.old, pair.new)
        for name, law in laws(text):
            path = f"{top}/crates/{crate}/proofs/{law.rpartition('.')[0]}.antt"
            if not os.path.exists(path) or not re.search(rf"(?m)^ *(?:(?:pub|abbrev|unfoldable) )*(?:\S+ )*{re.escape(law.rpartition('.')[2])} ", read(path)):
                bad += 1
                print(f"edits: {crate}/{label}.edit: {name}: no law {law}")
    print(f"edits: {count} replacements in {len(list(edits(top)))} edits, {bad} bad")
    return bad


def laws(text):
    name = ""
    for line in text.split("\n"):
        if line.startswith("wrong: "):
            name = line[7:]
        if line.startswith("law: "):
            yield name, line[5:].strip()


# The copies.


def run(*words, where, **more):
    return subprocess.run(words, cwd=where, check=True, stdout=subprocess.PIPE, text=True, **more).stdout


def copy_of(commit, folder, keeps_proofs):
    os.makedirs(folder)
    archive = subprocess.run(["git", "archive", commit, "crates", "crates.txt"], check=True, stdout=subprocess.PIPE).stdout
    subprocess.run(["tar", "x", "-C", folder], input=archive, check=True)
    for path in [] if keeps_proofs else glob.glob(f"{folder}/crates/*/proofs"):
        shutil.rmtree(path)


def turn_copy(folder):
    run("git", "init", "-q", where=folder)
    run("git", "add", "-A", where=folder)
    run("git", "-c", "user.name=x", "-c", "user.email=x", "commit", "-qm", "before", where=folder)
    write(f"{folder}/said", run(sys.executable, PORT, where=folder))


def turned_copy(name, commit, folder, fill=None, table=None):
    """A copy, turned; `fill` changes it first."""
    top = f"{folder}/{name}"
    if not os.path.exists(f"{top}/done"):
        shutil.rmtree(top, ignore_errors=True)
        copy_of(commit, top, table is None)
        if fill:
            fill(top)
        turn_copy(top)
        for path in respell.files(f"{top}/crates", (".antt", ".rt")) if table is not None else ():
            write(path, (respell.antt if path.endswith(".antt") else respell.rt)(read(path), table))
        write(f"{top}/done", "")
    return top


def table_of(top):
    back = os.getcwd()
    os.chdir(top)
    table = respell.table_of([read(p) for p in respell.files("crates", ".antt")])
    os.chdir(back)
    return table


# The rounds: groups of pairs that change no lines near one another.


def places(top, group):
    """The line of each pair of a group in the text that has none, and the texts with all of them."""
    texts, lines = {}, []
    for pair in group:
        path = f"{top}/crates/{pair.crate}/{pair.file}"
        now = texts.setdefault(path, read(path))
        assert now.count(pair.old) == 1, pair
        lines.append((path, now.count("\n", 0, now.index(pair.old))))
        texts[path] = now.replace(pair.old, pair.new)
    return lines, texts


def rounds_of(top, groups):
    rounds = []
    for group in groups:
        lines, _ = places(top, group)
        for taken, members in rounds:
            if all(abs(line - other) > 3 for path, line in lines for other in taken[path]):
                break
        else:
            taken, members = collections.defaultdict(list), []
            rounds.append((taken, members))
        for path, line in lines:
            taken[path].append(line)
        members.append(group)
    return [members for _, members in rounds]


def put_in(top, groups):
    for group in groups:
        for path, text in places(top, group)[1].items():
            write(path, text)


# What differs.


def tokens(text):
    """The tokens of a text, with their places; a dot after a blank is another than one that stands tight."""
    return [(" ." if m[0][-1] == "." and len(m[0]) > 1 else m[0], m.end() - 1 if m[0][-1] == "." else m.start(), m.end()) for m in TOKEN.finditer(text)]


def matcher(a, b):
    return difflib.SequenceMatcher(None, a, b, autojunk=False)


def blocks(old, new):
    """The runs of lines that differ: the first and the last of the old ones, and both texts."""
    a, b = old.split("\n"), new.split("\n")
    found = []
    for what, i, j, k, l in matcher(a, b).get_opcodes():
        if what != "equal":
            # (lines put in, or taken out, go with the line before them)
            i, k = (i - 1, k - 1) if i == j or k == l else (i, k)
            found.append((i, j, "\n".join(a[i:j]), "\n".join(b[k:l])))
    return found


def words_turned(text, table):
    """A text, each word turned by itself: names of the repository, and those of a library that read otherwise now."""
    text = respell.turned(text, table | WORDS)
    return re.sub(r"(?<![\w'-])[a-z]\w*[a-z0-9][A-Z]\w*", lambda m: respell.snake(m[0]), text)


def plain(line, table):
    """A line for comparing the text of the two forms: its words alone, turned."""
    return " ".join(re.findall(r"\w+", words_turned(line, table)))


def line_map(old, new, table):
    """Where each line of the old form stands in the new one."""
    a, b = [plain(l, table) for l in old.split("\n")], [plain(l, table) for l in new.split("\n")]
    there = {}
    for what, i, j, k, l in matcher(a, b).get_opcodes():
        for n in range(i, j):
            there[n] = k + (n - i if what == "equal" else (n - i) * (l - k) / max(1, j - i))
    return there


def spot(text, wanted, table):
    """The part of a text that has the words of an old edit's text: (start, end), or None."""
    words = re.findall(r"\w+", words_turned(wanted, table))
    found = [(m[0], m.start(), m.end()) for m in re.finditer(r"\w+", text)]
    alike = [b for b in matcher(words, [f[0] for f in found]).get_matching_blocks() if b.size]
    if not alike:
        return None
    start, end = found[alike[0].b][1], found[alike[-1].b + alike[-1].size - 1][2]
    before, after = re.match(r"\W*", wanted)[0], re.search(r"\W*$", wanted)[0]
    start -= len(before) if text[:start].endswith(before) else 0
    end += len(after) if text[end:].startswith(after) else 0
    return start, end


def change(old, new, pair, table):
    """The shortest old and new text that has all of the change, and what the edit named about it."""
    a, b = tokens(old), tokens(new)
    steps = [s for s in matcher([t[0] for t in a], [t[0] for t in b]).get_opcodes() if s[0] != "equal"]
    if not steps:
        return None
    # the numbers of tokens before the change and behind it, which are the same in both
    first, last = steps[0][1], len(a) - steps[-1][2]
    named = spot(old, pair.old, table)
    if named:
        first = min([first] + [n for n, t in enumerate(a) if t[2] > named[0]][:1])
        last = min([last] + [len(a) - 1 - n for n, t in enumerate(a) if t[1] < named[1]][-1:])
    if first == min(len(a), len(b)) - last:
        # (what is put in, or taken out, goes with the word before it, or behind)
        first, last = (first - 1, last) if first else (first, last - 1)

    def cut(text, marks):
        return text[marks[first][1] : marks[len(marks) - last - 1][2]]

    # (and the brackets that go with it)
    while first and a[first - 1][0] == "(" and unclosed(cut(old, a)) < 0:
        first -= 1
    while last and a[len(a) - last][0] == ")" and unclosed(cut(old, a)) > 0:
        last -= 1
    return cut(old, a), cut(new, b)


def unclosed(text):
    """How many brackets a text leaves open; below 0, how many it closes that it does not open."""
    depth = low = 0
    for c in text:
        depth += (c in "([{") - (c in ")]}")
        low = min(low, depth)
    return low or depth


def one_line(text):
    text = re.sub(r"(?<=[(\[])\s*\n\s*", "", text)
    return re.sub(r"\s*\n\s*", " ", re.sub(r",?\s*\n\s*(?=[)\]])", "", text))


def once(text, old, new, block):
    """The pair, with as much of its line as it takes that the old text stands once."""
    if text.count(old) == 1:
        return old, new
    lines = [l for l in block.split("\n") if old in l]
    if "\n" in old or len(lines) != 1:
        return None
    line = lines[0].strip()
    at = line.index(old)
    before, after = line[:at], line[at + len(old) :]
    tails = [m.end() for m in re.finditer(r"\s*\S+", after)]
    heads = [m.start() for m in re.finditer(r"\S+\s*", before)][::-1]
    for head, tail in sorted(((h, t) for h in [len(before), *heads] for t in [0, *tails]), key=lambda p: len(before) - p[0] + p[1]):
        longer = before[head:] + old + after[:tail]
        if text.count(longer) == 1:
            return longer, before[head:] + new + after[:tail]
    return None


def turn(commit, folder):
    folder = os.path.abspath(folder)
    os.makedirs(folder, exist_ok=True)
    was = f"{folder}/was"
    if not os.path.exists(was):
        copy_of(commit, was, True)
    table = table_of(turned_copy("names", commit, folder))
    none = turned_copy("none", commit, folder, table=table)
    groups = collections.defaultdict(list)
    for crate, label, text in edits(was):
        for pair in pairs_of(crate, label, text):
            groups[crate, label, pair.group].append(pair)
    found, todo = {}, []
    rounds = rounds_of(was, list(groups.values()))
    for number, members in enumerate(rounds):
        top = turned_copy(f"round{number}", commit, folder, lambda top: put_in(top, members), table)
        by_file = collections.defaultdict(list)
        for group in members:
            for pair, (path, line) in zip(group, places(was, group)[0]):
                by_file[pair.crate, pair.file].append((line, pair))
        for (crate, file), some in by_file.items():
            differing(f"crates/{crate}/{file}", was, none, top, sorted(some, key=lambda s: s[0]), table, found, todo)
    for pair in todo:
        print(f"edits: by hand: {pair.crate}/{pair.label}.edit:{pair.at + 1}: {pair.file}: {pair.old} => {pair.new}")
    rewrite(was, found, table)
    compare(was, none, folder, rounds)


def compare(was, none, folder, rounds):
    """Says where the edits as they read today do not make of the copy with none what the kit's script made of the old ones."""
    today = {}
    for crate, label, text in edits(was):
        here = read(f"crates/{MOVED.get(crate, crate)}/must-fail/{label}.edit")
        today.update(zip(pairs_of(crate, label, text), pairs_of(crate, label, here)))
    for number, members in enumerate(rounds):
        texts = {}
        for group in members:
            for pair in group:
                path, now = f"crates/{pair.crate}/{pair.file}", today[pair]
                text = texts.setdefault(path, read(f"{none}/{path}"))
                if text.count(now.old) != 1:
                    print(f"edits: look: {pair.crate}/{pair.label}.edit:{now.at + 1}: stands {text.count(now.old)} times in the copy with none")
                texts[path] = text.replace(now.old, now.new)
        for path, text in texts.items():
            if not same(text, read(f"{folder}/round{number}/{path}")):
                print(f"edits: look: {path} of round{number} is another by today's edits")


def same(one, other):
    """Whether two texts differ in layout alone."""
    first, second = ([t[0] for t in tokens(re.sub(r",(?=\s*[)\]}])", "", text))] for text in (one, other))
    return first == second


def word_by_word(pairs, old, new, table):
    """The pairs, each word turned by itself, if that makes of the lines what the kit's script made of them."""
    found = []
    for pair in pairs:
        texts = (re.sub(r"\(([\w']+(?:\.\w+)+)\)", r"\1", re.sub(r"\s+\.(?=[a-z])", ".", words_turned(text, table))) for text in (pair.old, pair.new))
        found.append(tuple(texts) if pair.file.endswith(".antt") else (pair.old, pair.new))
        if old.count(found[-1][0]) != 1:
            return None
        old = old.replace(*found[-1])
    return found if same(old, new) else None


def differing(path, was, none, top, some, table, found, todo):
    """Finds what each pair of a file became: the old text, the new one, and the lines that differ."""
    old, new = read(f"{none}/{path}"), read(f"{top}/{path}")
    there = line_map(read(f"{was}/{path}"), old, table)
    parts, mine = blocks(old, new), collections.defaultdict(list)
    for line, pair in some:
        away = [max(part[0] - there[line], there[line] - part[1] + 1, 0) for part in parts]
        near = min(away, default=9)
        if near > 2 or away.count(near) != 1:
            todo.append(pair)
        else:
            mine[parts[away.index(near)]].append(pair)
    for (_, _, one, other), pairs in mine.items():
        texts = word_by_word(sorted(pairs, key=lambda p: p.at), one, other, table)
        texts = texts or [len(pairs) == 1 and change(one, other, pairs[0], table)]
        if not texts[0]:
            todo.extend(pairs)
        else:
            found.update({pair: (*both, one) for pair, both in zip(sorted(pairs, key=lambda p: p.at), texts)})


def rewrite(was, found, table):
    for crate, label, text in edits(was):
        lines, now = text.split("\n"), {}
        for pair in pairs_of(crate, label, text):
            path = f"crates/{MOVED.get(crate, crate)}/{pair.file}"
            now.setdefault(path, read(path))
            if pair not in found:
                continue
            old, new, block = found[pair]
            both = once(now[path], old, one_line(new), block)
            if not both:
                print(f"edits: by hand: {crate}/{label}.edit:{pair.at + 1}: stands {now[path].count(old)} times: {old} => {new}")
                continue
            lines[pair.at], lines[pair.at + 1] = "old: " + both[0], "new: " + both[1]
            now[path] = now[path].replace(*both)
        for n, line in enumerate(lines):
            if line.startswith("law: "):
                head, _, name = line[5:].rpartition(".")
                name = respell.turned(name, table)
                lines[n] = f"law: {head}.{respell.turned(respell.snake(name), table) if '-' in name else name}"
            elif not line.startswith(("old: ", "new:", "file: ", "fn: ", "wrong: ")):
                lines[n] = respell.turned(re.sub(r"\bof log\b", "of logs", line) if crate == "log" else line, table)
        write(f"crates/{MOVED.get(crate, crate)}/must-fail/{label}.edit", "\n".join(lines))


def main():
    if sys.argv[1:2] == ["turn"] and len(sys.argv) == 4:
        turn(*sys.argv[2:])
    elif len(sys.argv) > 1:
        raise SystemExit(__doc__)
    raise SystemExit(1 if check() else 0)


if __name__ == "__main__":
    main()
