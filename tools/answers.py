#!/usr/bin/env python3
"""Turns proofs of functions that fill in the prover's table of goals (`proofs/F/Proof.antt` over `Tie`) into `Invariants.antt` and `Answers.antt`.

usage: tools/answers.py CRATE [FUNCTION..]     at the top of the repository; a function by its folder below proofs/

`rt check --generated DIR --old-names` says how the goals, the places and their fields were called and are called; the rest is the text of the proof. Answers that only search are
left out, for the prover searches by itself. What an invariant names goes into Invariants.antt with `pub`. A file that walks the code by hand stays.
"""
import json
import os
import re
import subprocess
import sys
import tempfile

WORD = re.compile(r'[^\s(){}.;,@"«»\[\]]+')
SEARCHES = re.compile(r"^(?:Prim\.)?search (?:rules|\(rules\))$")


def plain(name):
    """How names of different kits are compared."""
    name = name.replace("_", "-")
    return re.sub(r"^(?:overflow|nonzero)-", "", name)


def names_of(crate):
    with tempfile.TemporaryDirectory() as to:
        run = subprocess.run(["rt", "check", "--generated", to, "--old-names"], cwd=f"crates/{crate}", capture_output=True, text=True)
        path = os.path.join(to, "names.json")
        if not os.path.exists(path):
            sys.exit(f"answers: {crate}: no names: " + (run.stdout + run.stderr)[-1500:])
        with open(path, encoding="utf-8") as f:
            return json.load(f)


class Names:
    def __init__(self, made):
        self.needs = {}
        for old, new in made["needs"]:
            self.needs[plain(old)] = new
            self.needs.setdefault(plain(new), new)
        self.places = {}
        for (old, _, _, _, _), new in zip(made["places"], made["places_by_name"]):
            self.places.setdefault(plain(old), new)
        self.fields = {}
        for _, _, (old, new), _, _ in made["places"]:
            if old:
                self.fields.setdefault(plain(old), []).append(new)
        self.loops = {plain(old): (new, live, changed) for ((old, new), live), changed in zip(made["loops"], made["changed"])}
        self.args = [(a.replace(" ", ""), b.replace(" ", "")) for a, b in made["args"]]


def blocks_of(text):
    """The header, the imports and the blocks; a block is what stands between lines that begin at the left and are no clause of the same name."""
    lines = text.split("\n")
    at, head, uses = 0, [], []
    while at < len(lines) and (not lines[at].strip() or lines[at].startswith("--")):
        head.append(lines[at])
        at += 1
    while at < len(lines) and (not lines[at].strip() or lines[at].startswith("use ")):
        if lines[at].strip():
            line = lines[at]
            while line.count("{") > line.count("}"):
                at += 1
                line += " " + lines[at].strip()
            uses.append(line)
        at += 1
    parts, now = [], []
    for line in lines[at:]:
        if not line.strip() and now and not now[-1].strip():
            continue
        if line.strip() and not line.startswith((" ", "\t")) and now and not now[-1].strip():
            parts.append("\n".join(now).strip("\n"))
            now = []
        now.append(line)
    if "\n".join(now).strip():
        parts.append("\n".join(now).strip("\n"))
    return [h for h in head if h.strip()], uses, parts


def code_of(block):
    return "\n".join(l for l in block.split("\n") if not l.lstrip().startswith("--"))


def declared(block):
    names = []
    for line in code_of(block).split("\n"):
        m = re.match(r'^ *(?:(?:pub|abbrev|unfoldable) )*([^\s(){}.;,@"«»]+)(?: \{[^{}\n]*\})*(?: \([^()\n]*\))* :(?: |$)', line)
        if m:
            names.append(m[1])
        m = re.match(r"^ *(?:pub )?(?:record|data) (\S+)", line)
        if m:
            names.append(m[1])
    return names


def uses_of(text):
    code = code_of(text)
    return set(WORD.findall(code)) | set(re.findall(r"\[\]", code))


def filtered(uses, text):
    """The imports that the text needs."""
    have, out = uses_of(text), []
    for line in uses:
        m = re.match(r"use (\S+)\.\{(.*)\}$", line)
        if not m:
            alias = re.search(r" as (\S+)$", line)
            name = alias[1] if alias else line.split(".")[-1]
            if name in have or any(w == name for w in have):
                out.append(line)
            continue
        items = [i.strip() for i in m[2].split(",") if i.strip()]

        def wanted(item):
            name = item.split(" as ")[-1]
            if "◌" in name:
                parts = [p for p in name.split("◌") if p]
                return all(any(p == w or p in w for w in have) for p in parts)
            return name in have

        kept = [i for i in items if wanted(i)]
        if kept:
            out.append(f"use {m[1]}.{{{', '.join(kept)}}}")
    return out


def public(block):
    """The block with `pub` on what it declares."""
    out, record = [], None
    for line in block.split("\n"):
        stripped = line.lstrip()
        indent = len(line) - len(stripped)
        if stripped.startswith("--") or not stripped:
            out.append(line)
            continue
        m = re.match(r"^(record|data) ", stripped)
        if m:
            out.append(" " * indent + "pub " + stripped)
            record = indent if m[1] == "record" else None
            continue
        if record is not None and indent > record and re.match(r"^[^\s(){}.;,]+ :", stripped):
            out.append(" " * indent + "pub " + stripped)
            continue
        if record is not None and indent <= record:
            record = None
        m = re.match(r'^(abbrev|unfoldable) (?!pub )([^\s(){}.;,@"«»]+.* :(?: |$).*)', stripped)
        if m:
            out.append(" " * indent + f"{m[1]} pub {m[2]}")
            continue
        m = re.match(r'^([^\s(){}.;,@"«»]+)(?: \{[^{}\n]*\})*(?: \([^()\n]*\))* :(?: |$)', stripped)
        if m and record is None and not stripped.startswith(("pub ", "module ", "unfolding ")):
            out.append(" " * indent + "pub " + stripped)
            continue
        out.append(line)
    return "\n".join(out)


class Turner:
    def __init__(self, names, said):
        self.names, self.said, self.at, self.renamed = names, said, set(), {}

    def body(self, text, places=("c",), goal=""):
        """A clause's text: places are the variables that hold a place of the code."""
        for old, new in self.names.args:
            text = re.sub(re.escape(old) + r"(?![\w₀-₉'-])", new, text)
        text = re.sub(r'(?<![^\s(){},;@"«»\[\]])([^\s(){}.;,@"«»\[\]]+)', lambda m: self.renamed.get(m[1], m[1]), text)
        places = set(places) | set(re.findall(r"\((\w+) : tie\.(?!Need)", text))
        lets = re.findall(r"\blet (\S+) = (\w+)((?:\.before)*) in\b", text)
        for name, of, _ in lets:
            if of in places:
                places.add(name)
        kept = {n for n, _, _ in lets if re.search(rf'(?<![^\s(){{}},;@"«»\[\]]){re.escape(n)}(?![^\s(){{}},;@"«»\[\]])(?! =)', text)}
        for name, of, _ in reversed(lets):
            if name in kept:
                kept.add(of)
        for name, of, chain in lets:
            if of in places and chain and name not in kept:
                text = text.replace(f"let {name} = {of}{chain} in", f"let {name} = {of} in")
        last = {old.split(".")[-1]: new.split(".")[-1] for old, new in self.names.args if old.startswith(".args.")}

        def path(m):
            steps = m[0].split(".")
            if steps[0] in places:
                rest = [x for x in steps[1:]]
                n = 0
                while n < len(rest) and rest[n] == "before":
                    n += 1
                if n < len(rest):
                    first = rest[n]
                    news = self.names.fields.get(plain(first))
                    arm = re.search(r"-(in-\w+)$", goal) if first == "match" and re.match(r"keys\d", (rest[n + 1 :] or [""])[0]) else None
                    if arm:
                        return ".".join([steps[0], arm[1], "is"] + rest[n + 2 :])
                    arm = re.search(r"-in-([A-Za-z]\w*)", goal) if rest[n + 1 : n + 3] == ["given", "1"] else None
                    if arm:
                        return ".".join([steps[0], "in-" + arm[1], "is"] + rest[n + 3 :])
                    if first == "well-formed":
                        first = "well_formed"
                    elif news:
                        if len(set(news)) > 1:
                            self.said.append(f"field {first} is one of {sorted(set(news))}")
                        first = news[0]
                    steps = [steps[0], first] + rest[n + 1 :]
            steps = ["type_inv" if x == "type-inv" else x for x in steps]
            return ".".join(last[x] if k and re.fullmatch(r"t\d+", x) and x in last else x for k, x in enumerate(steps))

        text = re.sub(r'(?<![^\s(){},;@"«»\[\]])[^\s(){}.;,@"«»\[\]]+(?:\.[^\s(){}.;,@"«»\[\]]+)+', path, text)

        def place(m):
            name = m[1]
            new = self.names.places.get(plain(name))
            if new and not name.startswith("Need-"):
                self.at.add(new)
                return new
            if name.startswith("Need-"):
                new = self.names.needs.get(plain(name[5:]))
            if not new:
                self.said.append(f"no place or goal for {name}")
                new = name
            return f"goal.{new}"

        return re.sub(r"\btie\.([^\s()]+)((?: (?:invariant|decreases)-[^\s()]+)*)", place, text)


def instance(block, names, said):
    """An invariant or a measure as a function of the record of live variables."""
    comments = [l for l in block.split("\n") if l.startswith("--")]
    code = code_of(block)
    m = re.match(r"(?:pub )?abbrev (?:pub )?(invariant|decreases)-(\S+) : tie\.\S+\n(?:unfolding [^\n]*\n)?", code)
    kind, loop = m[1], m[2]
    new, live, changed = names.loops.get(plain(loop), (None, None, None))
    if not new:
        said.append(f"no loop {loop}")
        return block
    clause = code[m.end() :]
    head, body = clause.split("=", 1)
    params = head.split()[1:]
    want = len(live) + sum(changed)
    if len(params) != want:
        said.append(f"loop {loop}: {len(params)} parameters, and {want} expected: {params} {live} {changed}")
    terms, at = {}, 0
    for name, moves in zip(live, changed):
        if at < len(params):
            terms[params[at]] = f"l.initial.{name}" if moves else f"l.{name}"
        at += 1
    for name, moves in zip(live, changed):
        if moves:
            if at < len(params):
                terms[params[at]] = f"l.{name}"
            at += 1
    terms.pop("_", None)
    body = re.sub(r'(?<![^\s(){};,@"«»\[\]])([^\s(){}.;,@"«»\[\]]+)', lambda w: terms.get(w[1], w[1]), body)
    lines = comments + [f"abbrev pub {kind}-{new} : goal.{kind}-{new}", f"{kind}-{new} l ={body}"]
    unfolding = re.search(r"\nunfolding [^\n]*", code[: m.end()])
    if unfolding:
        lines.insert(len(comments) + 1, unfolding[0].strip())
    return "\n".join(lines)


def answer(block, turner, said):
    """An answer under the goal's name of today, or None where it only searches or nothing asks for it."""
    comments = [l for l in block.split("\n") if l.startswith("--")]
    code = code_of(block)
    m = re.match(r"(\S+) : tie\.Need-(\S+)[^\n]*\n((?:unfolding [^\n]*\n)?)", code)
    name, need, unfolding = m[1], m[2], m[3]
    new = turner.names.needs.get(plain(need))
    clauses = code[m.end() :]
    body = clauses.split("=", 1)[1].strip() if "=" in clauses else ""
    if SEARCHES.match(body) or re.search(r"\.match\.rest", body) or re.match(r"simp length-map at c\.well-formed", body):
        return None, name, new
    if not new:
        said.append(f"nothing asks for {need} now")
        return None, name, None
    out = []
    for line in clauses.split("\n"):
        if line.startswith(name + " "):
            line = new + line[len(name) :]
        out.append(line)
    clauses = "\n".join(out)
    clauses = re.sub(rf"^({re.escape(new)} \S+)(?: κs\S*)(?: =|(?= ))", lambda k: k[1] + (" =" if k[0].endswith("=") else ""), clauses)
    if "κ" in clauses:
        said.append(f"{new} names lifetimes")
    head, rest = re.split(r" =(?=\s)", clauses, maxsplit=1)
    clauses = f"{head} =" + turner.body(rest, (head.split()[1],), new)
    return "\n".join(comments + [f"pub {new} : goal.{new}"] + ([unfolding.strip()] if unfolding else []) + [clauses]), name, new


def turn(crate, folder, made):
    path = f"crates/{crate}/proofs/{folder}/Proof.antt"
    with open(path, encoding="utf-8") as f:
        text = f.read()
    if "tie." not in text:
        return
    said = []
    names = Names(made)
    turner = Turner(names, said)
    head, uses, parts = blocks_of(text)
    dots = folder.replace("/", ".")
    uses = [u for u in uses if not re.search(r"\.(?:Tie as tie|Statement\.\{statement\})$", u)]
    given, answers, helpers, renamed = [], [], [], {}
    for block in parts:
        m = re.match(r"(\S+) : tie\.Need-(\S+)", code_of(block))
        if m and names.needs.get(plain(m[2])):
            turner.renamed[m[1]] = names.needs[plain(m[2])]
    for block in parts:
        code = code_of(block)
        if re.match(r"(?:pub )?abbrev (?:pub )?(?:invariant|decreases)-\S+ : tie\.", code):
            given.append(instance(block, names, said))
        elif re.match(r"\S+ : tie\.Need-", code):
            made_of, old, new = answer(block, turner, said)
            if made_of:
                answers.append(made_of)
            if new:
                renamed[old] = new
        elif re.match(r"(?:pub )?\S+[-_]spec : ", code) and "tie." in code:
            continue
        else:
            block = re.sub(r"= simp length-map at c\.well-formed\S*", "= search rules", block)
            helpers.append((len(answers), block))
    # what invariants name, and what that names
    needed, moved = uses_of("\n".join(given)), []
    again = True
    while again:
        again = False
        for it in helpers:
            if it not in moved and needed.intersection(declared(it[1])):
                moved.append(it)
                needed |= uses_of(it[1])
                again = True
    moved = [it for it in helpers if it in moved]
    kept = [it for it in helpers if it not in moved]
    folder_path = os.path.dirname(path)
    if given:
        body = "\n\n".join([public(turner.body(b)) for _, b in moved] + given)
        top = [*head, *filtered(uses, body), f"use Rattle.{crate}.proofs.{dots}.Given as goal"]
        with open(os.path.join(folder_path, "Invariants.antt"), "w", encoding="utf-8") as f:
            f.write("\n".join(top) + "\n\n" + body + "\n")
    out, at = [], 0
    for n, made_of in enumerate(answers + [None]):
        out += [turner.body(b) for k, b in kept if k == n]
        if made_of:
            out.append(made_of)
    body = "\n\n".join(out)
    if answers:
        pub = [n for _, b in moved for n in declared(public(b))]
        pub = [n for n in dict.fromkeys(pub) if n in uses_of(body) and not re.search(rf"(?m)^ +pub {re.escape(n)} :", "\n".join(public(b) for _, b in moved if re.match(r"(?:pub )?record", code_of(b))))]
        top = [*(head if not given else []), *filtered(uses, body)]
        if pub:
            top.append(f"use Rattle.{crate}.proofs.{dots}.Invariants.{{{', '.join(pub)}}}")
        top.append(f"use Rattle.{crate}.proofs.{dots}.Goals as goal")
        if turner.at:
            top.append(f"use Rattle.{crate}.proofs.{dots}.Goals.{{{', '.join(sorted(turner.at))}}}")
        with open(os.path.join(folder_path, "Answers.antt"), "w", encoding="utf-8") as f:
            f.write("\n".join(top) + "\n\n" + body + "\n")
    os.remove(path)
    for line in said:
        print(f"{crate}/{folder}: {line}")


def main():
    crate, only = sys.argv[1], sys.argv[2:]
    made = names_of(crate)
    done = 0
    for key, value in sorted(made.items()):
        m = re.match(rf"Rattle-{crate}-proofs\.(.+)\.Lts$", key)
        if not m:
            continue
        folder = m[1].replace(".", "/")
        if only and folder not in only:
            continue
        if os.path.exists(f"crates/{crate}/proofs/{folder}/Proof.antt"):
            turn(crate, folder, value)
            done += 1
    print(f"answers: {crate}: {done} proofs")


if __name__ == "__main__":
    main()
