"""The must-fail edits as .ci/wrong-programs and .ci/try-wrong-programs read them, and the record of what the wrong programs did.

An edit of src/ holds wrong programs, and one of specs/ may hold wrong definitions: each is a line `wrong: NAME`, a line `fn: PATH` (the
function that does not meet its contract then) or, for a definition, `law: FILE.NAME` (the law of proofs/FILE.antt that is false then), a
line that says what is wrong, and its replacements. An edit of specs/ with one replacement and no `wrong:` line goes by the name of its file."""
import collections, glob, hashlib, os, re

from kit import read

TRIED = '.ci/wrong-programs.tried'

# file, old, new: a replacement of one place
Replacement = collections.namedtuple('Replacement', 'file old new')

# what: `fn` or `law`; unseen: why no run can show it, or ''
Wrong = collections.namedtuple('Wrong', 'crate label name what where unseen replacements')


def is_program(wrong):
    return all(r.file.startswith('src/') for r in wrong.replacements)


def is_definition(wrong):
    return all(r.file.startswith('specs/') for r in wrong.replacements)


def short_hash(text):
    return hashlib.sha256(text.encode()).hexdigest()[:12]


def text_of(wrong):
    """A hash of the replacements: another text is another program."""
    return short_hash('\n'.join(f'{r.file}\n{r.old}\n{r.new}' for r in wrong.replacements))


# a clause or a ghost item, up to its opening brace
CLAUSE = re.compile(r'\b(?:requires|ensures|invariant|decreases|ghost)\b\*?\s*(?:\w+\s*)*(?::\s*)?\{')


def closing(text, at):
    """Where the braces close that are open at a place."""
    depth = 1
    while at < len(text) and depth:
        depth += {'{': 1, '}': -1}.get(text[at], 0)
        at += 1
    return at


def code_of(text):
    """The words of a file's code: without comments, attributes, imports and clauses, which say nothing of what it does."""
    text = re.sub(r'//[^\n]*', '', text)
    text = re.sub(r'#!?\[(?:[^\[\]]|\[[^\[\]]*\])*\]', '', text)
    text = re.sub(r'(?m)^\s*(?:pub )?(?:ghost )?use\b[^;]*;', '', text)
    kept, at = [], 0
    while found := CLAUSE.search(text, at):
        kept.append(text[at : found.start()])
        at = closing(text, found.end())
    return re.findall(r'\w+|\S', ''.join(kept) + text[at:])


def source_of(crate):
    """A hash of the crate's code."""
    return short_hash('\n'.join(f'{path}\n{" ".join(code_of(read(path)))}' for path in sorted(glob.glob(f'crates/{crate}/src/**/*.rt', recursive=True))))


def replacements(edit):
    """The replacements of an edit and of each `wrong:` in it, read as rt reads them: [(fields, replacements)], the first before any."""
    groups, file, old = [({}, [])], '', ''
    for line in edit.split('\n'):
        key, colon, value = line.partition(':')
        value = value.removeprefix(' ')
        if not colon:
            continue
        if key == 'wrong':
            groups.append(({key: value}, []))
        elif key in ('fn', 'law', 'not seen'):
            groups[-1][0].setdefault(key, value)
        elif key == 'file':
            file = value
        elif key == 'old':
            old = value
        elif key == 'new':
            groups[-1][1].append(Replacement(file, old, value))
    return groups


def edits(crate):
    """The crate's edits: the name of each, the replacements that stand under no `wrong:`, its wrong programs and definitions, and faults."""
    for path in sorted(glob.glob(f'crates/{crate}/must-fail/*.edit')):
        label = os.path.basename(path)[:-5]
        (_, loose), *groups = replacements(read(path))
        wrongs, faults = [], []
        for fields, changes in groups:
            what = 'fn' if 'fn' in fields else 'law'
            wrong = Wrong(crate, label, fields['wrong'], what, fields.get(what, ''), fields.get('not seen', ''), changes)
            wrongs.append(wrong)
            if not wrong.where or not changes or not (is_definition(wrong) or what == 'fn' and is_program(wrong)):
                faults.append(f'{crate}/{label}: {wrong.name} is no wrong program (fn: and replacements in src/) nor definition (law: or fn:, and specs/)')
        if any(not r.file.startswith('specs/') for r in loose):
            faults.append(f'{crate}/{label}: a replacement outside specs/ that names no wrong program and its function')
        elif len(loose) > 1 or (loose and wrongs):
            faults.append(f'{crate}/{label}: several replacements in specs/, and not each names what is wrong and the law that is false then')
        yield label, loose, wrongs, faults


def wrong_programs(crate):
    return [wrong for _, _, wrongs, _ in edits(crate) for wrong in wrongs if is_program(wrong)]


def key_of(wrong):
    return f'{wrong.crate}/{wrong.label} {wrong.name} {wrong.where}'


def tried():
    """What the record has: by crate, edit, name and function, the hashes of replacement and source, and what was seen."""
    record = {}
    for line in read(TRIED).split('\n') if os.path.exists(TRIED) else []:
        words = line.split(' ', 5)
        if len(words) == 6 and not line.startswith('#'):
            record[' '.join(words[:3])] = tuple(words[3:])
    return record
