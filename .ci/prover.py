"""Runs the prover on a crate with some text changed, over what `rt check` proved of the crate as it stands."""
import hashlib, os, re, shutil, tempfile, threading

from kit import HOME, as_built, below, files_of, is_static, output, read, root_file

SAID = 'target/wrong-programs'


class Unjudged(Exception):
    """The prover gave no verdict; with what it said."""


def changed_texts(crate, replacements):
    """The crate's files that some replacements change, as they are then."""
    texts = {}
    for r in replacements:
        if r.file not in texts:
            texts[r.file] = read(f'crates/{crate}/{r.file}')
        if texts[r.file].count(r.old) != 1:
            raise Unjudged(f'{r.old!r} stands {texts[r.file].count(r.old)} times in {r.file}')
        texts[r.file] = texts[r.file].replace(r.old, r.new)
    return texts


def linked(one, other):
    """A second name, where the disk allows it: the prover replaces a file of kept work, and changes none."""
    try:
        return os.link(one, other) if one.endswith('.oantt') else shutil.copy2(one, other)
    except OSError:
        return shutil.copy2(one, other)


def key_of(crate, texts, only):
    """A hash of all that the prover goes by."""
    known = hashlib.sha256(repr((read(f'{HOME}/KIT-ID'), crate, sorted(texts.items()), only, read('crates.txt'))).encode())
    for name in (*below(crate), crate):
        for path in files_of(name):
            known.update(f'{path}\n{read(path)}'.encode())
    return known.hexdigest()


def said_of(crate, replacements, only=None):
    """What the prover says of the crate with the replacements; of one function alone where `only` names it. Where it is proved, ''."""
    texts = changed_texts(crate, replacements)
    kept = f'{SAID}/{crate}-{key_of(crate, texts, only)}'
    if os.path.exists(kept):
        return read(kept)
    words = [f'{HOME}/bin/rattle', 'check', '--crate-name', crate, root_file(f'crates/{crate}').removeprefix(f'crates/{crate}/'), *as_built(crate)]
    words += ['--antt-project', f'{HOME}/rattle/logic/antt-project.json', '--logic-built', f'{HOME}/logic_built', '--jobs', '1', '--links', f'{crate}=']
    words += ['--crate-type', 'staticlib'] * is_static(crate) + ['--only', only] * bool(only) + ['--incremental', 'kept']
    # a run that is killed, for memory most likely, is run again
    for _ in range(2):
        with tempfile.TemporaryDirectory(prefix='vradomil-') as room:
            for part in ('src', 'specs', 'proofs'):
                if os.path.isdir(f'crates/{crate}/{part}'):
                    shutil.copytree(f'crates/{crate}/{part}', f'{room}/{part}')
            if os.path.isdir(f'crates/{crate}/out/incremental'):
                shutil.copytree(f'crates/{crate}/out/incremental', f'{room}/kept', symlinks=True, copy_function=linked)
            for path, text in texts.items():
                with open(f'{room}/{path}', 'w', encoding='utf-8') as file:
                    file.write(text)
            run = output(*words, cwd=room)
        if run.returncode >= 0:
            break
    said = '' if run.returncode == 0 else run.stdout
    if run.returncode not in (0, 1) or said and not re.search(r'^(logic=not-proved|only=\d+ proved=)', said, re.M):
        raise Unjudged('\n'.join(run.stdout.strip().split('\n')[-8:]))
    os.makedirs(SAID, exist_ok=True)
    with open(f'{kept}.{threading.get_ident()}', 'w', encoding='utf-8') as file:
        file.write(said)
    os.replace(f'{kept}.{threading.get_ident()}', kept)
    return said
