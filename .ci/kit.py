"""The kit that `rt` belongs to and the crates of crates.txt, for the scripts that call the kit's programs themselves: the words by which they name the libraries."""
import functools, glob, os, re, shutil, subprocess

HOME = os.environ.get('RATTLE_HOME') or os.path.dirname(os.path.dirname(os.path.realpath(shutil.which('rt') or 'rt')))
TOOLS = f'{HOME}/toolchain'
TOP = os.getcwd()


def read(path):
    with open(path, encoding='utf-8') as file:
        return file.read()


def output(*words, **more):
    return subprocess.run(words, stdout=subprocess.PIPE, stderr=subprocess.STDOUT, text=True, errors='replace', **more)


def must(*words, **more):
    done = output(*words, **more)
    if done.returncode:
        raise SystemExit(f'{" ".join(words)}:\n{done.stdout}')
    return done.stdout


@functools.lru_cache(maxsize=None)
def listed():
    """What crates.txt says: of each crate whether it is a static library, and the libraries that it names."""
    lines = (line.partition('#')[0].partition(':') for line in read('crates.txt').split('\n'))
    return {words.split()[0]: ('staticlib' in words, rest.split()) for words, _, rest in lines if words.strip()}


def is_static(crate):
    return listed()[crate][0]


def named(crate):
    return listed()[crate][1]


@functools.lru_cache(maxsize=None)
def below(crate):
    """The crates that one stands on, each after those that it names."""
    found = []
    for name in named(crate):
        if name in listed():
            found += [it for it in (*below(name), name) if it not in found]
    return tuple(found)


def of_kit(crate):
    """The kit's libraries that a crate names."""
    return ['std', *(name for name in named(crate) if name not in listed())]


def root_file(folder):
    return next(path for path in (f'{folder}/src/main.rt', f'{folder}/src/lib.rt') if os.path.exists(path))


def as_built(crate):
    """The words that name a crate's libraries as rt built them."""
    words = []
    for name in of_kit(crate):
        words += ['--extern', f'{name}={HOME}/rlibs/{name}.rlib']
    words += ['-L', f'dependency={HOME}/rlibs']
    for name in named(crate):
        words += ['--extern', f'{name}={TOP}/crates/{name}/out/rlib/{name}.rlib'] if name in listed() else []
    for name in below(crate):
        words += ['-L', f'dependency={TOP}/crates/{name}/out/rlib']
    return words


def kit_by_source(kit):
    """The words that name libraries of the kit, and all that they stand on, by their source."""
    kit, words = list(kit), []
    for name in kit:
        uses = re.findall(r'^dep (\w+)$', read(f'{HOME}/rlibs/{name}.rlib/format'), re.M)
        kit += [it for it in uses if it not in kit]
        words += ['--lib', f'{name}:{",".join(uses)}={HOME}/rattle/{name}/src/lib.rt']
    return words


def files_of(crate):
    """The files of a crate that its proof reads."""
    return sorted(path for part in ('src', 'specs', 'proofs') for path in glob.glob(f'crates/{crate}/{part}/**/*', recursive=True) if os.path.isfile(path))
