"""What `.ci/archive` and `.ci/refused` share: how rattle is run over the libraries that `rt ci` left, how a wrong body is written into a copy of
its crate, and what the prover says of it."""
import collections
import glob
import os
import re
import shutil
import subprocess

TOP = os.path.abspath(os.path.join(os.path.dirname(os.path.abspath(__file__)), '..'))
KIT = os.path.dirname(subprocess.run(['rt', 'doc'], capture_output=True, text=True, check=True).stdout.strip())


class Unknown(Exception):
    """What keeps a wrong body from being tried."""
    status = 1


class NoLibrary(Unknown):
    """A library is not there, or `rt ci` did not leave it."""
    status = 3


def libraries(crate):
    """The words that name the libraries of a crate to rattle."""
    with open(f'{TOP}/crates.txt', encoding='utf-8') as file:
        named = re.search(rf'(?m)^{crate}(?: [a-z_]+)*: (.*)$', file.read())[1].split()
    words = ['--extern', f'std={KIT}/rlibs/std.rlib']
    for name in named:
        folder = f'{TOP}/crates/{name}/out/rlib' if os.path.isdir(f'{TOP}/crates/{name}') else f'{KIT}/rlibs'
        if not os.path.isdir(f'{folder}/{name}.rlib'):
            raise NoLibrary(f'there is no {folder}/{name}.rlib')
        words += ['--extern', f'{name}={folder}/{name}.rlib']
    own = glob.glob(f'{TOP}/crates/*/out/rlib')
    # `rt lib` and `rt check` leave a stamp beside a library, which may be of an older text. `rt ci` leaves none.
    for folder in own:
        if os.path.exists(f'{folder}/stamp'):
            raise NoLibrary(f'rt ci did not leave {folder}')
    for folder in [f'{KIT}/rlibs', *own]:
        words += ['-L', f'dependency={folder}']
    return words


def rattle(verb, crate, folder, words):
    """Runs rattle on the crate in this folder: its status and what it says."""
    whole = [f'{KIT}/bin/rattle', verb, '--crate-name', crate, 'src/lib.rt', *words, '--antt-project', f'{KIT}/rattle/logic/antt-project.json']
    whole += ['--logic-built', f'{KIT}/logic_built']
    ran = subprocess.run(whole, cwd=folder, stdin=subprocess.DEVNULL, stdout=subprocess.PIPE, stderr=subprocess.STDOUT, text=True, errors='replace')
    return ran.returncode, ran.stdout


def copy(crate, folder):
    """What rattle reads of a crate."""
    whole = f'{TOP}/crates/{crate}'
    shutil.copytree(whole, folder, ignore=lambda at, names: {*names} - {'src', 'specs', 'proofs'} if at == whole else ())


def is_unread(line):
    """Whether the prover could not read a text of src/ or specs/. Then it tried no contract."""
    at = re.match(r'(?:\./)?(?:src|specs)/\S+?:\d+:\d+: error: (`[^`]*`: )?(.*)', line)
    faults = 'is not in scope|has no field|is no name|operand is missing|expected the end|cannot continue'
    return bool(at) and (not at[1] or bool(re.search(faults, re.sub('`[^`]*`', '', at[2]))))


# A function in a file: its name, and its lines, from its first attribute to the brace that closes it.
Body = collections.namedtuple('Body', 'path first last name')


def body(folder, path, old):
    """The function of a file whose text has these words, or None."""
    with open(f'{folder}/{path}', encoding='utf-8') as file:
        text = file.read()
    lines, at = text.split('\n'), text[:text.index(old)].count('\n')
    first = next((n for n in range(at, -1, -1) if re.match(r'\s*(pub(\(\w+\))? )?(extern "C" )?fn \w', lines[n])), None)
    if first is None:
        return None
    indent = re.match(r'\s*', lines[first])[0]
    last = next(n for n in range(first, len(lines)) if lines[n] == f'{indent}}}')
    name = re.search(r'fn (\w+)', lines[first])[1]
    while lines[first - 1].lstrip().startswith('#['):
        first -= 1
    return Body(path, first + 1, last + 1, name) if at <= last else None


class Edit:
    """A wrong body: which texts of which files it replaces, the function that it changes, as the prover names it, and where that stands."""

    def __init__(self, crate, path):
        self.name = f'{crate}/{os.path.basename(path)}'
        with open(path, encoding='utf-8') as file:
            lines = [line.partition(': ') for line in file.read().split('\n')]
        self.pairs, self.of, at, old = [], '', '', ''
        for kind, _, words in lines:
            if kind == 'of':
                self.of = words
            elif kind == 'file':
                at = words
            elif kind == 'old':
                old = words
            elif kind.startswith('new:') or kind == 'new':
                self.pairs.append((at, old, words))
        bodies = [body(f'{TOP}/crates/{crate}', at, old) for at, old, _ in self.pairs]
        inside = [it for it in bodies if it and it.name == self.of.rpartition('::')[2]]
        if not inside:
            raise Unknown(f'{self.name} has no line `of: ` that names the function which it changes')
        self.body, self.is_alone = inside[0], len(inside) < len(bodies)

    def apply(self, folder):
        """Makes the edit in a copy of the crate."""
        for path, old, new in self.pairs:
            with open(f'{folder}/{path}', encoding='utf-8') as file:
                text = file.read()
            if text.count(old) != 1:
                raise Unknown(f'{self.name} cannot be applied')
            with open(f'{folder}/{path}', 'w', encoding='utf-8') as file:
                file.write(text.replace(old, new))

    def refusal(self, said):
        """Why the prover refuses the function, or None: what it says at a line of it, or of the answers to its goals."""
        answers = f'proofs/{self.of.replace("::", "/")}/'
        for line in said.split('\n'):
            # Advice on a declaration is no reason.
            at = re.match(r'(?:note: )?(?:\./)?(\S+?):(\d+):\d+: (?!note: )', line)
            if at and (at[1] == self.body.path and self.body.first <= int(at[2]) <= self.body.last or at[1].startswith(answers)):
                return line[:160]
        return None


def edits_of(crate):
    return [Edit(crate, path) for path in sorted(glob.glob(f'{TOP}/crates/{crate}/refused/*.edit'))]
