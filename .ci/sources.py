"""What the prover does not look at: the definitions import no code, no public function has a `requires` or lacks an `ensures`, what C calls states
what crates may cite, each crate that states something has a must-fail edit, the wrong programs and the theorems that docs/PROMISES.md names are
there, no file names a path of one machine, and no text for users a paper that they don't have."""
import pathlib
import re
import subprocess
import sys

faults = []
# of the library: words of clauses, and numbers, lists and texts
LIBRARY = ('Rattle.std.specs.Prelude.', 'Rattle.std.proofs.Math.', 'Prim.')


def definitions():
    """The protocol's definitions stand alone: they import the libraries and each other. So does the plain reader's count of reads, beside them."""
    own = {'protocol': ('Rattle.protocol.specs.',), 'protocol_reads': ('Rattle.protocol_reads.specs.', 'Rattle.protocol.specs.')}
    for crate, path in ((c, p) for c in own for p in sorted(pathlib.Path(f'crates/{c}/specs').rglob('*.antt'))):
        for line in path.read_text().split('\n'):
            used = re.match(r'\s*(?:pub )?use (\S+)', line)
            if used and not used.group(1).startswith(own[crate] + LIBRARY):
                faults.append(f'{path}: imports {used.group(1)}')
            if used and '.declared.' in used.group(1):
                faults.append(f'{path}: imports a type of the code, {used.group(1)}')


def heads(text):
    """The name and the clauses of each public function of a source."""
    text = re.sub(r'//[^\n]*', '', text)
    for found in re.finditer(r'\bpub\s+(?:const\s+)?(?:unsafe\s+)?(?:extern\s+"C"\s+)?fn\s+(\w+)', text):
        depth, at = 0, found.end()
        while at < len(text):
            if text[at] == '{':
                if depth == 0 and not re.search(r'\b(requires|ensures|ghost)\*?\s*\w*\s*$', text[found.end():at]):
                    break
                depth += 1
            elif text[at] == '}':
                depth -= 1
            at += 1
        yield found.group(1), text[found.end():at]


def contracts():
    for path in sorted(pathlib.Path('crates').glob('*/src/**/*.rt')):
        if path.name == 'main.rt':
            continue
        for name, clauses in heads(path.read_text()):
            if re.search(r'\brequires\b', clauses):
                faults.append(f'{path}: {name} has a `requires`')
            if not re.search(r'\bensures\b', clauses):
                faults.append(f'{path}: {name} states nothing')


def exported():
    """Each function that C calls is one of the crate `exports`, with the same parameters and the same clauses."""
    cited, called = (dict(heads(pathlib.Path(f'crates/{crate}/src/lib.rt').read_text())) for crate in ('exports', 'exports_c'))
    for name in sorted(cited.keys() | called.keys()):
        stated = [re.sub(r',(?=\))', '', re.sub(r'\s', '', of.get(name, 'nothing'))) for of in (cited, called)]
        if stated[0] != stated[1]:
            faults.append(f'crates/exports_c/src/lib.rt: {name} is not as in crates/exports')
    marked = re.findall(r'#\[unsafe\(no_mangle\)\]\npub extern "C" fn (\w+)', pathlib.Path('crates/exports_c/src/lib.rt').read_text())
    if not called or sorted(marked) != sorted(called):
        faults.append('crates/exports_c/src/lib.rt: a function that C cannot call, or none')


def edits():
    for crate in sorted(pathlib.Path('crates').iterdir()):
        states = any(heads(p.read_text()) and re.search(r'\bensures\b', p.read_text()) for p in crate.glob('src/**/*.rt'))
        if states and not (crate / 'src/main.rt').exists() and not list(crate.glob('must-fail/*.edit')):
            faults.append(f'{crate}: states something and has no must-fail edit')


def named():
    """Each `CRATE/NAME, NAME` of the promises is a must-fail edit."""
    crates = {c.name for c in pathlib.Path('crates').iterdir()}
    for line in pathlib.Path('docs/PROMISES.md').read_text().split('\n'):
        for found in re.finditer(r'\b([a-z_]+)/([a-z0-9_]+)((?:(?: \([^)]*\))?, [a-z0-9_]+(?![a-z0-9_]*/))*)', line):
            crate, names = found.group(1), [found.group(2)] + re.findall(r', ([a-z0-9_]+)', found.group(3))
            if crate not in crates or names[0] in ('specs', 'proofs', 'src'):
                continue
            for name in names:
                if not pathlib.Path(f'crates/{crate}/must-fail/{name}.edit').is_file():
                    faults.append(f'docs/PROMISES.md: no wrong program {crate}/{name}')


def claimed():
    """The theorems of the front page are those that the promises name."""
    front = set(re.findall(r'(?m)^pub ([\w-]+) :', pathlib.Path('crates/claims/proofs/Claims.antt').read_text()))
    text = re.search(r'(?s)\nNamed there: (.*?)\n\n', pathlib.Path('docs/PROMISES.md').read_text())
    named_there = set(re.findall(r'`([^`]+)`', text.group(1))) if text else set()
    for name in sorted(front ^ named_there):
        faults.append(f'{name}: named in one of crates/claims/proofs/Claims.antt and docs/PROMISES.md only')


def paths():
    listed = subprocess.run(['git', 'ls-files'], capture_output=True, text=True, check=True).stdout.split('\n')
    pattern = re.compile(r'(?<![\w.-])/(?:work|root|home|farm)/')
    for name in filter(None, listed):
        path = pathlib.Path(name)
        if name == '.ci/sources.py' or not path.is_file():
            continue
        for number, line in enumerate(path.read_text(errors='replace').split('\n'), 1):
            if pattern.search(line):
                faults.append(f'{name}:{number}: a path of one machine')


def papers():
    """What a user meets names no paper that the repository doesn't have."""
    for folder, pattern in (('rust/yuglasno/src', '**/*.rs'), ('include', '*.h'), ('examples', '*.c')):
        for path in sorted(pathlib.Path(folder).glob(pattern)):
            for number, line in enumerate(path.read_text().split('\n'), 1):
                if re.search(r'[Dd]ocument 0[12]|(?<![\d.,_])000(?!\d)', line):
                    faults.append(f'{path}:{number}: names a paper that a user does not have')


definitions()
contracts()
exported()
edits()
named()
claimed()
paths()
papers()
for fault in faults:
    print('sources:', fault)
sys.exit(1 if faults else 0)
