"""What the tools share: where the kit is, what crates.txt says, and the words by which rt calls `rattle check`. It is no program."""
import os, pathlib, re, shutil, subprocess, sys

KIT = pathlib.Path(shutil.which('rt') or sys.exit('there is no rt')).resolve().parent.parent


def rows():
    """For each crate its libraries, and whether it is a static library. Run in the repository's folder."""
    found = re.findall(r'^(\w+)( +staticlib)?[^:#\n]*:([^#\n]*)', pathlib.Path('crates.txt').read_text(), re.M)
    return {name: (uses.split(), bool(static)) for name, static, uses in found}


def below(crate):
    """The crates of the repository that a crate stands on."""
    all_rows, found = rows(), []
    todo = [crate]
    for name in todo:
        for d in all_rows[name][0]:
            if d in all_rows and d not in found:
                found.append(d)
                todo.append(d)
    return found


def build_below(crate):
    """Has rt build the libraries that the crate stands on, and read the crate's own code; no function of the crate is proved."""
    ran = subprocess.run(['rt', 'check', '--only', ''], cwd=f'crates/{crate}', capture_output=True, text=True)
    if any(not os.path.isdir(f'crates/{d}/out/rlib/{d}.rlib') for d in below(crate)):
        sys.exit(ran.stdout + ran.stderr)


def check(crate, folder, *more):
    """`rattle check` of a copy of the crate in a folder, over the libraries that rt built; with what an earlier check of the crate kept, if any."""
    root = next(f for f in ('src/lib.rt', 'src/main.rt') if os.path.exists(f'{folder}/{f}'))
    uses, static = rows()[crate]
    words = [KIT / 'bin' / 'rattle', 'check', '--crate-name', crate, root, '--extern', f'std={KIT}/rlibs/std.rlib', '-L', f'dependency={KIT}/rlibs']
    for d in uses:
        own = os.path.isdir(f'crates/{d}')
        words += ['--extern', f'{d}=' + (os.path.abspath(f'crates/{d}/out/rlib/{d}.rlib') if own else f'{KIT}/rlibs/{d}.rlib')]
    for d in below(crate):
        words += ['-L', f'dependency={os.path.abspath(f"crates/{d}/out/rlib")}']
    words += ['--antt-project', KIT / 'rattle' / 'logic' / 'antt-project.json', '--logic-built', KIT / 'logic_built']
    kept = f'crates/{crate}/out/incremental'
    if os.path.isdir(kept):
        shutil.copytree(kept, f'{folder}/kept', dirs_exist_ok=True)
        words += ['--incremental', 'kept']
    words += ['--crate-type', 'staticlib'] * static
    return subprocess.run([*words, *more], cwd=folder, capture_output=True, text=True, errors='replace')


def copy(crate, folder):
    """Copies the crate's code, definitions and proofs into a new folder."""
    os.makedirs(folder)
    for part in ('src', 'specs', 'proofs'):
        if os.path.isdir(f'crates/{crate}/{part}'):
            shutil.copytree(f'crates/{crate}/{part}', f'{folder}/{part}')


def told(ran):
    """What the prover says, without the lines that count modules."""
    skip = ('library ', 'statements ', 'logic /', 'crate ', 'axioms ')
    return '\n'.join(l for l in (ran.stdout + ran.stderr).splitlines() if not l.startswith(skip))
