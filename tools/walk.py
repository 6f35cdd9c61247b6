"""What the prover prints of the goals of a function, read: what is to be proved at each, and the names of the facts that are known there.
Used by `paths` and `fill_returns`; it is no program."""
import os, re, sys, tempfile
from collections import namedtuple
sys.dont_write_bytecode = True
from kit import build_below, check, copy

# a goal: its name, what is to be proved, the steps before it, in order, each with its fields, and the types of the newest fields
Goal = namedtuple('Goal', 'name wanted steps types')


def goals(crate, function):
    """The goals that the check leaves to the proof of a function that has no answers. FUNCTION is its folder below proofs/, as object/access; what stands
    in its Invariants.antt counts."""
    build_below(crate)
    with tempfile.TemporaryDirectory() as room:
        folder = f'{room}/{crate}'
        copy(crate, folder)
        for name in ('Answers.antt', 'Proof.antt'):
            if os.path.exists(f'{folder}/proofs/{function}/{name}'):
                os.remove(f'{folder}/proofs/{function}/{name}')
        ran = check(crate, folder, '--start', function.replace('/', '::'), '--allow-holes')
    said = ran.stdout + ran.stderr
    found = read(said, function)
    if not found:
        sys.exit(f'no goal of {crate} {function} is left to write; the prover said:\n{said[:3000]}')
    return found


def read(said, function):
    found, goal, part = [], None, None
    for line in said.split('\n'):
        m = re.match(r'\S*\bproofs/(\S+)/\w+\.antt:\d+:\d+: goal \? in `(\S+)`', line)
        if m and m[1] != function:
            goal = None
        elif m:
            goal, part = Goal(m[2], [], {}, {}), 'wanted'
            found.append(goal)
        elif goal is None or not line.startswith('  '):
            goal = None
        elif line.startswith('  names you can use'):
            part = 'steps'
        elif line.startswith('  the newest fields'):
            part = 'types'
        elif line.startswith("    Rattle's own names"):
            pass
        elif part == 'wanted':
            goal.wanted.append(line[2:])
        elif part == 'steps':
            earlier = re.match(r' +as in `(\S+)` above(?:, as far as (\S+))?$', line)
            if earlier:
                for step, fields in next(g for g in found if g.name == earlier[1]).steps.items():
                    goal.steps[step] = fields
                    if step == earlier[2]:
                        break
                continue
            step, _, fields = line.strip().partition(': ')
            same = re.match(r'same as (\S+)$', fields)
            goal.steps[step] = goal.steps[same[1]] if same else re.findall(r'(\.\S+?)(?:,|$| \{[^}]*\},?)', fields)
        elif part == 'types':
            field, _, kind = line.strip().partition(' : ')
            goal.types[field] = kind
    return found
