"""Recorded inputs of `gather` (checks/runs/gathers) against the one definition of what it prints (crates/driven_nodes/specs/Gathered)."""
import glob, json, os, re, shutil

from evaluate import evaluating, terms
from evaluate.evaluating import found_in, put
from evaluate.journals import KIT
from evaluate.laws import is_refused

# Of these crates so much is evaluated: what a receiver or a gathering keeps is not.
DEFINITIONS = {'norm_multi': ('Owner',), 'driven_nodes': ('Gathered',)}
BELOW = {'norm_multi': ('norm_ext',),
         'driven_nodes': ('norm_base', 'norm_text', 'norm_script', 'norm_ext', 'norm_receive_rules', 'norm_journal', 'norm_multi', 'norm_show', 'hex', 'rand_pcg')}
USES = '''use Rattle.driven_nodes.specs.Gathered.{Printed, gathered}
use Rattle.norm_script.specs.Text.{text_lines}
'''
SHARED = '''
-- the text that is printed, and the number of the line that spells no datagram, or 0
abbrev pub text_and_stop : Printed → List ℕ × ℕ
text_and_stop printed = (flat_map (λ text. text) printed.lines, elim printed.stop [ Some stop ↦ stop.0 | None ↦ 0 ])
'''


class Gathers(evaluating.Workspace):
    """The definition of what `gather` prints, over those of the rules, the lines and the draws."""

    def __init__(self, work):
        super().__init__(work, 'driven_nodes', terms.USES + USES, SHARED)
        self.public = [n for n in self.public if n not in ('Do', 'Pass', 'Look')]

    def read_crates(self):
        return dict(super().read_crates(), **{crate: list(below) for crate, below in BELOW.items()})

    def copy(self):
        super().copy()
        for name, modules in DEFINITIONS.items():
            crate = os.path.join(self.work, 'crates', name)
            kept = {m: open('%s/specs/%s.antt' % (crate, m), encoding='utf-8').read() for m in modules}
            shutil.rmtree(crate)
            for part in ('specs', 'src'):
                os.makedirs('%s/%s' % (crate, part))
            for m in modules:
                put('%s/specs/%s.antt' % (crate, m), kept[m])
            put(crate + '/specs/Lib.antt', ''.join('pub mod %s\n' % m for m in modules))
            put(crate + '/src/lib.rt', '//! Definitions.\n#![tactic(auto)]\n')

    def unfoldable(self):
        yield from super().unfoldable()
        yield from KIT


def text_of(lines):
    return terms.octets(lines.encode('latin-1').hex()) if lines else '[]'


def case(name, run):
    """The definition prints the recorded text, and stops at the recorded line, if at any."""
    names = ['%s_%d' % (re.sub(r'\W', '_', name), i) for i in range(len(run['members']))]
    declared = '\n'.join('abbrev %s : Settings\n%s = %s' % (n, n, terms.settings(m['profile'])) for n, m in zip(names, run['members']))
    members = terms.lst(['(%s, %d)' % (n, m['node']) for n, m in zip(names, run['members'])])
    return name, declared, 'text_and_stop (gathered %s %s) ≡ (%s, %d)' % (members, text_of(run['input']), text_of(run['printed']), run['refused'] or 0)


def runs_of(folder, names=(), count=0):
    """The recorded inputs; with a count the shortest."""
    paths = sorted(glob.glob(os.path.join(folder, 'gathers', '*.json')))
    runs = [(os.path.basename(p)[:-5], json.load(open(p, encoding='utf-8'))) for p in paths if not names or any(n in os.path.basename(p) for n in names)]
    return sorted(runs, key=lambda r: (len(r[1]['input']), r[0]))[:count] if count else runs


def damages(run):
    """(what was damaged, the record so damaged): each has to be refused."""
    yield 'a digit printed otherwise', dict(run, printed=run['printed'][:-2] + chr(ord(run['printed'][-2]) ^ 1) + '\n')
    yield 'a line refused', dict(run, refused=(run['refused'] or 0) + 1)


def look(space, runs):
    """Says which input prints something else, and which damage is not noticed."""
    damaged = {'%s, %s' % (name, what): wrong for name, run in runs[:1] for what, wrong in damages(run)}
    said = space.evaluate([case(name, run) for name, run in [*runs, *damaged.items()]], per_batch=10)
    missed = [name for name in damaged if not is_refused(said[name])]
    wrong = [name for name, _ in runs if said[name]]
    for name in wrong:
        print('%s: %s' % (name, found_in(said[name]) or said[name][:1500]))
    for name in missed:
        print('%s: this damage is not noticed' % name)
    return '%d inputs of gather, %d damages' % (len(runs), len(damaged)), len(wrong + missed)
