"""Evaluates statements about the definitions of crates/*/specs: a case is true where antt computes both sides alike."""
import glob, os, re, shutil, subprocess

from evaluate import terms
from evaluate.variant import Failed, Variant, put

HERE = os.path.dirname(os.path.abspath(__file__))
REPO = os.path.dirname(os.path.dirname(HERE))
SHARED = '\n'.join(open(os.path.join(HERE, f), encoding='utf-8').read() for f in ('Shown.txt', 'Small.txt', 'Damage.txt', 'Laws.txt', 'Tails.txt'))


class Workspace:
    """A copy of the crates of definitions, and a crate `evaluated` whose proofs are the cases. `top` stands on all crates that
    are copied; `uses` and `shared` are the names that the cases bring in, and what they share beside the definitions."""

    def __init__(self, work, top='norm_safety', uses=terms.USES, shared=SHARED):
        self.work, self.crates = work, self.read_crates()
        self.uses, self.shared = uses, shared
        self.public = re.findall(r'^(?:abbrev pub|pub data) (\S+) :', terms.NUMERALS + shared, re.M) + ['Do', 'Pass', 'Look']
        self.order = []
        self.visit(top)
        self.kit = sorted({d for c in self.order for d in self.crates[c] if d not in self.crates})
        doc = subprocess.run(['rt', 'doc'], capture_output=True, text=True).stdout.strip()
        self.folder = os.path.dirname(doc)
        self.copy()

    def read_crates(self):
        out = {}
        for line in open(os.path.join(REPO, 'crates.txt'), encoding='utf-8'):
            head, _, deps = line.split('#')[0].partition(':')
            if head.strip():
                out[head.split()[0]] = deps.split()
        return out

    def visit(self, crate):
        for d in self.crates[crate]:
            if d in self.crates and d not in self.order:
                self.visit(d)
        if crate not in self.order:
            self.order.append(crate)

    def copy(self):
        shutil.rmtree(os.path.join(self.work, 'crates'), ignore_errors=True)
        for c in self.order:
            for part in ('src', 'specs', 'proofs'):
                source = os.path.join(REPO, 'crates', c, part)
                if os.path.isdir(source):
                    shutil.copytree(source, os.path.join(self.work, 'crates', c, part))

    def unfoldable(self):
        """(module, name) of each definition that has to be opened; an `abbrev` is open everywhere."""
        for c in self.order:
            specs = os.path.join(self.work, 'crates', c, 'specs')
            for path in sorted(glob.glob(specs + '/**/*.antt', recursive=True)):
                module = 'Rattle.%s.specs.%s' % (c, os.path.relpath(path, specs)[:-5].replace('/', '.'))
                for name in re.findall(r'^unfoldable pub (\S+) :', open(path, encoding='utf-8').read(), re.M):
                    yield module, name

    def evaluate(self, cases, per_batch=10):
        """{case's name: None where it holds, else what antt says}. A case is (name, declarations, statement)."""
        return self.evaluate_variants([Variant(self)], cases, per_batch)[0]

    def evaluate_variants(self, variants, cases, per_batch=200):
        """The same for each variant of the definitions, in one run."""
        return self.evaluate_each([(variant, cases) for variant in variants], per_batch)

    def evaluate_each(self, pairs, per_batch=200):
        """The same for each variant with the cases of its own."""
        variants = [variant for variant, _ in pairs]
        crate = os.path.join(self.work, 'crates', 'evaluated')
        shutil.rmtree(crate, ignore_errors=True)
        os.makedirs(crate + '/src')
        os.makedirs(crate + '/proofs')
        where = {}
        for n, (variant, cases) in enumerate(pairs):
            self.write_shared(crate, n, variant)
            for i in range(0, len(cases), per_batch):
                where['Batch%d_%d' % (n, i)] = (n, self.write_batch(crate, n, variant, 'Batch%d_%d' % (n, i), cases[i:i + per_batch]))
        self.write_root(crate, [f[:-5] for f in sorted(os.listdir(crate + '/proofs'))])
        said = self.judge(self.check(variants), {module: lines for module, (_, lines) in where.items()})
        out = [{} for _ in variants]
        for module, (n, lines) in where.items():
            out[n].update({case: said[module].get(case) for case in lines.values() if case})
        return out

    def write_root(self, crate, modules):
        batches = [m for m in modules if m.startswith('Batch')]
        put(crate + '/src/lib.rt', '//! Cases.\n#![tactic(auto)]\n\nghost use Rattle.std.specs.Prelude.{◌≡◌, ℕ};\n\n/// Reads each case.\n'
            '#[tactic(auto, using(crate::proofs::All::read))]\npub fn every_case()\n    ensures { (n : ℕ) → n ≡ n }\n{}\n')
        put(crate + '/proofs/Lib.antt', ''.join('mod %s\n' % n for n in [*modules, 'All']))
        put(crate + '/proofs/All.antt', 'use Rattle.std.proofs.Common.{◌≡◌, refl}\nuse Rattle.std.specs.Prelude.{ℕ}\n'
            + ''.join('use Rattle.evaluated.proofs.%s.{last as last%d}\n' % (n, i) for i, n in enumerate(batches))
            + '\npub read : (n : ℕ) → n ≡ n\nread n = refl\n')

    def write_shared(self, crate, n, variant):
        opened = list(self.unfoldable())
        put(crate + '/proofs/Shared%d.antt' % n, variant.named(
            self.uses + ''.join('use %s.{%s as open%d}\n' % (m, name, i) for i, (m, name) in enumerate(opened))
            + '\n' + terms.NUMERALS + self.shared + '\nunfoldable pub opened : ⊤\nunfolding %s\nopened = tt\n'
            % ' '.join('open%d' % i for i in range(len(opened)))))

    def write_batch(self, crate, n, variant, name, cases):
        """A module of cases with a false statement at its end, and which lines are whose."""
        text = variant.named(self.uses) + 'use Rattle.evaluated.proofs.Shared%d.{%s}\n' % (n, ', '.join(['opened', *self.public]))
        lines = {}
        for i, (case, declared, statement) in enumerate([*cases, (None, '', 'codes "a" ≡ codes "b"')]):
            first = text.count('\n') + 1
            text += '\n%s\ncase_%d : %s\nunfolding opened\ncase_%d = refl\n' % (declared, i, statement, i)
            lines.update(dict.fromkeys(range(first, text.count('\n') + 1), case))
        put('%s/proofs/%s.antt' % (crate, name), text + '\npub last : ⊤\nlast = tt\n')
        return lines

    def check(self, variants):
        words = ['rattle', 'check', '--crate-name', 'evaluated', 'src/lib.rt']
        for k in ['core', 'std', *self.kit]:
            words += ['--extern', '%s=%s/rlibs/%s.rlib' % (k, self.folder, k)]
        words += ['-L', 'dependency=%s/rlibs' % self.folder]
        given = set()
        for variant in variants:
            for c in self.order:
                name = variant.name_of(c)
                if name not in given:
                    given.add(name)
                    uses = ','.join(['core', 'std', *[variant.name_of(d) for d in self.crates[c]]])
                    words += ['--lib', '%s:%s=%s/crates/%s/src/lib.rt' % (name, uses, self.work, name)]
        words += ['--antt-project', self.folder + '/rattle/logic/antt-project.json', '--logic-built', self.folder + '/logic_built',
                  '--jobs', '1', '--only', 'every_case']
        return subprocess.run(words, cwd=os.path.join(self.work, 'crates', 'evaluated'), stdout=subprocess.PIPE,
                              stderr=subprocess.STDOUT, text=True, errors='replace').stdout

    @staticmethod
    def judge(out, where):
        """What antt says of each case. The false statement at the end of each batch has to be refused."""
        messages, current = [], None
        for line in out.split('\n'):
            m = re.match(r'\S*?proofs/(\w+)\.antt:(\d+):\d+: error: ', line)
            if m:
                current = [m.group(1), int(m.group(2)), line]
                messages.append(current)
            elif line.startswith('  ') and current:
                current[2] += '\n' + line
            else:
                current = None
                if ': error' in line:
                    raise Failed(line)
        said, refused = {module: {} for module in where}, set()
        for module, line, text in messages:
            if module not in where or line not in where[module]:
                raise Failed(text)
            if where[module][line] is None:
                refused.add(module)
            else:
                said[module][where[module][line]] = text
        if refused != set(where) or not re.search(r'^only=1 proved=1$', out, re.M):
            raise Failed('not all was evaluated:\n' + out[-2000:])
        return said


def found_in(text):
    """The value that antt computed where a case differs."""
    found = re.findall(r'the other has `(.*?)`\s', text, re.S)
    return found[-1] if found and 'limit' not in text.split('\n')[0] else None
