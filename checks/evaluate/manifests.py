"""Manifests and checks by hand against their definitions (crates/norm_mirror/specs): what is written, what is read back, which line is the first that
is none of a manifest, and what a check finds. Digests are those of Python's hashlib."""
import hashlib

from evaluate import evaluating, terms
from evaluate.laws import is_refused

USES = '''use Rattle.std.proofs.Common.{◌≡◌, ◌∷◌, [], Ok, Err, Option, Some, None, codes, refl}
use Rattle.std.specs.Prelude.{ℕ, zero, suc, ⊤, ◌/◌, ◌%◌, List, ◌++◌, true, false, replicate}
use Rattle.norm_base.specs.declared.kinds.Kind.TheVariants as kind
use Rattle.norm_order.specs.declared.up.Up.{Up}
use Rattle.norm_order.specs.declared.up.Up.TheVariants as up
use Rattle.norm_mirror.specs.Checking.{Checked, checked, is_done, file_at}
use Rattle.norm_mirror.specs.Manifest.{manifest_text}
use Rattle.norm_mirror.specs.Reading.{goes_on, manifest_of}
use Rattle.norm_mirror.specs.declared.check.CheckFault.TheVariants as fault
use Rattle.norm_mirror.specs.declared.entry.Entry.{Entry}
'''
SHARED = '''
abbrev pub entry : List ℕ → ℕ → List ℕ → Entry
entry name len digest = record { name = name; len = len; digest = digest }
'''
SHA = 'Rattle.sha2.specs.Sha256'
# definitions of the kit that have to be opened
KIT = [('Rattle.hex.specs.Hex', 'encode_with'), ('Rattle.hex.specs.Hex', 'decode_pairs'), ('Rattle.core.specs.Fmt', 'digits')] \
    + [(SHA, n) for n in ('first_words', 'schedule', 'rounds', 'compress', 'hash_after', 'digest_bytes', 'sha256')]

# the digest of `abc`, from the examples of FIPS 180-4
ABC = 'ba7816bf8f01cfea414140de5dae2223b00361a396177a9cb410ff61f20015ad'


class Manifests(evaluating.Workspace):
    """The definitions of `norm_mirror`, over those of the crates below."""

    def __init__(self, work):
        super().__init__(work, 'norm_mirror', USES, SHARED)
        self.public = ['hx', 'octets_onto', 'entry']

    def unfoldable(self):
        yield from super().unfoldable()
        yield from KIT


def text(octets):
    return terms.nums(list(octets)) if octets else '[]'


def entry(name, octets):
    return '(entry %s %d %s)' % (text(name.encode()), len(octets), text(hashlib.sha256(octets).digest()))


def line(name, len_, digest):
    return ('%s %s %s\n' % (name, len_, digest)).encode()


# ---------------------------------------------------------------- manifests
A, B = line('a.txt', 3, ABC), line('b', 16777216, ABC)
# what is refused, and the number of the first line that is none of a manifest
REFUSED = {
    'no octets': (b'', 1), 'only a line feed': (b'\n', 1), 'no line feed at the end': (A[:-1], 1), 'octets after the last line': (A + b'x', 2),
    'upper-case digits': (A.upper().replace(b'A.TXT', b'a.txt'), 1), 'a leading zero': (line('a', '03', ABC), 1), 'no octets in a file': (line('a', 0, ABC), 1),
    'a file that is too long': (line('a', 16777217, ABC), 1), '63 digits': (line('a', 3, ABC[:-1]), 1), '65 digits': (line('a', 3, ABC + '0'), 1),
    'two names that are equal': (A + A, 2), 'names that fall': (B + A, 2), 'a longer name before its beginning': (line('ab', 3, ABC) + line('a', 3, ABC), 2),
    'a slash': (line('a/b', 3, ABC), 1), 'a dot at the beginning': (line('.a', 3, ABC), 1), 'no name': (line('', 3, ABC), 1),
    'a name of 65': (line('x' * 65, 3, ABC), 1), 'the name of a copy': (A + line('n2-a', 3, ABC), 2), 'two spaces': (A.replace(b' ', b'  '), 1),
    'a space at the end': (A[:-1] + b' \n', 1), 'a carriage return': (A[:-1] + b'\r\n', 1),
}
# files by their names and octets, in order
READ = {
    'one file': [('a.txt', b'abc')], 'names that begin alike': [('a', b'abc'), ('ab', b'b'), ('b', b'-')],
    'n without a digit': [('n', b'abc'), ('n-2', b'b'), ('nn2', b'c')], 'capitals first': [('B', b'abc'), ('a', b'b')], 'a name of 64': [('x' * 64, b'abc')],
}


def manifest_cases():
    yield 'a manifest is written', '', 'manifest_text (%s ∷ []) ≡ %s' % (entry('a.txt', b'abc'), text(A))
    for what, files in READ.items():
        entries = terms.lst([entry(name, octets) for name, octets in files])
        written = b''.join(line(name, len(octets), hashlib.sha256(octets).hexdigest()) for name, octets in files)
        yield what + ', read', '', 'manifest_of %s ≡ Ok %s' % (text(written), entries)
        yield what + ', written', '', 'manifest_text %s ≡ %s' % (entries, text(written))
    for what, (octets, n) in REFUSED.items():
        yield what, '', 'manifest_of %s ≡ Err %d' % (text(octets), n)
    last = entry('b', b'abc')
    for n, goes in ((1023, 'true'), (1024, 'false')):
        yield 'a file after %d' % n, '', 'goes_on (replicate %d %s) %s ≡ %s' % (n, entry('a', b'abc'), last, goes)


# ---------------------------------------------------------------- checks
FILES = [('a', b'abc'), ('b', b'x')]
MANIFEST = b''.join(line(name, len(octets), hashlib.sha256(octets).hexdigest()) for name, octets in FILES)


def up(index, kind, info, octets):
    return '(up.Object %d kind.%s %s %s)' % (index, kind, 'None' if info is None else '(Some %s)' % text(info.encode()), text(octets))


FIRST, SECOND, THIRD = up(0, 'Data', None, MANIFEST), up(1, 'File', 'a', b'abc'), up(2, 'File', 'b', b'x')
# hand-ups, how many files were taken, and the fault
CHECKS = {
    'nothing': ([], 0, 'None'), 'a manifest alone': ([FIRST], 0, 'None'), 'one file of two': ([FIRST, SECOND], 1, 'None'), 'all files': ([FIRST, SECOND, THIRD], 2, 'None'),
    'a loss first': (['(up.Lost 0)', FIRST], 0, 'Lost 0'), 'a loss between': ([FIRST, '(up.Lost 1)', THIRD], 0, 'Lost 1'),
    'a stream': ([FIRST, '(up.StreamOpen 1)'], 0, 'Stream 1'), 'a part of a stream': (['(up.StreamBytes 4 0 (1 ∷ []))'], 0, 'Stream 4'),
    'the end of a stream': (['(up.StreamEnd 5)'], 0, 'Stream 5'), 'a file first': ([SECOND, FIRST], 0, 'NoManifest 1'),
    'data that is no manifest': ([up(0, 'Data', None, b'abc'), FIRST], 0, 'NoManifest 0'), 'a file too many': ([FIRST, SECOND, THIRD, THIRD], 2, 'Extra 2'),
    'data after all files': ([FIRST, SECOND, THIRD, FIRST], 2, 'Extra 0'), 'another name': ([FIRST, THIRD], 0, 'Name 2'),
    'data in place of a file': ([FIRST, up(1, 'Data', 'a', b'abc')], 0, 'Name 1'), 'a file without a name': ([FIRST, up(1, 'File', None, b'abc')], 0, 'Name 1'),
    'another name and length': ([FIRST, up(1, 'File', 'c', b'ab')], 0, 'Name 1'), 'another length': ([FIRST, up(1, 'File', 'a', b'ab')], 0, 'Length 1'),
    'another digest': ([FIRST, up(1, 'File', 'a', b'abd')], 0, 'Digest 1'), 'what follows a fault': ([FIRST, up(1, 'File', 'a', b'abd'), SECOND, THIRD], 0, 'Digest 1'),
}


def check_cases():
    entries = terms.lst([entry(name, octets) for name, octets in FILES])
    for what, (ups, files, found) in CHECKS.items():
        read = 'Some %s' % entries if ups[:1] == [FIRST] else 'None'
        refused = found if found == 'None' else 'Some (fault.%s)' % found
        yield 'checked, ' + what, '', 'checked %s ≡ record { entries = %s; files = %d; refused = %s }' % (terms.lst(ups), read, files, refused)
    for what, ups, done in (('nothing', [], 'false'), ('one file of two', [FIRST, SECOND], 'false'), ('all files', [FIRST, SECOND, THIRD], 'true')):
        yield 'done, ' + what, '', 'is_done (checked %s) ≡ %s' % (terms.lst(ups), done)
    for i, there in ((0, 'Some %s' % entry(*FILES[0])), (1, 'Some %s' % entry(*FILES[1])), (2, 'None')):
        yield 'file %d' % i, '', 'file_at (checked %s) %d ≡ %s' % (terms.lst([FIRST]), i, there)


# expected values that are wrong, each of which has to be refused
DAMAGED = [('a wrong line', '', 'manifest_of %s ≡ Err 1' % text(A + A)),
           ('a wrong fault', '', 'checked %s ≡ record { entries = None; files = 0; refused = None }' % terms.lst(['(up.Lost 0)'])),
           ('a wrong digest', '', 'manifest_text (%s ∷ []) ≡ %s' % (entry('a.txt', b'abd'), text(A)))]


def look(space):
    """Says which row parts from the definitions, and which wrong row is not noticed."""
    rows = list(manifest_cases()) + list(check_cases())
    said = space.evaluate(rows + DAMAGED, per_batch=100)
    wrong = [name for name, *_ in rows if said[name]]
    missed = [name for name, *_ in DAMAGED if not is_refused(said[name])]
    for name in wrong:
        print('%s: %s' % (name, evaluating.found_in(said[name]) or said[name][:1500]))
    for name in missed:
        print('%s: this is not noticed' % name)
    return '%d rows of manifests and checks, %d wrong ones' % (len(rows), len(DAMAGED)), len(wrong + missed)
