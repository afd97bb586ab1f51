"""The script of a folder (crates/norm_arrival/specs): it is that of the text which says the same commands; and runs of it, made event by event as the
judge accepts them, in which the folder arrives. Digests are those of Python's hashlib."""
import hashlib, os

from evaluate import evaluating, steps, terms
from evaluate.laws import is_refused
from evaluate.manifests import KIT as MANIFEST_KIT, entry, line, text
from evaluate.journals import KIT as JOURNAL_KIT

HERE = os.path.dirname(os.path.abspath(__file__))
USES = terms.USES + '''use Rattle.std.specs.Prelude.{◌*◌, ◌-◌, count_by, option_and_then}
use Rattle.std.specs.List.{list_any}
use Rattle.norm_base.specs.Contents.{content_of}
use Rattle.norm_base.specs.Members.{receivers_of}
use Rattle.norm_script.specs.Reading.{script_of as read_script}
use Rattle.norm_script.specs.declared.script.Line.{Line}
use Rattle.norm_script.specs.declared.script.Verb.{Verb}
use Rattle.norm_script.specs.declared.script.Verb.TheVariants as verb
use Rattle.norm_safety.specs.Fronts.{same_up}
use Rattle.norm_journal.specs.declared.event.Event.{Event as JournalEvent}
use Rattle.norm_journal.specs.declared.event.Event.TheVariants as journal
use Rattle.norm_journal.specs.Accepting.{accepts, judged_from}
use Rattle.norm_journal.specs.Counts.{is_expired}
use Rattle.norm_journal.specs.Direct.{copy_due}
use Rattle.norm_journal.specs.Follows.{sent_of}
use Rattle.norm_journal.specs.InWorld.{answer_to}
use Rattle.norm_journal.specs.Jobs.{Told as ToldFiles, job_of}
use Rattle.norm_journal.specs.Judged.{Judged, judged_opening, is_done as turns_done, news_due}
use Rattle.norm_journal.specs.Places.{Place, Starting, Between, Pulling, Giving, Sending, Offering, Taking, Handing}
use Rattle.norm_journal.specs.Pulling.{origin_of}
use Rattle.norm_journal.specs.SessionRun.{Ending, Whole, Spent, Absent, ending_of}
use Rattle.norm_journal.specs.WorldEvents.{world_events}
use Rattle.norm_record.specs.Counted.{is_refused}
use Rattle.norm_record.specs.HandedUp.{handed_up}
use Rattle.norm_mirror.specs.Checking.{checked, is_done as all_taken_in}
use Rattle.norm_mirror.specs.declared.entry.Entry.{Entry as FileEntry}
use Rattle.norm_arrival.specs.FolderHandsUp.{folder_ups}
use Rattle.norm_arrival.specs.FolderScript.{folder_script}
use Rattle.norm_arrival.specs.HandedBy.{ups_of}
'''
FOLDERS_TEXT = open(os.path.join(HERE, 'Folders.txt'), encoding='utf-8').read()
# folders, by their files in order of name
FOLDERS = {'one file': [('a.txt', b'abc')], 'three files': [('B', b'x' * 300), ('a', b'-'), ('ab', b'abc')]}
HEAD = 'set instance 7\nset e 64\nset b 4\n'


class Folders(evaluating.Workspace):
    """The definitions of `norm_arrival`, over those of the crates below."""

    def __init__(self, work):
        super().__init__(work, 'norm_arrival', USES, evaluating.SHARED + '\n' + FOLDERS_TEXT)

    def unfoldable(self):
        yield from super().unfoldable()
        yield from dict.fromkeys(MANIFEST_KIT + JOURNAL_KIT)


def script_of(files):
    """The text of a script that sends the manifest of these files, and then them, with a mark after each object."""
    manifest = b''.join(line(name, len(octets), hashlib.sha256(octets).hexdigest()) for name, octets in files)
    commands = ['data ' + manifest.hex(), *['file ' + name for name, _ in files]]
    return HEAD + ''.join('1 %s\n1 mark\n' % command for command in commands)


def folder_of(name, files, **keys):
    """The declaration of a profile, and terms of it and of the entries of files."""
    p = 'profile_' + ''.join(c if c.isalnum() else '_' for c in name)
    return 'abbrev %s : Settings\n%s = %s\n' % (p, p, terms.settings(steps.profile(**keys))), p, terms.lst([entry(n, octets) for n, octets in files])


def script_case(name, files, of):
    declared, p, entries = folder_of(name, files)
    return name, declared, 'read_script %s ≡ Ok (folder_script %s %s)' % (text(script_of(of).encode()), p, entries)


# runs: the files, of how many copies each is lost (or none), and the keys
RUNS = {'a run': ('one file', 0, {}), 'a run with two receivers': ('three files', 0, {'receivers': 2}), 'a run that loses': ('one file', 4, {})}


def run_case(name, folder, lost, keys):
    """A whole run, in which nothing is refused or expires, is safe; each receiver hands up exactly the manifest and the files, and needs its last
    hand-up for that."""
    declared, p, entries = folder_of(name, FOLDERS[folder], **keys)
    files = terms.lst(['(%s, %s)' % (text(n.encode()), text(octets)) for n, octets in FOLDERS[folder]])
    return name, declared, 'arrives %s %s %s %d ≡ ((((1, 0), 0), true), (true, false))' % (p, entries, files, lost or 1000000)


def look(space, runs=tuple(RUNS)):
    """Says whose script is another, in which run a folder does not arrive, and whether a file that is left out is noticed."""
    rows = [script_case(name, files, files) for name, files in FOLDERS.items()] + [run_case(name, *RUNS[name]) for name in runs]
    damaged = [script_case(name + ', less one', files, files[:-1]) for name, files in FOLDERS.items()]
    said = space.evaluate(rows + damaged)
    wrong = [name for name, *_ in rows if said[name]]
    missed = [name for name, *_ in damaged if not is_refused(said[name])]
    for name in wrong:
        print('%s: %s' % (name, evaluating.found_in(said[name]) or said[name][:3000]))
    for name in missed:
        print('%s: this is not noticed' % name)
    return '%d scripts and %d runs of folders' % (len(FOLDERS), len(runs)), len(wrong + missed)
