"""The rows of docs/protocol.md: for each rule the code whose contracts cite it, the laws that speak of it, the cases and the
deliberate errors that they notice, and the edits of the code that the prover has to refuse.

The first two columns are written by hand, and say the rule and its definitions. The others are printed from what stands here:
the `ghost use` lines of the code, the statements of the laws, and the tables of cases, errors and edits."""
import functools, glob, os, re

from evaluate.variant import changes

REPO = os.path.dirname(os.path.dirname(os.path.dirname(os.path.abspath(__file__))))
PAGE = os.path.join(REPO, 'docs', 'protocol.md')
HEAD = '| Rule | Definition | Code | Law | Case | Error | Edit |'
# the crate of a section's definitions where a cell names only a file
CRATE = [('the sender', 'norm_send_rules'), ('the receiver', 'norm_receive_rules')]
# the rule that an edit of the code breaks, by its definition
EDITS = {
    'fec_plan/short_blocks_come_first': 'fec_plan/Partition', 'fec_plan/symbol_is_read_as_zero': 'fec_plan/Payload',
    'gf_field/inverse_is_one_power_off': 'gf_field/Product', 'gf_field/lanes_overlap': 'gf_field/Product',
    'norm_send_rules/one_member_listed_satisfies_all': 'norm_send_rules/Watermarks',
    'norm_send_rules/counts_are_added_up': 'norm_send_rules/Closing',
    'norm_ext/request_past_the_end_is_read': 'norm_ext/Requests',
    'norm_fbmsg/acknowledgement_of_another_instance_is_credited': 'norm_send_rules/Hearing',
    'obj_buffer/code_is_of_the_other_length': 'norm_order/Symbols', 'fec_plan/last_symbol_is_sent_padded': 'norm_order/Symbols',
    'rs_block/first_source_is_not_written': 'rs_block/Codeword', 'rs_block/parity_is_shifted': 'rs_block/Codeword', 'rs_block/weight_is_not_inverted': 'rs_block/Codeword',
    'rs_block/a_block_waits_for_all_sources': 'norm_receive_rules/BlockValue',
    'norm_receive_rules/a_flush_is_acknowledged_though_an_object_was_never_seen': 'norm_receive_rules/Acknowledging',
    'norm_receive_rules/an_object_is_handed_up_again_when_its_fti_comes_anew': 'norm_receive_rules/HandingUp',
    'norm_order/octets_are_handed_up_with_their_padding': 'norm_receive_rules/HandingUp',
    'stream_buffer/a_cut_segment_begins_at_its_end': 'norm_order/Segments',
    'stream_buffer/parity_is_sent_of_a_block_that_is_not_closed': 'norm_order/Symbols',
    'stream_buffer/zeros_for_a_symbol_of_a_block_that_was_given_up': 'norm_order/Symbols',
}
# crates whose edits break no rule of that page: their READMEs have them
OTHER = ('norm_host', 'norm_mirror', 'norm_multi', 'norm_program', 'norm_turns', 'producer_gate')


def read(path):
    with open(path, encoding='utf-8') as file:
        return file.read()


@functools.cache
def text_of(crate, name):
    return read(os.path.join(REPO, 'crates', crate, 'specs', name + '.antt'))


def definition_at(text, at):
    """The name of the definition that a place of a file lies in."""
    names = re.findall(r'^(?:abbrev |unfoldable )?(?:pub )?(?:data |record )?([\w\'-]+)\b(?= :| \(| \{| =)', text[:at] + text[at:].split('\n')[0], re.M)
    return next((n for n in reversed(names) if re.search(r'^(?:abbrev |unfoldable )?(?:pub )?(?:data |record )?%s\b.* ?:' % re.escape(n), text, re.M)), None)


@functools.cache
def cited():
    """{(crate, file, name): the files of code that bring it in}, without tests and laws."""
    out = {}
    for path in sorted(glob.glob(os.path.join(REPO, 'crates', '*', 'src', '**', '*.rt'), recursive=True)):
        crate, name = os.path.relpath(path, os.path.join(REPO, 'crates'))[:-3].split('/src/', 1)
        if crate.startswith('tests_') or crate.endswith('_tests') or name == 'laws':
            continue
        text = read(path)
        for module_crate, module, names, alias in re.findall(r'^ *ghost use Rattle\.(\w+)\.specs\.(\w+)(?:\.\{(.*?)\}| as (\w+));', text, re.M):
            found = re.findall(r'[\w\']+', re.sub(r' as \w+', '', names)) if names else re.findall(r'\b%s\.(\w+)' % alias, text)
            for n in found:
                out.setdefault((module_crate, module, n), set()).add('%s/src/%s' % (crate, name))
    return out


@functools.cache
def laws():
    """{(crate, file, name): the laws whose statements name it}."""
    out = {}
    for path in sorted(glob.glob(os.path.join(REPO, 'crates', '*', 'src', 'laws.rt'))):
        crate, text = path.split(os.sep)[-3], read(path)
        uses = uses_of(text)
        for law, clauses in re.findall(r'^pub fn (\w+)[^{]*?\n((?:    (?:ensures|requires).*\n)+)', text, re.M):
            for named in stated(uses, re.findall(r'[\w\']+', clauses), set()):
                out.setdefault(named, set()).add('%s::laws::%s' % (crate, law))
    return out


def uses_of(text):
    return {n: (c, m) for c, m, names in re.findall(r'^ *(?:ghost )?use Rattle\.(\w+)\.specs\.(\w+)\.\{(.*?)\};?$', text, re.M)
            for n in re.findall(r'[\w\']+', re.sub(r' as \w+', '', names)) if c not in ('std', 'core')}


def stated(uses, words, seen):
    """What a statement names: the definitions that it is made of, and of those that are statements themselves what these name."""
    for word in words:
        if word in uses and (*uses[word], word) not in seen:
            crate, module = uses[word]
            seen.add((crate, module, word))
            if module.endswith('Laws') or word[0].isupper() and crate == 'norm_safety':
                text = text_of(crate, module)
                inner = dict(uses_of(text), **{n: (crate, module) for n in re.findall(r'^(?:abbrev |unfoldable )?pub (?:record )?(\w+)', text, re.M)})
                block = re.search(r'^(?:abbrev |unfoldable )?pub (?:record )?%s\b.*?(?=^\S*\n|\Z)' % word, text, re.M | re.S)
                body = '\n'.join(b for b in re.split(r'\n\n', text) if re.search(r'(?:pub |record |^)%s\b' % word, b))
                stated(inner, re.findall(r'[\w\']+', body or (block.group() if block else '')), seen)
    return seen


def cell_of(section, cell):
    """(crate, file, names) of each definition file that a cell names: `File`: `name`, `name`; `crate/specs/File`."""
    crate = next((c for words, c in CRATE if words in section), None)
    out = []
    for part in cell.split(';'):
        words = re.findall(r'`([^`]+)`', part)
        for word in words:
            m = re.match(r'(\w+)/specs/(\w+)$', word)
            if m:
                out.append((m.group(1), m.group(2), []))
                crate = m.group(1)
            elif re.match(r'[A-Z]\w+$', word) and crate and os.path.exists(os.path.join(REPO, 'crates', crate, 'specs', word + '.antt')) and not (out and re.search(r':.*`%s`' % word, part)):
                out.append((crate, word, []))
            elif out:
                out[-1][2].append(word)
    return out


def rows(page):
    """(place of the line, its cells, its definitions) of each row of the tables of rules."""
    section, inside = '', False
    for place, line in enumerate(page):
        if line.startswith('## '):
            section = line.lower()
        if line == HEAD:
            inside = True
        elif not line.startswith('|'):
            inside = False
        elif inside and not line.startswith('|---'):
            cells = [c.strip() for c in line.strip('|').split(' | ')]
            yield place, cells, cell_of(section, cells[1])


def place_of(all_rows, crate, file, name=None):
    """The row that names a definition, or else the first that names its file."""
    of_file = [place for place, _, defined in all_rows if any((c, f) == (crate, file) for c, f, _ in defined)]
    named = [place for place, _, defined in all_rows if any((c, f) == (crate, file) and name in names for c, f, names in defined)]
    return (named or of_file or [None])[0]


def tables():
    """The page with its printed columns, and what stands in no row."""
    import errors
    page = read(PAGE).split('\n')
    all_rows, astray = list(rows(page)), []
    noticed, edits = {}, {}
    for what, crate, file, old, new, case in errors.ERRORS:
        text, olds = text_of(crate, file), [o for o, _ in changes(old, new)]
        place = place_of(all_rows, crate, file, definition_at(text, text.find(olds[0])) if olds[0] in text else None)
        counts = [text.count(o) for o in olds]
        if place is None or set(counts) != {1}:
            astray.append('the error "%s": %s' % (what, 'no rule has %s/specs/%s' % (crate, file) if place is None else 'its text stands %d times' % next(n for n in counts if n != 1)))
        else:
            noticed.setdefault(place, []).append((what, case))
    for path in sorted(glob.glob(os.path.join(REPO, 'crates', '*', 'must-fail', '*.edit'))):
        crate, name = path.split(os.sep)[-3], os.path.basename(path)[:-5]
        place = place_of(all_rows, *EDITS.get('%s/%s' % (crate, name), '/').split('/'))
        if place is not None:
            edits.setdefault(place, []).append('`%s/%s`' % (crate, name))
        elif crate not in OTHER:
            astray.append('the edit %s/%s: no rule' % (crate, name))
    for place, cells, defined in all_rows:
        page[place] = '| %s |' % ' | '.join(cells[:2] + printed(defined, noticed.get(place, []), edits.get(place, [])))
    return page, astray


def printed(defined, noticed, edits):
    """The columns behind the first two."""
    code, law = set(), set()
    for crate, file, names in defined:
        for (c, f, n), files in cited().items():
            if (c, f) == (crate, file) and (n in names or not names):
                code |= {x for x in files if not x.startswith(crate + '/')} if crate.endswith('_rules') else files
        for (c, f, n), of in laws().items():
            if (c, f) == (crate, file) and (n in names or not names):
                law |= of
    cases = list(dict.fromkeys(case for _, case in noticed))
    return [some('`%s`' % x for x in sorted(code)), some('`%s`' % x for x in sorted(law)), '; '.join(cases) or '-', '; '.join(what for what, _ in noticed) or '-', ', '.join(edits) or '-']


def some(words, most=6):
    words = list(words)
    return ', '.join(words[:most]) + (' and %d more' % (len(words) - most) if len(words) > most else '') or '-'


def look(write=False):
    """How many rows there are, and how many differ from what is printed; each is named."""
    import cases
    import errors
    page, astray = tables()
    there = read(PAGE).split('\n')
    differ = [n + 1 for n, (a, b) in enumerate(zip(there, page)) if a != b]
    known = {c[0] for c in cases.cases()}
    astray += ['the error "%s": no case "%s"' % (e[0], e[5]) for e in errors.ERRORS if e[5] not in known]
    if write:
        with open(PAGE, 'w', encoding='utf-8') as file:
            file.write('\n'.join(page))
    elif differ:
        print('docs/protocol.md differs in its lines %s: checks/definitions.py --rules --write prints them again.' % ', '.join(map(str, differ)))
    for what in astray:
        print('rules: ' + what)
    return '%d rules' % len(list(rows(page))), len(astray) + (0 if write else len(differ))
