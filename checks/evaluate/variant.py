"""The definitions with one text changed, in copies of their crates."""
import os, re, shutil


class Failed(Exception):
    pass


def put(path, text):
    open(path, 'w', encoding='utf-8').write(text)


# names that a changed text may need, and where they are
NAMES = {
    'Rattle.std.specs.Prelude': ['◌==◌', 'None', 'Some', 'true', 'false', 'not', '◌&&◌', '◌||◌', '◌+◌', '◌-◌', '◌*◌', '◌/◌', '◌%◌', 'max', 'min', 'length', 'map', 'filter', 'reverse', 'take', 'drop',
                                 'nat_lt', 'nat_le', '[]', '◌∷◌', '◌++◌'],
    'Rattle.std.specs.List': ['list_any'],
    'Rattle.fec_plan.specs.Partition': ['source_symbols'],
    'Rattle.fec_plan.specs.Points': ['point_before', 'point_of'],
    'Rattle.norm_ext.specs.Asking': ['named_spans'],
    'Rattle.norm_ext.specs.Message': ['RepairAdv'],
    'Rattle.norm_order.specs.Shapes': ['is_encoded'],
    'Rattle.norm_send_rules.specs.SenderState': ['Listing'],
    'Rattle.norm_send_rules.specs.Watermarks': ['open_watermarks', 'watermark_of'],
    'Rattle.norm_persist.specs.Accounts': ['of_members'],
    'Rattle.norm_receive_rules.specs.Holding': ['Held'],
    'Rattle.norm_receive_rules.specs.Lazy': ['all_of'],
    'Rattle.norm_order.specs.Segments': ['written'],
}


def changes(old, new):
    """(text, what replaces it) of a change: one, or several that belong together."""
    return [(old, new)] if isinstance(old, str) else list(zip(old, new, strict=True))


class Variant:
    """The definitions as they are; or with texts of a file changed, in copies of its crate and of those above it."""

    def __init__(self, space, change=None, suffix=''):
        self.changed = {}
        if change:
            crate, name, *texts = change
            above = {crate}
            for c in space.order:
                if above & set(space.crates[c]):
                    above.add(c)
            self.changed = {c: c + suffix for c in above}
            for c, copy in self.changed.items():
                self.copy(os.path.join(space.work, 'crates', c), os.path.join(space.work, 'crates', copy))
            path = os.path.join(space.work, 'crates', crate + suffix, 'specs', name + '.antt')
            text = open(path, encoding='utf-8').read()
            for old, new in changes(*texts):
                if text.count(self.named(old)) != 1:
                    raise Failed('its text stands %d times in %s' % (text.count(old), path))
                text = text.replace(self.named(old), self.named(new))
            put(path, self.named(self.uses(text, ' '.join(new for _, new in changes(*texts)))) + text)

    def copy(self, source, target):
        shutil.rmtree(target, ignore_errors=True)
        shutil.copytree(source, target)
        for folder, _, names in os.walk(target):
            for n in names:
                path = os.path.join(folder, n)
                text = self.named(open(path, encoding='utf-8').read())
                put(path, self.called(text) if n.endswith('.rt') else text)

    @staticmethod
    def uses(text, new):
        """The `use` lines that the changed text needs."""
        named = ' '.join(re.findall(r'^use .*', text, re.M))
        has = lambda name: re.search(r'[{, ]%s[,}]' % re.escape(name), named)
        needs = lambda name: re.search(r'(?<!\S)\(?%s(?![\w_])' % re.escape(name.strip('◌')), new)
        return ''.join('use %s.{%s}\n' % (module, name) for module, names in NAMES.items() for name in names if needs(name) and not has(name))

    def name_of(self, crate):
        return self.changed.get(crate, crate)

    def called(self, text):
        return re.sub(r'\b(\w+)(?=::)', lambda m: self.name_of(m.group(1)), text)

    def named(self, text):
        return re.sub(r'\bRattle\.(\w+)', lambda m: 'Rattle.' + self.name_of(m.group(1)), text)
