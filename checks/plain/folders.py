"""Random folders, each a function of a number, for checks/alike: names, files and keys of `mirror`."""
from __future__ import annotations

from .scripts import Maker

LETTERS = 'abcxyzABC019._-'
BAD_LINES = ('set e 63', 'set producers 1', 'set mode drop', 'n2-a', '.a', 'a b', 'a/b', ' ', 'set')


class Folder(Maker):
    """Makes one folder: its files, and the input that names them."""

    def __init__(self, n: int):
        super().__init__(n, False)
        self.files: dict[str, bytes] = {}

    def name(self) -> str:
        name = ''.join(self.draw.choice(LETTERS) for _ in range(self.draw.choice((1, 2, 5, 12, 64)))).lstrip('.')
        return name if name and not (name[:1] == 'n' and name[1:2].isdigit()) else 'f' + name[:63]

    def add_files(self) -> None:
        e = self.keys['e']
        for _ in range(self.draw.choice((1, 1, 2, 3, 8))):
            length = self.draw.choice((1, self.near(200), e, e + 1, self.draw.randrange(1, 6 * e)))
            self.files[self.name()] = self.draw.randbytes(length)
        if self.may(4):
            self.files[self.name()] = b''

    def text(self) -> str:
        keys = [(key, value) for key, value in self.keys.items() if key != 'mode']
        self.draw.shuffle(keys)
        names = list(self.files)
        self.draw.shuffle(names)
        if self.may(4):
            names.append(self.draw.choice(names + ['not-there']))
        lines = [f'set {key} {value}' for key, value in keys] + names
        if self.may(8):
            lines.insert(self.draw.randrange(len(lines) + 1), self.draw.choice(BAD_LINES))
        if self.may(10):
            lines.insert(self.draw.randrange(len(lines) + 1), self.draw.choice(('', '# a comment')))
        return '\n'.join(lines) + self.draw.choice(('\n', '\n', ''))


def random_folder(n: int) -> tuple[list[str], str, dict[str, bytes]]:
    """Returns the words, the input and the files of a number."""
    folder = Folder(n)
    folder.set_keys()
    folder.add_files()
    return ['mirror'], folder.text(), folder.files
