"""What the scripts that make files of cases share."""

import os
import random

DATA = os.path.join(os.path.dirname(os.path.abspath(__file__)), "..", "crates", "known_answers", "data")


class File:
    """A file of cases: comment lines, and lines of columns with ` | ` between two."""

    def __init__(self, name, head):
        self.name = name
        self.lines = ["# " + line if line else "#" for line in head.strip().split("\n")]
        self.random = random.Random(name)

    def note(self, text):
        """A comment above the cases that follow."""
        self.lines.append("")
        for line in text.strip().split("\n"):
            self.lines.append("# " + line)

    def case(self, *columns):
        """A case: the call, its inputs and the answer."""
        words = [column if isinstance(column, str) else hexadecimal(column) for column in columns]
        for word in words:
            assert word and " | " not in word and "\n" not in word, (self.name, columns)
        self.lines.append(" | ".join(words))

    def bytes(self, size):
        """So many random bytes, the same at each run."""
        return self.random.randbytes(size)

    def write(self):
        with open(os.path.join(DATA, self.name), "w", encoding="utf-8", newline="\n") as out:
            out.write("\n".join(self.lines) + "\n")


def hexadecimal(data):
    """Bytes in hexadecimal; `-` are none."""
    return data.hex() or "-"


def counted(size, first=0):
    """So many bytes: first, first + 1 and so on, modulo 256."""
    return bytes((first + i) % 256 for i in range(size))


class Below:
    """The cases below the last heading of a file that is otherwise written by hand."""

    HEADING = "# Made by tools/"

    def __init__(self, name, note):
        self.name = name
        self.random = random.Random(name)
        path = os.path.join(DATA, name)
        with open(path, encoding="utf-8") as file:
            lines = file.read().split("\n")
        end = next((i for i, line in enumerate(lines) if line.startswith(self.HEADING)), len(lines) - 1)
        while end and not lines[end - 1]:
            end -= 1
        self.lines = lines[:end] + [""] + ["# " + line for line in note.strip().split("\n")]
        assert self.lines[end + 1].startswith(self.HEADING)
        self.seen = set(self.lines)

    case = File.case
    write = File.write

    def once(self, *columns):
        """A case, where the file does not have it."""
        line = " | ".join(columns)
        if line not in self.seen:
            self.seen.add(line)
            self.case(*columns)
