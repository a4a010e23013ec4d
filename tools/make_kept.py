#!/usr/bin/env python3
"""Cases of kept_log: data/cases.txt and stdout of crates/kept_cases, from a model of a file of records in
plain Python. See crates/kept_cases/README.md.

What a file stands for is a regular expression here, what the log asks of its file a few lines, and what a
crash leaves of a write each byte old or new, or any byte. Each image that is made so is asserted to stand
for the records from before or for all of them."""

import os
import random
import re

FOLDER = os.path.join(os.path.dirname(os.path.abspath(__file__)), "..", "crates", "kept_cases")
ROOM = 16384
WHOLE = re.compile(rb"(?:\{[^\n\t]*\n)*")
PLENTY = 1000


def whole(file):
    """Where the whole lines end."""
    return WHOLE.match(file).end()


def records(file):
    """The bodies of the whole lines."""
    return [line[1:] for line in file[:whole(file)].split(b"\n")[:-1]]


class Failed(Exception):
    pass


class File:
    """A file that fails after so many calls, with the calls that it had."""

    def __init__(self, data, calls):
        self.data, self.calls, self.steps, self.faults = data, calls, [], 0

    def call(self, step):
        if self.calls == 0:
            self.faults += 1
            raise Failed
        self.calls -= 1
        self.steps.append(step)

    def write(self, at, data):
        self.call(("w", at, data))
        self.data = self.data[:at] + data + self.data[at + len(data):]

    def cut(self, size):
        self.call(("c", size))
        self.data = self.data[:size]

    def sync(self):
        self.call(("s",))


class Log:
    def __init__(self, reading, file):
        self.mixes, self.file = reading == "mixing", file
        self.end = whole(file.data)
        self.is_open = True
        try:
            file.cut(self.end)
            file.sync()
            file.write(self.end, b"\t")
            file.sync()
        except Failed:
            self.is_open = False

    def append(self, batch):
        if not self.is_open:
            return "shut"
        if not batch:
            return "ok"
        text = b"".join(b"{" + body + b"\n" for body in batch)
        room = len(self.file.data) - self.end
        pad = b"" if len(text) < room else b"\t" * ROOM
        try:
            if self.mixes and len(batch) == 1 and not pad:
                self.file.write(self.end, text)
                self.file.sync()
            else:
                self.file.write(self.end + 1, text[1:] + pad)
                self.file.sync()
                self.file.write(self.end, b"{")
                self.file.sync()
        except Failed:
            self.is_open = False
            return "failed"
        self.end += len(text)
        return "ok"


def word(data):
    """Bytes as a word of a case."""
    def mark(match):
        run, byte = match[0], match[0][0]
        is_shown = byte == 10 or (32 < byte < 127 and byte != 92)
        if len(run) > 8 or not is_shown:
            return b"\\%dx%02x." % (len(run), byte)
        return run.replace(b"\n", b"\\n")
    return re.sub(rb"(?s)(.)\1*", mark, data).decode() or "-"


def step_word(step):
    if step[0] == "w":
        return f"w{step[1]}+{len(step[2])}"
    return step[0] + "".join(str(part) for part in step[1:])


def batch_word(batch):
    return " ".join(word(body) if body else "''" for body in batch) or "-"


def torn(start, steps, part):
    """What a crash leaves once all of these calls but the last came whole, and so much of the last."""
    data = file_after(start, steps[:-1])
    kind, *words = steps[-1]
    if kind == "w":
        at, new = words[0], words[1][:part]
        return data[:at] + new + data[at + len(new):]
    return data[:words[0] + part] if kind == "c" else data


def is_plain(batch):
    return not any(b"\n" in body or b"\t" in body for body in batch)


class Cases:
    def __init__(self):
        self.lines = []

    def note(self, text):
        self.lines += ["", "# " + text]

    def log(self, reading, data, batches=(), calls=PLENTY):
        """A case of a log; it answers the file that it leaves."""
        file = File(data, calls)
        log = Log(reading, file)
        words = ["open" if log.is_open else "shut"]
        for batch in batches:
            words.append(log.append(batch) if is_plain(batch) else "unfit")
        shown = " / ".join(batch_word(batch) for batch in batches) or "none"
        steps = "".join(" " + step_word(step) for step in file.steps)
        left = "" if not file.data else word(file.data)
        wanted = f"{' '.join(words)};{steps}; {file.faults}; {left}"
        self.lines.append(f"log | {reading} | {calls} | {word(data)} | {shown} | {wanted}")
        return file

    def torn(self, reading, data, batches):
        """Cases of what a crash leaves, torn at each byte of each call of a log."""
        file = File(data, PLENTY)
        log = Log(reading, file)
        had, kept = records(data), [records(data)]
        for batch in batches:
            assert log.append(batch) == "ok"
            had = had + batch
            kept.append(had)
        shown = " / ".join(batch_word(batch) for batch in batches)
        for count, step in enumerate([*file.steps, ("s",)]):
            last = {"w": lambda: len(step[2].rstrip(b"\t")) + 2, "c": lambda: len(data) - step[1] + 1, "s": lambda: 1}[step[0]]()
            for part in range(last):
                left = torn(data, [*file.steps, ("s",)][:count + 1], part)
                assert records(left) in kept
                self.lines.append(f"torn | {reading} | {word(data)} | {shown} | {count} | {part} | {whole(left)}; {'' if not left else word(left)}")

    def whole(self, data):
        self.lines.append(f"whole | {word(data)} | {whole(data)}")


def left_by(start, steps, mixing, chance):
    """Images that a crash may leave once these calls were made of a file whose bytes were on the disk."""
    images = [start]
    for step in steps:
        if step[0] == "s":
            images = [file_after(start, steps[:steps.index(step) + 1])]
            continue
        torn = []
        for image in images:
            if step[0] == "c":
                torn += [image[:size] for size in range(step[1], len(image) + 1)]
                continue
            _, at, data = step
            end = at + len(data)
            old = image[at:end]
            within = end <= len(image)
            # of the room behind the lines a few places do
            lines = len(data.rstrip(b"\t"))
            for taken in [*range(min(lines + 3, len(data) + 1)), *range(max(lines + 3, len(data) - 1), len(data) + 1)]:
                torn.append(image[:at] + data[:taken] + old[taken:] + image[end:])
                if within:
                    torn.append(image[:at] + old[:taken] + data[taken:] + image[end:])
                    torn.append(image[:at] + data[:taken] + old[taken:taken + 1] + data[taken + 1:] + image[end:])
                elif taken > len(old):
                    torn.append(image[:at] + bytes(taken) + image[end:])
            if within:
                for _ in range(8):
                    torn.append(image[:at] + bytes(chance.choice(pair) for pair in zip(old, data)) + image[end:])
            if not mixing:
                for _ in range(8):
                    junk = bytes(chance.choice(b"{}\n\t\0x") for _ in data[:lines]) + data[lines:]
                    torn.append(image[:at] + junk + image[end:])
        images = torn
    return images


def file_after(start, steps):
    file = File(start, PLENTY)
    for step in steps:
        if step[0] == "w":
            file.write(*step[1:])
        elif step[0] == "c":
            file.cut(*step[1:])
    return file.data


def tears(cases, reading, before, batches, chance):
    """Each image that a crash may leave within the last batch of these, opened and appended to."""
    log = Log(reading, File(before, PLENTY))
    for batch in batches[:-1]:
        assert log.append(batch) == "ok"
    file = log.file
    old, made = file.data, len(file.steps)
    assert log.append(batches[-1]) == "ok"
    steps = file.steps[made:]
    had = records(old)
    seen = set()
    for count in range(len(steps) + 1):
        # from the last sync on, all that was done may be torn
        since = max([i + 1 for i in range(count) if steps[i] == ("s",)], default=0)
        start = file_after(old, steps[:since])
        for image in left_by(start, steps[since:count], reading == "mixing", chance):
            assert records(image) in (had, had + list(batches[-1])), (reading, image)
            if image not in seen:
                seen.add(image)
                cases.log(reading, image, [[b'"z":9}']])


def main():
    cases = Cases()
    chance = random.Random("kept")
    one, two, three = b'"a":1}', b'"b":2}', b'"c":3}'
    text = b"".join(b"{" + body + b"\n" for body in (one, two, three))
    cases.note("where the whole lines end")
    for data in [b"", b"\t", b"{", b"{\n", b"\n", b"{\t\n", b"{{\n", text, text + b"\t", text[:-1], b" " + text, b"\t" + text, text + b"x" + text,
                 text + b"\t" + text, text[:8] + b'{"b"\t}\n' + text, text.replace(b"b", b"\xff").replace(b"c", b"\0")]:
        cases.whole(data)
    for end in range(len(text)):
        cases.whole(text[:end] + b"\t" + text[end + 1:])
    cases.note("a new file, and files with records: opened, and nothing else")
    for reading in ["mixing", "wary"]:
        for data in [b"", b"\t", text, text + b"\t" * 5, text[:-1], text + text[:3] + b"\t\t" + text]:
            cases.log(reading, data)
    cases.note("records one by one, in batches, of no bytes, and in a batch of none")
    for reading in ["mixing", "wary"]:
        cases.log(reading, b"", [[one]])
        cases.log(reading, b"", [[one], [two], [three]])
        cases.log(reading, b"", [[one, two, three]])
        cases.log(reading, b"", [[one], [two, three], [one]])
        cases.log(reading, text, [[], [b""], [b"", b""], [b"{}"]])
        cases.log(reading, text, [[b"\0\x0b\x0c\r\x1f\x7f\x80\xff"]])
    cases.note("a body with a line feed or a tab isn't appended")
    for reading in ["mixing", "wary"]:
        cases.log(reading, text, [[b"a\nb"], [one, b"\t"], [two]])
    cases.note("room: a record that leaves one tab, that would leave none, and that is longer")
    for reading in ["mixing", "wary"]:
        for spare in [2, 1, 0, -1]:
            first = Log(reading, File(b"", PLENTY))
            first.append([one])
            size = len(first.file.data) - first.end - 2 - spare
            cases.log(reading, b"", [[one], [b"x" * size], [two]])
    cases.note("a file that fails at each of its calls: the log is shut, and asks for nothing more")
    for reading in ["mixing", "wary"]:
        for calls in range(15):
            cases.log(reading, text, [[one], [two, three], [one], [two]], calls)
    cases.note("what a crash leaves, torn at each byte of each call")
    for reading in ["mixing", "wary"]:
        cases.torn(reading, text + text[:3] + b"\t\t", [[one]])
        cases.torn(reading, b"", [[one], [two, three], [b""]])
    for reading in ["mixing", "wary"]:
        for batches in ([[one], [two], [three]], [[one], [two, three]], [[one]], [[one, two]]):
            cases.note(f"{reading}: what a crash leaves while the last batch of {' / '.join(batch_word(b) for b in batches)} is appended")
            tears(cases, reading, b"", batches, chance)
    head = ["# Logs over files in memory. What a column has to say stands in README.md.", "# Made by tools/make_kept.py."]
    with open(os.path.join(FOLDER, "data", "cases.txt"), "w", encoding="utf-8", newline="\n") as out:
        out.write("\n".join(head + cases.lines) + "\n")
    count = sum(not line.startswith("#") and line != "" for line in cases.lines)
    with open(os.path.join(FOLDER, "stdout"), "w", encoding="utf-8", newline="\n") as out:
        out.write(f"cases.txt: {count} cases, {count} answered as wanted\n")


if __name__ == "__main__":
    main()
