#!/usr/bin/env python3
"""Cases of kept journals: data/journals.txt, config.json and others of crates/kept_cases, by Python's hmac and json. See crates/kept_cases/README.md.

What a file of records stands for, and what a log asks of its file, is the model of make_kept.py; which entries fit is told by the account of
journal_account.py. Nothing is taken from the program."""

import hashlib
import hmac
import json
import os
import re


from journal_account import ACCOUNT, REGION, History, entry_of
from make_journals import START, created, named, on_key, tagged
from make_kept import FOLDER, PLENTY, Failed, File, Log, records, whole, word

CONFIGS = {
    "config.json": (ACCOUNT, REGION, bytes(32), 2),
    "other_account.json": ("444455556666", REGION, bytes(32), 2),
    "other_region.json": (ACCOUNT, "eu-west-1", bytes(32), 2),
    "other_root.json": (ACCOUNT, REGION, bytes(31) + b"\1", 2),
    "last_boot.json": (ACCOUNT, REGION, bytes(32), 2 ** 32 - 1),
}
LINE = re.compile(rb'(\{(?:"kept":1,"account":"(?P<account>[0-9]{12})","region":(?P<region>"[^"\\]*")|"start":(?P<start>0|[1-9][0-9]*)'
                  rb'|"entry":(?P<entry>\{.*\})))(?:,"seal":"(?P<seal>[0-9a-f]{64})"\}\n)', re.DOTALL)


class Chain:
    """Lines with their seals, under a root secret."""

    def __init__(self, root=bytes(32)):
        self.key, self.last, self.lines = hmac.new(root, b"kept", hashlib.sha256).digest(), bytes(32), []

    def add(self, text):
        """A line up to its seal, with its brace."""
        text = text.encode() if isinstance(text, str) else text
        self.last = hmac.new(self.key, self.last + text, hashlib.sha256).digest()
        self.lines.append(text + b',"seal":"' + self.last.hex().encode() + b'"}\n')
        return self

    def text(self):
        return b"".join(self.lines)


def head(account=ACCOUNT, region=REGION):
    return '{"kept":1,"account":"%s","region":%s' % (account, json.dumps(region))


def start(number):
    return '{"start":%d' % number


def change(line):
    return '{"entry":' + line


def journal(*texts, root=bytes(32), first=None):
    chain = Chain(root).add(first or head())
    for text in texts:
        chain.add(text)
    return chain.text()


def follows(key, before, line):
    """Whether a line has the right seal behind the one before it, by the seal with which that one ends, whatever stands before it."""
    shown = re.search(rb',"seal":"([0-9a-f]{64})"\}\Z', before)
    found = re.fullmatch(rb'(\{.*),"seal":"([0-9a-f]{64})"\}', line, re.DOTALL)
    return shown is not None and found is not None and hmac.new(key, bytes.fromhex(shown[1].decode()) + found[1], hashlib.sha256).hexdigest() == found[2].decode()


def is_lost(key, data):
    """Whether the line behind the whole ones was lost by hand. A new file's first line is written with a start behind it, so there a third line has to tell it."""
    end = whole(data)
    left = data[end:]
    if left.startswith(b"\t") and not left.startswith(b"\t{"):
        return False
    lines = left.split(b"\n")[:-1]
    if end == 0:
        lines = lines[1:]
    return any(follows(key, before, line) for before, line in zip(lines, lines[1:]))


def answer(config, seconds, calls, data, changes):
    """What a run on this file answers, and the file that it leaves."""
    account, region, root, boot = CONFIGS[config]
    text = data[:whole(data)]
    lines = text.split(b"\n")[:-1]
    if seconds is not None:
        shown = [int(found[1]) for line in lines if (found := re.match(rb'\{"start":(0|[1-9][0-9]{0,17}),', line)) and int(found[1]) < 2 ** 32]
        boot = max(max(shown, default=0) + 1, boot, seconds)
        if boot >= 2 ** 32:
            return "no boot"
    chain, history, last = Chain(root), History(), 0
    for place, line in enumerate(lines, 1):
        found = LINE.fullmatch(line + b"\n")
        good = found is not None and chain.add(found[1]).lines[-1] == line + b"\n"
        if good and place == 1:
            good = found["account"] == account.encode() and found["region"] == json.dumps(region).encode()
        elif good and found["start"] is not None:
            number = int(found["start"])
            good, last = last < number < 2 ** 32, number
        elif good:
            entry = entry_of(found["entry"] + b"\n") if found["entry"] else None
            good = entry is not None and history.fits(entry)
            if good:
                history.push(entry)
        if not good:
            return f"at {place}"
    if boot <= last:
        return "old boot"
    if is_lost(chain.key, data):
        return f"at {len(lines) + 1}"
    left = data[len(text):]
    said = f"boot {boot}, {history.entries} entries, {len(left) if left.strip(bytes([9])) else 0} torn"
    file = File(data, calls)
    log = Log("mixing", file)
    if not log.is_open:
        return f"{said}; failed; {word(file.data) if file.data else ''}"
    batch = []
    if not lines:
        chain.add(head(account, region))
        batch.append(chain.lines[-1][1:-1])
    chain.add(start(boot))
    batch.append(chain.lines[-1][1:-1])
    kept = log.append(batch)
    if kept != "ok":
        return f"{said}; {kept}; {word(file.data)}"
    said += "; open"
    for text in changes:
        before = chain.last
        chain.add(change(text))
        kept = log.append([chain.lines[-1][1:-1]])
        said += " kept" if kept == "ok" else " " + kept
        if kept != "ok":
            chain.last = before
    return f"{said}; {word(file.data)}"


class Cases:
    def __init__(self):
        self.lines = []

    def note(self, text):
        self.lines += ["", "# " + text]

    def add(self, data, changes=(), config="config.json", seconds=7, calls=PLENTY):
        shown = " / ".join(word(text.encode()) for text in changes) or "none"
        wanted = answer(config, seconds, calls, data, changes)
        self.lines.append(f"journal | {config} | {'-' if seconds is None else seconds} | {calls} | {word(data)} | {shown} | {wanted}")


def forms(cases, full):
    """Lines that aren't of their forms, sealed as they stand."""
    key = change(created())
    for text in ['{"start":07', '{"start":4294967296', '{"start":-1', '{"start":', '{"start":7 ', '{"started":7', '{"entry":{}', '{"entry":' + created() + " ", '{"entry":7', "{", '{"kept":1',
                 head(), '{"start":7,"x":1', '{"other":1']:
        cases.add(journal(start(3), key, text, change(on_key("Disable"))))
    for first in [head("111122223334"), head(region="us-east-2"), head() + " ", '{"kept":2' + head()[9:], start(3)]:
        cases.add(journal(start(3), first=first))
    assert full.endswith(b"\n")


def main():
    cases, key, off = Cases(), created(), on_key("Disable", START + 1)
    alias, tag = named("alias/app", START + 2), tagged(("env", "prod"), time=START + 3)
    full = journal(start(3), change(key), change(off), start(5), change(alias), start(6))
    cases.note("a new file, and what is kept in it")
    cases.add(b"", [])
    cases.add(b"\t\t", [key, off, alias, tag])
    cases.add(b'{"kept":1', [key])
    cases.note("a file that was kept: its changes, its starts, and more of both")
    cases.add(full, [tag])
    cases.add(full + b"\t" * 40, [tag, on_key("Enable", START + 4)])
    cases.add(journal(), [key])
    cases.add(journal(change(key)), [off])
    cases.add(journal(start(1)))
    cases.note("the boot number: above each start, no less than the configuration's and the seconds since 1970, below 2^32")
    for seconds in [0, 3, 6, 7, 8, 1_700_000_000, 2 ** 32 - 1, 2 ** 32]:
        cases.add(full, seconds=seconds)
    cases.add(full, config="last_boot.json")
    cases.add(journal(start(2 ** 32 - 1)))
    cases.add(journal(start(2 ** 32 - 2)))
    cases.add(full, seconds=None)
    cases.add(journal(start(1)), seconds=None)
    cases.add(journal(start(2)), seconds=None)
    cases.note("starts that don't rise, and changes that don't fit")
    cases.add(journal(start(3), start(3)))
    cases.add(journal(start(3), start(2)))
    cases.add(journal(start(3), change(off)))
    cases.add(journal(start(3), change(key), change(key)))
    cases.add(journal(start(3), change(key), change(tag), change(off)))
    cases.note("lines that haven't their form")
    forms(cases, full)
    cases.note("another account, region or root secret")
    for config in ["other_account.json", "other_region.json", "other_root.json"]:
        cases.add(full, config=config)
        cases.add(b"", [], config=config)
    cases.note("lines that were changed by hand: one left out, two in another order, one of another file")
    lines = full.split(b"\n")[:-1]
    for place in range(len(lines)):
        cases.add(b"".join(line + b"\n" for line in lines[:place] + lines[place + 1:]))
    for place in range(len(lines) - 1):
        cases.add(b"".join(line + b"\n" for line in lines[:place] + [lines[place + 1], lines[place]] + lines[place + 2:]))
    other = journal(start(4), change(key)).split(b"\n")
    for place in range(3):
        cases.add(b"".join(line + b"\n" for line in lines[:place] + [other[place]] + lines[place + 1:]))
    cases.note("lines that were lost by hand: without a brace, or with a tab in it")
    for place, line in enumerate(lines):
        for lost in [line[1:], b"\t" + line, b"\t" + line[1:], line[:30] + b"\t" + line[30:], line[:-40] + b"\t" + line[-40:], line + b"\t", line[1:-1], b"x", b""]:
            cases.add(b"".join(line + b"\n" for line in lines[:place] + [lost] + lines[place + 1:]))
    cases.add(b"".join(line + b"\n" for line in lines[:2] + [lines[2][1:], lines[3][1:]] + lines[4:]))
    cases.add(b"".join(line + b"\n" for line in lines[:2] + [b"x", lines[3], b"x", lines[5]]))
    cases.add(b"".join(line + b"\n" for line in lines[:2] + [b"x", b""] + lines[2:4]))
    cases.add(full[:-1] + b"\t\n" + b"\t" * 40)
    cases.note("what a crash leaves of the first append, and of the next ones")
    opened = journal(start(7))
    for gate in [b"\t", b"x", b""]:
        cases.add(gate + opened[1:])
        cases.add(gate + opened[1:] + b"\t" * 40, [key])
        cases.add(gate + opened[1:-1] + b"\t")
    for size in [5, 40, 200, 400]:
        cases.add(opened + b"\t" + journal(start(7), change(key))[len(opened) + 1:][:size] + b"\t" * 40, [key])
        cases.add(opened + journal(start(7), change(key))[len(opened):][:size] + b"\t" * 40, [key])
    cases.note("a bit turned at each byte of a short file: refused at its line, or behind the end")
    short = journal(start(3), change(off))
    for place in range(len(short)):
        cases.add(short[:place] + bytes([short[place] ^ 1]) + short[place + 1:])
    cases.note("a file that is cut short at each byte of its last line, with what stands behind")
    brief = journal(start(3))
    for place in range(len(brief) - len(brief.split(b"\n")[1]) - 1, len(brief)):
        cases.add(brief[:place])
    cases.add(brief[:-1] + b"\t" + brief)
    cases.note("a file that fails at each of its calls")
    for calls in range(10):
        cases.add(brief, [key, off], calls=calls)
    for calls in range(12):
        cases.add(b"", [key, off], calls=calls)
    head_lines = ["# Kept journals over files in memory. What a column has to say stands in README.md.", "# Made by tools/make_kept_journals.py."]
    with open(os.path.join(FOLDER, "data", "journals.txt"), "w", encoding="utf-8", newline="\n") as out:
        out.write("\n".join(head_lines + cases.lines) + "\n")
    for name, (account, region, root, boot) in CONFIGS.items():
        with open(os.path.join(FOLDER, "data", name), "w", encoding="utf-8", newline="\n") as out:
            out.write(json.dumps({"account": account, "region": region, "root": root.hex(), "boot": boot, "credentials": [], "policies": []}) + "\n")
    count = sum(not line.startswith("#") and line != "" for line in cases.lines)
    path = os.path.join(FOLDER, "stdout")
    with open(path, encoding="utf-8") as old:
        first = [line for line in old if not line.startswith("journals.txt")]
    with open(path, "w", encoding="utf-8", newline="\n") as out:
        out.write("".join(first) + f"journals.txt: {count} cases, {count} answered as wanted\n")


if __name__ == "__main__":
    main()
