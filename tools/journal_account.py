"""What a journal is, in plain Python: the form of each line as a pattern over its bytes, which entries fit a history, the seal by
Python's hmac, and what reading answers. What is a fault of a key's policy is told by the reader of make_policies.py.
"""

import base64
import collections
import functools
import hashlib
import hmac
import re

import make_policies
from make_key_lives import ACCOUNT, DAY
from whole_account import GRANT_OPERATIONS, PRINCIPAL, REGION, is_alias

YEAR_10000 = 253_402_300_800


# ---- the form of lines

def base64_of(data):
    return base64.b64encode(data.encode() if isinstance(data, str) else data).decode()


def bytes_of(text):
    """The bytes that a base64 text is, in the one spelling that they have."""
    data = base64.b64decode(text, validate=True)
    return data if base64.b64encode(data) == text else None


def text_of(text):
    """The text whose bytes a base64 text is."""
    data = bytes_of(text)
    return data.decode() if data is not None else None


def alias_of(text):
    name = text_of(text)
    return name if name is not None and is_alias(name) else None


def principal_of(text):
    arn = text_of(text)
    return arn if arn is not None and PRINCIPAL.fullmatch(arn) else None


def context_of(text):
    """The encoding of pairs, each key before the next."""
    data, keys = bytes_of(text), []
    if data is None:
        return None
    rest = data
    while rest:
        pair = []
        for _ in range(2):
            size = int.from_bytes(rest[:4], "big")
            if len(rest) < 4 + size:
                return None
            pair.append(rest[4:4 + size].decode())
            rest = rest[4 + size:]
        keys.append(pair[0].encode())
    return data if len(data) <= 8192 and all(key < after for key, after in zip(keys, keys[1:])) else None


TEXT = rb'[A-Za-z0-9+/=]*'
TAG = rb'\{"key":"(%s)","value":"(%s)"\}' % (TEXT, TEXT)


def many(item):
    return rb'\[(?:%s(?:,%s)*)?\]' % (item, item)


def tags_of(text):
    """Tags in order of their keys. A key may stand twice, which fits nowhere."""
    tags = [(text_of(key), text_of(value)) for key, value in re.findall(TAG, text)]
    if any(None in tag for tag in tags):
        return None
    keys = [key.encode() for key, _ in tags]
    return tags if keys == sorted(keys) else None


def names_of(text):
    names = [text_of(name) for name in re.findall(rb'"(%s)"' % TEXT, text)]
    return names if None not in names else None


def operations_of(text):
    """Names of operations in their order, each once."""
    names = [name.decode() for name in re.findall(rb'"(\w*)"', text)]
    return names if names == [name for name in GRANT_OPERATIONS if name in names] else None


def plain(text):
    return text.decode()


def number(most):
    return lambda text: int(text) if int(text) < most else None


QUOTED = rb'"(?:%s)"' % TEXT
HEX = {size: rb'"[0-9a-f]{%d}"' % (2 * size) for size in (16, 32)}
DIGITS = rb'(?:0|[1-9][0-9]*)'


def unquoted(read):
    return lambda text: read(text[1:-1])


FORMS = {
    "date": (DIGITS, number(1 << 64)),
    "days": (DIGITS, number(1 << 32)),
    "description": (QUOTED, unquoted(text_of)),
    "equals": (QUOTED, unquoted(context_of)),
    "grant": (HEX[32], unquoted(plain)),
    "grantee": (QUOTED, unquoted(principal_of)),
    "key": (HEX[16], unquoted(plain)),
    "kind": (rb'"(?:symmetric|hmac256)"', unquoted(plain)),
    "name": (QUOTED, unquoted(text_of)),
    "names": (many(QUOTED), names_of),
    "operations": (many(rb'"\w*"'), operations_of),
    "period": (DIGITS, number(1 << 32)),
    "policy": (QUOTED, unquoted(text_of)),
    "retiring": (QUOTED, unquoted(principal_of)),
    "subset": (QUOTED, unquoted(context_of)),
    "tags": (many(TAG.replace(b"(", b"(?:")), tags_of),
    "text": (QUOTED, unquoted(text_of)),
    "time": (DIGITS, number(1 << 64)),
    "what": (rb'"\w+"', unquoted(plain)),
}
MEMBERS = {
    "CreateKey": "description key kind policy tags",
    "Enable": "key", "Disable": "key", "Cancel": "key", "RotationOff": "key", "RotateNow": "key",
    "Schedule": "date days key",
    "RotationOn": "key period",
    "Policy": "key text", "Description": "key text",
    "AliasPut": "key name", "AliasDrop": "name",
    "GrantAdd": "equals? grant grantee key name? operations retiring? subset?", "GrantDrop": "grant",
    "Tag": "key tags", "Untag": "key names",
    "House": "",
}


def pattern_of(what):
    """The pattern of an entry's line: its members in the byte order of their names."""
    parts = []
    for name in MEMBERS[what].split() + ["time"]:
        member = name.rstrip("?")
        part = rb'"%s":(?P<%s>%s),' % (member.encode(), member.encode(), FORMS[member][0])
        parts.append(rb'(?:%s)?' % part if name.endswith("?") else part)
    return re.compile(rb'\{' + b"".join(parts) + rb'"what":"%s"\}\n' % what.encode())


PATTERNS = {what: pattern_of(what) for what in MEMBERS}
HEAD = re.compile(rb'kms-journal 1 ([0-9]{12}) ([a-z0-9-]{1,32}) (0|[1-9][0-9]*)\n')
END = re.compile(rb'end (0|[1-9][0-9]*) ([0-9a-f]{64})\n')


def values_of(what, found):
    """What the members of a line are, where each has its form."""
    entry = {"what": what}
    for name, text in found.items():
        if text is not None:
            read = alias_of if name == "name" and what.startswith("Alias") else FORMS[name][1]
            entry[name] = read(text[1:-1]) if read is alias_of else read(text)
    both = "equals" in entry and "subset" in entry
    return entry if None not in entry.values() and not both else None


@functools.cache
def entry_of(line):
    """The entry whose line this is."""
    for what, pattern in PATTERNS.items():
        found = pattern.fullmatch(line)
        if found:
            try:
                return values_of(what, found.groupdict())
            except ValueError:
                return None
    return None


# ---- what fits

@functools.cache
def is_policy(text):
    return len(text.encode()) <= 32768 and make_policies.answer("key", text).startswith("key")


def are_tag_keys(keys):
    return all(1 <= len(key) <= 128 for key in keys)


def are_tags(tags):
    """What requests may give: at most 50, with keys and values of their sizes, no key that is reserved and none twice."""
    keys = [key for key, _ in tags]
    sizes = len(tags) <= 50 and are_tag_keys(keys) and all(len(value) <= 256 for _, value in tags)
    return sizes and not any(key[:4].lower() == "aws:" for key in keys) and len(set(keys)) == len(keys)


def is_short_arn(arn):
    """The texts of principals that requests may give have at most 256 bytes."""
    return arn is None or len(arn) <= 256


class History:
    """The keys, aliases and grants behind some entries."""

    def __init__(self):
        self.keys, self.aliases, self.grants, self.of_key = {}, {}, {}, collections.Counter()
        self.entries, self.latest = 0, 0

    def is_gone(self, key, time):
        return key["state"] == "Pending" and key["date"] <= time

    def is_due(self, key, time):
        return key["state"] == "Enabled" and key["period"] is not None and key["next"] <= time

    def live(self, name, time):
        key = self.keys.get(name)
        return key if key is not None and not self.is_gone(key, time) else None

    # ---- which entries fit

    def fits(self, entry):
        what, time = entry["what"], entry["time"]
        if not self.latest <= time < YEAR_10000 or self.entries >= 1_000_000:
            return False
        if what in ("CreateKey", "GrantAdd") and int((entry["key"] if what == "CreateKey" else entry["grant"])[-12:], 16) != self.entries:
            return False
        if what != "CreateKey" and "key" in entry and self.live(entry["key"], time) is None:
            return False
        return getattr(self, "fits_" + what, lambda entry: True)(entry)

    def fits_CreateKey(self, entry):
        good = len(entry["description"].encode()) <= 8192 and is_policy(entry["policy"]) and are_tags(entry["tags"])
        return good and len(self.keys) < 10_000

    def fits_Schedule(self, entry):
        return 7 <= entry["days"] <= 30 and entry["date"] == entry["time"] + entry["days"] * DAY

    def fits_RotationOn(self, entry):
        return 90 <= entry["period"] <= 2560

    def fits_RotateNow(self, entry):
        return self.keys[entry["key"]]["on_demand"] < 10

    def fits_Policy(self, entry):
        return is_policy(entry["text"])

    def fits_Description(self, entry):
        return len(entry["text"].encode()) <= 8192

    def fits_Tag(self, entry):
        return are_tags(entry["tags"]) and len(self.keys[entry["key"]]["tags"] | dict(entry["tags"])) <= 50

    def fits_Untag(self, entry):
        return 1 <= len(entry["names"]) <= 50 and are_tag_keys(entry["names"])

    def fits_AliasPut(self, entry):
        return entry["name"] in self.aliases or len(self.aliases) < 10_000

    def fits_AliasDrop(self, entry):
        return self.live(self.aliases.get(entry["name"]), entry["time"]) is not None

    def fits_GrantAdd(self, entry):
        constraint = entry.get("equals", entry.get("subset", b""))
        good = entry["operations"] and len(constraint) <= 4096 and re.fullmatch("[a-zA-Z0-9:/_-]{1,256}", entry.get("name", "-"))
        short = is_short_arn(entry["grantee"]) and is_short_arn(entry.get("retiring"))
        return good and short and self.of_key[entry["key"]] < 5_000 and len(self.grants) < 50_000

    def fits_GrantDrop(self, entry):
        return self.live(self.grants.get(entry["grant"]), entry["time"]) is not None

    def fits_House(self, entry):
        return any(self.is_gone(key, entry["time"]) or self.is_due(key, entry["time"]) for key in self.keys.values())

    # ---- what entries do

    def push(self, entry):
        key = self.keys.get(entry.get("key"))
        getattr(self, "push_" + entry["what"])(entry, key)
        self.entries, self.latest = self.entries + 1, entry["time"]

    def push_CreateKey(self, entry, key):
        self.keys[entry["key"]] = {"state": "Enabled", "date": 0, "period": None, "next": 0, "on_demand": 0, "tags": dict(entry["tags"])}

    def push_Enable(self, entry, key):
        key["state"] = "Enabled"

    def push_Disable(self, entry, key):
        key["state"] = "Disabled"

    push_Cancel = push_Disable

    def push_Schedule(self, entry, key):
        key["state"], key["date"] = "Pending", entry["date"]

    def push_RotationOn(self, entry, key):
        key["period"], key["next"] = entry["period"], entry["time"] + entry["period"] * DAY

    def push_RotationOff(self, entry, key):
        key["period"] = None

    def push_RotateNow(self, entry, key):
        key["on_demand"] += 1

    def push_Policy(self, entry, key):
        pass

    push_Description = push_Policy

    def push_Tag(self, entry, key):
        key["tags"] |= dict(entry["tags"])

    def push_Untag(self, entry, key):
        for name in entry["names"]:
            key["tags"].pop(name, None)

    def push_AliasPut(self, entry, key):
        self.aliases[entry["name"]] = entry["key"]

    def push_AliasDrop(self, entry, key):
        del self.aliases[entry["name"]]

    def push_GrantAdd(self, entry, key):
        self.grants[entry["grant"]] = entry["key"]
        self.of_key[entry["key"]] += 1

    def push_GrantDrop(self, entry, key):
        self.of_key[self.grants.pop(entry["grant"])] -= 1

    def push_House(self, entry, key):
        gone = {name for name, row in self.keys.items() if self.is_gone(row, entry["time"])}
        self.keys = {name: row for name, row in self.keys.items() if name not in gone}
        self.aliases = {name: of for name, of in self.aliases.items() if of not in gone}
        self.grants = {name: of for name, of in self.grants.items() if of not in gone}
        self.of_key = collections.Counter(self.grants.values())
        for row in self.keys.values():
            if self.is_due(row, entry["time"]):
                row["next"] = entry["time"] + row["period"] * DAY


# ---- reading a journal

class Reader:
    """Who reads: the account, the region, the root secret and the boot number of a configuration."""

    def __init__(self, name, account=ACCOUNT, region=REGION, root=bytes(32), boot=2):
        self.name, self.account, self.region, self.root, self.boot = name, account, region, root, boot

    def config(self):
        """The configuration, as a file has it."""
        return {"account": self.account, "region": self.region, "root": self.root.hex(), "boot": self.boot, "credentials": [], "policies": []}

    def boot_in(self, line):
        """The boot number of a first line of this account and region."""
        found = HEAD.fullmatch(line)
        if found and found[1].decode() == self.account and found[2].decode() == self.region and int(found[3]) < 1 << 32:
            return int(found[3])
        return None

    def answer(self, text):
        lines = text.split(b"\n")
        lines = [line + b"\n" for line in lines[:-1]] + ([lines[-1]] if lines[-1] else [])
        history, boot, end, before = History(), None, None, b""
        for place, line in enumerate(lines, 1):
            if place == 1:
                boot = self.boot_in(line)
                good = boot is not None
            elif end is None and END.fullmatch(line):
                good, end = True, END.fullmatch(line)
            else:
                entry = entry_of(line) if end is None else None
                good = entry is not None and history.fits(entry)
                if good:
                    history.push(entry)
            if not good:
                return f"At {place}"
            before += line if end is None else b""
        if end is None:
            return f"At {text.count(10) + 1}"
        if int(end[1]) != history.entries or end[2].decode() != seal(before, self.root):
            return f"At {len(lines)}"
        return f"Ok {history.entries}, same text" if boot < self.boot else "OldBoot"


def seal(before, root=bytes(32)):
    return hmac.new(root, b"journal" + before, hashlib.sha256).hexdigest()
