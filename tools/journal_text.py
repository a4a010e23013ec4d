"""The journal of an account, as a text: a first line, a line for each entry, and a last line that seals them.

An entry is a dict of its members, as `kms_local` writes them: `time`, `what`, and those that `what` has (docs/journal.md). Texts are written
by Python's `base64` and `json`, and the seal is that of its `hmac`.
"""

import base64
import hashlib
import hmac
import json


def base64_of(text):
    """A text, or bytes, in base64."""
    return base64.b64encode(text.encode() if isinstance(text, str) else text).decode()


def tags_of(pairs):
    """Tags as a list of pairs, in the order of their keys' bytes."""
    return [{"key": base64_of(name), "value": base64_of(value)} for name, value in sorted(pairs, key=lambda pair: pair[0].encode())]


def head_line(account, region, boot):
    return f"kms-journal 1 {account} {region} {boot}\n"


def entry_line(entry):
    """The line of an entry: compact JSON, with its members in the order of their names."""
    return json.dumps(entry, separators=(",", ":"), sort_keys=True) + "\n"


def end_line(front, number, root):
    """The last line behind a text, which says that it has so many entries."""
    return f"end {number} {hmac.new(root, b'journal' + front.encode(), hashlib.sha256).hexdigest()}\n"


def sealed(lines, root, number=None):
    """A text of these lines, the first one and those of the entries, with its last line, which may say another number."""
    front = "".join(lines)
    return front + end_line(front, len(lines) - 1 if number is None else number, root)


def journal(account, region, root, boot, entries):
    """The journal of these entries, which a run of this boot number writes."""
    return sealed([head_line(account, region, boot), *map(entry_line, entries)], root)
