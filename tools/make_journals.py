"""Writes crates/journal_cases/data and its stdout: python3 -B tools/make_journals.py

Of each case it writes the journal, which is sealed by Python's hmac whatever its lines are, and what reading it has to answer: that is
told by the account of journal_account.py. Nothing is taken from the program.
"""

import base64
import collections
import hashlib
import hmac
import json
import pathlib
import re

from journal_account import YEAR_10000, Reader, base64_of, seal
from make_key_lives import ACCOUNT, DAY, ROOT, START, key_id
from whole_account import DEFAULT_POLICY, GRANT_OPERATIONS, REGION, grant_id

PLACE = pathlib.Path(__file__).parent.parent / "crates/journal_cases"


# ---- entries and cases as texts

def line(what, time, /, **members):
    """An entry's line, of members as the text has them."""
    said = {name: value for name, value in members.items() if value is not None} | {"time": time, "what": what}
    return json.dumps(dict(sorted(said.items())), separators=(",", ":"))


class Case:
    """A journal in parts, and who reads it."""

    def __init__(self, name, *parts, by=None, number=None, root=bytes(32), end=None):
        self.name, self.by, self.parts = name, by or READERS["config.json"], list(parts)
        before = self.text()
        if end is None:
            end = f"end {before.count(10) - 1 if number is None else number} {seal(before, root)}"
        self.parts += [end] if isinstance(end, str) else end

    def text(self):
        return b"".join(bytes_in(part) for part in self.parts)

    def answer(self):
        return f"{self.name}: {self.by.answer(self.text())}"

    def written(self):
        with_whom = [] if self.by.name == "config.json" else [f"by {self.by.name}"]
        return "\n".join([f"case {self.name}", *with_whom, *(said for part in self.parts for said in said_of(part))])


class Named:
    """A text that several cases have."""

    def __init__(self, name, *parts):
        self.name, self.parts = name, parts

    def written(self):
        return "\n".join([f"text {self.name}", *(said for part in self.parts for said in said_of(part))])


class Raw:
    """Bytes without a line feed behind them."""

    def __init__(self, data):
        self.data = data.encode() if isinstance(data, str) else data

    def said(self):
        plain = re.fullmatch(rb"[ -~]+", self.data)
        return f">{self.data.decode()}" if plain else f":{self.data.hex()}"


class Run:
    """A text so many times."""

    def __init__(self, count, text):
        self.count, self.text = count, text


class Lines(Run):
    """A line so many times, for entries from a place on: in each `@` is its place in 12 digits of hex, and `~` an alias of them in base64."""

    def __init__(self, count, first, text):
        super().__init__(count, text)
        self.first = first

    def one(self, place):
        digits = f"{place:012x}"
        return self.text.replace("@", digits).replace("~", base64_of("alias/" + digits)) + "\n"


def bytes_in(part):
    if isinstance(part, str):
        return part.encode() + b"\n"
    if isinstance(part, Named):
        return b"".join(map(bytes_in, part.parts))
    if isinstance(part, Raw):
        return part.data
    if isinstance(part, Lines):
        return "".join(part.one(part.first + number) for number in range(part.count)).encode()
    return (part.text * part.count).encode()


def said_of(part):
    """The lines of cases.txt that say a part."""
    if isinstance(part, str):
        return ["|" + part]
    if isinstance(part, Named):
        return ["+" + part.name]
    if isinstance(part, Raw):
        return [part.said()]
    if isinstance(part, Lines):
        return [f"*{part.count} {part.first} {part.text}"]
    return [f"^{part.count} {part.text}"]


READERS = {one.name: one for one in [
    Reader("config.json"),
    Reader("other_account.json", account="444455556666"),
    Reader("other_region.json", region="eu-west-1"),
    Reader("other_root.json", root=bytes(31) + b"\1"),
    Reader("first_boot.json", boot=1),
    Reader("last_boot.json", boot=(1 << 32) - 1),
]}
SMALL = '{"Statement":{"Effect":"Allow","Principal":"*","Action":"kms:*","Resource":"*"}}'
KEY = [key_id(place).hex() for place in range(60)]
GRANT = [grant_id(place) for place in range(60)]
ANN, APP = f"arn:aws:iam::{ACCOUNT}:user/ann", f"arn:aws:iam::{ACCOUNT}:role/team/app"


def head(boot=1, account=ACCOUNT, region=REGION):
    return f"kms-journal 1 {account} {region} {boot}"


def tags(*pairs):
    return [{"key": base64_of(key), "value": base64_of(value)} for key, value in pairs]


def created(place=0, time=START, key=None, kind="symmetric", description="", policy=SMALL, with_tags=()):
    return line("CreateKey", time, description=base64_of(description), key=key or KEY[place], kind=kind, policy=base64_of(policy), tags=tags(*with_tags))


def on_key(what, time=START, key=KEY[0], **members):
    return line(what, time, key=key, **members)


def scheduled(time=START, key=KEY[0], days=7, date=None):
    return on_key("Schedule", time, key, days=days, date=time + days * DAY if date is None else date)


def named(name, time=START, key=KEY[0]):
    return on_key("AliasPut", time, key, name=base64_of(name))


def unnamed(name, time=START):
    return line("AliasDrop", time, name=base64_of(name))


def tagged(*pairs, time=START):
    return on_key("Tag", time, tags=tags(*pairs))


def untagged(*names, time=START):
    return on_key("Untag", time, names=[base64_of(name) for name in names])


def encoded(*pairs):
    """The encoding of pairs as they stand."""
    parts = [part if isinstance(part, bytes) else part.encode() for pair in pairs for part in pair]
    return b"".join(len(part).to_bytes(4, "big") + part for part in parts)


def granted(place=1, time=START, key=KEY[0], grant=None, grantee=ANN, operations=("Decrypt",), **members):
    """A grant; what is given beside is put into base64."""
    more = {name: base64_of(value) for name, value in members.items()}
    return line("GrantAdd", time, grant=grant or GRANT[place], grantee=base64_of(grantee), key=key, operations=list(operations), **more)


def dropped(grant=GRANT[1], time=START):
    return line("GrantDrop", time, grant=grant)


def house(time=START):
    return line("House", time)


HEAD_TEXT, KEY_TEXT = Named("head", head()), Named("key", created())


def behind(name, *parts, **how):
    """A case of entries behind that of a new key."""
    return Case(name, HEAD_TEXT, KEY_TEXT, *parts, **how)


def every_entry():
    """A journal with an entry of every kind, and of each form that its parts may have."""
    late, due = START + 40 * DAY, START + 91 * DAY
    return Case(
        "every entry", head(), created(0), created(1, START + 1, kind="hmac256", description="Schlüssel für ☃ und 🔑", policy=DEFAULT_POLICY,
                                                   with_tags=[("cost", ""), ("équipe", "ärzte")]),
        created(2, START + 1, description="to be deleted"), on_key("Disable", START + 2), on_key("Enable", START + 3),
        on_key("RotationOn", START + 4, period=90), on_key("RotationOff", START + 5), on_key("RotationOn", START + 6, KEY[2], period=2560),
        on_key("RotationOn", START + 6, period=90), on_key("RotateNow", START + 7), on_key("Policy", START + 8, KEY[1], text=base64_of(SMALL)),
        on_key("Description", START + 9, text=base64_of("né")), on_key("Description", START + 10, KEY[1], text=""),
        tagged(("#:/=+@", "x"), ("env", "prod"), ("über", "ü"), time=START + 11), untagged("über", "none", "env", time=START + 12), tagged(time=START + 12),
        named("alias/app", START + 13), named("alias/app", START + 14, KEY[1]), named("alias/a/b_C-9", START + 15), named("alias/gone", START + 15, KEY[2]),
        granted(20, START + 16), granted(21, START + 16, KEY[1], grantee=APP, operations=("GenerateMac", "VerifyMac"), name="a:/_-9", retiring=ROOT),
        granted(22, START + 17, operations=GRANT_OPERATIONS, equals=encoded(("a", "1"), ("ü", "☃")), name="n"),
        granted(23, START + 17, grantee=ROOT, operations=("Encrypt", "CreateGrant"), subset=encoded(("dept", "")), retiring=ANN),
        granted(24, START + 18, KEY[2], equals=b""), granted(25, START + 18, subset=b""),
        dropped(GRANT[20], START + 19), unnamed("alias/a/b_C-9", START + 20), scheduled(START + 21, days=30), on_key("Cancel", START + 22),
        on_key("Enable", START + 23), scheduled(late, KEY[2], days=7), house(due), on_key("Enable", due), named("alias/last", due))


EVERY = every_entry()


def readers():
    """Whose journal it is, and its boot number."""
    whole = [KEY_TEXT, on_key("Disable")]
    yield behind("a key that is disabled", on_key("Disable"))
    yield Case("no entries", HEAD_TEXT)
    yield Case("an empty text", end=[])
    for name in ("other_account", "other_region", "other_root"):
        yield behind(f"read with {name}.json", on_key("Disable"), by=READERS[f"{name}.json"])
    yield Case("of another account", head(account="444455556666"), *whole)
    yield Case("of another region", head(region="us-east-2"), *whole)
    yield Case("of a region that begins like this one", head(region="us-east-11"), *whole)
    yield behind("sealed under another root secret", on_key("Disable"), root=b"\1" * 32)
    yield Case("of the reader's own boot", head(2), *whole)
    yield Case("of a higher boot", head(3), *whole)
    yield Case("of a boot that is higher by its number alone", head(10), *whole)
    yield behind("of boot 1, read at boot 1", by=READERS["first_boot.json"])
    yield Case("of boot 0, read at boot 1", head(0), *whole, by=READERS["first_boot.json"])
    yield behind("of boot 1, read at the last boot", by=READERS["last_boot.json"])
    yield Case("of the last boot but one, read at the last", head((1 << 32) - 2), *whole, by=READERS["last_boot.json"])
    yield Case("of the last boot, read at the last", head((1 << 32) - 1), *whole, by=READERS["last_boot.json"])
    yield Case("of a boot past the last", head(1 << 32), *whole, by=READERS["last_boot.json"])
    yield Case("of a boot of 20 digits", head(1 << 64), *whole)
    yield Case("a wrong seal is told before a boot that isn't lower", head(2), *whole, root=b"\1" * 32)
    yield Case("a wrong number is told before a boot that isn't lower", head(2), *whole, number=3)
    yield Case("an entry that doesn't fit is told before a boot that isn't lower", head(2), *whole, house())
    yield Case("another account is told before an entry that doesn't fit", head(account="444455556666"), *whole, house())
    yield behind("an entry that doesn't fit is told before a wrong seal", house(), root=b"\1" * 32)
    yield behind("an entry that doesn't fit is told before one that has no form", house(), "{}")
    yield behind("an entry that has no form is told before one that doesn't fit", "{}", house())


def ends():
    """The last line."""
    right = seal(b"".join(map(bytes_in, [HEAD_TEXT, KEY_TEXT])))
    text = b"".join(map(bytes_in, [HEAD_TEXT, KEY_TEXT]))
    for name, last in [
        ("as it is to be", f"end 1 {right}"),
        ("with one entry less", f"end 0 {right}"),
        ("with one entry more", f"end 2 {right}"),
        ("with no number", f"end {right}"),
        ("with a zero before its number", f"end 01 {right}"),
        ("with a plus before its number", f"end +1 {right}"),
        ("with a number of 19 digits", f"end 1000000000000000001 {right}"),
        ("with a number of 2^64 and 1", f"end {(1 << 64) + 1} {right}"),
        ("with its number in hex", f"end 0x1 {right}"),
        ("with upper-case hex", f"end 1 {right.upper()}"),
        ("with one digit in upper case", f"end 1 {re.sub('[a-f]', lambda found: found[0].upper(), right, count=1)}"),
        ("with one digit less", f"end 1 {right[:-1]}"),
        ("with one digit more", f"end 1 {right}0"),
        ("with another last digit", f"end 1 {right[:-1]}{'1' if right[-1] == '0' else '0'}"),
        ("with another first digit", f"end 1 {'1' if right[0] == '0' else '0'}{right[1:]}"),
        ("with a seal of zeros", f"end 1 {'0' * 64}"),
        ("sealed without the word before the text", f"end 1 {hmac.new(bytes(32), text, hashlib.sha256).hexdigest()}"),
        ("sealed without its first line", f"end 1 {seal(bytes_in(KEY_TEXT))}"),
        ("sealed with its own beginning", f"end 1 {seal(text + b'end 1 ')}"),
        ("sealed by a hash without a key", f"end 1 {hashlib.sha256(b'journal' + text).hexdigest()}"),
        ("sealed by HMAC-SHA-512, of which half is left", f"end 1 {hmac.new(bytes(32), b'journal' + text, hashlib.sha512).hexdigest()[:64]}"),
        ("with two spaces", f"end  1 {right}"),
        ("with two spaces before its seal", f"end 1  {right}"),
        ("with a tab", f"end\t1 {right}"),
        ("with a space behind it", f"end 1 {right} "),
        ("with a space before it", f" end 1 {right}"),
        ("in upper case", f"END 1 {right}"),
        ("as an entry", json.dumps({"number": 1, "seal": right, "what": "end"}, separators=(",", ":"))),
    ]:
        yield behind(f"a last line {name}", end=[Raw(last), Raw("\n")] if "\t" in last else last)
    yield behind("a last line with a carriage return", end=[Raw(f"end 1 {right}"), Raw("\r\n")])
    yield behind("a last line without its line feed", end=[Raw(f"end 1 {right}")])
    yield behind("no last line", end=[])
    yield behind("a last line, and an empty one", end=[f"end 1 {right}", ""])
    yield behind("a last line, and a space", end=[f"end 1 {right}", Raw(" ")])
    yield behind("a last line, and itself again", end=[f"end 1 {right}", f"end 1 {right}"])
    yield behind("a last line, and an entry that fits", end=[f"end 1 {right}", on_key("Disable")])
    yield behind("a last line with another number, and an entry that fits", end=[f"end 2 {right}", on_key("Disable")])
    yield behind("two journals", end=[f"end 1 {right}", HEAD_TEXT, KEY_TEXT, f"end 1 {right}"])
    yield behind("a last line of no entry, and the entry and its last line", end=[f"end 0 {seal(bytes_in(HEAD_TEXT))}", KEY_TEXT, f"end 1 {right}"])


def odd(text, old, new):
    """The text in another spelling."""
    assert text.count(old) == 1 and old != new, (text, old)
    return text.replace(old, new)


def first_lines():
    """Spellings of the first line."""
    plain = head()
    for name, text in [
        ("with two spaces", odd(plain, " us", "  us")),
        ("with a space behind it", plain + " "),
        ("with a space before it", " " + plain),
        ("with tabs", plain.replace(" ", "\t")),
        ("with another word", odd(plain, "kms-journal", "kms-Journal")),
        ("of version 2", odd(plain, "kms-journal 1", "kms-journal 2")),
        ("of version 01", odd(plain, "kms-journal 1", "kms-journal 01")),
        ("of version 1.0", odd(plain, "kms-journal 1", "kms-journal 1.0")),
        ("with hyphens in the account", odd(plain, ACCOUNT, "1111-2222-3333")),
        ("with its region in upper case", odd(plain, REGION, REGION.upper())),
        ("with no region", odd(plain, REGION + " ", "")),
        ("with no boot number", plain[:-2]),
        ("with a zero before its boot number", plain[:-1] + "01"),
        ("with a plus before its boot number", plain[:-1] + "+1"),
        ("with a minus before its boot number", plain[:-1] + "-1"),
        ("with its boot number in hex", plain[:-1] + "0x1"),
        ("with a word more", plain + " 1"),
        ("as a comment", "# " + plain),
    ]:
        parts = [Raw(text), Raw("\n")] if "\t" in text else [text]
        yield Case(f"a first line {name}", *parts, KEY_TEXT)
    yield Case("a first line with a carriage return", Raw(plain), Raw("\r\n"), KEY_TEXT)
    yield Case("a first line behind a byte order mark", Raw(b"\xef\xbb\xbf"), HEAD_TEXT, KEY_TEXT)
    yield Case("an empty line before the first", "", HEAD_TEXT, KEY_TEXT, number=1)
    yield Case("no first line", KEY_TEXT, number=1)


def spaces():
    """Spaces, line feeds and other bytes in an entry's line."""
    plain = on_key("Disable")
    for name, text in [
        ("before it", " " + plain),
        ("behind it", plain + " "),
        ("behind a brace", odd(plain, "{", "{ ")),
        ("before a brace", odd(plain, "}", " }")),
        ("behind a comma", odd(plain, ',"time"', ', "time"')),
        ("before a comma", odd(plain, ',"time"', ' ,"time"')),
        ("behind a colon", odd(plain, '"time":', '"time": ')),
        ("before a colon", odd(plain, '"time":', '"time" :')),
        ("in an id", odd(plain, KEY[0], KEY[0] + " ")),
    ]:
        yield behind(f"a space {name}", text)
    yield behind("a tab behind a colon", Raw(odd(plain, '"time":', '"time":\t')), Raw("\n"))
    yield behind("a line feed behind a comma", *odd(plain, ',"time"', ',\n"time"').split("\n"), number=2)
    yield behind("a carriage return before a line feed", Raw(plain), Raw("\r\n"))
    yield behind("a carriage return for a line feed", Raw(plain), Raw("\r"), number=2)
    yield behind("a form feed behind it", Raw(plain), Raw("\f\n"))
    yield behind("a byte 0 behind it", Raw(plain), Raw("\0\n"))
    yield behind("an empty line", "", on_key("Disable"), number=2)
    yield behind("two entries on one line", plain + plain, number=3)
    yield behind("a line that isn't UTF-8", Raw('{"description":"'), Raw(b"\xff"), odd(created(1), '{"description":"', ""))


def spellings():
    """Further spellings of an entry's line: of each only what its name says differs from a line that fits."""
    disable, tag, grant = on_key("Disable"), tagged(("a", "1"), ("b", "2")), granted(name="n")
    for name, text in [
        ("upper-case hex in the id of a key", odd(disable, KEY[0], KEY[0].upper())),
        ("a hyphenated id of a key", odd(disable, KEY[0], "-".join([KEY[0][:8], KEY[0][8:12], KEY[0][12:16], KEY[0][16:20], KEY[0][20:]]))),
        ("an id of a key of 15 bytes", odd(disable, KEY[0], KEY[0][2:])),
        ("an id of a key of 17 bytes", odd(disable, KEY[0], "00" + KEY[0])),
        ("an id of a key in base64", odd(disable, KEY[0], base64_of(bytes.fromhex(KEY[0])))),
        ("the ARN of a key for its id", odd(disable, KEY[0], f"arn:aws:kms:{REGION}:{ACCOUNT}:key/{KEY[0]}")),
        ("upper-case hex in the id of a new key", odd(created(1), KEY[1], KEY[1].upper())),
        ("upper-case hex in the id of a grant", odd(grant, GRANT[1], GRANT[1].upper())),
        ("an id of a grant of 31 bytes", odd(grant, GRANT[1], GRANT[1][2:])),
        ("base64 without its padding", odd(on_key("Description", text=base64_of("a")), "YQ==", "YQ")),
        ("base64 with half of its padding", odd(on_key("Description", text=base64_of("a")), "YQ==", "YQ=")),
        ("base64 with padding that it hasn't", odd(on_key("Description", text=base64_of("abc")), "YWJj", "YWJj====")),
        ("base64 with bits behind its last byte", odd(on_key("Description", text=base64_of("a")), "YQ==", "YR==")),
        ("base64 with bits behind its last two bytes", odd(on_key("Description", text=base64_of("ab")), "YWI=", "YWJ=")),
        ("base64 of the alphabet for URLs", odd(on_key("Description", text=base64_of("???>>>")), "Pz8/Pj4+", "Pz8_Pj4-")),
        ("base64 with a space", odd(on_key("Description", text=base64_of("abcdef")), "YWJjZGVm", "YWJj ZGVm")),
        ("base64 with a line feed as an escape", odd(on_key("Description", text=base64_of("abcdef")), "YWJjZGVm", r"YWJj\nZGVm")),
        ("a text that isn't in base64", odd(on_key("Description", text=base64_of("a b")), "YSBi", "a b")),
        ("a text that isn't UTF-8", on_key("Description", text=base64_of(b"\xff"))),
        ("a text with half of a character", on_key("Description", text=base64_of("ü".encode()[:1]))),
        ("a text with a surrogate", on_key("Description", text=base64_of("\ud800".encode(errors="surrogatepass")))),
        ("a text with a letter in too many bytes", on_key("Description", text=base64_of(b"\xc1\xa1"))),
        ("a tag that isn't UTF-8", on_key("Tag", tags=[{"key": base64_of(b"\xff"), "value": ""}])),
        ("members in another order", odd(disable, f'"key":"{KEY[0]}","time":{START}', f'"time":{START},"key":"{KEY[0]}"')),
        ("what before time", odd(disable, f'"time":{START},"what":"Disable"', f'"what":"Disable","time":{START}')),
        ("a tag's members in another order", odd(tag, '"key":"YQ==","value":"MQ=="', '"value":"MQ==","key":"YQ=="')),
        ("a member twice", odd(disable, f'"time":{START}', f'"time":{START},"time":{START}')),
        ("a member more", odd(disable, "}", ',"why":""}')),
        ("a member more that another kind of entry has", odd(disable, f'"time":{START}', f'"text":"","time":{START}')),
        ("a member less", odd(disable, f'"time":{START},', "")),
        ("a new key without tags", odd(created(1), '"tags":[],', "")),
        ("a member of a tag less", odd(tag, ',"value":"MQ=="', "")),
        ("a member of a tag more", odd(tag, '"value":"MQ=="', '"value":"MQ==","when":1')),
        ("null for a name that isn't there", odd(granted(), '"operations"', '"name":null,"operations"')),
        ("null for a constraint that isn't there", odd(granted(), '{"grant"', '{"equals":null,"grant"')),
        ("null for a retiring principal that isn't there", odd(granted(), ',"time"', ',"retiring":null,"time"')),
        ("no description in place of an empty one", odd(created(1), '"description":"",', "")),
        ("a zero before a time", odd(disable, str(START), "0" + str(START))),
        ("a plus before a time", odd(disable, str(START), "+" + str(START))),
        ("a time with a fraction", odd(disable, str(START), f"{START}.0")),
        ("a time with an exponent", odd(disable, str(START), "17e8")),
        ("a time as a text", odd(disable, str(START), f'"{START}"')),
        ("a negative time", odd(disable, str(START), f"-{START}")),
        ("a time of 20 digits", odd(disable, str(START), str(1 << 64))),
        ("a zero before days", odd(scheduled(), '"days":7', '"days":07')),
        ("a plus before days", odd(scheduled(), '"days":7', '"days":+7')),
        ("a zero before a date", odd(scheduled(), '"date":', '"date":0')),
        ("a zero before a period", odd(on_key("RotationOn", period=90), '"period":90', '"period":090')),
        ("a period with a fraction", odd(on_key("RotationOn", period=90), '"period":90', '"period":90.0')),
        ("days past 2^32", odd(scheduled(), '"days":7', f'"days":{(1 << 32) + 7}')),
        ("an escape for a letter", odd(disable, '"Disable"', r'"\u0044isable"')),
        ("an escape for a letter of a member's name", odd(disable, '"time"', r'"\u0074ime"')),
        ("an escape for a digit of an id", odd(disable, KEY[0], r"\u0031" + KEY[0][1:])),
        ("an escape for a slash in base64", odd(on_key("Description", text=base64_of("???")), "Pz8/", r"Pz8\/")),
        ("another case of what", odd(disable, '"Disable"', '"disable"')),
        ("a what that there isn't", odd(disable, '"Disable"', '"Remove"')),
        ("a kind that there isn't", odd(created(1), "symmetric", "hmac384")),
        ("a kind in upper case", odd(created(1), "symmetric", "SYMMETRIC")),
        ("a kind by its name in requests", odd(created(1), "symmetric", "SYMMETRIC_DEFAULT")),
        ("operations in another order", granted(operations=("Decrypt", "Encrypt"))),
        ("an operation twice", granted(operations=("Decrypt", "Decrypt"))),
        ("an operation that there isn't", granted(operations=("Decrypt", "Sign"))),
        ("an operation that no grant has", granted(operations=("CreateKey",))),
        ("operations in base64", granted(operations=(base64_of("Decrypt"),))),
        ("operations as a text", odd(granted(), '["Decrypt"]', '"Decrypt"')),
        ("tags in another order than that of their keys", tagged(("b", "2"), ("a", "1"))),
        ("tags of a new key in another order than that of their keys", created(1, with_tags=[("b", "2"), ("a", "1")])),
        ("tags as an object", odd(tagged(), "[]", "{}")),
        ("both constraints", granted(equals=b"", subset=b"")),
        ("a context whose keys aren't in order", granted(equals=encoded(("b", ""), ("a", "")))),
        ("a context with a key twice", granted(equals=encoded(("a", ""), ("a", "b")))),
        ("a context of which a byte is missing", granted(equals=encoded(("a", "b"))[:-1])),
        ("a context with a byte more", granted(equals=encoded(("a", "b")) + b"\0")),
        ("a context that ends behind a key", granted(equals=encoded(("a", "b"))[:5])),
        ("a context that isn't UTF-8", granted(subset=encoded((b"\xff", "")))),
        ("a context as an object", odd(granted(equals=encoded(("a", "b"))), '"AAAAAWEAAAABYg=="', '{"a":"b"}')),
        ("a grantee that isn't in base64", odd(granted(), base64_of(ANN), ANN)),
        ("an empty object", "{}"),
        ("a list", f"[{disable}]"),
        ("a number", "0"),
        ("a comment", "# " + disable),
        ("no closing brace", disable[:-1]),
        ("two closing braces", disable + "}"),
        ("a text without its last quote", odd(disable, '"Disable"', '"Disable')),
        ("single quotes", disable.replace('"', "'")),
    ]:
        yield behind(name, text)


def times():
    """No entry is before the one before it, nor past the year 9999."""
    yield behind("the time of the entry before it", on_key("Disable", START))
    yield behind("a second before the entry before it", on_key("Disable", START - 1))
    yield behind("the last second of the year 9999", on_key("Disable", YEAR_10000 - 1))
    yield behind("the first second of the year 10000", on_key("Disable", YEAR_10000))
    yield Case("a first entry at second 0", HEAD_TEXT, created(time=0))
    yield behind("a deletion on its date", scheduled())
    yield behind("a deletion a second before its date", scheduled(date=START + 7 * DAY - 1))
    yield behind("a deletion a second past its date", scheduled(date=START + 7 * DAY + 1))
    yield behind("a deletion whose date counts from 1970", scheduled(date=7 * DAY))
    yield behind("a deletion past the year 9999", scheduled(YEAR_10000 - 1))
    for days in (6, 7, 30, 31):
        yield behind(f"a waiting period of {days} days", scheduled(days=days))
    for period in (89, 90, 2560, 2561):
        yield behind(f"a rotation each {period} days", on_key("RotationOn", period=period))


def ids():
    """The id of a new key or grant ends with its place."""
    yield Case("a key whose id ends with the place behind its own", HEAD_TEXT, created(key=KEY[1]))
    yield behind("a key whose id ends with the place before its own", created(key=KEY[0]))
    yield behind("a key whose id begins otherwise", created(key="f" * 20 + KEY[1][20:]))
    yield behind("a key whose id ends with its place in five bytes", created(key=KEY[1][:20] + "01" + KEY[1][22:]))
    yield behind("a grant whose id ends with the place before its own", granted(grant=GRANT[0]))
    yield behind("a grant whose id ends with the place behind its own", granted(grant=GRANT[2]))
    yield behind("a grant whose id begins otherwise", granted(grant="0" * 52 + GRANT[1][52:]))
    yield behind("a grant whose id ends with its place in five bytes", granted(grant=GRANT[1][:52] + "01" + GRANT[1][54:]))


def of_each_kind(time, key):
    """Each kind of entry that names a key."""
    yield "is enabled", on_key("Enable", time, key)
    yield "is disabled", on_key("Disable", time, key)
    yield "is to be deleted", scheduled(time, key)
    yield "isn't to be deleted", on_key("Cancel", time, key)
    yield "is to be rotated", on_key("RotationOn", time, key, period=90)
    yield "isn't to be rotated", on_key("RotationOff", time, key)
    yield "is rotated", on_key("RotateNow", time, key)
    yield "is given a policy", on_key("Policy", time, key, text=base64_of(SMALL))
    yield "is described", on_key("Description", time, key, text="")
    yield "is tagged", on_key("Tag", time, key, tags=tags(("a", "")))
    yield "is untagged", on_key("Untag", time, key, names=[base64_of("a")])
    yield "is given an alias", named("alias/a", time, key)
    yield "is given a grant", granted(2, time, key)


def lives():
    """What an entry names is there, and its key isn't gone."""
    end = START + 7 * DAY
    for name, entry in of_each_kind(START, KEY[2]):
        yield behind(f"a key that isn't there {name}", on_key("Disable"), entry)
    for name, entry in of_each_kind(end, KEY[0]):
        yield behind(f"a key {name} on the date of its deletion", scheduled(), entry)
    for name, entry in of_each_kind(end - 1, KEY[0]):
        yield behind(f"a key {name} a second before its deletion", scheduled(), entry)
    yield behind("a key that housekeeping removed is enabled", scheduled(), house(end), on_key("Enable", end))
    yield behind("another key, when housekeeping has removed one", scheduled(), created(2), house(end), on_key("Enable", end, KEY[2]))
    yield behind("an alias that is there is dropped", named("alias/a"), unnamed("alias/a"))
    yield behind("an alias that isn't there is dropped", named("alias/a"), unnamed("alias/b"))
    yield behind("an alias is dropped twice", named("alias/a"), unnamed("alias/a"), unnamed("alias/a"))
    yield behind("an alias is dropped a second before its key's deletion", named("alias/a"), scheduled(), unnamed("alias/a", end - 1))
    yield behind("an alias of a key that is gone is dropped", named("alias/a"), scheduled(), unnamed("alias/a", end))
    yield behind("an alias that housekeeping removed is dropped", named("alias/a"), scheduled(), house(end), unnamed("alias/a", end))
    yield behind("an alias of a key that is gone is given to another", named("alias/a"), scheduled(), created(3, end), named("alias/a", end, KEY[3]),
                 unnamed("alias/a", end))
    yield behind("a grant that is there is dropped", granted(), dropped())
    yield behind("a grant that isn't there is dropped", granted(), dropped(GRANT[2]))
    yield behind("a grant is dropped twice", granted(), dropped(), dropped())
    yield behind("a grant is dropped a second before its key's deletion", granted(), scheduled(), dropped(time=end - 1))
    yield behind("a grant of a key that is gone is dropped", granted(), scheduled(), dropped(time=end))
    yield behind("a grant that housekeeping removed is dropped", granted(), scheduled(), house(end), dropped(time=end))


def states():
    """States of keys aren't asked: an entry fits where it does what no request would do."""
    yield behind("an enabled key is enabled", on_key("Enable"))
    yield behind("a deletion that isn't scheduled is cancelled", on_key("Cancel"))
    yield behind("a key that is to be deleted is enabled, and stays", scheduled(), on_key("Enable"), on_key("Disable", START + 8 * DAY))
    yield behind("a key of HMACs is rotated", created(1, kind="hmac256"), on_key("RotateNow", START, KEY[1]))
    yield behind("a rotation that isn't on is put off", on_key("RotationOff"))
    yield behind("tags that aren't there are dropped", untagged("a", "a"))
    yield behind("an alias is put where it is", named("alias/a"), named("alias/a"))


def houses():
    """Housekeeping stands where a key is gone or due."""
    gone, due = START + 7 * DAY, START + 90 * DAY
    rotates = on_key("RotationOn", period=90)
    yield behind("housekeeping with nothing to do", house())
    yield behind("housekeeping a second before a deletion", scheduled(), house(gone - 1))
    yield behind("housekeeping on the date of a deletion", scheduled(), house(gone))
    yield behind("housekeeping twice", scheduled(), house(gone), house(gone))
    yield behind("housekeeping when a deletion is cancelled", scheduled(), on_key("Cancel"), house(gone))
    yield behind("housekeeping a second before a rotation", rotates, house(due - 1))
    yield behind("housekeeping on the date of a rotation", rotates, house(due))
    yield behind("housekeeping twice on the date of a rotation", rotates, house(due), house(due))
    yield behind("housekeeping a period behind a late rotation", rotates, house(due + 5), house(due + 5 + 90 * DAY))
    yield behind("housekeeping a second before the rotation behind a late one", rotates, house(due + 5), house(due + 4 + 90 * DAY))
    yield behind("housekeeping for a rotation of a disabled key", rotates, on_key("Disable"), house(due))
    yield behind("housekeeping for a rotation that is put off", rotates, on_key("RotationOff"), house(due))
    yield behind("housekeeping for a rotation that is put on anew", rotates, on_key("RotationOn", START + 1, period=90), house(due))
    yield behind("housekeeping for a rotation, when one was asked for", rotates, on_key("RotateNow", START + 1), house(due))


def filled(entry, count, letter="a"):
    """The line with so many times a letter, in base64, in place of `@`."""
    before, after = entry.split("@")
    size, rest = divmod(count, 3)
    return [Raw(before), Run(size, base64_of(letter * 3)), Raw(base64_of(letter * rest) + after), Raw("\n")]


def texts():
    """Descriptions and policies."""
    new = odd(created(1), '"description":""', '"description":"@"')
    for count in (8192, 8193):
        yield behind(f"a description of {count:,} bytes", *filled(on_key("Description", text="@"), count))
        yield behind(f"a description of {count:,} bytes of a new key", *filled(new, count))
    for count in (4096, 4097):
        yield behind(f"a description of {count:,} characters of two bytes", *filled(on_key("Description", text="@"), count, "ü"))
    for name, policy in [
        ("no text", ""), ("no JSON", "{"), ("a list", "[]"), ("no statement", "{}"),
        ("a statement that has no principal", odd(SMALL, '"Principal":"*",', "")),
        ("a statement with a member more", odd(SMALL, '"Effect"', '"effect":"","Effect"')),
        ("an element that isn't served", odd(SMALL, '"Principal"', '"NotPrincipal"')),
        ("spaces and another order", '{ "Statement" : [ {"Resource":"*", "Action":["kms:*"], "Principal":{"AWS":["*"]}, "Effect":"Deny"} ] }\n'),
    ]:
        yield behind(f"a policy of {name}", on_key("Policy", text=base64_of(policy)))
        yield behind(f"a policy of {name} of a new key", created(1, policy=policy))
    for count in (32768, 32769):
        before, after = on_key("Policy", text="@").split("@")
        spaced = [Raw(before), Raw(base64_of(SMALL + " " * (-len(SMALL) % 3)))]
        size, rest = divmod(count - len(SMALL) - -len(SMALL) % 3, 3)
        yield behind(f"a policy of {count:,} bytes", *spaced, Run(size, base64_of("   ")), Raw(base64_of(" " * rest) + after), Raw("\n"))


def tag_forms():
    """Tags have the forms that requests have to keep to."""
    many = [(f"k{number:02}", "") for number in range(51)]
    long, wide = "k" * 128, "ü" * 128
    for name, pairs in [
        ("no tags", []), ("50 tags", many[:50]), ("51 tags", many),
        ("a tag with a key of no character", [("", "")]), ("a tag with a key of 128 characters", [(long, "")]),
        ("a tag with a key of 128 characters of two bytes", [(wide, "")]), ("a tag with a key of 129 characters", [(long + "k", "")]),
        ("a tag with a value of 256 characters", [("k", "v" * 256)]), ("a tag with a value of 256 characters of two bytes", [("k", "ü" * 256)]),
        ("a tag with a value of 257 characters", [("k", "v" * 257)]),
        ("a tag with a key that is reserved", [("aws:a", "")]), ("a tag with a key that is reserved in any case", [("AwS:", "")]),
        ("a tag with a key that is nearly reserved", [("aws", "")]), ("a key of a tag twice", [("a", "1"), ("a", "2")]),
    ]:
        yield behind(name, tagged(*pairs))
        yield behind(f"{name} of a new key", created(1, with_tags=pairs))
    yield behind("50 tags, and another value of one", tagged(*many[:50]), tagged(("k00", "v")))
    yield behind("50 tags, and one more", tagged(*many[:50]), tagged(("k50", "")))
    yield behind("50 tags, and one more when one is dropped", tagged(*many[:50]), untagged("k00"), tagged(("k50", "")))
    yield behind("50 tags, and one more on another key", tagged(*many[:50]), created(2), on_key("Tag", START, KEY[2], tags=tags(("k50", ""))))
    for name, names in [
        ("no tag", []), ("50 tags", [name for name, _ in many[:50]]), ("51 tags", [name for name, _ in many]), ("a tag of no character", [""]),
        ("a tag of 128 characters", [wide]), ("a tag of 129 characters", [long + "k"]), ("a tag that is reserved", ["aws:a"]),
    ]:
        yield behind(f"{name} dropped", untagged(*names))


def names():
    """Names of aliases."""
    for name, alias in [
        ("256 characters", "alias/" + "a" * 250), ("257 characters", "alias/" + "a" * 251), ("no character behind its front", "alias/"),
        ("another front", "Alias/a"), ("no front", "a"), ("a space", "alias/a b"), ("a letter that isn't ASCII", "alias/ü"),
        ("those that are reserved", "alias/aws/a"), ("nearly those that are reserved", "alias/aws"),
    ]:
        yield behind(f"an alias of {name}", named(alias))


def grants():
    """Grants have the forms that requests have to keep to."""
    long = "arn:aws:iam::111122223333:user/"
    for name, entry in [
        ("no operation", granted(operations=())),
        ("all operations", granted(operations=GRANT_OPERATIONS)),
        ("a name of no character", granted(name="")),
        ("a name of 256 characters", granted(name="n" * 256)),
        ("a name of 257 characters", granted(name="n" * 257)),
        ("a name with a space", granted(name="a b")),
        ("a name with a letter that isn't ASCII", granted(name="ü")),
        ("a grantee of another account", granted(grantee="arn:aws:iam::444455556666:user/ann")),
        ("a grantee that is a service", granted(grantee="kms.amazonaws.com")),
        ("a grantee that is a session", granted(grantee=f"arn:aws:sts::{ACCOUNT}:assumed-role/app/s")),
        ("a grantee that is everyone", granted(grantee="*")),
        ("a grantee without a name", granted(grantee=long)),
        ("a grantee whose ARN has 256 bytes", granted(grantee=long + "a" * (256 - len(long)))),
        ("a grantee whose ARN has 257 bytes", granted(grantee=long + "a" * (257 - len(long)))),
        ("a retiring principal that is no ARN", granted(retiring="ann")),
        ("a retiring principal whose ARN has 256 bytes", granted(retiring=long + "a" * (256 - len(long)))),
        ("a retiring principal whose ARN has 257 bytes", granted(retiring=long + "a" * (257 - len(long)))),
    ]:
        yield behind(f"a grant with {name}", entry)
    for member in ("equals", "subset"):
        for size in (4096, 4097):
            # Twelve bytes of lengths and a key stand before the value.
            front = encoded(("key ", ""))[:8] + (size - 12).to_bytes(4, "big")
            before, after = odd(granted(**{member: b"@"}), base64_of(b"@"), "@").split("@")
            count, rest = divmod(size - 12, 3)
            yield behind(f"a grant with a constraint of {size:,} bytes as {member}", Raw(before), Raw(base64_of(front)),
                         Run(count, base64_of("aaa")), Raw(base64_of("a" * rest) + after), Raw("\n"))


def limits():
    """What the account has room for. Journals of many entries."""
    key = odd(created(), KEY[0], KEY[0][:20] + "@")
    alias = odd(named("alias/a"), base64_of("alias/a"), "~")
    grant = odd(granted(), GRANT[1], GRANT[1][:52] + "@")
    yield behind("ten rotations", Lines(10, 1, on_key("RotateNow")))
    yield behind("eleven rotations", Lines(11, 1, on_key("RotateNow")))
    yield behind("ten rotations of each of two keys", created(1), Lines(10, 2, on_key("RotateNow")), Lines(10, 12, on_key("RotateNow", START, KEY[1])))
    yield behind("100,000 entries that disable a key", Lines(100_000, 1, on_key("Disable")))
    yield Case("10,000 keys", HEAD_TEXT, Lines(10_000, 0, key))
    yield Case("10,001 keys", HEAD_TEXT, Lines(10_001, 0, key))
    yield behind("10,000 aliases, and one that is there put again", Lines(10_000, 1, alias), odd(alias, "~", base64_of("alias/" + "0" * 11 + "1")))
    yield behind("10,001 aliases", Lines(10_001, 1, alias))
    yield behind("5,000 grants of a key, and one of another", Lines(5_000, 1, grant), created(key=key_id(5_001).hex()),
                 granted(key=key_id(5_001).hex(), grant=grant_id(5_002)))
    yield behind("5,001 grants of a key", Lines(5_001, 1, grant))
    ten = [Lines(5_000, 11 + 5_000 * number, grant.replace(KEY[0], KEY[number])) for number in range(10)]
    last = [granted(key=KEY[10], grant=grant_id(50_011 + number)) for number in range(2)]
    yield behind("50,000 grants, one dropped, and one more", *map(created, range(1, 11)), *ten, dropped(GRANT[1][:52] + f"{11:012x}"), last[1])
    yield behind("50,001 grants", *map(created, range(1, 11)), *ten, last[0])


GROUPS = [readers, ends, first_lines, spaces, spellings, times, ids, lives, states, houses, texts, tag_forms, names, grants, limits]
def in_order(answer):
    """Where an answer stands among others."""
    return (0, 0) if answer.startswith("Ok") else (1, int(answer[3:])) if answer.startswith("At") else (2, 0)


def counted(texts):
    """How often each answer came of some texts."""
    answers = collections.Counter(EVERY.by.answer(text) for text in texts)
    return ", ".join(f"{count} {answer}" for answer, count in sorted(answers.items(), key=lambda found: in_order(found[0])))


def turned(text):
    """Each bit of each line turned."""
    begin = 0
    for place, line in enumerate(text.splitlines(keepends=True), 1):
        end = begin + len(line)
        texts = (text[:at] + bytes([text[at] ^ 1 << bit]) + text[at + 1:] for at in range(begin, end) for bit in range(8))
        yield f"each bit of line {place} turned: {counted(texts)}"
        begin = end


def moved(text):
    """Each line dropped, doubled, and put behind the next."""
    lines = text.splitlines(keepends=True)
    for name, change in [("dropped", lambda here, after: after), ("doubled", lambda here, after: here * 2 + after),
                         ("put behind the next", lambda here, after: after[:1] + here + after[1:])]:
        last = len(lines) - (name == "put behind the next")
        texts = (b"".join(lines[:place] + change(lines[place:place + 1], lines[place + 1:])) for place in range(last))
        yield f"each line {name}: {', '.join(map(EVERY.by.answer, texts))}"


def main():
    for reader in READERS.values():
        PLACE.joinpath("data", reader.name).write_text(json.dumps(reader.config()) + "\n")
    data, groups = EVERY.text(), [(group.__doc__, list(group())) for group in GROUPS]
    PLACE.joinpath("data/every_entry.txt").write_bytes(data)
    parts = ["# Written by tools/make_journals.py. README.md says how this is read.", *(one.written() for one in (HEAD_TEXT, KEY_TEXT))]
    for heading, cases in groups:
        parts += ["# " + heading, *(case.written() for case in cases)]
    PLACE.joinpath("data/cases.txt").write_text("\n\n".join(parts) + "\n")
    told = [case.answer() for _, cases in groups for case in cases]
    whole = [f"every entry: {EVERY.by.answer(data)}", f"a cut at each byte: {counted(data[:size] for size in range(len(data)))}"]
    PLACE.joinpath("stdout").write_text("\n".join([*told, *whole, *moved(data), *turned(data)]) + "\n")


if __name__ == "__main__":
    main()
