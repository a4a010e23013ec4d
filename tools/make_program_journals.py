"""Makes the cases of journals of program_cases: its script journals.txt, the files that this names, and the lines that the program is to
write. Run: python3 -B tools/make_program_journals.py, and put what it prints at the end of stdout of program_cases.

The account is that of kept_account.py, and the journals' text that of journal_text.py; signatures are those of Python's `hmac`.
"""

import base64
import json
import pathlib
from datetime import datetime, timezone

import signing
from journal_text import end_line, entry_line, sealed
from kept_account import Kept
from make_explained import KEEPERS
from make_key_lives import ROOT_SECRET
from make_load import reply
from whole_account import HMAC_SHA_256, REGION
from whole_cases import ACCOUNT, ANN, BOB, DAY, HELLO, ID1, ID2, OF_MACS, ROOT, key_policy, statement, tags, told

CRATES = pathlib.Path(__file__).parent.parent
PLACE = CRATES / "crates" / "program_cases" / "data"
BEGIN = 1_700_000_000
SECRET = "00" * 32
USAGE = "usage: kms_local run|serve|load|check|explain|export\n"
FAULT = "GET / HTTP/1.1\r\n\r\n"


def text_of(operation, body, more=()):
    """A message without a signature."""
    body = json.dumps(body, separators=(",", ":"), ensure_ascii=False)
    lines = ["POST / HTTP/1.1", "Host: localhost", "Content-Type: application/x-amz-json-1.1", f"X-Amz-Target: TrentService.{operation}",
             f"Content-Length: {len(body.encode())}", *more]
    return "\r\n".join(lines) + "\r\n\r\n" + body


class Session(Kept):
    """A session of messages, each a second after the one before it, with their replies."""

    def __init__(self, caller=ROOT):
        super().__init__("", caller=caller)
        self.begin, self.signs, self.messages, self.replies = BEGIN, False, [], []

    def loaded(self, boot, caller=ROOT, begin=BEGIN, signs=False):
        other = super().loaded(boot, caller)
        other.begin, other.signs, other.messages, other.replies = begin, signs, [], []
        return other

    def message(self, operation, body):
        if not self.signs:
            return text_of(operation, body)
        stamp = datetime.fromtimestamp(self.now, timezone.utc).strftime("%Y%m%dT%H%M%SZ")
        return signing.message(*KEEPERS[self.caller], REGION, operation, json.dumps(body, separators=(",", ":")), stamp)

    def ask(self, operation, body, after=None):
        self.at(self.begin + len(self.messages))
        super().ask(operation, body, after)
        self.messages.append(self.message(operation, body))
        self.replies.append(reply(*self.answer(), self.now, self.front, False))
        return self

    def answer(self):
        """The status and the body of the last reply."""
        _, status, said, rest = self.said[-1][2].split(" ", 3)
        if status == "200":
            return 200, rest.encode()
        return int(status), json.dumps({"__type": said, "message": rest.split(" ", 1)[1]}, separators=(",", ":")).encode()

    def is_served(self):
        return self.said[-1][2].startswith("< 200 ")


# ---- what is shown

SCRIPT, SHOWN, FILES = [], [], {}


def file(name, content):
    """A file of the folder `data`, which may be made twice if it is the same."""
    content = content if isinstance(content, bytes) else content.encode()
    assert FILES.setdefault(name, content) == content
    return name


def run(what, words, status=0, text="", shows="text", ears=None, **more):
    """A run of the program, and what it is to write: a text, the contents of files, or a line behind which a journal stands."""
    lines = [f"case {what}", f"words {words}"] + [f"{name} {value}" for name, value in more.items()]
    lines += [f"ears {' '.join(ears)}"] if ears else []
    SCRIPT.extend([*lines, f"shows {shows}", ""])
    served = f", {ears_served(ears)}" if ears and status != 3 and more.get("fails") not in ("door 0", "file 1") else ""
    if shows == "text":
        SHOWN.append(f"{what}: status {status}{served}" + (f"\n{text}" if text else ", nothing\n"))
    elif shows == "line":
        SHOWN.append(f"{what}: status {status}{served}\n{text}")
    else:
        SHOWN.append(f"{what}: status {status}{served}, as {shows} says\n")


SERVED = {}


def ears_served(ears):
    """How many replies of status 200 are written at each ear."""
    return "served " + " and ".join(str(SERVED.get(name, 0)) for name in (*ears, "", "")[:2])


def refused(what, words, path, **more):
    run(what, words, 3, f"configuration refused at /{path}\n", **more)


def misused(what, words):
    run(what, words, 2, USAGE)


def values(command, boot=None, caller=ROOT, load=None, account=ACCOUNT, region=REGION, secret=SECRET):
    """The words of a command with these values."""
    words = f"{command} --account {account} --region {region} --root {secret} --as {caller}"
    return words + (f" --boot {boot}" if boot else "") + (f" --load {load}" if load else "")


def messages_file(name, session):
    SERVED[name] = sum(one.startswith(b"HTTP/1.1 200 ") for one in session.replies)
    return file(name, "".join(session.messages))


def replies_file(name, session):
    return file(name, b"".join(session.replies))


def told_key(session):
    return told(session, "KeyMetadata")["KeyId"]


# ---- a first key: its journal, the faults of others, and words

def first():
    """The account with one key."""
    return Session().ask("CreateKey", {})


def other_policy(entry):
    """The entry with one letter of its policy changed, which is still the base64 of a policy that differs in its Sid alone."""
    for place, letter in enumerate(entry["policy"]):
        for other in "ABCDEFGHIJKLMNOPQRSTUVWXYZabcdefghijklmnopqrstuvwxyz":
            text = entry["policy"][:place] + other + entry["policy"][place + 1:]
            found = base64.b64decode(text)
            if other != letter and found.isascii() and only_sid_differs(found, base64.b64decode(entry["policy"])):
                return entry | {"policy": text}
    raise AssertionError("no letter can be changed")


def only_sid_differs(found, before):
    try:
        found, before = json.loads(found), json.loads(before)
    except ValueError:
        return False
    if found == before or not found.get("Statement") or not found["Statement"][0].get("Sid", "").replace(" ", "").isalpha():
        return False
    found["Statement"][0]["Sid"] = before["Statement"][0]["Sid"]
    return found == before


def journals_of_one_key():
    """Row by row what comes of a first key's journal."""
    account = first()
    text = account.journal()
    head, line, _ = text.splitlines(keepends=True)
    assert head == "kms-journal 1 111122223333 us-east-1 1\n" and '"time":1700000000,"what":"CreateKey"' in line
    run("the journal of a first key", values("export"), text=text, messages="make.txt look.txt")
    file("first.journal", text)
    run("it is loaded, and the key is described", values("run", 2, load="first.journal"), shows="seen.txt", files="first.journal", begin=BEGIN + 1,
        messages="look.txt")
    refused("it is loaded under the same boot number", values("run", 1, load="first.journal"), "boot", files="first.journal")
    refused("no boot number is given, which stands for 1", values("run", load="first.journal"), "boot", files="first.journal")
    return account, head, line


def faults(account, head, line):
    """Journals that are refused, and the line of the first fault."""
    entry, end = account.entries[0], end_line(head + line, 1, ROOT_SECRET)
    changed = entry_line(other_policy(entry))
    faulty = {
        "policy_changed": ("a letter of the policy is another one, and it is a policy still", head + changed + end, 3),
        "cut_off": ("the text ends within line 2", head + line[:300], 2),
        "shortened": ("line 2 has lost its end", head + line[:300] + "\n" + end, 2),
        "empty": ("an empty file", "", 1),
        "doubled": ("the first entry stands there twice, under its seal", sealed([head, line, line], ROOT_SECRET), 3),
        "spaced": ("a blank in line 2, under its seal", sealed([head, line.replace(",", ", ", 1)], ROOT_SECRET), 2),
        "miscounted": ("two entries are told, and one is there", sealed([head, line], ROOT_SECRET, 2), 3),
        "continued": ("a line behind the last one", head + line + end + end, 4),
    }
    for name, (what, text, number) in faulty.items():
        load = file(f"{name}.journal", text)
        refused(what, values("run", 2, load=load), f"load/{number}", files=load)
    load = "first.journal"
    root = ROOT.replace(ACCOUNT, "444455556666")
    refused("another account", values("run", 2, caller=root, load=load, account="444455556666"), "load/1", files=load)
    refused("another region", values("run", 2, load=load, region="eu-west-1"), "load/1", files=load)
    refused("another root secret", values("run", 2, load=load, secret="11" * 32), "load/3", files=load)
    refused("a fault of the journal comes before the boot number", values("run", 1, load="policy_changed.journal"), "load/3", files="policy_changed.journal")
    for command in ("explain", "export"):
        refused(f"{command} names a fault as run does", values(command, 2, load="cut_off.journal"), "load/2", files="cut_off.journal")
    refused("the values come before the journal", values("run", 2, caller=root, load="cut_off.journal"), "as", files="cut_off.journal")
    refused("the journal comes before the link is read", values("run", 2, load="cut_off.journal"), "load/2", files="cut_off.journal", messages="make.txt",
            fails="read 0")
    run("the line of a fault can't be written", values("run", 2, load="cut_off.journal"), 3, files="cut_off.journal", fails="write 0")


def unread():
    """Files of journals that can't be read."""
    for command in ("run", "explain", "export"):
        run(f"{command}, and the journal isn't there", values(command, 2, load="first.journal"), 5, messages="make.txt")
    run("the journal can't be read", values("run", 2, load="first.journal"), 5, files="first.journal", messages="make.txt", fails="file 0")
    serving = serve_words("first.journal")
    for command in ("run", "explain", "export"):
        refused(f"{command}, and the journal is too long", values(command, 2, load="first.journal"), "load", files="*", messages="make.txt")
    run("the configuration is read, and the journal can't be", serving, 5, files="served.json first.journal", fails="file 1", ears=["signed_make.txt"])


def misuses():
    """Words that are no command."""
    load = "first.journal"
    misused("a journal for check", f"check --config served.json --load {load}")
    misused("a journal for load", f"load --seed 1 --requests 1 --load {load}")
    misused("two journals", values("run", 2, load=load) + f" --load {load}")
    misused("a journal without its name", values("run", 2) + " --load")
    for command in ("run", "explain", "export"):
        misused(f"{command} with --export", values(command, 2, load=load) + " --export")
    misused("check with --export", "check --config served.json --export")
    misused("load with --export", "load --seed 1 --requests 1 --export")
    misused("--export twice", serve_words(exports="--export --export"))
    misused("--export with a value", serve_words(exports="--export=yes"))
    misused("export without a caller", values("export").partition(" --as")[0])


# ---- export

def exports():
    """The ends of a session whose journal is to be written."""
    words = values("export")
    one, none = first(), Session()
    run("export of nothing", words, text=none.journal())
    run("export, and the first read fails", words, 5, messages="make.txt look.txt", fails="read 0")
    run("export, and the second read fails", words, 5, messages="make.txt look.txt", fails="read 1")
    run("export, and the second message is cut off", words, 4, messages=f"make.txt {file('half_look.txt', text_of('DescribeKey', {'KeyId': ID1})[:20])}")
    run("export, and the journal can't be written", words, 6, messages="make.txt look.txt", fails="write 0")
    run("export, and a second write would fail", words, text=one.journal(), messages="make.txt look.txt", fails="write 1")
    run("export of a session that a fault closes", words, text=one.journal(), messages=f"make.txt {file('fault.txt', FAULT)} make.txt")
    closing = file("closing_look.txt", text_of("DescribeKey", {"KeyId": ID1}, ["Connection: close"]))
    run("export of a session that a message closes", words, text=one.journal(), messages=f"make.txt {closing} make.txt")
    run("export of a session that is refused", values("export", caller=ANN), text=none.journal(), messages="make.txt")
    tagged = Session().ask("CreateKey", {"Tags": tags(env="test", a="1")}).ask("TagResource", {"KeyId": ID1, "Tags": tags(team="blue", Env="prod")})
    run("export of tags, which stand in the order of their keys", words, text=tagged.journal(), messages=messages_file("tags.txt", tagged))
    signed = signed_session(none.loaded(1, signs=True))
    messages_file("signed_make.txt", signed)
    run("export with a file, of messages that are signed", "export --config served.json", text=with_boot_2(signed), files="served.json",
        messages="signed_make.txt")


def signed_session(session):
    return session.ask("CreateKey", {"Description": "signed"})


def with_boot_2(session):
    """The journal of the same messages under boot number 2, which is that of the configuration."""
    return signed_session(Session().loaded(2, signs=True)).journal()


# ---- an account with a bit of everything

def setup():
    """Requests that make entries of each kind but that of housekeeping, and what later sessions ask for."""
    session = Session()
    session.ask("CreateKey", {"Description": "orders", "Tags": tags(a="1", env="test")})
    session.ask("CreateKey", OF_MACS | {"Policy": key_policy(statement("kms:VerifyMac", principal=ANN))})
    session.ask("CreateAlias", {"AliasName": "alias/orders", "TargetKeyId": ID1}).ask("CreateAlias", {"AliasName": "alias/old", "TargetKeyId": ID2})
    session.ask("Encrypt", {"KeyId": ID1, "Plaintext": HELLO})
    session.older = told(session, "CiphertextBlob")
    session.ask("PutKeyPolicy", {"KeyId": ID1, "Policy": key_policy(statement("kms:GetKeyPolicy", principal=ANN))})
    session.ask("TagResource", {"KeyId": ID2, "Tags": tags(Env="prod", team="blue")}).ask("UntagResource", {"KeyId": ID2, "TagKeys": ["team", "none"]})
    session.ask("UpdateKeyDescription", {"KeyId": ID2, "Description": "für MACs"})
    session.ask("EnableKeyRotation", {"KeyId": ID1, "RotationPeriodInDays": 90}).ask("RotateKeyOnDemand", {"KeyId": ID1})
    session.ask("Encrypt", {"KeyId": "alias/orders", "Plaintext": HELLO, "EncryptionContext": {"a": "1", "b": "2"}})
    session.newer = told(session, "CiphertextBlob")
    session.ask("GenerateMac", {"KeyId": ID2, "Message": HELLO, "MacAlgorithm": HMAC_SHA_256})
    session.mac = told(session, "Mac")
    grants(session)
    others(session)
    return session


def grants(session):
    """One grant stays, two are taken away."""
    session.ask("CreateGrant", {"KeyId": ID1, "GranteePrincipal": ANN, "RetiringPrincipal": BOB, "Operations": ["Encrypt", "RetireGrant", "Decrypt"],
                                "Constraints": {"EncryptionContextSubset": {"a": "1"}}, "Name": "orders"})
    session.grant = told(session, "GrantId")
    session.ask("CreateGrant", {"KeyId": ID1, "GranteePrincipal": BOB, "Operations": ["Decrypt"], "Constraints": {"EncryptionContextEquals": {"b": "2"}}})
    session.ask("RevokeGrant", {"KeyId": ID1, "GrantId": told(session, "GrantId")})
    session.ask("CreateGrant", {"KeyId": ID2, "GranteePrincipal": BOB, "Operations": ["GenerateMac"]})
    session.ask("RetireGrant", {"GrantToken": told(session, "GrantToken")})


def others(session):
    """A key that is disabled, and one that is to be deleted."""
    session.ask("CreateKey", {"Description": "asleep"})
    session.asleep = told_key(session)
    session.ask("EnableKeyRotation", {"KeyId": session.asleep}).ask("DisableKeyRotation", {"KeyId": session.asleep})
    session.ask("DisableKey", {"KeyId": session.asleep}).ask("EnableKey", {"KeyId": session.asleep})
    session.ask("ScheduleKeyDeletion", {"KeyId": session.asleep}).ask("CancelKeyDeletion", {"KeyId": session.asleep})
    session.ask("UpdateAlias", {"AliasName": "alias/old", "TargetKeyId": session.asleep}).ask("DeleteAlias", {"AliasName": "alias/old"})
    session.ask("CreateAlias", {"AliasName": "alias/asleep", "TargetKeyId": session.asleep})
    session.ask("CreateKey", {})
    session.going = told_key(session)
    session.ask("ScheduleKeyDeletion", {"KeyId": session.going, "PendingWindowInDays": 7})


def read(session):
    """Requests that change nothing: each operation that reads, and what opens and verifies."""
    for key in (ID1, ID2, session.asleep, session.going, "alias/orders", "alias/old"):
        session.ask("DescribeKey", {"KeyId": key})
    session.ask("ListKeys", {}).ask("ListKeys", {"Limit": 1, "Marker": "0"})
    session.ask("ListAliases", {}).ask("ListAliases", {"KeyId": session.asleep})
    session.ask("ListGrants", {"KeyId": ID1}).ask("ListGrants", {"KeyId": ID2}).ask("ListRetirableGrants", {"RetiringPrincipal": BOB})
    for key in (ID1, ID2):
        session.ask("GetKeyPolicy", {"KeyId": key}).ask("ListKeyPolicies", {"KeyId": key}).ask("ListResourceTags", {"KeyId": key})
    session.ask("GetKeyRotationStatus", {"KeyId": ID1}).ask("ListKeyRotations", {"KeyId": ID1}).ask("GetKeyRotationStatus", {"KeyId": session.asleep})
    session.ask("Decrypt", {"CiphertextBlob": session.older})
    session.ask("Decrypt", {"CiphertextBlob": session.newer, "EncryptionContext": {"a": "1", "b": "2"}})
    session.ask("Decrypt", {"CiphertextBlob": session.newer})
    session.ask("GenerateMac", {"KeyId": ID2, "Message": HELLO, "MacAlgorithm": HMAC_SHA_256})
    session.ask("VerifyMac", {"KeyId": ID2, "Message": HELLO, "Mac": session.mac, "MacAlgorithm": HMAC_SHA_256})
    return session.ask("VerifyMac", {"KeyId": ID2, "Message": HELLO, "Mac": HELLO, "MacAlgorithm": HMAC_SHA_256})


def change(session):
    """Requests that change the account, and what they make is used."""
    session.ask("Encrypt", {"KeyId": ID1, "Plaintext": HELLO})
    blob = told(session, "CiphertextBlob")
    assert base64.b64decode(blob)[21:25] == session.boot.to_bytes(4, "big")
    session.ask("Decrypt", {"CiphertextBlob": session.older}).ask("Decrypt", {"CiphertextBlob": blob})
    session.ask("GenerateDataKey", {"KeyId": ID1, "KeySpec": "AES_256"}).ask("ReEncrypt", {"CiphertextBlob": session.older, "DestinationKeyId": ID1})
    session.ask("CreateKey", {"Description": f"of boot {session.boot}"})
    session.newest = told_key(session)
    session.ask("Encrypt", {"KeyId": session.newest, "Plaintext": HELLO})
    session.older = told(session, "CiphertextBlob")
    for operation in ("CreateAlias", "UpdateAlias"):
        session.ask(operation, {"AliasName": "alias/orders", "TargetKeyId": session.newest})
    session.ask("CreateGrant", {"KeyId": session.newest, "GranteePrincipal": ANN, "Operations": ["Decrypt"]})
    session.ask("RevokeGrant", {"KeyId": ID1, "GrantId": session.grant}).ask("EnableKey", {"KeyId": session.asleep})
    session.ask("CancelKeyDeletion", {"KeyId": session.going}).ask("TagResource", {"KeyId": ID1, "Tags": tags(a="2")})
    return session.ask("ListGrants", {"KeyId": session.newest}).ask("ListResourceTags", {"KeyId": ID1})


def kept():
    """The account as it is written and as it is loaded."""
    whole = setup()
    count = len(whole.messages)
    read(whole)
    made, seen = whole.messages[:count], whole.messages[count:]
    file("setup.txt", "".join(made))
    file("reads.txt", "".join(seen))
    file("setup.replies", b"".join(whole.replies[:count]))
    file("reads.replies", b"".join(whole.replies[count:]))
    file("kept.journal", whole.journal())
    run("an account is made and read", values("run"), shows="setup.replies reads.replies", messages="setup.txt reads.txt")
    run("its journal has each kind of entry but that of housekeeping", values("export"), text=whole.journal(), messages="setup.txt reads.txt")
    run("it is loaded, and answers as the account that wrote it", values("run", 2, load="kept.journal"), shows="reads.replies", files="kept.journal",
        begin=BEGIN + count, messages="reads.txt")
    again = read(whole.loaded(4294967295, begin=BEGIN + count))
    assert again.replies == whole.replies[count:]
    run("it is loaded under the last boot number, and answers the same", values("run", 4294967295, load="kept.journal"), shows="reads.replies",
        files="kept.journal", begin=BEGIN + count, messages="reads.txt")
    run("it is loaded and written again", values("export", 2, load="kept.journal"), shows=file("again.journal", whole.loaded(2).journal()),
        files="kept.journal", messages="reads.txt")
    return whole


def goes_on(whole):
    """Changes go on from the loaded entries, and a third account from both."""
    changed = change(whole.loaded(2, begin=BEGIN + 100))
    messages_file("changes.txt", changed)
    replies_file("changes.replies", changed)
    loads = {"files": "kept.journal", "begin": BEGIN + 100, "messages": "changes.txt"}
    run("changes go on from the loaded entries", values("run", 2, load="kept.journal"), shows="changes.replies", **loads)
    run("the journal of both", values("export", 2, load="kept.journal"), shows=file("changed.journal", changed.journal()), **loads)
    refused("it is loaded under the boot number of the second", values("run", 2, load="changed.journal"), "boot", files="changed.journal")
    third = read(changed.loaded(3, begin=BEGIN + 200)).ask("DescribeKey", {"KeyId": changed.newest}).ask("Encrypt", {"KeyId": ID1, "Plaintext": HELLO})
    run("it is loaded under a third one", values("run", 3, load="changed.journal"), shows=replies_file("third.replies", third), files="changed.journal",
        begin=BEGIN + 200, messages=messages_file("third.txt", third))


def at_other_times(whole):
    """The clock is far behind the last entry, or before it."""
    late = whole.loaded(2, begin=BEGIN + 100 * DAY).ask("DescribeKey", {"KeyId": whole.going}).ask("CreateKey", {})
    read(late)
    loads = {"files": "kept.journal", "begin": BEGIN + 100 * DAY, "messages": messages_file("late.txt", late)}
    run("a key's time has come, and another's rotation", values("run", 2, load="kept.journal"), shows=replies_file("late.replies", late), **loads)
    run("the journal of housekeeping", values("export", 2, load="kept.journal"), shows=file("late.journal", late.journal()), **loads)
    early = whole.loaded(2, begin=BEGIN - 1000).ask("CreateKey", {"Description": "early"}).ask("ListKeys", {})
    assert early.entries[-1]["time"] == whole.entries[-1]["time"]
    loads = {"files": "kept.journal", "begin": BEGIN - 1000, "messages": messages_file("early_clock.txt", early)}
    run("the clock went back, and the entries' times didn't", values("export", 2, load="kept.journal"), shows=file("early_clock.journal", early.journal()),
        **loads)


def by_a_grant(whole):
    """A caller whose one right is a loaded grant, served and explained."""
    ann = whole.loaded(2, ANN, BEGIN + 100)
    ann.ask("Encrypt", {"KeyId": "alias/orders", "Plaintext": HELLO, "EncryptionContext": {"a": "1"}})
    ann.ask("Decrypt", {"CiphertextBlob": whole.newer, "EncryptionContext": {"a": "1", "b": "2"}}).ask("Decrypt", {"CiphertextBlob": whole.older})
    ann.ask("GetKeyPolicy", {"KeyId": ID1}).ask("VerifyMac", {"KeyId": ID2, "Message": HELLO, "Mac": whole.mac, "MacAlgorithm": HMAC_SHA_256})
    ann.ask("DescribeKey", {"KeyId": ID1}).ask("CreateKey", {}).ask("RetireGrant", {"GrantToken": whole.grant})
    ann.ask("Encrypt", {"KeyId": ID1, "Plaintext": HELLO, "EncryptionContext": {"a": "1"}})
    loads = {"files": "kept.journal", "begin": BEGIN + 100, "messages": messages_file("by_grant.txt", ann)}
    run("a loaded grant and loaded policies allow", values("run", 2, ANN, "kept.journal"), shows=replies_file("by_grant.replies", ann), **loads)
    run("the same, explained", values("explain", 2, ANN, "kept.journal"), text="".join(line + "\n" for line in ann.told), **loads)


def seeded():
    """The journal that stands among the examples."""
    made = CRATES.joinpath("examples", "seeded", "journal").read_text()
    second = json.loads(made.splitlines()[1])["time"]
    session = Session().loaded(1, begin=second)
    requests = [("CreateKey", {"Description": "orders", "Tags": tags(env="test")}), ("CreateAlias", {"AliasName": "alias/orders", "TargetKeyId": ID1}),
                ("CreateGrant", {"KeyId": ID1, "GranteePrincipal": ANN, "Operations": ["Encrypt", "Decrypt"]})]
    for operation, body in requests:
        session.begin = second - len(session.messages)
        session.ask(operation, body)
    assert session.journal() == made
    file("seeded.journal", made)
    loaded = session.loaded(2, ANN).ask("Encrypt", {"KeyId": "alias/orders", "Plaintext": HELLO})
    loaded.ask("Decrypt", {"CiphertextBlob": told(loaded, "CiphertextBlob")}).ask("DescribeKey", {"KeyId": ID1})
    run("the journal among the examples", values("run", 2, ANN, "seeded.journal"), shows=replies_file("seeded.replies", loaded), files="seeded.journal",
        messages=messages_file("seeded.txt", loaded))


# ---- serve

def serve_words(load=None, workers=1, connections=1, exports=""):
    words = f"serve --config served.json --listen memory --workers {workers} --connections {connections}"
    return words + (f" --load {load}" if load else "") + (f" {exports}" if exports else "")


def config():
    """The configuration of a server: its boot number is 2."""
    keepers = [{"accessKeyId": name, "secret": secret, "principal": who} for who, (name, secret) in KEEPERS.items()]
    found = {"account": ACCOUNT, "region": REGION, "root": SECRET, "boot": 2, "credentials": keepers, "policies": []}
    file("served.json", json.dumps(found, separators=(",", ":")) + "\n")


def served_line(connections, session):
    return f"served {connections} front {session.front}\n"


def servers(whole):
    """A server that loads and keeps."""
    changing = whole.loaded(2, begin=BEGIN + 100, signs=True).ask("CreateKey", {"Description": "served"})
    changing.ask("TagResource", {"KeyId": ID1, "Tags": tags(served="yes")}).ask("Encrypt", {"KeyId": ID1, "Plaintext": HELLO}).ask("ListKeys", {})
    reading = whole.loaded(2, ANN, BEGIN + 100, True)
    reading.ask("Decrypt", {"CiphertextBlob": whole.newer, "EncryptionContext": {"a": "1", "b": "2"}}).ask("GetKeyPolicy", {"KeyId": ID1})
    reading.ask("ListKeys", {})
    one, two = messages_file("served_changes.txt", changing), messages_file("served_reads.txt", reading)
    files, begin = "served.json kept.journal", BEGIN + 100
    both = serve_words("kept.journal", 2, exports="--export")
    alone = serve_words("kept.journal", 1, exports="--export")
    of_two = file("served_by_two.txt", served_line(2, changing) + changing.journal())
    of_one = file("served_by_one.txt", served_line(1, changing) + changing.journal())
    run("two workers, of whom one changes the account", both, shows=of_two, files=files, begin=begin, ears=[one, two])
    run("two workers, of whom the second changes the account", both, shows=of_two, files=files, begin=begin, ears=[two, one])
    run("one worker", alone, shows=of_one, files=files, begin=begin, ears=[one])
    run("one worker, and no journal is asked for", serve_words("kept.journal"), text=served_line(1, changing), files=files, begin=begin, ears=[one])
    run("one worker, and the line can't be written", alone, 6, files=files, begin=begin, ears=[one], fails="write 0")
    run("one worker, and the journal behind the line can't be written", alone, 6, served_line(1, changing), files=files, begin=begin, ears=[one],
        fails="write 1")
    run("one worker whose second connection doesn't come", serve_words("kept.journal", 1, 2, "--export"), 5, shows=of_one, files=files, begin=begin,
        ears=[one])
    run("a door that can't be opened", alone, 5, files=files, ears=[one], fails="door 0")
    refused("a journal with a fault comes before the door", serve_words("cut_off.journal", exports="--export"), "load/2",
            files="served.json cut_off.journal", ears=[one], fails="door 0")
    refused("the journal's boot number is that of the configuration", serve_words("changed.journal"), "boot", files="served.json changed.journal", ears=[one])
    both_change(whole, both, files, begin)


def both_change(whole, words, files, begin):
    """Two workers make an entry each, in either order: the journal is that of one of these, and a session after it reads what both did."""
    orders = [(ID1, ID2), (ID2, ID1)]
    ends = []
    for order in orders:
        session = whole.loaded(2, signs=True)
        for key in order:
            session.begin = begin - len(session.messages)
            session.ask("TagResource", {"KeyId": key, "Tags": tags(by="worker")})
        ends.append(session)
    by_key = dict(zip(orders[0], ends[0].messages))
    assert by_key == dict(zip(orders[1], ends[1].messages))
    ears = [file(f"tag_{number}.txt", by_key[key]) for number, key in enumerate(orders[0], 1)]
    SERVED.update(dict.fromkeys(ears, 1))
    run("two workers who change the account beside one another", words, text=served_line(2, ends[0]), shows="line", files=files, begin=begin, ears=ears)
    after = [read(end.loaded(3, begin=begin + 100)) for end in ends]
    assert after[0].replies == after[1].replies
    run("their journal is loaded", values("run", 3, load="left.journal"), shows=replies_file("tagged.replies", after[0]), files="left.journal",
        begin=begin + 100, messages=messages_file("tagged.txt", after[0]))


def main():
    config()
    faults(*journals_of_one_key())
    exports()
    unread()
    misuses()
    whole = kept()
    goes_on(whole)
    at_other_times(whole)
    by_a_grant(whole)
    seeded()
    servers(whole)
    head = ["# Runs of the program over journals. Written by tools/make_program_journals.py.", ""]
    file("journals.txt", "\n".join(head + SCRIPT))
    for name, content in FILES.items():
        PLACE.joinpath(name).write_bytes(content)
    print("".join(SHOWN), end="")


if __name__ == "__main__":
    main()
