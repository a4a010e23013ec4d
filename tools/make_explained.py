"""Makes the configurations and messages of program_cases that `explain` reads, and prints the lines that it is to write. Run:
python3 -B tools/make_explained.py, and put what it prints at the end of stdout of program_cases. Of one session it also makes the
script of account_cases and its stdout: how many marks each certificate has.

The lines are those of explained_account.py; the messages are signed by Python's `hmac`.
"""

import base64
import json
import pathlib
from datetime import datetime, timezone

import make_key_lives
import signing
from explained_account import Explained
from whole_account import CHANGES
from whole_cases import ACCOUNT, ANN, BOB, DAY, HELLO, ID1, ID2, ID3, ROOT, document, key_policy, own, statement, told, told_grant

CRATES = pathlib.Path(__file__).parent.parent / "crates"
PLACE = CRATES / "program_cases" / "data"
BEGIN = 1_700_000_000
REGION = "us-east-1"
KEEPERS = {ROOT: ("AKIDKEEPER", "root/Secret+0123456789"), ANN: ("AKIDANN", "ann/Secret+0123456789"), BOB: ("AKIDBOB", "bob/Secret+0123456789")}


class Session(Explained):
    """A session of signed messages, each a second after the one before it."""

    def __init__(self, name, what, policies=None, ceiling=()):
        super().__init__(what, policies, ceiling=ceiling)
        self.name, self.what, self.messages, self.script, self.later = name, what, [], [], 0

    def by(self, caller):
        self.caller = caller
        return self

    def begin(self):
        """The next message is answered at its second."""
        self.at(BEGIN + len(self.messages) + self.later)
        return datetime.fromtimestamp(self.now, timezone.utc).strftime("%Y%m%dT%H%M%SZ")

    def ask(self, operation, body, after=None):
        stamp = self.begin()
        more = [("x-kms-after", str(after))] if after is not None else []
        text = json.dumps(body, separators=(",", ":"))
        self.messages.append(signing.message(*KEEPERS[self.caller], REGION, operation, text, stamp, more))
        self.script.append(f"{self.caller} {operation} {text}")
        if operation in CHANGES:
            self.house()
        if after is not None and after > self.front:
            self.told.append(self.line("Early", [], "DependencyTimeoutException"))
            return self
        return super().ask(operation, body)

    def early(self, message, why):
        """A message that is refused before the account is asked."""
        self.begin()
        self.messages.append(message)
        self.told.append(self.line("Early", [], why))
        return self

    def raw(self, operation, body):
        return signing.message(*KEEPERS[self.caller], REGION, operation, body, self.begin())

    def config(self):
        found = {"account": ACCOUNT, "region": REGION, "root": "00" * 32, "boot": 1,
                 "credentials": [{"accessKeyId": name, "secret": secret, "principal": who} for who, (name, secret) in KEEPERS.items()],
                 "policies": [{"principal": who, "documents": [json.loads(one) for one in documents]} for who, documents in self.policies.items()]}
        return found | ({"ceiling": [json.loads(one) for one in self.ceiling]} if self.ceiling else {})

    def write(self):
        PLACE.joinpath(f"{self.name}.json").write_text(json.dumps(self.config(), separators=(",", ":")) + "\n")
        PLACE.joinpath(f"{self.name}.txt").write_text("".join(self.messages), newline="")
        print("\n".join([f"{self.what}: status 0", *self.told]))


def write_script(session):
    """The script of account_cases, and its lines."""
    place = CRATES / "account_cases"
    place.joinpath("data", "config.json").write_text(json.dumps(session.config(), separators=(",", ":")) + "\n")
    place.joinpath("data", "script.txt").write_text("".join(line + "\n" for line in session.script))
    counts = [sum(len(one["marks"].replace("/", "")) for one in json.loads(line)["questions"]) for line in session.told]
    lines = [f"{line.split('{')[0]}checks; {count} marks turned, 0 check\n" for line, count in zip(session.script, counts, strict=True)]
    place.joinpath("stdout").write_text("".join(lines))


def encrypt(session, key=ID1, **more):
    session.ask("Encrypt", {"KeyId": key, "Plaintext": HELLO} | more)
    return told(session, "CiphertextBlob") if session.told[-1].endswith('"Ok"}') else None


def of_another_key(blob):
    """A blob as of a key that isn't there."""
    data = base64.b64decode(blob)
    return base64.b64encode(data[:1] + make_key_lives.key_id(77) + data[17:]).decode()


def grounds():
    """Each ground, but for a ceiling that stops."""
    policies = {ANN: [own("kms:Decrypt"), own(["kms:ListKeys", "kms:CreateKey"]), own("kms:DisableKey", effect="Deny")], BOB: [own("kms:*")]}
    session = Session("grounds", "each ground but that of a ceiling", policies)
    session.ask("CreateKey", {})
    blob = encrypt(session)
    session.by(ANN).ask("Decrypt", {"CiphertextBlob": blob})
    session.ask("DescribeKey", {"KeyId": ID1})
    session.ask("ListKeys", {})
    session.by(ROOT).ask("ListKeys", {})
    session.ask("PutKeyPolicy", {"KeyId": ID1, "Policy": key_policy(
        statement("kms:DescribeKey", principal=ANN), statement("kms:EnableKey", "Deny", principal=BOB), statement("kms:GetKeyPolicy", "Deny", principal=ROOT))})
    session.by(ANN).ask("DescribeKey", {"KeyId": ID1})
    session.ask("DisableKey", {"KeyId": ID1})
    session.by(BOB).ask("EnableKey", {"KeyId": ID1})
    session.ask("GetKeyPolicy", {"KeyId": ID1})
    session.by(ROOT).ask("CreateGrant", {"KeyId": ID1, "GranteePrincipal": ANN, "Operations": ["Encrypt", "RetireGrant"]})
    token = told_grant(session)
    encrypt(session.by(ANN))
    session.by(BOB).ask("RetireGrant", {"GrantToken": token})
    session.by(ANN).ask("RetireGrant", {"GrantToken": token})
    encrypt(session)
    session.by(ROOT).ask("CreateGrant", {"KeyId": ID1, "GranteePrincipal": ANN, "RetiringPrincipal": BOB, "Operations": ["Encrypt"]})
    of_key = {"KeyId": f"arn:aws:kms:{REGION}:{ACCOUNT}:key/{ID1}", "GrantId": told_grant(session)}
    session.by(ANN).ask("RetireGrant", of_key)
    session.by(BOB).ask("RetireGrant", of_key)
    session.ask("RetireGrant", of_key)
    return session


def marks():
    """Each mark in each run, and statements of which several parts fail."""
    wrong = {"StringEquals": {"kms:KeySpec": "none"}}
    rows = [statement("kms:Decrypt", principal=BOB, when=wrong), statement("kms:Encrypt", resource="no", principal=ANN, when=wrong),
            statement("kms:Decrypt", resource="no", principal=ANN, when=wrong), statement("kms:Decrypt", principal=ANN, when=wrong),
            statement("kms:Decrypt", principal=ROOT), statement("kms:Decrypt", "Deny", principal=BOB)]
    alone = [json.loads(json.dumps(row)) for row in rows]
    for row in alone:
        del row["Principal"]
    ceiling = [document(statement("*"), *[row | {"Effect": "Deny"} for row in alone[1:4]])]
    policies = {ANN: [document(*alone[1:4]), document(statement("kms:Decrypt"))]}
    session = Session("marks", "each mark in each run", policies, ceiling)
    session.ask("CreateKey", {"Policy": key_policy(*rows)})
    session.ask("CreateKey", {})
    for grantee, more in [(BOB, {}), (ANN, {"Operations": ["Encrypt"]}), (ANN, {"Constraints": {"EncryptionContextEquals": {"a": "1"}}}), (ANN, {})]:
        session.ask("CreateGrant", {"KeyId": ID1, "GranteePrincipal": grantee, "Operations": ["Decrypt"]} | more)
    session.ask("CreateGrant", {"KeyId": ID2, "GranteePrincipal": ANN, "Operations": ["Decrypt"]})
    blob = encrypt(session)
    session.by(ANN).ask("Decrypt", {"CiphertextBlob": blob})
    session.ask("Decrypt", {"CiphertextBlob": blob, "EncryptionContext": {"a": "1"}})
    session.ask("DescribeKey", {"KeyId": ID1})
    return session


def several():
    """Requests that ask several things, of which the first that isn't allowed decides."""
    policies = {ANN: [own(["kms:CreateKey", "kms:UpdateAlias", "kms:ReEncryptTo"])], BOB: [own(["kms:CreateKey", "kms:TagResource", "kms:ReEncrypt*"])]}
    session = Session("several", "several questions", policies)
    tags = [{"TagKey": "env", "TagValue": "prod"}]
    session.ask("CreateKey", {"Tags": tags})
    session.by(ANN).ask("CreateKey", {"Tags": tags})
    session.by(BOB).ask("CreateKey", {"Tags": tags})
    session.by(ROOT).ask("CreateAlias", {"AliasName": "alias/app", "TargetKeyId": ID1})
    session.ask("UpdateAlias", {"AliasName": "alias/app", "TargetKeyId": ID2})
    session.by(ANN).ask("UpdateAlias", {"AliasName": "alias/app", "TargetKeyId": ID1})
    session.by(BOB).ask("UpdateAlias", {"AliasName": "alias/app", "TargetKeyId": ID1})
    blob = encrypt(session.by(ROOT))
    for caller in (ANN, BOB):
        session.by(caller).ask("ReEncrypt", {"CiphertextBlob": blob, "DestinationKeyId": ID2})
    session.by(ROOT).ask("Encrypt", {"KeyId": ID1, "Plaintext": HELLO, "DryRun": True})
    session.ask("CreateGrant", {"KeyId": ID1, "GranteePrincipal": ANN, "Operations": ["CreateGrant", "Decrypt"]})
    session.by(ANN).ask("CreateGrant", {"KeyId": ID1, "GranteePrincipal": BOB, "Operations": ["Decrypt"]})
    session.ask("CreateGrant", {"KeyId": ID1, "GranteePrincipal": BOB, "Operations": ["Encrypt"]})
    return session


def ceilings():
    """A ceiling bounds the root, callers and grantees, and not those who retire grants."""
    ceiling = [document(statement(["kms:CreateKey", "kms:CreateGrant", "kms:DescribeKey", "kms:Encrypt"])), own("kms:ScheduleKeyDeletion", effect="Deny")]
    session = Session("ceilings", "a ceiling", {ANN: [own("kms:*")]}, ceiling)
    session.ask("CreateKey", {})
    session.ask("DescribeKey", {"KeyId": ID1})
    session.ask("ScheduleKeyDeletion", {"KeyId": ID1, "PendingWindowInDays": 7})
    session.ask("CreateGrant", {"KeyId": ID1, "GranteePrincipal": ANN, "Operations": ["Decrypt"]})
    token = told_grant(session)
    blob = encrypt(session)
    session.by(ANN).ask("Decrypt", {"CiphertextBlob": blob})
    session.ask("ListKeys", {})
    session.by(ROOT).ask("RetireGrant", {"GrantToken": token})
    return session


def early():
    """Refusals before authority is asked, one of each step, and what stops at the head."""
    session = Session("early", "refused early", {ANN: [own("kms:*")]})
    unsigned = "POST / HTTP/1.1\r\nHost: localhost\r\nX-Amz-Target: TrentService.ListKeys\r\nContent-Length: 2\r\n\r\n{}"
    session.early(unsigned, "MissingAuthenticationTokenException")
    session.early(session.raw("CreateKey", "{}").replace("Credential=AKIDKEEPER", "Credential=AKIDNOBODY"), "UnrecognizedClientException")
    session.early(session.raw("Nothing", "{}"), "UnknownOperationException")
    session.early(session.raw("CreateKey", "["), "SerializationException")
    session.early(session.raw("DescribeKey", "{}"), "ValidationException")
    session.ask("DescribeKey", {"KeyId": ID1}, after=1)
    session.ask("DescribeKey", {"KeyId": ID1})
    session.ask("CreateKey", {}, after=0)
    blob = encrypt(session)
    session.ask("Decrypt", {"CiphertextBlob": of_another_key(blob)})
    session.ask("CreateAlias", {"AliasName": "alias/app", "TargetKeyId": ID3})
    session.ask("DescribeKey", {"KeyId": ID1, "GrantTokens": ["0" * 64]})
    session.early("GET / HTTP/1.1\r\n\r\n", "HttpFault")
    return session


def house():
    """Housekeeping comes before a message that changes the account, and is one of the entries for which it waits."""
    session = Session("house", "housekeeping comes first")
    session.ask("CreateKey", {})
    session.ask("ScheduleKeyDeletion", {"KeyId": ID1, "PendingWindowInDays": 7})
    session.later = 8 * DAY
    session.ask("ListKeys", {}, after=3)
    session.ask("CreateKey", {}, after=3)
    session.ask("DescribeKey", {"KeyId": ID1})
    return session


def main():
    shown = marks()
    for session in (grounds(), shown, several(), ceilings(), early(), house()):
        session.write()
    write_script(shown)


if __name__ == "__main__":
    main()
