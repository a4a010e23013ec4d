"""Writes crates/worked_cases/data/tagged_sessions.txt: python3 -B tools/make_tagged_sessions.py [SEED COUNT]

Random sessions as those of make_sessions.py, whose keys are of both kinds and have tags. The account in plain Python of whole_account.py
answers. With a seed and a count that many other sessions are written to standard output.
"""

import sys

import make_sessions
from whole_cases import *

NAMES, VALUES = ["env", "Env", "team", "é"], ["prod", "dev", ""]
ALGORITHMS = [HMAC_SHA_256] * 9 + ["HMAC_SHA_512"]
MESSAGES = [HELLO] * 4 + ["AA=="]
REQUESTS = (make_sessions.REQUESTS + ["GenerateMac"] * 7 + ["VerifyMac"] * 9 + ["TagResource"] * 7 + ["UntagResource"] * 4 + ["ListResourceTags"] * 4 + ["CreateKey"] * 3)


class Tagged(make_sessions.Sessions):
    """Chooses what is asked, of keys of both kinds with tags too."""

    operations, requests = GRANT_OPERATIONS, REQUESTS

    def condition(self):
        if self.often(0.5):
            return super().condition()
        name, value, flag = self.choice(NAMES), self.choice(VALUES), self.choice(["true", "false"])
        kind = self.choice([("SYMMETRIC_DEFAULT", "ENCRYPT_DECRYPT"), (HMAC_256, "GENERATE_VERIFY_MAC")])
        where = self.choice(["aws:ResourceTag/", "aws:ResourceTag/", "aws:RequestTag/"]) + self.choice([name, name.upper()])
        return self.choice([
            {"StringEquals": {where: value}}, {"StringNotEquals": {where: value}}, {"StringEqualsIfExists": {where: value}}, {"Null": {where: flag}},
            {"ForAllValues:StringEquals": {"aws:TagKeys": [name, "team"]}}, {"ForAnyValue:StringEquals": {"aws:TagKeys": name}}, {"Null": {"aws:TagKeys": flag}},
            {"StringEquals": {"kms:KeySpec": kind[0]}}, {"StringEquals": {"kms:KeyUsage": kind[1]}}, {"StringEquals": {"kms:MacAlgorithm": HMAC_SHA_256}}, {"Null": {"kms:MacAlgorithm": flag}}])

    def statement(self, principals):
        said = super().statement(principals)
        if self.often(0.4):
            said["Action"] = self.choice(["kms:*Mac", "kms:VerifyMac", "kms:*Tag*", "kms:TagResource", "kms:ListResourceTags", "kms:CreateKey"])
        return said

    def given_tags(self):
        names = self.sample(NAMES, self.choice([0, 1, 1, 2, 3]))
        names += names[:1] if self.often(0.04) else ["aws:x"] if self.often(0.04) else []
        return {"Tags": [{"TagKey": name, "TagValue": self.choice(VALUES)} for name in names]}

    def made(self, body):
        return body | (OF_MACS if self.often(0.5) else {}) | (self.given_tags() if self.often(0.7) else {})

    def page(self):
        found = super().page()
        return found | {"Marker": self.choice(NAMES + [""]).encode().hex() or "e"} if "Marker" in found and self.often(0.4) else found

    def of_mac(self, account, operation):
        """A request for a MAC, most often of an HMAC key, or one that gives a MAC that was generated."""
        of_macs = [printed(key["id"]) for key in account.keys if key["spec"] == HMAC_256]
        named = self.choice(of_macs) if of_macs and self.often(0.8) else self.named(account)
        said = {"KeyId": named, "Message": self.choice(MESSAGES), "MacAlgorithm": self.choice(ALGORITHMS)} | self.tokens(account) | self.dry()
        if operation == "GenerateMac":
            return said
        generated = [json.loads(reply.split(" ", 3)[3]) for _, request, reply in account.said if reply and request.startswith("> GenerateMac") and reply.startswith("< 200")]
        if not generated:
            return said | {"Mac": "AAAA"}
        told = self.choice(generated)
        return said | {"Mac": told["Mac"]} | ({"KeyId": told["KeyId"]} if self.often(0.7) else {})

    def body(self, account, operation):
        key = {"KeyId": self.key(account)}
        if operation in ("GenerateMac", "VerifyMac"):
            return self.of_mac(account, operation)
        if operation == "TagResource":
            return key | self.given_tags()
        if operation == "UntagResource":
            return key | {"TagKeys": self.sample(NAMES, self.choice([1, 1, 2]))}
        if operation == "ListResourceTags":
            return key | self.page()
        if operation == "CreateKey":
            return self.made(super().body(account, operation)) | self.choice([{}, {}, {"KeySpec": HMAC_256}, {"KeyUsage": "ENCRYPT_DECRYPT"}])
        return super().body(account, operation)


if __name__ == "__main__":
    if len(sys.argv) == 3:
        sessions = Tagged(int(sys.argv[1]))
        print("\n\n".join(sessions.session(number, 45).script() for number in range(int(sys.argv[2]))))
    else:
        sessions = Tagged(1)
        write("make_tagged_sessions.py", "tagged_sessions.txt", "Random sessions about keys of both kinds, MACs, tags, grants and policies", [sessions.session(number, 40) for number in range(1, 13)])
