"""Writes crates/worked_cases/data/sessions.txt: python3 -B tools/make_sessions.py [SEED COUNT]

Random sessions about few keys, aliases, grants and callers, so that much of what is asked is there. The account in plain Python of
whole_account.py answers. With a seed and a count that many other sessions are written to standard output.
"""

import random
import sys

from make_key_lives import DAY
from whole_cases import *

CALLERS = [ROOT, ANN, BOB, ROLE]
ALIASES = ["alias/a", "alias/b", "alias/c"]
CONTEXTS = [{}, A1, AB, {"a": "2"}, {"b": "2"}]
ACTIONS = ["*", "kms:*", "kms:Describe*", "kms:Encrypt", "kms:*crypt*", "kms:*Alias", "kms:CreateAlias", "kms:UpdateAlias", "kms:List*", "kms:*Grant*",
           "kms:CreateGrant", "kms:ReEncrypt*", "kms:Generate*", "kms:RevokeGrant"]
OPERATIONS = [operation for operation in GRANT_OPERATIONS if "Mac" not in operation]
RESOURCES = ["*", "*", "*", ARN1, ARN2, alias_arn("alias/a"), alias_arn("alias/*"), alias_arn("key/*")]
OF_A_KEY = ["DescribeKey", "GetKeyPolicy", "GetKeyRotationStatus", "EnableKey", "EnableKey", "DisableKey", "CancelKeyDeletion", "CancelKeyDeletion", "RotateKeyOnDemand"]
REQUESTS = (["CreateAlias"] * 4 + ["UpdateAlias"] * 3 + ["DeleteAlias"] * 2 + ["CreateGrant"] * 7 + ["RetireGrant"] * 2 + ["RevokeGrant"] * 2 + ["ListGrants"] * 2
            + ["ListRetirableGrants", "ListKeys", "ListAliases", "ListAliases", "ListKeyPolicies", "ListKeyRotations"] + ["Encrypt"] * 3 + ["Decrypt"] * 4
            + ["ReEncrypt"] * 3 + ["GenerateDataKey", "GenerateDataKeyWithoutPlaintext", "DescribeKey", "DescribeKey", "PutKeyPolicy", "CreateKey",
               "ScheduleKeyDeletion", "EnableKeyRotation", "UpdateKeyDescription"] + OF_A_KEY)


class Sessions:
    """Chooses what is asked."""

    operations, requests = OPERATIONS, REQUESTS

    def __init__(self, seed):
        self.random = random.Random(seed)
        self.choice, self.sample = self.random.choice, self.random.sample

    def often(self, part):
        return self.random.random() < part

    # ---- policies

    def condition(self):
        names, operations = self.sample(ALIASES, 2), self.sample(self.operations, 5)
        flag, digit = self.choice(["true", "false"]), self.choice("12")
        return self.choice([
            {"StringEquals": {"kms:RequestAlias": names[0]}}, {"ForAnyValue:StringEquals": {"kms:ResourceAliases": names[0]}},
            {"ForAllValues:StringEquals": {"kms:ResourceAliases": names}}, {"Null": {"kms:ResourceAliases": flag}}, {"Null": {"kms:RequestAlias": flag}},
            {"StringEquals": {"kms:EncryptionContext:a": digit}}, {"StringNotEquals": {"kms:EncryptionContext:a": digit}},
            {"ForAllValues:StringEquals": {"kms:EncryptionContextKeys": self.choice([["a"], ["a", "b"]])}},
            {"ForAllValues:StringEquals": {"kms:GrantOperations": operations}}, {"ForAnyValue:StringEquals": {"kms:GrantOperations": operations[:3]}},
            {"StringEquals": {"kms:GranteePrincipal": self.choice(CALLERS)}}, {"StringEqualsIfExists": {"kms:RetiringPrincipal": self.choice(CALLERS)}},
            {"StringLike": {"kms:GrantConstraintType": self.choice(["*Equals", "*Subset"])}}, {"Bool": {"kms:GrantIsForAWSResource": flag}},
            {"StringEquals": {"aws:username": self.choice(["ann", "bob"])}}, {"Bool": {"kms:ReEncryptOnSameKey": flag}},
            {"Null": {"kms:EncryptionAlgorithm": flag}}, {"Null": {"kms:KeySpec": flag}}])

    def statement(self, principals):
        action = self.choice([self.choice(ACTIONS), self.sample(ACTIONS, 2)])
        effect, resource = self.choice(["Allow", "Allow", "Allow", "Deny"]), self.choice(RESOURCES)
        principal = self.choice(principals) if principals else None
        return statement(action, effect, resource, principal, **({"when": self.condition()} if self.often(0.4) else {}))

    def key_policy(self):
        root = [statement("kms:*", principal=ROOT)] if self.often(0.8) else []
        principals = ["*", ROOT, ANN, BOB, ROLE, [ANN, ROLE], [ROOT, BOB]]
        return document(*root, *(self.statement(principals) for _ in range(self.choice([1, 2, 3]))))

    def own_policies(self, caller):
        found = {who: [document(*(self.statement(None) for _ in range(self.choice([1, 2, 3])))) for _ in range(self.choice([0, 1, 2]))] for who in CALLERS[1:]}
        if caller != ROOT:
            found[caller].append(own(["kms:CreateKey", "kms:ScheduleKeyDeletion", "kms:List*", "kms:CreateAlias"]))
        return {who: documents for who, documents in found.items() if documents}

    # ---- fields

    def key(self, account):
        ids = [printed(key["id"]) for key in account.keys]
        found = self.choice(ids) if ids and self.often(0.95) else printed(key_id(77))
        return self.choice([found, found, found, found.upper(), alias_arn("key/" + found)])

    def named(self, account):
        name = self.choice(ALIASES)
        return self.choice([self.key(account), self.key(account), name, alias_arn(name)])

    def grant_of(self, account):
        held = [row["grant"] for row in account.grants]
        return self.choice(held) if held and self.often(0.85) else grant_id(self.random.randrange(30))

    def context(self, name="EncryptionContext"):
        return {name: self.choice(CONTEXTS)} if self.often(0.7) else {}

    def tokens(self, account):
        return {"GrantTokens": [self.grant_of(account) for _ in range(self.choice([0, 1, 2]))]} if self.often(0.2) else {}

    def dry(self):
        return {"DryRun": self.choice([True, True, False])} if self.often(0.15) else {}

    def constraint(self):
        kind = self.choice([None, "EncryptionContextEquals", "EncryptionContextSubset"])
        return {"Constraints": {kind: self.choice(CONTEXTS)}} if kind else {}

    def page(self):
        marker = "x" if self.often(0.1) else str(self.random.randrange(25))
        return ({"Limit": self.choice([1, 2, 3])} if self.often(0.6) else {}) | ({"Marker": marker} if self.often(0.5) else {})

    # ---- requests

    def of_blob(self, account, operation):
        blob = self.choice(list(account.blobs))
        context = account.blobs[blob][2] if self.often(0.75) else self.choice(CONTEXTS)
        more = self.tokens(account) | self.dry()
        if operation == "Decrypt":
            return {"CiphertextBlob": blob, "EncryptionContext": context} | ({"KeyId": self.named(account)} if self.often(0.3) else {}) | more
        source = {"SourceKeyId": self.named(account)} if self.often(0.3) else {}
        return {"CiphertextBlob": blob, "SourceEncryptionContext": context, "DestinationKeyId": self.named(account)} | source | self.context("DestinationEncryptionContext") | more

    def granting(self, account):
        operations = [self.choice(self.operations) for _ in range(self.choice([1, 1, 2, 3]))]
        found = {"KeyId": self.key(account), "GranteePrincipal": self.choice(CALLERS), "Operations": operations}
        found |= {"RetiringPrincipal": self.choice(CALLERS)} if self.often(0.5) else {}
        found |= {"Name": self.choice("nm")} if self.often(0.3) else {}
        return found | self.constraint() | self.tokens(account) | self.dry()

    def body(self, account, operation):
        key, name = {"KeyId": self.key(account)}, {"AliasName": self.choice(ALIASES)}
        if operation in ("Decrypt", "ReEncrypt"):
            return self.of_blob(account, operation)
        if operation == "CreateGrant":
            return self.granting(account)
        if operation in ("CreateAlias", "UpdateAlias"):
            return name | {"TargetKeyId": self.key(account)}
        if operation == "RetireGrant":
            return self.choice([{"GrantToken": self.grant_of(account)}, key | {"GrantId": self.grant_of(account)}]) | self.dry()
        if operation == "ListGrants":
            by_id = {"GrantId": self.grant_of(account)} if self.often(0.2) else {}
            return key | self.page() | by_id | ({"GranteePrincipal": self.choice(CALLERS)} if self.often(0.3) else {})
        using = {"KeyId": self.named(account)} | self.tokens(account)
        return {
            "DeleteAlias": lambda: name, "RevokeGrant": lambda: key | {"GrantId": self.grant_of(account)} | self.dry(), "ListKeys": self.page,
            "ListRetirableGrants": lambda: {"RetiringPrincipal": self.choice(CALLERS)} | self.page(),
            "ListAliases": lambda: self.page() | (key if self.often(0.5) else {}), "ListKeyPolicies": lambda: key | self.page(),
            "ListKeyRotations": lambda: key | self.page(), "Encrypt": lambda: using | {"Plaintext": HELLO} | self.context() | self.dry(),
            "GenerateDataKey": lambda: using | {"NumberOfBytes": self.random.randrange(1, 40)} | self.context() | self.dry(),
            "GenerateDataKeyWithoutPlaintext": lambda: using | {"KeySpec": "AES_128"} | self.context() | self.dry(), "DescribeKey": lambda: using,
            "PutKeyPolicy": lambda: key | {"Policy": self.key_policy(), "BypassPolicyLockoutSafetyCheck": self.choice([True, False])},
            "CreateKey": lambda: {"Description": "d"}, "ScheduleKeyDeletion": lambda: key | {"PendingWindowInDays": self.choice([7, 8, 30])},
            "EnableKeyRotation": lambda: key | {"RotationPeriodInDays": 90}, "UpdateKeyDescription": lambda: key | {"Description": "x"},
        }.get(operation, lambda: key)()

    def made(self, body):
        """What a first key is asked for by."""
        return body

    def begun(self, number):
        """A session with some keys, aliases, grants and blobs."""
        several = self.often(0.6)
        caller = ROOT if several else self.choice([ROOT, ROOT, ANN])
        account = Whole(f"random session {number}", self.own_policies(caller), caller, several)
        for _ in range(self.choice([1, 2, 3])):
            account.ask("CreateKey", self.made({"Policy": self.key_policy(), "BypassPolicyLockoutSafetyCheck": True} if self.often(0.6) else {}))
        for name in ALIASES:
            if self.often(0.6):
                put(account, name, self.key(account))
        for _ in range(self.choice([1, 2, 3])):
            account.ask("CreateGrant", self.granting(account))
            encrypt(account, self.key(account), **self.context())
        return account

    def session(self, number, requests):
        account = self.begun(number)
        for _ in range(requests):
            if account.asked and self.often(0.5):
                account.by(self.choice(CALLERS))
            if not account.asked and self.often(0.12):
                account.at(account.now + self.choice([1, DAY, 3 * DAY, 7 * DAY, 90 * DAY, -5]))
            operation = self.choice(self.requests)
            if account.blobs or operation not in ("Decrypt", "ReEncrypt"):
                account.ask(operation, self.body(account, operation))
        return account


if __name__ == "__main__":
    if len(sys.argv) == 3:
        sessions = Sessions(int(sys.argv[1]))
        print("\n\n".join(sessions.session(number, 45).script() for number in range(int(sys.argv[2]))))
    else:
        sessions = Sessions(1)
        write("make_sessions.py", "sessions.txt", "Random sessions about aliases, grants, lists and policies", [sessions.session(number, 30) for number in range(1, 13)])
