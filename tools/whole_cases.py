"""What the scripts share whose cases ask the account of whole_account.py: callers, policies, and requests that are often asked."""

import json

from make_key_lives import ACCOUNT, DATA, DAY, HELLO, ID1, ID2, K1, K2, ROOT, START, arn, key_id, printed
from whole_account import DEFAULT_POLICY, GRANT_OPERATIONS, HMAC_256, HMAC_SHA_256, Whole, alias_arn, grant_id

ANN, BOB, CAROL, DAN, EVE, FAY, GUS = (f"arn:aws:iam::{ACCOUNT}:user/{name}" for name in ("ann", "bob", "carol", "dan", "eve", "fay", "gus"))
ROLE = f"arn:aws:iam::{ACCOUNT}:role/team/app"
STRANGER = "arn:aws:iam::444455556666:user/ann"
ARN1, ARN2 = arn(K1), arn(K2)
K3 = key_id(2)
ID3, ARN3 = printed(K3), arn(K3)
APP = "alias/app"
A1, AB = {"a": "1"}, {"a": "1", "b": "2"}
DEAD = "0" * 64
LONG = "alias/" + "a" * 250


def document(*statements):
    return json.dumps({"Version": "2012-10-17", "Statement": list(statements)}, separators=(",", ":"))


def statement(action, effect="Allow", resource="*", principal=None, **condition):
    said = {"Effect": effect} | ({"Principal": "*" if principal == "*" else {"AWS": principal}} if principal else {})
    said |= {"Action": action, "Resource": resource}
    return said | ({"Condition": condition["when"]} if condition else {})


def own(action, resource="*", effect="Allow", **condition):
    """A caller's own policy of one statement."""
    return document(statement(action, effect, resource, **condition))


def key_policy(*statements):
    """A key policy: the account's root may do everything, and further statements."""
    return document(statement("kms:*", principal=ROOT), *statements)


def keys(what, count=1, policies=None, **how):
    account = Whole(what, policies, **how)
    for _ in range(count):
        account.ask("CreateKey", {})
    return account


def asked(what, count=1, policies=None, policy=None, ceiling=()):
    """Several callers who ask at one second. The first key may have a policy of its own."""
    account = Whole(what, policies, asked=True, ceiling=ceiling)
    for number in range(count):
        account.ask("CreateKey", {"Policy": policy} if policy and number == 0 else {})
    return account


def schedule(account, key, days=7):
    return account.ask("ScheduleKeyDeletion", {"KeyId": key, "PendingWindowInDays": days})


def into(account, key, state):
    if state == "Disabled":
        account.ask("DisableKey", {"KeyId": key})
    if state == "PendingDeletion":
        schedule(account, key)
    return account


def put(account, name, key):
    return account.ask("CreateAlias", {"AliasName": name, "TargetKeyId": key})


def encrypt(account, key, **more):
    return account.ask("Encrypt", {"KeyId": key, "Plaintext": HELLO} | more)


def decrypt(account, blob, **more):
    return account.ask("Decrypt", {"CiphertextBlob": blob} | more)


def grant(account, key=ID1, grantee=ANN, operations=("Decrypt",), **more):
    return account.ask("CreateGrant", {"KeyId": key, "GranteePrincipal": grantee, "Operations": list(operations)} | more)


def told(account, member):
    """A member of what the last request was answered."""
    return json.loads(account.said[-1][2].split(" ", 3)[3])[member]


def told_grant(account):
    """The id of the grant that the last request made."""
    return told(account, "GrantId")


OF_MACS = {"KeySpec": HMAC_256, "KeyUsage": "GENERATE_VERIFY_MAC"}


def hmac_key(account, **more):
    return account.ask("CreateKey", OF_MACS | more)


def generate(account, key, message=HELLO, **more):
    return account.ask("GenerateMac", {"KeyId": key, "Message": message, "MacAlgorithm": HMAC_SHA_256} | more)


def verify(account, key, mac, message=HELLO, **more):
    return account.ask("VerifyMac", {"KeyId": key, "Message": message, "Mac": mac, "MacAlgorithm": HMAC_SHA_256} | more)


def tags(**pairs):
    """Tags as a request gives them."""
    return [{"TagKey": name, "TagValue": value} for name, value in pairs.items()]


def tag(account, key, **pairs):
    return account.ask("TagResource", {"KeyId": key, "Tags": tags(**pairs)})


def untag(account, key, *names):
    return account.ask("UntagResource", {"KeyId": key, "TagKeys": list(names)})


def list_tags(account, key, **more):
    return account.ask("ListResourceTags", {"KeyId": key} | more)


NAMES = [("ARN", f"arn:aws:kms:us-east-1:{ACCOUNT}:key/"), ("ROOT", ROOT), ("IAM", f"arn:aws:iam::{ACCOUNT}:user/")]


def abbreviated(text, names):
    for name, value in names:
        text = text.replace(value, f"<{name}>")
    return text


def of_a_new_key():
    """The texts before a new key's ARN, behind it, and behind its id, in what CreateKey tells of it."""
    body = Whole("").ask("CreateKey", {}).said[0][2].split(" ", 3)[3]
    before, rest = body.split(ARN1)
    between, behind = rest.split(f'"{ID1}"')
    return [("KEY", before), ("MADE", between), ("END", behind)]


def write(script, name, what, accounts):
    """Writes the cases of accounts as a script of worked_cases: those of many rows last, with names for what they repeat."""
    head = [f"# {what}.", f"# Written by tools/{script}: an account in plain Python answers, with Python's hmac, json and email.utils, and its package cryptography."]
    accounts = list(accounts)
    plain = [account.script() for account in accounts if not account.long]
    long = [abbreviated(account.script(), of_a_new_key() + NAMES) for account in accounts if account.long]
    names = ["\n".join(f"text {name} {value}" for name, value in of_a_new_key() + NAMES)] if long else []
    DATA.joinpath(name).write_text("\n\n".join(["\n".join(head)] + plain + names + long) + "\n")
