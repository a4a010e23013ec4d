"""Writes crates/worked_cases/data/lists.txt: python3 -B tools/make_lists.py

Each case is asked of the account in plain Python of whole_account.py, which answers it.
"""

from whole_cases import *

BAD_MARKERS = ("x", "0" * 19)
MARKERS = ("x", "0" * 19, "1000000000000000000", "-1", "+1", " 1", "1 ", "1.0", "0x1", "1e1", "é", "m" * 1024)


def pages(account, operation, body, first, last, bad=BAD_MARKERS):
    """Every page of a list of three rows whose first and last row stand at these places."""
    for limit in (1, 2, 3, 4):
        marker = {}
        while marker is not None:
            account.ask(operation, body | {"Limit": limit} | marker)
            reply = json.loads(account.said[-1][2].split(" ", 3)[3])
            marker = {"Marker": reply["NextMarker"]} if "NextMarker" in reply else None
    account.ask(operation, body)
    for marker in ("0", "000", str(first), "0" * 15 + str(first), str(first + 1), str(last), str(last + 1), "9" * 18, "0" * 18) + bad:
        account.ask(operation, body | {"Marker": marker})
    return account


def lists():
    account = Whole("an account without keys lists nothing")
    for operation, body in (("ListKeys", {}), ("ListAliases", {}), ("ListRetirableGrants", {"RetiringPrincipal": ANN})):
        for marker in ({}, {"Marker": "0"}, {"Marker": "9" * 18}, {"Marker": "x"}, {"Limit": 1}):
            account.ask(operation, body | marker)
    yield account
    account = keys("one row of each list")
    put(account, APP, ID1)
    grant(account, RetiringPrincipal=BOB)
    account.ask("RotateKeyOnDemand", {"KeyId": ID1})
    for operation, body in (("ListKeys", {}), ("ListAliases", {}), ("ListAliases", {"KeyId": ID1}), ("ListRetirableGrants", {"RetiringPrincipal": BOB}),
                            ("ListRetirableGrants", {"RetiringPrincipal": ANN}), ("ListKeyPolicies", {"KeyId": ID1}), ("ListKeyRotations", {"KeyId": ID1}), ("ListGrants", {"KeyId": ID1})):
        account.ask(operation, body).ask(operation, body | {"Limit": 1}).ask(operation, body | {"Limit": 2})
        for marker in ("0", "1", "2", "3"):
            account.ask(operation, body | {"Marker": marker})
    yield account
    yield pages(keys("the pages of ListKeys", 3), "ListKeys", {}, 0, 2, MARKERS)
    account = keys("more keys than a page has where no limit is given", 101)
    account.long = True
    yield account.ask("ListKeys", {}).ask("ListKeys", {"Marker": "99"}).ask("ListKeys", {"Limit": 1000, "Marker": "97"})
    account = keys("the pages of ListAliases", 2)
    for name, key in (("alias/b", ID1), ("alias/a", ID2), ("alias/c", ID1)):
        put(account, name, key)
    yield pages(account, "ListAliases", {}, 2, 4)
    account = keys("the pages of ListAliases of one key", 2)
    for name, key in (("alias/b", ID1), ("alias/x", ID2), ("alias/a", ID1), ("alias/y", ID2), ("alias/c", ID1), ("alias/z", ID2)):
        put(account, name, key)
    yield pages(account, "ListAliases", {"KeyId": ARN1}, 2, 6)
    account = keys("more aliases than a page has where no limit is given", 1)
    for number in range(51):
        put(account, f"alias/{number}", ID1)
    account.long = True
    yield account.ask("ListAliases", {}).ask("ListAliases", {"Marker": "50"}).ask("ListAliases", {"Limit": 100, "Marker": "49"})
    account = keys("ListAliases of one key, as its aliases move", 2)
    put(account, "alias/a", ID1)
    put(account, "alias/b", ID2)
    put(account, "alias/c", ID1)
    account.ask("UpdateAlias", {"AliasName": "alias/a", "TargetKeyId": ID2}).ask("ListAliases", {"KeyId": ID1}).ask("ListAliases", {"KeyId": ID2})
    account.ask("ListAliases", {"KeyId": ID2, "Limit": 1}).ask("ListAliases", {"KeyId": ID2, "Limit": 1, "Marker": "2"})
    yield account.ask("DisableKey", {"KeyId": ID2}).ask("ListAliases", {"KeyId": ID2.upper()}).ask("ListAliases", {"KeyId": printed(key_id(9))})
    account = keys("ListKeyPolicies has its one row at every marker", 2)
    for marker in ({}, {"Limit": 1}, {"Limit": 1000}, {"Marker": "0"}, {"Marker": "1"}, {"Marker": "9" * 18}, {"Limit": 1, "Marker": "000"}):
        account.ask("ListKeyPolicies", {"KeyId": ARN1} | marker)
    for marker in BAD_MARKERS:
        account.ask("ListKeyPolicies", {"KeyId": ID1, "Marker": marker})
    yield into(account, ID1, "PendingDeletion").ask("ListKeyPolicies", {"KeyId": ID1})
    account = keys("ListKeyRotations of a key with one version")
    yield account.ask("ListKeyRotations", {"KeyId": ID1}).ask("ListKeyRotations", {"KeyId": ID1, "Marker": "0", "Limit": 1}).ask("ListKeyRotations", {"KeyId": ID1, "Marker": "x"})
    account = keys("the pages of ListKeyRotations: marks are numbers of versions, and the first version isn't listed")
    for second in (5, 7, 11):
        account.at(START + second).ask("RotateKeyOnDemand", {"KeyId": ID1})
    yield pages(account, "ListKeyRotations", {"KeyId": ID1}, 2, 4)
    account = keys("rotations of both kinds, in order")
    account.ask("EnableKeyRotation", {"KeyId": ID1, "RotationPeriodInDays": 90}).at(START + 3).ask("RotateKeyOnDemand", {"KeyId": ID1})
    account.at(START + 90 * DAY).ask("ListKeyRotations", {"KeyId": ID1}).ask("CreateKey", {}).ask("ListKeyRotations", {"KeyId": ID1})
    encrypt(account, ID1).ask("RotateKeyOnDemand", {"KeyId": ID1}).ask("ListKeyRotations", {"KeyId": ID1, "Limit": 2})
    yield account.ask("ListKeyRotations", {"KeyId": ID1, "Limit": 2, "Marker": "3"}).ask("DisableKey", {"KeyId": ID1}).ask("ListKeyRotations", {"KeyId": ID1})
    account = keys("an automatic rotation is listed from the change on that made it")
    account.ask("EnableKeyRotation", {"KeyId": ID1, "RotationPeriodInDays": 90}).at(START + 90 * DAY).ask("CreateKey", {})
    yield account.ask("ListKeyRotations", {"KeyId": ID1})
    yield from lists_of_grants()
    yield from lists_that_change()
    yield from lists_refused()


def lists_of_grants():
    account = keys("three grants listed one a page, as the first is revoked")
    for operation in ("Decrypt", "Encrypt", "DescribeKey"):
        grant(account, operations=[operation])
    account.ask("ListGrants", {"KeyId": ID1, "Limit": 1}).ask("RevokeGrant", {"KeyId": ID1, "GrantId": grant_id(1)})
    for marker in ("1", "2", "3", "x"):
        account.ask("ListGrants", {"KeyId": ID1, "Limit": 1, "Marker": marker})
    yield account
    account = keys("the pages of ListGrants", 2)
    for key in (ID1, ID2, ID1, ID2, ID1, ID2):
        grant(account, key)
    yield pages(account, "ListGrants", {"KeyId": ID1}, 2, 6)
    account = keys("the pages of ListGrants of one grantee")
    for grantee in (BOB, ANN, ANN, BOB, ANN, BOB):
        grant(account, grantee=grantee)
    yield pages(account, "ListGrants", {"KeyId": ID1, "GranteePrincipal": ANN}, 2, 5)
    account = keys("ListGrants by id and by grantee", 2)
    grant(account)
    grant(account, grantee=BOB)
    grant(account, ID2)
    for body in ({"GrantId": grant_id(2)}, {"GrantId": grant_id(3)}, {"GrantId": grant_id(4)}, {"GrantId": DEAD}, {"GranteePrincipal": ANN}, {"GranteePrincipal": BOB},
                 {"GranteePrincipal": CAROL}, {"GranteePrincipal": STRANGER}, {"GrantId": grant_id(2), "GranteePrincipal": ANN}, {"GrantId": grant_id(2), "GranteePrincipal": BOB},
                 {"GrantId": grant_id(2), "Limit": 1}, {"GrantId": grant_id(2), "Marker": "1"}, {"GrantId": grant_id(2), "Marker": "2"},
                 {"GrantId": grant_id(2).upper()}, {"GrantId": ""}, {"GrantId": grant_id(2)[1:]}, {"GrantId": "x", "GranteePrincipal": "x"},
                 {"GranteePrincipal": "x"}, {"GranteePrincipal": "arn:aws:iam::111122223333:group/ann"}, {"GrantId": "x", "Marker": "x"}):
        account.ask("ListGrants", {"KeyId": ID1} | body)
    yield account.ask("ListGrants", {"KeyId": "x", "GrantId": "x"})
    account = keys("how a grant is listed: its members, each only where it has a value")
    grant(account)
    grant(account, RetiringPrincipal=BOB, Name="n:/_-9")
    grant(account, grantee=ROLE, operations=reversed(GRANT_OPERATIONS), Constraints={"EncryptionContextEquals": AB})
    grant(account, grantee=ROOT, operations=["Decrypt", "Encrypt", "Decrypt"], Constraints={"EncryptionContextSubset": {"é": "\"\\"}})
    grant(account, grantee=STRANGER, RetiringPrincipal=STRANGER, Constraints={"EncryptionContextEquals": {}})
    grant(account, Constraints={"EncryptionContextSubset": {}})
    grant(account, Constraints={})
    grant(account, Constraints={"EncryptionContextEquals": None, "EncryptionContextSubset": {"b": "", "a": "1"}})
    account.at(START + 7)
    grant(account)
    yield account.ask("ListGrants", {"KeyId": ID1}).ask("ListRetirableGrants", {"RetiringPrincipal": BOB}).ask("ListRetirableGrants", {"RetiringPrincipal": STRANGER})
    account = keys("the pages of ListRetirableGrants: the grants of all keys with this retiring principal", 2)
    for key, retiring in ((ID1, BOB), (ID2, CAROL), (ID2, BOB), (ID1, CAROL), (ID1, BOB)):
        grant(account, key, RetiringPrincipal=retiring)
    grant(account)
    grant(account, grantee=BOB)
    yield pages(account, "ListRetirableGrants", {"RetiringPrincipal": BOB}, 2, 6)
    account = keys("more grants than a page has where no limit is given")
    for _ in range(51):
        grant(account, RetiringPrincipal=BOB)
    for operation, body in (("ListGrants", {"KeyId": ID1}), ("ListRetirableGrants", {"RetiringPrincipal": BOB})):
        account.ask(operation, body).ask(operation, body | {"Marker": "50"})
    account.long = True
    yield account


def lists_that_change():
    account = keys("a key that is deleted between two pages is on none, before it is removed and after", 4)
    schedule(account, ID2).ask("ListKeys", {"Limit": 2}).at(START + 7 * DAY)
    account.ask("ListKeys", {"Limit": 2}).ask("ListKeys", {"Limit": 1, "Marker": "0"}).ask("ListKeys", {"Limit": 2, "Marker": "1"})
    account.ask("EnableKey", {"KeyId": ID1}).ask("ListKeys", {"Limit": 2}).ask("ListKeys", {"Limit": 1, "Marker": "0"}).ask("ListKeys", {"Marker": "1"})
    yield account.ask("CreateKey", {}).ask("ListKeys", {"Marker": "3"})
    account = keys("the page that ends at the last key, once those after it are gone", 3)
    schedule(account, ID3).ask("ListKeys", {"Limit": 2}).at(START + 7 * DAY).ask("ListKeys", {"Limit": 2}).ask("ListKeys", {"Limit": 1, "Marker": "1"})
    yield account
    account = keys("aliases and grants of a key that is deleted between two pages", 2)
    for name, key in (("alias/a", ID1), ("alias/b", ID2), ("alias/c", ID1)):
        put(account, name, key)
    for key in (ID1, ID2, ID1):
        grant(account, key, RetiringPrincipal=BOB)
    schedule(account, ID2)
    lists_asked = (("ListAliases", {}), ("ListAliases", {"Marker": "2"}), ("ListRetirableGrants", {"RetiringPrincipal": BOB}),
                   ("ListRetirableGrants", {"RetiringPrincipal": BOB, "Marker": "5"}))
    for second in (START + 7 * DAY - 1, START + 7 * DAY):
        account.at(second)
        for operation, body in lists_asked:
            account.ask(operation, body | {"Limit": 1}).ask(operation, body)
    for operation in ("ListAliases", "ListGrants", "ListKeyPolicies", "ListKeyRotations"):
        account.ask(operation, {"KeyId": ID2})
    account.ask("EnableKey", {"KeyId": ID1})
    for operation, body in lists_asked:
        account.ask(operation, body | {"Limit": 1}).ask(operation, body)
    yield account


def lists_refused():
    account = asked("who may not list is refused before the marker is looked at", 1, {ANN: [own("kms:List*")], BOB: [own("kms:List*", ARN1)]})
    everything = (("ListKeys", {}), ("ListAliases", {}), ("ListAliases", {"KeyId": ID1}), ("ListRetirableGrants", {"RetiringPrincipal": CAROL}),
                  ("ListKeyPolicies", {"KeyId": ID1}), ("ListKeyRotations", {"KeyId": ID1}), ("ListGrants", {"KeyId": ID1}))
    for who in (CAROL, BOB, ANN, ROOT):
        account.by(who)
        for operation, body in everything:
            account.ask(operation, body | {"Marker": "x"}).ask(operation, body)
    for operation in ("ListAliases", "ListKeyPolicies", "ListKeyRotations", "ListGrants"):
        account.by(CAROL).ask(operation, {"KeyId": ID2, "Marker": "x"})
    account.ask("ListRetirableGrants", {"RetiringPrincipal": "carol", "Marker": "x"}).ask("ListGrants", {"KeyId": ID1, "GranteePrincipal": "carol"})
    yield account
    account = asked("lists that a key policy allows or denies", 1, {BOB: [own("kms:List*")]}, key_policy(
        statement("kms:List*", principal=ANN), statement(["kms:ListGrants", "kms:ListKeys", "kms:ListAliases"], "Deny", principal=BOB)))
    for who in (ANN, BOB):
        account.by(who)
        for operation, body in everything:
            account.ask(operation, body)
    yield account


if __name__ == "__main__":
    write("make_lists.py", "lists.txt", "Lists: their pages, their order and their marks", lists())
