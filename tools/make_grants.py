"""Writes crates/worked_cases/data/grants.txt: python3 -B tools/make_grants.py

Each case is asked of the account in plain Python of whole_account.py, which answers it.
"""

from whole_cases import *

EQUALS_A, SUBSET_A = {"EncryptionContextEquals": A1}, {"EncryptionContextSubset": A1}
EQUALS_AB, SUBSET_AB = {"EncryptionContextEquals": AB}, {"EncryptionContextSubset": AB}


def retire(account, grant, **more):
    return account.ask("RetireGrant", {"GrantToken": grant} | more)


def revoke(account, grant, key=ID1, **more):
    return account.ask("RevokeGrant", {"KeyId": key, "GrantId": grant} | more)


def sealed_under(account, key, context):
    """A blob that the root makes of a key under a context."""
    encrypt(account.by(ROOT), key, EncryptionContext=context)
    return account.blob()


def permissions():
    for kind in ("EncryptionContextEquals", "EncryptionContextSubset"):
        account = asked(f"a grant with {kind}: Decrypt goes by the context, DescribeKey doesn't")
        grant(account, operations=["Decrypt", "DescribeKey"], Constraints={kind: A1})
        blobs = [(context, sealed_under(account, ID1, context)) for context in (A1, AB, {}, {"a": "2"}, {"A": "1"}, {"b": "1"})]
        account.by(ANN)
        for context, blob in blobs:
            decrypt(account, blob, EncryptionContext=context)
        decrypt(account, blobs[0][1])
        account.ask("DescribeKey", {"KeyId": ID1})
        encrypt(account, ID1, EncryptionContext=A1)
        yield decrypt(account.by(BOB), blobs[0][1], EncryptionContext=A1)
    account = asked("constraints of an empty context: Equals wants an empty one, Subset none")
    for who, constraints in ((ANN, {"EncryptionContextEquals": {}}), (BOB, {"EncryptionContextSubset": {}}), (CAROL, {})):
        grant(account, grantee=who, Constraints=constraints)
    blobs = [(context, sealed_under(account, ID1, context)) for context in ({}, A1)]
    for who in (ANN, BOB, CAROL, DAN):
        for context, blob in blobs:
            decrypt(account.by(who), blob, EncryptionContext=context)
    yield account
    account = asked("several pairs: Subset wants each of them with its value, Equals no other")
    grant(account, Constraints=SUBSET_AB)
    grant(account, grantee=BOB, Constraints=EQUALS_AB)
    contexts = (AB, {"b": "2", "a": "1"}, AB | {"c": "3"}, A1, {"a": "1", "b": "1"}, {"b": "2"}, {"a": "2", "b": "1"})
    blobs = [(context, sealed_under(account, ID1, context)) for context in contexts]
    for who in (ANN, BOB):
        for context, blob in blobs:
            decrypt(account.by(who), blob, EncryptionContext=context)
    yield account
    account = asked("several grants of a caller: one that permits is enough")
    grant(account, Constraints=EQUALS_A)
    grant(account, Constraints={"EncryptionContextEquals": {"a": "2"}})
    grant(account, operations=["Encrypt"])
    blobs = [(context, sealed_under(account, ID1, context)) for context in (A1, {"a": "2"}, {"a": "3"}, {})]
    account.by(ANN)
    for context, blob in blobs:
        decrypt(account, blob, EncryptionContext=context)
    yield encrypt(account, ID1, EncryptionContext={"a": "3"})


def each_operation(account, blob1, blob2):
    """Each grant operation of the first key, and ReEncrypt in both directions."""
    encrypt(account, ID1)
    decrypt(account, blob1)
    account.ask("GenerateDataKey", {"KeyId": ID1, "KeySpec": "AES_128"}).ask("GenerateDataKeyWithoutPlaintext", {"KeyId": ID1, "NumberOfBytes": 5})
    account.ask("ReEncrypt", {"CiphertextBlob": blob1, "DestinationKeyId": ID2}).ask("ReEncrypt", {"CiphertextBlob": blob2, "DestinationKeyId": ID1})
    grant(account, grantee=BOB, operations=["Decrypt"], DryRun=True)
    grant(account, grantee=BOB, operations=["RetireGrant"], DryRun=True)
    retire(account, grant_id(2), DryRun=True)
    return account.ask("DescribeKey", {"KeyId": ID1})


def operations():
    for operation in GRANT_OPERATIONS:
        account = asked(f"a grant of {operation} alone permits nothing else", 2)
        grant(account, operations=[operation])
        # the other key of ReEncrypt is the caller's to use
        grant(account, ID2, operations=["ReEncryptFrom", "ReEncryptTo"])
        first, second = sealed_under(account, ID1, {}), sealed_under(account, ID2, {})
        yield each_operation(account.by(ANN), first, second)
    account = asked("a grant of all operations permits all of them on its key, and nothing on another", 2)
    grant(account, operations=GRANT_OPERATIONS)
    first, second = sealed_under(account, ID1, {}), sealed_under(account, ID2, {})
    each_operation(account.by(ANN), first, second)
    account.ask("DescribeKey", {"KeyId": ID2})
    decrypt(account, second)
    for operation in ("GetKeyPolicy", "GetKeyRotationStatus", "EnableKey", "ListGrants", "ListKeyPolicies", "ListKeyRotations"):
        account.ask(operation, {"KeyId": ID1})
    revoke(account, grant_id(2)).ask("ListKeys", {})
    put(account, APP, ID1)
    yield account.ask("ListRetirableGrants", {"RetiringPrincipal": ANN})
    account = asked("grants of both keys of ReEncrypt, each by its own context", 2)
    grant(account, ID1, operations=["ReEncryptFrom"], Constraints=EQUALS_A)
    grant(account, ID2, operations=["ReEncryptTo"], Constraints={"EncryptionContextEquals": {"b": "2"}})
    blob = sealed_under(account, ID1, A1)
    account.by(ANN)
    for more in ({"SourceEncryptionContext": A1, "DestinationEncryptionContext": {"b": "2"}}, {"SourceEncryptionContext": A1},
                 {"SourceEncryptionContext": {"b": "2"}, "DestinationEncryptionContext": A1}, {"DestinationEncryptionContext": {"b": "2"}}):
        account.ask("ReEncrypt", {"CiphertextBlob": blob, "DestinationKeyId": ID2} | more)
    account.ask("ReEncrypt", {"CiphertextBlob": blob, "DestinationKeyId": ID1, "SourceEncryptionContext": A1, "DestinationEncryptionContext": {"b": "2"}})
    yield account
    account = asked("grantees: a role, a user with a path, a principal of another account, and the root where no policy lets it", 1,
                    policy=key_policy(statement("kms:Decrypt", "Deny", principal=CAROL)))
    team = f"arn:aws:iam::{ACCOUNT}:user/team/ann"
    for who in (ROLE, team, STRANGER):
        grant(account, grantee=who, operations=["DescribeKey"])
    for who in (ROLE, team, ANN, f"arn:aws:iam::{ACCOUNT}:role/app", f"arn:aws:iam::{ACCOUNT}:user/team/app"):
        account.by(who).ask("DescribeKey", {"KeyId": ID1})
    yield account
    account = asked("a grantee who names the key by an alias", 2)
    put(account, APP, ID1)
    grant(account, operations=["Encrypt", "Decrypt", "DescribeKey", "ReEncryptFrom", "ReEncryptTo"], Constraints=SUBSET_A)
    blob = sealed_under(account, ID1, A1)

    def by_alias():
        account.by(ANN)
        for named in (APP, alias_arn(APP), ID1):
            account.ask("DescribeKey", {"KeyId": named})
            encrypt(account, named, EncryptionContext=A1)
            encrypt(account, named)
            decrypt(account, blob, KeyId=named, EncryptionContext=A1)
            account.ask("ReEncrypt", {"CiphertextBlob": blob, "SourceKeyId": named, "SourceEncryptionContext": A1, "DestinationKeyId": named, "DestinationEncryptionContext": AB})
    by_alias()
    account.by(ROOT).ask("UpdateAlias", {"AliasName": APP, "TargetKeyId": ID2})
    by_alias()
    yield account
    only_ann = document(statement("kms:*", principal=ANN))
    account = Whole("a key whose policy names a user alone is the root's to use by a grant", asked=True)
    account.ask("CreateKey", {"Policy": only_ann, "BypassPolicyLockoutSafetyCheck": True}).ask("DescribeKey", {"KeyId": ID1})
    grant(account, grantee=BOB)
    grant(account.by(ANN), grantee=ROOT, operations=["DescribeKey", "CreateGrant"])
    account.by(ROOT).ask("DescribeKey", {"KeyId": ID1}).ask("GetKeyPolicy", {"KeyId": ID1})
    grant(account, grantee=BOB, operations=["DescribeKey"])
    grant(account, grantee=BOB, operations=["DescribeKey", "Encrypt"])
    yield account.by(BOB).ask("DescribeKey", {"KeyId": ID1})


def denials():
    only_a = {"StringEquals": {"kms:EncryptionContext:a": "1"}}
    account = asked("a key policy that denies what a grant permits", 1, {}, key_policy(statement("kms:Decrypt", "Deny", principal="*", when=only_a)))
    grant(account, operations=["Decrypt", "DescribeKey"], Constraints=SUBSET_A)
    grant(account, operations=["Decrypt"])
    encrypt(account, ID1, EncryptionContext=AB)
    encrypt(account, ID1, EncryptionContext={"a": "2"})
    first, second = account.blob(0), account.blob(1)
    for who in (ANN, ROOT):
        decrypt(account.by(who), first, EncryptionContext=AB)
        decrypt(account, second, EncryptionContext={"a": "2"})
        account.ask("DescribeKey", {"KeyId": ID1})
    yield account
    account = asked("a caller's own policy that denies what a grant permits", 1, {
        ANN: [own("kms:Decrypt", effect="Deny", when=only_a), own("kms:DescribeKey", effect="Deny")], BOB: [own("kms:*", ARN2, "Deny")]})
    for who in (ANN, BOB):
        grant(account, grantee=who, operations=["Decrypt", "DescribeKey", "CreateGrant"])
    blobs = [(context, sealed_under(account, ID1, context)) for context in (A1, {})]
    for who in (ANN, BOB):
        for context, blob in blobs:
            decrypt(account.by(who), blob, EncryptionContext=context)
        account.ask("DescribeKey", {"KeyId": ID1})
        grant(account, grantee=CAROL, DryRun=True)
    yield account
    account = asked("a statement that denies the root denies every grantee", 1, policy=key_policy(statement("kms:DescribeKey", "Deny", principal=ROOT)))
    grant(account, operations=["DescribeKey", "Decrypt"])
    blob = sealed_under(account, ID1, {})
    account.by(ANN).ask("DescribeKey", {"KeyId": ID1})
    yield decrypt(account, blob)
    account = asked("a grant beside policies: it adds to them and takes nothing", 1, {ANN: [own("kms:Decrypt")]})
    grant(account, Constraints=EQUALS_A)
    blobs = [(context, sealed_under(account, ID1, context)) for context in (A1, {})]
    for context, blob in blobs:
        decrypt(account.by(ANN), blob, EncryptionContext=context)
    retire(account.by(ROOT), grant_id(1))
    for context, blob in blobs:
        decrypt(account.by(ANN), blob, EncryptionContext=context)
    yield account


def retirement():
    account = asked("a grant's life: it permits, is retired, and neither it nor its token is good again")
    grant(account)
    blob = sealed_under(account, ID1, {})
    decrypt(account.by(ANN), blob)
    decrypt(account, blob, GrantTokens=[grant_id(1)])
    retire(account.by(ROOT), grant_id(1))
    decrypt(account.by(ANN), blob)
    decrypt(account.by(ROOT), blob, GrantTokens=[grant_id(1)])
    decrypt(account, blob)
    retire(account, grant_id(1))
    revoke(account, grant_id(1)).ask("RetireGrant", {"KeyId": ID1, "GrantId": grant_id(1)}).ask("ListGrants", {"KeyId": ID1})
    grant(account)
    decrypt(account.by(ANN), blob)
    yield account.by(ROOT).ask("ListGrants", {"KeyId": ID1})
    account = asked("who may retire a grant", 2, {EVE: [own("kms:*")]}, key_policy(statement("kms:*", principal=FAY)))
    grant(account, grantee=ANN, operations=["Decrypt", "RetireGrant"])
    grant(account, grantee=BOB, RetiringPrincipal=CAROL)
    grant(account, grantee=DAN, operations=["RetireGrant"], RetiringPrincipal=STRANGER)
    for who in (BOB, ANN, DAN, EVE, FAY, GUS):
        retire(account.by(who), grant_id(3), DryRun=True)
        account.ask("RetireGrant", {"KeyId": ID1, "GrantId": grant_id(3)})
    for who in (CAROL, BOB, DAN, EVE, FAY, GUS):
        retire(account.by(who), grant_id(2))
    for who in (CAROL, BOB, ANN, EVE, FAY):
        account.by(who).ask("RetireGrant", {"KeyId": ID1, "GrantId": grant_id(4)})
    retire(account.by(ANN), grant_id(2), DryRun=True)
    retire(account, grant_id(2))
    retire(account.by(CAROL), grant_id(3))
    account.by(DAN).ask("RetireGrant", {"KeyId": ARN1, "GrantId": grant_id(4)})
    yield account.by(ROOT).ask("ListGrants", {"KeyId": ID1})
    account = asked("no statement is asked of RetireGrant, nor a grant but the one that is retired", 1,
                    {ANN: [own("kms:RetireGrant", effect="Deny")], CAROL: [own("kms:RetireGrant")]}, key_policy(statement("kms:RetireGrant", "Deny", principal="*")))
    grant(account, operations=["RetireGrant"], Constraints=EQUALS_A)
    grant(account, grantee=BOB, RetiringPrincipal=ANN)
    grant(account, grantee=BOB)
    retire(account.by(CAROL), grant_id(1))
    for number in (3, 2, 1):
        retire(account.by(ANN), grant_id(number))
    retire(account.by(ROOT), grant_id(3))
    yield account.ask("ListGrants", {"KeyId": ID1})
    account = keys("a grant to be retired, by token and by key and id", 2)
    for _ in range(3):
        grant(account)
    for body in ({"GrantToken": DEAD}, {"GrantToken": grant_id(2).upper()}, {"GrantToken": ""}, {"GrantToken": "x" * 9000}, {"GrantToken": ID1},
                 {"KeyId": "x", "GrantId": "x"}, {"KeyId": ID1, "GrantId": "x"}, {"KeyId": ID1, "GrantId": ""}, {"KeyId": ID1, "GrantId": grant_id(2).upper()},
                 {"KeyId": ID1, "GrantId": DEAD}, {"KeyId": ID2, "GrantId": grant_id(2)}, {"KeyId": ID3, "GrantId": grant_id(2)}, {"KeyId": APP, "GrantId": grant_id(2)},
                 {"KeyId": "arn:aws:kms", "GrantId": grant_id(2)}, {"KeyId": ID1, "GrantId": grant_id(2), "DryRun": True}, {"KeyId": ID1, "GrantId": grant_id(2)},
                 {"KeyId": ID1, "GrantId": grant_id(2)}, {"KeyId": ARN1.replace(ID1, ID1.upper()), "GrantId": grant_id(3)}, {"GrantToken": grant_id(4), "DryRun": False}):
        account.ask("RetireGrant", body)
    yield account.ask("ListGrants", {"KeyId": ID1})
    account = keys("grants of keys that aren't enabled are listed, retired and revoked, and aren't made", 2)
    for key in (ID1, ID1, ID2, ID2):
        grant(account, key, operations=["DescribeKey"])
    into(account, ID1, "Disabled")
    into(account, ID2, "PendingDeletion")
    for key, first in ((ID1, 2), (ID2, 4)):
        grant(account, key)
        grant(account, key, Name="n", DryRun=True)
        account.ask("ListGrants", {"KeyId": key})
        retire(account, grant_id(first), DryRun=True)
        retire(account, grant_id(first))
        revoke(account, grant_id(first + 1), key)
        account.ask("ListGrants", {"KeyId": key})
    yield account


def revocation():
    account = asked("who may revoke a grant: whom a policy lets, and no grantee", 2, {DAN: [own("kms:RevokeGrant", ARN2)], EVE: [own("kms:RevokeGrant")],
                    FAY: [own("kms:RevokeGrant", when={"Bool": {"kms:GrantIsForAWSResource": "true"}})],
                    GUS: [own("kms:RevokeGrant", when={"Bool": {"kms:GrantIsForAWSResource": "false"}})]}, key_policy(statement("kms:RevokeGrant", principal=BOB)))
    for _ in range(3):
        grant(account, operations=GRANT_OPERATIONS, RetiringPrincipal=CAROL)
    for who in (ANN, CAROL, DAN, FAY):
        revoke(account.by(who), grant_id(2))
        revoke(account, DEAD)
        revoke(account, "x")
    for number, who in ((2, BOB), (3, EVE), (4, GUS)):
        revoke(account.by(who), grant_id(number), DryRun=True)
        revoke(account, grant_id(number))
        revoke(account, grant_id(number), DryRun=True)
    account.by(ANN).ask("DescribeKey", {"KeyId": ID1})
    yield account.by(ROOT).ask("ListGrants", {"KeyId": ID1})
    account = keys("a grant to be revoked", 2)
    grant(account)
    for key, given in ((ID2, grant_id(2)), (ID1, DEAD), (ID1, grant_id(2).upper()), (ID1, ""), (ID1, grant_id(2) + "0"), ("x", "x"), (APP, grant_id(2)), (ID3, grant_id(2)),
                       (ARN1, grant_id(2)), (ID1, grant_id(2))):
        revoke(account, given, key)
    yield account.ask("ListGrants", {"KeyId": ID1})


def dry_runs():
    account = asked("what is run dry changes nothing, and is refused as else", 2, {ANN: [own("kms:CreateGrant", ARN1)]})
    grant(account, Name="n")
    for who in (ROOT, BOB):
        account.by(who)
        grant(account, DryRun=True)
        grant(account, Name="n", DryRun=True)
        grant(account, GrantTokens=[DEAD], DryRun=True)
        retire(account, grant_id(2), DryRun=True)
        retire(account, DEAD, DryRun=True)
        revoke(account, grant_id(2), DryRun=True)
        revoke(account, DEAD, DryRun=True)
        revoke(account, "x", DryRun=True)
        account.ask("RetireGrant", {"KeyId": ID1, "GrantId": DEAD, "DryRun": True})
    account.by(ROOT)
    grant(account, DryRun=False)
    retire(account, grant_id(2), DryRun=False)
    revoke(account, grant_id(3), DryRun=False)
    grant(account)
    yield account.ask("ListGrants", {"KeyId": ID1})


def names_of_grants():
    account = keys("a grant of the same name, and all else the same, is made once", 2)
    same = {"Name": "n", "RetiringPrincipal": BOB, "Constraints": EQUALS_AB}
    grant(account, operations=["Decrypt", "Encrypt"], **same)
    grant(account, operations=["Decrypt", "Encrypt"], **same)
    grant(account, operations=["Encrypt", "Decrypt", "Encrypt"], **same | {"Constraints": {"EncryptionContextEquals": {"b": "2", "a": "1"}}})
    grant(account, operations=["Decrypt", "Encrypt"], DryRun=True, **same)
    account.ask("ListGrants", {"KeyId": ID1})
    for other in ({"Name": "N"}, {"RetiringPrincipal": CAROL}, {"Constraints": EQUALS_A}, {"Constraints": SUBSET_AB}, {"grantee": CAROL}, {"operations": ["Decrypt"]}, {"key": ID2}):
        grant(account, **{"operations": ["Decrypt", "Encrypt"]} | same | other)
    grant(account, operations=["Decrypt", "Encrypt"], **same)
    retire(account, grant_id(2))
    grant(account, operations=["Decrypt", "Encrypt"], **same)
    grant(account, operations=["Decrypt", "Encrypt"], **same)
    yield account.ask("ListGrants", {"KeyId": ID1})
    account = keys("grants of equal names and no more: without a constraint, with an empty one, without a retiring principal")
    for more in ({}, {"Constraints": {}}, {"Constraints": {"EncryptionContextEquals": {}}}, {"Constraints": {"EncryptionContextSubset": {}}}, {"RetiringPrincipal": BOB}):
        grant(account, Name="n", **more)
        grant(account, Name="n", **more)
    yield account.ask("ListGrants", {"KeyId": ID1})
    account = keys("a grant without a name is made anew each time")
    for _ in range(3):
        grant(account)
    yield account.ask("ListGrants", {"KeyId": ID1})
    account = keys("the same name again, of a key that was disabled")
    grant(account, Name="n")
    into(account, ID1, "Disabled")
    yield grant(account, Name="n").ask("EnableKey", {"KeyId": ID1}).ask("CreateGrant", {"KeyId": ARN1, "GranteePrincipal": ANN, "Operations": ["Decrypt"], "Name": "n"})
    account = asked("a grant of a name again is asked of who may make it", 1)
    grant(account, Name="n")
    yield grant(account.by(ANN), Name="n")


def children():
    def family(what, constraints):
        account = asked(what, 2)
        return grant(account, operations=["CreateGrant", "Decrypt", "RetireGrant"], Constraints=constraints).by(ANN)

    asked_for = ({}, {"EncryptionContextEquals": {}}, {"EncryptionContextSubset": {}}, EQUALS_A, SUBSET_A, EQUALS_AB, SUBSET_AB,
                 {"EncryptionContextEquals": {"a": "2"}}, {"EncryptionContextSubset": {"a": "1", "c": "3"}}, {"EncryptionContextEquals": {"b": "2"}})
    for what, constraints in (("no constraint", {}), ("Equals", EQUALS_A), ("Subset", SUBSET_A), ("Equals of two pairs", EQUALS_AB), ("Subset of two pairs", SUBSET_AB),
                              ("Equals of an empty context", {"EncryptionContextEquals": {}}), ("Subset of an empty context", {"EncryptionContextSubset": {}})):
        account = family(f"what a grantee may grant under {what}", constraints)
        for child in asked_for:
            grant(account, grantee=BOB, Constraints=child)
        yield account
    account = family("what a grantee may grant: its own operations and no others", {})
    for operations in (["Decrypt"], ["CreateGrant"], ["RetireGrant", "CreateGrant", "Decrypt"], ["Decrypt", "Decrypt"], ["Encrypt"], ["Decrypt", "Encrypt"], ["DescribeKey"],
                       ["ReEncryptFrom"], GRANT_OPERATIONS):
        grant(account, grantee=BOB, operations=operations)
    grant(account, ID2, grantee=BOB)
    yield account
    account = asked("a child for what its parent has, under a constraint as strict")
    grant(account, operations=["CreateGrant", "Decrypt"], Constraints=SUBSET_A)
    account.by(ANN)
    grant(account, grantee=BOB, Constraints=EQUALS_AB)
    grant(account, grantee=BOB, operations=["Encrypt"], Constraints=EQUALS_AB)
    grant(account, grantee=BOB)
    blobs = [(context, sealed_under(account, ID1, context)) for context in (AB, A1)]
    for context, blob in blobs:
        decrypt(account.by(BOB), blob, EncryptionContext=context)
    grant(account, grantee=CAROL, Constraints=EQUALS_AB)
    retire(account.by(ROOT), grant_id(1))
    grant(account.by(ANN), grantee=CAROL, Constraints=EQUALS_AB)
    yield decrypt(account.by(BOB), blobs[0][1], EncryptionContext=AB)
    account = asked("grandchildren: each grant is as strict as the one before")
    grant(account, grantee=ANN, operations=["CreateGrant", "Encrypt", "Decrypt"], Constraints={"EncryptionContextSubset": {}})
    grant(account.by(ANN), grantee=BOB, operations=["CreateGrant", "Decrypt"], Constraints=SUBSET_A)
    grant(account.by(BOB), grantee=CAROL, operations=["CreateGrant", "Decrypt"], Constraints={"EncryptionContextSubset": {"b": "2"}})
    grant(account, grantee=CAROL, operations=["CreateGrant", "Encrypt"], Constraints=SUBSET_A)
    grant(account, grantee=CAROL, operations=["CreateGrant", "Decrypt"], Constraints=EQUALS_AB)
    grant(account.by(CAROL), grantee=DAN, operations=["Decrypt"], Constraints=SUBSET_AB)
    grant(account, grantee=DAN, operations=["Decrypt"], Constraints=EQUALS_AB)
    blob = sealed_under(account, ID1, AB)
    yield decrypt(account.by(DAN), blob, EncryptionContext=AB)
    account = asked("two grants of a caller aren't one: each child has one parent that is enough")
    grant(account, operations=["CreateGrant"])
    grant(account, operations=["Decrypt"])
    grant(account, operations=["CreateGrant", "Encrypt"], Constraints=EQUALS_A)
    account.by(ANN)
    for operations, constraints in ((["Decrypt"], {}), (["CreateGrant", "Decrypt"], {}), (["CreateGrant"], {}), (["CreateGrant"], EQUALS_A), (["Encrypt"], EQUALS_A), (["Encrypt"], {})):
        grant(account, grantee=BOB, operations=operations, Constraints=constraints)
    yield account
    account = asked("who may grant by a policy is held by no grant", 1, {ANN: [own("kms:CreateGrant")]})
    grant(account, operations=["CreateGrant", "Decrypt"], Constraints=EQUALS_A)
    yield grant(account.by(ANN), grantee=BOB, operations=GRANT_OPERATIONS).by(ROOT).ask("ListGrants", {"KeyId": ID1, "GranteePrincipal": BOB})


def tokens():
    holders = (("DescribeKey", {"KeyId": ID1}), ("Encrypt", {"KeyId": ID1, "Plaintext": HELLO}), ("Decrypt", {"CiphertextBlob": None}),
               ("ReEncrypt", {"CiphertextBlob": None, "DestinationKeyId": ID1}), ("GenerateDataKey", {"KeyId": ID1, "NumberOfBytes": 5}),
               ("GenerateDataKeyWithoutPlaintext", {"KeyId": ID1, "KeySpec": "AES_128"}),
               ("CreateGrant", {"KeyId": ID1, "GranteePrincipal": ANN, "Operations": ["Decrypt"]}))
    for operation, body in holders:
        account = asked(f"grant tokens of {operation}: after who may, before the key's state", 2)
        grant(account)
        grant(account, ID2, grantee=BOB, operations=["Encrypt"])
        grant(account)
        retire(account, grant_id(4))
        blob = sealed_under(account, ID1, {})
        body = {name: blob if value is None else value for name, value in body.items()}
        live = [grant_id(2), grant_id(3)]
        for given in ([], live[:1], live[1:], live, [live[0]] * 10, [DEAD], live + [DEAD], [DEAD] + live, [live[0].upper()], [""], ["x"], [live[0] + " "], [live[0] * 2],
                      live * 4 + [live[0], grant_id(4)], [grant_id(4)], None):
            account.ask(operation, body | {"GrantTokens": given})
        for given in ([DEAD], live):
            account.by(CAROL).ask(operation, body | {"GrantTokens": given})
        account.by(ROOT).ask("DisableKey", {"KeyId": ID1})
        for given in ([DEAD], live):
            account.ask(operation, body | {"GrantTokens": given}).by(CAROL).ask(operation, body | {"GrantTokens": given}).by(ROOT)
        yield account
    account = asked("a token lends nothing: another's token, or one of another key, permits nothing more", 2)
    grant(account)
    grant(account, ID2, grantee=BOB)
    blob = sealed_under(account, ID1, {})
    for who in (BOB, CAROL):
        decrypt(account.by(who), blob, GrantTokens=[grant_id(2)])
    account.by(ANN)
    for given in ([grant_id(3)], [grant_id(2)], []):
        decrypt(account, blob, GrantTokens=given)
    yield encrypt(account, ID1, GrantTokens=[grant_id(2)])
    account = asked("a dead token stands after what names the key and before what is run dry", 1)
    put(account, APP, ID1)
    for named in ("alias/none", "x", "arn:", printed(key_id(9)), APP, ID1):
        encrypt(account, named, GrantTokens=[DEAD], DryRun=True)
    decrypt(account, "eA==", GrantTokens=[DEAD])
    blob = sealed_under(account, ID1, {})
    decrypt(account, blob, GrantTokens=[DEAD], EncryptionContext=A1)
    decrypt(account, blob, EncryptionContext=A1)
    yield account


def facts_of_grants():
    for what, when, tries in (
            ("kms:GrantOperations: all of the request's operations", {"ForAllValues:StringEquals": {"kms:GrantOperations": ["Decrypt", "Encrypt"]}},
             [{"operations": ["Decrypt"]}, {"operations": ["Encrypt", "Decrypt", "Encrypt"]}, {"operations": ["Decrypt", "DescribeKey"]}, {"operations": ["DescribeKey"]}]),
            ("kms:GrantOperations: some of the request's operations", {"ForAnyValue:StringLike": {"kms:GrantOperations": ["Generate*"]}},
             [{"operations": ["Decrypt"]}, {"operations": ["Decrypt", "GenerateDataKey"]}, {"operations": ["GenerateDataKeyWithoutPlaintext"]}]),
            ("kms:GranteePrincipal", {"StringLike": {"kms:GranteePrincipal": "arn:aws:iam::*:role/team/*"}},
             [{"grantee": ROLE}, {"grantee": BOB}, {"grantee": STRANGER}]),
            ("kms:GranteePrincipal as an ARN", {"ArnEquals": {"kms:GranteePrincipal": BOB}}, [{"grantee": BOB}, {"grantee": ROLE}]),
            ("kms:RetiringPrincipal", {"StringEquals": {"kms:RetiringPrincipal": BOB}}, [{"RetiringPrincipal": BOB}, {"RetiringPrincipal": CAROL}, {}]),
            ("kms:RetiringPrincipal that isn't there", {"Null": {"kms:RetiringPrincipal": "true"}}, [{"RetiringPrincipal": BOB}, {}]),
            ("kms:GrantConstraintType", {"StringEquals": {"kms:GrantConstraintType": "EncryptionContextSubset"}},
             [{"Constraints": SUBSET_A}, {"Constraints": EQUALS_A}, {"Constraints": {}}, {}, {"Constraints": {"EncryptionContextSubset": {}}}]),
            ("kms:GrantConstraintType that isn't there", {"Null": {"kms:GrantConstraintType": "true"}},
             [{"Constraints": {"EncryptionContextEquals": {}}}, {"Constraints": {}}, {}, {"Constraints": {"EncryptionContextEquals": None}}]),
            ("the constraint's pairs", {"StringEquals": {"kms:EncryptionContext:a": "1"}},
             [{"Constraints": SUBSET_A}, {"Constraints": EQUALS_AB}, {"Constraints": {"EncryptionContextEquals": {"a": "2"}}}, {}]),
            ("the names of the constraint's pairs", {"ForAllValues:StringEquals": {"kms:EncryptionContextKeys": ["a"]}, "Null": {"kms:EncryptionContextKeys": "false"}},
             [{"Constraints": SUBSET_A}, {"Constraints": EQUALS_AB}, {"Constraints": {"EncryptionContextEquals": {}}}, {}]),
            ("kms:GrantIsForAWSResource", {"Bool": {"kms:GrantIsForAWSResource": "true"}}, [{}]),
            ("kms:GrantIsForAWSResource that is false", {"Bool": {"kms:GrantIsForAWSResource": "FALSE"}}, [{}]),
            ("no fact of a use of the key", {"Null": {"kms:EncryptionAlgorithm": "true", "kms:ReEncryptOnSameKey": "true", "kms:RequestAlias": "true"}}, [{"Constraints": SUBSET_A}])):
        account = asked(f"what a policy is told of CreateGrant: {what}", 1, {ANN: [own("kms:CreateGrant", when=when)]})
        for who in (ANN, ROOT):
            account.by(who)
            for one in tries:
                grant(account, **{"DryRun": True} | one)
        yield account
    told = ["kms:GrantOperations", "kms:GranteePrincipal", "kms:RetiringPrincipal", "kms:GrantConstraintType"]
    account = asked("ListGrants and RevokeGrant are told that a grant is for no resource of a service, and nothing of the grant", 1, {
        ANN: [own(["kms:ListGrants", "kms:RevokeGrant"], when={"Bool": {"kms:GrantIsForAWSResource": "false"}, "Null": {name: "true" for name in told}})],
        BOB: [own(["kms:ListGrants", "kms:RevokeGrant"], when={"Bool": {"kms:GrantIsForAWSResource": "true"}})],
        CAROL: [own("kms:*", when={"Null": {"kms:GrantIsForAWSResource": "true"}})]})
    grant(account, RetiringPrincipal=BOB, Constraints=SUBSET_A)
    for who in (BOB, CAROL, ANN):
        account.by(who).ask("ListGrants", {"KeyId": ID1, "GranteePrincipal": ANN})
        revoke(account, grant_id(1)).ask("DescribeKey", {"KeyId": ID1}).ask("ListKeyPolicies", {"KeyId": ID1})
        account.ask("ListRetirableGrants", {"RetiringPrincipal": BOB})
    yield account
    account = asked("a key policy that lets a user grant what isn't for a service, to users of a path alone", 1, policy=key_policy(
        statement("kms:CreateGrant", principal=ANN, when={"StringLike": {"kms:GranteePrincipal": f"arn:aws:iam::{ACCOUNT}:user/team/*"},
                                                           "ForAllValues:StringEquals": {"kms:GrantOperations": ["Decrypt", "RetireGrant"]}}),
        statement("kms:CreateGrant", "Deny", principal="*", when={"ForAnyValue:StringEquals": {"kms:GrantOperations": "CreateGrant"}})))
    team = f"arn:aws:iam::{ACCOUNT}:user/team/bob"
    for who in (ANN, ROOT, BOB):
        account.by(who)
        grant(account, grantee=team)
        grant(account, grantee=BOB)
        grant(account, grantee=team, operations=["Decrypt", "CreateGrant"])
        grant(account, grantee=team, operations=["Decrypt", "Encrypt"])
    yield account


def references():
    account = keys("what CreateGrant names: the key, then the grantee, then the retiring principal")
    good = {"KeyId": ID1, "GranteePrincipal": ANN, "RetiringPrincipal": BOB, "Operations": ["Decrypt"]}
    for bad in ("x", "ann", "arn:aws:iam::111122223333:group/ann", "arn:aws:iam::111122223333:user/", "arn:aws:iam::1111:root", "arn:aws:iam::111122223333:root/x",
                "arn:aws:sts::111122223333:assumed-role/a/b", "*", "kms.amazonaws.com", "arn:aws-cn:iam::111122223333:root"):
        account.ask("CreateGrant", good | {"GranteePrincipal": bad}).ask("CreateGrant", good | {"RetiringPrincipal": bad})
    account.ask("CreateGrant", good | {"KeyId": "x", "GranteePrincipal": "x"}).ask("CreateGrant", good | {"KeyId": ID2, "RetiringPrincipal": "x"})
    account.ask("CreateGrant", good | {"KeyId": APP}).ask("CreateGrant", good | {"GranteePrincipal": STRANGER, "RetiringPrincipal": "arn:aws:iam::444455556666:role/a/b"})
    yield account.ask("ListGrants", {"KeyId": ID1}).ask("ListRetirableGrants", {"RetiringPrincipal": "arn:aws:iam::444455556666:role/a/b"}).ask("ListRetirableGrants", {"RetiringPrincipal": "bob"})
    account = keys("grants of a key that is deleted go with it, before the key is removed and after", 2)
    for key, more in ((ID1, {"Name": "n"}), (ID1, {}), (ID2, {"Name": "n"})):
        grant(account, key, RetiringPrincipal=BOB, **more)
    encrypt(account, ID1)
    schedule(account, ID1).at(START + 7 * DAY - 1)
    account.ask("DescribeKey", {"KeyId": ID2, "GrantTokens": [grant_id(2), grant_id(4)]}).ask("ListRetirableGrants", {"RetiringPrincipal": BOB})
    account.at(START + 7 * DAY).ask("DescribeKey", {"KeyId": ID2, "GrantTokens": [grant_id(2)]}).ask("DescribeKey", {"KeyId": ID2, "GrantTokens": [grant_id(4)]})
    account.ask("ListRetirableGrants", {"RetiringPrincipal": BOB}).ask("ListGrants", {"KeyId": ID1})
    decrypt(account, account.blob())
    retire(account, grant_id(2)).ask("RetireGrant", {"KeyId": ID1, "GrantId": grant_id(3)}).ask("RetireGrant", {"KeyId": ID2, "GrantId": grant_id(3)})
    revoke(account, grant_id(3))
    account.ask("DescribeKey", {"KeyId": ID2, "GrantTokens": [grant_id(3)]}).ask("ListRetirableGrants", {"RetiringPrincipal": BOB})
    grant(account, ID1)
    grant(account, ID2, RetiringPrincipal=BOB, Name="n")
    grant(account, ID2, RetiringPrincipal=BOB)
    yield account.ask("ListGrants", {"KeyId": ID2}).ask("ListGrants", {"KeyId": ID2, "GrantId": grant_id(2)})
    account = keys("grants of a key whose deletion is cancelled are there still", 1)
    grant(account, operations=["Decrypt"])
    schedule(account, ID1).ask("CancelKeyDeletion", {"KeyId": ID1}).at(START + 30 * DAY)
    yield account.ask("DescribeKey", {"KeyId": ID1, "GrantTokens": [grant_id(1)]}).ask("ListGrants", {"KeyId": ID1})
    account = keys("a grantee of a key that is disabled", policies={ANN: [own(["kms:CreateKey", "kms:DisableKey", "kms:EnableKey", "kms:CreateGrant"])]}, caller=ANN)
    grant(account, operations=["Encrypt", "DescribeKey"])
    encrypt(account, ID1).ask("DisableKey", {"KeyId": ID1})
    encrypt(account, ID1)
    yield encrypt(account.ask("DescribeKey", {"KeyId": ID1}).ask("EnableKey", {"KeyId": ID1}), ID1)
    account = keys("a grantee of a key that is deleted", 2, {ANN: [own(["kms:CreateKey", "kms:ScheduleKeyDeletion", "kms:CreateGrant"])]}, caller=ANN)
    grant(account, operations=["DescribeKey", "Decrypt", "Encrypt"])
    encrypt(account, ID1)
    decrypt(account, account.blob())
    schedule(account, ID1).ask("DescribeKey", {"KeyId": ID1})
    decrypt(account, account.blob()).at(START + 7 * DAY).ask("DescribeKey", {"KeyId": ID1})
    yield decrypt(account, account.blob())


def grants():
    for part in (permissions, operations, denials, retirement, revocation, dry_runs, names_of_grants, children, tokens, facts_of_grants, references):
        yield from part()


if __name__ == "__main__":
    write("make_grants.py", "grants.txt", "Grants: whom they let do what, their tokens, their names, and how they are retired and revoked", grants())
