"""Writes crates/worked_cases/data/aliases.txt: python3 -B tools/make_aliases.py

Each case is asked of the account in plain Python of whole_account.py, which answers it.
"""

from whole_cases import *


def alias_lives():
    account = keys("an alias follows the key that it is given to, and goes", 3)
    schedule(account, ID3)
    put(account, APP, ID3)
    put(account, APP, ID1)
    encrypt(account, APP)
    account.ask("UpdateAlias", {"AliasName": APP, "TargetKeyId": ID2})
    encrypt(account, APP)
    decrypt(account, account.blob(0))
    decrypt(account, account.blob(0), KeyId=APP)
    decrypt(account, account.blob(1), KeyId=APP)
    put(account, APP, ID1)
    put(account, APP, ID2)
    account.ask("DeleteAlias", {"AliasName": APP})
    encrypt(account, APP)
    account.ask("DeleteAlias", {"AliasName": APP})
    account.ask("UpdateAlias", {"AliasName": APP, "TargetKeyId": ID1})
    put(account, "alias/aws/x", ID1)
    yield account
    for state in ("Enabled", "Disabled", "PendingDeletion"):
        account = keys(f"aliases of a key that is {state}", 2)
        put(account, "alias/old", ID1)
        put(account, "alias/other", ID2)
        into(account, ID1, state)
        put(account, "alias/new", ID1)
        put(account, "alias/other", ID1)
        account.ask("UpdateAlias", {"AliasName": "alias/other", "TargetKeyId": ID1})
        account.ask("ListAliases", {})
        encrypt(account, "alias/old").ask("DescribeKey", {"KeyId": "alias/old"})
        account.ask("UpdateAlias", {"AliasName": "alias/old", "TargetKeyId": ID2}).ask("ListAliases", {})
        account.ask("UpdateAlias", {"AliasName": "alias/old", "TargetKeyId": ID1})
        account.ask("DeleteAlias", {"AliasName": "alias/old"}).ask("ListAliases", {"KeyId": ID1})
        yield account
    account = keys("an alias that is updated keeps its place and its first date, and one that is made again has new ones", 2)
    put(account, "alias/a", ID1)
    put(account, "alias/b", ID1)
    account.at(START + 5).ask("UpdateAlias", {"AliasName": "alias/a", "TargetKeyId": ID2}).ask("ListAliases", {})
    account.at(START + 9).ask("UpdateAlias", {"AliasName": "alias/a", "TargetKeyId": ID2}).ask("ListAliases", {})
    account.ask("DeleteAlias", {"AliasName": "alias/a"})
    put(account, "alias/a", ID2).ask("ListAliases", {}).ask("ListAliases", {"Limit": 1}).ask("ListAliases", {"Marker": "3"})
    yield account
    account = keys("a name counts with its case, and each name once in the account", 2)
    put(account, "alias/App", ID1)
    put(account, APP, ID2)
    put(account, "alias/App", ID2)
    encrypt(account, "alias/App")
    encrypt(account, APP)
    account.ask("DescribeKey", {"KeyId": "alias/APP"}).ask("DeleteAlias", {"AliasName": "alias/APP"})
    account.ask("DescribeKey", {"KeyId": ID1.upper()}).ask("DescribeKey", {"KeyId": "arn:aws:kms:us-east-1:111122223333:key/" + ID1.upper()})
    put(account, "alias/by-upper-case", ID1.upper())
    put(account, "alias/by-arn", ARN1)
    yield account.ask("ListAliases", {"KeyId": ARN1})
    account = keys("names of 256 characters, and others that are no names")
    put(account, LONG, ID1)
    encrypt(account, LONG)
    encrypt(account, alias_arn(LONG)).ask("DescribeKey", {"KeyId": LONG}).ask("ListAliases", {})
    for name in (LONG + "a", "alias/é", "alias/", "alias/a b", "alias/aws/x", "app", "Alias/app", alias_arn(APP)):
        put(account, name, ID1)
        account.ask("UpdateAlias", {"AliasName": name, "TargetKeyId": ID1}).ask("DeleteAlias", {"AliasName": name})
        account.ask("DescribeKey", {"KeyId": name})
    for name in (LONG + "a", "alias/é", "alias/", "alias/aws/x"):
        account.ask("DescribeKey", {"KeyId": f"arn:aws:kms:us-east-1:{ACCOUNT}:{name}"})
    for name in ("alias/aws", "alias//", "alias/a/b_C-9", "alias/awsx/y"):
        put(account, name, ID1).ask("DescribeKey", {"KeyId": name})
    yield account


def alias_steps():
    account = keys("what alias calls look for first: the alias that changes, then the key; whether a new alias is there comes last", 3)
    put(account, APP, ID1)
    schedule(account, ID3)
    gone = printed(key_id(99))
    for target in ("x", gone, "arn:aws:kms:us-east-1", alias_arn(APP), APP, "alias/", ID3):
        account.ask("UpdateAlias", {"AliasName": "alias/none", "TargetKeyId": target})
        account.ask("UpdateAlias", {"AliasName": APP, "TargetKeyId": target})
        put(account, APP, target)
        put(account, "alias/none", target)
    yield account.ask("ListAliases", {})


TAKING = (("DescribeKey", "KeyId", {}), ("Encrypt", "KeyId", {"Plaintext": HELLO}), ("Decrypt", "KeyId", {"CiphertextBlob": None}),
          ("ReEncrypt", "SourceKeyId", {"CiphertextBlob": None, "DestinationKeyId": ID1}), ("ReEncrypt", "DestinationKeyId", {"CiphertextBlob": None}),
          ("GenerateDataKey", "KeyId", {"NumberOfBytes": 5}), ("GenerateDataKeyWithoutPlaintext", "KeyId", {"KeySpec": "AES_128"}))
KEYS_ALONE = (("EnableKey", {}), ("DisableKey", {}), ("ScheduleKeyDeletion", {}), ("CancelKeyDeletion", {}), ("EnableKeyRotation", {}),
              ("DisableKeyRotation", {}), ("GetKeyRotationStatus", {}), ("RotateKeyOnDemand", {}), ("ListKeyRotations", {}),
              ("PutKeyPolicy", {"Policy": DEFAULT_POLICY}), ("GetKeyPolicy", {}), ("ListKeyPolicies", {}), ("UpdateKeyDescription", {"Description": ""}),
              ("ListAliases", {}), ("CreateGrant", {"GranteePrincipal": ANN, "Operations": ["Decrypt"]}), ("ListGrants", {}),
              ("RetireGrant", {"GrantId": DEAD}), ("RevokeGrant", {"GrantId": DEAD}))
FEW = ("alias/none", alias_arn("alias/gone"), "alias/", f"arn:aws:kms:eu-west-1:{ACCOUNT}:{APP}", f"arn:aws:kms:us-east-1:444455556666:{APP}",
       f"arn:aws:kms:us-east-1:{ACCOUNT}:alias/aws/app", "app", ARN3)
NO_KEYS = ("alias/none", alias_arn("alias/none"), "alias/gone", alias_arn("alias/gone"), "alias/", "alias/aws/app", "alias/a.b", LONG + "a",
           f"arn:aws:kms:eu-west-1:{ACCOUNT}:{APP}", f"arn:aws:kms:us-east-1:444455556666:{APP}", f"arn:aws:kms:us-east-1:{ACCOUNT}:alias/aws/app",
           f"arn:aws:kms:us-east-1:{ACCOUNT}:alias/", f"arn:aws-cn:kms:us-east-1:{ACCOUNT}:{APP}", f"arn:aws:s3:us-east-1:{ACCOUNT}:{APP}",
           f"arn:aws:kms:us-east-1:{ACCOUNT}", "arn:", "app", "aliases/app", ID3, ARN3, f"arn:aws:kms:eu-west-1:{ACCOUNT}:key/{ID1}")


def with_a_gone_key(what):
    account = keys(what, 3)
    put(account, APP, ID1)
    put(account, "alias/gone", ID3)
    encrypt(account, APP)
    return schedule(account, ID3).at(START + 7 * DAY)


def alias_references():
    for operation, field, more in TAKING:
        account = with_a_gone_key(f"{operation} with an alias as {field}")
        more = {name: account.blob(0) if value is None else value for name, value in more.items()}
        for named in (APP, alias_arn(APP)) + NO_KEYS:
            account.ask(operation, {field: named} | more)
        yield account
    for operation, more in KEYS_ALONE:
        account = with_a_gone_key(f"{operation} takes a key's id or ARN, and no alias")
        for named in (APP, alias_arn(APP)) + FEW:
            account.ask(operation, {"KeyId": named} | more)
        yield account
    account = with_a_gone_key("CreateAlias and UpdateAlias take a key's id or ARN, and no alias")
    for named in (APP, alias_arn(APP)) + NO_KEYS:
        put(account, "alias/next", named).ask("UpdateAlias", {"AliasName": APP, "TargetKeyId": named})
    yield account


def gone_aliases():
    account = keys("the alias of a key that is gone is gone with it, before the key is removed and after", 2)
    put(account, APP, ID1)
    put(account, "alias/b", ID2)
    encrypt(account, APP)
    schedule(account, ID1).at(START + 7 * DAY - 1)
    account.ask("DescribeKey", {"KeyId": APP}).ask("ListAliases", {}).at(START + 7 * DAY)
    account.ask("DescribeKey", {"KeyId": APP}).ask("ListAliases", {}).ask("ListAliases", {"Limit": 1}).ask("ListAliases", {"KeyId": ID1}).ask("ListKeys", {})
    decrypt(account, account.blob(0), KeyId=APP)
    put(account, APP, ID2).ask("ListAliases", {})
    encrypt(account, APP)
    yield account.ask("ListAliases", {"KeyId": ID2})
    for operation, more in (("UpdateAlias", {"TargetKeyId": ID2}), ("DeleteAlias", {})):
        account = keys(f"{operation} of the alias of a key that is gone", 2)
        put(account, APP, ID1)
        schedule(account, ID1).at(START + 7 * DAY).ask(operation, {"AliasName": APP} | more).ask(operation, {"AliasName": APP} | more)
        yield account.ask("ListAliases", {})
    account = keys("an alias whose key's deletion is cancelled is there again", 2)
    put(account, APP, ID1)
    schedule(account, ID1)
    encrypt(account, APP).ask("CancelKeyDeletion", {"KeyId": ID1})
    encrypt(account, APP).ask("EnableKey", {"KeyId": ID1}).at(START + 30 * DAY)
    yield encrypt(account, APP)


def alias_authority():
    name, other = alias_arn(APP), alias_arn("alias/other")
    account = asked("CreateAlias wants the alias and the key", 2, {
        ANN: [own("kms:CreateAlias", name)], BOB: [own("kms:CreateAlias", ARN1)], CAROL: [own("kms:CreateAlias", [name, ARN1])],
        DAN: [own("kms:CreateAlias")], EVE: [own("kms:CreateAlias"), own("kms:CreateAlias", name, "Deny")],
        FAY: [own("kms:CreateAlias"), own("kms:*", ARN1, "Deny")], GUS: []})
    for who in (GUS, ANN, BOB, EVE, FAY):
        put(account.by(who), APP, ID1)
    put(account.by(CAROL), "alias/other", ID1)
    put(account, APP, ID2)
    put(account, APP, ID1)
    put(account, APP, ID1)
    put(account.by(DAN), "alias/other", ID2)
    put(account.by(EVE), "alias/eve", ID2)
    put(account.by(FAY), "alias/fay", ID2)
    put(account.by(ROOT), APP, ID1)
    put(account.by(GUS), APP, ID1)
    put(account, "alias/none", printed(key_id(99)))
    yield account.by(ROOT).ask("ListAliases", {})
    account = asked("UpdateAlias wants the alias, the old key and the new key, in this order", 3, {
        ANN: [own("kms:UpdateAlias", name)], BOB: [own("kms:UpdateAlias", [ARN1, ARN2])], CAROL: [own("kms:UpdateAlias", [name, ARN1])],
        DAN: [own("kms:UpdateAlias", [name, ARN2])], EVE: [own("kms:UpdateAlias", [name, ARN1, ARN2])], GUS: []})
    put(account, APP, ID1)
    put(account, "alias/other", ID1)
    for who in (GUS, ANN, BOB, CAROL, DAN):
        account.by(who).ask("UpdateAlias", {"AliasName": APP, "TargetKeyId": ID2})
    account.by(CAROL).ask("UpdateAlias", {"AliasName": APP, "TargetKeyId": ID1})
    account.by(EVE).ask("UpdateAlias", {"AliasName": "alias/other", "TargetKeyId": ID2})
    account.ask("UpdateAlias", {"AliasName": APP, "TargetKeyId": ID3}).ask("UpdateAlias", {"AliasName": APP, "TargetKeyId": ID2})
    account.by(CAROL).ask("UpdateAlias", {"AliasName": APP, "TargetKeyId": ID1})
    account.by(DAN).ask("UpdateAlias", {"AliasName": APP, "TargetKeyId": ID1}).ask("UpdateAlias", {"AliasName": APP, "TargetKeyId": ID2})
    account.by(GUS).ask("UpdateAlias", {"AliasName": "alias/none", "TargetKeyId": ID1})
    yield account.by(ROOT).ask("ListAliases", {})
    account = asked("DeleteAlias wants the alias and its key", 2, {
        ANN: [own("kms:DeleteAlias", name)], BOB: [own("kms:DeleteAlias", ARN1)], CAROL: [own("kms:DeleteAlias", [name, ARN1])],
        DAN: [own("kms:DeleteAlias", [name, ARN2])], EVE: [own("kms:DeleteAlias", [other, ARN1])], GUS: []})
    put(account, APP, ID1)
    put(account, "alias/other", ID1)
    for who in (GUS, ANN, BOB, DAN, EVE, CAROL):
        account.by(who).ask("DeleteAlias", {"AliasName": APP})
    account.by(EVE).ask("DeleteAlias", {"AliasName": "alias/other"})
    account.by(GUS).ask("DeleteAlias", {"AliasName": APP})
    yield account.by(ROOT).ask("ListAliases", {})
    calls = ["kms:CreateAlias", "kms:UpdateAlias", "kms:DeleteAlias"]
    account = asked("a key policy speaks of the key of an alias call, and never of the alias", 2, {ANN: [own(calls, name)], BOB: []},
                    key_policy(statement(calls, principal=[ANN, BOB]), statement("kms:*", "Deny", name, "*")))
    put(account.by(BOB), APP, ID1)
    put(account.by(ANN), APP, ID1)
    account.ask("UpdateAlias", {"AliasName": APP, "TargetKeyId": ID2}).ask("UpdateAlias", {"AliasName": APP, "TargetKeyId": ID1})
    account.by(BOB).ask("DeleteAlias", {"AliasName": APP}).by(ANN).ask("DeleteAlias", {"AliasName": APP})
    yield account
    account = asked("a key policy that denies an alias call denies it to the root too", 2, {},
                    key_policy(statement(calls, "Deny", principal="*")))
    put(account, APP, ID1)
    put(account, APP, ID2)
    account.ask("UpdateAlias", {"AliasName": APP, "TargetKeyId": ID1}).ask("PutKeyPolicy", {"KeyId": ID1, "Policy": DEFAULT_POLICY})
    account.ask("UpdateAlias", {"AliasName": APP, "TargetKeyId": ID1})
    account.ask("PutKeyPolicy", {"KeyId": ID1, "Policy": key_policy(statement(calls, "Deny", principal=ROOT))})
    account.ask("UpdateAlias", {"AliasName": APP, "TargetKeyId": ID2}).ask("DeleteAlias", {"AliasName": APP})
    yield account
    account = asked("who may do nothing learns nothing of states and of aliases that are there", 2, {ANN: [own(calls, name)]})
    put(account, APP, ID2)
    schedule(account, ID1)
    put(account.by(ANN), APP, ID1)
    put(account, APP, ID2)
    account.ask("UpdateAlias", {"AliasName": APP, "TargetKeyId": ID1})
    put(account.by(ROOT), APP, ID1)
    account.ask("UpdateAlias", {"AliasName": APP, "TargetKeyId": ID1})
    yield account
    account = asked("an alias gives nothing by itself: the key's policy and the caller's own speak of the key's ARN", 1, {
        ANN: [own("kms:Encrypt", name)], BOB: [own("kms:Encrypt", ARN1)], CAROL: [own("kms:Encrypt"), own("kms:Encrypt", name, "Deny")]})
    put(account, APP, ID1)
    for who in (ANN, BOB, CAROL):
        encrypt(encrypt(encrypt(account.by(who), APP), name), ID1)
    yield account


def alias_facts():
    request = {"StringEquals": {"kms:RequestAlias": APP}}
    account = asked("kms:RequestAlias in a key policy: the alias by which the request names the key", 1, {}, key_policy(
        statement("kms:*", principal=ANN, when=request), statement("kms:*", principal=BOB, when={"Null": {"kms:RequestAlias": "true"}}),
        statement("kms:*", principal=CAROL, when={"ForAnyValue:StringLike": {"kms:requestalias": ["alias/b*", "alias/c"]}}),
        statement("kms:*", principal=DAN, when={"StringNotEquals": {"kms:RequestAlias": APP}}),
        statement("kms:*", principal=EVE, when={"StringEqualsIfExists": {"kms:RequestAlias": APP}}),
        statement("kms:*", principal=FAY, when={"StringEquals": {"kms:RequestAlias": alias_arn(APP)}})))
    put(account, APP, ID1)
    put(account, "alias/bb", ID1)
    for who in (ANN, BOB, CAROL, DAN, EVE, FAY):
        account.by(who)
        for named in (APP, alias_arn(APP), "alias/bb", ID1, ARN1):
            account.ask("DescribeKey", {"KeyId": named})
    yield account
    account = asked("kms:RequestAlias in each operation that takes an alias", 2, {}, key_policy(statement("kms:*", principal=ANN, when=request)))
    put(account, APP, ID1)
    encrypt(account, ID1)
    account.by(ANN)
    for operation, field, more in TAKING:
        more = {name: account.blob(0) if value is None else value for name, value in more.items()}
        for named in ({field: APP}, {field: ID1}, {}):
            if named or operation == "Decrypt":
                account.ask(operation, named | more)
    account.ask("ReEncrypt", {"CiphertextBlob": account.blob(0), "SourceKeyId": APP, "DestinationKeyId": APP})
    account.ask("ReEncrypt", {"CiphertextBlob": account.blob(0), "SourceKeyId": ID1, "DestinationKeyId": APP})
    account.ask("ReEncrypt", {"CiphertextBlob": account.blob(0), "SourceKeyId": alias_arn(APP), "DestinationKeyId": ARN1})
    account.ask("GetKeyPolicy", {"KeyId": ID1})
    yield account
    account = asked("kms:RequestAlias in callers' own policies", 2, {
        ANN: [own("kms:*", when=request)], BOB: [own("kms:*"), own("kms:*", effect="Deny", when=request)],
        CAROL: [own("kms:*", when={"Null": {"kms:RequestAlias": "true"}})]})
    put(account, APP, ID1)
    for who in (ANN, BOB, CAROL):
        encrypt(encrypt(account.by(who), APP), ID1)
        put(account, "alias/of" + who[-3:], ID2).ask("UpdateAlias", {"AliasName": APP, "TargetKeyId": ID1})
        account.ask("ListAliases", {})
    yield account.by(ROOT).ask("ListAliases", {})
    has = {"ForAnyValue:StringEquals": {"kms:ResourceAliases": APP}}
    account = asked("kms:ResourceAliases in key policies: all aliases of the key, however the request names it", 1, {}, key_policy(
        statement("kms:*", principal=ANN, when=has), statement("kms:*", principal=BOB, when={"Null": {"kms:ResourceAliases": "true"}}),
        statement("kms:*", principal=CAROL, when={"ForAllValues:StringLike": {"kms:ResourceAliases": "alias/a*"}}),
        statement("kms:*", principal=DAN, when={"ForAllValues:StringLike": {"kms:ResourceAliases": "alias/a*"}, "Null": {"kms:ResourceAliases": "false"}}),
        statement("kms:*", principal=EVE, when={"ForAnyValue:StringNotLike": {"kms:ResourceAliases": "alias/a*"}}),
        statement("kms:*", principal=FAY, when={"StringNotLike": {"kms:ResourceAliases": "alias/b"}})))

    def all_of_them():
        for who in (ANN, BOB, CAROL, DAN, EVE, FAY):
            encrypt(account.by(who), ID1)
        account.by(ROOT)
    all_of_them()
    put(account, APP, ID1)
    all_of_them()
    put(account, "alias/b", ID1)
    all_of_them()
    encrypt(account.by(ANN), "alias/b").by(ROOT)
    account.ask("DeleteAlias", {"AliasName": APP})
    all_of_them()
    yield account.ask("ListAliases", {})
    account = asked("kms:ResourceAliases in callers' own policies, as aliases move from key to key", 2, {
        ANN: [own("kms:Encrypt", when=has)], BOB: [own("kms:Encrypt"), own("kms:Encrypt", effect="Deny", when=has)]})
    put(account, APP, ID1)
    for target in (ID2, ID1):
        for who in (ANN, BOB):
            encrypt(encrypt(encrypt(account.by(who), ID1), ID2), APP)
        account.by(ROOT).ask("UpdateAlias", {"AliasName": APP, "TargetKeyId": target})
    account.ask("DeleteAlias", {"AliasName": APP})
    for who in (ANN, BOB):
        encrypt(account.by(who), ID1)
    yield account
    none = {"Null": {"kms:ResourceAliases": "true"}}
    with_alias = own(["kms:CreateAlias", "kms:UpdateAlias", "kms:DeleteAlias"], alias_arn("alias/*"))
    account = asked("alias calls are judged by the aliases before them, and name the key by no alias", 2, {who: [with_alias] for who in (ANN, BOB, CAROL)})
    for key in (ID1, ID2):
        account.ask("PutKeyPolicy", {"KeyId": key, "Policy": key_policy(
            statement("kms:*Alias", principal=ANN, when=none), statement("kms:*Alias", principal=BOB, when=has),
            statement("kms:*Alias", principal=CAROL, when=request))})
    put(account.by(BOB), APP, ID1)
    put(account.by(CAROL), APP, ID1)
    put(account.by(ANN), APP, ID1)
    put(account, "alias/next", ID1)
    account.ask("DeleteAlias", {"AliasName": APP})
    account.by(CAROL).ask("DeleteAlias", {"AliasName": APP})
    account.by(BOB)
    put(account, "alias/next", ID1)
    account.ask("UpdateAlias", {"AliasName": APP, "TargetKeyId": ID2}).ask("UpdateAlias", {"AliasName": APP, "TargetKeyId": ID1})
    account.ask("DeleteAlias", {"AliasName": "alias/next"}).ask("DeleteAlias", {"AliasName": APP})
    yield account.by(ROOT).ask("ListAliases", {})
    account = asked("what a key policy that is given would let the caller do is judged by the key's aliases, and by no alias of the request", 1,
                    policy=key_policy(statement("kms:PutKeyPolicy", principal=ANN)))
    policies = [key_policy(statement("kms:PutKeyPolicy", principal=ANN, when=when)) for when in (has, none, request, {"Null": {"kms:RequestAlias": "true"}})]

    def give_each():
        for policy in policies:
            account.ask("PutKeyPolicy", {"KeyId": ID1, "Policy": policy})
            account.by(ROOT).ask("PutKeyPolicy", {"KeyId": ID1, "Policy": key_policy(statement("kms:PutKeyPolicy", principal=ANN))}).by(ANN)
    account.by(ANN)
    give_each()
    put(account.by(ROOT), APP, ID1).by(ANN)
    give_each()
    account.ask("PutKeyPolicy", {"KeyId": ID1, "Policy": policies[1], "BypassPolicyLockoutSafetyCheck": True})
    yield account.ask("PutKeyPolicy", {"KeyId": ID1, "Policy": policies[0]})
    account = asked("a question on an alias, or of a list, knows nothing of a key", 1, {
        ANN: [own("kms:*", when={"Null": {"kms:KeySpec": "false"}})], BOB: [own("kms:*", when={"Null": {"kms:KeySpec": "true"}})],
        CAROL: [own("kms:*", when={"StringEquals": {"aws:username": "carol", "aws:PrincipalAccount": ACCOUNT}})]})
    put(account, APP, ID1)
    for who in (ANN, BOB, CAROL):
        put(account.by(who), "alias/other", ID1)
        for operation in ("ListKeys", "ListAliases"):
            account.ask(operation, {})
        account.ask("ListAliases", {"KeyId": ID1}).ask("ListRetirableGrants", {"RetiringPrincipal": ANN}).ask("ListKeyPolicies", {"KeyId": ID1})
    yield account


def housekeeping():
    granting = {"KeyId": ID1, "GranteePrincipal": ANN, "Operations": ["Decrypt"]}
    first, left = "is removed first by", "is left by"
    for what, operation, body in (
            (f"{first} CreateAlias", "CreateAlias", {"AliasName": APP, "TargetKeyId": ID1}),
            (f"{first} CreateAlias that is refused", "CreateAlias", {"AliasName": APP, "TargetKeyId": "x"}),
            (f"{left} CreateAlias of what is no name", "CreateAlias", {"AliasName": "alias/aws/x", "TargetKeyId": ID1}),
            (f"{first} UpdateAlias that is refused", "UpdateAlias", {"AliasName": "alias/none", "TargetKeyId": ID1}),
            (f"{first} DeleteAlias that is refused", "DeleteAlias", {"AliasName": "alias/none"}),
            (f"{left} DeleteAlias of what is no name", "DeleteAlias", {"AliasName": "x"}),
            (f"{first} CreateGrant", "CreateGrant", granting),
            (f"{first} CreateGrant that is run dry", "CreateGrant", granting | {"DryRun": True}),
            (f"{first} CreateGrant of a grant that is there", "CreateGrant", granting | {"Name": "n"}),
            (f"{first} RetireGrant that is refused", "RetireGrant", {"GrantToken": DEAD}),
            (f"{first} RetireGrant that is run dry", "RetireGrant", {"GrantToken": grant_id(2), "DryRun": True}),
            (f"{first} RevokeGrant that is refused", "RevokeGrant", {"KeyId": ID1, "GrantId": DEAD}),
            (f"{first} RevokeGrant that is run dry", "RevokeGrant", {"KeyId": ID1, "GrantId": grant_id(2), "DryRun": True}),
            (f"{left} ListKeys", "ListKeys", {}), (f"{left} ListAliases", "ListAliases", {}), (f"{left} ListGrants", "ListGrants", {"KeyId": ID1}),
            (f"{left} ListRetirableGrants", "ListRetirableGrants", {"RetiringPrincipal": ANN})):
        account = keys(f"a key that is gone {what}", 2)
        grant(account, Name="n")
        put(account, "alias/gone", ID2)
        grant(account, ID2)
        schedule(account, ID2).at(START + 7 * DAY).ask(operation, body).ask("DescribeKey", {"KeyId": ID1})
        yield account.ask("EnableKey", {"KeyId": ID1}).ask("ListAliases", {})
    account = keys("dates where the clock goes back are those of the last change", 2)
    account.at(START - 50)
    put(account, APP, ID1)
    grant(account, RetiringPrincipal=BOB)
    account.ask("ListAliases", {}).ask("ListGrants", {"KeyId": ID1}).at(START + 20)
    put(account, "alias/b", ID1).at(START + 10).ask("UpdateAlias", {"AliasName": APP, "TargetKeyId": ID2}).ask("ListAliases", {})
    yield grant(account, RetiringPrincipal=BOB).ask("ListRetirableGrants", {"RetiringPrincipal": BOB})


def aliases():
    for part in (alias_lives, alias_steps, gone_aliases, alias_authority, alias_facts, alias_references, housekeeping):
        yield from part()


if __name__ == "__main__":
    write("make_aliases.py", "aliases.txt", "Aliases: what they name, who may make and move them, and what conditions are told of them", aliases())
