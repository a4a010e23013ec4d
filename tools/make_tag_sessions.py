"""Writes crates/worked_cases/data/tags.txt: python3 -B tools/make_tag_sessions.py

Each case is asked of the account in plain Python of whole_account.py, which answers it: tags are a dict of Python's, and their order is
that of the bytes of their keys in UTF-8.
"""

from whole_cases import *

ENV = {"TagKey": "env", "TagValue": "prod"}
STATES = ("Enabled", "Disabled", "PendingDeletion")


def numbered(first, end):
    return [{"TagKey": f"k{number:02}", "TagValue": str(number)} for number in range(first, end)]


def put_tags(account, key, given):
    return account.ask("TagResource", {"KeyId": key, "Tags": given})


def create(account, **pairs):
    return account.ask("CreateKey", {"Tags": tags(**pairs)})


def tagged(what, policies=None, ceiling=(), policy=None, **pairs):
    """Several callers who ask at one second, of a key with these tags and one without."""
    account = Whole(what, policies, asked=True, ceiling=ceiling)
    return account.ask("CreateKey", ({"Policy": policy} if policy else {}) | {"Tags": tags(**pairs)}).ask("CreateKey", {})


def blobs_of(account, keys):
    """A blob of each of these keys, which the root makes."""
    for key in keys:
        encrypt(account.by(ROOT), key)
    return [account.blob(number) for number in range(-len(keys), 0)]


# ---- tags


def of_keys():
    account = create(Whole("a key is made with a tag, is tagged anew and untagged"), env="prod")
    list_tags(account, ID1)
    tag(account, ID1, env="dev")
    list_tags(account, ID1)
    list_tags(untag(account, ID1, "env"), ID1)
    yield list_tags(untag(account, ID1, "env"), ID1)
    account = keys("tags are put beside a key's others, and a value in place of the one that was there", 2)
    tag(account, ID1, env="prod", team="keys", cost="")
    tag(account, ID1, team="other", Env="x")
    tag(account, ID1, team="other")
    tag(account, ID2, env="second")
    list_tags(account, ID1)
    list_tags(account, ID2)
    untag(account, ID1, "team")
    untag(account, ID1, "en")
    untag(account, ID1, "envx")
    untag(account, ID1, "ENV")
    list_tags(account, ID1)
    yield list_tags(untag(account, ID1, "Env", "env", "cost"), ID1)
    account = keys("no tags, equal tags, and names that are nobody's")
    for given in ([], [ENV], [ENV], []):
        put_tags(account, ID1, given)
    untag(account, ID1, "other")
    untag(account, ID1, "other", "env", "other", "env")
    untag(account, ID1, "env")
    yield list_tags(account, ID1)
    account = keys("the keys of tags are ordered by their bytes, and both are any characters")
    put_tags(account, ID1, tags(**{"größe": "9 €", "z": "last", "Z": "upper", "é": "\u0001\n", "zz": "\"\\", " ": " ", "𝄞": "clef", "\ufffd": "", "a:b/c=d+e-f@g_h.i": "=", "aws": "aws:",
                                   "awsx": "y", " aws:x": "z"}))
    list_tags(account, ID1)
    yield list_tags(account, ID1, Limit=3)
    account = keys("a key whose tags are asked for is named by its id or its ARN", 2)
    put(account, APP, ID1)
    for named in (ID1, ARN1, ID1.upper(), APP, alias_arn(APP), "alias/none", "x", "arn:", printed(key_id(9)), ARN1.replace("us-east-1", "eu-west-1"), ARN1.replace(ACCOUNT, "444455556666")):
        tag(account, named, env="prod")
        list_tags(account, named)
        untag(account, named, "env")
    yield account
    for state in STATES:
        account = create(Whole(f"tags of a key that is {state}"), env="prod")
        into(account, ID1, state)
        tag(account, ID1, env="dev", team="x")
        untag(account, ID1, "env")
        untag(account, ID1, "none")
        put_tags(account, ID1, tags(**{"aws:x": "y"}))
        yield list_tags(account, ID1)
    account = create(Whole("a key that is gone has no tags"), env="prod").ask("CreateKey", {})
    tag(account, ID2, env="second")
    schedule(account, ID1).at(START + 7 * DAY - 1)
    list_tags(account, ID1).at(START + 7 * DAY)
    list_tags(account, ID1)
    tag(account, ID1, env="dev")
    untag(account, ID1, "env")
    list_tags(account, ID1)
    create(account, other="x")
    yield list_tags(list_tags(account, ID2), printed(key_id(5)))
    account = create(Whole("tags stay with their key through its life"), env="prod")
    for operation, more in (("DisableKey", {}), ("EnableKey", {}), ("UpdateKeyDescription", {"Description": "x"}), ("RotateKeyOnDemand", {}), ("EnableKeyRotation", {"RotationPeriodInDays": 90}),
                            ("PutKeyPolicy", {"Policy": key_policy()}), ("ScheduleKeyDeletion", {}), ("CancelKeyDeletion", {})):
        account.ask(operation, {"KeyId": ID1} | more)
    list_tags(account.at(START + 200 * DAY).ask("EnableKey", {"KeyId": ID1}), ID1)
    yield account.ask("DescribeKey", {"KeyId": ID1})


# ---- what tags may be


def improper():
    for what, bad in (("two tags of one key", [ENV, ENV]), ("two values of one key among others", [ENV, {"TagKey": "a", "TagValue": ""}, {"TagKey": "env", "TagValue": "dev"}])):
        account = keys(f"{what} are refused")
        put_tags(account, ID1, bad).ask("CreateKey", {"Tags": bad})
        yield list_tags(account, ID1)
    account = keys("keys that begin with aws: are refused, in whatever case")
    for name in ("aws:", "aws:x", "AWS:x", "Aws:X", "aWs:é", "awS:" + "x" * 124):
        put_tags(account, ID1, [{"TagKey": name, "TagValue": "y"}]).ask("CreateKey", {"Tags": [ENV, {"TagKey": name, "TagValue": "y"}]})
        put_tags(account, ID1, [{"TagKey": name, "TagValue": "y"}, ENV])
        untag(account, ID1, name)
    for name in ("aws", "aws-x", "xaws:", "ａｗｓ:x", "aws\u200b:x", "ÅWS:x"):
        put_tags(account, ID1, [{"TagKey": name, "TagValue": "aws:x"}])
    yield list_tags(account, ID1)
    account = keys("keys of tags have 1 to 128 characters, and values at most 256")
    for letter in ("k", "é", "鍵", "🔑"):
        for size in (0, 1, 128, 129):
            put_tags(account, ID1, [{"TagKey": letter * size, "TagValue": "x"}])
            untag(account, ID1, letter * size)
        for size in (0, 256, 257):
            put_tags(account, ID1, [{"TagKey": "x", "TagValue": letter * size}])
            list_tags(account, ID1)
    yield account
    account = keys("at most 50 tags in a request, and of a key")
    put_tags(account, ID1, numbered(0, 51))
    put_tags(account, ID1, numbered(0, 50))
    put_tags(account, ID1, [ENV])
    put_tags(account, ID1, numbered(49, 50) + [ENV])
    put_tags(account, ID1, [{"TagKey": "k49", "TagValue": "new"}])
    untag(account, ID1, "k00")
    put_tags(account, ID1, [ENV])
    put_tags(account, ID1, [{"TagKey": "one more", "TagValue": ""}])
    put_tags(account, ID1, [{"TagKey": "one more", "TagValue": ""}, {"TagKey": "aws:x", "TagValue": ""}])
    list_tags(account, ID1)
    for count in (50, 51):
        account.ask("CreateKey", {"Tags": numbered(0, count)})
    yield list_tags(account, printed(key_id(4)))
    account = keys("50 tags by two requests, and 51")
    put_tags(account, ID1, numbered(0, 25))
    put_tags(account, ID1, numbered(25, 51))
    put_tags(account, ID1, numbered(25, 50))
    yield put_tags(account, ID1, [ENV])
    account = keys("1 to 50 keys of tags in a request, repeats among them")
    put_tags(account, ID1, numbered(0, 30) + [ENV])
    for count in (0, 1, 51, 50):
        untag(account, ID1, *[f"k{number:02}" for number in range(count)])
    untag(account, ID1, *["env"] * 51)
    untag(account, ID1, *["other"] * 50)
    untag(account, ID1, *["env"] * 50)
    yield list_tags(account, ID1)
    account = Whole("tags that aren't proper stand at their place among what CreateKey doesn't make")
    bad = {"Tags": [ENV, ENV]}
    locked = {"Policy": document(statement("kms:*", principal=ANN))}
    for more in ({"KeyUsage": "SIGN_VERIFY"}, {"KeySpec": HMAC_256}, {"Origin": "EXTERNAL"}, {"CustomKeyStoreId": "cks-1"}, {"MultiRegion": True}, {"XksKeyId": "x"}, locked, {}):
        account.ask("CreateKey", bad | more).ask("CreateKey", {"Tags": [ENV]} | more)
    yield account
    account = create(Whole("the other refusals of a request stand before its tags are judged, and its count behind"), env="prod")
    put_tags(account, APP, [ENV, ENV])
    put_tags(account, ID2, [ENV, ENV])
    put_tags(account, ID1, numbered(0, 49))
    put_tags(account, ID1, numbered(0, 48) + [{"TagKey": "more", "TagValue": "x"}] + [ENV, ENV])
    put_tags(account, ID1, [{"TagKey": "more", "TagValue": "x"}])
    into(account, ID1, "PendingDeletion")
    yield put_tags(put_tags(account, ID1, [ENV, ENV]), ID1, [{"TagKey": "more", "TagValue": "x"}])


# ---- lists


def lists():
    names = ["b", "B", "bb", "ä", "z", "a"]
    account = keys("the pages of ListResourceTags: marks are keys of tags in lower-case hexadecimal")
    put_tags(account, ID1, [{"TagKey": name, "TagValue": f"of {name}"} for name in names])
    for limit in (1, 2, 3, 5, 6, 7, 50):
        marker = {}
        while marker is not None:
            list_tags(account, ID1, Limit=limit, **marker)
            reply = json.loads(account.said[-1][2].split(" ", 3)[3])
            marker = {"Marker": reply["NextMarker"]} if "NextMarker" in reply else None
    for raw in [name.encode() for name in names] + [b"\0", b"A", b"bA", b"b\0", b"ba", b"\xc3", b"\xc3\xff", b"zz", b"\xff\xfe", b"y" * 512]:
        list_tags(account, ID1, Marker=raw.hex(), Limit=1)
        list_tags(account, ID1, Marker=raw.hex())
    yield account
    account = keys("marks of ListResourceTags that aren't two lower-case hexadecimal digits a byte")
    put_tags(account, ID1, [ENV])
    for marker in ("x", "6", "656", "6G", "6E", "656E", "65 6e", " 656e", "0x65", "-1", "é", "é0", "6" * 1023, "6" * 1024, "G" * 1024):
        list_tags(account, ID1, Marker=marker)
    yield account
    account = keys("a key has at most as many tags as a page, so that none is cut where no limit is given")
    put_tags(account, ID1, numbered(0, 50))
    list_tags(account, ID1)
    list_tags(account, ID1, Limit=49)
    list_tags(account, ID1, Limit=49, Marker=b"k48".hex())
    yield list_tags(account, ID1, Limit=50, Marker=b"k48".hex())
    account = create(Whole("a page after tags that changed between"), a="1", b="2", c="3", d="4")
    list_tags(account, ID1, Limit=2)
    untag(account, ID1, "b", "c")
    tag(account, ID1, bb="new", aa="new")
    list_tags(account, ID1, Limit=2, Marker=b"b".hex())
    yield list_tags(account, ID1, Limit=2, Marker=b"d".hex())
    account = tagged("who may not list is refused before the mark is looked at", {ANN: [own("kms:ListResourceTags")], BOB: [own("kms:List*", ARN2)]}, env="prod")
    for who in (CAROL, BOB, ANN, ROOT):
        for key in (ID1, ID2):
            list_tags(list_tags(account.by(who), key, Marker="x"), key)
    yield account


# ---- who may


def who_may():
    account = tagged("TagResource, UntagResource and ListResourceTags each need their own action on the key",
                     {ANN: [own("kms:TagResource", ARN1)], BOB: [own("kms:UntagResource")], CAROL: [own("kms:ListResourceTags")], DAN: [own("kms:*"), own("kms:*Tag*", effect="Deny")]}, env="prod")
    for who in (ANN, BOB, CAROL, DAN, EVE):
        for key in (ID1, ID2):
            tag(account.by(who), key, env="dev")
            untag(account, key, "env")
            list_tags(account, key)
    yield list_tags(account.by(ROOT), ID1)
    account = tagged("a key policy that lets users tag", policy=key_policy(statement(["kms:TagResource", "kms:ListResourceTags"], principal=ANN), statement("kms:UntagResource", "Deny", principal="*")), env="prod")
    for who in (ANN, ROOT, BOB):
        tag(account.by(who), ID1, team="x")
        untag(account, ID1, "team")
        list_tags(account, ID1)
    yield account
    account = tagged("no grant lets anybody tag", env="prod")
    grant(account, operations=GRANT_OPERATIONS)
    tag(account.by(ANN), ID1, env="dev")
    untag(account, ID1, "env")
    yield list_tags(account, ID1)
    account = Whole("CreateKey with tags needs TagResource too, on every resource, after CreateKey", {
        ANN: [own("kms:CreateKey")], BOB: [own("kms:TagResource")], CAROL: [own(["kms:CreateKey", "kms:TagResource"])], DAN: [own("kms:CreateKey"), own("kms:TagResource", "arn:aws:kms:*:*:key/*")],
        EVE: [own("kms:*"), own("kms:TagResource", effect="Deny")]}, asked=True)
    for who in (ANN, BOB, CAROL, DAN, EVE, FAY, ROOT):
        create(account.by(who), env="prod")
        create(account, **{"aws:x": "y"})
        create(account)
        account.ask("CreateKey", {"Tags": None})
    yield account
    account = Whole("a ceiling that doesn't let tags be given", asked=True, ceiling=[document(statement("kms:*"), statement("kms:TagResource", "Deny"))])
    create(account, env="prod")
    create(account)
    tag(account, ID1, env="prod")
    yield untag(account, ID1, "env")


# ---- what policies are told


def tags_of_the_key():
    on_env = {"StringEquals": {"aws:ResourceTag/env": "prod"}}
    account = tagged("a caller's policy on a tag of the key: before and after the tag changes", {ANN: [own("kms:Decrypt", when=on_env)]}, env="prod")
    first, second = blobs_of(account, (ID1, ID2))
    for change in (lambda: None, lambda: tag(account, ID1, env="dev"), lambda: tag(account, ID1, env="prod", team="x"), lambda: untag(account, ID1, "env"), lambda: tag(account, ID2, env="prod")):
        account.by(ROOT)
        change()
        decrypt(account.by(ANN), first)
        decrypt(account, second)
    yield account
    account = tagged("a key policy on a tag of the key, which stands in place of a grant", policy=key_policy(
        statement("kms:Decrypt", principal=ANN, when=on_env), statement("kms:Decrypt", "Deny", principal="*", when={"StringEquals": {"aws:ResourceTag/shut": "true"}})), env="prod")
    first, _ = blobs_of(account, (ID1, ID2))
    decrypt(account.by(ANN), first)
    decrypt(account.by(BOB), first)
    tag(account.by(ROOT), ID1, env="dev")
    decrypt(account.by(ANN), first)
    grant(account.by(ROOT))
    decrypt(account.by(ANN), first)
    tag(account.by(ROOT), ID1, shut="true")
    decrypt(account.by(ANN), first)
    yield decrypt(account.by(ROOT), first)
    account = tagged("a ceiling on a tag of the key", ceiling=[document(statement("kms:*"), statement("kms:Encrypt", "Deny", when=on_env))], env="prod")
    encrypt(account, ID1)
    encrypt(account, ID2)
    tag(account, ID2, env="prod")
    encrypt(account, ID2)
    untag(account, ID1, "env")
    yield encrypt(account, ID1)
    forms = {ANN: {"StringEquals": {"AWS:resourcetag/ENV": "prod"}}, BOB: {"StringEquals": {"aws:ResourceTag/env": "PROD"}}, CAROL: {"StringEqualsIgnoreCase": {"aws:ResourceTag/Env": "PROD"}},
             DAN: {"Null": {"aws:ResourceTag/team": "true"}}, EVE: {"StringNotEquals": {"aws:ResourceTag/env": "prod"}}, FAY: {"StringEqualsIfExists": {"aws:ResourceTag/team": "x"}},
             GUS: {"StringLike": {"aws:ResourceTag/*": "*"}}}
    account = tagged("the names of tags in conditions have no case, their values have", {who: [own("kms:DescribeKey", when=when)] for who, when in forms.items()}, env="prod")
    for who in forms:
        account.by(who).ask("DescribeKey", {"KeyId": ID1}).ask("DescribeKey", {"KeyId": ID2})
    yield account
    account = tagged("tags whose keys differ in their case alone are one condition key with both values", {
        ANN: [own("kms:DescribeKey", when={"StringEquals": {"aws:ResourceTag/ENV": "dev"}})], BOB: [own("kms:DescribeKey", when={"ForAllValues:StringEquals": {"aws:ResourceTag/env": "prod"}})],
        CAROL: [own("kms:DescribeKey", when={"StringEquals": {"aws:ResourceTag/größe": "9"}})], DAN: [own("kms:DescribeKey", when={"StringEquals": {"aws:ResourceTag/GRÖßE": "9"}})],
        EVE: [own("kms:DescribeKey", when={"StringEquals": {"aws:ResourceTag/GRößE": "9"}})]}, env="prod", Env="dev", größe="9")
    for who in (ANN, BOB, CAROL, DAN, EVE):
        account.by(who).ask("DescribeKey", {"KeyId": ID1})
    yield account
    account = tagged("each key of a request has its own tags", {ANN: [own("kms:*", when=on_env)], BOB: [own("kms:ReEncryptFrom", when=on_env), own("kms:ReEncryptTo", when={"Null": {"aws:ResourceTag/env": "true"}})]}, env="prod")
    first, second = blobs_of(account, (ID1, ID2))
    for who in (ANN, BOB):
        account.by(who)
        for blob in (first, second):
            for key in (ID1, ID2):
                account.ask("ReEncrypt", {"CiphertextBlob": blob, "DestinationKeyId": key})
    yield account
    account = tagged("operations on aliases are told of the tags of the keys, and not on the alias", {
        ANN: [own("kms:*Alias", ARN1), own("kms:*Alias", alias_arn("alias/*"), when={"Null": {"aws:ResourceTag/env": "true"}}), own("kms:*Alias", ARN2, when=on_env)],
        BOB: [own("kms:*Alias", when=on_env)], CAROL: [own("kms:ListAliases", when={"Null": {"aws:ResourceTag/env": "true"}})]}, env="prod")
    for who in (BOB, ANN):
        put(account.by(who), "alias/a", ID1)
        put(account, "alias/b", ID2)
    account.ask("UpdateAlias", {"AliasName": "alias/a", "TargetKeyId": ID2})
    tag(account.by(ROOT), ID2, env="prod")
    account.by(ANN).ask("UpdateAlias", {"AliasName": "alias/a", "TargetKeyId": ID2}).ask("DeleteAlias", {"AliasName": "alias/a"})
    yield account.by(CAROL).ask("ListAliases", {}).ask("ListAliases", {"KeyId": ID1})
    account = tagged("every operation on a key is told of its tags", {ANN: [own("kms:*", when=on_env)]}, env="prod")
    for operation, more in (("DescribeKey", {}), ("GetKeyPolicy", {}), ("ListKeyPolicies", {}), ("ListKeyRotations", {}), ("GetKeyRotationStatus", {}), ("ListGrants", {}), ("ListResourceTags", {}),
                            ("UpdateKeyDescription", {"Description": "x"}), ("DisableKey", {}), ("EnableKey", {}), ("RotateKeyOnDemand", {}), ("EnableKeyRotation", {}), ("DisableKeyRotation", {}),
                            ("CreateGrant", {"GranteePrincipal": BOB, "Operations": ["Decrypt"]}), ("RevokeGrant", {"GrantId": DEAD}), ("PutKeyPolicy", {"Policy": key_policy()}),
                            ("TagResource", {"Tags": tags(team="x")}), ("UntagResource", {"TagKeys": ["team"]}), ("ScheduleKeyDeletion", {}), ("CancelKeyDeletion", {})):
        account.by(ANN).ask(operation, {"KeyId": ID1} | more).ask(operation, {"KeyId": ID2} | more)
    yield account


def tags_of_the_request():
    on_env = {"StringEquals": {"aws:RequestTag/env": "prod"}}
    few = {"ForAllValues:StringEquals": {"aws:TagKeys": ["env", "team"]}}
    given = ({"env": "prod"}, {"env": "dev"}, {"env": "prod", "team": "x"}, {"env": "prod", "other": "x"}, {"ENV": "prod"}, {"Env": "prod", "env": "dev"}, {})
    policies = {ANN: [own(["kms:CreateKey", "kms:TagResource"], when=on_env)], BOB: [own(["kms:CreateKey", "kms:TagResource"], when=few)],
                CAROL: [own(["kms:CreateKey", "kms:TagResource"], when=few | {"Null": {"aws:TagKeys": "false"}})],
                DAN: [own(["kms:CreateKey", "kms:TagResource"], when={"ForAnyValue:StringEquals": {"aws:TagKeys": "team"}})],
                EVE: [own(["kms:CreateKey", "kms:TagResource"], when={"StringNotEquals": {"aws:RequestTag/ENV": "dev"}})],
                FAY: [own(["kms:CreateKey", "kms:TagResource"], when={"Null": {"aws:RequestTag/env": "true", "aws:TagKeys": "true"}})]}
    for operation in ("CreateKey", "TagResource"):
        account = tagged(f"policies on the tags that {operation} gives: aws:RequestTag and aws:TagKeys", policies, env="old")
        for who in policies:
            for pairs in given:
                account.by(who).ask(operation, {"Tags": tags(**pairs)} | ({} if operation == "CreateKey" else {"KeyId": ID1}))
        yield account
    account = tagged("tags of the request aren't the key's, nor the key's the request's", {
        ANN: [own("kms:TagResource", when={"StringEquals": {"aws:ResourceTag/env": "prod"}})], BOB: [own("kms:TagResource", when=on_env)],
        CAROL: [own("kms:TagResource", when={"StringEquals": {"aws:ResourceTag/env": "prod", "aws:RequestTag/env": "dev"}})],
        DAN: [own("kms:CreateKey", when={"Null": {"aws:ResourceTag/env": "true"}}), own("kms:TagResource", when={"Null": {"aws:ResourceTag/env": "true"}})]}, env="prod")
    for who in (ANN, BOB):
        for key in (ID1, ID2):
            tag(account.by(who), key, env="dev")
            tag(account, key, env="prod")
    create(account.by(DAN), env="prod")
    tag(account, ID1, team="x")
    yield tag(account.by(CAROL), ID1, env="dev")
    account = tagged("UntagResource is told of the keys that it names, and of no values", {
        ANN: [own("kms:UntagResource", when=few)], BOB: [own("kms:UntagResource", when={"ForAnyValue:StringEquals": {"aws:TagKeys": "env"}})],
        CAROL: [own("kms:UntagResource", when={"Null": {"aws:TagKeys": "true"}})], DAN: [own("kms:UntagResource", when={"Null": {"aws:RequestTag/env": "true"}, "StringEquals": {"aws:ResourceTag/env": "prod"}})]},
        env="prod", team="x", other="y")
    for who in (ANN, BOB, CAROL, DAN):
        account.by(who)
        for names in (["env"], ["team"], ["env", "none"], ["ENV"], ["team", "env", "team"]):
            untag(account, ID1, *names)
        tag(account.by(ROOT), ID1, env="prod", team="x")
    yield list_tags(account, ID1)
    account = tagged("other requests name no tags of their own", {ANN: [own("kms:*", when={"Null": {"aws:TagKeys": "true", "aws:RequestTag/env": "true"}})]}, env="prod")
    account.by(ANN).ask("DescribeKey", {"KeyId": ID1}).ask("CreateKey", {}).ask("CreateKey", {"Tags": []}).ask("ListKeys", {})
    put_tags(account, ID1, [])
    tag(account, ID1, x="y")
    yield list_tags(account, ID1)
    account = tagged("two tags of one key in a request are both told, before they are refused", {ANN: [own("kms:TagResource", when={"StringEquals": {"aws:RequestTag/env": "dev"}})]}, env="prod")
    yield put_tags(account.by(ANN), ID1, [ENV, {"TagKey": "env", "TagValue": "dev"}])


def lockouts():
    on_env = {"StringEquals": {"aws:ResourceTag/env": "prod"}}
    policy = document(statement("kms:*", principal=ROOT, when=on_env))
    account = Whole("the lockout check of CreateKey is told of the tags of the key that is to be made", asked=True)
    for pairs in ({}, {"env": "dev"}, {"env": "prod"}, {"ENV": "prod", "team": "x"}):
        account.ask("CreateKey", {"Policy": policy, "Tags": tags(**pairs)})
    yield list_tags(account.ask("DescribeKey", {"KeyId": ID1}), ID1)
    account = tagged("the lockout check of PutKeyPolicy is told of the key's tags, and of none of a request", env="prod")
    for key in (ID1, ID2):
        account.ask("PutKeyPolicy", {"KeyId": key, "Policy": policy})
    locked = document(statement("kms:*", principal=ROOT, when={"Null": {"aws:TagKeys": "false"}}))
    account.ask("PutKeyPolicy", {"KeyId": ID1, "Policy": locked}).ask("CreateKey", {"Policy": locked, "Tags": tags(env="prod")})
    untag(account, ID1, "env")
    account.ask("DescribeKey", {"KeyId": ID1})
    yield tag(account, ID1, env="prod")


def of_macs():
    account = hmac_key(Whole("an HMAC key is made with tags, and a policy on both", {ANN: [own("kms:*Mac", when={"StringEquals": {"aws:ResourceTag/env": "prod", "kms:KeySpec": HMAC_256}})]}, asked=True), Tags=tags(env="prod"))
    list_tags(account, ID1)
    mac = told(generate(account, ID1), "Mac")
    verify(generate(account.by(ANN), ID1), ID1, mac)
    tag(account.by(ROOT), ID1, env="dev")
    yield verify(generate(account.by(ANN), ID1), ID1, mac)


def all_cases():
    for part in (of_keys, improper, lists, who_may, tags_of_the_key, tags_of_the_request, lockouts, of_macs):
        yield from part()


if __name__ == "__main__":
    write("make_tag_sessions.py", "tags.txt", "Tags of keys: how they are given, listed and taken, and what policies say of them", all_cases())
