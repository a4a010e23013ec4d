"""Writes crates/worked_cases/data/macs.txt: python3 -B tools/make_mac_sessions.py

Each case is asked of the account in plain Python of whole_account.py, which answers it; MACs are those of Python's hmac.
"""

import base64

from make_hmac import RFC_4231
from make_key_lives import b64
from whole_cases import *

EQUALS_A, SUBSET_A = {"EncryptionContextEquals": A1}, {"EncryptionContextSubset": A1}
EQUALS_NONE, SUBSET_NONE = {"EncryptionContextEquals": {}}, {"EncryptionContextSubset": {}}
STATES = ("Enabled", "Disabled", "PendingDeletion")
ROTATION = (("EnableKeyRotation", {}), ("DisableKeyRotation", {}), ("RotateKeyOnDemand", {}), ("GetKeyRotationStatus", {}), ("ListKeyRotations", {}))
SPECS, USAGE = ("SYMMETRIC_DEFAULT", HMAC_256), {"SYMMETRIC_DEFAULT": "ENCRYPT_DECRYPT", HMAC_256: "GENERATE_VERIFY_MAC"}


def given(**members):
    """The members that aren't None."""
    return {name: value for name, value in members.items() if value is not None}


def hmac_keys(what, count=1, policies=None, **how):
    """A session that begins with HMAC keys."""
    account = Whole(what, policies, **how)
    for _ in range(count):
        hmac_key(account)
    return account


def of_both_kinds(what, policies=None, ceiling=(), **of_key):
    """Several callers who ask at one second: the first key is an HMAC key, the second one is symmetric."""
    account = hmac_key(Whole(what, policies, asked=True, ceiling=ceiling), **of_key)
    return account.ask("CreateKey", {})


def mac_of_hello(account, key=ID1):
    """The MAC that the root is told of."""
    return told(generate(account, key), "Mac")


def with_byte(mac, place, byte):
    raw = base64.b64decode(mac)
    return b64(raw[:place] + bytes([raw[place] ^ byte]) + raw[place + 1:])


# ---- MACs


def macs():
    account = hmac_keys("a MAC is generated and verified")
    mac = mac_of_hello(account)
    verify(account, ID1, mac)
    verify(account, ID1, with_byte(mac, 31, 1))
    yield verify(account, ID1, b64(base64.b64decode(mac)[:31]))
    account = hmac_keys("a MAC is the same each time, and another one under another key, of another message and of another form", 2)
    mac = mac_of_hello(account)
    generate(account, ID1)
    for key in (ID1, ID2):
        for message in (HELLO, b64(b"hello\0"), b64(b"Hello"), "AA=="):
            verify(generate(account, key, message), key, mac, message)
    yield verify(account, ID1, b64(mac.encode()))
    account = hmac_keys("the messages of RFC 4231")
    for message in [message for _, message, _ in RFC_4231] + [b"Test With Truncation"]:
        mac = told(generate(account, ID1, b64(message)), "Mac")
        verify(account, ID1, mac, b64(message))
    yield account
    account = hmac_keys("messages have 1 to 4,096 bytes")
    for size in (0, 1, 64, 4096, 4097):
        message = b64(bytes(size))
        generate(account, ID1, message)
        mac = told(account, "Mac") if 1 <= size <= 4096 else b64(bytes(32))
        verify(account, ID1, mac, message)
    yield account
    account = hmac_keys("a MAC that is given has 1 to 6,144 bytes, and only the one of 32 is valid")
    mac = base64.b64decode(mac_of_hello(account))
    for size in (0, 1, 31, 32, 33, 6144, 6145):
        verify(account, ID1, b64((mac + bytes(size))[:size]))
    for other in (mac[1:], b"\0" + mac, mac + mac, mac[::-1], bytes(32)):
        verify(account, ID1, b64(other))
    yield account
    account = hmac_keys("each bit of a MAC flipped")
    mac = mac_of_hello(account)
    for bit in range(256):
        verify(account, ID1, with_byte(mac, bit // 8, 1 << bit % 8))
    yield verify(account, ID1, mac)
    account = hmac_keys("an HMAC key is named by its id, its ARN, an alias and the alias's ARN")
    put(account, APP, ID1)
    mac = mac_of_hello(account)
    for named in (ID1.upper(), ARN1, APP, alias_arn(APP), "alias/none", ID2, "x", "arn:", ARN1.replace("us-east-1", "eu-west-1")):
        verify(generate(account, named), named, mac)
    yield account
    account = hmac_keys("a MAC that was generated is valid later, whatever became of the key meanwhile")
    mac = mac_of_hello(account)
    for operation, more in (("DisableKey", {}), ("EnableKey", {}), ("UpdateKeyDescription", {"Description": "x"}), ("ScheduleKeyDeletion", {}), ("CancelKeyDeletion", {}),
                            ("EnableKey", {}), ("PutKeyPolicy", {"Policy": key_policy()})):
        verify(account.ask(operation, {"KeyId": ID1} | more), ID1, mac)
    yield verify(generate(account.at(START + 400 * DAY), ID1), ID1, mac)
    account = hmac_keys("a key that is gone makes no MAC and verifies none", 2)
    mac = mac_of_hello(account)
    schedule(account, ID1).at(START + 7 * DAY - 1)
    verify(account, ID1, mac).at(START + 7 * DAY)
    verify(generate(account, ID1), ID1, mac)
    account.ask("EnableKey", {"KeyId": ID2})
    yield verify(generate(account, ID1), ID1, mac).ask("DescribeKey", {"KeyId": ID2})
    account = hmac_keys("DryRun of GenerateMac and VerifyMac stands after all that refuses them", 1)
    account.ask("CreateKey", {})
    mac = mac_of_hello(account)
    for more in ({"DryRun": True}, {"DryRun": False}, {"DryRun": None}):
        verify(generate(account, ID1, **more), ID1, mac, **more)
        verify(account, ID1, with_byte(mac, 0, 1), **more)
        verify(generate(account, ID2, **more), ID2, mac, **more)
        generate(account, ID1, MacAlgorithm="HMAC_SHA_512", **more)
    into(account, ID1, "Disabled")
    yield verify(generate(account, ID1, DryRun=True), ID1, mac, DryRun=True)
    account = hmac_keys("algorithms of MACs")
    mac = mac_of_hello(account)
    for algorithm in (HMAC_SHA_256, "HMAC_SHA_224", "HMAC_SHA_384", "HMAC_SHA_512", "hmac_sha_256", "HMAC_SHA_256 ", "", "SYMMETRIC_DEFAULT"):
        verify(generate(account, ID1, MacAlgorithm=algorithm), ID1, mac, MacAlgorithm=algorithm)
        verify(account, ID1, b64(bytes(32)), MacAlgorithm=algorithm)
    yield account


# ---- kinds of keys


def kinds():
    for usage in (None, "ENCRYPT_DECRYPT", "GENERATE_VERIFY_MAC", "SIGN_VERIFY"):
        account = Whole(f"kinds of keys that CreateKey is asked for, with {'no usage' if usage is None else f'the usage {usage}'}")
        for master in (None, *SPECS, "HMAC_384"):
            for spec in (None, *SPECS, "RSA_2048"):
                account.ask("CreateKey", given(KeyUsage=usage, CustomerMasterKeySpec=master, KeySpec=spec))
        yield account
    account = Whole("texts that are nearly those of a kind")
    for body in ({"KeySpec": HMAC_256}, {"KeySpec": HMAC_256, "KeyUsage": None}, {"KeySpec": HMAC_256, "KeyUsage": ""}, {"KeySpec": "", "KeyUsage": USAGE[HMAC_256]},
                 {"KeySpec": "hmac_256", "KeyUsage": USAGE[HMAC_256]}, {"KeySpec": HMAC_256, "KeyUsage": "generate_verify_mac"}, {"KeySpec": "HMAC_224", "KeyUsage": USAGE[HMAC_256]},
                 {"KeySpec": "HMAC_512", "KeyUsage": USAGE[HMAC_256]}, {"KeySpec": USAGE[HMAC_256], "KeyUsage": HMAC_256}, {"KeySpec": None, "CustomerMasterKeySpec": HMAC_256, "KeyUsage": USAGE[HMAC_256]}):
        account.ask("CreateKey", body)
    yield account
    account = Whole("the kind stands first among what CreateKey doesn't make")
    rest = {"Policy": document(statement("kms:*", principal=ANN)), "XksKeyId": "x", "MultiRegion": True, "Tags": tags(**{"aws:x": "y"}), "CustomKeyStoreId": "cks-1", "Origin": "EXTERNAL"}
    account.ask("CreateKey", rest | {"KeyUsage": "SIGN_VERIFY", "CustomerMasterKeySpec": "RSA_2048", "KeySpec": "RSA_2048"})
    account.ask("CreateKey", rest | {"CustomerMasterKeySpec": "RSA_2048", "KeySpec": "RSA_4096"}).ask("CreateKey", rest | {"KeySpec": "RSA_4096"})
    account.ask("CreateKey", rest | {"CustomerMasterKeySpec": "SYMMETRIC_DEFAULT", "KeySpec": HMAC_256}).ask("CreateKey", rest | {"KeySpec": HMAC_256})
    for field in ("Origin", "CustomKeyStoreId", "Tags", "MultiRegion", "XksKeyId", "Policy"):
        hmac_key(account, **rest)
        del rest[field]
    yield hmac_key(account, **rest)
    account = hmac_keys("an HMAC key is described so, in each state")
    hmac_key(account, Description="of MACs")
    for operation in ("DisableKey", "ScheduleKeyDeletion", "CancelKeyDeletion", "EnableKey"):
        account.ask(operation, {"KeyId": ID1}).ask("DescribeKey", {"KeyId": ID1})
    yield account.ask("DescribeKey", {"KeyId": ID2}).ask("ListKeys", {})
    account = hmac_keys("what is asked of HMAC keys as of others")
    account.ask("GetKeyPolicy", {"KeyId": ID1}).ask("ListKeyPolicies", {"KeyId": ID1}).ask("UpdateKeyDescription", {"KeyId": ID1, "Description": "x"})
    put(account, APP, ID1)
    account.ask("ListAliases", {"KeyId": ID1})
    grant(account, operations=GRANT_OPERATIONS)
    account.ask("ListGrants", {"KeyId": ID1})
    tag(account, ID1, env="prod")
    yield list_tags(account, ID1).ask("DescribeKey", {"KeyId": APP})


def other_kinds():
    """Operations on a key of the other kind."""
    for state in STATES:
        account = hmac_keys(f"what encrypts and decrypts, of an HMAC key that is {state}")
        account.ask("CreateKey", {})
        encrypt(account, ID2)
        sealed, planted = account.blob(), account.plant(K1, 1, {}, b"hello")
        into(account, ID1, state)
        encrypt(account, ID1)
        encrypt(account, ID1, DryRun=True)
        encrypt(account, ID1, EncryptionAlgorithm="RSAES_OAEP_SHA_1")
        for blob in (planted, account.plant(K1, 2, {}, b"hello"), account.plant(K1, 1, {}, b"hello", form=1)):
            decrypt(account, blob)
        decrypt(account, planted, EncryptionContext=A1, Recipient={})
        for blob, key in ((planted, ID2), (sealed, ID1), (planted, ID1)):
            account.ask("ReEncrypt", {"CiphertextBlob": blob, "DestinationKeyId": key})
        account.ask("GenerateDataKey", {"KeyId": ID1, "KeySpec": "AES_256"}).ask("GenerateDataKey", {"KeyId": ID1, "KeySpec": "AES_256", "Recipient": {}})
        account.ask("GenerateDataKeyWithoutPlaintext", {"KeyId": ID1, "NumberOfBytes": 5})
        account.ask("GenerateDataKey", {"KeyId": ID2, "NumberOfBytes": 5})
        yield encrypt(account, ID2)
        account = into(hmac_keys(f"the rotation of an HMAC key that is {state}"), ID1, state)
        for operation, more in ROTATION + (("EnableKeyRotation", {"RotationPeriodInDays": 90}), ("ListKeyRotations", {"Marker": "x"}), ("ListKeyRotations", {"Limit": 1, "Marker": "1"})):
            account.ask(operation, {"KeyId": ID1} | more)
        yield account.ask("DescribeKey", {"KeyId": ARN1})
        account = hmac_keys(f"MACs of a symmetric key that is {state}")
        mac = mac_of_hello(account)
        into(account.ask("CreateKey", {}), ID2, state)
        verify(generate(account, ID2), ID2, mac)
        verify(generate(account, ID2, DryRun=True), ID2, mac, DryRun=True)
        yield verify(generate(account, ID2, MacAlgorithm="x"), ID2, "AA==", MacAlgorithm="x")
        account = hmac_keys(f"MACs of an HMAC key that is {state}")
        mac = mac_of_hello(account)
        into(account, ID1, state)
        verify(generate(account, ID1), ID1, mac)
        verify(account, ID1, with_byte(mac, 7, 128))
        yield verify(generate(account, ID1, MacAlgorithm="x"), ID1, mac, MacAlgorithm="x")
    account = of_both_kinds("a key of the other kind stands after who may, tokens and states", {ANN: [own("kms:*", ARN2)], BOB: [own("kms:*")]})
    grant(account)
    mac = mac_of_hello(account)
    asks = [("Encrypt", {"KeyId": ID1, "Plaintext": HELLO}), ("Decrypt", {"CiphertextBlob": account.plant(K1, 1, {}, b"hello")}), ("GenerateDataKey", {"KeyId": ID1, "NumberOfBytes": 5}),
            ("GenerateDataKeyWithoutPlaintext", {"KeyId": ID1, "NumberOfBytes": 5}), ("ReEncrypt", {"CiphertextBlob": account.plant(K1, 1, {}, b"hello"), "DestinationKeyId": ID2}),
            ("GenerateMac", {"KeyId": ID2, "Message": HELLO, "MacAlgorithm": HMAC_SHA_256}), ("VerifyMac", {"KeyId": ID2, "Message": HELLO, "Mac": mac, "MacAlgorithm": HMAC_SHA_256})]
    for state in STATES[:2]:
        for key in (ID1, ID2):
            into(account.by(ROOT), key, state)
        for who in (CAROL, ANN, BOB):
            for operation, body in asks:
                account.by(who).ask(operation, body | {"GrantTokens": [DEAD]}).ask(operation, body | {"GrantTokens": [grant_id(2)]}).ask(operation, body)
    yield account
    account = of_both_kinds("who may not rotate is refused before the kind is looked at", {ANN: [own("kms:*")]})
    for who in (BOB, ANN):
        for operation, more in ROTATION:
            account.by(who).ask(operation, {"KeyId": ID1} | more)
    yield account


# ---- grants


def grants():
    for mine, other in (("VerifyMac", "GenerateMac"), ("GenerateMac", "VerifyMac")):
        account = of_both_kinds(f"a grant for {mine} alone: the context of a request for a MAC is empty")
        for who, constraints in ((ANN, {}), (BOB, EQUALS_NONE), (CAROL, SUBSET_NONE), (DAN, EQUALS_A), (EVE, SUBSET_A)):
            grant(account, grantee=who, operations=[mine], Constraints=constraints)
        grant(account, ID2, grantee=FAY, operations=[mine])
        mac = mac_of_hello(account)
        for who in (ANN, BOB, CAROL, DAN, EVE, FAY, GUS):
            verify(generate(account.by(who), ID1), ID1, mac)
        encrypt(account.by(ANN), ID2).ask("DescribeKey", {"KeyId": ID1})
        yield verify(account, ID1, with_byte(mac, 31, 1)).by(ROOT).ask("ListGrants", {"KeyId": ID1, "Limit": 2})
    account = of_both_kinds("each other grant permits no MAC", {})
    for operation in GRANT_OPERATIONS[:9]:
        grant(account, operations=[operation])
    mac = mac_of_hello(account)
    verify(generate(account.by(ANN), ID1), ID1, mac)
    grant(account.by(ROOT), operations=["GenerateMac", "VerifyMac"])
    yield verify(generate(account.by(ANN), ID1), ID1, mac)
    account = of_both_kinds("grant operations that name MACs stand last, and children may have those of their parents")
    grant(account, operations=["VerifyMac", "CreateGrant", "GenerateMac", "DescribeKey"])
    account.ask("ListGrants", {"KeyId": ID1}).by(ANN)
    for operations in (["VerifyMac"], ["GenerateMac", "VerifyMac"], ["GenerateMac", "Encrypt"], ["VerifyMac", "RetireGrant"]):
        grant(account, grantee=BOB, operations=operations)
    mac = mac_of_hello(account)
    yield verify(account.by(BOB), ID1, mac)
    account = of_both_kinds("names of grants of MACs")
    for operations in (["VerifyMac"], ["VerifyMac", "VerifyMac"], ["GenerateMac"], ["VerifyMac", "GenerateMac"], ["GenerateMac", "VerifyMac"]):
        grant(account, operations=operations, Name="n")
    yield account.ask("ListGrants", {"KeyId": ID1})
    account = of_both_kinds("tokens of GenerateMac and VerifyMac: after who may, before the key's state")
    grant(account, operations=["VerifyMac"])
    grant(account, ID2)
    grant(account)
    account.ask("RetireGrant", {"GrantToken": grant_id(4)})
    mac = mac_of_hello(account)
    live = [grant_id(2), grant_id(3)]
    tokens = ([], live[:1], live, [live[0]] * 10, [DEAD], live + [DEAD], [live[0].upper()], [""], [grant_id(4)], None)
    for state in STATES[:2]:
        into(account.by(ROOT), ID1, state)
        for who in (ROOT, ANN, CAROL):
            for given_tokens in tokens if who == ROOT else tokens[:5]:
                verify(generate(account.by(who), ID1, GrantTokens=given_tokens), ID1, mac, GrantTokens=given_tokens)
    yield account


# ---- what policies are told


def tried(account, callers, mac, keys=(ID1,), algorithms=(HMAC_SHA_256,)):
    for who in callers:
        for key in keys:
            for algorithm in algorithms:
                verify(generate(account.by(who), key, MacAlgorithm=algorithm), key, mac, MacAlgorithm=algorithm)
    return account


def told_to_policies():
    by_algorithm = {"StringEquals": {"kms:MacAlgorithm": HMAC_SHA_256}}
    other_algorithm = {"StringNotEquals": {"kms:MacAlgorithm": HMAC_SHA_256}}
    algorithms = (HMAC_SHA_256, "HMAC_SHA_512", "hmac_sha_256", "")
    account = of_both_kinds("a caller's policy on kms:MacAlgorithm, which is the request's", {
        ANN: [own("kms:*Mac", when=by_algorithm)], BOB: [own("kms:*Mac", when=other_algorithm)], CAROL: [own("kms:*Mac"), own("kms:*", effect="Deny", when=by_algorithm)],
        DAN: [own("kms:*Mac"), own("kms:*", effect="Deny", when=other_algorithm)], EVE: [own("kms:*", when={"Null": {"kms:MacAlgorithm": "true"}})],
        FAY: [own("kms:*", when={"StringEqualsIgnoreCase": {"KMS:macalgorithm": HMAC_SHA_256}})]})
    mac = mac_of_hello(account)
    tried(account, (ANN, BOB, CAROL, DAN, EVE, FAY), mac, algorithms=algorithms)
    encrypt(account.by(EVE), ID2).ask("DescribeKey", {"KeyId": ID1})
    encrypt(account.by(FAY), ID2).ask("DescribeKey", {"KeyId": ID1})
    yield encrypt(account.by(ROOT), ID2)
    account = of_both_kinds("a key policy on kms:MacAlgorithm", {DAN: [own("kms:*Mac")]}, Policy=key_policy(
        statement("kms:VerifyMac", principal=ANN, when=by_algorithm), statement("kms:*Mac", principal=BOB, when=other_algorithm),
        statement("kms:GenerateMac", "Deny", principal="*", when={"StringLike": {"kms:MacAlgorithm": "*_512"}})))
    mac = mac_of_hello(account)
    yield tried(account, (ANN, BOB, DAN, ROOT, CAROL), mac, algorithms=(HMAC_SHA_256, "HMAC_SHA_512"))
    of_hmac = {"StringEquals": {"kms:KeySpec": HMAC_256, "kms:KeyUsage": USAGE[HMAC_256]}}
    of_symmetric = {"StringEquals": {"kms:KeySpec": "SYMMETRIC_DEFAULT", "kms:KeyUsage": "ENCRYPT_DECRYPT"}}
    account = of_both_kinds("callers' policies on kms:KeySpec and kms:KeyUsage, which are the key's", {
        ANN: [own("kms:*", when=of_hmac)], BOB: [own("kms:*", when=of_symmetric)], CAROL: [own("kms:*"), own("kms:*", effect="Deny", when={"StringEquals": {"kms:KeySpec": HMAC_256}})],
        DAN: [own("kms:*"), own("kms:*", effect="Deny", when={"StringNotEquals": {"kms:KeyUsage": USAGE[HMAC_256]}})],
        EVE: [own("kms:*", when={"StringEquals": {"kms:KeySpec": HMAC_256, "kms:KeyUsage": "ENCRYPT_DECRYPT"}})],
        FAY: [own("kms:*", when={"StringEquals": {"kms:KeyOrigin": "AWS_KMS"}, "Bool": {"kms:MultiRegion": "false"}})]})
    mac = mac_of_hello(account)
    for who in (ANN, BOB, CAROL, DAN, EVE, FAY):
        account.by(who).ask("DescribeKey", {"KeyId": ID1}).ask("DescribeKey", {"KeyId": ID2})
        verify(generate(account, ID1), ID1, mac)
        encrypt(account, ID1)
        encrypt(account, ID2)
    yield account
    account = of_both_kinds("a ceiling on kms:KeySpec and kms:MacAlgorithm", ceiling=[document(
        statement("kms:*"), statement("kms:VerifyMac", "Deny", when=by_algorithm), statement("kms:DescribeKey", "Deny", when={"StringEquals": {"kms:KeySpec": HMAC_256}}))])
    mac = mac_of_hello(account)
    verify(account, ID1, mac)
    verify(account, ID1, mac, MacAlgorithm="HMAC_SHA_384")
    yield account.ask("DescribeKey", {"KeyId": ID1}).ask("DescribeKey", {"KeyId": ID2})
    account = of_both_kinds("a MAC is asked for with no context and no algorithm of encryption", {
        ANN: [own("kms:*Mac", when={"Null": {name: "true" for name in ("kms:EncryptionContextKeys", "kms:EncryptionAlgorithm", "kms:RequestAlias", "kms:ReEncryptOnSameKey")}})],
        BOB: [own("kms:*Mac", when={"Null": {"kms:EncryptionAlgorithm": "false"}})], CAROL: [own("kms:*Mac", when={"StringEquals": {"kms:RequestAlias": APP}})],
        DAN: [own("kms:*", when={"Null": {"kms:EncryptionAlgorithm": "false"}})]})
    put(account, APP, ID1)
    mac = mac_of_hello(account)
    tried(account, (ANN, BOB, CAROL), mac, (ID1, APP, alias_arn(APP)))
    for operation, body in (("Encrypt", {"KeyId": ID1, "Plaintext": HELLO}), ("GenerateDataKey", {"KeyId": ID1, "NumberOfBytes": 5}), ("DescribeKey", {"KeyId": ID1})):
        account.by(DAN).ask(operation, body)
    yield account
    yield from told_of_creation()


def told_of_creation():
    asks = [given(KeySpec=spec, CustomerMasterKeySpec=master, KeyUsage=usage) for spec, master, usage in (
        (None, None, None), (HMAC_256, None, USAGE[HMAC_256]), (None, HMAC_256, USAGE[HMAC_256]), (HMAC_256, "SYMMETRIC_DEFAULT", USAGE[HMAC_256]), (HMAC_256, None, None),
        ("SYMMETRIC_DEFAULT", None, "ENCRYPT_DECRYPT"), ("RSA_2048", None, "SIGN_VERIFY"), (None, "RSA_2048", None), ("", None, ""), ("hmac_256", None, "generate_verify_mac"))]
    for what, when in (("HMAC keys", {"StringEquals": {"kms:KeySpec": HMAC_256}}), ("the usage of MACs", {"StringEquals": {"kms:KeyUsage": USAGE[HMAC_256]}}),
                       ("symmetric keys", {"StringEquals": {"kms:KeySpec": "SYMMETRIC_DEFAULT", "kms:KeyUsage": "ENCRYPT_DECRYPT"}}),
                       ("no HMAC keys", {"StringNotEqualsIgnoreCase": {"kms:KeySpec": HMAC_256}}), ("specs of no text", {"StringEquals": {"kms:KeySpec": "", "kms:KeyUsage": ""}}),
                       ("keys of RSA, which aren't made here", {"StringLike": {"kms:KeySpec": "RSA_*"}})):
        account = Whole(f"who may create {what}: kms:KeySpec and kms:KeyUsage are the request's, before they are judged", {ANN: [own("kms:CreateKey", when=when)]}, asked=True).by(ANN)
        for body in asks:
            account.ask("CreateKey", body)
        yield account
    of_hmac = {"StringEquals": {"kms:KeySpec": HMAC_256}}
    policy = document(statement("kms:*", principal=ROOT, when=of_hmac))
    account = Whole("the lockout check is told of the kind of the key that is to be made", asked=True)
    account.ask("CreateKey", {"Policy": policy})
    yield hmac_key(account, Policy=policy).ask("DescribeKey", {"KeyId": ID1}).ask("PutKeyPolicy", {"KeyId": ID1, "Policy": document(statement("kms:*", principal=ROOT, when={
        "StringNotEquals": {"kms:KeyUsage": USAGE[HMAC_256]}}))})


def all_cases():
    for part in (macs, kinds, other_kinds, grants, told_to_policies):
        yield from part()


if __name__ == "__main__":
    write("make_mac_sessions.py", "macs.txt", "HMAC keys: their MACs, what is refused to keys of the other kind, and what grants and policies say of both", all_cases())
