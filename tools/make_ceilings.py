"""Writes crates/worked_cases/data/ceilings.txt: python3 -B tools/make_ceilings.py

Each case is asked of the account in plain Python of whole_account.py, which answers it.
"""

from whole_cases import *

ALL = own("kms:*")
CONTEXT = "kms:EncryptionContext:env"


def ceiling_of(*statements):
    return document(*statements)


def retire(account, token):
    return account.ask("RetireGrant", {"GrantToken": token})


def refusals():
    account = asked("a ceiling that denies one action stops the root too", ceiling=[ceiling_of(statement("kms:*"), statement("kms:ScheduleKeyDeletion", "Deny"))])
    account.ask("DescribeKey", {"KeyId": ID1})
    schedule(account, ID1)
    yield account.ask("DisableKey", {"KeyId": ID1})
    account = asked("what no document of the ceiling allows is stopped: a grantee's Decrypt, and not RetireGrant",
                    ceiling=[own(["kms:CreateKey", "kms:CreateGrant", "kms:DescribeKey"])])
    grant(account)
    token = told_grant(account)
    blob = Whole("", asked=True).ask("CreateKey", {}).ask("Encrypt", {"KeyId": ID1, "Plaintext": HELLO}).blob()
    decrypt(account.by(ANN), blob)
    account.by(ROOT).ask("DescribeKey", {"KeyId": ID1})
    yield retire(account, token)
    account = asked("a ceiling that doesn't allow CreateKey", count=0, ceiling=[own("kms:List*")])
    account.ask("CreateKey", {})
    account.ask("ListKeys", {})
    yield account.ask("ListAliases", {})
    account = asked("a ceiling allows nothing by itself", policies={ANN: [own("kms:DescribeKey")]}, ceiling=[ALL])
    for who in (ANN, BOB):
        account.by(who).ask("DescribeKey", {"KeyId": ID1})
        account.ask("DisableKey", {"KeyId": ID1})
        account.ask("ListKeys", {})
    yield account


def documents():
    account = asked("an Allow by NotAction", ceiling=[document({"Effect": "Allow", "NotAction": ["kms:Disable*", "kms:Schedule*"], "Resource": "*"})])
    account.ask("DisableKey", {"KeyId": ID1})
    schedule(account, ID1)
    yield account.ask("EnableKey", {"KeyId": ID1})
    account = asked("two documents, of which one is silent", ceiling=[own("kms:CreateKey"), own("kms:DescribeKey")])
    account.ask("DescribeKey", {"KeyId": ID1})
    account.ask("CreateKey", {})
    yield account.ask("ListKeys", {})
    account = asked("two documents, of which the second denies", count=0, ceiling=[ALL, own("kms:CreateKey", effect="Deny")])
    account.ask("CreateKey", {})
    yield account.ask("ListKeys", {})
    account = asked("two documents, of which the first denies what the second allows", count=0, ceiling=[own("kms:CreateKey", effect="Deny"), ALL])
    yield account.ask("CreateKey", {})
    account = asked("a document that only denies allows nothing", count=0, ceiling=[own("kms:ListKeys", effect="Deny")])
    account.ask("CreateKey", {})
    yield account.ask("ListKeys", {})
    account = asked("resources of a ceiling", count=2, ceiling=[document(statement("kms:*", resource="*"), statement("kms:*", "Deny", ARN2))])
    for key in (ID1, ID2):
        account.ask("DescribeKey", {"KeyId": key})
        account.ask("DisableKey", {"KeyId": key})
    yield account


def conditions():
    deny = statement("kms:Encrypt", "Deny", when={"StringEquals": {CONTEXT: "prod"}})
    account = asked("a Deny on a member of the encryption context", ceiling=[document(statement("kms:*"), deny)])
    for context in ({"env": "prod"}, {"env": "dev"}, {}):
        encrypt(account, ID1, EncryptionContext=context)
    yield account
    but_ann = statement("kms:DisableKey", "Deny", when={"StringNotEquals": {"aws:PrincipalArn": ANN}})
    account = asked("a Deny for everyone but one", policies={ANN: [ALL], BOB: [ALL]}, ceiling=[document(statement("kms:*"), but_ann)])
    for who in (ROOT, BOB, ANN):
        account.by(who).ask("DisableKey", {"KeyId": ID1})
    yield account
    named = statement("kms:Encrypt", "Deny", when={"ForAnyValue:StringEquals": {"kms:ResourceAliases": "alias/old"}})
    account = asked("a Deny on the aliases of a key", count=2, ceiling=[document(statement("kms:*"), named)])
    put(account, "alias/old", ID1)
    put(account, APP, ID2)
    encrypt(account, ID1)
    encrypt(account, ID2)
    yield encrypt(account, "alias/old")
    for hours, what in ((["08", "09"], "outside of"), (["08", "22"], "within")):
        outside = statement("*", "Deny", when={"StringNotLike": {"aws:CurrentTime": [f"*T{hour}:*" for hour in hours]}})
        account = asked(f"a Deny outside of some hours of the day, {what} them", count=0, ceiling=[document(statement("kms:*"), outside)])
        yield account.ask("CreateKey", {}).ask("ListKeys", {})
    elsewhere = [statement("*", "Deny", when={"StringNotEquals": {"aws:RequestedRegion": region}}) for region in (["us-east-1", "eu-west-1"], "eu-west-1")]
    for denied, what in zip(elsewhere, ("the service's among them", "the service's not among them")):
        yield asked(f"a Deny outside of some regions, {what}", count=0, ceiling=[document(statement("kms:*"), denied)]).ask("CreateKey", {}).ask("ListKeys", {})


def second_questions():
    account = asked("ReEncrypt is stopped at its second question", count=2, ceiling=[document(statement("kms:*"), statement("kms:ReEncryptTo", "Deny", ARN2))])
    encrypt(account, ID1)
    blob = account.blob()
    account.ask("ReEncrypt", {"CiphertextBlob": blob, "DestinationKeyId": ID2})
    yield account.ask("ReEncrypt", {"CiphertextBlob": blob, "DestinationKeyId": ID1})
    account = asked("alias calls are stopped on the alias and on each key", count=2,
                    ceiling=[document(statement("kms:*"), statement("kms:*Alias", "Deny", [alias_arn("alias/shut"), ARN2]))])
    put(account, "alias/shut", ID1)
    put(account, APP, ID2)
    put(account, APP, ID1)
    account.ask("UpdateAlias", {"AliasName": APP, "TargetKeyId": ID2})
    account.ask("UpdateAlias", {"AliasName": APP, "TargetKeyId": ID1})
    yield account.ask("DeleteAlias", {"AliasName": APP})


def lockouts():
    policy = key_policy()
    account = asked("the lockout check under a ceiling without PutKeyPolicy", count=0, ceiling=[own(["kms:CreateKey", "kms:Get*"])])
    account.ask("CreateKey", {"Policy": policy})
    account.ask("CreateKey", {"Policy": policy, "BypassPolicyLockoutSafetyCheck": True})
    account.ask("CreateKey", {})
    yield account.ask("PutKeyPolicy", {"KeyId": ID1, "Policy": policy})
    account = asked("RetireGrant is asked neither of statements nor of a ceiling that denies everything else",
                    ceiling=[document(statement(["kms:CreateKey", "kms:CreateGrant"]), statement("kms:RetireGrant", "Deny"))])
    grant(account, RetiringPrincipal=BOB)
    token = told_grant(account)
    retire(account.by(CAROL), token)
    yield retire(account.by(BOB), token)


if __name__ == "__main__":
    write("make_ceilings.py", "ceilings.txt", "The account's ceiling: what it stops, whoever asks",
          [case for part in (refusals, documents, conditions, second_questions, lockouts) for case in part()])
