"""What a suite does with the fixtures of conftest.py: aliases, policies, grants, known keys, and a denial that is wanted, with what decided it."""

import json
import os
import subprocess

import boto3
import pytest
from botocore.exceptions import ClientError

ROOT, ANN = "arn:aws:iam::111122223333:root", "arn:aws:iam::111122223333:user/ann"
ORDERS = "10284733-057c-2825-aeb4-000000000000"  # the key of examples/seeded, and the first one of an empty account too
SEEDED = os.path.join(os.path.dirname(__file__), "..", "seeded", "journal")
TEXT, CONTEXT = b"the text that is encrypted", {"department": "payroll"}


@pytest.fixture
def key(kms_client):
    """A key, whose id is the same in each test."""
    return kms_client.create_key()["KeyMetadata"]["KeyId"]


@pytest.fixture
def ann(kms):
    """The client of a caller who may describe keys."""
    return kms.client(ANN)


def refusal(call, **members):
    """The name and the text by which a call is refused."""
    with pytest.raises(ClientError) as found:
        call(**members)
    return found.value.response["Error"]["Code"], found.value.response["Error"]["Message"]


@pytest.mark.parametrize("turn", [1, 2])
def test_an_account_is_empty_at_first(kms_client, turn):
    assert kms_client.list_keys()["Keys"] == []
    assert kms_client.create_key()["KeyMetadata"]["KeyId"] == ORDERS


def test_an_alias_follows_its_key(kms_client, key):
    kms_client.create_alias(AliasName="alias/orders", TargetKeyId=key)
    blob = kms_client.encrypt(KeyId="alias/orders", Plaintext=TEXT)["CiphertextBlob"]
    kms_client.update_alias(AliasName="alias/orders", TargetKeyId=kms_client.create_key()["KeyMetadata"]["KeyId"])
    assert kms_client.decrypt(CiphertextBlob=blob)["Plaintext"] == TEXT
    assert refusal(kms_client.decrypt, CiphertextBlob=blob, KeyId="alias/orders")[0] == "IncorrectKeyException"


def test_a_policy_lets_ann_encrypt(kms_client, key, ann):
    assert refusal(ann.encrypt, KeyId=key, Plaintext=TEXT)[0] == "AccessDeniedException"
    allow = {"Effect": "Allow", "Action": "kms:*", "Resource": "*", "Principal": {"AWS": ROOT}}
    policy = {"Version": "2012-10-17", "Statement": [allow, allow | {"Action": "kms:Encrypt", "Principal": {"AWS": ANN}}]}
    kms_client.put_key_policy(KeyId=key, PolicyName="default", Policy=json.dumps(policy))
    assert ann.encrypt(KeyId=key, Plaintext=TEXT)["KeyId"].endswith(key)


def test_a_grant_of_a_context(kms_client, key, ann):
    grant = {"GranteePrincipal": ANN, "Operations": ["Encrypt", "Decrypt"], "Constraints": {"EncryptionContextEquals": CONTEXT}}
    made = kms_client.create_grant(KeyId=key, **grant)["GrantId"]
    blob = ann.encrypt(KeyId=key, Plaintext=TEXT, EncryptionContext=CONTEXT)["CiphertextBlob"]
    assert ann.decrypt(CiphertextBlob=blob, EncryptionContext=CONTEXT)["Plaintext"] == TEXT
    kms_client.revoke_grant(KeyId=key, GrantId=made)
    assert refusal(ann.decrypt, CiphertextBlob=blob, EncryptionContext=CONTEXT)[0] == "AccessDeniedException"


def test_a_denial_is_explained(kms_client, key, ann, kms_why):
    kms_client.create_grant(KeyId=key, GranteePrincipal=ANN, Operations=["Encrypt"], Constraints={"EncryptionContextSubset": CONTEXT})
    name, text = refusal(ann.encrypt, KeyId=key, Plaintext=TEXT)
    assert name == "AccessDeniedException" and text.startswith(f"User: {ANN} is not authorized to perform: kms:Encrypt on resource: ")
    why = kms_why(ANN, "Encrypt", KeyId=key, Plaintext=TEXT)
    question, = why["questions"]
    assert (why["decision"], question["by"]) == ("Denied", "nothing")
    assert question["marks"] == "T/A//C"  # the key leaves it to ann's own policies, whose actions are others; the grant asks for its context


@pytest.mark.parametrize("kms_journal", [SEEDED])
def test_keys_that_are_there_from_the_start(kms_client, ann):
    assert kms_client.describe_key(KeyId="alias/orders")["KeyMetadata"]["KeyId"] == ORDERS
    assert ann.decrypt(CiphertextBlob=ann.encrypt(KeyId=ORDERS, Plaintext=TEXT)["CiphertextBlob"])["Plaintext"] == TEXT


def test_code_under_test_finds_the_server(kms):
    found = boto3.client("kms", endpoint_url=os.environ["AWS_ENDPOINT_URL_KMS"])  # newer clients find it by themselves
    assert len(found.generate_random(NumberOfBytes=16)["Plaintext"]) == 16


class TestOfAnotherConfiguration:
    """Tests whose account has a caller more."""

    @pytest.fixture
    def kms_config(self, kms_config, tmp_path):
        with open(kms_config, encoding="utf-8") as file:
            settings = json.load(file)
        settings["credentials"].append({"accessKeyId": "AKIDBOB", "secret": "a/secret+of+bob", "principal": "arn:aws:iam::111122223333:user/bob"})
        (tmp_path / "config.json").write_text(json.dumps(settings), encoding="utf-8")
        return tmp_path / "config.json"

    def test_a_caller_without_policies(self, kms, key):
        assert refusal(kms.client("AKIDBOB").describe_key, KeyId=key)[0] == "AccessDeniedException"


def test_nothing_is_left(kms_program):
    import served

    with served.Account(kms_program) as account:
        process, folder = account.process.pid, account.folder.name
        assert os.path.exists(folder) and os.path.exists(f"/proc/{process}")
    assert not os.path.exists(folder) and not os.path.exists(f"/proc/{process}")
