"""Fixtures of a test suite that needs a key management server: each test that asks for one has an account of its own.

    def test_a_key(kms_client):
        assert kms_client.create_key()["KeyMetadata"]["KeyState"] == "Enabled"

`kms` is an account with a server at a free port (served.Account). It is empty at first, and gone after the test. The environment names it,
so that code under test finds it as it finds AWS. `kms_client` is boto3's, of the first caller of the configuration. A suite gives `kms_config`
and `kms_journal` a form of its own, as test_accounts.py does, and each test may.

Copy this file to your tests, and set KMS_LOCAL_HOME to the folder of this repository. KMS_LOCAL names the program, where it isn't to be the
proved build, or, where none stands, that which tools/built.py compiles without proof."""

import os
import pathlib
import sys

import pytest

HOME = pathlib.Path(os.environ.get("KMS_LOCAL_HOME", pathlib.Path(__file__).resolve().parent.parent.parent))
sys.path.append(str(HOME / "tools"))
import built
import explaining
import served


@pytest.fixture(scope="session")
def kms_program():
    """The program that serves."""
    return built.chosen(program=os.environ.get("KMS_LOCAL", built.PROGRAM))


@pytest.fixture
def kms_config():
    """The configuration: the account, its callers and their policies."""
    return built.CONFIG


@pytest.fixture
def kms_journal():
    """The journal that the account begins with, where it isn't empty."""
    return None


@pytest.fixture
def kms(kms_program, kms_config, kms_journal, monkeypatch):
    """An account of the test's own, with its server."""
    with served.Account(kms_program, kms_config, kms_journal) as account:
        for name in ("AWS_PROFILE", "AWS_SESSION_TOKEN"):
            monkeypatch.delenv(name, raising=False)
        for name, value in account.environment().items():
            monkeypatch.setenv(name, value)
        yield account


@pytest.fixture
def kms_client(kms):
    """A client of boto3, as the first caller of the configuration."""
    return kms.client()


@pytest.fixture
def kms_why(kms):
    """What `explain` says of a request of a caller. The server is ended for it, so nothing is asked of it behind that."""
    return lambda caller, operation, **members: explaining.of_account(kms, caller, operation, members)
