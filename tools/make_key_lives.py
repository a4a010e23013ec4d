"""Writes crates/worked_cases/data/key_states.txt and rotation.txt: python3 tools/make_key_lives.py

An account in plain Python answers each request: its keys with their states, versions and dates (AWS KMS Developer Guide, "Key
states of AWS KMS keys", "Rotate AWS KMS keys", "Delete an AWS KMS key"). Ids by Python's hmac, sealed texts by its package
cryptography (AESGCM), replies' texts by its package json, dates by its email.utils.
"""

import base64
import hashlib
import hmac
import json
import uuid
from email.utils import formatdate
from pathlib import Path

import blobs

DATA = Path(__file__).resolve().parent.parent / "crates/worked_cases/data"
ROOT_SECRET = bytes(32)
ACCOUNT = "111122223333"
ROOT = f"arn:aws:iam::{ACCOUNT}:root"
START = 1700000000
DAY = 86400


def mac(text):
    return hmac.new(ROOT_SECRET, text, hashlib.sha256).digest()


def key_id(place, boot=1):
    return mac(b"key" + boot.to_bytes(4, "big") + place.to_bytes(6, "big"))[:10] + place.to_bytes(6, "big")


def printed(key):
    return str(uuid.UUID(bytes=key))


def arn(key):
    return f"arn:aws:kms:us-east-1:{ACCOUNT}:key/{printed(key)}"


def encoded(context):
    pairs = sorted((k.encode(), v.encode()) for k, v in context.items())
    return b"".join(len(t).to_bytes(4, "big") + t for pair in pairs for t in pair)


def seal(key, version, count, context, text, form=2, boot=1):
    iv = boot.to_bytes(4, "big") + (1).to_bytes(2, "big") + count.to_bytes(6, "big")
    return blobs.sealed(ROOT_SECRET, key, version, iv, encoded(context), text, form)


def b64(data):
    return base64.b64encode(data).decode()


class Refused(Exception):
    def __init__(self, name, message, status=400):
        super().__init__(name)
        self.name, self.message, self.status = name, message, status


NEEDS_ENABLED = {"Encrypt", "Decrypt", "ReEncrypt", "GenerateDataKey", "GenerateDataKeyWithoutPlaintext", "EnableKeyRotation",
                 "DisableKeyRotation", "RotateKeyOnDemand"}
NEEDS_KEPT = {"EnableKey", "DisableKey", "ScheduleKeyDeletion", "UpdateKeyDescription"}
SYMMETRIC = "SYMMETRIC_DEFAULT"


class Account:
    """One session of the account, of which each request is asked in turn."""

    boot = 1

    def __init__(self, what):
        self.lines = [f"case {what}"]
        self.keys, self.front, self.latest, self.ivs, self.blobs = [], 0, 0, 0, {}
        self.now = START
        self.said = []

    def at(self, second):
        self.now = second
        return self

    # ---- the keys

    def moment(self):
        return max(self.now, self.latest)

    def gone(self, key):
        return key["state"] == "PendingDeletion" and key["date"] <= self.moment()

    def key(self, reference, missing=None):
        for key in self.keys:
            if reference in (printed(key["id"]), arn(key["id"]), printed(key["id"]).upper()) and not self.gone(key):
                return key
        raise Refused("NotFoundException", "Not found: key.")

    def house(self):
        moment = self.moment()
        due = [k for k in self.keys if k["state"] == "Enabled" and k["period"] and k["next"] <= moment]
        if due or any(self.gone(k) for k in self.keys):
            self.keys = [k for k in self.keys if not self.gone(k)]
            for key in due:
                key["versions"].append((moment, "AUTOMATIC"))
                key["next"] = moment + key["period"] * DAY
            self.append()

    def append(self):
        self.front += 1
        self.latest = self.moment()

    def fit(self, operation, key):
        state = key["state"]
        if operation in NEEDS_ENABLED and state == "Disabled":
            raise Refused("DisabledException", f"{arn(key['id'])} is disabled.")
        wrong = (operation in NEEDS_ENABLED | NEEDS_KEPT and state == "PendingDeletion") or (
            operation == "CancelKeyDeletion" and state != "PendingDeletion")
        if wrong:
            raise Refused("KMSInvalidStateException", f"{arn(key['id'])} is {state}.")

    def metadata(self, key):
        said = {"AWSAccountId": ACCOUNT, "Arn": arn(key["id"]), "CreationDate": key["made"],
                "CustomerMasterKeySpec": key["spec"], "Description": key["description"], "Enabled": key["state"] == "Enabled",
                "KeyId": printed(key["id"]), "KeyManager": "CUSTOMER", "KeySpec": key["spec"], "KeyState": key["state"], "MultiRegion": False,
                "Origin": "AWS_KMS"}
        if key["spec"] == SYMMETRIC:
            said |= {"EncryptionAlgorithms": [SYMMETRIC], "KeyUsage": "ENCRYPT_DECRYPT"}
        else:
            said |= {"MacAlgorithms": ["HMAC_SHA_256"], "KeyUsage": "GENERATE_VERIFY_MAC"}
        if key["state"] == "PendingDeletion":
            said["DeletionDate"] = key["date"]
        return {"KeyMetadata": said}

    # ---- requests

    def ask(self, operation, body, after=None):
        changes = operation in CHANGES
        if changes:
            self.house()
        try:
            reply = getattr(self, operation)(body)
            said = f"< 200 {self.front} {json.dumps(reply, separators=(',', ':'), sort_keys=True, ensure_ascii=False)}"
        except Refused as why:
            said = f"< {why.status} {why.name} {self.front} {why.message}"
        self.said.append((self.now, f"> {operation} {json.dumps(body, separators=(',', ':'), ensure_ascii=False)}", said))
        return self

    def CreateKey(self, body):
        key = {"id": key_id(self.front, self.boot), "spec": SYMMETRIC, "made": self.moment(), "description": body.get("Description", ""), "state": "Enabled",
               "date": None, "versions": [(self.moment(), None)], "period": None, "next": 0, "on_demand": 0}
        self.append()
        self.keys.append(key)
        return self.metadata(key)

    def DescribeKey(self, body):
        return self.metadata(self.key(body["KeyId"]))

    def change(self, operation, body):
        key = self.key(body["KeyId"])
        self.fit(operation, key)
        return key

    def EnableKey(self, body):
        key = self.change("EnableKey", body)
        if key["state"] != "Enabled":
            self.append()
            key["state"] = "Enabled"
        return {}

    def DisableKey(self, body):
        key = self.change("DisableKey", body)
        if key["state"] != "Disabled":
            self.append()
            key["state"] = "Disabled"
        return {}

    def ScheduleKeyDeletion(self, body):
        key = self.change("ScheduleKeyDeletion", body)
        days = body.get("PendingWindowInDays", 30)
        self.append()
        key["state"], key["date"] = "PendingDeletion", self.latest + days * DAY
        return {"DeletionDate": key["date"], "KeyId": arn(key["id"]), "KeyState": "PendingDeletion", "PendingWindowInDays": days}

    def CancelKeyDeletion(self, body):
        key = self.change("CancelKeyDeletion", body)
        self.append()
        key["state"], key["date"] = "Disabled", None
        return {"KeyId": arn(key["id"])}

    def UpdateKeyDescription(self, body):
        key = self.change("UpdateKeyDescription", body)
        self.append()
        key["description"] = body["Description"]
        return {}

    def EnableKeyRotation(self, body):
        key = self.change("EnableKeyRotation", body)
        period = body.get("RotationPeriodInDays", 365)
        if key["period"] != period:
            self.append()
            key["period"], key["next"] = period, self.latest + period * DAY
        return {}

    def DisableKeyRotation(self, body):
        key = self.change("DisableKeyRotation", body)
        if key["period"]:
            self.append()
            key["period"] = None
        return {}

    def RotateKeyOnDemand(self, body):
        key = self.change("RotateKeyOnDemand", body)
        if key["on_demand"] == 10:
            raise Refused("LimitExceededException", "Limit reached: rotations.")
        self.append()
        key["versions"].append((self.latest, "ON_DEMAND"))
        key["on_demand"] += 1
        return {"KeyId": printed(key["id"])}

    def GetKeyRotationStatus(self, body):
        key = self.key(body["KeyId"])
        said = {"KeyId": printed(key["id"]), "KeyRotationEnabled": key["period"] is not None}
        if key["period"]:
            said |= {"NextRotationDate": key["next"], "RotationPeriodInDays": key["period"]}
        return said

    def GetKeyPolicy(self, body):
        self.key(body["KeyId"])
        statement = {"Sid": "Enable IAM User Permissions", "Effect": "Allow", "Principal": {"AWS": ROOT}, "Action": "kms:*", "Resource": "*"}
        text = {"Version": "2012-10-17", "Id": "key-default-1", "Statement": [statement]}
        return {"Policy": json.dumps(text, separators=(",", ":")), "PolicyName": "default"}

    def PutKeyPolicy(self, body):
        self.key(body["KeyId"])
        self.append()
        return {}

    def sealed(self, key, context, text):
        blob = seal(key["id"], len(key["versions"]), self.ivs, context, text, boot=self.boot)
        self.ivs += 1
        self.blobs[b64(blob)] = (key["id"], len(key["versions"]), context, text)
        return b64(blob)

    def Encrypt(self, body):
        key = self.change("Encrypt", body)
        if body.get("DryRun"):
            raise Refused("DryRunOperationException", "The call would have been allowed.", 412)
        blob = self.sealed(key, body.get("EncryptionContext", {}), base64.b64decode(body["Plaintext"]))
        return {"CiphertextBlob": blob, "EncryptionAlgorithm": "SYMMETRIC_DEFAULT", "KeyId": arn(key["id"])}

    def GenerateDataKey(self, body):
        self.change("GenerateDataKey", body)
        raise NotImplementedError("a data key is asked for only where it is refused")

    def GenerateDataKeyWithoutPlaintext(self, body):
        self.change("GenerateDataKeyWithoutPlaintext", body)
        raise NotImplementedError("a data key is asked for only where it is refused")

    def opened(self, operation, action, blob, context):
        raw = base64.b64decode(blob)
        held = [k for k in self.keys if k["id"] == raw[1:17] and not self.gone(k)]
        if not held:
            who = f"User: {ROOT} is not authorized to perform: kms:{action} on resource: {arn(raw[1:17])}"
            raise Refused("AccessDeniedException", who)
        return held[0], raw

    def text_of(self, key, blob, context):
        made = self.blobs.get(blob)
        if made is None or made[1] > len(key["versions"]) or made[2] != context:
            raise Refused("InvalidCiphertextException", "The ciphertext does not open.")
        return made[3]

    def Decrypt(self, body):
        key, _ = self.opened("Decrypt", "Decrypt", body["CiphertextBlob"], body.get("EncryptionContext", {}))
        self.fit("Decrypt", key)
        text = self.text_of(key, body["CiphertextBlob"], body.get("EncryptionContext", {}))
        return {"EncryptionAlgorithm": "SYMMETRIC_DEFAULT", "KeyId": arn(key["id"]), "Plaintext": b64(text)}

    def ReEncrypt(self, body):
        source, _ = self.opened("ReEncrypt", "ReEncryptFrom", body["CiphertextBlob"], {})
        key = self.key(body["DestinationKeyId"])
        self.fit("ReEncrypt", source)
        self.fit("ReEncrypt", key)
        text = self.text_of(source, body["CiphertextBlob"], {})
        return {"CiphertextBlob": self.sealed(key, {}, text), "DestinationEncryptionAlgorithm": "SYMMETRIC_DEFAULT",
                "KeyId": arn(key["id"]), "SourceEncryptionAlgorithm": "SYMMETRIC_DEFAULT", "SourceKeyId": arn(source["id"])}

    def blob(self, k=-1):
        return list(self.blobs)[k]

    def plant(self, key, version, context, text, form=2):
        """A blob that no request of the session made, as if by a pass that drew the vector 65,535."""
        blob = b64(seal(key, version, 65535, context, text, form))
        self.blobs[blob] = (key, version, context, text)
        return blob

    def script(self):
        lines, last = list(self.lines), None
        for second, _, _ in self.said:
            lines.append(f"clock {second} {formatdate(second, usegmt=True)}")
        while len(lines) > 2 and lines[-1] == lines[-2]:
            lines.pop()
        for _, request, reply in self.said:
            lines += [request, reply]
        return "\n".join(lines + ["end Ended"])


CHANGES = {"CreateKey", "EnableKey", "DisableKey", "ScheduleKeyDeletion", "CancelKeyDeletion", "UpdateKeyDescription",
           "EnableKeyRotation", "DisableKeyRotation", "RotateKeyOnDemand", "PutKeyPolicy"}
K1, K2 = key_id(0), key_id(1)
ID1, ID2 = printed(K1), printed(K2)
HELLO = b64(b"hello")
POLICY = '{"Statement":{"Effect":"Allow","Principal":{"AWS":"%s"},"Action":"kms:*","Resource":"*"}}' % ROOT


def two_keys(what):
    return Account(what).ask("CreateKey", {}).ask("CreateKey", {})


def into(account, state):
    """Brings the first key into a state."""
    if state == "Disabled":
        account.ask("DisableKey", {"KeyId": ID1})
    if state == "PendingDeletion":
        account.ask("ScheduleKeyDeletion", {"KeyId": ID1, "PendingWindowInDays": 7})
    return account


def table():
    """Each operation in each state."""
    for state in ("Enabled", "Disabled", "PendingDeletion"):
        account = two_keys(f"what a key that is {state} serves without change")
        account.ask("Encrypt", {"KeyId": ID1, "Plaintext": HELLO}).ask("Encrypt", {"KeyId": ID2, "Plaintext": HELLO})
        first, second = account.blob(0), account.blob(1)
        into(account, state)
        for operation in ("DescribeKey", "GetKeyPolicy", "GetKeyRotationStatus"):
            account.ask(operation, {"KeyId": ID1})
        account.ask("Encrypt", {"KeyId": ID1, "Plaintext": HELLO}).ask("Encrypt", {"KeyId": ID1, "Plaintext": HELLO, "DryRun": True})
        account.ask("Decrypt", {"CiphertextBlob": first})
        account.ask("ReEncrypt", {"CiphertextBlob": first, "DestinationKeyId": ID2})
        account.ask("ReEncrypt", {"CiphertextBlob": second, "DestinationKeyId": ID1})
        if state != "Enabled":
            account.ask("GenerateDataKey", {"KeyId": ID1, "KeySpec": "AES_256"})
            account.ask("GenerateDataKeyWithoutPlaintext", {"KeyId": ID1, "KeySpec": "AES_256"})
        account.ask("PutKeyPolicy", {"KeyId": ID1, "Policy": POLICY})
        account.ask("DescribeKey", {"KeyId": ID1})
        yield account
        for operation, more in (("EnableKey", {}), ("DisableKey", {}), ("ScheduleKeyDeletion", {}), ("CancelKeyDeletion", {}),
                                ("UpdateKeyDescription", {"Description": "é"}), ("EnableKeyRotation", {}), ("DisableKeyRotation", {}),
                                ("RotateKeyOnDemand", {})):
            account = into(two_keys(f"{operation} of a key that is {state}"), state)
            account.ask(operation, {"KeyId": ID1} | more).ask("DescribeKey", {"KeyId": ID1})
            account.ask("GetKeyRotationStatus", {"KeyId": ID1}).ask("DescribeKey", {"KeyId": ID2})
            yield account


def key_states():
    yield from table()
    yield (Account("a key is gone on its date, and stays gone where the clock goes back")
           .ask("CreateKey", {}).ask("ScheduleKeyDeletion", {"KeyId": ID1, "PendingWindowInDays": 7})
           .at(START + 7 * DAY - 1).ask("DescribeKey", {"KeyId": ID1})
           .at(START + 7 * DAY).ask("DescribeKey", {"KeyId": ID1}).ask("CreateKey", {})
           .at(START + 6 * DAY).ask("DescribeKey", {"KeyId": ID1}).ask("DescribeKey", {"KeyId": printed(key_id(3))}))
    account = two_keys("a key that is gone counts as absent before it is removed")
    account.ask("Encrypt", {"KeyId": ID1, "Plaintext": HELLO}).ask("Encrypt", {"KeyId": ID2, "Plaintext": HELLO})
    first, second = account.blob(0), account.blob(1)
    account.ask("ScheduleKeyDeletion", {"KeyId": ID1, "PendingWindowInDays": 7}).at(START + 7 * DAY)
    for operation in ("DescribeKey", "GetKeyPolicy", "GetKeyRotationStatus"):
        account.ask(operation, {"KeyId": ID1})
    account.ask("Encrypt", {"KeyId": arn(K1), "Plaintext": HELLO}).ask("Decrypt", {"CiphertextBlob": first})
    account.ask("ReEncrypt", {"CiphertextBlob": first, "DestinationKeyId": ID2})
    account.ask("ReEncrypt", {"CiphertextBlob": second, "DestinationKeyId": ID1})
    account.ask("Encrypt", {"KeyId": ID2, "Plaintext": HELLO}).ask("DescribeKey", {"KeyId": ID2})
    yield account
    for operation, more in (("EnableKey", {}), ("DisableKey", {}), ("ScheduleKeyDeletion", {}), ("CancelKeyDeletion", {}),
                            ("UpdateKeyDescription", {"Description": ""}), ("EnableKeyRotation", {}), ("DisableKeyRotation", {}),
                            ("RotateKeyOnDemand", {}), ("PutKeyPolicy", {"Policy": POLICY})):
        yield (two_keys(f"{operation} of a key that is gone is refused, and the key is removed all the same")
               .ask("ScheduleKeyDeletion", {"KeyId": ID1, "PendingWindowInDays": 7})
               .at(START + 7 * DAY).ask(operation, {"KeyId": ID1} | more).ask(operation, {"KeyId": ID1} | more)
               .ask("DescribeKey", {"KeyId": ID2}))
    yield (Account("a deletion is cancelled, which leaves the key disabled")
           .ask("CreateKey", {}).ask("Encrypt", {"KeyId": ID1, "Plaintext": HELLO})
           .ask("ScheduleKeyDeletion", {"KeyId": ID1}).ask("CancelKeyDeletion", {"KeyId": arn(K1)}).ask("DescribeKey", {"KeyId": ID1})
           .ask("Encrypt", {"KeyId": ID1, "Plaintext": HELLO}).ask("EnableKey", {"KeyId": ID1})
           .ask("Encrypt", {"KeyId": ID1, "Plaintext": HELLO}).at(START + 40 * DAY).ask("DescribeKey", {"KeyId": ID1}))
    account = Account("two keys are gone at once, and one entry removes them")
    for _ in range(3):
        account.ask("CreateKey", {})
    account.ask("ScheduleKeyDeletion", {"KeyId": ID1, "PendingWindowInDays": 7}).ask("ScheduleKeyDeletion", {"KeyId": ID2, "PendingWindowInDays": 8})
    account.at(START + 8 * DAY).ask("EnableKey", {"KeyId": printed(key_id(2))}).ask("DescribeKey", {"KeyId": ID2})
    account.ask("DescribeKey", {"KeyId": printed(key_id(2))}).ask("EnableKey", {"KeyId": printed(key_id(2))})
    yield account
    account = Account("a description is replaced, by an equal one too")
    account.ask("CreateKey", {"Description": "first"}).ask("UpdateKeyDescription", {"KeyId": ID1, "Description": "second"})
    account.ask("UpdateKeyDescription", {"KeyId": ID1, "Description": "second"}).ask("UpdateKeyDescription", {"KeyId": ID1, "Description": ""})
    yield account.ask("DescribeKey", {"KeyId": ID1})
    account = Account("deletion dates count from the moment, and the window is 30 days where none is given")
    account.ask("CreateKey", {}).at(START - 1000).ask("ScheduleKeyDeletion", {"KeyId": ID1})
    yield account.ask("DescribeKey", {"KeyId": ID1})


def rotation():
    account = Account("each rotation has its own version, each text opens by its own, and the eleventh rotation is too many")
    account.ask("CreateKey", {}).ask("Encrypt", {"KeyId": ID1, "Plaintext": HELLO}).ask("RotateKeyOnDemand", {"KeyId": ID1})
    account.ask("Encrypt", {"KeyId": ID1, "Plaintext": HELLO})
    for blob in list(account.blobs):
        account.ask("Decrypt", {"CiphertextBlob": blob})
    for _ in range(10):
        account.ask("RotateKeyOnDemand", {"KeyId": ID1})
    account.ask("Encrypt", {"KeyId": ID1, "Plaintext": HELLO})
    for blob in list(account.blobs):
        account.ask("Decrypt", {"CiphertextBlob": blob})
    yield account.ask("RotateKeyOnDemand", {"KeyId": ID1})
    account = Account("a version that the key doesn't have yet doesn't open")
    account.ask("CreateKey", {})
    second = account.plant(K1, 2, {}, b"early")
    account.ask("Decrypt", {"CiphertextBlob": second}).ask("RotateKeyOnDemand", {"KeyId": ID1}).ask("Decrypt", {"CiphertextBlob": second})
    yield account
    account = two_keys("a text is sealed anew under the newest version")
    account.ask("Encrypt", {"KeyId": ID1, "Plaintext": HELLO}).ask("RotateKeyOnDemand", {"KeyId": ID1})
    account.ask("ReEncrypt", {"CiphertextBlob": account.blob(), "DestinationKeyId": ID1})
    account.ask("Decrypt", {"CiphertextBlob": account.blob()}).ask("ReEncrypt", {"CiphertextBlob": account.blob(), "DestinationKeyId": ID2})
    yield account.ask("Decrypt", {"CiphertextBlob": account.blob()})
    days = 90
    account = Account("an automatic rotation is done by the next change from its date on, once however many periods have passed")
    account.ask("CreateKey", {}).ask("EnableKeyRotation", {"KeyId": ID1, "RotationPeriodInDays": days}).ask("GetKeyRotationStatus", {"KeyId": ID1})
    account.at(START + 89 * DAY).ask("EnableKey", {"KeyId": ID1}).ask("Encrypt", {"KeyId": ID1, "Plaintext": HELLO})
    account.at(START + 90 * DAY - 1).ask("EnableKey", {"KeyId": ID1})
    account.at(START + 90 * DAY).ask("Encrypt", {"KeyId": ID1, "Plaintext": HELLO}).ask("EnableKey", {"KeyId": ID1})
    account.ask("GetKeyRotationStatus", {"KeyId": ID1}).ask("EnableKey", {"KeyId": ID1}).ask("Encrypt", {"KeyId": ID1, "Plaintext": HELLO})
    account.at(START + 90 * DAY + 5 * 90 * DAY + 3).ask("GetKeyRotationStatus", {"KeyId": ID1}).ask("CreateKey", {})
    account.ask("GetKeyRotationStatus", {"KeyId": ID1}).ask("Encrypt", {"KeyId": ID1, "Plaintext": HELLO})
    for blob in list(account.blobs):
        account.ask("Decrypt", {"CiphertextBlob": blob})
    yield account
    account = Account("a key that is disabled when it is due is rotated by the change after the one that enables it")
    account.ask("CreateKey", {}).ask("EnableKeyRotation", {"KeyId": ID1, "RotationPeriodInDays": days}).ask("DisableKey", {"KeyId": ID1})
    account.at(START + 200 * DAY).ask("UpdateKeyDescription", {"KeyId": ID1, "Description": "asleep"}).ask("GetKeyRotationStatus", {"KeyId": ID1})
    account.ask("EnableKey", {"KeyId": ID1}).ask("GetKeyRotationStatus", {"KeyId": ID1}).ask("Encrypt", {"KeyId": ID1, "Plaintext": HELLO})
    account.ask("EnableKey", {"KeyId": ID1}).ask("GetKeyRotationStatus", {"KeyId": ID1}).ask("Encrypt", {"KeyId": ID1, "Plaintext": HELLO})
    yield account
    account = Account("the period in force changes nothing, another one and the default do")
    account.ask("CreateKey", {}).ask("EnableKeyRotation", {"KeyId": ID1}).ask("GetKeyRotationStatus", {"KeyId": ID1})
    account.at(START + 5).ask("EnableKeyRotation", {"KeyId": ID1, "RotationPeriodInDays": 365}).ask("GetKeyRotationStatus", {"KeyId": ID1})
    account.ask("EnableKeyRotation", {"KeyId": ID1, "RotationPeriodInDays": 2560}).ask("GetKeyRotationStatus", {"KeyId": ID1})
    account.ask("DisableKeyRotation", {"KeyId": ID1}).ask("GetKeyRotationStatus", {"KeyId": ID1}).ask("DisableKeyRotation", {"KeyId": ID1})
    account.at(START + 9).ask("EnableKeyRotation", {"KeyId": ID1, "RotationPeriodInDays": 2560}).ask("GetKeyRotationStatus", {"KeyId": ID1})
    yield account
    account = Account("a rotation on demand leaves the next automatic one")
    account.ask("CreateKey", {}).ask("EnableKeyRotation", {"KeyId": ID1, "RotationPeriodInDays": days})
    account.at(START + 50 * DAY).ask("RotateKeyOnDemand", {"KeyId": arn(K1)}).ask("GetKeyRotationStatus", {"KeyId": arn(K1)})
    account.at(START + 90 * DAY).ask("RotateKeyOnDemand", {"KeyId": ID1}).ask("Encrypt", {"KeyId": ID1, "Plaintext": HELLO})
    yield account.ask("GetKeyRotationStatus", {"KeyId": ID1})
    account = two_keys("one entry removes a key that is gone and rotates one that is due")
    account.ask("EnableKeyRotation", {"KeyId": ID2, "RotationPeriodInDays": days}).ask("Encrypt", {"KeyId": ID2, "Plaintext": HELLO})
    account.ask("ScheduleKeyDeletion", {"KeyId": ID1, "PendingWindowInDays": 30}).at(START + 90 * DAY).ask("DisableKey", {"KeyId": ID1})
    account.ask("Encrypt", {"KeyId": ID2, "Plaintext": HELLO}).ask("GetKeyRotationStatus", {"KeyId": ID2})
    yield account.ask("Decrypt", {"CiphertextBlob": account.blob(0)})


def write(name, what, accounts):
    head = [f"# {what}. Written by tools/make_key_lives.py: an account in plain Python, with Python's hmac, json and email.utils,",
            "# and its package cryptography."]
    DATA.joinpath(name).write_text("\n".join(head) + "\n\n" + "\n\n".join(a.script() for a in accounts) + "\n")


if __name__ == "__main__":
    write("key_states.txt", "What each state of a key serves, and how keys change their states, are described and are deleted", key_states())
    write("rotation.txt", "Versions of keys: by rotations on demand, and by automatic ones", rotation())
