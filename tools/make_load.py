"""Prints the five lines of a workload: python3 -B tools/make_load.py SEED REQUESTS

The account in Python of whole_account.py answers the messages; the words are the key stream of Python's cryptography, the blobs that
are decrypted are sealed by blobs.py, and each reply is written with its head as crates/http_front has it.
"""

import base64
import hashlib
import json
import sys
from email.utils import formatdate

from cryptography.hazmat.primitives.ciphers import Cipher, algorithms

import blobs
import whole_account
from make_key_lives import ACCOUNT, ROOT_SECRET, START, Refused, b64, encoded, key_id, mac, printed
from whole_account import Whole

KEYS = 8
REASONS = {200: "OK", 400: "Bad Request"}
whole_account.DRAWS = Cipher(algorithms.ChaCha20(mac(b"draw" + bytes([0, 0, 0, 1, 0, 1])), bytes(16)), None).encryptor().update(bytes(1 << 22))


class Loaded(Whole):
    """The account whose blobs are opened, and not looked up, and whose replies are told."""

    def text_of(self, key, blob, context):
        text = blobs.opened(ROOT_SECRET, base64.b64decode(blob), encoded(context))
        if text is None:
            raise Refused("InvalidCiphertextException", "The ciphertext does not open.")
        return text

    def told(self, operation, body):
        """The status and the body of the reply."""
        try:
            if operation in whole_account.CHANGES:
                self.house()
            status, said = 200, getattr(self, operation)(body)
        except Refused as why:
            status, said = why.status, {"__type": why.name, "message": why.message}
        return status, json.dumps(said, separators=(",", ":"), sort_keys=True, ensure_ascii=False).encode()


def words_of(seed, count):
    """The first words of ChaCha20 whose key is the digest of the seed."""
    key = hashlib.sha256(seed.to_bytes(8, "big")).digest()
    stream = Cipher(algorithms.ChaCha20(key, bytes(16)), None).encryptor().update(bytes(4 * count))
    return [int.from_bytes(stream[i:i + 4], "little") for i in range(0, 4 * count, 4)]


def blob(key, number, context):
    """The blob of a message's text, under the first version of the key."""
    vector = (1).to_bytes(4, "big") + (65535).to_bytes(2, "big") + number.to_bytes(6, "big")
    return blobs.sealed(ROOT_SECRET, key, 1, vector, encoded(context), number.to_bytes(8, "big"))


def message(number, words):
    """The operation and the body of a message."""
    if number < KEYS:
        return "CreateKey", {}
    first, second, third = words[3 * (number - KEYS):3 * (number - KEYS) + 3]
    key = key_id(first % KEYS)
    named, context, text = {"KeyId": printed(key)}, {"n": str(number)}, number.to_bytes(8, "big")
    return [
        ("Encrypt", named | {"Plaintext": b64(text), "EncryptionContext": context}),
        ("Decrypt", {"CiphertextBlob": b64(blob(key, number, context)), "EncryptionContext": context}),
        ("GenerateDataKey", named | {"KeySpec": "AES_256"}),
        ("RotateKeyOnDemand", named),
        ("DescribeKey", named),
        ("CreateGrant", named | {"GranteePrincipal": f"arn:aws:iam::{ACCOUNT}:user/load", "Operations": ["Decrypt"], "Name": f"g{number % 50}"}),
        ("ListGrants", named | {"Limit": 100}),
        ("DisableKey" if third % 2 else "EnableKey", named),
    ][second % 8]


def reply(status, body, second, front, closes):
    lines = [f"HTTP/1.1 {status} {REASONS[status]}", "Content-Type: application/x-amz-json-1.1", f"Content-Length: {len(body)}",
             f"Date: {formatdate(second, usegmt=True)}", f"x-kms-front: {front}"] + ["Connection: close"] * closes
    return "".join(f"{line}\r\n" for line in lines + [""]).encode() + body


def summary(seed, requests):
    account, digest, served = Loaded("load"), hashlib.sha256(), 0
    words = words_of(seed, 3 * max(requests - KEYS, 0))
    for number in range(requests):
        account.at(START + number)
        status, body = account.told(*message(number, words))
        served += status == 200
        digest.update(reply(status, body, START + number, account.front, number + 1 == 100_000))
    return [f"requests {requests}", f"served {served}", f"refused {requests - served}", f"front {account.front}", f"sha256 {digest.hexdigest()}"]


if __name__ == "__main__":
    print("\n".join(summary(int(sys.argv[1]), int(sys.argv[2]))))
