"""Makes src/messages.rt of server_cases. Run: python3 -B tools/make_server_cases.py.

Python's `hmac` signs the messages, by the rules of "Create a signed AWS API request" in the IAM User Guide, and gives the id of the first
key; the package `cryptography` seals the text that one of them opens. What is answered stands in stdout of server_cases, written by hand.
"""

import base64
import hashlib
import hmac
import json
import os
import uuid

import blobs
import signing

PLACE = os.path.join(os.path.dirname(__file__), "..", "crates", "server_cases", "src", "messages.rt")
STAMP = "20231114T221320Z"
REGION = "us-east-1"
ACCESS_KEY = ("AKIDEXAMPLE", "wJalrXUtnFEMI/K7MDENG+bPxRfiCYEXAMPLEKEY")
# Boot 1 of the service, whose root secret is of zeros, and the first place of its history.
BOOT = (1).to_bytes(4, "big")
PLACE_0 = bytes(6)


def mac(key, text):
    return hmac.new(key, text, hashlib.sha256).digest()


KEY = mac(bytes(32), b"key" + BOOT + PLACE_0)[:10] + PLACE_0
ID = str(uuid.UUID(bytes=KEY))


def sealed(text):
    """A text sealed under the first key by a pass of number 9, whose first it is."""
    vector = BOOT + (9).to_bytes(2, "big") + bytes(6)
    return base64.b64encode(blobs.sealed(bytes(32), KEY, 1, vector, b"", text)).decode()


def message(operation, body, after=None):
    """A signed message, which wants so many entries where a number is given."""
    more = [] if after is None else [("X-Kms-After", str(after))]
    return signing.message(*ACCESS_KEY, REGION, operation, json.dumps(body, separators=(",", ":")), STAMP, more)


MESSAGES = [
    ("A key is made.", "MAKE", message("CreateKey", {})),
    ("The first key is described, where there is one entry.", "LOOK", message("DescribeKey", {"KeyId": ID}, after=1)),
    ("A text that is sealed under the first key is opened.", "OPEN", message("Decrypt", {"CiphertextBlob": sealed(b"hello")})),
    ("The first key is to be rotated each 90 days.", "TURN", message("EnableKeyRotation", {"KeyId": ID, "RotationPeriodInDays": 90})),
    ("All keys are listed.", "LIST", message("ListKeys", {})),
    ("An operation that isn't there.", "NOTHING", message("Nothing", {})),
]


def escaped(text):
    return text.replace("\\", "\\\\").replace('"', '\\"').replace("\r", "\\r").replace("\n", "\\n")


with open(PLACE, "w", encoding="utf-8", newline="\n") as file:
    file.write("// Messages that are signed for second 1,700,000,000. Made by tools/make_server_cases.py.\n")
    for what, name, text in MESSAGES:
        file.write(f'\n/// {what}\npub const {name}: &str =\n    "{escaped(text)}";\n')
