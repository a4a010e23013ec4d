"""Makes the messages and replies of program_cases. Run: python3 -B tools/make_program_cases.py.

The key's id is that of Python's `hmac`, the dates are those of `email.utils`, and the replies are written as `make_load.py` writes them.
What the program is to tell of each run stands in stdout of program_cases, written by hand.
"""

import hashlib
import hmac
import json
import os
import uuid
from email.utils import formatdate

PLACE = os.path.join(os.path.dirname(__file__), "..", "crates", "program_cases", "data")
BEGIN = 1_700_000_000
PLACE_0 = bytes(6)
KEY = hmac.new(bytes(32), b"key" + (1).to_bytes(4, "big") + PLACE_0, hashlib.sha256).digest()[:10] + PLACE_0
ID = str(uuid.UUID(bytes=KEY))
METADATA = {
    "AWSAccountId": "111122223333", "Arn": f"arn:aws:kms:us-east-1:111122223333:key/{ID}", "CreationDate": BEGIN,
    "CustomerMasterKeySpec": "SYMMETRIC_DEFAULT", "Description": "", "Enabled": True, "EncryptionAlgorithms": ["SYMMETRIC_DEFAULT"],
    "KeyId": ID, "KeyManager": "CUSTOMER", "KeySpec": "SYMMETRIC_DEFAULT", "KeyState": "Enabled", "KeyUsage": "ENCRYPT_DECRYPT",
    "MultiRegion": False, "Origin": "AWS_KMS",
}


def text_of(lines, body):
    return "\r\n".join(lines) + "\r\n\r\n" + body


def message(operation, body):
    body = json.dumps(body, separators=(",", ":"))
    return text_of(["POST / HTTP/1.1", "Host: localhost", "Content-Type: application/x-amz-json-1.1",
                    f"X-Amz-Target: TrentService.{operation}", f"Content-Length: {len(body)}"], body)


def reply(second):
    body = json.dumps({"KeyMetadata": METADATA}, separators=(",", ":"))
    return text_of(["HTTP/1.1 200 OK", "Content-Type: application/x-amz-json-1.1", f"Content-Length: {len(body)}",
                    f"Date: {formatdate(second, usegmt=True)}", "x-kms-front: 1"], body)


for name, text in [("make", message("CreateKey", {})), ("look", message("DescribeKey", {"KeyId": ID})), ("made", reply(BEGIN)), ("seen", reply(BEGIN + 1))]:
    with open(os.path.join(PLACE, f"{name}.txt"), "w", encoding="utf-8", newline="") as file:
        file.write(text)
