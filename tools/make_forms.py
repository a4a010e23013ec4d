"""Writes crates/worked_cases/data/forms.txt: python3 -B tools/make_forms.py

Each case is asked of the account in plain Python of whole_account.py, which answers it. Blobs of both forms are sealed by blobs.py.
"""

import base64

import blobs
from make_key_lives import ROOT_SECRET, b64, encoded
from whole_cases import *

IV = bytes.fromhex("0000000100010000ffff0000")
SIZES = (1, 16, 4096)
OTHER_FORM = {1: 2, 2: 1}


def text(size):
    return bytes(number % 251 for number in range(size))


def sealed(form, size, context, commitment=None):
    """The bytes of a blob that no request made, under the first version of the first key."""
    return blobs.sealed(ROOT_SECRET, K1, 1, IV, encoded(context), text(size), form, commitment)


def with_byte(raw, place, byte):
    return b64(raw[:place] + bytes([byte]) + raw[place + 1:])


def of_size(size):
    """So many bytes that begin as a blob of form 2 of the first key."""
    return b64((b"\x02" + K1 + b"\x00\x00\x00\x01" + bytes(size))[:size])


def forms():
    account = keys("a text of 5 bytes has a blob of 86, and one of 4,096 a blob of 4,177")
    encrypt(account, ID1)
    account.ask("Encrypt", {"KeyId": ID1, "Plaintext": b64(text(4096))})
    assert [len(base64.b64decode(blob)) for blob in account.blobs] == [86, 4177]
    for blob in list(account.blobs):
        decrypt(account, blob)
    yield account
    account = keys("blobs of form 1 open, with contexts and without")
    for size in SIZES:
        for context in ({}, A1, AB):
            blob = account.plant(K1, 1, context, text(size), form=1)
            decrypt(account, blob, EncryptionContext=context)
            decrypt(account, blob, EncryptionContext={"b": "1"})
    yield account
    account = keys("a text of form 1 is sealed anew in form 2 across a rotation", 2)
    earlier = account.plant(K1, 1, A1, b"earlier", form=1)
    decrypt(account, earlier, EncryptionContext=A1)
    account.ask("RotateKeyOnDemand", {"KeyId": ID1})
    decrypt(account, earlier, EncryptionContext=A1)
    for key in (ID1, ID2):
        account.ask("ReEncrypt", {"CiphertextBlob": earlier, "SourceEncryptionContext": A1, "DestinationKeyId": key})
        decrypt(account, account.blob())
    yield decrypt(account, earlier)
    account = keys("a blob of form 1 of a version that the key doesn't have yet doesn't open")
    early = account.plant(K1, 2, {}, b"early", form=1)
    decrypt(account, early).ask("RotateKeyOnDemand", {"KeyId": ID1})
    yield decrypt(account, early)
    account = keys("form 2 with another commitment doesn't open, though its ciphertext and its tag are right", 2)
    own = sealed(2, 5, A1)
    assert blobs.parts(own)[4] == blobs.commitment_of(blobs.data_key(2, ROOT_SECRET, K1, 1, IV))
    for commitment in (bytes(32), blobs.commitment_of(blobs.material(ROOT_SECRET, K1, 1)), own[34:65] + own[33:34]):
        other = b64(sealed(2, 5, A1, commitment))
        decrypt(account, other, EncryptionContext=A1)
        account.ask("ReEncrypt", {"CiphertextBlob": other, "SourceEncryptionContext": A1, "DestinationKeyId": ID2})
    yield account
    account = keys("each byte of a blob of form 2 turned")
    encrypt(account, ID1)
    raw = base64.b64decode(account.blob())
    for place, byte in enumerate(raw):
        decrypt(account, with_byte(raw, place, byte ^ 1 << place % 8))
    yield decrypt(account, b64(raw))
    account = keys("a blob with the first byte of the other form or of none")
    for form in (1, 2):
        for size in (5, 36, 4096):
            raw = sealed(form, size, {})
            for byte in (0, OTHER_FORM[form], 3):
                decrypt(account, with_byte(raw, 0, byte))
    yield account
    account = keys("blobs of form 2 have 82 to 4,177 bytes, whichever key is named", 2)
    for size in (1, 21, 65, 81, 82, 4177, 4178):
        decrypt(account, of_size(size)).ask("Decrypt", {"CiphertextBlob": of_size(size), "KeyId": ID2})
    yield account


if __name__ == "__main__":
    write("make_forms.py", "forms.txt", "The two forms of sealed texts", forms())
