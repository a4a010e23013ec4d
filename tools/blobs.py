"""Blobs of both forms, and their sealing and opening, by Python's struct, hmac and cryptography.

A context is given encoded.
"""

import hashlib
import hmac
import struct

from cryptography.exceptions import InvalidTag
from cryptography.hazmat.primitives.ciphers.aead import AESGCM

TEXT_AT = {1: 33, 2: 65}  # where the ciphertext begins
HEAD_SIZE = {1: 21, 2: 65}


def mac(key, message):
    return hmac.digest(key, message, hashlib.sha256)


def material(root, key, version):
    return mac(root, b"material" + key + struct.pack(">I", version))


def blob_key(material, iv):
    return mac(material, b"blob2" + iv)


def commitment_of(key):
    return mac(key, b"commit2")


def data_key(form, root, key, version, iv):
    whole = material(root, key, version)
    return whole if form == 1 else blob_key(whole, iv)


def head_of(form, key, version, iv, commitment=b""):
    start = bytes([form]) + key + struct.pack(">I", version)
    return start if form == 1 else start + iv + commitment


def blob_of(form, key, version, iv, commitment, cipher, tag):
    return bytes([form]) + key + struct.pack(">I", version) + iv + commitment + cipher + tag


def sealed(root, key, version, iv, encoded, text, form=2, commitment=None):
    """The blob of a text; a commitment that is given stands in place of the right one."""
    own = data_key(form, root, key, version, iv)
    if form == 1:
        commitment = b""
    elif commitment is None:
        commitment = commitment_of(own)
    both = AESGCM(own).encrypt(iv, text, head_of(form, key, version, iv, commitment) + encoded)
    return blob_of(form, key, version, iv, commitment, both[:-16], both[-16:])


def parts(data):
    """What a blob says, or None where the bytes are no blob: form, key, version, initialization vector,
    commitment, the ciphertext's places and the tag."""
    start = TEXT_AT.get(data[0]) if data else None
    if start is None or not start + 17 <= len(data) <= start + 4112:
        return None
    key, version, iv = data[1:17], struct.unpack(">I", data[17:21])[0], data[21:33]
    commitment = data[33:65] if data[0] == 2 else bytes(32)
    return (data[0], key, version, iv, commitment, start, len(data) - 16, data[-16:]) if version >= 1 else None


def opened(root, data, encoded):
    """The text of a blob, or None where it doesn't open."""
    form, key, version, iv, commitment, start, end, tag = parts(data)
    own = data_key(form, root, key, version, iv)
    if form == 2 and commitment != commitment_of(own):
        return None
    try:
        return AESGCM(own).decrypt(iv, data[start:end] + tag, data[: HEAD_SIZE[form]] + encoded)
    except InvalidTag:
        return None
