"""Makes macs.txt. Run: python3 -B tools/make_macs.py."""

import hashlib
import hmac

from make_hmac import RFC_4231
from vectors import File

HEAD = """
HMAC keys: their MACs, and the kind of key that a CreateKey asks for.

mac_of | root secret | key's id | message | MAC
verify_mac | root secret | key's id | message | what is given as the MAC | whether it is
kind_of | usage | master spec | spec | `Symmetric`, `Hmac256`, or `refused` and the field
texts | `Symmetric` or `Hmac256` | its usage and its spec

Bytes are in hexadecimal, and `-` are none. A text is written as it is, the empty one as `''` and an absent one as `-`.

Made by tools/make_macs.py. The MACs are those of Python's hmac. The requests that fit a kind, and the fields that
refuse others, stand there as they were written by hand.
"""

SYMMETRIC, HMAC_256 = "SYMMETRIC_DEFAULT", "HMAC_256"
ENCRYPT, MAC = "ENCRYPT_DECRYPT", "GENERATE_VERIFY_MAC"

# The usage, the master spec and the spec of each request that fits a kind.
FITTING = {
    ("-", "-", "-"): "Symmetric",
    ("-", "-", SYMMETRIC): "Symmetric",
    ("-", SYMMETRIC, "-"): "Symmetric",
    ("-", SYMMETRIC, SYMMETRIC): "Symmetric",
    (ENCRYPT, "-", "-"): "Symmetric",
    (ENCRYPT, "-", SYMMETRIC): "Symmetric",
    (ENCRYPT, SYMMETRIC, "-"): "Symmetric",
    (ENCRYPT, SYMMETRIC, SYMMETRIC): "Symmetric",
    (MAC, "-", HMAC_256): "Hmac256",
    (MAC, HMAC_256, "-"): "Hmac256",
    (MAC, HMAC_256, HMAC_256): "Hmac256",
}


def mac_of(root, key, message):
    secret = hmac.digest(root, b"mac" + key, hashlib.sha256)
    return hmac.digest(secret, message, hashlib.sha256)


def answer(usage, master, spec):
    """The kind that a request fits, or the first field that refuses it."""
    if (usage, master, spec) in FITTING:
        return FITTING[usage, master, spec]
    if usage not in ("-", ENCRYPT, MAC):
        return "refused KeyUsage"
    if master not in ("-", SYMMETRIC, HMAC_256):
        return "refused CustomerMasterKeySpec"
    if spec not in ("-", SYMMETRIC, HMAC_256) or {master, spec} == {SYMMETRIC, HMAC_256}:
        return "refused KeySpec"
    return "refused KeyUsage"


def main():
    file = File("macs.txt", HEAD)

    def mac(root, key, message):
        file.case("mac_of", root, key, message, mac_of(root, key, message))

    def verify(root, key, message, given):
        is_mac = given == mac_of(root, key, message)
        file.case("verify_mac", root, key, message, given, "true" if is_mac else "false")

    def both(root, key, message):
        mac(root, key, message)
        verify(root, key, message, mac_of(root, key, message))

    file.note("The messages of RFC 4231, section 4.")
    for message in [message for _, message, _ in RFC_4231] + [b"Test With Truncation"]:
        both(file.bytes(32), file.bytes(16), message)

    file.note("Messages of the sizes that GenerateMac takes at least and at most, and about a block of SHA-256.")
    for size in [0, 1, 31, 32, 55, 56, 63, 64, 65, 127, 128, 1024, 4095, 4096, 4097]:
        both(file.bytes(32), file.bytes(16), file.bytes(size))

    file.note("Root secrets and ids of zeros and of ones.")
    for root in [bytes(32), b"\xff" * 32]:
        for key in [bytes(16), b"\xff" * 16]:
            both(root, key, b"hello")

    file.note("Each bit of a MAC flipped.")
    root, key, message = file.bytes(32), file.bytes(16), b"hello"
    right = mac_of(root, key, message)
    verify(root, key, message, right)
    for bit in range(256):
        flipped = bytearray(right)
        flipped[bit // 8] ^= 1 << bit % 8
        verify(root, key, message, bytes(flipped))

    file.note("The same difference in two bytes, and in all.")
    for places in [(0, 1), (0, 31), (15, 16), (30, 31), tuple(range(32))]:
        changed = bytearray(right)
        for place in places:
            changed[place] ^= 0x5A
        verify(root, key, message, bytes(changed))

    file.note("A MAC cut off, and with bytes behind it or before it.")
    for size in [0, 1, 16, 31]:
        verify(root, key, message, right[:size])
    verify(root, key, message, right[1:])
    for size in [33, 64, 4096, 6144]:
        verify(root, key, message, right + bytes(size - 32))
        verify(root, key, message, right + file.bytes(size - 32))
    verify(root, key, message, right + right[:1])
    verify(root, key, message, b"\0" + right)
    verify(root, key, message, right[::-1])
    verify(root, key, message, bytes(32))

    file.note("The MAC of another message, key or root secret, that under the root secret itself, and one under the material.")
    verify(root, key, message, mac_of(root, key, b"hellp"))
    verify(root, key, message, mac_of(root, key, b"hello\0"))
    verify(root, key, message, mac_of(root, file.bytes(16), message))
    verify(root, key, message, mac_of(file.bytes(32), key, message))
    verify(root, key, message, hmac.digest(root, message, hashlib.sha256))
    verify(root, key, message, hmac.digest(root, b"mac" + key + message, hashlib.sha256))
    for label in [b"material" + key, b"material" + key + bytes([0, 0, 0, 1]), b"mac" + key + bytes([0, 0, 0, 1]), key]:
        secret = hmac.digest(root, label, hashlib.sha256)
        verify(root, key, message, hmac.digest(secret, message, hashlib.sha256))

    def kind(usage, master, spec):
        file.case("kind_of", usage, master, spec, answer(usage, master, spec))

    file.note("Each pair of specs under each usage: absent, one of the two kinds', or that of no kind here.")
    for usage in ["-", ENCRYPT, MAC, "SIGN_VERIFY"]:
        for master in ["-", SYMMETRIC, HMAC_256, "HMAC_384"]:
            for spec in ["-", SYMMETRIC, HMAC_256, "RSA_2048"]:
                kind(usage, master, spec)

    file.note("Texts that are nearly a kind's, in each field.")
    for text in [ENCRYPT, MAC, SYMMETRIC, HMAC_256]:
        for other in near(text):
            kind(other, "-", "-")
            kind(MAC, other, "-")
            kind(MAC, "-", other)
    for text in ["''", "KEY_AGREEMENT", "HMAC_224", "HMAC_512", "ECC_NIST_P256", "SM2"]:
        kind(text, HMAC_256, HMAC_256)
        kind(MAC, text, HMAC_256)
        kind(MAC, HMAC_256, text)
    kind(SYMMETRIC, "-", "-")
    kind("-", ENCRYPT, "-")
    kind(HMAC_256, "-", HMAC_256)
    kind(MAC, "-", MAC)

    file.note("The texts of each kind.")
    file.case("texts", "Symmetric", ENCRYPT + " " + SYMMETRIC)
    file.case("texts", "Hmac256", MAC + " " + HMAC_256)
    file.write()


def near(text):
    """Texts that differ from a kind's a little, in a letter's case, at an end or inside."""
    return [text.lower(), text[:-1], text[1:], text + "_", "_" + text, text.replace("_", "-"), text[0].lower() + text[1:]]


if __name__ == "__main__":
    main()
