"""Makes hmac.txt. Run: python3 -B tools/make_hmac.py."""

import hashlib
import hmac

from vectors import File, counted, hexadecimal

HEAD = """
HMAC-SHA-256 (FIPS 198-1), in hexadecimal; `-` are no bytes.

hmac256 | key | message | HMAC
mac | key | parts of the message, with a space between two | HMAC

Made by tools/make_hmac.py. The HMACs of RFC 4231 stand there, and are compared with those of Python's hmac, which
made all others.
"""


def main():
    file = File("hmac.txt", HEAD)

    def whole(key, message):
        file.case("hmac256", key, message, hmac.digest(key, message, hashlib.sha256))

    def in_parts(key, parts):
        words = " ".join(hexadecimal(part) for part in parts)
        file.case("mac", key, words, hmac.digest(key, b"".join(parts), hashlib.sha256))

    file.note("RFC 4231, section 4: test cases 1 to 4, 6 and 7. The HMAC of test case 5 is cut short there.")
    for key, message, want in RFC_4231:
        assert hmac.digest(key, message, hashlib.sha256).hex() == want
        whole(key, message)

    file.note("Its test case 5, whose first 16 bytes are published.")
    key, message = b"\x0c" * 20, b"Test With Truncation"
    assert hmac.digest(key, message, hashlib.sha256).hex().startswith("a3b6167473100ee06e0c796c2955552b")
    whole(key, message)

    file.note("Keys about a block long, of the earlier tests: of `Sample message`, at once and in parts.")
    for size, want in EARLIER:
        assert hmac.digest(counted(size), b"Sample message", hashlib.sha256).hex() == want
        whole(counted(size), b"Sample message")
        in_parts(counted(size), [b"Sample", b"", b" message"])

    file.note("Each length of the key about a block and two, and random messages.")
    for size in [0, 1, 31, 32, 33, 55, 56, 62, 63, 64, 65, 66, 127, 128, 129, 130, 131, 1024, 4096]:
        whole(file.bytes(size), file.bytes(file.random.randrange(100)))

    file.note("Keys of zeros: one of 32, of 64 and of none are one key.")
    for size in [0, 32, 64, 65]:
        whole(bytes(size), b"message")

    file.note("Messages of 0 to 200 bytes, about each block of SHA-256.")
    for size in range(201):
        whole(file.bytes(32), file.bytes(size))

    file.note("Parts of random lengths.")
    for _ in range(120):
        parts = [file.bytes(file.random.choice([0, 1, 7, 55, 56, 63, 64, 65, 100])) for _ in range(file.random.randrange(1, 7))]
        in_parts(file.bytes(file.random.randrange(140)), parts)

    file.note("A message of 4,096 bytes, at once and in parts of 64.")
    key, message = file.bytes(32), file.bytes(4096)
    whole(key, message)
    in_parts(key, [message[at : at + 64] for at in range(0, 4096, 64)])
    file.write()


RFC_4231 = [
    (b"\x0b" * 20, b"Hi There", "b0344c61d8db38535ca8afceaf0bf12b881dc200c9833da726e9376c2e32cff7"),
    (b"Jefe", b"what do ya want for nothing?", "5bdcc146bf60754e6a042426089575c75a003f089d2739839dec58b964ec3843"),
    (b"\xaa" * 20, b"\xdd" * 50, "773ea91e36800e46854db8ebd09181a72959098b3ef8c122d9635514ced565fe"),
    (counted(25, 1), b"\xcd" * 50, "82558a389a443c0ea4cc819899f2083a85f0faa3e578f8077a2e3ff46729665b"),
    (b"\xaa" * 131, b"Test Using Larger Than Block-Size Key - Hash Key First", "60e431591ee0b67f0d8a26aacbf5b77f8e0bc6213728c5140546040f0ee37f54"),
    (b"\xaa" * 131, b"This is a test using a larger than block-size key and a larger than block-size data. The key needs to be hashed before being used by the HMAC algorithm.", "9b09ffa71b942fcb27635fbcd5b0e944bfdc63644f0713938a7f51535c3a35e2"),
]

EARLIER = [
    (0, "a87def18bfa2ab0b790c6831dfd72849bf4193aea47b6472133c2277d8b0d453"),
    (63, "f07ce8a4279c41c1d7ec7782ca81b50f045c36a1be28cef35f6bb9f8da9b5f84"),
    (64, "cb0937119a6ca4137952ad98fc798c783c70eed4a03320760f400bdd2a957c04"),
    (65, "ff13f0ee75fce95ef5c21df53398d2aa324d7e2657de1b84f3c0c05cdde9c5ef"),
    (131, "8e2e275fc6c1f8047986ae505edcbefe768e3a51476c17431f634e2ea8dd9e2f"),
]

if __name__ == "__main__":
    main()
