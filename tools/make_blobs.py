"""Makes blobs.txt. Run: python3 -B tools/make_blobs.py (wants the package cryptography)."""

import struct

from cryptography.hazmat.primitives.ciphers.aead import AESGCM

import blobs
from make_contexts import encoding, written
from vectors import File, counted, hexadecimal

HEAD = """
Blobs of both forms, the material of keys, and the sealing of texts into blobs and their opening. Bytes are
hexadecimal, `-` are none; a version is decimal; a context is written as in contexts.txt.

read_blob | bytes | form, key, version, initialization vector, commitment, the place of the ciphertext's first byte
    and the place behind its last, and the tag; or `none`
write_blob | key | version | initialization vector | ciphertext | tag | blob
write_blob_two | key | version | initialization vector | commitment | ciphertext | tag | blob
material | root secret | key | version | material
blob_key | material | initialization vector | key
commitment | key | commitment
seal_blob, seal_blob_one | root secret | key | version | initialization vector | context | text | blob
open_blob | root secret | bytes | context | text, `BadBlob`, or `no blob`

Made by tools/make_blobs.py with Python's struct, hmac and cryptography (tools/blobs.py). A blob of form 1 is the byte
01, the key's id (16 bytes), the version (4, high byte first, at least 1), the initialization vector (12), the
ciphertext (1 to 4,096) and the tag (16). A blob of form 2 is the byte 02, the id, the version, the vector, a
commitment (32), the ciphertext and the tag. The material is HMAC-SHA-256, under the root secret, of the text
`material`, the id and the version. It is the data key of form 1; that of form 2 is HMAC-SHA-256, under the material,
of the text `blob2` and the vector, and the commitment is HMAC-SHA-256, under that key, of the text `commit2`. The
additional data are the first 21 bytes of form 1 or the first 65 of form 2, and the encoded context.
"""

ROOT = counted(32)
KEY = counted(16, 0xA0)
IV = counted(12, 0x10)
NONE = {}
WRITERS = {1: "write_blob", 2: "write_blob_two"}
SEALERS = {1: "seal_blob_one", 2: "seal_blob"}
BOTH = [1, 2]


def sealed(root, key, version, iv, context, text, form=2, commitment=None):
    return blobs.sealed(root, key, version, iv, encoding(context), text, form, commitment)


def opened(root, data, context):
    if blobs.parts(data) is None:
        return "no blob"
    text = blobs.opened(root, data, encoding(context))
    return "BadBlob" if text is None else hexadecimal(text)


class Blobs(File):
    def read(self, data):
        found = blobs.parts(data)
        words = [part.hex() if isinstance(part, bytes) else str(part) for part in found or ()]
        self.case("read_blob", data, " ".join(words) or "none")
        return found is not None

    def write_blob(self, form, key, version, iv, commitment, cipher, tag):
        made = blobs.blob_of(form, key, version, iv, commitment, cipher, tag)
        own = [commitment] if form == 2 else []
        self.case(WRITERS[form], key, str(version), iv, *own, cipher, tag, made)
        return made

    def material(self, root, key, version, want=None):
        made = blobs.material(root, key, version)
        assert want in (None, made.hex())
        self.case("material", root, key, str(version), made)
        return made

    def seal(self, root, key, version, iv, context, text, form=2, want=None):
        made = sealed(root, key, version, iv, context, text, form)
        assert want is None or made[33:].hex() == want
        self.case(SEALERS[form], root, key, str(version), iv, written(context), text, made)
        assert self.open(root, made, context) == hexadecimal(text)
        return made

    def open(self, root, data, context):
        answer = opened(root, data, context)
        self.case("open_blob", root, data, written(context), answer)
        return answer

    def bad(self, root, data, context):
        assert self.open(root, data, context) in ("BadBlob", "no blob")


def forms(file):
    file.note("The earlier tests: a worked blob of form 1, made of `sealed text`, and what becomes of its bytes.")
    tag = bytes.fromhex("cb030630942e06ada362ec9f47fadf1a")
    cipher = bytes.fromhex("0e9bf97a2cad1ac7af0d7c")
    worked = file.write_blob(1, KEY, 0x01020304, IV, b"", cipher, tag)
    assert AESGCM(counted(32)).encrypt(IV, b"sealed text", worked[:21])[:-16] == cipher
    assert file.read(worked)
    for version in [0, 1]:
        assert file.read(worked[:17] + struct.pack(">I", version) + worked[21:]) == (version > 0)
    for first in [0, 2, 3, 0xFF]:
        assert not file.read(bytes([first]) + worked[1:])
    assert not file.read(worked[1:])
    assert file.read(worked[:-1])

    file.note("A blob of form 2 of the same, and what becomes of its bytes.")
    worked = file.write_blob(2, KEY, 0x01020304, IV, counted(32, 0x40), cipher, tag)
    assert file.read(worked) and len(worked) == 92
    for version in [0, 1]:
        assert file.read(worked[:17] + struct.pack(">I", version) + worked[21:]) == (version > 0)
    for first in [0, 1, 3, 0xFF]:
        assert file.read(bytes([first]) + worked[1:]) == (first == 1)
    assert not file.read(worked[1:])
    assert file.read(worked[:-1])

    file.note("Sizes: a blob of form 1 has 50 to 4,145 bytes, one of form 2 has 82 to 4,177.")
    for size, is_blob in [(0, False), (1, False), (49, False), (50, True), (4145, True), (4146, False)]:
        assert file.read(b"\x01" * size) == is_blob
    for size, is_blob in [(1, False), (33, False), (50, False), (64, False), (65, False), (81, False), (82, True), (4145, True), (4177, True), (4178, False)]:
        assert file.read(b"\x02" * size) == is_blob
    for size in [16, 17, 21, 33, 48, 51, 52, 65, 66, 1000, 4144, 8192]:
        file.read(b"\x01" * size)
        file.read(b"\x02" * size)
        file.read(b"\x03" * size)

    file.note("Random blobs, written and read.")
    for size in [1, 2, 15, 16, 17, 31, 32, 33, 64, 100, 1024, 4095, 4096]:
        key, iv, tag, cipher = file.bytes(16), file.bytes(12), file.bytes(16), file.bytes(size)
        for version in [1, 0xFF, 0x100, 0xFFFFFFFF, file.random.randrange(1, 1 << 32)][: 5 if size < 200 else 1]:
            for form in BOTH:
                assert file.read(file.write_blob(form, key, version, iv, file.bytes(32) if form == 2 else b"", cipher, tag))

    file.note("Versions with one byte that isn't zero, and with none.")
    for version in [1, 1 << 8, 1 << 16, 1 << 24, 0]:
        for form in BOTH:
            file.read(blobs.blob_of(form, KEY, version, IV, bytes(32) if form == 2 else b"", b"c", bytes(16)))


def materials(file):
    file.note("Material: the earlier tests, and other roots, keys and versions.")
    file.material(ROOT, KEY, 1, "bb3727dd784fadab07e82bad64c9cbd8d1b34cf8eadc26151d388e09719b2bd2")
    file.material(ROOT, KEY, 2, "4a39d23e7fda558a28da32481d0e2b908c1d510a0f54ca37956e3ab5ae2ec37c")
    file.material(ROOT, KEY, 0x01020304, "1d5f21d65203032fc1d00b682abc0d0cf6c8e2c0c802355628d40476218ca003")
    for version in [1, 2, 256, 65536, 0xFFFFFFFF]:
        file.material(bytes(32), KEY, version)
        file.material(ROOT, bytes(16), version)
    for _ in range(30):
        file.material(file.bytes(32), file.bytes(16), file.random.randrange(1, 1 << 32))

    file.note("The keys of blobs of form 2, and the commitments to them.")
    for whole, iv in [(blobs.material(ROOT, KEY, 1), IV), (bytes(32), bytes(12)), *((file.bytes(32), file.bytes(12)) for _ in range(10))]:
        own = blobs.blob_key(whole, iv)
        file.case("blob_key", whole, iv, own)
        file.case("commitment", own, blobs.commitment_of(own))


def sealings(file):
    file.note("Sealing into form 1: the earlier tests.")
    file.seal(ROOT, KEY, 1, IV, {"a": "1"}, b"\x00", 1, "df77230f680411a04aa91cbdc7ecdd1fe5")
    file.seal(ROOT, KEY, 1, IV, NONE, b"sealed text", 1, "acf4763ad6b4225f694916c99eaa73524b82ca511fe67c04e815dc")
    file.seal(ROOT, KEY, 2, IV, {"a": "12"}, b"sealed text", 1, "ead55d37b1f23c3a23e1125a41e0539aaf621e5ea7a356ad657642")
    file.seal(ROOT, KEY, 0xFFFFFFFF, bytes(12), {"": "\u00e4"}, counted(16), 1, "b277042f18e6493141cc7fc88b61268c00d11c387ddee79723bc1fa0c6af1e57")
    file.seal(b"\xff" * 32, b"\xff" * 16, 0x01020304, b"\xff" * 12, {"aws:s3:arn": "arn:aws:s3:::bucket"}, b"sealed by another", 1, "4847161757b5172f588f243aadf6ebe23a10688f66c42ad4762f4d2bfbde88820a")
    longest = file.seal(ROOT, KEY, 1, IV, {"a": "1"}, b"v" * 4096, 1)
    assert longest[33:41].hex() == "a9e76120c5a6745d" and longest[-16:].hex() == "fe01d72ce013ea08d745c7e8b058aa19"

    file.note("The same into form 2. A text of 5 bytes has a blob of 86, one of 4,096 a blob of 4,177.")
    file.seal(ROOT, KEY, 1, IV, {"a": "1"}, b"\x00")
    file.seal(ROOT, KEY, 1, IV, NONE, b"sealed text")
    file.seal(ROOT, KEY, 2, IV, {"a": "12"}, b"sealed text")
    file.seal(ROOT, KEY, 0xFFFFFFFF, bytes(12), {"": "\u00e4"}, counted(16))
    file.seal(b"\xff" * 32, b"\xff" * 16, 0x01020304, b"\xff" * 12, {"aws:s3:arn": "arn:aws:s3:::bucket"}, b"sealed by another")
    assert len(file.seal(ROOT, KEY, 1, IV, NONE, b"hello")) == 86
    assert len(file.seal(ROOT, KEY, 1, IV, {"a": "1"}, b"v" * 4096)) == 4177

    file.note("Sealing: texts of 1 to 40 bytes and some more under random roots, keys, versions and contexts.")
    for size in list(range(1, 41)) + [63, 64, 65, 255, 256, 1024, 4095]:
        context = {"c" + str(i): file.bytes(3).hex() for i in range(file.random.randrange(4))}
        for form in BOTH:
            file.seal(file.bytes(32), file.bytes(16), file.random.randrange(1, 1 << 32), file.bytes(12), context, file.bytes(size), form)

    file.note("One context in two orders seals to one blob; none is as the context of no pairs.")
    for form in BOTH:
        for context in [{"b": "2", "a": "1"}, {"a": "1", "b": "2"}, NONE, {"a": "1"}]:
            file.seal(ROOT, KEY, 1, IV, context, b"text", form)


def openings(file, form):
    file.note(f"The earlier tests, in form {form}: one bit changed at these places, another root, other contexts.")
    context = {"a": "12"}
    blob = sealed(ROOT, KEY, 1, IV, context, b"text", form)
    assert len(blob) == {1: 53, 2: 85}[form] and file.open(ROOT, blob, context) == b"text".hex()
    for place in [0, 1, 16, 17, 20, 21, 32, 33, 36, 37, 52]:
        file.bad(ROOT, blob[:place] + bytes([blob[place] ^ 0x80]) + blob[place + 1 :], context)
    file.bad(bytes(32), blob, context)
    for other in [{"a": "1"}, {"a": "13"}, {"b": "12"}, {"A": "12"}, {"a1": "2"}]:
        file.bad(ROOT, blob, other)
    blob = sealed(ROOT, KEY, 1, IV, {"a": "1"}, b"text", form)
    assert file.open(ROOT, blob, {"a": "1"}) == b"text".hex()

    file.note("Each byte of a blob changed in one bit, and the form's byte turned into the other form's.")
    for place in range(len(blob)):
        file.bad(ROOT, blob[:place] + bytes([blob[place] ^ 1 << place % 8]) + blob[place + 1 :], {"a": "1"})
    for size in [1, 4, 36, 100]:
        other = sealed(ROOT, KEY, 1, IV, {"a": "1"}, bytes(size), form)
        file.bad(ROOT, bytes([3 - form]) + other[1:], {"a": "1"})

    file.note("A byte more or less, at the end and in front of the tag.")
    for wrong in [blob + b"\x00", blob[:-1], blob[:-16] + b"\x00" + blob[-16:], blob[:-17] + blob[-16:], blob[1:], bytes([form]) + blob]:
        file.bad(ROOT, wrong, {"a": "1"})

    file.note("Contexts with a pair more or less, in another order, with bytes moved between key and value.")
    blob = sealed(ROOT, KEY, 3, IV, {"a": "1", "bc": "de"}, b"text", form)
    assert file.open(ROOT, blob, {"bc": "de", "a": "1"}) == b"text".hex()
    for other in [NONE, {"a": "1"}, {"bc": "de"}, {"a": "1", "bc": "de", "f": ""}, {"a": "1", "b": "cde"}, {"a": "1", "bcd": "e"}, {"a": "1b", "c": "de"}, {"a": "de", "bc": "1"}, {"A": "1", "bc": "de"}]:
        file.bad(ROOT, blob, other)

    file.note("Another version's, another key's and another text's blob with this one's tag.")
    for wrong in [sealed(ROOT, KEY, 4, IV, NONE, b"text", form), sealed(ROOT, bytes(16), 3, IV, NONE, b"text", form), sealed(ROOT, KEY, 3, IV, NONE, b"texT", form)]:
        file.bad(ROOT, wrong[:-16] + blob[-16:], NONE)

    file.note(f"A blob of form {form} that was not sealed by this program: its text is opened all the same.")
    for size in [1, 16, 100, 4096]:
        root, key = file.bytes(32), file.bytes(16)
        made = sealed(root, key, 7, file.bytes(12), {"x": "y"}, file.bytes(size), form)
        assert file.open(root, made, {"x": "y"}) not in ("BadBlob", "no blob")
        file.bad(file.bytes(32), made, {"x": "y"})


def commitments(file):
    file.note("Form 2 with another commitment: the ciphertext and the tag are right under the data key and this head.")
    own = blobs.commitment_of(blobs.data_key(2, ROOT, KEY, 1, IV))
    others = [bytes(32), b"\xff" * 32, blobs.commitment_of(blobs.material(ROOT, KEY, 1)), blobs.data_key(2, ROOT, KEY, 1, IV), own[1:] + own[:1]]
    others += [own[:place] + bytes([own[place] ^ 1 << place % 8]) + own[place + 1 :] for place in range(32)]
    for other in others:
        file.bad(ROOT, sealed(ROOT, KEY, 1, IV, {"a": "1"}, b"hello", 2, other), {"a": "1"})
    assert file.open(ROOT, sealed(ROOT, KEY, 1, IV, {"a": "1"}, b"hello", 2, own), {"a": "1"}) == b"hello".hex()

    file.note("And the right commitment, where the tag is that of the ciphertext without it in the additional data.")
    key = blobs.data_key(2, ROOT, KEY, 1, IV)
    both = AESGCM(key).encrypt(IV, b"hello", blobs.head_of(2, KEY, 1, IV, b"") + encoding(NONE))
    file.bad(ROOT, blobs.blob_of(2, KEY, 1, IV, own, both[:-16], both[-16:]), NONE)


def main():
    file = Blobs("blobs.txt", HEAD)
    forms(file)
    materials(file)
    sealings(file)
    for form in BOTH:
        openings(file, form)
    commitments(file)
    file.write()


if __name__ == "__main__":
    main()
