"""Makes ghash.txt. Run: python3 -B tools/make_ghash.py (wants the package cryptography, as a check)."""

from cryptography.hazmat.primitives.ciphers import Cipher, algorithms, modes
from cryptography.hazmat.primitives.ciphers.aead import AESGCM

from vectors import File

HEAD = """
GHASH (SP 800-38D, section 6.4): a hash subkey, the blocks joined and their hash, in hexadecimal.

hash | subkey of 16 bytes | blocks of 16 bytes each | hash of 16 bytes

Made by tools/make_ghash.py, which multiplies polynomials over GF(2) bit by bit and divides by
x^128 + x^7 + x^2 + x + 1. The published hashes, of "The Galois/Counter Mode of Operation" (McGrew and Viega), are
compared there; those of sealed texts agree with the tags of Python's cryptography.
"""

MODULUS = 1 << 128 | 1 << 7 | 1 << 2 | 1 << 1 | 1


def polynomial(block):
    """The polynomial of a block, whose leftmost bit is the coefficient of x^0, as a number."""
    bits = format(int.from_bytes(block, "big"), "0128b")
    return int(bits[::-1], 2)


def block_of(number):
    """The block of a polynomial."""
    bits = format(number, "0128b")
    return int(bits[::-1], 2).to_bytes(16, "big")


def product(left, right):
    """The product of two polynomials modulo the field's."""
    whole = 0
    for place in range(128):
        if left >> place & 1:
            whole ^= right << place
    for place in range(254, 127, -1):
        if whole >> place & 1:
            whole ^= MODULUS << (place - 128)
    return whole


def hash_of(subkey, blocks):
    assert len(subkey) == 16 and len(blocks) % 16 == 0
    total = 0
    for at in range(0, len(blocks), 16):
        total = product(total ^ polynomial(blocks[at : at + 16]), polynomial(subkey))
    return block_of(total)


def encrypted(key, block):
    cipher = Cipher(algorithms.AES(key), modes.ECB()).encryptor()
    return cipher.update(block) + cipher.finalize()


def padded(data):
    return data + bytes(-len(data) % 16)


def sealed_blocks(key, iv, aad, text):
    """The hash subkey of a key and the blocks that a tag of GCM is of, compared with the tag."""
    sealed = AESGCM(key).encrypt(iv, text, aad)
    cipher, tag = sealed[:-16], sealed[-16:]
    lengths = (8 * len(aad)).to_bytes(8, "big") + (8 * len(text)).to_bytes(8, "big")
    subkey, blocks = encrypted(key, bytes(16)), padded(aad) + padded(cipher) + lengths
    mask = encrypted(key, iv + b"\x00\x00\x00\x01")
    assert bytes(a ^ b for a, b in zip(hash_of(subkey, blocks), mask)) == tag
    return subkey, blocks


def main():
    file = File("ghash.txt", HEAD)

    def known(subkey, blocks, want):
        subkey, blocks = bytes.fromhex(subkey), bytes.fromhex("".join(blocks))
        assert hash_of(subkey, blocks).hex() == want
        file.case("hash", subkey, blocks, want)

    def made(subkey, blocks):
        file.case("hash", subkey, blocks, hash_of(subkey, blocks))

    file.note("Test case 2 of the GCM paper, and the same of no block.")
    known("66e94bd4ef8a2c3b884cfa59ca342b2e", [], "00000000000000000000000000000000")
    known(
        "66e94bd4ef8a2c3b884cfa59ca342b2e",
        ["0388dace60b6a392f328c2b971b2fe78", "00000000000000000000000000000080"],
        "f38cbb1ad69223dcc3457ae5b6b0f885",
    )

    file.note("Test cases 15 and 16 of the same.")
    known(
        "acbef20579b4b8ebce889bac8732dad7",
        [
            "522dc1f099567d07f47f37a32a84427d643a8cdcbfe5c0c97598a2bd2555d1aa",
            "8cb08e48590dbb3da7b08b1056828838c5f61e6393ba7a0abcc9f662898015ad",
            "00000000000000000000000000000200",
        ],
        "4db870d37cb75fcb46097c36230d1612",
    )
    known(
        "acbef20579b4b8ebce889bac8732dad7",
        [
            "feedfacedeadbeeffeedfacedeadbeefabaddad2000000000000000000000000",
            "522dc1f099567d07f47f37a32a84427d643a8cdcbfe5c0c97598a2bd2555d1aa",
            "8cb08e48590dbb3da7b08b1056828838c5f61e6393ba7a0abcc9f66200000000",
            "00000000000000a000000000000001e0",
        ],
        "8bd0c4d8aacd391e67cca447e8c38f65",
    )

    file.note("Of no blocks, of zero, of the one, and of the highest power of x.")
    known("d7db3421bbedbf1657b0a788a89df2cd", [], "00000000000000000000000000000000")
    known("00" * 16, ["722bfa48df7e05c2bf0c4af334803a41"], "00" * 16)
    known("80" + "00" * 15, ["ea2c3cc9965db6e8d6fa93875bdd8753"], "ea2c3cc9965db6e8d6fa93875bdd8753")
    known("be287a7f9b0e4bda7aba220fb11271c1", ["80" + "00" * 15], "be287a7f9b0e4bda7aba220fb11271c1")
    known("4ae2215217e2034ac047876410ae810d", ["00" * 15 + "01"], "3914fbda7b888c770bea5403a9e67995")
    known("00" * 15 + "01", ["00" * 15 + "01"], "e6080000000000000000000000000003")
    known("ff" * 16, ["ff" * 16], "f402aaaaaaaaaaaaaaaaaaaaaaaaaaaa")
    known(
        "2bec6a908544d65e0a997ac1153027e2",
        ["00" * 16, "c59203d185d1f1e1a25f6ece37a58f56"],
        "19e7383acbeaaa396f49922df74d8aef",
    )
    known(
        "0b7c6c9e235a3cbb18d9ea1ccdf27566",
        ["72b48a364e85af34171cc4a781be8edf", "00" * 16],
        "e791225834a2a6678d46b802474ea462",
    )

    file.note("Of sealed texts, of the earlier tests.")
    for subkey, blocks, want in SEALED_BEFORE:
        known(subkey, blocks, want)

    file.note("Each power of x, times itself and times a random block.")
    for place in range(128):
        power = block_of(1 << place)
        made(power, power)
        made(power, file.bytes(16))

    file.note("Two blocks under each power of x.")
    for place in range(128):
        made(block_of(1 << place), file.bytes(32))

    file.note("Random subkeys and 1 to 40 random blocks.")
    for count in range(1, 41):
        for _ in range(3):
            made(file.bytes(16), file.bytes(16 * count))

    file.note("What AES-256-GCM of Python's cryptography hashes of random texts and additional data.")
    for _ in range(60):
        key, iv = file.bytes(32), file.bytes(12)
        aad, text = file.bytes(file.random.randrange(71)), file.bytes(file.random.randrange(71))
        made(*sealed_blocks(key, iv, aad, text))

    file.note("256 blocks.")
    made(file.bytes(16), file.bytes(4096))
    file.write()


SEALED_BEFORE = [
    ("feafe388038ccfcb00ec912b63aa17b2", ["00" * 16], "00" * 16),
    (
        "bc971bd97a3b80ee242a6ab86361024b",
        ["52000000000000000000000000000000", "00000000000000080000000000000000"],
        "bf87e530cefcce5818f28a43652ea4e0",
    ),
    (
        "616586eb37bb9307927cd0acbbb7d19b",
        ["ad097e15140a0755af7ca2e1f233fbd1", "00000000000000800000000000000000"],
        "01848d83a52734c1b585c6f8b134f099",
    ),
    (
        "ba56d04a27bd53926b7ee190c5f6b164",
        ["c64106ce74b2b25872ff0e926d8465f1", "5041ec3fa8bbf97ea6ca1ca015125700", "000000000000000000000000000000f8"],
        "78b320de42b76c9858f2ea2f108d9a64",
    ),
    (
        "e10a19c455e02f0df57f94338c1b4525",
        [
            "28ebf6a763857afd9c92629929eaf045",
            "1b55c4a34acaca9cbc091343e431b495",
            "cc000000000000000000000000000000",
            "ee33e90d6fa0e6d675dea9e42c8603ec",
            "db18a5dda239ed5c79b8e53d51307575",
            "7afbc5e4dd3c9a094bd118bfc6b98b86",
            "00000000000001080000000000000180",
        ],
        "f9da49d9e60d762f3aec134346ce01d7",
    ),
    (
        "0a42f635c0a526b5d8c1fd86752bc470",
        [
            "4c2112922384fb9278fe4429de1c32dd",
            "29062309000000000000000000000000",
            "311bac057e760d254ed1d34295af8bd5",
            "5cb4b4ef39ba57b202ea1fca46cf8334",
            "8019047376a09b56a8319fc5170ab5e7",
            "851e633c6c146cac84638ac76ef147a6",
            "64cb766cc978b66b7a5cecb0d40e7661",
            "8a05ed7b716403c9f3d8cdc195d6330b",
            "88f254ad9215b819602eb18c666fe315",
            "e79de97f9b1626090000000000000000",
            "00000000000000a000000000000003c0",
        ],
        "3eaee535723e530de3c77cbab16e185a",
    ),
]

if __name__ == "__main__":
    main()
