"""Makes draws.txt. Run: python3 -B tools/make_draws.py (wants the package cryptography)."""

from cryptography.hazmat.primitives.ciphers import Cipher, algorithms

from vectors import File, counted, hexadecimal

HEAD = """
Lines of draws: the words of ChaCha20 (RFC 8439, section 2) with a seed as the key, a nonce of zeros and a
block count of 64 bits, and initialization vectors. Numbers are decimal, bytes hexadecimal; `-` are none.

draws | seed of 32 bytes | words given before | sizes of draws in bytes, with a space between two | what
    each draw gives, or `spent`; then the words given
    (that a spent draw keeps its room is asked too)
vectors | seed | boot | pass number | vectors given before | how often one is asked for | the vectors, or
    `none`; then the vectors given
new | seed | boot | pass number | size of a draw | what the draw gives; the first vector; then the words and
    the vectors given

Made by tools/make_draws.py, with the key stream of Python's cryptography. A draw takes whole words of four
bytes; 2^48 words and 2^48 vectors are given. A vector is the boot in 4 bytes, the pass number in 2 and the
count in 6, high byte first.
"""

LIMIT = 1 << 48
SEED = counted(32)


def stream(seed, word, size):
    """So many bytes of the key stream from a word on."""
    block = word // 16
    nonce = block.to_bytes(8, "little") + bytes(8)
    skipped = 4 * (word % 16)
    encryptor = Cipher(algorithms.ChaCha20(seed, nonce), mode=None).encryptor()
    return encryptor.update(bytes(skipped + size))[skipped:]


def vector(boot, number, count):
    return boot.to_bytes(4, "big") + number.to_bytes(2, "big") + count.to_bytes(6, "big")


def main():
    file = File("draws.txt", HEAD)

    def draws(seed, words, sizes):
        answers, given = [], words
        for size in sizes:
            needed = (size + 3) // 4
            if given + needed > LIMIT:
                answers.append("spent")
                continue
            answers.append(hexadecimal(stream(seed, given, size)))
            given += needed
        sizes = " ".join(str(size) for size in sizes)
        file.case("draws", seed, str(words), sizes, " ".join(answers + [str(given)]))
        return answers

    def vectors(boot, number, given, times):
        answers = []
        for _ in range(times):
            if given == LIMIT:
                answers.append("none")
                continue
            answers.append(vector(boot, number, given).hex())
            given += 1
        start = given - sum(answer != "none" for answer in answers)
        words = " ".join(answers + [str(given)])
        file.case("vectors", SEED, str(boot), str(number), str(start), str(times), words)

    def new(seed, boot, number, size):
        words = [hexadecimal(stream(seed, 0, size)), vector(boot, number, 0).hex(), str((size + 3) // 4), "1"]
        file.case("new", seed, str(boot), str(number), str(size), " ".join(words))

    file.note("RFC 8439, appendix A.1: the key streams of test vectors 1 and 2, and of 4, blocks of keys of zeros\nand of one bit.")
    assert draws(bytes(32), 0, [64])[0].startswith("76b8e0ada0f13d90405d6ae55386bd28bdd219b8a08ded1aa836efcc8b770dc7")
    assert draws(bytes(32), 16, [64])[0].startswith("9f07e7be5551387a98ba977c732d080dcb0f29a048e3656912c6533e32ee7aed")
    assert draws(b"\x00\xff" + bytes(30), 32, [64])[0].startswith("72d54dfbf12ec44b362692df94137f328fea8da73990265ec1bbbea1ae9af0ca")

    file.note("The earlier tests: at word 0, over the end of a block, over the end of 32 bits of blocks, and up to the\nlast word.")
    for words, want in [
        (0, "39fd2b7dd9c5196a8dbd0377b8dc4a49"),
        (14, "c22762a0485b410c18b84231ad"),
        (0xFFFFFFFFE, "912c4e8800301a42d838fb09"),
        (LIMIT - 17, "93309b65c200d052b6880ae146cb482d21c1256a"),
        (LIMIT - 4, "58a125b011497bc7e7a654352f"),
    ]:
        assert draws(SEED, words, [len(want) // 2]) == [want]

    file.note("A spent draw keeps the room and the line; a smaller one is still given; one of nothing always is.")
    assert draws(SEED, LIMIT - 1, [5, 4, 1, 0]) == ["spent", "2f16746e", "spent", "-"]

    file.note("The vectors of a boot, a pass number and a count. The last one is given once.")
    new(SEED, 0x01020304, 0x0506, 0)
    vectors(0x01020304, 0x0506, 0, 2)
    vectors(1, 2, LIMIT - 1, 2)

    file.note("Each size of a draw from 0 to 70 bytes, and some up to 1,024.")
    for size in list(range(71)) + [127, 128, 129, 255, 256, 257, 1000, 1021, 1022, 1023, 1024]:
        draws(file.bytes(32), file.random.randrange(64), [size])

    file.note("Several draws in turn: what is left of the last word is dropped.")
    for _ in range(60):
        sizes = [file.random.choice([0, 1, 2, 3, 4, 5, 12, 16, 31, 32, 33, 63, 64, 65]) for _ in range(file.random.randrange(2, 8))]
        draws(file.bytes(32), file.random.randrange(1 << 20), sizes)

    file.note("Far along the line.")
    for words in [1 << 31, 1 << 32, (1 << 36) - 1, 1 << 36, (1 << 36) + 15, 1 << 40, (1 << 47) - 3, LIMIT // 3]:
        draws(file.bytes(32), words, [40, 3])

    file.note("At the end of the line: each draw about the last word.")
    for left in range(5):
        for size in [0, 1, 4, 5, 8, 12, 13, 16, 17, 1024]:
            draws(SEED, LIMIT - left, [size, 1])

    file.note("Vectors: the highest boot and pass number, and counts at each byte's end.")
    for count in [0, 0xFF, 0xFFFF, 0xFFFFFF, 0xFFFFFFFF, 0xFFFFFFFFFF, LIMIT - 2, LIMIT - 1, LIMIT]:
        vectors(0xFFFFFFFF, 0xFFFF, count, 3)
        vectors(0, 0, count, 2)
    for _ in range(20):
        vectors(file.random.randrange(1 << 32), file.random.randrange(1 << 16), file.random.randrange(LIMIT), 2)

    file.note("New lines of random seeds.")
    for _ in range(10):
        new(file.bytes(32), file.random.randrange(1 << 32), file.random.randrange(1 << 16), file.random.randrange(60))
    file.write()


if __name__ == "__main__":
    main()
