"""Makes gcm.txt. Run: python3 -B tools/make_gcm.py (wants the package cryptography)."""

from cryptography.hazmat.primitives.ciphers.aead import AESGCM

from vectors import File, hexadecimal

HEAD = """
AES-256-GCM (SP 800-38D) with a key of 32 bytes, an IV of 12 and a tag of 16, in hexadecimal; `-` are no
bytes.

seal | key | IV | additional data | text | ciphertext tag
    (that the tag opens the ciphertext to the text again is asked too)
open | key | IV | additional data | ciphertext | tag | text, or `refused`
    (that a refused call keeps the buffer is asked too)
open_bits | key | IV | additional data | ciphertext | tag | how many of the 128 tags that differ from this
    one in one bit are refused, with the buffer as it was

Made by tools/make_gcm.py. The published tags stand there, and are compared with those of Python's cryptography,
which made all others.
"""

ZERO_KEY, ZERO_IV = bytes(32), bytes(12)


def sealed(key, iv, aad, text):
    both = AESGCM(key).encrypt(iv, text, aad)
    return both[:-16], both[-16:]


def filled(size, seed):
    """The bytes 0, 1, 2 and so on, modulo 251, each with the bits of the seed changed."""
    return bytes((i % 251) ^ (seed % 256) for i in range(size))


def flipped(data, bit):
    changed = bytearray(data)
    changed[bit // 8] ^= 1 << (bit % 8)
    return bytes(changed)


class Gcm(File):
    def seal(self, key, iv, aad, text):
        cipher, tag = sealed(key, iv, aad, text)
        self.case("seal", key, iv, aad, text, hexadecimal(cipher) + " " + hexadecimal(tag))
        return cipher, tag

    def opened(self, key, iv, aad, cipher, tag):
        """The answer of `open`, asked of Python's cryptography too."""
        try:
            answer = hexadecimal(AESGCM(key).decrypt(iv, cipher + tag, aad))
        except Exception:
            answer = "refused"
        self.case("open", key, iv, aad, cipher, tag, answer)
        return answer

    def refused(self, key, iv, aad, cipher, tag):
        assert self.opened(key, iv, aad, cipher, tag) == "refused"

    def published(self, key, iv, aad, text, tag, cipher=None):
        key, iv, aad, text = (bytes.fromhex(part) for part in (key, iv, aad, text))
        made, made_tag = self.seal(key, iv, aad, text)
        assert made_tag.hex() == tag and (cipher is None or made.hex() == cipher)


def published(file):
    file.note('Test cases 13 to 16 of "The Galois/Counter Mode of Operation" (McGrew and Viega).')
    key, iv = "feffe9928665731c6d6a8f9467308308" * 2, "cafebabefacedbaddecaf888"
    text = (
        "d9313225f88406e5a55909c5aff5269a86a7a9531534f7da2e4c303d8a318a72"
        "1c3c0c95956809532fcf0e2449a6b525b16aedf5aa0de657ba637b391aafd255"
    )
    cipher = (
        "522dc1f099567d07f47f37a32a84427d643a8cdcbfe5c0c97598a2bd2555d1aa"
        "8cb08e48590dbb3da7b08b1056828838c5f61e6393ba7a0abcc9f662898015ad"
    )
    zeros = ("00" * 32, "00" * 12, "")
    file.published(*zeros, "", "530f8afbc74536b9a963b4f1c4cb738b")
    file.published(*zeros, "00" * 16, "d0d1c8a799996bf0265b98b5d48ab919", "cea7403d4d606b6e074ec5d3baf39d18")
    file.published(key, iv, "", text, "b094dac5d93471bdec1a502270e3cc6c", cipher)
    aad = "feedfacedeadbeeffeedfacedeadbeefabaddad2"
    file.published(key, iv, aad, text[:120], "76fc6ece0f4e1768cddf8853bb2d551b", cipher[:120])

    file.note("NIST's CAVP, gcmEncryptExtIV256.rsp.")
    for case in CAVP:
        file.published(*case)

    file.note("MACsec GCM-AES Test Vectors (IEEE 802.1), those with a key of 256 bits.")
    for case in MACSEC:
        file.published(*case)


def earlier(file):
    file.note("The earlier tests: keys, IVs, additional data and texts by a seed, of these lengths.")
    for seed, text_size, aad_size, tag in EARLIER:
        key, iv = filled(32, seed), filled(12, seed + 1)
        _, made = file.seal(key, iv, filled(aad_size, seed + 2), filled(text_size, seed + 3))
        assert made == tag.to_bytes(16, "big"), seed

    file.note("Each bit of the tag, of texts of these lengths under zeros, and the tag itself.")
    for size in [0, 1, 15, 16, 17, 4096]:
        aad = b"additional data"
        cipher, tag = sealed(ZERO_KEY, ZERO_IV, aad, bytes(size))
        file.case("open_bits", ZERO_KEY, ZERO_IV, aad, cipher, tag, "128 refused")
        assert file.opened(ZERO_KEY, ZERO_IV, aad, cipher, tag) == hexadecimal(bytes(size))


def lengths(file):
    file.note("Texts of 0 to 70 bytes, with additional data of three random lengths to 70 each.")
    for size in range(71):
        for aad_size in file.random.sample(range(71), 3):
            file.seal(file.bytes(32), file.bytes(12), file.bytes(aad_size), file.bytes(size))

    file.note("Additional data of 0 to 70 bytes, with texts of three random lengths to 70 each.")
    for aad_size in range(71):
        for size in file.random.sample(range(71), 3):
            file.seal(file.bytes(32), file.bytes(12), file.bytes(aad_size), file.bytes(size))

    file.note("Longer ones, up to 4,096 bytes.")
    sizes = [(127, 128), (128, 129), (129, 127), (255, 0), (256, 1), (257, 16), (1023, 17), (1024, 255)]
    sizes += [(0, 256), (1, 1023), (16, 1024), (4095, 0), (4096, 12), (4080, 4095), (12, 4096), (4096, 4096)]
    for size, aad_size in sizes:
        file.seal(file.bytes(32), file.bytes(12), file.bytes(aad_size), file.bytes(size))


def edges(file):
    file.note("Keys and IVs of zeros and of ones, and of one bit.")
    for key in [ZERO_KEY, b"\xff" * 32, b"\x80" + bytes(31), bytes(31) + b"\x01"]:
        for iv in [ZERO_IV, b"\xff" * 12, b"\x80" + bytes(11), bytes(11) + b"\x01"]:
            file.seal(key, iv, b"", b"")
            file.seal(key, iv, bytes(20), bytes(36))

    file.note("Texts and additional data of zeros and of ones.")
    key, iv = file.bytes(32), file.bytes(12)
    for aad in [bytes(16), b"\xff" * 16, bytes(17), b"\xff" * 31]:
        for text in [bytes(16), b"\xff" * 16, bytes(15), b"\xff" * 33]:
            file.seal(key, iv, aad, text)


def openings(file):
    file.note("One bit of the key, the IV, the additional data, the ciphertext or the tag changed.")
    for _ in range(40):
        parts = [file.bytes(32), file.bytes(12), file.bytes(file.random.randrange(1, 40))]
        cipher, tag = sealed(*parts, file.bytes(file.random.randrange(1, 40)))
        parts += [cipher, tag]
        assert file.opened(*parts) != "refused"
        for at in range(5):
            wrong = list(parts)
            wrong[at] = flipped(parts[at], file.random.randrange(8 * len(parts[at])))
            file.refused(*wrong)

    file.note("Bytes moved between the additional data and the ciphertext, and their order changed.")
    for _ in range(20):
        key, iv = file.bytes(32), file.bytes(12)
        aad, text = file.bytes(file.random.randrange(17, 50)), file.bytes(file.random.randrange(17, 50))
        cipher, tag = sealed(key, iv, aad, text)
        for count in [1, 15, 16]:
            file.refused(key, iv, aad + cipher[:count], cipher[count:], tag)
            file.refused(key, iv, aad[:-count], aad[-count:] + cipher, tag)
        file.refused(key, iv, cipher, aad, tag)
        file.refused(key, iv, aad[::-1], cipher, tag)
        file.refused(key, iv, aad + b"\x00", cipher, tag)
        file.refused(key, iv, aad, cipher + b"\x00", tag)
        file.refused(key, iv, aad, cipher[:-1], tag)
        file.refused(key, iv, b"", aad + cipher, tag)

    file.note("A zero more or less at the end: padding is told from bytes.")
    key, iv = file.bytes(32), file.bytes(12)
    for size in [0, 1, 14, 15, 16, 17]:
        cipher, tag = sealed(key, iv, bytes(size), bytes(size))
        file.refused(key, iv, bytes(size + 1), cipher, tag)
        file.refused(key, iv, bytes(size), cipher + b"\x00", tag)

    file.note("Tags of others: of zeros, of ones, of another text, of another IV, its halves exchanged.")
    key, iv, other = file.bytes(32), file.bytes(12), file.bytes(12)
    aad, text = file.bytes(20), file.bytes(20)
    cipher, tag = sealed(key, iv, aad, text)
    for wrong in [bytes(16), b"\xff" * 16, sealed(key, iv, aad, text[::-1])[1], sealed(key, other, aad, text)[1]]:
        file.refused(key, iv, aad, cipher, wrong)
    file.refused(key, iv, aad, cipher, tag[8:] + tag[:8])
    file.refused(key, iv, aad, cipher, tag[::-1])

    file.note("Each bit of random tags.")
    for _ in range(10):
        key, iv = file.bytes(32), file.bytes(12)
        aad, text = file.bytes(file.random.randrange(71)), file.bytes(file.random.randrange(71))
        cipher, tag = sealed(key, iv, aad, text)
        file.case("open_bits", key, iv, aad, cipher, tag, "128 refused")


CAVP = [
    ("b52c505a37d78eda5dd34f20c22540ea1b58963cf8e5bf8ffa85f9f2492505b4", "516c33929df5a3284ff463d7", "", "", "bdc1ac884d332457a1d2664f168c76f0"),
    ("5fe0861cdc2690ce69b3658c7f26f8458eec1c9243c5ba0845305d897e96ca0f", "770ac1a5a3d476d5d96944a1", "", "", "196d691e1047093ca4b3d2ef4baba216"),
    ("7620b79b17b21b06d97019aa70e1ca105e1c03d2a0cf8b20b5a0ce5c3903e548", "60f56eb7a4b38d4f03395511", "", "", "f570c38202d94564bab39f75617bc87a"),
    ("78dc4e0aaf52d935c3c01eea57428f00ca1fd475f5da86a49c8dd73d68c8e223", "d79cf22d504cc793c3fb6c8a", "b96baa8c1c75a671bfb2d08d06be5f36", "", "3e5d486aa2e30b22e040b85723a06e76"),
    ("31bdadd96698c204aa9ce1448ea94ae1fb4a9a0b3c9d773b51bb1822666b8f22", "0d18e06c7c725ac9e362e1ce", "", "2db5168e932556f8089a0622981d017d", "d636ac1bbedd5cc3ee727dc2ab4a9489", "fa4362189661d163fcd6a56d8bf0405a"),
    ("92e11dcdaa866f5ce790fd24501f92509aacf4cb8b1339d50c9c1240935dd08b", "ac93a1a6145299bde902f21a", "1e0889016f67601c8ebea4943bc23ad6", "2d71bcfa914e4ac045b2aa60955fad24", "eca5aa77d51d4a0a14d9c51e1da474ab", "8995ae2e6df3dbf96fac7b7137bae67f"),
]


def frame(end, last):
    """The data of those frames: 08000f, the bytes from 10 up to an end, and two bytes that name the frame."""
    return "08000f" + bytes(range(0x10, end)).hex() + last


MACSEC = [
    ("e3c08a8f06c6e3ad95a70557b23f75483ce33021a9c72b7025666204c69c0b72", "12153524c0895e81b2c28465", "d609b1f056637a0d46df998d88e5222ab2c2846512153524c0895e81" + frame(0x35, "0001"), "", "2f0bc5af409e06d609ea8b7d0fa5ea50"),
    ("e3c08a8f06c6e3ad95a70557b23f75483ce33021a9c72b7025666204c69c0b72", "12153524c0895e81b2c28465", "d609b1f056637a0d46df998d88e52e00b2c2846512153524c0895e81", frame(0x3b, "0002"), "5ca597cdbb3edb8d1a1151ea0af7b436", "e2006eb42f5277022d9b19925bc419d7a592666c925fe2ef718eb4e308efeaa7c5273b394118860a5be2a97f56ab7836"),
    ("691d3ee909d7f54167fd1ca0b5d769081f2bde1aee655fdbab80bd5295ae6be7", "f0761e8dcd3d000176d457ed", "e20106d7cd0df0761e8dcd3d88e5400076d457ed" + frame(0x3b, "0003"), "", "35217c774bbc31b63166bcf9d4abed07"),
    ("83c093b58de7ffe1c0da926ac43fb3609ac1c80fee1b624497ef942e2f79a823", "7cfde9f9e33724c68932d612", "84c5d513d2aaf6e5bbd2727788e523008932d6127cfde9f9e33724c6" + frame(0x40, "0005"), "", "6ee160e8faeca4b36c86b234920ca975"),
    ("4c973dbc7364621674f8b5b89e5c15511fced9216490fb1c1a2caa0ffe0407e5", "7ae8e2ca4ec500012e58495c", "68f2e77696ce7ae8e2ca4ec588e54d002e58495c", frame(0x4a, "0008"), "2611cd7daa01d61c5c886dc1a8170107"),
]

EARLIER = [
    (11, 0, 0, 0xd8215b9abf907a39984c2444887d3514),
    (48, 1, 0, 0xf5bec49492264772b0b6f6c5c05887a7),
    (85, 15, 0, 0x2eea3a78cc66900dad688c4104e3a2e4),
    (122, 16, 0, 0xd7060afbf8f8928e7204e68334e8ba8d),
    (159, 17, 0, 0x5a97cdceb8cf118781b265744f617bf7),
    (196, 31, 0, 0xd1f1cc6b049bf37d811565ecfacd696d),
    (233, 32, 0, 0xd5151bf673e05e10bd81200faa50b1ef),
    (14, 33, 0, 0x5086406567d7f85a2dcce2826e48f772),
    (51, 4096, 0, 0x90c8604b8fb5832cffaf595bc62d6ed4),
    (88, 0, 1, 0x064b00d1ac12c1541540e99881c756bd),
    (125, 0, 15, 0xc2a6eaf2488b54240d578f3472e33364),
    (162, 0, 16, 0x6f5cd5d770393652908f3be6731c33cc),
    (199, 0, 17, 0x67216dc75464a4b1576c3a9fb55816a4),
    (236, 0, 31, 0xe2c22f16b21864fd75906d58668a55df),
    (17, 0, 32, 0x8b3f0909c4f065dd8a893af9f6329b38),
    (54, 0, 33, 0x99091d91d53993867a7d35f21963980e),
    (91, 0, 4096, 0x592c4b7d8d78ae9b6a1884dc009ab9b3),
    (128, 1, 33, 0xedfb3f3215e60603f3b9bfcc4dc31ae1),
    (165, 15, 16, 0x71992ed2bc6e3eef8d0026fa75221e34),
    (202, 16, 15, 0x74f8110b690843b7123dfdfde14b2522),
    (239, 17, 1, 0x2a2ae09aee2fbc9d1e7b4ce3b1ebffd1),
    (20, 31, 32, 0xfe3170d2b5375e9fdeb129c524dee08b),
    (57, 32, 31, 0xe7a2a5f6ab4566c478db96f73d853077),
    (94, 33, 17, 0x352d9e68e1a22c2171ca4ac8236676f8),
    (131, 4096, 4096, 0x7198597a1ef02e7e71dd134009112573),
    (168, 33, 4096, 0x4edce65a0a64862cf1e67e935999e982),
    (205, 4096, 33, 0x2eb73992ac583fbe89ed6067e25d87ac),
    (242, 16, 16, 0x2fe3b4ea60f419e10a70ca19a424df9f),
]


def main():
    file = Gcm("gcm.txt", HEAD)
    published(file)
    earlier(file)
    lengths(file)
    edges(file)
    openings(file)
    file.write()


if __name__ == "__main__":
    main()
