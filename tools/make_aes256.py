"""Makes aes256.txt. Run: python3 -B tools/make_aes256.py (wants the package cryptography)."""

from cryptography.hazmat.primitives.ciphers import Cipher, algorithms, modes

from vectors import File, counted

HEAD = """
AES-256 (FIPS 197): a key, a block and the cipher's block, in hexadecimal.

encrypt | key of 32 bytes | block of 16 bytes | block of 16 bytes

Made by tools/make_aes256.py. The published blocks stand there as the standards have them, and are compared
with those of Python's cryptography, which made all others.
"""

FIPS_197_KEY = counted(32).hex()
SP_800_38A_KEY = "603deb1015ca71be2b73aef0857d77811f352c073b6108d72d9810a30914dff4"


def encrypted(key, block):
    cipher = Cipher(algorithms.AES(key), modes.ECB()).encryptor()
    return cipher.update(block) + cipher.finalize()


def main():
    file = File("aes256.txt", HEAD)

    def published(key, block, want):
        key, block, want = bytes.fromhex(key), bytes.fromhex(block), bytes.fromhex(want)
        assert encrypted(key, block) == want
        file.case("encrypt", key, block, want)

    def made(key, block):
        file.case("encrypt", key, block, encrypted(key, block))

    file.note("FIPS 197 (2001), appendix C.3.")
    published(FIPS_197_KEY, "00112233445566778899aabbccddeeff", "8ea2b7ca516745bfeafc49904b496089")

    file.note("SP 800-38A, appendix F.1.5: the key is that of FIPS 197's appendix A.3.")
    for block, want in [
        ("6bc1bee22e409f96e93d7e117393172a", "f3eed1bdb5d2a03c064b5a7e3db181f8"),
        ("ae2d8a571e03ac9c9eb76fac45af8e51", "591ccb10d410ed26dc5ba74a31362870"),
        ("30c81c46a35ce411e5fbc1191a0a52ef", "b6ed21b99ca6f4f9f153e7b1beafed1d"),
        ("f69f2445df4f9b17ad2b417be66c3710", "23304b7a39f9f3ff067d8d8f9e24ecc7"),
    ]:
        published(SP_800_38A_KEY, block, want)

    file.note("SP 800-38A, appendix F.5.5: the first output block of its counter mode.")
    published(SP_800_38A_KEY, "f0f1f2f3f4f5f6f7f8f9fafbfcfdfeff", "0bdf7df1591716335e9a8b15c860c502")

    file.note("Keys and blocks of zeros and of ones, and of one bit.")
    made(bytes(32), bytes(16))
    made(b"\xff" * 32, b"\xff" * 16)
    made(bytes(32), b"\xff" * 16)
    made(b"\xff" * 32, bytes(16))
    made(bytes(31) + b"\x01", bytes(16))
    made(b"\x80" + bytes(31), bytes(15) + b"\x80")

    file.note("Random keys and blocks of the earlier tests.")
    for key, block in [
        ("f59e5fab0865b13302cc35a0dd21bbe805397e1ca374fae88eac683e8c544cfd", "64153893d4ecadc731e75d17e90399fc"),
        ("02c1ef6a89da4ba353a71f4375d0649d7e8a1c46b1036cbba3fa6d61c6b3cbed", "6d661027dcc3c61910fd62d6e8499876"),
        ("656994ef62183a651e3edfd21a0f38efc36de17c85a27557567b600903bc17f4", "4ebc3d463b25156059bf6b82a4886434"),
        ("c809b4ad57e87327cfdc33eea31b1468d35c65d244886f16bf9e8a4f4cb965cc", "e4120805b2e077c8c7cc69617fc576ed"),
    ]:
        made(bytes.fromhex(key), bytes.fromhex(block))

    file.note("Each bit of the key alone, with a block of zeros.")
    for bit in range(256):
        made((1 << (255 - bit)).to_bytes(32, "big"), bytes(16))

    file.note("Each bit of the block alone, under a key of zeros.")
    for bit in range(128):
        made(bytes(32), (1 << (127 - bit)).to_bytes(16, "big"))

    file.note("Blocks of 16 equal bytes under a key of 32 equal ones: each entry of the substitution table.")
    for byte in range(256):
        made(bytes([byte]) * 32, bytes([byte]) * 16)

    file.note("Random keys and blocks.")
    for _ in range(200):
        made(file.bytes(32), file.bytes(16))
    file.write()


if __name__ == "__main__":
    main()
