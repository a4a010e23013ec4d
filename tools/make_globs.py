"""Makes globs.txt. Run: python3 -B tools/make_globs.py."""

import re

from vectors import File

HEAD = """
Patterns with `*`, which matches any run of characters, and `?`, which matches any one; any other character
matches itself. A text is written as it is, and the empty one as `''`.

glob | pattern | text | whether it matches
pattern | pattern | text | the same, of the pattern read once
glob_nocase | pattern | text | the same, with ASCII letters in lower case on both sides
compiled | pattern | text | as `glob`, of `glob_patterns`
compiled_nocase | pattern | text | as `glob_nocase`, of `glob_patterns`
size_of_steps | the size in bytes of a counter of comparisons

Made by tools/make_globs.py. The answers by hand are compared there with those of Python's `re` for the pattern
with `*` as `.*` and `?` as `.`, which gave all others.
"""

EXACT = [
    ("arn:aws:*:k?y/*", "arn:aws:kms:x:key/1", True),
    ("", "", True),
    ("", "a", False),
    ("*", "", True),
    ("*", "aé€𝄞z", True),
    ("?", "é", True),
    ("?", "𝄞", True),
    ("?", "", False),
    ("??", "é", False),
    ("a*b*c", "abc", True),
    ("a*b*c", "axxbyycc", True),
    ("a*b*c", "acb", False),
    ("a*b*c", "abcd", False),
    ("*a*a", "aa", True),
    ("*a*a", "a", False),
    ("*ab", "aab", True),
    ("a?c", "ac", False),
    ("kms:*", "KMS:Encrypt", False),
    ("*é", "café", True),
    ("*?", "", False),
    ("abc", "ab", False),
    ("*a?", "aab", True),
    ("*.*.c", "a.b.b.c", True),
    ("x*y?z", "xaay1z", True),
]

MORE_EXACT = [
    ("**", "", True),
    ("**", "a", True),
    ("***a", "a", True),
    ("?*", "", False),
    ("?*", "a", True),
    ("*?*", "a", True),
    ("*??", "a", False),
    ("a", "", False),
    ("a", "a", True),
    ("a", "A", False),
    ("a", "aa", False),
    ("*", "*", True),
    ("?", "*", True),
    ("?", "?", True),
    ("a", "?", False),
    ("a", "*", False),
    ("a*", "a*", True),
    ("[a]", "a", False),
    ("[a]", "[a]", True),
    ("\\*", "*", False),
    ("\\*", "\\x", True),
    ("\\?", "\\a", True),
    (".", "a", False),
    ("a|b", "a", False),
    ("a|b", "a|b", True),
    ("^a$", "a", False),
    ("a b", "a b", True),
    ("é", "e\u0301", False),
    ("??", "e\u0301", True),
    ("𝄞?", "𝄞𝄞", True),
    ("*𝄞", "𝄞𝄞", True),
    ("arn:aws:kms:*:111122223333:key/*", "arn:aws:kms:us-east-1:111122223333:key/6ba7b810-9dad-11d1-80b4-00c04fd430c8", True),
    ("arn:aws:kms:*:111122223333:key/*", "arn:aws:kms:us-east-1:999999999999:key/x", False),
    ("arn:aws:kms:*:111122223333:alias/app-?", "arn:aws:kms:eu-west-1:111122223333:alias/app-1", True),
    ("arn:aws:kms:*:111122223333:alias/app-?", "arn:aws:kms:eu-west-1:111122223333:alias/app-12", False),
    ("*:key/*", "arn:aws:kms:us-east-1:111122223333:alias/x", False),
    ("mississ*issippi", "mississippi", False),
    ("m*iss*iss*ippi", "mississippi", True),
    ("*abab*", "aababa", True),
    ("*abab*", "aabaab", False),
    ("*abab*", "aabababx", True),
    ("*aab", "aaaaaab", True),
    ("a*a*a*a*b", "aaaaaaaaaa", False),
]

NOCASE = [
    ("KMS:re*", "kms:ReEncryptFrom", True),
    ("kms:ENCRYPT", "kms:encrypt", True),
    ("É", "é", False),
    ("k", "\u212a", False),
    ("ſ", "s", False),
    ("A?", "aé", True),
    ("A?C", "abd", False),
]

MORE_NOCASE = [
    ("", "", True),
    ("kms:*", "KMS:Encrypt", True),
    ("kms:generatedatakey*", "kms:GenerateDataKeyWithoutPlaintext", True),
    ("kms:generatedatakey", "kms:GenerateDataKeyWithoutPlaintext", False),
    ("KMS:?RYPT", "kms:xrypt", True),
    ("@", "`", False),
    ("[", "{", False),
    ("Z", "z", True),
    ("A", "a", True),
    ("İ", "i", False),
    ("ß", "SS", False),
    ("Σ", "σ", False),
    ("*B*", "aaab", True),
    ("*É", "CAFé", False),
    ("*É", "CAFÉ", True),
]


COMPILED = {"glob": "compiled", "pattern": "compiled", "glob_nocase": "compiled_nocase"}


def lowered(text):
    return "".join(chr(ord(c) + 32) if "A" <= c <= "Z" else c for c in text)


def matches(pattern, text):
    parts = {"*": ".*", "?": "."}
    return re.fullmatch("".join(parts.get(c, re.escape(c)) for c in pattern), text, re.DOTALL) is not None


def main():
    file = File("globs.txt", HEAD)

    def case(call, pattern, text, want=None):
        sides = (lowered(pattern), lowered(text)) if call == "glob_nocase" else (pattern, text)
        answer = matches(*sides)
        assert want in (None, answer), (pattern, text)
        file.case(call, pattern or "''", text or "''", str(answer).lower())
        if call == "glob":
            file.case("pattern", pattern or "''", text or "''", str(answer).lower())
        file.case(COMPILED[call], pattern or "''", text or "''", str(answer).lower())

    file.note("The earlier tests.")
    for pattern, text, want in EXACT:
        case("glob", pattern, text, want)
    for pattern, text, want in NOCASE:
        case("glob_nocase", pattern, text, want)

    file.note("200 stars in a pattern, and 400 characters: the answers come soon.")
    for call in ["glob", "pattern", "glob_nocase", "compiled", "compiled_nocase"]:
        file.case(call, "a*" * 200 + "b", "aa" * 200, "false")
        file.case(call, "a*" * 200, "aa" * 200, "true")
        file.case(call, "*a" * 200 + "?", "a" * 400, "true")
    file.case("size_of_steps", "0")

    file.note("More by hand.")
    for pattern, text, want in MORE_EXACT:
        case("glob", pattern, text, want)
    for pattern, text, want in MORE_NOCASE:
        case("glob_nocase", pattern, text, want)

    file.note("Random patterns and texts of few letters.")
    for call in ["glob"] * 250 + ["glob_nocase"] * 150:
        pattern = "".join(file.random.choice("aAbé*?*") for _ in range(file.random.randrange(9)))
        text = "".join(file.random.choice("aAbBé") for _ in range(file.random.randrange(11)))
        case(call, pattern, text)

    file.note("Random texts, and patterns made of them with parts replaced by `*` and characters by `?`.")
    for call in ["glob"] * 150 + ["glob_nocase"] * 100:
        text = "".join(file.random.choice("abcABC:/é𝄞") for _ in range(file.random.randrange(1, 25)))
        pattern = list(text)
        for _ in range(file.random.randrange(1, 5)):
            start, size = file.random.randrange(len(pattern)), file.random.randrange(4)
            pattern[start : start + size] = file.random.choice(["*", "?" * size])
            pattern = pattern or ["*"]
        if file.random.random() < 0.3:
            pattern[file.random.randrange(len(pattern))] = "B"
        case(call, "".join(pattern), text)
    file.note("Texts of more characters than are looked at together, and parts of patterns as long.")
    for call in ["glob"] * 60 + ["glob_nocase"] * 30:
        letters = file.random.choice(["a", "ab", "aé"])
        text = [file.random.choice(letters) for _ in range(file.random.choice([255, 256, 257, 300, 511, 512, 513, 600]))]
        place = file.random.choice([0, 1, 254, 255, 256, 257, 510, 511, 512])
        text[place:place] = file.random.choice(["b", "bb", "É", "€"])
        part = file.random.choice(["b", "b?b", "a?B", "é", "?É", "€", "x", "a" * 30 + "b", "a" * 250 + "b", "a" * 256, "?" * 257 + "b"])
        pattern = file.random.choice(["*{}*", "*{}", "{}*", "*{}*a*", "a*{}*?", "*?{}*{}"]).replace("{}", part)
        case(call, pattern, "".join(text))
    file.write()


if __name__ == "__main__":
    main()
