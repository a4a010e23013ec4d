"""Makes contexts.txt. Run: python3 -B tools/make_contexts.py."""

import struct

from vectors import File, hexadecimal

HEAD = """
Encryption contexts. A context is written as its pairs, a key, `=` and a value, with `, ` between two; `-` is
the context of no pairs.

encode | pairs | the size of the encoding and the encoding in hexadecimal (`-` are no bytes), or `TooLong`
    (that it stands behind what the buffer had is asked too)
pairs | pairs | the pairs in the context's order
copy | pairs | the pairs of a copy in order
    (that the copy equals the context is asked too)
includes | pairs | pairs | whether each pair of the second context is in the first
equal | pairs | pairs | whether both have the same pairs

Made by tools/make_contexts.py with Python's struct, dict and sorted: the pairs by the UTF-8 bytes of their
keys; of each the length of the key in 4 bytes, high byte first, the key, the length of the value so, the
value; at most 8,192 bytes.
"""


def encoding(context):
    out = b""
    for key, value in sorted((key.encode(), value.encode()) for key, value in context.items()):
        out += struct.pack(">I", len(key)) + key + struct.pack(">I", len(value)) + value
    return out


def written(context):
    return ", ".join(key + "=" + value for key, value in context.items()) or "-"


def in_order(context):
    return dict(sorted(context.items(), key=lambda pair: pair[0].encode()))


def main():
    file = File("contexts.txt", HEAD)

    def encode(context):
        out = encoding(context)
        answer = "TooLong" if len(out) > 8192 else str(len(out)) + " " + hexadecimal(out)
        file.case("encode", written(context), answer)
        return out

    def pairs(context):
        file.case("pairs", written(context), written(in_order(context)))

    def copy(context):
        file.case("copy", written(context), written(in_order(context)))

    def compare(held, asked, includes=None, equal=None):
        has_all = all(held.get(key) == value for key, value in asked.items())
        assert includes in (None, has_all) and equal in (None, held == asked)
        file.case("includes", written(held), written(asked), str(has_all).lower())
        file.case("equal", written(held), written(asked), str(held == asked).lower())

    file.note("The earlier tests.")
    encode({})
    assert encode({"b": "2", "a": "1"}).hex() == "0000000161000000013100000001620000000132"
    several = {"\u00e4": "x", "": "empty", "Z": "", "ab": "1", "a": "\u00e4\u00df", "\U0001f511": "key", "\ufffd": "r"}
    assert encode(several).startswith(b"\x00\x00\x00\x00\x00\x00\x00\x05empty\x00\x00\x00\x01Z\x00\x00\x00\x00\x00\x00\x00\x01a")
    for context in [{}, {"b": "2", "a": "1"}, several]:
        pairs(context)

    file.note("The longest encoding has 8,192 bytes.")
    encode({"k": "v" * 8183})
    encode({"k": "v" * 8184})
    encode({"a": "v" * 4096, "b": "v" * 4096})
    encode({"a": "v" * 4087, "b": "v" * 4087})
    encode({"a": "v" * 4087, "b": "v" * 4088})
    encode({"k" * 8184: ""})
    encode({"k" * 8185: ""})
    encode({"": "\u00e4" * 4092})
    encode({"": "\u00e4" * 4092 + "v"})
    encode({str(i): "v" for i in range(720)})
    encode({str(i): "v" for i in range(712)})
    encode({str(i): "v" for i in range(685)})

    file.note("Thirty pairs are put in order.")
    thirty = {str(i): "v" for i in reversed(range(30))}
    assert list(in_order(thirty)) == "0 1 10 11 12 13 14 15 16 17 18 19 2 20 21 22 23 24 25 26 27 28 29 3 4 5 6 7 8 9".split()
    pairs(thirty)

    file.note("Contexts compared.")
    none, one, other_value, other_case = {}, {"a": "1"}, {"a": "2"}, {"A": "1"}
    two, turned, three = {"a": "1", "b": "2"}, {"b": "2", "a": "1"}, {"a": "1", "b": "2", "c": "3"}
    compare(none, none, True, True)
    compare(one, none, True, False)
    compare(none, one, False, False)
    compare(two, turned, True, True)
    compare(three, turned, True, False)
    compare(one, other_value, False, False)
    compare(two, other_case, False, False)

    file.note("What stands in a buffer is kept, and the encoding comes behind it; copies equal their sources.")
    encode({"a": "1"})
    copy({"k": "v"})
    copy({"a": "1", "b": "2"})
    copy({})
    copy(several)

    file.note("Keys that begin one another, keys of other letters, and the order of UTF-8 bytes.")
    for context in [
        {"a": "", "aa": "", "aaa": "", "": ""},
        {"b": "1", "B": "2", "a": "3", "A": "4"},
        {"aws:s3:arn": "arn:aws:s3:::bucket/key", "aws": "x", "aws:": "y"},
        {"\u007f": "1", "\u0080": "2", "\u07ff": "3", "\u0800": "4", "\ud7ff": "5", "\ue000": "6", "\uffff": "7", "\U00010000": "8"},
        {"~": "1", "\u00e9": "2", "e\u0301": "3", "z": "4"},
        {"1": "a", "10": "b", "2": "c", "01": "d"},
        {"key with spaces": "value with spaces", "a b": "=", "c": "a=b=c"},
    ]:
        encode(context)
        pairs(context)
        copy(context)

    file.note("A byte moved from a key to its value, from a value to the next key: other encodings.")
    for context in [{"ab": "c"}, {"a": "bc"}, {"": "abc"}, {"abc": ""}, {"a": "b", "c": "d"}, {"a": "", "bc": "d"}, {"a": "bc", "d": ""}]:
        encode(context)

    file.note("Random contexts of 0 to 8 pairs, compared with themselves, with parts and with changed ones.")
    letters = "abAB01-_/.\u00e4\u20ac\U0001f600"
    for count in list(range(9)) * 5:
        context = {}
        while len(context) < count:
            word = "".join(file.random.choice(letters) for _ in range(file.random.randrange(0, 5)))
            context[word] = "".join(file.random.choice(letters) for _ in range(file.random.randrange(0, 12)))
        shuffled = list(context.items())
        file.random.shuffle(shuffled)
        encode(dict(shuffled))
        pairs(dict(shuffled))
        compare(context, dict(shuffled), True, True)
        part = dict(file.random.sample(shuffled, file.random.randrange(count + 1)))
        compare(context, part)
        compare(part, context)
        if context:
            changed = dict(context)
            key = file.random.choice(list(context))
            changed[key] += "x"
            compare(context, changed, False, False)
            del changed[key]
            changed[key + "x"] = context[key]
            compare(context, changed, context.get(key + "x") == context[key] or False)
    file.write()


if __name__ == "__main__":
    main()
