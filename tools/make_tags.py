"""Makes tags.txt. Run: python3 -B tools/make_tags.py."""

from vectors import File

HEAD = """
Tags of a resource.

put_all | tags | tags that are put | the tags afterwards, or TooMany
drop_keys | tags | keys, with `, ` between two | the tags afterwards
get | tags | key | its value, or none
after | tags | bytes in hexadecimal | the key of the first tag above them, or none
len | tags | how many there are
iter | tags | the tags, one after the other
copied | tags | a copy of the list of them, as they are given
are_proper | tags | whether they may be given to a resource: no key stands twice, and none begins with `aws:` in any case

Tags are KEY=VALUE with a comma between two, in any order where they are given and in byte order of the keys where they are answered; `-` are
none, and so are no bytes.

Made by tools/make_tags.py: the answers are those of Python's dict, set and sorted, over the bytes of the keys in UTF-8.
"""

MOST = 50


def text(tags):
    return ",".join(f"{key}={value}" for key, value in tags) or "-"


def ordered(tags):
    return sorted(tags.items(), key=lambda tag: tag[0].encode())


def put_all(file, before, more):
    after = dict(before) | dict(more)
    file.case("put_all", text(before), text(more), text(ordered(after)) if len(after) <= MOST else "TooMany")


def drop_keys(file, before, keys):
    after = {key: value for key, value in dict(before).items() if key not in keys}
    file.case("drop_keys", text(before), ", ".join(keys) or "-", text(ordered(after)))


def are_proper(file, tags):
    """The keys are all different, and none begins with `aws:`."""
    keys = [key for key, _ in tags]
    proper = len(set(keys)) == len(keys) and not any(key.lower().startswith("aws:") for key in keys)
    file.case("are_proper", text(tags), "true" if proper else "false")


def numbered(first, end):
    return [(f"key-{number:02}", f"value {number}") for number in range(first, end)]


def main():
    file = File("tags.txt", HEAD)
    few = [("env", "prod"), ("team", "keys"), ("Env", "x"), ("cost centre", ""), ("größe", "9 €"), ("z", "last")]
    file.note("Tags that are new, and tags in the place of those of their keys.")
    put_all(file, [], [])
    put_all(file, [], few)
    put_all(file, few, [])
    put_all(file, few, [("env", "dev")])
    put_all(file, few, [("env", ""), ("a", "1"), ("zz", "2")])
    put_all(file, few, [("a", "1"), ("a", "2"), ("team", "3"), ("a", "4")])
    put_all(file, list(reversed(few)), [("ENV", "y"), ("ziel", "ö"), ("éclair", "1")])
    file.note("As many as there may be, and one more.")
    put_all(file, [], numbered(0, MOST))
    put_all(file, [], numbered(0, MOST + 1))
    put_all(file, numbered(0, MOST), [("key-49", "new")])
    put_all(file, numbered(0, MOST), [("key-50", "new")])
    put_all(file, numbered(0, MOST - 1), [("a", "1")])
    put_all(file, numbered(0, MOST - 1), [("a", "1"), ("key-03", "2"), ("b", "3")])
    file.note("Tags that are dropped.")
    for keys in [[], ["env"], ["en"], ["enve"], ["env", "Env"], ["env", "env"], ["team", "absent", "z"], [key for key, _ in few]]:
        drop_keys(file, few, keys)
    drop_keys(file, [], ["env"])
    drop_keys(file, numbered(0, MOST), [f"key-{number:02}" for number in range(0, MOST, 2)])
    file.note("The value of a key.")
    for key in ["env", "Env", "ENV", "en", "enve", "cost centre", "größe", "z", "zz"]:
        file.case("get", text(few), key, (dict(few)[key] or "''") if key in dict(few) else "none")
    file.case("get", "-", "env", "none")
    file.note("The first tag above some bytes.")
    keys = sorted((key for key, _ in few), key=str.encode)
    for above in [b"", b"E", b"Env", b"Enw", b"a", b"cost centre", b"env", b"en", b"gr", "größe".encode(), b"gr\xc3", b"gr\xff", b"team", b"z", b"zz", b"\xff", b"\x00"]:
        file.case("after", text(few), above, next((key for key in keys if key.encode() > above), "none"))
    file.case("after", "-", b"", "none")
    file.note("How many there are.")
    for tags in [[], few, numbered(0, MOST), [("a", "1"), ("a", "2")]]:
        file.case("len", text(tags), str(len(dict(tags))))
    file.note("All of them, in order.")
    for tags in [[], few, list(reversed(few)), [("env", "dev"), ("a", ""), ("env", "prod")], numbered(0, MOST)]:
        file.case("iter", text(tags), text(ordered(dict(tags))))
    file.note("Copies of lists, as they are given.")
    for tags in [[], few, list(reversed(few)), [("env", "dev"), ("a", ""), ("env", "prod")], numbered(0, MOST + 1)]:
        file.case("copied", text(tags), text(tags))
    file.note("Tags that may be given, and others: two of one key, and keys that begin with `aws:`.")
    for tags in [[], few, numbered(0, MOST + 1), [("env", "a"), ("Env", "a")], [("aws", "x")], [("aws.x", "")], [("xaws:", "")], [("aw:s", "aws:")], [(" aws:", "")], [("ａws:", "")], [("AW", "")]]:
        are_proper(file, tags)
    for key in ["aws:", "aws:x", "AWS:", "Aws:x", "aWs:é", "awS:aws:", "AwS:x"]:
        are_proper(file, [(key, "x")])
        are_proper(file, few + [(key, "")])
        are_proper(file, [(key, ""), ("env", "prod")])
    for tags in [[("env", "a"), ("env", "a")], [("env", "a"), ("x", ""), ("env", "b")], few + [few[-1]], [("größe", ""), ("größe", "1")], numbered(0, 3) + numbered(2, 5), [("aws:x", ""), ("aws:x", "")]]:
        are_proper(file, tags)
    file.write()


if __name__ == "__main__":
    main()
