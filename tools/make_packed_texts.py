"""Makes packed_texts.txt. Run: python3 -B tools/make_packed_texts.py."""

from vectors import File

HEAD = """
Texts that stand one behind another.

of | texts | a copy of them
pushed | texts | texts | a text | the texts of both lists, and the text
is_empty | texts | whether there are none
first | a number | texts | so many of them from the front on, or all
behind | a number | texts | those behind so many, or none
split_at | a number | texts | how many stand in front of this place, and how many behind it

Texts have `, ` between two; `''` is the empty one, and `-` are none.

Made by tools/make_packed_texts.py: the answers are those of Python's lists.
"""

LISTS = [
    [],
    [""],
    ["a"],
    ["", "", ""],
    ["kms:ViaService", "kms.us-east-1.amazonaws.com", "", "*"],
    ["größe", "9 €", "語", "🔑"],
    ["é" * 40, "x" * 300, "", "1"],
]


def column(text):
    return text or "''"


def columns(texts):
    return ", ".join(map(column, texts)) or "-"


def lists(draw):
    """Lists that are written by hand, and drawn ones."""
    yield from LISTS
    for _ in range(20):
        yield ["".join(draw.choices("ab*?é語", k=draw.randrange(6))) for _ in range(draw.randrange(9))]


def main():
    file = File("packed_texts.txt", HEAD)
    for texts in lists(file.random):
        file.note(f"A list of {len(texts)}.")
        file.case("of", columns(texts), columns(texts))
        file.case("is_empty", columns(texts), "true" if not texts else "false")
        file.case("pushed", columns(texts[:2]), columns(texts[2:]), column("z"), columns(texts + ["z"]))
        file.case("pushed", columns(texts), columns([]), column(""), columns(texts + [""]))
        for count in sorted({0, 1, len(texts) // 2, len(texts), len(texts) + 1}):
            file.case("first", str(count), columns(texts), columns(texts[:count]))
            file.case("behind", str(count), columns(texts), columns(texts[count:]))
            file.case("split_at", str(count), columns(texts), f"{len(texts[:count])} {len(texts[count:])}")
    file.write()


if __name__ == "__main__":
    main()
