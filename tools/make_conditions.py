"""Makes the last cases of conditions.txt. Run: python3 -B tools/make_conditions.py.

It is an evaluation of its own, from the rules at the head of that file, by Python's re, int and datetime.
"""

import datetime
import re

from vectors import Below

NOTE = """
Made by tools/make_conditions.py: random conditions and facts, with the answers of an evaluation in Python.
"""

POSITIVE = {
    "StringEquals": "text",
    "StringEqualsIgnoreCase": "letters",
    "StringLike": "pattern",
    "NumericEquals": "number ==",
    "NumericLessThan": "number <",
    "NumericLessThanEquals": "number <=",
    "NumericGreaterThan": "number >",
    "NumericGreaterThanEquals": "number >=",
    "DateEquals": "date ==",
    "DateLessThan": "date <",
    "DateLessThanEquals": "date <=",
    "DateGreaterThan": "date >",
    "DateGreaterThanEquals": "date >=",
    "Bool": "truth",
    "ArnEquals": "arn",
    "ArnLike": "arn",
}
NEGATED = {
    "StringNotEquals": "text",
    "StringNotEqualsIgnoreCase": "letters",
    "StringNotLike": "pattern",
    "NumericNotEquals": "number ==",
    "DateNotEquals": "date ==",
    "ArnNotEquals": "arn",
    "ArnNotLike": "arn",
}
TEXTS = ["a", "A", "b", "ab", "aB", "a*", "?", "*", "a?", "''", "é", "É", "abc", "*c"]
NUMBERS = ["0", "1", "-1", "2", "10", "9", "-10", "01", "+1", "x", "9223372036854775807", "-9223372036854775808", "9223372036854775808", "-0", "''"]
DATES = [
    "0", "1", "86400", "86399", "00", "1970-01-01", "1970-01-02", "1969-12-31", "1970-01-01T00:00:01Z", "1970-01-01T23:59:59Z",
    "1970-01-01T24:00:00Z", "1970-02-29", "2000-02-29", "951782400", "1900-02-29", "2023-11-14T22:13:20Z", "1700000000",
    "2023-11-14", "-1", "x", "999999999999", "9999-12-31", "0001-01-01", "''",
]
TRUTHS = ["true", "false", "True", "FALSE", "tRuE", "yes", "1", "''"]
ARNS = [
    "a:b:c:d:e:f", "a:b:c:d:e:g", "a:b:c:d:e:f:g", "*:*:*:*:*:*", "a:*:c:?:e:*", "a:b:c:d:e", "?:b:c:d:e:f", "a:b:c:d:*:f", "A:b:c:d:e:f",
    ":::::", "a:b:c:d:e:*:g", "a:b:c:dd:e:f", "x",
]
POOLS = {"text": TEXTS, "letters": TEXTS, "pattern": TEXTS, "number": NUMBERS, "date": DATES, "truth": TRUTHS, "arn": ARNS}


def lowered(text):
    return re.sub("[A-Z]", lambda letter: letter[0].lower(), text)


def like(text, pattern):
    return re.fullmatch("".join({"*": ".*", "?": "."}.get(c, re.escape(c)) for c in pattern), text, re.DOTALL) is not None


def number(text):
    if not re.fullmatch("0|-?[1-9][0-9]*", text):
        return None
    value = int(text)
    return value if -(1 << 63) <= value < 1 << 63 else None


def date(text):
    if re.fullmatch("[0-9]{1,12}", text):
        return int(text)
    for form, written in [("%Y-%m-%d", "[0-9]{4}-[0-9]{2}-[0-9]{2}"), ("%Y-%m-%dT%H:%M:%SZ", "[0-9]{4}-[0-9]{2}-[0-9]{2}T[0-9]{2}:[0-9]{2}:[0-9]{2}Z")]:
        if re.fullmatch(written, text):
            if text[17:19] > "59":
                return None
            try:
                return int((datetime.datetime.strptime(text, form) - datetime.datetime(1970, 1, 1)).total_seconds())
            except ValueError:
                return None
    return None


def compares(relation, left, right):
    if left is None or right is None:
        return False
    return {"==": left == right, "<": left < right, "<=": left <= right, ">": left > right, ">=": left >= right}[relation]


def relates(kind, request, policy):
    """Whether the request's value stands in the relation to the policy's."""
    kind, _, relation = kind.partition(" ")
    if kind == "text":
        return request == policy
    if kind == "letters":
        return lowered(request) == lowered(policy)
    if kind == "pattern":
        return like(request, policy)
    if kind == "number":
        return compares(relation, number(request), number(policy))
    if kind == "date":
        return compares(relation, date(request), date(policy))
    if kind == "truth":
        return lowered(request) in ("true", "false") and lowered(request) == lowered(policy)
    request, policy = request.split(":", 5), policy.split(":", 5)
    return len(request) == len(policy) == 6 and all(like(*pair) for pair in zip(request, policy))


def holds(prefix, name, suffix, key, values, facts):
    present = [fact for fact in facts if lowered(fact[0]) == lowered(key)]
    if name == "Null":
        return (values == ["false"]) if present else (values == ["true"])
    if not present:
        if suffix:
            return True
        return {"": name in NEGATED, "ForAllValues:": True, "ForAnyValue:": False}[prefix]
    kind = {**POSITIVE, **NEGATED}[name]
    matched = [any(relates(kind, value, policy) for policy in values) for fact in present for value in fact[1]]
    if prefix == "":
        return not any(matched) if name in NEGATED else any(matched)
    if prefix == "ForAllValues:":
        return not any(matched) if name in NEGATED else all(matched)
    return not all(matched) if name in NEGATED else any(matched)


def listed(values):
    return ", ".join(value or "''" for value in values) or "-"


def main():
    file = Below("conditions.txt", NOTE)
    random = file.random
    keys = ["k", "K", "kms:Key", "KMS:KEY", "kms:key2", "aws:é", "aws:É"]
    for _ in range(1500):
        prefix, suffix = random.choice(["", "", "ForAllValues:", "ForAnyValue:"]), random.choice(["", "", "IfExists"])
        name = random.choice([*POSITIVE, *NEGATED])
        pool = POOLS[{**POSITIVE, **NEGATED}[name].split(" ")[0]]
        values = [random.choice(pool) for _ in range(random.choice([1, 1, 1, 2, 3]))]
        if random.random() < 0.03:
            prefix, name, suffix, values = "", "Null", "", [random.choice(["true", "false"])]
        key = random.choice(keys)
        facts = []
        for _ in range(random.choice([0, 1, 1, 2, 3])):
            name_of_fact = random.choice([key, key, key.upper() if key.isascii() else key, random.choice(keys)])
            facts.append((name_of_fact, [random.choice(pool) for _ in range(random.choice([1, 1, 2, 3, 0]))]))
        plain = [value if value != "''" else "" for value in values]
        read = [(fact, ["" if value == "''" else value for value in given]) for fact, given in facts]
        answer = holds(prefix, name, suffix, key, plain, read)
        written = "; ".join(fact + " = " + listed(given) for fact, given in facts) or "-"
        file.once("holds", prefix + name + suffix, key, listed(values), written, str(answer).lower())
    for name, kind in [*POSITIVE.items(), *NEGATED.items()]:
        kind = kind.split(" ")[0]
        form = {
            "number": lambda text: number(text) is not None,
            "date": lambda text: date(text) is not None,
            "truth": lambda text: lowered(text) in ("true", "false"),
            "arn": lambda text: text.count(":") >= 5,
        }.get(kind, lambda text: True)
        for text in POOLS[kind]:
            file.once("is_value", name, text, str(form("" if text == "''" else text)).lower())
    file.write()


if __name__ == "__main__":
    main()
