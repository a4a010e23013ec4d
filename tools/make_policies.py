"""Makes the last cases of policies.txt. Run: python3 -B tools/make_policies.py.

It is a reader of its own, from the rules at the head of that file, over the values of Python's json.
"""

import json
import re

import make_conditions
from vectors import Below

NOTE = """
Made by tools/make_policies.py: documents with random parts, with the answers of a reader in Python.
"""

OPERATORS = [*make_conditions.POSITIVE, *make_conditions.NEGATED]
UNSERVED = ["IpAddress", "NotIpAddress", "BinaryEquals"]
PREFIXES = ["", "ForAllValues:", "ForAnyValue:"]
NAMES = {prefix + name + suffix: name for name in OPERATORS for prefix in PREFIXES for suffix in ["", "IfExists"]} | {"Null": "Null"}
NOT_SERVED = {prefix + name + suffix for name in UNSERVED for prefix in PREFIXES for suffix in ["", "IfExists"]}
MISSING = object()


class Fault(Exception):
    pass


def bad(path):
    raise Fault("BadShape at " + (path or "''"))


def unsupported(path):
    raise Fault("Unsupported at " + path)


def below(path, name):
    return path + "/" + name.replace("~", "~0").replace("/", "~1")


def sorted_names(members):
    return sorted(members, key=lambda name: name.encode())


def no_others(path, members, known):
    for name in sorted_names(members):
        if name not in known:
            bad(below(path, name))


def scalar(path, value):
    """A text, a truth value or a whole number of 64 bits, as text."""
    if isinstance(value, str):
        return value
    if isinstance(value, bool):
        return "true" if value else "false"
    if isinstance(value, int) and -(1 << 63) <= value < 1 << 64:
        return str(value)
    bad(path)


def text(path, value):
    return value if isinstance(value, str) else bad(path)


def items(path, value, read, check):
    """A value or a list of one or more, each with its check."""
    found = []
    if isinstance(value, list) and value:
        for place, item in enumerate(value):
            at = below(path, str(place))
            found.append(read(at, item))
            check(at, found[-1])
    elif isinstance(value, list):
        bad(path)
    else:
        found.append(read(path, value))
        check(path, found[-1])
    return found


def check_action(path, action):
    if action != "*" and ":" not in action:
        bad(path)


def check_resource(path, resource):
    if "${" in resource:
        unsupported(path)


def check_caller(path, caller):
    is_arn = caller.startswith("arn:") and caller.count(":") >= 5 and not re.search("[*?]", caller)
    if not (caller == "*" or re.fullmatch("[0-9]{12}", caller) or is_arn or re.fullmatch("[A-Z0-9]{16,128}", caller)):
        bad(path)


def check_value(operator):
    def check(path, value):
        if "${" in value:
            unsupported(path)
        kind = {**make_conditions.POSITIVE, **make_conditions.NEGATED}.get(operator, "null").split(" ")[0]
        has_form = {
            "number": lambda: make_conditions.number(value) is not None,
            "date": lambda: make_conditions.date(value) is not None,
            "truth": lambda: value.lower() in ("true", "false"),
            "arn": lambda: value.count(":") >= 5,
            "null": lambda: value in ("true", "false"),
        }.get(kind, lambda: True)
        if not has_form():
            bad(path)

    return check


def named(caller):
    if caller == "*":
        return "everyone"
    if re.fullmatch("[0-9]{12}", caller):
        return "arn:aws:iam::" + caller + ":root"
    if re.fullmatch("arn:aws:iam::[0-9]{12}:(root|(user|role)/[A-Za-z0-9+=,.@_/-]{1,512})", caller):
        return caller
    return None


def principals(kind, path, value):
    if kind == "identity":
        return [] if value is MISSING else bad(path)
    if value == "*":
        return ["everyone"]
    if not isinstance(value, dict) or not value:
        bad(path)
    found = []
    for name in sorted_names(value):
        at = below(path, name)
        if name == "AWS":
            found += items(at, value[name], text, check_caller)
        elif name in ("Service", "Federated", "CanonicalUser"):
            items(at, value[name], text, lambda at, item: None)
        else:
            bad(at)
    return [name for name in map(named, found if "AWS" in value else []) if name]


def one_of(path, statement, name, check):
    """The texts of a form and of its Not-form, of which one stands."""
    plain, negated = statement.get(name, MISSING), statement.get("Not" + name, MISSING)
    if (plain is MISSING) == (negated is MISSING):
        bad(below(path, name))
    if plain is not MISSING:
        return items(below(path, name), plain, text, check), []
    return [], items(below(path, "Not" + name), negated, text, check)


def conditions(path, value):
    if value is MISSING:
        return []
    if not isinstance(value, dict):
        bad(path)
    found = []
    for name in sorted_names(value):
        at = below(path, name)
        if name in NOT_SERVED:
            unsupported(at)
        if name not in NAMES or not isinstance(value[name], dict):
            bad(at)
        for key in sorted_names(value[name]):
            place = below(at, key)
            given = value[name][key]
            if name == "Null" and isinstance(given, list) and len(given) != 1:
                bad(place)
            values = items(place, given, scalar, check_value(NAMES[name]))
            found.append("if " + name + " " + key + " = " + make_conditions.listed(values))
    return found


MEMBERS = ["Sid", "Effect", "Principal", "Action", "NotAction", "Resource", "NotResource", "Condition"]


def statement(kind, path, value):
    if not isinstance(value, dict):
        bad(path)
    if "NotPrincipal" in value:
        unsupported(below(path, "NotPrincipal"))
    no_others(path, value, MEMBERS)
    if "Sid" in value:
        text(below(path, "Sid"), value["Sid"])
    if value.get("Effect") not in ("Allow", "Deny"):
        bad(below(path, "Effect"))
    parts = [value["Effect"]]
    who = principals(kind, below(path, "Principal"), value.get("Principal", MISSING))
    actions = one_of(path, value, "Action", check_action)
    resources = one_of(path, value, "Resource", check_resource)
    for name, found in [("to ", who), ("actions ", actions[0]), ("not actions ", actions[1]), ("resources ", resources[0]), ("not resources ", resources[1])]:
        if found:
            parts.append(name + make_conditions.listed(found))
    return parts + conditions(below(path, "Condition"), value.get("Condition", MISSING))


def answer(kind, document):
    try:
        value = json.loads(document)
    except ValueError:
        return "NotJson"
    try:
        if not isinstance(value, dict):
            bad("")
        no_others("", value, ["Version", "Id", "Statement"])
        if value.get("Version", "2012-10-17") not in ("2012-10-17", "2008-10-17"):
            bad("/Version")
        if "Id" in value:
            text("/Id", value["Id"])
        given = value.get("Statement", MISSING)
        parts = [kind]
        if isinstance(given, list) and given:
            for place, one in enumerate(given):
                parts += statement(kind, "/Statement/" + str(place), one)
        elif isinstance(given, dict):
            parts += statement(kind, "/Statement", given)
        else:
            bad("/Statement")
        return "; ".join(parts)
    except Fault as fault:
        return str(fault)


class Documents:
    """Documents of parts that are mostly good."""

    def __init__(self, random):
        self.random = random

    def rarely(self, share=0.04):
        return self.random.random() < share

    def odd(self):
        return self.random.choice([None, 7, True, "", [], {}, "x", ["x", 7], [[]], {"a": 1}])

    def texts(self, good):
        pick = self.random.choice
        values = [pick(good) if not self.rarely(0.05) else self.odd() for _ in range(pick([1, 1, 1, 2, 3]))]
        return values[0] if len(values) == 1 and self.rarely(0.7) else values

    def principal(self):
        if self.rarely(0.2):
            return "*" if self.rarely(0.8) else self.odd()
        who = ["*", "111122223333", "arn:aws:iam::111122223333:root", "arn:aws:iam::444455556666:user/a/b", "arn:aws:iam::111122223333:role/x", "AIDACKCEVSQ6C2EXAMPLE", "arn:aws:sts::111122223333:assumed-role/a/b"]
        who += ["ann", "arn:aws:iam::111122223333:user/*"] if self.rarely(0.2) else []
        found = {"AWS": self.texts(who)}
        for name in ["Service", "Federated", "CanonicalUser", "Other"]:
            if self.rarely(0.1 if name != "Other" else 0.02):
                found[name] = self.texts(["a", "b.amazonaws.com", ""])
        if self.rarely(0.1):
            del found["AWS"]
        return found

    def condition(self):
        found = {}
        for _ in range(self.random.choice([0, 1, 1, 2, 3])):
            name = self.random.choice(list(NAMES))
            kind = {**make_conditions.POSITIVE, **make_conditions.NEGATED}.get(NAMES[name], "null").split(" ")[0]
            good = {"number": ["0", "-7", 12, "9223372036854775807"], "date": ["2024-02-29", "1700000000", 5, "1999-12-31T23:59:59Z"], "truth": ["true", "FALSE", False], "arn": ["a:b:c:d:e:f", "*:*:*:*:*:*"], "null": [True, "false"]}.get(kind, ["a", "*", "", 7, True])
            if self.rarely(0.05):
                good = good + ["${x}", "x", "1.5", "2023-02-29"]
            keys = {self.random.choice(["k", "K", "aws:username", "a/b", "~"]): self.texts(good) for _ in range(self.random.choice([0, 1, 1, 2]))}
            if self.rarely(0.03):
                name = self.random.choice(["IpAddress", "ForAllValues:NotIpAddressIfExists", "BinaryEquals", "stringEquals", "NullIfExists", "ForAnyValue:Null", ""])
            found[name] = keys if not self.rarely(0.03) else self.odd()
        return found

    def statement(self, kind):
        found = {"Effect": self.random.choice(["Allow", "Deny"])}
        if (kind == "key") != self.rarely(0.04):
            found["Principal"] = self.principal()
        actions = ["kms:*", "*", "kms:Encrypt", "s3:GetObject", "a:"] + (["Encrypt"] if self.rarely(0.1) else [])
        resources = ["*", "arn:aws:kms:*:*:key/*", "", "x"] + (["${a}"] if self.rarely(0.1) else [])
        found[self.random.choice(["Action", "Action", "NotAction"])] = self.texts(actions)
        found[self.random.choice(["Resource", "Resource", "NotResource"])] = self.texts(resources)
        if self.rarely(0.4):
            found["Condition"] = self.condition()
        if self.rarely(0.3):
            found["Sid"] = "a statement"
        if self.rarely(0.1):
            found[self.random.choice(MEMBERS + ["NotPrincipal", "Zebra", "a/b"])] = self.odd()
        if self.rarely(0.06):
            found.pop(self.random.choice(list(found)))
        members = list(found.items())
        self.random.shuffle(members)
        return dict(members)

    def document(self, kind):
        statements = [self.statement(kind) for _ in range(self.random.choice([1, 1, 2, 3]))]
        found = {"Statement": statements[0] if len(statements) == 1 and self.rarely(0.4) else statements}
        if self.rarely(0.4):
            found["Version"] = self.random.choice(["2012-10-17", "2008-10-17", "2012-10-17", "2012-10-18" if self.rarely(0.2) else "2012-10-17"])
        if self.rarely(0.2):
            found["Id"] = "an id" if not self.rarely(0.1) else self.odd()
        if self.rarely(0.03):
            found[self.random.choice(["Comment", "Statement", "~"])] = self.odd()
        return found


def main():
    file = Below("policies.txt", NOTE)
    documents = Documents(file.random)
    for place in range(500):
        kind = file.random.choice(["key", "identity"])
        document = json.dumps(documents.document(kind), ensure_ascii=False, separators=(",", ":"))
        call = "policy" if place % 10 == 0 and answer(kind, document).startswith(kind) else "read_policy"
        file.once(call, kind, document, answer(kind, document))
    file.write()


if __name__ == "__main__":
    main()
