"""Makes the last cases of verdicts.txt. Run: python3 -B tools/make_verdicts.py.

It is an evaluation of its own, from the rules at the head of that file, over the values of Python's json.
"""

import json

import make_conditions
import make_policies
from vectors import Below

NOTE = """
Made by tools/make_verdicts.py: random policies and requests, and then random ceilings, with the answers of an evaluation in
Python.
"""

ROOT = "arn:aws:iam::111122223333:root"
CALLERS = [ROOT, "arn:aws:iam::111122223333:user/bob", "arn:aws:iam::111122223333:user/ann", "arn:aws:iam::111122223333:role/x", "arn:aws:iam::444455556666:user/ann"]
ACTIONS = ["Encrypt", "Decrypt", "ReEncryptFrom", "ReEncryptTo", "DescribeKey", "CreateGrant", "GenerateDataKey", "GenerateDataKeyWithoutPlaintext"]
RESOURCES = ["arn:aws:kms:us-east-1:111122223333:key/1", "arn:aws:kms:us-east-1:111122223333:alias/app", "*"]


def listed(value):
    return value if isinstance(value, list) else [value]


def part_matches(statement, name, is_like):
    if name in statement:
        return any(map(is_like, listed(statement[name])))
    return not any(map(is_like, listed(statement["Not" + name])))


def condition_holds(name, key, values, facts):
    prefix = next((prefix for prefix in ["ForAllValues:", "ForAnyValue:"] if name.startswith(prefix)), "")
    operator = make_policies.NAMES[name]
    suffix = "IfExists" if name.endswith("IfExists") else ""
    return make_conditions.holds(prefix, operator, suffix, key, [make_policies.scalar("", value) for value in listed(values)], facts)


def matches(statement, action, resource, facts):
    """Whether a statement matches a request."""
    lowered = make_conditions.lowered
    return (
        part_matches(statement, "Action", lambda glob: make_conditions.like(lowered("kms:" + action), lowered(glob)))
        and part_matches(statement, "Resource", lambda glob: make_conditions.like(resource, glob))
        and all(condition_holds(name, key, values, facts) for name, keys in statement.get("Condition", {}).items() for key, values in keys.items())
    )


def names(statement, wanted):
    who = make_policies.principals("key", "", statement["Principal"])
    return any(name in who for name in wanted)


def verdict(kind, document, caller, action, resource, facts):
    statements = listed(json.loads(document)["Statement"])
    matched = [statement for statement in statements if matches(statement, action, resource, facts)]
    denied = [statement for statement in matched if statement["Effect"] == "Deny"]
    allowed = [statement for statement in matched if statement["Effect"] == "Allow"]
    if kind == "identity":
        return "Deny" if denied else "Direct" if allowed else "Silent"
    root = caller[: len("arn:aws:iam::111122223333:")] + "root"
    if any(names(statement, [caller, "everyone", root]) for statement in denied):
        return "Deny"
    if any(names(statement, [caller, "everyone"]) for statement in allowed):
        return "Direct"
    return "ByRoot" if any(names(statement, [root]) for statement in allowed) else "Silent"


def ceiling(documents, action, resource, facts):
    """What the documents of a ceiling say, whomever their statements name."""
    effects = {statement["Effect"] for document in documents for statement in listed(json.loads(document)["Statement"]) if matches(statement, action, resource, facts)}
    return "Stops" if documents and effects != {"Allow"} else "Passes"


class Policies:
    """Policies about few callers, actions, resources and keys, so that many match."""

    def __init__(self, random):
        self.random = random

    def some(self, choices):
        found = [self.random.choice(choices) for _ in range(self.random.choice([1, 1, 2]))]
        return found if len(found) > 1 or self.random.random() < 0.5 else found[0]

    def condition(self):
        name = self.random.choice(list(make_policies.NAMES))
        kind = {**make_conditions.POSITIVE, **make_conditions.NEGATED}.get(make_policies.NAMES[name], "null").split(" ")[0]
        values = {"number": ["1", "2", 3], "date": ["1970-01-02", "1"], "truth": ["true", False], "arn": ["a:b:c:d:e:f", "a:*:*:*:*:*"]}
        values = [self.random.choice(["true", "false"])] if kind == "null" else self.some(values.get(kind, ["a", "b", "a*"]))
        return {name: {self.random.choice(["k", "K", "kms:Key"]): values}}

    def statement(self, kind):
        random = self.random
        found = {"Effect": random.choice(["Allow"] * 4 + ["Deny"])}
        if kind == "key":
            found["Principal"] = random.choice(["*", {"AWS": self.some(CALLERS + ["*", "111122223333", "AIDACKCEVSQ6C2EXAMPLE"])}, {"Service": "kms.amazonaws.com"}, {"AWS": ROOT}, {"AWS": self.some(CALLERS)}])
        found[random.choice(["Action", "Action", "NotAction"])] = self.some(["*", "*", "kms:*", "kms:*", "kms:*", "kms:Encrypt", "KMS:re*", "kms:?ecrypt", "kms:GenerateDataKey", "s3:*", "kms:describekey"])
        found[random.choice(["Resource", "Resource", "NotResource"])] = self.some(["*", "*", "*", "arn:aws:kms:*:*:key/*", "arn:aws:kms:us-east-1:111122223333:alias/app", "arn:aws:s3:::b"])
        if random.random() < 0.25:
            found["Condition"] = self.condition()
        return found

    def document(self, kind):
        statements = [self.statement(kind) for _ in range(self.random.choice([1, 2, 2, 3, 4]))]
        return {"Statement": statements if len(statements) > 1 else self.random.choice([statements, statements[0]])}

    def facts(self):
        values = ["a", "b", "ab", "1", "2", "86400", "true", "a:b:c:d:e:f"]
        return [(self.random.choice(["k", "kms:Key", "other"]), [self.random.choice(values) for _ in range(self.random.choice([1, 2]))]) for _ in range(self.random.choice([0, 1, 2]))]


def main():
    file = Below("verdicts.txt", NOTE)
    policies = Policies(file.random)
    for _ in range(800):
        kind = file.random.choice(["key", "key", "identity"])
        document = json.dumps(policies.document(kind), separators=(",", ":"))
        request = [file.random.choice(CALLERS), file.random.choice(ACTIONS), file.random.choice(RESOURCES)]
        facts = policies.facts()
        assert make_policies.answer(kind, document).startswith(kind)
        written = "; ".join(key + " = " + make_conditions.listed(values) for key, values in facts) or "-"
        file.once("verdict", kind, document, *request, written, verdict(kind, document, *request, facts))
    for _ in range(200):
        kinds = [file.random.choice(["identity", "identity", "identity", "key"]) for _ in range(file.random.choice([0, 1, 1, 2, 2, 3]))]
        documents = [json.dumps(policies.document(kind), separators=(",", ":")) for kind in kinds]
        request = [file.random.choice(ACTIONS), file.random.choice(RESOURCES)]
        facts = policies.facts()
        written = "; ".join(key + " = " + make_conditions.listed(values) for key, values in facts) or "-"
        columns = [column for pair in zip(kinds, documents) for column in pair]
        file.once("ceiling", str(len(kinds)), *columns, file.random.choice(CALLERS), *request, written, ceiling(documents, *request, facts))
    file.write()


if __name__ == "__main__":
    main()
