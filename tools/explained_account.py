"""The account of whole_account.py, which says why: for each request the line of `kms_local explain`.

The marks and the grounds are computed here from the documents, statement by statement, and from the grants; the verdicts of
whole_account.py are asked beside them, and the two must agree.
"""

import json

import make_policies
import make_verdicts
from make_key_lives import ROOT, Refused, arn
from make_verdicts import condition_holds, listed, part_matches
from whole_account import GRANT_OPERATIONS, Whole

ALLOWS = {"key policy", "root and identity", "grant", "identity", "root", "retire"}


def statements(documents):
    return [statement for document in documents for statement in listed(json.loads(document)["Statement"])]


def failing(statement, action, resource, facts):
    """The letter of the first part of a statement that fails, if any does: action, resource, conditions."""
    lowered = make_verdicts.make_conditions.lowered
    like = make_verdicts.make_conditions.like
    if not part_matches(statement, "Action", lambda glob: like(lowered("kms:" + action), lowered(glob))):
        return "A"
    if not part_matches(statement, "Resource", lambda glob: like(resource, glob)):
        return "R"
    conditions = [(name, key, values) for name, keys in statement.get("Condition", {}).items() for key, values in keys.items()]
    return "" if all(condition_holds(*condition, facts) for condition in conditions) else "C"


def mark(statement, action, resource, facts):
    """The mark of a statement of a caller's own policy, or of a ceiling."""
    return failing(statement, action, resource, facts) or "H"


def key_mark(statement, caller, action, resource, facts):
    """The mark of a statement of a key policy."""
    who = make_policies.principals("key", "", statement["Principal"])
    direct, root = any(name in who for name in (caller, "everyone")), ROOT in who
    if not direct and not root:
        return "P"
    return failing(statement, action, resource, facts) or ("H" if direct or statement["Effect"] == "Deny" else "T")


def hit(marks, rows, effect, letter="H"):
    """Whether a statement of this effect has this mark."""
    return any(one == letter and row["Effect"] == effect for one, row in zip(marks, rows))


class Explained(Whole):
    """One session, whose requests may come from several callers, each with the line that says why."""

    def __init__(self, what, policies=None, ceiling=()):
        super().__init__(what, policies, ceiling=ceiling)
        self.findings, self.told = [], []

    def ask(self, operation, body, after=None):
        self.findings = []
        super().ask(operation, body, after)
        reply = self.said[-1][2].split(" ", 3)
        then = "Ok" if reply[1] == "200" else reply[2]
        decision = "Early" if not self.findings else "Allowed" if self.findings[-1]["by"] in ALLOWS else "Denied"
        self.told.append(self.line(decision, self.findings, then))
        return self

    @staticmethod
    def line(decision, findings, then):
        return json.dumps({"decision": decision, "questions": findings, "then": then}, separators=(",", ":"), sort_keys=True)

    def finds(self, action, resource, by, *runs):
        self.findings.append({"action": "kms:" + action, "by": by, "marks": "/".join(runs or ("", "", "", "")), "resource": resource})

    def runs(self, action, resource, facts):
        """The statements of the caller's own policies and of the ceiling, with their marks."""
        own = statements([] if self.caller == ROOT else self.policies.get(self.caller, []))
        ceiling = statements(self.ceiling)
        return own, "".join(mark(row, action, resource, facts) for row in own), ceiling, "".join(mark(row, action, resource, facts) for row in ceiling)

    def is_under(self, ceiling, marks):
        return not self.ceiling or (not hit(marks, ceiling, "Deny") and hit(marks, ceiling, "Allow"))

    def grant_mark(self, grant, action, key, context, child):
        if grant["grantee"] != self.caller:
            return "P"
        if action not in grant["operations"]:
            return "A"
        return "H" if self.permits(grant, action, key, context, child) else "C"

    def must(self, action, key, alias=None, more=(), context=None, child=None):
        context = context or {}
        resource, facts = arn(key["id"]), self.told_of(action, key, alias, more, context)
        policy = statements([key["policy"]])
        marks = "".join(key_mark(row, self.caller, action, resource, facts) for row in policy)
        own, own_marks, ceiling, ceiling_marks = self.runs(action, resource, facts)
        grants = [row for row in self.live() if row["key"] == key["id"]] if action in GRANT_OPERATIONS else []
        grant_marks = "".join(self.grant_mark(row, action, key, context, child) for row in grants)
        allowed_own = self.caller == ROOT or hit(own_marks, own, "Allow")
        by = ("key deny" if hit(marks, policy, "Deny") else "identity deny" if hit(own_marks, own, "Deny")
              else "ceiling" if not self.is_under(ceiling, ceiling_marks) else "key policy" if hit(marks, policy, "Allow")
              else "root and identity" if "T" in marks and allowed_own else "grant" if "H" in grant_marks else "nothing")
        self.finds(action, resource, by, marks, own_marks, ceiling_marks, grant_marks)
        assert (by in ALLOWS) == self.may(action, key, alias, more, context, child)
        super().must(action, key, alias, more, context, child)

    def must_own(self, action, resource, more=()):
        facts = self.facts() + list(more)
        own, own_marks, ceiling, ceiling_marks = self.runs(action, resource, facts)
        by = ("identity deny" if hit(own_marks, own, "Deny") else "ceiling" if not self.is_under(ceiling, ceiling_marks)
              else "identity" if hit(own_marks, own, "Allow") else "root" if self.caller == ROOT else "nothing")
        self.finds(action, resource, by, "", own_marks, ceiling_marks, "")
        super().must_own(action, resource, more)

    def must_retire(self, grant):
        resource = arn(grant["key"])
        try:
            super().must_retire(grant)
        except Refused:
            self.finds("RetireGrant", resource, "nothing")
            raise
        self.finds("RetireGrant", resource, "retire")
