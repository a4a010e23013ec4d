"""The account of whole_account.py whose entries are kept: they can be written as a journal, and another account can begin with them.

The entries are told by each request that makes one, and of housekeeping; the journal's text is that of journal_text.py.
"""

import copy

import whole_account
from explained_account import Explained
from journal_text import base64_of, journal, tags_of
from make_key_lives import ACCOUNT, ROOT, ROOT_SECRET, encoded
from whole_account import GRANT_OPERATIONS, HMAC_256, REGION

OF_A_KEY_ALONE = {"EnableKey": "Enable", "DisableKey": "Disable", "CancelKeyDeletion": "Cancel", "DisableKeyRotation": "RotationOff",
                  "RotateKeyOnDemand": "RotateNow"}
CONSTRAINTS = {"EncryptionContextEquals": "equals", "EncryptionContextSubset": "subset"}


class Kept(Explained):
    """One session of one caller, of which each entry is kept."""

    def __init__(self, what, policies=None, ceiling=(), caller=ROOT):
        super().__init__(what, policies, ceiling)
        self.caller, self.entries, self.keeps_house = caller, [], False

    def house(self):
        self.keeps_house = True
        super().house()
        self.keeps_house = False

    def append(self):
        place = super().append()
        self.entries.append({"time": self.latest} | ({"what": "House"} if self.keeps_house else {}))
        return place

    def ask(self, operation, body, after=None):
        super().ask(operation, body, after)
        if self.entries and "what" not in self.entries[-1]:
            self.entries[-1] |= self.made(operation, body)
        return self

    def made(self, operation, body):
        """What the entry of a request has beside its time, now that it is made."""
        if operation in OF_A_KEY_ALONE:
            return {"what": OF_A_KEY_ALONE[operation]} | self.of_key(body["KeyId"])
        return getattr(self, "made_by_" + operation)(body)

    def of_key(self, reference):
        return {"key": self.key(reference)["id"].hex()}

    def made_by_CreateKey(self, body):
        key = self.keys[-1]
        return {"what": "CreateKey", "key": key["id"].hex(), "kind": "hmac256" if key["spec"] == HMAC_256 else "symmetric",
                "description": base64_of(key["description"]), "policy": base64_of(key["policy"]), "tags": tags_of(key["tags"].items())}

    def made_by_ScheduleKeyDeletion(self, body):
        key = self.key(body["KeyId"])
        return {"what": "Schedule", "key": key["id"].hex(), "date": key["date"], "days": body.get("PendingWindowInDays", 30)}

    def made_by_EnableKeyRotation(self, body):
        return {"what": "RotationOn", "period": body.get("RotationPeriodInDays", 365)} | self.of_key(body["KeyId"])

    def made_by_PutKeyPolicy(self, body):
        return {"what": "Policy", "text": base64_of(body["Policy"])} | self.of_key(body["KeyId"])

    def made_by_UpdateKeyDescription(self, body):
        return {"what": "Description", "text": base64_of(body["Description"])} | self.of_key(body["KeyId"])

    def made_by_CreateAlias(self, body):
        return {"what": "AliasPut", "name": base64_of(body["AliasName"])} | self.of_key(body["TargetKeyId"])

    made_by_UpdateAlias = made_by_CreateAlias

    def made_by_DeleteAlias(self, body):
        return {"what": "AliasDrop", "name": base64_of(body["AliasName"])}

    def made_by_CreateGrant(self, body):
        grant = self.grants[-1]
        made = {"what": "GrantAdd", "grant": grant["grant"], "grantee": base64_of(grant["grantee"]), "key": grant["key"].hex(),
                "operations": [name for name in GRANT_OPERATIONS if name in grant["operations"]]}
        if grant["constraint"] is not None:
            kind, context = grant["constraint"]
            made[CONSTRAINTS[kind]] = base64_of(encoded(context))
        for member in ("name", "retiring"):
            made |= {member: base64_of(grant[member])} if grant[member] is not None else {}
        return made

    def made_by_RetireGrant(self, body):
        return {"what": "GrantDrop", "grant": body.get("GrantToken") or body["GrantId"]}

    made_by_RevokeGrant = made_by_RetireGrant

    def made_by_TagResource(self, body):
        return {"what": "Tag", "tags": tags_of((tag["TagKey"], tag["TagValue"]) for tag in body["Tags"])} | self.of_key(body["KeyId"])

    def made_by_UntagResource(self, body):
        return {"what": "Untag", "names": [base64_of(name) for name in body["TagKeys"]]} | self.of_key(body["KeyId"])

    # ---- the journal

    def journal(self):
        return journal(ACCOUNT, REGION, ROOT_SECRET, self.boot, self.entries)

    def stream(self):
        return whole_account.draws(self.boot)

    def loaded(self, boot, caller=ROOT):
        """The account that begins with this one's entries, under another boot number, and whose pass has given nothing."""
        other = copy.deepcopy(self)
        other.boot, other.caller, other.words, other.ivs, other.said, other.told = boot, caller, 0, 0, [], []
        return other
