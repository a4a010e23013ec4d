"""An account in plain Python with all that its callers may do: aliases, lists, grants and their tokens, HMAC keys and their MACs, tags,
key policies and callers' own policies. whole_cases.py says who asks it.

It goes on from the account of make_key_lives.py, by the AWS KMS Developer Guide ("Aliases in AWS KMS", "Grants in AWS KMS", "HMAC keys
in AWS KMS", "Tags in AWS KMS", "Condition keys for AWS KMS") and the IAM User Guide ("Policy evaluation logic"). What policies say is the
evaluation of make_verdicts.py.
"""

import base64
import json
import re
import struct
import uuid
from datetime import datetime, timezone
from email.utils import formatdate

from cryptography.hazmat.primitives.ciphers import Cipher, algorithms

import blobs
import make_key_lives
import make_verdicts
from make_key_lives import ACCOUNT, ROOT, ROOT_SECRET, SYMMETRIC, Refused, arn, b64, key_id, mac, printed
from make_macs import mac_of

REGION = "us-east-1"
GRANT_OPERATIONS = ["Encrypt", "Decrypt", "GenerateDataKey", "GenerateDataKeyWithoutPlaintext", "ReEncryptFrom", "ReEncryptTo",
                    "CreateGrant", "RetireGrant", "DescribeKey", "GenerateMac", "VerifyMac"]
HMAC_256, HMAC_SHA_256 = "HMAC_256", "HMAC_SHA_256"
USAGES = {SYMMETRIC: "ENCRYPT_DECRYPT", HMAC_256: "GENERATE_VERIFY_MAC"}
ROTATIONS = {"EnableKeyRotation", "DisableKeyRotation", "RotateKeyOnDemand", "GetKeyRotationStatus", "ListKeyRotations"}
WITH_ALGORITHM = {"Encrypt", "Decrypt", "ReEncryptFrom", "ReEncryptTo", "GenerateDataKey", "GenerateDataKeyWithoutPlaintext"}
CHANGES = make_key_lives.CHANGES | {"CreateAlias", "UpdateAlias", "DeleteAlias", "CreateGrant", "RetireGrant", "RevokeGrant", "TagResource", "UntagResource"}
NEEDS_ENABLED = make_key_lives.NEEDS_ENABLED | {"CreateGrant", "GenerateMac", "VerifyMac"}
NEEDS_KEPT = make_key_lives.NEEDS_KEPT | {"CreateAlias", "UpdateAlias", "TagResource", "UntagResource"}
DEFAULT_POLICY = ('{"Version":"2012-10-17","Id":"key-default-1","Statement":[{"Sid":"Enable IAM User Permissions","Effect":"Allow",'
                  '"Principal":{"AWS":"%s"},"Action":"kms:*","Resource":"*"}]}' % ROOT)
ALIAS = re.compile("alias/[a-zA-Z0-9/_-]+")
PRINCIPAL = re.compile("arn:aws:iam::[0-9]{12}:(root|(user|role)/[A-Za-z0-9+=,.@_/-]{1,512})")


def draws(boot):
    """The words of the first pass of a run."""
    return Cipher(algorithms.ChaCha20(mac(b"draw" + struct.pack(">IH", boot, 1)), bytes(16)), None).encryptor().update(bytes(1 << 16))


DRAWS = draws(1)


def grant_id(place, boot=1):
    return (mac(b"grant" + struct.pack(">I", boot) + place.to_bytes(6, "big"))[:26] + place.to_bytes(6, "big")).hex()


def alias_arn(name):
    return f"arn:aws:kms:{REGION}:{ACCOUNT}:{name}"


def is_alias(text):
    return ALIAS.fullmatch(text) is not None and len(text) <= 256 and not text.startswith("alias/aws/")


def is_id(text):
    return re.fullmatch("[0-9a-fA-F]{8}(-[0-9a-fA-F]{4}){3}-[0-9a-fA-F]{12}", text) is not None


def reference(text):
    """What names a key: ("key", id), ("alias", name), or the refusal of the text."""
    if text.startswith("arn:"):
        parts = text.split(":", 5)
        good = len(parts) == 6 and parts[1:3] == ["aws", "kms"] and re.fullmatch("[a-z0-9-]{1,32}", parts[3]) \
            and re.fullmatch("[0-9]{12}", parts[4]) and (is_alias(parts[5]) or parts[5].startswith("key/") and is_id(parts[5][4:]))
        if not good:
            raise Refused("InvalidArnException", "The ARN is not valid.")
        if parts[3:5] != [REGION, ACCOUNT]:
            raise Refused("NotFoundException", "Not found: key.")
        text = parts[5][4:] if parts[5].startswith("key/") else parts[5]
    if text.startswith("alias/"):
        if not is_alias(text):
            raise Refused("NotFoundException", "Not found: alias.")
        return "alias", text
    if not is_id(text):
        raise Refused("NotFoundException", "Not found: key.")
    return "key", uuid.UUID(text).bytes


def principal(text):
    if PRINCIPAL.fullmatch(text) is None:
        raise Refused("InvalidArnException", "The ARN is not valid.")
    return text


def first_given(body, *names, default):
    """The first of these members that the body gives."""
    return next((body[name] for name in names if body.get(name) is not None), default)


def not_supported(field):
    raise Refused("UnsupportedOperationException", f"Field {field} is not supported.")


def kind_of(body):
    """The spec of the kind of key that a CreateKey asks for."""
    for field, texts in (("KeyUsage", USAGES.values()), ("CustomerMasterKeySpec", USAGES), ("KeySpec", USAGES)):
        if first_given(body, field, default=None) not in (None, *texts):
            not_supported(field)
    specs = {body[field] for field in ("CustomerMasterKeySpec", "KeySpec") if body.get(field) is not None}
    if len(specs) == 2:
        not_supported("KeySpec")
    spec = specs.pop() if specs else SYMMETRIC
    if first_given(body, "KeyUsage", default=USAGES[SYMMETRIC]) != USAGES[spec]:
        not_supported("KeyUsage")
    return spec


def kind_facts(spec, usage):
    return [("kms:KeySpec", [spec]), ("kms:KeyUsage", [usage]), ("kms:KeyOrigin", ["AWS_KMS"]), ("kms:MultiRegion", ["false"])]


def tags_of(body):
    """The tags of a request, pairs in its order."""
    return [(tag["TagKey"], tag["TagValue"]) for tag in body.get("Tags") or []]


def tag_facts(tags):
    """What a request says of the tags that it gives to a key."""
    return [(f"aws:RequestTag/{name}", [value]) for name, value in tags] + ([("aws:TagKeys", [name for name, _ in tags])] if tags else [])


def proper(tags):
    """No two tags have one key, and none begins with `aws:`, in whatever case."""
    names = [name for name, _ in tags]
    if len(set(names)) < len(names) or any(name.lower().startswith("aws:") for name in names):
        raise Refused("TagException", "The tags are not valid.")


def sized(name):
    return 1 <= len(name) <= 128


def is_tag(tag):
    name, value = tag.get("TagKey"), tag.get("TagValue")
    return name is not None and value is not None and sized(name) and len(value) <= 256


def fields(operation, body):
    """The fields that some cases make wrong, in a request whose members all have their types."""
    if "AliasName" in body and not is_alias(body["AliasName"]):
        raise Refused("InvalidAliasNameException", "The alias name is not valid.")
    tags, names = body.get("Tags"), body.get("TagKeys")
    wrong = {"Message": operation in ("GenerateMac", "VerifyMac") and not 1 <= len(base64.b64decode(body["Message"])) <= 4096,
             "Mac": operation == "VerifyMac" and not 1 <= len(base64.b64decode(body["Mac"])) <= 6144,
             "Tags": tags is not None and not (len(tags) <= 50 and all(map(is_tag, tags))) or tags is None and operation == "TagResource",
             "TagKeys": operation == "UntagResource" and not (names is not None and 1 <= len(names) <= 50 and all(map(sized, names)))}
    for field in wrong:
        if wrong[field]:
            raise Refused("ValidationException", f"Field {field} is not valid.")


def includes(context, other):
    return all(context.get(name) == value for name, value in other.items())


def constraint_of(body):
    """The kind and the map of a grant's constraint, None where it has none."""
    given = [(kind, value) for kind, value in (body.get("Constraints") or {}).items() if value is not None]
    return given[0] if given else None


def is_child(parent, operations, constraint):
    if not set(operations) <= set(parent["operations"]):
        return False
    if parent["constraint"] is None:
        return True
    if constraint is None:
        return False
    kind, wanted = parent["constraint"]
    if kind == "EncryptionContextEquals":
        return constraint == parent["constraint"]
    return includes(constraint[1], wanted)


class Whole(make_key_lives.Account):
    """One session of one caller, or (asked) the requests of several callers at one second."""

    long = False

    def __init__(self, what, policies=None, caller=ROOT, asked=False, ceiling=()):
        super().__init__(what)
        self.aliases, self.grants, self.words = [], [], 0
        self.policies, self.caller, self.asked, self.ceiling = policies or {}, caller, asked, list(ceiling)
        if asked:
            self.lines.append("spent 0 0")
        for who, documents in self.policies.items():
            self.lines += [f"policy {who} {document}" for document in documents]
        self.lines += [f"ceiling {document}" for document in self.ceiling]
        if caller != ROOT:
            self.lines.append(f"as {caller}")

    def by(self, caller):
        assert self.asked
        if caller != self.caller:
            self.caller = caller
            self.said.append((self.now, f"as {caller}", None))
        return self

    # ---- what is there

    def house(self):
        if not self.asked:
            super().house()
            kept = {key["id"] for key in self.keys}
            self.aliases = [row for row in self.aliases if row["key"] in kept]
            self.grants = [row for row in self.grants if row["key"] in kept]

    def append(self):
        """Appends an entry, whose place is answered."""
        super().append()
        return self.front - 1

    def row(self, key):
        """The row of a key that is there."""
        found = [row for row in self.keys if row["id"] == key and not self.gone(row)]
        return found[0] if found else None

    def alias(self, name):
        for row in self.aliases:
            if row["name"] == name and self.row(row["key"]):
                return row
        raise Refused("NotFoundException", "Not found: alias.")

    def named(self, text):
        """The key that an id, an ARN or an alias names, and the alias."""
        kind, what = reference(text)
        row = self.row(self.alias(what)["key"] if kind == "alias" else what)
        if row is None:
            raise Refused("NotFoundException", "Not found: key.")
        return row, what if kind == "alias" else None

    def key(self, text, missing=None):
        """The key that an id or the ARN of a key names."""
        if reference(text)[0] == "alias":
            raise Refused("InvalidArnException", "The ARN is not valid.")
        return self.named(text)[0]

    def live(self):
        return [row for row in self.grants if self.row(row["key"])]

    def live_grant(self, grant):
        return next((row for row in self.live() if row["grant"] == grant), None)

    # ---- authority

    def denied(self, action, resource):
        raise Refused("AccessDeniedException", f"User: {self.caller} is not authorized to perform: kms:{action} on resource: {resource}")

    def facts(self, key=None, alias=None):
        now = datetime.fromtimestamp(self.moment(), timezone.utc).strftime("%Y-%m-%dT%H:%M:%SZ")
        found = [("aws:PrincipalArn", [self.caller]), ("aws:PrincipalAccount", [ACCOUNT]), ("kms:CallerAccount", [ACCOUNT]),
                 ("aws:CurrentTime", [now]), ("aws:EpochTime", [str(self.moment())]), ("aws:RequestedRegion", [REGION]),
                 ("aws:SecureTransport", ["false"])]
        if ":user/" in self.caller:
            found.append(("aws:username", [self.caller.rsplit("/", 1)[1]]))
        if key:
            found += kind_facts(key["spec"], USAGES[key["spec"]])
            found += [(f"aws:ResourceTag/{name}", [value]) for name, value in key["tags"].items()]
            names = [row["name"] for row in self.aliases if row["key"] == key["id"]]
            found += [("kms:ResourceAliases", names)] if names else []
            found += [("kms:RequestAlias", [alias])] if alias else []
        return found

    def stops(self, action, resource, facts):
        """Whether the account's ceiling stops it: one of its documents denies it, or there are some and none allows it."""
        said = {make_verdicts.verdict("identity", document, self.caller, action, resource, facts) for document in self.ceiling}
        return bool(said) and ("Deny" in said or "Direct" not in said)

    def own_verdict(self, action, resource, facts):
        said = {make_verdicts.verdict("identity", document, self.caller, action, resource, facts) for document in self.policies.get(self.caller, [])}
        return "Deny" if "Deny" in said else "Allow" if "Direct" in said or self.caller == ROOT else "Silent"

    def permits(self, grant, action, key, context, child):
        if grant["key"] != key["id"] or grant["grantee"] != self.caller or action not in grant["operations"]:
            return False
        if action in ("DescribeKey", "RetireGrant") or (action != "CreateGrant" and grant["constraint"] is None):
            return True
        if action == "CreateGrant":
            return is_child(grant, *child)
        kind, wanted = grant["constraint"]
        return context == wanted if kind == "EncryptionContextEquals" else includes(context, wanted)

    def told_of(self, action, key, alias, more, context):
        """What a request says of a key and of itself to conditions."""
        facts = self.facts(key, alias) + list(more)
        facts += [(f"kms:EncryptionContext:{name}", [context[name]]) for name in sorted(context)]
        facts += [("kms:EncryptionContextKeys", sorted(context))] if context else []
        return facts + ([("kms:EncryptionAlgorithm", ["SYMMETRIC_DEFAULT"])] if action in WITH_ALGORITHM else [])

    def may(self, action, key, alias=None, more=(), context=None, child=None):
        """Whether the caller may do this to the key: no statement denies it, and a statement or a grant allows it."""
        context = context or {}
        facts = self.told_of(action, key, alias, more, context)
        resource = arn(key["id"])
        policy = make_verdicts.verdict("key", key["policy"], self.caller, action, resource, facts)
        own = self.own_verdict(action, resource, facts)
        if "Deny" in (policy, own) or self.stops(action, resource, facts):
            return False
        if policy == "Direct" or (policy == "ByRoot" and own == "Allow"):
            return True
        return action in GRANT_OPERATIONS and any(self.permits(row, action, key, context, child) for row in self.live())

    def must(self, action, key, *rest, **more):
        if not self.may(action, key, *rest, **more):
            self.denied(action, arn(key["id"]))

    def must_own(self, action, resource, more=()):
        """An operation that no key policy speaks of."""
        facts = self.facts() + list(more)
        if self.own_verdict(action, resource, facts) != "Allow" or self.stops(action, resource, facts):
            self.denied(action, resource)

    def must_retire(self, grant):
        if self.caller not in (ROOT, grant["retiring"]) and not (self.caller == grant["grantee"] and "RetireGrant" in grant["operations"]):
            self.denied("RetireGrant", arn(grant["key"]))

    def tokens(self, body):
        for token in body.get("GrantTokens") or []:
            if self.live_grant(token) is None:
                raise Refused("InvalidGrantTokenException", "A grant token names no live grant.")

    def room(self, counted, rows, most):
        if len(rows) >= most:
            raise Refused("LimitExceededException", f"Limit reached: {counted}.")

    def dry(self, body):
        if body.get("DryRun"):
            raise Refused("DryRunOperationException", "The call would have been allowed.", 412)

    def fit(self, operation, key):
        if operation in NEEDS_ENABLED and key["state"] == "Disabled":
            raise Refused("DisabledException", f"{arn(key['id'])} is disabled.")
        wrong = (operation in NEEDS_ENABLED | NEEDS_KEPT and key["state"] == "PendingDeletion") or (
            operation == "CancelKeyDeletion" and key["state"] != "PendingDeletion")
        if wrong:
            raise Refused("KMSInvalidStateException", f"{arn(key['id'])} is {key['state']}.")

    def used(self, key, spec, algorithm):
        """A key is of the kind that is wanted, and the algorithm that is given is that of the kind."""
        if key["spec"] != spec or algorithm not in (None, {SYMMETRIC: SYMMETRIC, HMAC_256: HMAC_SHA_256}[spec]):
            raise Refused("InvalidKeyUsageException", "The algorithm does not fit the key.")

    def rotated(self, operation, key):
        """The material of HMAC keys isn't rotated."""
        if operation in ROTATIONS and key["spec"] != SYMMETRIC:
            not_supported("KeyId")

    # ---- requests

    def ask(self, operation, body, after=None):
        try:
            fields(operation, body)
            if operation in CHANGES:
                self.house()
            reply = getattr(self, operation)(body)
            said = f"< 200 {self.front} {json.dumps(reply, separators=(',', ':'), sort_keys=True, ensure_ascii=False)}"
        except Refused as why:
            said = f"< {why.status} {why.name} {self.front} {why.message}"
        self.said.append((self.now, f"> {operation} {json.dumps(body, separators=(',', ':'), ensure_ascii=False)}", said))
        return self

    def flag(self, body):
        return [("kms:BypassPolicyLockoutSafetyCheck", [str(body.get("BypassPolicyLockoutSafetyCheck", False)).lower()])]

    def no_lockout(self, key, body):
        """Who gives a key a policy must be one who may give it another one then, unless the request passes over that."""
        if not body.get("BypassPolicyLockoutSafetyCheck") and not self.may("PutKeyPolicy", key | {"policy": body["Policy"]}, more=self.flag(body)):
            raise Refused("MalformedPolicyDocumentException", "Policy: lockout.")

    def CreateKey(self, body):
        tags = tags_of(body)
        more = kind_facts(first_given(body, "KeySpec", "CustomerMasterKeySpec", default=SYMMETRIC), first_given(body, "KeyUsage", default=USAGES[SYMMETRIC]))
        more += tag_facts(tags) + self.flag(body)
        self.must_own("CreateKey", "*", more)
        if tags:
            self.must_own("TagResource", "*", more)
        made = {"spec": kind_of(body), "tags": dict(tags)}
        self.unserved(body, tags)
        if "Policy" in body:
            self.no_lockout({"id": key_id(self.front, self.boot)} | made, body)
        born = self.front
        super().CreateKey(body)
        self.keys[-1].update(made | {"policy": body.get("Policy", DEFAULT_POLICY), "born": born})
        return self.metadata(self.keys[-1])

    def unserved(self, body, tags):
        """What CreateKey doesn't make, and tags that aren't proper at their place among it."""
        if first_given(body, "Origin", default="AWS_KMS") != "AWS_KMS":
            not_supported("Origin")
        if body.get("CustomKeyStoreId") is not None:
            not_supported("CustomKeyStoreId")
        proper(tags)
        if body.get("MultiRegion"):
            not_supported("MultiRegion")
        if body.get("XksKeyId") is not None:
            not_supported("XksKeyId")

    def DescribeKey(self, body):
        key, alias = self.named(body["KeyId"])
        self.must("DescribeKey", key, alias)
        self.tokens(body)
        return self.metadata(key)

    def GetKeyPolicy(self, body):
        key = self.key(body["KeyId"])
        self.must("GetKeyPolicy", key)
        return {"Policy": key["policy"], "PolicyName": "default"}

    def PutKeyPolicy(self, body):
        key = self.key(body["KeyId"])
        self.must("PutKeyPolicy", key, more=self.flag(body))
        self.no_lockout(key, body)
        self.append()
        key["policy"] = body["Policy"]
        return {}

    def change(self, operation, body):
        """The key of an operation that is asked of it alone: it is there, the caller may, and it is in a state for it."""
        key = self.key(body["KeyId"])
        more = {"ScheduleKeyDeletion": [("kms:ScheduleKeyDeletionPendingWindowInDays", [str(body.get("PendingWindowInDays", 30))])],
                "EnableKeyRotation": [("kms:RotationPeriodInDays", [str(body.get("RotationPeriodInDays", 365))])]}
        self.must(operation, key, more=more.get(operation, []))
        self.fit(operation, key)
        self.rotated(operation, key)
        return key

    def GetKeyRotationStatus(self, body):
        key = self.key(body["KeyId"])
        self.must("GetKeyRotationStatus", key)
        self.rotated("GetKeyRotationStatus", key)
        return super().GetKeyRotationStatus(body)

    # ---- texts and data keys

    def use(self, operation, body):
        """The key that an operation seals under."""
        key, alias = self.named(body["KeyId"])
        self.must(operation, key, alias, context=body.get("EncryptionContext"))
        self.tokens(body)
        self.fit(operation, key)
        self.used(key, SYMMETRIC, body.get("EncryptionAlgorithm") if operation == "Encrypt" else None)
        if operation == "GenerateDataKey" and body.get("Recipient") is not None:
            not_supported("Recipient")
        self.dry(body)
        return key

    def Encrypt(self, body):
        key = self.use("Encrypt", body)
        blob = self.sealed(key, body.get("EncryptionContext", {}), base64.b64decode(body["Plaintext"]))
        return {"CiphertextBlob": blob, "EncryptionAlgorithm": "SYMMETRIC_DEFAULT", "KeyId": arn(key["id"])}

    def stream(self):
        """The words of the pass, of which it has given some."""
        return DRAWS

    def drawn(self, body):
        size = {"AES_256": 32, "AES_128": 16}[body["KeySpec"]] if "KeySpec" in body else body["NumberOfBytes"]
        text = self.stream()[4 * self.words:4 * self.words + size]
        self.words += (size + 3) // 4
        return text

    def GenerateDataKey(self, body):
        return self.data_key("GenerateDataKey", body, lambda text: {"Plaintext": b64(text)})

    def GenerateDataKeyWithoutPlaintext(self, body):
        return self.data_key("GenerateDataKeyWithoutPlaintext", body, lambda text: {})

    def data_key(self, operation, body, told):
        key = self.use(operation, body)
        text = self.drawn(body)
        return told(text) | {"CiphertextBlob": self.sealed(key, body.get("EncryptionContext", {}), text), "KeyId": arn(key["id"])}

    def source(self, body, field, action):
        """The key of a blob, and the alias by which the request names it."""
        named = self.named(body[field]) if field in body else None
        raw = base64.b64decode(body["CiphertextBlob"])
        if blobs.parts(raw) is None:
            raise Refused("InvalidCiphertextException", "The ciphertext does not open.")
        if named and named[0]["id"] != raw[1:17]:
            raise Refused("IncorrectKeyException", "The ciphertext is of another key.")
        if self.row(raw[1:17]) is None:
            self.denied(action, arn(raw[1:17]))
        return self.row(raw[1:17]), named and named[1]

    def Decrypt(self, body):
        context = body.get("EncryptionContext", {})
        key, alias = self.source(body, "KeyId", "Decrypt")
        self.must("Decrypt", key, alias, context=context)
        self.tokens(body)
        self.fit("Decrypt", key)
        self.used(key, SYMMETRIC, body.get("EncryptionAlgorithm"))
        if body.get("Recipient") is not None:
            not_supported("Recipient")
        text = self.text_of(key, body["CiphertextBlob"], context)
        self.dry(body)
        return {"EncryptionAlgorithm": "SYMMETRIC_DEFAULT", "KeyId": arn(key["id"]), "Plaintext": b64(text)}

    def ReEncrypt(self, body):
        source, source_alias = self.source(body, "SourceKeyId", "ReEncryptFrom")
        key, alias = self.named(body["DestinationKeyId"])
        same = [("kms:ReEncryptOnSameKey", ["true" if source is key else "false"])]
        before, after = body.get("SourceEncryptionContext", {}), body.get("DestinationEncryptionContext", {})
        self.must("ReEncryptFrom", source, source_alias, same, before)
        self.must("ReEncryptTo", key, alias, same, after)
        self.tokens(body)
        self.fit("ReEncrypt", source)
        self.fit("ReEncrypt", key)
        self.used(source, SYMMETRIC, body.get("SourceEncryptionAlgorithm"))
        self.used(key, SYMMETRIC, body.get("DestinationEncryptionAlgorithm"))
        text = self.text_of(source, body["CiphertextBlob"], before)
        self.dry(body)
        return {"CiphertextBlob": self.sealed(key, after, text), "DestinationEncryptionAlgorithm": "SYMMETRIC_DEFAULT",
                "KeyId": arn(key["id"]), "SourceEncryptionAlgorithm": "SYMMETRIC_DEFAULT", "SourceKeyId": arn(source["id"])}

    # ---- MACs

    def of_mac(self, operation, body):
        """The key of a MAC, and the MAC of the message under it."""
        key, alias = self.named(body["KeyId"])
        self.must(operation, key, alias, [("kms:MacAlgorithm", [body["MacAlgorithm"]])])
        self.tokens(body)
        self.fit(operation, key)
        self.used(key, HMAC_256, body["MacAlgorithm"])
        return key, mac_of(ROOT_SECRET, key["id"], base64.b64decode(body["Message"]))

    def GenerateMac(self, body):
        key, mac = self.of_mac("GenerateMac", body)
        self.dry(body)
        return {"KeyId": arn(key["id"]), "Mac": b64(mac), "MacAlgorithm": HMAC_SHA_256}

    def VerifyMac(self, body):
        key, mac = self.of_mac("VerifyMac", body)
        if base64.b64decode(body["Mac"]) != mac:
            raise Refused("KMSInvalidMacException", "The MAC is not valid.")
        self.dry(body)
        return {"KeyId": arn(key["id"]), "MacAlgorithm": HMAC_SHA_256, "MacValid": True}

    # ---- tags

    def TagResource(self, body):
        key, tags = self.key(body["KeyId"]), tags_of(body)
        self.must("TagResource", key, more=tag_facts(tags))
        self.fit("TagResource", key)
        proper(tags)
        after = key["tags"] | dict(tags)
        if len(after) > 50:
            raise Refused("LimitExceededException", "Limit reached: tags.")
        self.append()
        key["tags"] = after
        return {}

    def UntagResource(self, body):
        key, names = self.key(body["KeyId"]), body["TagKeys"]
        self.must("UntagResource", key, more=[("aws:TagKeys", names)])
        self.fit("UntagResource", key)
        if any(name in key["tags"] for name in names):
            self.append()
            key["tags"] = {name: value for name, value in key["tags"].items() if name not in names}
        return {}

    def ListResourceTags(self, body):
        key = self.key(body["KeyId"])
        self.must("ListResourceTags", key)
        marker = body.get("Marker")
        if marker is not None and re.fullmatch("([0-9a-f]{2})+", marker) is None:
            raise Refused("InvalidMarkerException", "The marker is not valid.")
        after = [name for name in sorted(key["tags"], key=str.encode) if marker is None or name.encode() > bytes.fromhex(marker)]
        limit = body.get("Limit", 50)
        said = {"Tags": [{"TagKey": name, "TagValue": key["tags"][name]} for name in after[:limit]], "Truncated": len(after) > limit}
        return said | ({"NextMarker": after[limit - 1].encode().hex()} if len(after) > limit else {})

    # ---- aliases

    def CreateAlias(self, body):
        name = body["AliasName"]
        key = self.key(body["TargetKeyId"])
        self.must_own("CreateAlias", alias_arn(name))
        self.must("CreateAlias", key)
        self.fit("CreateAlias", key)
        if any(row["name"] == name for row in self.aliases):
            raise Refused("AlreadyExistsException", "The alias exists.")
        self.room("aliases", self.aliases, 10000)
        born = self.append()
        self.aliases.append({"name": name, "born": born, "made": self.latest, "updated": self.latest, "key": key["id"]})
        return {}

    def UpdateAlias(self, body):
        name = body["AliasName"]
        row = self.alias(name)
        key = self.key(body["TargetKeyId"])
        self.must_own("UpdateAlias", alias_arn(name))
        self.must("UpdateAlias", self.row(row["key"]))
        self.must("UpdateAlias", key)
        self.fit("UpdateAlias", key)
        self.append()
        row["key"], row["updated"] = key["id"], self.latest
        return {}

    def DeleteAlias(self, body):
        name = body["AliasName"]
        row = self.alias(name)
        self.must_own("DeleteAlias", alias_arn(name))
        self.must("DeleteAlias", self.row(row["key"]))
        self.append()
        self.aliases.remove(row)
        return {}

    # ---- lists

    def page(self, body, name, rows, most, place=lambda row: row["born"]):
        marker = body.get("Marker")
        if marker is not None and re.fullmatch("[0-9]{1,18}", marker) is None:
            raise Refused("InvalidMarkerException", "The marker is not valid.")
        after = [pair for pair in rows if marker is None or place(pair[0]) > int(marker)]
        limit = body.get("Limit", most)
        said = {name: [shown for _, shown in after[:limit]], "Truncated": len(after) > limit}
        return said | ({"NextMarker": str(place(after[limit - 1][0]))} if len(after) > limit else {})

    def ListKeys(self, body):
        self.must_own("ListKeys", "*")
        kept = [key for key in self.keys if not self.gone(key)]
        return self.page(body, "Keys", [(key, {"KeyArn": arn(key["id"]), "KeyId": printed(key["id"])}) for key in kept], 100)

    def ListAliases(self, body):
        wanted = self.key(body["KeyId"]) if "KeyId" in body else None
        self.must_own("ListAliases", "*")
        rows = [(row, {"AliasArn": alias_arn(row["name"]), "AliasName": row["name"], "CreationDate": row["made"],
                       "LastUpdatedDate": row["updated"], "TargetKeyId": printed(row["key"])})
                for row in self.aliases if self.row(row["key"]) and (wanted is None or row["key"] == wanted["id"])]
        return self.page(body, "Aliases", rows, 50)

    def ListKeyPolicies(self, body):
        self.must("ListKeyPolicies", self.key(body["KeyId"]))
        self.page(body, "PolicyNames", [], 100)
        return {"PolicyNames": ["default"], "Truncated": False}

    def ListKeyRotations(self, body):
        key = self.key(body["KeyId"])
        self.must("ListKeyRotations", key)
        self.rotated("ListKeyRotations", key)
        rows = [({"born": number}, {"KeyId": printed(key["id"]), "RotationDate": time, "RotationType": kind})
                for number, (time, kind) in enumerate(key["versions"], 1) if number > 1]
        return self.page(body, "Rotations", rows, 100)

    def shown(self, row):
        said = {"CreationDate": row["made"], "GrantId": row["grant"], "GranteePrincipal": row["grantee"], "IssuingAccount": ROOT,
                "KeyId": arn(row["key"]), "Operations": [name for name in GRANT_OPERATIONS if name in row["operations"]]}
        if row["constraint"] is not None:
            said["Constraints"] = dict([row["constraint"]])
        for member, value in (("Name", row["name"]), ("RetiringPrincipal", row["retiring"])):
            said |= {member: value} if value is not None else {}
        return said

    FOR_NO_RESOURCE = [("kms:GrantIsForAWSResource", ["false"])]

    def ListGrants(self, body):
        key = self.key(body["KeyId"])
        self.grant_form(body)
        grantee = principal(body["GranteePrincipal"]) if "GranteePrincipal" in body else None
        self.must("ListGrants", key, more=self.FOR_NO_RESOURCE)
        rows = [(row, self.shown(row)) for row in self.live() if row["key"] == key["id"]
                and body.get("GrantId", row["grant"]) == row["grant"] and grantee in (None, row["grantee"])]
        return self.page(body, "Grants", rows, 50)

    def ListRetirableGrants(self, body):
        retiring = principal(body["RetiringPrincipal"])
        self.must_own("ListRetirableGrants", "*")
        return self.page(body, "Grants", [(row, self.shown(row)) for row in self.live() if row["retiring"] == retiring], 50)

    # ---- grants

    def grant_form(self, body):
        if "GrantId" in body and re.fullmatch("[0-9a-f]{64}", body["GrantId"]) is None:
            raise Refused("InvalidGrantIdException", "The grant id is not valid.")

    def CreateGrant(self, body):
        key = self.key(body["KeyId"])
        grantee = principal(body["GranteePrincipal"])
        retiring = principal(body["RetiringPrincipal"]) if "RetiringPrincipal" in body else None
        operations, constraint = body["Operations"], constraint_of(body)
        more = [("kms:GrantOperations", operations), ("kms:GranteePrincipal", [grantee])] + self.FOR_NO_RESOURCE
        more += [("kms:RetiringPrincipal", [retiring])] if retiring else []
        more += [("kms:GrantConstraintType", [constraint[0]])] if constraint else []
        self.must("CreateGrant", key, more=more, context=constraint and constraint[1], child=(operations, constraint))
        self.tokens(body)
        self.fit("CreateGrant", key)
        made = {"key": key["id"], "grantee": grantee, "retiring": retiring, "operations": sorted(set(operations)), "constraint": constraint,
                "name": body.get("Name")}
        same = [row for row in self.live() if made["name"] is not None and made == {member: row[member] for member in made}]
        if not same:
            self.room("key grants", [row for row in self.grants if row["key"] == key["id"]], 5000)
        self.dry(body)
        if not same:
            born = self.append()
            same = [made | {"grant": grant_id(born, self.boot), "born": born, "made": self.latest}]
            self.grants += same
        return {"GrantId": same[0]["grant"], "GrantToken": same[0]["grant"]}

    def RetireGrant(self, body):
        if "GrantToken" in body:
            self.tokens({"GrantTokens": [body["GrantToken"]]})
            grant = self.live_grant(body["GrantToken"])
        else:
            key = self.key(body["KeyId"])
            self.grant_form(body)
            grant = self.live_grant(body["GrantId"])
            if grant is None or grant["key"] != key["id"]:
                raise Refused("NotFoundException", "Not found: grant.")
        self.must_retire(grant)
        return self.drop(grant, body)

    def RevokeGrant(self, body):
        key = self.key(body["KeyId"])
        self.grant_form(body)
        self.must("RevokeGrant", key, more=self.FOR_NO_RESOURCE)
        grant = self.live_grant(body["GrantId"])
        if grant is None or grant["key"] != key["id"]:
            raise Refused("NotFoundException", "Not found: grant.")
        return self.drop(grant, body)

    def drop(self, grant, body):
        self.dry(body)
        self.append()
        self.grants.remove(grant)
        return {}

    # ---- the script

    def script(self):
        lines = list(self.lines)
        if not self.asked:
            lines += [f"clock {second} {formatdate(second, usegmt=True)}" for second, _, _ in self.said]
            while len(lines) > 1 and lines[-1] == lines[-2]:
                lines.pop()
        lines += [line for _, request, reply in self.said for line in (request, reply) if line is not None]
        return "\n".join(lines + [f"left {self.words} {self.ivs}" if self.asked else "end Ended"])
