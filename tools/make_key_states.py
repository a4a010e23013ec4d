#!/usr/bin/env python3
# Known answers of key_states, evaluated here from the rules in words. See README.md.
import os

ACTIONS = (
    "CreateKey DescribeKey ListKeys EnableKey DisableKey ScheduleKeyDeletion CancelKeyDeletion EnableKeyRotation"
    " DisableKeyRotation GetKeyRotationStatus RotateKeyOnDemand ListKeyRotations PutKeyPolicy GetKeyPolicy ListKeyPolicies"
    " UpdateKeyDescription CreateAlias UpdateAlias DeleteAlias ListAliases CreateGrant ListGrants ListRetirableGrants"
    " RetireGrant RevokeGrant Encrypt Decrypt ReEncryptFrom GenerateDataKey GenerateDataKeyWithoutPlaintext GenerateRandom"
    " ReEncryptTo GenerateMac VerifyMac TagResource UntagResource ListResourceTags"
).split()
# those that want an enabled key, and those that want one whose deletion isn't scheduled
USE = set(
    "Encrypt Decrypt ReEncryptFrom ReEncryptTo GenerateDataKey GenerateDataKeyWithoutPlaintext CreateGrant EnableKeyRotation"
    " DisableKeyRotation RotateKeyOnDemand GenerateMac VerifyMac".split()
)
KEPT = set("EnableKey DisableKey ScheduleKeyDeletion UpdateKeyDescription CreateAlias UpdateAlias TagResource UntagResource".split())
def state_at(stored, m):
    if stored[0] == "pending":
        return "Gone" if stored[1] <= m else "PendingDeletion"
    return {"enabled": "Enabled", "disabled": "Disabled"}[stored[0]]
def show_stored(s): return s[0] if s[0] != "pending" else f"pending {s[1]} {s[2]}"
with open(os.path.join(os.path.dirname(__file__), "../crates/known_answers/data/key_states.txt"), "w") as f:
    print("# The states of keys (AWS KMS Developer Guide, \"Key states of AWS KMS keys\").", file=f)
    print("#\n# state_at | `enabled`, `disabled` or `pending DATE DAYS` | moment | state\n# due | the same | period, or `-` | next date | moment | whether a rotation is due\n# permits | action | state | `none`, `Disabled` or `InvalidState`\n#\n# Made by tools/make_key_states.py.", file=f)
    D = 1700604800
    for s in [("enabled",), ("disabled",), ("pending", D, 7), ("pending", 0, 7), ("pending", 2**64-1, 30)]:
        for m in [0, 1, D-1, D, D+1, 1700518400, 253402300799, 2**64-1]:
            print(f"state_at | {show_stored(s)} | {m} | {state_at(s, m)}", file=f)
    N = 1700000000 + 90*86400
    for s in [("enabled",), ("disabled",), ("pending", N+1, 7), ("pending", 0, 7)]:
        for p in [None, 90, 2560]:
            for n in [0, N, 2**64-1]:
                for m in [0, N-1, N, N+1, 2**64-1]:
                    due = s[0] == "enabled" and p is not None and n <= m
                    print(f"due | {show_stored(s)} | {'-' if p is None else p} | {n} | {m} | {str(due).lower()}", file=f)
    for a in ACTIONS:
        for st in ["Enabled", "Disabled", "PendingDeletion"]:
            if a in USE: r = {"Enabled": "none", "Disabled": "Disabled", "PendingDeletion": "InvalidState"}[st]
            elif a in KEPT: r = "InvalidState" if st == "PendingDeletion" else "none"
            elif a == "CancelKeyDeletion": r = "none" if st == "PendingDeletion" else "InvalidState"
            else: r = "none"
            print(f"permits | {a} | {st} | {r}", file=f)

