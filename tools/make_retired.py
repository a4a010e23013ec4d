"""Prints the blob, the grant's id and the answers of pass_cases' part about a grant that is retired, by the account of whole_account.py."""

import json

from make_key_lives import ROOT, arn, key_id
from whole_account import Whole

ANN = "arn:aws:iam::111122223333:user/ann"
KEY = arn(key_id(0)).rpartition("/")[2]


def main():
    account = Whole("a grant is retired", asked=True)

    def ask(what, caller, operation, body):
        account.by(caller).ask(operation, body)
        said = account.said[-1][2]
        print(f"{what}: {said[2:]}")
        return json.loads(said.split(" ", 3)[3]) if said.startswith("< 200") else {}

    ask("makes a key", ROOT, "CreateKey", {})
    blob = ask("seals", ROOT, "Encrypt", {"KeyId": KEY, "Plaintext": "aGVsbG8="})["CiphertextBlob"]
    opened = {"CiphertextBlob": blob}
    ask("ann opens it before", ANN, "Decrypt", opened)
    token = ask("grants", ROOT, "CreateGrant", {"KeyId": KEY, "GranteePrincipal": ANN, "Operations": ["Decrypt"]})["GrantToken"]
    ask("ann opens it", ANN, "Decrypt", opened)
    ask("retires it", ROOT, "RetireGrant", {"GrantToken": token})
    ask("ann opens it then", ANN, "Decrypt", opened)
    ask("the root opens it with the token", ROOT, "Decrypt", opened | {"GrantTokens": [token]})
    ask("retires it again", ROOT, "RetireGrant", {"GrantToken": token})


main()
