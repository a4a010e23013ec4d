"""Makes configs.txt. Run: python3 -B tools/make_configs.py.

Each answer stands here beside what is changed in a configuration, by the rules at the head of the file.
"""

import copy
import json

from vectors import File

ACCOUNT = "111122223333"
ROOT = f"arn:aws:iam::{ACCOUNT}:root"
ANN = f"arn:aws:iam::{ACCOUNT}:user/ann"
BOB = f"arn:aws:iam::{ACCOUNT}:user/team/bob"
BUILD = f"arn:aws:iam::{ACCOUNT}:role/build"
OTHER = "arn:aws:iam::444455556666:user/ann"
SECRET = "00112233445566778899aabbccddeeff" * 2
DOCUMENT = {"Version": "2012-10-17", "Statement": {"Effect": "Allow", "Action": "kms:*", "Resource": "*"}}
ABSENT = object()

file = File(
    "configs.txt",
    """
Configurations.

read_config | JSON | what is configured, or the place of the first fault
padded | JSON | how many bytes there are with spaces behind it | the same

What is configured is `ok`, the account, the region, the root secret, the boot number; the credentials as ID SECRET ARN; and the principals with
policies as ARN COUNT, with `; ` between the parts and `, ` between the items of a list, which is `-` where it is empty; and where there is a ceiling
`; ceiling COUNT`. The place of a fault is its JSON pointer.

A configuration is a JSON object of at most 4,194,304 bytes with exactly `account` (12 digits), `region` (1 to 32 of a to z, 0 to 9, `-`), `root` (64 hexadecimal
digits), `boot` (1 to 4294967295), `credentials` (a list of at most 1,000 objects of `accessKeyId`, 1 to 128 letters and digits, distinct, `secret`, 1 to 128 visible ASCII
characters, and `principal`) and `policies` (a list of at most 1,000 objects of `principal`, distinct and not the root, and `documents`, a list of at most 10 identity
policies); `ceiling` (a list of 1 to 10 identity policies) may stand behind them. A principal is an ARN of the account. Faults are looked for in this order, and of each object's other members last, in byte order. What is no JSON object or too
long is refused at `/`. Credentials are put in the order of their ids.

Made by tools/make_configs.py, with answers written by hand from these rules.
""",
)


def base():
    return {
        "account": ACCOUNT,
        "region": "us-east-1",
        "root": SECRET,
        "boot": 1,
        "credentials": [{"accessKeyId": "AKIDEXAMPLE", "secret": "secret", "principal": ROOT}],
        "policies": [{"principal": ANN, "documents": [copy.deepcopy(DOCUMENT)]}],
    }


def text_of(value):
    return json.dumps(value, ensure_ascii=False)


def ok(boot=1, credentials=f"AKIDEXAMPLE secret {ROOT}", policies=f"{ANN} 1", region="us-east-1", account=ACCOUNT, root=SECRET):
    return f"ok {account} {region} {root} {boot}; {credentials}; {policies}"


def case(answer, value):
    file.case("read_config", value if isinstance(value, str) else text_of(value), answer)


def changed(path, value):
    """The base with another value at a place; ABSENT takes the place away."""
    config = base()
    at = config
    for step in path[:-1]:
        at = at[step]
    if value is ABSENT:
        del at[path[-1]]
    elif isinstance(at, list) and path[-1] == len(at):
        at.append(value)
    else:
        at[path[-1]] = value
    return config


def change(answer, path, value):
    case(answer, changed(path, value))


def whole():
    file.note("Whole files.")
    case(ok(), base())
    case(ok(), json.dumps(base(), indent=1).replace("\n", "\t"))
    case(ok(), text_of(dict(reversed(list(base().items())))))
    for text in ["[]", "null", "1", '"x"', "true", "", "{", "{]", text_of(base())[:-1], text_of(base()) + "x", text_of(base()) + "{}", "'x'", "{'account':1}"]:
        case("/", text or " ")
    for text in ["{}", '{"region":1}']:
        case("/account", text)
    case(ok(), text_of(base())[:-1] + ', "boot": 1}')
    case(ok(boot=2), text_of(base())[:-1] + ', "boot": 2}')
    case("/boot", text_of(base())[:-1] + ', "boot": 0}')
    case(ok(boot=7), '{"boot": 0, ' + text_of(changed(["boot"], 7))[1:])
    size = len(text_of(base()))
    for bytes_, answer in [(size, ok()), (size + 1, ok()), (4194304, ok()), (4194305, "/"), (5000000, "/")]:
        file.case("padded", text_of(base()), str(bytes_), answer)
    file.case("padded", "{}", "4194304", "/account")
    file.case("padded", "{}", "4194305", "/")


def members():
    file.note("Each member: missing, of another type, out of form.")
    for name in base():
        change("/" + name, [name], ABSENT)
        for value in [None, True, [] if name not in ("credentials", "policies") else {}, 1.5, {"a": 1}]:
            change("/" + name, [name], value)
    for value in ["", "11112222333", "1111222233334", "11112222333a", "111122223333 ", " 11112222333", "１" * 4, "-11122223333", 111122223333]:
        change("/account", ["account"], value)
    for value in ["", "a" * 33, "US-EAST-1", "us_east_1", "us east", "é", 1]:
        change("/region", ["region"], value)
    for value in ["a", "a" * 32, "-", "0", "eu-central-1"]:
        change(ok(region=value), ["region"], value)
    for value in ["", "00", "0" * 63, "0" * 65, "0" * 63 + "g", "0x" + "0" * 62, " " + "0" * 63, 0]:
        change("/root", ["root"], value)
    change(ok(root="ab" * 32), ["root"], "AB" * 32)
    change(ok(root="ab" * 32), ["root"], "aB" * 32)
    for value in [0, -1, 4294967296, 2**64 - 1, 2**64, 2**70, "1", "", False]:
        change("/boot", ["boot"], value)
    for value in [1, 2, 4294967295]:
        change(ok(boot=value), ["boot"], value)
    for number in ["1.0", "1e0", "-0", "0.5", "10e-1"]:
        case("/boot", text_of(base()).replace('"boot": 1', '"boot": ' + number))
    case("/", text_of(base()).replace('"boot": 1', '"boot": 01'))
    for value in ["", "x", 1, {"0": {}}, {}]:
        change("/credentials", ["credentials"], value)
        change("/policies", ["policies"], value)
    change(ok(credentials="-"), ["credentials"], [])
    change(ok(policies="-"), ["policies"], [])


def unknown():
    file.note("Members of other names come last, in byte order.")
    change("/extra", ["extra"], 1)
    change("/", [""], None)
    change("/Account", ["Account"], ACCOUNT)
    case("/a", {**base(), "b": 1, "a": 2})
    case("/B", {**base(), "a": 1, "B": 2})
    case("/~0~1", {**base(), "~/": 1})
    case("/~01", {**base(), "~1": 1})
    case("/é", {**base(), "é": 1})
    case("/ceiling", {**base(), "ceiling": []})
    case("/region", {**changed(["region"], ABSENT), "a": 1})
    case("/policies/0/documents", {**changed(["policies", 0, "documents"], ABSENT), "a": 1})
    change("/credentials/0/x", ["credentials", 0, "x"], 1)
    change("/credentials/0/Secret", ["credentials", 0, "Secret"], "s")
    change("/policies/0/x~1y", ["policies", 0, "x/y"], 1)
    change("/policies/0/a", ["policies", 0], {"principal": ANN, "documents": [], "b": 1, "a": 1})


def credentials():
    file.note("Credentials.")
    for value in [None, 1, "x", [], True]:
        change("/credentials/0", ["credentials", 0], value)
        change("/credentials/1", ["credentials", 1], value)
    for name in ["accessKeyId", "secret", "principal"]:
        change("/credentials/0/" + name, ["credentials", 0, name], ABSENT)
        for value in [None, 1, [], {}, "", "é"]:
            change("/credentials/0/" + name, ["credentials", 0, name], value)
    for value in ["a" * 129, "a b", "a-b", "a/b", "a.", " a", "A_"]:
        change("/credentials/0/accessKeyId", ["credentials", 0, "accessKeyId"], value)
    for value in ["a", "Z", "0", "a" * 128, "AKIA0123456789abcXYZ"]:
        change(ok(credentials=f"{value} secret {ROOT}"), ["credentials", 0, "accessKeyId"], value)
    for value in ["s" * 129, "a b", " ", "\t", "a\u007f", "\u0000", "ü"]:
        change("/credentials/0/secret", ["credentials", 0, "secret"], value)
    for value in ["!", "~", "s" * 128, "wJalrXUtnFEMI/K7MDENG+bPxRfiCYEXAMPLEKEY", "\"\\/"]:
        change(ok(credentials=f"AKIDEXAMPLE {value} {ROOT}"), ["credentials", 0, "secret"], value)
    for value in [OTHER, "root", "*", ACCOUNT, ROOT + "/", ROOT.replace("root", "Root"), ANN + " ", f"arn:aws:iam::{ACCOUNT}:user/", f"arn:aws:iam::{ACCOUNT}:group/g", f"arn:aws:iam::{ACCOUNT}:user/" + "a" * 513, f"arn:aws-cn:iam::{ACCOUNT}:root", f"arn:aws:iam::{ACCOUNT}:user/a b"]:
        change("/credentials/0/principal", ["credentials", 0, "principal"], value)
    for value in [ANN, BOB, BUILD, f"arn:aws:iam::{ACCOUNT}:user/" + "a" * 512, f"arn:aws:iam::{ACCOUNT}:role/+=,.@_/-9"]:
        change(ok(credentials=f"AKIDEXAMPLE secret {value}"), ["credentials", 0, "principal"], value)
    one = base()["credentials"][0]
    change("/credentials/1/accessKeyId", ["credentials", 1], dict(one))
    change("/credentials/1/accessKeyId", ["credentials", 1], {"accessKeyId": "AKIDEXAMPLE", "x": 1})
    change("/credentials/1/secret", ["credentials", 1], {"accessKeyId": "AKIDEXAMPLe", "x": 1})
    change("/credentials/0/secret", ["credentials", 0], {"accessKeyId": "A", "principal": OTHER, "x": 1})
    change("/credentials/0/principal", ["credentials", 0], {"accessKeyId": "A", "secret": "s", "principal": OTHER, "x": 1})
    change("/credentials/0/accessKeyId", ["credentials"], [{"accessKeyId": ""}, {"accessKeyId": ""}])
    config = base()
    config["credentials"] = [{"accessKeyId": id, "secret": "s" + id, "principal": who} for id, who in [("b", ANN), ("a", ROOT), ("c", BUILD), ("B", ANN), ("ab", BOB), ("0", ROOT)]]
    case(ok(credentials=f"0 s0 {ROOT}, B sB {ANN}, a sa {ROOT}, ab sab {BOB}, b sb {ANN}, c sc {BUILD}"), config)
    config["credentials"].append({"accessKeyId": "ab", "secret": "s", "principal": ROOT})
    case("/credentials/6/accessKeyId", config)
    many = [{"accessKeyId": str(n), "secret": "s", "principal": BUILD} for n in range(1001)]
    ordered = ", ".join(f"{id} s {BUILD}" for id in sorted(str(n) for n in range(1000)))
    change(ok(credentials=ordered), ["credentials"], many[:1000])
    change("/credentials", ["credentials"], many)
    change("/credentials", ["credentials"], [1] * 1001)
    change("/credentials/0", ["credentials"], [1] * 1000)


def policies():
    file.note("Principals with policies.")
    for value in [None, 1, "x", [], True]:
        change("/policies/0", ["policies", 0], value)
        change("/policies/1", ["policies", 1], value)
    for name in ["principal", "documents"]:
        change("/policies/0/" + name, ["policies", 0, name], ABSENT)
        for value in [None, 1, {}, "", "é"]:
            change("/policies/0/" + name, ["policies", 0, name], value)
    for value in [ROOT, OTHER, OTHER.replace("user/ann", "root"), "*", ACCOUNT, ANN + ":x"]:
        change("/policies/0/principal", ["policies", 0, "principal"], value)
    for value in [ANN, BOB, BUILD]:
        change(ok(policies=f"{value} 1"), ["policies", 0, "principal"], value)
    change("/policies/1/principal", ["policies", 1], {"principal": ANN, "documents": []})
    change("/policies/1/principal", ["policies", 1], {"principal": ANN, "x": 1})
    change(ok(policies=f"{ANN} 1, {BOB} 0"), ["policies", 1], {"principal": BOB, "documents": []})
    change(ok(policies=f"{ANN} 1, {ANN.replace('user', 'role')} 0"), ["policies", 1], {"principal": ANN.replace("user", "role"), "documents": []})
    change(ok(policies=f"{ANN} 1, {ANN.replace('ann', 'Ann')} 0"), ["policies", 1], {"principal": ANN.replace("ann", "Ann"), "documents": []})
    change(ok(policies=f"{ANN} 10"), ["policies", 0, "documents"], [DOCUMENT] * 10)
    change("/policies/0/documents", ["policies", 0, "documents"], [DOCUMENT] * 11)
    change("/policies/0/documents", ["policies", 0, "documents"], [1] * 11)
    change("/policies/0/documents/0", ["policies", 0, "documents"], [1] * 10)
    many = [{"principal": f"{ANN}{n}", "documents": []} for n in range(1001)]
    change(ok(policies=", ".join(f"{ANN}{n} 0" for n in range(1000))), ["policies"], many[:1000])
    change("/policies", ["policies"], many)
    change("/policies", ["policies"], [1] * 1001)
    file.note("Documents, each a policy of a principal.")
    place = "/policies/0/documents/"
    for value in [None, 1, "x", [], text_of(DOCUMENT)]:
        change(place + "0", ["policies", 0, "documents", 0], value)
        change(place + "1", ["policies", 0, "documents", 1], value)
    change(place + "0/Statement", ["policies", 0, "documents", 0], {})
    change(place + "0/Version", ["policies", 0, "documents", 0, "Version"], "2012")
    change(place + "0/Other", ["policies", 0, "documents", 0, "Other"], 1)
    change(place + "0/a~1b~0", ["policies", 0, "documents", 0, "a/b~"], 1)
    change(place + "0/Statement/Effect", ["policies", 0, "documents", 0, "Statement", "Effect"], "allow")
    change(place + "0/Statement/Principal", ["policies", 0, "documents", 0, "Statement", "Principal"], "*")
    change(place + "0/Statement/NotPrincipal", ["policies", 0, "documents", 0, "Statement", "NotPrincipal"], "*")
    change(place + "0/Statement/Action", ["policies", 0, "documents", 0, "Statement", "Action"], ABSENT)
    change(place + "0/Statement/Resource/1", ["policies", 0, "documents", 0, "Statement", "Resource"], ["*", "${a}"])
    change(place + "0/Statement/0/Effect", ["policies", 0, "documents", 0, "Statement"], [{"Action": "*", "Resource": "*"}])
    change(place + "1/Statement/0", ["policies", 0, "documents", 1], {"Statement": [1]})
    change(place + "0/Statement/Condition/IpAddress", ["policies", 0, "documents", 0, "Statement", "Condition"], {"IpAddress": {"aws:SourceIp": "10.0.0.0/8"}})
    change(ok(policies=f"{ANN} 2"), ["policies", 0, "documents", 1], {"Statement": [{"Effect": "Deny", "NotAction": ["kms:Encrypt"], "NotResource": "*", "Condition": {"Bool": {"aws:SecureTransport": "false"}}}]})


def ceilings():
    file.note("The account's ceiling.")
    for count in (1, 2, 10):
        change(ok() + f"; ceiling {count}", ["ceiling"], [DOCUMENT] * count)
    for value in [None, [], {}, DOCUMENT, 1, "x", False, [DOCUMENT] * 11, [1] * 11]:
        change("/ceiling", ["ceiling"], value)
    for value in [None, 1, "x", [], text_of(DOCUMENT)]:
        change("/ceiling/0", ["ceiling"], [value])
        change("/ceiling/1", ["ceiling"], [DOCUMENT, value, 1])
    change("/ceiling/0/Statement", ["ceiling"], [{}])
    change("/ceiling/1/Statement/Effect", ["ceiling"], [DOCUMENT, {"Statement": {"Effect": "allow", "Action": "*", "Resource": "*"}}])
    change("/ceiling/1/Statement/0/Condition/IpAddress", ["ceiling"], [DOCUMENT, {"Statement": [{"Effect": "Deny", "Action": "*", "Resource": "*", "Condition": {"IpAddress": {"aws:SourceIp": "10.0.0.0/8"}}}]}])
    change("/ceiling/0/Statement/Principal", ["ceiling"], [{"Statement": {"Effect": "Allow", "Principal": "*", "Action": "*", "Resource": "*"}}])
    for other in ["ceilin", "ceilings", "Ceiling"]:
        case("/" + other, changed(["ceiling"], [DOCUMENT]) | {other: 1})
        case("/ceiling", changed(["ceiling"], []) | {other: 1})
    config = changed(["ceiling"], [])
    config["policies"] = None
    case("/policies", config)


def orders():
    file.note("The first of two faults.")
    names = list(base())
    for i, first in enumerate(names):
        for second in names[i + 1:]:
            config = base()
            config[second] = None
            del config[first]
            case("/" + first, config)
    config = changed(["credentials", 0, "principal"], OTHER)
    config["policies"] = [{"principal": ROOT}]
    case("/credentials/0/principal", config)
    config = changed(["policies", 0, "documents", 0], {"Statement": 1})
    config["policies"].append(1)
    case("/policies/0/documents/0/Statement", config)
    config = changed(["policies", 0, "documents", 0], {"Statement": 1})
    config["policies"][0]["x"] = 1
    case("/policies/0/documents/0/Statement", config)


whole()
members()
unknown()
credentials()
policies()
ceilings()
orders()
file.write()
