"""Makes signed.txt of worked_cases. Run: python3 -B tools/make_signed_sessions.py.

Python's `hmac` signs the messages, by the rules of "Create a signed AWS API request" in the IAM User Guide. What is answered was written
by hand; the key's id is that of first_path.txt.
"""

import os

import signing

REGION = "us-east-1"
SECOND = 1700000000
STAMP = "20231114T221320Z"
DATES = {
    1699999700: "Tue, 14 Nov 2023 22:08:20 GMT",
    1699999699: "Tue, 14 Nov 2023 22:08:19 GMT",
    1700000000: "Tue, 14 Nov 2023 22:13:20 GMT",
    1700000300: "Tue, 14 Nov 2023 22:18:20 GMT",
    1700000301: "Tue, 14 Nov 2023 22:18:21 GMT",
    1700006400: "Wed, 15 Nov 2023 00:00:00 GMT",
}
ACCOUNT = "111122223333"
ROOT = f"arn:aws:iam::{ACCOUNT}:root"
ANN = f"arn:aws:iam::{ACCOUNT}:user/ann"
# The id, the secret and the principal of each caller.
KEEPER = ("AKIDEXAMPLE", "wJalrXUtnFEMI/K7MDENG+bPxRfiCYEXAMPLEKEY", ROOT)
OTHER = ("AKIDOTHER", "another/Secret+0123456789", ANN)
STRANGER = ("AKIDNOBODY", "wJalrXUtnFEMI/K7MDENG+bPxRfiCYEXAMPLEKEY", ROOT)
KEY = "10284733-057c-2825-aeb4-000000000000"
ANSWERS = {
    "none": "MissingAuthenticationTokenException 0 The request carries no Authorization header.",
    "incomplete": "IncompleteSignatureException 0 The signature is not complete.",
    "unknown": "UnrecognizedClientException 0 The access key is not known.",
    "expired": "RequestExpired 0 The request is outside the time window.",
    "bad": "InvalidSignatureException 0 The signature does not match.",
}
PLACE = os.path.join(os.path.dirname(__file__), "..", "crates", "worked_cases", "data", "signed.txt")
lines = []


def message(operation, body, caller=KEEPER, names=signing.NAMES, region=REGION, stamp=STAMP, sent=None, change=None, key_day=None):
    """A message, which the caller signs where there is one; another body may be sent in the signed one's place, the signature changed, and
    the signing key of another day taken."""
    sent = body if sent is None else sent
    headers = [
        ("Host", "localhost"),
        ("Content-Type", "application/x-amz-json-1.1"),
        ("X-Amz-Date", stamp),
        ("X-Amz-Target", "TrentService." + operation),
        ("Content-Length", str(len(sent))),
    ]
    if caller is not None:
        values = {name.lower(): value for name, value in headers}
        canonical = signing.canonical_request(values, names, body)
        scope, digits = signing.signature(caller[1], stamp, region, canonical)
        if key_day is not None:
            text = "\n".join(["AWS4-HMAC-SHA256", stamp, scope, signing.digest(canonical)])
            digits = signing.mac(signing.signing_key(caller[1], key_day, region), text).hex()
        if change is not None:
            digits = change(digits)
        headers.append(("Authorization", signing.authorization(caller[0], scope, names, digits)))
    return "POST / HTTP/1.1\r\n" + "".join(f"{name}: {value}\r\n" for name, value in headers) + "\r\n" + sent


def say(line=""):
    lines.append(line)


def ask(text):
    say("> raw " + text.replace("\\", "\\\\").replace("\r", "\\r").replace("\n", "\\n"))


def begin(what, seconds=(SECOND,), policies=()):
    say()
    say(f"case {what}")
    for id, secret, principal in (KEEPER, OTHER):
        say(f"credential {id} {secret} {principal}")
    for principal, policy in policies:
        say(f"policy {principal} {policy}")
    for second in seconds:
        say(f"clock {second} {DATES[second]}")


def metadata(second):
    return (
        f'{{"KeyMetadata":{{"AWSAccountId":"{ACCOUNT}","Arn":"<ARN1>","CreationDate":{second},"CustomerMasterKeySpec":"SYMMETRIC_DEFAULT",'
        '"Description":"","Enabled":true,"EncryptionAlgorithms":["SYMMETRIC_DEFAULT"],"KeyId":"<K1>","KeyManager":"CUSTOMER",'
        '"KeySpec":"SYMMETRIC_DEFAULT","KeyState":"Enabled","KeyUsage":"ENCRYPT_DECRYPT","MultiRegion":false,"Origin":"AWS_KMS"}}'
    )


def refused(why, front=0):
    say("< 400 " + ANSWERS[why].replace(" 0 ", f" {front} ", 1))


def one(what, text, answer, second=SECOND):
    begin(what, (second,))
    ask(text)
    if answer == "served":
        say(f"< 200 1 {metadata(second)}")
    else:
        refused(answer)
    say("end Ended")


def windows():
    create = message("CreateKey", "{}")
    one("a signed message 300 seconds later", create, "served", 1700000300)
    one("and 301 seconds later", create, "expired", 1700000301)
    one("300 seconds before its date", create, "served", 1699999700)
    one("and 301 seconds before", create, "expired", 1699999699)


def signatures():
    one("one digit of the signature is another", message("CreateKey", "{}", change=lambda digits: ("1" if digits[0] == "0" else "0") + digits[1:]), "bad")
    one("the last digit is another", message("CreateKey", "{}", change=lambda digits: digits[:-1] + ("1" if digits[-1] == "0" else "0")), "bad")
    one("another body than the signed one", message("CreateKey", "{}", sent='{"Description":"x"}'), "bad")
    one("the secret of another caller", message("CreateKey", "{}", caller=(KEEPER[0], OTHER[1], ROOT)), "bad")
    one("X-Amz-Target isn't signed", message("CreateKey", "{}", names="content-type;host;x-amz-date"), "incomplete")
    one("another region", message("CreateKey", "{}", region="eu-west-1"), "incomplete")
    one("a key that isn't known", message("CreateKey", "{}", caller=STRANGER), "unknown")
    one("no Authorization", message("CreateKey", "{}", caller=None), "none")


def orders():
    one("the signature is judged before the operation", message("Nothing", "[", caller=None), "none")
    one("and before the body", message("CreateKey", "[", caller=STRANGER), "unknown")
    begin("the form of HTTP is judged before the signature")
    ask("GET / HTTP/1.1\r\nHost: localhost\r\n\r\n")
    say("< close 405 HttpFault 0 NotPost")
    say("end Closed")
    begin("an operation that isn't there, signed")
    ask(message("Nothing", "{}"))
    say("< 400 UnknownOperationException 0 X-Amz-Target names no operation of this service.")
    say("end Ended")
    begin("what is refused ends no session", (SECOND, 1700000301, SECOND))
    ask(message("CreateKey", "{}", caller=None))
    refused("none")
    ask(message("CreateKey", "{}"))
    refused("expired")
    ask(message("CreateKey", "{}"))
    say(f"< 200 1 {metadata(SECOND)}")
    say("end Ended")


def callers():
    describe = '{"KeyId":"' + KEY + '"}'
    denied = f"User: {ANN} is not authorized to perform: kms:DescribeKey on resource: <ARN1>"
    begin("two callers, of whom one is denied")
    ask(message("CreateKey", "{}"))
    say(f"< 200 1 {metadata(SECOND)}")
    ask(message("DescribeKey", describe, caller=OTHER))
    say(f"< 400 AccessDeniedException 1 {denied}")
    ask(message("DescribeKey", describe))
    say(f"< 200 1 {metadata(SECOND)}")
    say("end Ended")
    policy = '{"Version":"2012-10-17","Statement":[{"Effect":"Allow","Action":"kms:DescribeKey","Resource":"*"}]}'
    begin("two callers, of whom one may describe and make no key", policies=[(ANN, policy)])
    ask(message("CreateKey", "{}", caller=OTHER))
    say(f"< 400 AccessDeniedException 0 User: {ANN} is not authorized to perform: kms:CreateKey on resource: *")
    ask(message("CreateKey", "{}"))
    say(f"< 200 1 {metadata(SECOND)}")
    ask(message("DescribeKey", describe, caller=OTHER))
    say(f"< 200 1 {metadata(SECOND)}")
    say("end Ended")


def days():
    describe = '{"KeyId":"' + KEY + '"}'
    midnight, before, after = 1700006400, "20231114T235900Z", "20231115T000100Z"
    begin("messages of two days, around midnight", (midnight,))
    ask(message("CreateKey", "{}", stamp=before))
    say(f"< 200 1 {metadata(midnight)}")
    for stamp in (after, before, after, after):
        ask(message("DescribeKey", describe, stamp=stamp))
        say(f"< 200 1 {metadata(midnight)}")
    ask(message("DescribeKey", describe, stamp=before, key_day=after[:8]))
    refused("bad", 1)
    ask(message("DescribeKey", describe, stamp=before))
    say(f"< 200 1 {metadata(midnight)}")
    ask(message("DescribeKey", describe, stamp=after, key_day=before[:8]))
    refused("bad", 1)
    ask(message("DescribeKey", describe, stamp=before, caller=(OTHER[0], KEEPER[1], ANN)))
    refused("bad", 1)
    ask(message("DescribeKey", describe, stamp=after))
    say(f"< 200 1 {metadata(midnight)}")
    say("end Ended")


say("# Sessions of signed messages (AWS Signature Version 4). Made by tools/make_signed_sessions.py: the signatures are those of Python's hmac,")
say("# and what is wanted was written by hand.")
say(f"text K1 {KEY}")
say(f"text ARN1 arn:aws:kms:{REGION}:{ACCOUNT}:key/<K1>")
windows()
signatures()
orders()
callers()
days()
with open(PLACE, "w") as file:
    file.write("\n".join(lines) + "\n")
