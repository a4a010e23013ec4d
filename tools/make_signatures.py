"""Makes signatures.txt. Run: python3 -B tools/make_signatures.py.

It needs the package `botocore` (1.43.11 was used), which signs what it can, and Python's `hmac`, which signs the rest by the
rules of "Create a signed AWS API request" in the IAM User Guide.
"""

import calendar
import datetime
import re
import socket
import threading
import uuid

import botocore.auth
import botocore.awsrequest
import botocore.config
import botocore.credentials
import botocore.session

import signing
from vectors import File

ID, SECRET, ANN = "AKIDEXAMPLE", "wJalrXUtnFEMI/K7MDENG+bPxRfiCYEXAMPLEKEY", "arn:aws:iam::111122223333:user/ann"
OTHER, OTHER_SECRET, ROOT = "AKIDOTHER", "another/Secret+0123456789", "arn:aws:iam::111122223333:root"
CREDENTIALS = f"{ID} {SECRET} {ANN}, {OTHER} {OTHER_SECRET} {ROOT}"
REGION, SERVICE = "us-east-1", "kms"
STAMP = "20231114T221320Z"
SECOND = 1700000000
BASE = [
    ("Host", "kms.us-east-1.amazonaws.com"),
    ("Content-Type", "application/x-amz-json-1.1"),
    ("X-Amz-Date", STAMP),
    ("X-Amz-Target", "TrentService.CreateKey"),
    ("Content-Length", "2"),
]
NAMES = "content-type;host;x-amz-date;x-amz-target"
SIGNATURE = re.compile("Signature=([0-9a-f]{64})")

file = File(
    "signatures.txt",
    """
Signed messages (AWS Signature Version 4).

signing_key | secret access key | day | region | service | the key, in hexadecimal
check | message | credentials | region | the clock's second | who signed it, or why nobody did
check_with | how many messages, for which one key is kept | for each what `check` has | for each who signed it, or why nobody did

In a message `\\n` is a CR and a LF, and `\\t` is a tab. A credential is its id, its secret and its principal's ARN, with a space
between two.

Made by tools/make_signatures.py. The signatures are botocore's where it makes such a message, and else those of Python's hmac.
""",
)


def value_of(raw):
    return re.sub(" +", " ", raw.strip(" \t"))


def canonical(headers, names, body):
    values = {name: ",".join(value_of(value) for other, value in headers if other.lower() == name) for name in names.split(";")}
    return signing.canonical_request(values, names, body)


def signature_of(headers, names, body="{}", secret=SECRET, stamp=STAMP, day=None, region=REGION, service=SERVICE):
    return signing.signature(secret, stamp, region, canonical(headers, names, body), service, day)[1]


def authorization(signature, names=NAMES, id=ID, day=STAMP[:8], region=REGION, service=SERVICE):
    return signing.authorization(id, f"{day}/{region}/{service}/aws4_request", names, signature)


def written(headers, body="{}"):
    lines = "".join(f"{name}: {value}\n" for name, value in headers)
    text = f"POST / HTTP/1.1\n{lines}\n{body}"
    assert "\\" not in text
    return text.replace("\n", "\\n").replace("\t", "\\t")


def case(answer, headers, body="{}", clock=SECOND, region=REGION, credentials=CREDENTIALS):
    file.case("check", written(headers, body), credentials, region, str(clock), answer)


def signed(headers, names=NAMES, body="{}", secret=SECRET, stamp=STAMP, day=None, region=REGION, service=SERVICE, id=ID):
    """The headers with the one that signs them."""
    signature = signature_of(headers, names, body, secret, stamp, day, region, service)
    return headers + [("Authorization", authorization(signature, names, id, day or stamp[:8], region, service))]


def with_value(name, value, headers=BASE):
    return [(other, value if other == name else old) for other, old in headers]


def without(name, headers=BASE):
    return [(other, value) for other, value in headers if other != name]


def with_authorization(text):
    return BASE + [("Authorization", text)]


def botocore_signs(headers, body="{}"):
    """The same headers signed by botocore, which signs all of them but some."""
    stamp = dict(headers)["X-Amz-Date"]
    request = botocore.awsrequest.AWSRequest(method="POST", url="http://" + dict(headers)["Host"] + "/", data=body.encode())
    for name, value in headers:
        if name != "X-Amz-Date":
            request.headers.add_header(name, value)
    moment = datetime.datetime.strptime(stamp, "%Y%m%dT%H%M%SZ")
    botocore.auth.get_current_datetime = lambda remove_tzinfo=True: moment
    botocore.auth.SigV4Auth(botocore.credentials.Credentials(ID, SECRET), SERVICE, REGION).add_auth(request)
    header = request.headers["Authorization"]
    names = re.search("SignedHeaders=([^,]*)", header).group(1)
    assert SIGNATURE.search(header).group(1) == signature_of(headers, names, body, stamp=stamp), headers
    return headers + [("Authorization", header)]


def seconds_of(stamp):
    return calendar.timegm(datetime.datetime.strptime(stamp, "%Y%m%dT%H%M%SZ").timetuple())


def at(stamp):
    return signed(with_value("X-Amz-Date", stamp), stamp=stamp)


def keys():
    file.note('The key of "Deriving the signing key" in the IAM User Guide.')
    published = "c4afb1cc5771d871763a393e44b703571b55cc28424d1a5e86da6ed3c154a4b9"
    assert signing.signing_key(SECRET, "20150830", "us-east-1", "iam").hex() == published
    file.case("signing_key", SECRET, "20150830", "us-east-1", "iam", published)
    for secret, day, region, service in [
        (SECRET, STAMP[:8], REGION, SERVICE),
        (OTHER_SECRET, "20240229", "eu-central-1", SERVICE),
        ("x", "19700101", "a", "kms"),
        ("s" * 60, "20231114", REGION, SERVICE),
        ("s" * 61, "20231114", REGION, SERVICE),
        ("s" * 128, "20231114", REGION, SERVICE),
    ]:
        auth = botocore.auth.SigV4Auth(botocore.credentials.Credentials("id", secret), service, region)
        key = auth._sign(auth._sign(auth._sign(auth._sign(("AWS4" + secret).encode(), day), region), service), "aws4_request")
        assert key == signing.signing_key(secret, day, region, service)
        file.case("signing_key", secret, day, region, service, key)
    file.case("signing_key", "''", "''", "''", "''", signing.signing_key("", "", "", ""))


def windows():
    file.note("Four headers signed, and the window of 300 seconds.")
    message = signed(BASE)
    assert canonical(BASE, NAMES, "{}").endswith("44136fa355b3678a1146ad16f7e8649e94fb4fc21fe77e8310c060f61caaff8a")
    for clock, answer in [(0, ANN), (-300, ANN), (-301, "Expired"), (300, ANN), (301, "Expired")]:
        case(answer, message, clock=SECOND + clock)
    case("Expired", message, clock=0)
    case("Expired", message, clock=253402300799)
    case("Expired", message, clock=2**64 - 1)


def by_botocore():
    file.note("Signed by botocore.")
    case(ANN, botocore_signs(BASE))
    case(ANN, botocore_signs(BASE + [("X-Amz-Security-Token", "FwoGZXIvYXdzEXAMPLE//token=")]))
    case(ANN, botocore_signs(with_value("Content-Length", "26") + [("X-Kms-After", "12")], '{"KeyId":"x","Limit":1000}'), '{"KeyId":"x","Limit":1000}')
    case(ANN, botocore_signs(with_value("Content-Length", "0"), ""), "")
    case(ANN, botocore_signs(BASE + [("X-Amz-Meta", "two  and   three"), ("Accept", "a  b")]))
    case(ANN, botocore_signs(BASE + [("X-Amz-Meta", "b"), ("X-Amz-Meta", "a")]))
    case("BadSignature", [(name, value.replace("two", "too")) for name, value in botocore_signs(BASE + [("X-Amz-Meta", "two  and   three")])])
    case("BadSignature", botocore_signs(BASE), "[]")


def values():
    file.note("Values: inner runs of spaces count as one; tabs inside stay; none, and more than one of a name.")
    names = NAMES.replace("host", "host;x-amz-a").replace("x-amz-a;x-amz-date", "x-amz-a;x-amz-date")
    for value in ["a", "a b", "a  b", "a   b    c  d", "a \t b", "a\tb", "a\t\tb", "", "a, b,c", "x" * 300, "  a  ", "\ta\t", "é  è"]:
        case(ANN, signed(BASE + [("X-Amz-A", value)], names))
    case(ANN, signed(BASE + [("X-Amz-A", "1"), ("X-Amz-A", "2"), ("x-amz-a", "3")], names))
    case(ANN, signed(BASE + [("X-Amz-A", ""), ("X-Amz-A", ""), ("x-amz-a", " ")], names))
    case(ANN, signed(BASE + [("X-Amz-A", "1  2"), ("Accept", "x"), ("X-Amz-A", "")], names))
    right = signed(BASE + [("X-Amz-A", "1"), ("X-Amz-A", "2")], names)
    turned = [("X-Amz-A", "2") if pair == ("X-Amz-A", "1") else ("X-Amz-A", "1") if pair == ("X-Amz-A", "2") else pair for pair in right]
    case("BadSignature", turned)
    case("BadSignature", [pair for pair in right if pair != ("X-Amz-A", "2")])
    spaced = signed(BASE + [("X-Amz-A", "a b")], names)
    case(ANN, [(name, "a    b" if name == "X-Amz-A" else value) for name, value in spaced])
    case("BadSignature", [(name, "a\tb" if name == "X-Amz-A" else value) for name, value in spaced])
    case("BadSignature", [(name, "ab" if name == "X-Amz-A" else value) for name, value in spaced])


def names():
    file.note("Which headers are signed: in lower case, ascending, each there, `host` and each whose name begins with x-amz- among them.")
    case("Incomplete", signed(BASE, "content-type;host;x-amz-date"))
    case("Incomplete", signed(BASE, "content-type;host;x-amz-target"))
    case("Incomplete", signed(BASE, "content-type;x-amz-date;x-amz-target"))
    case(ANN, signed(BASE, "host;x-amz-date;x-amz-target"))
    case(ANN, signed(BASE, "content-length;content-type;host;x-amz-date;x-amz-target"))
    case("Incomplete", signed(BASE, "host;content-type;x-amz-date;x-amz-target"))
    case("Incomplete", signed(BASE, "content-type;host;host;x-amz-date;x-amz-target"))
    case("Incomplete", signed(BASE, "Content-Type;host;x-amz-date;x-amz-target"))
    case("Incomplete", signed(BASE, "content-type;host;x-amz-Date;x-amz-target"))
    case("Incomplete", signed(BASE, "content-type;host;x-amz-date;x-amz-other;x-amz-target"))
    case("Incomplete", signed(BASE, "accept;content-type;host;x-amz-date;x-amz-target"))
    case("Incomplete", signed(BASE, ";content-type;host;x-amz-date;x-amz-target"))
    case("Incomplete", signed(BASE, "content-type;host;x-amz-date;x-amz-target;"))
    case("Incomplete", with_authorization(authorization("0" * 64, "")))
    case("Incomplete", signed(without("Host"), NAMES))
    case("Incomplete", signed(without("Host"), "content-type;x-amz-date;x-amz-target"))
    case("Incomplete", signed(BASE + [("X-AMZ-Security-Token", "t")]))
    case("Incomplete", signed(BASE + [("x-amz-", "t")]))
    case(ANN, signed(BASE + [("x-amz-", "t")], "content-type;host;x-amz-;x-amz-date;x-amz-target"))
    case(ANN, signed(BASE + [("x-amz", "t")]))
    case(ANN, signed(BASE + [("x-am", "t"), ("amz-x-amz-a", "t")]))
    case(ANN, signed(BASE + [("Accept", "*/*"), ("User-Agent", "u")], "accept;content-type;host;user-agent;x-amz-date;x-amz-target"))
    case(ANN, signed(BASE + [("Accept", "*/*"), ("User-Agent", "u")]))
    case(ANN, signed(BASE + [("x.amz", "1"), ("x_amz", "2")], "content-type;host;x-amz-date;x-amz-target;x.amz;x_amz"))
    case("Incomplete", signed(BASE + [("x.amz", "1"), ("x_amz", "2")], "content-type;host;x-amz-date;x-amz-target;x_amz;x.amz"))
    case("BadSignature", signed(BASE, "authorization;" + NAMES))


def scopes():
    file.note("The credential: id, day, region, service and the word at the end.")
    case("UnknownKey", signed(BASE, id="AKIDNOBODY"))
    case("UnknownKey", signed(BASE, id=""))
    case("UnknownKey", signed(BASE, id="akidexample"))
    case("UnknownKey", signed(BASE, id=ID + "X"))
    case("UnknownKey", signed(BASE, id=ID[:-1]))
    case("UnknownKey", signed(BASE), credentials=f"{OTHER} {OTHER_SECRET} {ROOT}")
    case("UnknownKey", signed(BASE, id="AKIDNOBODY"), clock=0)
    case(ROOT, signed(BASE, id=OTHER, secret=OTHER_SECRET))
    case("BadSignature", signed(BASE, id=OTHER))
    case("BadSignature", signed(BASE, secret=OTHER_SECRET))
    case("Expired", signed(BASE, secret=OTHER_SECRET), clock=0)
    case("Incomplete", signed(BASE, day="20231113"))
    case("Incomplete", signed(BASE, day="20231115"))
    case("Incomplete", signed(BASE, day="2023111"))
    case("Incomplete", signed(BASE, day="20231114T"))
    case("Incomplete", signed(BASE, region="us-east-2"))
    case("Incomplete", signed(BASE, region=""))
    case("Incomplete", signed(BASE, region="US-EAST-1"))
    case("Incomplete", signed(BASE), region="us-east-2")
    case(ANN, signed(BASE, region="eu-central-1"), region="eu-central-1")
    case("Incomplete", signed(BASE, service="iam"))
    case("Incomplete", signed(BASE, service="KMS"))
    case("Incomplete", signed(BASE, id="AKID/EXAMPLE"))
    signature = signature_of(BASE, NAMES)
    for credential in [f"{ID}/20231114/us-east-1/kms", f"{ID}/20231114/us-east-1/kms/aws4_request/", f"{ID}/20231114/us-east-1/kms/aws4", f"{ID}/20231114/us-east-1//kms/aws4_request", ID, ""]:
        case("Incomplete", with_authorization(f"AWS4-HMAC-SHA256 Credential={credential}, SignedHeaders={NAMES}, Signature={signature}"))


def forms():
    file.note("The header Authorization: its parts in any order, a comma and any spaces between two.")
    s = signature_of(BASE, NAMES)
    c, h, g = f"Credential={ID}/20231114/us-east-1/kms/aws4_request", f"SignedHeaders={NAMES}", f"Signature={s}"
    a = "AWS4-HMAC-SHA256 "
    for parts in [(c, h, g), (c, g, h), (h, c, g), (h, g, c), (g, c, h), (g, h, c)]:
        case(ANN, with_authorization(a + ",".join(parts)))
    for text in [f"{c},    {h}, {g}", f"    {c}, {h},{g}", f"{c}, {h}, {g}  "]:
        case(ANN, with_authorization(a + text))
    for text in [
        f"{c}, {h}, {g},", f"{c}, {h}, {g}, ", f",{c}, {h}, {g}", f"{c},, {h}, {g}", f"{c} , {h}, {g}", f"{c}, {h} , {g}", f"{c};{h};{g}", f"{c} {h} {g}",
        f"{c},\t{h}, {g}", f"\t{c}, {h}, {g}", f"{c}, {h}", f"{c}, {g}", f"{h}, {g}", f"{c}, {c}, {h}, {g}", f"{c}, {h}, {g}, {g}", f"{c}, {h}, {h}", f"{c}, {c}, {c}",
        f"{c}, {h}, {g}, Other=x", f"{c}, {h}, Other=x", f"credential={c[11:]}, {h}, {g}", f"{c}, signedheaders={NAMES}, {g}", f"Credential = {c[11:]}, {h}, {g}",
        f"{c}, {h}, Signature={s.upper()}", f"{c}, {h}, Signature={s[:-1]}", f"{c}, {h}, Signature={s}0", f"{c}, {h}, Signature={s[:-1]}g", f"{c}, {h}, Signature=", f"{c}, {h}, Signature",
    ]:
        case("Incomplete", with_authorization(a + text))
    for text in [f"AWS4-HMAC-SHA256{c}, {h}, {g}", f"AWS4-HMAC-SHA256\t{c}, {h}, {g}", f"aws4-hmac-sha256 {c}, {h}, {g}", f"AWS4-HMAC-SHA1 {c}, {h}, {g}", f"{c}, {h}, {g}", "AWS4-HMAC-SHA256", "", "Basic YTpi"]:
        case("Incomplete", with_authorization(text))
    case("NoAuth", BASE)
    case("NoAuth", without("X-Amz-Date"))
    case("NoAuth", BASE + [("Proxy-Authorization", a + f"{c}, {h}, {g}")])
    case("Incomplete", with_authorization(a + f"{c}, {h}, {g}") + [("Authorization", a + f"{c}, {h}, {g}")])
    case("Incomplete", with_authorization(a + f"{c}, {h}, {g}") + [("authorization", "")])
    case(ANN, BASE + [("AUTHORIZATION", a + f"{c}, {h}, {g}")])
    for place in (0, 31, 62, 63):
        digit = "0" if s[place] != "0" else "1"
        case("BadSignature", with_authorization(a + f"{c}, {h}, Signature={s[:place]}{digit}{s[place + 1:]}"))


def dates():
    file.note("x-amz-date: once, as YYYYMMDDTHHMMSSZ, of a real date from 1970 on.")
    for stamp in ["19700101T000000Z", "19991231T235959Z", "20000229T000000Z", "20240229T120000Z", "20231231T235959Z", "20240301T000000Z", "21000228T235959Z", "21000301T000000Z", "99991231T235959Z", "20380119T031408Z"]:
        for late in (-301, -300, 0, 300, 301):
            clock = seconds_of(stamp) + late
            if clock >= 0:
                case(ANN if abs(late) <= 300 else "Expired", at(stamp), clock=clock)
    for stamp in [
        "20230229T000000Z", "21000229T000000Z", "20240230T000000Z", "20231131T000000Z", "20231301T000000Z", "20230001T000000Z", "20230100T000000Z", "20230132T000000Z",
        "20231114T240000Z", "20231114T226000Z", "20231114T221360Z", "20231114T221399Z", "19691231T235959Z", "00000101T000000Z",
        "20231114T221320", "20231114T221320z", "20231114t221320Z", "20231114 221320Z", "2023-11-14T22:13:20Z", "20231114T2213Z", "20231114T221320ZZ", "20231114T2213200Z",
        "+0231114T221320Z", "2023111aT221320Z", "20231114T22132 Z", "2023 114T221320Z", "", "1700000000", "Tue, 14 Nov 2023 22:13:20 GMT",
    ]:
        case("Incomplete", signed(with_value("X-Amz-Date", stamp), day=stamp[:8] or "20231114"))
    case("Incomplete", signed(without("X-Amz-Date"), NAMES))
    case("Incomplete", signed(without("X-Amz-Date"), "content-type;host;x-amz-target"))
    case("Incomplete", signed(BASE + [("X-Amz-Date", STAMP)]))
    case("Incomplete", signed(without("X-Amz-Date") + [("Date", STAMP)], "content-type;date;host;x-amz-target"))
    case(ANN, signed(with_value("X-Amz-Date", STAMP + "  ")))


def wire():
    """A message as botocore's client sends it to a socket, byte for byte."""
    file.note("A message as a client of botocore sends it, but for the text of its User-Agent.")
    botocore.auth.get_current_datetime = lambda remove_tzinfo=True: datetime.datetime.strptime(STAMP, "%Y%m%dT%H%M%SZ")
    uuid.uuid4 = lambda: uuid.UUID(int=0x0123456789ABCDEF0123456789ABCDEF)
    listener = socket.create_server(("127.0.0.1", 38291))
    taken = []

    def serve():
        stream = listener.accept()[0]
        data = b""
        while b"\r\n\r\n" not in data:
            data += stream.recv(65536)
        size = int(re.search(rb"(?i)content-length: (\d+)", data).group(1))
        while len(data.split(b"\r\n\r\n", 1)[1]) < size:
            data += stream.recv(65536)
        taken.append(data)
        stream.sendall(b"HTTP/1.1 200 OK\r\nContent-Length: 2\r\nConnection: close\r\n\r\n{}")
        stream.close()

    thread = threading.Thread(target=serve)
    thread.start()
    client = botocore.session.Session().create_client(
        "kms", region_name=REGION, endpoint_url="http://127.0.0.1:38291", aws_access_key_id=ID, aws_secret_access_key=SECRET,
        config=botocore.config.Config(user_agent="example", retries={"max_attempts": 0}, proxies={}),
    )
    client.encrypt(KeyId="alias/example", Plaintext=b"hello", EncryptionContext={"a": "b"})
    thread.join()
    listener.close()
    text = taken[0].decode()
    assert text.startswith("POST / HTTP/1.1\r\n") and "\n" not in text.replace("\r\n", "")
    word = text.replace("\\", "\\\\").replace("\r\n", "\\n")
    assert "\\\\" not in word
    file.case("check", word, CREDENTIALS, REGION, str(SECOND), ANN)
    file.case("check", word.replace("alias/example", "alias/exampla"), CREDENTIALS, REGION, str(SECOND), "BadSignature")
    file.case("check", word.replace("TrentService.Encrypt", "TrentService.Decrypt"), CREDENTIALS, REGION, str(SECOND), "BadSignature")


def step(answer, headers, clock=SECOND, region=REGION, credentials=CREDENTIALS):
    """A message of a run, and its answer."""
    return (written(headers), credentials, region, str(clock)), answer


def run(*steps):
    columns = [column for inputs, _ in steps for column in inputs]
    file.case("check_with", str(len(steps)), *columns, " ".join(answer for _, answer in steps))


def signed_by_the_key_of(secret=SECRET, day=STAMP[:8], region=REGION, stamp=STAMP, own_region=REGION):
    """The headers of a date, whose scope is its own, with a signature under the key of other ones."""
    headers = with_value("X-Amz-Date", stamp)
    scope = f"{stamp[:8]}/{own_region}/{SERVICE}/aws4_request"
    text = "\n".join(["AWS4-HMAC-SHA256", stamp, scope, signing.digest(canonical(headers, NAMES, "{}"))])
    digits = signing.mac(signing.signing_key(secret, day, region, SERVICE), text).hex()
    return headers + [("Authorization", authorization(digits, day=stamp[:8], region=own_region))]


def runs():
    file.note("Runs of messages for which one key is kept: of one day and the next, of two credentials, of two regions, and wrong ones between.")
    tomorrow, away = "20231115T101112Z", "eu-central-1"
    later = seconds_of(tomorrow)
    changed = f"{ID} {OTHER_SECRET} {ANN}"
    longer = f"{ID} {SECRET}/ {ANN}, {OTHER} {SECRET} {ROOT}"
    assert signed_by_the_key_of() == signed(BASE)
    right = step(ANN, signed(BASE))
    next_day = step(ANN, at(tomorrow), clock=later)
    other = step(ROOT, signed(BASE, id=OTHER, secret=OTHER_SECRET))
    abroad = step(ANN, signed(BASE, region=away), region=away)
    wrong = step("BadSignature", signed(BASE, secret=OTHER_SECRET))
    other_wrong = step("BadSignature", signed(BASE, id=OTHER))
    right_once_changed = step(ANN, signed(BASE, secret=OTHER_SECRET), credentials=changed)
    wrong_once_changed = step("BadSignature", signed(BASE), credentials=changed)
    of_yesterday = step("BadSignature", signed_by_the_key_of(stamp=tomorrow), clock=later)
    of_tomorrow = step("BadSignature", signed_by_the_key_of(day=tomorrow[:8]))
    of_away = step("BadSignature", signed_by_the_key_of(region=away))
    of_home = step("BadSignature", signed_by_the_key_of(own_region=away), region=away)
    of_longer = step(ANN, signed(BASE, secret=SECRET + "/"), credentials=longer)
    of_shorter = step(ROOT, signed(BASE, id=OTHER), credentials=longer)
    unsigned = [
        step("NoAuth", BASE), step("Incomplete", signed(BASE), region=away), step("UnknownKey", signed(BASE, id="AKIDNOBODY")),
        step("Expired", signed(BASE), clock=later), step("Expired", at(tomorrow)),
    ]
    run(right)
    run(right, right, right)
    run(right, next_day, right, next_day, next_day)
    run(right, other, other, right, other)
    run(right, abroad, right, abroad, abroad)
    run(wrong, right, wrong, right)
    run(other, wrong, other, other_wrong, right, other_wrong, wrong, other)
    run(right, right_once_changed, right, wrong_once_changed, right_once_changed, wrong, right)
    run(right, of_yesterday, next_day, of_tomorrow, right, of_yesterday, next_day)
    run(next_day, of_tomorrow, right, of_yesterday)
    run(abroad, of_away, right, of_home, abroad, of_away, right)
    run(right, of_home, of_away, right)
    run(of_longer, of_shorter, of_longer, right, of_shorter, of_longer)
    run(right, *unsigned, right, *reversed(unsigned), next_day)
    run(*unsigned, right)
    every = [
        right, next_day, other, abroad, wrong, other_wrong, right_once_changed, wrong_once_changed, of_yesterday, of_tomorrow, of_away, of_home,
        of_longer, of_shorter, *unsigned,
    ]
    for _ in range(9):
        run(*file.random.choices(every, k=9))


keys()
windows()
by_botocore()
values()
names()
scopes()
forms()
dates()
wire()
runs()
file.write()
