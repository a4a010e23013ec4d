"""AWS Signature Version 4 by Python's `hmac`: the signing helper of all scripts ("Create a signed AWS API request" in the IAM User
Guide). It needs Python alone.

    import signing
    headers = signing.signed_headers("AKID..", "secret", "us-east-1", "ListKeys", "{}", stamp=signing.now())
"""

import datetime
import hashlib
import hmac

SERVICE = "kms"
NAMES = "content-type;host;x-amz-date;x-amz-target"


def now():
    """The present second as a value of X-Amz-Date."""
    return datetime.datetime.now(datetime.timezone.utc).strftime("%Y%m%dT%H%M%SZ")


def mac(key, text):
    """The HMAC with SHA-256 of a text."""
    return hmac.new(key, text.encode(), hashlib.sha256).digest()


def digest(text):
    """The SHA-256 of a text, as hex digits."""
    return hashlib.sha256(text.encode()).hexdigest()


def signing_key(secret, day, region, service=SERVICE):
    """The key that signs the requests of a day."""
    key = ("AWS4" + secret).encode()
    for part in (day, region, service, "aws4_request"):
        key = mac(key, part)
    return key


def canonical_request(values, names, body):
    """The canonical request, in which these names, joined by `;`, are signed with their values."""
    lines = "".join(f"{name}:{values[name]}\n" for name in names.split(";"))
    return "\n".join(["POST", "/", "", lines, names, digest(body)])


def signature(secret, stamp, region, canonical, service=SERVICE, day=None):
    """The scope and the signature, as hex digits, of a canonical request."""
    day = day or stamp[:8]
    scope = f"{day}/{region}/{service}/aws4_request"
    text = "\n".join(["AWS4-HMAC-SHA256", stamp, scope, digest(canonical)])
    return scope, mac(signing_key(secret, day, region, service), text).hex()


def authorization(access_key, scope, names, digits):
    """The value of the header Authorization."""
    return f"AWS4-HMAC-SHA256 Credential={access_key}/{scope}, SignedHeaders={names}, Signature={digits}"


def signed_headers(access_key, secret, region, operation, body, stamp, more=()):
    """The headers of a request of an operation, with its length and its signature. Others are signed too, as pairs of name and value."""
    headers = {
        "Content-Type": "application/x-amz-json-1.1",
        "Host": "localhost",
        "X-Amz-Date": stamp,
        "X-Amz-Target": "TrentService." + operation,
        **dict(more),
    }
    values = {name.lower(): value for name, value in headers.items()}
    names = ";".join(sorted(values))
    scope, digits = signature(secret, stamp, region, canonical_request(values, names, body))
    return headers | {"Content-Length": str(len(body)), "Authorization": authorization(access_key, scope, names, digits)}


def message(access_key, secret, region, operation, body, stamp=None, more=()):
    """A signed request, whole: at the present second, where none is given."""
    headers = signed_headers(access_key, secret, region, operation, body, stamp or now(), more)
    return "POST / HTTP/1.1\r\n" + "".join(f"{name}: {value}\r\n" for name, value in headers.items()) + "\r\n" + body
