"""Why a request is answered as it is: `kms_local explain` asked about one request, and its line as a table of the statements and grants that
its marks stand for.

    line = explaining.asked(program, config, journal, "arn:aws:iam::111122223333:user/ann", explaining.message("ListKeys", {}))

With an account of served.py there is `explaining.of_account`."""

import base64
import json
import subprocess
import tempfile

import served
from built import Failure

RUNS = ["key policy", "own policies", "ceiling", "grants"]
MARKS = {
    "H": "it matches",
    "T": "it matches, and names the account's root: the caller's own policies decide",
    "P": "it doesn't name the caller",
    "A": "its actions don't match",
    "R": "its resources don't match",
    "C": "a condition fails",
}
GRANT_MARKS = {
    "H": "it permits the request",
    "P": "it has another grantee",
    "A": "it has other operations",
    "C": "it asks for another encryption context, or is no parent of the new grant",
}


def message(operation, body):
    """The raw form of a request that nobody signs."""
    text = body if isinstance(body, str) else json.dumps(body)
    return f"POST / HTTP/1.1\r\nX-Amz-Target: TrentService.{operation}\r\nContent-Length: {len(text.encode())}\r\n\r\n{text}"


def asked(program, config, journal, caller, request):
    """The line of `explain` about a request of a caller, behind the entries of a journal where there is one."""
    with tempfile.TemporaryDirectory() as folder:
        words = [program, "explain", *served.configured(folder, config, journal), "--as", caller]
        ran = subprocess.run(words, input=request.encode(), stdout=subprocess.PIPE)
    said = ran.stdout.decode().strip()
    if ran.returncode or not said:
        raise Failure(f"explain ended with status {ran.returncode}: {said}")
    return said


def of_account(account, name, operation, members):
    """What `explain` says of a request to an account, by a caller's access key or ARN. Its server is ended for that."""
    body = {key: base64.b64encode(value).decode() if isinstance(value, bytes) else value for key, value in members.items()}
    request = message(operation, body)
    return json.loads(asked(account.program, account.config, account.journal(), account.caller(name)["principal"], request))


def text_in(entry, name):
    """A text of an entry of a journal."""
    return base64.b64decode(entry[name]).decode()


def rows_of(journal, key):
    """The policy of a key, and its grants in order of making, by the entries of a journal."""
    policy, grants = None, {}
    with open(journal, encoding="utf-8") as file:
        for line in file:
            entry = json.loads(line) if line.startswith("{") else {}
            if entry.get("what") == "GrantDrop":
                grants.pop(entry["grant"], None)
            elif entry.get("key") == key and entry["what"] in ("CreateKey", "Policy"):
                policy = json.loads(text_in(entry, "policy" if entry["what"] == "CreateKey" else "text"))
            elif entry.get("key") == key and entry["what"] == "GrantAdd":
                grants[entry["grant"]] = entry
    return policy, list(grants.values())


def documents(config, journal, caller, question):
    """What the marks of a question stand for, by run: documents of policies, and entries of grants."""
    settings = served.settings_of(config)
    own = [document for row in settings.get("policies", []) if row["principal"] == caller for document in row["documents"]]
    _, is_key, key = question["resource"].rpartition(":key/")
    policy, grants = rows_of(journal, key.replace("-", "")) if journal and is_key else (None, [])
    return {"key policy": [policy] if policy else [], "own policies": own, "ceiling": settings.get("ceiling", []), "grants": grants}


def statements(found):
    """The statements of documents, each with its place."""
    for number, document in enumerate(found, 1):
        rows = document["Statement"]
        for place, one in enumerate(rows if isinstance(rows, list) else [rows], 1):
            yield f"{number}.{place}", one.get("Sid", "-"), one["Effect"]


def rows(question, found):
    """The statements and grants of a question, with their marks: the run, the place, the Sid or the grant's id, and the effect."""
    for run, marks in zip(RUNS, question["marks"].split("/")):
        if run == "grants":
            asked_of = [(str(place), entry["grant"][:16], "-") for place, entry in enumerate(found.get(run, []), 1)]
        else:
            asked_of = list(statements(found[run]))
        for mark, row in zip(marks, asked_of):
            yield run, *row, (GRANT_MARKS if run == "grants" else MARKS)[mark]


def table(question, found):
    """The lines of a question's table."""
    lines = [("policy", "place", "Sid", "effect", "mark"), *rows(question, found)]
    widths = [max(len(row[column]) for row in lines) for column in range(4)]
    yield f"{question['action']} on {question['resource']}: {question['by']}"
    for row in lines:
        yield "  " + "  ".join(word.ljust(width) for word, width in zip(row, widths)) + "  " + row[4]
