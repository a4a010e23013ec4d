"""Which further wrong bodies of crates, those of tools/edits/NAME, the prover refused, and over what: the file tools/edits/refused has a line
`NAME CHECKSUM` for each crate whose edits were tried, and the file tools/edits/owed a line `NAME` for each whose edits are still to be."""

import hashlib
import pathlib

TOP = pathlib.Path(__file__).resolve().parent.parent
EDITS = TOP / "tools" / "edits"
LINES = EDITS / "refused"
OWED = EDITS / "owed"


def edits_of(name):
    """The further edits of a crate."""
    return sorted((EDITS / name).glob("*.edit"))


def sum_of(name):
    """A checksum of what a crate's further edits are tried over: its code, definitions and proofs, and themselves."""
    total = hashlib.sha256()
    crate = TOP / "crates" / name
    files = [path for part in ("src", "specs", "proofs") for path in sorted((crate / part).rglob("*")) if path.is_file()]
    for path in [*files, *edits_of(name)]:
        text = path.read_bytes()
        total.update(f"{path.relative_to(TOP)} {len(text)}\n".encode() + text)
    return total.hexdigest()


def read():
    """The checksums as they were noted, by crate."""
    return dict(line.split() for line in LINES.read_text(encoding="utf-8").splitlines()) if LINES.exists() else {}


def crates():
    """The crates that have further edits."""
    return sorted(folder.name for folder in EDITS.iterdir() if folder.is_dir())


def changed():
    """The crates that have changed since their further edits were refused."""
    noted = read()
    return [name for name in crates() if noted.get(name) != sum_of(name)]


def owed():
    """The crates whose further edits are still to be tried."""
    return OWED.read_text(encoding="utf-8").split() if OWED.exists() else []


def renew(sums):
    """Notes that the further edits of these crates were refused over what has these checksums."""
    noted = read() | sums
    LINES.write_text("".join(f"{name} {noted[name]}\n" for name in crates() if name in noted), encoding="utf-8")
    if OWED.exists():
        OWED.write_text("".join(f"{name}\n" for name in owed() if name not in sums), encoding="utf-8")
