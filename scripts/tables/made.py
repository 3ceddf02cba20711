"""What the make-* of this folder share: the enums of record, and files that are written or checked."""
import os
import re
import sys

ROOT = os.path.dirname(os.path.dirname(os.path.dirname(os.path.abspath(__file__))))
RECORD = "crates/record/src/lib.rt"


def read(path):
    with open(os.path.join(ROOT, path), encoding="utf-8") as f:
        return f.read()


def enum(name):
    """The variants of an enum of record, in the order of their numbers."""
    body = re.search(r"pub enum %s \{\n(.*?)\n\}" % name, read(RECORD), re.S)
    if not body:
        sys.exit(f"{RECORD}: no enum {name}")
    return re.findall(r"^    (\w+),$", body.group(1), re.M)


def write_or_check(usage, files):
    """Writes each file, a path in the repository with its text; or says which are not as they would be written, and fails."""
    if sys.argv[1:] not in (["write"], ["check"]):
        sys.exit(usage)
    stale = []
    for path, text in files.items():
        whole = os.path.join(ROOT, path)
        if os.path.exists(whole) and read(path) == text:
            continue
        if sys.argv[1] == "check":
            stale.append(path)
            continue
        os.makedirs(os.path.dirname(whole), exist_ok=True)
        with open(whole, "w", encoding="utf-8") as f:
            f.write(text)
    if stale:
        sys.exit("not as made, run scripts/tables/run write: " + ", ".join(stale))
