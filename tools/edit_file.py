"""Must-fail edits: rows `file:`, `old:` and `new:`, each pair of the latter one replacement in the file named last."""

from dataclasses import dataclass

FOLDERS = ("src/", "specs/", "proofs/")


class BadEdit(Exception):
    """Why an edit cannot be made, and at which row: 0 for the whole of it."""

    def __init__(self, row, why):
        super().__init__(why)
        self.row = row


@dataclass(frozen=True)
class Replacement:
    """A text of a crate's file and what it becomes; `row` is the number of the edit's row that ends it."""

    row: int
    file: str
    old: str
    new: str


def replacements(text):
    """The replacements of an edit in their order. Rows that begin otherwise are comments."""
    found = []
    file = old = ""
    for number, row in enumerate(text.split("\n"), 1):
        if row.startswith("file: "):
            file = row[len("file: ") :]
        elif row.startswith("old: "):
            old = row[len("old: ") :]
        elif row.startswith("new:"):
            found.append(Replacement(number, file, old, row[len("new:") :].removeprefix(" ")))
            old = ""
    return found


def fault(replacement, text):
    """Why a replacement cannot be made in its file's text, which is None where there is no such file; empty if it can be."""
    file, old = replacement.file, replacement.old
    if not is_inside(file):
        return f"'file: {file}' names no file under {', '.join(FOLDERS)}"
    if text is None:
        return f"'file: {file}' names no file of the crate"
    if not old:
        return "'new:' has no 'old: ..' before it"
    times = text.count(old)
    return "" if times == 1 else f"'old: {old}' is {f'{times} times' if times else 'not'} in {file}"


def is_inside(file):
    """Whether a name leads to a place in the crate where an edit may change a file."""
    return file.startswith(FOLDERS) and ".." not in file.split("/")


def text_in(folder, file):
    """The text of a crate's file, or None where there is no such file."""
    path = folder / file
    return path.read_bytes().decode("utf-8") if path.is_file() else None


def applied(text, read):
    """The files that an edit changes, with their new texts; `read` gives a file's text, or None. Fails with BadEdit."""
    changed = {}
    for one in replacements(text):
        if one.file not in changed and is_inside(one.file):
            changed[one.file] = read(one.file)
        why = fault(one, changed.get(one.file))
        if why:
            raise BadEdit(one.row, why)
        changed[one.file] = changed[one.file].replace(one.old, one.new)
    if not changed:
        raise BadEdit(0, "it has no rows 'old: ..' and 'new: ..'")
    return changed
