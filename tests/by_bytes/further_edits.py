"""The mutants of the gate and those in tests/edits can be applied.

`./check edits` tries the latter only before a release, which is late to learn that a text which one of them replaces is
gone. `rt ci` does not fail for a mutant that cannot be applied."""
from program import TOP

EDITS = sorted([*TOP.glob("tests/edits/*/*.edit"), *TOP.glob("crates/*/must-fail/*.edit")])


class BadEdit(Exception):
    """Why a mutant shows nothing."""


def edited(edit, folder):
    """Returns the texts of the files that a mutant changes, by their paths in a crate's directory. Each replaced text
    occurs once in its file, after the replacements before it."""
    path = old = None
    texts = {}
    for line in edit.read_text().splitlines():
        word, _, text = line.partition(":")
        text = text.removeprefix(" ")
        if word == "file":
            path = text
            if not (folder / path).is_file():
                raise BadEdit(f"file {path} does not exist")
            texts.setdefault(path, (folder / path).read_text())
        elif word == "old":
            old = text
            if path is None or texts[path].count(old) != 1:
                raise BadEdit(f"{old!r} does not occur exactly once")
        elif word == "new" and old is not None:
            texts[path], old = texts[path].replace(old, text), None
    if all(text == (folder / path).read_text() for path, text in texts.items()):
        raise BadEdit("it replaces nothing")
    return texts


def crate_of(edit):
    """Returns the name of a mutant's crate."""
    return edit.parent.parent.name if edit.parent.name == "must-fail" else edit.parent.name


def fault_of(edit):
    """Returns why a mutant cannot be applied, or None."""
    try:
        edited(edit, TOP / "crates" / crate_of(edit))
    except BadEdit as fault:
        return str(fault)
    return None


def applied():
    """Each mutant can be applied."""
    found = [(it, fault_of(it)) for it in EDITS]
    return [f"{it.relative_to(TOP)}: {why}" for it, why in found if why]


CASES = {"further-edits-apply": applied}
