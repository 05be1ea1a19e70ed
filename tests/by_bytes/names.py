"""Each name of code in the documents is one of the repository's, each link leads somewhere, the pictures and the index
of contracts are of what is there, and the first line of each source, definition, script and test says what it has.

What stands in backquotes is looked at word by word: a file must be there, the parts of `crate::item` must be made in
that crate and those of `Type::call` in one file, an edit must stand among the edits of its crate, and any other name
must be made in some code, outside comments. Words in upper case stand for others. Requests, answers and paths of HTTP
are looked at by other tests.

A name that is said to be in a file must be made there. Each claim of PROOF and PROOF_POOL names public functions, types or
laws, after their crate. Each must have a contract in the index of contracts, which scripts/contracts makes from the sources."""
import functools
import json
import os
import pathlib
import re
import runpy

from program import TOP

DOCUMENTS = sorted(it for folder in ("", "docs/", "bench/", "deploy/", "gateway/", "qualify/", "clients/python/") for it in TOP.glob(f"{folder}*.md"))
# What is made of the sources, with names of the kit in it.
MADE = {TOP / "docs" / "PROOF_INDEX.md"}
# How a comment begins, by the end of a file's name.
COMMENTS = {".rt": "//", ".c": "//", ".antt": "--"} | dict.fromkeys(("", ".py", ".bash", ".txt", ".yaml", ".toml", ".cfg", ".conf", ".service"), "#")
FILE = re.compile(r".+\.(rt|antt|py|bash|c|txt|yaml|toml|md|http|edit|json|answers|any)")
# How a name is made in Rattle and in its definitions: an item, a field, a variant, a clause.
DECLARED = {
    ".rt": re.compile(
        r"\b(?:fn|struct|enum|trait|type|const|static|mod|ghost) (\w+)|^\s+(?:pub(?:\(\w+\))? )?(\w+)\s*(?:[,({:]|$)"
        r"|\b(?:ensures\*?|requires) (\w+) \{",
        re.MULTILINE,
    ),
    ".antt": re.compile(r"^\s*(?:(?:abbrev|unfoldable|pub|record|data) )*([\w-]+)()\s*[:({]", re.MULTILINE),
}
# What is no name: text of JSON or HTTP, a shell's signs, a rule with its name.
NO_NAME = re.compile(r"""[{"'=<>|$~!+\\]|^/|:[/ ]|^[PH]\d+( |$)|^\W+$""")
# Where no name is made: data of cases, and this list.
OUTSIDE = ("tests/data/cases/", "tests/by_bytes/names.py")
# Names of other programs, libraries and formats.
OTHERS = set(
    """String Vec Option ghost unfolding abbrev tactic auto plant wrote
    rattle-kit-13b rattle-kit-13f logic dac8208d650f15bf Intel Xeon Processor
    89c25907 89c25909 89c2590b Host Date oauth2 libs2-dev s2geometry S2RegionCoverer RegionCoverer S2CellId CellID
    set_fixed_level set_max_cells GetCovering getCovering Covering region
    ToToken toToken s2-geometry-library-java github.com/golang/geo/s2 outline_polygon outline_circle
    off_nominal_volumes operational_intent_id constraint_id /uss/v1/operational_intents /uss/v1/constraints /uss/v1/reports
    new_subscription 61 Start IsClosed open_from open_files Wary strace defrag ModRevision /health /metrics /airspace /backup /file /purge/resume /stop 8078""".split()
)


@functools.cache
def files():
    """The files of the repository, by their paths in it."""
    found = {}
    for folder, folders, names in os.walk(TOP):
        folders[:] = set(folders) - {".git", ".dss", "out", "__pycache__"}
        found |= {os.path.relpath(f"{folder}/{it}", TOP): pathlib.Path(folder, it) for it in names}
    return found


@functools.cache
def names_of(path):
    """The names that the code of a file makes. Of a script or a test each word counts, and so does each of a text."""
    file = files()[path]
    if path.startswith(OUTSIDE) or file.suffix not in COMMENTS:
        return frozenset()
    lines = file.read_text(errors="replace").splitlines()
    code = "\n".join(re.split(rf"(?:^|\s){COMMENTS[file.suffix]}", it)[0] for it in lines)
    made = DECLARED.get(file.suffix)
    words = re.findall(r"\w+", " ".join(re.findall(r'"(?:[^"\\]|\\.)*"', code)) if made else code)
    return frozenset(words + [it for found in (made.findall(code) if made else ()) for it in found if it] + [file.stem])


@functools.cache
def names_in_folder(folder):
    """The names that are made in the files of a folder."""
    return frozenset().union(*(names_of(path) for path in files() if path.startswith(folder)))


def is_path(word):
    """Whether a word is the end of a file's path, or a folder."""
    return any(f"/{path}/".endswith(f"/{word}/") or f"/{path}".find(f"/{word}/") >= 0 for path in files())


@functools.cache
def cases():
    """The names of the cases by bytes that are data: worked examples, and folders."""
    examples = json.loads((TOP / "tests" / "data" / "worked_examples.json").read_text())
    return {it["name"] for it in examples} | {it.name for it in (TOP / "tests" / "data" / "cases").iterdir()}


def is_edit(word):
    crate, _, name = word.partition("/")
    folders = f"crates/{crate}/must-fail/{name}", f"tests/edits/{crate}/{name}"
    return any(path.startswith(folders) for path in files())


def is_for_others(word):
    """Whether a word, or a part of it, is in upper case and so stands for others."""
    return any(it.isalpha() and it.isupper() and len(it) > 1 for it in re.split("::|[-/]", word))


def is_word(word, folder=""):
    """Whether a word is a name that is made in a folder, one of others, or a letter that stands for them."""
    return word in OTHERS or word in names_in_folder(folder) or (len(word) == 1 and word.isupper())


def is_member(name, member):
    """Whether a file of code makes both names, or the second in an `impl` of the first."""
    return any(
        {name, member} <= names_of(path) or member in names_of(path) and name in impls_in(path)
        for path in files() if path.endswith((".rt", ".antt"))
    )


@functools.cache
def impls_in(path):
    """The words of the lines of a file that begin an `impl`."""
    lines = re.findall(r"(?m)^impl\b.*$", (TOP / path).read_text(errors="replace"))
    return frozenset(re.findall(r"\w+", " ".join(lines)))


def is_name(word):
    """Whether a word names something of the repository or of others."""
    if word in OTHERS or word in cases() or is_for_others(word):
        return True
    if "::" in word:
        first, *parts = word.split("::")
        if is_path(f"crates/{first}"):
            return all(is_word(it, f"crates/{first}/") for it in parts)
        return len(parts) == 1 and (first in OTHERS or is_member(first, parts[0]))
    if "/" in word or FILE.fullmatch(word):
        word = word.removeprefix("./").removeprefix("../").rstrip("/")
        return is_path(word) or is_edit(word)
    return all(is_word(it) for it in re.findall(r"\w+", word))


def words_in(document):
    """The words in backquotes outside blocks of code, each with its line."""
    text = re.sub(r"(?ms)^```.*?^```$|^    .*?$", lambda block: "\n" * block[0].count("\n"), document.read_text())
    for quoted in re.finditer(r"`([^`]+)`", text):
        if not NO_NAME.search(quoted[1]):
            for word in quoted[1].split():
                yield text.count("\n", 0, quoted.start()) + 1, word.strip("()[],:;*&").rstrip(".")


def unknown():
    """The names in the documents that nothing in the repository has."""
    found = []
    for document in (it for it in DOCUMENTS if it not in MADE):
        for number, name in words_in(document):
            if name and not is_name(name):
                found += [f"{document.relative_to(TOP)}:{number}: nothing is named {name}"]
    return found


def elsewhere():
    """The names that a document says are in a file, and that the file does not make."""
    found, said = [], re.compile(r"((?:`[\w:]+`(?:,\s+|\s+and\s+)?)+)\s+in\s+`([\w/]+\.(?:antt|rt))`")
    linked = re.compile(r"\[`(\w+)`\]\(\.\./([\w/]+\.antt)\)")
    for document in DOCUMENTS:
        for names, file in said.findall(document.read_text()):
            made = frozenset().union(*(names_of(path) for path in files() if f"/{path}".endswith(f"/{file}")))
            unmade = set(re.findall(r"\w+", " ".join(re.findall(r"`([^`]+)`", names)))) - made
            found += [f"{document.relative_to(TOP)}: {file} has no {it}" for it in sorted(unmade)]
        for name, file in () if document in MADE else linked.findall(document.read_text()):
            if file not in files() or name not in names_of(file):
                found += [f"{document.relative_to(TOP)}: {file} has no {name}"]
    return found


@functools.cache
def contracts():
    """What scripts/contracts reads of the sources."""
    return runpy.run_path(str(TOP / "scripts" / "contracts"))


@functools.cache
def stated(crate):
    """The public functions of a crate that have a contract, each also by its type."""
    names = [it.name.partition(" as ")[0] for it in contracts()["items"](crate)]
    return {*names, *(it.partition("::")[0] for it in names)}


def claims():
    """The rows of the tables of claims in PROOF and PROOF_POOL: of each its page and line, and the contracts with their crates."""
    for page in ("docs/PROOF.md", "docs/PROOF_POOL.md"):
        text = (TOP / page).read_text()
        first, last = text.index("\n## Claims\n"), text.index("\n## Proved inside a crate\n")
        for number, line in enumerate(text[first:last].splitlines(), text.count("\n", 0, first) + 1):
            if line.startswith("|") and not line.startswith(("| claim | contract |", "|---")):
                parts = re.findall(r"\[`(\w+)`\]\(PROOF_INDEX\.md#\w+\): ([^;|]*)", line.rpartition(" | ")[2])
                yield f"{page}:{number}", [(crate, it) for crate, names in parts for it in re.findall(r"`([^`]+)`", names)]


def unstated():
    """The claims that name no contract, or one of no public function, and what a document says is in another file."""
    rows = list(claims())
    found = [f"{line}: no contract is named" for line, row in rows if not row]
    pairs = [(line, *it) for line, row in rows for it in row]
    found += [f"{line}: {crate} has no contract of {it}" for line, crate, it in pairs if it not in stated(crate)]
    return found + elsewhere() + ([] if len(rows) > 70 else [f"{len(rows)} claims are not all"])


def outdated():
    """The pages that scripts/contracts makes from other sources."""
    pages = contracts()["PAGES"].items()
    old = [name for name, text in pages if text() != (TOP / "docs" / name).read_text()]
    return [f"docs/{name} is another: run scripts/contracts" for name in old]


def headless():
    """The sources, definitions, scripts and tests whose first line, after that of what runs them, does not say what they have."""
    begins = {".rt": "//! ", ".antt": "-- ", ".py": '"""', ".c": "/* ", ".bash": "# ", "": ('"""', "# ")}
    folders = "crates/*/src/*.rt", "crates/*/specs/*.antt", "scripts/*", "tests/*", "tests/*/*.py", "tests/devices/*"
    files = [it for folder in folders for it in sorted(TOP.glob(folder)) if it.is_file() and it.suffix in begins]
    texts = ((it, re.sub(r"^#!.*\n", "", it.read_text())) for it in files if it.name != "Lib.antt")
    return [f"{it.relative_to(TOP)} begins otherwise" for it, text in texts if not text.startswith(begins[it.suffix])]


def anchors(document):
    """The anchors of a document's headings."""
    text = re.sub(r"(?ms)^```.*?^```", "", document.read_text())
    headings = (re.sub(r"\[([^\]]*)\]\([^)]*\)", r"\1", it) for it in re.findall(r"(?m)^#+ (.*)$", text))
    return {re.sub(r"[^\w\- ]", "", it.lower()).replace(" ", "-") for it in headings}


def dead_links():
    """The links of documents to files that are not there, or to headings that they do not have."""
    found = []
    for document in DOCUMENTS:
        text = re.sub(r"(?ms)^```.*?^```|^    .*?$", "", document.read_text())
        for link, file, anchor in re.findall(r"\]\((([^)#:\s]*)(?:#([^)\s]*))?)\)", text):
            target = document.parent / file if file else document
            is_there = target.exists() and (not anchor or anchor in anchors(target))
            found += [] if is_there else [f"{document.relative_to(TOP)}: there is no {link}"]
    return found


def pictures_are_drawn():
    """The pictures are of the crates, the functions and the calls that are there."""
    drawn = runpy.run_path(str(TOP / "scripts" / "pictures"))
    old = [name for name, picture in drawn["PICTURES"].items() if picture() != (TOP / "docs" / name).read_text()]
    found = [f"docs/{name} is another: run scripts/pictures" for name in old]
    # what asks no space calls no change of one
    is_blind = drawn["picture_of_a_path"].calls("early::early", "change::commit_change")
    return found + (["a call is seen where there is none"] if is_blind else [])


CASES = {
    "pictures": pictures_are_drawn, "names-in-docs": unknown, "names-in-tables": unstated, "links-in-docs": dead_links,
    "first-lines": headless, "index-of-contracts": outdated,
}
