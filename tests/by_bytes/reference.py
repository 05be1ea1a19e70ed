"""Compares docs/OPERATE.md with the sources, and docs/POOL_OPERATE.md by the lines about pools.

It compares the parts that scripts/reference makes, printed lines, bodies of the admin port, and alerts."""
import re
import runpy

from program import TOP

PAGE = TOP / "docs" / "OPERATE.md"
# Printed lines that begin so are in the page about operating a pool.
POOL_PAGE, OF_POOLS = TOP / "docs" / "POOL_OPERATE.md", ("dss: etcd: ", "dss: pool: ")
SOURCES = [it for crate in ("dss", "dss_command") for it in sorted(TOP.glob(f"crates/{crate}/src/*.rt"))]
ADMIN = sorted(TOP.glob("crates/admin_http/src/*.rt"))


def made_parts():
    """The parts are as scripts/reference makes them."""
    text = PAGE.read_text()
    is_same = runpy.run_path(str(TOP / "scripts" / "reference"))["written"](text) == text
    return [] if is_same else ["docs/OPERATE.md is not as the sources are: run scripts/reference"]


def printed_lines():
    """The pages have each line of `purge`, each that begins with `dss:` in a source, and no other. Braces in a source stand for any text."""
    pages = {it: it.read_text() for it in (PAGE, POOL_PAGE)}
    texts = {
        re.sub(r"\\\n\s*", "", it).removesuffix(r"\n")
        for source in SOURCES for it in re.findall(r'"((?:dss: |purged )(?:[^"\\]|\\\s|\\.)*)"', source.read_text())
    }
    patterns = {it: r"[^`\n]+?".join(map(re.escape, re.split(r"\{[^}]*\}", it))) for it in texts}
    found = []
    for text, pattern in sorted(patterns.items()):
        page = POOL_PAGE if text.startswith(OF_POOLS) else PAGE
        found += [] if re.search(pattern, pages[page]) else [f"docs/{page.name} lacks {text}"]
    named = [it for page in pages.values() for it in re.findall(r"`(dss: [^`]+)`", page) if not it.endswith("..")]
    found += [f"no source has {it}" for it in named if not any(re.fullmatch(pattern, it) for pattern in patterns.values())]
    return found + ([] if len(texts) > 20 else [f"{len(texts)} lines were found in the sources"])


def admin_bodies():
    """The bodies of the admin port that the page names by their first words are in its sources."""
    texts = "".join(it.read_text() for it in ADMIN)
    named = re.findall(r"`(\w[\w ]*: )\.\.`", PAGE.read_text())
    return [f"no source has {it}" for it in named if f'"{it}' not in texts] + ([] if len(named) > 4 else [f"{len(named)} bodies are named"])


def alerts():
    """The page has each alert, and no other."""
    told = set(re.findall(r"`(Dss[A-Z]\w+)`", PAGE.read_text()))
    rules = set(re.findall(r"- alert: (\w+)", (TOP / "deploy" / "prometheus-rules.yaml").read_text()))
    return [f"{it} is only in one of docs/OPERATE.md and the rules" for it in sorted(told ^ rules)]


CASES = {
    "reference-made-of-sources": made_parts, "reference-lines": printed_lines, "reference-bodies": admin_bodies, "reference-alerts": alerts,
}
