"""`POLICY` of pool_etcd rises if a definition changes that decides replies or stored state, or a line says why no reply changed."""
import runpy

from program import TOP
from sockets import difference

SCRIPT = "scripts/policy_definitions"


def current():
    """The last line of tests/data/policy_definitions has the number and the digest of the definitions. Other files with such lines are
    rejected."""
    made = runpy.run_path(str(TOP / SCRIPT))
    text, number, digest = made["FILE"].read_text(), made["number"](), made["digest"]()
    found = [f"{made['FILE'].relative_to(TOP)}: {it}" for it in made["wrong_in"](text, number, digest)]
    other, line = 64 * "0", lambda *words: " ".join(map(str, words)) + "\n"
    accepted = (
        line(2, other, "first"),
        line(2, digest, "first") + line(2, other, "a law only"),
        line(1, other, "first") + line(2, digest, "others") + line(2, other, "back"),
    )
    rejected = (
        "", line(2, other), line(2, other, " "), line(2, digest, "first"), line(1, other, "first"), line(3, other, "first"),
        line(2, other, "first") + line(2, digest, "a law only"), line(3, digest, "first") + line(2, other, "less"),
    )
    found += [f"rejected: {it!r}" for it in accepted if made["wrong_in"](it, 2, other)]
    found += [f"accepted: {it!r}" for it in rejected if not made["wrong_in"](it, 2, other)]
    texts = 'a = "-- b" -- c\n\n  -- d\n  e--f\n', 'a = "-- b"\n  e--f\n'
    return found + difference("the canonical form", made["canonical"](texts[0]), texts[1])


CASES = {"policy-definitions": current}
