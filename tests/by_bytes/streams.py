"""Streams whose expected responses come from outside the program.

These are worked examples, drawn calls with the plain policy's responses, and tables of bodies, path parameters and
token files."""
import collections
import itertools
import json

import bodies
import drawn_calls
import meanings
import seeds
import wire
import arguments
from plain_policy import AVAILABILITIES, RULES, STATES
from program import BUILT, TOP, first_difference, run, serve
from scenes import NOW

CLOSE = b"Connection: close\r\n"
SEEDS, NEW_SEEDS = range(1, 121), 10
MANGLED_SEEDS = range(201, 291)
# How often drawn calls, and mangled ones, break each rule. Each operation succeeds as often, too.
MIN, MIN_MANGLED = 49, 10
# How often a put meets an intent of each state with each availability of its manager.
MIN_MET = 20
# How often subscriptions are notified of changes, and how often for each cause.
MIN_NOTIFIED, MIN_PER_CAUSE = 500, 50
CAUSES = ("old alone", "new alone", "both", "the caller's own", "another's", "two addresses")


def served(name, requests, wanted, now, tokens=None):
    """Returns how the output for requests, one after the other in a stream, differs from the expected responses."""
    status, output, error = serve(b"".join(requests), now, tokens)
    why = first_difference(wanted, wire.answers_of(output))
    if why is None and (status, output, error) != (0, b"".join(wanted), b""):
        why = f"status {status}, {len(output)} bytes, {error!r}"
    return [f"{name}: {why}"] if why else []


def kept_open(texts):
    """Returns the texts without the lines that close a connection, except the last."""
    return [text.replace(CLOSE, b"") for text in texts[:-1]] + texts[-1:]


def worked_examples():
    """The steps of an example follow one another on a connection, so that their changes last. Those about ends of
    streams are a stream each."""
    found = []
    for example in json.loads((TOP / "tests" / "data" / "worked_examples.json").read_text()):
        requests = [step["request"].encode("latin-1") for step in example["steps"]]
        answers = [step["answer"].encode("latin-1") for step in example["steps"]]
        if example["in_one_stream"]:
            found += served(example["name"], kept_open(requests), kept_open(answers), example["now"])
            continue
        for request, answer in zip(requests, answers):
            got = serve(request, example["now"])
            if got != (0, answer, b""):
                found += [f"{example['name']}: wanted {answer!r}, got {got!r}"]
    return found


def drawn():
    """Streams of drawn calls get the plain policy's responses, and each rule and each operation occurs. Calls meet
    intents of each state, of managers of each availability, and subscriptions are notified for each cause."""
    met, notified = collections.Counter(), collections.Counter()
    found = answered_as_drawn("drawn calls", [*SEEDS, *seeds.new("drawn-calls", NEW_SEEDS)], MIN, met=met, notified=notified)
    rare = [it for it in itertools.product(STATES, AVAILABILITIES) if met[it] < MIN_MET]
    rare += [it for it in CAUSES if notified[it] < MIN_PER_CAUSE]
    told = notified["the caller's own"] + notified["another's"]
    print(f"notifications of subscriptions: {told}, of these " + ", ".join(f"{it} {notified[it]}" for it in CAUSES))
    found += [f"{told} notifications of subscriptions"] if told < MIN_NOTIFIED else []
    return found + ([f"too few of {rare}"] if rare else [])


def mangled():
    """The same for drawn calls in which letters of bodies and targets are replaced."""
    return answered_as_drawn("mangled calls", [*MANGLED_SEEDS, *seeds.new("mangled-calls", NEW_SEEDS)], MIN_MANGLED, is_mangled=True)


def differs(name, calls, outcomes):
    """Returns how the responses to drawn calls differ from these outcomes."""
    requests = [wire.request(*it) for it in calls]
    wanted = [it.text(closes=at == wire.MAX_REQUESTS) for at, it in enumerate(outcomes, 1)]
    return served(name, requests, wanted, drawn_calls.NOW, wire.token_file(drawn_calls.ALL_TOKENS))


def shortest(seed, calls):
    """Returns how a failing stream differs, with as few of its calls as still fail."""
    calls = drawn_calls.cut_down(calls, lambda some: differs("", some, drawn_calls.outcomes_of(some)))
    requests = "".join(f"\n    {wire.request(*it)!r}" for it in calls)
    return [f"{it}\n  by these requests:{requests}" for it in differs(f"seed {seed}", calls, drawn_calls.outcomes_of(calls))]


def answered_as_drawn(name, drawn, least, **how):
    found, counts, works = [], collections.Counter(), set()
    for seed in drawn:
        calls, outcomes = drawn_calls.calls_of(seed, **how)
        if differs(f"seed {seed}", calls, outcomes):
            found += shortest(seed, calls)
        counts.update(it.why for it in outcomes)
        works |= {it.why for it in outcomes if it.why not in RULES}
    print(f"{name}: {counts.total()}, of these " + ", ".join(f"P{it} {counts[it]}" for it in RULES))
    rare = [it for it in [*RULES, *works] if counts[it] < least]
    return found + ([f"under {least} of {rare}"] if rare or len(works) != 17 else [])


def said():
    """Each request of the tables of bodies and of meanings gets its response."""
    found = []
    for scene in bodies.scenes() + meanings.scenes():
        wanted = [wire.answer(*it) for it in scene.wanted]
        found += served(scene.name, scene.requests, wanted, NOW, scene.tokens)
    return found


def token_files():
    """Each token file of the table is read, or its fault is reported."""
    found = []
    for text, fault in arguments.TOKEN_FILES:
        got = serve(b"", NOW, text)
        wanted = (1, b"", f"dss: tokens: fault {fault}\n".encode()) if fault else (0, b"", b"")
        if got != wanted:
            found += [f"{text!r}: wanted {wanted!r}, got {got!r}"]
    return found


def command_lines():
    """Each command line of the table exits with its status. A rejected one prints something; the text is not fixed."""
    found = []
    for line, status, part in arguments.COMMAND_LINES:
        got, output, error = run(["dss", *line], program=BUILT)
        says = (error if status else output).decode()
        silent = output if status else error
        if got != status or silent or part not in says:
            found += [f"{line}: wanted {status} and {part!r}, got {got}, {output!r}, {error!r}"]
    return found


def cells():
    """Each token of the table is printed as a cell, or its fault is reported."""
    found = []
    for token, status, text in arguments.CELLS:
        wanted = (status, b"" if status else text.encode(), text.encode() if status else b"")
        got = run([BUILT, "cell", token])
        if got != wanted:
            found += [f"{token!r}: wanted {wanted!r}, got {got!r}"]
    return found
