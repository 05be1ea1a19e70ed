"""The results of a run, as a self-contained page and as JUnit XML."""
import html
import json
import time
import xml.etree.ElementTree as tree

from suite.check import CHECKS

GROUPS = {
    "intents": "Operational intents", "keys": "Keys", "constraints": "Constraints", "subscriptions": "Subscriptions",
    "availability": "Availability", "callers": "Who may what", "repeats": "Lost answers, and two at once",
    "bodies": "Bodies and limits", "connections": "Paths, methods and connections"}
MAX_SHOWN = 800

STYLE = """
:root { color-scheme: light dark; --line: #8886; --held: #1a7f37; --broken: #c62828; --soft: #8882; }
body { font: 15px/1.45 system-ui, sans-serif; margin: 0 auto; max-width: 74rem; padding: 1rem; }
h1 { font-size: 1.5rem; } h2 { font-size: 1.15rem; margin: 1.6rem 0 .4rem; }
table { border-collapse: collapse; width: 100%; table-layout: fixed; }
th, td { border-top: 1px solid var(--line); padding: .3rem .5rem; text-align: left; vertical-align: top; overflow-wrap: anywhere; }
td, code, pre { font: 12.5px/1.4 ui-monospace, monospace; } th { font-weight: 600; }
pre { margin: .2rem 0 0; white-space: pre-wrap; } .rule { opacity: .75; font-size: 13px; display: block; margin-left: 5.9em; }
details { border-top: 1px solid var(--line); padding: .35rem 0; } summary { cursor: pointer; }
.mark { display: inline-block; min-width: 5.2em; font-weight: 600; } .held { color: var(--held); } .broken { color: var(--broken); }
.skipped, .at { opacity: .75; }
.why { background: var(--soft); padding: .4rem .6rem; margin: .4rem 0; } .scroll { overflow-x: auto; }
"""


def cut(text):
    return text if len(text) <= MAX_SHOWN else f"{text[:MAX_SHOWN]} .. ({len(text)} characters)"


def shown(body):
    text = body if isinstance(body, str) else "" if body is None else json.dumps(body)
    return cut(text)


def mark(holds):
    return f'<span class="mark {"held" if holds else "broken"}">{"held" if holds else "BROKEN"}</span>'


def mark_of(result):
    return mark(result.why is None) if result.skipped is None else '<span class="mark skipped">skipped</span>'


def sources(check, is_standard):
    """Returns the rules or the operations that a check tests."""
    rules = f"docs/POLICY.md: {', '.join(check.rules)}" if any(check.rules) else ""
    operations = f"ASTM F3548-21: {', '.join(check.operations)}" if check.operations else ""
    return "; ".join(it for it in ((operations, rules) if is_standard else (rules, operations)) if it)


def counted(results):
    """Returns how many results held, broke and were skipped."""
    broken, skipped = sum(it.why is not None for it in results), sum(it.skipped is not None for it in results)
    return len(results) - broken - skipped, broken, skipped


def counts(results):
    held, broken, skipped = counted(results)
    return f"{held} held, {broken} broken" + (f", {skipped} skipped" if skipped else "")


def place_of(result):
    """Returns the pair of URLs of a result, and the URL where it broke."""
    return f"{result.pair}" + (f"; seen at {result.failed.url}" if result.failed else "")


def id_of(result, run):
    """Returns the anchor of a result: the check's name, with the number of a further pair of URLs."""
    number = run.pairs.index(result.pair)
    return result.check.name + (f"-{number + 1}" if number else "")


def row(exchange, has_url):
    came = exchange.text if exchange.status is None else f"{exchange.status} {exchange.text}"
    at = f'<div class="at">at {html.escape(exchange.url)}</div>' if has_url else ""
    asked = f"{exchange.who}: {exchange.method} {exchange.path}"
    expected = "".join(f"<div>{mark(holds)}{html.escape(what)}</div>" for what, holds in exchange.expected)
    body = html.escape(shown(exchange.body))
    return (f"<tr><td>{at}{html.escape(cut(asked))}{f'<pre>{body}</pre>' if body else ''}</td>"
            f"<td>{html.escape(cut(came))}</td><td>{expected}</td></tr>")


def block(result, run):
    holds, is_standard, has_urls = result.why is None, run.dialect.is_standard, len(run.urls) > 1
    pair = f'<span class="rule at">{html.escape(place_of(result))}</span>' if has_urls else ""
    why = "" if holds else f'<p class="why">Expected, but false: {html.escape(result.why)}</p>'
    why += f'<p class="why">Skipped: {html.escape(result.skipped)}</p>' if result.skipped is not None else ""
    left = f'<p class="why">Left behind: {html.escape(", ".join(result.left))}</p>' if result.left else ""
    rows = "".join(row(it, has_urls) for it in result.exchanges)
    return (f'<details{"" if holds else " open"} id="{id_of(result, run)}"><summary>{mark_of(result)}{html.escape(result.check.sentence)}.'
            f'<span class="rule">{html.escape(sources(result.check, is_standard))}</span>{pair}</summary>{why}{left}'
            f'<div class="scroll"><table><tr><th>request</th><th>response</th><th>expected</th></tr>{rows}</table></div></details>')


def links(run, broken):
    """Returns the part of the page that links to the broken checks."""
    has_urls = len(run.urls) > 1
    said = ((id_of(it, run), it.check.sentence + (f" [{place_of(it)}]" if has_urls else "")) for it in broken)
    return ["<h2>Broken</h2><ul>", *(f'<li><a href="#{name}">{html.escape(text)}</a></li>' for name, text in said), "</ul>"] if broken else []


def page(run, results):
    """Returns the page as a text."""
    is_standard = run.dialect.is_standard
    held, broken, skipped = counted(results)
    urls = ", ".join(run.urls)
    what = "the DSS interface of ASTM F3548-21, as far as this suite tests it" if is_standard else "the profile of dss, docs/POLICY.md"
    when = time.strftime("%Y-%m-%d %H:%M:%S UTC", time.gmtime(run.began))
    parts = [
        f"<p>{html.escape(urls)} was tested against {what}, on {when}, with the seed {html.escape(str(run.seed))}: "
        f"{held} checks held, {broken} broken, {skipped} skipped; {run.pace.sent} requests. Each check has, below its sentence, the rules "
        "and operations that it tests, and inside its requests, responses and expectations. Further expectations hold for every response: "
        "it arrives, has its form and no OVN of another USS, and no OVN is returned twice. They are shown only if they fail. "
        "Requests that clean up are not shown.</p>"]
    left_out = sum(it.only in (None, run.dialect.name) for it in CHECKS) - len({it.check.name for it in results})
    parts += [f"<p>{left_out} checks were not selected.</p>"] if left_out else []
    if len(run.pairs) > 1:
        pairs = "".join(f"<li>{html.escape(f'{pair}: {counts([it for it in results if it.pair is pair])}')}</li>" for pair in run.pairs)
        parts += [f"<ul>{pairs}</ul>"]
    parts += links(run, [it for it in results if it.why is not None])
    for group, title in GROUPS.items():
        of_group = [it for it in results if it.check.group == group]
        if of_group:
            parts += [f"<h2>{title}</h2>", *(block(it, run) for it in of_group)]
    verdict = "All held" if not broken else f"{broken} broken"
    return ('<!DOCTYPE html>\n<html lang="en"><head><meta charset="utf-8">'
            '<meta name="viewport" content="width=device-width, initial-scale=1">'
            f"<title>{verdict}: {html.escape(urls)}</title><style>{STYLE}</style></head>"
            f"<body><h1>{verdict}: {html.escape(urls)}</h1>{''.join(parts)}</body></html>\n")


def plain(text):
    """Returns the text without characters that XML forbids."""
    return "".join(it if it in "\t\n" or " " <= it <= "\ud7ff" or "\ue000" <= it <= "\ufffd" or it > "\uffff" else "?" for it in text)


def junit(run, results):
    """Returns JUnit XML as bytes: a suite for each pair of URLs."""
    root = tree.Element("testsuites")
    for pair in run.pairs:
        of_pair = [it for it in results if it.pair is pair]
        _, broken, skipped = counted(of_pair)
        at = f", {pair}" if len(run.urls) > 1 else ""
        suite = tree.SubElement(root, "testsuite", {
            "name": plain(f"qualify {run.dialect.name}{at}"), "tests": str(len(of_pair)), "failures": str(broken), "errors": "0",
            "skipped": str(skipped), "time": f"{sum(it.seconds for it in of_pair):.3f}", "hostname": plain(pair.reader.url),
            "timestamp": time.strftime("%Y-%m-%dT%H:%M:%S", time.gmtime(run.began))})
        for it in of_pair:
            add_case(suite, run, it)
    return tree.tostring(root, encoding="utf-8", xml_declaration=True)


def add_case(suite, run, it):
    """Adds a result to a suite of JUnit XML."""
    named = {"classname": f"qualify.{it.check.group}", "name": it.check.name}
    case = tree.SubElement(suite, "testcase", {**named, "time": f"{it.seconds:.3f}"})
    lines = [f"{it.check.sentence}.", sources(it.check, run.dialect.is_standard)]
    lines += [place_of(it)] if len(run.urls) > 1 else []
    if it.why is not None:
        if last := it.failed:
            lines += [f"request: {last.who}: {last.method} {last.path} {shown(last.body)}", f"response: {last.status} {cut(last.text)}"]
        failure = tree.SubElement(case, "failure", {"message": plain(f"expected: {it.why}")})
        failure.text = plain("\n".join([*lines, f"expected: {it.why}"]))
    else:
        if it.skipped is not None:
            tree.SubElement(case, "skipped", {"message": plain(it.skipped)})
        tree.SubElement(case, "system-out").text = plain("\n".join(lines))
