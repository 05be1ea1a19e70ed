#!/usr/bin/env python3
"""Writes the tables of documents and of the client that follow from docs/openapi.yaml, and the schema from the SQL of space_sql_schema.

  scripts/doc_tables.py

Each table replaces a document's text between `<!-- NAME: made by scripts/doc_tables.py -->` and `<!-- end -->`. The responses of
failure are the examples of docs/openapi.yaml with a `message`, and the gateway's own are `x-gateway` there."""
import collections
import functools
import json
import pathlib
import re
import sys

import yaml

TOP = pathlib.Path(__file__).resolve().parent.parent
SQL = [TOP / "crates" / "space_sql_schema" / "src" / it for it in ("make.rt", "upgrade.rt")]
# The order in which the service checks.
ORDER = (*(f"H{it}" for it in range(1, 6)), *(f"P{it}" for it in (*range(1, 14), 16, 17, 14, 15)))
# What the client's table has first, and its types.
TABLE_OF_CLIENT = '''"""The responses of failure of the service and of the proxies in deploy. scripts/doc_tables.py makes this of docs/openapi.yaml."""
from typing import Dict, Tuple

# The status of each message, and whether a change is open after it.
MESSAGES: Dict[str, Tuple[int, bool]] = {
'''
# The schemas of bodies and their parts, and a name for each that is no plain value.
BODIES = {
    "Query": "a query", "IntentPut": "a put of an intent", "ConstraintPut": "a put of a constraint", "SubscriptionPut": "a put of a subscription",
    "AvailabilityPut": "a setting of an availability", "Volume": "a volume", "Area": "an area",
}
PARTS = {"Volume": "volume", "Area": "area", "Cell": "cell token", "GivenOvn": "OVN", "BaseUrl": "address"}
LETTERS = {"^[!-~]*$": "characters from `!` to `~`", "^[A-Za-z0-9._-]*$": "letters, digits, `-`, `_`, `.`"}


@functools.cache
def document():
    return yaml.safe_load((TOP / "docs" / "openapi.yaml").read_text())


def resolved(value, parts):
    """Returns a part of the document, or the part that it refers to."""
    for name in value["$ref"].removeprefix("#/").split("/") if "$ref" in value else ():
        parts = parts[name]
    return parts if "$ref" in value else value


def at(parts, path):
    """Returns the schema at a path below the schemas."""
    for name in ("components", "schemas", *path.split("/")):
        parts = parts[name]
    return parts


def table(head, rows):
    return "\n".join(f"| {' | '.join(row)} |" for row in (head, ["---"] * len(head), *rows))


def value_of(schema):
    """Describes the bounds of a schema."""
    low, high = {"array": ("minItems", "maxItems"), "string": ("minLength", "maxLength"), "integer": ("minimum", "maximum")}[schema["type"]]
    return f"{schema.get(low, 0):,} to {schema[high]:,} {LETTERS.get(schema.get('pattern'), '')}".strip()


Failure = collections.namedtuple("Failure", "message status cause remedy is_open is_of_proxy")


def failures(parts):
    """Returns the responses of failure by their messages, in the order of the document."""
    found, statuses = {}, {}
    holders = [it for path in parts["paths"].values() for it in path.values() if "responses" in it]
    responses = [(status, it) for holder in holders for status, it in holder["responses"].items()]
    responses += [(it["x-status"], it) for it in parts["components"]["responses"].values() if "x-status" in it]
    for status, response in responses:
        for example in resolved(response, parts)["content"]["application/json"]["examples"].values():
            example = resolved(example, parts)
            if "message" in example["value"]:
                statuses.setdefault(example["value"]["message"], (status, example))
    inline = [it for _, it in statuses.values()]
    for example in [*parts["components"]["examples"].values(), *inline]:
        message = example["value"]["message"]
        cause, remedy = (example[it].strip() for it in ("description", "x-remedy"))
        found[message] = Failure(message, f"{statuses[message][0]}", cause, remedy, example.get("x-made") == "open", "x-of-proxy" in example)
    return found


def denials(parts):
    """Returns the denials by their rules."""
    return {message.split()[0]: it for message, it in failures(parts).items() if re.match("[HP][0-9]", message)}


def table_of_denials(parts):
    found = denials(parts)
    if set(found) != set(ORDER):
        raise LookupError(f"no order has {set(found) ^ set(ORDER)}")
    rows = [(f"{it.status} `{it.message}`", it.cause, it.remedy) for it in map(found.get, ORDER)]
    return table(("denial", "cause", "remedy"), rows)


def made(is_open):
    return "open" if is_open else "not made"


def table_of_failures(parts):
    """Returns the table of the service's responses that are no denials."""
    rules = {it.message for it in denials(parts).values()}
    some = [it for it in failures(parts).values() if it.message not in rules and not it.is_of_proxy]
    rows = [(f"{it.status} `{it.message}`", it.cause, made(it.is_open), it.remedy) for it in some]
    return table(("response", "cause", "the change", "remedy"), rows)


def table_of_proxies(parts):
    """Returns the table of the proxies' responses, by their statuses."""
    rows = {}
    for it in (it for it in failures(parts).values() if it.is_of_proxy):
        rows.setdefault(it.status, (it.status, it.cause, it.remedy))
    return table(("status", "cause", "remedy"), rows.values())


def table_of_gateway(parts):
    rows = [(f"{it['status']}", it["cause"], made(it.get("x-made") == "open")) for it in parts["x-gateway"]]
    return table(("status", "cause", "the change"), rows)


def table_of_client(parts):
    """Returns the module of the client that has the messages."""
    lines = [f"    {json.dumps(it.message)}: ({it.status}, {it.is_open}),\n" for it in failures(parts).values()]
    return "".join([TABLE_OF_CLIENT, *lines, "}\n"])


def table_of_limits(parts, is_policy):
    """Returns the table of the limits beyond which a rule is broken, or of the others."""
    found, rows = denials(parts), []
    for limit in parts["x-limits"]:
        rule, beyond = limit["beyond"].split()[0], limit["beyond"]
        if (rule in found) == is_policy:
            value = value_of(at(parts, limit["schema"])) if "schema" in limit else limit["value"]
            failure = found.get(rule) or failures(parts).get(beyond)
            rows.append((limit["what"], value, f"{failure.status} `{beyond}`" if failure else beyond))
    return table(("limit of", "value", "beyond it"), rows)


def table_of_endpoints(parts):
    """Returns the table of the methods of each path, with the scopes of which a token needs one."""
    rows = []
    for path, item in parts["paths"].items():
        scopes = {}
        for method in (it for it in item if "operationId" in item[it]):
            scopes.setdefault(tuple(item[method]["x-scopes"]), []).append(method.upper())
        rows += [(f"`{path}`", ", ".join(f"`{it}`" for it in methods), ", ".join(f"`{it}`" for it in some)) for some, methods in scopes.items()]
    return table(("path", "methods", "scopes, of which a token needs one"), rows)


def form_of(schema, parts):
    """Describes the form of a member, without bounds."""
    if schema.get("$ref", "").split("/")[-1] in PARTS:
        return PARTS[schema["$ref"].split("/")[-1]]
    schema = resolved(schema, parts)
    if "enum" in schema:
        return ", ".join(f"`{it}`" for it in schema["enum"])
    if schema["type"] == "array":
        return f"list of {form_of(schema['items'], parts)}s"
    return {"integer": "whole number", "boolean": "truth value", "string": "UUID" if "pattern" in schema else "text"}[schema["type"]]


def table_of_bodies(parts):
    """Returns the table of the members of each body. Members that follow each other share a row if they are alike."""
    rows = []
    for name, body in BODIES.items():
        schema, last = at(parts, name), None
        for member, value in schema["properties"].items():
            form = form_of(value, parts), "required" if member in schema["required"] else "optional"
            if form == last:
                rows[-1][1] += f", `{member}`"
            else:
                rows.append([body if last is None else "", f"`{member}`", *form])
            last = form
    return table(("body", "member", "form", ""), rows)


def schema_in_sql(_parts):
    """Returns the statements that create the tables, a column or a constraint on a line."""
    found = [text for file in SQL for text in re.findall(r'"(CREATE (?:[^"\\]|\\\n)*)"', file.read_text())]
    # The index of format 1 is also one of format 2. Those of format 2 follow all tables.
    texts, lines = dict.fromkeys(re.sub(r"\\\n\s*", "", it) for it in found), []
    for text in sorted(texts, key=lambda it: it.startswith("CREATE INDEX")):
        head, body, end = re.fullmatch(r"(CREATE TABLE \w+) \((.*)\)( STRICT)?|CREATE INDEX .*", text).groups()
        items = re.findall(r"(?:[^,(]|\((?:[^()]|\([^()]*\))*\))+", body.strip()) if head else []
        lines += [f"{head} (", *(f"    {it.strip()}," for it in items[:-1]), f"    {items[-1].strip()}", f"){end};"] if head else [f"{text};"]
    return "\n".join(["```sql", *lines, "```"])


TABLES = {
    "docs/CLIENTS.md": {
        "failures": table_of_failures, "proxies": table_of_proxies, "limits": lambda it: table_of_limits(it, False), "denials": table_of_denials,
    },
    "gateway/README.md": {"responses": table_of_gateway},
    "docs/POLICY.md": {"endpoints": table_of_endpoints, "bodies": table_of_bodies, "limits": lambda it: table_of_limits(it, True)},
    "docs/DATABASE.md": {"schema": schema_in_sql},
}
# Files that are made whole.
WHOLE = {"clients/python/dss_client/responses.py": table_of_client}


def rewritten(name):
    """Returns the text of a file with its tables as they should be."""
    if name in WHOLE:
        return WHOLE[name](document())
    text, parts = (TOP / name).read_text(), document()
    for key, made in TABLES[name].items():
        before, begin, rest = text.partition(f"<!-- {key}: made by scripts/doc_tables.py -->\n")
        _, end, after = rest.partition("<!-- end -->")
        if not end:
            raise LookupError(f"{name} has no place for {key}")
        text = f"{before}{begin}\n{made(parts)}\n\n{end}{after}"
    return text


def main():
    for name in (*TABLES, *WHOLE):
        (TOP / name).write_text(rewritten(name))


if __name__ == "__main__":
    sys.exit("scripts/doc_tables.py takes no arguments" if sys.argv[1:] else main())
