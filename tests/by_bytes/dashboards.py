"""Checks the files in deploy/ for Prometheus and Grafana.

They parse, the service has each metric and label in them, each metric is shown, and each alert fires if it should
and only then.

If Debian's package prometheus is installed, its promtool parses each expression and tests the alerts. Otherwise a
check of names, signs and brackets replaces it."""
import json
import pathlib
import re
import shutil
import subprocess
import tempfile

import yaml

import wire
from admin_port import METRICS, AdminService
from program import SECONDS, TOP
from sockets import ASKED, CLOSING, difference

DEPLOY = TOP / "deploy"
BOARD, RULES, SCRAPE = (DEPLOY / it for it in ("grafana.json", "prometheus-rules.yaml", "prometheus.yaml"))
# The metrics that the backup unit writes, and that have no label.
OF_UNITS = {*re.findall(r"# TYPE (\w+) gauge", (DEPLOY / "dss-backup.service").read_text())}
# Labels that Prometheus or Grafana adds.
GIVEN = {"job", "instance", "le"}
SIGNS = re.compile(r'\s+|"[^"]*"|\d+(?:\.\d+)?[smhd]?\b|[\w:]+|[-+*/%^(){}\[\],]|=~|!~|==|!=|>=|<=|[=<>]')
FUNCTIONS = {
    "absent", "and", "by", "changes", "histogram_quantile", "increase", "label_values", "max", "min", "on", "or", "rate", "sum", "time",
}
MINUTES = 40
# For each alert: the series that fire it, and those that do not, in promtool's notation.
ALERTS = {
    "DssDown": ({'up{job="dss"}': "0x40"}, {'up{job="dss"}': "1x40"}),
    "DssStopped": (
        {'dss_health{state="serving"}': "1x20 0x20", 'dss_health{state="stopped"}': "0x20 1x20"},
        {'dss_health{state="serving"}': "1x40", 'dss_health{state="stopped"}': "0x40"},
    ),
    "DssStoreFailing": ({'dss_health{state="failing"}': "0x20 1x20", "dss_store_failures_total": "0x20 1x20"},
                        {'dss_health{state="failing"}': "1x20 0x20", "dss_store_failures_total": "1x40"}),
    "DssMemoryFailing": ({"dss_memory_failures_total": "0x30 1x10"}, {"dss_memory_failures_total": "1x40"}),
    "DssClockFailing": ({"dss_clock_failures_total": "0x30 1x10"}, {"dss_clock_failures_total": "1x40"}),
    "DssFails": (
        {'dss_uss_requests_total{uss="uss-a",outcome="failed"}': "1x33 2x7"},
        {'dss_uss_requests_total{uss="uss-a",outcome="failed"}': "3x40", 'dss_uss_requests_total{uss="uss-a",outcome="denied"}': "0+9x40"},
    ),
    "DssSlow": (
        {f'dss_request_duration_seconds_bucket{{le="{bound}"}}': f"0+{count}x40" for bound, count in (("0.25", 90), ("2.5", 100), ("+Inf", 100))},
        {f'dss_request_duration_seconds_bucket{{le="{bound}"}}': "0+100x40" for bound in ("0.25", "2.5", "+Inf")},
    ),
    "DssManyDenials": ({'dss_requests_denied_total{rule="P4"}': "0+600x40"}, {'dss_requests_denied_total{rule="P4"}': "0+60x40"}),
    "DssMirrorDown": ({"dss_mirror_up": "0x40"}, {"dss_mirror_up": "1x40"}),
    "DssTokensRejected": ({"dss_tokens_valid": "1x5 0x35"}, {"dss_tokens_valid": "0x20 1x20"}),
    "DssPurgeHeld": ({"dss_purge_held": "0x5 1x35"}, {"dss_purge_held": "1x20 0x20"}),
    "DssLogLinesDropped": ({"dss_log_lines_dropped_total": "0x35 9x5"}, {"dss_log_lines_dropped_total": "9x40"}),
    "DssNearConnectionLimit": ({"dss_connections_open": "901x40"}, {"dss_connections_open": "900x40"}),
    "DssPurgeFailing": ({"dss_purge_failures_total": "0x34 1+1x5"}, {"dss_purge_failures_total": "0x34 1x5"}),
    "DssRestarting": ({"dss_start_time_seconds": "1x28 2x3 3x3 4x6"}, {"dss_start_time_seconds": "1x30 2x10"}),
    # The tests of promtool begin at the time 0.
    "DssBackupOld": ({"dss_backup_last_success_seconds": "-127201x40"}, {"dss_backup_last_success_seconds": "-127199x40"}),
}
# More series that fire DssFails: requests of no USS that fail, and failures of a USS, which fire it once.
FAILED = 'dss_requests_total{operation="create_intent",status="500"}'
MORE_FAILS = ({FAILED: "1x33 2x7"}, {FAILED: "0x33 2x7", **ALERTS["DssFails"][0]})
# The part of a summary that names the USS, if there is one.
OF_USS = "{{ with $labels.uss }} of {{ . }}{{ end }}"


def alerts():
    return [rule for group in yaml.safe_load(RULES.read_text())["groups"] for rule in group["rules"]]


def expressions():
    """Returns each expression of the files, with its location."""
    board = json.loads(BOARD.read_text())
    shown = [(panel["title"], target["expr"]) for panel in board["panels"] for target in panel["targets"]]
    shown += [(it["name"], it["expr"]) for it in board["annotations"]["list"]]
    shown += [(it["name"], it["definition"]) for it in board["templating"]["list"] if "definition" in it]
    return shown, [(it["alert"], it["expr"]) for it in alerts()]


def told():
    """Returns the metrics page of a service that has answered, and the types and labels of metrics by their names."""
    with AdminService() as started:
        started.exchange(ASKED + CLOSING, ends=False)
        started.exchange(wire.request("GET", wire.AVAILABILITY, None, fields=["Connection: close"]), ends=False)
        text = started.asked(METRICS).partition(b"\r\n\r\n")[2].decode()
    kinds = dict(re.findall(r"^# TYPE (\S+) (\S+)$", text, re.M))
    names = {base + end: base for base, kind in kinds.items() for end in ENDS.get(kind, [""])}
    labels = {it: set() for it in kinds}
    for name, inside in re.findall(r"^(\w+)(?:\{(.*)\})? \S+$", text, re.M):
        labels[names.get(name, name)] |= set(re.findall(r'(\w+)="', inside))
    return text, names, labels


ENDS = {"histogram": ["_bucket", "_sum", "_count"]}


def labels_in(expression):
    """Returns the labels that an expression matches or groups by."""
    chosen = re.findall(r"(\w+)\s*(?:=~|!~|!=|=)", " ".join(re.findall(r"\{([^}]*)\}", expression)))
    return set(chosen) | set(re.findall(r"\w+", " ".join(re.findall(r"\bby\s*\(([^)]*)\)", expression))))


def unread(expression):
    """Returns the faults that a check of an expression's signs finds."""
    text, depth = expression.replace("$__rate_interval", "5m"), []
    for sign in re.split(f"({SIGNS.pattern})", text):
        if sign and not SIGNS.fullmatch(sign):
            return [f"{sign!r} in {expression}"]
        if sign in ("(", "[", "{"):
            depth.append({"(": ")", "[": "]", "{": "}"}[sign])
        elif sign in (")", "]", "}") and (not depth or depth.pop() != sign):
            return [f"a bracket in {expression}"]
    called = set(re.findall(r"\b([a-z]\w*)\s*\(", text)) - FUNCTIONS
    return ([f"an open bracket in {expression}"] if depth else []) + [f"no such function: {it}" for it in sorted(called)]


def names():
    """The service has each metric and label in the files, and each metric is shown."""
    text, figures, labels = told()
    figures |= {it: it for it in OF_UNITS}
    labels |= {it: set() for it in OF_UNITS}
    shown, watched = expressions()
    found, seen = [], set()
    for place, expression in shown + watched:
        named = set(re.findall(r"\b(?:dss|process)_\w+", re.sub(r'"[^"]*"', "", expression)))
        unknown = sorted(named - set(figures))
        found += [f"{place}: the service has no metric {it}" for it in unknown] + [f"{place}: {it}" for it in unread(expression)]
        of_these = GIVEN.union(*(labels[figures[it]] for it in named - set(unknown)))
        found += [f"{place}: no such label: {it}" for it in sorted(labels_in(expression) - of_these)] if not unknown else []
        seen |= {figures.get(it) for it in named} if (place, expression) in shown else set()
    found += [f"{it} is in no panel" for it in sorted(set(labels) - seen)]
    document = (TOP / "docs" / "OPERATE.md").read_text()
    found += [f"docs/OPERATE.md has no {it}" for it in sorted(labels) if not re.search(rf"`{it}\b", document)]
    return found + promtool(["check", "metrics"], text)


def promtool(words, given=None):
    """Returns promtool's faults for a file, if promtool is installed."""
    if not shutil.which("promtool"):
        print("promtool is missing, so expressions are checked less: install the package prometheus")
        return []
    done = subprocess.run(["promtool", *words], input=given, capture_output=True, text=True, timeout=SECONDS)
    return [f"promtool {words}: {done.stdout}{done.stderr}"] if done.returncode else []


def reads():
    """Prometheus parses its files, and each expression in a panel."""
    shown, _ = expressions()
    found = promtool(["check", "config", str(SCRAPE)]) + promtool(["check", "rules", str(RULES)])
    asked = [re.sub(r"\$\w+", ".*", it.replace("$__rate_interval", "5m")) for _, it in shown if not it.startswith("label_values")]
    with tempfile.TemporaryDirectory() as room:
        rules = [{"record": f"shown:{at}", "expr": it} for at, it in enumerate(asked)]
        file = pathlib.Path(room, "shown.yaml")
        file.write_text(yaml.safe_dump({"groups": [{"name": "shown", "rules": rules}]}))
        return found + promtool(["check", "rules", str(file)])


def comes(name, series, is_there):
    """Returns a promtool test of whether an alert fires at the end of series."""
    given = [{"series": it if "{" in it and "instance" in it else with_instance(it), "values": values} for it, values in series.items()]
    asked = {"eval_time": f"{MINUTES}m", "alertname": name}
    labels = {it.split("=")[0]: it.split("=")[1].strip('"') for it in re.findall(r'(?:rule|job|uss)="[\w-]+"', "".join(series))}
    alert = next(it for it in alerts() if it["alert"] == name)
    kept = labels if "by (" not in alert["expr"] or {"rule", "uss"} & set(labels) else {}
    place = {} if "max(" in alert["expr"] else {"instance": "here"}
    summary = alert["annotations"]["summary"].replace("{{ $labels.rule }}", labels.get("rule", ""))
    words = {"summary": summary.replace(OF_USS, f" of {labels['uss']}" if "uss" in labels else "")}
    asked["exp_alerts"] = [{"exp_labels": {**alert["labels"], **kept, **place}, "exp_annotations": words}] if is_there else []
    return {"interval": "1m", "input_series": given, "alert_rule_test": [asked]}


def with_instance(series):
    name, _, inside = series.rstrip("}").partition("{")
    return f'{name}{{{",".join(filter(None, [inside, "instance=" + chr(34) + "here" + chr(34)]))}}}'


def come():
    """Each alert fires for its series, and for no others."""
    found = difference("alerts", sorted(it["alert"] for it in alerts()), sorted(ALERTS))
    tests = [comes(name, ALERTS[name][at], not at) for name in ALERTS for at in range(2)]
    tests += [comes("DssFails", series, True) for series in MORE_FAILS]
    with tempfile.TemporaryDirectory() as room:
        file = pathlib.Path(room, "tests.yaml")
        file.write_text(yaml.safe_dump({"rule_files": [str(RULES)], "evaluation_interval": "1m", "tests": tests}))
        return found + promtool(["test", "rules", str(file)])


CASES = {"metrics-in-dashboards": names, "expressions-are-read": reads, "alerts-fire": come}
