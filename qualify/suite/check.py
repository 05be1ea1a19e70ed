"""The list of checks.

Each has a sentence, and the rules of docs/POLICY.md and the operations of the standard that it tests."""
import dataclasses


@dataclasses.dataclass(frozen=True)
class Check:
    name: str
    group: str
    sentence: str
    rules: tuple
    operations: tuple
    # 'profile' or 'standard', or None if both promise it.
    only: str
    body: object


CHECKS = []

# The names of the standard's operations.
WORKS = ("get", "create", "update", "delete")
INTENT = {it: f"{it}OperationalIntentReference" for it in WORKS} | {"query": "queryOperationalIntentReferences"}
CONSTRAINT = {it: f"{it}ConstraintReference" for it in WORKS} | {"query": "queryConstraintReferences"}
SUBSCRIPTION = {it: f"{it}Subscription" for it in WORKS} | {"query": "querySubscriptions"}
AVAILABILITY = {"get": "getUssAvailability", "set": "setUssAvailability"}


def check(sentence, rules, operations=(), only=None):
    """Adds a function of a trial to the list."""
    def take(body):
        group = body.__module__.rpartition(".")[2]
        CHECKS.append(Check(body.__name__, group, sentence, split(rules), tuple(operations), only, body))
        return body
    return take


def split(rules):
    return tuple(it.strip() for it in rules.split(",")) if isinstance(rules, str) else tuple(rules)
