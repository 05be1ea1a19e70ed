"""The checks, group by group, in the order in which they run."""
from suite.checks import availability, bodies, callers, connections, constraints, intents, keys, repeats, subscriptions

GROUPS = (intents, keys, constraints, subscriptions, availability, callers, repeats, bodies, connections)
