"""Seeds of drawn cases: a few fixed ones, and new ones in each run.

The new seeds of a run follow from one number, which tests/end_to_end prints when a case fails and takes as --seed."""
import os
import random

VARIABLE = "DSS_TEST_SEED"
# New seeds are above all fixed ones.
MIN, BEYOND = 1_000_000, 2**48


def base():
    """Returns the number from which the new seeds of this run follow."""
    if VARIABLE not in os.environ:
        os.environ[VARIABLE] = f"{random.SystemRandom().randrange(BEYOND)}"
    return int(os.environ[VARIABLE])


def new(name, count):
    """Returns new seeds for the case of this name."""
    draw = random.Random(f"{base()} {name}")
    return [draw.randrange(MIN, BEYOND) for _ in range(count)]
