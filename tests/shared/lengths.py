"""Lengths of cases: short in each run of tests/end_to_end, longer with its option --long."""
import sys


def of(short, long):
    return long if "--long" in sys.argv else short
