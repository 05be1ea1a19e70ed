"""Each input of the fuzzing corpus ends with a documented status, and prints what is documented for it."""
import fuzz_targets
from program import BUILT


def corpus():
    found = []
    for name, target in fuzz_targets.TARGETS.items():
        for input_name, given in fuzz_targets.inputs(name).items():
            why = fuzz_targets.why_undocumented(target, given, BUILT)
            found += [f"{name}/{input_name}: {why}"] if why else []
    return found


CASES = {"fuzz-corpus": corpus}
