"""Times that a busy machine may also exceed.

A case whose only fault is such a time is run again."""

TIMES = 4


class Late(str):
    """What is wrong with a time."""


def exceeded(took, most, what):
    """Returns what is wrong if something took longer than that, in seconds."""
    return [] if took <= most else [Late(f"{what}: {took:.1f} s, which is more than {most}")]


def again(case, times=TIMES):
    """Returns a case that is run again while it finds nothing wrong but times, at most so often."""

    def run():
        for _ in range(times):
            found = case()
            if not found or not all(isinstance(it, Late) for it in found):
                break
            print(f"a time was exceeded: {found}")
        return found

    return run
