"""The quotes of docs/READ_THE_PROOF.md are lines of the sources."""
import runpy

from program import TOP

SCRIPT = "scripts/quotes"
# The page has a quote for each of its stops, at least.
STOPS = 10


def current():
    """Each quote is lines of its file. Pages with another line in some quote, without one of its lines, or with one line more are
    rejected with their first wrong line, and so are pages with a long quote, a wrong link or a block of another kind."""
    made = runpy.run_path(str(TOP / SCRIPT))
    page, wrong_in = made["PAGE"].read_text(), made["wrong_in"]
    lines, blocks = page.splitlines(), made["blocks"](page)
    quotes = [it for it in blocks if made["LINK"].fullmatch(it.above)]
    found = wrong_in(page) + ([] if len(quotes) >= STOPS else [f"{len(quotes)} quotes were found in the page"])

    def with_lines(first, count, *others):
        return "\n".join([*lines[:first], *others, *lines[first + count :]]) + "\n"

    def rejected(what, text, *told):
        why = wrong_in(text)
        return [] if len(why) == 1 and all(it in why[0] for it in told) else [f"{what}: {why}"]

    for quote in quotes:
        first, count = quote.number - 1, len(quote.lines)
        file = made["LINK"].fullmatch(quote.above)[1]
        for at, line in enumerate(quote.lines):
            other, place = f"{line}.", f"quoted as line {quote.number + at}: "
            found += rejected(f"another line in a quote of {file}", with_lines(first + at, 1, other), file, place, repr(other))
            if 0 < at < count - 1:
                found += rejected(f"a quote of {file} without a line", with_lines(first + at, 1), file)
            # One line has more blanks before it than the others.
            if line and count > 1:
                found += rejected(f"a moved line in a quote of {file}", with_lines(first + at, 1, f" {line}"), file)
        # A quote may have less indentation than its file, and never more.
        moved = [f"{' ' * 40}{it}" if it else it for it in quote.lines]
        found += rejected(f"a moved quote of {file}", with_lines(first, count, *moved), file)
    file = made["LINK"].fullmatch(quotes[0].above)[1]
    long, most = (TOP / file).read_text().splitlines(), made["MOST"]
    first, count = quotes[0].number - 1, len(quotes[0].lines)
    above = max(at for at, line in enumerate(lines[:first]) if line == quotes[0].above)
    found += [f"rejected: {it}" for it in wrong_in(with_lines(first, count, *long[:most]))]
    found += rejected("a long quote", with_lines(first, count, *long[: most + 1]), file, str(most + 1))
    found += rejected("an empty quote", with_lines(first, count), file)
    found += rejected("a link to no file", with_lines(above, 1, f"[{file}](../{file}.no)"), f"{file}.no")
    found += rejected("a link by another name", with_lines(above, 1, f"[README.md](../{file})"), file)
    found += rejected("a quote without a link", with_lines(above, 1, "As defined:"), "under no link")
    found += rejected("a block without an end", f"{page}\n```\n$ rt\n", "no end")
    return found


CASES = {"quotes-in-docs": current}
