"""Two USSs whose flights conflict, as a text of SVG: who asks whom, and what comes back.

The answers of the service are looked up in examples/meeting.answers, of the first three requests of that example. Where their statuses
are not those that are drawn, nothing is drawn."""
import html
import pathlib
import re

TOP = pathlib.Path(__file__).resolve().parent.parent
# the lines from left to right: whose each is, and what it is below that
WHO = [("USS A", "flies at nine"), ("dss", "knows who plans where and when"), ("USS B", "plans to fly there, too")]
A, DSS, B = range(3)
# each from whom, to whom, and what is said; what the service answers begins with its status
SAID = [
    (A, DSS, "my flight a1: these cells, altitudes, times"),
    (DSS, A, "201: stored. Its OVN is 0c8b.."),
    (B, DSS, "my flight b1: the same place and time"),
    (DSS, B, "409: you must know the flight a1 of A"),
    (B, A, "what do you fly there? (not through dss)"),
    (A, B, "the flight's details, and its OVN 0c8b.."),
    (B, DSS, "b1, planned around a1, with the key 0c8b.."),
    (DSS, B, "201: stored. Its OVN is da59.."),
]
# the distance of lines, of rows, the margins, and the boxes above
LANE, ROW, MARGIN, TOP_BOX, WIDE_BOX = 330, 40, 140, 52, 250


def looked_up():
    """The statuses and the OVNs of the first three answers of the example."""
    answers = (TOP / "examples" / "meeting.answers").read_text().split("HTTP/1.1 ")[1:4]
    return [(it[:3], (re.search(r'"ovn":"(\w{4})', it) or [None, None])[1]) for it in answers]


def check():
    """Looks that the service answers so."""
    drawn = [(text[:3], (re.search(r"OVN is (\w{4})", text) or [None, None])[1]) for who, _, text in SAID if who == DSS]
    if drawn != looked_up():
        raise ValueError(f"drawn is {drawn}, and the example has {looked_up()}")


def picture():
    """The text of the picture."""
    check()
    wide, high = MARGIN * 2 + LANE * 2, 32 + TOP_BOX + ROW * (len(SAID) + 1)
    x = [MARGIN + LANE * at for at in range(len(WHO))]
    lines = [
        f'<svg xmlns="http://www.w3.org/2000/svg" width="{wide}" height="{high}" font-family="sans-serif" font-size="13">',
        '<defs><marker id="tip" viewBox="0 0 8 8" refX="8" refY="4" markerWidth="8" markerHeight="8" orient="auto">'
        '<path d="M0 0L8 4L0 8z" fill="#2b5c8a"/></marker></defs>',
        f'<rect width="{wide}" height="{high}" fill="white"/>',
    ]
    for at, (name, what) in enumerate(WHO):
        fill = "#2b5c8a" if at == DSS else "#e6eef6"
        ink = "white" if at == DSS else "black"
        lines += [f'<line x1="{x[at]}" y1="{16 + TOP_BOX}" x2="{x[at]}" y2="{high - 12}" stroke="#9aa7b4" stroke-dasharray="3 4"/>']
        lines += [f'<rect x="{x[at] - WIDE_BOX // 2}" y="16" width="{WIDE_BOX}" height="{TOP_BOX}" rx="6" fill="{fill}" stroke="#2b5c8a"/>']
        lines += [f'<text x="{x[at]}" y="38" text-anchor="middle" font-size="15" font-weight="bold" fill="{ink}">{name}</text>']
        lines += [f'<text x="{x[at]}" y="57" text-anchor="middle" font-size="11" fill="{ink}">{what}</text>']
    for at, (sender, taker, text) in enumerate(SAID):
        y = 32 + TOP_BOX + ROW * at + ROW // 2 + 8
        way = 1 if taker > sender else -1
        dash = ' stroke-dasharray="7 4"' if DSS not in (sender, taker) else ""
        weight = ' font-weight="bold"' if text[:3] in ("201", "409") else ""
        ink = "#a5331f" if text.startswith("409") else "black"
        lines += [
            f'<line x1="{x[sender]}" y1="{y}" x2="{x[taker] - 3 * way}" y2="{y}" stroke="#2b5c8a"{dash} marker-end="url(#tip)"/>',
            f'<text x="{(x[sender] + x[taker]) / 2:.0f}" y="{y - 6}" text-anchor="middle" fill="{ink}"{weight} '
            f'stroke="white" stroke-width="4" paint-order="stroke">{html.escape(text, quote=False)}</text>',
        ]
    return "\n".join([*lines, "</svg>", ""])
