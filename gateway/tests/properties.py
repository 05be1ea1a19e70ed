"""Properties of the translation over drawn bodies, by a seed: `gateway translate` reads and writes lines."""
import datetime
import decimal
import json
import math
import random
import subprocess

import shapes
from world import circle, extent, intent

OUTLINES, BENT, NUMBERS, TIMES, BODIES = 20_000, 150, 4_000, 4_000, 4_000


def translate(program, lines):
    """Returns the translation of each line, a kind and a body."""
    text = "".join(f"{what} {body if isinstance(body, str) else json.dumps(body)}\n" for what, body in lines)
    done = subprocess.run([program, "translate", "--now", "1000"], input=text, capture_output=True, text=True)
    assert done.returncode == 0, f"the gateway ended with {done.returncode}: {done.stderr[-2000:]}"
    answers = [json.loads(it) for it in done.stdout.splitlines()]
    assert len(answers) == len(lines), f"{len(answers)} answers to {len(lines)} lines"
    return answers


def query(volume):
    return "query", {"area_of_interest": {"volume": volume}}


def cells_of(answer):
    assert "area_of_interest" in answer, answer
    return answer["area_of_interest"]["cells"]


def check_limits(tokens):
    assert 1 <= len(tokens) <= 512 and len(set(tokens)) == len(tokens), tokens
    assert all(shapes.level(it) <= 13 for it in tokens), tokens
    assert sum(4 ** (13 - shapes.level(it)) for it in tokens) <= 16_384


def points_inside_are_covered(program, count=OUTLINES):
    """Points inside outlines, and on their edges, are in a cell. Two outlines around one point meet."""
    draw = random.Random(1)
    drawn = []
    for number in range(count // 2):
        center = shapes.draw_center(draw)
        corners = 1000 if number % 500 == 0 else None
        drawn += [shapes.draw_outline(draw, center, corners=corners), shapes.draw_outline(draw, center)]
    answers = translate(program, [query(volume) for volume, _ in drawn])
    before = None
    for number, ((volume, inside), answer) in enumerate(zip(drawn, answers)):
        tokens = cells_of(answer)
        check_limits(tokens)
        held = shapes.Held(tokens)
        for point in inside:
            assert held.has(point), f"outline {number}: {point} lies in no cell of {json.dumps(volume)[:400]}"
        assert number % 2 == 0 or held.meets(before), f"outlines {number - 1} and {number} share a point and do not meet"
        before = held


def edges_bend(program, count=BENT):
    """Edges of 100 km beside lines between cells are covered as WGS84 defines them."""
    draw = random.Random(2)
    drawn = [shapes.draw_bent(draw) for _ in range(count)]
    for (volume, points), answer in zip(drawn, translate(program, [query(volume) for volume, _ in drawn])):
        tokens = cells_of(answer)
        check_limits(tokens)
        held = shapes.Held(tokens)
        for point in points:
            assert held.has(point), f"{point} lies in no cell of {json.dumps(volume)}"


def draw_strip(draw):
    """Draws a triangle of up to 900 km that is a strip, and points of its edges."""
    first, turn, length = shapes.draw_center(draw), draw.uniform(0, 360), draw.uniform(100_000, 900_000)
    ring = [first, shapes.away(first, turn, length), shapes.away(first, turn + draw.uniform(0.0001, 0.2), length)]
    inside = [shapes.between(ring[k], ring[(k + 1) % 3], part) for k in range(3) for part in (0.1, 0.3, 0.5, 0.8)]
    return {"outline_polygon": {"vertices": [{"lat": lat, "lng": lng} for lat, lng in ring]}}, inside


def large_outlines(program, count=60):
    """Outlines of up to 140 km across and strips of 900 km are covered, coarser if they must be."""
    draw = random.Random(3)
    drawn = [shapes.draw_outline(draw, shapes.draw_center(draw), 70_000) for _ in range(count)]
    drawn += [shapes.draw_outline(draw, shapes.draw_center(draw), 60_000, corners=1000) for _ in range(3)]
    drawn += [draw_strip(draw) for _ in range(count)]
    covered = 0
    for (volume, inside), answer in zip(drawn, translate(program, [query(volume) for volume, _ in drawn])):
        if answer.get("status") == 413:
            continue
        covered += 1
        check_limits(cells_of(answer))
        assert all(shapes.Held(cells_of(answer)).has(it) for it in inside), volume
    assert covered > count


def winding_and_first_corner_do_not_matter(program, count=300):
    draw = random.Random(4)
    lines = []
    for _ in range(count):
        volume, _ = shapes.draw_outline(draw, shapes.draw_center(draw), 20_000, corners=draw.randint(3, 9))
        ring = volume["outline_polygon"]["vertices"]
        ring = ring[:-1] if ring[0] == ring[-1] else ring
        turned = ring[1:] + ring[:1]
        lines += [query({"outline_polygon": {"vertices": it}}) for it in (ring, turned, ring[::-1], [*ring, ring[0]])]
    answers = [set(cells_of(it)) for it in translate(program, lines)]
    for k in range(0, len(answers), 4):
        assert answers[k] == answers[k + 1] == answers[k + 2] == answers[k + 3], lines[k]


def a_larger_circle_holds_the_smaller(program, count=300):
    draw = random.Random(5)
    lines = []
    for _ in range(count):
        center, radius = shapes.draw_center(draw), 10 ** draw.uniform(0, 4)
        lines += [query(circle(*center, radius)), query(circle(*center, radius * draw.uniform(1, 1.5)))]
    answers = translate(program, lines)
    for small, large in zip(answers[::2], answers[1::2]):
        held = shapes.Held(cells_of(large))
        assert all(any(lo <= a and b <= hi for lo, hi in held.spans) for a, b in shapes.Held(cells_of(small)).spans)


def draw_number(draw):
    return draw.choice([
        lambda: f"{draw.uniform(-9999, 99999):.{draw.randint(0, 20)}f}",
        lambda: f"{draw.randint(-9999, 99999)}",
        lambda: f"{draw.uniform(-9, 9):.{draw.randint(0, 9)}f}{draw.choice('eE')}{draw.choice(['', '+', '-'])}{draw.randint(0, 3)}",
        lambda: f"{draw.choice(['', '-'])}0.{'0' * draw.randint(0, 30)}{draw.randint(1, 9)}",
        lambda: f"{draw.randint(-999, 9999)}.{draw.randint(0, 9)}{'0' * draw.randint(0, 30)}{draw.choice(['', '1'])}",
        lambda: f"{draw.randint(1, 99)}e-{draw.choice([1, 2, 400, 99999999999999999999])}",
        lambda: f"0e{draw.choice(['', '-'])}99999999999999999999",
    ])()


def altitudes_are_rounded_outwards(program, count=NUMBERS):
    draw = random.Random(6)
    texts = [draw_number(draw) for _ in range(count)]
    volume = json.dumps(circle(1, 1, 5))[1:-1]
    bound = '"%s":{"value":%s,"reference":"W84","units":"M"}'
    lines = [
        ("query", '{"area_of_interest":{"volume":{%s,%s,%s}}}' % (volume, bound % ("altitude_lower", it), bound % ("altitude_upper", it)))
        for it in texts]
    # As wide as an exponent is: its texts are evaluated by hand, so that nothing is multiplied out.
    for text, answer in zip(texts, translate(program, lines)):
        mantissa, _, exponent = text.lower().partition("e")
        if exponent and abs(int(exponent)) > 300:
            low, high = (0, 0) if decimal.Decimal(mantissa) == 0 else (0, 1)
        else:
            with decimal.localcontext() as context:
                context.prec = 100
                tenfold = decimal.Decimal(text) * 10
                low, high = math.floor(tenfold), math.ceil(tenfold)
        it = answer.get("area_of_interest")
        if not -100_000 <= low <= high <= 1_000_000:
            assert answer.get("status") == 400, (text, answer)
        else:
            assert it and (it["altitude_lower"], it["altitude_upper"]) == (low, high), (text, answer)


def times_are_rounded_outwards(program, count=TIMES):
    draw = random.Random(7)
    lines, wanted = [], []
    for _ in range(count):
        second = draw.choice([draw.randint(-10**9, 4 * 10**9), draw.randint(0, 253402300799), draw.randint(0, 10**6)])
        minutes = draw.choice([0, draw.randint(-1439, 1439)])
        fraction = draw.choice(["", "." + "".join(draw.choice("0001239") for _ in range(draw.randint(1, 25)))])
        shown = datetime.datetime(1970, 1, 1) + datetime.timedelta(seconds=second)
        with_offset = second + minutes * 60
        if not -62135596800 <= with_offset <= 253402300799:
            minutes, with_offset = 0, second
        shown = datetime.datetime(1970, 1, 1) + datetime.timedelta(seconds=with_offset)
        zone = draw.choice("Zz") if minutes == 0 else f"{'-' if minutes < 0 else '+'}{abs(minutes) // 60:02}:{abs(minutes) % 60:02}"
        text = f"{shown:%m-%d}{draw.choice('Tt')}{shown:%H:%M:%S}{fraction}{zone}"
        text = f"{shown.year:04}-{text}"
        time = {"value": text, "format": "RFC3339"}
        lines.append(("query", {"area_of_interest": {"volume": circle(1, 1, 5), "time_start": time, "time_end": time}}))
        up = second + any(it in "123456789" for it in fraction)
        wanted.append((text, min(max(second, 0), 253402300799), min(max(up, 0), 253402300799)))
    for (text, low, high), answer in zip(wanted, translate(program, lines)):
        it = answer.get("area_of_interest")
        assert it and (it["time_start"], it["time_end"]) == (low, high), (text, answer)


def times_of_answers_read_again_are_the_same(program, count=1000):
    draw = random.Random(8)
    seconds = [draw.randint(0, 253402300799) for _ in range(count)] + [0, 253402300799]
    told = translate(program, [("answer", {"operational_intent_reference": {"time_start": it, "time_end": it}}) for it in seconds])
    lines = []
    for it in told:
        reference = it["operational_intent_reference"]
        lines.append(("query", {"area_of_interest": {"volume": circle(1, 1, 5), **reference}}))
    for second, answer in zip(seconds, translate(program, lines)):
        assert answer["area_of_interest"]["time_start"] == answer["area_of_interest"]["time_end"] == second


def volumes_of_puts(program, count=120):
    """Volumes stay separate up to 32, and are merged without loss beyond. The subscription over them contains them all."""
    draw = random.Random(9)
    lines, drawn = [], []
    for _ in range(count):
        center = shapes.draw_center(draw)
        number, places, extents = draw.choice([1, 2, 5, 32, 33, 60]), [], []
        for k in range(number):
            volume, inside = shapes.draw_outline(draw, away_from(draw, center), 2_000)
            lower = draw.choice([0, 50.25]) if number > 32 else draw.uniform(0, 100)
            extents.append(extent(volume, lower, lower + 10, 1000 + k % 3, 2000))
            places.append((inside, math.floor(lower * 10), math.ceil((lower + 10) * 10), 1000 + k % 3))
        lines.append(("intent", intent(*extents, new_subscription={"uss_base_url": "https://a"})))
        drawn.append(places)
    puts, hulls = translate(program, lines), translate(program, [("new_subscription", body) for _, body in lines])
    for places, put, hull in zip(drawn, puts, hulls):
        volumes = put["extents"]
        assert len(volumes) == len(places) if len(places) <= 32 else len(volumes) <= 32
        assert sum(len(it["cells"]) for it in volumes) <= 2048 and all(len(it["cells"]) <= 512 for it in volumes)
        held = [(shapes.Held(it["cells"]), it) for it in volumes]
        over = hull["extents"]
        check_limits(over["cells"])
        all_held = shapes.Held(over["cells"])
        for inside, lower, upper, start in places:
            for point in inside:
                assert any(
                    cells.has(point) and it["altitude_lower"] <= lower and it["altitude_upper"] >= upper and it["time_start"] <= start
                    for cells, it in held), (point, lower, put)
                assert all_held.has(point)
            assert over["altitude_lower"] <= lower and over["altitude_upper"] >= upper and over["time_start"] <= start


def away_from(draw, center):
    return shapes.away(center, draw.uniform(0, 360), draw.uniform(0, 10_000))


WORDS = ["extents", "volume", "outline_polygon", "outline_circle", "vertices", "lat", "lng", "center", "radius", "value", "units", "reference",
         "altitude_lower", "altitude_upper", "time_start", "time_end", "format", "key", "state", "uss_base_url", "area_of_interest",
         "new_subscription", "subscription_id", "notify_for_constraints", "availability", "old_version"]
LEAVES = ["null", "true", "-0", "0", "1.5", "-1e9", "1e999999999", "99999999999999999999", '""', '"M"', '"W84"', '"RFC3339"', '"\\u0000"',
          '"\\ud83d\\ude00"', '"2026-01-01T00:00:00Z"', "[]", "{}", "[[]]", "NaN", '"Accepted"', '"https://a"']


def draw_json(draw, depth=0):
    if depth > 5 or draw.random() < 0.3:
        return draw.choice(LEAVES)
    if draw.random() < 0.3:
        return "[" + ",".join(draw_json(draw, depth + 1) for _ in range(draw.randint(0, 4))) + "]"
    return "{" + ",".join(f'"{draw.choice(WORDS)}":{draw_json(draw, depth + 1)}' for _ in range(draw.randint(0, 6))) + "}"


def mutate(draw, text):
    """Returns a body in which a value is replaced, or some bytes are."""
    if draw.random() < 0.5:
        at = draw.randrange(len(text))
        return text[:at] + draw.choice(['"', "{", "}", "[", "]", ",", ":", "9", "-", "e", ".", "\\", "\x01", "é"]) + text[at + draw.randint(0, 3):]
    places = [k for k, it in enumerate(text) if it == ":"]
    at = draw.choice(places) + 1
    end = min((k for k in (text.find(it, at) for it in ",}]") if k > 0), default=len(text))
    return text[:at] + draw_json(draw, 4) + text[end:]


def any_body_is_answered(program, count=BODIES):
    """Any body gets a translation, or a rejection with a message."""
    draw = random.Random(10)
    kinds = ["query", "intent", "constraint", "subscription", "availability", "new_subscription", "answer"]
    base = json.dumps(intent(extent(circle(1, 1, 5)), key=["0123456789abcdef"], new_subscription={"uss_base_url": "https://a"}))
    lines = [(draw.choice(kinds), draw_json(draw)) for _ in range(count // 2)]
    lines += [(draw.choice(kinds[1:3]), mutate(draw, base)) for _ in range(count // 2)]
    lines = [(what, body.replace("\n", " ")) for what, body in lines]
    for line, answer in zip(lines, translate(program, lines)):
        if "status" in answer and isinstance(answer["status"], int) and line[0] != "answer":
            assert answer["status"] in (400, 413) and answer["message"], (line, answer)


ALL = [
    points_inside_are_covered, edges_bend, large_outlines, winding_and_first_corner_do_not_matter, a_larger_circle_holds_the_smaller,
    altitudes_are_rounded_outwards, times_are_rounded_outwards, times_of_answers_read_again_are_the_same, volumes_of_puts, any_body_is_answered]
