"""Drawn outlines with points inside them, by WGS84's own geodesics (GeographicLib), and cells by their numbers.

Points are inside by construction: on the line from an outline's centre to a point of its edge. So no second geometry
decides what is inside. S2 gives only the number of a point's cell."""
import bisect
import math

import pywraps2 as s2
from geographiclib.geodesic import Geodesic

EARTH = Geodesic.WGS84


def degrees(lng):
    return (lng + 180) % 360 - 180


def away(point, azimuth, distance):
    to = EARTH.Direct(*point, azimuth, distance, EARTH.LATITUDE | EARTH.LONGITUDE)
    return to["lat2"], degrees(to["lon2"])


def between(a, b, part):
    line = EARTH.InverseLine(*a, *b, EARTH.LATITUDE | EARTH.LONGITUDE | EARTH.DISTANCE_IN)
    to = line.Position(line.s13 * part, EARTH.LATITUDE | EARTH.LONGITUDE)
    return to["lat2"], degrees(to["lon2"])


def draw_center(random):
    return random.choice([
        lambda: (math.degrees(math.asin(random.uniform(-1, 1))), random.uniform(-180, 180)),
        lambda: (random.uniform(-60, 60), degrees(180 + random.uniform(-1e-3, 1e-3))),  # at the antimeridian
        lambda: (random.choice((1, -1)) * (90 - 10 ** random.uniform(-7, -1)), random.uniform(-180, 180)),  # at a pole
        lambda: (random.uniform(-1e-4, 1e-4), random.choice((0, 45, 90, -135)) + random.uniform(-1e-4, 1e-4)),  # cells of many levels
        lambda: (math.degrees(math.atan(math.sqrt(0.5))) + random.uniform(-1e-4, 1e-4), 45 + random.uniform(-1e-4, 1e-4)),  # three faces
    ])()


def draw_outline(random, center, largest=40_000, corners=None):
    """Draws an outline around a point, and points inside it."""
    # Many corners are far enough from each other to be accepted.
    size = math.exp(random.uniform(math.log(100) if corners and corners > 100 else 0, math.log(largest)))
    if corners is None and random.random() < 0.3:
        inside = [center] + [away(center, random.uniform(0, 360), size * random.random() ** 0.5) for _ in range(2)]
        inside += [away(center, random.uniform(0, 360), size * (1 - 1e-12)) for _ in range(4)]
        return {"outline_circle": {"center": {"lat": center[0], "lng": center[1]}, "radius": {"value": size, "units": "M"}}}, inside
    count = corners or random.choice((3, 3, 4, 4, 5, 6, 7, 8))
    spread = 0.1 if count == 3 else 0.3  # so that the centre lies inside: no gap of half a turn
    turns = [(k + random.uniform(-spread, spread)) * 360 / count for k in range(count)]
    ring = [away(center, turn, size * random.uniform(0.4, 1)) for turn in turns]
    inside = [center]
    for _ in range(3):
        k = random.randrange(count)
        on_edge = between(ring[k], ring[(k + 1) % count], random.random())
        inside += [on_edge, between(center, on_edge, random.random())]
    first = random.randrange(count)
    ring = (ring[first:] + ring[:first])[:: random.choice((1, -1))]
    if random.random() < 0.1:
        ring.append(ring[0])
    return {"outline_polygon": {"vertices": [{"lat": lat, "lng": lng} for lat, lng in ring]}}, inside


def span(token):
    """Returns the first and the last leaf of a cell."""
    number = int(token.ljust(16, "0"), 16)
    half = number & -number
    return number - half + 1, number + half - 1


def level(token):
    number = int(token.ljust(16, "0"), 16)
    return 30 - ((number & -number).bit_length() - 1) // 2


def leaf(point):
    return s2.S2CellId(s2.S2LatLng.FromDegrees(*point)).id() % 2**64


class Held:
    """Cells as the service compares them: at level 13."""

    def __init__(self, tokens):
        wide = [token if level(token) <= 13 else f"{int(token.ljust(16, '0'), 16):016x}" for token in tokens]
        self.spans = sorted(span(it) for it in wide)
        self.starts = [it[0] for it in self.spans]

    def has(self, point):
        number = leaf(point)
        at = bisect.bisect_right(self.starts, number) - 1
        return at >= 0 and number <= self.spans[at][1]

    def meets(self, other):
        return any(
            (at := bisect.bisect_right(other.starts, hi) - 1) >= 0 and other.spans[at][1] >= lo for lo, hi in self.spans)


def corner_on_a_cells_edge(face, u, v):
    """Returns the point of a face at the coordinates u and v, along whose lines cells have their edges."""
    x, y, z = ((1, u, v), (-u, 1, v), (-u, -v, 1), (-1, -v, -u), (v, -1, -u), (v, u, -1))[face]
    return math.degrees(math.atan2(z, math.hypot(x, y))), math.degrees(math.atan2(y, x))


def edge_of_level_13(index):
    """Returns the coordinate u of a line between cells of level 13."""
    s = index / 2**13
    return (4 * s * s - 1) / 3 if s >= 0.5 else (1 - 4 * (1 - s) ** 2) / 3


def draw_bent(random):
    """Draws a polygon of some 100 km whose edge runs a centimetre beside a line between cells, on either side, and
    points of the edge by WGS84: the edge leaves the great circle, and on one of the two sides crosses the line."""
    face, side = random.randrange(6), random.choice((1, -1))
    u, v = edge_of_level_13(random.randrange(1200, 7000)), random.uniform(-0.8, 0.8)
    length, inner = random.choice((1, -1)) * random.uniform(0.012, 0.02), u - side * 3e-4
    u -= side * 1.6e-9
    ring = [corner_on_a_cells_edge(face, *it) for it in ((u, v), (u, v + length), (inner, v + length), (inner, v))]
    return {"outline_polygon": {"vertices": [{"lat": lat, "lng": lng} for lat, lng in ring]}}, [
        between(ring[0], ring[1], part) for part in (0.3, 0.5, 0.7)]
