"""Volumes, times and bodies, in the form of this project's profile or of the standard.

Also the places of a run, far out at sea."""
import calendar
import math
import random
import re
import time

ZERO = "00000000-0000-4000-8000-000000000000"
URL = "https://uss-{}.qualify.example"
# Seconds from the run's time: when an entity begins and ends, unless a check says otherwise.
STARTS, ENDS = 900, 4500
# Metres and seconds of a volume, and of others: each bound of these differs from the volume's own.
MIDDLE = {"low": 100, "high": 200, "start": STARTS, "end": ENDS}
OVERLAPPING = (
    {"low": 50, "high": 150}, {"low": 150, "high": 250}, {"low": 50, "high": 250}, {"low": 120, "high": 180},
    {"start": STARTS - 300, "end": STARTS + 300}, {"start": ENDS - 300, "end": ENDS + 300},
    {"start": STARTS - 300, "end": ENDS + 300}, {"start": STARTS + 300, "end": ENDS - 300})
BESIDE = ({"low": 0, "high": 80}, {"low": 220, "high": 300}, {"start": 300, "end": 600}, {"start": ENDS + 300, "end": ENDS + 600})

# The level of the profile's grid at which cells are compared.
LEVEL = 13
# Part of the South Pacific, from 41 to 47 degrees south and from 112 to 123 degrees west: no land is nearer than 1,500
# km.
SEA = 0xA1F0000000000000


def cell(parent, *digits):
    """Returns the number of a cell below another."""
    for digit in digits:
        half = (parent & -parent) >> 2
        parent = parent - (parent & -parent) + (2 * digit + 1) * half
    return parent


def parent(number):
    """Returns the number of the cell that holds another."""
    lowest = (number & -number) << 2
    return number & -lowest | lowest


def token(number):
    return f"{number:016x}".rstrip("0")


def number_of(text):
    return int(text.ljust(16, "0"), 16)


class Profile:
    """Cells, integer decimetres, integer seconds."""

    name, is_standard = "profile", False
    # Whether responses may have further members.
    is_open = False

    def __init__(self, moment):
        self.moment = moment

    def volume(self, places, low=0, high=100, start=STARTS, end=ENDS):
        """Returns the volume over places, between metres, and between seconds from the run's time."""
        return {
            "cells": list(places), "altitude_lower": 10 * low, "altitude_upper": 10 * high,
            "time_start": self.moment + start, "time_end": self.moment + end}

    def volumes(self, places, **bounds):
        return [self.volume(places, **bounds)]

    def area(self, places):
        return {"cells": list(places)}

    def second(self, value):
        """Returns the seconds of a time in a response, or None."""
        return value if type(value) is int else None

    def needs_subscription(self, state):
        return False

    def homes(self, seed):
        """Yields places to begin from: cells of level 9, of 256 places each."""
        draw = random.Random(f"profile {seed}")
        while True:
            yield cell(SEA, *(draw.randrange(4) for _ in range(5)))

    def everywhere(self, home):
        return self.area([token(home)])

    def sites(self, home, seed):
        places = [token(cell(home, *(k >> 2 * it & 3 for it in range(4)))) for k in range(256)]
        random.Random(f"sites {seed}").shuffle(places)
        return places

    def too_large(self, home):
        """Returns an area of five cells of level 7, each of 4,096 places."""
        wide = cell(SEA, 0)
        return self.area([token(cell(wide, a, b)) for a, b in ((0, 0), (0, 1), (0, 2), (0, 3), (1, 0))])

    def too_large_volume(self, home):
        return self.volume(self.too_large(home)["cells"])


def stamp(second):
    return {"value": time.strftime("%Y-%m-%dT%H:%M:%SZ", time.gmtime(second)), "format": "RFC3339"}


def metres(value):
    return {"value": value, "reference": "W84", "units": "M"}


def circle(place, radius):
    return {"outline_circle": {"center": {"lat": place[0], "lng": place[1]}, "radius": {"value": radius, "units": "M"}}}


class Standard:
    """Circles, metres, times of RFC 3339."""

    name, is_standard, is_open = "standard", True, True

    def __init__(self, moment):
        self.moment = moment

    def volume(self, places, low=0, high=100, start=STARTS, end=ENDS):
        """Returns the volume over one place, or the smallest circle over the given ones."""
        return {
            "volume": {**self.outline(places), "altitude_lower": metres(low), "altitude_upper": metres(high)},
            "time_start": stamp(self.moment + start), "time_end": stamp(self.moment + end)}

    def volumes(self, places, **bounds):
        return [self.volume([it], **bounds) for it in places]

    def outline(self, places):
        lat, lng = (sum(it[k] for it in places) / len(places) for k in (0, 1))
        far = max(distance((lat, lng), it) for it in places)
        return circle((lat, lng), math.ceil(far) + 100)

    def area(self, places):
        return {"volume": self.outline(places)}

    def second(self, value):
        text = value.get("value") if isinstance(value, dict) and value.get("format") == "RFC3339" else None
        parts = re.fullmatch(r"(\d{4}-\d\d-\d\dT\d\d:\d\d:\d\d)(?:\.\d+)?(?:Z|[+-]00:00)", text) if isinstance(text, str) else None
        return calendar.timegm(time.strptime(parts[1], "%Y-%m-%dT%H:%M:%S")) if parts else None

    def needs_subscription(self, state):
        return state != "Accepted"

    def homes(self, seed):
        """Yields places to begin from: circles of 25 km."""
        draw = random.Random(f"standard {seed}")
        while True:
            yield round(draw.uniform(-46, -38), 5), round(draw.uniform(-126, -113), 5)

    def everywhere(self, home):
        return {"volume": circle(home, 25_000)}

    def sites(self, home, seed):
        """Yields places that are at least 4 km apart."""
        found = []
        for north in range(-6, 7):
            for east in range(-6, 7):
                if math.hypot(north, east) * 4 <= 23:
                    lat = home[0] + north * 4 / 111.2
                    found.append((round(lat, 6), round(home[1] + east * 4 / (111.2 * math.cos(math.radians(lat))), 6)))
        random.Random(f"sites {seed}").shuffle(found)
        return found

    def too_large(self, home):
        return {"volume": circle(home, 200_000)}

    def too_large_volume(self, home):
        return {**self.volume([home]), "volume": {**circle(home, 200_000), "altitude_lower": metres(0), "altitude_upper": metres(100)}}


def distance(one, other):
    """Returns the metres between places near each other, or slightly more."""
    north, east = one[0] - other[0], (one[1] - other[1]) * math.cos(math.radians(one[0]))
    return 112_000 * math.hypot(north, east)
