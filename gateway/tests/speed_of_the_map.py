"""Measures the map over flights around Zurich, in Chromium without a window or a graphics processor.

  speed_of_the_map.py PROGRAM [COUNT]"""
import sys
import time

from crowd import flights
from maps import enter, opened, over_whole, packed, put_intent, steps_of_the_time
from world import Files, circle, extent


def main(program, count=10_000):
    files = Files(program)
    try:
        with over_whole(files, program) as place:
            flights(place, count, 1.2)
            began = time.time()
            size, first = packed(place, "/map/changes.json")
            print(f"all: {size} bytes in {time.time() - began:.2f} s, with the gateway's reading of the service")
            began = time.time()
            size, first = packed(place, "/map/changes.json")
            print(f"again: {size} bytes in {time.time() - began:.2f} s")
            print(f"nothing changed: {packed(place, '/map/changes.json?since=' + first['version'])[0]} bytes")
            put_intent(place, extent(circle(10, 10, 300)))
            time.sleep(3)
            print(f"one more flight: {packed(place, '/map/changes.json?since=' + first['version'])[0]} bytes")
            with opened(place, 1440, 900) as page:
                time.sleep(2)
                began, before = time.time(), page.busy_seconds()
                enter(page, place.viewer)
                page.until("Number(document.getElementById('counts').textContent.split(' ')[2]) > 100")
                print(f"first view: {time.time() - began:.2f} s after the token, looked at each 0.1 s;"
                      f" {page.busy_seconds() - before:.2f} s of processor time of the page's main thread")
                time.sleep(3)
                steps = steps_of_the_time(page)
                print(f"a step of the time: {steps[50]:.1f} ms of processor time in the median, {steps[98]:.1f} at p99")
    finally:
        files.forget()


if __name__ == "__main__":
    main(sys.argv[1], *map(int, sys.argv[2:]))
