"""Takes the pictures of the map in docs/, over 300 and over 10,000 flights around Zurich.

  pictures_of_the_map.py PROGRAM"""
import base64
import sys
import time

from crowd import flights
from maps import enter, opened, over_whole
from world import TOP, Files

# With the most bytes of a picture.
SIZES = [("", 1440, 900, 55_000), ("-phone", 390, 844, 18_500)]


def pictured(page, quality):
    return base64.b64decode(page.call("Page.captureScreenshot", format="webp", quality=quality)["data"])


def take(place, name, count):
    for size, width, height, most in SIZES:
        for scheme in ("light", "dark"):
            with opened(place, width, height, scheme) as page:
                enter(page, place.viewer)
                time.sleep(2)
                if count < 1000:
                    page.value("document.querySelectorAll('#all button')[3].click(); document.getElementById('whole').click()")
                time.sleep(1.5)
                data = next(it for it in (pictured(page, quality) for quality in range(60, -1, -4)) if len(it) < most)
                (TOP / "docs" / f"{name}{size}-{scheme}.webp").write_bytes(data)


def main(program):
    for count, spread in ((300, 0.3), (10_000, 1.2)):
        files = Files(program)
        try:
            with over_whole(files, program) as place:
                flights(place, count, spread)
                # The page asks again after some seconds.
                time.sleep(6)
                take(place, f"map-{count}", count)
        finally:
            files.forget()


if __name__ == "__main__":
    main(sys.argv[1])
