"""The pictures of the page in docs/, of the busy example: `python3 -m tests.pictures` in tools/ makes them anew."""

import os

from tests import scenes
from tests.browser import Browser
from zolfigar import page

# File, width, height, colours, and the part of the page that is shown.
PICTURES = (
    ("page-light.png", 1280, 1240, "light", ""),
    ("page-dark.png", 1280, 1150, "dark", "#orders"),
    ("page-phone.png", 360, 1240, "light", "#p0"),
)


def pictures(folder):
    """Makes the pictures in a folder; their file names."""
    html, browser = page.page(scenes.day("busy")), Browser()
    try:
        for name, width, height, scheme, where in PICTURES:
            browser.size(width, height)
            browser.scheme(scheme)
            browser.show(html, where)
            browser.picture(os.path.join(folder, name))
    finally:
        browser.close()
    return [os.path.join(folder, name) for name, *_ in PICTURES]


if __name__ == "__main__":
    for path in pictures(os.path.join(scenes.ROOT, "docs")):
        print(f"{os.path.relpath(path)}: {os.path.getsize(path):,} bytes")
