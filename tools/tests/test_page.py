"""The whole page: what its text holds, and what a browser makes of it."""

import base64
import hashlib
import re
import unittest
from unittest import mock

from tests import pages
from tests.browser import BrowserError, chromium
from tests.pages import DAYS, HOSTILE, PAGES, READ, ROWS, SHOWN, UNFOLD, Parts, cents, html_of, members, packed, printed
from zolfigar import page


class Text(unittest.TestCase):
    def test_ids_are_unique_and_links_have_their_targets(self):
        for name, found in READ.items():
            self.assertEqual(len(found.ids), len(set(found.ids)), name)
            outside = [lead for lead in found.leads if not lead.startswith("#")]
            self.assertEqual(outside, ["data:,"], name)
            self.assertEqual({lead[1:] for lead in found.leads} - {"ata:,"} - set(found.ids), set(), name)

    def test_labels_name_what_is_there(self):
        for name, found in READ.items():
            for kind in ("for", "aria-labelledby"):
                named = {word for _, attributes in found.tags for word in attributes.get(kind, "").split()}
                self.assertLessEqual(named, set(found.ids), name)

    def test_headings_landmarks_and_headers(self):
        for name, found in READ.items():
            levels = [int(tag[1]) for tag, _ in found.tags if re.fullmatch("h[1-6]", tag)]
            self.assertEqual(levels.count(1), 1, name)
            self.assertTrue(all(after <= before + 1 for before, after in zip(levels, levels[1:])), name)
            self.assertEqual([len(found.named(tag)) for tag in ("main", "header")], [1, 1], name)
            self.assertRegex(PAGES[name].partition("</head>")[0], "<title>[^<]+</title>")
            self.assertEqual(found.named("html"), [{"lang": "en"}])
            self.assertTrue(all("scope" in cell for cell in found.named("th")), name)

    def test_drawings_have_a_text(self):
        for name, found in READ.items():
            for drawing in found.named("svg"):
                top = "role" in drawing and "aria-label" in drawing
                inner = "viewbox" in drawing or "sign" in drawing.get("class", "")
                self.assertTrue(top or inner or drawing.get("aria-hidden") == "true", (name, drawing))

    def test_policy_allows_the_page_itself_and_nothing_else(self):
        for name, html in PAGES.items():
            policy = next(meta["content"] for meta in READ[name].named("meta") if "http-equiv" in meta)
            [script] = re.findall(r"<script>(.*)</script>", html, re.S)
            [style] = re.findall(r"<style>(.*)</style>", html, re.S)
            for kind, text in (("script", script), ("style", style)):
                digest = base64.b64encode(hashlib.sha256(text.encode()).digest()).decode()
                self.assertIn(f"{kind}-src 'sha256-{digest}';", policy, name)
            self.assertTrue(policy.startswith("default-src 'none'; "))
            self.assertNotIn("unsafe", policy)
            self.assertNotIn("http", html.replace("http-equiv", "").replace("http://x.y", ""))

    def test_hostile_names_are_text(self):
        found, harmless = READ["hostile"], READ["tampered"]
        self.assertLessEqual({tag for tag, _ in found.tags}, {tag for tag, _ in harmless.tags})
        names = {name for _, attributes in found.tags for name in attributes}
        self.assertFalse([name for name in names if name.startswith("on") or name in ("src", "style")])
        self.assertEqual(len(found.named("script")), 1)
        for text in (HOSTILE[:35], "<b>x</b>\"'&", "</script><!", "]]>--><style>*{color:red}", "</title><script>fetch"):
            self.assertTrue(text in found.text, text)

    def test_a_day_without_anything(self):
        nothing = Parts(html_of(("x", b"", ""))).text
        quiet = Parts(html_of(("x", packed([{"bic": b"AAAALV22XXX"}], [], []), "C 0 0 0 0\n"))).text
        self.assertIn("One thing doesn't add up.the file is below 12 bytes, and the output doesn't refuse it", nothing)
        self.assertIn("ParticipantsThere are none.OrdersNone was accepted.TicketsThere are none.", nothing)
        self.assertIn("No ticket moved its cover.OrdersNone was accepted.TicketsThere are none.", quiet)

    def test_the_largest_pages_are_not_too_large(self):
        for name in ("big", "full"):
            self.assertLess(len(PAGES[name].encode()), 3_000_000, name)

    def test_nothing_moves_by_itself(self):
        self.assertIsNone(
            re.search("transition|animation|smooth|@keyframes", page.beside("page.css") + page.beside("page.js"))
        )


def luminance(colour):
    parts = [int(colour[at : at + 2], 16) / 255 for at in (1, 3, 5)]
    linear = [part / 12.92 if part <= 0.04045 else ((part + 0.055) / 1.055) ** 2.4 for part in parts]
    return 0.2126 * linear[0] + 0.7152 * linear[1] + 0.0722 * linear[2]


def contrast(one, other):
    light, dark = sorted((luminance(one), luminance(other)), reverse=True)
    return (light + 0.05) / (dark + 0.05)


class Colours(unittest.TestCase):
    def test_contrast(self):
        """Each colour of text on each ground that it may stand on, light, dark and printed."""
        style = page.beside("page.css")
        schemes = [
            dict(re.findall(r"--([\w-]+): (#\w{6});", block)) for block in re.findall(r":root \{(.*?)\}", style, re.S)
        ]
        self.assertEqual(len(schemes), 3)
        for scheme in schemes:
            for text in ("ink", "soft", "accent", "good", "bad", "late"):
                for ground in ("ground", "tint", "band", "good-ground", "bad-ground"):
                    found = contrast(scheme[text], scheme[ground])
                    self.assertGreaterEqual(found, 4.5, f"{text} {scheme[text]} on {ground} {scheme[ground]}")


REPORT = re.compile(r"to (\S+): [^(]+ \((\d+)\), (?:order (\d+) \S+, )?EUR ([\d,.]+)(?: of [\d,.]+)?")


def report_of(text, numbers):
    found = REPORT.fullmatch(text)
    assert found is not None, text
    to, code, order, amount = found.groups()
    return numbers[to], int(code), 65535 if order is None else int(order), cents(amount)


class Seen(pages.InBrowser):
    # What it asks for and says

    def test_quiet_and_alone(self):
        for name in PAGES:
            self.open(name)
            self.assertEqual((self.browser.complaints(), self.browser.requests()), ([], []), name)

    def test_the_driver_hears_what_a_page_says_and_asks_for(self):
        bad = (
            "<img src='http://127.0.0.1:9/x.png'><script>console.log('a'); fetch('http://127.0.0.1:9/y'); nothing()</script>"
        )
        self.browser.show(bad)
        said = " ".join(self.browser.complaints())
        for word in ("console: a", "exception: Uncaught", "ERR_"):
            self.assertIn(word, said)
        self.assertEqual(self.browser.requests(), ["http://127.0.0.1:9/x.png", "http://127.0.0.1:9/y"])

    def test_no_browser_is_an_error(self):
        with mock.patch.dict("os.environ", PATH="/nowhere"), self.assertRaisesRegex(
            BrowserError, "apt-get install -y chromium"
        ):
            chromium()

    def test_hostile_names_do_nothing(self):
        self.open("hostile")
        self.assertEqual(self.js("document.images.length + document.scripts.length"), 1)
        self.assertEqual(self.texts("h1"), ["</title><script>document.body.remove()</script>"])
        self.assertEqual(self.texts("#o0 .txid"), [HOSTILE[:35]])
        self.assertIn("a report goes to participant 7", " ".join(self.texts(".verdict li")))

    def test_the_policy_stops_what_gets_in_all_the_same(self):
        got_in = "<img src='http://127.0.0.1:9/z'><script>document.title = 'in'</script>"
        self.browser.show(PAGES["case D"].replace("<header", f"{got_in}<header"))
        self.assertNotEqual(self.js("document.title"), "in")
        self.assertIn("Content Security Policy", " ".join(self.browser.complaints()))
        failed = [event["params"] for event in self.browser.events if event.get("method") == "Network.loadingFailed"]
        self.assertEqual([failure["blockedReason"] for failure in failed], ["csp"])

    # The figures

    def test_figures_are_those_of_the_output(self):
        for name in ("case D", "busy", "part", "late", "big", "full"):
            _, file, output = DAYS[name]
            refusals, reports, positions = printed(output)
            self.open(name)
            numbers = members(file)
            self.assertEqual(self.closing(), dict(zip(numbers, positions)), name)
            self.assertEqual(self.closed(), list(map(list, positions)), name)
            self.assertEqual(self.last_lines(len(numbers)), list(map(list, positions)), name)
            self.assertEqual(self.refusals(), refusals, name)
            self.assertEqual([[report_of(text, numbers) for text in row] for row in self.reports()], reports, name)

    def closing(self):
        cells = "[...row.cells].map(cell => cell.textContent)"
        rows = self.js(f"[...document.querySelectorAll('.closing tbody tr')].map(row => {cells})")
        for row in rows:
            self.assertEqual(cents(row[6]), sum(map(cents, row[3:6])))
        return {row[0]: tuple(map(cents, row[3:6])) for row in rows}

    def closed(self):
        figures = "['available', 'reserved', 'held'].map(part => body.querySelector(`.${part} .figure`).textContent)"
        return [
            list(map(cents, row)) for row in self.js(f"[...document.querySelectorAll('.closed')].map(body => {figures})")
        ]

    def last_lines(self, count):
        """Available, reserved and held on the last line of each statement; zero where there is none."""
        last = "document.querySelector(`#p${n} .statement tbody tr:last-child`)"
        figures = f"[...({last}?.querySelectorAll('.figure') ?? [])].map(cell => cell.textContent)"
        rows = self.js(f"[...Array({count}).keys()].map(n => {figures})")
        return [list(map(cents, row)) if row else [0, 0, 0] for row in rows]

    def refusals(self):
        found = []
        for text in self.texts(".tickets .outcome"):
            turned = re.match(r"turned back, (\d+)[ :]", text)
            self.assertTrue(turned or text.startswith("carried out"), text)
            found.append(int(turned[1]) if turned else 0)
        return found

    def reports(self):
        return self.js(f"{ROWS}.map(row => [...row.querySelectorAll('.reports li')].map(item => item.textContent))")

    # Where the address leads

    def test_the_address_opens_what_it_names(self):
        wide, narrow = (1280, (("t400", 326), ("orders", 56))), (360, (("o100", 326), ("m200", 326), ("tickets", 56)))
        for width, name, top in ((width, *place) for width, places in (wide, narrow) for place in places):
            self.browser.size(width, 900)
            self.open("big", f"#{name}")
            found = self.js(f"document.getElementById('{name}').getBoundingClientRect().top")
            self.assertAlmostEqual(found, top, delta=2, msg=(name, width))

    # How it looks

    def test_no_sideways_scrolling(self):
        for name in PAGES:
            self.open(name)
            self.browser.settle()
            self.js(UNFOLD)
            for width in {"big": (360,), "full": (360, 700)}.get(name, (360, 500, 700, 1000, 1280, 1920)):
                self.browser.size(width, 800)
                self.assertLessEqual(self.js("document.documentElement.scrollWidth"), width, (name, width))

    def test_a_wide_screen_is_used(self):
        self.browser.size(1920, 900)
        self.open("busy")
        self.assertGreater(self.js("document.querySelector('.tickets').getBoundingClientRect().width"), 1600)

    def test_labels_do_not_overlap(self):
        overlaps = """[...document.querySelectorAll(".chart > svg, .axis")].flatMap(drawing => {
            const boxes = [...drawing.querySelectorAll(":scope > text")].map(text => text.getBoundingClientRect());
            const shown = boxes.filter(box => box.width).sort((one, other) => one.left - other.left);
            return shown.filter((box, n) => n && box.left < shown[n - 1].right + 2).map(() => drawing.getAttribute("aria-label"));
        })"""
        for name in ("case D", "busy", "full", "late", "long"):
            self.open(name)
            for width in (360,) if name == "full" else (360, 1140, 1280):
                self.browser.size(width, 900)
                for axis in ("time", "ticket"):
                    self.js(f"document.getElementById('by-{axis}').click()")
                    self.assertEqual(self.js(overlaps), [], (name, width, axis))

    def test_without_script(self):
        self.browser.script_off(True)
        self.addCleanup(self.browser.script_off, False)
        self.open("busy", "#t10")
        self.browser.script_off(False)
        self.assertEqual(len(self.js(SHOWN)), 49)
        self.assertFalse(self.js("document.getElementById('filter').checkVisibility()"))
        grounds = [self.js(f"getComputedStyle(document.getElementById('{row}')).backgroundColor") for row in ("t10", "t11")]
        self.assertNotEqual(grounds[0], grounds[1])

    def test_print_has_everything(self):
        self.open("big")
        closed = "document.querySelectorAll('details:not([open])').length"
        before = self.js(closed)
        self.assertGreater(before, 30)
        self.js("dispatchEvent(new Event('beforeprint'))")
        self.assertEqual(self.js(closed), 0)
        self.js("dispatchEvent(new Event('afterprint'))")
        self.assertEqual(self.js(closed), before)
        self.browser.medium("print")
        self.addCleanup(self.browser.medium, "")
        self.assertFalse(self.js("document.querySelector('.bar').checkVisibility()"))

    def test_the_largest_day_opens_in_a_second(self):
        for name in ("big", "full"):
            found: list[tuple[float, float, float]] = []
            while len(found) < 3 or min(found)[0] >= 1000 and len(found) < 10:
                self.open(name)
                loaded = self.js("performance.getEntriesByType('navigation')[0].loadEventEnd")
                painted = self.js("performance.getEntriesByName('first-contentful-paint')[0]?.startTime ?? 9999")
                found.append((max(loaded, painted), loaded, painted))
            best = min(found)
            size = len(PAGES[name].encode()) / 1e6
            print(f"\n{name}: {size:.2f} MB, loaded after {best[1]:.0f} ms, painted after {best[2]:.0f} ms")
            self.assertLess(best[0], 1000, name)


if __name__ == "__main__":
    unittest.main()
