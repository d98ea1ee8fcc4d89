"""The page for those who hear it, go through it by keys, or touch it: names, the whole tree, contrast, targets, tab stops."""

from tests import pages
from tests.browser import SHIFT
from tests.pages import COUNT, FOCUS, PAGES, UNFOLD

# What needs a name: landmarks, tables and drawings; and what can be activated, filled in or heads something.
PARTS = {
    "banner",
    "main",
    "navigation",
    "region",
    "search",
    "form",
    "article",
    "table",
    "image",
    "figure",
    "group",
    "dialog",
}
USED = {"link", "button", "searchbox", "combobox", "radio", "DisclosureTriangle", "rowheader", "columnheader", "heading"}


class Tree:
    """The accessibility tree of the page that the browser shows."""

    def __init__(self, browser):
        self.nodes = browser.tree()

    def found(self, *roles, inside=None):
        """The names of all nodes with one of the roles, in a node or in all."""
        within = self.below(next(iter(self.nodes)) if inside is None else inside)
        return [self.nodes[node][1] for node in within if node in self.nodes and self.nodes[node][0] in roles]

    def below(self, node):
        for child in self.nodes[node][2] if node in self.nodes else ():
            yield child
            yield from self.below(child)

    def region(self, name):
        found = [node for node, (role, called, _) in self.nodes.items() if (role, called) == ("region", name)]
        assert len(found) == 1, f"{len(found)} regions {name}"
        return found[0]

    def is_fold(self, node):
        """Whether it is a group that its first line, which unfolds it, stands for."""
        roles = (self.nodes[child][0] for child in self.below(node) if child in self.nodes)
        return next(filter(None, roles), "") == "DisclosureTriangle"

    def unnamed(self):
        needing = [node for node, (role, name, _) in self.nodes.items() if role in PARTS | USED and not name.strip()]
        return [self.nodes[node][0] for node in needing if not self.is_fold(node)]


class Access(pages.InBrowser):
    def open(self, name, where=""):
        """Opens a page and waits for what its script does when all is there."""
        super().open(name, where)
        self.browser.settle()


class Names(Access):
    def test_all_that_needs_a_name_has_one(self):
        for name, width in (("busy", 360), ("tampered", 1280), ("refused", 1280)):
            self.browser.size(width, 900)
            self.open(name)
            self.assertEqual(Tree(self.browser).unnamed(), [], (name, width))

    def test_no_two_have_the_same_name(self):
        self.open("busy")
        tree = Tree(self.browser)
        for role in ("table", "region", "article", "group"):
            found = [name for name in tree.found(role) if name]
            self.assertEqual(sorted(set(found)), sorted(found), role)
        members = ("AAAALV22", "BBBBLV22", "CCCCLT2X", "DDDDEE2X", "RTONFRPP")
        of_each = [f"{what} of {member}" for member in members for what in ("Cover equation", "Statement")]
        self.assertEqual(tree.found("table"), ["Closing positions, in euro", *of_each, "Orders", "Tickets"])

    def test_the_help_has_a_name(self):
        self.open("busy")
        self.browser.press("?")
        self.assertEqual(Tree(self.browser).found("dialog"), ["Keys"])


class Whole(Access):
    def test_the_tree_has_every_row_without_scrolling(self):
        self.open("full")
        tree = Tree(self.browser)
        self.assertEqual((self.js("scrollY"), tree.unnamed()), (0, []))
        for name, count in (("Orders", 256), ("Tickets", 512)):
            self.assertEqual(tree.found("rowheader", inside=tree.region(name)), [str(n) for n in range(count)], name)
        self.assertEqual(len(tree.found("article")), 32)
        self.assertEqual(
            tree.found("heading")[:2] + tree.found("heading")[-2:], ["full", "Participants", "Orders", "Tickets"]
        )
        self.assertEqual(len(tree.found("group", inside=tree.region("Orders"))), 256)

    def test_the_tree_has_every_row_without_the_script(self):
        self.browser.script_off(True)
        self.addCleanup(self.browser.script_off, False)
        self.browser.show(PAGES["busy"])
        tree = Tree(self.browser)
        self.assertEqual(tree.found("rowheader", inside=tree.region("Tickets")), [str(n) for n in range(49)])

    def test_columns_keep_their_heads_on_a_phone(self):
        heads = []
        for width in (1280, 360):
            self.browser.size(width, 900)
            self.open("case D")
            heads.append(Tree(self.browser).found("columnheader"))
        self.assertEqual(heads[1], heads[0])
        self.assertIn("What became of it", heads[0])


# The weak texts, and how many were read: the colour of each text that can be seen, on what lies behind it.
WEAK = """(() => {
    const parts = colour => colour.match(/[\\d.]+/g).map(Number);
    const over = (top, below) => {
        const [r, g, b, alpha = 1] = parts(top), under = parts(below);
        return `rgb(${[r, g, b].map((part, n) => part * alpha + under[n] * (1 - alpha)).join(" ")})`;
    };
    const light = colour => {
        const [r, g, b] = parts(colour).map(part => part / 255)
            .map(part => part <= 0.04045 ? part / 12.92 : ((part + 0.055) / 1.055) ** 2.4);
        return 0.2126 * r + 0.7152 * g + 0.0722 * b;
    };
    const ratio = (one, other) => {
        const [low, high] = [light(one), light(other)].sort((one, other) => one - other);
        return (high + 0.05) / (low + 0.05);
    };
    const ground = at => {
        if (!at) return getComputedStyle(document.body).backgroundColor;
        const behind = at.closest(".sign")?.querySelector("circle");
        if (behind) return getComputedStyle(behind).fill;
        const colour = getComputedStyle(at).backgroundColor;
        return parts(colour)[3] === 0 ? ground(at.parentElement) : over(colour, ground(at.parentElement));
    };
    const has = at => [...at.childNodes].some(part => part.nodeType === 3 && part.data.trim());
    const all = [...document.body.querySelectorAll("*")].filter(at => at.checkVisibility() && !at.closest(".skip:not(:focus)"));
    const own = all.filter(has).map(at => [at, getComputedStyle(at), at.closest("svg") ? "fill" : "color"]);
    const pseudo = ["::before", "::after", "::placeholder", "::marker"].flatMap(kind => all
        .filter(at => kind === "::placeholder" ? at.placeholder : !["none", "normal"].includes(getComputedStyle(at, kind).content))
        .map(at => [at, getComputedStyle(at, kind), "color"]));
    const found = [...own, ...pseudo].map(([at, style, field]) => {
        const large = parseFloat(style.fontSize) >= (style.fontWeight >= 700 ? 18.66 : 24);
        const behind = ground(at), colour = over(style[field], behind);
        const faint = [at, ...(function* () { for (let up = at; up = up.parentElement;) yield up; })()]
            .some(each => getComputedStyle(each).opacity !== "1");
        return {text: `${at.tagName} ${at.className} ${colour} on ${behind}`, weak: faint || !(ratio(colour, behind) >= (large ? 3 : 4.5))};
    });
    return {read: found.length, marked: pseudo.length, weak: [...new Set(found.filter(each => each.weak).map(each => each.text))]};
})()"""


class Contrast(Access):
    def test_light_and_dark_differ_and_can_be_read(self):
        grounds = []
        for scheme in ("light", "dark"):
            self.browser.scheme(scheme)
            places = (
                ("tampered", "#t10", 1280),
                ("busy", "#p0", 360),
                ("part", "#o0", 1280),
                ("late", "#o0", 360),
                ("refused", "", 1280),
            )
            for name, where, width in places:
                self.browser.size(width, 900)
                self.open(name, where)
                found = self.js(WEAK)
                self.assertGreater(found["read"], 3)
                self.assertEqual(found["weak"], [], (scheme, name, width))
            grounds.append(self.js("getComputedStyle(document.body).backgroundColor"))
        self.assertNotEqual(grounds[0], grounds[1])

    def test_the_help_can_be_read(self):
        for scheme in ("light", "dark"):
            self.browser.scheme(scheme)
            self.open("busy")
            self.browser.press("?")
            self.assertEqual(self.js(WEAK)["weak"], [], scheme)

    def test_a_weak_text_is_found(self):
        for place, colour in (("--soft", "#8a8a8a"), ("--ink", "#ffffff"), ("--ink", "rgb(26 32 38 / 50%)")):
            self.open("busy")
            self.js(f"document.documentElement.style.setProperty('{place}', '{colour}')")
            found = " ".join(self.js(WEAK)["weak"])
            for words in ("text", "INPUT", "TD") if place == "--soft" else ("TD", "SPAN"):
                self.assertIn(words, found, (place, colour))


# The targets that are too small: below 24 pixels, and with another target in the circle of 24 pixels around their middle, or that
# circle across another's. A link in a line of text may be as high as its line.
SMALL = """(() => {
    const shapes = at => [...at.querySelectorAll("rect, circle, path, text")];
    const hit = at => at.closest("svg") ? shapes(at).some(part => getComputedStyle(part).pointerEvents !== "none")
        : getComputedStyle(at).pointerEvents !== "none";
    const box = at => {
        const all = [at, ...(at.type === "radio" ? at.labels : [])].map(part => part.getBoundingClientRect());
        const [left, top] = ["left", "top"].map(side => Math.min(...all.map(part => part[side])));
        const [right, bottom] = ["right", "bottom"].map(side => Math.max(...all.map(part => part[side])));
        return {left, top, right, bottom, x: (left + right) / 2, y: (top + bottom) / 2};
    };
    const inLine = at => {
        let block = at;
        while (getComputedStyle(block).display.startsWith("inline") && block.parentElement) {
            if (getComputedStyle(block).display !== "inline") return false;
            block = block.parentElement;
        }
        if (block === at) return false;
        const copy = block.cloneNode(true);
        copy.querySelectorAll("a, button, summary, svg").forEach(part => part.remove());
        return /\\w/.test(copy.textContent);
    };
    const targets = [...document.querySelectorAll("a, button, input, select, summary")]
        .filter(at => at.checkVisibility() && hit(at)).map(at => ({at, ...box(at)})).filter(each => each.right - each.left > 1);
    const least = 24 - 0.01;
    for (const each of targets) each.small = each.right - each.left < least || each.bottom - each.top < least;
    const far = (one, other) => other.small ? Math.hypot(one.x - other.x, one.y - other.y) >= least
        : Math.hypot(Math.max(other.left - one.x, 0, one.x - other.right), Math.max(other.top - one.y, 0, one.y - other.bottom)) >= 12;
    const near = one => targets.filter(other => other !== one && other.top < one.y + 24 && other.bottom > one.y - 24);
    const bad = targets.filter(one => one.small && !inLine(one.at) && !near(one).every(other => far(one, other)));
    const kind = at => `${at.closest("[class]:not(a):not(tr):not(td)")?.getAttribute("class")} ${at.parentElement.tagName} ${at.tagName}`;
    return {count: targets.length, bad: [...new Set(bad.map(each => kind(each.at)))]};
})()"""


class Targets(Access):
    def test_targets_on_a_phone_are_not_too_small(self):
        self.browser.size(360, 800)
        for name, least in (("tampered", 500), ("part", 100), ("late", 100), ("big", 500), ("full", 500)):
            self.open(name)
            self.js(UNFOLD)
            found = self.js(SMALL)
            self.assertEqual(found["bad"], [], name)
            self.assertGreater(found["count"], least, name)

    def test_a_small_target_is_found(self):
        self.browser.size(360, 800)
        self.open("busy")
        self.assertEqual(self.js(SMALL)["bad"], [])
        small = "Object.assign(each.style, {minHeight: 0, minWidth: 0, lineHeight: 1, fontSize: '3px'})"
        self.js(f"document.querySelectorAll('.bar a').forEach(each => {small})")
        self.js("document.querySelector('.bar').style.gap = '2px'")
        self.assertEqual(self.js(SMALL)["bad"], ["bar NAV A"])


STOPS = """[...document.querySelectorAll("a, button, input, select, summary, [tabindex]")].filter(at =>
    at.tabIndex >= 0 && at.checkVisibility() && (at.type !== "radio" || at.checked))"""
ACTIVE = "(at => at === document.body ? '' : at.textContent || at.id || at.name)(document.activeElement)"


class Keys(Access):
    def tabs(self, most):
        """What Tab reaches one after the other."""
        found = []
        for _ in range(most):
            self.browser.press("Tab")
            found.append(self.js(ACTIVE))
        return found

    def test_the_filter_is_within_five_tab_stops(self):
        for name in ("tampered", "full"):
            self.open(name)
            stops = self.tabs(5)
            self.assertIn("Skip to the filter", stops, name)
            presses = stops.index("Skip to the filter") + 1
            self.open(name)
            self.browser.press(*["Tab"] * presses, "Enter")
            self.browser.settle()
            self.assertEqual(self.js(FOCUS), "text", name)
            top = self.js("document.getElementById('text').getBoundingClientRect().top")
            self.assertTrue(40 < top < 200, (name, top))
            self.browser.type("tick")
            self.assertRegex(self.js(COUNT), r"^\d+ of \d+ shown$")

    def test_the_skip_links_are_seen_and_lead_where_they_say(self):
        leads = {"Skip to the participants": "participants", "Skip to the filter": "filter"}
        for width in (1280, 360):
            self.browser.size(width, 800)
            for n, (words, place) in enumerate(leads.items()):
                self.open("busy")
                unseen = "document.elementFromPoint(20, 20)?.closest('.skip') ?? null"
                self.assertIsNone(self.js(unseen))
                self.assertEqual(self.tabs(n + 1)[-1], words)
                seen = """(at => {
                    const box = at.getBoundingClientRect();
                    const top = document.elementFromPoint(box.x + box.width / 2, box.y + box.height / 2);
                    return [top === at, box.height >= 24, box.width > 100, getComputedStyle(at).outlineStyle !== "none"];
                })(document.activeElement)"""
                self.assertEqual(self.js(seen), [True] * 4, (words, width))
                self.browser.press("Enter")
                self.browser.settle()
                if place == "participants":
                    self.browser.press("Tab")
                self.assertTrue(self.js(f"document.activeElement.closest('#{place}') !== null"), (words, width))

    def test_without_the_script_no_link_leads_to_the_filter(self):
        self.browser.script_off(True)
        self.addCleanup(self.browser.script_off, False)
        self.browser.show(PAGES["busy"])
        self.browser.script_off(False)
        self.assertEqual(self.tabs(2), ["Skip to the participants", "busy"])

    def test_there_are_few_tab_stops(self):
        for name in ("full", "big"):
            self.open(name)
            self.assertLess(self.js(f"{STOPS}.length"), 200, name)
        self.open("busy")
        count = self.js(f"{STOPS}.length")
        found = self.tabs(count + 1)
        self.assertEqual((found[-1], "" in found[:-1]), ("", False))

    def test_keys_reach_everything_and_are_seen(self):
        self.open("case D")
        every = "[...document.querySelectorAll('a, button, input, select, summary')].filter(each => each.checkVisibility())"
        # Of radio buttons with the same name Tab reaches the chosen one.
        self.js(f"window.left = new Set({every}.filter(each => each.type !== 'radio' || each.checked)); left.size")
        unseen = []

        def press(key, modifiers=0):
            """Presses a key; the numbers of the row and of the step that the focus is in then, and whether it is anywhere."""
            self.browser.press(key, modifiers=modifiers)
            row, step, is_somewhere, bad = self.js(
                """(at => {
                    left.delete(at);
                    const style = getComputedStyle(at), inner = at.querySelector("rect, circle");
                    const drawn = inner && getComputedStyle(inner).stroke !== "rgba(0, 0, 0, 0)";
                    const unseen = style.outlineStyle === "none" && !drawn && at !== document.body;
                    const place = parts => [...document.querySelectorAll(parts)].indexOf(at.closest(parts));
                    const bad = unseen ? [at.outerHTML.slice(0, 80)] : [];
                    return [place("tbody tr, tfoot tr"), place(".chart a"), at !== document.body, bad];
                })(document.activeElement)"""
            )
            unseen.extend(bad)
            return row, step, is_somewhere

        def along_a_chart(at):
            while (after := press("ArrowRight")[1]) != at:
                at = after

        def through_a_table(at):
            while True:
                while press("Tab")[0] == at:
                    pass
                press("Tab", SHIFT)
                after, _, _ = press("ArrowDown")
                if after == at:
                    return
                at = after

        for _ in range(100):
            row, step, is_somewhere = press("Tab")
            if not is_somewhere:
                break
            if step >= 0:
                along_a_chart(step)
            if row >= 0:
                through_a_table(row)
        self.assertEqual(self.js("[...left].map(each => each.outerHTML.slice(0, 80))"), [])
        self.assertEqual(unseen, [])

    def test_arrows_go_along_a_chart(self):
        self.open("busy")
        self.js("document.querySelector('#p0 .by-ticket a').focus()")
        found = []
        for key in ("ArrowRight", "ArrowRight", "ArrowLeft", "ArrowLeft", "ArrowLeft"):
            self.browser.press(key)
            found.append(self.js("document.activeElement.getAttribute('href')"))
        self.assertEqual(found, ["#t3", "#t4", "#t3", "#t0", "#t0"])
        self.browser.press("ArrowRight", "Tab")
        self.assertTrue(self.js("document.activeElement.closest('#p0 .equation') !== null"))
        self.browser.press("Tab", modifiers=SHIFT)
        self.assertEqual(self.js("document.activeElement.getAttribute('href')"), "#t3")

    def test_arrows_go_from_row_to_row(self):
        self.open("busy")
        self.js("document.querySelector('#o0 a').focus()")
        found = []
        for key in ("ArrowUp", "ArrowDown", "ArrowDown", "ArrowUp"):
            self.browser.press(key)
            found.append(self.js(FOCUS))
        self.assertEqual(found, ["", "o1", "o2", "o1"])
        self.browser.press("Tab")
        self.assertTrue(self.js("document.activeElement.closest('#o1') !== null"))

    def test_tab_goes_from_the_filter_to_a_ticket_that_is_shown(self):
        self.open("busy")
        self.browser.click("[name=show][value=turned]")
        self.js("document.getElementById('member').focus()")
        self.browser.press("Tab")
        self.assertEqual(self.js("document.activeElement.closest('tr').id"), "t10")
