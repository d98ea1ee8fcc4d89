"""Elements and the small parts."""

import unittest
from xml.etree.ElementTree import tostring

from tests import scenes
from tests.pages import leads_of, words_of
from zolfigar import telling
from zolfigar.page import markup
from zolfigar.page.markup import node


class Nodes(unittest.TestCase):
    def test_texts_and_attributes_are_escaped(self):
        made = node("a", "<b>", node("i"), "&", href='"><script>', class_="x", hidden=True, title=None)
        written = tostring(made, encoding="unicode", method="html")
        self.assertEqual(written, '<a href="&quot;&gt;<script&gt;" class="x" hidden="">&lt;b&gt;<i></i>&amp;</a>')

    def test_texts_one_after_the_other(self):
        made = node("p", "a", "b", node("i"), "c", None, "d")
        self.assertEqual(tostring(made, encoding="unicode"), "<p>ab<i />cd</p>")


class Small(unittest.TestCase):
    def test_figures(self):
        self.assertEqual([markup.signed(cents) for cents in (100, 0, -100)], ["+1.00", "0.00", "-1.00"])
        self.assertEqual(markup.figure(123456), "1,234.56")
        self.assertEqual(leads_of(markup.figure(123456, 7)), [("1,234.56", "#t7")])

    def test_places(self):
        self.assertEqual([markup.percent(part) for part in (0, 0.45, 1 / 3, 1)], ["0%", "45%", "33.33%", "100%"])

    def test_a_list_is_folded_where_it_is_long(self):
        items = [["a"], ["b"], ["c"]]
        self.assertIsNone(markup.folded([], 2, "item"))
        short, fold = markup.folded(items[:2], 2, "item"), markup.folded(items, 2, "item")
        assert short is not None and fold is not None
        self.assertEqual(tostring(short, encoding="unicode"), "<ul><li>a</li><li>b</li></ul>")
        self.assertEqual((fold.tag, words_of(fold)), ("details", "3 itemsabc"))

    def test_commas(self):
        links = [markup.ticket_link(n) for n in (1, 2, 3)]
        self.assertEqual(words_of(*markup.comma_separated(links)), "1, 2, 3")
        self.assertEqual(markup.comma_separated([]), [])

    def test_table_heads(self):
        heads = [(words_of(cell), cell.get("class"), cell.get("scope")) for cell in markup.head_row("Name", "Amount#")[0]]
        self.assertEqual(heads, [("Name", None, "col"), ("Amount", "figure", "col")])

    def test_a_section_is_named_by_its_title(self):
        made = markup.section("orders", "Orders", node("p", "none"))
        self.assertEqual((made.get("id"), words_of(made)), ("orders", "Ordersnone"))
        self.assertEqual((made.get("aria-labelledby"), made[0].get("id")), ("orders-title", "orders-title"))

    def test_the_name_of_an_order_leads_to_it(self):
        day = scenes.day("case-d")
        parts = markup.with_order(day, "order 0 TX1 settled", 0)
        self.assertEqual((words_of(*parts), leads_of(*parts)), ("order 0 TX1 settled", [("order 0 TX1", "#o0")]))
        for sentence, number in (("cover in", None), ("cover in", 0), ("order 7 settled", 7)):
            self.assertEqual(markup.with_order(day, sentence, number), [sentence])

    def test_members(self):
        day = scenes.day("case-d")
        self.assertEqual(
            [markup.is_member(day, number) for number in (None, -1, 0, 1, 2)], [False, False, True, True, False]
        )
        self.assertEqual(leads_of(markup.member_link(day, 1)), [("BBBBLV22", "#p1")])
        self.assertEqual(markup.member_link(day, 2), telling.member(day, 2))


if __name__ == "__main__":
    unittest.main()
