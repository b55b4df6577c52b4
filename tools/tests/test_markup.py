"""Elements of pages."""
from __future__ import annotations

import unittest
import xml.etree.ElementTree

from atomic_tools.markup import json_inside, script, tag, text, value


class Markup(unittest.TestCase):
    def test_words_are_escaped(self) -> None:
        self.assertEqual("&lt;b&gt; &amp; \"'", text("<b> & \"'"))
        self.assertEqual('<p title="&quot;&#10;&#x27;">x</p>', tag("p", "x", title="\"\n'"))

    def test_what_turns_text_around_is_shown(self) -> None:
        self.assertEqual("a\u27e8U+202E\u27e9b", text("a\u202eb"))
        self.assertEqual(
            "\u27e8U+2066\u27e9\u27e8U+200B\u27e9\u27e8U+FEFF\u27e9\u27e8U+0085\u27e9",
            value("\u2066\u200b\ufeff\u0085"),
        )

    def test_what_no_page_may_hold_is_a_box(self) -> None:
        self.assertEqual("\ufffd\ufffd\ufffd", text("\x00\x1b\udc80"))

    def test_elements_are_well_formed(self) -> None:
        page = tag(
            "div",
            text("<\u202e>"),
            tag("br"),
            script("const a = " + json_inside('"</script>]]>&"') + ";"),
            class_="a b",
            data_t=3,
        )
        found = xml.etree.ElementTree.fromstring(page)
        self.assertEqual({"class": "a b", "data-t": "3"}, found.attrib)
        self.assertNotIn("</script>]]", page)


if __name__ == "__main__":
    unittest.main()
