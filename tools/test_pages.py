#!/usr/bin/env python3
"""Tests of tools/links.py and tools/pictures.py: python3 tools/test_pages.py"""
import pathlib
import tempfile
import unittest

import links
import pictures


class Links(unittest.TestCase):
    def broken(self, text):
        with tempfile.TemporaryDirectory() as folder:
            (pathlib.Path(folder) / "other.md").write_text("# A `title` of 2 words\n", encoding="utf-8")
            page = pathlib.Path(folder) / "page.md"
            page.write_text(text, encoding="utf-8")
            return list(links.broken(page))

    def test_files_and_headings(self):
        self.assertEqual(self.broken("[a](other.md) [b](other.md#a-title-of-2-words) [c](https://example.org)"), [])
        self.assertEqual(self.broken("[a](another.md) [b](other.md#a-title)"), ["another.md", "other.md#a-title"])

    def test_headings_of_the_page_itself(self):
        self.assertEqual(self.broken("## Why?\n[a](#why) [b](#where)"), ["#where"])

    def test_pictures_and_examples(self):
        self.assertEqual(self.broken('<img src="no.svg">\n```\n[a](no.md)\n```\n'), ["no.svg"])


class Pictures(unittest.TestCase):
    def test_names(self):
        self.assertEqual(pictures.unknown_names({"x": "`enforce`, `tx_apply`, `Seen`, `seen`, `Status::code`, `Instance`"}), [])
        self.assertEqual(pictures.unknown_names({"x": "`enforces` and `seem`"}), ["enforces", "seem"])

    def test_names_and_signs_in_a_line(self):
        line = pictures.line_of("`call` & more", 1, 2, "soft")
        self.assertEqual(line, '<text x="1" y="2" class="soft"><tspan class="name">call</tspan> &amp; more</text>')


if __name__ == "__main__":
    unittest.main()
