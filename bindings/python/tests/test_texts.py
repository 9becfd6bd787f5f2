"""Tests of texts: how deep and how long they may be, and that what is written is read again."""

import pathlib
import sys
import unittest

sys.path.insert(0, str(pathlib.Path(__file__).parents[1]))

import vx  # noqa: E402

BYTES = 300_000


class Nesting(unittest.TestCase):
    def assert_is_too_deep(self, text, start):
        with self.assertRaises(vx.UnreadError) as caught:
            vx.fmt(text)
        self.assertTrue(str(caught.exception).startswith("error: expected less nesting\n"))
        self.assertEqual((caught.exception.place.text, caught.exception.place.start), ("expression", start))

    def test_deep_texts(self):
        """Each is refused at its 201st bracket, CASE or name."""
        for part, start in [("(", 200), ("[", 200), ("if(", 602), ("case when ", 2000), ("vortex.not(", 2210)]:
            with self.subTest(part):
                self.assert_is_too_deep(part * 100_000, start)
        self.assert_is_too_deep("a" + ".a" * 10_000, 400)

    def test_deep_types(self):
        with self.assertRaises(vx.UnreadError) as caught:
            vx.check("$", "list(" * 100_000)
        self.assertEqual(caught.exception.place.text, "schema")
        self.assertTrue(str(caught.exception).startswith("error: expected less nesting\n"))

    def test_brackets_and_levels_count(self):
        """Brackets around a node count together with the levels below it, of which a scope has none."""
        chain = "a and " * 1023 + "a"
        for operand, levels in [("$", 0), ("x", 1), ("a.b.c", 3), (chain, 11)]:
            with self.subTest(operand[:6]):
                most = 200 - levels
                vx.fmt("(" * most + operand + ")" * most)
                with self.assertRaises(vx.UnreadError) as caught:
                    vx.fmt("(" * (most + 1) + operand + ")" * (most + 1))
                self.assertTrue(str(caught.exception).startswith("error: expected less nesting\n"))
        self.assert_is_too_deep("(" * 50_000 + "x" + ")" * 50_000, 200)


class Sizes(unittest.TestCase):
    def test_many_bytes_that_are_read(self):
        for part in ("a or ", "a and ", " ", "-- a comment\n", "-- (\n\n"):
            with self.subTest(part):
                vx.fmt(part * (BYTES // len(part)) + "a")

    def test_many_bytes_that_are_not(self):
        for part in (
            "a + ",
            "not ",
            "a ",
            "9",
            "a{b}",
            "a::i32 + ",
            "\u00e9",
            "`",
            '"',
            "case ",
            "a between b and ",
        ):
            with self.subTest(part), self.assertRaises(vx.UnreadError):
                vx.fmt(part * (BYTES // len(part.encode())) + "a")

    def test_many_bytes_of_one_node(self):
        for text in (
            "[" + "1, " * 30_000 + "1]::list(u8)",
            '"' + '""' * 100_000 + '"',
            "pack(" + "a: $, " * 20_000 + "a: $)",
        ):
            with self.subTest(text[:8]):
                self.assertEqual(vx.fmt(text), text)


class Again(unittest.TestCase):
    def test_what_is_written_is_read_again(self):
        case = "CASE WHEN ($.x > 0i32) THEN 10i32 WHEN ($.x > 3i32) THEN 20i32 ELSE 30i32 END"
        cast = "fixed_size_list({a=i32, `b c`=utf8?})[4294967295]"
        pack = 'pack(`two words`: $.a, b: "say ""hi""", c: 0x00ff)?'
        pairs = "vortex.case_when[case_when(pairs=4294967295, else=false)]()"
        for text, wanted in [
            ("$", "$"),
            ("x >= null::i32? and x <= 5", "(($.x >= null::i32?) and ($.x <= 5i32))"),
            (pack, pack),
            ("case when x > 0 then 10 when x > 3 then 20 else 30 end", case),
            (f"cast(x as {cast})", f"cast($.x as {cast})"),
            (pairs, pairs),
            ("[1, 2]::list(i32?)", "[1, 2]::list(i32?)"),
            ("$.s{~ a, `b c`}", "$.s{~ a, `b c`}"),
        ]:
            with self.subTest(text):
                self.assertEqual(vx.fmt(text), wanted)
                self.assertEqual(vx.fmt(wanted), wanted)


if __name__ == "__main__":
    unittest.main()
