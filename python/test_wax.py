"""Tests of `wax`. Expected results are those of the pages LANGUAGE, ERRORS, GUIDE, IGNORE, QUERIES and WALKS in docs/, of the
manual page of `globs`, of `re`, or of `pathlib`. The examples in the module are run, too. tests/python runs all of this with the
extension and without it. tests/walking has more tests of walks."""

import concurrent.futures
import contextlib
import copy
import ctypes
import doctest
import functools
import gc
import importlib
import inspect
import itertools
import multiprocessing
import os
import pathlib
import pickle
import random
import re
import resource
import subprocess
import sys
import tempfile
import threading
import unittest
import weakref
from unittest import mock

import wax


def load_tests(loader, tests, pattern):
    return unittest.TestSuite([doctest.DocTestSuite(wax), tests])


class Matching(unittest.TestCase):
    def test_match(self):
        self.assertTrue(wax.is_match("**/*.png", "a/b.png"))
        self.assertFalse(wax.is_match("*.png", "a/b.png"))
        self.assertTrue(wax.is_match("", ""))
        glob = wax.Glob("src/**/*.{rs,toml}")
        self.assertTrue(glob.is_match("src/a/b.rs"))
        self.assertFalse(glob.is_match("src/a/b.c"))
        self.assertEqual(repr(glob), "Glob('src/**/*.{rs,toml}')")

    def test_text(self):
        self.assertTrue(wax.Glob("?é*").is_match("€é"))
        self.assertTrue(wax.Glob("a*").is_match("a\0b"))
        with self.assertRaises(wax.Error) as raised:
            wax.Glob("*").is_match("\ud800")
        self.assertEqual(raised.exception.number, 20)

    def test_errors_of_calls(self):
        glob, patterns, ignored = wax.Glob("*"), wax.GlobSet(["*"]), wax.IgnoreList("*")
        calls = [glob.goes_on, glob.matched, patterns.is_match, patterns.matches, patterns.goes_on]
        calls += [ignored.is_ignored, ignored.excludes_below, ignored.deciding_line, wax.escape]
        for call in calls:
            with self.subTest(call), self.assertRaises(wax.Error) as raised:
                call("\ud800")
            self.assertEqual(raised.exception.number, 20)

    def test_long_paths(self):
        glob = wax.Glob("<a:1,>/*")
        for length in range(500, 520):
            self.assertTrue(glob.is_match("a" * (length - 1) + "/"))
            self.assertTrue(glob.is_match("a" * (length - 2) + "/é"))
            self.assertFalse(glob.is_match("a" * length))

    def test_filter(self):
        paths = ["src/a.rs", "README", "", "src/x/y.toml", "src/a\nb.rs", "src/z.c", "src/é.rs"]
        glob = wax.Glob("src/**/*.{rs,toml}")
        wanted = ["src/a.rs", "src/x/y.toml", "src/a\nb.rs", "src/é.rs"]
        self.assertEqual(list(glob.filter(paths)), wanted)
        self.assertEqual(list(glob.filter(iter(paths))), wanted)
        self.assertEqual(list(glob.filter([])), [])
        self.assertEqual(list(wax.Glob("").filter(["", "a", ""])), ["", ""])

    def test_filter_in_chunks(self):
        paths = [f"{'d' * (number % 7)}/{number}.{'rs' if number % 3 else 'c'}" for number in range(50_000)]
        wanted = [path for path in paths if re.fullmatch(r"[^/]*/[^/]*\.rs", path)]
        self.assertEqual(list(wax.Glob("*/*.rs").filter(paths)), wanted)


class Capturing(unittest.TestCase):
    def test_captures(self):
        for expression, path, captures in [
            ("src/**/*.{c,rs}", "src/net/tcp.c", ("net/", "tcp", "c")),
            ("src/**/*.rs", "src/token/mod.rs", ("token/", "mod")),
            ("src/**/*.rs", "src/mod.rs", ("", "mod")),
            ("a", "a", ()),
            ("", "", ()),
            ("?é*", "€é銀", ("€", "銀")),
        ]:
            with self.subTest(expression):
                matched = wax.Glob(expression).matched(path)
                self.assertEqual(matched.captures, captures)
                self.assertEqual(matched.text, path)
                self.assertEqual([matched[index] for index in range(len(captures) + 1)], [path, *captures])
                for index in (-1, len(captures) + 1):
                    with self.assertRaises(IndexError):
                        matched[index]

    def test_spans(self):
        for expression, path, spans in [
            ("src/**/*.{c,rs}", "src/net/tcp.c", [(0, 13), (4, 8), (8, 11), (12, 13)]),
            ("src/**/*.rs", "src/mod.rs", [(0, 10), (4, 4), (4, 7)]),
            ("?é*", "€é銀", [(0, 3), (0, 1), (2, 3)]),
            ("é/**", "é/🐢/b", [(0, 5), (2, 5)]),
            ("a/**", "a", [(0, 1), (1, 1)]),
            ("", "", [(0, 0)]),
        ]:
            with self.subTest(expression):
                matched = wax.Glob(expression).matched(path)
                numbers = range(len(spans))
                self.assertEqual([matched.span(number) for number in numbers], spans)
                self.assertEqual([(matched.start(number), matched.end(number)) for number in numbers], spans)
                self.assertEqual([path[start:end] for start, end in spans], [matched[number] for number in numbers])
                self.assertEqual((matched.span(), matched.start(), matched.end()), (spans[0], *spans[0]))
                for index in (-1, len(spans)):
                    for call in (matched.span, matched.start, matched.end):
                        with self.assertRaises(IndexError):
                            call(index)

    def test_spans_beside_re(self):
        glob, expression = wax.Glob("*é?<b:1,>{c,d}"), re.compile("([^/]*)é([^/])(b+)([cd])")
        for path in ["aéxbbc", "ééébd", "€🐢éé🐢bbbbd", "éébc"]:
            matched, other = glob.matched(path), expression.fullmatch(path)
            for number in range(5):
                self.assertEqual(matched.span(number), other.span(number), path)
                self.assertEqual(matched.start(number), other.start(number), path)
                self.assertEqual(matched.end(number), other.end(number), path)

    def test_repr(self):
        matched = wax.Glob("a/*").matched("a/b")
        self.assertEqual(repr(matched), "Matched('a/b', ((2, 3),))")
        self.assertEqual(eval(repr(matched), {"Matched": wax.Matched}).captures, ("b",))

    def test_no_match(self):
        self.assertIsNone(wax.Glob("src/**/*.rs").matched("src/mod.c"))
        self.assertIsNone(wax.Glob("").matched("a"))


class Escaping(unittest.TestCase):
    def test_escape(self):
        self.assertEqual(wax.escape("?*$:<>()[]{},"), r"\?\*\$\:\<\>\(\)\[\]\{\}\,")
        for text in ["", "a/b", "{a,b}*", "é<1>"]:
            glob = wax.Glob(wax.escape(text))
            self.assertTrue(glob.is_match(text))
            self.assertEqual(glob.text, text)


class Queries(unittest.TestCase):
    def test_depth(self):
        for expression, depth in [
            ("a", (1, 1)),
            ("a/", (1, 1)),
            ("*", (1, 1)),
            ("{a,*}", (1, 1)),
            ("a/*", (2, 2)),
            ("{a/b}", (2, 2)),
            ("x<a/:3>", (3, 3)),
            ("x{a,a/b}", (1, 2)),
            ("a/**/b", (2, None)),
            ("**", (0, None)),
            ("", (0, 0)),
        ]:
            with self.subTest(expression):
                self.assertEqual(wax.Glob(expression).depth, depth)

    def test_text(self):
        for expression, text in [("a", "a"), ("[a]", "a"), ("<a/:3>x", "a/a/a/x"), ("{é,é}", "é"), ("a*", None), ("", "")]:
            with self.subTest(expression):
                self.assertEqual(wax.Glob(expression).text, text)

    def test_root_and_exhaustiveness(self):
        for expression, has_root in [("/a", True), ("/**", True), ("**", False), ("a", False)]:
            with self.subTest(expression):
                self.assertIs(wax.Glob(expression).has_root, has_root)
        for expression, is_exhaustive in [
            ("**", True),
            ("a/**", True),
            ("{a/**,b/**}", True),
            ("x<a/**:0,1>", False),
            ("{a/**,**/b}", False),
            ("", False),
            ("a/*", False),
        ]:
            with self.subTest(expression):
                self.assertIs(wax.Glob(expression).is_exhaustive, is_exhaustive)

    def test_partition(self):
        for expression, prefix, shown, matches, others in [
            ("src/*.rs", "src/", "*.rs", ["a.rs"], ["b/a.rs", "src/a.rs"]),
            ("src/**", "src", "**", ["", "a/b"], []),
            ("src/{a/*.rs}", "src/a/", "*.rs", ["b.rs"], ["a/b.rs"]),
            ("(?i)a/b/*", "", "(?i)a/b/*", ["A/B/c"], ["c"]),
            ("</**/a:1>", "/", "**/a", ["a", "b/a"], ["a/b"]),
        ]:
            with self.subTest(expression):
                found, rest = wax.Glob(expression).partition()
                self.assertEqual(found, prefix)
                self.assertEqual(list(rest.filter(matches + others)), matches)
                self.assertEqual(rest.expression, shown)
        self.assertEqual(wax.Glob("a/b").partition(), ("a/b", None))
        self.assertEqual(wax.Glob("src/*.rs").partition()[1].matched("é.rs").captures, ("é",))

    def test_goes_on_over_characters(self):
        # a class that leaves no character but `/` is taken by no text
        for expression, answer in [
            ("x/[!\0-\U0010ffff]", False),
            ("x/[!\0-.0-\U0010ffff]", False),
            ("x/[!\0-.0-\ud7ff\ue000-\U0010ffff]", False),
            ("x/[!\0-.1-\U0010ffff]", True),
            ("x/[!\1-\U0010ffff]", True),
            ("x/[!\0-\U0010fffe]", True),
            ("x/[!\0-\ud7fe\ue000-\U0010ffff]", True),
        ]:
            self.assertIs(wax.Glob(expression).goes_on("x"), answer, expression)
            self.assertIs(wax.GlobSet([expression]).goes_on("x"), answer, expression)

    def test_goes_on(self):
        for expression, true_for, false_for in [
            ("src/*/tests/*.rs", ["", "src", "src/net", "src/net/tests"], ["doc", "src/net/tests/a.rs"]),
            ("a/b", ["", "a", "a/"], ["a//", "/a", "a/b"]),
            ("a/*/", [], ["", "a", "a/b"]),
            ("/usr/**", ["/", "/usr", "/usr/lib"], ["", "usr"]),
        ]:
            for made in (wax.Glob(expression), wax.GlobSet(["x", expression])):
                with self.subTest(made):
                    for folder in true_for:
                        self.assertIs(made.goes_on(folder), True, folder)
                    for folder in false_for:
                        self.assertIs(made.goes_on(folder), folder == "" and isinstance(made, wax.GlobSet), folder)


    def test_warnings(self):
        dots, dot = (f"`{text}` is matched as a text and stands for no folder" for text in ("..", "."))
        separator = "the separator at the end matches only paths that end with one"
        for expression, warnings in [
            ("a/b", []),
            ("", []),
            ("../a/", [(dots, (0, 2)), (separator, (4, 5))]),
            ("é/./{€/..,c}/", [(dot, (2, 3)), (dots, (7, 9)), (separator, (12, 13))]),
            ("(?i)./a", [(dot, (0, 5))]),
        ]:
            with self.subTest(expression):
                found = wax.Glob(expression).warnings
                self.assertEqual(found, warnings)
                self.assertTrue(all(isinstance(it, wax.GlobWarning) for it in found))

    def test_sets(self):
        for expressions, depth, text, has_root, is_exhaustive in [
            (["src/*/mod.rs", "a/b"], (2, 3), None, False, False),
            (["/a/**", "/b/**"], (1, None), None, True, True),
            (["/a", "b/**"], (1, None), None, False, False),
            (["a/[b]", "a/b"], (2, 2), "a/b", False, False),
            (["é" * 200], (1, 1), "é" * 200, False, False),
            ([], (0, 0), "", False, False),
        ]:
            with self.subTest(expressions):
                globs = wax.GlobSet(expressions)
                self.assertEqual((globs.depth, globs.text), (depth, text))
                self.assertEqual((globs.has_root, globs.is_exhaustive), (has_root, is_exhaustive))


class Sets(unittest.TestCase):
    def test_matches(self):
        owners = wax.GlobSet(["src/**", "**/*.rs", "{docs/**,**/*.md}"])
        self.assertEqual(repr(owners), "GlobSet(['src/**', '**/*.rs', '{docs/**,**/*.md}'])")
        for path, which in [("src/main.rs", [0, 1]), ("docs/intro.md", [2]), ("LICENSE", [])]:
            self.assertEqual(owners.matches(path), which)
            self.assertIs(owners.is_match(path), bool(which))

    def test_many(self):
        patterns = wax.GlobSet(f"**/{number}*" for number in range(100))
        self.assertEqual(patterns.matches("a/17b"), [1, 17])
        self.assertEqual(wax.GlobSet(["a"] * 70).matches("a"), list(range(70)))

    def test_filter(self):
        paths = ["src/a.rs", "README", "docs/a\nb", "é", "src/main.rs"]
        patterns = wax.GlobSet(["src/**", "docs/**", "?"])
        self.assertEqual(list(patterns.filter(paths)), ["src/a.rs", "docs/a\nb", "é", "src/main.rs"])
        kept = patterns.filter(iter(paths))
        self.assertEqual((next(kept), list(kept)), ("src/a.rs", ["docs/a\nb", "é", "src/main.rs"]))
        self.assertEqual(list(patterns.filter([])), [])
        with self.assertRaises(wax.Error) as raised:
            list(patterns.filter(["a", "\ud800"]))
        self.assertEqual(raised.exception.number, 20)

    def test_none(self):
        patterns = wax.GlobSet([])
        self.assertFalse(patterns.is_match(""))
        self.assertFalse(patterns.goes_on(""))
        self.assertEqual(patterns.matches("a"), [])

    def test_error(self):
        with self.assertRaises(wax.BuildError) as raised:
            wax.GlobSet(["a", "é//b", "{"])
        error = raised.exception
        self.assertEqual((error.number, error.expression, error.span), (2, "é//b", (1, 3)))
        with self.assertRaises(wax.Error) as raised:
            wax.GlobSet(["<a*:100000>"] * 6)
        self.assertEqual(raised.exception.number, 9)


class Comparing(unittest.TestCase):
    def test_rows(self):
        """Rows of data/worked_compare.tsv of the crate wax_vectors."""
        for call, first, second, answer in [
            (wax.overlap, "**", "**", "a"),
            (wax.difference, "**", "**/a", "b"),
            (wax.difference, "**/a", "a/**", "b/a"),
            (wax.difference, "a/**", "**/a", "a/b"),
            (wax.difference, "a/**", "a/*", "a"),
            (wax.difference, "a/**", "{a,a/*}", "a/a/a"),
            (wax.difference, "a/**/b", "{a/b,a/*/b}", "a/a/a/b"),
            (wax.difference, "**/a/**", "{**/a,a/**}", "b/a/b"),
            (wax.difference, "**", "{a,b}/**", "c"),
            (wax.overlap, "/**", "**/a", None),
            (wax.overlap, "/usr/**", "**", None),
            (wax.difference, "/usr/**", "a", None),
            (wax.overlap, "<a/:2>", "**", None),
            (wax.difference, "**/b", "<a/:0,>b", "b/b"),
            (wax.difference, "<a:0,>", "a*", None),
            (wax.difference, "a*", "<a:0,>", "ab"),
            (wax.difference, "<[ab]/:1,2>c", "*/c", "a/a/c"),
            (wax.overlap, "<[z-a]:0,>", "**", None),
            (wax.overlap, "", "*", None),
            (wax.difference, "**", "*", "a/a"),
            (wax.difference, "**", "?", "aa"),
            (wax.difference, "*/a", "?*/a", None),
            (wax.overlap, "a/", "a/**", None),
            (wax.overlap, "a\n*", "**/?\nb", "a\nb"),
            (wax.difference, "**", "[!\n]", "\n"),
            (wax.overlap, "src/**/*.{go,rs}", "**/test_*", "src/test_.go"),
            (wax.overlap, "**/test_*", "src/**/*.{go,rs}", "src/test_.go"),
            (wax.overlap, "target/**", "**/*.o", "target/.o"),
            (wax.overlap, "**/*.o", "target/**", "target/.o"),
            (wax.overlap, "src/**/*.{go,rs}", "src/**/*.{go,rs}", "src/.go"),
            (wax.difference, "src/**/*.{go,rs}", "src/**/*.{go,rs}", None),
            (wax.compare, "**/a", "a/**", "a/b"),
            (wax.compare, "a/**", "**/a", "a/b"),
            (wax.compare, "a/*", "a/**", "a"),
            (wax.compare, "{a,a/*}", "a/**", "a/a/a"),
            (wax.compare, "/**", "/a", None),
            (wax.compare, "**/*a<?:20>", "**/*b<?:20>", wax.Unknown),
            (wax.overlap, "**/*a<?:20>", "**/*b<?:20>", wax.Unknown),
            (wax.difference, "**/*a<?:20>", "**/*b<?:20>", wax.Unknown),
            (wax.overlap, "**/*a<?:6>", "**/*b<?:6>", None),
            (wax.overlap, "**/*a<?:3>", "**/*b<?:2>", "abaa"),
        ]:
            one, other = wax.Glob(first), wax.Glob(second)
            method = getattr(one, call.__name__)
            for compared in [
                lambda: call(first, second),
                lambda: call(one, other, most_states=wax.MOST_STATES),
                lambda: method(second),
                lambda: method(other, most_states=100_000),
            ]:
                with self.subTest((call, first, second)):
                    self.check(compared, answer)
            if call is wax.overlap:
                self.check_sets(([first], [second], answer))

    def check(self, compared, answer):
        if answer is wax.Unknown:
            with self.assertRaises(wax.Unknown):
                compared()
        else:
            self.assertEqual(compared(), answer)

    def check_sets(self, *rows):
        for first, second, answer in rows:
            one, other = wax.GlobSet(first), wax.GlobSet(second)
            calls = [lambda: wax.overlap(one, other), lambda: one.overlap(other, most_states=wax.MOST_STATES)]
            if len(second) == 1:
                calls += [lambda: one.overlap(*second), lambda: one.overlap(wax.Glob(*second))]
            if len(first) == 1:
                calls += [lambda: wax.overlap(*first, other), lambda: wax.Glob(*first).overlap(other)]
            for number, compared in enumerate(calls):
                with self.subTest((number, first, second)):
                    self.check(compared, answer)

    def test_sets(self):
        """Rows of data/worked_compare.tsv of the crate wax_vectors, and others."""
        names = [f"n{number:02}" for number in range(100)]
        others = [f"m{number:02}" for number in range(100)]
        self.check_sets(
            (["a", "b"], ["b", "c"], "b"),
            (["a", "b"], ["c", "d"], None),
            (names, others, None),
            (names, [*others[:-1], "n57"], "n57"),
            ([], ["**"], None),
            ([], [], None),
            (["**"], ["a/b/c", "é"], "é"),
            (["?/*", "*.md", "/**"], ["/a", "**/Rea*", "b*"], "b.md"),
            (["src/**", "a\n*"], ["a\nb", "[!a-z]"], "a\nb"),
            (["a", "**/*a<?:20>"], ["**/*b<?:20>"], wax.Unknown),
            (["é" * 3000, "b"], ["c", "é*"], "é" * 3000),
        )

    def test_overlap_with_itself(self):
        rest = wax.Glob("(?i)1/*.rs").partition()[1]
        none = wax.Glob("src/<[z-a]:1,2>").partition()[1]
        for it, answer in [
            (wax.Glob("src/**/*.rs"), "src/.rs"),
            (wax.GlobSet(["src/**/*.rs", "*.go"]), ".go"),
            (wax.GlobSet([]), None),
            (wax.GlobSet(["/**", ""]), None),
            (rest, ".rs"),
            (none, None),
        ]:
            for other in (it, *(copied(it) for copied in COPIES)):
                with self.subTest(it):
                    found = it.overlap(other)
                    self.assertEqual(found and found.lower(), answer)
                    self.assertEqual(wax.overlap(other, it), found)
            if not isinstance(it, wax.GlobSet):
                continue
            with self.assertRaises(wax.Unknown) as raised:
                it.overlap(it, most_states=0)
            self.assertEqual(raised.exception.most_states, 0)

    def test_rests(self):
        """A rest matches what its glob matches after the prefix."""
        for expression, other, far, answer in [
            ("src/*/mod.rs", "net/**", "far/n?t/**", "net/mod.rs"),
            ("src/**/*.rs", "**/test_*", "far/**/test_*", "test_.rs"),
            ("src/{a,b}/*", "b/c", "far/{b,c}/c", "b/c"),
            ("src/{a,b}/*", "c/**", "far/[c-e]/**", None),
            ("(?i)1/x*.RS", "(?i)*.rs", "far/*.[rR]s", "x.rs"),
            ("a/**/*a<?:20>", "**/*b<?:20>", "b/**/*b<?:20>", wax.Unknown),
        ]:
            rest, beside = wax.Glob(expression).partition()[1], wax.Glob(far).partition()[1]
            glob = wax.Glob(other)
            for one, two in [(rest, other), (rest, glob), (glob, rest), (other, rest), (rest, beside), (beside, rest)]:
                with self.subTest((one, two)):
                    if answer in (None, wax.Unknown):
                        self.check(lambda: wax.overlap(one, two), answer)
                        continue
                    path = wax.overlap(one, two)
                    self.assertEqual(len(path), len(answer))
                    for it in (one, two):
                        self.assertTrue(wax.is_match(it, path) if isinstance(it, str) else it.is_match(path), path)
        self.assertEqual(wax.Glob("src/*/mod.rs").partition()[1].overlap("net/**", most_states=1_000), "net/mod.rs")

    def test_differences_by_handles(self):
        """Sets of one expression, and rests, differ as expressions do."""
        for first, second in [
            ("src/**", "**/*.rs"),
            ("é?", "?è*"),
            ("a/*/b", "a/*/{b,c}"),
            ("{a,b}", "[ab]"),
            ("/a/**", "[z-a]"),
            ("**/*a<?:20>", "**/*b<?:20>"),
        ]:
            for name in ("difference", "compare"):
                for one, other in [(first, second), (second, first), (first, first)]:
                    call = getattr(wax, name)
                    try:
                        wanted = call(one, other, most_states=1000)
                    except wax.Unknown:
                        wanted = wax.Unknown
                    rests = [wax.Glob(f"x/{it}").partition()[1] for it in (one, other) if it[:1] not in "/"]
                    pairs = [(wax.GlobSet([one]), it) for it in (other, wax.Glob(other), wax.GlobSet([other]))]
                    pairs += [(it, wax.GlobSet([other])) for it in (one, wax.Glob(one))]
                    if len(rests) == 2:
                        pairs += [rests] if "?" in first or "[" in second else []
                    for pair in pairs:
                        with self.subTest((name, pair)):
                            if wanted is wax.Unknown:
                                with self.assertRaises(wax.Unknown):
                                    call(*pair, most_states=1000)
                            else:
                                found = call(*pair, most_states=1000)
                                self.assertEqual(found and len(found), wanted and len(wanted))
        for it in (wax.Glob("a*"), wax.GlobSet(["a*", "b"]), wax.Glob("a/b*").partition()[1], wax.IgnoreList("a*\n!ab\n")):
            self.assertIsNone(it.difference(it))
            self.assertIsNone(it.compare(it, most_states=0) if not isinstance(it, wax.Glob) else it.compare(it))

    def test_witnesses(self):
        """What is found matches as it should."""
        for first, second in [("src/**", "**/*.rs"), ("é?", "?è*"), ("a*", "*b"), ("[a-c]/x", "[b-d]/x"), ("(?i)ab", "Ab")]:
            one, other = wax.Glob(first), wax.Glob(second)
            both, left = one.overlap(other), one.difference(other)
            right, lone = other.difference(one), one.compare(other)
            for path, matches, matches_other in [(both, True, True), (left, True, False), (right, False, True)]:
                if path is not None:
                    self.assertEqual((one.is_match(path), other.is_match(path)), (matches, matches_other), path)
            self.assertIsNotNone(both)
            self.assertNotEqual(one.is_match(lone), other.is_match(lone))
            self.assertEqual(len(lone), min(len(path) for path in (left, right) if path is not None))

    def test_errors(self):
        for call in (wax.overlap, wax.difference, wax.compare):
            for arguments, number, expression, span in [
                (("é//b", "{"), 2, "é//b", (1, 3)),
                (("a", "é//b"), 2, "é//b", (1, 3)),
                (("a", "<a*:1000000>"), 9, "<a*:1000000>", None),
            ]:
                with self.subTest(arguments), self.assertRaises(wax.BuildError) as raised:
                    call(*arguments)
                error = raised.exception
                self.assertEqual((error.number, error.expression, error.span), (number, expression, span))
            with self.assertRaises(wax.Error) as raised:
                call("a", "\ud800")
            self.assertEqual(raised.exception.number, 20)
            with self.assertRaisesRegex(ValueError, "negative"):
                call("a", "a", most_states=-1)
            with self.assertRaises(TypeError):
                call("a", None)
        rest, patterns = wax.Glob("(?i)src/*.rs").partition()[1], wax.GlobSet(["src/**"])
        for name in ("overlap", "difference", "compare"):
            for call, *arguments in [(getattr(wax, name), rest, patterns), (getattr(wax.GlobSet, name), patterns, rest)]:
                with self.assertRaisesRegex(ValueError, "the rest of a partition is compared only with globs"):
                    call(*arguments)
            for one in (patterns, rest):
                for other, number in [("é//b", 2), ("{", 1), ("<a*:1000000>", 9)]:
                    for arguments in [(one, other), (other, one)]:
                        with self.subTest(arguments), self.assertRaises(wax.Error) as raised:
                            getattr(wax, name)(*arguments)
                        self.assertEqual(raised.exception.number, number)
                with self.assertRaises(wax.Error) as raised:
                    getattr(one, name)("\ud800")
                self.assertEqual(raised.exception.number, 20)
                for wrong in (None, b"a", ["a"], wax.IgnoreList("a")):
                    with self.subTest(wrong), self.assertRaises(TypeError):
                        getattr(one, name)(wrong)
                for other in ("a", one):
                    with self.assertRaisesRegex(ValueError, "negative"):
                        getattr(one, name)(other, most_states=-1)

    def test_limits(self):
        with self.assertRaises(wax.Unknown) as raised:
            wax.overlap("a", "a", most_states=0)
        self.assertEqual(raised.exception.most_states, 0)
        self.assertNotIsInstance(raised.exception, wax.Error)
        self.assertEqual(wax.overlap("a", "a", most_states=2**100), "a")
        self.assertEqual(wax.GlobSet(["a"]).overlap("a", most_states=2**100), "a")
        with self.assertRaises(wax.Unknown) as raised:
            wax.GlobSet(["a", "aa"]).overlap("?a", most_states=2)
        self.assertEqual(raised.exception.most_states, 2)
        with self.assertRaises(wax.Unknown) as raised:
            wax.Glob("**/*a<?:20>").compare("**/*b<?:20>", most_states=100)
        for copied in COPIES:
            other = copied(raised.exception)
            self.assertEqual((str(other), other.most_states), (str(raised.exception), 100))

    def test_long_path(self):
        """A path that needs more than the first output."""
        long = f"<{'é' * 100}:40>"
        self.assertEqual(wax.overlap(long, "**"), "é" * 4000)
        self.assertEqual(wax.Glob(f"a/?{long}").partition()[1].overlap("é*"), "é" * 4001)


class Errors(unittest.TestCase):
    def test_numbers(self):
        for expression, number in [
            ("a/{b,c", 1),
            ("a//b", 2),
            ("{a/,b}/c", 2),
            ("<a:10,9>", 3),
            ("{a,**}", 4),
            ("{a$,b}*", 5),
            ("{okay,/error}", 6),
            ("<*:1,>", 7),
            ("<a:65536>", 8),
            ("<a*:1000000>", 9),
        ]:
            with self.subTest(expression), self.assertRaises(wax.BuildError) as raised:
                wax.Glob(expression)
            self.assertEqual(raised.exception.number, number)
            self.assertEqual(raised.exception.expression, expression)
            self.assertEqual(raised.exception.span is None, number == 9)

    def test_span(self):
        """Spans are in characters here, though the library's are in bytes."""
        for expression, span in [("a//b", (1, 3)), ("é//**/a", (1, 6)), ("***", (0, 1))]:
            with self.subTest(expression), self.assertRaises(wax.BuildError) as raised:
                wax.Glob(expression)
            self.assertEqual(raised.exception.span, span)
            self.assertIsInstance(raised.exception, ValueError)

    def test_picture(self):
        with self.assertRaises(wax.BuildError) as raised:
            wax.Glob("{a/,b}/c")
        picture = "{a/,b}/c\n^^^^^^ in this alternation\n      ^ here\n  ^ here\n"
        self.assertEqual(raised.exception.picture, picture)
        self.assertEqual(f"{raised.exception}\n", f"adjacent component boundaries `/` or `**`\n{picture}")
        with self.assertRaises(wax.BuildError) as raised:
            wax.Glob("<a*:1000000>")
        self.assertEqual((raised.exception.picture, str(raised.exception)), ("", "oversized program"))


class Ignoring(unittest.TestCase):
    def test_list(self):
        ignored = wax.IgnoreList("# logs\n**/*.log\n!x/**\n")
        for path, wanted in [("a.log", True), ("y/b.log", True), ("x/a.log", False), ("a", False)]:
            self.assertIs(ignored.is_ignored(path), wanted)

    def test_filter(self):
        ignored = wax.IgnoreList("**/*.log\n!keep.log\n")
        paths = ["a/b.log", "src/lib.rs", "keep.log"]
        self.assertEqual(list(ignored.filter(paths)), ["src/lib.rs", "keep.log"])
        self.assertEqual(list(ignored.filter(["a\nb.log", *paths, "a\nb"])), ["src/lib.rs", "keep.log", "a\nb"])
        many = [f"{number}.{'log' if number % 3 else 'c'}" for number in range(10_000)]
        self.assertEqual(list(ignored.filter(many)), [path for path in many if path.endswith(".c")])

    def test_excludes_below(self):
        for text, true_for, false_for in [
            ("target/**", ["target", "target/debug"], ["", "src"]),
            ("**/out/**", ["out", "a/out", "a/out/b"], ["", "a"]),
            ("{a/**,b/*}", ["a", "a/c"], ["b", "b/c"]),
            ("**/*.o", [], ["", "a.o"]),
            ("target/**\n!target/keep", [], ["", "target", "target/debug"]),
            ("!target/keep\ntarget/**", ["target", "target/debug"], ["", "src"]),
        ]:
            ignored = wax.IgnoreList(text)
            with self.subTest(text):
                self.assertEqual([it for it in true_for + false_for if ignored.excludes_below(it)], true_for)

    def test_lines(self):
        for text, idle, tidied in [
            ("", [], ""),
            ("# none\n\n", [], "# none\n\n"),
            ("a\nb", [], "a\nb"),
            ("docs/*.o\n!keep.c\n**/*.o\n", [0, 1], "**/*.o\n"),
            ("# built\r\n**/*.o\r\n\r\ndocs/a\r\n!docs/a", [1], "# built\r\n**/*.o\r\n\r"),
            ("a\na\n\na\n", [0, 1], "\na\n"),
            ("!a\n/b\n", [0, 1], ""),
        ]:
            ignored = wax.IgnoreList(text)
            with self.subTest(text):
                self.assertEqual((ignored.idle_lines(), ignored.undecided_lines()), (idle, []))
                self.assertEqual(ignored.tidied(), wax.IgnoreList(tidied))
                self.assertIsNone(ignored.tidied().compare(ignored))
        ignored = wax.IgnoreList("docs/*.o\n# none\n**/*.o\n")
        self.assertEqual((ignored.idle_lines(most_states=0), ignored.undecided_lines(most_states=0)), ([], [0, 1]))
        self.assertEqual(ignored.tidied(most_states=0), ignored)
        for call in (ignored.idle_lines, ignored.undecided_lines, ignored.tidied):
            with self.assertRaisesRegex(ValueError, "negative"):
                call(most_states=-1)
            with self.assertRaises(TypeError):
                call(1000)

    def test_compared(self):
        first, second = wax.IgnoreList("**/*.log\n!keep.log\n"), wax.IgnoreList("**/*.log\n")
        self.assertEqual((first.difference(second), second.difference(first)), (None, "keep.log"))
        self.assertEqual((first.compare(second), second.compare(first)), ("keep.log", "keep.log"))
        self.assertEqual((first.overlap(second), first.overlap(first)), (".log", ".log"))
        self.assertIsNone(wax.IgnoreList("!a\n").overlap(first))
        self.assertIsNone(first.compare(wax.IgnoreList("!a\n**/{?,a}*.log\n**/.log\n!keep.log\n")))
        for call in (first.overlap, first.difference, first.compare):
            with self.assertRaises(wax.Unknown) as raised:
                call(second, most_states=0)
            self.assertEqual(raised.exception.most_states, 0)
            with self.assertRaisesRegex(ValueError, "negative"):
                call(first, most_states=-1)
            for wrong in (None, "a", wax.Glob("a")):
                with self.assertRaisesRegex(TypeError, "an ignore list is compared with another one"):
                    call(wrong)

    def test_compared_at_random(self):
        """Over all short paths, a path that is found is a shortest one, and there is none if none is found."""
        draws = random.Random(78)
        names = ["".join(letters) for length in (1, 2) for letters in itertools.product("ab.", repeat=length)]
        paths = sorted([*names, *(f"{one}/{other}" for one in names[:3] for other in names[:3])], key=len)
        globs = ["a", "b", "*", "**/a", "a*", "*b", "a/**", "*/b", "**/.*", "[ab]", "?", "{a,b}/a", "**"]
        found = 0
        for _ in range(300):
            one, other = (
                wax.IgnoreList("".join(f"{draws.choice(['', '', '!'])}{draws.choice(globs)}\n" for _ in range(draws.randrange(5))))
                for _ in range(2)
            )
            for name, wanted in [
                ("overlap", lambda a, b: a and b),
                ("difference", lambda a, b: a and not b),
                ("compare", lambda a, b: a != b),
            ]:
                path = getattr(one, name)(other)
                least = next((it for it in paths if wanted(one.is_ignored(it), other.is_ignored(it))), None)
                with self.subTest((name, one, other)):
                    if path is None:
                        self.assertIsNone(least)
                        continue
                    found += 1
                    self.assertTrue(wanted(one.is_ignored(path), other.is_ignored(path)))
                    self.assertTrue(least is None or len(path) <= len(least))
            self.assertIsNone(one.compare(one.tidied()))
        self.assertGreater(found, 300)

    def test_deciding_line(self):
        ignored = wax.IgnoreList("# logs\n**/*.log\n\n!x/**\nbuilt/**\n")
        for path, line in [
            ("a.log", 0),
            ("y/b.log", 0),
            ("x/a.log", 1),
            ("built/a.log", 2),
            ("built/x", 2),
            ("a", None),
            ("", None),
        ]:
            with self.subTest(path):
                self.assertEqual(ignored.deciding_line(path), line)
                self.assertIs(ignored.is_ignored(path), line in (0, 2))
        self.assertIsNone(wax.IgnoreList("").deciding_line("a"))
        with self.assertRaises(TypeError):
            ignored.deciding_line(b"a")

    def test_bad_line(self):
        with self.assertRaises(wax.LineError) as raised:
            wax.IgnoreList("a\n\n{b\n{c\n")
        self.assertEqual((raised.exception.number, raised.exception.line), (1, 3))
        with self.assertRaises(wax.Error) as raised:
            wax.IgnoreList("\ud800")
        self.assertEqual(raised.exception.number, 20)


class Walking(unittest.TestCase):
    """The tree and the walks of docs/WALKS.md."""

    def setUp(self):
        room = tempfile.TemporaryDirectory()
        self.addCleanup(room.cleanup)
        self.root = os.path.realpath(room.name)
        for path in ["doc/guide.md", "src/glob.rs", "src/lib.rs", "tests/harness/mod.rs", "tests/walk.rs", "README.md"]:
            self.add(path)

    def add(self, path):
        file = pathlib.Path(self.root, path)
        file.parent.mkdir(parents=True, exist_ok=True)
        file.touch()

    def walked(self, pattern, **options):
        """Returns the sorted candidates that a walk yields, and those of the folders that it opens."""
        opened, scandir = [], os.scandir

        def opening(folder):
            opened.append("" if folder == self.root else os.path.relpath(folder, self.root))
            return scandir(folder)

        with mock.patch("os.scandir", opening):
            found = [it.candidate for it in wax.walk(self.root, pattern, **options)]
        return sorted(found), sorted(opened)

    def test_rows(self):
        rust = ["src/glob.rs", "src/lib.rs"]
        below_tests = ["tests/harness", "tests/harness/mod.rs", "tests/walk.rs"]
        for pattern, found, opened in [
            ("*/*.rs", [*rust, "tests/walk.rs"], ["", "doc", "src", "tests"]),
            ("src/*", rust, ["src"]),
            ("tests/*", ["tests/harness", "tests/walk.rs"], ["tests"]),
            ("tests", ["tests"], []),
            ("{src,tests}/**", ["src", *rust, "tests", *below_tests], ["", "src", "tests", "tests/harness"]),
            ("*", ["", "README.md", "doc", "src", "tests"], [""]),
            ("{src/*,README.md}", ["README.md", *rust], ["", "src"]),
            ("{doc,src/*}", ["doc", *rust], ["", "src"]),
            ("{src/,README.md}", ["README.md"], [""]),
            ("x<{/}:2>", [], []),
            (wax.GlobSet(["src/*", "README.md"]), ["README.md", *rust], ["", "src"]),
            (wax.GlobSet(["tests/*.rs", "tests/*"]), ["tests/harness", "tests/walk.rs"], ["tests"]),
            (wax.GlobSet(["tests/*.rs", "test"]), ["tests/walk.rs"], ["", "tests"]),
            (wax.GlobSet(["/a/*", "src/*"]), rust, ["", "src"]),
            (wax.GlobSet([]), [], []),
            (wax.Glob("src/*"), rust, ["src"]),
        ]:
            with self.subTest(pattern):
                self.assertEqual(self.walked(pattern), (found, opened))

    def test_depths(self):
        self.assertEqual(
            self.walked("tests/**", min_depth=2, max_depth=2), (["tests/harness", "tests/walk.rs"], ["tests"])
        )
        self.assertEqual(self.walked("src/*", max_depth=0), ([], []))
        self.assertEqual(self.walked("**", max_depth=0), ([""], []))

    def test_excluding(self):
        everything, _ = self.walked("**")
        self.add("#a\n/#b\r")
        for pattern, excluded, unopened in [
            ("tests/**", "tests", ["tests", "tests/harness"]),
            ("tests", None, []),
            ("{tests/**,*.md}", "tests", ["tests", "tests/harness"]),
            ("", None, []),
        ]:
            with self.subTest(pattern):
                kept, opened = self.walked("**", exclude=[pattern, "#*/**", "#a\n", "#a\n/#b\r"])
                lost = [it for it in everything if wax.is_match(pattern, it)]
                self.assertEqual(kept, [it for it in everything if it not in lost])
                self.assertEqual(opened, [it for it in ["", "doc", "src", "tests", "tests/harness"] if it not in unopened])
        self.assertEqual(self.walked("**", exclude="**"), ([], []))
        patterns = [wax.Glob("#*/**"), wax.GlobSet(["**/harness/**", "src/**"])]
        rest = wax.Glob("(?i)1/*.MD").partition()[1]
        self.assertEqual(self.walked("{src,*.md}", exclude=rest)[0], ["src"])
        found = ["doc/guide.md", "tests/walk.rs"]
        self.assertEqual(self.walked("*/*.{md,rs}", exclude=patterns)[0], found)

    def test_ignoring(self):
        ignored = wax.IgnoreList("**/*.rs\n!tests/**\n")
        kept, _ = self.walked("**/*.rs", ignore=ignored)
        self.assertEqual(kept, ["tests/harness/mod.rs", "tests/walk.rs"])
        kept, opened = self.walked("**", ignore=wax.IgnoreList("tests/**\n"), exclude="{doc,src}/**")
        self.assertEqual((kept, opened), (["", "README.md"], [""]))

    def test_errors(self):
        for pattern, kind, path in [
            ("lib/*", FileNotFoundError, "lib"),
            ("README.md/x", NotADirectoryError, "README.md"),
            ("README.md/*", None, None),
        ]:
            errors = []
            self.assertEqual(self.walked(pattern, onerror=errors.append), ([], []))
            self.assertEqual([type(it) for it in errors], [kind] if kind else [])
            self.assertEqual([it.filename for it in errors], [os.path.join(self.root, path)] if path else [])
        self.assertEqual(list(wax.walk(os.path.join(self.root, "nothing"), "**")), [])
        with self.assertRaises(wax.BuildError):
            wax.walk(self.root, "a//b")
        with self.assertRaises(wax.BuildError):
            wax.walk(self.root, "**", exclude=["a", "a//b"])

    def test_folder_that_cannot_be_opened(self):
        scandir, refused = os.scandir, PermissionError(13, "Permission denied")

        def refusing(folder):
            if folder.endswith("src"):
                raise refused
            return scandir(folder)

        errors = []
        with mock.patch("os.scandir", refusing):
            found = [it.candidate for it in wax.walk(self.root, "**/*.rs", onerror=errors.append)]
        self.assertEqual(sorted(found), ["tests/harness/mod.rs", "tests/walk.rs"])
        self.assertEqual(errors, [refused])

    def test_name_that_is_no_text(self):
        os.mkdir(os.fsencode(self.root) + b"/src/\xff")
        errors = []
        self.assertEqual(self.walked("src/*", onerror=errors.append), (["src/glob.rs", "src/lib.rs"], ["src"]))
        self.assertEqual([it.filename for it in errors], [f"{self.root}/src/\udcff"])

    def test_entries(self):
        os.symlink("src", f"{self.root}/link")
        found = {it.candidate: it for it in wax.walk(pathlib.Path(self.root), "**")}
        self.assertNotIn("link/lib.rs", found)
        for path, entry in found.items():
            beside = pathlib.Path(self.root, path)
            self.assertEqual(pathlib.Path(entry), beside)
            self.assertEqual(entry.name, beside.name)
            self.assertEqual(entry.depth, len(beside.parts) - len(pathlib.Path(self.root).parts))
            self.assertEqual((entry.is_dir(), entry.is_file()), (beside.is_dir(), beside.is_file()))
            is_link = beside.is_symlink()
            self.assertEqual(entry.is_symlink(), is_link)
            self.assertEqual(entry.is_dir(follow_symlinks=False), beside.is_dir() and not is_link)
            self.assertEqual(entry.is_file(follow_symlinks=False), beside.is_file() and not is_link)
            self.assertEqual(entry.stat().st_ino, beside.stat().st_ino)
        (start,) = wax.walk(self.root, "link")
        self.assertEqual((start.name, start.is_symlink(), start.is_dir()), ("link", True, True))
        self.assertFalse(start.is_dir(follow_symlinks=False))

    def test_from_the_root(self):
        pattern = f"{wax.escape(self.root)}/src/*"
        self.assertEqual(self.walked(pattern), ([f"{self.root}/src/glob.rs", f"{self.root}/src/lib.rs"], ["src"]))
        (start,) = wax.walk("nowhere", "/*", max_depth=0)
        self.assertEqual((start.candidate, start.path, start.name, start.depth), ("/", "/", "", 0))

    def test_beside_pathlib(self):
        for pattern in ["*/*.rs", "**/*.rs", "src/*", "tests/*/mod.rs", "**/[a-l]*.rs", "t*/**/w*.rs", "*/harness"]:
            with self.subTest(pattern):
                wanted = sorted(str(it) for it in pathlib.Path(self.root).glob(pattern))
                self.assertEqual(sorted(it.path for it in wax.walk(self.root, pattern)), wanted)


def kinds():
    """Returns each type with a handle, with what builds an object, and with what doesn't."""
    sets = (wax.GlobSet, ["src/**", "a"], ["a//b"])
    return [(wax.Glob, "src/**", "a//b"), sets, (wax.IgnoreList, "src/**\n", "a//b\n")]


def deciding(it):
    """Returns the calls of an object that decide something about a path: with the extension, its own ones."""
    return [it.is_ignored, it.excludes_below] if isinstance(it, wax.IgnoreList) else [it.is_match, it.goes_on]


def using(it):
    """Returns calls for everything that uses the handle of an object."""
    calls = [*deciding(it), lambda path: list(it.filter([path]))]
    queries = {
        wax.Glob: ["expression", "depth", "text", "has_root", "is_exhaustive"],
        wax.GlobSet: ["expressions"],
        wax.IgnoreList: ["text"],
    }
    calls += [lambda _, name=name: getattr(it, name) for kind in queries if isinstance(it, kind) for name in queries[kind]]
    if isinstance(it, wax.Glob):
        calls += [it.matched, lambda _: it.partition(), lambda _: str(it)]
    if isinstance(it, (wax.Glob, wax.GlobSet)):
        calls += [it.overlap, it.difference, it.compare, lambda path: wax.GlobSet([path]).overlap(it)]
    if isinstance(it, wax.IgnoreList):
        calls += [it.deciding_line, lambda _: it.idle_lines(), lambda _: it.undecided_lines(), lambda _: it.tidied()]
        others = [it.overlap, it.difference, it.compare]
        calls += [lambda path, call=call: call(wax.IgnoreList(path)) for call in others]
    return calls + ([it.matches] if isinstance(it, wax.GlobSet) else [])


def pickled(protocol):
    """Returns a function that pickles an object by this protocol, and reads it again."""
    return lambda it: pickle.loads(pickle.dumps(it, protocol))


COPIES = [copy.copy, copy.deepcopy, *map(pickled, range(pickle.HIGHEST_PROTOCOL + 1))]


class Named(wax.Glob):
    """A glob with a name and a list, which calls `__init__` of `Glob` with another argument than its own."""

    def __init__(self, name, extension):
        super().__init__(f"**/*.{extension}")
        self.name, self.itself, self.paths = name, self, []


def kept(pattern, paths):
    """Returns which paths a pattern keeps, in another process, and the pattern again."""
    return list(pattern.filter(paths)), pattern


class Values(unittest.TestCase):
    """What is built from texts is compared, hashed, copied and pickled by them, as `re.compile` is by its pattern."""

    # what builds an object, as `repr` shows it: no two are equal
    shown = [
        "Glob('')",
        "Glob('a')",
        "Glob('{a}')",
        "Glob('A')",
        "Glob('(?i)1/*.rs')",
        "Glob('(?i)1/*.rs').partition()[1]",
        "Glob('(?i)1/*.rs').partition()[1].partition()[1]",
        "Glob('1/*.rs').partition()[1]",
        "Glob('*.rs')",
        "Glob('é\\n\\'\"/**')",
        "Glob('a\\\\*')",
        "GlobSet([])",
        "GlobSet([''])",
        "GlobSet(['a'])",
        "GlobSet(['a', 'a'])",
        "GlobSet(['a', 'é*'])",
        "GlobSet(['é*', 'a'])",
        "IgnoreList('')",
        "IgnoreList('a')",
        "IgnoreList('a\\n')",
        "IgnoreList('# é\\r\\n!a/**\\n')",
    ]

    def build(self, shown):
        return eval(shown, {}, vars(wax))

    def test_repr(self):
        for shown in self.shown:
            with self.subTest(shown):
                self.assertEqual(repr(self.build(shown)), shown)

    def test_str(self):
        for expression in ["", "src/**/*.rs", "é\n'"]:
            self.assertEqual(str(wax.Glob(expression)), expression)
            self.assertEqual(f"{wax.Glob(expression)}", expression)
        self.assertEqual(str(wax.Glob("(?i)1/*.rs").partition()[1]), "*.rs")

    def test_equality(self):
        for number, shown in enumerate(self.shown):
            it = self.build(shown)
            for index, other in enumerate(map(self.build, self.shown)):
                with self.subTest((shown, other)):
                    self.assertIs(it == other, number == index)
                    self.assertIs(it != other, number != index)
                    if number == index:
                        self.assertEqual(hash(it), hash(other))

    def test_other_types(self):
        for kind, given, _ in kinds():
            it = kind(given)

            class Other(kind):
                pass

            for other in (given, None, 1, repr(it), object(), kind, Other(given)):
                with self.subTest(other):
                    self.assertIs(it.__eq__(other), NotImplemented)
                    self.assertIs(it.__ne__(other), NotImplemented)
                    self.assertFalse(it == other)
                    self.assertTrue(it != other)
            self.assertTrue(it == mock.ANY)
            with self.assertRaises(TypeError):
                it < kind(given)

    def test_keys(self):
        made = [self.build(shown) for shown in self.shown * 3]
        self.assertEqual(len(set(made)), len(self.shown))
        self.assertEqual(len(set(map(hash, made))), len(self.shown))
        numbers = {it: number for number, it in enumerate(made)}
        self.assertEqual([numbers[self.build(shown)] for shown in self.shown], [*range(2 * len(self.shown), len(made))])
        self.assertNotIn(wax.Glob("b"), numbers)

        @functools.lru_cache(maxsize=None)
        def kept_of(pattern, *paths):
            return list(pattern.filter(paths))

        for _ in range(3):
            for kind, given, _ in kinds():
                self.assertEqual(len(kept_of(kind(given), "src/a", "b")), 1)
        self.assertEqual((kept_of.cache_info().hits, kept_of.cache_info().misses), (6, 3))

    def test_read_only(self):
        for kind, names in [(wax.Glob, ["expression"]), (wax.GlobSet, ["expressions"]), (wax.IgnoreList, ["text"])]:
            it = kind("a")
            for name in names:
                self.assertEqual(getattr(it, name), ("a",) if kind is wax.GlobSet else "a")
                with self.assertRaises(AttributeError):
                    setattr(it, name, "b")

    def test_subclass_of_str(self):
        class Changing(str):
            def __repr__(self):
                return "changed"

            def __eq__(self, other):
                return True

            def __hash__(self):
                return 0

        for made, plain in [
            (wax.Glob(Changing("a")), wax.Glob("a")),
            (wax.GlobSet([Changing("a")]), wax.GlobSet(["a"])),
            (wax.IgnoreList(Changing("a")), wax.IgnoreList("a")),
        ]:
            self.assertEqual((made, repr(made), hash(made)), (plain, repr(plain), hash(plain)))
            self.assertEqual(pickle.dumps(made), pickle.dumps(plain))

    def test_copies(self):
        for shown in self.shown:
            it = self.build(shown)
            for copied in COPIES:
                with self.subTest(shown):
                    other = copied(it)
                    self.assertIsNot(other, it)
                    self.assertIs(type(other), type(it))
                    self.assertEqual((other, hash(other), repr(other)), (it, hash(it), shown))

    def test_copies_of_rests(self):
        """The flags before the rest, which its expression lacks, hold in a copy of it, too."""
        for expression, partitions, matches, others in [
            ("(?i)1/*.rs", 1, ["a.rs", "A.RS"], ["1/a.rs"]),
            ("(?i)1/*.rs", 3, ["a.rs", "A.RS"], ["1/a.rs"]),
            ("1/*.rs", 1, ["a.rs"], ["A.RS", "1/a.rs"]),
            ("(?i)1/**/a", 1, ["a", "b/A"], ["ab", "a/"]),
            ("src/{a/*.rs}", 1, ["b.rs"], ["a/b.rs", "b.RS"]),
        ]:
            rest = wax.Glob(expression)
            for _ in range(partitions):
                rest = rest.partition()[1]
            for copied in COPIES:
                with self.subTest(expression):
                    other = copied(rest)
                    self.assertEqual(list(other.filter(matches + others)), matches)
                    self.assertEqual(other.expression, rest.expression)
                    self.assertEqual(other.matched(matches[0]).captures, rest.matched(matches[0]).captures)
                    self.assertEqual(other.partition(), rest.partition())

    def test_copies_of_subclasses(self):
        it = Named("Rust", "rs")
        it.paths.append("a")
        for copied in COPIES:
            other = copied(it)
            self.assertIs(type(other), Named)
            self.assertEqual((other, other.name, other.paths), (it, "Rust", ["a"]))
            self.assertIs(other.itself, it if copied is copy.copy else other)
            self.assertEqual(list(other.filter(["a/b.rs", "c"])), ["a/b.rs"])
        self.assertEqual(repr(it), "Named('**/*.rs')")

    def test_with_and_without_the_extension(self):
        """What is pickled with the extension is read without it, and what is pickled there is read here."""
        code = "import pickle, sys; sys.modules.update({'_wax': None, 'wax._wax': None}); import wax; "
        code += "it = pickle.load(sys.stdin.buffer); print(wax._extension, *it, sep='\\n'); "
        code += "sys.stdout.flush(); pickle.dump(it, sys.stdout.buffer)"
        made = [self.build(shown) for shown in self.shown if "Glob('" not in shown or "rs" in shown]
        others = {**os.environ, "PYTHONIOENCODING": "utf-8"}
        ran = subprocess.run(
            [sys.executable, "-c", code], input=pickle.dumps(made), stdout=subprocess.PIPE, env=others, check=True
        )
        shown = "\n".join(["None", *map(str, made)]) + "\n"
        self.assertEqual(ran.stdout[: len(shown.encode())].decode(), shown)
        self.assertEqual(pickle.loads(ran.stdout[len(shown.encode()) :]), made)

    def test_errors(self):
        def raised(build, *arguments):
            with self.assertRaises(wax.Error) as caught:
                build(*arguments)
            return caught.exception

        for error in [
            raised(wax.Glob, "é//b"),
            raised(wax.Glob, "<a*:1000000>"),
            raised(wax.GlobSet, ["a", "{"]),
            raised(wax.IgnoreList, "a\n{b"),
            raised(wax.escape, "\ud800"),
        ]:
            for copied in COPIES:
                with self.subTest(error):
                    other = copied(error)
                    self.assertIs(type(other), type(error))
                    self.assertEqual((str(other), other.args, vars(other)), (str(error), error.args, vars(error)))

    def test_processes(self):
        paths = ["a.rs", "1/a.rs", "A.RS", "src/a", "b"]
        patterns = [wax.Glob("(?i)1/*.rs").partition()[1], Named("Rust", "rs"), *(kind(given) for kind, given, _ in kinds())]
        wanted = [["a.rs", "A.RS"], ["a.rs", "1/a.rs"], ["src/a"], ["src/a"], ["a.rs", "1/a.rs", "A.RS", "b"]]
        for start in ("fork", "spawn"):
            context = multiprocessing.get_context(start)
            with self.subTest(start), context.Pool(1) as pool:
                found = pool.starmap_async(kept, [(it, paths) for it in patterns]).get(timeout=60)
                self.assertEqual(found, list(zip(wanted, patterns)))
            with self.subTest(start), concurrent.futures.ProcessPoolExecutor(1, mp_context=context) as executor:
                found = executor.map(kept, patterns, [paths] * len(patterns), timeout=60)
                self.assertEqual(list(found), list(zip(wanted, patterns)))
                with self.assertRaises(wax.BuildError) as raised:
                    executor.submit(wax.Glob, "é//b").result()
                self.assertEqual((raised.exception.number, raised.exception.span), (2, (1, 3)))

    def test_inherited_by_a_fork(self):
        """A process that is forked uses the objects of its parent, and what it learns changes nothing there."""
        patterns = [kind(given) for kind, given, _ in kinds()]
        paths = [f"src/{number}" for number in range(100)] + ["b"]
        before = [list(it.filter(paths)) for it in patterns]
        context = multiprocessing.get_context("fork")
        reader, writer = context.Pipe(duplex=False)
        child = context.Process(target=lambda: writer.send([list(it.filter(paths)) for it in patterns]))
        child.start()
        self.assertEqual(reader.recv(), before)
        child.join()
        self.assertEqual((child.exitcode, [list(it.filter(paths)) for it in patterns]), (0, before))


def resident():
    """Returns how many bytes of this process are in memory, or how many were at most if there is no /proc."""
    gc.collect()
    try:
        with open("/proc/self/statm", encoding="ascii") as file:
            return int(file.read().split()[1]) * resource.getpagesize()
    except FileNotFoundError:
        return resource.getrusage(resource.RUSAGE_SELF).ru_maxrss * 1_024


class Objects(unittest.TestCase):
    """Whatever is done to an object, no handle is used that isn't built or is freed, and nothing leaks."""

    def test_not_built(self):
        for kind, given, wrong in kinds():

            class Failing(kind):
                def __init__(self, wrong):
                    with contextlib.suppress(wax.Error):
                        super().__init__(wrong)

            for it in (kind.__new__(kind), object.__new__(kind), Failing(wrong), Failing("\ud800")):
                self.assertTrue(repr(it))
                self.assertEqual((it == it, it == kind(given), it in {it: 1}), (True, False, True))
                for copied in COPIES:
                    with self.subTest(kind), self.assertRaises(ValueError):
                        copied(it)
                for call in using(it):
                    with self.subTest(call), self.assertRaises(ValueError) as raised:
                        call("src/a")
                    self.assertIs(type(raised.exception), ValueError)
            it = kind.__new__(kind)
            it.__init__(given)
            self.assertTrue(deciding(it)[0]("src/a"))

    def test_built_once(self):
        for kind, given, wrong in kinds():
            it = kind(given)
            before = dict(vars(it))
            for other in (given, wrong):
                with self.subTest(kind), self.assertRaises(ValueError):
                    it.__init__(other)
            self.assertEqual([deciding(it)[0](path) for path in ("src/a", "b")], [True, False])
            self.assertEqual(vars(it), before)

    def test_copies_have_handles_of_their_own(self):
        for kind, given, _ in kinds():
            for copied in COPIES:
                it = kind(given)
                others = [copied(it) for _ in range(5)]
                self.assertEqual(len({str(other._handle) for other in [it, *others]}), 6)
                del it
                gc.collect()
                self.assertEqual([deciding(other)[0]("src/a") for other in others], [True] * 5)
                kept = copied(others.pop())
                del others
                gc.collect()
                self.assertEqual([deciding(kept)[0](path) for path in ("src/a", "b")], [True, False])

    def test_bound_methods(self):
        for kind, given, _ in kinds():
            it = kind(given)
            calls, rests = deciding(it), [kind(given) for _ in range(100)]
            del it, rests
            gc.collect()
            self.assertEqual([call("src/a") for call in calls], [True, True])
        rest = wax.Glob("src/*.rs").partition()[1]
        gc.collect()
        self.assertTrue(rest.is_match("a.rs"))
        paths = wax.Glob("src/**").filter(["src/a"] * 5_000)
        gc.collect()
        self.assertEqual(len(list(paths)), 5_000)

    def test_arguments(self):
        for kind, given, _ in kinds():
            it = kind(given)
            for name, call in zip(("path", "folder"), deciding(it)):
                with self.subTest(call):
                    self.assertIs(call(**{name: "src/a"}), True)
                    for wrong in (b"src/a", None, 1, ["src/a"], pathlib.Path("src/a"), it, str):
                        with self.assertRaises(TypeError):
                            call(wrong)
                    for words, named in [("", {}), ("aa", {}), ("a", {name: "a"}), ("", {"text": "a"}), ("", {name: 1})]:
                        with self.assertRaises(TypeError):
                            call(*words, **named)
                    for text in ("\ud800", "src/\udcff", "\udfff" * 1_000):
                        with self.assertRaises(wax.Error) as raised:
                            call(text)
                        self.assertEqual((raised.exception.number, str(raised.exception)), (20, "a text isn't UTF-8"))
                    for text in ("src/a", "src/é", "src/銀", "src/\U0001f600", "src/a\0b", "src/" + "é" * 1_000):
                        self.assertIs(call(text), True)
            with self.subTest(kind), self.assertRaises(TypeError):
                kind(b"a" if kind is not wax.GlobSet else [b"a"])

    def test_subclasses(self):
        class Path(str):
            pass

        class Counting(wax.Glob):
            def __init__(self, expression, wanted):
                super().__init__(expression)
                self.wanted, self.calls = wanted, 0

            def is_match(self, path):
                self.calls += 1
                return super().is_match(path) is self.wanted

        inverted = Counting("src/**", False)
        self.assertEqual([inverted.is_match(Path(it)) for it in ("src/a", "b")], [False, True])
        self.assertEqual((inverted.calls, list(inverted.filter(["src/a", "b"]))), (2, ["src/a"]))
        inverted.itself = Counting.kept = inverted
        seen = weakref.ref(inverted), weakref.ref(Counting)
        del inverted, Counting
        gc.collect()
        self.assertEqual([it() for it in seen], [None, None])

    def test_references(self):
        counted = [*{it for kind, *_ in kinds() for it in kind.__mro__}, True, False, None]
        gc.collect()
        before = [sys.getrefcount(it) for it in counted]
        for _ in range(100):
            for kind, given, wrong in kinds():
                it = kind(given)
                self.assertEqual([deciding(it)[0](path) for path in ("src/a", "b")], [True, False])
                kind.__new__(kind)
                with contextlib.suppress(wax.Error):
                    kind(wrong)
        gc.collect()
        for it, count in zip(counted, before):
            self.assertLess(abs(sys.getrefcount(it) - count), 50, it)

    @unittest.skipIf("libasan" in os.environ.get("LD_PRELOAD", ""), "AddressSanitizer keeps what was freed for a while")
    def test_leaks(self):
        """A million calls, 20,000 that raise an error, and 5,000 objects that can't be built again take no more memory."""
        made = [kind(given) for kind, given, _ in kinds()]
        calls = [call for it in made for call in deciding(it)]

        def use(rounds, errors, objects):
            for number in range(rounds):
                path, other = f"src/{number}", f"é/{number}"
                for call in calls:
                    call(path)
                    call(other)
            for _ in range(errors):
                for wrong in ("\ud800", b"a", None):
                    for call in calls[::2]:
                        with contextlib.suppress(wax.Error, TypeError):
                            call(wrong)
                made[0].overlap(made[1])
                made[1].overlap(made[1])
            for _ in range(objects):
                for kind, given, wrong in kinds():
                    it = kind(given)
                    deciding(it)[0]("src/a")
                    for again in (given, wrong):
                        with contextlib.suppress(ValueError):
                            it.__init__(again)

        use(2_000, 200, 200)
        before = resident()
        use(84_000, 2_250, 1_700)
        self.assertLess(resident() - before, 2_000_000)

    def test_threads(self):
        made = [kind(given) for kind, given, _ in kinds()]
        paths = [f"{'src' if number % 3 else 'é'}/{number}" for number in range(5_000)]
        answers, overlaps, rest = [], [], wax.Glob("a/*/b").partition()[1]

        def use():
            answers.append([[call(path) for path in paths] for it in made for call in deciding(it)])
            answers.append([len(list(it.filter(paths))) for it in made])
            overlaps.append([made[1].overlap(made[0]), made[0].overlap(made[1]), rest.overlap(made[0])])

        threads = [threading.Thread(target=use) for _ in range(4)]
        for it in threads:
            it.start()
        for it in threads:
            it.join()
        first = [number % 3 != 0 for number in range(5_000)]
        for answer in answers:
            self.assertIn(answer, ([first] * 6, [sum(first), sum(first), 5_000 - sum(first)]))
        self.assertEqual(len(answers), 8)
        self.assertEqual(overlaps, [["src", "src", "src/b"]] * 4)


@unittest.skipUnless(wax._extension, "the extension isn't here")
class Extension(unittest.TestCase):
    """The types of python/_wax.c, by themselves. All other tests are run with it, too."""

    def setUp(self):
        self.pairs = [(wax._Matcher, ("is_match", "goes_on")), (wax._IgnoreMatcher, ("is_ignored", "excludes_below"))]

    def test_in_use(self):
        queried = (wax._Value, wax._Queried, wax._extension.Matcher, object)
        ignoring = (wax._Value, wax._extension.IgnoreMatcher, object)
        for kind, bases in [(wax.Glob, queried), (wax.GlobSet, queried), (wax.IgnoreList, ignoring)]:
            self.assertEqual(kind.__mro__[1:], bases)

    def test_documents(self):
        for kind, names in self.pairs:
            base = getattr(wax._extension, kind.__name__[1:])
            for name in names:
                with self.subTest(name):
                    ours, theirs = getattr(kind, name), getattr(base, name)
                    self.assertEqual(inspect.getdoc(theirs), inspect.getdoc(ours))
                    self.assertEqual(list(inspect.signature(theirs).parameters), list(inspect.signature(ours).parameters))

    def test_bases(self):
        for kind, names in self.pairs:
            base = getattr(wax._extension, kind.__name__[1:])
            for name in names:
                call = getattr(base, name)
                with self.subTest(name):
                    for it in (None, "a", object(), base, [wax.Glob("a"), wax.IgnoreList("a")][kind is wax._Matcher]):
                        with self.assertRaises(TypeError):
                            call(it, "a")
                    with self.assertRaises(ValueError):
                        call(base(), "a")
            with self.assertRaises(ValueError):
                base()._handle
            with self.assertRaises(AttributeError):
                base()._handle = 1
            for wrong in [(), (1, 2, 3), ("a", 2, 3, 4), (1, 2, 3, None), (1 << 64, 1, 1, 1)]:
                with self.subTest(wrong), self.assertRaises((TypeError, OverflowError)):
                    base()._hold(*wrong)

    def test_what_raises_errors(self):
        class Silent(wax.Glob):
            _refused = staticmethod(lambda number: number)

        with self.assertRaises(SystemError):
            Silent("a").is_match("\ud800")
        glob = wax.Glob("a*")
        self.assertIsInstance(glob._handle, int)
        with mock.patch.object(wax.Glob, "_refused", side_effect=KeyError(20)) as refused:
            self.assertRaises(KeyError, glob.goes_on, "\ud800")
        refused.assert_called_once_with(20)


@unittest.skipUnless("WAX_REFUSING" in os.environ, "tests/python builds the library for it")
class Memory(unittest.TestCase):
    """Each allocation of the library fails in turn: a call returns its result or `MemoryError`, and frees all."""

    def setUp(self):
        self.library = os.environ["WAX_LIBRARY"]
        os.environ["WAX_LIBRARY"] = os.environ["WAX_REFUSING"]
        self.wax = importlib.reload(wax)
        self.refusing = ctypes.CDLL(os.environ["WAX_REFUSING"])
        self.refusing.wax_requests.restype = self.refusing.wax_blocks.restype = ctypes.c_long
        self.refusing.wax_refuse.argtypes = [ctypes.c_long]

    def tearDown(self):
        os.environ["WAX_LIBRARY"] = self.library
        importlib.reload(wax)

    def calls(self):
        """Makes each call of the library, and returns what the calls return."""
        glob = self.wax.Glob("src/**/*.{rs,toml}")
        ignored = self.wax.IgnoreList("**/*.log\n!x/**\n")
        others = self.wax.IgnoreList("**/*.log\n")
        patterns = self.wax.GlobSet(["src/**", "**/*.rs"])
        prefix, rest = glob.partition()
        copied = copy.copy(self.wax.Glob("a/?").partition()[1])
        try:
            self.wax.Glob("a//b")
        except self.wax.BuildError as error:
            picture = error.picture
        return (
            (glob.is_match("src/a.rs"), list(glob.filter(["src/a.rs", "b"])), glob.goes_on("src"), glob.depth, glob.text),
            (glob.matched("src/a.rs").captures, prefix, rest.is_match("a.rs"), self.wax.Glob("a").text, picture),
            (ignored.is_ignored("a.log"), ignored.excludes_below("a"), list(ignored.filter(["a.log", "b"]))),
            (patterns.is_match("a"), patterns.matches("src/a.rs"), patterns.goes_on("src"), self.wax.escape("*")),
            (copied.expression, copied.is_match("b"), ignored.deciding_line("x/a.log")),
            (self.wax.overlap("a/*", "*/b"), self.wax.difference("a/*", "*/b"), self.wax.compare("a/*", "a/*")),
            (patterns.overlap(patterns), patterns.overlap("**/b.*"), copied.overlap(self.wax.Glob("é"))),
            (patterns.difference("src/*"), patterns.compare("{src/**,**/*.rs}"), rest.difference("**"), rest.compare(glob)),
            (ignored.idle_lines(), ignored.undecided_lines(most_states=0), ignored.tidied().text),
            (ignored.overlap(others), ignored.difference(others), others.compare(ignored)),
        )

    def run_with(self, number):
        self.refusing.wax_refuse(number)
        try:
            return self.calls()
        except MemoryError:
            return None

    def test_each_allocation(self):
        wanted = (
            (True, ["src/a.rs"], True, (2, None), None),
            (("", "a", "rs"), "src", True, "a", "a//b\n ^^ here\n"),
            (True, False, ["b"]),
            (False, [0, 1], True, r"\*"),
            ("?", True, 1),
            ("a/b", "a/a", None),
            ("src", "b.rs", "é"),
            ("src", None, None, ".rs"),
            ([], [0, 1], "**/*.log\n!x/**\n"),
            (".log", None, "x/.log"),
        )
        self.assertEqual(self.run_with(0), wanted)
        requests = self.refusing.wax_requests()
        failed = 0
        for number in range(1, requests + 1):
            answer = self.run_with(number)
            self.assertIn(answer, (None, wanted), number)  # (the library can do without some allocations)
            failed += answer is None
            gc.collect()
            self.assertEqual(self.refusing.wax_blocks(), 0, number)
        self.assertGreater(failed, 0)
        self.assertEqual(self.run_with(0), wanted)


if __name__ == "__main__":
    unittest.main()
