"""Walks for the tests that compare them with globs_as_automata.py: what a walk has to keep and to open, the rows of
tests/data/least_folders.tsv, walks of real folders by `globs walk`, and random walks."""
import os
import re
import subprocess
from math import inf
from typing import NamedTuple

from draws import NAMES, Draws
from globs_as_automata import (
    SLASH, Alternation, Separator, Tree, automaton_of, expression_of, glob_of, pattern_of, prefix_of, rule_of_list,
)
from plans import ROOT, plan_of, tree_of
from report import TOP

TABLE = "least_folders.tsv"
SEED = 2029
SECONDS = 300
OPENED = re.compile(r'openat\(AT_FDCWD, "((?:[^"\\]|\\.)*)", [A-Z_|]*O_DIRECTORY')


class Walk(NamedTuple):
    """A walk of a glob: the plan of a tree, the start, the expression, and options with `; ` between. With the option `as set`,
    it is the walk of a set, whose patterns have spaces between them."""

    plan: str
    start: str
    expression: str
    options: str

    def values(self, word):
        """Returns the arguments of the options with this word."""
        pairs = [it.partition(" ") for it in self.options.split("; ")]
        return [argument for name, _, argument in pairs if name == word]

    def globs(self):
        """Returns the glob, or those of the set."""
        return [glob_of(it) for it in (self.expression.split(" ") if self.values("as") else [self.expression])]

    def in_memory(self):
        """Returns the row of `wax_test_walks`."""
        options = "without captures" if self.options == "-" else f"{self.options}; without captures"
        return "\t".join(["candidates", self.plan, self.start, self.expression.replace("\0", "␀"), options])

    def words(self, ignored):
        """Returns the arguments of `globs`, if a file has the lines of the ignore list."""
        found = ["walk", self.start, self.expression]
        for option in self.options.split("; "):
            word, _, argument = option.partition(" ")
            if word != "-":
                found += [word, ignored if word == "ignore" else argument]
        return found


def at(tree, names):
    """Returns what is in a tree at the place of these names, or False if nothing is there."""
    for name in names:
        tree = tree.get(name, False) if isinstance(tree, dict) else False
    return tree


class Found:
    """What a walk has to keep and to open, by candidates. If its greatest depth isn't less than 64, or with `sees_deeper`, it
    also opens folders below which all that can match is deeper."""

    def __init__(self, walk, globs, rules, sees_deeper=False):
        self.automaton = automaton_of((Alternation(tuple(globs)),) if walk.values("as") else globs[0])
        self.rules = rules
        self.least = int((walk.values("min") or [0])[0])
        self.most = int((walk.values("max") or [1 << 32])[0])
        self.sees_deeper = sees_deeper or self.most >= 64
        self.kept, self.opened, self.has_error = [], [], False
        self.is_rooted, names = shared([names_of(it) for it in globs]) if walk.values("as") else names_of(globs[0]) or (False, None)
        start = [] if self.is_rooted else [it for it in walk.start.split(SLASH) if it not in ("", ".")]
        if names is None or len(names) > self.most:
            return
        node = at(tree_of(ROOT if self.is_rooted else walk.plan), start + names)
        if node is False:
            self.has_error = True
        else:
            self.visit(node, names)

    def visit(self, node, names):
        candidate, depth = SLASH.join(names), len(names)
        if self.is_rooted:
            candidate = SLASH + candidate
        excluded, all_below = excludes(self.rules, candidate, depth)
        if not excluded and self.least <= depth <= self.most and self.automaton.matches(candidate):
            self.kept.append(candidate)
        left = self.most - depth
        goes_on = left > 0 and self.automaton.goes_on(candidate, inf if self.sees_deeper else left)
        if not isinstance(node, dict) or all_below or not goes_on:
            return
        self.opened.append(candidate)
        for name, inner in node.items():
            self.visit(inner, [*names, name])


def names_of(glob):
    """Returns whether the prefix of a glob is rooted, and its names, or None if two `/` are side by side in it."""
    prefix = prefix_of(glob)
    if SLASH * 2 in prefix:
        return None
    return prefix.startswith(SLASH), [it for it in prefix.split(SLASH) if it]


def shared(found):
    """Returns where the walk of a set begins: at the names with which all prefixes begin."""
    found = [it for it in found if it]
    if len({is_rooted for is_rooted, _ in found}) != 1:
        return False, []
    return found[0][0], os.path.commonprefix([names for _, names in found])


def excludes(rules, candidate, depth):
    """Returns whether the rules exclude an entry, and whether they exclude everything below it, too."""
    found = [it(candidate, depth) for it in rules]
    return any(excluded for excluded, _ in found), any(all_below for _, all_below in found)


def rule_of_pattern(pattern):
    """Returns the rule of `not`."""

    def rule(candidate, depth):
        all_below = pattern.covers(candidate, depth)
        return all_below or pattern.matches(candidate), all_below

    return rule


def rules_of(walk):
    """Returns the rules of a walk's options."""
    rules = [rule_of_pattern(pattern_of(it)) for it in walk.values("not")]
    for text in walk.values("ignore"):
        lines = [it for it in text.split("␊") if it and not it.startswith("#")]
        rules.append(rule_of_list(lines))
    return rules


# --- rows


def rows(report):
    """Yields each row of the table that is wanted: its case, its line, where it is walked, the walk, and its last fields."""
    trees = {}
    with open(f"{TOP}/tests/data/{TABLE}", encoding="utf-8") as file:
        for number, line in enumerate(file.read().split("\n"), 1):
            if not line or line.startswith("# "):
                continue
            place, plan, *fields = line.split("\t")
            if place == "tree":
                trees[plan] = fields[0]
            elif report.wants(f"{TABLE}:{number}"):
                start, expression, options, kept, opened = fields
                walk = Walk(trees.get(plan, plan), start.replace("''", ""), expression.replace("''", "").replace("␀", "\0"), options)
                yield f"{TABLE}:{number}", line, place, walk, f"{kept}\t{opened}"


def shown(kept, opened):
    """Returns two lists of candidates as the fields of a row."""
    return "\t".join(" ".join(it or "''" for it in candidates) or "-" for candidates in (kept, opened))


def in_order(fields):
    return "\t".join(" ".join(sorted(it.split(" "))) for it in fields.split("\t"))


# --- walks of real folders


def below(start, path):
    """Returns the candidate of a path at or below the start."""
    if path.startswith(SLASH) and not start.startswith(SLASH):
        return path
    return "" if path == (start or ".") else path.removeprefix(start).removeprefix(SLASH)


def make(folder, tree):
    """Makes the files, folders and links of a tree."""
    os.makedirs(folder)
    for name, node in tree.items():
        if isinstance(node, dict):
            make(f"{folder}/{name}", node)
        elif node:
            os.symlink("nowhere", f"{folder}/{name}")
        else:
            os.close(os.open(f"{folder}/{name}", os.O_CREAT))


def in_folder(program, walk, room):
    """Runs a walk of a real folder. Returns what it kept and which folders it opened, as sorted candidates."""
    folder, trace, ignored = f"{room}/tree", f"{room}/trace", f"{room}/ignored"
    make(folder, tree_of(walk.plan))
    with open(ignored, "w", encoding="utf-8") as file:
        file.write("".join(walk.values("ignore")).replace("␊", "\n"))
    words = [it.replace("TOP", folder) for it in walk.words(ignored)]
    traced = ["strace", "-f", "-qq", "-s", "4096", "-e", "trace=openat", "-o", trace, program, *words]
    ran = subprocess.run(traced, stdin=subprocess.DEVNULL, capture_output=True, cwd=folder, timeout=SECONDS, check=False)
    if ran.returncode:
        return f"status {ran.returncode}: {ran.stderr.decode(errors='replace')}"
    with open(trace, encoding="utf-8") as file:
        paths = [it.encode().decode("unicode_escape").encode("latin1").decode() for it in OPENED.findall(file.read())]
    kept = ran.stdout.decode().removesuffix("\n").split("\n") if ran.stdout else []
    named = [sorted(it.replace(folder, "TOP") for it in texts) for texts in (kept, [below(walk.start, it) for it in paths])]
    return shown(*named)


def can_trace():
    """Returns whether strace can run a program here."""
    words = ["strace", "-f", "-o", "/dev/null", "-e", "trace=openat", "true"]
    return not subprocess.run(words, stdin=subprocess.DEVNULL, capture_output=True, check=False).returncode


# --- random walks


class WalkDraws(Draws):
    """Draws trees and options, too."""

    def add(self, tree, names):
        """Adds an entry at the place of these names, unless something else is on the way."""
        *outer, last = names
        for name in outer:
            tree = tree.setdefault(name, {})
            if not isinstance(tree, dict):
                return
        tree.setdefault(last, self.choice([None, None, None, {}, {}, "@"]))

    def plan(self, automaton, start):
        """Draws the plan of a folder. The glob matches some of its paths from the start on, and others are only like these."""
        tree = {}
        for _ in range(self.randint(0, 6)):
            self.add(tree, self.choices(NAMES, k=self.randint(1, 4)))
        for _ in range(self.randint(1, 6)):
            names = self.path(automaton).removeprefix(SLASH).split(SLASH)
            if names == [""] or len(names) > 8:
                continue
            self.add(tree, start + names)
            names[self.randrange(len(names))] = self.choice(NAMES)
            self.add(tree, [*start, *names, *self.choices(NAMES, k=self.randint(0, 2))])
        if start:
            self.add(tree, [*start, "b"])
        return plan_of(tree) or "a"

    def pattern(self):
        """Draws a glob that excludes something, most often everything below some folders."""
        found = self.glob(1)
        if self.happens(0.6) and not isinstance(found[-1], (Tree, Separator)):
            found = (*found, Tree(False))
        return found

    def lines(self):
        """Draws the lines of an ignore list."""
        marks = [self.choice(["", "", "", "", "!"]) for _ in range(self.randint(1, 4))]
        return "␊".join(mark + expression_of(self.pattern()) for mark in marks)

    def options(self, has_patterns):
        least = self.randint(1, 3)
        found = [f"min {least}"] if self.happens(0.25) else []
        found += [f"max {self.randint(least, 4)}"] if self.happens(0.25) else []
        if has_patterns:
            found += [f"not {expression_of(self.pattern())}" for _ in range(self.randint(1, 2))]
            found += [f"ignore {self.lines()}"] if self.happens(0.2) else []
        return "; ".join(found) or "-"


def drawn(number):
    """Draws a walk with its number. Returns it with its globs, from which the expression is written; every third is of a set."""
    draws = WalkDraws(f"{SEED}:{number}")
    globs = draws.set() if number % 3 == 0 else [draws.whole()]
    start = draws.choice(["", "", "", "", "a", "a/", "a/b"])
    plan = draws.plan(automaton_of((Alternation(tuple(globs)),)), [it for it in start.split(SLASH) if it])
    options = draws.options(number % 2 == 1)
    if number % 3 == 0:
        options = "as set" if options == "-" else f"as set; {options}"
    return Walk(plan, start, " ".join(expression_of(it) for it in globs), options), globs
