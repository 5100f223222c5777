"""Globs as automata: which paths a glob matches, and below which folders it can match something. Nothing here is taken from
the library: it is written from the pages LANGUAGE and QUERIES, so that the tests can compare the two.

A glob is a list of tokens. It becomes an automaton over a small alphabet: the characters of the tests, and one character for
each gap between them. What is below a folder is a plain path: one or more names that aren't empty, with `/` between."""
import re
from dataclasses import dataclass
from functools import lru_cache
from heapq import heappop, heappush
from math import inf
from typing import Optional

SLASH = "/"
# the characters that tests may use: those of ASCII, and letters of which two or three have the same case folding
CHARACTERS = [chr(it) for it in range(0x20, 0x7F)] + list("Éé\u017f\u212aΣσς銀金")


def alphabet():
    """Returns these characters, and one for each gap between them."""
    points = {ord(it) for it in CHARACTERS}
    return frozenset(chr(it) for it in points | {point + 1 for point in points} | {min(points) - 1})


ALL = alphabet()
OTHERS = ALL - {SLASH}


def folded(character):
    """Returns the simple case folding of a character, which is one character."""
    made = character.casefold()
    return made if len(made) == 1 else character


@lru_cache(maxsize=None)
def in_any_case(character):
    """Returns the characters with the same simple case folding."""
    return frozenset(it for it in ALL if folded(it) == folded(character))


@dataclass(frozen=True)
class Literal:
    text: str
    folds: bool

    def sets(self):
        """Returns, for each character, those that match it."""
        return [in_any_case(it) if self.folds else frozenset(it) for it in self.text]


@dataclass(frozen=True)
class Separator:
    pass


@dataclass(frozen=True)
class One:
    pass


@dataclass(frozen=True)
class Class:
    is_negated: bool
    ranges: tuple

    @lru_cache(maxsize=None)
    def characters(self):
        """Returns the characters that it matches."""
        if any(low > high for low, high in self.ranges):
            return frozenset()
        listed = frozenset(it for it in OTHERS if any(low <= it <= high for low, high in self.ranges))
        return OTHERS - listed if self.is_negated else listed


@dataclass(frozen=True)
class Wildcard:
    mark: str


@dataclass(frozen=True)
class Tree:
    """A `**`. It is rooted if it begins a sub-glob and has a `/` before it."""

    is_rooted: bool


@dataclass(frozen=True)
class Alternation:
    branches: tuple


@dataclass(frozen=True)
class Repetition:
    body: tuple
    low: int
    high: Optional[int]


# --- expressions


class Writer:
    """Writes a glob as an expression, with flags where the case of letters begins or ceases to matter."""

    def __init__(self):
        self.folds = False

    def glob(self, tokens):
        return "".join(self.token(it, at == 0, at == len(tokens) - 1) for at, it in enumerate(tokens))

    def ranged(self, *ends):
        low, high = (f"\\{it}" if it in "[]-" else it for it in ends)
        return low if low == high else f"{low}-{high}"

    def token(self, token, is_first, is_last):
        match token:
            case Literal(text, folds):
                flag = "" if folds == self.folds else "(?i)" if folds else "(?-i)"
                self.folds = folds
                return flag + re.sub(r"([?*$:<>()\[\]{},])", r"\\\1", text)
            case Separator():
                return SLASH
            case One():
                return "?"
            case Class(is_negated, ranges):
                return f"[{'!' if is_negated else ''}{''.join(self.ranged(*it) for it in ranges)}]"
            case Wildcard(mark):
                return mark
            case Tree(is_rooted):
                return f"{SLASH if is_rooted or not is_first else ''}**{'' if is_last else SLASH}"
            case Alternation(branches):
                return f"{{{','.join(self.glob(it) for it in branches)}}}"
            case Repetition(body, low, high):
                return f"<{self.glob(body)}:{low},{'' if high is None else high}>"


class Reader:
    """Reads an expression without errors as a glob."""

    def __init__(self, expression):
        self.left, self.folds = expression, False

    def take(self, pattern):
        """Takes what the pattern matches from the front, if it does."""
        found = re.match(pattern, self.left, re.S)
        if found:
            self.left = self.left[found.end() :]
        return found

    def flags(self):
        while found := self.take(r"\(\?([i-]+)\)"):
            self.folds = not found[1].endswith("-i")

    def glob(self):
        """Reads tokens up to the end of the sub-glob."""
        tokens = []
        while self.left and self.left[0] not in ",}:>":
            self.flags()
            tokens.append(self.token(not tokens))
        return tuple(tokens)

    def tree(self, is_first):
        """Reads a `**` with flags and the `/` on either side of it, if one comes."""
        flags = r"((?:\(\?[i-]+\))*)"
        found = self.take(rf"(/?){flags}\*\*{flags}(?:/|(?=[,}}:>]|\Z))")
        if not found:
            return None
        for group in re.findall(r"\(\?([i-]+)\)", found[2] + found[3]):
            self.folds = not group.endswith("-i")
        return Tree(is_first and found[1] == SLASH)

    def token(self, is_first):
        if tree := self.tree(is_first):
            return tree
        if self.take("/"):
            return Separator()
        if self.take(r"\?"):
            return One()
        if found := self.take(r"[*$]"):
            return Wildcard(found[0])
        if found := self.take(r"\[(!?)((?:\\.|[^\]\\])+)\]"):
            pieces = re.findall(r"(\\.|.)(?:-(\\.|.))?", found[2], re.S)
            return Class(found[1] == "!", tuple((low[-1], (high or low)[-1]) for low, high in pieces))
        if self.take("{"):
            branches = [self.glob()]
            while self.take(","):
                branches.append(self.glob())
            self.take("}")
            return Alternation(tuple(branches))
        if self.take("<"):
            return self.repetition()
        text = self.take(r"(?:\\.|[^?*$:<>()\[\]{},/\\])+")[0]
        return Literal(re.sub(r"\\(.)", r"\1", text), self.folds)

    def repetition(self):
        body = self.glob()
        found = self.take(r"(?::(\d*)(,?)(\d*))?>")
        if found[1] is None:
            return Repetition(body, 0, None)
        low = int(found[1] or 1)
        high = int(found[3]) if found[3] else None if found[2] or not found[1] else low
        return Repetition(body, low, high)


def expression_of(glob):
    return Writer().glob(glob)


@lru_cache(maxsize=None)
def glob_of(expression):
    return Reader(expression).glob()


# --- automata


class Automaton:
    """The automaton of a glob. A state has steps, each by one of a set of characters, and steps without a character."""

    def __init__(self, glob):
        self.steps, self.silent = [], []
        self.end = self.state()
        self.start = self.build(glob, False, False, self.end)
        # pairs of a state and whether a name has begun, from which the rest of a plain path leads to the end, each with the least
        # number of names that have to begin on the way
        self.onward = self.leading_on()
        self.below = {state: names for (state, in_name), names in self.onward.items() if not in_name}
        self.first = self.closed({self.start})
        self.known = {}

    def state(self):
        self.steps.append([])
        self.silent.append([])
        return len(self.steps) - 1

    def any_of(self, targets):
        """Returns a state that goes on as each of these does."""
        made = self.state()
        self.silent[made] += targets
        return made

    def by(self, characters, target):
        """Returns a state with one step."""
        made = self.state()
        self.steps[made].append((characters, target))
        return made

    def some(self, characters, target):
        """Returns a state with zero or more of the characters before the target."""
        made = self.any_of([target])
        self.steps[made].append((characters, made))
        return made

    def build(self, glob, before, after, target):
        """Returns a state from which the glob leads to the target, with something before and after the glob or not."""
        for at in reversed(range(len(glob))):
            target = self.token(glob[at], before or at > 0, after or at < len(glob) - 1, target)
        return target

    def token(self, token, before, after, target):
        match token:
            case Literal():
                for characters in reversed(token.sets()):
                    target = self.by(characters, target)
                return target
            case Separator():
                return self.by({SLASH}, target)
            case One():
                return self.by(OTHERS, target)
            case Class():
                return self.by(token.characters(), target)
            case Wildcard():
                return self.some(OTHERS, target)
            case Tree(is_rooted):
                return self.tree(is_rooted, before, after, target)
            case Alternation(branches):
                return self.any_of([self.build(it, before, after, target) for it in branches])
            case Repetition():
                return self.repetition(token, before, after, target)

    def tree(self, is_rooted, before, after, target):
        if not before and not after:
            return self.by({SLASH}, self.some(ALL, target)) if is_rooted else self.some(ALL, target)
        if not after:
            return self.any_of([target, self.by({SLASH}, self.some(ALL, target))])
        ends = self.by({SLASH}, target)
        if before or is_rooted:
            return self.any_of([ends, self.by({SLASH}, self.some(ALL, ends))])
        return self.any_of([target, self.some(ALL, ends)])

    def repetition(self, token, before, after, target):
        """Each copy has the others around it."""
        body, low, high = token.body, token.low, token.high
        ways = [target] if low == 0 else []
        if low <= 1 and (high is None or high >= 1):
            ways.append(self.build(body, before, after, target))
        later = self.build(body, True, after, target)  # the last copy of several
        if high is None:
            loop = self.any_of([later])
            self.silent[loop].append(self.build(body, True, True, loop))
            for _ in range(low - 2):
                loop = self.build(body, True, True, loop)
            ways.append(self.build(body, before, True, loop))
        for count in range(2, (high or 0) + 1):
            if count >= low:
                ways.append(self.build(body, before, True, later))
            later = self.build(body, True, True, later)
        return self.any_of(ways)

    def leading_on(self):
        """Returns the pairs of `onward`, by going back from the end. Neither a `/` nor the end may come before a name."""
        back = {}
        for state, steps in enumerate(self.steps):
            for target in self.silent[state]:
                for in_name in (False, True):
                    back.setdefault((target, in_name), []).append(((state, in_name), 0))
            for characters, target in steps:
                if characters & OTHERS:
                    back.setdefault((target, True), []).extend([((state, False), 1), ((state, True), 0)])
                if SLASH in characters:
                    back.setdefault((target, False), []).append(((state, True), 0))
        found, left = {}, [(0, (self.end, True))]
        while left:
            names, pair = heappop(left)
            if pair not in found:
                found[pair] = names
                for before, more in back.get(pair, ()):
                    heappush(left, (names + more, before))
        return found

    def closed(self, states):
        """Returns the states that these lead to without a character."""
        found, left = set(states), list(states)
        while left:
            for state in self.silent[left.pop()]:
                if state not in found:
                    found.add(state)
                    left.append(state)
        return frozenset(found)

    def after(self, text):
        """Returns the states after a text."""
        states = self.first
        for character in text:
            key = states, character
            if key not in self.known:
                reached = {to for it in states for characters, to in self.steps[it] if character in characters}
                self.known[key] = self.closed(reached)
            states = self.known[key]
        return states

    def matches(self, text):
        return self.end in self.after(text)

    def goes_on(self, folder, most=inf):
        """Returns whether something at most so many names below the folder with this candidate is matched."""
        text = folder if folder in ("", SLASH) else folder + SLASH
        return any(self.below[it] <= most for it in self.after(text) if it in self.below)


@lru_cache(maxsize=None)
def automaton_of(glob):
    return Automaton(glob)


# --- what else a walk takes from a glob


def text_of(token):
    """Returns the only text that a token matches, or None if its tokens don't show one."""
    match token:
        case Literal(text, folds):
            has_cases = any(it.upper() != it or it.lower() != it for it in text)
            return None if folds and has_cases else text
        case Separator():
            return SLASH
        case Class(False, ranges):
            listed = {it for ends in ranges for it in ends}
            return listed.pop() if len(listed) == 1 and SLASH not in listed else None
        case Alternation(branches):
            texts = {text_of_all(it) for it in branches}
            return texts.pop() if len(texts) == 1 else None
        case Repetition(body, low, high):
            text = text_of_all(body)
            return None if text is None or low != high else text * low
    return None


def text_of_all(glob):
    texts = [text_of(it) for it in glob]
    return None if None in texts else "".join(texts)


def opened(glob):
    """Returns the tokens, with those in the last one in its place if it has only one branch or exactly one copy."""
    match glob:
        case (*others, Alternation((branch,))):
            return (*others, *opened(branch))
        case (*others, Repetition(body, 1, 1)):
            return (*others, *opened(body))
    return glob


def always_begins_with_slash(glob):
    match glob[:1]:
        case (Separator() | Tree(True),):
            return True
        case (Alternation(branches),):
            return all(always_begins_with_slash(it) for it in branches)
        case (Repetition(body, low, _),):
            return low > 0 and always_begins_with_slash(body)
    return False


def prefix_of(glob):
    """Returns the text with which all matches begin, up to the place at which a walk begins."""
    glob = opened(glob)
    if glob and text_of(glob[0]) is None and always_begins_with_slash(glob):
        return SLASH
    text = cut = ""
    for token in glob:
        if isinstance(token, Tree):
            return text
        if (more := text_of(token)) is None:
            return cut
        text += more
        cut = text if isinstance(token, Separator) else cut
    return text


def alternatives(glob):
    """Returns the alternatives of a glob, of which a branch of one token may have more."""
    match glob:
        case (Alternation(branches),):
            return [other for it in branches for other in alternatives(it)]
        case (Repetition(body, 1, 1),):
            return alternatives(body)
    return [glob]


class Pattern:
    """What excludes entries of a walk."""

    def __init__(self, glob):
        parts = alternatives(glob)
        self.automaton = automaton_of(glob)
        self.has_all = (Tree(False),) in parts
        self.covering = [automaton_of(it) for it in parts if it and isinstance(it[-1], Tree)]

    def matches(self, candidate):
        return self.automaton.matches(candidate)

    def covers(self, candidate, depth):
        """Returns whether everything below the entry is excluded, too."""
        return self.has_all or depth > 0 and any(it.matches(candidate) for it in self.covering)


@lru_cache(maxsize=None)
def pattern_of(expression):
    return Pattern(glob_of(expression))


def rule_of_list(lines):
    """Returns the rule of an ignore list with these lines: whether it excludes an entry, and whether everything below it, too."""
    patterns = [(pattern_of(it.removeprefix("!")), it.startswith("!")) for it in lines]

    def rule(candidate, depth):
        matching = [has_mark for pattern, has_mark in patterns if pattern.matches(candidate)]
        all_below = False
        for pattern, has_mark in reversed(patterns):
            if has_mark:
                break
            all_below = all_below or pattern.covers(candidate, depth)
        return all_below or matching[-1:] == [False], all_below

    return rule
