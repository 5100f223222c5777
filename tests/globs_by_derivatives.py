"""Which plain paths several globs match, found in two ways. A plain path is one or more names that aren't empty, with `/` between.
Nothing here is taken from the library: both ways are written from the page LANGUAGE, over the tokens of globs_as_automata.py.

- Partial derivatives of the globs find a shortest path for each set of globs that match one. They use a letter for each set of
  characters that the tests of the globs don't tell apart.
- A matcher tries each place in a path at which a token can end."""
from globs_as_automata import (
    SLASH, Alternation, Class, Literal, One, Repetition, Separator, Tree, Wildcard, folded, in_any_case,
)

# how many terms, with those of the other globs, a search may reach
MOST_REACHED = 20_000


# --- characters


def passes(test, character):
    """Returns whether a test of one character holds; a literal of one character is one."""
    match test:
        case Literal(text, folds):
            return folded(text) == folded(character) if folds else text == character
        case One():
            return character != SLASH
        case Class(is_negated, ranges):
            is_listed = any(low <= character <= high for low, high in ranges)
            return character != SLASH and is_listed != is_negated and all(low <= high for low, high in ranges)


def tests_of(glob):
    """Yields the tests of a glob."""
    for token in glob:
        match token:
            case Literal(text, folds):
                yield from (Literal(it, folds) for it in text)
            case One() | Class():
                yield token
            case Alternation(branches):
                yield from (test for it in branches for test in tests_of(it))
            case Repetition(body):
                yield from tests_of(body)


def letters_of(tests):
    """Returns a character for each set of characters that the tests don't tell apart; a letter or a digit if one is found. It is
    among those that the tests name, those with the same folding, those beside the surrogates, and the neighbours of all these."""
    named = {SLASH, "\ud7ff", "\ue000"}
    for test in tests:
        match test:
            case Literal(text, folds):
                named |= in_any_case(text) if folds else {text}
            case Class(_, ranges):
                named.update(end for ends in ranges for end in ends)
    points = {ord(it) + step for it in named for step in (-1, 0, 1)}
    characters = [chr(it) for it in points if 0 <= it < 0xD800 or 0xE000 <= it < 0x110000]
    return apart(tests, sorted(characters, key=lambda it: (not it.isalnum(), it)))


def apart(tests, characters):
    """Returns the first of each set of these characters that the tests don't tell apart."""
    found = {}
    for it in characters:
        found.setdefault((it == SLASH, *(passes(test, it) for test in tests)), it)
    return list(found.values())


def is_plain(path):
    return all(path.split(SLASH))


# --- partial derivatives


class Derivatives:
    """The partial derivatives of globs. A glob becomes a term, which is a tuple of parts: `one` of some letters, zero or more
    (`some`) of them, a `choice` among terms, or a `loop` of zero or more copies of a term. Terms have numbers."""

    def __init__(self, globs):
        self.tests = list(dict.fromkeys(test for it in globs for test in tests_of(it)))
        self.letters = letters_of(self.tests)
        self.passing = {test: frozenset(it for it in self.letters if passes(test, it)) for test in self.tests}
        self.numbers, self.terms, self.looked, self.known = {}, [], {}, {}
        self.starts = [self.number(self.term(it, False, False)) for it in globs]

    def number(self, term):
        if term not in self.numbers:
            self.numbers[term] = len(self.terms)
            self.terms.append(term)
        return self.numbers[term]

    def term(self, glob, before, after):
        """Returns the term of a glob, with something before and after it or not."""
        last = len(glob) - 1
        return tuple(part for at, it in enumerate(glob) for part in self.parts(it, before or at > 0, after or at < last))

    def parts(self, token, before, after):
        others, slash = frozenset(self.letters) - {SLASH}, ("one", frozenset(SLASH))
        match token:
            case Literal(text, folds):
                return tuple(("one", self.passing[Literal(it, folds)]) for it in text)
            case Separator():
                return (slash,)
            case One() | Class():
                return (("one", self.passing[token]),)
            case Wildcard():
                return (("some", others),)
            case Tree(is_rooted):
                every = ("some", frozenset(self.letters))
                if not after:
                    below = (slash, every)
                    return (("choice", ((), below)),) if before else below if is_rooted else (every,)
                above = ("choice", ((), (every, slash)))
                return (slash, above) if before or is_rooted else (above,)
            case Alternation(branches):
                return (("choice", tuple(self.term(it, before, after) for it in branches)),)
            case Repetition(body, low, high):
                return (("choice", tuple(self.ways(body, low, high, before, after))),)

    def ways(self, body, low, high, before, after):
        """Yields the terms of a repetition: of no copy, of one, and of several, for which each copy has others beside it."""
        if low == 0:
            yield ()
        if low <= 1 and high != 0:
            yield self.term(body, before, after)
        if high is None or high > 1:
            inner, least = self.term(body, True, True), max(low - 2, 0)
            more = (("loop", inner),) if high is None else (("choice", ((), inner)),) * (high - 2 - least)
            yield self.term(body, before, True) + inner * least + more + self.term(body, True, after)

    def look(self, number):
        """Returns whether a term matches the empty text, and its steps: sets of letters, each with what is left after one."""
        if number not in self.looked:
            is_end, steps, left = False, [], [self.terms[number]]
            seen = set(left)
            while left:
                term = left.pop()
                if not term:
                    is_end = True
                    continue
                (kind, what), rest = term[0], term[1:]
                if kind in ("one", "some"):
                    steps.append((what, self.number(rest if kind == "one" else term)))
                ways = {"one": [], "some": [()], "choice": what, "loop": [(), (*what, term[0])]}[kind]
                for later in ((*it, *rest) for it in ways):
                    if later not in seen:
                        seen.add(later)
                        left.append(later)
            self.looked[number] = is_end, steps
        return self.looked[number]

    def after(self, number, letter):
        """Returns the numbers of the partial derivatives of a term by a letter."""
        key = number, letter
        if key not in self.known:
            self.known[key] = {to for letters, to in self.look(number)[1] if letter in letters}
        return self.known[key]

    def matching(self, text):
        """Returns the indexes of the globs that match a text of letters."""
        states = {(at, start) for at, start in enumerate(self.starts)}
        for letter in text:
            states = {(at, to) for at, it in states for to in self.after(it, letter)}
        return {at for at, it in states if self.look(it)[0]}

    def found(self, first):
        """Returns, for each set of others, a shortest plain path that the first glob and exactly these others match, if there is
        one. Returns None if too much would be reached."""
        beside = frozenset((at, start) for at, start in enumerate(self.starts) if at != first)
        found, reached = {}, [("", self.starts[first], beside)]
        seen = {(*reached[0][1:], False)}
        for text, number, beside in reached:  # which grows
            is_in_name = is_plain(text)
            if is_in_name and self.look(number)[0]:
                found.setdefault(frozenset(at for at, it in beside if self.look(it)[0]), text)
            if len(reached) > MOST_REACHED:
                return None
            if len(found) == 2 ** (len(self.starts) - 1):
                break
            for letter in self.letters:
                numbers = self.after(number, letter) if letter != SLASH or is_in_name else ()
                later = numbers and frozenset((at, to) for at, it in beside for to in self.after(it, letter))
                for to in numbers:
                    key = to, later, letter != SLASH
                    if key not in seen:
                        seen.add(key)
                        reached.append((text + letter, to, later))
        return found


# --- the matcher


def ends_of(glob, text, starts, before, after):
    """Returns where in the text a glob can end if it begins at one of the starts, with something before and after it or not."""
    for at, token in enumerate(glob):
        if not starts:
            break
        around = before or at > 0, after or at < len(glob) - 1
        starts = {end for start in starts for end in ends_of_token(token, text, start, *around)}
    return starts


def ends_of_token(token, text, start, before, after):
    match token:
        case Literal(name, folds):
            end = start + len(name)
            is_read = end <= len(text) and all(passes(Literal(it, folds), c) for it, c in zip(name, text[start:end]))
            return {end} if is_read else set()
        case Separator():
            return {start + 1} if text[start : start + 1] == SLASH else set()
        case One() | Class():
            return {start + 1} if start < len(text) and passes(token, text[start]) else set()
        case Wildcard():
            return set(range(start, start + len(text[start:].split(SLASH)[0]) + 1))
        case Tree(is_rooted):
            return {end for end in range(start, len(text) + 1) if is_of_tree(text[start:end], is_rooted, before, after)}
        case Alternation(branches):
            return {end for it in branches for end in ends_of(it, text, {start}, before, after)}
        case Repetition(body, low, high):
            # without an upper bound, more copies than this could only add some of the empty text
            most = low + len(text) + 2 if high is None else high
            found, reached = {start} if low == 0 else set(), {start}
            for count in range(1, most + 1):
                before = before or count > 1
                found |= ends_of(body, text, reached, before, after) if count >= low else set()
                reached = ends_of(body, text, reached, before, True)
            return found


def is_of_tree(piece, is_rooted, before, after):
    """Returns whether a `**` matches this, by the table of the page."""
    begins, ends = piece.startswith(SLASH), piece.endswith(SLASH)
    if before:
        return begins and ends if after else begins or not piece
    if is_rooted:
        return begins and (ends or not after)
    return ends or not piece or not after


def matching(globs, text):
    """Returns the indexes of the globs that match a path."""
    return frozenset(at for at, it in enumerate(globs) if len(text) in ends_of(it, text, {0}, False, False))
