"""Draws random globs and paths for the tests that compare them with globs_as_automata.py."""
import random

from globs_as_automata import SLASH, Alternation, Class, Literal, One, Repetition, Separator, Tree, Wildcard

NAMES = ["a", "a", "a", "b", "b", "b", "ab", "ab", "ba", "c", "abc", "A", "B", "é", "É", "k", "\u212a", "s", "金", "a.c", "b1"]
PIECES = ["a", "a", "b", "b", "ab", "c", "k", "É", "s", "金", ".", "1"]
RANGES = [*(it * 2 for it in "abé"), "ab", "ab", "az", "az", "AZ", "09", "%1"]
EMPTY_RANGES = ["//", "ba"]
# what takes the place of a wildcard in a path that is drawn
USUAL = "aabbcks1ÉA"


class Draws(random.Random):
    """Draws globs, and paths that they match."""

    def happens(self, share):
        return self.random() < share

    def path(self, automaton):
        """Draws a plain path that the glob of the automaton matches. Returns an empty text if it doesn't find one."""
        state, in_name, text = automaton.start, False, ""
        for _ in range(80):
            if state == automaton.end:
                return text
            moves = [("", to, in_name) for to in automaton.silent[state]]
            for characters, to in automaton.steps[state]:
                usual = [it for it in USUAL if it in characters] or [it for it in sorted(characters) if it.isalnum()]
                moves += [(self.choice(usual), to, True)] if usual else []
                moves += [(SLASH, to, False)] if SLASH in characters and in_name else []
            moves = [it for it in moves if it[1:] in automaton.onward]
            if not moves:
                return ""
            character, state, in_name = self.choice(moves)
            text += character
        return ""

    def class_of_characters(self):
        ranges = self.choices(EMPTY_RANGES if self.happens(0.1) else RANGES, k=self.randint(1, 2))
        return Class(self.happens(0.3), tuple(tuple(it) for it in ranges))

    def part(self, room):
        """Draws a token of a component; `room` says how many sub-globs may be in one another."""
        kind = self.random()
        if kind < 0.45 or room == 0 and kind > 0.85:
            return Literal(self.choice(NAMES if self.happens(0.7) else PIECES), self.happens(0.2))
        if kind < 0.65:
            return Wildcard(self.choice("**$"))
        if kind < 0.75:
            return One()
        if kind < 0.85:
            return self.class_of_characters()
        if kind < 0.94:
            return Alternation(tuple(self.glob(room - 1) for _ in range(self.choice([1, 2, 2, 2, 3]))))
        return self.repetition(self.glob(room - 1))

    def repetition(self, body):
        low = self.choice([0, 0, 1, 1, 2])
        return Repetition(body, low, self.choice([None, low or 1, low + 1, low + 2]))

    def component(self, room):
        """Draws tokens between two boundaries. Two wildcards side by side would be read as one."""
        found = []
        for _ in range(self.choice([1, 1, 1, 2, 2, 3])):
            part = self.part(room)
            if not (found and isinstance(found[-1], Wildcard) and isinstance(part, Wildcard)):
                found.append(part)
        return found

    def glob(self, room=2):
        """Draws a glob or a sub-glob."""
        found = [Tree(False)] if self.happens(0.2) else []
        is_after_slash = bool(found)
        if not found and self.happens(0.04):
            found = [self.choice([Separator(), Tree(True)])]
            is_after_slash = True
        for count in reversed(range(self.choice([1, 1, 2, 2, 3]))):
            if self.happens(0.1):
                found.append(self.repetition((*self.component(0), Separator())))
            found += self.component(room)
            if count:
                found.append(self.choice([Separator(), Separator(), Separator(), Tree(False)]))
        if not is_after_slash or len(found) > 1:
            ending = self.random()
            found += [Tree(False)] if ending < 0.2 else [Separator()] if ending < 0.25 else []
        return tuple(found)

    def whole(self):
        """Draws a glob. Often it is an alternation of paths, with a component before it or none, as programs are given."""
        if self.happens(0.6):
            return self.glob()
        before = [*self.component(0), Separator()] if self.happens(0.3) else []
        return (*before, Alternation(tuple(self.glob(1) for _ in range(self.randint(2, 3)))))

    def set(self):
        """Draws the patterns of a set. Often their prefixes begin with the same names."""
        names = [token for name in self.choices("ab", k=self.choice([0, 0, 1, 2])) for token in (Literal(name, False), Separator())]
        if self.happens(0.1):
            names.insert(0, Separator())
        found = [(*names, *self.glob(1)) for _ in range(self.randint(1, 4))]
        return [self.glob(1) if self.happens(0.1) else it for it in found]
