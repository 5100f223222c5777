"""Matches paths against globs, checks them against ignore lists, walks folders, and compares globs, by the C library
`libwax.so`.

    >>> glob = Glob("src/**/*.{rs,toml}")
    >>> glob.is_match("src/a/b.rs")
    True
    >>> list(glob.filter(["src/a.rs", "README"]))
    ['src/a.rs']
    >>> ignored = IgnoreList("**/*.log\\n!keep.log\\n")
    >>> ignored.is_ignored("a/b.log")
    True

`walk` yields the files and folders that a glob matches. `overlap`, `difference` and `compare` find a path by which two
globs or sets differ, or that both match; an `IgnoreList` has methods of these names.

    >>> print(overlap("src/**/*.{go,rs}", "**/test_*"), difference("src/*.go", "src/**/*.{go,rs}"))
    src/test_.go None

Globs, sets and ignore lists are values, as compiled expressions of `re` are: they are equal if they are built from equal
texts, and can be keys, copied and pickled. So they can be sent to other processes, and so can the errors.

    >>> Glob("*.rs") == Glob("*.rs"), GlobSet(["a", "b"]) == GlobSet(["b", "a"])
    (True, False)
    >>> import pickle
    >>> pickle.loads(pickle.dumps(glob))
    Glob('src/**/*.{rs,toml}')

The library is loaded from the path in the environment variable `WAX_LIBRARY`. If that isn't set, it is `libwax.so` in
the folder of this file or, if there is none, the system's `libwax.so.0`. The calls `is_match`, `goes_on`, `is_ignored`
and `excludes_below` are methods of the extension `_wax` if that is in this package, or where Python looks for modules.
Otherwise they are made by `ctypes` and take longer. The script `library` of the repository builds the library and the
extension. `crates/wax_c/README.md` says what is proved.
"""

from __future__ import annotations

import ctypes
import errno
import importlib
import itertools
import os
import stat
import types
from typing import (
    TYPE_CHECKING,
    Any,
    Callable,
    Dict,
    Iterable,
    Iterator,
    List,
    NamedTuple,
    NoReturn,
    Optional,
    Sequence,
    Tuple,
    Type,
    Union,
    cast,
)

__all__ = [
    "BuildError",
    "Entry",
    "Error",
    "Glob",
    "GlobSet",
    "GlobWarning",
    "IgnoreList",
    "LineError",
    "MOST_STATES",
    "Matched",
    "Unknown",
    "compare",
    "difference",
    "escape",
    "is_match",
    "overlap",
    "walk",
]

# the usual limit of a comparison; its states then take at most 64 MiB
MOST_STATES = 100_000

# how many paths a filter passes in one call of ctypes
_CHUNK = 4096

_MESSAGES = {
    1: "the expression can't be read",
    2: "adjacent component boundaries `/` or `**`",
    3: "incompatible repetition bounds",
    4: "singular tree wildcard `**` in branch",
    5: "adjacent zero-or-more wildcards `*` or `$`",
    6: "uncertain or overlapping roots in branch",
    7: "singular zero-or-more wildcard `*` or `$` in branch",
    8: "oversized invariant expression",
    9: "oversized program",
    20: "a text isn't UTF-8",
    21: "the output is too small",
}


# the warnings, by their kinds in the header `wax.h`
_WARNINGS = {
    1: "`.` is matched as a text and stands for no folder",
    2: "`..` is matched as a text and stands for no folder",
    3: "the separator at the end matches only paths that end with one",
}

_NO_CAPTURE = "captures are counted from 0, which is the path"


class Error(ValueError):
    """The error of a call. `number` is its number in the list of the header `wax.h`."""

    def __init__(self, number: int, message: Optional[str] = None) -> None:
        super().__init__(message or _MESSAGES.get(number, f"error {number}"))
        self.number = number

    def __reduce__(self) -> Tuple[Any, ...]:
        return type(self), (self.number, str(self)), vars(self)


class BuildError(Error):
    """The error of an expression that can't be built.

    `number` is 1 if the expression can't be parsed, 2 to 8 if it breaks a rule, and 9 if it is too large. `expression`
    is the expression. `span` is the place of the error: the index of its first character, and that of the character
    after its last. For 9 it is None. `picture` is the expression with a line under it for each part that the error
    names, and is the end of the exception's text; for 9 it is empty.

        >>> try:
        ...     Glob("src//*.rs")
        ... except BuildError as error:
        ...     print(error)
        adjacent component boundaries `/` or `**`
        src//*.rs
           ^^ here
    """

    def __init__(
        self, number: int, expression: str, span: Optional[Tuple[int, int]] = None, picture: str = ""
    ) -> None:
        message = _MESSAGES.get(number, f"error {number}")
        super().__init__(number, f"{message}\n{picture}".rstrip("\n"))
        self.expression = expression
        self.span = span
        self.picture = picture

    def __reduce__(self) -> Tuple[Any, ...]:
        return type(self), (self.number, self.expression, self.span, self.picture), vars(self)


class LineError(Error):
    """The error of a line of an ignore list. `line` is the number of the line, from 1; `number` is what it is for a
    `BuildError`."""

    def __init__(self, number: int, line: int) -> None:
        super().__init__(number, f"line {line}: {_MESSAGES.get(number, f'error {number}')}")
        self.line = line

    def __reduce__(self) -> Tuple[Any, ...]:
        return type(self), (self.number, self.line), vars(self)


class Unknown(Exception):
    """Raised by comparisons if they don't decide within their limit. `most_states` is the limit.

        >>> try:
        ...     overlap("**/*a<?:20>", "**/*b<?:20>", most_states=1000)
        ... except Unknown as unknown:
        ...     print(f"{unknown}: {unknown.most_states}")
        the comparison takes more than 1000 states: 1000
    """

    def __init__(self, most_states: int) -> None:
        super().__init__(f"the comparison takes more than {most_states} states")
        self.most_states = most_states

    def __reduce__(self) -> Tuple[Any, ...]:
        return type(self), (self.most_states,), vars(self)


class _Span(ctypes.Structure):
    start: int
    length: int
    _fields_ = [("start", ctypes.c_size_t), ("length", ctypes.c_size_t)]


class _Warning(ctypes.Structure):
    span: _Span
    kind: int
    _fields_ = [("span", _Span), ("kind", ctypes.c_int32)]


class _Facts(ctypes.Structure):
    least_depth: int
    greatest_depth: int
    has_root: int
    is_exhaustive: int
    _fields_ = [
        ("least_depth", ctypes.c_size_t),
        ("greatest_depth", ctypes.c_size_t),
        ("has_root", ctypes.c_int32),
        ("is_exhaustive", ctypes.c_int32),
    ]


def _path_of_library() -> str:
    beside = os.path.join(os.path.dirname(os.path.abspath(__file__)), "libwax.so")
    return os.environ.get("WAX_LIBRARY") or (beside if os.path.exists(beside) else "libwax.so.0")


def _loaded(library: ctypes.CDLL, keeps_lock: bool) -> ctypes.CDLL:
    """Declares the calls that convert their arguments: those that use a handle, or the others."""
    text, size, number = ctypes.c_char_p, ctypes.c_size_t, ctypes.c_int32
    handle, sizes = ctypes.c_void_p, ctypes.POINTER(ctypes.c_size_t)
    handles, spans, facts = ctypes.POINTER(handle), ctypes.POINTER(_Span), ctypes.POINTER(_Facts)
    warnings = ctypes.POINTER(_Warning)
    output: List[Any] = [handle, size, sizes]
    two: List[Any] = [text, size, text, size, size, *output, sizes, spans]
    two_handles: List[Any] = [handle, handle, size, *output]
    lines: List[Any] = [handle, size, sizes, size, sizes]
    calls: List[Tuple[str, Any, List[Any]]] = [
        ("wax_escape", number, [text, size, *output]),
        ("wax_picture", number, [text, size, *output]),
        ("wax_overlap", number, two),
        ("wax_difference", number, two),
        ("wax_compare", number, two),
        ("wax_glob_new", number, [text, size, handles, spans]),
        ("wax_set_new", number, [text, size, sizes, size, handles, sizes, spans]),
        ("wax_ignore_new", number, [text, size, handles, sizes]),
    ]
    of_handles: List[Tuple[str, Any, List[Any]]] = [
        ("wax_glob_filter", number, [handle, text, size, *output]),
        ("wax_glob_spans", number, [handle, text, size, spans, size, sizes]),
        ("wax_glob_warnings", number, [handle, warnings, size, sizes]),
        ("wax_glob_facts", number, [handle, facts]),
        ("wax_glob_expression", number, [handle, *output]),
        ("wax_glob_text", number, [handle, *output]),
        ("wax_glob_partition", number, [handle, *output, handles]),
        ("wax_glob_overlap", number, two_handles),
        ("wax_glob_difference", number, two_handles),
        ("wax_glob_compare", number, two_handles),
        ("wax_glob_free", None, [handle]),
        ("wax_set_matches", number, [handle, text, size, sizes, size, sizes]),
        ("wax_set_facts", number, [handle, facts]),
        ("wax_set_text", number, [handle, *output]),
        ("wax_set_overlap", number, two_handles),
        ("wax_set_difference", number, two_handles),
        ("wax_set_compare", number, two_handles),
        ("wax_set_free", None, [handle]),
        ("wax_ignore_filter", number, [handle, text, size, *output]),
        ("wax_ignore_deciding_line", number, [handle, text, size, sizes]),
        ("wax_ignore_idle_lines", number, lines),
        ("wax_ignore_undecided_lines", number, lines),
        ("wax_ignore_tidy", number, lines),
        ("wax_ignore_overlap", number, two_handles),
        ("wax_ignore_difference", number, two_handles),
        ("wax_ignore_compare", number, two_handles),
        ("wax_ignore_free", None, [handle]),
    ]
    for name, result, arguments in of_handles if keeps_lock else calls:
        function = getattr(library, name)
        function.restype, function.argtypes = result, arguments
    return library


_library = _loaded(ctypes.CDLL(_path_of_library()), keeps_lock=False)

# The calls that use a handle, which keeps what they learn, so one at a time may use it. By PyDLL they keep the lock of
# the interpreter. Those that decide something about a path return an int, and ctypes need know no more of them.
_using = _loaded(ctypes.PyDLL(_path_of_library()), keeps_lock=True)


def _bytes(text: str) -> bytes:
    """Returns a text as UTF-8. Raises `Error` 20 if it can't be converted, as half of a surrogate pair can't."""
    try:
        return str.encode(text)
    except UnicodeEncodeError:
        raise Error(20) from None


def _raise(number: int) -> NoReturn:
    if number == 10:
        raise MemoryError
    raise Error(number)


def _raise_built(number: int, expression: str, span: _Span) -> NoReturn:
    """Raises the error of an expression that isn't built."""
    if number in (10, 20):
        _raise(number)
    if number == 9:
        raise BuildError(number, expression)
    text = _bytes(expression)
    picture = _written(_library.wax_picture, text, len(text), room=4 * len(text) + 64)[1]
    raise BuildError(number, expression, _part(text, span), picture)


def _part(text: bytes, span: _Span) -> Tuple[int, int]:
    """Returns a part of a text in characters: the index of its first, and that of the one after its last."""
    start, end = span.start, span.start + span.length
    if text.isascii():
        return start, end
    return len(text[:start].decode()), len(text[:end].decode())


def _written(
    function: Any, *arguments: Any, room: int, out: Sequence[Any] = (), refused: Callable[[int], NoReturn] = _raise
) -> Tuple[int, str]:
    """Returns the result of a call that writes a text, and the text. The call gets the arguments, then the output with
    its length and where to write how many bytes it needs, and then `out`. `room` is how long the output is at first.
    `refused` raises the error of the call."""
    written = ctypes.c_size_t(room)
    status = -21
    while status == -21:
        room = written.value
        output = ctypes.create_string_buffer(max(room, 1))
        status = function(*arguments, output, room, ctypes.byref(written), *out)
    if status < 0:
        refused(-status)
    return status, ctypes.string_at(output, written.value).decode()


def _filtered(function: Any, handle: Any, keeps: Callable[[str], bool], paths: Iterable[str]) -> Iterator[str]:
    """Yields the paths that a call keeps of lines, many in one call, or those that `keeps` keeps if one of these contains
    a line feed. By ctypes this takes less time than a call for each path."""
    paths = iter(paths)
    while chunk := list(itertools.islice(paths, _CHUNK)):
        text = "\n".join(chunk) + "\n"
        if text.count("\n") != len(chunk):
            yield from filter(keeps, chunk)
        else:
            lines = _bytes(text)
            yield from _written(function, handle, lines, len(lines), room=len(lines))[1].split("\n")[:-1]


def is_match(expression: str, path: str) -> bool:
    """Returns whether the expression matches the path.

    Each call builds the glob anew. To match many paths, build a `Glob` once.

    Raises `BuildError` if the expression can't be built, `MemoryError` if an allocation fails.

        >>> is_match("**/*.png", "a/b.png")
        True
    """
    return Glob(expression).is_match(path)


def escape(text: str) -> str:
    """Returns an expression that matches only this text, by a backslash before each character that needs one.

    A backslash can't be escaped, so what is returned for a text with one is no expression.

    Raises `MemoryError` if an allocation fails.

        >>> escape("a[1]*.txt")
        'a\\\\[1\\\\]\\\\*.txt'
    """
    encoded = _bytes(text)
    return _written(_library.wax_escape, encoded, len(encoded), room=2 * len(encoded))[1]


def overlap(first: Pattern, second: Pattern, *, most_states: int = MOST_STATES) -> Optional[str]:
    """Returns a shortest path that both match, or None if there is none. Each is an expression, a `Glob` or a `GlobSet`.

    Only paths as walks have them count: one or more names, with a `/` between each two. So there is none if all that one
    of both matches begins with `/`.

    The search follows states to which paths lead. There may be many if several `?` or a long repetition follow a `*`.
    `most_states` is the greatest number of them; they take at most 384 bytes for each of so many.

    With a `GlobSet`, or a rest that `partition` returned, other threads wait until the search ends.

    Raises `Unknown` if the search takes more, `BuildError` for the first expression that can't be built, `ValueError` for
    a rest and a set, `MemoryError` if an allocation fails.

        >>> overlap("src/**/*.{go,rs}", "**/test_*")
        'src/test_.go'
        >>> overlap("*.rs", "src/**") is None
        True
        >>> overlap(GlobSet(["src/**", "*.md"]), "**/R*")
        'R.md'
    """
    return _found("overlap", first, second, most_states)


def difference(first: Pattern, second: Pattern, *, most_states: int = MOST_STATES) -> Optional[str]:
    """Returns a shortest path that the first matches and the second doesn't. It is None if the second matches all that
    the first does. The arguments, paths and errors are those of `overlap`.

        >>> difference("**/*.rs", "src/**")
        '.rs'
        >>> difference("src/*.go", "src/**/*.{go,rs}") is None
        True
        >>> difference(GlobSet(["*.rs", "*.md"]), "*.rs")
        '.md'
    """
    return _found("difference", first, second, most_states)


def compare(first: Pattern, second: Pattern, *, most_states: int = MOST_STATES) -> Optional[str]:
    """Returns a shortest path that exactly one of both matches, or None if both match the same paths. The arguments, paths
    and errors are those of `overlap`.

        >>> compare("{src,tests}/**/*.rs", "{src,tests,benches}/**/*.rs")
        'benches/.rs'
        >>> compare("**/{a,b}", GlobSet(["**/a", "**/b"])) is None
        True
    """
    return _found("compare", first, second, most_states)


def _found(call: str, first: Pattern, second: Pattern, most_states: int) -> Optional[str]:
    """Returns what a call finds of two patterns: of two sets if one is a set, of two handles of globs if one is a rest, and
    otherwise of two expressions."""
    if isinstance(first, GlobSet) or isinstance(second, GlobSet):
        return _of_handles("set", call, _set_of(first), _set_of(second), most_states)
    if _is_rest(first) or _is_rest(second):
        return _of_handles("glob", call, _glob_of(first), _glob_of(second), most_states)
    return _compared(getattr(_library, f"wax_{call}"), first, second, most_states)


def _compared(function: Any, first: Union[str, Glob], second: Union[str, Glob], most_states: int) -> Optional[str]:
    """Returns what a call finds of two expressions."""
    most = _limit(most_states)
    expressions = [it._whole_expression() if isinstance(it, Glob) else it for it in (first, second)]
    one, other = map(_bytes, expressions)
    which, span = ctypes.c_size_t(), _Span()

    def refused(number: int) -> NoReturn:
        if which.value < len(expressions):
            _raise_built(number, expressions[which.value], span)
        _raise(number)

    arguments, out = [one, len(one), other, len(other), most], [ctypes.byref(which), ctypes.byref(span)]
    return _finding(_written(function, *arguments, room=4096, out=out, refused=refused), most_states)


def _of_handles(kind: str, call: str, first: _Held, second: _Held, most_states: int) -> Optional[str]:
    """Returns what a call finds of two objects of a kind."""
    most = _limit(most_states)
    if first is second:
        # no call takes a handle twice; what an object has in common with itself, it has in common with `**`
        if call != "overlap":
            return None
        second = _everything(kind)
    function = getattr(_using, f"wax_{kind}_{call}")
    return _finding(_written(function, first._handle, second._handle, most, room=4096), most_states)


def _everything(kind: str) -> _Held:
    """Returns an object of a kind that matches, or ignores, all paths."""
    if kind == "set":
        return GlobSet(["**"])
    if kind == "glob":
        return Glob("**")
    return IgnoreList("**")


def _limit(most_states: int) -> int:
    """Returns the limit as a number for the library."""
    if most_states < 0:
        raise ValueError("the greatest number of states is negative")
    return min(most_states, ctypes.c_size_t(-1).value)


def _finding(found: Tuple[int, str], most_states: int) -> Optional[str]:
    status, path = found
    if status == 2:
        raise Unknown(most_states)
    return path if status else None


def _is_rest(pattern: Pattern) -> bool:
    return isinstance(pattern, Glob) and bool(pattern._source()[1])


def _glob_of(pattern: Union[str, Glob]) -> Glob:
    return pattern if isinstance(pattern, Glob) else Glob(pattern)


def _set_of(pattern: Pattern) -> GlobSet:
    if isinstance(pattern, GlobSet):
        return pattern
    return GlobSet([pattern._whole_expression() if isinstance(pattern, Glob) else pattern])


# the lengths of most paths, since to make one takes half as long as a call
_SHORT = 512
_LENGTHS = [ctypes.c_size_t(length) for length in range(_SHORT)]


class _Handle(ctypes.c_void_p):
    """A handle of the library, which is freed with this object."""

    release: Callable[[_Handle], None]

    def __del__(self) -> None:
        if self:
            self.release(self)


_NOT_BUILT = "the object isn't built: `__init__` wasn't called, or failed"


class _Held:
    """An object that owns a handle, with two calls that decide something about a path. The extension has its own."""

    _owned: Optional[_Handle] = None
    _first: Any = None
    _second: Any = None

    def _hold(self, handle: Optional[int], first: Any, second: Any, release: Any) -> None:
        owned = _Handle(handle)
        owned.release = release
        if self._owned is not None:
            raise ValueError("the object is already built")
        self._owned, self._first, self._second = owned, first, second

    @property
    def _handle(self) -> Any:
        if self._owned is None:
            raise ValueError(_NOT_BUILT)
        return self._owned

    def _decided(self, function: Any, path: str) -> bool:
        """Returns what a call decides about a path, or raises its error. The call has no argtypes, so nothing converts
        its arguments, which are bytes and numbers of ctypes: so an empty call takes a third of the time."""
        handle = self._owned or self._handle  # (the second raises an error)
        try:
            text = str.encode(path)
        except UnicodeEncodeError:
            raise Error(20) from None
        length = len(text)
        status: int = function(handle, text, _LENGTHS[length] if length < _SHORT else ctypes.c_size_t(length))
        if status < 0:
            _raise(-status)
        return bool(status)


class _Matcher(_Held):
    def is_match(self, path: str) -> bool:
        """Returns whether the glob, or one of a set, matches the path.

        Raises `MemoryError` if an allocation fails.
        """
        return self._decided(self._first, path)

    def goes_on(self, folder: str) -> bool:
        """Returns whether the glob, or one of a set, matches the path of something below the folder with this path.

        So a walk needs to open a folder only if this is true. The empty path is the folder where paths begin.

        Raises `MemoryError` if an allocation fails.

            >>> glob = Glob("src/*/tests/*.rs")
            >>> glob.goes_on("src/net"), glob.goes_on("doc")
            (True, False)
        """
        return self._decided(self._second, folder)


class _IgnoreMatcher(_Held):
    def is_ignored(self, path: str) -> bool:
        """Returns whether the list ignores the path, and keeps what it learns from it for the next ones.

        Raises `MemoryError` if an allocation fails.
        """
        return self._decided(self._first, path)

    def excludes_below(self, folder: str) -> bool:
        """Returns True if the list ignores everything below the folder with this path, so that a walk needn't open it,
        and False if something below it might not be ignored. The path has no `/` at its end.

        Raises `MemoryError` if an allocation fails.

            >>> ignored = IgnoreList("target/**\\n")
            >>> ignored.excludes_below("target/debug"), ignored.excludes_below("src")
            (True, False)
        """
        return self._decided(self._second, folder)


def _found_extension() -> Optional[types.ModuleType]:
    """Returns the extension: that in the package of this file or, if this is in none, one where Python looks for
    modules. Returns None if there is none."""
    try:
        return importlib.import_module("._wax" if __package__ else "_wax", __package__)
    except ImportError:
        return None


_extension = _found_extension()
_MatcherBase = _Matcher
_IgnoreBase = _IgnoreMatcher
if not TYPE_CHECKING and _extension:
    _MatcherBase, _IgnoreBase = _extension.Matcher, _extension.IgnoreMatcher


def _calls_of(*names: str) -> List[Any]:
    """Returns calls that use a handle as `_hold` takes them: functions, or their addresses for the extension."""
    found = [getattr(_using, name) for name in names]
    return [ctypes.cast(it, ctypes.c_void_p).value for it in found] if _extension else found


_GLOB_CALLS = _calls_of("wax_glob_is_match", "wax_glob_goes_on", "wax_glob_free")
_SET_CALLS = _calls_of("wax_set_is_match", "wax_set_goes_on", "wax_set_free")
_IGNORE_CALLS = _calls_of("wax_ignore_is_ignored", "wax_ignore_excludes_below", "wax_ignore_free")


# the attributes that are set when an object is built
_BUILT = {"_owned", "_first", "_second", "_given", "_most_captures"}


class _Value:
    """An object that is compared, hashed, copied and pickled by what it is built from.

    A copy is built again, so it has a handle of its own. It has the other attributes, too, such as those of a subclass.
    """

    _given: Any = None  # what the object is built from

    def _build(self, given: Any) -> None:
        raise NotImplementedError

    def _source(self) -> Any:
        """Returns what the object is built from, or raises an error if it isn't built."""
        if self._given is None:
            raise ValueError(_NOT_BUILT)
        return self._given

    def _shown(self) -> str:
        """Returns what `repr` shows of an object that is built: an expression that builds an equal one."""
        return f"{type(self).__name__}({self._given!r})"

    def __eq__(self, other: object) -> bool:
        if type(self) is not type(other):
            return NotImplemented
        return bool(self._given == cast(_Value, other)._given)

    def __hash__(self) -> int:
        return hash((type(self), self._given))

    def __repr__(self) -> str:
        return object.__repr__(self) if self._given is None else self._shown()

    def __getstate__(self) -> Dict[str, Any]:
        return {name: value for name, value in vars(self).items() if name not in _BUILT}

    def __reduce__(self) -> Tuple[Any, ...]:
        return _copied, (type(self), self._source()), self.__getstate__()


def _copied(kind: Type[_Value], given: Any) -> _Value:
    """Builds a copy of an object of this type. Pickled objects name this function."""
    copied = kind.__new__(kind)
    copied._build(given)
    return copied


class Matched:
    """What a glob captures of a path.

    `text` is the path, and `captures` has the part of it that each capture matched: that of each class, wildcard,
    alternation and repetition of the expression that isn't inside another token. Each capture has a part, which may be
    empty. `matched[0]` is the path, and `matched[1]` the part of the first capture. `span`, `start` and `end` say where it
    is in the path, as those of a match of `re` do.

        >>> matched = Glob("src/**/*.{c,rs}").matched("src/net/tcp.c")
        >>> matched[2], matched.span(2), matched.text[matched.start(2) :]
        ('tcp', (8, 11), 'tcp.c')
    """

    __slots__ = ("text", "captures", "_spans")

    def __init__(self, text: str, spans: Tuple[Tuple[int, int], ...]) -> None:
        self.text = text
        self.captures = tuple(text[start:end] for start, end in spans)
        self._spans = spans

    def __getitem__(self, index: int) -> str:
        if index < 0:
            raise IndexError(_NO_CAPTURE)
        return self.captures[index - 1] if index else self.text

    def span(self, index: int = 0) -> Tuple[int, int]:
        """Returns where a capture is in the path: the index of its first character, and that of the character after its
        last. Both are equal if the capture is empty.

        Raises `IndexError` if there is no such capture.
        """
        if index < 0:
            raise IndexError(_NO_CAPTURE)
        return self._spans[index - 1] if index else (0, len(self.text))

    def start(self, index: int = 0) -> int:
        """Returns the index of the first character of a capture, as `span` does."""
        return self.span(index)[0]

    def end(self, index: int = 0) -> int:
        """Returns the index of the character after a capture, as `span` does."""
        return self.span(index)[1]

    def __repr__(self) -> str:
        return f"Matched({self.text!r}, {self._spans!r})"


class GlobWarning(NamedTuple):
    """A warning of a glob that builds, but may not match what its author expects. `text` says why, and `span` is the
    part of the expression: the index of its first character, and that of the character after its last."""

    text: str
    span: Tuple[int, int]


class _Queried(_MatcherBase):
    """A glob or a set, with what is known of all paths that it matches."""

    _facts_call: Any = None
    _text_call: Any = None

    def _facts(self) -> _Facts:
        facts = _Facts()
        self._facts_call(self._handle, ctypes.byref(facts))
        return facts

    @property
    def depth(self) -> Tuple[int, Optional[int]]:
        """The least and the greatest number of components that a match can have. The greatest is None if there is none.

        `*`, `$` and a class count as one character, so a match that is empty, or has a `/` at an end, may have fewer.

            >>> Glob("src/*/mod.rs").depth, Glob("a/**/b").depth, GlobSet(["*.md", "src/*/mod.rs"]).depth
            ((3, 3), (2, None), (1, 3))
        """
        facts = self._facts()
        has_greatest = facts.greatest_depth != ctypes.c_size_t(-1).value
        return facts.least_depth, facts.greatest_depth if has_greatest else None

    @property
    def has_root(self) -> bool:
        """Whether it is certain that each match begins with `/`.

        >>> Glob("/usr/**").has_root, Glob("**").has_root, GlobSet(["/usr/**", "/opt"]).has_root
        (True, False, True)
        """
        return self._facts().has_root == 2

    @property
    def is_exhaustive(self) -> bool:
        """Whether it is certain that everything below a match matches, too.

        >>> Glob("src/**").is_exhaustive, Glob("src/*").is_exhaustive, GlobSet(["src/**", "doc/**"]).is_exhaustive
        (True, False, True)
        """
        return self._facts().is_exhaustive == 2

    @property
    def text(self) -> Optional[str]:
        """The only path that matches, if the expressions are written so that there is only one; otherwise None. Of a set
        without expressions, it is the empty text.

        >>> Glob("<a/:3>x").text, GlobSet(["a/b", "a/[b]"]).text
        ('a/a/a/x', 'a/b')
        >>> Glob("a*").text is None
        True
        """
        status, text = _written(self._text_call, self._handle, room=256)
        return text if status else None


class Glob(_Value, _Queried):
    """A glob, built from an expression, which `str` returns.

    Globs are equal if they are built from equal expressions.

    Raises `BuildError` if the expression can't be built, `MemoryError` if an allocation fails.

        >>> glob = Glob("src/*.rs")
        >>> glob, str(glob)
        (Glob('src/*.rs'), 'src/*.rs')
        >>> {glob: "Rust"}[Glob("src/*.rs")]
        'Rust'
    """

    # the expression, and by how many partitions the glob is the rest of it
    _given: Optional[Tuple[str, int]] = None
    _most_captures = 0
    _refused = staticmethod(_raise)  # (the extension calls it)
    _facts_call, _text_call = _using.wax_glob_facts, _using.wax_glob_text

    def __init__(self, expression: str) -> None:
        self._build((expression, 0))

    def _build(self, given: Tuple[str, int]) -> None:
        expression, _ = given
        text, handle, span = _bytes(expression), ctypes.c_void_p(), _Span()
        status = _library.wax_glob_new(text, len(text), ctypes.byref(handle), ctypes.byref(span))
        if status:
            _raise_built(-status, expression, span)
        self._hold(handle.value, *_GLOB_CALLS)
        self._given, self._most_captures = (str.__str__(expression), 0), len(text)

    def __reduce__(self) -> Tuple[Any, ...]:
        whole, partitions = self._source()
        return (_rest, (whole, partitions), self.__getstate__()) if partitions else super().__reduce__()

    def __str__(self) -> str:
        return self.expression

    def _shown(self) -> str:
        whole, partitions = self._source()
        return f"{type(self).__name__}({whole!r}){'.partition()[1]' * partitions}"

    @property
    def expression(self) -> str:
        """The expression. Of the rest that `partition` returns, it is the rest of the expression, without earlier flags.

        >>> Glob("src/*.rs").expression
        'src/*.rs'
        """
        whole, partitions = self._source()
        if partitions:
            return _written(_using.wax_glob_expression, self._handle, room=self._most_captures)[1]
        return str(whole)

    def matched(self, path: str) -> Optional[Matched]:
        """Returns what the glob captures of the path, or None if it doesn't match the path.

        Raises `MemoryError` if an allocation fails.

            >>> matched = Glob("src/**/*.{c,rs}").matched("src/net/tcp.c")
            >>> matched.captures
            ('net/', 'tcp', 'c')
            >>> matched[0], matched[2]
            ('src/net/tcp.c', 'tcp')
        """
        text, count = _bytes(path), ctypes.c_size_t()
        found = (_Span * self._most_captures)()
        status = _using.wax_glob_spans(
            self._handle, text, len(text), found, self._most_captures, ctypes.byref(count)
        )
        if status < 0:
            _raise(-status)
        return Matched(path, tuple(_part(text, span) for span in found[: count.value])) if status else None

    def filter(self, paths: Iterable[str]) -> Iterator[str]:
        """Returns an iterator over the paths that the glob matches, in order.

        Raises `MemoryError` if an allocation fails.
        """
        if _extension:
            return filter(super().is_match, paths)
        return _filtered(_using.wax_glob_filter, self._handle, super().is_match, paths)

    @property
    def warnings(self) -> List[GlobWarning]:
        """The warnings: one for each component that is `.` or `..`, and a last one if the glob ends with a `/`.

        Reading it raises `MemoryError` if an allocation fails.

            >>> for warning in Glob("../src/").warnings:
            ...     print(warning.span, warning.text)
            (0, 2) `..` is matched as a text and stands for no folder
            (6, 7) the separator at the end matches only paths that end with one
        """
        expression, count = _bytes(self.expression), ctypes.c_size_t()
        room = len(expression) + 1
        found = (_Warning * room)()
        status = _using.wax_glob_warnings(self._handle, found, room, ctypes.byref(count))
        if status:
            _raise(-status)
        return [GlobWarning(_WARNINGS[it.kind], _part(expression, it.span)) for it in found[: count.value]]

    def partition(self) -> Tuple[str, Optional[Glob]]:
        """Returns the prefix with which each match begins, and a glob of the rest, or None if there is no rest.

        The rest matches what this glob matches after the prefix, and after a `/` unless the prefix is empty or ends
        with one. Its `expression` is the rest of this one, without flags that come before it, so it may match other
        paths by itself. Therefore a rest is copied and pickled with the whole expression, and equals only rests of it.

        Raises `MemoryError` if an allocation fails.

            >>> prefix, rest = Glob("src/{a/*.rs}").partition()
            >>> prefix, rest.is_match("b.rs"), rest.expression
            ('src/a/', True, '*.rs')
            >>> rest
            Glob('src/{a/*.rs}').partition()[1]
            >>> rest == Glob("src/{a/*.rs}").partition()[1], rest == Glob("*.rs")
            (True, False)
        """
        handle = ctypes.c_void_p()
        out = [ctypes.byref(handle)]
        _, prefix = _written(_using.wax_glob_partition, self._handle, room=self._most_captures, out=out)
        if not handle:
            return prefix, None
        rest = Glob.__new__(Glob)
        rest._hold(handle.value, *_GLOB_CALLS)
        whole, partitions = self._source()
        rest._given, rest._most_captures = (whole, partitions + 1), self._most_captures
        return prefix, rest

    def overlap(self, other: Pattern, *, most_states: int = MOST_STATES) -> Optional[str]:
        """Returns a shortest path that this glob and an expression, a glob or a set match, or None if there is none, as
        `overlap` does.

            >>> Glob("src/**").overlap("**/*.rs")
            'src/.rs'
            >>> prefix, rest = Glob("src/*/mod.rs").partition()
            >>> rest.overlap("net/**")
            'net/mod.rs'
        """
        return overlap(self, other, most_states=most_states)

    def difference(self, other: Pattern, *, most_states: int = MOST_STATES) -> Optional[str]:
        """Returns a shortest path that this glob matches and an expression, another glob or a set doesn't, or None, as
        `difference` does.

            >>> Glob("src/*.rs").difference(Glob("src/**")) is None
            True
        """
        return difference(self, other, most_states=most_states)

    def compare(self, other: Pattern, *, most_states: int = MOST_STATES) -> Optional[str]:
        """Returns a shortest path that exactly one of this glob and an expression, another glob or a set matches, or None,
        as `compare` does.

            >>> Glob("a/**").compare("a/*")
            'a'
        """
        return compare(self, other, most_states=most_states)

    def _whole_expression(self) -> str:
        """Returns the expression, or raises ValueError for a rest, which has none of its own."""
        whole, partitions = self._source()
        if partitions:
            raise ValueError("the rest of a partition is compared only with globs")
        return str(whole)

    def _expressions(self) -> Sequence[Optional[str]]:
        whole, partitions = self._source()
        return [None if partitions else whole]

    def _prefixes(self) -> List[str]:
        return [self.partition()[0]]


def _rest(whole: str, partitions: int) -> Optional[Glob]:
    """Returns the rest of a glob after so many partitions, for a copy. Pickled objects name this function."""
    rest: Optional[Glob] = Glob(whole)
    for _ in range(partitions):
        rest = rest and rest.partition()[1]
    return rest


class GlobSet(_Value, _Queried):
    """A set of globs, built from expressions.

    Sets are equal if they are built from equal expressions in the same order.

    Raises `BuildError` for the first expression that can't be built, `Error` 9 if the set is too large, `MemoryError`
    if an allocation fails.

        >>> pictures = GlobSet(["**/*.png", "**/*.{jpg,jpeg}", "a/**"])
        >>> pictures.is_match("b/logo.jpeg"), pictures.matches("a/logo.png")
        (True, [0, 2])
    """

    _given: Optional[Tuple[str, ...]] = None
    _refused = staticmethod(_raise)
    _facts_call, _text_call = _using.wax_set_facts, _using.wax_set_text

    def __init__(self, expressions: Iterable[str]) -> None:
        self._build(tuple(expressions))

    def _build(self, given: Tuple[str, ...]) -> None:
        texts = [_bytes(expression) for expression in given]
        joined, count = b"".join(texts), len(texts)
        lengths = (ctypes.c_size_t * count)(*map(len, texts))
        handle, which, span = ctypes.c_void_p(), ctypes.c_size_t(), _Span()
        status = _library.wax_set_new(
            joined, len(joined), lengths, count, ctypes.byref(handle), ctypes.byref(which), ctypes.byref(span)
        )
        if status and which.value < count:
            _raise_built(-status, given[which.value], span)
        if status:
            _raise(-status)
        self._hold(handle.value, *_SET_CALLS)
        self._given = tuple(str.__str__(expression) for expression in given)

    def _shown(self) -> str:
        return f"{type(self).__name__}({list(self.expressions)!r})"

    @property
    def expressions(self) -> Tuple[str, ...]:
        """The expressions, in their order.

        >>> GlobSet(["src/**", "*.md"]).expressions
        ('src/**', '*.md')
        """
        return tuple(self._source())

    def matches(self, path: str) -> List[int]:
        """Returns the indexes of all expressions that match the path, ascending.

        Raises `MemoryError` if an allocation fails.
        """
        text, count, room = _bytes(path), ctypes.c_size_t(), len(self.expressions)
        which = (ctypes.c_size_t * room)()
        status = _using.wax_set_matches(self._handle, text, len(text), which, room, ctypes.byref(count))
        if status:
            _raise(-status)
        return which[: count.value]

    def filter(self, paths: Iterable[str]) -> Iterator[str]:
        """Returns an iterator over the paths that one of the expressions matches, in order.

        Raises `MemoryError` if an allocation fails.

            >>> list(GlobSet(["src/**", "*.md"]).filter(["src/lib.rs", "LICENSE", "README.md"]))
            ['src/lib.rs', 'README.md']
        """
        return filter(super().is_match, paths)

    def overlap(self, other: Pattern, *, most_states: int = MOST_STATES) -> Optional[str]:
        """Returns a shortest path that this set and an expression, a glob or another set match, or None if there is none,
        as `overlap` does.

            >>> sources = GlobSet(["src/**/*.go", "src/**/*.rs"])
            >>> sources.overlap(GlobSet(["docs/**", "**/test_*"]))
            'src/test_.go'
            >>> sources.overlap("docs/**") is None
            True
        """
        return overlap(self, other, most_states=most_states)

    def difference(self, other: Pattern, *, most_states: int = MOST_STATES) -> Optional[str]:
        """Returns a shortest path that this set matches and an expression, a glob or another set doesn't, or None, as
        `difference` does.

            >>> GlobSet(["src/*.go", "src/*.rs"]).difference("src/**") is None
            True
        """
        return difference(self, other, most_states=most_states)

    def compare(self, other: Pattern, *, most_states: int = MOST_STATES) -> Optional[str]:
        """Returns a shortest path that exactly one of this set and an expression, a glob or another set matches, or None, as
        `compare` does.

            >>> GlobSet(["*.go", "*.rs"]).compare("*.{rs,go}") is None
            True
        """
        return compare(self, other, most_states=most_states)

    def _expressions(self) -> Sequence[Optional[str]]:
        return self.expressions

    def _prefixes(self) -> List[str]:
        return [Glob(expression).partition()[0] for expression in self.expressions]


class IgnoreList(_Value, _IgnoreBase):
    """An ignore list, with a glob on each line: paths that it matches are ignored or, after a `!`, aren't. The last
    line that matches a path decides. Lines that are empty or begin with `#` are skipped.

    Lists are equal if they are built from equal texts.

    Raises `LineError` if the glob of a line has an error, `MemoryError` if an allocation fails.
    """

    _given: Optional[str] = None
    _refused = staticmethod(_raise)

    def __init__(self, text: str) -> None:
        self._build(text)

    def _build(self, given: str) -> None:
        lines, handle, line = _bytes(given), ctypes.c_void_p(), ctypes.c_size_t()
        status = _library.wax_ignore_new(lines, len(lines), ctypes.byref(handle), ctypes.byref(line))
        if status and line.value:
            raise LineError(-status, line.value)
        if status:
            _raise(-status)
        self._hold(handle.value, *_IGNORE_CALLS)
        self._given = str.__str__(given)

    @property
    def text(self) -> str:
        """The text that the list is built from.

        >>> IgnoreList("*.o\\n").text
        '*.o\\n'
        """
        return str(self._source())

    def filter(self, paths: Iterable[str]) -> Iterator[str]:
        """Returns an iterator over the paths that the list doesn't ignore, in order.

        Raises `MemoryError` if an allocation fails.

            >>> list(IgnoreList("**/*.log\\n!keep.log\\n").filter(["a/b.log", "src/lib.rs", "keep.log"]))
            ['src/lib.rs', 'keep.log']
        """
        is_ignored = super().is_ignored
        if _extension:
            return itertools.filterfalse(is_ignored, paths)
        return _filtered(_using.wax_ignore_filter, self._handle, lambda path: not is_ignored(path), paths)

    def deciding_line(self, path: str) -> Optional[int]:
        """Returns the index of the last line that matches the path, or None if no line does. This line decides whether
        the path is ignored. Lines are counted from 0, without those that are skipped.

        Each call reads all lines anew, so it takes longer than `is_ignored`.

        Raises `MemoryError` if an allocation fails.

            >>> ignored = IgnoreList("**/*.log\\n!keep.log\\n")
            >>> ignored.deciding_line("a/b.log"), ignored.deciding_line("keep.log"), ignored.deciding_line("a.c")
            (0, 1, None)
        """
        text, line = _bytes(path), ctypes.c_size_t()
        status: int = _using.wax_ignore_deciding_line(self._handle, text, len(text), ctypes.byref(line))
        if status < 0:
            _raise(-status)
        return line.value if status else None

    def idle_lines(self, *, most_states: int = MOST_STATES) -> List[int]:
        """Returns the indexes of the lines that decide nothing, ascending, counted as for `deciding_line`. Without them, the
        list ignores the same paths, among the paths as walks have them: one or more names, with a `/` between each two.

        Each other line decides such a path, except those that `undecided_lines` returns for the same `most_states`, which is
        the greatest number of states that a comparison of a line with others may take.

        Raises `MemoryError` if an allocation fails.

            >>> IgnoreList("docs/*.o\\n!keep.c\\n**/*.o\\n").idle_lines()
            [0, 1]
        """
        return self._lines(_using.wax_ignore_idle_lines, most_states)

    def undecided_lines(self, *, most_states: int = MOST_STATES) -> List[int]:
        """Returns the indexes of the lines of which `idle_lines` doesn't find out whether they decide a path.

        Raises `MemoryError` if an allocation fails.

            >>> ignored = IgnoreList("docs/*.o\\n**/*.o\\n")
            >>> ignored.undecided_lines(), ignored.undecided_lines(most_states=1)
            ([], [0, 1])
        """
        return self._lines(_using.wax_ignore_undecided_lines, most_states)

    def tidied(self, *, most_states: int = MOST_STATES) -> IgnoreList:
        """Returns a list of the same text without lines that decide nothing. It ignores the same paths of walks. Without some
        lines others may decide nothing, too, so it removes lines until each that is left decides a path, except those of which
        this takes more than `most_states` states to find out. Lines that are empty or begin with `#` stay.

        Raises `MemoryError` if an allocation fails.

            >>> IgnoreList("# built\\n**/*.o\\ndocs/a\\n!docs/a\\n").tidied()
            IgnoreList('# built\\n**/*.o\\n')
        """
        enough, numbers = set(self._lines(_using.wax_ignore_tidy, most_states)), itertools.count()
        lines = self.text.split("\n")
        return IgnoreList("\n".join(line for line in lines if _is_skipped(line) or next(numbers) in enough))

    def _lines(self, function: Any, most_states: int) -> List[int]:
        """Returns the indexes that a call finds."""
        most, count, room = _limit(most_states), ctypes.c_size_t(), self.text.count("\n") + 1
        lines = (ctypes.c_size_t * room)()
        status: int = function(self._handle, most, lines, room, ctypes.byref(count))
        if status < 0:
            _raise(-status)
        return lines[: count.value]

    def overlap(self, other: IgnoreList, *, most_states: int = MOST_STATES) -> Optional[str]:
        """Returns a shortest path of walks that both lists ignore, or None if there is none. The limit and the errors are
        those of the function `overlap`.

            >>> IgnoreList("src/**\\n!src/a\\n").overlap(IgnoreList("*/a\\n*/bc\\n"))
            'src/bc'
        """
        return self._found("overlap", other, most_states)

    def difference(self, other: IgnoreList, *, most_states: int = MOST_STATES) -> Optional[str]:
        """Returns a shortest path of walks that this list ignores and another one doesn't, or None if the other one ignores
        all that this one does. The limit and the errors are those of the function `overlap`.

            >>> IgnoreList("**/*.log\\n").difference(IgnoreList("**/*.log\\n!keep.log\\n"))
            'keep.log'
        """
        return self._found("difference", other, most_states)

    def compare(self, other: IgnoreList, *, most_states: int = MOST_STATES) -> Optional[str]:
        """Returns a shortest path of walks that exactly one of both lists ignores, or None if both ignore the same. The limit
        and the errors are those of the function `overlap`.

            >>> IgnoreList("a\\nb\\n").compare(IgnoreList("{a,b}\\n")) is None
            True
        """
        return self._found("compare", other, most_states)

    def _found(self, call: str, other: IgnoreList, most_states: int) -> Optional[str]:
        if not isinstance(other, IgnoreList):
            raise TypeError("an ignore list is compared with another one")
        return _of_handles("ignore", call, self, other, most_states)


def _is_skipped(line: str) -> bool:
    """Returns whether a line of an ignore list has no glob."""
    return line in ("", "\r") or line.startswith("#")


class Entry:
    """A file, a link or a folder that `walk` yields. It has what an `os.DirEntry` has, except for `inode`.

    `path` begins with the root of the walk, so that it can be opened. `candidate` is the path that the glob matches,
    which begins below the root. `depth` is the number of names in it.
    """

    __slots__ = ("path", "candidate", "depth", "_found")

    def __init__(self, path: str, candidate: str, depth: int, found: Optional[os.DirEntry[str]] = None) -> None:
        self.path = path
        self.candidate = candidate
        self.depth = depth
        self._found = found

    def __fspath__(self) -> str:
        return self.path

    def __repr__(self) -> str:
        return f"<Entry {self.path!r}>"

    @property
    def name(self) -> str:
        """The last name of the path."""
        return self._found.name if self._found else os.path.basename(self.path)

    def stat(self, *, follow_symlinks: bool = True) -> os.stat_result:
        """Returns what `os.stat` returns for the path."""
        if self._found:
            return self._found.stat(follow_symlinks=follow_symlinks)
        return os.stat(self.path, follow_symlinks=follow_symlinks)

    def is_dir(self, *, follow_symlinks: bool = True) -> bool:
        """Returns whether this is a folder or, unless `follow_symlinks` is false, a link to one."""
        if self._found:
            return self._found.is_dir(follow_symlinks=follow_symlinks)
        return self._has_mode(stat.S_ISDIR, follow_symlinks)

    def is_file(self, *, follow_symlinks: bool = True) -> bool:
        """Returns whether this is a file or, unless `follow_symlinks` is false, a link to one."""
        if self._found:
            return self._found.is_file(follow_symlinks=follow_symlinks)
        return self._has_mode(stat.S_ISREG, follow_symlinks)

    def is_symlink(self) -> bool:
        """Returns whether this is a link."""
        return self._found.is_symlink() if self._found else os.path.islink(self.path)

    def _has_mode(self, test: Callable[[int], bool], follow_symlinks: bool) -> bool:
        try:
            return test(self.stat(follow_symlinks=follow_symlinks).st_mode)
        except FileNotFoundError:
            return False


# an expression, or what is built from one or several
Pattern = Union[str, Glob, GlobSet]
_OnError = Callable[[OSError], object]


def walk(
    root: Union[str, os.PathLike[str]],
    pattern: Pattern,
    *,
    exclude: Union[Pattern, Iterable[Pattern]] = (),
    ignore: Optional[IgnoreList] = None,
    min_depth: int = 0,
    max_depth: Optional[int] = None,
    onerror: Optional[_OnError] = None,
) -> Iterator[Entry]:
    """Yields an `Entry` for each file, link and folder in the folder `root`, at any depth, whose path from there the
    pattern matches. The order is that of the file system. `root` itself has the empty path. No links are followed: if
    `root` is one, nothing in it is found.

    `pattern` is an expression, a `Glob` or a `GlobSet`. If all that it matches begins with `/`, the walk begins at the
    root of the file system, and `root` is ignored.

    - `exclude` is one pattern or several: what they match isn't yielded.
    - `ignore` is a list: what it ignores isn't yielded.
    - `min_depth` and `max_depth` are the least and the greatest number of names that a path may have.
    - `onerror` is called with an `OSError` if a folder isn't there or can't be opened, or if a name isn't UTF-8. The
      walk then goes on if it can. Without it such errors are ignored, as by `os.walk`.

    A folder is opened only if something below it can match, by `goes_on`, and if neither an excluded pattern nor the
    list excludes everything below it, by `excludes_below`. The loop is Python's own, over `os.scandir`: what is proved
    is each of these decisions about a path, and not the walk.

    Raises `BuildError` if an expression can't be built, `Error` 9 if the excluded patterns together are too large,
    `MemoryError` if an allocation fails.

        >>> import pathlib, tempfile
        >>> with tempfile.TemporaryDirectory() as root:
        ...     for name in ["src/net/tcp.c", "src/main.rs", "docs/guide.md", "README.md"]:
        ...         path = pathlib.Path(root, name)
        ...         path.parent.mkdir(parents=True, exist_ok=True)
        ...         path.touch()
        ...     found = walk(root, "{src/**,*.md}", exclude="**/*.rs")
        ...     sorted(entry.candidate for entry in found if entry.is_file())
        ['README.md', 'src/net/tcp.c']
    """
    patterns = [exclude] if isinstance(exclude, (str, Glob, GlobSet)) else list(exclude)
    excluding = _Exclusion([_built(it) for it in patterns], ignore)
    deepest = float("inf") if max_depth is None else max_depth
    return _walk(os.fspath(root), _built(pattern), excluding, min_depth, deepest, onerror or (lambda _: None))


def _built(pattern: Pattern) -> Union[Glob, GlobSet]:
    return Glob(pattern) if isinstance(pattern, str) else pattern


class _Exclusion:
    """What a walk excludes: the paths that patterns match, and those that an ignore list ignores.

    The patterns are lines of another list, which says below which folders they exclude everything. An expression
    that can't be written as a line is matched by itself.
    """

    def __init__(self, patterns: Sequence[Union[Glob, GlobSet]], ignore: Optional[IgnoreList]) -> None:
        lines: List[str] = []
        self._others: List[Union[Glob, GlobSet]] = []
        for pattern in patterns:
            expressions = pattern._expressions()
            written = [it for it in expressions if it and "\n" not in it]
            # (a line's last carriage return is dropped, and a `#` or `!` at its beginning isn't part of the glob)
            lines += [f"{'(?-i)' if it[0] in '#!' else ''}{it}\r\n" for it in written]
            if len(written) < len(expressions):
                self._others.append(pattern)
        self._lists = [IgnoreList("".join(lines))] if lines else []
        if ignore is not None:
            self._lists.append(ignore)

    def excludes(self, path: str) -> bool:
        return any(it.is_ignored(path) for it in self._lists) or any(it.is_match(path) for it in self._others)

    def excludes_below(self, folder: str) -> bool:
        return any(it.excludes_below(folder) for it in self._lists)


def _walk(
    root: str,
    pattern: Union[Glob, GlobSet],
    excluding: _Exclusion,
    min_depth: int,
    max_depth: float,
    onerror: _OnError,
) -> Iterator[Entry]:
    # what is left of each folder that contains the entry
    levels = [_begun(root, pattern, max_depth, onerror)]
    while levels:
        for entry in levels[-1]:
            path = entry.candidate
            if min_depth <= entry.depth and pattern.is_match(path) and not excluding.excludes(path):
                yield entry
            if entry.depth < max_depth and _is_folder(entry):
                if pattern.goes_on(path) and not excluding.excludes_below(path):
                    levels.append(_listed(entry, onerror))
                    break
        else:
            levels.pop()


def _is_folder(entry: Entry) -> bool:
    try:
        return entry.is_dir(follow_symlinks=False)
    except OSError:
        return False


def _begun(root: str, pattern: Union[Glob, GlobSet], max_depth: float, onerror: _OnError) -> Iterator[Entry]:
    """Yields the entry at which a walk begins, at the names with which all matches begin, if something is there. On the
    way to it no folder is opened."""
    prefixes = [it for it in pattern._prefixes() if "//" not in it]
    if not prefixes:
        return
    roots = {it.startswith("/") for it in prefixes}
    names = [[name for name in it.split("/") if name] for it in prefixes] if len(roots) == 1 else [[]]
    shared = os.path.commonprefix(names)
    if len(shared) > max_depth:
        return
    candidate = "/" if roots == {True} else ""
    path = candidate or root
    try:
        is_folder = stat.S_ISDIR(os.lstat(path).st_mode)
        for name in shared:
            if not is_folder:
                raise NotADirectoryError(errno.ENOTDIR, os.strerror(errno.ENOTDIR), path)
            candidate, path = _before_name(candidate) + name, os.path.join(path, name)
            is_folder = stat.S_ISDIR(os.lstat(path).st_mode)
    except OSError as error:
        onerror(error)
    else:
        yield Entry(path, candidate, len(shared))


def _before_name(folder: str) -> str:
    """Returns what comes before a name in the paths of what is in a folder."""
    return folder if folder in ("", "/") else f"{folder}/"


def _listed(folder: Entry, onerror: _OnError) -> Iterator[Entry]:
    """Yields the entries in a folder."""
    try:
        with os.scandir(folder.path) as items:
            found = list(items)
    except OSError as error:
        onerror(error)
        return
    before, depth = _before_name(folder.candidate), folder.depth + 1
    for item in found:
        try:
            item.name.encode()
        except UnicodeEncodeError:
            onerror(OSError(errno.EILSEQ, os.strerror(errno.EILSEQ), item.path))
        else:
            yield Entry(item.path, before + item.name, depth, item)
