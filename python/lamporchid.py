"""Lamporchid for Python: the ten calls of the proved store on any bytes, by ctypes.

    import lamporchid
    card = bytearray(87 + 16 * 64)
    lamporchid.format(card, 6)
    lamporchid.create(card, "boxes")
    lamporchid.write(card, "boxes", 0, b"two hundred")
    lamporchid.contents(card, "boxes")          # b'two hundred'
    lamporchid.create(card, "boxes")            # raises AlreadyKnown: its number is 4

A card is any writable buffer (a bytearray, a mmap); for calls that change nothing, bytes will do. Names and data are
bytes; a name may also be text, which stands for its UTF-8 bytes. A refusal is an exception, and leaves card and tray as
they were. The shared library is x86-64 code. It is looked for where LAMPORCHID_LIBRARY says, beside this file, and where
python/run puts it; load(path) takes it from elsewhere. While a call runs no other Python thread does, so that none can
change the bytes that were lent.
"""

import ctypes
import operator
import os

_HERE = os.path.dirname(os.path.abspath(__file__))
_PLACES = [os.path.join(_HERE, "liblamporchid.so"), os.path.join(_HERE, "..", "target", "python", "liblamporchid.so")]


class Refused(Exception):
    """A call refused: number and title as in the layout page's list; rule is DAMAGED's, else 0."""

    number = 0
    title = ""
    words = ""

    def __init__(self, rule=0):
        self.rule = rule
        broken = f": it breaks rule {rule}" if rule else ""
        super().__init__(f"{self.title} ({self.number}): {self.words}{broken}")


class Damaged(Refused):
    number, title, words = 1, "DAMAGED", "the card is damaged"


class BadName(Refused):
    number, title, words = 2, "BAD NAME", "a name has 1 to 64 bytes, and no slash"


class NotKnown(Refused):
    number, title, words = 3, "NOT KNOWN", "no stream has that name"


class AlreadyKnown(Refused):
    number, title, words = 4, "ALREADY KNOWN", "a stream has that name already"


class PastTheEnd(Refused):
    number, title, words = 5, "PAST THE END", "that is past the end"


class StreamsFull(Refused):
    number, title, words = 6, "STREAMS FULL", "the card can hold no more streams"


class NoRoom(Refused):
    number, title, words = 7, "NO ROOM", "the card has not enough free blocks"


class ShortTray(Refused):
    number, title, words = 8, "SHORT TRAY", "the tray for a name has less than 64 bytes"


class BadShape(Refused):
    number, title, words = 9, "BAD SHAPE", "no card has that length with that block size"


_REFUSALS = {kind.number: kind for kind in Refused.__subclasses__()}

# ---- the library ----

_library = None

# What each call takes: c a card or another slice that is read, w one that is written, n a number.
_CALLS = {
    "format": "wn", "check": "c", "room": "c", "create": "wc", "size": "cc",
    "write": "wcnc", "read": "ccnw", "truncate": "wcn", "delete": "wc", "list": "cnw",
}


def load(path=None):
    """Loads the shared library from a path, or from where it is looked for."""
    global _library
    if path is None:
        path = os.environ.get("LAMPORCHID_LIBRARY") or next(filter(os.path.exists, _PLACES), None)
    if path is None:
        raise OSError("there is no liblamporchid.so: 'bash python/run' makes it, LAMPORCHID_LIBRARY may say where it is")
    file, library = ctypes.PyDLL(os.fspath(path)), {}
    for name, kinds in _CALLS.items():
        function = library[name] = file["lamporchid_" + name]
        number = [ctypes.c_uint64]
        function.argtypes = sum((number if kind == "n" else [ctypes.c_void_p] + number for kind in kinds), [])
        function.restype = ctypes.c_uint64
    _library = library


def _number(value):
    number = operator.index(value)
    if not 0 <= number < 2**64:
        raise ValueError(f"{number} is no number of 64 bits")
    return number


class _Lent:
    """A buffer's address and length; an empty one has none."""

    def __init__(self, thing, written):
        view = memoryview(thing.encode() if isinstance(thing, str) else thing)
        if written and view.readonly:
            raise TypeError("a card that is changed, or a tray, must be writable: a bytearray, for example")
        self.length, self.address, self.written = view.nbytes, None, written
        if self.length == 0:
            return
        view = view.cast("B")
        if view.readonly:
            self.keep = bytes(view)
            self.address = ctypes.cast(self.keep, ctypes.c_void_p).value
        else:
            self.keep = (ctypes.c_char * self.length).from_buffer(view)
            self.address = ctypes.addressof(self.keep)

    def overlaps(self, other):
        if not (self.length and other.length and (self.written or other.written)):
            return False
        return self.address < other.address + other.length and other.address < self.address + self.length


def _call(name, *values):
    """Makes a call; gives the word's two upper parts, or raises the refusal."""
    if _library is None:
        load()
    words, lent = [], []
    for kind, value in zip(_CALLS[name], values):
        if kind == "n":
            words.append(_number(value))
            continue
        one = _Lent(value, kind == "w")
        if any(one.overlaps(other) for other in lent):
            raise ValueError("card, name, data and tray must not overlap where one of them is written")
        lent.append(one)
        words += [one.address, one.length]
    word = _library[name](*words)
    number, small, large = word & 255, word >> 8 & 255, word >> 16
    if number:
        raise _REFUSALS[number](small)
    return small, large


# ---- the ten calls ----

def format(card, s):
    """The card becomes a new one with blocks of 2 to the s bytes, s from 6 to 12."""
    _call("format", card, s)


def check(card):
    """Whether the card is sound: raises Damaged if it is not."""
    _call("check", card)


def room(card):
    """How many blocks are free."""
    return _call("room", card)[1]


def create(card, name):
    """A new stream of no bytes."""
    _call("create", card, name)


def size(card, name):
    """How many bytes a stream has."""
    return _call("size", card, name)[1]


def write(card, name, place, data):
    """The data goes into the stream from place on: all of it, or a refusal. Gives how many bytes that were."""
    return _call("write", card, name, place, data)[1]


def read(card, name, place, tray):
    """The stream's bytes from place on go into the tray, as far as both go. Gives how many bytes that were."""
    return _call("read", card, name, place, tray)[1]


def truncate(card, name, n):
    """The stream's first n bytes are kept."""
    _call("truncate", card, name, n)


def delete(card, name):
    """The stream goes, and its blocks are free again."""
    _call("delete", card, name)


def list(card, k, tray):
    """The name of entry k goes into the tray, of 64 bytes at least. Gives the name's length and the stream's size."""
    return _call("list", card, k, tray)


# ---- what is often wanted ----

def contents(card, name):
    """All bytes of a stream."""
    tray = bytearray(size(card, name))
    read(card, name, 0, tray)
    return bytes(tray)


def entries(card):
    """Every stream's name, as bytes, and size, in the card's order."""
    tray, found = bytearray(64), []
    try:
        while True:
            length, count = list(card, len(found), tray)
            found.append((bytes(tray[:length]), count))
    except PastTheEnd:
        return found
