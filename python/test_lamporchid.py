"""Every call from Python: done, refused in each way, and with empty slices."""

import mmap
import os
import unittest

import lamporchid as store


def new_card():
    """The four-block card of the layout page's cases."""
    card = bytearray(b"\xa5" * 343)
    store.format(card, 6)
    return card


def filled():
    """One that holds the stream "a" of 64 bytes."""
    card = new_card()
    store.create(card, b"a")
    store.write(card, b"a", 0, b"\x07" * 64)
    return card


class Calls(unittest.TestCase):
    def refused(self, kind, call, *values, rule=0):
        with self.assertRaises(store.Refused) as caught:
            call(*values)
        self.assertIs(type(caught.exception), kind)
        self.assertEqual(caught.exception.rule, rule)
        self.assertIn(f"{kind.title} ({kind.number}): {kind.words}", str(caught.exception))

    def test_each_call_is_done(self):
        card = new_card()
        self.assertIsNone(store.check(card))
        self.assertEqual(store.room(card), 3)
        store.create(card, "a")
        self.assertEqual(store.size(card, "a"), 0)
        self.assertEqual(store.write(card, "a", 0, b"a row"), 5)
        tray = bytearray(b"\x01" * 70)
        self.assertEqual(store.read(card, "a", 2, tray), 3)
        self.assertEqual(tray[:4], b"row\x01")
        self.assertEqual(store.list(card, 0, tray), (1, 5))
        self.assertEqual(tray[:3], b"aow")
        self.assertEqual(store.contents(card, "a"), b"a row")
        self.assertEqual(store.entries(card), [(b"a", 5)])
        store.truncate(card, "a", 1)
        self.assertEqual(store.size(card, "a"), 1)
        store.delete(card, "a")
        self.assertEqual((store.room(card), store.entries(card)), (3, []))

    def test_each_refusal_leaves_every_byte(self):
        card = filled()
        before, tray, far = bytes(card), bytearray(b"\x01" * 63), 2**64 - 1
        for s in (5, 13, 262, far):
            self.refused(store.BadShape, store.format, card, s)
        for name in (b"a/b", "a/b", b"n" * 65):
            self.refused(store.BadName, store.create, card, name)
        self.refused(store.AlreadyKnown, store.create, card, "a")
        self.refused(store.NoRoom, store.create, card, "b")
        self.refused(store.NoRoom, store.write, card, "a", 64, b"x")
        for place in (65, far):
            self.refused(store.PastTheEnd, store.write, card, "a", place, b"x")
        self.refused(store.NotKnown, store.write, card, "b", 0, b"x")
        self.refused(store.PastTheEnd, store.truncate, card, "a", 65)
        self.refused(store.NotKnown, store.truncate, card, "b", 0)
        self.refused(store.NotKnown, store.delete, card, "b")
        self.refused(store.NotKnown, store.size, card, "b")
        self.refused(store.PastTheEnd, store.read, card, "a", 65, tray)
        self.refused(store.NotKnown, store.contents, card, "b")
        self.refused(store.ShortTray, store.list, card, 0, tray)
        self.refused(store.PastTheEnd, store.list, card, 1, tray)
        self.assertEqual((bytes(card), bytes(tray)), (before, b"\x01" * 63))

    def test_a_damaged_card_is_refused_by_every_call_but_format(self):
        tray = bytearray(64)
        for at, rule in ((0, 2), (25, 3), (45, 4), (27, 7)):
            card = filled()
            card[at] ^= 0x55
            before = bytes(card)
            calls = [(store.check,), (store.room,), (store.create, "b"), (store.size, "a"), (store.write, "a", 0, b"x"),
                     (store.read, "a", 0, tray), (store.truncate, "a", 0), (store.delete, "a"), (store.list, 0, tray)]
            for call, *values in calls:
                self.refused(store.Damaged, call, card, *values, rule=rule)
            self.assertEqual(bytes(card), before)
            store.format(card, 6)
        self.assertIn("it breaks rule 7", str(store.Damaged(7)))

    def test_empty_slices(self):
        for none in (bytearray(), b"", memoryview(b"")):
            calls = [(store.check,), (store.room,), (store.size, b""), (store.read, b"", 0, bytearray()),
                     (store.list, 0, bytearray())]
            for call, *values in calls:
                self.refused(store.Damaged, call, none, *values, rule=1)
        none = bytearray()
        self.refused(store.BadShape, store.format, none, 6)
        for call, *values in [(store.create, b""), (store.write, b"", 0, b""), (store.truncate, b"", 0), (store.delete, b"")]:
            self.refused(store.Damaged, call, none, *values, rule=1)
        card = filled()
        before = bytes(card)
        calls = [(store.create,), (store.size,), (store.write, 0, b""), (store.read, 0, none), (store.truncate, 0), (store.delete,)]
        for call, *values in calls:
            self.refused(store.BadName, call, card, b"", *values)
        self.assertEqual(store.write(card, "a", 64, b""), 0)
        self.assertEqual(store.read(card, "a", 0, none), 0)
        self.refused(store.ShortTray, store.list, card, 0, none)
        self.refused(store.PastTheEnd, store.list, card, 1, none)
        self.assertEqual(bytes(card), before)

    def test_what_python_itself_must_see_to(self):
        card = filled()
        for call in (lambda: store.format(bytes(card), 6), lambda: store.read(card, "a", 0, bytes(4)), lambda: store.check(7)):
            self.assertRaises(TypeError, call)
        for n in (-1, 2**64):
            self.assertRaises(ValueError, store.truncate, card, "a", n)
        self.assertRaises(TypeError, store.truncate, card, "a", 1.0)
        self.assertRaises(ValueError, store.write, card, "a", 0, card)
        self.assertRaises(ValueError, store.read, card, "a", 0, memoryview(card)[300:])
        self.assertEqual(bytes(card), bytes(filled()))
        self.assertEqual(store.size(bytes(card), b"a"), 64)
        self.assertEqual(store.size(memoryview(bytes(card)), bytearray(b"a")), 64)

    def test_a_large_card_in_a_map(self):
        card = mmap.mmap(-1, 87 + 4096 * 4096)
        store.format(card, 12)
        for i in range(255):
            store.create(card, f"list {i}")
        self.refused(store.StreamsFull, store.create, card, "more")
        data = bytes(i * 31 % 251 for i in range(4096)) * 4000
        self.assertEqual(store.write(card, "list 7", 0, data), len(data))
        self.assertEqual(store.contents(card, "list 7"), data)
        self.assertEqual(store.entries(card)[7], (b"list 7", len(data)))
        store.check(card)

    def test_numbers_words_and_kinds(self):
        kinds = store.Refused.__subclasses__()
        self.assertEqual([kind.number for kind in kinds], [*range(1, 10)])
        with open(os.path.join(os.path.dirname(__file__), "..", "include", "lamporchid.h")) as file:
            header = file.read()
        for kind in kinds:
            name = kind.title.replace(" ", "_")
            self.assertIn(f"LAMPORCHID_{name} = {kind.number}", header)
            self.assertIn(f'case LAMPORCHID_{name}: return "{kind.words}";', header)


if __name__ == "__main__":
    unittest.main()
