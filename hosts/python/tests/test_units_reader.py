"""Units texts in fragments: wherever they are cut, the end gives or refuses what the joined text does at once."""

import ctypes
import random

from uppinalo import WORDS, Axis, UnitsReader

from .calls import needs
from .readers import CALLS, TEXT, TEXTS, Case, long_text, outcome, reader_of


class Cuts(Case):
    @needs(*CALLS)
    def test_texts(self):
        for name, text, number in TEXTS:
            expected = outcome(Axis, text, name)
            self.assertEqual(0 if isinstance(expected, Axis) else expected, number, text)

    @needs(*CALLS)
    def test_two_cuts_anywhere(self):
        for name, text, _ in TEXTS:
            expected = outcome(Axis, text, name)
            for first in range(len(text) + 1):
                for second in range(first, len(text) + 1):
                    fragments = (text[:first], text[first:second], text[second:])
                    self.assertEqual(outcome(reader_of(*fragments).end, name), expected, fragments)

    @needs(*CALLS)
    def test_byte_by_byte_and_empty_fragments(self):
        for name, text, _ in TEXTS:
            fragments = [part for byte in text for part in (b"", bytes([byte]), b"", b"")]
            self.assertEqual(outcome(reader_of(*fragments, b"").end, name), outcome(Axis, text, name), text)

    @needs(*CALLS)
    def test_any_bytes_cut_anywhere(self):
        draw = random.Random(4)
        for _ in range(2000):
            name, text, _ = draw.choice(TEXTS)
            place, byte = draw.randrange(len(text) + 1), bytes([draw.randrange(256)])
            text = draw.choice((text, text[:place] + byte + text[place:], text + b" " * 110, b"x" * 120 + text))
            cuts = sorted(draw.randrange(len(text) + 1) for _ in range(draw.randrange(9)))
            fragments = [text[start:end] for start, end in zip([0, *cuts], [*cuts, len(text)])]
            self.assertEqual(outcome(reader_of(*fragments).end, name), outcome(Axis, text, name), fragments)


class Lengths(Case):
    @needs(*CALLS)
    def test_around_128_bytes(self):
        for length in range(126, 132):
            text = long_text(length)
            expected = outcome(Axis, text)
            self.assertEqual(expected if length > 128 else expected.reference, 1 if length > 128 else 0)
            for cut in range(length + 1):
                self.assertEqual(outcome(reader_of(text[:cut], text[cut:]).end), expected, (length, cut))

    @needs(*CALLS)
    def test_adding_to_a_text_that_is_too_long(self):
        for fragments in ([bytes(1_000_000)], [long_text(128), b"x"], [b"x"] * 1000, [long_text(129), b"", long_text(128)]):
            reader = reader_of(*fragments)
            for fragment in (b"", TEXT, bytes(1_000_000)):
                reader.add(fragment)
            self.assertEqual((reader._state.count, reader._state.ended), (129, 0))
            self.refused(1, reader.end, "tai")
            self.closed(reader)

    @needs(*CALLS)
    def test_the_state(self):
        reader = UnitsReader()
        self.assertEqual(bytes(reader._state), bytes(136))
        for fragment in (b"", b"abc", b"", b"x" * 124, b"yz", b"", b"w"):
            reader.add(fragment)
        self.assertEqual(bytes(reader._state.bytes), b"abc" + b"x" * 124 + b"y")
        self.assertEqual((reader._state.count, reader._state.ended), (129, 0))

    @needs(*CALLS)
    def test_places_beyond_the_text_stay(self):
        reader = UnitsReader()
        ctypes.memset(reader._state.bytes, ord("x"), 128)
        reader.add(TEXT)
        self.assertEqual(bytes(reader._state.bytes), TEXT.ljust(128, b"x"))
        self.assertEqual(reader.end(), Axis(TEXT))


class Ends(Case):
    @needs(*CALLS)
    def test_after_the_end(self):
        for name, text, _ in TEXTS:
            reader = reader_of(text)
            expected = outcome(reader.end, name)
            self.assertEqual(outcome(lambda: reader.axis), expected)
            self.closed(reader)
            self.assertEqual(outcome(lambda: reader.axis), expected)

    @needs(*CALLS)
    def test_no_axis_before_the_end(self):
        reader = reader_of(TEXT)
        with self.assertRaises(RuntimeError) as caught:
            reader.axis
        self.assertIn("has not ended", str(caught.exception))
        axis = reader.end()
        self.assertEqual(axis, Axis(TEXT))
        self.assertIs(reader.axis, axis)

    @needs(*CALLS)
    def test_readers_are_apart(self):
        first, second = reader_of(b"days"), reader_of(b"hours")
        first.add(b" since 1970")
        second.add(b" since 1970")
        self.assertEqual((first.end(), second.end()), (Axis("days since 1970"), Axis("hours since 1970")))
        self.refused(3, UnitsReader().end)

    @needs(*CALLS)
    def test_damaged_states(self):
        for count, ended in [(130, 0), (2**32 - 1, 0), (0, 1), (5, 2), (5, 2**32 - 1), (130, 1)]:
            reader = reader_of(TEXT)
            reader._state.count, reader._state.ended = count, ended
            self.closed(reader)
            self.assertRaises(RuntimeError, lambda: reader.axis)


class Words(Case):
    @needs(*CALLS)
    def test_a_refused_end_says_what_the_joined_text_says(self):
        for name, text, number in TEXTS:
            if number:
                expected = self.refused(number, Axis, text, name)
                refused = self.refused(number, reader_of(text).end, name)
                self.assertEqual((str(refused), refused.subject), (str(expected), expected.subject))

    @needs(*CALLS)
    def test_a_text_that_is_too_long(self):
        refused = self.refused(1, reader_of(long_text(128), b"xyz").end)
        self.assertEqual(refused.subject, f"units {long_text(128)!r} and more, calendar 'standard'")

    @needs(*CALLS)
    def test_after_the_end(self):
        reader = reader_of(TEXT)
        reader.end()
        refused = self.refused(11, reader.end, "julian")
        self.assertEqual(str(refused), f"refused 11: {WORDS[11]}: units {TEXT!r}, calendar 'julian'")
        self.assertEqual(self.refused(11, reader.add, b"").subject, f"a fragment after units {TEXT!r}")

    @needs(*CALLS)
    def test_representation(self):
        reader = reader_of(b"days", calendar=b"noleap")
        self.assertEqual(repr(reader), "<UnitsReader: units b'days', calendar b'noleap'>")
        self.refused(3, reader.end)
        self.assertEqual(repr(reader), "<UnitsReader: units b'days', calendar b'noleap', ended>")
