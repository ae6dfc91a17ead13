"""The words of a refusal that fit its call, and refusals that are sent."""

import pickle
import unittest

from uppinalo import WORDS, Refused, _structs
from uppinalo._refused import WORDS_IN


class Words(unittest.TestCase):
    def test_words_fit_the_call(self):
        """No call's own words name what the call does not have."""
        self.assertLessEqual(set(WORDS_IN), set(_structs.CALLS))
        others = [("read_units", 3, "code"), ("read_iso", 4, "leap second"), ("read_double", 6, "count of microseconds"), ("read_datetime64", 5, "TT2000")]
        for call, number, theirs in others:
            self.assertIn(theirs, WORDS[number])
            self.assertNotIn(theirs, Refused(number, call=call).words)
            self.assertIn(Refused(number, call=call).words, str(Refused(number, "x", None, call)))

    def test_a_refusal_can_be_sent(self):
        sent = pickle.loads(pickle.dumps(Refused(5, "x", 2, "read_doubles")))
        self.assertEqual((sent.number, sent.subject, sent.place, sent.call), (5, "x", 2, "read_doubles"))
        self.assertTrue(str(sent).endswith("x, at place 2"))
