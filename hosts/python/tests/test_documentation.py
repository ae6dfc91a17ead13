"""The examples in the package's own documentation."""

import doctest
import unittest

import uppinalo
from uppinalo import _datetime64

from .calls import needs


class Examples(unittest.TestCase):
    def examples(self, module, count):
        result = doctest.testmod(module, optionflags=doctest.ELLIPSIS)
        self.assertEqual((result.failed, result.attempted), (0, count))

    @needs("read_units", "read_whole", "read_double", "write_instant", "write_iso", "fields_of")
    @needs("start_units", "add_units", "end_units", "read_tt2000")
    def test_examples(self):
        self.examples(uppinalo, 18)

    @needs("read_datetime64", "write_datetime64")
    def test_examples_of_datetime64(self):
        self.examples(_datetime64, 4)
