"""Tests of the package, for the shared object that the package finds.

    python3 -m unittest discover -s hosts/python/tests -t hosts/python

NumPy is used where it is installed. UPPINALO_NUMPY=yes fails where it is not, and UPPINALO_NUMPY=no hides it, as for a user
who has none; hosts/run does both.
"""

import os
import sys

NUMPY = os.environ.get("UPPINALO_NUMPY")
if NUMPY == "no":
    sys.modules["numpy"] = None
