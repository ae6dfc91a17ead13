"""Which calls the shared object must have: those of ``calls.txt`` beside it, where there is one, else of hosts/calls.txt."""

import os
import pathlib
import unittest

HOSTS = pathlib.Path(__file__).resolve().parents[2]
REPOSITORY = HOSTS.parent


def _list():
    beside = pathlib.Path(os.environ.get("UPPINALO_LIBRARY", "")).parent / "calls.txt"
    return beside if "UPPINALO_LIBRARY" in os.environ and beside.is_file() else HOSTS / "calls.txt"


LISTED = {line.strip() for line in _list().read_text().splitlines() if line.strip() and not line.startswith("#")}


def needs(*calls):
    """Skips a test for which a call is missing that is not exported yet."""
    missing = [call for call in calls if call not in LISTED]
    return unittest.skipIf(missing, f"not exported yet: {', '.join(missing)}")
