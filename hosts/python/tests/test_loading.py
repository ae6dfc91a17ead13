"""How the shared objects are found."""

import os
import pathlib
import shutil
import subprocess
import sys
import tempfile
import unittest

from uppinalo import __version__, _library, _structs

from .calls import needs

OLD_FIELDS_OF = """
typedef struct { unsigned number; struct { long year; unsigned month, day, hour, minute, second, microsecond; } fields; } answer;
answer uppinalo_fields_of(unsigned calendar, long instant) { return (answer){0, {1970, 1, 1, 0, 0, 0, instant}}; }
"""


class Loading(unittest.TestCase):
    """A shared object that is missing or wrong is an ImportError that says what to do."""

    def setUp(self):
        folder = tempfile.TemporaryDirectory()
        self.addCleanup(folder.cleanup)
        self.folder = pathlib.Path(folder.name)
        self.package = self.folder / "site" / "packages" / "here" / "uppinalo"
        shutil.copytree(pathlib.Path(_structs.__file__).parent, self.package, ignore=shutil.ignore_patterns("__pycache__", "*.so"))

    def imported(self, **named):
        """What Python says when the copy of the package is imported."""
        environment = {**os.environ, "PYTHONPATH": str(self.package.parent), "UPPINALO_LIBRARY": "", **named}
        program = "import uppinalo; print(uppinalo.Axis('days since 1970-01-01').read(1), uppinalo.__version__)"
        return subprocess.run([sys.executable, "-c", program], env=environment, cwd=self.folder, capture_output=True, text=True, check=False)

    def refused(self, *words, **named):
        done = self.imported(**named)
        self.assertEqual(done.returncode, 1)
        last = done.stderr.strip().splitlines()[-1]
        self.assertTrue(last.startswith("ImportError: "), done.stderr)
        for word in words:
            self.assertIn(word, last)

    def test_missing(self):
        self.refused("libuppinalo.so", "make lib")
        self.refused("/no/such.so", "UPPINALO_LIBRARY", UPPINALO_LIBRARY="/no/such.so")
        self.refused("libuppinalo_loops.so", "make lib", UPPINALO_LIBRARY=_library.FILES[0])

    def test_wrong(self):
        text = self.folder / "text.so"
        text.write_text("no shared object")
        self.refused(str(text), "UPPINALO_LIBRARY", UPPINALO_LIBRARY=str(text))
        self.refused("libuppinalo_loops.so has no uppinalo_read_units", __version__, "make lib", UPPINALO_LIBRARY=_library.FILES[1])
        shutil.copy(text, self.package / "libuppinalo.so")
        self.refused(str(self.package), "make lib")

    def test_a_part_of_the_calls(self):
        """Where a shared object exports some of the calls, each other says that it is not there, when it is called."""
        source, part = self.folder / "part.c", self.folder / "part.so"
        source.write_text("void uppinalo_read_iso(void) {}\n")
        subprocess.run(["gcc", "-shared", "-fPIC", "-o", part, source], check=True)
        shutil.copy(_library.FILES[1], self.package / "libuppinalo_loops.so")
        done = self.imported(UPPINALO_LIBRARY=str(part))
        self.assertEqual(done.returncode, 1)
        self.assertTrue(done.stderr.endswith("NotImplementedError: the shared object does not export uppinalo_read_units\n"), done.stderr)

    @needs("fields_of")
    def test_of_another_version(self):
        """Calls of the same names that take other arguments, as those of a time before the cutover was one."""
        source, old = self.folder / "old.c", self.folder / "old.so"
        others = [f"void uppinalo_{name}(void) {{}}" for name in _structs.CALLS if name != "fields_of"]
        source.write_text("\n".join([*others, OLD_FIELDS_OF]))
        subprocess.run(["gcc", "-shared", "-fPIC", "-o", old, source], check=True)
        self.refused("old.so", __version__, "make lib", UPPINALO_LIBRARY=str(old))

    @needs("read_units", "read_whole", "write_iso")
    def test_installed(self):
        shutil.copy(_library.FILES[0], self.package / "libuppinalo.so")
        shutil.copy(_library.FILES[1], self.package / "libuppinalo_loops.so")
        self.assertEqual(self.imported().stdout, f"1970-01-02T00:00:00.000000Z {__version__}\n")
