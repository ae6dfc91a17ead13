"""Builds the wheel of this package for pip, of its modules and of the shared objects that `make lib` builds.

pip calls these functions by PEP 517 and, for `pip install -e`, PEP 660. What a wheel is, PEP 427 says: an archive of the files, and beside
them a folder that describes them.
"""
import ast
import base64
import hashlib
import pathlib
import re
import sysconfig
import zipfile

HERE = pathlib.Path(__file__).resolve().parent.parent
REPOSITORY = HERE.parent.parent
SHARED_OBJECTS = ["staticlib/libuppinalo.so", "python/libuppinalo_loops.so"]


class UnsupportedOperation(Exception):
    """What pip asks for cannot be built."""


def build_wheel(wheel_directory, config_settings=None, metadata_directory=None):
    files = {f"uppinalo/{path.name}": path.read_bytes() for path in sorted((HERE / "uppinalo").glob("*.py"))}
    files["uppinalo/py.typed"] = b""
    for path in (REPOSITORY / "target" / name for name in SHARED_OBJECTS):
        if not path.is_file():
            raise SystemExit(f"uppinalo: {path} is not there yet: run `make lib` in {REPOSITORY} first")
        files[f"uppinalo/{path.name}"] = path.read_bytes()
    return _written(wheel_directory, files)


def build_editable(wheel_directory, config_settings=None, metadata_directory=None):
    """The package stays here, and finds the shared objects in target/."""
    return _written(wheel_directory, {"uppinalo.pth": f"{HERE}\n".encode()})


def build_sdist(sdist_directory, config_settings=None):
    raise UnsupportedOperation("the shared objects are proved and built in the repository, so a wheel is what to hand on")


def _table(name):
    """A table of pyproject.toml: texts and lists of texts, a line each, which TOML writes as Python does."""
    text = (HERE / "pyproject.toml").read_text().partition(f"[{name}]\n")[2].partition("\n[")[0]
    pairs = (line.split(" = ", 1) for line in text.splitlines() if " = " in line)
    return {key: ast.literal_eval(value) for key, value in pairs}


def _version():
    return re.search(r'^__version__ = "(.*)"$', (HERE / "uppinalo" / "_version.py").read_text(), re.MULTILINE)[1]


def _metadata():
    project = _table("project")
    lines = [
        "Metadata-Version: 2.1",
        f"Name: {project['name']}",
        f"Version: {_version()}",
        f"Summary: {project['description']}",
        f"License: {project['license']}",
        f"Requires-Python: {project['requires-python']}",
    ]
    for extra, names in _table("project.optional-dependencies").items():
        lines.append(f"Provides-Extra: {extra}")
        lines.extend(f"Requires-Dist: {name}; extra == '{extra}'" for name in names)
    return "".join(f"{line}\n" for line in lines).encode()


def _written(folder, files):
    """The name of the wheel that is written. The same files make the same bytes."""
    tag = f"py3-none-{sysconfig.get_platform().replace('-', '_').replace('.', '_')}"
    described = f"uppinalo-{_version()}.dist-info"
    files[f"{described}/METADATA"] = _metadata()
    files[f"{described}/WHEEL"] = f"Wheel-Version: 1.0\nGenerator: uppinalo_wheel\nRoot-Is-Purelib: false\nTag: {tag}\n".encode()
    record = f"{described}/RECORD"
    rows = [f"{name},sha256={_hash(content)},{len(content)}\n" for name, content in files.items()]
    files[record] = "".join([*rows, f"{record},,\n"]).encode()
    wheel = f"uppinalo-{_version()}-{tag}.whl"
    with zipfile.ZipFile(pathlib.Path(folder, wheel), "w", zipfile.ZIP_DEFLATED) as archive:
        for name, content in files.items():
            entry = zipfile.ZipInfo(name)
            entry.compress_type = zipfile.ZIP_DEFLATED
            entry.external_attr = 0o644 << 16
            archive.writestr(entry, content)
    return wheel


def _hash(content):
    return base64.urlsafe_b64encode(hashlib.sha256(content).digest()).rstrip(b"=").decode()
