"""Makes the wheel, with the shared object and the extension module that bindings/build has made: python3 backend.py FOLDER [NOTE ..]

pip calls build_wheel too, for 'pip wheel' and 'pip install' of this folder. The library is bindings/out's, or the library that
KOVSHENUL_LIBRARY names. The same files make the same bytes. Their times are SOURCE_DATE_EPOCH, or the time of 1980 if it isn't set.
Each NOTE is a file that goes beside the wheel's metadata, and with notes goes SHA256SUMS, of all files before it.
"""
import base64
import hashlib
import os
import re
import sys
import time
import zipfile
from pathlib import Path

HERE = Path(__file__).parent.resolve()
OUT = HERE.parent / "out"
PROJECT = (HERE / "pyproject.toml").read_text()

# No wheel's name can have a lesser glibc.
LEAST_GLIBC = (2, 5)


def told(name):
    """The project's page of settings."""
    return re.search(rf'(?m)^{name} = "(.*)"$', PROJECT).group(1)


def version():
    """That of the repository, and what KOVSHENUL_MARK has after it."""
    return (HERE.parent.parent / "VERSION").read_text().strip() + os.environ.get("KOVSHENUL_MARK", "")


def library():
    """The shared object, under the name by which it is loaded."""
    named = os.environ.get("KOVSHENUL_LIBRARY")
    found = [Path(named)] if named else sorted(OUT.glob("libkovshenul.so.*"))
    if not found or not found[0].exists():
        raise SystemExit(f"no libkovshenul.so in {named or OUT}: run bindings/build, or set KOVSHENUL_LIBRARY")
    return found[0]


def extensions():
    """The extension module, where there is one."""
    return [*(HERE / "kovshenul").glob("*.abi3.so")]


def least_glibc():
    """The least glibc that has all names that the shared object and the extension module need, by their tables of names."""
    tables = b"".join(path.read_bytes() for path in [library(), *extensions()])
    wanted = re.findall(rb"(?<=\0)GLIBC_(\d+)\.(\d+)(?:\.\d+)?(?=\0)", tables)
    return max([LEAST_GLIBC, *((int(major), int(minor)) for major, minor in wanted)])


def tag():
    """For each Python 3 on Linux with that glibc. One that can't load the extension module leaves it alone, and has ctypes."""
    return "py3-none-manylinux_{}_{}_x86_64".format(*least_glibc())


def modules():
    """The files of the package, by their place in the wheel."""
    of_package = [path for path in (HERE / "kovshenul").iterdir() if path.suffix in (".py", ".pyi", ".typed")]
    return {f"kovshenul/{path.name}": path.read_bytes() for path in [*of_package, *extensions(), library()]}


def metadata(files, notes):
    """The wheel's own files, but for the list of all."""
    folder = f"kovshenul-{version()}.dist-info"
    about = f"Metadata-Version: 2.1\nName: kovshenul\nVersion: {version()}\n"
    about += f"Summary: {told('description')}\nRequires-Python: {told('requires-python')}\n"
    wheel = f"Wheel-Version: 1.0\nGenerator: kovshenul\nRoot-Is-Purelib: false\nTag: {tag()}\n"
    made = {f"{folder}/METADATA": about.encode(), f"{folder}/WHEEL": wheel.encode()}
    made.update((f"{folder}/{Path(note).name}", Path(note).read_bytes()) for note in notes)
    if notes:
        sums = [f"{hashlib.sha256(data).hexdigest()}  {place}\n" for place, data in sorted({**files, **made}.items())]
        made[f"{folder}/SHA256SUMS"] = "".join(sums).encode()
    return made


def record(files):
    """The list of all files with their sums, in the form that pip reads."""
    digest = lambda data: base64.urlsafe_b64encode(hashlib.sha256(data).digest()).rstrip(b"=").decode()
    place = f"kovshenul-{version()}.dist-info/RECORD"
    lines = [f"{name},sha256={digest(data)},{len(data)}\n" for name, data in files.items()]
    return {place: "".join([*lines, f"{place},,\n"]).encode()}


def make(folder, notes=()):
    """Writes the wheel into the folder, and answers its name."""
    files = dict(sorted(modules().items()))
    files.update(metadata(files, notes))
    files.update(record(files))
    name = f"kovshenul-{version()}-{tag()}.whl"
    when = time.gmtime(int(os.environ.get("SOURCE_DATE_EPOCH", 315532800)))[:6]
    with zipfile.ZipFile(Path(folder) / name, "w", zipfile.ZIP_DEFLATED) as wheel:
        for place, data in files.items():
            entry = zipfile.ZipInfo(place, when)
            entry.compress_type, entry.create_system = zipfile.ZIP_DEFLATED, 3
            entry.external_attr = (0o100755 if ".so" in Path(place).suffixes else 0o100644) << 16
            wheel.writestr(entry, data)
    return name


def build_wheel(wheel_directory, config_settings=None, metadata_directory=None):
    """As pip calls it."""
    return make(wheel_directory)


if __name__ == "__main__":
    if len(sys.argv) < 2:
        raise SystemExit("usage: backend.py FOLDER [NOTE ..]")
    print(make(sys.argv[1], sys.argv[2:]))
