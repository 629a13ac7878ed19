#!/usr/bin/env python3
"""Builds the wheel of limberlime. It is the build backend that pyproject.toml names, and also a program.

Usage: make_wheel.py FOLDER LIBRARY PLATFORM

The program writes a wheel to FOLDER, with the shared library LIBRARY in it. PLATFORM is a tag such as
manylinux_2_34_x86_64. `pip install` of this folder builds a wheel without a library, which uses the installed one. The
same input files give the same bytes.
"""
import base64
import hashlib
import pathlib
import re
import sys
import zipfile

HERE = pathlib.Path(__file__).resolve().parent
HEADER = HERE.parents[1] / "include" / "limberlime.h"
EPOCH = (1980, 1, 1, 0, 0, 0)


def version():
    """Reads the version from the C header."""
    return ".".join(re.findall(r"#define LIMBERLIME_VERSION_(?:MAJOR|MINOR|PATCH) (\d+)", HEADER.read_text()))


def setting(name):
    """Returns a string setting of pyproject.toml."""
    return re.search(rf'^{name} = (?:{{ text = )?"(.*?)"', (HERE / "pyproject.toml").read_text(), re.M)[1]


def metadata():
    fields = {"Metadata-Version": "2.1", "Name": "limberlime", "Version": version(), "Summary": setting("description"),
              "License": setting("license"), "Requires-Python": setting("requires-python"),
              "Description-Content-Type": "text/markdown"}
    lines = "".join(f"{name}: {value}\n" for name, value in fields.items())
    return lines + "\n" + (HERE / setting("readme")).read_text()


def files(library, tag):
    """Returns the wheel's files by their names in it, and the name of its RECORD file."""
    info = f"limberlime-{version()}.dist-info"
    sources = [path for path in sorted((HERE / "limberlime").iterdir()) if path.suffix in (".py", ".typed")]
    found = {f"limberlime/{path.name}": path.read_bytes() for path in sources}
    if library:
        found["limberlime/liblimberlime.so"] = pathlib.Path(library).read_bytes()
    for name in ("LICENSE-APACHE", "LICENSE-MIT"):
        found[f"{info}/{name}"] = (HERE.parents[1] / name).read_bytes()
    found[f"{info}/METADATA"] = metadata().encode()
    pure = "false" if library else "true"
    found[f"{info}/WHEEL"] = f"Wheel-Version: 1.0\nGenerator: make_wheel.py\nRoot-Is-Purelib: {pure}\nTag: {tag}\n".encode()
    return found, f"{info}/RECORD"


def record(found, name):
    """Returns the text of the RECORD file: each file with its checksum and size."""
    rows = [f"{path},sha256={digest(data)},{len(data)}\n" for path, data in found.items()]
    return ("".join(rows) + f"{name},,\n").encode()


def digest(data):
    return base64.urlsafe_b64encode(hashlib.sha256(data).digest()).rstrip(b"=").decode()


def make(folder, library=None, platform="any"):
    """Writes the wheel, and returns its file name."""
    tag = f"py3-none-{platform}"
    found, list_name = files(library, tag)
    found[list_name] = record(found, list_name)
    name = f"limberlime-{version()}-{tag}.whl"
    with zipfile.ZipFile(pathlib.Path(folder) / name, "w", zipfile.ZIP_DEFLATED) as wheel:
        for path, data in found.items():
            entry = zipfile.ZipInfo(path, EPOCH)
            entry.compress_type, entry.external_attr, entry.create_system = zipfile.ZIP_DEFLATED, 0o100644 << 16, 3
            wheel.writestr(entry, data)
    return name


def build_wheel(wheel_directory, config_settings=None, metadata_directory=None):
    """The hook that pip calls to build a wheel."""
    return make(wheel_directory)


if __name__ == "__main__":
    if len(sys.argv) != 4:
        sys.exit(__doc__)
    print(make(*sys.argv[1:]))
