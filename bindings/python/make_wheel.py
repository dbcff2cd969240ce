#!/usr/bin/env python3
"""Makes the wheel, by the standard library alone: make_wheel.py librumpsteak.so FOLDER

The same files give the same wheel, byte by byte."""

import base64
import hashlib
import os
import re
import sys
import zipfile

HERE = os.path.dirname(os.path.abspath(__file__))
# The shared object needs the GNU C library, from 2.17 on.
TAG = "py3-none-manylinux_2_17_x86_64"
METADATA = """Metadata-Version: 2.1
Name: rumpsteak
Version: {version}
Summary: Checks conversations among several participants before they run, and runs them over lock-free queues
License: MIT OR Apache-2.0
Requires-Python: >=3.9
Description-Content-Type: text/markdown

{readme}"""
WHEEL = """Wheel-Version: 1.0
Generator: make_wheel.py
Root-Is-Purelib: false
Tag: {tag}
"""


def read(path):
    with open(path, "rb") as file:
        return file.read()


def line_of(name, data):
    digest = base64.urlsafe_b64encode(hashlib.sha256(data).digest()).decode().rstrip("=")
    return "%s,sha256=%s,%d\n" % (name, digest, len(data))


def main(library, folder):
    package = os.path.join(HERE, "rumpsteak")
    version = re.search(r'__version__ = "(.*)"', read(os.path.join(package, "__init__.py")).decode())[1]
    files = {"rumpsteak/" + name: read(os.path.join(package, name)) for name in sorted(os.listdir(package)) if name.endswith((".py", ".typed"))}
    files["rumpsteak/librumpsteak.so"] = read(library)
    info = "rumpsteak-%s.dist-info/" % version
    readme = read(os.path.join(HERE, "README.md")).decode()
    files[info + "METADATA"] = METADATA.format(version=version, readme=readme).encode()
    files[info + "WHEEL"] = WHEEL.format(tag=TAG).encode()
    record = info + "RECORD"
    files[record] = ("".join(line_of(name, data) for name, data in files.items()) + record + ",,\n").encode()
    path = os.path.join(folder, "rumpsteak-%s-%s.whl" % (version, TAG))
    with zipfile.ZipFile(path, "w", zipfile.ZIP_DEFLATED) as wheel:
        for name, data in files.items():
            entry = zipfile.ZipInfo(name, (2020, 1, 1, 0, 0, 0))
            entry.external_attr = (0o755 if name.endswith(".so") else 0o644) << 16
            entry.compress_type = zipfile.ZIP_DEFLATED
            wheel.writestr(entry, data)
    print(path)


main(*sys.argv[1:])
