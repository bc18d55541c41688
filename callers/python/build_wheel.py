# SPDX-License-Identifier: MIT OR Apache-2.0
"""Makes the wheel of this package, as pip asks for it (PEP 517). It needs no other package.

The wheel has the library for x86-64 processors on Linux. Its bytes depend on those of its files alone.
"""

import base64
import hashlib
import pathlib
import re
import zipfile

HERE = pathlib.Path(__file__).resolve().parent
FILES = ["__init__.py", "py.typed", "libliktrob.so"]
LICENSES = ["LICENSE", "LICENSE-APACHE", "LICENSE-MIT"]
TAG = "py3-none-linux_x86_64"


def _field(name, text):
    """A text of pyproject.toml, of which Python 3.9 has no reader."""
    return re.search(rf'^{name} = "(.*)"$', text, re.M)[1]


def _metadata(version, project):
    """What the package index shows of the package."""
    head = [
        "Metadata-Version: 2.1",
        "Name: liktrob",
        f"Version: {version}",
        f"Summary: {_field('description', project)}",
        "License: MIT OR Apache-2.0",
        *(f"License-File: {name}" for name in LICENSES),
        f"Requires-Python: {_field('requires-python', project)}",
        "Description-Content-Type: text/markdown",
    ]
    return "\n".join(head) + "\n\n" + (HERE / "README.md").read_text(encoding="utf-8")


def build_wheel(wheel_directory, config_settings=None, metadata_directory=None):
    """Writes the wheel to a folder, and answers its name."""
    project = (HERE / "pyproject.toml").read_text(encoding="utf-8")
    version = _field("version", project)
    info = f"liktrob-{version}.dist-info"
    members = {f"liktrob/{name}": (HERE / "liktrob" / name).read_bytes() for name in FILES}
    members.update({f"{info}/licenses/{name}": (HERE / name).read_bytes() for name in LICENSES})
    members[f"{info}/METADATA"] = _metadata(version, project).encode()
    members[f"{info}/WHEEL"] = f"Wheel-Version: 1.0\nGenerator: liktrob\nRoot-Is-Purelib: false\nTag: {TAG}\n".encode()
    record = ""
    for name, data in members.items():
        digest = base64.urlsafe_b64encode(hashlib.sha256(data).digest()).rstrip(b"=").decode()
        record += f"{name},sha256={digest},{len(data)}\n"
    members[f"{info}/RECORD"] = (record + f"{info}/RECORD,,\n").encode()
    wheel = f"liktrob-{version}-{TAG}.whl"
    with zipfile.ZipFile(pathlib.Path(wheel_directory) / wheel, "w", zipfile.ZIP_DEFLATED) as archive:
        for name, data in members.items():
            entry = zipfile.ZipInfo(name)
            entry.external_attr = (0o755 if name.endswith(".so") else 0o644) << 16
            entry.compress_type = zipfile.ZIP_DEFLATED
            archive.writestr(entry, data)
    return wheel
