"""What `pip install ./bindings/python` builds with: a wheel of the package with libsyned.so in it.

It is a backend of its own, since those on package indexes would have to be fetched, and a library that was built
elsewhere is a file like any other here."""
import base64
import hashlib
import os
import re
import sysconfig
import zipfile
from pathlib import Path
from typing import Dict, Optional

HERE = Path(__file__).resolve().parents[1]


def library() -> Path:
    """The shared library: in the folder that SYNED_LIB names, else in bindings/out."""
    path = Path(os.environ.get("SYNED_LIB") or HERE.parent / "out") / "libsyned.so"
    if not path.is_file():
        raise SystemExit(f"{path} is not there: `bash bindings/build.sh` makes it, and SYNED_LIB can name its folder")
    return path


def metadata() -> Dict[str, str]:
    """What pyproject.toml says of the package, and its version, which the package has itself."""
    told = dict(re.findall(r'^([\w-]+) = "(.*)"$', (HERE / "pyproject.toml").read_text(), re.M))
    found = re.search(r'^__version__ = "(.*)"$', (HERE / "syned/__init__.py").read_text(), re.M)
    told["version"] = found[1] if found else ""
    return told


def build_wheel(
    wheel_directory: str, config_settings: Optional[object] = None, metadata_directory: Optional[str] = None
) -> str:
    """Writes the wheel into a folder, and gives its name. A wheel is for one kind of machine, as the library is."""
    del config_settings, metadata_directory
    told = metadata()
    tag = "py3-none-" + re.sub(r"\W", "_", sysconfig.get_platform())
    information = f"{told['name']}-{told['version']}.dist-info"
    head = [
        "Metadata-Version: 2.1",
        f"Name: {told['name']}",
        f"Version: {told['version']}",
        f"Summary: {told['description']}",
        f"Requires-Python: {told['requires-python']}",
        "License: MIT",
        "Description-Content-Type: text/markdown",
    ]
    files = {f"syned/{path.name}": path.read_bytes() for path in sorted((HERE / "syned").glob("*.py*")) if path.is_file()}
    files["syned/libsyned.so"] = library().read_bytes()
    files[f"{information}/METADATA"] = ("\n".join(head) + "\n\n" + (HERE / "README.md").read_text()).encode()
    files[f"{information}/WHEEL"] = f"Wheel-Version: 1.0\nRoot-Is-Purelib: false\nTag: {tag}\n".encode()
    record = f"{information}/RECORD"
    lines = [f"{name},sha256={sum_of(content)},{len(content)}\n" for name, content in files.items()]
    files[record] = "".join([*lines, f"{record},,\n"]).encode()
    wheel = f"{told['name']}-{told['version']}-{tag}.whl"
    with zipfile.ZipFile(Path(wheel_directory, wheel), "w", zipfile.ZIP_DEFLATED) as out:
        for name, content in files.items():
            out.writestr(name, content)
    return wheel


def sum_of(content: bytes) -> str:
    """A checksum as a wheel's RECORD has it."""
    return base64.urlsafe_b64encode(hashlib.sha256(content).digest()).rstrip(b"=").decode()
