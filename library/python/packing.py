"""Packs the package for pip, which calls this (PEP 517), so that no other package is needed to install it. A libtlbox.so.1 in the package's folder is packed too."""
import base64
import hashlib
import os
import sysconfig
import zipfile

HERE = os.path.dirname(os.path.abspath(__file__))
NAME, VERSION = "tlbox", "1"
INFO = f"{NAME}-{VERSION}.dist-info"
LIBRARY = "libtlbox.so.1"
# The reader of schemas is kept once, beside the scripts that share it.
READING, READER = "_reading.py", "../../contrib/tl_reading.py"
METADATA = f"""Metadata-Version: 2.1
Name: {NAME}
Version: {VERSION}
Summary: Values of a TL schema as bytes, as JSON and as Python values
Requires-Python: >=3.9
Description-Content-Type: text/markdown

"""


def _read(path):
    with open(os.path.join(HERE, path), "rb") as file:
        return file.read()


def build_wheel(wheel_directory, config_settings=None, metadata_directory=None):
    names = sorted(name for name in os.listdir(f"{HERE}/{NAME}") if name.endswith(".py") or name in ("py.typed", LIBRARY))
    system = sysconfig.get_platform().replace("-", "_").replace(".", "_") if LIBRARY in names else "any"
    tag = f"py3-none-{system}"
    files = {f"{NAME}/{name}": _read(READER if name == READING else f"{NAME}/{name}") for name in names}
    files[f"{INFO}/METADATA"] = METADATA.encode() + _read("README.md")
    files[f"{INFO}/WHEEL"] = f"Wheel-Version: 1.0\nGenerator: {NAME}\nRoot-Is-Purelib: {str(system == 'any').lower()}\nTag: {tag}\n".encode()
    record = ""
    for name, data in files.items():
        digest = base64.urlsafe_b64encode(hashlib.sha256(data).digest()).rstrip(b"=").decode()
        record += f"{name},sha256={digest},{len(data)}\n"
    files[f"{INFO}/RECORD"] = (record + f"{INFO}/RECORD,,\n").encode()
    wheel = f"{NAME}-{VERSION}-{tag}.whl"
    with zipfile.ZipFile(os.path.join(wheel_directory, wheel), "w", zipfile.ZIP_DEFLATED) as archive:
        for name, data in files.items():
            archive.writestr(name, data)
    return wheel
