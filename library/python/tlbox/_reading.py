"""The reader of schemas, which is contrib's own: a package that pip makes has that file in the place of this one."""
import os

_PATH = os.path.join(os.path.dirname(os.path.abspath(__file__)), os.pardir, os.pardir, os.pardir, "contrib", "tl_reading.py")
with open(_PATH, encoding="utf-8") as _file:
    exec(compile(_file.read(), _PATH, "exec"))
