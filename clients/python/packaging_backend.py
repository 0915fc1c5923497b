"""Makes the package that pip installs, so that pip needs no other package for it, and no network: a
wheel is a zip of the files with a few lines about them (PEP 427, PEP 517)."""
import base64
import hashlib
import os
import re
import zipfile

HERE = os.path.dirname(os.path.realpath(__file__))
PACKAGE = "narumbesi"
WHEEL = "Wheel-Version: 1.0\nGenerator: packaging_backend\nRoot-Is-Purelib: true\nTag: py3-none-any\n"


def read(name):
    with open(os.path.join(HERE, name), encoding="utf-8") as file:
        return file.read()


def field(name):
    """A field of pyproject.toml that is one string."""
    return re.search(r'^%s = "(.*)"$' % name, read("pyproject.toml"), re.M)[1]


def metadata():
    """What the package says of itself, with its page."""
    lines = ["Metadata-Version: 2.1", "Name: " + PACKAGE, "Version: " + field("version"), "Summary: " + field("description")]
    lines += ["Requires-Python: " + field("requires-python"), "Description-Content-Type: text/markdown", "", read("README.md")]
    return "\n".join(lines)


def build_wheel(wheel_directory, config_settings=None, metadata_directory=None):
    """Writes the wheel, and answers its name."""
    title = "%s-%s" % (PACKAGE, field("version"))
    about = title + ".dist-info/"
    files = {PACKAGE + "/" + it: read(PACKAGE + "/" + it) for it in sorted(os.listdir(HERE + "/" + PACKAGE)) if it.endswith(".py")}
    files.update({about + "METADATA": metadata(), about + "WHEEL": WHEEL})
    record = ["%s,sha256=%s,%d" % (name, digest(text), len(text.encode("utf-8"))) for name, text in files.items()]
    files[about + "RECORD"] = "\n".join(record + [about + "RECORD,,"]) + "\n"
    name = title + "-py3-none-any.whl"
    with zipfile.ZipFile(os.path.join(wheel_directory, name), "w", zipfile.ZIP_DEFLATED) as wheel:
        for path, text in files.items():
            wheel.writestr(path, text.encode("utf-8"))
    return name


def digest(text):
    return base64.urlsafe_b64encode(hashlib.sha256(text.encode("utf-8")).digest()).rstrip(b"=").decode("ascii")
