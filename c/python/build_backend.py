"""Builds this package, for pip and whatever else asks as PEP 517 says, with nothing but Python: so no index is asked for a builder.

What it is called is in pyproject.toml, and its version in src/krbls/__init__.py. The same sources give the same wheel.
"""

import base64
import hashlib
import io
import pathlib
import re
import tarfile
import zipfile

TOP = pathlib.Path(__file__).resolve().parent
SOURCES = ("pyproject.toml", "build_backend.py", "README.md")
WHEEL = "Wheel-Version: 1.0\nGenerator: krbls\nRoot-Is-Purelib: true\nTag: py3-none-any\n"


def project():
    """The texts of the table [project], and the version."""
    table = (TOP / "pyproject.toml").read_text().partition("[project]\n")[2].partition("\n[")[0]
    found = dict(re.findall(r'^([a-z-]+) = "(.*)"$', table, re.MULTILINE))
    found["classifiers"] = re.findall(r'^    "(.*)",$', table, re.MULTILINE)
    found["version"] = re.search(r'^__version__ = "(.*)"$', (TOP / "src/krbls/__init__.py").read_text(), re.MULTILINE)[1]
    return found


def metadata(found):
    """What pip shows of the package."""
    lines = [
        "Metadata-Version: 2.1",
        f"Name: {found['name']}",
        f"Version: {found['version']}",
        f"Summary: {found['description']}",
        f"Requires-Python: {found['requires-python']}",
        *(f"Classifier: {one}" for one in found["classifiers"]),
        "Description-Content-Type: text/markdown",
    ]
    return "\n".join(lines) + "\n\n" + (TOP / "README.md").read_text()


def modules():
    """The files of the package, each with its name in a wheel."""
    files = (path for path in (TOP / "src").rglob("*") if path.is_file() and "__pycache__" not in path.parts)
    return sorted((path.relative_to(TOP / "src").as_posix(), path.read_bytes()) for path in files)


def build_wheel(wheel_directory, config_settings=None, metadata_directory=None):
    """Writes the wheel, and returns its name."""
    found = project()
    info = f"{found['name']}-{found['version']}.dist-info"
    files = [*modules(), (f"{info}/METADATA", metadata(found).encode()), (f"{info}/WHEEL", WHEEL.encode())]
    digest = lambda octets: base64.urlsafe_b64encode(hashlib.sha256(octets).digest()).rstrip(b"=").decode()
    record = [f"{name},sha256={digest(octets)},{len(octets)}\n" for name, octets in files] + [f"{info}/RECORD,,\n"]
    name = f"{found['name']}-{found['version']}-py3-none-any.whl"
    with zipfile.ZipFile(pathlib.Path(wheel_directory) / name, "w", zipfile.ZIP_DEFLATED) as wheel:
        for path, octets in [*files, (f"{info}/RECORD", "".join(record).encode())]:
            entry = zipfile.ZipInfo(path)
            entry.external_attr, entry.compress_type = 0o644 << 16, zipfile.ZIP_DEFLATED
            wheel.writestr(entry, octets)
    return name


def build_sdist(sdist_directory, config_settings=None):
    """Writes the archive of the sources, and returns its name."""
    found = project()
    folder = f"{found['name']}-{found['version']}"
    files = [(name, (TOP / name).read_bytes()) for name in SOURCES]
    files += [(f"src/{name}", octets) for name, octets in modules()] + [("PKG-INFO", metadata(found).encode())]
    with tarfile.open(pathlib.Path(sdist_directory) / f"{folder}.tar.gz", "w:gz") as archive:
        for name, octets in files:
            entry = tarfile.TarInfo(f"{folder}/{name}")
            entry.size = len(octets)
            archive.addfile(entry, io.BytesIO(octets))
    return f"{folder}.tar.gz"
