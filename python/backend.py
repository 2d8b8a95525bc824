"""Builds the package for pip, with nothing but the standard library: `pip install ./python` needs no network.

The wheel has the modules and the shared library, which `./build x86_64-linux` writes. The same files give the same bytes.
"""
import base64
import hashlib
import os
import pathlib
import re
import sys
import tarfile
import zipfile

HERE = pathlib.Path(__file__).resolve().parent
LIBRARY = "librobequarry.so"
TAG = "py3-none-linux_x86_64"


def version():
    return re.search(r'^version = "(.*)"$', (HERE / "pyproject.toml").read_text(), re.M).group(1)


def library():
    """The shared library: beside the modules, or where `./build x86_64-linux` writes it."""
    for path in (HERE / "robequarry" / LIBRARY, HERE.parent / "target" / "x86_64-linux" / LIBRARY):
        if path.is_file():
            return path
    sys.exit(f"robequarry: {LIBRARY} is missing: run './build x86_64-linux' at the repository's root first")


def metadata():
    return f"Metadata-Version: 2.1\nName: robequarry\nVersion: {version()}\nRequires-Python: >=3.9\n"


def build_wheel(wheel_directory, config_settings=None, metadata_directory=None):
    info = f"robequarry-{version()}.dist-info"
    files = {f"robequarry/{path.name}": path.read_bytes() for path in sorted((HERE / "robequarry").glob("*.py"))}
    files["robequarry/py.typed"] = b""
    files[f"robequarry/{LIBRARY}"] = library().read_bytes()
    files[f"{info}/METADATA"] = metadata().encode()
    files[f"{info}/WHEEL"] = f"Wheel-Version: 1.0\nGenerator: robequarry\nRoot-Is-Purelib: false\nTag: {TAG}\n".encode()
    rows = []
    for name, data in files.items():
        digest = base64.urlsafe_b64encode(hashlib.sha256(data).digest()).rstrip(b"=").decode()
        rows.append(f"{name},sha256={digest},{len(data)}\n")
    files[f"{info}/RECORD"] = ("".join(rows) + f"{info}/RECORD,,\n").encode()
    name = f"robequarry-{version()}-{TAG}.whl"
    with zipfile.ZipFile(pathlib.Path(wheel_directory) / name, "w", zipfile.ZIP_DEFLATED) as wheel:
        for path, data in files.items():
            wheel.writestr(zipfile.ZipInfo(path, (1980, 1, 1, 0, 0, 0)), data, zipfile.ZIP_DEFLATED)
    return name


def build_sdist(sdist_directory, config_settings=None):
    name = f"robequarry-{version()}"
    with tarfile.open(pathlib.Path(sdist_directory) / f"{name}.tar.gz", "w:gz") as archive:
        for path in sorted(HERE.rglob("*")):
            if path.is_file() and path.suffix in (".py", ".toml", ".md"):
                archive.add(path, f"{name}/{path.relative_to(HERE)}")
        archive.add(library(), f"{name}/robequarry/{LIBRARY}")
    return f"{name}.tar.gz"


if __name__ == "__main__":
    os.makedirs("dist", exist_ok=True)
    print(build_wheel("dist"))
