"""Makes the wheel for `pip install .` (PEP 517): the packages' modules, the command imagestore with its manual page, and the shared
libraries in balanced/lib.

The libraries are those of the folder that BALANCED_LIB_DIR names, or of target/lib of the repository (`make build`).
"""
import base64
import hashlib
import os
import tomllib
import zipfile
from pathlib import Path

HERE = Path(__file__).resolve().parent
PACKAGES = ["balanced", "imagestore"]
LIBRARIES = ["libbalanced.so.1", "libbalanced_any.so", "glibc-hwcaps/x86-64-v3/libbalanced.so.1", "glibc-hwcaps/x86-64-v4/libbalanced.so.1"]
MANUAL = HERE.parents[1] / "docs" / "man" / "imagestore.1"
WHEEL = "Wheel-Version: 1.0\nGenerator: wheel_of_package\nRoot-Is-Purelib: false\nTag: py3-none-linux_x86_64\n"


def package_files():
    """Name in the wheel and path of each file of the package."""
    for package in PACKAGES:
        for path in sorted((HERE / package).rglob("*")):
            if path.suffix in (".py", ".typed"):
                yield path.relative_to(HERE).as_posix(), path
    folder = Path(os.environ.get("BALANCED_LIB_DIR") or HERE.parents[1] / "target" / "lib")
    for name in LIBRARIES:
        path = folder / name
        if not path.is_file():
            raise FileNotFoundError(f"there is no {path}: run `make build`, or set BALANCED_LIB_DIR to the libraries' folder")
        yield f"balanced/lib/{name}", path


def metadata(project):
    return "".join(
        f"{field}: {value}\n"
        for field, value in [
            ("Metadata-Version", "2.1"), ("Name", project["name"]), ("Version", project["version"]),
            ("Summary", project["description"]), ("Requires-Python", project["requires-python"]),
        ]
    )


def recorded(name, data):
    """The line of RECORD for a file."""
    digest = base64.urlsafe_b64encode(hashlib.sha256(data).digest()).rstrip(b"=").decode()
    return f"{name},sha256={digest},{len(data)}\n"


def build_wheel(wheel_directory, config_settings=None, metadata_directory=None):
    project = tomllib.loads((HERE / "pyproject.toml").read_text(encoding="utf-8"))["project"]
    stem = f"{project['name']}-{project['version']}"
    files = {name: path.read_bytes() for name, path in package_files()}
    files[f"{stem}.dist-info/METADATA"] = metadata(project).encode()
    files[f"{stem}.dist-info/WHEEL"] = WHEEL.encode()
    files[f"{stem}.data/data/share/man/man1/{MANUAL.name}"] = MANUAL.read_bytes()
    scripts = "".join(f"{name} = {function}\n" for name, function in project["scripts"].items())
    files[f"{stem}.dist-info/entry_points.txt"] = f"[console_scripts]\n{scripts}".encode()
    record = f"{stem}.dist-info/RECORD"
    files[record] = "".join(recorded(name, data) for name, data in files.items()).encode() + f"{record},,\n".encode()
    wheel = f"{stem}-py3-none-linux_x86_64.whl"
    with zipfile.ZipFile(Path(wheel_directory) / wheel, "w", zipfile.ZIP_DEFLATED) as archive:
        for name, data in files.items():
            archive.writestr(zipfile.ZipInfo(name), data, zipfile.ZIP_DEFLATED)
    return wheel


def build_sdist(sdist_directory, config_settings=None):
    raise NotImplementedError("the package is built in its repository: there is no source archive")
