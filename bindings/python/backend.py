"""What pip asks to install this folder (PEP 517 and 660), by the standard library alone.

A wheel has the package, the licence and the shared object: that of TSORVENK_SO, or the one that ./build-library of the
repository left. Without one the package is installed all the same, and its calls look for it as TSORVENK_SO says.
"""
import base64
import hashlib
import io
import os
import pathlib
import sys
import sysconfig
import tarfile
import zipfile

NAME, VERSION = "tsorvenk", "0.1.0"
HERE = pathlib.Path(__file__).resolve().parent
INFO = f"{NAME}-{VERSION}.dist-info"
METADATA = f"""Metadata-Version: 2.1
Name: {NAME}
Version: {VERSION}
Summary: Replica-overlap cluster moves: the proved library, on the caller's own arrays
Requires-Python: >=3.9
"""


def _shared_object():
    named = os.environ.get("TSORVENK_SO")
    places = [pathlib.Path(named)] if named else [HERE.parents[1] / "target" / "staticlib" / "libtsorvenk.so"]
    for path in places:
        if path.is_file():
            return path.read_bytes()
    print(f"tsorvenk: {places[0]} is not there: installed without the shared object; ./build-library leaves it", file=sys.stderr)
    return None


def _package():
    """The files of the package, by their names in a wheel."""
    found = {}
    for path in sorted((HERE / NAME).iterdir()):
        if path.suffix == ".py" or path.name == "py.typed":
            found[f"{NAME}/{path.name}"] = path.read_bytes()
    return found


def _write(directory, tag, files):
    notice = HERE.parents[1] / "NOTICE"
    if notice.is_file():
        files[f"{INFO}/licenses/NOTICE"] = notice.read_bytes()
    pure = "true" if tag.endswith("-any") else "false"
    files[f"{INFO}/METADATA"] = METADATA.encode()
    files[f"{INFO}/WHEEL"] = f"Wheel-Version: 1.0\nGenerator: {NAME}\nRoot-Is-Purelib: {pure}\nTag: {tag}\n".encode()
    record = ""
    for name, data in files.items():
        digest = base64.urlsafe_b64encode(hashlib.sha256(data).digest()).rstrip(b"=").decode()
        record += f"{name},sha256={digest},{len(data)}\n"
    files[f"{INFO}/RECORD"] = (record + f"{INFO}/RECORD,,\n").encode()
    wheel = f"{NAME}-{VERSION}-{tag}.whl"
    with zipfile.ZipFile(pathlib.Path(directory, wheel), "w", zipfile.ZIP_DEFLATED) as out:
        for name, data in files.items():
            # always the same time, so that equal files make equal wheels
            out.writestr(zipfile.ZipInfo(name, (1980, 1, 1, 0, 0, 0)), data)
    return wheel


def build_wheel(wheel_directory, config_settings=None, metadata_directory=None):
    files, shared = _package(), _shared_object()
    if shared is None:
        return _write(wheel_directory, "py3-none-any", files)
    files[f"{NAME}/libtsorvenk.so"] = shared
    machine = sysconfig.get_platform().replace("-", "_").replace(".", "_")
    return _write(wheel_directory, f"py3-none-{machine}", files)


def build_editable(wheel_directory, config_settings=None, metadata_directory=None):
    return _write(wheel_directory, "py3-none-any", {f"{NAME}.pth": f"{HERE}\n".encode()})


def build_sdist(sdist_directory, config_settings=None):
    """The sources without the shared object, which is of one machine."""
    files = {**_package(), "PKG-INFO": METADATA.encode()}
    for name in ("backend.py", "pyproject.toml"):
        files[name] = (HERE / name).read_bytes()
    sdist = f"{NAME}-{VERSION}.tar.gz"
    with tarfile.open(pathlib.Path(sdist_directory, sdist), "w:gz") as out:
        for name, data in files.items():
            entry = tarfile.TarInfo(f"{NAME}-{VERSION}/{name}")
            entry.size = len(data)
            out.addfile(entry, io.BytesIO(data))
    return sdist
