"""Makes the wheel of the package, for pip: `pip install ./library/python`. It needs nothing but Python and the shipped library, or the
one that FLAGOPS_LIBRARY names. `python3 packing.py FOLDER` writes the wheel there."""
import base64
import hashlib
import os
import sys
import tarfile
import zipfile

HERE = os.path.dirname(os.path.abspath(__file__))
SHIPPED = os.path.join(HERE, "..", "..", "release", "x86_64-linux", "libflagops.so.0")
NAME, VERSION, TAG = "flagops", "0.1.0", "py3-none-manylinux_2_17_x86_64"
ABOUT = f"Metadata-Version: 2.1\nName: {NAME}\nVersion: {VERSION}\nSummary: Feature flags, resolved in your own process\nRequires-Python: >=3.10\n"


def library():
    """The shared object that the wheel has: within a source archive beside this file, else the shipped one."""
    inside = os.path.join(HERE, NAME, "libflagops.so.0")
    return os.environ.get("FLAGOPS_LIBRARY") or (inside if os.path.exists(inside) else SHIPPED)


def files():
    """The package's files, by their names."""
    package = os.path.join(HERE, NAME)
    found = {f"{NAME}/{name}": os.path.join(package, name) for name in os.listdir(package) if name.endswith((".py", ".typed"))}
    return {**dict(sorted(found.items())), f"{NAME}/libflagops.so.0": library()}


def read(path):
    with open(path, "rb") as file:
        return file.read()


def build_wheel(wheel_directory, config_settings=None, metadata_directory=None):
    folder = f"{NAME}-{VERSION}.dist-info"
    parts = {name: read(path) for name, path in files().items()}
    parts[f"{folder}/METADATA"] = ABOUT.encode()
    parts[f"{folder}/WHEEL"] = f"Wheel-Version: 1.0\nGenerator: flagops\nRoot-Is-Purelib: false\nTag: {TAG}\n".encode()
    sums = [f"{name},sha256={base64.urlsafe_b64encode(hashlib.sha256(data).digest()).decode().rstrip('=')},{len(data)}" for name, data in parts.items()]
    parts[f"{folder}/RECORD"] = "\n".join([*sums, f"{folder}/RECORD,,", ""]).encode()
    wheel = f"{NAME}-{VERSION}-{TAG}.whl"
    with zipfile.ZipFile(os.path.join(wheel_directory, wheel), "w", zipfile.ZIP_DEFLATED) as archive:
        for name, data in parts.items():
            archive.writestr(zipfile.ZipInfo(name, (1980, 1, 1, 0, 0, 0)), data, zipfile.ZIP_DEFLATED)
    return wheel


def build_sdist(sdist_directory, config_settings=None):
    top = f"{NAME}-{VERSION}"
    with tarfile.open(os.path.join(sdist_directory, f"{top}.tar.gz"), "w:gz", format=tarfile.PAX_FORMAT) as archive:
        own = {name: os.path.join(HERE, name) for name in ("pyproject.toml", "packing.py", "README.md")}
        for name, path in {**own, **files()}.items():
            archive.add(path, f"{top}/{name}")
    return f"{top}.tar.gz"


if __name__ == "__main__":
    print(build_wheel(sys.argv[1] if len(sys.argv) > 1 else "."))
