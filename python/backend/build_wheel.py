"""Builds the wheel without a network: compiles the extension by this python's own configuration, and zips the package.

    python3 build_wheel.py FOLDER           makes the wheel that `pip install` makes, for other machines
    python3 build_wheel.py --abi3 FOLDER    makes one that Python 3.10 and each later version takes

It takes the library and the header of c/, or of the folder that FIXED_DECIMAL names, which has both. The same sources,
the same library and the same python give the same bytes.
"""
import base64
import hashlib
import os
import re
import shlex
import subprocess
import sys
import sysconfig
import tempfile
import zipfile

HERE = os.path.dirname(os.path.dirname(os.path.abspath(__file__)))
NAME = "fixed_decimal"
with open(os.path.join(HERE, "pyproject.toml"), encoding="utf-8") as project:
    PROJECT = dict(re.findall('^([a-z-]+) = "(.*)"$', project.read(), re.M))
VERSION = PROJECT["version"]
LICENSE = os.path.join(HERE, "..", "LICENSE")
# Of the limited API, which an extension for several versions is compiled by.
OLDEST = (3, 10)


def native(folder, is_limited):
    """Compiles the extension into a folder, and returns its path."""
    home = os.path.abspath(os.environ.get("FIXED_DECIMAL") or os.path.join(HERE, "..", "c"))
    archives = [os.path.join(home, "libfixed_decimal.a"), os.path.join(home, "out", "libfixed_decimal.a")]
    archive = next((path for path in archives if os.path.exists(path)), None)
    if archive is None:
        raise SystemExit("libfixed_decimal.a is missing: run `bash c/build.sh` first")
    path = os.path.join(folder, "_native" + (".abi3.so" if is_limited else sysconfig.get_config_var("EXT_SUFFIX")))
    limited = [f"-DPy_LIMITED_API=0x{OLDEST[0]:02x}{OLDEST[1]:02x}0000"] if is_limited else []
    # The extension has the name of its source as it is given.
    subprocess.run([
        *shlex.split(sysconfig.get_config_var("CC") or "gcc"), "-shared", "-fPIC", "-O2", "-pthread",
        "-fvisibility=hidden", f'-DFIXED_DECIMAL_VERSION="{VERSION}"', *limited,
        "-I" + home, "-I" + sysconfig.get_path("include"), "_native.c", archive, "-Wl,--exclude-libs,ALL",
        "-o", os.path.abspath(path),
    ], check=True, cwd=os.path.join(HERE, NAME))
    return path


def newest_glibc(path):
    """The minor version of the newest glibc that a file needs."""
    symbols = subprocess.run(["objdump", "-T", path], capture_output=True, text=True, check=True).stdout
    return max(map(int, re.findall(r"GLIBC_2\.(\d+)", symbols)))


def metadata():
    lines = {"Metadata-Version": "2.1", "Name": NAME, "Version": VERSION, "Summary": PROJECT["description"],
             "Requires-Python": PROJECT["requires-python"], "License": PROJECT["license"]}
    return "".join(f"{name}: {value}\n" for name, value in lines.items())


def record(contents, info):
    """The list of the files with their sums, which is a file too."""
    rows = []
    for name, data in contents.items():
        digest = base64.urlsafe_b64encode(hashlib.sha256(data).digest()).rstrip(b"=").decode()
        rows.append(f"{name},sha256={digest},{len(data)}\n")
    return "".join([*rows, f"{info}/RECORD,,\n"])


def read(path):
    with open(path, "rb") as file:
        return file.read()


def make(folder, path, tag):
    """Zips the package with its compiled extension, and returns the name of the wheel."""
    info = f"{NAME}-{VERSION}.dist-info"
    contents = {f"{NAME}/{file}": read(os.path.join(HERE, NAME, file))
                for file in ("__init__.py", "__init__.pyi", "_errors.py", "_options.py", "py.typed")}
    contents[f"{NAME}/{os.path.basename(path)}"] = read(path)
    contents[f"{info}/METADATA"] = metadata().encode()
    contents[f"{info}/WHEEL"] = (
        f"Wheel-Version: 1.0\nGenerator: build_wheel\nRoot-Is-Purelib: false\nTag: {tag}\n".encode())
    if os.path.exists(LICENSE):
        contents[f"{info}/LICENSE"] = read(LICENSE)
    contents[f"{info}/RECORD"] = record(contents, info).encode()
    wheel = f"{NAME}-{VERSION}-{tag}.whl"
    with zipfile.ZipFile(os.path.join(folder, wheel), "w") as archive:
        for name, data in contents.items():
            # The date is the oldest that the format has.
            entry = zipfile.ZipInfo(name)
            entry.external_attr = (0o100755 if name.endswith(".so") else 0o100644) << 16
            archive.writestr(entry, data, zipfile.ZIP_DEFLATED)
    return wheel


def interpreter(is_limited):
    """The tags of the interpreter and of its interface."""
    if is_limited:
        return f"cp{OLDEST[0]}{OLDEST[1]}-abi3"
    version = "cp" + sysconfig.get_config_var("py_version_nodot")
    return f"{version}-{version}{sys.abiflags}"


def build_wheel(wheel_directory, config_settings=None, metadata_directory=None):
    """Makes the wheel for this machine, as PEP 517 has it."""
    platform = sysconfig.get_platform().replace("-", "_").replace(".", "_")
    with tempfile.TemporaryDirectory() as folder:
        return make(wheel_directory, native(folder, False), f"{interpreter(False)}-{platform}")


def build_for_others(wheel_directory, is_limited):
    """Makes a wheel whose tag has the glibc that it needs."""
    with tempfile.TemporaryDirectory() as folder:
        path = native(folder, is_limited)
        platform = f"manylinux_2_{newest_glibc(path)}_{os.uname().machine}"
        return make(wheel_directory, path, f"{interpreter(is_limited)}-{platform}")


if __name__ == "__main__":
    words = sys.argv[1:]
    if not words or words[:-1] not in ([], ["--abi3"]) or words[-1].startswith("-"):
        sys.exit(__doc__)
    print(build_for_others(words[-1], len(words) == 2))
