"""Builds the wheel for pip: compiles src/ and links the library into it.

It needs a C compiler, Python's headers and libjiter.a, and of Python the standard library alone, so that an installation
needs no network. The library is the one in the folder that the environment variable JITER_LIB_DIR names, else the one that
`make -C ffi` built, else the one in the folder lib beside this one. CC and CFLAGS have their usual meaning.
"""

import base64
import glob
import hashlib
import os
import re
import shlex
import subprocess
import sys
import sysconfig
import tempfile
import zipfile

HERE = os.path.dirname(os.path.abspath(__file__))
FILES = ("__init__.py", "__init__.pyi", "_error.py", "py.typed")
LIBRARIES = [os.environ["JITER_LIB_DIR"]] if os.environ.get("JITER_LIB_DIR") else [f"{HERE}/../build", f"{HERE}/../lib"]
FLAGS = ["-std=c11", "-DNDEBUG", "-O3", "-fPIC", "-fno-plt", "-fvisibility=hidden"]
LINKED = ["-shared", "-Wl,--exclude-libs,ALL", "-Wl,-z,relro,-z,now"]


def read(path):
    with open(path, "rb") as file:
        return file.read()


def project(key):
    """Returns a value of pyproject.toml: Python before 3.11 has no reader of TOML."""
    return re.search(rf'^{key} = "(.*)"$', read(f"{HERE}/pyproject.toml").decode(), re.M)[1]


def first_of(name, folders):
    """Returns the first of these folders that has the file."""
    for it in folders:
        if os.path.exists(f"{it}/{name}"):
            return os.path.abspath(it)
    sys.exit(f"safelorim needs {name} and finds none in {' or '.join(folders)}: `make -C ffi`, or set JITER_LIB_DIR")


def compile_module(path):
    """Compiles src/ to this file, with the library in it."""
    library = first_of("libjiter.a", LIBRARIES)
    header = first_of("jiter_c.h", [f"{HERE}/..", f"{library}/../include"])
    compiler = shlex.split(os.environ.get("CC") or sysconfig.get_config_var("CC") or "cc")
    words = [*compiler, *FLAGS, *LINKED, f"-I{header}", f"-I{sysconfig.get_paths()['include']}", *shlex.split(os.environ.get("CFLAGS", ""))]
    subprocess.run([*words, "-o", path, *sorted(glob.glob(f"{HERE}/src/*.c")), f"{library}/libjiter.a"], check=True)


def compiled():
    with tempfile.TemporaryDirectory() as folder:
        compile_module(f"{folder}/module")
        return read(f"{folder}/module")


def record(name, data):
    digest = base64.urlsafe_b64encode(hashlib.sha256(data).digest()).rstrip(b"=").decode()
    return f"{name},sha256={digest},{len(data)}\n"


def wheel_tag():
    python = f"cp{sys.version_info[0]}{sys.version_info[1]}"
    return f"{python}-{python}{sys.abiflags}-linux_x86_64"


def dist_info():
    """Returns the name of the folder about the package, and its files but the record."""
    name, version = project("name"), project("version")
    metadata = f"Metadata-Version: 2.1\nName: {name}\nVersion: {version}\nSummary: {project('description')}\nLicense: MIT\n"
    metadata += f"Requires-Python: {project('requires-python')}\n"
    wheel = f"Wheel-Version: 1.0\nGenerator: build_wheel\nRoot-Is-Purelib: false\nTag: {wheel_tag()}\n"
    return f"{name}-{version}.dist-info", {"METADATA": metadata.encode(), "WHEEL": wheel.encode()}


def prepare_metadata_for_build_wheel(metadata_directory, config_settings=None):
    """Writes the files about the package, so that pip compiles it once."""
    folder, files = dist_info()
    os.makedirs(f"{metadata_directory}/{folder}")
    for name, data in files.items():
        with open(f"{metadata_directory}/{folder}/{name}", "wb") as file:
            file.write(data)
    return folder


def build_wheel(wheel_directory, config_settings=None, metadata_directory=None):
    """Writes the wheel and returns its name, as PEP 517 asks."""
    name, (about, described) = project("name"), dist_info()
    files = {f"{name}/{it}": read(f"{HERE}/src/{name}/{it}") for it in FILES}
    files[f"{name}/_core{sysconfig.get_config_var('EXT_SUFFIX')}"] = compiled()
    files.update({f"{about}/{it}": data for it, data in described.items()})
    files[f"{about}/RECORD"] = ("".join(record(*it) for it in files.items()) + f"{about}/RECORD,,\n").encode()
    wheel = f"{name}-{project('version')}-{wheel_tag()}.whl"
    with zipfile.ZipFile(os.path.join(wheel_directory, wheel), "w", zipfile.ZIP_DEFLATED) as archive:
        for path, data in files.items():
            archive.writestr(path, data)
    return wheel


if __name__ == "__main__":
    # For the tests: safelorim in this folder.
    if len(sys.argv) != 2:
        sys.exit("usage: build_wheel.py FOLDER")
    with tempfile.TemporaryDirectory() as wheels:
        zipfile.ZipFile(f"{wheels}/{build_wheel(wheels)}").extractall(sys.argv[1])
