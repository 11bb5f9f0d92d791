#!/usr/bin/env python3
"""Makes the wheel of the package of python/ in bin/, with the shared object, abnfd and abnfg inside.

usage: wheel.py [LIBRARY [FOLDER]]

LIBRARY is bin/libfanquber.so.2 if none is given, which library.py makes, and FOLDER is bin/. The programs stand beside
LIBRARY. The wheel is for any Python 3 on Linux x86-64 whose C library is as new as all three need. The script needs
readelf (Debian: binutils), and a Python with setuptools and wheel (Debian: python3-setuptools, python3-wheel): the one
that runs it, or else /usr/bin/python3. It needs no network. It prints the name of the wheel.
"""
import pathlib
import re
import shutil
import subprocess
import sys
import tempfile

TOP = pathlib.Path(__file__).resolve().parents[2]
SONAME = "libfanquber.so.2"
PROGRAMS = ("abnfd", "abnfg")
LIBRARIES = {"libc.so.6", "ld-linux-x86-64.so.2"}
NOT_PACKED = shutil.ignore_patterns("__pycache__", "build", "*.egg-info", ".*", "tests")
SETUP = "from setuptools import setup; setup(options={'bdist_wheel': {'python_tag': 'py3', 'plat_name': %r}})"


def maker():
    """Returns a Python that has setuptools and wheel, or None."""
    for it in (sys.executable, "/usr/bin/python3"):
        found = subprocess.run([it, "-c", "import setuptools, wheel"], stderr=subprocess.DEVNULL, check=False)
        if found.returncode == 0:
            return it
    return None


def platform(files):
    """Returns the tag of the platforms on which all files run; ends the script if one needs another library."""
    versions = []
    for file in files:
        read = subprocess.run(["readelf", "-dV", str(file)], check=True, capture_output=True, text=True).stdout
        others = set(re.findall(r"\(NEEDED\).*\[(.*)\]", read)) - LIBRARIES
        if others:
            sys.exit(f"wheel.py: {file} needs {', '.join(sorted(others))}")
        versions += [tuple(map(int, it.split("."))) for it in re.findall(r"Name: GLIBC_([\d.]+)", read)]
    return "manylinux_{}_{}_x86_64".format(*max(versions)[:2])


def make(files, folder):
    """Makes the wheel in a folder, with the shared object and the programs, and returns it."""
    python = maker()
    if python is None:
        sys.exit("wheel.py: no Python with setuptools and wheel (Debian: python3-setuptools, python3-wheel)")
    with tempfile.TemporaryDirectory() as made:
        top, out = pathlib.Path(made) / "python", pathlib.Path(made) / "out"
        shutil.copytree(TOP / "python", top, ignore=NOT_PACKED)
        for file, name in zip(files, (SONAME, *PROGRAMS)):
            shutil.copy(file, top / "fanquber" / name)
        words = [python, "-c", SETUP % platform(files), "-q", "bdist_wheel", "-d", out]
        ran = subprocess.run([str(it) for it in words], cwd=top, capture_output=True, text=True, check=False)
        if ran.returncode:
            sys.exit(f"wheel.py: {ran.stderr}")
        (wheel,) = out.glob("*.whl")
        return pathlib.Path(shutil.copy(wheel, folder))


def main(words):
    library = pathlib.Path(words[0]) if words else TOP / "bin" / SONAME
    folder = pathlib.Path(words[1]) if words[1:] else TOP / "bin"
    if not library.is_file():
        sys.exit(f"wheel.py: no {library}: run `make lib`")
    programs = [library.with_name(it) for it in PROGRAMS]
    lacking = [str(it) for it in programs if not it.is_file()]
    if lacking:
        sys.exit(f"wheel.py: no {', '.join(lacking)}: run `make {' '.join(PROGRAMS)}`")
    print(make([library, *programs], folder))


if __name__ == "__main__":
    main(sys.argv[1:])
