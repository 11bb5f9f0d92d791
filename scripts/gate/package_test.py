#!/usr/bin/env python3
"""Tests what package.py packs, each in a folder of its own: the archive is unpacked, and its sums are right; the
package is installed, and removed again. What is installed runs the examples of its manual pages and of its examples/.

usage: package_test.py

It needs both programs in bin/, and readelf. The package is left out where there is no dpkg or no right to install, and
the script says so.
"""
import os
import pathlib
import shutil
import subprocess
import sys
import tarfile
import tempfile

sys.path.insert(0, str(pathlib.Path(__file__).resolve().parents[1]))  # scripts/, for what groups share
from build.package import NAME, PROGRAMS, deb, dist, number

TOP = pathlib.Path(__file__).resolve().parents[2]


def run(*words, folder=TOP):
    """Runs a command, and returns what went wrong, or nothing."""
    ran = subprocess.run(words, cwd=folder, stdout=subprocess.PIPE, stderr=subprocess.STDOUT, text=True, check=False)
    return [f"{' '.join(map(str, words))}: {ran.stdout}"] if ran.returncode else []


def faults_of_examples(prefix, pages):
    """Returns what is wrong with the installed examples: those of the manual pages, and the folders of examples/."""
    environment = {**os.environ, "PATH": f"{prefix / 'bin'}:{os.environ['PATH']}"}
    found = run(sys.executable, "-B", TOP / "scripts/docs/man_examples.py", prefix / "bin", pages)
    for folder in sorted((prefix / f"share/doc/{NAME}/examples").iterdir()):
        ran = subprocess.run(["sh", "run.sh"], cwd=folder, env=environment, capture_output=True, check=False)
        status = folder / "status"
        wanted = int(status.read_text()) if status.is_file() else 0
        if (ran.returncode, ran.stdout) != (wanted, (folder / "printed.txt").read_bytes()):
            found.append(f"{folder}: prints something else, or ends with {ran.returncode} and not {wanted}")
    return found


def faults_of_version(programs):
    """Returns which programs of a folder do not write the version that the packages have."""
    found = []
    for it in PROGRAMS:
        reported = subprocess.run([programs / it, "--version"], capture_output=True, text=True, check=False).stdout
        if reported != f"{it} (Fanquber) {number()}\n":
            found.append(f"{it} --version writes {reported!r}")
    return found


def faults_of_archive(folder):
    """Unpacks the archive and returns what is wrong with it."""
    archive = dist()
    with tarfile.open(archive) as tar:
        tar.extractall(folder)
    (top,) = folder.iterdir()
    found = run("sha256sum", "-c", f"{archive}.sha256", folder=archive.parent)
    found += run("sha256sum", "-c", "SHA256SUMS", folder=top)
    if "by rattle-kit" not in (top / "PROVED").read_text():
        found.append("PROVED does not name the kit")
    if not (top / "LICENSE").read_text().startswith("MIT License\n"):
        found.append("LICENSE is not the MIT licence")
    return found + faults_of_version(top / "bin") + faults_of_examples(top, top / "share/man/man1")


def faults_of_package(folder):
    """Installs the package below the folder, removes it again, and returns what is wrong."""
    package = deb()
    for it in ("updates", "info", "triggers"):
        (folder / "var/lib/dpkg" / it).mkdir(parents=True)
    (folder / "var/lib/dpkg/status").touch()
    dpkg = ("dpkg", f"--root={folder}", "--force-depends", "--log=/dev/null")
    # (nothing that waits for other packages may run)
    found = run(*dpkg, "--no-triggers", "--install", package)
    found += faults_of_examples(folder / "usr", folder / "usr/share/man/man1")
    found += run(*dpkg, "--no-triggers", "--remove", NAME)
    left = [it for it in folder.rglob("*") if it.is_file() and "var/lib/dpkg" not in str(it)]
    return found + [f"{it}: is left behind" for it in left]


def main():
    if not shutil.which("readelf"):
        print("packages: readelf is not installed: skipped")
        return 0
    with tempfile.TemporaryDirectory() as folder:
        faults = faults_of_archive(pathlib.Path(folder))
    said = "the archive"
    if shutil.which("dpkg") and os.geteuid() == 0:
        with tempfile.TemporaryDirectory() as folder:
            faults += faults_of_package(pathlib.Path(folder))
        said += " and the package for Debian"
    else:
        said += " (no dpkg, or no right to install: the package for Debian is left out)"
    for it in faults:
        print(it)
    print(f"packages: {said}; {len(faults)} wrong")
    return 1 if faults else 0


sys.exit(main())
