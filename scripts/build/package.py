#!/usr/bin/env python3
"""Packs the programs with what belongs to them, in the folder bin/: an archive for any Linux on x86-64, or a package
for Debian. `make put` says what goes where.

usage: package.py dist|deb

The archive fanquber-VERSION-x86_64-linux.tar.gz holds the folders bin/ and share/, the file PROVED, which says what was
proved with which kit, the file LICENSE, and SHA256SUMS. Beside it stands its own sum. The same sources and kit give the
same archive. VERSION is what `--version` writes, and the date of the last commit: 1.2+20261128. The programs need the C
library and no other: the script does not pack them otherwise. It needs readelf (Debian: binutils) and for `deb`
dpkg-deb.
"""
import email.utils
import gzip
import hashlib
import os
import pathlib
import re
import subprocess
import sys
import tarfile
import tempfile

TOP = pathlib.Path(__file__).resolve().parents[2]
NAME = "fanquber"
PROGRAMS = ("pegi", "abnfi", "abnfx", "abnfd", "abnfg")
LIBRARIES = {"libc.so.6", "ld-linux-x86-64.so.2"}
# The one place of the version's number.
VERSION_FILE = "crates/cli/src/command.rt"
CONTROL = """Package: {name}
Version: {version}
Architecture: amd64
Maintainer: Fanquber's developers <fanquber@localhost>
Installed-Size: {size}
Depends: libc6 (>= {libc})
Section: text
Priority: optional
Description: proved grammar tools: pegi runs PEG grammars, abnfi judges lines by ABNF
 pegi reads a grammar in the syntax of peg(1) and runs it directly on its input.
 abnfi reads a grammar in ABNF (RFC 5234, RFC 7405) and answers yes or no for
 each line of its input. Both also check a grammar and print it in one canonical
 form. What both write is proved to be a stated function of grammar and input.
 abnfx joins the grammars in ABNF that texts of RFCs give. abnfd compares the
 lines that rules of two grammars in ABNF derive. abnfg lists the lines that a
 rule derives.
"""
# What Debian wants to know of the changes of a package.
CHANGELOG = """{name} ({version}) unstable; urgency=low

  * Packed from {sources}.

 -- Fanquber's developers <fanquber@localhost>  {day}
"""


def output(*words):
    """Returns what a command prints, or ends the script if it fails."""
    try:
        return subprocess.run(words, cwd=TOP, check=True, capture_output=True, text=True).stdout.strip()
    except (OSError, subprocess.CalledProcessError) as fault:
        sys.exit(f"package.py: {words[0]}: {getattr(fault, 'stderr', '') or fault}")


def number():
    """Returns the number that the programs write for --version."""
    text = (TOP / VERSION_FILE).read_text(encoding="utf-8")
    return re.search(r'^const VERSION: &str = "\(Fanquber\) ([\d.]+)";$', text, re.M)[1]


def commit():
    """Returns the date of the last commit in seconds, the version of a package, and what the sources are."""
    when, day, name = output("git", "log", "-1", "--format=%ct %cd %h", "--date=format:%Y%m%d").split()
    changed = " with changes that are not committed" if output("git", "status", "--porcelain", "-uno") else ""
    return int(when), f"{number()}+{day}", f"commit {name}{changed}"


def libc_version():
    """Returns the least version of the C library that the programs run with; ends the script if they need another."""
    found = []
    for it in PROGRAMS:
        reported = output("readelf", "-dV", f"bin/{it}")
        others = set(re.findall(r"\(NEEDED\).*\[(.*)\]", reported)) - LIBRARIES
        if others:
            sys.exit(f"package.py: {it} needs {', '.join(sorted(others))}, and is to need the C library alone")
        found += [tuple(map(int, it.split("."))) for it in re.findall(r"Name: GLIBC_([\d.]+)", reported)]
    return ".".join(map(str, max(found)))


def lay_out(folder, prefix):
    """Installs all below the folder, and adds the line that says what was proved."""
    output("make", "-s", "put", f"DESTDIR={folder}", f"PREFIX={prefix}")
    sources = commit()[2]
    kit = output(*os.environ.get("RT", "rt").split(), "version").splitlines()[0]
    text = f"{', '.join(PROGRAMS)}: each function is proved against its contract, from {sources}, by {kit}.\n"
    (folder / prefix.strip("/") / f"share/doc/{NAME}/PROVED").write_text(text)


def files_below(folder):
    """Returns the files below a folder, in order."""
    return sorted(it for it in folder.rglob("*") if it.is_file())


def sums_of(folder, files):
    """Returns a line for each file, as sha256sum writes it."""
    return "".join(f"{hashlib.sha256(it.read_bytes()).hexdigest()}  {it.relative_to(folder)}\n" for it in files)


def dist():
    """Makes the archive and its sum. Returns the archive."""
    libc_version()
    when, version, _ = commit()
    base = f"{NAME}-{version}"
    archive = TOP / "bin" / f"{base}-x86_64-linux.tar.gz"
    with tempfile.TemporaryDirectory() as made:
        folder = pathlib.Path(made) / base
        folder.mkdir()
        lay_out(folder, "")
        for it in ("PROVED", "LICENSE"):
            (folder / f"share/doc/{NAME}" / it).rename(folder / it)
        (folder / "SHA256SUMS").write_text(sums_of(folder, files_below(folder)))

        def plain(entry):
            entry.mtime, entry.uid, entry.gid, entry.uname, entry.gname = when, 0, 0, "", ""
            return entry
        with open(archive, "wb") as raw, gzip.GzipFile("", "wb", mtime=when, fileobj=raw) as packed:
            with tarfile.open(fileobj=packed, mode="w") as tar:
                for it in sorted(folder.rglob("*")):
                    tar.add(it, it.relative_to(made), recursive=False, filter=plain)
    pathlib.Path(f"{archive}.sha256").write_text(sums_of(archive.parent, [archive]))
    return archive


def compress(path, text):
    """Writes a compressed file, which holds no time."""
    path.write_bytes(gzip.compress(text, mtime=0))


def deb():
    """Makes the package for Debian, and returns it."""
    libc = libc_version()
    when, version, sources = commit()
    package = TOP / "bin" / f"{NAME}_{version}_amd64.deb"
    with tempfile.TemporaryDirectory() as made:
        folder = pathlib.Path(made)
        folder.chmod(0o755)
        lay_out(folder, "/usr")
        for it in (folder / "usr/share/man/man1").iterdir():
            compress(it.parent / f"{it.name}.gz", it.read_bytes())
            it.unlink()
        output("strip", *(folder / "usr/bin" / it for it in PROGRAMS))
        day = email.utils.formatdate(when)
        changes = CHANGELOG.format(name=NAME, version=version, sources=sources, day=day)
        compress(folder / f"usr/share/doc/{NAME}/changelog.gz", changes.encode())
        # Debian wants the licence in a file of this name
        (folder / f"usr/share/doc/{NAME}/LICENSE").rename(folder / f"usr/share/doc/{NAME}/copyright")
        # Debian's zsh looks here for what packages complete
        (folder / "usr/share/zsh/site-functions").rename(folder / "usr/share/zsh/vendor-completions")
        size = sum(it.stat().st_size for it in files_below(folder)) // 1024
        (folder / "DEBIAN").mkdir()
        (folder / "DEBIAN/control").write_text(CONTROL.format(name=NAME, version=version, size=size, libc=libc))
        environment = {**os.environ, "SOURCE_DATE_EPOCH": str(when)}
        subprocess.run(["dpkg-deb", "--root-owner-group", "--build", folder, package], env=environment, check=True,
                       stdout=subprocess.DEVNULL)
    return package


def main(words):
    if words not in (["dist"], ["deb"]):
        sys.exit("usage: package.py dist|deb")
    made = dist() if words == ["dist"] else deb()
    print(made.relative_to(TOP))


if __name__ == "__main__":
    main(sys.argv[1:])
