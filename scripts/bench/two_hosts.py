#!/usr/bin/env python3
"""Judges lines by hosts.sh of docs/LARGE_INPUTS.md on two hosts, prints how long that takes and how many blocks each
host judged, and compares the answers with those of `abnfi` alone.

usage: two_hosts.py [MEGABYTES]

The hosts are network namespaces of this machine, each with an address, an sshd, a home and programs of its own, which
the script makes and removes. Run it as root. It needs bin/abnfi, and of Debian parallel, rsync, iproute2,
openssh-server and openssh-client; 40 megabytes if no number is given.
"""
import contextlib
import os
import pathlib
import shutil
import socket
import subprocess
import sys
import tempfile
import time

from large_inputs import TOP, is_wanted, write_lines, write_scripts

HOSTS = {"10.77.1.2": "10.77.1.1", "10.77.2.2": "10.77.2.1"}
SSHD = """ListenAddress {host}
HostKey {folder}/key
PidFile none
AuthorizedKeysFile {folder}/key.pub
PasswordAuthentication no
StrictModes no
"""
SSH = """IdentityFile {folder}/key
UserKnownHostsFile {folder}/known
StrictHostKeyChecking accept-new
"""
# Each host has a home and programs that no other has.
START = """mount --bind {folder}/{host} /root
mount --bind {folder}/{host} /usr/local/bin
exec /usr/sbin/sshd -D -f {folder}/{host}.sshd"""


def run(*words, **others):
    return subprocess.run([str(it) for it in words], check=True, **others)


@contextlib.contextmanager
def namespace(name, host, peer):
    """Makes a network namespace with an address, which this machine reaches, and removes it at the end."""
    run("ip", "netns", "add", name)
    try:
        run("ip", "link", "add", name, "type", "veth", "peer", "name", "eth0", "netns", name)
        run("ip", "address", "add", f"{peer}/24", "dev", name)
        run("ip", "-n", name, "address", "add", f"{host}/24", "dev", "eth0")
        run("ip", "link", "set", name, "up")
        run("ip", "-n", name, "link", "set", "eth0", "up")
        yield
    finally:
        run("ip", "netns", "del", name)


@contextlib.contextmanager
def daemon(name, host, folder):
    """Starts the sshd of a host, and ends it at the end."""
    (folder / host).mkdir()
    shutil.copy(TOP / "bin/abnfi", folder / host)
    (folder / f"{host}.sshd").write_text(SSHD.format(host=host, folder=folder))
    pathlib.Path("/run/sshd").mkdir(exist_ok=True)
    start = START.format(host=host, folder=folder)
    process = subprocess.Popen(["ip", "netns", "exec", name, "unshare", "-m", "sh", "-ec", start])
    try:
        for _ in range(100):
            with contextlib.suppress(OSError), socket.create_connection((host, 22), 1):
                break
            time.sleep(0.1)
        yield
    finally:
        process.terminate()
        process.wait()


def judge(folder):
    """Judges the lines on both hosts. Returns how long that takes, and how many blocks each host judged."""
    (folder / "ssh").write_text(SSH.format(folder=folder))
    environment = {**os.environ, "PARALLEL_SSH": f"ssh -F {folder}/ssh", "PARALLEL": f"--joblog {folder}/log"}
    environment.update(HOSTS=",".join(HOSTS), JOBS="2")
    start = time.monotonic()
    with open(folder / "lines", "rb") as given, open(folder / "answers", "wb") as out:
        # (each block has the notes on the grammar)
        words = ["sh", "hosts.sh", "-s", "date-time"]
        run(*words, cwd=folder, env=environment, stdin=given, stdout=out, stderr=subprocess.DEVNULL)
    taken = time.monotonic() - start
    log = [it.split("\t") for it in (folder / "log").read_text().splitlines()[1:]]
    return taken, {host: sum(it[1] == host for it in log) for host in HOSTS}


def main(words):
    with tempfile.TemporaryDirectory() as made, contextlib.ExitStack() as hosts:
        folder = pathlib.Path(made)
        write_scripts(folder)
        write_lines("date", int(words[0] if words else 40) * 1_000_000, folder)
        with open(folder / "lines", "rb") as given, open(folder / "wanted", "wb") as out:
            words = [TOP / "bin/abnfi", folder / "g.abnf"]
            subprocess.run(words, stdin=given, stdout=out, stderr=subprocess.DEVNULL, check=False)
        run("ssh-keygen", "-q", "-t", "ed25519", "-N", "", "-f", folder / "key")
        for number, (host, peer) in enumerate(HOSTS.items()):
            hosts.enter_context(namespace(f"fanquber{number}", host, peer))
            hosts.enter_context(daemon(f"fanquber{number}", host, folder))
        taken, blocks = judge(folder)
        print(f"{taken:.1f} s; blocks: {', '.join(f'{host} {count}' for host, count in blocks.items())}")
        is_right = is_wanted(folder)
        print("the answers are those of abnfi alone" if is_right else "the answers differ")
        return 0 if is_right and all(blocks.values()) else 1


if __name__ == "__main__":
    sys.exit(main(sys.argv[1:]))
