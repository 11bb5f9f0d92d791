"""The toolchain's command `rt`, for the other scripts."""
import subprocess


def keeps_work(rt):
    """Says whether `rt ci` keeps what it passed for later runs: then its help names `--anew`, which proves all anew."""
    found = subprocess.run([*rt, "help"], stdin=subprocess.DEVNULL, capture_output=True, text=True, check=False)
    return "--anew" in found.stdout + found.stderr
