"""What the measures of this folder share: the processor's time, the time that passes, instructions, the most memory."""
import os
import re
import resource
import shutil
import subprocess
import time
import zlib


def spent():
    """The processor's seconds of all programs that have ended, with those that they waited for themselves."""
    used = resource.getrusage(resource.RUSAGE_CHILDREN)
    return used.ru_utime + used.ru_stime


def timed(words, limit):
    """The processor's seconds of a run, the seconds that passed, and what it printed; in place of both times nothing
    where it failed or took more seconds than the limit, and then a line that says so."""
    before, begun = spent(), time.monotonic()
    try:
        ran = subprocess.run(words, capture_output=True, timeout=limit, check=False)
    except subprocess.TimeoutExpired:
        return None, None, f"more than {limit} s"
    passed = time.monotonic() - begun
    if ran.returncode:
        return None, None, ran.stderr.decode("latin-1").strip()[:60] or f"status {ran.returncode}"
    return spent() - before, passed, ran.stdout


def instructions(words, limit):
    """How many instructions a run takes outside the system's own calls, by callgrind of valgrind: those of the program
    alone, without the programs that it starts. Nothing where valgrind is missing, or the run fails or takes more than
    ten times the limit, since it is some fifty times as slow."""
    if not shutil.which("valgrind"):
        return None
    words = ["valgrind", "--tool=callgrind", f"--callgrind-out-file={os.devnull}", *words]
    try:
        ran = subprocess.run(words, capture_output=True, timeout=10 * limit, check=False)
    except subprocess.TimeoutExpired:
        return None
    found = re.search(rb"Collected : (\d+)", ran.stderr)
    return int(found[1]) if found and not ran.returncode else None


def resident(number):
    """The most memory of a process up to now in KiB, or 0 where it is gone. What wait tells is no less than the
    memory of this script itself."""
    try:
        with open(f"/proc/{number}/status", encoding="ascii") as it:
            return max([int(line.split()[1]) for line in it if line.startswith("VmHWM:")], default=0)
    except OSError:
        return 0


def sum_of(path):
    """A sum over the bytes of a file, and their number."""
    found, length = 0, 0
    with open(path, "rb") as it:
        while some := it.read(65_536):
            found, length = zlib.crc32(some, found), length + len(some)
    return found, length
