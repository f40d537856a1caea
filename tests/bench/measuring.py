"""What a run of a program costs: processor time, the time that passes, memory and instructions. What a daemon's pings
take."""

import filecmp
import os
import re
import subprocess
import time
from typing import NamedTuple


class Cost(NamedTuple):
    # Of processors, and those that passed.
    seconds: float
    passed: float
    peak_bytes: int


class BenchFault(Exception):
    pass


def run(words, script=os.devnull, output=os.devnull):
    """Runs a program on a script, and says what it cost. The child's own resources are asked for."""
    with open(script, "rb") as source, open(output, "wb") as sink:
        start = time.perf_counter()
        child = subprocess.Popen(words, stdin=source, stdout=sink)
        _, status, usage = os.wait4(child.pid, 0)
        passed = time.perf_counter() - start
        child.returncode = os.waitstatus_to_exitcode(status) if hasattr(os, "waitstatus_to_exitcode") else status
    if child.returncode:
        raise BenchFault(f"{' '.join(words)} ended with status {child.returncode} on {os.path.basename(script)}")
    return Cost(usage.ru_utime + usage.ru_stime, passed, usage.ru_maxrss * 1024)


def pinged(pinger, address, window, count, made=()):
    """Seconds that so many pings of member 1 took, those in a file that were made before if it is given. One sender
    can't keep the least responder busy, two can."""
    words = [pinger, address, "1", str(window), str(count), "1" if window == 1 else "2", *made]
    ran = subprocess.run(words, capture_output=True, text=True, timeout=300)
    if ran.returncode:
        raise BenchFault(f"the pinger ended with status {ran.returncode}: {ran.stderr}")
    seconds, lost = ran.stdout.split()
    if int(lost) > count // 100:
        raise BenchFault(f"{lost} of {count} pings were not answered")
    return float(seconds)


def least(runs, rounds):
    """The least costs of each run, which is a program's words and a script, if it reads one. They take turns, and so
    share what else goes on."""
    costs = [[run(*it) for it in runs] for _ in range(rounds)]
    return [Cost(*(min(kind) for kind in zip(*(turn[place] for turn in costs)))) for place in range(len(runs))]


def must_agree(programs, script, folder):
    """All programs write the same answers to the script."""
    outputs = [f"{folder}/{place}.stdout" for place in range(len(programs))]
    for words, output in zip(programs, outputs):
        run(words, script, output)
    if not all(filecmp.cmp(outputs[0], output, shallow=False) for output in outputs[1:]):
        raise BenchFault(f"swimsim and the reference write different answers to {os.path.basename(script)}")
    for output in outputs:
        os.remove(output)


# By itself the C library copies and clears by what the processor at hand has, and a count is that processor's.
PLAIN_COPIES = ["env", "GLIBC_TUNABLES=glibc.cpu.hwcaps=-AVX,-AVX2,-AVX512F,-AVX512VL,-AVX512BW,-BMI2,-ERMS,-FSRM"]
VALGRIND = [*PLAIN_COPIES, "valgrind", "--tool=callgrind"]
COLLECTED = re.compile(r"Collected : (\d+)")


def instructions(words, script):
    """The instructions that a program takes on a script, counted by valgrind."""
    command = [*VALGRIND, "--callgrind-out-file=/dev/null", *words]
    with open(script, "rb") as source:
        ran = subprocess.run(command, stdin=source, stdout=subprocess.DEVNULL, stderr=subprocess.PIPE, text=True)
    found = COLLECTED.search(ran.stderr)
    if ran.returncode or not found:
        raise BenchFault(f"valgrind counted no instructions of {words[0]}")
    return int(found[1])
