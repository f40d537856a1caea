"""What swimsim tells of bytes that are nearly a datagram: the first fault, or the message that they are, in words."""

import subprocess

from tests.generators.forgeries import forgeries
from tests.models.datagram_model import fault_of, in_words
from tests.swimsim.cases import SECONDS

HEAD = b"open 7 0 1 3 0 1000000\n"


def with_forged_datagrams(program):
    """Each has its first fault, or its words and an answer, behind which stands what is sent."""
    texts = forgeries()
    script = HEAD + b"".join(b"hear 10.0.0.1:7000 %s\n" % it.hex().encode() for it in texts)
    ran = subprocess.run([program, "--decode"], input=script, capture_output=True, timeout=SECONDS)
    said, lines = [], iter(ran.stdout.decode().splitlines())
    line = next(lines, None)
    for text in texts:
        fault = fault_of(text)
        wanted = f"wire {fault}" if fault else in_words(text)
        said += [] if line == wanted else [f"{text.hex()} is told as {line!r}, and not {wanted!r}"]
        line = next(lines, None)
        if not fault:
            said += [] if line and not line.startswith(("wire", " ", ">")) else [f"{text.hex()} is answered {line!r}"]
            line = next(lines, None)
            while line and line.startswith(">"):
                line = [next(lines, None), next(lines, None)][1]
    said += [f"there is {line!r} behind them"] if line is not None else []
    return said[:20] + ([f"status {ran.returncode}, {ran.stderr[:200]!r}"] if ran.returncode or ran.stderr else [])
