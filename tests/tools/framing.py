"""What tests/bench/frames looks at. `objdump` is a stand-in that shows a program's functions out of a file."""

import re

from tests.support.parts import TOP, content
from tests.tools.copies import Copy, unlike

STAND_IN = '#!/bin/sh\ncat "$LISTING"\n'
# The functions where threads begin.
BEGINNINGS = ["main", "std::thread::builder::start thread called by C", "core::scope::entry thread called by C"]
NOT_FOUND = re.compile(r"^  not found: (.*)$", re.MULTILINE)
DEPTH = re.compile(r"^ +([\d,]+) of [\d,]+ bytes: (?:the first thread|the program|a worker)$", re.MULTILINE)


def with_frames(folder):
    copy = Copy(folder)
    copy.put_file("tests/bench/frames", content(f"{TOP}/tests/bench/frames").decode(), mode=0o755)
    copy.put("objdump", STAND_IN)
    copy.variables = {"LISTING": f"{copy.top}/listing"}
    return copy


# What takes 128 bytes off the stack pointer, and gives them back; and more bytes than any function may have.
TAKE, GIVE = "add    $0xffffffffffffff80,%rsp", "sub    $0xffffffffffffff80,%rsp"
TOO_MANY = 524_288


def shown(name, frame):
    """A function, as objdump shows it: what it takes off the stack pointer is its frame. A frame may be given by its
    instructions."""
    lines = frame if isinstance(frame, list) else [f"sub    $0x{frame:x},%rsp", f"add    $0x{frame:x},%rsp"]
    return f"0000000000001000 <{name}>:\n" + "".join(f"    1000:\t{it}\n" for it in lines)


def looked(copy, functions, wanted=NOT_FOUND):
    """The status where a program has these functions, and which others are missed, or what else is wanted."""
    copy.put_file("listing", "".join(shown(*it) for it in functions.items()))
    ran = copy.run("tests/bench/frames", "swimd")
    return ran.returncode, wanted.findall(ran.stdout)


def a_function_that_is_not_found_fails(_programs, folder):
    """Nothing fails where each function with a limit is there and small. One that has another name fails, and one with
    a large frame does."""
    copy, beginnings = with_frames(folder), dict.fromkeys(BEGINNINGS, 8)
    status, missed = looked(copy, beginnings)
    if not missed:
        return ["no function is missed"]
    named = [f"{it}of" if it.endswith("::") else it for it in missed]
    whole, first = {**beginnings, **dict.fromkeys(named, 8)}, named[0]
    renamed = {f"other::{it}" if it == first else it: frame for it, frame in whole.items()}
    often = [TAKE] * (TOO_MANY // 128)
    return [
        *unlike("the status of none", 1, status),
        *unlike("what is said of all", (0, []), looked(copy, whole)),
        *unlike("what is said of one that is renamed", (1, missed[:1]), looked(copy, renamed)),
        *unlike("what is said of one that is large", (1, []), looked(copy, {**whole, first: TOO_MANY})),
        *unlike("what is said of one that takes 128", (0, []), looked(copy, {**whole, first: [TAKE, GIVE]})),
        *unlike("what is said of one that takes it often", (1, []), looked(copy, {**whole, first: often})),
    ]


def calls_in_a_circle_count_once_each(_programs, folder):
    """Two functions that call each other count both, by whichever of them a thread comes to them."""
    first, program, worker = BEGINNINGS
    frames = {first: ["call 1000 <one>"], program: ["call 1000 <other>"], worker: ["call 1000 <last>"]}
    frames.update(one=["sub    $0x10,%rsp", "call 1000 <other>"], other=["sub    $0x20,%rsp", "call 1000 <one>"])
    frames["other"] += ["call 1000 <last>"]
    _, depths = looked(with_frames(folder), {**frames, "last": 64}, DEPTH)
    # Of each call there is where to return to.
    return unlike("how deep the threads get", [str(8 + 16 + 32 + 16 + 72)] * 2 + [str(8 + 72)], depths)


FRAMING = [a_function_that_is_not_found_fails, calls_in_a_circle_count_once_each]
