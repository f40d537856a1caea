"""Installs the built swimsim and swimd below a temporary folder and removes them again, and looks what lies where.
Where `groff` is at hand the man pages are also set, and where `systemd-analyze` is, the service is read. Each test gets
the programs by name, and a folder of its own."""

import glob
import os
import re
import shutil
import subprocess
import tempfile

from tests.support.parts import TOP, content, leave_out
from tests.swimd.worked_configs import FULL

SECONDS = 60
SERVICES = {f"lib/systemd/system/{name}": f"{TOP}/contrib/{name}" for name in ("swimd.service", "swimd-web.service")}
DOCUMENTS = ["OPERATING.md", "CHECKING.md", "FORMATS.md", "PROTOCOL.md", "healing.svg", "trace.svg"]
# Files that the examples in documents make.
MADE = ["run.svg", "probe.svg"]
# A document that another one names, as one that lies beside it.
NAMED = re.compile(r"(?<![/\w])(\w+\.(?:md|svg))\b")


def make(programs, target, **variables):
    words = [
        "make", "--no-print-directory", "-C", TOP, target, *(f"{name.upper()}={it}" for name, it in programs.items())
    ]
    words += [f"{name}={value}" for name, value in {"DESTDIR": "", **variables}.items()]
    # What another make, which runs this test, was given is none of its business.
    clean = {name: value for name, value in os.environ.items() if not name.startswith("MAKE")}
    ran = subprocess.run(words, stdout=subprocess.PIPE, stderr=subprocess.STDOUT, env=clean, timeout=SECONDS)
    return [f"make {target} ended with status {ran.returncode}: {ran.stdout.decode()}"] if ran.returncode else []


def files(folder):
    return sorted(os.path.relpath(f"{at}/{name}", folder) for at, _, names in os.walk(folder) for name in names)


def origins(programs):
    """Where each file has to lie below PREFIX, what it is a copy of, and its mode."""
    for name, program in programs.items():
        yield f"bin/{name}", program, 0o755
        yield f"share/man/man1/{name}.1", f"{TOP}/man/{name}.1", 0o644
    for name in (it.name for it in os.scandir(f"{TOP}/examples") if it.is_file()):
        owner = "swimd" if name.endswith(".toml") else "swimsim"
        yield f"share/doc/{owner}/examples/{name}", f"{TOP}/examples/{name}", 0o644
    for name in DOCUMENTS:
        yield f"share/doc/swimd/{name}", f"{TOP}/docs/{name}", 0o644
    for path, origin in SERVICES.items():
        yield path, origin, 0o644


def misplaced(programs, below, prefix=None):
    """What isn't as it has to be below a folder, in which the program is to be found at PREFIX."""
    wanted = {path: (origin, mode) for path, origin, mode in origins(programs)}
    said = [f"{path} lies below PREFIX" for path in files(below) if path not in wanted]
    for path, (origin, mode) in wanted.items():
        text = content(origin)
        if path in SERVICES:
            text = text.replace(b"/usr/local/bin/", f"{prefix or below}/bin/".encode())
        if not os.path.exists(f"{below}/{path}"):
            said.append(f"{path} is missing")
        elif content(f"{below}/{path}") != text:
            said.append(f"{path} isn't what {origin} is")
        elif os.stat(f"{below}/{path}").st_mode & 0o777 != mode:
            said.append(f"{path} has not the mode {mode:o}")
    return said


def played(words, text, wanted):
    ran = subprocess.run(words, input=text, capture_output=True, timeout=SECONDS)
    return [] if (ran.stdout, ran.stderr, ran.returncode) == (wanted, b"", 0) else [
        f"it writes {ran.stdout + ran.stderr!r}"
    ]


def installs(programs, prefix):
    return make(programs, "install", PREFIX=prefix) + misplaced(programs, prefix)


def installs_twice(programs, prefix):
    return make(programs, "install", PREFIX=prefix) + installs(programs, prefix)


def what_is_installed_runs(programs, prefix):
    said = make(programs, "install", PREFIX=prefix)
    example = f"{prefix}/share/doc/swimsim/examples/first"
    said += played([f"{prefix}/bin/swimsim"], content(f"{example}.swim"), content(f"{example}.stdout"))
    for path in glob.glob(f"{glob.escape(prefix)}/share/doc/swimd/examples/*.toml"):
        ran = subprocess.run(
            [f"{prefix}/bin/swimd", "check"], input=content(path), capture_output=True, timeout=SECONDS
        )
        said += [f"swimd check writes {ran.stderr!r} for {path}"] if ran.returncode else []
    return said


def documents_name_those_beside_them(_programs, _prefix):
    """Whoever reads an installed document finds the others that it names."""
    named = {it: NAMED.findall(content(f"{TOP}/docs/{it}").decode()) for it in DOCUMENTS if it.endswith(".md")}
    return [
        f"{name} names {other}" for name, others in named.items() for other in {*others}.difference(DOCUMENTS, MADE)
    ]


def is_staged(programs, prefix):
    return make(programs, "install", DESTDIR=prefix, PREFIX="/usr") + misplaced(programs, f"{prefix}/usr", "/usr")


def uninstall_leaves_nothing(programs, prefix):
    """No file, and no folder of its own; what others put there stays."""
    others = ["bin/another", "share/doc/another/README"]
    for other in others:
        os.makedirs(os.path.dirname(f"{prefix}/{other}"))
        open(f"{prefix}/{other}", "w").close()
    said = make(programs, "install", PREFIX=prefix) + make(programs, "uninstall", PREFIX=prefix)
    said += [f"{path} is left" for path in files(prefix) if path not in others]
    said += [f"{path} is gone" for path in others if not os.path.exists(f"{prefix}/{path}")]
    return said + [f"share/doc/{it} is left" for it in programs if os.path.exists(f"{prefix}/share/doc/{it}")]


def uninstalls_where_nothing_is(programs, prefix):
    return make(programs, "uninstall", PREFIX=prefix) + [f"{path} lies there" for path in files(prefix)]


def pages_are_set_without_a_warning(programs, _prefix):
    said = []
    if not shutil.which("groff"):
        leave_out("groff is not on PATH, so no man page was set")
        return said
    for name in programs:
        words = ["groff", "-man", "-Tutf8", "-ww", "-z", f"{TOP}/man/{name}.1"]
        ran = subprocess.run(words, capture_output=True, text=True, timeout=SECONDS)
        said += [ran.stderr] if ran.returncode or ran.stderr else []
    return said


def the_example_of_swimsim_is_right(programs, _prefix):
    page = content(f"{TOP}/man/swimsim.1").decode()
    found = re.search(r"^\$ swimsim << END\n(.*?)^END\n(.*?)^\.RE", page, re.DOTALL | re.MULTILINE)
    if not found:
        return ["its page has none"]
    script, wanted = (re.sub(r"\\(?:&|(?=-))", "", text).encode() for text in found.groups())
    return played([programs["swimsim"]], script, wanted)


def the_summary_in_the_page_of_swimd_is_right(programs, _prefix):
    """It is that of the configuration which was worked out by hand."""
    found = re.search(rb"^\.RS\n(id .*?)^\.RE", content(f"{TOP}/man/swimd.1"), re.DOTALL | re.MULTILINE)
    if not found:
        return ["its page has none"]
    ran = subprocess.run([programs["swimd"], "check"], input=FULL.encode(), capture_output=True, timeout=SECONDS)
    return [] if (ran.stdout, ran.returncode) == (found[1], 0) else [f"it writes {ran.stdout!r}"]


def drop_ins():
    """The lines that docs/OPERATING.md has for a service, by the paths that it gives them."""
    text = content(f"{TOP}/docs/OPERATING.md").decode()
    for found in re.finditer(r"/(swimd(?:-web)?\.service\.d/\w+\.conf)\b", text):
        lines = re.search(r"(?m)(?:^    .*\n)+", text[found.end() :])
        yield found[1], lines[0].replace("    ", "")


def the_service_is_read_without_a_warning(programs, _prefix):
    """With the lines that docs/OPERATING.md has for it, too. A path of a service has no space in it."""
    if not shutil.which("systemd-analyze"):
        leave_out("systemd-analyze is not on PATH, so the service was not read")
        return []
    with tempfile.TemporaryDirectory(prefix="swimd-install-") as prefix:
        said = make(programs, "install", PREFIX=prefix)
        for name, lines in drop_ins():
            path = f"{prefix}/lib/systemd/system/{name}"
            os.makedirs(os.path.dirname(path), exist_ok=True)
            with open(path, "w", encoding="utf-8") as file:
                file.write(lines.replace("/usr/local", prefix))
        words = ["systemd-analyze", "verify", "--man=no", *(f"{prefix}/{it}" for it in SERVICES)]
        ran = subprocess.run(words, capture_output=True, text=True, timeout=SECONDS)
    return said + ([ran.stderr or "it is refused"] if ran.returncode or ran.stderr else [])


INSTALLING = [
    installs,
    installs_twice,
    what_is_installed_runs,
    documents_name_those_beside_them,
    is_staged,
    uninstall_leaves_nothing,
    uninstalls_where_nothing_is,
    pages_are_set_without_a_warning,
    the_example_of_swimsim_is_right,
    the_summary_in_the_page_of_swimd_is_right,
    the_service_is_read_without_a_warning,
]
