"""`swimd web`: the commands on the page about a verdict, pasted into a shell, whatever the file is called."""

import html
import os
import re
import shutil
import subprocess

from tests.support.daemons import must
from tests.support.web_servers import WebServer
from tests.swimd.daemon_web import judged_and_ended, must_answer, must_have_picture

COMMANDS = re.compile(r"<h2>By hand</h2>\n<pre>(.*?)\n</pre>\n", re.DOTALL)
# A shell in which `swimsim` is the built one, and the commands.
SHELL = 'swimsim() { "$SIMULATOR" "$@"; }\n'
# Folders whose names a shell reads otherwise, or a program takes for an option.
FOLDERS = ["it's", "''", "a b", "$HOME", "`ls`;&|", '"\\', "two\nlines", "*?[a]~#!{1,2}", "\u00e9", "-h", "-", "-it's"]


def must_be_pasted(machine, text, path):
    """The commands on the page of a verdict, pasted into a shell, verify the file of this path and draw the picture."""
    found = COMMANDS.search(text)
    must(found, f"the page has no commands: {text[-500:]}")
    commands = html.unescape(found[1])
    how = {"cwd": machine.folder, "stdin": subprocess.DEVNULL, "capture_output": True, "timeout": 20}
    picture = f"{machine.folder}/run.svg"
    if os.path.exists(picture):
        os.remove(picture)
    pasted = subprocess.run(["sh", "-c", SHELL + commands], env={**os.environ, "SIMULATOR": machine.simulator}, **how)
    verified = subprocess.run([machine.simulator, "--verify", path], **how)
    must(verified.returncode == 0 and verified.stdout, f"{path} is verified as {verified!r}")
    must(pasted.stdout.startswith(verified.stdout) and pasted.stderr == b"", f"{commands!r} is {pasted!r}")
    must_have_picture(machine, text)


def commands_can_be_pasted(machine):
    """Whatever the folder of the journal is called."""
    daemon, file, number = judged_and_ended(machine)
    for name in FOLDERS:
        os.makedirs(f"{machine.folder}/{name}")
        shutil.copy(file.path, f"{machine.folder}/{name}/1-5-0.swim")
        with WebServer(machine, daemon.control, f"--journals={name}", cwd=machine.folder) as web:
            text = must_answer(web, f"/verdicts/2/{number}", 200).body.decode()
        must_be_pasted(machine, text, f"./{name}/1-5-0.swim" if name.startswith("-") else f"{name}/1-5-0.swim")


PASTED = [commands_can_be_pasted]
