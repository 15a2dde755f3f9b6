"""Reads the JSON of the command `milestarling` and watches its progress on a terminal: python3 tests/command.py MILESTARLING"""

import json
import os
import pty
import subprocess
import sys
import tempfile

MILESTARLING = sys.argv[1]


def document(*words):
    """What a call writes for programs."""
    return json.loads(subprocess.run([MILESTARLING, *words, "--json"], capture_output=True, text=True, check=False).stdout)


def check_json():
    words = document("word", "f9400420", "91000000", "4c407000")
    assert [word["answer"] for word in words] == [0, 2, 2]
    assert [word["touches_memory"] for word in words] == [True, False, True]
    assert document("text", words[0]["text"]) == words[:1]

    login, plugins, wrong = document("run", "examples/login.case", "examples/plugins.case", "examples")["files"]
    assert (login["answer"], len(login["steps"]), login["steps"][1]["code"]) == (5, 2, 65)
    values = {register["name"]: register["value"] for register in login["registers"]}
    assert values["x2"] == "0x00000000000000**"
    memory = login["memory"]["bytes"]
    assert len(memory) == 2 * 32 and memory.startswith("**" * 8)
    assert [turn["answer"] for turn in plugins["turns"]] == [0, 8, 12, 0, 12]
    assert "read: " in wrong["error"]

    why = document("why", "examples/login.case")
    assert why["refused"]["word"] == "386268a4"
    [trail] = why["trails"]
    assert trail[0]["copied"]["from"] == trail[1]["place"] == {"address": "0x1000"}
    assert trail[1]["copied"] is None

    [listed] = document("list", "examples/login.bin")["files"]
    assert listed["lines"][0]["word"] == "a9be7bfd"
    assert document("check", "examples/login.bin")["files"]


def check_progress():
    """A file that takes more than a second is told of on a terminal, with its length."""
    with tempfile.NamedTemporaryFile() as image:
        image.truncate(8 << 30)
        ours, theirs = pty.openpty()
        child = subprocess.Popen([MILESTARLING, "list", image.name], stdout=subprocess.DEVNULL, stderr=theirs)
        os.close(theirs)
        said = b""
        while b" MiB" not in said:
            said += os.read(ours, 100)
        child.kill()
        child.wait()
        os.close(ours)
    assert said.startswith(b"\rmilestarling: ") and b" of 8192 MiB" in said, said


check_json()
check_progress()
