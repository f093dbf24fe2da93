#!/usr/bin/env python3
"""Runs each command of README.md as it stands there, and compares what it prints and its exit
status with checks/readme.txt.

    checks/readme.py [--program FILE] [--only NAME]

A command is a line of a code block that begins with `./telegate`, up to a comment. For each command
checks/readme.txt has a line `$ COMMAND`, what it prints, worked out by hand, and its exit status in
brackets. A line `...` there stands for any lines. A command of README.md that isn't there is a
failure.

`run`, `stations` and `centre` don't end by themselves. For `run` the script runs README's `python3
examples/live/try.py`, which has to end with 0; checks/centre.py has all three. With `--program` it
runs that file in place of `./telegate`, and hands it to the other one.

Of the commands that build, test, pack and install, it tries that `--help` prints help, that wrong
words end with 2 and one line on standard error, and that neither does anything.
"""
import os
import re
import shlex
import subprocess

import frame

LIVE = "python3 examples/live/try.py"
LASTING = ("./telegate run", "./telegate stations", "./telegate centre")
TOOLS = ("build", "test", "packaging/deb", "packaging/install.sh")


def commands_of(text):
    """The commands of the code blocks, without comments, each once."""
    found = []
    for block in re.findall(r"^```[^\n]*\n(.*?)^```", text, re.M | re.S):
        for line in block.splitlines():
            for command in re.split(r"&&", re.sub(r"\s+#.*", "", line)):
                command = command.strip()
                ends = command.startswith("./telegate") and not command.startswith(LASTING)
                if (ends or command == LIVE) and command not in found:
                    found.append(command)
    return found


def read_transcript(text):
    """What has to be printed, and the exit status, by command."""
    wanted = {}
    for part in re.split(r"^\$ ", text, flags=re.M)[1:]:
        command, _, rest = part.partition("\n")
        found = re.fullmatch(r"(.*)\[(\d+)\]\n*", rest, re.S)
        if not found:
            raise ValueError(f"no exit status after: {command}")
        wanted[command] = found[1], int(found[2])
    return wanted


def is_as_wanted(printed, wanted):
    """Whether the text is the one that is wanted, in which a line `...` stands for any lines."""
    parts = [re.escape(part) for part in re.split(r"^\.\.\.\n", wanted, flags=re.M)]
    return re.fullmatch(r"(?:.*\n)*?".join(parts), printed) is not None


def run(command, program):
    words = shlex.split(command)
    if words[0] == "./telegate" and program:
        words[0] = os.path.abspath(program)
    elif program:
        words.append(os.path.abspath(program))
    return subprocess.run(words, cwd=frame.TOP, stdin=subprocess.DEVNULL, capture_output=True, text=True, timeout=300)


def commands(count, _program, _folder):
    """Each command of README.md prints what is written for it."""
    with open(os.path.join(frame.TOP, "README.md")) as file:
        found = commands_of(file.read())
    with open(os.path.join(frame.HERE, "readme.txt")) as file:
        wanted = read_transcript(file.read())
    for command in filter(count.wants, found):
        text, status = wanted.get(command, (None, None))
        if text is None:
            count.judge(command, False, "checks/readme.txt doesn't have it")
        else:
            done = run(command, count.options.program)
            holds = done.returncode == status and is_as_wanted(done.stdout, text)
            count.judge(command, holds, f"status {done.returncode}\n{done.stdout}{done.stderr}")
    # A README without commands would pass for want of any.
    if len(found) < 5:
        count.judge("README.md", False, f"it has {len(found)} commands")


def tools(count, _program, folder):
    """The other commands of README.md tell what they do, or refuse words, and do nothing else."""
    elsewhere = {**os.environ, "DESTDIR": folder, "TELEGATE_PROGRAM": "/bin/true"}
    for name in TOOLS:
        for words, status in (("--help", 0), ("--bogus", 2), ("--help --bogus", 2), ("nowhere nowhere", 2)):
            called = [os.path.join(frame.TOP, name), *words.split()]
            how = {"env": elsewhere, "stdin": subprocess.DEVNULL, "capture_output": True, "text": True}
            done = subprocess.run(called, cwd=folder, timeout=60, **how)
            lines = len(done.stdout.splitlines()), len(done.stderr.splitlines())
            holds = lines[0] > 5 and lines[1] == 0 if status == 0 else lines == (0, 1)
            holds = holds and done.returncode == status and not os.listdir(folder)
            count.judge(f"{name} {words}", holds, done)


if __name__ == "__main__":
    frame.main(commands, tools, needs_program=False)
