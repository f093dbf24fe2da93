"""The kit's command `rt` as a module, for what ./build and ./telegate need beyond its words: crates
proved side by side in one checkout, and a program that is compiled with no proof and kept.
"""
import hashlib
import importlib.machinery
import importlib.util
import os
import shutil
import subprocess
import sys

TOP = os.path.dirname(os.path.dirname(os.path.abspath(__file__)))
PROGRAM = os.path.join(TOP, "crates", "telegate")
# What of it is called here, in ./build and in tools/unproved.py.
CALLED = ("in_lanes", "need")
CALLED_BELOW = ("Crate", "KIT", "guarded", "kit_sources", "lock", "stop_on_links")

sys.dont_write_bytecode = True


class Lacking(Exception):
    """The kit isn't there, or isn't one that this repository knows."""


def load():
    """The module of the `rt` that is on the path."""
    found = shutil.which("rt")
    if not found:
        raise Lacking("the command rt isn't on the path: README.md says what it takes to build")
    file = os.path.realpath(found)
    loader = importlib.machinery.SourceFileLoader("kit_rt", file)
    module = importlib.util.module_from_spec(importlib.util.spec_from_loader("kit_rt", loader))
    try:
        loader.exec_module(module)
        lacking = [name for name in CALLED if not hasattr(module, name)]
        lacking += [name for name in CALLED_BELOW if not hasattr(module.rtlib, name)]
    except (SyntaxError, UnicodeDecodeError, AttributeError) as error:
        raise Lacking(f"{file} is no rt that this repository knows ({error})") from error
    if lacking:
        raise Lacking(f"{file} is of another kit: it lacks {', '.join(lacking)}")
    return module


def program(rt):
    """The crate of the program, with those below it, as crates.txt has them."""
    return rt.rtlib.Crate(PROGRAM, TOP, {})


def git(*words):
    """What git says of this repository, or nothing."""
    if not shutil.which("git"):
        return ""
    ran = subprocess.run(["git", "-C", TOP, *words], capture_output=True, text=True)
    return ran.stdout.strip() if ran.returncode == 0 else ""


class Commit:
    """The commit that is checked out as a program begins to be compiled."""

    def __init__(self):
        self.name, self.moment = git("log", "-1", "--format=%h %ct").split() or ("", "")
        self.has_changes = self.is_left()

    def is_left(self):
        """Whether the crates differ from it by now, whatever is checked out."""
        crates = ("--", "crates", "crates.txt")
        differs = self.name and git("diff", "--name-only", self.name, *crates)
        return bool(differs or git("ls-files", "--others", "--exclude-standard", *crates))


def note(program, commit, is_proved, more=""):
    """Writes how a program was made to a file beside it, for tools/origin."""
    told, moment = f"proved by {identity()}" if is_proved else "unproved", ""
    if commit.name:
        # A source may have changed meanwhile.
        has_changes = commit.has_changes or commit.is_left()
        told += f", commit {commit.name}{' with changes' if has_changes else ''}"
        moment = f"moment {commit.moment}\n"
    with open(program, "rb") as file:
        sha256 = hashlib.sha256(file.read()).hexdigest()
    with open(f"{program}.{'' if is_proved else 'un'}proved", "w", encoding="utf-8") as file:
        file.write(f"{told}\n{moment}sha256 {sha256}\n{more}")


def identity():
    """The name of the kit."""
    ran = subprocess.run(["rt", "version"], capture_output=True, text=True, check=True)
    return ran.stdout.split()[0]
