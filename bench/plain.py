"""The plain Rust program of bench/plain, which the scripts measure and compare telegate with."""
import os
import shutil
import subprocess

SOURCE = os.path.join(os.path.dirname(os.path.abspath(__file__)), "plain", "main.rs")


def built(folder):
    """The program, compiled into this folder; None where there is no rustc."""
    compiler = shutil.which("rustc")
    if compiler is None:
        return None
    program = os.path.join(folder, "plain")
    subprocess.run([compiler, "--edition", "2024", "-O", "-o", program, SOURCE], check=True)
    return program
