#!/usr/bin/env python3
"""Shows `telegate run` live, between outstations that `telegate stations` plays and a control centre that `telegate centre` is.

    ./build && python3 examples/live/try.py

It starts `./telegate stations examples/live/config.toml examples/live/outstation.script`, then `./telegate run --log
examples/live/config.toml`, and twice `./telegate centre 127.0.0.1:24104`. It ends when the gateway does. A report goes through and isn't
acknowledged; after a cut it comes again; a command goes down, and its confirmation and its termination come back; at last the
outstation is ended, and the gateway ends with `device failed` and status 3. A program behind the script's name runs in place of
`./telegate`.
"""
import os
import subprocess
import sys

ROOT = os.path.dirname(os.path.dirname(os.path.dirname(os.path.abspath(__file__))))
HERE = os.path.join(ROOT, "examples/live")
PROGRAM = sys.argv[1] if len(sys.argv) > 1 else os.path.join(ROOT, "telegate")
LISTENER = "127.0.0.1:24104"
REPORT = "M_SP_NA_1 spontaneous  CA 1  100 = on"


def tell(text):
    print(text, flush=True)


def started(*words, **pipes):
    return subprocess.Popen([PROGRAM, *words], text=True, **pipes)


def waits(stream, text, who):
    """Prints lines up to the one that has this text."""
    for line in stream:
        tell(f"{who:10} {line.rstrip()}")
        if text in line:
            return
    raise SystemExit(f"{who} ended without: {text}")


def main():
    config = os.path.join(HERE, "config.toml")
    outstation = started("stations", config, os.path.join(HERE, "outstation.script"), stdout=subprocess.PIPE)
    gateway = watch = None
    try:
        waits(outstation.stdout, "listening", "outstation")
        gateway = started("run", "--log", config, stderr=subprocess.PIPE)
        waits(gateway.stderr, "listening", "gateway")
        watch = started("centre", LISTENER, stdout=subprocess.PIPE)
        waits(watch.stdout, REPORT, "centre")
        tell("-- cut without an acknowledgement, and connected again with a command")
        watch.kill()
        centre = started("centre", LISTENER, "execute", "1/200", "on", stdout=subprocess.PIPE)
        waits(centre.stdout, REPORT, "centre")
        waits(centre.stdout, "confirmed and terminated", "centre")
        tell("-- the outstation is ended")
        outstation.kill()
        waits(gateway.stderr, "device failed", "gateway")
        tell(f"-- the gateway ended with status {gateway.wait(timeout=10)}")
        if (centre.wait(timeout=10), gateway.returncode) != (0, 3):
            raise SystemExit("not as it should be")
    finally:
        for process in (outstation, gateway, watch):
            if process:
                process.kill()


if __name__ == "__main__":
    main()
