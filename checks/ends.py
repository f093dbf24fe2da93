"""The parts that scripts over a running process share: the two ends of a live run, which are the
outstations behind a line and a control centre; and libraries in front of the C library's.
"""
import os
import random
import shutil
import socket
import subprocess
import tempfile
import threading
import time

from frame import Skipped

START = bytes.fromhex("680407000000")
STARTED = bytes.fromhex("68040B000000")
TEST = bytes.fromhex("680443000000")
TESTED = bytes.fromhex("680483000000")

# How long an end waits for what must come, in seconds.
PATIENCE = 20


def fixed(control, address):
    """A line frame of fixed length, with an address of one octet."""
    return bytes([0x10, control, address, (control + address) % 256, 0x16])


def data(control, address, asdu):
    """A line frame of variable length, with an address of one octet."""
    user = bytes([control, address]) + asdu
    return bytes([0x68, len(user), len(user), 0x68]) + user + bytes([sum(user) % 256, 0x16])


# Ports below those that the system gives to connections that go out: none of these takes one of them
# between the moment at which it is found free and the one at which it is used.
PORTS = range(12000, 32000)

# By a datagram socket of its number a port is kept from other scripts as long as this one runs, also
# while nobody listens there.
kept = []


def free_port():
    """A port of the loopback at which nothing listens. No port is given twice, by whatever script."""
    while True:
        port, keeper = random.choice(PORTS), socket.socket(socket.AF_INET, socket.SOCK_DGRAM)
        try:
            keeper.bind(("127.0.0.1", port))
            with socket.create_server(("127.0.0.1", port)):
                kept.append(keeper)
                return port
        except OSError:
            keeper.close()


def library(folder, name, source):
    """A library of this C text, in this folder. Without a C compiler the part is skipped."""
    compiler = next(filter(None, map(shutil.which, ("cc", "gcc", "clang"))), None)
    if compiler is None:
        raise Skipped("there is no C compiler")
    text, made = os.path.join(folder, f"{name}.c"), os.path.join(folder, f"{name}.so")
    with open(text, "w") as file:
        file.write(source)
    subprocess.run([compiler, "-O1", "-shared", "-fPIC", "-o", made, text, "-ldl"], check=True)
    return made


class Run:
    """`telegate run` over settings of which [live] is still missing, with its line and its listener on the loopback."""

    def __init__(self, program, settings, environment=None, line_server=None, words=(), log=subprocess.PIPE):
        self.server = line_server or socket.create_server(("127.0.0.1", 0))
        self.server.settimeout(PATIENCE)
        self.listener = ("127.0.0.1", free_port())
        line = "tcp:{}:{}".format(*self.server.getsockname())
        with tempfile.NamedTemporaryFile("w", suffix=".toml", delete=False) as file:
            file.write(f'{settings}[live]\nline = "{line}"\nlisten = "{self.listener[0]}:{self.listener[1]}"\n')
        self.config = file.name
        self.process = subprocess.Popen(
            [program, "run", *words, self.config], stdin=subprocess.DEVNULL, stderr=log, env=environment
        )
        self.line = Line(self.server.accept()[0])

    def __enter__(self):
        return self

    def __exit__(self, *_):
        self.process.kill()
        self.process.wait()
        if self.process.stderr:
            self.process.stderr.close()
        self.line.stream.close()
        self.server.close()
        os.remove(self.config)

    def centre(self):
        """A control centre's connection, as soon as the gateway listens."""
        end = time.monotonic() + PATIENCE
        while True:
            try:
                return Centre(socket.create_connection(self.listener, timeout=PATIENCE))
            except ConnectionRefusedError:
                if self.process.poll() is not None or time.monotonic() > end:
                    raise
                time.sleep(0.02)

    def ended(self):
        """Closes the line, and answers the exit status and what stood on standard error."""
        self.line.stream.close()
        said = self.process.communicate(timeout=PATIENCE)[1] or b""
        return self.process.returncode, said.decode()


class Line:
    """The gateway's requests, a frame at a time, and the way back."""

    def __init__(self, stream):
        stream.settimeout(PATIENCE)
        stream.setsockopt(socket.IPPROTO_TCP, socket.TCP_NODELAY, 1)
        self.stream = stream

    def request(self):
        """The next request: its function, its address, and its octets."""
        head = self.exactly(2)
        frame = head + self.exactly(3 if head[0] == 0x10 else head[1] + 4)
        control = frame[1] if frame[0] == 0x10 else frame[4]
        address = frame[2] if frame[0] == 0x10 else frame[5]
        return control % 16, address, frame

    def exactly(self, count):
        octets = b""
        while len(octets) < count:
            piece = self.stream.recv(count - len(octets))
            if not piece:
                raise EOFError("the gateway closed the line")
            octets += piece
        return octets

    def answer(self, octets):
        self.stream.sendall(octets)


class Centre:
    """A control centre on one connection: it takes what has come, and counts the I frames."""

    def __init__(self, stream):
        stream.setsockopt(socket.IPPROTO_TCP, socket.TCP_NODELAY, 1)
        self.stream = stream
        self.octets = b""
        self.received = 0
        self.sent = 0
        # Held while a frame is made and sent, where another thread acknowledges: a count that is older than
        # one that was sent before would be a wrong N(R), and the gateway closes for it.
        self.numbers = threading.Lock()

    def send(self, octets):
        self.stream.sendall(octets)

    def acknowledge(self):
        self.send(bytes([0x68, 4, 1, 0]) + self.number(self.received))

    def command(self, *asdus):
        """Sends an I frame with each of these, all in one piece."""
        with self.numbers:
            frames = [
                bytes([0x68, len(asdu) + 4]) + self.number(self.sent + at) + self.number(self.received) + asdu
                for at, asdu in enumerate(asdus)
            ]
            self.send(b"".join(frames))
            self.sent += len(asdus)

    @staticmethod
    def number(count):
        return (count % 32768 * 2).to_bytes(2, "little")

    def heard(self, seconds=0.0):
        """The APDUs that have come by now, or within so many seconds if none has; None once the gateway has closed."""
        self.stream.settimeout(seconds or 1e-6)
        try:
            while piece := self.stream.recv(65536):
                self.octets += piece
                self.stream.settimeout(1e-6)
            return None
        except (TimeoutError, BlockingIOError):
            pass
        except ConnectionError:
            return None
        apdus = []
        while len(self.octets) > 1 and len(self.octets) >= self.octets[1] + 2:
            size = self.octets[1] + 2
            apdus.append(self.octets[:size])
            self.octets = self.octets[size:]
        self.received += sum(1 for apdu in apdus if apdu[2] % 2 == 0)
        return apdus
