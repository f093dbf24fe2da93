"""Both ends of a live run, for the scripts beside this file: an outstation that answers on a line,
and a control centre.

They use nothing of the gateway's code. The frames are made by hand after IEC 60870-5-101 and IEC
60870-5-104. On the line link address, cause and common address have one octet, and object addresses
two.
"""
import socket
import subprocess
import tempfile
import threading
import time

TAG = bytes.fromhex("D5DD220C9D0218")  # 2024-02-29 12:34:56.789, a Thursday
# element sizes of the types that go up, without a tag and with one (IEC 60870-5-101, 7.2.6)
PLAIN = {1: 1, 3: 1, 5: 2, 7: 5, 9: 3, 11: 3, 13: 5, 15: 5}
TAGGED = {30: 1, 31: 1, 32: 2, 33: 5, 34: 3, 35: 3, 36: 5, 37: 5}
# commands, by type: the element of an execute
COMMANDS = {45: "01", 46: "02", 47: "01", 48: "00C000", 49: "641200", 100: "14"}


def fixed(control, address=1):
    return bytes([0x10, control, address, (control + address) % 256, 0x16])


def variable(user_data, control=0x08, address=1):
    user = bytes([control, address]) + user_data
    return bytes([0x68, len(user), len(user), 0x68]) + user + bytes([sum(user) % 256, 0x16])


def report(kind, objects, first, sequence=False, cause=3):
    """An ASDU of the line with so many objects, from this address on."""
    size = PLAIN.get(kind) or TAGGED[kind]
    tag = TAG if kind in TAGGED else b""
    elements = [bytes((first + n) % 4 if size == 1 else (first + n + place) % 256 for place in range(size)) + tag
                for n in range(objects)]
    head = bytes([kind, objects | (0x80 if sequence else 0), cause, 1])
    if sequence:
        return head + first.to_bytes(2, "little") + b"".join(elements)
    return head + b"".join((first + n).to_bytes(2, "little") + element for n, element in enumerate(elements))


def all_reports():
    """Reports of every type that goes up, one object and several, with single addresses and in sequence."""
    made = [bytes([70, 1, 4, 1, 0, 0, 0])]  # end of initialisation
    for kind in [*PLAIN, *TAGGED]:
        made += [report(kind, 1, 10 * kind), report(kind, 5, 100 * kind), report(kind, 4, 200 * kind, sequence=True)]
    return made


def frame_size(octets):
    """How long the frame is that begins here, as far as its octets show."""
    if octets[0] == 0x10:
        return 5
    return octets[1] + 6 if len(octets) > 1 else 2


class Outstation(threading.Thread):
    """One outstation behind two calls, `read` and `write`. What waits in `reports` is given poll by poll; a command is accepted and
    confirmed by a report. `given` counts the reports that went out, `accepted` lists the commands."""

    def __init__(self, read, write, reports):
        super().__init__(daemon=True)
        self.read, self.write, self.reports = read, write, list(reports)
        self.given, self.accepted, self.last = 0, [], (None, b"")

    def run(self):
        octets = b""
        try:
            while piece := self.read():
                octets += piece
                while octets and len(octets) >= frame_size(octets):
                    size = frame_size(octets)
                    self.write(self.answer(octets[:size]))
                    octets = octets[size:]
        except OSError:
            pass  # the line is gone, and so is the gateway

    def answer(self, frame):
        control = frame[1] if frame[0] == 0x10 else frame[4]
        if control & 0x10 and frame == self.last[0]:
            return self.last[1]
        answer = self.new_answer(control & 0x0F, frame)
        self.last = (frame, answer)
        return answer

    def new_answer(self, function, frame):
        if function == 9:
            return fixed(0x0B)
        if function in (10, 11):
            time.sleep(0.002)
            if not self.reports:
                return b"\xE5"
            self.given += 1
            return variable(self.reports.pop(0))
        if function == 3:
            asdu = frame[6:-2]
            self.accepted.append(asdu)
            self.reports.append(asdu[:2] + bytes([asdu[2] + 1]) + asdu[3:])
        return b"\xE5"


class Centre:
    """A control centre on one connection, which acknowledges each I frame."""

    def __init__(self, listener):
        self.stream = connect(listener)
        self.received, self.sent, self.asdus = 0, 0, []
        self.stream.sendall(bytes.fromhex("680407000000"))

    def hear(self, seconds):
        """Takes APDUs until none came for so long."""
        self.stream.settimeout(seconds)
        try:
            while head := self.exactly(2):
                self.take(self.exactly(head[1]))
        except TimeoutError:
            pass

    def exactly(self, count):
        octets = b""
        while len(octets) < count:
            piece = self.stream.recv(count - len(octets))
            if not piece:
                return b""
            octets += piece
        return octets

    def take(self, apdu):
        if apdu[0] & 1 == 0:
            self.received += 1
            self.asdus.append(apdu[4:])
            count = self.received * 2
            self.stream.sendall(bytes([0x68, 4, 1, 0, count & 0xFF, count >> 8]))
        elif apdu[0] == 0x43:
            self.stream.sendall(bytes.fromhex("680483000000"))

    def command(self, kind, address=200):
        element = bytes.fromhex(COMMANDS[kind])
        place = 0 if kind == 100 else address
        asdu = bytes([kind, 1, 6, 0, 1, 0]) + place.to_bytes(3, "little") + element
        counts = (self.sent * 2).to_bytes(2, "little") + (self.received * 2).to_bytes(2, "little")
        self.sent += 1
        self.stream.sendall(bytes([0x68, len(asdu) + 4]) + counts + asdu)


def connect(listener, seconds=10):
    """A connection to the gateway, as soon as it listens."""
    end = time.time() + seconds
    while True:
        try:
            return socket.create_connection(listener, timeout=5)
        except ConnectionRefusedError:
            if time.time() > end:
                raise
            time.sleep(0.05)


def free_address():
    """A loopback address at which nobody listens now."""
    with socket.create_server(("127.0.0.1", 0)) as server:
        return server.getsockname()


def start(program, line, listener, more=""):
    """The gateway, live, with one station, between this line and this listener."""
    with tempfile.NamedTemporaryFile("w", suffix=".toml", delete=False) as config:
        config.write(f"""[line]
link = 1
cause = 1
ca = 1
ioa = 2
{more}
[[station]]
address = 1
ca = 1
[live]
line = "{line}"
listen = "{listener[0]}:{listener[1]}"
""")
    return subprocess.Popen([program, "run", config.name], stderr=subprocess.DEVNULL)


def on_socket(server):
    """`read` and `write` for an outstation, once the gateway has connected to this server."""
    stream, _ = server.accept()
    return stream, lambda: stream.recv(1024), stream.sendall


def widened(asdu):
    """What the centre has to get for an ASDU of the line that fits one APDU: the same objects, with
    the sizes of 104."""
    kind, number, cause, ca = asdu[:4]
    head = bytes([kind, number, cause, 0, ca, 0])
    body, size = asdu[4:], (PLAIN.get(kind) or TAGGED.get(kind) or 1) + (7 if kind in TAGGED else 0)
    if number & 0x80:
        return head + body[:2] + b"\0" + body[2:]
    step = 2 + size
    return head + b"".join(body[at:at + 2] + b"\0" + body[at + 2:at + step] for at in range(0, len(body), step))
