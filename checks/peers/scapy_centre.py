#!/usr/bin/env python3
"""Lets Scapy's layers of IEC 60870-5-104 (contrib.scada.iec104) play a control centre that sends
commands.

    checks/peers/scapy_centre.py [--program FILE] [--only NAME]

Scapy builds each command and reads each APDU of the gateway: STARTDT con, the reports, and for each
command its confirmation with the element that was sent. Without Scapy the script is skipped.
"""
import logging
import os
import socket
import sys

from ends import Outstation, connect, free_address, on_socket, report, start

sys.path.append(os.path.dirname(os.path.dirname(os.path.abspath(__file__))))  # the frame stands one folder up
import frame

logging.getLogger("scapy").setLevel(logging.ERROR)
sys.path.append("/usr/lib/python3/dist-packages")  # where Debian's package puts it
try:
    from scapy.contrib.scada import iec104
except ImportError:
    iec104 = None


def commands():
    """One of each command, as Scapy builds its information object."""
    return [
        (45, iec104.IEC104_IO_C_SC_NA_1_IOA(information_object_address=200, scs=1)),
        (46, iec104.IEC104_IO_C_DC_NA_1_IOA(information_object_address=201, dcs=2)),
        (47, iec104.IEC104_IO_C_RC_NA_1_IOA(information_object_address=202, rcs=1)),
        (48, iec104.IEC104_IO_C_SE_NA_1_IOA(information_object_address=203, action=0, normed_value=0x4000)),
        (49, iec104.IEC104_IO_C_SE_NB_1_IOA(information_object_address=204, action=0, scaled_value=1234)),
        (100, iec104.IEC104_IO_C_IC_NA_1_IOA(information_object_address=0, qoi=20)),
    ]


def i_frame(kind, unit, sent, received):
    return bytes(iec104.IEC104_I_Message_SingleIOA(
        tx_seq_num=sent, rx_seq_num=received, type_id=kind, num_io=1, cot=iec104.IEC104_COT_ACT, common_asdu_address=1,
        io=[unit]))


class Ear:
    """Reads APDUs from the gateway by Scapy."""

    def __init__(self, stream):
        self.stream, self.octets = stream, b""

    def next(self):
        while len(self.octets) < 2 or len(self.octets) < self.octets[1] + 2:
            self.octets += self.stream.recv(4096)
        size = self.octets[1] + 2
        apdu, self.octets = self.octets[:size], self.octets[size:]
        return iec104.IEC104_APDU(apdu), apdu


def converse(stream):
    """Answers how many commands were confirmed as they were sent, and how many reports were read."""
    ear, confirmed, reports, received = Ear(stream), 0, 0, 0
    stream.sendall(bytes(iec104.IEC104_U_Message(startdt_act=1)))
    con, _ = ear.next()
    started = con.startdt_con == 1
    for sent, (kind, unit) in enumerate(commands()):
        apdu = i_frame(kind, unit, sent, received)
        stream.sendall(apdu)
        while True:
            got, octets = ear.next()
            if octets[2] & 1:
                continue
            received += 1
            if got.type_id != kind:
                reports += 1
                continue
            # its cause is 'activation confirmed', and all behind the cause is what was sent
            confirmed += got.cot == iec104.IEC104_COT_ACTCON and octets[9:] == apdu[9:]
            break
    return started, confirmed, reports


def a_centre(count, program, _folder):
    """What Scapy reads of the gateway's APDUs."""
    if iec104 is None:
        raise frame.Skipped("Scapy isn't installed (apt-get install python3-scapy)")
    with socket.create_server(("127.0.0.1", 0)) as server:
        listener = free_address()
        gateway = start(program, "tcp:127.0.0.1:{}".format(server.getsockname()[1]), listener)
        try:
            _, read, write = on_socket(server)
            station = Outstation(read, write, [report(1, 1, 100), report(30, 2, 110)])
            station.start()
            stream = connect(listener)
            stream.settimeout(5)
            started, confirmed, reports = converse(stream)
        finally:
            gateway.kill()
    count.judge("STARTDT con", started)
    count.compare("commands confirmed", confirmed, 6)
    count.compare("reports", reports, 2)
    count.compare("commands accepted", len(station.accepted), 6)


if __name__ == "__main__":
    frame.main(a_centre)
