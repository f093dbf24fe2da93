#!/usr/bin/env python3
"""Compares the words of `telegate show104 --words` with those of Wireshark's dissectors for the
same octets.

    checks/peers/words.py [--program FILE] [--only NAME]

For each type identification, 1 to 127, and each cause of transmission, 0 to 63, there is one APDU.
The names that tshark has in its own tables have to stand in the words, if this program says
something of them. For each type that is carried there is an APDU with values. The points,
positions, numbers, counters, commands, qualifiers, quality bits, causes of initialisation and time
tags that tshark reads have to be those in the words, and so have P/N and test.

The script prints names that the standard has and tshark lacks. They are no fault. Without tshark it
is skipped.
"""
import os
import re
import shutil
import struct
import subprocess
import sys
import tempfile

sys.path.append(os.path.dirname(os.path.dirname(os.path.abspath(__file__))))  # the frame stands one folder up
import frame

TAG = bytes.fromhex("D5DD220C9D0218")
# What tshark calls a cause, and what the standard's name is here.
CAUSES = {"Per/Cyc": "periodic", "Back": "background scan", "Spont": "spontaneous", "Init": "initialised", "Req": "requested",
          "Act": "activation", "ActCon": "activation con", "Deact": "deactivation", "DeactCon": "deactivation con",
          "ActTerm": "activation term", "Retrem": "return by remote command", "Retloc": "return by local command",
          "File": "file transfer", "Inrogen": "station interrogation", "Reqcogen": "general counter request",
          "UkTypeId": "unknown type", "UkCauseTx": "unknown cause", "UkComAdrASDU": "unknown common address",
          "UkIOA": "unknown object address"}
CAUSES.update({f"Inro{n}": f"group {n} interrogation" for n in range(1, 17)})
CAUSES.update({f"Reqco{n}": f"group {n} counter request" for n in range(1, 5)})
# Of the standard of security (60870-5-7), which isn't part of -101 or -104: names and causes that begin so aren't given here.
OTHERS = re.compile("S_|Auth|Seskey|Usrkey")

def tables():
    """tshark's own names of types and causes."""
    rows = subprocess.run(["tshark", "-G", "values"], capture_output=True, text=True, check=True).stdout.splitlines()
    names = {"typeid": {}, "causetx": {}}
    for row in rows:
        fields = row.split("\t")
        if fields[0] == "V" and fields[1].startswith("iec60870_asdu.") and fields[1][14:] in names:
            names[fields[1][14:]][int(fields[2], 0)] = fields[3]
    return names


def apdu(kind, cause, body, number=1):
    """An APDU in I format with an ASDU of common address 7, whose first object has the address 100."""
    asdu = bytes([kind, number, cause, 0, 7, 0, 100, 0, 0]) + body
    return bytes([0x68, 4 + len(asdu), 0, 0, 0, 0]) + asdu


def words_of(program, octets):
    run = subprocess.run([program, "show104", "--words", octets.hex()], capture_output=True, text=True)
    return run.stdout.rstrip("\n")


def dissected(apdus):
    """What tshark reads in each APDU: the fields of its ASDU, name and value, as tshark's PDML has
    them."""
    with tempfile.TemporaryDirectory() as folder:
        text, capture = os.path.join(folder, "octets"), os.path.join(folder, "capture")
        with open(text, "w") as out:
            for octets in apdus:
                out.write("000000 " + " ".join(f"{octet:02x}" for octet in octets) + "\n")
        subprocess.run(["text2pcap", "-q", "-T", "2404,50000", text, capture], check=True, capture_output=True)
        words = ["tshark", "-n", "-r", capture, "-d", "tcp.port==2404,iec60870_104", "-T", "pdml"]
        pdml = subprocess.run(words, capture_output=True, text=True, check=True).stdout
    fields = []
    for packet in pdml.split("<packet>")[1:]:
        found = re.findall(r'<field name="iec60870_asdu\.([a-z0-9_.]+)" showname="([^"]*)"[^>]*? show="([^"]*)"', packet)
        fields.append({name: (said, value) for name, said, value in found})
    return fields


def values():
    """APDUs with values: the octets behind the address, and the words that the standard's tables give for them."""
    rows = []
    for plain, tagged in ((1, 30), (3, 31), (5, 32), (7, 33), (9, 34), (11, 35), (13, 36), (15, 37)):
        bodies = {1: [b"\x01", b"\xF0"], 3: [b"\x00", b"\x41", b"\x82", b"\x13"], 5: [b"\xFB\x01", b"\x05\x80"],
                  7: [struct.pack("<IB", 0xF2345678, 0)], 9: [struct.pack("<hB", -16384, 0x40)], 11: [struct.pack("<hB", 258, 1)],
                  13: [struct.pack("<fB", 21.5, 0), struct.pack("<fB", -0.1, 0x80)], 15: [struct.pack("<iB", -2, 0xE3)]}[plain]
        for body in bodies:
            rows += [(plain, 3, body), (tagged, 3, body + TAG)]
    for plain, tagged in ((45, 58), (46, 59), (47, 60), (48, 61), (49, 62)):
        bodies = {45: [b"\x81", b"\x04"], 46: [b"\x82", b"\x09"], 47: [b"\x01", b"\x82"], 48: [struct.pack("<hB", -8192, 0x80)],
                  49: [struct.pack("<hB", 12, 5)]}[plain]
        for body in bodies:
            rows += [(plain, 6, body), (tagged, 6, body + TAG)]
    rows += [(70, 4, b"\x00"), (70, 4, b"\x81"), (70, 4, b"\x02"), (100, 6, b"\x14"), (100, 6, b"\x24")]
    # an activation con that is negative and a test
    return rows + [(45, 0xC7, b"\x01")]


def compared(words, fields):
    """What tshark's fields say that the words don't, a text each."""
    wanted = []
    for name, (said, value) in fields.items():
        leaf = name.split(".")[-1]
        if name.endswith(("siq.spi", "sco.on")):
            wanted.append((" = on" if value in ("1", "True") else " = off", said))
        elif name.endswith(("diq.dpi", "dco.on")):
            states = {0: "intermediate", 1: "off", 2: "on", 3: "bad"}
            wanted.append((f" = {states[int(value)]}", said))
        elif name.endswith("rco.up"):
            wanted.append((" = lower" if value == "1" else " = higher", said))
        elif name.endswith("qoi"):
            wanted.append((" = station" if value == "20" else f" = group {int(value) - 20}", said))
        elif leaf == "qu" and value != "0":
            wanted.append(({"1": "short pulse", "2": "long pulse", "3": "persistent"}[value], said))
        elif leaf == "ql" and value != "0":
            wanted.append((f"QL {value}", said))
        elif "bitstring" in name:
            # tshark has the octets as they come; here bit 1 of the first octet is the lowest of the number.
            wanted.append((f"0x{int.from_bytes(int(value, 0).to_bytes(4, 'big'), 'little'):08X}", said))
        elif name.endswith("vti.v"):
            wanted.append((f"position {value}", said))
        elif name.endswith("float"):
            wanted.append((f" = {float(value):.6f}", said))
        elif name.endswith("bcr.count"):
            wanted.append((f" = {value},", said))
        elif name.endswith("bcr.sq"):
            wanted.append((f"sequence {value}", said))
        elif name.endswith("normval"):
            wanted.append((f" = {float(value):.6f}", said))
        elif name.endswith("scalval"):
            wanted.append((f" = {value}", said))
        elif leaf in ("iv", "nt", "sb", "bl", "ov", "cy", "ca", "t") and value in ("1", "True"):
            marks = {"iv": "invalid", "nt": "not topical", "sb": "substituted", "bl": "blocked", "ov": "overflow", "cy": "carry",
                     "ca": "adjusted", "t": "transient"}
            wanted.append((marks[leaf], said))
        elif name == "coi_r":
            wanted.append(({"0": "local power on", "1": "local manual reset", "2": "remote reset"}[value], said))
        elif name == "coi_i" and value in ("1", "True"):
            wanted.append(("parameters changed", said))
        elif name in ("nega", "test") and value in ("1", "True"):
            wanted.append((", negative" if name == "nega" else ", test", said))
        elif leaf == "se":
            wanted.append(("select" if value in ("1", "True") else "execute", said))
    return [f"{said!r} isn't in the words as {text!r}" for text, said in wanted if text not in words]


def names(count, program, _folder):
    """The names of types and causes."""
    of_tshark, lacks = tables(), []
    for kind in range(1, 128):
        said = words_of(program, apdu(kind, 3, bytes(8))).split("  ")[1].split(" ")[0]
        theirs = of_tshark["typeid"].get(kind)
        if theirs is None:
            lacks += [said] if said != "type" else []
        count.judge(f"type {kind}", theirs is None or OTHERS.match(theirs) or said == theirs, f"{said}, and tshark has {theirs}")
    for cause in range(64):
        said = words_of(program, apdu(1, cause, b"\x01")).split("  ")[1].split(" ", 1)[1]
        theirs = of_tshark["causetx"].get(cause)
        if theirs is None:
            lacks += [] if said == f"cause {cause}" else [said]
        is_same = theirs is None or OTHERS.match(theirs) or said == CAUSES[theirs]
        count.judge(f"cause {cause}", is_same, f"{said}, and tshark has {theirs}")
    print("not in tshark's tables: " + ", ".join(lacks))


def elements(count, program, _folder):
    """The values of an object of each type."""
    apdus = [apdu(*row) for row in values()]
    for octets, fields in zip(apdus, dissected(apdus)):
        said = words_of(program, octets)
        faults = compared(said, fields)
        if "cp56time" in fields and "2024-02-29 12:34:56.789" not in said:
            faults.append("no time tag")
        count.judge(octets.hex(), not faults, f"{said}: {'; '.join(faults)}")


def with_tshark(part):
    """The part, which is skipped without tshark."""

    def judged(count, program, folder):
        if not shutil.which("tshark") or not shutil.which("text2pcap"):
            raise frame.Skipped("tshark isn't installed (apt-get install tshark)")
        part(count, program, folder)

    return part.__name__, judged


if __name__ == "__main__":
    frame.main(with_tshark(names), with_tshark(elements))
