#!/usr/bin/env python3
"""Decodes I2C from the demonstration's waveform and compares it with the wire that the demonstration printed.

usage: check_vcd.py FILE.vcd OUTPUT.txt
"""
import re
import sys


def changes(path):
    """The (time, scl, sda) after each change of a line, in the file's order."""
    codes, lines, time = {}, {}, 0
    for line in open(path):
        words = line.split()
        if line.startswith("$var"):
            codes[words[3]] = words[4]
        elif line.startswith("#"):
            if int(line[1:]) < time:
                sys.exit("time goes back at " + line)
            time = int(line[1:])
        elif line[0] in "01":
            lines[codes[line[1:].strip()]] = int(line[0])
            if len(lines) == 2:
                yield time, lines["scl"], lines["sda"]


def decode(path):
    """The words on the wire, and the least distance of two rising edges of SCL within a byte."""
    words, bits, first, started = [], [], False, False
    old_scl = old_sda = 1
    rise, least = None, None
    for time, scl, sda in changes(path):
        if scl != old_scl and sda != old_sda:
            sys.exit(f"both lines change at {time}")
        if scl and old_scl and old_sda and not sda:
            words.append("START")
            bits, first, started, rise = [], True, True, None
        elif scl and old_scl and sda and not old_sda:
            if not started or len(bits) > 1:  # the one bit is SCL's rise before SDA's
                sys.exit(f"STOP within a byte at {time}")
            words.append("STOP")
            started = False
        elif scl and not old_scl:
            bits.append(sda)
            if rise is not None and bits[1:]:
                least = min(least or time - rise, time - rise)
            rise = time
        if len(bits) == 9:
            byte = int("".join(map(str, bits[:8])), 2)
            words.append(f"[{byte >> 1:02x}+{'R' if byte & 1 else 'W'}]" if first else f"{byte:02x}")
            words.append("NACK" if bits[8] else "ACK")
            bits, first = [], False
        old_scl, old_sda = scl, sda
    if started:
        sys.exit("no STOP at the end")
    return words, least


def printed(path):
    """The words of the printed wire lines and of the lines that continue them."""
    text = re.findall(r"^    wire((?:.*\n)(?: {11}.*\n)*)", open(path).read(), re.M)
    return re.sub(r"\(.*?\)", "", " ".join(" ".join(text).split())).split()


decoded, least = decode(sys.argv[1])
expected = printed(sys.argv[2])
for place, (a, b) in enumerate(zip(decoded, expected)):
    if a != b:
        sys.exit(f"word {place}: the waveform has {a}, the printed wire {b}")
if len(decoded) != len(expected) or not decoded:
    sys.exit(f"the waveform has {len(decoded)} words, the printed wire {len(expected)}")
print(f"waveform and printed wire agree: {len(decoded)} words, {decoded.count('START')} STARTs, {decoded.count('STOP')} STOPs,"
      f" fastest bit {least} ns")
