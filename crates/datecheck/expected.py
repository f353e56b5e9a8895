#!/usr/bin/env python3
"""The lines that datecheck is run on, and what is due for them: see README.md.

expected.py lines              the input, always the same
expected.py answers PROGRAM    the answers to the input at stdin, each by PROGRAM --case 'REWR ...', the differential harness
"""
import random
import struct
import subprocess
import sys

PAPER = ["1970", "2023-02-31", "-000000"]
MARKED = ["", "2024-02-29T12:00:00Z", "2023-12-31T24:00:00Z", "2023-12-31T24:00:01Z", "+000000",
          "+275760-09-13T01:00:00+01:00", "-271821-04-20", "-271821-04-19"]
# a text that ends early (5), a wrong byte (6), a field out of bounds (7), a byte after the form (8), an instant out of range (9)
REFUSED = ["197", "+", "+00000", "2023-", "2023-3", "2023-01-", "2023T", "2023T01", "2023T01:", "2023T01:00:", "2023T01:00:00.",
           "2023T01:00+", "2023T01:00+01:", " 1970", "1970 ", "2023-1x", "2023x", "2023T01:00x", "2023t01:00", "2023T01:00z", "20230101", "2023T01:00+01x",
           "2023-13", "2023-13x", "2023-00", "2023-12-32", "2023T25:00", "2023T23:60", "2023T23:59:60", "2023T23:59+24", "2023T24:01", "2023T24:00:00.001",
           "2023-12-31x", "2023-12-31-", "2023T01:00Zx", "2023T01:00ZZ", "2023T01:00+01:00x", "2023T24:01Zx", "2023-12-31t01:00",
           "+275761", "-271822", "+999999-12-31T23:59:59.999-23:59", "-999999", "+275760-09-13T00:00:00.001Z", "-271821-04-20T00:00+00:01",
           "+275760-09-14", "-271821-04-19T23:59:59.999Z"]
# one to three decimals and what may follow them; hour 24; the range's ends
DECIMALS = ["2024T12:00:00.5", "2024T12:00:00.50", "2024T12:00:00.500", "2024T12:00:00.05", "2024T12:00:00.005", "2024T12:00:00.9", "2024T12:00:00.99",
            "2024T12:00:00.999", "2023T01:00:00.12", "2024T12:00:00.0", "2024T12:00:00.00", "2024-02-29T12:00:00.5Z", "2024-02-29T12:00:00.50Z", "2024-02-29T12:00:00.500Z",
            "2024-02-29T12:00:00.5+01", "2024-02-29T12:00:00.50-01", "2024-02-29T12:00:00.5+01:30", "2024-02-29T12:00:00.50-01:30",
            "2024T24:00:00.0", "2024T24:00:00.00Z", "2024T24:00:00.000+23:59", "+012024T12:00:00.5Z", "1969-12-31T23:59:59.9Z", "1969-12-31T23:59:59.99Z",
            "+275760-09-13T00:00:00.0Z", "+275760-09-12T23:59:59.9", "-271821-04-20T00:00:00.0Z", "-271821-04-20T00:00:00.1Z"]
# no digit, a fourth one, each other refusal behind one or two, and a point elsewhere
DECIMALS_REFUSED = ["2024T12:00:00.x", "2024T12:00:00.Z", "2024T12:00:00.+01", "2024T12:00:00.-01", "2024T12:00:00..5", "2024T12:00:00.:", "2024T12:00:00. 5",
                    "2024T12:00:00.1234", "2024T12:00:00.0000Z", "2024T12:00:00.5x", "2024T12:00:00.50x", "2024T12:00:00.5.5", "2024T12:00:00.5:", "2024T12:00:00.5 ",
                    "2024T12:00:00.5z", "2024T12:00:00,5", "2024T12:00.5", "2024T12.5", "2024T12:00:00.5+", "2024T12:00:00.5+0", "2024T12:00:00.50-01:", "2024T12:00:00.5+x",
                    "2024T12:00:00.5+01x", "2024T12:00:00.5+24", "2024T12:00:00.50+23:60", "2024T12:00:00.5Zx", "2024T12:00:00.50+01:00x", "2024T24:00:00.1", "2024T24:00:00.01Z",
                    "2024T24:00:00.1x", "2024T24:00:00.1Zx", "+275760-09-13T00:00:00.1Z", "+275760-09-13T00:00:00.01Z", "-271821-04-19T23:59:59.9Z", "-271821-04-19T23:59:59.99"]
# a carriage return, zero bytes and bytes above 127 are bytes of the text
BYTES = [b"\r", b"1970\r", b"2023-02-31\r", b"1970T00:00Z\r", b"\0", b"1970\0", b"2023-02-31\0", b"\xff", b"197\xc3", b"2023-02-31\xe9", b"\t1970"]


def accepted(rng):
    """A text of the format, its fields in bounds."""
    year = rng.choice(["%04d" % rng.randrange(10000), "+%06d" % rng.randrange(275760), "-%06d" % rng.randrange(1, 271821)])
    text = year + rng.choice(["", "-%02d" % rng.randrange(1, 13), "-%02d-%02d" % (rng.randrange(1, 13), rng.randrange(1, 32))])
    if rng.random() < 0.3:
        return text
    text += "T%02d:%02d" % (rng.randrange(24), rng.randrange(60))
    if rng.random() < 0.8:
        text += ":%02d" % rng.randrange(60) + rng.choice(["", ".%03d" % rng.randrange(1000)])
    return text + rng.choice(["", "Z", "%s%02d" % (rng.choice("+-"), rng.randrange(24)), "%s%02d:%02d" % (rng.choice("+-"), rng.randrange(24), rng.randrange(60))])


def changed(rng, text):
    """A byte less, more or other."""
    at = rng.randrange(len(text) + 1)
    other = rng.choice("0123456789+-:.TZtz x")
    return rng.choice([text[:at], text[:at] + other + text[at:], text[:at] + other + text[at + 1:]])


def lines():
    rng = random.Random(1970)
    found = [text.encode() for text in PAPER + MARKED + REFUSED + DECIMALS + DECIMALS_REFUSED] + BYTES
    for _ in range(180):
        text = accepted(rng)
        found += [text.encode(), changed(rng, text).encode()]
    # reads of 4,096 bytes that are full of short lines, whose answers are many times as long; no two of the lines are the same
    found += [b"%04d" % year for year in range(0, 10000, 4)]
    # texts of 32 bytes and the bytes past them; lines that run over one read of 4,096 bytes, and over many
    longest = b"+001970-01-01T00:00:00.000+00:00"
    found += [longest, longest + b"0", longest[:-1], b"1970-01-01T00:00:00.000Z" + b"0" * 9, b"-000000" + b"x" * 40, b"2023-02-31" + b" " * 500,
              b"1970" * 400, b"", b"", b"1970T00:00+00:00" + b"Z" * 54164, b"1971", b"+275760-09-13" + b"T" * 3375]
    for _ in range(60):
        found.append(accepted(rng).encode())
    # the last line has no newline, and the last read gives one byte of it
    found = b"\n".join(found + [b"+275760-09-13"])
    assert len(found) % 4096 == 1
    return found


def due(program, text):
    out = "7e" * 27
    case = "REWR 000000000000000000000000 %s %s" % (text.hex() or "-", out)
    said = subprocess.run([program, "--case", case], capture_output=True, text=True).stdout
    number, bits, length, written = [line for line in said.split("\n") if line.startswith("due ")][0].split(" ")[1:]
    if number != "00":
        return b"%d" % int(number, 16)
    time = struct.unpack(">d", bytes.fromhex(bits))[0]
    return b"0 %d %s" % (int(time), bytes.fromhex(written)[: int(length, 16)])


def main():
    if sys.argv[1:] == ["lines"]:
        sys.stdout.buffer.write(lines())
        return
    given = sys.stdin.buffer.read().split(b"\n")
    if given[-1] == b"":
        given.pop()
    for text in given:
        sys.stdout.buffer.write(due(sys.argv[2], text) + b"\n")


main()
