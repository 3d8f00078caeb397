#!/usr/bin/env python3
"""The capture of a recording, worked out apart from the engine: capture.py RECORDING [fsk | c8psk] > CAPTURE.

A frame is looked for from each tick at which one may start, in the words of document 01 and of document 02,
item 1; docs/RECORDINGS.md says what a packet has. tests/capture compares the program's bytes with these.
"""
import fractions
import struct
import sys

TICK = {"fsk": fractions.Fraction(11, 1200), "c8psk": fractions.Fraction(1, 1000)}
TYPES = {2: 0, 6: 1, 1: 2}  # STX, ACK, BACK, and their HART-IP message types
PORT = 5094


def ticks(recording):
    return [(first >> 5, character) for first, character in zip(recording[::2], recording[1::2])]


def heard_from(line, start):
    """What is heard from a tick on, without single silent ticks, each with its tick; it ends before two in a row."""
    silent = 0
    for tick in range(start, len(line)):
        kind, character = line[tick]
        silent = silent + 1 if kind == 0 else 0
        if silent == 2:
            return
        if kind:
            yield tick, kind, character


def body(heard):
    """The frame behind the preamble, or None, the last tick that was looked at, and whether the frame is undamaged, or
    whether a character broke it."""
    preamble, bytes_, good, size = 0, [], True, None
    for tick, kind, character in heard:
        if not bytes_:
            if kind == 1 and character == 0xFF:
                preamble += 1
                continue
            if kind != 1 or preamble < 2 or character & 0x1F not in TYPES:
                return None, tick, True
            size = (7 if character & 0x80 else 3) + (character >> 5 & 3)  # up to the byte count
        bytes_.append(character)
        good = good and kind == 1
        if len(bytes_) == size + 1:
            if kind != 1 or (bytes_[0] & 0x1F != 2 and character < 2):
                return None, tick, True
        if len(bytes_) > size + 1 and len(bytes_) == size + 2 + bytes_[size]:
            check = 0
            for value in bytes_:
                check ^= value
            return bytes_, tick, good and check == 0
    return None, tick, False


def frames(line):
    """The whole frames with their last ticks."""
    tick = 0
    while tick < len(line) and line[tick][0]:  # up to the first silent tick
        tick += 1
    while tick < len(line):
        if line[tick][0] == 0:
            tick += 1
            continue
        message, last, flag = body(heard_from(line, tick))
        tick = last + 1
        if message is not None and flag:
            yield last, bytes(message)
        elif message is None and flag:  # a character broke it: up to the next silent tick
            while tick < len(line) and line[tick][0]:
                tick += 1


def addresses(message):
    """The sender's address and the other's."""
    master = bytes([192, 168, 0, 1 if message[1] & 0x80 else 2])
    device = bytes([10]) + message[3:6] if message[0] & 0x80 else bytes([192, 168, 1, message[1] & 0x3F])
    return (master, device) if message[0] & 0x1F == 2 else (device, master)


def checksum(header):
    total = sum(struct.unpack(">10H", header))
    while total >> 16:
        total = (total & 0xFFFF) + (total >> 16)
    return total ^ 0xFFFF


def packet(tick, number, message, period):
    hart = struct.pack(">BBBBHH", 1, TYPES[message[0] & 0x1F], 3, 0, number % 65536, 8 + len(message)) + message
    udp = struct.pack(">HHHH", PORT, PORT, 8 + len(hart), 0) + hart
    ip = struct.pack(">BBHHHBBH", 0x45, 0, 20 + len(udp), 0, 0x4000, 64, 17, 0) + b"".join(addresses(message))
    ip = ip[:10] + struct.pack(">H", checksum(ip)) + ip[12:]
    time = tick * period
    seconds = int(time)
    microseconds = int((time - seconds) * 1000000)
    size = len(ip) + len(udp)
    return struct.pack(">IIII", seconds % 2**32, microseconds, size, size) + ip + udp


def capture(recording, profile="fsk"):
    out = struct.pack(">IHHiIII", 0xA1B2C3D4, 2, 4, 0, 0, 65535, 101)
    for number, (tick, message) in enumerate(frames(ticks(recording))):
        out += packet(tick, number, message, TICK[profile])
    return out


if __name__ == "__main__":
    with open(sys.argv[1], "rb") as file:
        sys.stdout.buffer.write(capture(file.read(), *sys.argv[2:]))
