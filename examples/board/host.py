#!/usr/bin/env python3
"""The gauges, the line's other end and the harbour desk, around a board in QEMU. Plays a day of 240 readings of each of 8 gauges and compares what the
board acknowledged with what went up the line: nothing lost, nothing doubled, nothing of another gauge's.

    host.py KERNEL PLAY [--seed N] [--aim] [--options 'more of the kernel\'s command line']

Plays: day     every reading is sent until it is acknowledged; the desk asks for the latest levels in the morning, when there are none, and at noon
       noise   the same over a bad radio and a bad line: garbage, flipped bits, cut frames, lost answers, both ways
       kill    the board is killed twice while a batch goes up, and starts anew; the gauges keep each reading until they hear that it has gone up, and
               nothing is lost
       forget  the same with gauges that forget what was acknowledged: lost is what had not gone up at the kill, and nothing else
       chatty  the line is down for a while and one gauge measures all the time: it fills the pool, and the others are refused with 8 until the line is
               back; nothing is lost
--aim: QEMU counts instructions, and each call of the pager gets an interrupt at a moment drawn by chance.
"""
import argparse
import os
import random
import select
import socket
import struct
import subprocess
import sys
import tempfile
import time

GAUGES, READINGS, SIX_MINUTES, SIZE = 8, 240, 360, 16
KILLS = (20, 45)  # the board is killed when so many parts have come, before it hears of the last one
AGAIN = 0.03      # seconds until a gauge sends a reading again
NO_FRAME = 8


def checksum(data):
    c = 0xFFFF
    for byte in data:
        c ^= byte << 8
        for _ in range(8):
            c = (c << 1 ^ 0x1021 if c & 0x8000 else c << 1) & 0xFFFF
    return c


def frame(kind, gauge, number, payload=b""):
    body = bytes([len(payload) + 7]) + kind + bytes([gauge]) + struct.pack("<H", number) + payload
    body += struct.pack("<H", checksum(body))
    return b"\xc0" + body.replace(b"\xdb", b"\xdb\xdd").replace(b"\xc0", b"\xdb\xdc") + b"\xc0"


class Wrong(Exception):
    """The play ends here: the board stopped, or nothing came for too long."""


class Air:
    """What happens to a frame on its way. Without noise, nothing."""

    def __init__(self, chance):
        self.chance = chance

    def flipped(self, data):
        k = self.chance.randrange(len(data))
        return data[:k] + bytes([data[k] ^ 1 << self.chance.randrange(8)]) + data[k + 1:]

    def passed(self, data):
        if self.chance is None:
            return data
        drawn = self.chance.random()
        if drawn < 0.08:
            return self.chance.randbytes(self.chance.randrange(1, 300)) + data
        if drawn < 0.16:
            return self.flipped(data)
        if drawn < 0.20:
            return data[:self.chance.randrange(len(data))]
        return data

    def heard(self, data):
        if self.chance is not None and data and self.chance.random() < 0.05:
            return self.flipped(data)
        return data


class Port:
    """One serial port of the board: frames to it, and the sound ones that came from it."""

    def __init__(self, conn, air):
        self.conn, self.air, self.rest = conn, air, b""

    def send(self, data):
        try:
            self.conn.sendall(self.air.passed(data))
        except (BrokenPipeError, ConnectionResetError):
            pass  # the board has stopped: whoever listens will see it

    def frames(self):
        """The frames that are here. None: the board has closed the port."""
        try:
            got = self.conn.recv(65536)
        except ConnectionResetError:
            got = b""
        if not got:
            return None
        *whole, self.rest = (self.rest + got).split(b"\xc0")
        found = []
        for data in filter(None, map(self.air.heard, whole)):
            body = data.replace(b"\xdb\xdc", b"\xc0").replace(b"\xdb\xdd", b"\xdb")
            if len(body) >= 7 and body[0] == len(body) and checksum(body[:-2]) == struct.unpack("<H", body[-2:])[0]:
                found.append((body[1:2], body[2], struct.unpack("<H", body[3:5])[0], body[5:-2], body[-2:]))
        return found


class Board:
    """A board in QEMU, its two ports on sockets."""

    def __init__(self, kernel, options, aim, air, folder):
        self.console = os.path.join(folder, "console")
        ears = []
        ports = []
        for k, name in enumerate(("radio", "line")):
            path = os.path.join(folder, name)
            if os.path.exists(path):
                os.unlink(path)
            ear = socket.socket(socket.AF_UNIX)
            ear.bind(path)
            ear.listen(1)
            ear.settimeout(20)
            ears.append(ear)
            ports += ["-chardev", f"socket,id={name},path={path}", "-device", f"isa-serial,chardev={name},index={k}"]
        self.process = subprocess.Popen(
            ["qemu-system-x86_64", "-M", "pc", "-m", "32", "-nodefaults", "-display", "none", "-no-reboot", "-accel", "tcg", "-kernel", kernel,
             "-append", options, "-debugcon", "file:" + self.console, "-device", "isa-debug-exit,iobase=0x501,iosize=4", *ports,
             *(["-icount", "shift=0"] if aim else [])], stdin=subprocess.DEVNULL)
        self.radio, self.line = (Port(ear.accept()[0], air) for ear in ears)
        for ear in ears:
            ear.close()

    def said(self):
        with open(self.console) as console:
            return console.read().strip()

    def kill(self):
        self.process.kill()
        self.process.wait()
        self.radio.conn.close()
        self.line.conn.close()


class Gauge:
    """Measures, and sends each reading until it is acknowledged. One that keeps its readings forgets them when they have gone up the line; one that
    doesn't, when they are acknowledged."""

    def __init__(self, number, keeps, chance):
        self.number, self.keeps, self.chance = number, keeps, chance
        self.made = []           # every reading, by its number
        self.at = self.gone = 0  # the number to send next; those below `gone` have gone up
        self.acknowledged = set()
        self.refusals = 0
        self.sent = (None, 0.0)  # which was sent last, and when

    def measure(self):
        level = 1000 + 10 * self.number + self.chance.random()
        self.made.append(struct.pack("<IIfI", len(self.made) * SIX_MINUTES, 1, level, self.chance.getrandbits(32)))

    def waits(self):
        return self.at < len(self.made)

    def transmit(self, radio, now):
        if not self.waits() or (self.sent[0] == self.at and now - self.sent[1] < AGAIN):
            return
        self.sent = (self.at, now)
        oldest = self.gone if self.keeps else self.at
        radio.send(frame(b"R", self.number, self.at, struct.pack("<H", oldest) + self.made[self.at]))

    def hear(self, kind, number, payload):
        if kind == b"A":
            self.acknowledged.add(number)
            self.gone = max(self.gone, struct.unpack("<H", payload)[0])
            if number == self.at:
                self.at += 1
        elif kind == b"G":
            self.gone = max(self.gone, number)
        elif kind == b"N":
            refusal, expected = struct.unpack("<BH", payload)
            self.refusals += refusal == NO_FRAME
            if refusal == 0 and self.keeps and self.gone <= expected < self.at:
                self.at = expected  # the board has started anew and wants what it lost


class Shore:
    """The line's other end: files each reading by gauge and number, once."""

    def __init__(self, gauges):
        self.gauges = gauges
        self.filed = [{} for _ in range(GAUGES)]  # number: the start of the board in which it came
        self.parts = {}
        self.down = False
        self.repeated = self.again = 0
        self.wrong = []

    def take(self, start, gauge, number, payload):
        """A part of a batch."""
        name = (start, gauge, number)
        if name in self.parts:
            self.repeated += 1  # our answer was lost
            if self.parts[name] != payload:
                self.wrong.append(f"part {number} of gauge {gauge} came again and differs")
            return
        self.parts[name] = payload
        for k in range(0, len(payload), SIZE):
            self.file(start, gauge, number + k // SIZE, payload[k:k + SIZE])

    def file(self, start, gauge, number, reading):
        made = self.gauges[gauge].made
        if number >= len(made) or made[number] != reading:
            whose = [g.number for g in self.gauges if reading in g.made]
            self.wrong.append(f"reading {number} of gauge {gauge} is " + (f"one of gauge {whose[0]}" if whose else "none that was sent"))
        elif self.filed[gauge].get(number) == start:
            self.wrong.append(f"reading {number} of gauge {gauge} came twice")
        elif number in self.filed[gauge]:
            self.again += 1  # it had come, and the board was killed before it heard so
        else:
            self.filed[gauge][number] = start

    def has(self, gauge, number):
        return number in self.filed[gauge]


class Day:
    def __init__(self, words, folder):
        self.words, self.folder = words, folder
        self.chance = random.Random(words.seed)
        self.noise = random.Random(words.seed + 1) if words.play == "noise" else None
        self.gauges = [Gauge(g, words.play == "kill", self.chance) for g in range(GAUGES)]
        self.shore = Shore(self.gauges)
        self.levels = {}
        self.starts = 0
        self.lost_with_ram = set()
        self.turned_away = 0
        self.board = None

    # -- the board

    def start(self):
        options = f"seed={self.words.seed} {self.words.options}" + (" aim" if self.words.aim else "") + (" frames=32" if self.words.play == "chatty" else "")
        self.greeted = 0
        self.starts += 1
        self.board = Board(self.words.kernel, options, self.words.aim, Air(None), self.folder)
        self.until(lambda: self.greeted == 2, 20, "the board's start")
        self.board.radio.air = self.board.line.air = Air(self.noise)

    def kill(self):
        self.board.kill()
        if not self.gauges[0].keeps:
            self.lost_with_ram |= {(g.number, n) for g in self.gauges for n in g.acknowledged if not self.shore.has(g.number, n)}
        self.start()

    def stop(self):
        self.board.line.air = Air(None)
        self.board.line.send(frame(b"X", 0, 0))
        try:
            status = self.board.process.wait(20)
        except subprocess.TimeoutExpired:
            raise Wrong("the board did not stop")
        print(self.board.said())
        if status != 1:
            raise Wrong(f"the board ended with status {status}")

    # -- what comes

    def listen(self, seconds=0.02):
        ready, _, _ = select.select([self.board.radio.conn, self.board.line.conn], [], [], seconds)
        for port in (self.board.radio, self.board.line):
            if port.conn not in ready:
                continue
            frames = port.frames()
            if frames is None:
                raise Wrong(f"the board stopped with status {self.board.process.wait(5)}: {self.board.said()}")
            for kind, gauge, number, payload, told in frames:
                if kind == b"H":
                    self.greeted += 1
                elif port is self.board.radio:
                    self.gauges[gauge].hear(kind, number, payload)
                elif kind == b"L":
                    self.levels[gauge] = (number, payload)
                elif kind == b"B" and not self.shore.down:
                    self.shore.take(self.starts, gauge, number, payload)
                    if self.words.play in ("kill", "forget") and self.starts <= len(KILLS) and len(self.shore.parts) >= KILLS[self.starts - 1]:
                        self.kill()
                        return
                    port.send(frame(b"K", gauge, number, told))

    def until(self, done, seconds, what):
        end = time.monotonic() + seconds
        while not done():
            if self.shore.wrong:
                raise Wrong("the play ends here")
            if time.monotonic() > end:
                raise Wrong(f"waited {seconds} s for {what}: {self.board.said()}")
            self.listen()

    # -- what goes

    def deliver(self, gauges, enough=lambda: False):
        """The gauges send until all is acknowledged, or enough has come."""
        def sent():
            now = time.monotonic()
            for g in gauges:
                g.transmit(self.board.radio, now)
            return enough() or not any(g.waits() for g in gauges)
        self.until(sent, 60, "acknowledgements")

    def ask(self):
        """The harbour desk, until it has a level of every gauge."""
        asked = [0.0]
        self.levels = {}

        def told():
            if time.monotonic() - asked[0] > 0.3:
                asked[0] = time.monotonic()
                self.board.line.send(frame(b"Q", 0, 0))
            return len(self.levels) == GAUGES
        self.until(told, 20, "levels at the desk")
        for g in self.gauges:
            if g.made and self.levels[g.number] != (len(g.made) - 1, g.made[-1]):
                self.shore.wrong.append(f"the desk's level of gauge {g.number} is not its latest")
            if not g.made and self.levels[g.number][1] != bytes(SIZE):
                self.shore.wrong.append(f"the desk has a level of gauge {g.number}, which has sent none")

    def send_all(self):
        """The day's end: the board sends every batch that is left. Asked again, since the question may be lost."""
        def arrived():
            self.board.line.send(frame(b"F", 0, 0))
            return all(self.shore.has(g.number, n) for g in self.gauges for n in g.acknowledged if (g.number, n) not in self.lost_with_ram)
        self.until(arrived, 60, "the last batches")

    def measure(self, gauges):
        for g in gauges:
            g.measure()

    def line_down(self, i):
        """A round of the chatty play with the line down: whoever is refused for want of a frame gives up for this time."""
        self.shore.down = True
        self.measure(self.gauges)
        if i < 63:
            for _ in range(400):
                self.gauges[0].measure()
        for g in self.gauges:
            before = g.refusals
            self.deliver([g], lambda: g.refusals > before)
            self.turned_away += g.number > 0 and g.refusals > before
        self.shore.down = False

    def play(self):
        self.start()
        self.ask()
        for i in range(READINGS):
            if self.words.play == "chatty" and 60 <= i < 90:
                self.line_down(i)
                continue
            self.measure(self.gauges)
            self.deliver(self.gauges)
            if self.noise and i % 60 == 30:
                self.board.radio.conn.sendall(self.noise.randbytes(20000))  # more than the board's ring holds
                self.board.line.conn.sendall(self.noise.randbytes(2000))
            if i == READINGS // 2:
                self.ask()
        self.deliver(self.gauges)
        self.send_all()
        self.stop()

    def verdict(self):
        """What is wrong with the day, after all."""
        wrong = list(self.shore.wrong)
        acknowledged = {(g.number, n) for g in self.gauges for n in g.acknowledged}
        filed = {(g, n) for g in range(GAUGES) for n in self.shore.filed[g]}
        lost = acknowledged - filed
        if lost != self.lost_with_ram:
            wrong.append(f"{len(lost - self.lost_with_ram)} readings were acknowledged and lost, "
                         f"{len(self.lost_with_ram - lost)} came that were lost with the RAM")
        if filed - acknowledged:
            wrong.append(f"{len(filed - acknowledged)} readings went up the line and were never acknowledged")
        if len(acknowledged) != sum(len(g.made) for g in self.gauges):
            wrong.append("not every reading was acknowledged")
        tested = {"forget": lost, "kill": self.shore.again, "chatty": self.turned_away, "noise": self.shore.repeated}
        if not tested.get(self.words.play, True):
            wrong.append("what the play is for did not happen")
        print(f"{self.words.play}: {len(acknowledged)} readings acknowledged, {len(filed)} filed, {len(lost)} lost with the RAM, "
              f"{self.turned_away} rounds refused for want of a frame, {self.shore.repeated} parts sent again, {self.shore.again} readings again "
              f"after a start: {'BAD' if wrong else 'good'}")
        return wrong


def main():
    parser = argparse.ArgumentParser(description=__doc__, formatter_class=argparse.RawDescriptionHelpFormatter)
    parser.add_argument("kernel")
    parser.add_argument("play", choices=["day", "noise", "kill", "forget", "chatty"])
    parser.add_argument("--seed", type=int, default=1)
    parser.add_argument("--aim", action="store_true")
    parser.add_argument("--options", default="")
    words = parser.parse_args()
    with tempfile.TemporaryDirectory(prefix="board.") as folder:
        day = Day(words, folder)
        try:
            day.play()
            wrong = day.verdict()
        except Wrong as stopped:
            wrong = day.shore.wrong + [str(stopped)]
            print(f"{words.play}: BAD")
        finally:
            if day.board:
                day.board.kill()
    for line in wrong[:6]:
        print("   ", line)
    if len(wrong) > 6:
        print(f"    and {len(wrong) - 6} more")
    return 1 if wrong else 0


sys.exit(main())
