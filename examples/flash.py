#!/usr/bin/python3
"""Writes a file into a microcontroller in serial boot mode, reads it back and compares.

Every step is a line of a ledger. A line says "unanswered" until a checked reply changes it: no
step is OK because nothing went wrong. Needs pyserial (Debian: python3-serial).

Exit status:
  0  every step is OK, and the ledger was printed
  1  a step was refused or a reply was wrong; or all is OK, but the ledger could not be printed
  2  bad arguments, a port that can't be opened, or a file that can't be read or doesn't fit
  3  something stayed unanswered: nobody is there, the device is awake already, or Ctrl-C came
"""

import os
import sys


def end_quietly(kind: type[BaseException], error: BaseException, trace: object) -> None:
    """Ctrl-C while Python still loads: nothing was sent, and nobody wants to see where it was."""
    if issubclass(kind, KeyboardInterrupt):
        os._exit(3)
    sys.__excepthook__(kind, error, trace)


sys.excepthook = end_quietly  # before the slow imports

import argparse
import errno
import re
import select
import struct
import termios
import time
from enum import Enum
from typing import Any, Callable, Iterator, NamedTuple, NoReturn, TextIO

try:
    import serial
except ImportError:
    print("pyserial is missing: install python3-serial and use /usr/bin/python3", file=sys.stderr)
    sys.exit(2)

COMMAND, DATA, ETX, ERROR_BIT = 0x01, 0x81, 0x03, 0x80
INQUIRY, ERASE, WRITE, READ = 0x00, 0x12, 0x13, 0x15
AUTHENTICATE, BAUD_RATE, SIGNATURE, AREA = 0x30, 0x34, 0x3A, 0x3B
LARGEST_DATA, LARGEST_PACKET, LARGEST_IMAGE = 1024, 1030, 16_777_216
TOTAL_ERASE_CODE = bytes.fromhex("414C6552415345") + b"\xff" * 9
LOW_PULSES, START_OVER = b"\x00\x00", b"\xff"
PULSE_SECONDS = 0.05  # how long an answer to low pulses may take before others are sent
MOST_PULSES = 40  # so that a line which nobody reads never fills up, whatever the timeout
PROGRESS_SECONDS = 0.1
KINDS = ("user", "data", "config")
CONFIG = KINDS.index("config")
FLOW_ERROR = 0xC3
STATUS_WORDS = {
    0xC0: "unsupported command", 0xC1: "packet error", 0xC2: "checksum error",
    FLOW_ERROR: "flow error, not in this stage", 0xD0: "address error",
    0xD4: "baud rate margin error", 0xDA: "protection error, outside the window",
    0xDB: "ID mismatch", 0xDC: "serial programming disabled by the stored ID",
    0xE1: "erase error", 0xE2: "write error, flash not blank", 0xE7: "sequencer error",
}
REMEDIES = {
    FLOW_ERROR: "give the device's ID with --id",
    0xD4: "choose another --rate",
    0xDA: "choose addresses inside the device's window",
    0xDB: "check --id; --total-erase takes the ID away, and everything else",
    0xDC: "no ID opens this device any more, take another one",
    0xE2: "an area without an erase unit is cleared by --total-erase only",
}
NO_TOTAL_ERASE = {
    FLOW_ERROR: "this device has no ID stored, leave out --total-erase",
    0xDB: "this device's ID doesn't allow a total erase, give it with --id",
}
START_AGAIN = "reset the device into boot mode, then run this again"


class Outcome(Enum):
    OK = "OK"
    REFUSED = "refused"
    WRONG = "wrong reply"
    UNANSWERED = "unanswered"


class NotOK(Exception):
    """Ends a step, with what its ledger line says instead of OK, and in a word why."""

    outcome, reason = Outcome.UNANSWERED, "silent"
    remedy = f"check the port and the cable, {START_AGAIN}"


class Unanswered(NotOK):
    """No whole reply came."""


class Nobody(Unanswered):
    """Nothing at all came, neither from a device that sleeps nor from one that is awake."""

    reason = "nobody"
    remedy = f"check the port, the cable and --baud, {START_AGAIN}"


class Awake(Unanswered):
    """A device that answers packets, so it doesn't take a wake-up."""

    reason = "awake"


class WrongReply(NotOK):
    """Something came that is no reply to the request."""

    outcome, reason = Outcome.WRONG, "wrong reply"
    remedy = f"check the cable and --baud, {START_AGAIN}"


class Refused(NotOK):
    """A well-formed error reply: its status code, and to what."""

    outcome, reason = Outcome.REFUSED, "refused"

    def __init__(self, status: int, about: str) -> None:
        super().__init__(f"{status_words(status)} ({about})")
        self.status = status
        self.remedy = f"{REMEDIES[status]}; {START_AGAIN}" if status in REMEDIES else START_AGAIN


class Unfit(Exception):
    """The file can't go where it should, so the device is not asked to take it."""


class NoPort(Exception):
    """The port can't be opened, so nobody was asked anything."""


class Step:
    """One ledger line."""

    def __init__(self, name: str) -> None:
        self.name, self.outcome, self.detail = name, Outcome.UNANSWERED, ""


class Ledger:
    """All steps, unanswered from the start, and how many bytes were acknowledged and compared."""

    def __init__(self, names: list[str]) -> None:
        self.steps = [Step(name) for name in names]
        self.written = self.compared = 0

    def count(self, outcome: Outcome) -> int:
        return sum(step.outcome is outcome for step in self.steps)

    def status(self) -> int:
        """The exit status. Steps behind a refusal are unanswered too, so 1 comes before 3."""
        if self.count(Outcome.REFUSED) or self.count(Outcome.WRONG):
            return 1
        return 0 if self.count(Outcome.OK) == len(self.steps) else 3

    def text(self) -> str:
        width = max(len(step.name) for step in self.steps)
        lines = []
        for number, step in enumerate(self.steps, 1):
            detail = f": {step.detail}" if step.detail else ""
            lines.append(f"{number:2}  {step.name:{width}}  {step.outcome.value}{detail}")
        counts = ", ".join(f"{self.count(outcome)} {outcome.value}" for outcome in Outcome)
        lines.append(f"{len(self.steps)} steps: {counts}; "
                     f"{self.written:,} bytes written, {self.compared:,} compared")
        return "".join(plain(line) + "\n" for line in lines)


class Ending(NamedTuple):
    """How it ended: the exit status, a word for programs and a sentence for people."""

    status: int
    reason: str
    message: str


class Area(NamedTuple):
    """What the device says of an area. `ead` is inclusive; unit 0: not erasable, not writable."""

    koa: int
    sad: int
    ead: int
    eau: int
    wau: int

    def can_be(self, before: "Area | None") -> bool:
        """Whether it is an area as the protocol has them. Ranges are worked out from it, and a
        range outside the area would be somebody else's flash."""
        aligned = all(unit == 0 or self.sad % unit == (self.ead + 1) % unit == 0
                      for unit in (self.eau, self.wau))
        return (self.koa < len(KINDS) and self.sad <= self.ead and self.wau <= LARGEST_DATA
                and aligned and (before is None or before.ead < self.sad))


class Part(NamedTuple):
    """What of the file goes into one area: a command's range has to lie in one."""

    area: Area
    first: int
    data: bytes

    @property
    def last(self) -> int:
        return self.first + len(self.data) - 1


def status_words(status: int) -> str:
    words = STATUS_WORDS.get(status, "a code that this protocol doesn't have")
    return f"{status:02X}h {words}"


def span(first: int, last: int) -> str:
    return f"{first:08X}h to {last:08X}h"


def packet(start: int, contents: bytes) -> bytes:
    """Length bytes, contents and SUM add to 0 modulo 256."""
    body = struct.pack(">H", len(contents)) + contents
    return bytes([start]) + body + bytes([-sum(body) & 0xFF, ETX])


def command(com: int, information: bytes = b"") -> bytes:
    return packet(COMMAND, bytes([com]) + information)


def range_command(com: int, first: int, last: int) -> bytes:
    return command(com, struct.pack(">II", first, last))


def pulses(timeout: float) -> Iterator[tuple[bytes, float]]:
    """What to send for a wake-up, one after the other, and how long to wait for an answer.

    A device that was left behind 00 00 skips further 00h in silence; another byte takes it back to
    the start. One that is awake may hold part of a packet, so a packet's length of zeros comes
    first; then it refuses a length of 0 at once: behind 01h if it awaits a command, behind 81h in
    a write or a read. None of these bytes is 03h, so no packet that they complete has a right end
    byte, which is checked before everything else: they can't erase or write anything. To a
    device that sleeps all of them are low pulses too.
    """
    yield LOW_PULSES, PULSE_SECONDS
    yield START_OVER + LOW_PULSES, PULSE_SECONDS
    yield bytes(LARGEST_PACKET) + b"\x01\x00\x00\x81\x00\x00", PULSE_SECONDS
    while True:
        yield START_OVER + LOW_PULSES, max(PULSE_SECONDS, timeout / MOST_PULSES)


def fit(area: Area, first: int, options: argparse.Namespace) -> None:
    """Unfit if nothing may be written into the area from there on."""
    here = f"the {KINDS[area.koa]} area {span(area.sad, area.ead)}"
    if area.koa == CONFIG and not options.config:
        raise Unfit(f"it would go into {here}. The device's ID stands there, and sixteen zero "
                    "bytes lock a device for good: an ID with bit 127 clear refuses every "
                    "authentication. Give --config if you mean it")
    if area.wau == 0:
        raise Unfit(f"{here} can't be written; choose another --address or a shorter file")
    if first % area.wau:
        raise Unfit(f"address {first:08X}h is no multiple of the write unit {area.wau} of {here}; "
                    f"the one below is {first - first % area.wau:08X}h")
    if options.packet < area.wau:
        raise Unfit(f"--packet {options.packet} is below the write unit of {here}; give at "
                    f"least {area.wau}")


def cut(data: bytes, areas: list[Area], options: argparse.Namespace) -> list[Part]:
    """The file cut at the borders of adjoining areas. Only its end is padded: an area's own end is
    a multiple of its write unit."""
    parts: list[Part] = []
    first, rest = options.address, data
    while rest:
        area = next((a for a in areas if a.sad <= first <= a.ead), None)
        if area is None and not parts:
            places = ", ".join(span(a.sad, a.ead) for a in areas)
            raise Unfit(f"address {first:08X}h lies in none of the device's areas, which are "
                        f"{places}; choose another --address")
        if area is None:
            raise Unfit(f"{len(data):,} bytes from {options.address:08X}h on are {len(rest):,} too "
                        f"many: behind {first - 1:08X}h there is no area; choose another --address "
                        "or a shorter file")
        fit(area, first, options)
        here, rest = rest[:area.ead + 1 - first], rest[area.ead + 1 - first:]
        parts.append(Part(area, first, here + b"\xff" * (-len(here) % area.wau)))
        first = area.ead + 1
    return parts


def why_closed(name: str, error: Exception) -> str:
    """Why a port can't be opened, and what to do."""
    number = getattr(error, "errno", None)
    if number == errno.ENOENT and os.path.islink(name):
        return f"no such port: the link {name} leads nowhere; start the stand-in that makes it"
    if number == errno.ENOENT:
        return f"no such port: {name}; give the name that the stand-in printed, or its --link"
    if number in (errno.EAGAIN, errno.EBUSY):
        return f"the port {name} is in use by another program; end that first"
    if number in (errno.EACCES, errno.EPERM):
        return f"the port {name} may not be opened; its group has to be yours, often dialout"
    words = os.strerror(number) if number else error
    return f"{name} can't be opened as a serial port: {words}; give the name of one"


class Line:
    """The serial port. One that fails while it is used is nobody answering, not a traceback."""

    def __init__(self, name: str, baud: int, timeout: float) -> None:
        self.name, self.baud, self.timeout = name, baud, timeout
        self.deadline, self.heard, self.taken = 0.0, 0, b""
        self.port: Any = None

    def open(self) -> None:
        try:
            self.port = serial.Serial(self.name, self.baud, timeout=0, exclusive=True,
                                      write_timeout=self.timeout + self.on_wire(LARGEST_PACKET))
        except (ValueError, OverflowError) as error:
            raise NoPort(f"the port {self.name} doesn't take --baud {self.baud}: {error}; choose "
                         "another") from error
        except (OSError, termios.error) as error:
            raise NoPort(why_closed(self.name, error)) from error

    def guarded(self, use: Callable[[], Any]) -> Any:
        try:
            return use()
        except (OSError, termios.error) as error:  # serial.SerialException is an OSError
            raise Unanswered(f"the port fails: {error}") from error

    def change_rate(self, rate: int) -> None:
        def change() -> None:
            self.port.baudrate = self.baud = rate
            self.port.write_timeout = self.timeout + self.on_wire(LARGEST_PACKET)
        try:
            self.guarded(change)
        except (ValueError, OverflowError) as error:
            raise Unfit(f"the device took --rate {rate}, the port doesn't ({error}); choose "
                        f"another, {START_AGAIN}") from error

    def on_wire(self, count: int) -> float:
        """How long the bytes travel; that time is not counted as silence."""
        return 10 * count / self.baud

    def send(self, data: bytes) -> None:
        self.guarded(lambda: self.port.write(data))
        self.deadline = time.monotonic() + self.timeout + self.on_wire(len(data))
        self.heard = 0

    def drain(self) -> None:
        """Waits until all has left; a pseudo-terminal has no wire to wait for."""
        self.guarded(lambda: self.port.flush())

    def waiting(self) -> int:
        return len(self.taken) + self.guarded(lambda: self.port.in_waiting)

    def look(self, seconds: float) -> bool:
        """Takes all that has come, in one call however long it is, and waits for its first byte."""
        if not self.guarded(lambda: select.select([self.port], [], [], max(seconds, 0))[0]):
            return False
        more = self.guarded(lambda: os.read(self.port.fileno(), 4096))
        if not more:
            raise Unanswered("the port fails: it was hung up")
        self.taken += more
        return True

    def receive(self, count: int) -> bytes:
        """Exactly `count` bytes; a silence ends it."""
        while len(self.taken) < count:
            if self.look(self.deadline - time.monotonic()):
                self.deadline = time.monotonic() + self.timeout
            elif time.monotonic() >= self.deadline:
                heard = self.heard + len(self.taken)
                part = f" behind {heard} bytes of a reply" if heard else ""
                raise Unanswered(f"silence for {self.timeout:g} s{part}")
        got, self.taken = self.taken[:count], self.taken[count:]
        self.heard += count
        return got

    def reply(self) -> bytes:
        """RES and what follows it in one data packet; all that stands around it is checked."""
        start = self.receive(1)[0]
        if start != DATA:
            raise WrongReply(f"starts with {start:02X}h, not 81h")
        return self.reply_behind_start()

    def reply_behind_start(self) -> bytes:
        head = self.receive(2)
        length = int.from_bytes(head, "big")
        if not 1 <= length <= LARGEST_DATA + 1:
            raise WrongReply(f"length {length} is outside 1 to {LARGEST_DATA + 1}")
        body = self.receive(length + 2)
        contents, total, etx = body[:length], body[length], body[length + 1]
        if etx != ETX:
            raise WrongReply(f"ends with {etx:02X}h, not 03h")
        wanted = -(sum(head) + sum(contents)) & 0xFF
        if total != wanted:
            raise WrongReply(f"SUM is {total:02X}h, its bytes give {wanted:02X}h")
        return contents


def plain(text: str) -> str:
    """One line for a terminal: a name may hold control characters, which are written as escapes."""
    return "".join(c if c.isprintable() else f"\\u{ord(c):04X}" for c in text)


def word(name: str) -> str:
    """A name as a word of a command line."""
    import shlex  # few runs need it, and its loading takes time
    return plain(shlex.quote(f"./{name}" if name.startswith("-") else name))


def say(stream: TextIO | None, text: str) -> bool:
    """Whether the text was taken. A stream that was closed from the start is None."""
    try:
        if stream is not None:
            stream.write(text)
            stream.flush()
        return stream is not None
    except OSError:
        return False


class Progress:
    """One line on stderr, rewritten while it works. It is no result: it may fail in silence."""

    def __init__(self, options: argparse.Namespace) -> None:
        terminal = sys.stderr is not None and sys.stderr.isatty()
        self.wanted = options.progress or terminal and not options.quiet
        self.name, self.next = "", 0.0

    def step(self, number: int, count: int, name: str) -> None:
        self.name, self.next = f"{number} of {count}: {name}", 0.0
        self.show(self.name)

    def amount(self, done: int, total: int) -> None:
        if self.wanted and time.monotonic() >= self.next:
            self.next = time.monotonic() + PROGRESS_SECONDS
            self.show(f"{self.name}, {done:,} of {total:,} bytes")

    def show(self, text: str) -> None:
        if self.wanted:
            self.wanted = say(sys.stderr, f"\r{text}\x1b[K")

    def clear(self) -> None:
        self.show("")


class Session:
    """One run: what to write and where, and what the device has said so far."""

    def __init__(self, options: argparse.Namespace, ledger: Ledger, progress: Progress,
                 data: bytes) -> None:
        self.options, self.ledger, self.progress, self.data = options, ledger, progress, data
        self.line = Line(options.port, options.baud, options.timeout)
        self.noa = 0
        self.areas: list[Area] = []
        self.parts: list[Part] = []
        self.read_back = bytearray()

    def ask(self, request: bytes, com: int, size: int, about: str) -> bytes:
        """The `size` bytes behind RES, if the reply is the one that belongs to the request."""
        try:
            if early := self.line.waiting():
                raise WrongReply(f"{early} bytes came before the request was sent")
            self.line.send(request)
            reply = self.line.reply()
            res, rest = reply[0], reply[1:]
            if res == com | ERROR_BIT and len(rest) == 1 and rest[0] != 0:
                raise Refused(rest[0], about)
            if res != com:
                raise WrongReply(f"RES is {res:02X}h, not {com:02X}h")
            if len(rest) != size:
                raise WrongReply(f"{len(rest)} bytes behind RES, not {size}")
            return rest
        except (Unanswered, WrongReply) as error:
            raise type(error)(f"{error} ({about})") from error

    def ask_status(self, request: bytes, com: int, about: str) -> None:
        (status,) = self.ask(request, com, 1, about)
        if status != 0:
            raise WrongReply(f"RES says OK, STS is {status:02X}h ({about})")

    def wake_up(self) -> str:
        """Low pulses until one 00h comes back, then 55h for C3h."""
        line, end = self.line, time.monotonic() + self.line.timeout
        for sent, (low, wait) in enumerate(pulses(line.timeout), 1):
            line.send(low)
            line.drain()
            if line.look(wait):
                break
            if sent >= 3 and time.monotonic() >= end:  # the third finds one that is awake
                raise Nobody(f"nothing came back for {line.timeout:g} s")
        answer = line.receive(1)
        if answer[0] == DATA:
            self.awake(line.reply_behind_start())
        if answer != b"\x00":
            raise WrongReply(f"00h was answered by {answer.hex().upper()}h, not 00h")
        line.send(b"\x55")
        answer = line.receive(1)
        for _ in range(sent):  # a slow device answers every one of them, in order
            if answer == b"\x00":
                answer = line.receive(1)
        if answer != b"\xc3":
            raise WrongReply(f"55h was answered by {answer.hex().upper()}h, not C3h")
        return "00h and C3h came"

    def awake(self, contents: bytes) -> None:
        """Only a device that is awake sends packets."""
        words = f"a packet with RES {contents[0]:02X}h"
        if len(contents) == 2:
            words = status_words(contents[1])
        raise Awake(f"the device is awake already, it answered {words}")

    def authenticate(self) -> str:
        """An inquiry tells whether the device wants an ID: it answers C3h if it does."""
        try:
            self.ask_status(command(INQUIRY), INQUIRY, "inquiry")
            return "not asked for, the inquiry was answered OK"
        except Refused as refusal:
            if refusal.status != FLOW_ERROR:
                raise
            if self.options.id is None:
                raise Refused(FLOW_ERROR, "inquiry: the device wants an ID, see --id") from None
        self.ask_status(command(AUTHENTICATE, self.options.id), AUTHENTICATE, "ID code")
        return "the ID code was accepted"

    def total_erase(self) -> str:
        try:
            self.ask_status(command(AUTHENTICATE, TOTAL_ERASE_CODE), AUTHENTICATE,
                            "total-erase code, for devices with an ID")
        except Refused as refusal:
            if refusal.status in NO_TOTAL_ERASE:
                refusal.remedy = f"{NO_TOTAL_ERASE[refusal.status]}; {START_AGAIN}"
            raise
        return "the total-erase code was accepted"

    def change_rate(self) -> str:
        """Both ends change it behind the reply; an inquiry shows that they still meet."""
        rate = self.options.rate
        request = command(BAUD_RATE, struct.pack(">I", rate))
        self.ask_status(request, BAUD_RATE, f"{rate:,}")
        self.line.change_rate(rate)
        self.ask_status(command(INQUIRY), INQUIRY, f"inquiry at {rate:,}")
        return f"{rate:,}, and an inquiry at it was answered OK"

    def signature(self) -> str:
        reply = self.ask(command(SIGNATURE), SIGNATURE, 12, "signature")
        sci, rmb, self.noa, typ, bfv = struct.unpack(">IIBBH", reply)
        if self.noa == 0:
            raise WrongReply("the device says that it has no area")
        return f"type {typ:02X}h, firmware {bfv:04X}h, areas {self.noa}, SCI {sci:,}, RMB {rmb:,}"

    def ask_areas(self) -> str:
        for number in range(self.noa):
            reply = self.ask(command(AREA, bytes([number])), AREA, 17, f"area {number}")
            area = Area(*struct.unpack(">BIIII", reply))
            if not area.can_be(self.areas[-1] if self.areas else None):
                raise WrongReply(f"area {number} can't be so: {area}")
            self.areas.append(area)
        return ", ".join(f"{KINDS[area.koa]} {span(area.sad, area.ead)}" for area in self.areas)

    def spans(self) -> str:
        return ", ".join(span(part.first, part.last) for part in self.parts)

    def erase(self) -> str:
        """The erase units that the file touches, and no others. Every part of the file is checked
        before the first unit goes."""
        self.parts = cut(self.data, self.areas, self.options)
        self.data = b"".join(part.data for part in self.parts)
        done = []
        for part in self.parts:
            unit = part.area.eau
            if unit == 0:
                done.append(f"{span(part.first, part.last)} not asked for, the device says that "
                            "this area has no erase unit")
                continue
            first, last = part.first // unit * unit, (part.last // unit + 1) * unit - 1
            self.ask_status(range_command(ERASE, first, last), ERASE, span(first, last))
            done.append(span(first, last))
        return ", ".join(done)

    def write(self) -> str:
        for part in self.parts:
            request = range_command(WRITE, part.first, part.last)
            self.ask_status(request, WRITE, span(part.first, part.last))
            size = self.options.packet // part.area.wau * part.area.wau
            for at in range(0, len(part.data), size):
                data = part.data[at:at + size]
                self.ask_status(packet(DATA, bytes([WRITE]) + data), WRITE,
                                f"data packet for {part.first + at:08X}h")
                self.ledger.written += len(data)
                self.progress.amount(self.ledger.written, len(self.data))
        return f"{self.ledger.written:,} bytes, {self.spans()}"

    def read(self) -> str:
        for part in self.parts:
            request = range_command(READ, part.first, part.last)
            for at in range(0, len(part.data), LARGEST_DATA):
                size = min(LARGEST_DATA, len(part.data) - at)
                self.read_back += self.ask(request, READ, size, f"read at {part.first + at:08X}h")
                request = packet(DATA, bytes([READ, 0x00]))  # asks for the next packet
                self.progress.amount(len(self.read_back), len(self.data))
        return f"{len(self.read_back):,} bytes, {self.spans()}"

    def compare(self) -> str:
        self.ledger.compared = len(self.read_back)
        if self.read_back == self.data:
            return f"{len(self.data):,} bytes equal"
        wrong = [at for at, byte in enumerate(self.data) if byte != self.read_back[at]]
        raise WrongReply(f"{len(wrong):,} of {len(self.data):,} bytes differ, the first at "
                         f"{self.options.address + wrong[0]:08X}h: "
                         f"{self.read_back[wrong[0]]:02X}h was read, "
                         f"{self.data[wrong[0]]:02X}h was written")


Action = Callable[[Session], str]  # talks to the device; returns the detail of an OK


def plan(options: argparse.Namespace) -> dict[str, Action]:
    """The steps by name, in order."""
    entry: dict[str, Action] = {"authenticate": Session.authenticate}
    if options.total_erase:  # the device is then where it was before waking up, without an ID
        entry = {"total erase": Session.total_erase, "wake up again": Session.wake_up}
    if options.rate is not None:
        entry["baud rate"] = Session.change_rate
    return {"wake up": Session.wake_up, **entry, "signature": Session.signature,
            "areas": Session.ask_areas, "erase": Session.erase, "write": Session.write,
            "read back": Session.read, "compare": Session.compare}


def load(name: str) -> bytes:
    try:
        with open(name, "rb") as file:
            data = file.read(LARGEST_IMAGE + 1)
    except OSError as error:
        raise Unfit(f"{name} can't be read: {error.strerror}") from error
    if not 1 <= len(data) <= LARGEST_IMAGE:
        raise Unfit(f"{name} has no bytes, or more than {LARGEST_IMAGE:,}")
    return data


def take_steps(session: Session, actions: dict[str, Action]) -> Ending:
    """One after the other, until one is not OK. Only here does a line of the ledger change."""
    steps = session.ledger.steps
    for number, (step, action) in enumerate(zip(steps, actions.values(), strict=True), 1):
        session.progress.step(number, len(steps), step.name)
        try:
            step.detail = action(session)
            step.outcome = Outcome.OK
        except NotOK as problem:
            step.outcome, step.detail = problem.outcome, str(problem)
            return Ending(session.ledger.status(), problem.reason, advice(session, step, problem))
        except Unfit:
            step.detail = "not asked for, the file was not written"
            raise
    return Ending(session.ledger.status(), "ok", "")


def advice(session: Session, step: Step, problem: NotOK) -> str:
    """What to do about a step that is not OK."""
    port = session.options.port
    if isinstance(problem, Awake):
        return (f"The device on {port} is awake already, so it takes no wake-up: {START_AGAIN} "
                f"(a stand-in: indraveck reset {word(port)}).")
    if isinstance(problem, Nobody):
        return f"Nobody answers on {port}: {problem.remedy}."
    if isinstance(problem, Unanswered):
        return f"The device stopped answering on {port}: {problem.remedy}."
    return f"The step \"{step.name}\" is not OK on {port}: {problem.remedy}."


def flash(options: argparse.Namespace, ledger: Ledger, actions: dict[str, Action]) -> Ending:
    """The whole session, whatever happens."""
    progress = Progress(options)
    try:
        session = Session(options, ledger, progress, load(options.file))
        session.line.open()
        return take_steps(session, actions)
    except NoPort as problem:
        return Ending(2, "no port", f"{problem}.")
    except Unfit as problem:
        return Ending(2, "unfit", f"The file was not written: {problem}.")
    except KeyboardInterrupt:
        if ledger.status() == 0:  # too late to stop anything
            return Ending(0, "ok", "")
        return Ending(ledger.status(), "stopped", f"Stopped by the keyboard: {START_AGAIN}.")
    finally:
        progress.clear()


def as_json(options: argparse.Namespace, ledger: Ledger, ending: Ending) -> str:
    import json  # few runs want it, and its loading takes time
    steps = [{"name": step.name, "outcome": step.outcome.value, "detail": step.detail}
             for step in ledger.steps]
    return json.dumps({
        "port": options.port, "file": options.file, "steps": steps,
        "counts": {outcome.value: ledger.count(outcome) for outcome in Outcome},
        "written": ledger.written, "compared": ledger.compared, **ending._asdict()},
        indent=2) + "\n"


def report(options: argparse.Namespace, ledger: Ledger, ending: Ending) -> int:
    """Prints the ledger, at once so that it is there whole or not; returns the exit status."""
    if options.json:
        text = as_json(options, ledger, ending)
    elif ending.status == 2 and not ledger.count(Outcome.OK):  # nobody was asked anything
        say(sys.stderr, plain(f"flash.py: {ending.message}") + "\n")
        return ending.status
    else:
        text = ledger.text() + (ending.message and plain(ending.message) + "\n")
    if say(sys.stdout, text):
        return ending.status
    say(sys.stderr, "flash.py: the ledger could not be printed; keep standard output open.\n")
    return ending.status or 1


NUMBERS = (  # a leading zero may be meant as hexadecimal, so decimal numbers have none
    (10, re.compile(r"(0|[1-9][0-9]*(?:_[0-9]+)*|[1-9][0-9]{0,2}(?:,[0-9]{3})+)")),
    (16, re.compile(r"0[xX]([0-9a-fA-F]+(?:_[0-9a-fA-F]+)*)")),
    (16, re.compile(r"([0-9a-fA-F]+(?:_[0-9a-fA-F]+)*)[hH]")))


def number(text: str) -> int:
    """A number as people write it, and as the tools print it."""
    for base, form in NUMBERS:
        if found := form.fullmatch(text.strip()):
            return int(found[1].replace(",", "").replace("_", ""), base)
    raise argparse.ArgumentTypeError(
        f"`{text}` is no number; write it as 16384, 16_384, 16,384, 0x4000 or 00004000h")


def seconds(text: str) -> float:
    try:
        return float(text)
    except ValueError:
        raise argparse.ArgumentTypeError(f"`{text}` is no number of seconds; write it as 2 or "
                                         "0.5") from None


def id_code(text: str) -> bytes:
    digits = "".join(text.split())
    if not re.fullmatch("[0-9a-fA-F]{32}", digits):
        raise argparse.ArgumentTypeError(
            f"`{text}` is no ID; it has 32 hexadecimal digits, spaces may stand between them")
    return bytes.fromhex(digits)


class Parser(argparse.ArgumentParser):
    def _print_message(self, message: str, file: TextIO | None = None) -> None:
        """As in the class above, but a stream that fails is no traceback."""
        if not say(file or sys.stderr, message) and file is sys.stdout:
            sys.exit(1)

    def error(self, message: str) -> NoReturn:
        super().error(plain(message))


def arguments() -> argparse.ArgumentParser:
    about, statuses = (__doc__ or "").split("Exit status:")
    parser = Parser(
        prog="flash.py", description=about, epilog=f"exit status:{statuses}", allow_abbrev=False,
        formatter_class=lambda prog: argparse.RawDescriptionHelpFormatter(prog, width=100))
    parser.add_argument("port", metavar="PORT")
    parser.add_argument("file", metavar="FILE", help="the bytes to write, as they are")
    parser.add_argument("--address", type=number, default=0, help="where they go")
    parser.add_argument("--config", action="store_true",
                        help="they may go into the config area, which can lock the device")
    entry = parser.add_mutually_exclusive_group()
    entry.add_argument("--id", type=id_code, metavar="HEX32", help="the device's ID code")
    entry.add_argument("--total-erase", action="store_true",
                       help="erases a device with an ID whole, instead of authenticating")
    parser.add_argument("--timeout", type=seconds, default=2.0, metavar="SECONDS",
                        help="silence to allow (2)")
    parser.add_argument("--packet", type=number, default=LARGEST_DATA, metavar="BYTES",
                        help="the most in one packet (1,024)")
    parser.add_argument("--baud", type=number, default=9600, metavar="RATE",
                        help="the rate to start with (9,600)")
    parser.add_argument("--rate", type=number, help="the rate to go on with, if the device agrees")
    parser.add_argument("--json", action="store_true", help="the ledger as one JSON object")
    progress = parser.add_mutually_exclusive_group()
    progress.add_argument("--progress", action="store_true",
                          help="a progress line even where stderr is no terminal")
    progress.add_argument("--quiet", action="store_true", help="no progress line")
    return parser


def main() -> int:
    parser = arguments()
    options = parser.parse_args()
    for right, words in (
            (options.address <= 0xFFFF_FFFF, "--address has 32 bits"),
            (0 < options.timeout <= 3600, "--timeout is above 0 and at most 3600"),
            (1 <= options.packet <= LARGEST_DATA, f"--packet is 1 to {LARGEST_DATA}"),
            (1 <= options.baud <= 0xFFFF_FFFF, "--baud is at least 1 and has 32 bits"),
            (options.rate is None or 1 <= options.rate <= 0xFFFF_FFFF,
             "--rate is at least 1 and has 32 bits")):
        if not right:
            parser.error(words)
    actions = plan(options)
    ledger = Ledger(list(actions))
    return report(options, ledger, flash(options, ledger, actions))


def run() -> int:
    try:
        for stream in (sys.stdout, sys.stderr):
            if stream is not None:
                stream.reconfigure(errors="backslashreplace")  # a name may be no text
        return main()
    except SystemExit as end:  # of the argument parser
        return end.code if isinstance(end.code, int) else 1
    except KeyboardInterrupt:
        return 3


if __name__ == "__main__":
    os._exit(run())  # all was flushed, and Python's own end takes some milliseconds
