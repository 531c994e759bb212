"""A meter in Python, written from the standards (IEC 62056-46, -47, -5-3, -6-1, -6-2), over HDLC and the TCP wrapper on 127.0.0.1, and how the
scripts that speak through it run the program and count what they try."""
import calendar
import os
import socket
import struct
import subprocess
import sys
import threading
import time

from dlms_frames import check

PROGRAM = os.environ.get("DLMS", os.path.join(os.path.dirname(os.path.abspath(__file__)), "../crates/dlms/out/dlms"))
FLAG = b"\x7e"
wrong, tried = [], []


def expect(what, holds, seen=""):
    tried.append(what)
    if not holds:
        wrong.append(what)
        print("WRONG:", what, seen, flush=True)


def address(parts):
    """An HDLC address: seven bits an octet, the last octet odd; two parts of 14 bits are four octets."""
    if len(parts) == 1:
        return bytes([parts[0] << 1 | 1])
    upper, lower, wide = parts[0], parts[1], len(parts) == 3 or max(parts) > 127
    if not wide:
        return bytes([upper << 1, lower << 1 | 1])
    return bytes([upper >> 7 << 1, (upper & 127) << 1, lower >> 7 << 1, (lower & 127) << 1 | 1])


def take_address(octets):
    at = 0
    while not octets[at] & 1:
        at += 1
    return octets[:at + 1], octets[at + 1:]


def length(count):
    return bytes([count]) if count < 128 else b"\x81" + bytes([count]) if count < 256 else b"\x82" + count.to_bytes(2, "big")


def octet_string(octets):
    return b"\x09" + length(len(octets)) + octets


def code(text):
    return bytes(int(group) for group in text.split("."))


def array(items):
    return b"\x01" + length(len(items)) + b"".join(items)


def structure(items):
    return b"\x02" + length(len(items)) + b"".join(items)


class Foreign:
    """A meter's side of one connection, and what it has."""

    def __init__(self, objects, server=(1,), client=16, secret=None, ua=b"", piece=128, block=None, conformance="1c1d", size=1024,
                 answers=None, silent=False):
        self.objects, self.server, self.client, self.secret = objects, address(server), bytes([client << 1 | 1]), secret
        self.ua, self.piece, self.block, self.conformance, self.size = ua, piece, block, bytes.fromhex("0000" + conformance), size
        self.answers, self.silent, self.sets, self.acts, self.asked = answers or {}, silent, {}, [], []
        self.listener = socket.create_server(("127.0.0.1", 0))
        self.place = "127.0.0.1:%d" % self.listener.getsockname()[1]
        threading.Thread(target=self.accept, daemon=True).start()

    def accept(self):
        while True:
            line, _ = self.listener.accept()
            threading.Thread(target=self.serve, args=(line,), daemon=True).start()

    def frame(self, control, information=b"", segmented=False):
        head_octets = self.client + self.server + bytes([control])
        count = 2 + len(head_octets) + 2 + (len(information) + 2 if information else 0)
        head = (0xA000 | (0x0800 if segmented else 0) | count).to_bytes(2, "big") + head_octets
        body = head + check(head) + information if information else head
        return FLAG + body + check(body) + FLAG

    def serve(self, line):
        """One connection: frames in, frames out, one at a time (window 1)."""
        came, self.pieces, self.apdu, self.sent, self.taken = b"", [], b"", 0, 0
        while True:
            came = came.lstrip(FLAG)
            # a flag within a frame is no end: the frame's length says where it ends
            count = int.from_bytes(came[:2], "big") & 0x7FF if len(came) > 1 else 0
            if not count or len(came) < count + 1:
                more = line.recv(4096)
                if not more:
                    return
                came += more
                continue
            frame, came = came[:count], came[count:]
            if check(frame[:-2]) == frame[-2:] and not self.silent:
                for reply in self.reply(frame):
                    line.sendall(reply)

    def reply(self, frame):
        segmented, rest = frame[0] & 0x08, frame[2:]
        to, rest = take_address(rest)
        source, rest = take_address(rest)
        if to != self.server or source != self.client:
            return []
        control, information = rest[0], rest[3:-2]
        if control & 0xEF == 0x83:
            self.pieces, self.apdu, self.sent, self.taken = [], b"", 0, 0
            return [self.frame(0x73, self.ua)]
        if control & 0xEF == 0x43:
            return [self.frame(0x73)]
        if control & 1:
            return self.next_piece()
        self.taken = ((control >> 1 & 7) + 1) % 8
        self.apdu += information
        if segmented:
            return [self.frame(self.taken << 5 | 0x11)]
        apdu, self.apdu = self.apdu, b""
        answer = self.answer(apdu[3:])
        if answer is None:
            return [self.frame(self.taken << 5 | 0x11)]
        whole = b"\xe6\xe7\x00" + answer
        self.pieces = [whole[at:at + self.piece] for at in range(0, len(whole), self.piece)]
        return self.next_piece()

    def next_piece(self):
        if not self.pieces:
            return [self.frame(self.taken << 5 | 0x11)]
        piece = self.pieces.pop(0)
        control = self.taken << 5 | 0x10 | self.sent << 1
        self.sent = (self.sent + 1) % 8
        return [self.frame(control, piece, bool(self.pieces))]

    def answer(self, apdu):
        self.asked.append(apdu)
        if apdu[0] == 0x60:
            has = self.secret is None or self.secret in apdu
            return bytes.fromhex("6129a109060760857405080101a20302010%da305a10302010%sbe10040e0800065f1f04" %
                                 (0 if has else 1, "0" if has else "d")) + self.conformance + self.size.to_bytes(2, "big") + b"\x00\x07"
        if apdu[0] == 0x62:
            return bytes.fromhex("6303800100")
        return {0xC0: self.get, 0xC1: self.set, 0xC3: self.act}[apdu[0]](apdu)

    def get(self, apdu):
        invoke = apdu[2:3]
        if apdu[1] == 2:
            return self.get_block(invoke, int.from_bytes(apdu[3:7], "big") + 1)
        key = (int.from_bytes(apdu[3:5], "big"), apdu[5:11], apdu[11])
        if key in self.answers:
            return self.answers[key]
        value = self.sets.get(key, self.objects.get(key))
        if callable(value):
            value = value(apdu[12:])
        if value is None:
            return b"\xc4\x01" + invoke + b"\x01\x04"
        if self.block and len(value) > self.block:
            self.going = value
            return self.get_block(invoke, 1)
        return b"\xc4\x01" + invoke + b"\x00" + value

    def get_block(self, invoke, number):
        raw = self.going[(number - 1) * self.block:number * self.block]
        last = number * self.block >= len(self.going)
        return b"\xc4\x02" + invoke + bytes([last]) + number.to_bytes(4, "big") + b"\x00" + length(len(raw)) + raw

    def set(self, apdu):
        invoke = apdu[2:3]
        if apdu[1] == 1:
            key = (int.from_bytes(apdu[3:5], "big"), apdu[5:11], apdu[11])
            if key not in self.objects:
                return b"\xc5\x01" + invoke + b"\x03"
            self.sets[key] = apdu[13:]
            return b"\xc5\x01" + invoke + b"\x00"
        if apdu[1] == 2:
            self.key, self.value, rest = (int.from_bytes(apdu[3:5], "big"), apdu[5:11], apdu[11]), b"", apdu[13:]
        else:
            rest = apdu[3:]
        last, number, raw = rest[0], rest[1:5], rest[5:]
        size = raw[0] & 0x7F if raw[0] > 127 else 0
        self.value += raw[1 + size:]
        if not last:
            return b"\xc5\x02" + invoke + number
        self.sets[self.key] = self.value
        return b"\xc5\x03" + invoke + b"\x00" + number

    def act(self, apdu):
        key = (int.from_bytes(apdu[3:5], "big"), apdu[5:11], apdu[11])
        self.acts.append((key, apdu[12:]))
        if key in self.answers:
            return self.answers[key]
        return b"\xc7\x01" + apdu[2:3] + b"\x00\x00"


def message(source, to, apdu, version=1, count=None):
    """A message of the wrapper: its version, both wrapper ports and the length of the APDU, each in two octets, and the APDU."""
    return struct.pack(">4H", version, source, to, len(apdu) if count is None else count) + apdu


class Wrapped(Foreign):
    """The same meter over the TCP wrapper, at a wrapper port. `deal` makes the pieces that go out of the answers from the first-th on; an
    empty piece closes the connection."""

    def __init__(self, objects, port=1, client=16, deal=None, first=0, named=False, **others):
        self.port, self.client_port, self.deal, self.first, self.messages = port, client, deal, first, []
        super().__init__(objects, **others)
        if named:
            self.place = "wrapper://" + self.place

    def serve(self, line):
        came, answered = b"", 0
        while True:
            count = 8 + int.from_bytes(came[6:8], "big") if len(came) > 7 else 8
            if len(came) < max(count, 9):
                try:
                    more = line.recv(4096)
                except ConnectionError:
                    return
                if not more:
                    return
                came += more
                continue
            (version, source, to), apdu = struct.unpack(">3H", came[:6]), came[8:count]
            self.messages.append(came[:count])
            came = came[count:]
            if (version, source, to) != (1, self.client_port, self.port) or self.silent:
                continue
            answer, at = self.answer(apdu), answered
            answered += 1
            whole = message(self.port, source, answer) if answer else b""
            for piece in self.deal(whole) if self.deal and at >= self.first else [whole] if answer else []:
                if not piece:
                    line.close()
                    return
                line.sendall(piece)


def run(words, place):
    """What the program prints and says, and its status."""
    process = subprocess.run([PROGRAM, words[0], place, *words[1:]], capture_output=True, text=True, timeout=60)
    return process.stdout, process.stderr, process.returncode


def asks(meter, words, printed, status=0, said=""):
    out, err, code_of = run(words, meter if isinstance(meter, str) else meter.place)
    expect(" ".join(words), (out, code_of) == (printed, status) and said in err, repr((out, err, code_of)))


def right(number, mode):
    return structure([b"\x0f" + bytes([number]), b"\x16" + bytes([mode]), b"\x00"])


def element(of_class, version, name, attributes, methods):
    return structure([b"\x12" + of_class.to_bytes(2, "big"), b"\x11" + bytes([version]), octet_string(code(name)), structure([
        array([right(*it) for it in attributes]), array([structure([b"\x0f" + bytes([number]), b"\x16" + bytes([mode])]) for number, mode in methods])])])


def key(of_class, name, number):
    return of_class, code(name), number


# The rows of a poll: seconds from 2000-01-01 on and three registers, a quarter of an hour apart from 2026-10-26 on.
POLL_ROWS = [(846_633_600 + 900 * at, 1000 + 7 * at, at // 3, 2 ** 32 - 5 + at & 0xFFFFFFFF) for at in range(40)]


def clock_of(second):
    """The date-time of a second from 2000-01-01 on, as this project's meter writes one: day of the week and hundredths are there, the deviation is not."""
    at = time.gmtime(second + calendar.timegm((2000, 1, 1, 0, 0, 0)))
    return struct.pack(">HBBBBBBBHB", at.tm_year, at.tm_mon, at.tm_mday, at.tm_wday + 1, at.tm_hour, at.tm_min, at.tm_sec, 0, 0x8000, 0)


def second_of(clock):
    year, month, day, _, hour, minute, second = struct.unpack(">HBBBBBB", clock[:8])
    return calendar.timegm((year, month, day, hour, minute, second)) - calendar.timegm((2000, 1, 1, 0, 0, 0))


def lines_of(rows):
    """The text of a readings file with these rows."""
    return "".join("%d,%d,%d,%d\n" % row for row in rows)


def poll_profile(rows, selections):
    """The profile of a poll (IEC 62056-6-2, Profile generic): a clock and three registers. It selects by range (selector 1), and notes each
    selection."""
    columns = array([structure([b"\x12" + of_class.to_bytes(2, "big"), octet_string(code(name)), b"\x0f\x02", b"\x12\x00\x00"])
                     for of_class, name in ((8, "0.0.1.0.0.255"), (3, "1.0.1.8.0.255"), (3, "1.0.2.8.0.255"), (3, "1.0.3.8.0.255"))])

    def buffer(selection):
        selections.append(selection)
        first = second_of(selection.split(b"\x09\x0c")[1]) if selection[:2] == b"\x01\x01" else 0
        return array([structure([octet_string(clock_of(row[0])), *[b"\x06" + it.to_bytes(4, "big") for it in row[1:]]]) for row in rows if row[0] >= first])

    return {key(7, "1.0.99.1.0.255", 3): columns, key(7, "1.0.99.1.0.255", 2): buffer}


def verdict():
    """Prints how much was tried, and ends with 1 if any of it was wrong."""
    print("%d tried, %d wrong" % (len(tried), len(wrong)))
    sys.exit(1 if wrong else 0)
