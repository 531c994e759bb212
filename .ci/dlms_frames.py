"""Frames of a client (IEC 62056-46), and a fake meter that answers one poll, for the scripts that drive the program."""
import datetime


def check(data):
    """Returns the frame check sequence of the bytes, low byte first."""
    register = 0xFFFF
    for byte in data:
        register ^= byte
        for _ in range(8):
            register = (register >> 1) ^ 0x8408 if register & 1 else register >> 1
    return (register ^ 0xFFFF).to_bytes(2, "little")


def frame(source, control, information=b"", to=0x03):
    """Returns a frame, by default to the meter's one-byte address."""
    length = 2 + 2 + 1 + 2 + (2 + len(information) if information else 0)
    head = (0xA000 | length).to_bytes(2, "big") + bytes([to, source, control])
    body = head + check(head) + information if information else head
    return b"\x7e" + body + check(body) + b"\x7e"


class Client:
    """Makes a client's frames, one APDU in each. Its sequence numbers assume that each frame is answered before the next is sent."""

    PUBLIC, MANAGEMENT = 0x21, 0x03
    OPEN_PUBLIC = bytes.fromhex("601da109060760857405080101be10040e01000000065f1f0400007e1f04b0")
    OPEN_MANAGEMENT = bytes.fromhex(
        "6036a1090607608574050801018a0207808b0760857405080201ac0a8008"
    ) + b"12345678" + bytes.fromhex("be10040e01000000065f1f0400007e1f04b0")

    def __init__(self, source):
        self.source, self.number = source, 0

    def connect(self):
        self.number = 0
        return [line(frame(self.source, 0x93)), self.apdu(
            self.OPEN_PUBLIC if self.source == self.PUBLIC else self.OPEN_MANAGEMENT)]

    def apdu(self, apdu):
        control = self.number << 5 | 0x10 | self.number << 1
        self.number = (self.number + 1) % 8
        return line(frame(self.source, control, b"\xe6\xe6\x00" + apdu))


def line(octets):
    return "> " + octets.hex() + "\n"


def frames_in(data):
    """Returns the complete frames in the data, without their flags, and the bytes after the last of them."""
    found = []
    while True:
        data = data[data.find(b"\x7e"):] if b"\x7e" in data else b""
        while data[1:2] == b"\x7e":
            data = data[1:]
        if len(data) < 3:
            return found, data
        length = int.from_bytes(data[1:3], "big") & 0x7FF
        if len(data) < length + 2:
            return found, data
        found.append(data[1:length + 1])
        data = data[length + 1:]


class FakeMeter:
    """Answers one poll, whatever the requests are. A row has a clock in seconds and three registers. The first list of columns is sent
    before the rows, the second after them; a column has a class, a logical name, an attribute and a data index."""

    ACCEPTED = bytes.fromhex("6129a109060760857405080101a203020100a305a103020100be10040e0800065f1f0400001c1d04000007")
    BEGIN = datetime.datetime(2000, 1, 1)

    COLUMNS = [(8, "0000010000ff", 2, 0), *((3, f"0100{energy:02x}0800ff", 2, 0) for energy in (1, 2, 3))]

    def __init__(self, rows, source=0x03, columns=(COLUMNS, COLUMNS)):
        self.source, self.rows, self.columns = source, rows, columns

    def columns_response(self, columns):
        """Returns the GET response with these columns."""
        each = b"".join(b"\x02\x04\x12" + of_class.to_bytes(2, "big") + b"\x09\x06" + bytes.fromhex(name)
                        + b"\x0f" + bytes([attribute]) + b"\x12" + index.to_bytes(2, "big") for of_class, name, attribute, index in columns)
        return b"\xc4\x01\xc1\x00\x01" + bytes([len(columns)]) + each

    def time(self, clock):
        at = self.BEGIN + datetime.timedelta(seconds=clock)
        return at.year.to_bytes(2, "big") + bytes([at.month, at.day, 0xFF, at.hour, at.minute, at.second, 0, 0x80, 0, 0])

    def buffer(self):
        rows = b"".join(b"\x02\x04\x09\x0c" + self.time(row[0]) + b"".join(b"\x06" + part.to_bytes(4, "big") for part in row[1:])
                        for row in self.rows)
        return b"\xc4\x01\xc1\x00\x01" + bytes([len(self.rows)]) + rows

    def frame(self, control, information=b""):
        length = 2 + 2 + 1 + 2 + (2 + len(information) if information else 0)
        head = (0xA000 | length).to_bytes(2, "big") + bytes([self.source, 0x03, control])
        body = head + check(head) + information if information else head
        return b"\x7e" + body + check(body) + b"\x7e"

    def apdu(self, number, apdu):
        """Returns an APDU in a frame that answers the client's information frame with this number."""
        return self.frame((number + 1) % 8 << 5 | 0x10 | number << 1, b"\xe6\xe7\x00" + apdu)

    def answers(self):
        """Returns the answers of a whole poll, in order."""
        before, after = (self.columns_response(it) for it in self.columns)
        apdus = [self.ACCEPTED, before, self.buffer(), after, bytes.fromhex("6303800100")]
        return [self.frame(0x73), *(self.apdu(number, apdu) for number, apdu in enumerate(apdus)), self.frame(0x73)]

    def serve(self, line):
        """Sends the next answer after each frame received."""
        rest = b""
        for answer in self.answers():
            found = []
            while not found:
                more = line.recv(4096)
                if not more:
                    return
                found, rest = frames_in(rest + more)
            line.sendall(answer)
        line.recv(1)
