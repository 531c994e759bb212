#!/usr/bin/env python3
"""The library from Python, by ctypes over a shared object that gcc makes of it:

    gcc -shared -o libdlms.so heap.c -Wl,--whole-archive libdlms_c.a -Wl,--no-whole-archive
    dlms.py libdlms.so frame 7ea0070321930f017e      tells where a frame stands, and what its header says
    dlms.py libdlms.so explain 7ea0070321930f017e    tells what the frames say
    dlms.py libdlms.so apdu c001c10001000060000ff0200 client
    dlms.py libdlms.so poll 127.0.0.1:4059           polls a meter's load profile as management, and prints its rows
"""
import ctypes
import socket
import sys

SEND, DONE, NOTHING, SHORT = 4, 0, 1, 18
SIDES = {"client": 1, "meter": 2}
FRAME = 160


class Address(ctypes.Structure):
    _fields_ = [("octets", ctypes.c_uint8), ("upper", ctypes.c_uint16), ("lower", ctypes.c_uint16)]


class Place(ctypes.Structure):
    _fields_ = [("start", ctypes.c_size_t), ("end", ctypes.c_size_t), ("information", ctypes.c_size_t), ("information_length", ctypes.c_size_t),
                ("destination", Address), ("source", Address), ("control", ctypes.c_uint8), ("is_segmented", ctypes.c_bool)]


class Handle(ctypes.Structure):
    _fields_ = [("at", ctypes.c_void_p), ("is_full", ctypes.c_bool)]


class Plan(ctypes.Structure):
    _fields_ = [("client", ctypes.c_uint8), ("has_after", ctypes.c_bool), ("after", ctypes.c_uint32), ("asks_columns", ctypes.c_bool)]


class Row(ctypes.Structure):
    _fields_ = [("second", ctypes.c_uint32), ("active_import", ctypes.c_uint32), ("active_export", ctypes.c_uint32), ("reactive_import", ctypes.c_uint32)]


def octets(data):
    """A pointer, which is never null, and a length."""
    return (ctypes.c_uint8 * max(len(data), 1)).from_buffer_copy(data or b"\0"), ctypes.c_size_t(len(data))


def tell_frame(dlms, data):
    place = Place()
    if not dlms.dlms_next_frame(*octets(data), ctypes.byref(place)):
        return "no frame"
    information = data[place.information:place.information + place.information_length]
    return (f"frame {place.start} to {place.end}, from {place.source.upper} to {place.destination.upper}, control {place.control:02x}"
            f"{', segmented' if place.is_segmented else ''}, information {information.hex() or 'none'}")


def told(call):
    """The text that a call puts; where the room is too short, once more with as much as is asked for."""
    size = ctypes.c_size_t(0)
    for room in (4096, None):
        length = room or size.value
        text = (ctypes.c_uint8 * length)()
        code = call(text, ctypes.c_size_t(length), ctypes.byref(size))
        if code == DONE:
            return bytes(text[:size.value]).decode().rstrip("\n")
        assert code == SHORT, code
    raise AssertionError("the text grew")


def explain(dlms, data):
    return told(lambda *room: dlms.dlms_explain(*octets(data), *room))


def explain_apdu(dlms, data, side):
    return told(lambda *room: dlms.dlms_explain_apdu(*octets(data), ctypes.c_uint8(side), *room))


class Poller:
    def __init__(self, dlms, client, secret):
        self.dlms, self.handle = dlms, Handle(None, False)
        self.frame, self.size, self.number = (ctypes.c_uint8 * FRAME)(), ctypes.c_size_t(0), ctypes.c_uint8(0)
        code = dlms.dlms_poller_new(ctypes.byref(self.handle), ctypes.byref(Plan(client, False, 0, True)), *octets(secret))
        assert code == DONE, code

    def room(self):
        return self.frame, ctypes.c_size_t(FRAME), ctypes.byref(self.size)

    def sent(self):
        return bytes(self.frame[:self.size.value])

    def first(self):
        assert self.dlms.dlms_poller_next(ctypes.byref(self.handle), *self.room()) == SEND
        return self.sent()

    def on(self, data):
        """What is answered of the first frame in these octets, and the octets behind it."""
        taken = ctypes.c_size_t(0)
        code = self.dlms.dlms_poller_on(ctypes.byref(self.handle), *octets(data), ctypes.byref(taken), *self.room(), ctypes.byref(self.number))
        return code, data[taken.value:]

    def timeout(self):
        return self.dlms.dlms_poller_timeout(ctypes.byref(self.handle), *self.room(), ctypes.byref(self.number))

    def rows(self):
        count, row = ctypes.c_size_t(0), Row()
        self.dlms.dlms_poller_rows(ctypes.byref(self.handle), ctypes.byref(count))
        for index in range(count.value):
            assert self.dlms.dlms_poller_row(ctypes.byref(self.handle), ctypes.c_size_t(index), ctypes.byref(row)) == DONE
            yield row.second, row.active_import, row.active_export, row.reactive_import

    def free(self):
        self.dlms.dlms_poller_free(ctypes.byref(self.handle))


def poll(dlms, place):
    host, port = place.rsplit(":", 1)
    poller = Poller(dlms, 1, b"12345678")
    with socket.create_connection((host, int(port)), timeout=2) as line:
        line.sendall(poller.first())
        code, rest = NOTHING, b""
        while code != DONE:
            try:
                came = rest or line.recv(4096)
                if not came:
                    sys.exit("the meter hung up")
                code, rest = poller.on(came)
            except TimeoutError:
                code = poller.timeout()
            if code == SEND:
                line.sendall(poller.sent())
            elif code not in (DONE, NOTHING):
                sys.exit(f"code {code} {poller.number.value}")
    for row in poller.rows():
        print(",".join(str(number) for number in row))
    poller.free()


def main():
    dlms = ctypes.CDLL(sys.argv[1])
    dlms.dlms_next_frame.restype = ctypes.c_bool
    if sys.argv[2] == "frame":
        print(tell_frame(dlms, bytes.fromhex(sys.argv[3])))
    elif sys.argv[2] == "explain":
        print(explain(dlms, bytes.fromhex(sys.argv[3])))
    elif sys.argv[2] == "apdu":
        print(explain_apdu(dlms, bytes.fromhex(sys.argv[3]), SIDES[sys.argv[4]] if len(sys.argv) > 4 else 0))
    else:
        poll(dlms, sys.argv[3])


main()
