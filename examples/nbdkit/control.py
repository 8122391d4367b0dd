"""What a block device can't carry, for a drive behind opal-plugin.so: locks and unlocks a range as Admin1, in a session with
the Locking SP; resets the drive; tells what denied the last command. The module `opalport` makes and opens the frames.

    python3 control.py SOCKET unlock 1          lock 1, power, hardware, denial
"""
import socket
import struct
import sys

from opalport import MSID, frame, opened

SECTOR, SECURITY, COM_ID, DONE = 512, 1, 0x1000, 0x50
LOCKING_SP, ADMIN1, SESSION_MANAGER = 0x0000020500000002, 0x0000000900010001, 0xFF
SET, START_SESSION = 0x0000000600000017, 0xFF02
READ_LOCKED, WRITE_LOCKED = 7, 8
START_LIST, END_LIST, START_NAME, END_NAME = b"\xf0", b"\xf1", b"\xf2", b"\xf3"
CALL, END_OF_DATA, END_OF_SESSION = b"\xf8", b"\xf9", b"\xfa"


def data(text):
    """A short atom of bytes, or a medium one (TCG Core 2.01, 3.2.2.3.1)."""
    head = bytes([0xA0 | len(text)]) if len(text) < 16 else bytes([0xD0, len(text)])
    return head + text


def uid(number):
    return data(number.to_bytes(8, "big"))


def listed(*items):
    return START_LIST + b"".join(items) + END_LIST


def named(name, value):
    return START_NAME + bytes([name]) + value + END_NAME


def method(of, which, *arguments):
    return CALL + uid(of) + uid(which) + listed(*arguments) + END_OF_DATA + listed(b"\0", b"\0", b"\0")


def number_at(tokens, at):
    """The number at a place, a tiny atom or a short one, and the place behind it."""
    if tokens[at] < 0x40:
        return tokens[at], at + 1
    end = at + 1 + (tokens[at] & 0x0F)
    return int.from_bytes(tokens[at + 1:end], "big"), end


class Control:
    """The plugin's control socket."""

    def __init__(self, path):
        self.socket = socket.socket(socket.AF_UNIX)
        self.socket.connect(path)

    def _exactly(self, length):
        told = b""
        while len(told) < length:
            part = self.socket.recv(length - len(told))
            if not part:
                raise EOFError("the plugin has gone")
            told += part
        return told

    def ask(self, question):
        self.socket.sendall(question)
        code, status, error, _, length = struct.unpack(">BBBBI", self._exactly(8))
        told = self._exactly(length)
        if code or status not in (0, DONE):
            raise SystemExit(f"refused: code {code}, status {status:02x}, error {error:02x}")
        return told

    def exchange(self, session, tokens):
        """Sends tokens in a session, and gives those of the response."""
        sent = frame(COM_ID, *session, tokens)
        sent += bytes(-len(sent) % SECTOR)
        self.ask(struct.pack(">cBHI", b"S", SECURITY, COM_ID, len(sent)) + sent)
        return opened(self.ask(struct.pack(">cBHI", b"R", SECURITY, COM_ID, 4))).payload

    def call(self, session, tokens):
        """Calls a method, whose status has to be 0."""
        answer = self.exchange(session, tokens)
        status = answer[answer.rindex(END_OF_DATA + START_LIST) + 2]
        if status:
            raise SystemExit(f"refused: status {status:02x}h of the method")
        return answer

    def set_locked(self, number, is_locked, pin):
        """Sets ReadLocked and WriteLocked of a range."""
        start = [named(0, data(pin)), named(3, uid(ADMIN1))]
        answer = self.call((0, 0), method(SESSION_MANAGER, START_SESSION, b"\x01", uid(LOCKING_SP), b"\x01", *start))
        hsn, at = number_at(answer, answer.index(START_LIST) + 1)
        tsn, _ = number_at(answer, at)
        cells = [named(column, bytes([is_locked])) for column in (READ_LOCKED, WRITE_LOCKED)]
        row = 0x0000080200030000 + number if number else 0x0000080200000001
        self.call((tsn, hsn), method(row, SET, named(1, listed(*cells))))
        self.exchange((tsn, hsn), END_OF_SESSION)


def main(path, word, number="1", pin=MSID.decode()):
    control = Control(path)
    if word in ("lock", "unlock"):
        control.set_locked(int(number), word == "lock", pin.encode())
    elif word == "denial":
        print(control.ask(b"D").decode())
    else:
        control.ask({"power": b"P", "hardware": b"H"}[word])


main(*sys.argv[1:])
