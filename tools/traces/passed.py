"""Commands that a system passed through, as sg_raw and hdparm print them."""
import re

from traces.commands import FAILED, RECEIVES, SECTOR, SENDS
from traces.said import Unreadable

CDB = re.compile(r"\s*(?:cdb to send: .*\[|outgoing cdb: *)((?:[0-9a-f]{2} ?)+)\]?\s*$")
ENDED = re.compile(r"(?:SCSI Status: |SG_IO: \S+ status=)(Good|Check Condition|0x0\b|0x2\b)")
RECEIVED = re.compile(r"Received (\d+) bytes of data:")
LINED = re.compile(r"(SG_IO: sb\[\]|incoming_data|outgoing_data): +((?:[0-9a-f]{2} ?)+)\s*$")
PASS_16, PASS_12, SECURITY_IN, SECURITY_OUT = 0x85, 0xA1, 0xA2, 0xB5


def fis_of(number, cdb):
    """The FIS that a command block stands for (SAT: ATA PASS-THROUGH, and SECURITY PROTOCOL IN and OUT)."""
    if cdb[0] == PASS_16 and len(cdb) == 16:
        low = [cdb[at] for at in (14, 4, 8, 10, 12, 13, 6)]
        high = [cdb[at] if cdb[1] & 1 else 0 for at in (7, 9, 11, 3, 5)]
    elif cdb[0] == PASS_12 and len(cdb) == 12:
        low, high = [cdb[at] for at in (9, 3, 5, 6, 7, 8, 4)], [0] * 5
    elif cdb[0] in (SECURITY_IN, SECURITY_OUT) and len(cdb) == 12:
        blocks, rest = divmod(int.from_bytes(cdb[6:10], "big") * (SECTOR if cdb[4] & 0x80 else 1), SECTOR)
        if rest or blocks > 0xFFFF:
            raise Unreadable(number, "a length that is no number of blocks: no line of a script says this")
        code = RECEIVES[0] if cdb[0] == SECURITY_IN else SENDS[0]
        low, high = [code, cdb[1], blocks >> 8, cdb[3], cdb[2], 0, blocks & 255], [0] * 5
    else:
        raise Unreadable(number, f"a command block that begins with {cdb[0]:02x}: no line of a script says it")
    return bytes([0x27, 0x80, *low[:6], *high[:4], low[6], high[4], 0, 0, 0, 0, 0, 0])


def status_in(sense):
    """Status and error of the drive in sense data, if they are there (SAT: ATA Status Return, or the fixed format)."""
    if sense[:1] in (b"\x72", b"\x73"):
        at = 8
        while at + 14 <= len(sense):
            if sense[at : at + 2] == b"\x09\x0c":
                return sense[at + 13], sense[at + 3]
            at += 2 + sense[at + 1]
    if sense[:1] == b"\x70" and len(sense) >= 10:
        if sense[4] & FAILED:
            return sense[4], sense[3]
        if sense[9] & FAILED:                      # where Linux has them before 6.11
            return sense[9], sense[8]
    return None


class Passed:
    """Commands that sg_raw and hdparm passed through, and what came of them."""

    def __init__(self, queue):
        self.queue, self.cdb = queue, None

    def read(self, lines):
        at = 0
        while at < len(lines):
            number, line = at + 1, lines[at]
            at += 1
            if found := CDB.match(line):
                self.flush()
                self.number, self.cdb = number, bytes.fromhex(found[1])
                self.ended, self.sense, self.got, self.sent = None, b"", b"", b""
            elif self.cdb is None:
                continue
            elif found := ENDED.match(line):
                self.ended = found[1] in ("Good", "0x0")
            elif found := LINED.match(line):
                self.lined(found[1], bytes.fromhex(found[2]))
            elif "Raw sense data (in hex)" in line:
                self.sense, at = bytes_below(lines, at, False)
            elif found := RECEIVED.match(line):
                self.got, at = bytes_below(lines, at, True)
                if len(self.got) != int(found[1]):
                    raise Unreadable(number, f"the dump behind it has {len(self.got)} bytes, not {found[1]}")
        self.flush()
        if self.cdb is None:
            raise Unreadable(len(lines), "the trace ends, and no command block stood in it: sg_raw -v and hdparm --verbose print them")

    def lined(self, name, data):
        if name == "incoming_data":
            self.got = data
        elif name == "outgoing_data":
            self.sent = data
        else:
            self.sense = data

    def flush(self):
        """The command before, with what was told of its end."""
        if self.cdb is None:
            return
        self.queue.begin(self.number, fis_of(self.number, self.cdb))
        command = self.queue.current
        if command.is_queued:
            raise Unreadable(self.number, "a queued command that was passed through: no line of a script says how it ended")
        command.got, command.sent = self.got, self.sent
        is_passed = self.cdb[0] in (PASS_16, PASS_12)
        told = status_in(self.sense) if is_passed and self.ended is False else None
        if self.ended:
            told = (0x50, 0)
        if told is None:
            self.queue.ended.append(command)
            self.queue.current = None
        else:
            self.queue.answered(self.number, *told)


def bytes_below(lines, at, is_dump):
    """The bytes of the lines in hex from this one on, and the index of the line behind them; in a dump offsets stand before."""
    data = b""
    while at < len(lines):
        head, words = lines[at][:8].strip(), lines[at][8:57].split()
        if head != (f"{len(data):02x}" if is_dump else "") or not words or not all(re.fullmatch("[0-9a-f]{2}", it) for it in words):
            break
        data += bytes.fromhex("".join(words))
        at += 1
    return data, at
