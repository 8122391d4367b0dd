"""FISes of a bus, as comma-separated values."""
import csv

from traces.commands import FAILED
from traces.said import Unreadable, bytes_in

LENGTHS = {0x27: 20, 0x34: 20, 0x39: 4, 0x41: 28, 0x5F: 20, 0xA1: 8}
DATA = 0x46


class Bus:
    """FISes in the order of their lines."""

    def __init__(self, queue):
        self.queue, self.setup = queue, None

    def read(self, lines):
        columns = None
        rows = csv.reader(lines)
        for row in rows_of(rows):
            if not row or row[0].startswith("#"):
                continue
            number = rows.line_num
            if columns is None:
                columns = self.columns(number, row)
                continue
            if len(row) <= max(columns.values()):
                raise Unreadable(number, f"the row has {len(row)} columns")
            self.row(number, *(row[columns[it]].strip().lower() for it in ("from", "fis")))

    def columns(self, number, row):
        names = [it.strip().lower() for it in row]
        if not {"time", "from", "fis"} <= set(names):
            raise Unreadable(number, "the first row names no columns time, from and fis")
        return {it: names.index(it) for it in ("from", "fis")}

    def row(self, number, sender, text):
        if sender in ("power", "reset"):
            return self.queue.reset(number, ("power", "reset").index(sender))
        if sender not in ("host", "drive"):
            raise Unreadable(number, f"{sender!r} is none of host, drive, power and reset")
        fis = bytes_in(number, text.replace(" ", ""))
        if fis[0] == DATA and len(fis) % 4 == 0 and len(fis) > 4:
            return self.data(number, sender, fis[4:])
        if LENGTHS.get(fis[0]) != len(fis):
            raise Unreadable(number, f"a FIS that begins with {fis[0]:02x} has not {len(fis)} bytes")
        if (fis[0] == 0x27) != (sender == "host"):
            raise Unreadable(number, f"a FIS that begins with {fis[0]:02x}, by the {sender}")
        if fis[0] == 0x27 and not fis[1] & 0x80:
            self.queue.control(number, fis)
        elif fis[0] == 0x27:
            self.queue.begin(number, fis)
            self.setup = None
        else:
            self.drives(number, fis)
        return None

    def drives(self, number, fis):
        """A FIS of the drive that carries no data."""
        if fis[0] == 0x34:
            self.queue.answered(number, fis[2], fis[3])
        elif fis[0] == 0xA1:
            self.queue.device_bits(number, fis[2], fis[3], int.from_bytes(fis[4:], "little"))
        elif fis[0] == 0x41:
            self.queue.moves(number, fis[4] & 31)
        elif fis[0] == 0x5F:
            self.setup = fis
            if fis[15] & FAILED:
                self.queue.answered(number, fis[15], fis[3])

    def data(self, number, sender, data):
        """A Data FIS. The last one of a command by PIO ends it, with the status that its PIO Setup FIS told."""
        moving = self.queue.moving
        if moving is None:
            raise Unreadable(number, "a Data FIS, and no command before it")
        if sender == "host":
            moving.sent += data
        else:
            moving.got += data
        if sender == "drive" and self.setup and moving is self.queue.current and len(moving.got) >= moving.comes:
            self.queue.answered(number, self.setup[15], self.setup[3])


def rows_of(rows):
    try:
        yield from rows
    except csv.Error as fault:
        raise Unreadable(rows.line_num, fault) from fault
