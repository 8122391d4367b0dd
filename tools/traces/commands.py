"""Commands of a host with their answers: in the order in which they ended, and as lines of a script."""
import collections

from traces.said import HEADER, Unreadable

SECTOR = 512
ERROR_LOG = 0x10
FAILED = 0x21                                      # ERR and DF of Status (ACS-3, section 6.2)
READ_QUEUED, WRITE_QUEUED = 0x60, 0x61
TRANSFERS = {0x25: "dread", 0x35: "dwrite", 0xC8: "dread", 0xCA: "dwrite"}
SHORT = (0xC8, 0xCA)                               # with an address of 28 bits
RECEIVES, SENDS, LOGS, IDENTIFY = (0x5C, 0x5D), (0x5E, 0x5F), (0x2F, 0x47), 0xEC


class Command:
    """A command of a host (Serial ATA, Register - Host to Device), its data, and how it ended."""

    def __init__(self, number, fis):
        self.number, self.code, self.device = number, fis[2], fis[7]
        self.feature = fis[3] | fis[11] << 8
        self.lba = int.from_bytes(fis[4:7] + fis[8:11], "little")
        self.count = fis[12] | fis[13] << 8
        self.sent, self.got = b"", b""
        self.status, self.error, self.is_seen = None, 0, True

    @property
    def is_queued(self):
        return self.code in (READ_QUEUED, WRITE_QUEUED)

    @property
    def tag(self):
        return self.count >> 3 & 31

    @property
    def place(self):
        """The first sector of a transfer, and how many there are (ACS-3: a count of 0 is the greatest)."""
        if self.code in SHORT:
            return self.lba & 0xFFFFFF | (self.device & 15) << 24, self.count & 255 or 256
        return self.lba, (self.feature if self.is_queued else self.count) or 65536

    @property
    def blocks(self):
        """The blocks of a trusted command (ACS-3, TRUSTED SEND): the high byte in LBA 7:0."""
        return self.count & 255 | (self.lba & 255) << 8

    @property
    def is_error_log(self):
        return self.code in LOGS and self.lba & 0xFF0000FFFF == ERROR_LOG and self.count == 1

    @property
    def comes(self):
        """How many bytes come from the drive, if the command is served."""
        if self.code in (READ_QUEUED, 0x25, 0xC8):
            return self.place[1] * SECTOR
        if self.code in RECEIVES:
            return self.blocks * SECTOR
        return {IDENTIFY: SECTOR, **dict.fromkeys(LOGS, self.count * SECTOR)}.get(self.code, 0)

    @property
    def goes(self):
        """How many bytes go to the drive."""
        if self.code in (WRITE_QUEUED, 0x35, 0xCA):
            return self.place[1] * SECTOR
        return self.blocks * SECTOR if self.code in SENDS else 0


Reset = collections.namedtuple("Reset", "number kind")
Remark = collections.namedtuple("Remark", "number text")


class Queue:
    """What a drive was sent, and what it answered, as a list of commands in the order in which they ended."""

    def __init__(self):
        self.ended, self.held, self.current, self.unnamed, self.has_failed = [], {}, None, None, False
        self.moving, self.in_reset = None, False

    def begin(self, number, fis):
        if self.current:
            raise Unreadable(number, f"a command, while that of line {self.current.number} has no answer")
        command = Command(number, fis)
        if self.unnamed and not command.is_error_log:
            self.nameless(number)
        if self.held and not command.is_queued and not self.unnamed:
            raise Unreadable(number, "a command that is not queued, while queued ones are held: no line of a script says this")
        if command.is_queued and command.tag in self.held:
            raise Unreadable(number, f"tag {command.tag} is held since line {self.held[command.tag].number}: no line of a script says this")
        self.current = self.moving = command

    def control(self, number, fis):
        """A FIS without a command. Two are a software reset, by SRST (Serial ATA, Device Control): it ends the queue, and no more."""
        was, self.in_reset = self.in_reset, fis[0] == 0x27 and bool(fis[15] & 4)
        if was and not self.in_reset:
            if self.held or self.has_failed:
                raise Unreadable(number, "a software reset of a queue that is not empty: no line of a script says this")
            self.ended.append(Remark(number, "a software reset, with nothing in the queue"))

    def answered(self, number, status, error):
        """The register FIS of the drive: a queued command is held or has failed, another one has ended."""
        command, self.current = self.current, None
        if command is None:
            return
        command.status, command.error = status, error
        if not command.is_queued:
            self.end(number, command)
        elif status & FAILED:
            self.fail(command)
        else:
            self.held[command.tag] = command

    def end(self, number, command):
        if self.unnamed:
            self.name(number, command)
        self.ended.append(command)
        if command.is_error_log and not command.status & FAILED:
            self.has_failed = False

    def fail(self, command):
        """A queued command failed, which drops what is held."""
        self.held.pop(command.tag, None)
        self.ended.append(command)
        self.drop("dropped, as the queue failed")
        self.has_failed = True

    def drop(self, why):
        self.ended += [Remark(it.number, f"the command of tag {it.tag} was {why}") for it in self.held.values()]
        self.held = {}

    def name(self, number, log):
        """The log page that behind a failure says which tag it was (ACS-3, NCQ Command Error log)."""
        _, status, error = self.unnamed
        tag = log.got[0] & 0x9F if log.got else None
        if tag not in self.held:
            self.nameless(number)
        self.unnamed, command = None, self.held[tag]
        command.status, command.error = status, error
        self.fail(command)

    def nameless(self, number):
        raise Unreadable(self.unnamed[0], f"a queued command failed, and line {number} does not tell its tag, as log page 10h does")

    def device_bits(self, number, status, error, tags):
        """Set Device Bits: queued commands have ended, in the order in which their data moved; or one has failed."""
        done = [it for it in self.held.values() if tags >> it.tag & 1]
        if bin(tags).count("1") != len(done):
            raise Unreadable(number, f"of the tags {tags:08x} not all are held")
        for command in sorted(done, key=lambda it: getattr(it, "moved", 0)):
            self.ended.append(self.held.pop(command.tag))
        if status & FAILED and len(self.held) == 1:
            command, = self.held.values()
            command.status, command.error = status, error
            self.fail(command)
        elif status & FAILED:
            self.unnamed = (number, status, error)

    def moves(self, number, tag):
        """The data of a held command move next."""
        if tag not in self.held:
            raise Unreadable(number, f"data of tag {tag}, which is not held")
        self.moving, self.held[tag].moved = self.held[tag], number

    def reset(self, number, kind):
        self.drop("dropped by a reset")
        self.ended.append(Reset(number, kind))
        self.current = self.unnamed = None
        self.has_failed = self.in_reset = False

    def all(self):
        """What ended, and what the trace shows no end of."""
        if self.unnamed:
            raise Unreadable(self.unnamed[0], "a queued command failed, and no read of log page 10h tells its tag")
        open_ones = list(self.held.values()) + ([self.current] if self.current else [])
        for command in open_ones:
            command.status = None
        return self.ended + open_ones


class Writer:
    """Lines of a script for commands and their answers."""

    def __init__(self, transcript, left_out):
        self.transcript, self.left_out, self.written, self.stand_in = transcript, left_out, {}, None

    def write(self, ended):
        self.stand_in = unused_byte(ended)
        for it in ended:
            if isinstance(it, Remark):
                self.transcript.remark(it.number, it.text)
            elif isinstance(it, Reset):
                self.transcript.say(it.number, f"reset 1 {it.kind}")
            elif it.code in self.left_out:
                self.transcript.remark(it.number, f"command {it.code:02x} is left out")
            else:
                line = self.line(it)
                self.transcript.say(it.number, line, self.answer(it))

    def line(self, it):
        if it.is_queued or it.code in TRANSFERS:
            return self.transfer(it)
        protocol, specific = it.feature & 255, it.lba >> 8 & 0xFFFF
        if it.code in RECEIVES:
            return f"recv 1 {specific} {it.blocks}" if protocol == 1 else f"secin 1 {protocol} {specific} {it.blocks}"
        if it.code in SENDS:
            head = f"send 1 {specific}" if protocol == 1 else f"secout 1 {protocol} {specific}"
            return f"{head} {self.sent_by(it)}"
        if it.code == IDENTIFY:
            return "identify 1"
        if it.is_error_log:
            return "log 1"
        raise Unreadable(it.number, f"no line of a script says the command {it.code:02x}: --leave-out {it.code:02x} leaves it out")

    def sent_by(self, it):
        """The bytes of a send but for zeros at the end of its last block, which a script puts there again."""
        if len(it.sent) != it.goes or not it.goes:
            raise Unreadable(it.number, f"{len(it.sent)} bytes are seen to go to the drive, not {it.goes}")
        return it.sent[: max(len(it.sent.rstrip(b"\0")), it.goes - SECTOR + 1)].hex()

    def transfer(self, it):
        first, count = it.place
        if not it.device & 0x40:
            raise Unreadable(it.number, "bit 6 of Device is clear: no line of a script says such a command")
        words = f"{first} {count % 65536}"
        if it.is_queued:
            words = f"{'read' if it.code == READ_QUEUED else 'write'} 1 {it.tag} {words}"
        else:
            words = f"{TRANSFERS[it.code]} 1 {words}"
        return f"{words} {self.byte_of(it, first):02x}" if it.goes else words

    def byte_of(self, it, first):
        """The byte of a write: the one that all its sectors begin with, four times, or one that stands for them."""
        is_done = it.status is not None and not it.status & FAILED
        if len(it.sent) != it.goes and (is_done or it.sent):
            raise Unreadable(it.number, f"{len(it.sent)} bytes are seen to go to the drive, not {it.goes}")
        heads = heads_of(it.sent)
        byte = heads[0][0] if heads and set(heads) == {heads[0][:1] * 4} else self.stand_in
        if byte is None:
            raise Unreadable(it.number, "each byte begins some sector four times, so none can stand for the bytes of this write")
        if is_done:
            self.written.update({first + at: (head, byte) for at, head in enumerate(heads)})
        return byte

    def answer(self, it):
        if it.status is None:
            return None
        if it.status & FAILED:
            return f"fail {it.status:02x} {it.error:02x}"
        if not it.is_seen:
            return None
        if it.comes and it.is_queued or it.code in TRANSFERS and it.comes:
            if len(it.got) % SECTOR:
                raise Unreadable(it.number, f"{len(it.got)} bytes came from the drive: no whole sectors")
            return " ".join(["ok", *(self.shown(it.place[0] + at, head) for at, head in enumerate(heads_of(it.got)))])
        if it.comes:
            return f"data {shown_bytes(it).hex()}"
        return "ok"

    def shown(self, sector, head):
        """The first four bytes of a sector; where they are those that were written last, as the script wrote them."""
        last, byte = self.written.get(sector, (None, 0))
        return (bytes([byte] * 4) if head == last else head).hex()


def heads_of(data):
    return [data[at : at + 4] for at in range(0, len(data), SECTOR)]


def unused_byte(ended):
    """A byte that no sector of the trace begins with four times; None, where there is none."""
    commands = [it for it in ended if isinstance(it, Command)]
    seen = {head for it in commands for data in (it.sent, it.got) for head in heads_of(data)}
    return next((byte for byte in range(255, -1, -1) if bytes([byte] * 4) not in seen), None)


def shown_bytes(it):
    """What a script prints of data that come: of a receive as many bytes as they count."""
    if it.code not in RECEIVES:
        return it.got
    protocol, specific = it.feature & 255, it.lba >> 8 & 0xFFFF
    counted = {(0, 1): (2, 4, 4), (0, 0): (6, 8, 8), (1, 1): (0, 4, 4)}.get((protocol, specific))
    first, last, beside = counted or ((10, 12, 12) if protocol == 2 else (16, 20, HEADER) if protocol else (6, 8, 8))
    return it.got[: int.from_bytes(it.got[first:last], "big") + beside]
