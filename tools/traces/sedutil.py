"""What sedutil dumps of the ComPackets that it sends and receives."""
import re

from traces.said import HEADER, Unreadable

DUMPED = re.compile(r"([0-9a-f]{4,8}) ((?:[0-9a-f]{8} ){0,4}(?:[0-9a-f]{2}){0,4} *) ")
HEXES = 36                                         # four words of eight digits, and a blank behind each
BLOCKS = 4                                         # of a receive: sedutil asks for 2,048 bytes


def dump_behind(lines, at):
    """The bytes of the dump behind a line, and the index of the line behind the dump."""
    data = b""
    at += 1
    if at < len(lines) and lines[at].strip() == "Entering hexDump":
        at += 1
    while at < len(lines) and len(data) % 16 == 0:
        offset, _, rest = lines[at].partition(" ")
        found = DUMPED.match(f"{offset} {rest[:HEXES].ljust(HEXES)} ")
        if not found or len(found[2]) != HEXES or int(offset, 16) != len(data):
            break
        data += bytes.fromhex(found[2])
        at += 1
    return data, at


def whole(number, data, least, places, beside):
    """The bytes, if they are as many as the number in them says."""
    if len(data) < least:
        raise Unreadable(number, f"the dump behind it has {len(data)} bytes: no whole header")
    wanted = int.from_bytes(data[places], "big") + beside
    if len(data) != wanted:
        raise Unreadable(number, f"the dump behind it has {len(data)} bytes, its header says {wanted}")
    return data


class Sedutil:
    """What sedutil said to one device."""

    def __init__(self, transcript, device):
        self.transcript, self.wanted, self.device = transcript, device, None
        self.sent = self.received = None

    def is_wanted(self, number):
        if self.wanted is None and self.device is not None:
            self.wanted = self.device
        if self.device not in (None, self.wanted) and not self.is_given:
            raise Unreadable(number, f"{self.device} is another device than {self.wanted}: --device says which")
        return self.device == self.wanted

    def flush(self):
        """What was sent, if nothing of its answer was dumped; what was received, once it is known that it did not fail."""
        if self.sent:
            number, com_id, data = self.sent
            self.transcript.say(number, f"send 1 {com_id} {data.hex()}", "ok" if self.received else None)
        if self.received:
            number, com_id, answer = self.received
            self.transcript.say(number, f"recv 1 {com_id} {BLOCKS}", answer)
        self.sent = self.received = None

    def read(self, lines):
        self.is_given = self.wanted is not None
        dumps = at = 0
        while at < len(lines):
            number, line, here = at + 1, lines[at].strip(), at
            at += 1
            if line.startswith("DtaDevOS::init "):
                self.flush()
                self.device = line.split(" ", 1)[1]
            elif line.startswith("Command failed on "):
                self.failed(number, line)
            elif line in KINDS_OF_DUMPS:
                data, at = dump_behind(lines, here)
                dumps += 1
                if self.is_wanted(number):
                    KINDS_OF_DUMPS[line](self, number, data)
        self.flush()
        if not dumps:
            raise Unreadable(len(lines), "the trace ends, and no dump stood in it: sedutil-cli -vvvvv prints them")

    def failed(self, number, line):
        """The command failed, with a status that sedutil does not tell: there is no answer."""
        if self.received:
            self.received = (*self.received[:2], None)
        self.flush()
        self.transcript.remark(number, line)

    def discovery(self, number, data):
        """Level 0 discovery, of which sedutil dumps all but the last four bytes: that is no whole answer."""
        self.flush()
        whole(number, data, 4, slice(0, 4), 0)
        self.transcript.say(number, f"recv 1 1 {BLOCKS}", None, "Level 0 discovery, whose last four bytes sedutil does not dump")

    def command(self, number, data):
        self.flush()
        whole(number, data, HEADER, slice(16, 20), HEADER)
        self.sent = (number, int.from_bytes(data[4:6], "big"), data)

    def reply(self, number, data):
        if not self.sent or self.received:
            raise Unreadable(number, "a reply, and no command before it")
        whole(number, data, HEADER, slice(16, 20), HEADER)
        self.received = (number, self.sent[1], f"data {data.hex()}")


KINDS_OF_DUMPS = {"Dumping D0Response": Sedutil.discovery, "Dumping command buffer": Sedutil.command,
                  "Dumping reply buffer": Sedutil.reply}
