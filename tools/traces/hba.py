"""Lines between a host and a controller, as tools/record-hba writes them."""
from traces.said import Unreadable, bytes_in, number_in

REASONS = ("because ", "lifted by")
PXCLB, PXFB, PXSCTL, GHC = 0x100, 0x108, 0x12C, 0x4


class Memory:
    """The bytes of a host that were read or written in a work."""

    def __init__(self):
        self.bytes = {}

    def put(self, at, data):
        self.bytes.update(zip(range(at, at + len(data)), data))

    def get(self, at, size):
        """So many bytes from there on, or as many as are known."""
        found = [self.bytes.get(it) for it in range(at, at + size)]
        return bytes(found[: found.index(None) if None in found else size])


class Hba:
    """Requests of a host, and what a controller answered."""

    def __init__(self, queue):
        self.queue, self.list, self.received, self.det = queue, 0, 0, 0

    def read(self, lines):
        self.lines = [(number, line) for number, line in enumerate(lines, 1) if line.strip() and not line.startswith("#")]
        self.lines = [(number, line) for number, line in self.lines if not line.startswith(tuple(f"< {it}" for it in REASONS))]
        self.lines.reverse()
        while self.lines:
            number, words = self.next(">")
            words = words.split(" ")
            if not self.lines:
                return
            getattr(self, f"by_{words[0]}", self.by_other)(number, words)

    def next(self, mark):
        if not self.lines:
            raise Unreadable(self.last, "the trace ends within what this line asks for")
        self.last, line = self.lines.pop()
        if not line.startswith(f"{mark} "):
            raise Unreadable(self.last, f"no line that begins with {mark!r} and a blank, as one does here")
        return self.last, line[2:]

    def by_other(self, number, words):
        self.next("<")

    def by_why(self, number, words):
        for _ in range(number_in(*self.next("<"))):
            self.next("<")

    def by_w(self, number, words):
        if self.next("<")[1] != "ok":
            return
        if len(words) != 3:
            raise Unreadable(number, "no write of a register: w OFFSET VALUE")
        offset, value = (number_in(number, it) for it in words[1:])
        if offset == PXCLB:
            self.list = value & ~0x3FF
        elif offset == PXFB:
            self.received = value & ~0xFF
        elif offset == GHC and value & 1:
            self.reset(number, 1)
        elif offset == PXSCTL:
            if value & 15 and not self.det:
                self.reset(number, 1)
            self.det = value & 15

    def by_power(self, number, words):
        if self.next("<")[1] == "ok":
            self.list = self.received = 0
            self.reset(number, 0)

    def reset(self, number, kind):
        self.det = 0
        self.queue.reset(number, kind)

    def by_turn(self, number, words):
        self.work()

    def by_run(self, number, words):
        while not self.work().startswith(("idle", "error ")):
            pass

    def work(self):
        """One work: what moved, and its last line."""
        read, wrote = Memory(), Memory()
        while True:
            number, line = self.next("<")
            kind, _, rest = line.partition(" ")
            if kind not in ("m", "p"):
                self.done(number, line, read, wrote)
                return line
            at, _, what = rest.partition(" ")
            reply = self.next(">")
            if kind == "m" and reply[1] != "none":
                read.put(number_in(number, at), bytes_in(*reply))
            elif kind == "p" and reply[1] == "ok":
                wrote.put(number_in(number, at), bytes_in(number, what))

    def done(self, number, line, read, wrote):
        words = line.split(" ")
        if words[0] == "fault":
            raise Unreadable(number, "a fault of memory: what the drive did is not shown")
        if words[0] == "did" and words[1] == "complete":
            self.completed(number, number_in(number, words[2]), read, wrote)
        elif words[0] == "did" and words[1] in ("fetch", "control"):
            self.fetched(number, number_in(number, words[2]), read, wrote, words[1])

    def fetched(self, number, slot, read, wrote, kind):
        fis = read.get(self.table(number, slot, read), 20)
        if len(fis) < 20:
            raise Unreadable(number, f"the FIS of slot {slot} was not read before it")
        if kind == "control":
            if not fis[1] & 0x80:
                self.queue.control(number, fis)
            return
        self.queue.begin(number, fis)
        command = self.queue.current
        if not command.is_queued:
            self.move(number, command, slot, read, wrote)
        register, setup = wrote.get(self.received + 0x40, 20), wrote.get(self.received + 0x20, 20)
        if len(register) == 20:
            self.queue.answered(number, register[2], register[3])
        elif len(setup) == 20:
            self.queue.answered(number, setup[15], setup[3])
        else:
            raise Unreadable(number, "no FIS of the drive was received for this command")

    def completed(self, number, tag, read, wrote):
        self.queue.moves(number, tag)
        self.move(number, self.queue.held[tag], tag, read, wrote)
        bits = wrote.get(self.received + 0x58, 8)
        if len(bits) != 8:
            raise Unreadable(number, "no Set Device Bits FIS was received for this command")
        self.queue.device_bits(number, bits[2], bits[3], int.from_bytes(bits[4:], "little"))

    def table(self, number, slot, read):
        """Where the table of a slot stands (AHCI 1.3.1, 4.2.2)."""
        header = read.get(self.list + 32 * slot, 12)
        if len(header) < 12:
            raise Unreadable(number, f"the header of slot {slot} was not read before it")
        return int.from_bytes(header[8:12], "little") & ~0x7F

    def move(self, number, command, slot, read, wrote):
        """The data of a command, from the blocks that its descriptors name (AHCI 1.3.1, 4.2.3.3)."""
        left, at = command.goes or command.comes, self.table(number, slot, read) + 0x80
        memory, data = read if command.goes else wrote, b""
        while left:
            entry = read.get(at, 16)
            if len(entry) < 16:
                break
            size = min(left, (int.from_bytes(entry[12:16], "little") & 0x3FFFFF) + 1)
            data += memory.get(int.from_bytes(entry[:4], "little"), size)
            left, at = left - size, at + 16
        command.is_seen = not left
        if command.goes:
            command.sent = data
        else:
            command.got = data
