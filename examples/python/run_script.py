"""What `opalport` prints, by the library: a script on standard input (`run`), on a drive or on a port; a token stream
(`tokens`), Level 0 discovery of a new drive (`level0`).

    PYTHONPATH=python python3 examples/python/run_script.py run --sectors 1000 < examples/first.txt
"""
import re
import sys

from opalport import MSID, Code, Command, Drive, OpalError, Port, Range, command_fis, frame, tokens_text, trusted_fis

SECTOR = 512
MOST_CALL = 65_480
MOST_SEND = 65_535 * SECTOR
SECURITY, RESET_PROTOCOL, RESET_COM_ID, DISCOVERY_COM_ID = 1, 2, 4, 1
NUMBER = {"range": 255, "start": 2**64 - 1, "length": 2**64 - 1, "flag": 1, "client": 2**32 - 1, "tag": 31,
          "lba": 2**48 - 1, "count": 2**16 - 1, "com_id": 2**16 - 1, "session": 2**32 - 1, "blocks": 2**16 - 1,
          "protocol": 255}
LINES = {
    b"range": ["range", "start", "length", "flag", "flag", "flag", "flag"],
    b"read": ["client", "tag", "lba", "count"],
    b"write": ["client", "tag", "lba", "count", "byte"],
    b"dread": ["client", "lba", "count"],
    b"dwrite": ["client", "lba", "count", "byte"],
    b"call": ["client", "com_id", "session", "session", "tokens"],
    b"send": ["client", "com_id", "bytes"],
    b"recv": ["client", "com_id", "blocks"],
    b"secin": ["client", "protocol", "com_id", "blocks"],
    b"secout": ["client", "protocol", "com_id", "bytes"],
    b"identify": ["client"],
    b"log": ["client"],
    b"reset": ["client", "flag"],
    b"tper": ["client"],
}
PORT_LINES = {
    b"range": LINES[b"range"],
    b"put": ["client", "tag"],
    b"issue": ["tag"],
    b"accept": ["tag"],
    b"complete": ["tag"],
    b"recover": [],
    b"reset": ["client", "flag"],
    b"take": ["client", "tag"],
}
REQUESTS = {
    b"read": ["lba", "count"],
    b"write": ["lba", "count", "byte"],
    b"dread": ["lba", "count"],
    b"dwrite": ["lba", "count", "byte"],
    b"call": ["com_id", "session", "session", "tokens"],
    b"send": ["com_id", "bytes"],
    b"recv": ["com_id", "blocks"],
    b"secin": ["protocol", "com_id", "blocks"],
    b"secout": ["protocol", "com_id", "bytes"],
    b"identify": [],
}


class BadLine(Exception):
    """A line is none of a script."""


def field(kind, word):
    """A word of a line as its field."""
    if kind in NUMBER:
        if not re.fullmatch(rb"[0-9]+", word) or int(word) > NUMBER[kind]:
            raise BadLine
        return int(word)
    if not re.fullmatch(rb"([0-9a-fA-F]{2})+", word):
        raise BadLine
    data = bytes.fromhex(word.decode())
    if len(data) > {"byte": 1, "tokens": MOST_CALL, "bytes": MOST_SEND}[kind]:
        raise BadLine
    return data


def fields(lines, words):
    """The verb of words and their fields."""
    if not words or words[0] not in lines or len(words) - 1 != len(lines[words[0]]):
        raise BadLine
    return words[0], [field(*it) for it in zip(lines[words[0]], words[1:])]


def parsed(lines, line):
    """The verb of a line and its fields; of a request, its own verb and fields behind those of the line."""
    words = [it for it in re.split(rb"[ \t]+", line) if it]
    if words[:1] == [b"expect"]:
        return b"expect", [re.match(rb"[ \t]*expect.?(.*)", line, re.S)[1]]
    if lines is PORT_LINES and words[:1] == [b"put"]:
        verb, found = fields(lines, words[:3])
        return verb, [*found, *fields(REQUESTS, words[3:])]
    return fields(lines, words)


def is_remark(line):
    return re.match(rb"[ \t]*(#|\Z)", line) is not None


def heads(data):
    return "".join(f" {data[at:at + 4].hex()}" for at in range(0, len(data), SECTOR))


def counted(data, header, at, size):
    """A header with as many bytes as it counts, as far as they are there."""
    if len(data) < header:
        return data
    return data[:header + int.from_bytes(data[at:at + size], "big")]


def shown(protocol, com_id, data):
    """What a receive shows: the list of protocols, Level 0 discovery, or a ComPacket."""
    if protocol == 0:
        return counted(data, 8, 6, 2)
    return counted(data, 4, 0, 4) if com_id == DISCOVERY_COM_ID else counted(data, 20, 16, 4)


class Lines:
    """The lines that a script prints."""

    def __init__(self, out):
        self.out, self.last = out, b""

    def prints(self, text):
        self.last = text.encode("latin-1")
        self.out.write(self.last + b"\n")


class Script(Lines):
    """A drive, and the lines that a script prints on it."""

    lines = LINES

    def __init__(self, rows, options, out):
        super().__init__(out)
        self.drive = Drive(ranges=rows, **options)

    def told(self, client, answer, text):
        """Prints what came of a command, and what denied it."""
        self.prints(f"fail {answer.status:02x} {answer.error:02x}" if answer.has_failed else text(answer.data))
        denial = self.drive.denial(client)
        if denial:
            self.prints(f"audit {denial}")

    def queued(self, command, client, tag, lba, count, byte=b""):
        answer = self.drive.accept(command_fis(command, lba, count or 65_536, tag))
        if answer.held:
            answer = self.drive.complete(tag, byte * self.drive.expects(tag))
        self.told(client, answer, lambda data: "ok" + heads(data))

    def send(self, client, protocol, com_id, data):
        blocks = -(-len(data) // SECTOR)
        answer = self.drive.accept(trusted_fis(True, protocol, com_id, blocks), data.ljust(blocks * SECTOR, b"\0"))
        self.told(client, answer, lambda _: "ok")

    def receive(self, client, protocol, com_id, blocks):
        answer = self.drive.accept(trusted_fis(False, protocol, com_id, blocks))
        self.told(client, answer, lambda data: "data " + shown(protocol, com_id, data).hex())

    def plain(self, command, client):
        answer = self.drive.accept(command_fis(command))
        self.told(client, answer, lambda data: "data " + data.hex())

    def do(self, verb, words):
        """Does what a line says."""
        client = words[0]
        if verb == b"read":
            self.queued(Command.READ_QUEUED, *words)
        elif verb == b"write":
            self.queued(Command.WRITE_QUEUED, *words)
        elif verb == b"dread":
            answer = self.drive.accept(command_fis(Command.READ_DMA, words[1], words[2] or 65_536))
            self.told(client, answer, lambda data: "ok" + heads(data))
        elif verb == b"dwrite":
            count = words[2] or 65_536
            answer = self.drive.accept(command_fis(Command.WRITE_DMA, words[1], count), words[3] * (count * SECTOR))
            self.told(client, answer, lambda _: "ok")
        elif verb == b"call":
            self.send(client, SECURITY, words[1], frame(words[1], words[2], words[3], words[4]))
        elif verb == b"send":
            self.send(client, SECURITY, words[1], words[2])
        elif verb == b"secout":
            self.send(client, *words[1:])
        elif verb == b"recv":
            self.receive(client, SECURITY, *words[1:])
        elif verb == b"secin":
            self.receive(client, *words[1:])
        elif verb == b"identify":
            self.plain(Command.IDENTIFY, client)
        elif verb == b"log":
            self.plain(Command.READ_QUEUE_ERROR, client)
        elif verb == b"tper":
            self.send(client, RESET_PROTOCOL, RESET_COM_ID, bytes(SECTOR))
        elif verb == b"reset":
            self.drive.reset(words[1])
            self.prints("ok")


def blocks_of(data):
    return data + bytes(-len(data) % SECTOR)


def request_of(verb, words):
    """What a `put` line asks, as `Port.put` takes it."""
    if verb in (b"read", b"dread"):
        return {"command": Command.READ_QUEUED if verb == b"read" else Command.READ_DMA, "lba": words[0], "count": words[1]}
    if verb in (b"write", b"dwrite"):
        return {"command": Command.WRITE_QUEUED if verb == b"write" else Command.WRITE_DMA, "lba": words[0],
                "payload": words[2] * (words[1] * SECTOR)}
    if verb == b"identify":
        return {"command": Command.IDENTIFY}
    if verb in (b"recv", b"secin"):
        protocol, com_id, blocks = words if verb == b"secin" else [SECURITY, *words]
        return {"command": Command.TRUSTED_RECEIVE, "protocol": protocol, "com_id": com_id, "count": blocks}
    if verb == b"call":
        protocol, com_id, data = SECURITY, words[0], frame(*words)
    else:
        protocol, com_id, data = words if verb == b"secout" else [SECURITY, *words]
    return {"command": Command.TRUSTED_SEND, "protocol": protocol, "com_id": com_id, "payload": blocks_of(data)}


class PortScript(Lines):
    """A port, and the lines that a script prints on it."""

    lines = PORT_LINES

    def __init__(self, rows, options, out):
        super().__init__(out)
        self.port, self.asked, self.denials = Port(ranges=rows, **options), {}, 0

    def data_text(self, tag, data):
        """What is printed of the data of a command that is done."""
        verb, words = self.asked[tag]
        if verb in (b"read", b"dread"):
            return "ok" + heads(data)
        if verb == b"identify":
            return "data " + data.hex()
        if verb in (b"recv", b"secin"):
            return "data " + shown(*(words[:2] if verb == b"secin" else [SECURITY, words[0]]), data).hex()
        return "ok"

    def take(self, client, tag):
        taken = self.port.take(client, tag)
        if taken.has_failed:
            return f"fail {taken.status:02x} {taken.error:02x}"
        return "reset" if taken.reset else self.data_text(tag, taken.data)

    def step(self, verb, words):
        """Does a step, and gives what is printed of it."""
        if verb == b"take":
            return self.take(*words)
        if verb == b"put":
            client, tag, *asked = words
            self.port.put(client, tag, **request_of(*asked))
            self.asked[tag] = asked
        else:
            getattr(self.port, verb.decode())(*words)
        return "ok"

    def do(self, verb, words):
        """Does what a line says."""
        try:
            self.prints(self.step(verb, words))
        except OpalError as error:
            if not Code.PORT_SLOT_BUSY <= error.code <= Code.PORT_HISTORY_FULL:
                raise
            self.prints(f"refused {error.code - Code.PORT_SLOT_BUSY + 1}")
        if verb == b"accept" and self.port.shown().denials > self.denials:
            self.prints(f"audit {self.port.denial(self.denials)}")
            self.denials += 1


def run(options, given, out):
    """A script; the status that it ends with."""
    lines = [it[:-1] if it.endswith(b"\r") else it for it in given.split(b"\n")]
    if lines[-1] == b"":
        lines.pop()
    if lines and lines[0].startswith(b"#"):
        lines = [it for it in lines if not is_remark(it)]
    kind = Script
    if lines and [it for it in re.split(rb"[ \t]+", lines[0]) if it] == [b"port"]:
        kind, lines = PortScript, lines[1:]
    rows, script = [], None
    for line in [*lines, None]:
        try:
            verb, words = parsed(kind.lines, line) if line is not None else (None, None)
        except BadLine:
            return 2
        if verb == b"range" and script is None:
            # In a script the last row of a range holds; the library takes one for each.
            rows = [it for it in rows if it.range != words[0]]
            rows.append(Range(words[0], words[1], words[2], *(bool(it) for it in words[3:])))
            continue
        if script is None:
            script = kind(rows, options, out)
        if verb == b"range":
            return 2
        if verb == b"expect" and script.last != words[0]:
            return 1
        if verb not in (None, b"expect"):
            script.do(verb, words)
    return 0


def options_of(words):
    """The options of the command line, as `Drive` takes them; None where they are not in order."""
    found = {}
    words = [part for word in words for part in (word.split("=", 1) if word.startswith("--") else [word])]
    if len(words) % 2:
        return None
    for name, value in zip(words[::2], words[1::2]):
        if name not in ("--sectors", "--shadow", "--msid", "--profile", "--serial", "--model", "--psid",
                        "--datastore", "--seed") or name in found:
            return None
        found[name] = value
    return found


def drive_options(words):
    found = options_of(words)
    if found is None:
        return None
    numbers = {it[2:]: found[it] for it in ("--sectors", "--shadow", "--datastore", "--seed") if it in found}
    texts = {it[2:]: found[it] for it in ("--msid", "--psid") if it in found}
    if any(not re.fullmatch("[0-9]+", it, re.A) or int(it) >= 2**64 for it in numbers.values()):
        return None
    if any(not re.fullmatch("([0-9a-fA-F]{2})*", it) for it in texts.values()):
        return None
    if found.get("--profile", "base") not in ("base", "field", "opal"):
        return None
    if "--seed" in found and found.get("--profile") != "opal":
        return None
    return {**{name: int(it) for name, it in numbers.items()}, **{name: bytes.fromhex(it) for name, it in texts.items()},
            **{it[2:]: found[it] for it in ("--serial", "--model") if it in found},
            "profile": found.get("--profile", "base")}


def main(words, given, out):
    if words[:1] == ["tokens"]:
        by_name, rest = "--names" in words, [it for it in words[1:] if it != "--names"]
        if len(rest) != 1 or not re.fullmatch("([0-9a-fA-F]{2})*", rest[0]):
            return 2
        out.write(tokens_text(bytes.fromhex(rest[0]), by_name).encode() + b"\n")
        return 0
    options = drive_options(words[1:]) if words[:1] in (["run"], ["level0"]) else None
    if options is None:
        return 2
    try:
        if words[0] == "run":
            Drive(**options).close()
            return run(options, given(), out)
        with Drive(**options) as drive:
            answer = drive.accept(trusted_fis(False, SECURITY, DISCOVERY_COM_ID, 1))
            out.write(shown(SECURITY, DISCOVERY_COM_ID, answer.data).hex().encode() + b"\n")
    except OpalError as error:
        return 3 if error.code == Code.OUT_OF_MEMORY else 2
    return 0


if __name__ == "__main__":
    sys.exit(main(sys.argv[1:], sys.stdin.buffer.read, sys.stdout.buffer))
