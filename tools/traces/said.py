"""What is said of a trace: a transcript, or that a line cannot be read."""
import re

HEADER = 20                                        # of a ComPacket; its length stands in its last four bytes


class Unreadable(Exception):
    """What cannot be read, or said in a script, with the number of its line in the trace."""

    def __init__(self, number, text):
        super().__init__(f"line {number}: {text}")


class Transcript:
    """Lines of a script with their answers, each behind a remark that names its line in the trace."""

    def __init__(self, kind):
        self.unanswered = 0
        self.lines = [f"# Of a trace, by tools/transcript-of {kind}. A remark has the number of a line of the trace."]

    def remark(self, number, text=""):
        self.lines.append(f"# {number}: {text}" if text else f"# {number}")

    def say(self, number, line, answer=None, remark=""):
        self.remark(number, remark)
        self.lines.append(line)
        if answer is not None:
            self.lines.append(f"= {answer}")
        elif not line.startswith("reset "):
            self.unanswered += 1


def number_in(number, text):
    if not re.fullmatch(r"[0-9a-fA-F]+", text):
        raise Unreadable(number, f"{text!r} is no number in hex digits")
    return int(text, 16)


def bytes_in(number, text):
    if not re.fullmatch(r"([0-9a-fA-F]{2})+", text):
        raise Unreadable(number, "no bytes, two hex digits each")
    return bytes.fromhex(text)
