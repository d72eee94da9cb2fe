"""What exchanges.http shows of exchanges over HTTP, compared byte for byte.

Below a heading, behind `# `, stand the requests to a new office, each in a line behind `> `. Below a request stands its response behind
`< `, or behind `! ` why it has none; of requests that are answered alike it stands below the last. `\\r` and `\\n` are a carriage return
and a line feed, `\\xff` is the byte of this number, and `a\\*9;` has nine letters."""
import re
import unittest

from program import TRANSCRIPTS, Case, exchange, text_of
from test_transcripts import beside

FILE = f"{TRANSCRIPTS}/exchanges.http"
ESCAPED = re.compile(rb"(?s)\\r|\\n|\\x(..)|(.)\\\*(\d+);")


def unescaped(found):
    number, byte, times = found.groups()
    if number:
        return bytes.fromhex(number.decode())
    return byte * int(times) if times else {b"\\r": b"\r", b"\\n": b"\n"}[found[0]]


def bytes_of(line):
    return ESCAPED.sub(unescaped, line.encode())


def lines_of(response):
    """The lines that show a response."""
    text = response.decode(errors="surrogateescape").replace("\\", "\\x5c").replace("\r", "\\r").replace("\n", "\\n\n")
    return [f"< {it}" for it in text.removesuffix("\n").split("\n")] if text else []


def parts_of(text):
    """Each heading with its exchanges: the number of its line, its request, and the lines that are shown of its response."""
    parts, alike = [], []
    for number, line in enumerate(text.removesuffix("\n").split("\n"), 1):
        if line.startswith("# "):
            parts.append((line[2:], []))
            alike = []
        elif line.startswith("> "):
            alike = [] if alike and alike[-1][2] else alike
            alike.append((number, line[2:], []))
            parts[-1][1].append(alike[-1])
        else:
            for _, _, shown in alike:
                shown.append(line)
    return parts


def line_of(shown):
    """The line that `serve` prints of an exchange."""
    return f"fault {shown[0][2:]}\n" if shown[0].startswith("! ") else f"{shown[0].split(' ')[2]}\n"


class Exchanges(Case):
    """The exchanges below a heading."""

    def __init__(self, heading, exchanges):
        super().__init__("make")
        self.heading, self.exchanges = heading, exchanges

    def __str__(self):
        return f"transcripts/exchanges.http: {self.heading}"

    def make(self):
        self.assertTrue(self.exchanges, "no request is shown")
        self.found()
        process, port = self.serve("it.db", "--requests", str(len(self.exchanges)))
        differing = []
        for number, request, shown in self.exchanges:
            seen = lines_of(exchange(port, bytes_of(request)))
            wanted = [it for it in shown if not it.startswith("! ")]
            if seen != wanted:
                differing.append(f"exchanges.http:{number}\n> {request}\n" + beside(wanted, "".join(f"{it}\n" for it in seen)))
        if differing:
            self.fail(f"{len(differing)} of {len(self.exchanges)} requests are answered otherwise\n" + "\n".join(differing))
        self.end(process, "".join(line_of(shown) for _, _, shown in self.exchanges))


def load_tests(_loader, _tests, _pattern):
    return unittest.TestSuite(Exchanges(*it) for it in parts_of(text_of(FILE)))
