"""The verdicts that verdicts.console shows at the trial desk, asked in two more ways, each answered as is shown there.

- `desk DB --journal FILE`: the same line, byte for byte.
- `serve DB --journal FILE`, over HTTP by the routes of tools/request_kinds.py: the whole response, byte for byte, with the status of that answer.
  Its body is the answer, but of a sheet and a fetch that are done the text alone. A request that can't be asked so fails: a line that is
  none or has a member too many or too few, a token or a part of a target of another form, and a body of more than 262,144 bytes.

Each block of the transcript has a new office in each way, founded as that of the trial desk (README of `changing_commands`). At the end
`verify` has to accept it, with as many events as requests that change something were done, and the founding.

tools/kinds looks that the transcript has each kind done, and denied by each of its rules."""
import itertools
import json
import re
import unittest

from program import TRANSCRIPTS, Case, exchange, text_of
from request_kinds import kinds
from test_transcripts import lines_of_transcript, steps_of

KINDS = {it.word: it for it in kinds()}
STATUSES = {"done": "200 OK", "denied": "403 Forbidden", "bad": "400 Bad Request"}
LONGEST_BODY = 262_144
# of the past in the transcript, and of what is asked behind it
FIRST = "./office < past.jsonl"
LATER = "cat past.jsonl - <<'END' | ./office | tail -n +{}"


def read(line):
    """The object that a line has; an empty one where it has none."""
    try:
        found = json.loads(line)
    except ValueError:
        return {}
    return found if isinstance(found, dict) else {}


def kind_of(line):
    return str(read(line).get("ask"))


def fits(name, value):
    """Whether a member can stand in a head."""
    if name in ("revision", "before"):
        return type(value) is int and 1 <= value <= 9999
    return isinstance(value, str) and re.fullmatch(r"[!-~]{1,128}" if name == "token" else r"[a-z0-9-]{1,64}", value) is not None


def message_of(line):
    """The bytes by which a line's request is asked over HTTP, or None."""
    request, kind = read(line), KINDS.get(kind_of(line))
    if kind is None:
        return None
    target = kind.target + "".join(f"?{name}={{{name}}}" for name in kind.query if name in request)
    above = ["token", *re.findall(r"{(\w+)}", target)]
    if set(request) != {"ask", *above, *kind.body} or not all(fits(name, request[name]) for name in above):
        return None
    members = {name: request[name] for name in kind.body}
    body = members.get("document", json.dumps(members) if members else "")
    data = body.encode(errors="surrogatepass") if isinstance(body, str) else None
    if data is None or len(data) > LONGEST_BODY:
        return None
    fields = f"Host: office\r\nAuthorization: Bearer {request['token']}\r\nContent-Length: {len(data)}"
    return f"{kind.method} {target.format(**request)} HTTP/1.1\r\n{fields}\r\n\r\n".encode() + data


def status_of(answer):
    return STATUSES.get(read(answer).get("answer"), "no status")


def response_of(kind, answer):
    """The bytes of the response that has this answer to a kind."""
    body, form = answer, "application/json"
    if KINDS[kind].text and read(answer).get("answer") == "done":
        member, form = KINDS[kind].text
        body = str(read(answer).get(member))
    data = body.encode()
    return f"HTTP/1.1 {status_of(answer)}\r\nContent-Type: {form}\r\nContent-Length: {len(data)}\r\nConnection: close\r\n\r\n".encode() + data


class Conversation(Case):
    """A conversation in a way, and that the office and its journal tell of what was done, and of nothing else."""

    def __init__(self, way, number, requests, answers):
        super().__init__(way)
        self.number, self.pairs = number, list(itertools.zip_longest(requests, answers))

    def __str__(self):
        return f"transcripts/verdicts.console:{self.number} {self._testMethodName.replace('_', ' ')}"

    def setUp(self):
        super().setUp()
        self.found(is_journaled=True)

    def verify(self):
        changed = [read(answer).get("answer") == "done" and not KINDS[kind_of(request)].reads for request, answer in self.pairs]
        status, told, said = self.office("verify", "it.db", "it.journal")
        self.same((status, told.partition(", seal ")[0], said), (0, f"verified {sum(changed) + 1} events", ""))

    def at_a_desk(self):
        given = "".join(f"{request}\n" for request, _ in self.pairs)
        wanted = "".join(f"{answer}\n" for _, answer in self.pairs)
        self.same(self.office("desk", "it.db", "--journal", "it.journal", given=given), (0, wanted, ""))
        self.verify()

    def over_http(self):
        process, port = self.serve("it.db", "--requests", str(len(self.pairs)), "--journal", "it.journal")
        for request, answer in self.pairs:
            message = message_of(request)
            self.assertIsNotNone(message, request)
            self.same(exchange(port, message), response_of(kind_of(request), answer), request)
        self.end(process, "".join(f"{status_of(answer)[:3]}\n" for _, answer in self.pairs))
        self.verify()


def conversations_of():
    """The requests and the answers of each conversation in the transcript, from the past on, with the number of its line."""
    past = text_of(f"{TRANSCRIPTS}/past.jsonl").splitlines()
    (_, first, before), *steps = steps_of(lines_of_transcript(f"{TRANSCRIPTS}/verdicts.console"))
    if first != FIRST or {command.split("\n")[0] for _, command, _ in steps} != {LATER.format(len(past) + 1)}:
        raise ValueError("verdicts.console has other commands")
    yield 0, past, before
    for number, command, answers in steps:
        yield number, past + command.split("\n")[1:-1], before + answers


def load_tests(_loader, _tests, _pattern):
    return unittest.TestSuite(Conversation(way, *it) for it in conversations_of() for way in ("at_a_desk", "over_http"))
