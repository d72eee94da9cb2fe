"""Texts as long as they may be, and longer ones."""
import contextlib
import fcntl
import json
import os
from hashlib import sha256

from program import Case, seals

START = ('{"capabilities":{"ambient":[],"bounding":[],"effective":[],"inheritable":[],"permitted":[]},"seccomp":{"defaultAction":"SCMP_ACT_LOG",'
         '"syscalls":[{"action":"SCMP_ACT_ALLOW","names":["')
NEXT = '"]},{"action":"SCMP_ACT_ALLOW","names":["'
NAMES = '","'.join(["a" * 61] * 818)
# a document of 262,144 bytes, which are their own canonical text: five entries of 818 names of 61 bytes, and one of a name of five
LONGEST = START + f"{NAMES}{NEXT}" * 5 + 'aaaaa"]}]}}'
DIGEST = sha256(LONGEST.encode()).hexdigest()

WEB = {"token": "hello", "team": "blue", "profile": "web"}
ENROL = {"ask": "enrol", "token": "abc", "user": "ann", "team": "blue", "roles": ["author"], "digest": sha256(b"hello").hexdigest()}
SUBMIT = {"ask": "submit", **WEB, "document": LONGEST}
REQUESTS = [json.dumps(it, separators=(",", ":")) for it in (ENROL, SUBMIT, {"ask": "show", **WEB, "revision": 1})]
ANSWERS = [json.dumps(it, separators=(",", ":")) for it in (
    {"answer": "done"},
    {"answer": "done", "digest": DIGEST, "revision": 1},
    {"answer": "done", "digest": DIGEST, "document": LONGEST, "state": "open"},
)]

# the line of a journal that tells of its submission
SUBMITTED = json.dumps({"by": "ann", "document": LONGEST, "event": "submit", "profile": "web", "team": "blue"}, separators=(",", ":")).encode()
HELD = b'{"by":"root","event":"hold","profile":"web","team":"blue"}'


def filter_of(values):
    """A document of which each entry compares with one of these values."""
    entries = [{"names": [f"call_{at}"], "action": "SCMP_ACT_ALLOW", "args": [{"index": 0, "op": "SCMP_CMP_EQ", "value": value}]}
               for at, value in enumerate(values)]
    return json.dumps({"capabilities": {}, "seccomp": {"defaultAction": "SCMP_ACT_ERRNO", "syscalls": entries}})


class Longest(Case):
    def test_a_canonical_text_of_262144_bytes_is_printed(self):
        self.same(len(LONGEST), 262_144)
        self.write("longest.json", LONGEST)
        self.same(self.office("check", "longest.json"), (0, f"{LONGEST}\n", ""))

    def test_each_of_2048_entries_with_another_value_is_found(self):
        self.write("base.json", filter_of(range(2048)))
        self.write("new.json", filter_of(range(1, 2049)))
        found = "".join(f"call {it}\n" for it in sorted(f"call_{at}" for at in range(2048)))
        self.same(self.office("compare", "base.json", "new.json"), (1, found, ""))

    def test_it_is_handed_in_and_shown_in_lines(self):
        self.same(self.office(given="".join(f"{it}\n" for it in REQUESTS)), (0, "".join(f"{it}\n" for it in ANSWERS), ""))

    def test_it_stands_in_a_line_of_a_journal(self):
        self.found(is_journaled=True)
        founded = seals.read(self.read("it.journal"))[0]
        given, answers = ("".join(f"{it}\n" for it in lines) for lines in (REQUESTS, ANSWERS))
        self.same(self.office("desk", "it.db", "--journal", "it.journal", given=given), (0, answers, ""))
        lines = seals.read(self.read("it.journal"))[0]
        self.same((len(SUBMITTED), lines[4:]), (270_455, [SUBMITTED, seals.done(5)]))
        self.same(lines[:2], founded)
        self.same(self.office("verify", "it.db", "it.journal"), (0, f"verified 3 events, seal {seals.seals_of(lines)[-1]}\n", ""))

    def test_a_journal_of_120000_lines_is_read_to_its_end(self):
        self.found(is_journaled=True)
        founded = seals.read(self.read("it.journal"))[0]
        lines = founded + [HELD, seals.STRIKE] * 59_999
        self.write("it.journal", seals.sealed(lines))
        self.same(self.office("verify", "it.db", "it.journal"), (0, f"verified 1 events, seal {seals.seals_of(lines)[-1]}\n", ""))

    def test_a_line_that_never_ends_is_read_no_further_than_a_line_can_be(self):
        ours, theirs = os.pipe()
        fcntl.fcntl(theirs, fcntl.F_SETPIPE_SZ, 4096)
        process = self.start("history", "/dev/stdin", stdin=ours)
        os.close(ours)
        given = 0
        with contextlib.suppress(BrokenPipeError), open(theirs, "wb", buffering=0) as line:
            while given < 9_999_999:
                given += line.write(b"x" * 4096)
        self.same((self.finish(process), process.returncode), (["", "office: line 1: not-a-line\n"], 1))
        # so many, what was read ahead, and what the pipe holds
        self.assertTrue(2_097_152 <= given < 2_170_000, given)

    def test_no_more_than_a_line_is_cut_off_a_journal(self):
        self.found(is_journaled=True)
        journal = self.read("it.journal")
        desk = ("desk", "it.db", "--journal", "it.journal")
        for behind in (1, 2_097_152):
            self.write("it.journal", journal + b"x" * behind)
            self.same(self.office(*desk), (0, "", ""), behind)
            self.same(self.read("it.journal"), journal, behind)
        longer = journal + b"x" * 2_097_153
        self.write("it.journal", longer)
        self.same(self.office(*desk), (1, "", f"office: changed at {len(journal)}\n"))
        self.same(self.read("it.journal"), longer)
