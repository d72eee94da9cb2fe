"""Marks of databases: what is refused leaves them, and an office with a journal isn't opened without it, by whatever name and in whatever order."""
import json
import os
import shutil
import sqlite3
from contextlib import closing
from hashlib import sha256

from program import FOUNDING, WITHOUT, Case, exchange, seals

SERVE_ONE = ("--requests", "1")
KEPT = ("--journal", "it.journal")
LIST = json.dumps({"ask": "list", "token": "nobody", "team": "blue"}) + "\n"
ENROL = json.dumps({"ask": "enrol", "token": "abc", "user": "ann", "team": "blue", "roles": ["author"], "digest": sha256(b"hello").hexdigest()}) + "\n"
UNKNOWN = '{"answer":"denied","rule":1,"word":"caller-unknown"}\n'
# the tables of schema 1, whose office has root alone
SCHEMA_1 = f"""
CREATE TABLE office(key INTEGER NOT NULL PRIMARY KEY, schema INTEGER NOT NULL, listed INTEGER NOT NULL) STRICT;
CREATE TABLE users(name TEXT NOT NULL PRIMARY KEY, team TEXT NOT NULL, roles INTEGER NOT NULL, token BLOB NOT NULL UNIQUE) STRICT;
CREATE TABLE revisions(team TEXT NOT NULL, profile TEXT NOT NULL, number INTEGER NOT NULL, author TEXT NOT NULL,
  state INTEGER NOT NULL, body TEXT NOT NULL, digest BLOB NOT NULL, PRIMARY KEY(team, profile, number)) STRICT;
CREATE TABLE votes(team TEXT NOT NULL, profile TEXT NOT NULL, number INTEGER NOT NULL, voter TEXT NOT NULL,
  approve INTEGER NOT NULL, security INTEGER NOT NULL, PRIMARY KEY(team, profile, number, voter)) STRICT;
CREATE TABLE baselines(team TEXT NOT NULL PRIMARY KEY, profile TEXT NOT NULL, number INTEGER NOT NULL) STRICT;
INSERT INTO office VALUES(1, 1, 2097152);
INSERT INTO users VALUES('root', 'office', 1, x'{sha256(b"abc").hexdigest()}');
PRAGMA user_version = 2;
"""


def said_by_now(process):
    """What a process has written to standard error, without waiting for more."""
    stream = process.stderr.fileno()
    os.set_blocking(stream, False)
    try:
        return os.read(stream, 65536).decode()
    except BlockingIOError:
        return ""
    finally:
        os.set_blocking(stream, True)


class Marked(Case):
    """A case with an office and its journal, of two lines, which is how the database is marked."""

    def setUp(self):
        super().setUp()
        self.found(is_journaled=True)
        self.same(self.mark("it.db"), 2)
        self.verified = f"verified 1 events, seal {seals.read(self.read('it.journal'))[1][-1]}\n"

    def assert_refused(self, *commands):
        """Compares how commands end that are refused, each with its words, its output and its errors, and looks that they change nothing."""
        before = self.kept()
        for words, printed, said in commands:
            self.same(self.refused(*words, given=LIST), (1, printed, said), words)
            self.same(self.kept(), before, words)

    def assert_goes_on(self, database="it.db"):
        """Looks that the database still has its mark and its journal."""
        self.same(self.mark(database), 2)
        self.same(self.office("verify", database, "it.journal"), (0, self.verified, ""))
        self.same(self.office("desk", database, *KEPT), (0, "", ""))


class Names(Marked):
    def test_an_office_wants_its_journal_by_whatever_name(self):
        os.symlink("it.db", f"{self.folder}/link.db")
        for name in ("files.db", "file"):
            shutil.copy(f"{self.folder}/it.db", f"{self.folder}/{name}")
        for name in ("it.db", "link.db", "files.db", "file"):
            self.assert_refused(*((words, "", "office: journal\n") for words in (["desk", name], ["serve", name, *SERVE_ONE], ["migrate", name])))
            self.assert_goes_on(name)

    def test_a_name_that_sqlite_takes_for_no_file_is_refused(self):
        for name in (":memory:", "file:it.db"):
            shutil.copy(f"{self.folder}/it.db", f"{self.folder}/{name}")
            commands = (["desk", name], ["desk", name, *KEPT], ["serve", name, *SERVE_ONE], ["migrate", name], ["init", name, *FOUNDING])
            self.assert_refused(*((words, "", "office: disk\n") for words in commands))
            self.assert_refused((["desk", name, "--without-journal"], "", f"{WITHOUT}office: disk\n"))


class InUse(Marked):
    BUSY = "office: busy\n"

    def test_a_database_in_use_keeps_its_mark(self):
        process, port = self.serve("it.db", *SERVE_ONE, *KEPT)
        opened = (["desk", "it.db"], ["serve", "it.db", *SERVE_ONE])
        self.assert_refused(
            *((words, "", self.BUSY) for words in (*opened, ["migrate", "it.db"])),
            *(([*words, *KEPT], "", self.BUSY) for words in opened),
            *(([*words, "--without-journal"], "", WITHOUT + self.BUSY) for words in (*opened, ["migrate", "it.db"])),
            (["init", "it.db", *FOUNDING], "", self.BUSY),
            (["init", "it.db", *FOUNDING, "--journal", "other.journal"], "", self.BUSY),
            (["rebuild", "it.db", "it.journal"], "", self.BUSY),
            (["verify", "it.db", "it.journal", "--mark"], self.verified, self.BUSY),
        )
        self.same(self.mark("it.db"), 2)
        exchange(port, b"")
        self.end(process, "fault ended\n")
        self.assert_goes_on()

    def test_a_database_whose_journal_is_in_use_keeps_its_mark(self):
        shutil.copy(f"{self.folder}/it.db", f"{self.folder}/copy.db")
        process, port = self.serve("it.db", *SERVE_ONE, *KEPT)
        self.assert_refused(
            (["desk", "copy.db", *KEPT], "", self.BUSY),
            (["serve", "copy.db", *SERVE_ONE, *KEPT], "", self.BUSY),
            (["verify", "copy.db", "it.journal", "--mark"], self.verified, self.BUSY),
            (["desk", "copy.db"], "", "office: journal\n"),
        )
        self.same(self.mark("copy.db"), 2)
        exchange(port, b"")
        self.end(process, "fault ended\n")
        self.assert_goes_on("copy.db")


class Refused(Marked):
    def unmark(self):
        """Takes the mark away, and leaves one file."""
        if self.is_there("it.db-wal"):
            os.remove(f"{self.folder}/it.db-wal")
        data = self.read("it.db")
        self.write("it.db", data[:60] + bytes(4) + data[64:])
        self.same(self.mark("it.db"), 0)

    def test_a_verify_that_is_refused_sets_no_mark(self):
        # a desk would open each of these: it looks for the newest event of a table, and cuts torn bytes off
        self.same(self.office("desk", "it.db", *KEPT, given=ENROL), (0, '{"answer":"done"}\n', ""))
        self.unmark()
        database, journal = self.read("it.db"), self.read("it.journal")
        verify = ["verify", "it.db", "it.journal", "--mark"]
        self.assert_refused(([*verify, "--seal", f"1:{'0' * 64}"], "", "office: other-seal\n"))
        self.write("it.journal", journal + b'{"line":')
        self.assert_refused((verify, "", "office: line 5: torn-line\n"))
        self.write("it.journal", journal)
        with closing(sqlite3.connect(f"{self.folder}/it.db")) as changed, changed:
            changed.execute("UPDATE users SET roles = 3 WHERE name = 'root'")
        self.assert_refused((verify, "", "office: differs: users root\n"))
        self.same(self.mark("it.db"), 0)
        self.write("it.db", database)
        self.same(self.office(*verify), (0, f"verified 2 events, seal {seals.read(journal)[1][-1]}\n", ""))
        self.same(self.mark("it.db"), 4)

    def test_an_office_of_schema_1_with_a_journal_is_not_migrated_without_it(self):
        with closing(sqlite3.connect(f"{self.folder}/old.db")) as database:
            database.executescript(SCHEMA_1)
        self.assert_refused(
            *((words, "", "office: journal\n") for words in (["migrate", "old.db"], ["desk", "old.db"], ["serve", "old.db", *SERVE_ONE])),
            (["desk", "old.db", *KEPT], "", "office: old-schema\n"),
        )
        self.same(self.office("migrate", "old.db", "--without-journal"), (0, "migrated\n", WITHOUT))
        self.same(self.mark("old.db"), seals.PARTED)

    def test_an_office_has_its_journal_behind_an_init_that_failed(self):
        os.symlink("it.journal", f"{self.folder}/link.journal")
        founded = "office: already-founded\n"
        there = "office: journal-there\n"
        self.assert_refused(
            (["init", "it.db", *FOUNDING], "", founded),
            (["init", "it.db", *FOUNDING, "--journal", "other.journal"], "", founded),
            (["init", "it.db", *FOUNDING, *KEPT], "", there),
            (["init", "it.db", *FOUNDING, "--journal", "link.journal"], "", there),
            (["init", "new.db", *FOUNDING, *KEPT], "", there),
            (["init", "it.db", "Root", *FOUNDING[1:], *KEPT], "", "office: bad-word NAME\n"),
        )
        self.assert_goes_on()

    def test_an_office_whose_founding_cannot_be_told_has_its_journal(self):
        with open("/dev/full", "wb") as full:
            self.same(self.office("init", "new.db", *FOUNDING, "--journal", "new.journal", stdout=full), (1, "", "office: write\n"))
        self.same(self.mark("new.db"), 2)
        self.same(self.office("verify", "new.db", "new.journal"), (0, self.verified, ""))


class Without(Marked):
    """An office that goes on without its journal: that is said, and marked, before anything is answered."""

    def test_a_desk_says_so_before_it_answers(self):
        process = self.start("desk", "it.db", "--without-journal")
        process.stdin.write(LIST.encode())
        process.stdin.flush()
        self.same(process.stdout.readline().decode(), UNKNOWN)
        self.same((said_by_now(process), self.mark("it.db")), (WITHOUT, seals.PARTED))
        self.same((self.finish(process), process.returncode), (["", ""], 0))

    def test_serving_says_so_before_it_listens(self):
        process, port = self.serve("it.db", *SERVE_ONE, "--without-journal")
        self.same((said_by_now(process), self.mark("it.db")), (WITHOUT, seals.PARTED))
        exchange(port, b"")
        self.end(process, "fault ended\n")
