"""Files that another has open, that can't be read or written, or that aren't what they should be."""
import json
import os
import shutil
import socket
import sqlite3
import struct
from contextlib import closing
from hashlib import sha256

from program import FOUNDING, UNJOURNALED, Case, exchange, seals
from test_limits import LONGEST as LONGEST_TEXT

ENROL = json.dumps({"ask": "enrol", "token": "abc", "user": "ann", "team": "blue", "roles": ["author"], "digest": sha256(b"hello").hexdigest()}) + "\n"
LIST = json.dumps({"ask": "list", "token": "hello", "team": "blue"}) + "\n"
HOLD = json.dumps({"ask": "hold", "token": "hello", "team": "blue", "profile": "web"}) + "\n"
EMPTY = '{"capabilities":{}}'
DONE = '{"answer":"done"}\n'
SUBMITTED = '{"answer":"done","digest":"67d59648e3164479ed30407333c338a60764f60cd31c54ca1cd477602ac5e5d6","revision":1}\n'
DENIED = '{"answer":"denied","rule":2,"word":"role-missing"}\n'
NO_PROFILE = '{"answer":"done","profiles":[]}\n'
LISTED = '{"answer":"done","profiles":[{"issued":0,"profile":"web","revisions":1,"state":"open"}]}\n'
BUSY = (1, "", "office: busy\n")
SAME_FILE = (1, "", "office: same-file\n")
NO_OFFICE = (1, "", "office: not-an-office\n")
INDEXES = {"revisions_by_author": "team, profile, author", "revisions_by_state": "team, profile, state, number"}
SEVERAL_PAGES = json.dumps({"capabilities": {}, "seccomp": {"defaultAction": "SCMP_ACT_LOG", "syscalls": [
    {"action": "SCMP_ACT_ALLOW", "names": [f"call_{number:050}" for number in range(300)]}]}})


def handed_in(profile, document):
    return json.dumps({"ask": "submit", "token": "hello", "team": "blue", "profile": profile, "document": document}) + "\n"


# libraries before that of the system, by which each read of the program is interrupted, or fails behind the bytes of a file, and by which no file
# gets its length, as that of a database does where it is closed
INTERRUPTED = b"""#include <errno.h>
#include <unistd.h>
ssize_t read(int from, void *into, size_t most) { (void)from, (void)into, (void)most; errno = EINTR; return -1; }
"""
FAILING_AT_THE_END = b"""#include <errno.h>
#include <sys/syscall.h>
#include <unistd.h>
ssize_t read(int from, void *into, size_t most) {
    long count = syscall(SYS_read, from, into, most);
    if (count == 0) { errno = EIO; return -1; }
    return count;
}
"""
UNLENGTHENED = b"""#include <errno.h>
int ftruncate(int file, long length) { (void)file, (void)length; errno = EIO; return -1; }
"""


class Database(Case):
    """A case that changes the database by another program, once the log beside it is gone."""

    def remove_log(self):
        if self.is_there("it.db-wal"):
            os.remove(f"{self.folder}/it.db-wal")

    def change(self, statement):
        self.remove_log()
        with sqlite3.connect(f"{self.folder}/it.db") as database:
            database.execute(statement)
        database.close()


class Documents(Case):
    def assert_unread(self, name, why, **more):
        for words, status, said in ((["check", name], 1, ""), (["execve", name], 1, ""), (["compare", name, name], 2, "base: ")):
            self.same(self.office(*words, **more), (status, "", f"office: {said}{why} {name}\n"), words)

    def test_a_file_that_cannot_be_read_is_refused(self):
        self.assert_unread("examples", "read")

    def test_a_file_whose_reads_fail_at_the_end_is_refused(self):
        self.assert_unread("examples/web.json", "read", env=self.library(FAILING_AT_THE_END))

    def test_a_file_whose_reads_never_end_is_refused(self):
        self.assert_unread("examples/web.json", "too-many-reads", env=self.library(INTERRUPTED))


class Offices(Database):
    def test_a_desk_that_ends_or_stops_leaves_all_in_the_one_file(self):
        self.found()
        self.remove_log()
        self.stop_desk(ENROL, DONE)
        self.remove_log()
        self.same(self.office("desk", "it.db", given=handed_in("web", EMPTY)), (0, SUBMITTED, ""))
        self.remove_log()
        self.same(self.office("desk", "it.db", given=LIST), (0, LISTED, ""))

    def stop_desk(self, given, answered):
        """Has a desk answer lines whose input fails then: it comes from a connection that is reset."""
        with socket.create_server(("127.0.0.1", 0)) as listener:
            sender = socket.create_connection(listener.getsockname())
            reader, _ = listener.accept()
        with reader:
            process = self.start("desk", "it.db", stdin=reader)
        sender.sendall(given.encode())
        self.same(process.stdout.readline().decode(), answered)
        sender.setsockopt(socket.SOL_SOCKET, socket.SO_LINGER, struct.pack("ii", 1, 0))
        sender.close()
        printed, said = self.finish(process)
        self.same((process.returncode, printed, said), (1, "", "office: read\n"))

    def test_an_office_that_is_open_is_busy(self):
        self.found()
        process, port = self.serve("it.db", "--requests", "1")
        self.same(self.office("desk", "it.db", given=ENROL), BUSY)
        self.same(self.office("init", "it.db", *FOUNDING), BUSY)
        exchange(port, b"")
        self.end(process, "fault ended\n")
        self.same(self.office("desk", "it.db", given=ENROL), (0, DONE, ""))

    def test_another_database_is_left_as_it_is(self):
        self.change("CREATE TABLE note (id INTEGER PRIMARY KEY) STRICT")
        before = self.read("it.db")
        self.same(self.office("desk", "it.db", given=LIST), NO_OFFICE)
        self.same(self.office("init", "it.db", *FOUNDING), NO_OFFICE)
        self.same(self.read("it.db"), before)
        self.change("DROP TABLE note")
        self.same(self.office("init", "it.db", *FOUNDING), (0, "founded\n", UNJOURNALED))

    def test_an_office_is_opened_once_its_indexes_are_made(self):
        self.found()
        self.same(self.office("desk", "it.db", given=ENROL + handed_in("web", EMPTY)), (0, DONE + SUBMITTED, ""))
        for index, columns in INDEXES.items():
            self.change(f"DROP INDEX {index}")
            self.same(self.office("desk", "it.db", given=LIST), (1, "", "office: no-index\n"), index)
            self.change(f"create index {index} on revisions({columns})")
            self.same(self.office("desk", "it.db", given=LIST), (0, LISTED, ""), index)

    def test_a_founding_that_cannot_be_closed_is_told(self):
        self.same(self.office("init", "it.db", *FOUNDING, env=self.library(UNLENGTHENED)), (1, "", "office: disk\n"))
        self.same(self.office("init", "it.db", *FOUNDING), (1, "", "office: already-founded\n"))

    def test_an_office_that_cannot_be_closed_is_told(self):
        self.found()
        self.same(self.office("desk", "it.db", given=ENROL + handed_in("long", LONGEST_TEXT))[0], 0)
        # the log, which is short, may be written, but the file may not grow by what the log has
        blocks = len(self.read("it.db")) // 512
        limited = f"trap '' XFSZ; ulimit -f {blocks}; exec ./office desk it.db"
        status, printed, said = self.office("-c", limited, program="sh", given=handed_in("web", SEVERAL_PAGES))
        self.same((status, printed[:16], said), (1, DONE[:16], "office: disk\n"))
        listed = json.loads(self.office("desk", "it.db", given=LIST)[1])
        self.same([it["profile"] for it in listed["profiles"]], ["long", "web"])

    def test_a_damaged_table_is_told_as_a_failing_disk(self):
        self.found(is_journaled=True)
        self.remove_log()
        whole = self.read("it.db")
        with closing(sqlite3.connect(f"{self.folder}/it.db")) as database:
            [[size]] = database.execute("PRAGMA page_size")
            roots = dict(database.execute("SELECT name, rootpage FROM sqlite_schema WHERE type = 'table'"))
        self.same(len(roots), 6)
        for table, page in roots.items():
            self.write("it.db", whole[: size * (page - 1)] + b"\xff" * size + whole[size * page :])
            for words in (["verify", "it.db", "it.journal"], ["desk", "it.db", "--journal", "it.journal"]):
                self.same(self.office(*words, given=LIST), (1, "", "office: disk\n"), (table, words))


# another order, a space, another writing of a letter, a member too many, one too few, one twice, numbers out of range, a word, a digest and
# roles that aren't of their forms, a kind that changes nothing, no member, and no object
NO_LINES = (
    b'{"event":"hold","by":"sec","profile":"web","team":"blue"}',
    b'{"by": "sec","event":"hold","profile":"web","team":"blue"}',
    b'{"by":"\\u0073ec","event":"hold","profile":"web","team":"blue"}',
    b'{"by":"sec","event":"hold","profile":"web","revision":1,"team":"blue"}',
    b'{"event":"hold","profile":"web","team":"blue"}',
    b'{"by":"sec","by":"sec","event":"hold","profile":"web","team":"blue"}',
    b'{"by":"iss","event":"issue","profile":"web","revision":0,"team":"blue"}',
    b'{"by":"iss","event":"issue","profile":"web","revision":10000,"team":"blue"}',
    b'{"by":"Sec","event":"hold","profile":"web","team":"blue"}',
    b'{"by":"rev","digest":"ab","event":"vote","profile":"web","revision":2,"team":"blue","vote":"reject"}',
    b'{"by":"reg","digest":"' + b"ab" * 32 + b'","event":"enrol","roles":["security","author"],"team":"blue","user":"ann"}',
    b'{"by":"ann","event":"show","profile":"web","revision":1,"team":"blue"}',
    b"{}",
    b"[]",
    b"",
)

# what a journal has of an enrolment and of what is handed in then
ENROLLED = (b'{"by":"root","digest":"2cf24dba5fb0a30e26e83b2ac5b9e29e1b161e5c1fa7425e73043362938b9824","event":"enrol","roles":["author"],'
            b'"team":"blue","user":"ann"}')
HANDED_IN = (b'{"by":"ann","document":"{\\"capabilities\\":{\\"ambient\\":[],\\"bounding\\":[],\\"effective\\":[],\\"inheritable\\":[],'
             b'\\"permitted\\":[]}}","event":"submit","profile":"web","team":"blue"}')


class Journals(Database):
    def test_a_text_that_is_no_line_is_refused(self):
        for text in NO_LINES:
            with self.subTest(text):
                self.write("it.journal", seals.sealed([text]))
                self.same(self.office("history", "it.journal"), (1, "", "office: line 1: not-a-line\n"))

    def test_a_journal_that_is_open_is_busy(self):
        self.found(is_journaled=True)
        shutil.copy(f"{self.folder}/it.db", f"{self.folder}/copy.db")
        before = self.read("it.journal")
        process, port = self.serve("it.db", "--requests", "1", "--journal", "it.journal")
        self.same(self.office("desk", "copy.db", "--journal", "it.journal", given=ENROL), BUSY)
        exchange(port, b"")
        self.end(process, "fault ended\n")
        self.same(self.office("desk", "copy.db", "--journal", "it.journal"), (0, "", ""))
        self.assertFalse(self.is_there("it.journal-wal"))
        self.same(self.read("it.journal"), before)

    def test_an_event_is_said_to_be_done_by_the_next_line_or_at_the_end(self):
        self.found(is_journaled=True)
        founded = seals.read(self.read("it.journal"))[0]
        process = self.start("desk", "it.db", "--journal", "it.journal")
        asked = (
            (ENROL, DONE, [ENROLLED]),
            (LIST, NO_PROFILE, []),
            (HOLD, DENIED, []),
            (handed_in("web", EMPTY), SUBMITTED, [seals.done(3), HANDED_IN]),
        )
        wanted = founded
        for request, answer, lines in asked:
            process.stdin.write(request.encode())
            process.stdin.flush()
            self.same(process.stdout.readline().decode(), answer)
            wanted = [*wanted, *lines]
            self.same(self.read("it.journal"), seals.sealed(wanted))
        self.same((self.finish(process), process.returncode), (["", ""], 0))
        self.same(self.read("it.journal"), seals.sealed([*wanted, seals.done(5)]))

    def test_an_event_that_a_fault_keeps_from_happening_is_struck_out(self):
        self.found(is_journaled=True)
        # nobody more can be enrolled: the greatest rowid of the users is taken
        self.change("UPDATE users SET rowid = 9223372036854775807")
        before = seals.read(self.read("it.journal"))[0]
        refused = '{"answer":"fault","word":"disk"}\n'
        self.same(self.office("desk", "it.db", "--journal", "it.journal", given=ENROL), (0, refused, ""))
        *events, enrolment, strike = seals.read(self.read("it.journal"))[0]
        self.same((events, json.loads(enrolment)["user"], strike), (before, "ann", seals.STRIKE))

    def test_a_founding_happens_once_and_is_that_of_the_office(self):
        self.found(is_journaled=True)
        founding = seals.read(self.read("it.journal"))[0][0]
        twice = [founding, seals.done(1), founding, seals.done(3)]
        another = [founding.replace(b'"root"', b'"ann"'), seals.done(1)]
        for events, said in ((twice, "line 3: founding"), (another, "differs: users ann")):
            self.write("it.journal", seals.sealed(events))
            self.same(self.office("verify", "it.db", "it.journal"), (1, "", f"office: {said}\n"))

    def assert_same_file(self, database, journal):
        for words in (["init", database, *FOUNDING], ["desk", database], ["serve", database, "--requests", "1"]):
            self.same(self.office(*words, "--journal", journal), SAME_FILE, words)
        self.same(self.office("rebuild", database, journal), SAME_FILE)

    def test_a_journal_beside_its_database_is_refused_before_anything_is_done(self):
        self.found(is_journaled=True)
        os.rename(f"{self.folder}/it.journal", f"{self.folder}/it.db-shm")
        before = self.kept()
        for words in (["desk", "it.db"], ["serve", "it.db", "--requests", "1"]):
            self.same(self.refused(*words, "--journal", "it.db-shm", given=ENROL), SAME_FILE, words)
            self.same(self.kept(), before, words)
        os.rename(f"{self.folder}/it.db-shm", f"{self.folder}/it.journal")
        self.same(self.office("desk", "it.db", "--journal", "it.journal", given=ENROL), (0, DONE, ""))

    def test_files_of_one_number_on_two_file_systems_are_two(self):
        # each of two new file systems gives its first file the same number as the other
        mount = "mount -t tmpfs none a && mount -t tmpfs none b"
        are_alike = "[ $(stat -c %i a) = $(stat -c %i b) ] && [ $(stat -c %i a/it) = $(stat -c %i b/it) ]"
        if self.apart(f"mkdir a b && {mount} && touch a/it b/it && {are_alike}")[0]:
            self.skipTest("no two file systems with files of one number can be mounted")
        init = f"./office init a/it {' '.join(FOUNDING)} --journal b/it"
        seen = self.apart(f"{mount} && {init} && {are_alike} && ./office desk a/it --journal b/it", given=ENROL)
        self.same(seen, (0, f"founded\n{DONE}", ""))

    def apart(self, script, **more):
        """What a shell says whose mounts nobody else sees."""
        return self.office("-rm", "sh", "-c", script, program="unshare", **more)

    def test_a_file_of_the_journal_is_no_database(self):
        for ending in ("-wal", "-journal", "-shm"):
            self.assert_same_file(f"it.journal{ending}", "it.journal")
            self.assertFalse(self.is_there(f"it.journal{ending}"))

    def test_a_file_of_the_database_is_no_journal(self):
        for ending in ("", "-wal", "-journal", "-shm"):
            self.assert_same_file("it.db", f"it.db{ending}")
            self.assertFalse(self.is_there(f"it.db{ending}"))
