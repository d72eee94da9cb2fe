"""The program that is tested, and what the cases have in common. Each case has a folder of its own."""
import os
import re
import shutil
import signal
import socket
import sqlite3
import subprocess
import sys
import tempfile
import threading
import unittest
from contextlib import closing
from hashlib import sha256

sys.dont_write_bytecode = True
TOP = os.path.dirname(os.path.dirname(os.path.realpath(__file__)))
TRANSCRIPTS = f"{TOP}/tests/transcripts"
sys.path.append(f"{TOP}/tools")
import seals  # the lines of a journal, by what docs/journal.md says of them

# tools/test sets it
PROGRAM = os.path.realpath(os.environ.get("OFFICE_PROGRAM", f"{TOP}/crates/office_program/out/office_program"))
# seconds after which what hasn't ended has failed
LONGEST = 300
# what people see doesn't hang on where they are
SURROUNDINGS = {**os.environ, "LC_ALL": "C", "TZ": "UTC"}
# what founds an office as that of the trial desk: root of the team office may enrol users, by the token abc
FOUNDING = ("root", "office", sha256(b"abc").hexdigest(), "CAP_SYS_ADMIN")

UNJOURNALED = "office: without a journal, which this office will never have\n"
WITHOUT = "office: without its journal, which tells nothing of what happens from now on\n"
# the files of an office that was founded, and of one with a journal
FOUNDED, FOUNDED_BY_ONE = {}, threading.Lock()


def stop(process):
    """Ends a process that nobody has waited for, with all that it started."""
    if process.returncode is None:
        os.killpg(process.pid, signal.SIGKILL)


def clear(process):
    """Leaves nothing of a process that was started."""
    process.late.cancel()
    stop(process)
    process.wait()
    for stream in (process.stdin, process.stdout, process.stderr):
        if stream:
            stream.close()


def text_of(path):
    with open(path, encoding="utf-8", newline="") as it:
        return it.read()


class Case(unittest.TestCase):
    """A case in a folder in which `office` is the program, and `examples` what is shown of documents and requests."""

    maxDiff = None

    def __str__(self):
        return f"{type(self).__module__.removeprefix('test_')}: {self._testMethodName.removeprefix('test_')}"

    def setUp(self):
        self.folder = tempfile.mkdtemp()
        self.addCleanup(shutil.rmtree, self.folder)
        os.symlink(PROGRAM, f"{self.folder}/office")
        shutil.copytree(f"{TOP}/examples", f"{self.folder}/examples")

    def same(self, seen, wanted, what=None):
        """Compares what was seen with what has to be, which stands first where they differ."""
        self.assertEqual(wanted, seen, what)

    def read(self, name):
        with open(f"{self.folder}/{name}", "rb") as it:
            return it.read()

    def write(self, name, data):
        with open(f"{self.folder}/{name}", "wb") as it:
            it.write(data if isinstance(data, bytes) else data.encode())

    def library(self, code):
        """A library of C that the program has before that of the system, by the surroundings that it is started in."""
        if not shutil.which("cc"):
            self.skipTest("cc isn't there")
        path = f"{self.folder}/library.so"
        subprocess.run(["cc", "-shared", "-fPIC", "-x", "c", "-o", path, "-"], input=code, check=True)
        return {**SURROUNDINGS, "LD_PRELOAD": path}

    def is_there(self, name):
        return os.path.exists(f"{self.folder}/{name}")

    def kept(self):
        """The digest of each file but the program and logs: what only opens a database may leave an empty log, or fold one into its file."""
        names = {it for it in os.listdir(self.folder) if not it.endswith("-wal")} - {"office", "examples"}
        return {it: sha256(self.read(it)).hexdigest() for it in names}

    def mark(self, name):
        """The mark of a database, as SQLite finds it in a copy of the file and its log."""
        with tempfile.TemporaryDirectory() as folder:
            for ending in ("", "-wal"):
                if self.is_there(f"{name}{ending}"):
                    shutil.copy(f"{self.folder}/{name}{ending}", f"{folder}/it.db{ending}")
            with closing(sqlite3.connect(f"{folder}/it.db")) as database:
                return database.execute("PRAGMA user_version").fetchone()[0] % 2**32

    def start(self, *words, program="./office", **more):
        """Starts `office` with these words, where the streams that aren't given are pipes."""
        streams = {name: subprocess.PIPE for name in ("stdin", "stdout", "stderr")}
        process = subprocess.Popen([program, *words], cwd=self.folder, start_new_session=True, **{"env": SURROUNDINGS, **streams, **more})
        process.late = threading.Timer(LONGEST, stop, [process])
        process.late.start()
        self.addCleanup(clear, process)
        return process

    def finish(self, process, given=None):
        """What a process that was started writes to standard output and to standard error, until it ends."""
        written = process.communicate(given)
        process.late.cancel()
        return [(it or b"").decode(errors="surrogateescape") for it in written]

    def office(self, *words, given="", **more):
        """The status of `office`, and what it writes to standard output and to standard error."""
        process = self.start(*words, **more)
        printed, said = self.finish(process, given.encode())
        return process.returncode, printed, said

    def refused(self, *words, given=""):
        """As `office`, of what has to be refused: where it serves an office, its first line is told, and no client is waited for."""
        if words[0] != "serve":
            return self.office(*words, given=given)
        process = self.start(*words, stdin=subprocess.DEVNULL)
        if line := process.stdout.readline().decode():
            return None, line, ""
        printed, said = self.finish(process)
        return process.returncode, printed, said

    def found(self, is_journaled=False):
        """Puts a new office into the file `it.db`, with `it.journal` or without one. The first one is founded, and others are its copies."""
        with FOUNDED_BY_ONE:
            if is_journaled not in FOUNDED:
                more, said = (("--journal", "it.journal"), "") if is_journaled else ((), UNJOURNALED)
                self.same(self.office("init", "it.db", *FOUNDING, *more), (0, "founded\n", said))
                FOUNDED[is_journaled] = {it: self.read(it) for it in os.listdir(self.folder) if it.startswith("it.")}
        for name, data in FOUNDED[is_journaled].items():
            self.write(name, data)

    def serve(self, *words, **more):
        """Has an office answer requests over HTTP, and gives the process and its port."""
        process = self.start("serve", *words, **more)
        line = process.stdout.readline().decode()
        listening = re.fullmatch(r"listening 127\.0\.0\.1:(\d+)\n", line)
        self.assertTrue(listening, f"the first line of serve: {line!r}, {process.stderr.read() if not line else b''}")
        return process, int(listening[1])

    def end(self, process, lines):
        """Waits for an office that has answered all its requests, which has to have printed these lines."""
        printed, said = self.finish(process)
        self.same((process.returncode, printed, said), (0, lines, ""))


def exchange(port, message):
    """The bytes that are answered to a message, whose sender hangs up behind it."""
    parts = []
    with socket.create_connection(("127.0.0.1", port), timeout=LONGEST) as stream:
        stream.sendall(message)
        stream.shutdown(socket.SHUT_WR)
        while part := stream.recv(65536):
            parts.append(part)
    return b"".join(parts)
