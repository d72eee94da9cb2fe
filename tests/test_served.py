"""Clients of an office over HTTP that come at once, late, end early, or wait, and a port that is taken."""
import shutil
import socket
import time
from contextlib import suppress

from program import LONGEST, Case, exchange, seals

CALL = b"GET /p/blue/web/1 HTTP/1.1\r\nHost: office\r\nAuthorization: Bearer nobody\r\n\r\n"
PART_OF_BODY = b'POST /p/blue/web HTTP/1.1\r\nHost: office\r\nAuthorization: Bearer nobody\r\nContent-Length: 18\r\n\r\n{"capabil'
DENIED = b'{"answer":"denied","rule":1,"word":"caller-unknown"}'
NO_HEAD = b'{"answer":"bad","word":"bad-head"}'
# a library before that of the system, by which the first connection can't be had twice
ONCE = rb"""#define _GNU_SOURCE
#include <dlfcn.h>
#include <errno.h>
#include <fcntl.h>
#include <stdarg.h>
#include <sys/stat.h>
int fcntl(int file, int command, ...)
{
    static int refused;
    struct stat found;
    va_list more;
    va_start(more, command);
    void *argument = va_arg(more, void *);
    va_end(more);
    if (command == F_DUPFD_CLOEXEC && !refused && fstat(file, &found) == 0 && S_ISSOCK(found.st_mode)) {
        refused = 1;
        errno = EMFILE;
        return -1;
    }
    return ((int (*)(int, int, ...))dlsym(RTLD_NEXT, "fcntl"))(file, command, argument);
}
"""


def connect(port):
    return socket.create_connection(("127.0.0.1", port), timeout=LONGEST)


def answer_to(client, message):
    """The bytes that a client is answered to a message; none where its connection breaks."""
    answer = b""
    with client, suppress(ConnectionError):
        client.sendall(message)
        while part := client.recv(65536):
            answer += part
    return answer


class Clients(Case):
    def test_clients_that_wait_are_served_in_order(self):
        self.found()
        process, port = self.serve("it.db", "--requests", "6")
        messages = ((CALL, DENIED), (b"GET\r\n\r\n", NO_HEAD), (b"", b""), (b"GET /p/blue", b""), (PART_OF_BODY, b""), (CALL, DENIED))
        clients = [connect(port) for _ in messages]
        # the first sends last, so that all wait for it
        for client, (message, _) in reversed(list(zip(clients, messages))):
            client.sendall(message)
            client.shutdown(socket.SHUT_WR)
        for client, (_, ending) in zip(clients, messages):
            with client, client.makefile("rb") as stream:
                answer = stream.read()
                self.assertTrue(answer.endswith(ending) and bool(answer) == bool(ending), answer)
        self.end(process, "403\n400\nfault ended\nfault ended\nfault ended\n403\n")

    def test_an_answer_goes_to_nobody_else_where_it_cannot_be_written(self):
        self.found()
        process, port = self.serve("it.db", "--requests", "2", env=self.library(ONCE))
        first, second = connect(port), connect(port)
        self.same(answer_to(first, CALL), b"")
        answer = answer_to(second, b"GET\r\n\r\n")
        self.assertTrue(answer.startswith(b"HTTP/1.1 400 ") and answer.endswith(NO_HEAD), answer)
        self.end(process, "fault read\n400\n")


class LateClients(Case):
    # it waits, so that others run meanwhile
    cost = 1_000

    def test_a_client_has_its_ten_seconds_from_its_own_beginning(self):
        self.found()
        for name in ("two.db", "three.db"):
            shutil.copy(f"{self.folder}/it.db", f"{self.folder}/{name}")
        one, port_of_one = self.serve("it.db", "--requests", "1")
        two, port_of_two = self.serve("two.db", "--requests", "2")
        three, port_of_three = self.serve("three.db", "--requests", "2")
        self.assert_denied(exchange(port_of_two, CALL))
        with connect(port_of_three), connect(port_of_three) as behind_a_silent_one:
            behind_a_silent_one.sendall(CALL)
            time.sleep(11)
            self.assert_denied(exchange(port_of_one, CALL))
            self.assert_denied(exchange(port_of_two, CALL))
            self.assert_denied(answer_to(behind_a_silent_one, b""))
        self.end(one, "403\n")
        self.end(two, "403\n403\n")
        self.end(three, "fault read\n403\n")

    def assert_denied(self, answer):
        self.assertTrue(answer.startswith(b"HTTP/1.1 403 ") and answer.endswith(DENIED), answer)


class Ports(Case):
    def test_a_port_that_is_taken_leaves_an_office_its_journal(self):
        self.found(is_journaled=True)
        journal = self.read("it.journal")
        with socket.create_server(("127.0.0.1", 0)) as taken:
            serve = ["serve", "it.db", "--port", str(taken.getsockname()[1]), "--requests", "1", "--journal", "it.journal"]
            self.same(self.refused(*serve), (1, "", "office: bind\n"))
        self.same((self.read("it.journal"), self.mark("it.db")), (journal, 2))
        seal = seals.read(journal)[1][-1]
        self.same(self.office("verify", "it.db", "it.journal"), (0, f"verified 1 events, seal {seal}\n", ""))
        self.same(self.office("desk", "it.db", "--journal", "it.journal"), (0, "", ""))
