"""Words of command lines: which are refused, the stream that each text goes to, and what help says."""
import os

from program import FOUNDING, Case

# words that are no command line, and the first line of what is said of them
REFUSED = (
    ("check --root web.json", "unexpected argument '--root' found"),
    ("check", "the following required arguments were not provided:"),
    ("check web.json web.json", "unexpected argument 'web.json' found"),
    ("execve web.json --file-permitted", "a value is required for '--file-permitted <LIST>' but none was supplied"),
    ("execve web.json --root --root", "the argument '--root' cannot be used multiple times"),
    ("fly", "unrecognized subcommand 'fly'"),
    ("check web.json --version", "unexpected argument '--version' found"),
    ("serve team.db --requests 0", "invalid value '0' for '--requests <N>': 0 is not in 1..=1000000"),
    ("serve team.db --requests 1000001", "invalid value '1000001' for '--requests <N>': 1000001 is not in 1..=1000000"),
    ("serve team.db --requests many", "invalid value 'many' for '--requests <N>': invalid digit found in string"),
    ("serve team.db --port 65536 --requests 1", "invalid value '65536' for '--port <P>': 65536 is not in 0..=65535"),
    ("serve team.db", "just one of '--requests <N>' and '--until-stopped' has to be there"),
    ("serve team.db --requests 1 --until-stopped", "just one of '--requests <N>' and '--until-stopped' has to be there"),
    ("serve team.db --until-stopped --requests 0", "invalid value '0' for '--requests <N>': 0 is not in 1..=1000000"),
    ("serve team.db --until-stopped --until-stopped", "the argument '--until-stopped' cannot be used multiple times"),
    ("rebuild team.db", "the following required arguments were not provided:"),
    ("rebuild team.db team.journal team.journal", "unexpected argument 'team.journal' found"),
    ("verify team.db team.journal --seal", "a value is required for '--seal <N:HEX>' but none was supplied"),
)

SEAL = "59dcfe6e4451871df38be188b58762b68dfff603fb898971e569464b471834e1"
# no seal of a line: one with a digit more or less or in upper case, none, and numbers of no line
NO_SEALS = (f"1:{SEAL[:-1]}", f"1:{SEAL}0", f"1:{SEAL.upper()}", "1:", "1", f"0:{SEAL}", f"{2**64}:{SEAL}", f"one:{SEAL}", f":{SEAL}")

LIST = '{"ask":"list","token":"nobody","team":"blue"}\n'
EMPTY = '{"capabilities":{}}'
CLOSED = '{"capabilities":{},"seccomp":{"defaultAction":"SCMP_ACT_KILL_PROCESS"}}'
# command lines with their status, how standard output begins, and standard error
TOLD = (
    ("--help", 0, "A review office", ""),
    ("help", 0, "A review office", ""),
    ("check --help", 0, "Reads a document", ""),
    ("execve -h", 0, "Prints what a process has", ""),
    ("--version", 0, "office ", ""),
    ("check empty.json", 0, "{", ""),
    ("check /dev/null", 1, None, "office: not-json line 1 column 0\n"),
    ("execve empty.json", 0, "effective: none", ""),
    ("execve empty.json --file-permitted CAP_KILL --file-effective", 1, "EPERM", ""),
    ("execve empty.json --root --file-effective", 1, None, "office: root-takes-no-file\n"),
    ("compare empty.json empty.json", 0, None, ""),
    ("compare closed.json empty.json", 1, "no-seccomp", ""),
    ("compare closed.json /dev/null", 2, None, "office: new: not-json line 1 column 0\n"),
    ("check nowhere.json", 1, None, "office: read nowhere.json\n"),
    ("execve nowhere.json", 1, None, "office: read nowhere.json\n"),
    ("compare nowhere.json empty.json", 2, None, "office: base: read nowhere.json\n"),
    ("compare empty.json nowhere.json", 2, None, "office: new: read nowhere.json\n"),
    ("history nowhere.journal", 1, None, "office: read nowhere.journal\n"),
    ("evidence nowhere.journal blue web 1", 1, None, "office: read nowhere.journal\n"),
    ("verify empty.json nowhere.journal", 1, None, "office: read nowhere.journal\n"),
    ("rebuild empty.json nowhere.journal", 1, None, "office: read nowhere.journal\n"),
    ("desk empty.json", 1, None, "office: not-an-office\n"),
)


class Words(Case):
    def test_words_that_are_no_command_line_end_with_status_2(self):
        for words, first in REFUSED:
            with self.subTest(words):
                status, printed, said = self.office(*words.split())
                self.same((status, printed, said.split("\n")[0]), (2, "", f"error: {first}"))

    def test_what_is_no_seal_of_a_line_is_refused(self):
        for seal in NO_SEALS:
            with self.subTest(seal):
                said = f"error: invalid value '{seal}' for '--seal <N:HEX>'\n\nFor more information, try '--help'.\n"
                self.same(self.office("verify", "it.db", "it.journal", "--seal", seal), (2, "", said))

    def test_each_text_goes_to_its_stream(self):
        self.write("empty.json", EMPTY)
        self.write("closed.json", CLOSED)
        for words, wanted, beginning, error in TOLD:
            with self.subTest(words):
                status, printed, said = self.office(*words.split())
                self.same((status, said), (wanted, error))
                self.assertTrue(printed.startswith(beginning) if beginning else not printed, printed)

    def test_usage_names_the_office_whatever_the_program_file_is_called(self):
        os.rename(f"{self.folder}/office", f"{self.folder}/office_program")
        self.assertIn("Usage: office check <FILE>", self.office("check", "--help", program="./office_program")[1])

    def test_the_first_example_of_an_office_has_a_journal(self):
        for command in ("", "init", "desk", "serve"):
            with self.subTest(command):
                examples = self.office(*command.split(), "--help")[1].partition("\nExamples:\n")[2].split("\n")
                first = next(it for it in examples if it.strip().startswith(f"office {command or 'init'} "))
                self.assertIn(" --journal team.journal", first)


class Closed(Case):
    """A stream that is closed: what is meant for it goes into no file, though the next file that is opened could have its number."""

    def test_nothing_is_written_into_a_file_for_a_closed_stream(self):
        self.found(is_journaled=True)
        journal = self.read("it.journal")
        for closed, given, end in (
            ("<&-", "", (1, "", "office: read\n")),
            (">&-", LIST, (1, "", "office: write\n")),
            (">&- 2>&-", LIST, (1, "", "")),
            ("2>&-", "{}\n", (0, '{"answer":"bad","word":"not-a-request"}\n', "")),
        ):
            self.same(self.shell(f"./office desk it.db --journal it.journal {closed}", given=given), end, closed)
            self.same(self.read("it.journal"), journal, closed)
            self.assert_verified("it")

    def test_an_office_is_founded_where_that_cannot_be_said(self):
        init = f"./office init new.db {' '.join(FOUNDING)} --journal new.journal"
        self.same(self.shell(f"{init} >&-"), (1, "", "office: write\n"))
        self.assert_verified("new")

    def shell(self, script, **more):
        return self.office("-c", script, program="sh", **more)

    def assert_verified(self, name):
        status, printed, said = self.office("verify", f"{name}.db", f"{name}.journal")
        self.same((status, printed[:18], said), (0, "verified 1 events,", ""))


class Controls(Case):
    """What a document or a path has is written so that it does nothing to a terminal."""

    def assert_refused(self, document, said):
        self.write("a.json", document)
        self.same(self.office("check", "a.json"), (1, "", f"office: unknown-member /capabilities/{said}\n"))

    def test_nothing_controls_a_terminal(self):
        # ESC, DEL, CSI and a line feed
        self.assert_refused(r'{"capabilities":{"\u001b[31m\u007f\u009b\n":1}}', r"\u001b[31m\u007f\u009b\u000a")
        self.same(self.office("check", "no\x1b\u00e9.json"), (1, "", "office: read no\\u001b\u00e9.json\n"))
        said = self.office("check", "a.json", "no\x1b.json")[2]
        self.assertIn(r"no\u001b.json", said)
        self.assertNotIn("\x1b", said)

    def test_nothing_sets_a_direction(self):
        # the first and the last bidirectional controls, and what stands beside those
        name = r"\u202a\u202e\u2066\u2069\u2029\u202f\u2065\u206a"
        self.assert_refused(f'{{"capabilities":{{"{name}":1}}}}', r"\u202a\u202e\u2066\u2069" + "\u2029\u202f\u2065\u206a")
        self.same(self.office("check", "no\u202enosj.\u2068"), (1, "", r"office: read no\u202enosj.\u2068" + "\n"))
        self.assertIn(r"fly\u202d", self.office("fly\u202d")[2])
