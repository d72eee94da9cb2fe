"""What the documents and the transcripts show of commands, carried out as a shell does it.

A transcript has headings behind `# `, commands behind `$ `, and below each command what it prints. The lines between one that ends with
<<'END' and the line `END` are given to it. Of a document its `console` blocks are one transcript. Each has a folder of its own, which has
`office`, `examples/` and the files of tests/transcripts."""
import glob
import itertools
import os
import re
import shutil
import subprocess
import unittest

from program import TOP, TRANSCRIPTS, Case, text_of


def lines_of_document(path):
    """The lines of the console blocks, each with its number."""
    is_inside = False
    for number, line in enumerate(text_of(path).split("\n"), 1):
        if line == "```":
            is_inside = False
        if is_inside:
            yield number, line
        if line == "```console":
            is_inside = True


def lines_of_transcript(path):
    text = text_of(path)
    return enumerate(text.removesuffix("\n").split("\n"), 1)


def lines_of_conversation(path):
    """The commands by which an example is asked, and its answers."""
    yield 0, f"$ ./office < examples/{os.path.basename(path).replace('.out.', '.')}"
    yield from lines_of_transcript(path)


def lines_of_changelog(path):
    version = re.search(r"^## (\S+)", text_of(path), re.M)[1]
    return [(0, "$ ./office --version"), (0, f"office {version}")]


def steps_of(lines):
    """Each command with the number of its line, and the lines that it has to print."""
    steps, lines = [], iter(lines)
    for number, line in lines:
        if line.startswith("$ "):
            given = [it for _, it in itertools.takewhile(lambda it: it[1] != "END", lines)] + ["END"] if "<<'END'" in line else []
            steps.append((number, "\n".join([line[2:], *given]), []))
        elif not line.startswith("# "):
            steps[-1][2].append(line)
    return steps


class Transcript(Case):
    """A text that shows commands and what they print."""

    def __init__(self, path, lines):
        super().__init__("carry_out")
        self.path, self.lines = path, lines
        # what opens an office takes longest
        self.cost = len(re.findall(r"^\$ \./office .*\.(?:db|journal)", text_of(path), re.M))

    def __str__(self):
        return os.path.relpath(self.path, TOP).removeprefix("tests/")

    def shell(self, commands):
        """The status of a shell that has these commands, and what it prints."""
        shell = self.start("-c", commands, program="sh", stdin=subprocess.DEVNULL, stderr=subprocess.STDOUT)
        printed, _ = self.finish(shell)
        return shell.returncode, printed

    def carry_out(self):
        for path in glob.glob(f"{TRANSCRIPTS}/*.jsonl"):
            shutil.copy(path, self.folder)
        steps = steps_of(self.lines(self.path))
        self.assertTrue(steps, "no command is shown")
        status, differing = 0, []
        for number, command, shown in steps:
            # what `echo $?` prints is of the command before
            status, printed = self.shell(f"(exit {status})\n{command}\n")
            if printed != "".join(f"{it}\n" for it in shown):
                differing.append(f"{self}:{number}\n$ {command}\n{beside(shown, printed)}")
        if differing:
            self.fail(f"{len(differing)} of {len(steps)} commands print something else\n" + "\n".join(differing))


def beside(shown, printed):
    """The lines that differ, each that is shown behind `- `, and each that is printed behind `+ `."""
    lines = printed.removesuffix("\n").split("\n") if printed else []
    while shown and lines and shown[-1] == lines[-1]:
        shown, lines = shown[:-1], lines[:-1]
    pairs = [(old, new) for old, new in itertools.zip_longest(shown, lines) if old != new]
    if not pairs:
        return "the end of the last line differs"
    return "\n".join(f"{mark} {line}" for pair in pairs for mark, line in zip("-+", pair) if line is not None)


def load_tests(_loader, _tests, _pattern):
    documents = [f"{TOP}/README.md", *sorted(glob.glob(f"{TOP}/docs/*.md")), f"{TOP}/examples/README.md"]
    shown = [(it, lines_of_document) for it in documents if "\n```console\n" in text_of(it)]
    shown += [(it, lines_of_transcript) for it in sorted(glob.glob(f"{TRANSCRIPTS}/*.console"))]
    shown += [(it, lines_of_conversation) for it in sorted(glob.glob(f"{TOP}/examples/*.out.jsonl"))]
    shown += [(f"{TOP}/CHANGELOG.md", lines_of_changelog)]
    return unittest.TestSuite(Transcript(path, lines) for path, lines in shown)
