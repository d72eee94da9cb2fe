"""The tests of the crates, each crate a case: what no client of the program can do, with no proof. `rt try --test` runs them."""
import os
import re
import subprocess
import unittest

from program import TOP, text_of

# a try checks each access
SECONDS = "2400"
# crates that are tried only where they are named, and why
UNASKED = {"stop_tests": "each of its tests takes minutes"}
# what `rt try` itself says at the end
SAID_BY_RT = re.compile(r"^(checked|interpreted): .*\n|^run=.* proved=no\n", re.M)


class Crate(unittest.TestCase):
    def __init__(self, name, cost):
        super().__init__("try_tests")
        self.name, self.cost, self.unasked, self.count = name, cost, UNASKED.get(name, ""), 1

    def __str__(self):
        return self.name

    def try_tests(self):
        ran = subprocess.run(["rt", "try", "--test"], cwd=f"{TOP}/crates/{self.name}", stdin=subprocess.DEVNULL, capture_output=True,
                             text=True, errors="replace", env={**os.environ, "RT_SECONDS": SECONDS}, check=False)
        said = ran.stdout + SAID_BY_RT.sub("", ran.stderr)
        passed = len(re.findall(r"^test .* \.\.\. ok$", said, re.M))
        if ran.returncode or not passed:
            self.fail(f"status {ran.returncode}\n" + re.sub(r"^test .* \.\.\. ok\n", "", said, flags=re.M))
        self.count = passed


def has_tests(crate):
    files = (f"{at}/{name}" for at, _, names in os.walk(f"{TOP}/crates/{crate}/src") for name in names)
    return any("#[test]" in text_of(it) for it in files)


def load_tests(_loader, _tests, _pattern):
    """The crates on top take longest, which are the last."""
    names = enumerate(re.findall(r"^(\w+):", text_of(f"{TOP}/crates.txt"), re.M))
    return unittest.TestSuite(Crate(name, place) for place, name in names if has_tests(name))
