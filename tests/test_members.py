"""What tools/members asks of each member of a line, a body, a query and a document. What is expected stands in members.txt."""
import re
import subprocess

from program import PROGRAM, TOP, Case


class Members(Case):
    # it takes as long as many openings of an office
    cost = 50

    def test_each_member_is_read_as_the_table_says(self):
        asking = self.start(PROGRAM, program=f"{TOP}/tools/members", stdin=subprocess.DEVNULL)
        printed, said = self.finish(asking)
        passed = re.fullmatch(r"([1-9]\d*) passed, 0 failed\n", printed)
        if asking.returncode or said or not passed:
            self.fail(f"status {asking.returncode}\n{printed}{said}")
        self.count = int(passed[1])
