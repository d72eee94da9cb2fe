"""Lines at the trial desk: when they are answered, and the largest answers."""
import json
from itertools import combinations
from hashlib import sha256

from program import Case
from test_limits import LONGEST as LONGEST_TEXT

EMPTY = '{"capabilities":{}}'
DIGEST = "67d59648e3164479ed30407333c338a60764f60cd31c54ca1cd477602ac5e5d6"


# two documents that are handed in by turns, and the digests of their canonical texts
DOCUMENTS = (EMPTY, '{"capabilities":{"bounding":["CAP_KILL"]}}')
DIGESTS = (DIGEST, "c4c88f353ce9675cc5507ae309a61414eed7d5a6a843e6d534a9709a2862c9bd")
ROLES = ("registrar", "author", "reviewer", "security", "issuer", "machine")
# the number below which revisions are asked for, of 101; and the newest and the oldest that are listed then, and whether there are older ones
LISTED = {
    None: (101, 2, True), 9999: (101, 2, True), 102: (101, 2, True), 101: (100, 1, False), 100: (99, 1, False), 2: (1, 1, False), 1: (0, 1, False),
}


def listed(first, oldest, last, more):
    """The answer that lists the revisions from `first` down to `oldest`, where `last` is open, and the others are closed."""
    revisions = [
        {"by": "ann", "digest": DIGESTS[it % 2], "revision": it, "state": "open" if it == last else "closed"} for it in range(first, oldest - 1, -1)
    ]
    return {"answer": "done", "more": more, "revisions": revisions}


def enrol(user, role):
    return {"ask": "enrol", "token": "abc", "user": user, "team": "blue", "roles": [role], "digest": sha256(f"t-{user}".encode()).hexdigest()}


def ask(kind, user, profile="web", **more):
    return {"ask": kind, "token": f"t-{user}", "team": "blue", "profile": profile, **more}


class Lines(Case):
    def test_each_line_is_answered_before_the_next_is_there(self):
        requests, answers = (self.read(f"examples/first-path.{it}").splitlines(True) for it in ("jsonl", "out.jsonl"))
        process = self.start()
        for request, answer in zip(requests, answers):
            process.stdin.write(request)
            process.stdin.flush()
            self.same(process.stdout.readline(), answer)
        self.same((self.finish(process), process.returncode), (["", ""], 0))

    def answers(self, requests):
        """What a new office answers to these, each of which is done."""
        status, printed, said = self.office(given="".join(f"{json.dumps(it)}\n" for it in requests))
        answers = printed.splitlines()
        self.same((status, said, len(answers)), (0, "", len(requests)))
        self.same({it[:16] for it in answers}, {'{"answer":"done"'})
        return [json.loads(it) for it in answers]

    def last_answer(self, requests):
        """What a new office answers to the last of these."""
        return self.answers(requests)[-1]

    def test_six_hundred_profiles_of_a_team_are_listed(self):
        names = [f"web-{number}" for number in range(600)]
        submissions = [ask("submit", "ann", name, document=EMPTY) for name in names]
        listed = self.last_answer([enrol("ann", "author"), *submissions, {"ask": "list", "token": "t-ann", "team": "blue"}])
        self.same([it["profile"] for it in listed["profiles"]], sorted(names))

    def test_a_hundred_revisions_are_listed_and_older_ones_told(self):
        begun = [enrol("ann", "author"), *(ask("submit", "ann", document=DOCUMENTS[it % 2]) for it in range(1, 101))]
        lists = [ask("revisions", "ann", **({"before": it} if it else {})) for it in LISTED]
        last = ask("submit", "ann", document=DOCUMENTS[101 % 2])
        answers = self.answers([*begun, lists[0], last, *lists])
        self.same(answers[len(begun)], listed(100, 1, 100, False))
        self.same(answers[len(begun) + 2 :], [listed(first, oldest, 101, more) for first, oldest, more in LISTED.values()])

    def test_roles_are_told_in_their_order(self):
        some = [it for count in range(len(ROLES) + 1) for it in combinations(ROLES, count)]
        # each set is given in the other order, and its first role twice
        enrolled = [{**enrol("ann", "author"), "roles": [*reversed(it), *it[:1]]} for it in some]
        answers = self.answers([it for enrolment in enrolled for it in (enrolment, {"ask": "me", "token": "t-ann"})])
        self.same(answers[1::2], [{"answer": "done", "roles": [*it], "team": "blue", "user": "ann"} for it in some])

    def test_a_sheet_has_the_votes_of_thirty_reviewers(self):
        reviewers = [f"rev-{number}" for number in range(30)]
        votes = [it for name in reviewers for it in (enrol(name, "reviewer"), ask("vote", name, revision=1, digest=DIGEST, vote="approve"))]
        begun = [enrol("ann", "author"), ask("submit", "ann", document=EMPTY)]
        sheet = self.last_answer([*begun, *votes, ask("sheet", "ann", revision=1)])["sheet"]
        approvals = "".join(f"  {name} approve\n" for name in sorted(reviewers))
        self.assertTrue(sheet.endswith(f"\nvotes: 30\n{approvals}approvals: 30\nrejections: 0\n"), sheet)

    def test_the_sheet_of_the_longest_document_is_written(self):
        begun = [enrol("ann", "author"), ask("submit", "ann", document=LONGEST_TEXT)]
        sheet = self.last_answer([*begun, ask("sheet", "ann", revision=1)])["sheet"]
        self.assertGreater(len(sheet), 250_000)
        self.assertIn("\nentries: 6\nentry 1: ", sheet)
        self.assertTrue(sheet.endswith("\nrejections: 0\n"))
