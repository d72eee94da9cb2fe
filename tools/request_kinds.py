# The kinds of request, read from the definitions that the code is proved to keep. Nobody else lists what a kind is: tools/kinds and tools/policy
# compare other lists with these, and tests/test_verdicts.py asks by these.
import os
import re
from dataclasses import dataclass
from functools import cache

TOP = os.path.dirname(os.path.dirname(os.path.realpath(__file__)))
KINDS = "json_requests/specs/Kinds.antt"
ACTS = "review_policy/specs/Acts.antt"
RULES = "review_policy/specs/Rules.antt"
WORDS = "review_policy/specs/WordTables.antt"
ROLES = "office_words/specs/WordTables.antt"
VERDICT = "office_policy/specs/Verdict.antt"
FACTS = "office_policy/specs/Facts.antt"
CALLERS = "office_policy/specs/Callers.antt"
HANDLED = "office_policy/specs/Handled.antt"
NEWEST = "office_policy/specs/Newest.antt"
ANSWERS = "json_requests/specs/Answers.antt"
TABLE = "http_requests/specs/Table.antt"
METHODS = "http_requests/specs/Methods.antt"
ASKS = "http_requests/specs/Asks.antt"
RESPONSES = "http_requests/specs/Responses.antt"
MESSAGE = "http_requests/specs/Message.antt"


@dataclass(frozen=True)
class Kind:
    word: str
    # its case of `Ask`, with the act or the view where there are several
    ask: str
    # the members of its line besides `ask` and `token`: those that its target names, that its query may have, and that its body has
    members: tuple
    # the members of its answer besides `answer` where it is done
    reply: tuple
    # the member that is all of its response over HTTP where it is done, and its type; else nothing
    text: tuple
    # the words of its rules, in their order
    rules: tuple
    # of which roles one is needed: in the own team alone, and in any team
    own_roles: tuple
    any_roles: tuple
    # whether it changes nothing
    reads: bool
    # how it is asked over HTTP; nothing where it has no route
    method: str
    target: str

    @property
    def roles(self):
        return tuple(it for it in ROLE_WORDS.values() if it in self.own_roles + self.any_roles)

    @property
    def query(self):
        return self.left if self.method == "GET" else ()

    @property
    def body(self):
        return self.left if self.method != "GET" else ()

    @property
    def left(self):
        return tuple(it for it in self.members if f"{{{it}}}" not in self.target)

    def line(self):
        """All of it in one line."""
        parts = [f"{self.method} {self.target}" + "".join(f"[?{it}=]" for it in self.query), "reads" if self.reads else "changes",
                 "members: " + " ".join(self.members), "reply: " + " ".join(self.reply), "rules: " + " ".join(self.rules)]
        return f"{self.word}: " + "; ".join(parts)


@cache
def lines_of(file):
    with open(f"{TOP}/crates/{file}", encoding="utf-8") as it:
        return [line.split("--")[0].rstrip() for line in it]


def names_in(text):
    return re.findall(r"[\w.]+", text)


@cache
def clauses(file, name):
    """The clauses of a definition, each with its left and its right side on a line."""
    found, begun = [], False
    for line in lines_of(file):
        inside = len(line) - len(line.lstrip())
        if begun and line and inside > found[-1][0]:
            found[-1][1] += " " + line.strip()
        else:
            begun = re.match(rf"\s*{re.escape(name)} (?!:)", line) is not None
            if begun:
                found.append([inside, line.strip()])
    return [tuple(text.split(" = ", 1)) for _, text in found if " = " in text]


def word_table(file, name):
    """A definition that gives each case a word."""
    return {names_in(left)[1]: re.search(r'codes "([^"]*)"', right)[1] for left, right in clauses(file, name) if 'codes "' in right}


def fitting(file, name, form, case):
    """The right sides of a definition that are of this form, where it takes one, and of this case, where it tells cases apart."""
    for left, right in clauses(file, name):
        taken = names_in(left)[1:]
        cases = CASES & {*taken}
        takes_form = form is None or form in taken or "_" in taken and not any("." in it for it in taken)
        if takes_form and (not cases or case in cases):
            yield right


def first(file, name, form=None, case=None):
    return next(fitting(file, name, form, case), "")


ACT_WORDS = {f"{of}_{what}": word_table(ACTS, f"{of}_{what}_word") for of in ("revision", "profile") for what in ("act", "view")}
CASES = {case for words in ACT_WORDS.values() for case in words}
RULE_WORDS = word_table(WORDS, "rule_word")
ROLE_WORDS = word_table(ROLES, "role_word")
TYPES = word_table(MESSAGE, "type_text")


def members_in(right):
    """The members that a right side lists, or that the definition lists which it names."""
    return tuple(re.findall(r'codes "(\w+)"', right)) or tuple(it for name in names_in(right) for it in members_in(first(KINDS, name)))


def roles_in(right):
    found = [it for it in names_in(right) if it in ROLE_WORDS]
    return tuple(ROLE_WORDS[it] for it in found) or tuple(it for name in names_in(right) for it in roles_in(first(CALLERS, name)))


def never_of(call):
    """The fields of facts that are false whatever happened, since `false` is given for them."""
    name, given = re.search(r"(\w+_facts) (.*)\)", call).groups()
    left, right = clauses(FACTS, name)[0]
    given = re.findall(r"\([^()]*(?:\([^()]*\)[^()]*)*\)|[\w.]+", given)
    false = {name for name, value in zip(reversed(names_in(left)), reversed(given)) if value == "false"}
    return {field for field, value in re.findall(r"(\w+) = ([^;]+);", right) if value in false}


def rules_of(ask, case):
    """The words of the rules of a kind but those that never refuse, in their order."""
    behind = first(VERDICT, "rules_behind", ask, case)
    listed = [first(RULES, "behind_caller")]
    if behind != "[]":
        listed += first(RULES, names_in(behind)[0]).split(" ∷ ")
    never = never_of(behind) if "_facts " in behind else set()
    for item in listed:
        if not item.startswith(("(", "[")):
            item = first(RULES, names_in(item)[0], case=case)
        names = names_in(item)
        if names and names[-1].removeprefix("f.") not in never:
            yield RULE_WORDS[next(it for it in names if it in RULE_WORDS)]


def reply_in(right, case, seen=()):
    """The reply that a right side gives, itself or by the definitions which it names."""
    if found := re.search(r"\breply\.\w+", right):
        return found[0]
    for name in names_in(right):
        for file in () if name in seen else (VERDICT, NEWEST):
            for it in fitting(file, name, None, case):
                if found := reply_in(it, case, (*seen, name)):
                    return found
    return ""


def text_of(reply):
    """The member that is all of a response, and its type."""
    body = [right for left, right in clauses(RESPONSES, "body_of_reply") if reply in names_in(left)]
    form = [right for left, right in clauses(RESPONSES, "type_of_reply") if reply in names_in(left)]
    return (body[0], TYPES[form[0] if form else "Json"]) if body else ()


def kind_of(constructor, case, word, method, target):
    ask = "ask." + "".join(it.capitalize() for it in constructor.split("_"))
    reply = reply_in(first(VERDICT, "done_of", ask, case), case)
    return Kind(
        word=word, ask=f"{ask} {case}" if case else ask, members=members_in(first(KINDS, "members_of", constructor)),
        reply=tuple(it or "digest" for it in re.findall(r'digest_member|codes "(\w+)"', first(ANSWERS, "reply_members", reply))),
        text=text_of(reply), rules=tuple(rules_of(ask, case)), own_roles=roles_in(first(CALLERS, "roles_for_own_team", ask, case)),
        any_roles=roles_in(first(CALLERS, "roles_for_any_team", ask, case)), reads=first(HANDLED, "only_reads", ask, case) == "true",
        method=method.upper(), target=target)


def constructors():
    """The constructors of `Kind` in their order, each with its cases and their words."""
    words = word_table(KINDS, "kind_word")
    for line in lines_of(KINDS):
        if found := re.fullmatch(r"  (\w+) : (?:(\w+) → )?Kind", line):
            name, act = found.groups()
            several = re.sub(r"(?<=[a-z])(?=[A-Z])", "_", act).lower() if act else ""
            yield name, ACT_WORDS[several] if act else {"": words[name]}


def asked_in(right):
    """The constructor of `Kind` that a right side asks by."""
    renamed = dict(re.findall(r"(\w+) as (\w+)", " ".join(lines_of(ASKS))))
    names = {new: old for old, new in renamed.items()}
    known = {name for name, _ in constructors()}
    return next(it for it in (names.get(name, name).removesuffix("_in") for name in names_in(right)) if it in known)


def routes():
    """What each route asks for: the constructor of `Kind` and its case, the method and the target."""
    row = r'\(codes "([^"]+)", Of(\w+)(?: \(?(\w+\.\w+)(?: (\w+))?\)?)?\)'
    for target, form, asked, case in re.findall(row, first(TABLE, "table")):
        target = target.replace("{n}", "{revision}")
        if asked:
            of = form.lower()
            yield (asked_in(first(ASKS, f"of_{of}", asked)), case), (first(METHODS, f"{of}_method", asked), target)
            continue
        several = [(re.search(r"Ok \((\w+)", right), re.search(r"Some (\w+)", left)) for left, right in clauses(METHODS, "with_method")
                   if f"resources.{form}" in names_in(left)]
        for name, method in [(found[1], method[1]) for found, method in several if found] or [(form, first(METHODS, "method_of", form))]:
            yield (asked_in(first(ASKS, "asked_of", name)), ""), (method, target)


@cache
def kinds():
    """Every kind, in the order of `Kind`."""
    of = dict(routes())
    return tuple(kind_of(constructor, case, word, *of.get((constructor, case), ("", "")))
                 for constructor, words in constructors() for case, word in words.items())
