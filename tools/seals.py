# The lines of a journal, by what docs/journal.md says of them and apart from the program: each has an event and the seal of all up to it.
from hashlib import sha256

# the seal that stands before the first line, and how many bytes a line has at most
NO_SEAL = "0" * 64
LONGEST = 2_097_152
# the mark of a database whose office went on without its journal
PARTED = 2**32 - 1

STRIKE = b'{"event":"strike"}'
DONE = b'{"event":"done","of":'


# The seal of each of these events, the first one behind what has the seal `prior`.
def seals_of(events, prior=NO_SEAL):
    seals = []
    for event in events:
        prior = sha256(prior.encode() + event).hexdigest()
        seals.append(prior)
    return seals


def line_of(event, seal):
    return b'{"line":' + event + b',"seal":"' + seal.encode() + b'"}\n'


# The lines of these events, sealed from the first one on.
def sealed(events):
    return b"".join(map(line_of, events, seals_of(events)))


# The events of the lines that are sealed from the first byte on, their seals, and what stands behind them.
def read(journal):
    events, seals, at = [], [], 0
    while (end := journal.find(b"\n", at) + 1) and end - at <= LONGEST:
        event = journal[at + len(b'{"line":') : end - len(b',"seal":""}\n') - 64]
        [seal] = seals_of([event], seals[-1] if seals else NO_SEAL)
        if journal[at:end] != line_of(event, seal):
            break
        events.append(event)
        seals.append(seal)
        at = end
    return events, seals, journal[at:]


# The line that says that the event of the line of this number, which stands right before, was carried out.
def done(of):
    return DONE + str(of).encode() + b"}"


def is_done(event):
    return event.startswith(DONE)


# Whether an event's line is the last of these, so that nothing says yet what became of it.
def is_held(events):
    return bool(events) and events[-1] != STRIKE and not is_done(events[-1])


# What a clean end makes of these.
def settled(events):
    return [*events, done(len(events))] if is_held(events) else events


# These, and each line that says of an event that it was carried out has the number of the line before it.
def numbered(events):
    return [done(at) if is_done(event) else event for at, event in enumerate(events)]


# The events of these lines that the next one doesn't strike out.
def standing(events):
    happened = []
    for event in events:
        if event == STRIKE:
            happened.pop()
        elif not is_done(event):
            happened.append(event)
    return happened


# The mark of a database: of how many lines its journal was when the two were closed; 0 where it has none.
def mark_of(database):
    return int.from_bytes(database[60:64], "big")
