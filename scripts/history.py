"""Judges the text that a run of a script has printed: the history is legal, each session's lines are
there in order with their events, and each line's reply is that of its events and of the bytes."""
import re

from core import Wrong, need, windows
from script_lines import content, root_of

EVENT = re.compile(r"(\d+) (\d+) (\d+) (.+) @(\d+)")
WINDOW = 65536
UNMOUNT = ["16", "0"]

# How many words an event has before its reply.
WORDS = {
    "begin": 3, "admit": 2, "put": 2, "settle": 2, "retire": 2, "open": 3, "fetch": 3, "read": 4,
    "scan": 2, "close": 2, "unlink": 2, "sync": 1, "list": 1, "unmount": 1,
}


def calls_of(act, meta):
    """The fewest and the most device calls of an event that ends well, with so many metadata blocks.
    An entry takes up to meta + 2 writes and a sync before them, a checkpoint meta + 4 calls."""
    entry, checkpoint = meta + 3, meta + 4
    most = {"put": 1, "settle": entry + checkpoint, "sync": entry + checkpoint + 1}
    most["unmount"] = most["sync"] + checkpoint
    least = {"put": 1, "settle": 4, "sync": 1, "unmount": 5}
    return least.get(act, 0), most.get(act, 0)


class Run:
    """A run of a script's lines on a volume. `known_words` has a data word for each root; `stored`,
    where it is given, what the file had at the mount."""

    def __init__(self, volume, lines, known_words, stored):
        self.volume, self.lines, self.known_words = volume, lines, known_words
        self.stored, self.mismatches = stored, 0
        for line in lines:
            if line.command == "add":
                known_words[root_of(line.word)] = line.word

    def printed(self, line):
        """A line's command in the text: data words and names are roots there."""
        words = [line.slot, line.word and root_of(line.word), line.off, line.len]
        return " ".join([line.command, *(str(word) for word in words if word is not None)])

    def add(self, line):
        root, size = root_of(line.word), len(content(line.word))
        reply = yield f"begin {root} {size}"
        if reply != "granted":
            return reply
        reply = yield f"admit {root}"
        if reply != "admitted":
            return reply
        for index in range(need(self.volume.version, size)):
            yield f"put {index}"
        return (yield f"settle {root}")

    def fetches(self, line, first, last):
        """Fetches the windows of a range that the slot's reader doesn't know, up to the first that
        doesn't verify. Gives its mismatch."""
        known = self.volume.known[line.session, str(line.slot)]
        root = self.held(line)[0]
        for window in range(first, last + 1):
            if window not in known:
                yield f"fetch {line.slot} {window}"
                if root in self.volume.opening and self.stored:
                    if mismatch := self.stored.mismatch(root, window):
                        self.mismatches += 1
                        return mismatch
                known.add(window)
        return None

    def held(self, line):
        root = self.volume.slots[line.session, str(line.slot)]
        return root, self.volume.map[root][0]

    def open(self, line):
        reply = yield self.printed(line)
        if reply.startswith("opened"):
            last = windows(self.held(line)[1]) - 1
            if mismatch := (yield from self.fetches(line, last, last)):
                self.volume.known[line.session, str(line.slot)] = None
                yield f"close {line.slot}"
                return mismatch
        return reply

    def read(self, line):
        reply = yield self.printed(line)
        if reply != "reading":
            return reply
        root, size = self.held(line)
        first, end = min(line.off, size), min(line.off + line.len, size)
        if first == end:
            return "bytes 0"
        if mismatch := (yield from self.fetches(line, first // WINDOW, (end - 1) // WINDOW)):
            return mismatch
        return f"bytes {end - first} {content(self.known_words[root])[first:end].hex()}"

    def scan(self, line):
        reply = yield self.printed(line)
        if reply != "reading":
            return reply
        size = self.held(line)[1]
        mismatch = yield from self.fetches(line, 0, windows(size) - 1)
        return mismatch or f"whole {size}"

    def list(self, line):
        reply = yield "list"
        listed = sorted(self.volume.present().items())
        return " ".join([reply, *(f"{root}:{size}" for root, size in listed)])

    def one_event(self, line):
        return (yield self.printed(line))

    close = unlink = sync = one_event

    def session(self, lines, answers):
        """Gives line and event that have to come next, takes the event's reply, and compares."""
        for line in lines:
            events = getattr(self, line.command)(line)
            reply = None
            while True:
                try:
                    event = events.send(reply)
                except StopIteration as end:
                    wanted = f"{line.number} {self.printed(line)} {end.value}"
                    break
                reply = yield line.number, event
            got = answers.pop(0) if answers else "nothing"
            if got != wanted:
                raise Wrong(f"session {line.session} prints {shown(got)}, its events give {shown(wanted)}")
        if answers:
            raise Wrong(f"more lines than the session has: {shown(answers[0])}")


def shown(line):
    return repr(line if len(line) < 300 else f"{line[:200]} .. {line[-80:]}")


def parts(text):
    """The printed lines of each session, in the order of print, and those of the history."""
    rows = text.split("\n")
    if rows.pop() != "":
        raise Wrong("the text doesn't end with a newline")
    sessions, into = [], None
    for at, row in enumerate(rows):
        if row == "history":
            return sessions, rows[at + 1 :]
        if row.startswith("session "):
            into = []
            sessions.append((row, into))
        elif into is None:
            raise Wrong(f"{shown(row)} before a session")
        else:
            into.append(row)
    raise Wrong("no history")


def judge_calls(act, reply, rise, meta):
    least, most = calls_of(act, meta)
    if rise < (0 if reply == "number-end" else least) or rise > most:
        raise Wrong(f"{act} makes {rise} device calls")


def judge(volume, lines, text, known_words, calls=0, stored=None):
    """Follows the history event by event; `calls` is None where a recovery may have made some.
    Gives the replies that were seen, each with its event, and how many lines met a mismatch."""
    run = Run(volume, lines, known_words, stored)
    sessions, history = parts(text)
    numbers = sorted({line.session for line in lines})
    if [head for head, _ in sessions] != [f"session {number}" for number in numbers]:
        raise Wrong(f"other sessions than {numbers}")
    doing, waited = {}, {}
    for number, (_, answers) in zip(numbers, sessions):
        doing[number] = run.session([l for l in lines if l.session == number], answers)
        waited[number] = next(doing[number])
    seen = []
    for count, row in enumerate(history, 1):
        found = EVENT.fullmatch(row)
        if not found or int(found[1]) != count:
            raise Wrong(f"event {count} is {shown(row)}")
        words = found[4].split(" ")
        split = WORDS.get(words[0], len(words))
        words, reply = words[:split], " ".join(words[split:])
        try:
            session = event(volume, found, words, reply, waited, is_last=count == len(history))
            if calls is not None:
                judge_calls(words[0], reply, int(found[5]) - calls, volume.meta)
            calls = int(found[5])
            seen.append((words[0], reply.split(" ")[0] if words[0] != "list" else "K"))
            if session in doing:
                waited[session] = next_of(doing[session], reply)
        except Wrong as wrong:
            raise Wrong(f"event {shown(row)}: {wrong}") from None
    if not history or seen[-1][0] != "unmount":
        raise Wrong("the history doesn't end with the unmount")
    return seen, run.mismatches


def event(volume, found, words, reply, waited, is_last):
    """One event of the history, where it is that which its session makes next."""
    session = int(found[2])
    if [found[2], found[3]] == UNMOUNT:
        left = [number for number, wanted in waited.items() if wanted]
        if words != ["unmount"] or not is_last or left:
            raise Wrong(f"an unmount, where sessions {left} have more to do")
    elif waited.get(session) != (int(found[3]), " ".join(words)):
        raise Wrong(f"session {session} has to make {waited.get(session)}")
    volume.step(session, words, reply)
    return session


def next_of(doing, reply):
    try:
        return doing.send(reply)
    except StopIteration:
        return None
