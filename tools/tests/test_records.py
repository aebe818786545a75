"""The laws of records (docs/transcript.md, "What holds of each transcript"), looked for in transcripts by their text.

They are the examples' transcripts, runs of their images over generated events, and transcripts with a planted mistake, each of
which must be found.
"""

import pathlib
import random
import subprocess

from xous import names
from xous.images.named import read_image
from xous.runs import events
from xous.transcripts import history as records
from xous.transcripts import rules
from xous.transcripts.history import History
from xous.transcripts.laws import ANSWER, LOST, MESSAGE, ORDER, Broken
from xous.transcripts.turns import PENDING, STUCK, TURN, Fairness, Played

from .frame import EXAMPLES, Case, need_program

LIMIT = 1_000_000_000
RECEIVE = "0000000f"
SEED, RUNS, EVENTS = 65, 6, 80  # generated runs of each image, and the events of each


def process_count(image):
    return len(read_image(image).processes)


def broken_law(text, played=None, processes=None):
    """The law that a transcript breaks, or none; its turns are looked at where its events are given."""
    try:
        followed = list(records.records_of(text))
        History(followed).follow()
        if played is not None:
            Played(followed, played, processes, LIMIT).play()
    except Broken as broken:
        return broken.law
    return None


class Stored:
    """A stored transcript of the examples, with what made it."""

    def __init__(self, image, event_file, transcript):
        self.name = str(transcript.relative_to(EXAMPLES))
        self.image, self.text = image, transcript.read_text()
        self.events, _ = events.read(event_file.read_bytes())
        self.processes = process_count(image)

    def broken_law(self, text=None):
        return broken_law(text or self.text, self.events, self.processes)


def stored(pattern):
    """The transcripts of these folders, by the names that examples/check goes by."""
    for folder in sorted(EXAMPLES.glob(pattern)):
        if (folder / "image").exists():
            for event_file in sorted(folder.glob("*events")):
                yield Stored(folder / "image", event_file, event_file.with_name(event_file.name.replace("events", "expected")))
        for image in sorted(folder.glob("*.image")):
            named = [folder / image.name.replace("image", kind) for kind in ("events", "expected")]
            yield Stored(image, *(path if path.exists() else folder / path.suffix[1:] for path in named))


# Mistakes that are planted by hand: the transcript, the law that must be found broken, and the texts that are exchanged, in
# short form: words lack leading zeros and zeros at the end.

# what examples/driver does with the interrupt that came while its handler ran
DELIVERED = """77 2.1 irq 3|85 2.1 call 18 2 4 3|85 2.1 reply 0|87 2.1 end|90 2.2 byte 33|100 2.2 call f 76697264 7265
100 2.2 reply 9 3 4 3|103 2.2 byte 33|113 2.2 call f 76697264 7265|end 113 done""".replace("\n", "|")

PLANTED = (
    ("a reply to nobody", "lend", ANSWER, "114 3.2 byte 4f", "113 3.2 reply 0|114 3.2 byte 4f"),
    ("a call of a thread that waits", "lend", ANSWER, "106 2.2 call f 6c6c6966", "105 3.2 call 2b|106 2.2 call f 6c6c6966"),
    ("a byte of a process that is gone", "lend", ANSWER, "end 140 done", "141 3.2 byte 41|end 141 done"),
    ("a reply with another first word", "lend", ANSWER, "46 3.2 reply 3 60000000 1000", "46 3.2 reply 7 60000000 1000"),
    ("a thread that nobody made", "driver", ANSWER, "end 113 done", "114 2.9 byte 41|end 114 done"),
    ("a handler that nothing started", "driver", ANSWER, "end 113 done", "114 2.1 byte 41|end 114 done"),
    ("a handler that is started while it runs", "driver", ANSWER, "54 2.1 end", "53 2.1 irq 3|54 2.1 end"),
    ("an interrupt that nobody has claimed", "driver", ANSWER, "44 2.1 irq 3", "44 2.1 irq 4"),
    ("an interrupt that is lost as a handler ends", "driver", PENDING, DELIVERED, "80 2.2 byte 33|90 2.2 call f 76697264 7265|end 90 done"),
    ("an answer that the server didn't give", "lend", MESSAGE, "96 3.2 reply 12 0 3", "96 3.2 reply 12 0 4"),
    ("a message with another word", "lend", MESSAGE, "81 2.2 reply 9 1 1 7 40000000 1000", "81 2.2 reply 9 1 1 7 40000000 2000"),
    ("a message with another id", "lend", MESSAGE, "81 2.2 reply 9 1 1 7 40000000 1000", "81 2.2 reply 9 1 1 8 40000000 1000"),
    ("a message with another number", "lend", MESSAGE, "81 2.2 reply 9 1 1 7 40000000 1000", "81 2.2 reply 9 2 1 7 40000000 1000"),
    ("a connection that isn't the least free one", "lend", ANSWER, "71 3.2 reply 7 2", "71 3.2 reply 7 3"),
    ("a server that is told under another name", "lend", ANSWER, "14 2.2 reply 13 6c6c6966 0 0 0 2", "14 2.2 reply 13 6d6c6966 0 0 0 2"),
    ("a step before the one above", "lend", ORDER, "114 3.2 byte 4f", "79 3.2 byte 4f"),
    ("two bytes in one step", "lend", ORDER, "119 3.2 byte 6b", "114 3.2 byte 6b"),
    ("a step too many at the end", "lend", STUCK, "end 140 done", "end 141 done"),
    ("a limit that wasn't met", "lend", STUCK, "end 140 done", "end 140 limit"),
    ("a byte of a thread whose turn it isn't", "race", TURN, "26 2.2 call 16|26 2 gone", "25 3.2 byte 41|26 2.2 call 16|26 2 gone"),
)

# A server of two threads that receive, a client, and a process that looks for another server; in short form, too.
MESSAGES = """1 2.2 call e 1 2 3 4|1 2.2 reply 13 1 2 3 4 2|2 2.2 call 12 10000|2 2.2 reply a 3|3 3.2 call 11 1 2 3 4|3 3.2 reply 7 2
4 3.2 call 10 2 4 1 5|4 3.2 reply 0|5 3.2 call 10 2 4 2 6|5 3.2 reply 0|6 2.2 call f 1 2 3 4|6 2.2 reply 9 1 4 1 5
7 2.2 call 1c 1 2 3 4|7 2.2 reply 9 2 4 2 6|8 2.3 call f 1 2 3 4|9 2.2 call f 1 2 3 4|10 3.2 call 10 2 5 3 7|10 2.2 reply 9 3 5 3 7
11 2.2 call 1a 3 8|11 2.2 reply 0|11 3.2 reply e 8|12 2.2 call 1a 3 8|12 2.2 reply 1 19|13 4.2 call 11 5 6 7 8|13 4.2 retry
14 4.2 call 11 5 6 7 8|14 4.2 retry|15 3.2 call 10 2 5 4 7|15 2.3 reply 9 4 5 4 7|16 2.2 call 29 1 2 3 4|16 2.2 reply 0
16 3.2 reply 1 9|17 3.2 call 10 2 4 1|17 3.2 reply 1 9|end 17 done""".replace("\n", "|")
OF_MESSAGES = (
    ("two messages the other way round", MESSAGE, "6 2.2 reply 9 1 4 1 5", "6 2.2 reply 9 2 4 2 6"),
    ("a message that is delivered a second time", MESSAGE, "7 2.2 reply 9 2 4 2 6", "7 2.2 reply 9 1 4 1 5"),
    ("a message that stays in its queue", LOST, "7 2.2 reply 9 2 4 2 6", "7 2.2 reply 0"),
    ("a wait beside a queued message", LOST, "7 2.2 call 1c 1 2 3 4|7 2.2 reply 9 2 4 2 6", "7 2.2 call f 1 2 3 4"),
    ("a message that isn't delivered to who waits", LOST, "|10 2.2 reply 9 3 5 3 7", ""),
    ("a message for another than the least tid", LOST, "10 2.2 reply 9 3 5 3 7", "10 2.3 reply 9 3 5 3 7"),
    ("a message for another process", LOST, "10 2.2 reply 9 3 5 3 7", "10 4.2 reply 9 3 5 3 7"),
    ("a message that is returned twice", MESSAGE, "12 2.2 reply 1 19", "12 2.2 reply 0"),
    ("a sender that isn't answered when its server ends", MESSAGE, "|16 3.2 reply 1 9", ""),
    ("a call that is put off though its server is there", ANSWER, "13 4.2 call 11 5 6 7 8", "13 4.2 call 11 1 2 3 4"),
    ("another call than the one that was put off", ANSWER, "14 4.2 call 11 5 6 7 8|14 4.2 retry", "14 4.2 call 2b|14 4.2 reply e 4"),
    ("a send to a server that is gone", MESSAGE, "17 3.2 reply 1 9", "17 3.2 reply 0"),
    ("a send that is refused though its server is there", MESSAGE, "4 3.2 reply 0", "4 3.2 reply 1 9"),
)


def spelled(short):
    """A transcript of one in short form, whose lines are parted by bars."""
    lines = []
    for line in short.split("|"):
        step, thread, what, *words = line.split(" ")
        if what in ("call", "reply"):
            words = [word.rjust(8, "0") for word in words + ["0"] * (8 - len(words))]
        lines.append(" ".join([step, thread, what, *words]) + "\n")
    return "".join(lines)


def exchanged(text, old, new):
    """The text with the one place of `old` exchanged."""
    if text.count(old) != 1:
        raise ValueError(f"{old!r} stands {text.count(old)} times")
    return text.replace(old, new)


def checks_of_planted():
    for name, example, law, old, new in PLANTED:
        one = next(stored(example))
        text = "|".join(short(line) for line in one.text.splitlines())
        found = one.broken_law(spelled(exchanged(text, old, new)))
        yield found == law, f"{name}: {found}"
    yield broken_law(spelled(MESSAGES)) is None, "a transcript of messages"
    for name, law, old, new in OF_MESSAGES:
        found = broken_law(spelled(exchanged(MESSAGES, old, new)))
        yield found == law, f"{name}: {found}"


def short(line):
    step, thread, what, *words = line.split(" ")
    if what in ("call", "reply"):
        words = [f"{int(word, 16):x}" for word in words]
        while len(words) > 1 and words[-1] == "0":
            words.pop()
    return " ".join([step, thread, what, *words])


def mistakes(lines):
    """Each line left out, doubled, or exchanged with the next one of its step. Not left out are bytes, which no law asks for,
    and the receive with which a thread waits to the end, of which no other line may tell."""
    for at, line in enumerate(lines[:-1]):
        step, thread, what, *words = line.split()
        is_last_wait = words[:1] == [RECEIVE] and not any(f" {thread} " in later for later in lines[at + 1 :])
        if what != "byte" and not is_last_wait:
            yield f"without {line}", [*lines[:at], *lines[at + 1 :]]
        yield f"twice {line}", [*lines[:at], line, *lines[at:]]
        if lines[at + 1].split()[0] == step:
            yield f"behind the next line {line}", [*lines[:at], lines[at + 1], line, *lines[at + 2 :]]


def checks_of_lines():
    """Mistakes in each line of the short transcripts."""
    for one in stored("*"):
        missed = [what for what, lines in mistakes(one.text.splitlines()) if one.broken_law("\n".join(lines)) is None]
        yield not missed, f"mistakes in {one.name}: not found: {missed}"


def checks_of_fairness():
    """Threads 2 and 3 have turns while 4 is ready and has none."""
    for others, is_fair in (((3, 4), True), ((3,), False), ((), False)):
        fairness = Fairness()
        fairness.look([(2, 2), (2, 3), (2, 4)])
        try:
            for tid in (2, *others, 2):
                fairness.step((2, tid), None)
                fairness.end()
            found = True
        except Broken as broken:
            found = broken.law != TURN
        yield found == is_fair, f"turns of 2, {others} and 2"


def some_events(rng, processes):
    """Events with many short ticks, and a few picks, interrupts and kills."""
    for _ in range(EVENTS):
        kind = rng.random()
        pid, tid = rng.randint(2, processes + 1), rng.choice((1, 2, 2, 2, 3, 4))
        if kind < 0.75:
            yield f"tick {rng.choice((1, 2, 5, 11, 30, 100, 1000))}"
        elif kind < 0.85:
            yield f"pick {pid} {tid}"
        elif kind < 0.99:
            yield f"irq {rng.choice((3, 3, 4, 20))}"
        else:
            yield f"kill {pid}"


def checks_of_runs(program, folder):
    """Runs of the examples' images over events that nobody wrote."""
    rng, path = random.Random(SEED), pathlib.Path(folder, "events")
    for image in sorted(EXAMPLES.glob("*/*image")):
        processes, found = process_count(image), []
        for _ in range(RUNS):
            path.write_text("".join(f"{event}\n" for event in some_events(rng, processes)))
            words = [program, "trace", image, path, str(LIMIT)]
            written = subprocess.run(words, capture_output=True, text=True, check=True).stdout
            found.append(broken_law(written, events.read(path.read_bytes())[0], processes))
        yield found == [None] * RUNS, f"runs of {image.relative_to(EXAMPLES)} over generated events: {found}"


class Records(Case):
    def test_stored(self):
        every = (*stored("*"), *stored("std/*"))
        self.hold((found is None, f"the transcript {one.name}: {found}") for one in every for found in [one.broken_law()])

    def test_each_call_has_a_rule(self):
        self.hold((number in {*rules.RULES, *rules.SERVED, names.TERMINATE}, f"a rule for {name}") for name, number in names.NUMBERS.items())

    def test_planted(self):
        self.hold(checks_of_planted())

    def test_lines(self):
        self.hold(checks_of_lines())

    def test_fairness(self):
        self.hold(checks_of_fairness())

    def test_runs(self):
        self.hold(checks_of_runs(need_program(), self.folder))
