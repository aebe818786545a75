"""Every order of an image's threads, searched slowly, and compared with examples/orders/found, as the program xousorders is."""

import dataclasses
import pathlib
import re
import subprocess
import tempfile
from types import SimpleNamespace
from unittest import mock

from xous.commands.test_orders import asked_of, parser, search_levels, write_orders
from xous.errors import Refusal
from xous.machine import MOST_STEPS
from xous.runs import events, fails, found, orders
from xous.runs.ended import EXITED, FAULT, KILLED, Ended
from xous.runs.seen import EXITS, WAITS, Seen, Standing
from xous.states.state import JOINING, RECEIVING, WAITING
from xous.transcripts import decode

from .frame import EXAMPLES, GIVEN, Case, need_program, need_searcher

FOUND = EXAMPLES / "orders" / "found"
FEW = 30  # states of a search that doesn't take long


# What is stored.


def stored():
    """The searches of the stored file: their words and lines."""
    blocks = [block.splitlines() for block in FOUND.read_text().split("\n\n")]
    lines = [[line for line in block if not line.startswith("#")] for block in blocks]
    return [(block[0], block[1:]) for block in lines if block]


def stored_plain():
    """Those that see all, and ask for no failures."""
    return [(words, lines) for words, lines in stored() if not re.search(" --(?:see|hex|fails|one|preemptions)", words)]


# A search's lines, and some of other form: which line is exchanged for what.

SAMPLE = """states 26 slices 38 whole
ending 1: console "Ok\\n"; 2 waits: 2.2 receives at fill; 3 exited 0; 1 node; 12 slices
ending 2: console "; 2 \\" gone"; 2 fault 15 at 60000000; 3 killed; 2 nodes; 1 slice
ending 3: console "; 2 \\" gone"; 2 fault 15 at 60000000; 3 killed; 1 node; 4 slices
3 endings
fails: fault in ending 2, 1 slice
fails: console=Ok in ending 3, 4 slices
fails: differ, 3 endings"""
CRASHED = 'console "; 2 \\" gone"; 2 fault 15 at 60000000; 3 killed'
READ = found.Found(
    26,
    38,
    True,
    (
        found.Ending('console "Ok\\n"; 2 waits: 2.2 receives at fill; 3 exited 0', 1, 12),
        found.Ending(CRASHED, 2, 1, "fault"),
        found.Ending(CRASHED, 1, 4, "console=Ok"),
    ),
    differ=True,
)
OTHER_FORMS = {
    "no word for how it ended": ("38 whole", "38"),
    "another word for how it ended": ("whole", "done"),
    "a number that is left out": ("states 26", "states"),
    "an ending of another number": ("ending 2:", "ending 3:"),
    "an ending that is told twice": ("fails: console=Ok in", "fails: fault in"),
    "another count of endings": ("\n3 endings", "\n2 endings"),
    "one of several": ("2 nodes", "2 node"),
    "several of one": ("1 slice\nending 3", "1 slices\nending 3"),
    "no order": ("; 12 slices", ""),
    "a text without its end": ('"Ok\\n";', '"Ok\\n;'),
    "a console in other digits": ('"Ok\\n"', "4F6b0a"),
    "an end that isn't one": ("3 exited 0", "3 exited"),
    "a bound without its steps": ("whole", "whole within"),
    "a failure of no ending": ("in ending 3,", "in ending 4,"),
    "failures in another order": ("fails: fault in ending 2, 1 slice\nfails: console=Ok in ending 3, 4 slices", "fails: fault in ending 3, 4 slices\nfails: exit in ending 2, 1 slice"),
    "a failure with other slices": ("in ending 3, 4 slices", "in ending 3, 5 slices"),
    "another count of those that differ": ("differ, 3 endings", "differ, 2 endings"),
    "a failure behind the last one": ("differ, 3 endings", "differ, 3 endings\nfails: fault in ending 3, 4 slices"),
}
# What isn't the same, and in how many things it differs.
OTHER_SEARCHES = {
    "a state less": (("states 26", "states 25"), 1),
    "a slice more": (("slices 38", "slices 39"), 1),
    "a search that was cut": (("whole", "cut"), 1),
    "a bound of steps": (("whole", "whole within 9 steps"), 1),
    "another ending": (('"Ok', '"O'), 2),
    "a node more of an ending": (("1 node; 12", "2 nodes; 12"), 1),
    "an order that isn't the shortest": (("12 slices", "13 slices"), 1),
    "another cause of a fault": (("; 2 fault 15 at 60000000; 3 killed; 2 nodes", "; 2 fault 13 at 60000000; 3 killed; 2 nodes"), 2),
    "another failure": (("fails: fault", "fails: exit"), 2),
    "a failure that isn't told": (("fails: fault in ending 2, 1 slice\n", ""), 2),
    "endings that aren't told to differ": (("\nfails: differ, 3 endings", ""), 1),
}
# An output with the endings as they are found, in a search that began to count steps, and in two levels of preemptions; and some of other
# form.
LEVELS = """found 1: console "b"; 2 exited 0; 4 slices
steps count
found 1: console "a; 1 slice"; 2 exited 0; 4 slices
states 9 slices 8 whole within 50 steps preemptions 0
ending 1: console "a; 1 slice"; 2 exited 0; 2 nodes; 4 slices
1 ending
found 1: console "a; 1 slice"; 2 exited 0; 4 slices
found 2: console "b"; 2 exited 121; 5 slices, 1 preemption; fails: exit
found 3: console "b"; 2 exited 121; 3 slices, 2 preemptions; fails: console=b; fails: exit
states 29 slices 38 cut preemptions 1
ending 1: console "a; 1 slice"; 2 exited 0; 3 nodes; 4 slices
ending 2: console "b"; 2 exited 121; 1 node; 5 slices, 1 preemption
ending 3: console "b"; 2 exited 121; 1 node; 3 slices, 2 preemptions
3 endings
fails: exit in ending 2, 5 slices, 1 preemption
fails: console=b; fails: exit in ending 3, 3 slices, 2 preemptions"""
OTHER_LEVELS = {
    "no report behind them": ("\nstates 29", "\nfound 4: 2 exited 0; 1 slice\nstates 29"),
    "an ending more than the report": ("found 3", "found 3: 2 exited 0; 1 slice\nfound 4"),
    "an ending that isn't found": ('found 1: console "a; 1 slice"; 2 exited 0; 4 slices\nfound 2', "found 1"),
    "an ending that is found otherwise": ("found 2: console \"b\"; 2 exited 121; 5", "found 2: console \"b\"; 2 exited 121; 6"),
    "another failure when it is found": ("1 preemption; fails: exit\nfound", "1 preemption; fails: fault\nfound"),
    "an ending of another number": ("found 2", "found 4"),
    "one preemption as several": ("5 slices, 1 preemption\nending", "5 slices, 1 preemptions\nending"),
    "no preemption": ("in ending 2, 5 slices, 1 preemption", "in ending 2, 5 slices, 0 preemptions"),
    "a failure with other preemptions": ("in ending 2, 5 slices, 1 preemption", "in ending 2, 5 slices, 2 preemptions"),
    "steps that count twice": ("steps count\n", "steps count\nsteps count\n"),
    "a level that is left out": ("preemptions 1\nending", "preemptions 2\nending"),
    "a level that isn't told": (" preemptions 1\nending", "\nending"),
    "a level that isn't whole": ("8 whole within", "8 cut within"),
    "other lines": ("found 1: console \"b\"", "finds 1: console \"b\""),
    "endings that are found last": ("fails: console=b; fails: exit in ending 3, 3 slices, 2 preemptions", "found 1: 1 slice"),
}
# What is seen in other ways, and of it the console's bytes and who is gone.
SIGHTS = {
    "console 4f6b0a; 3 exited 0": (b"Ok\n", {3}),
    "console empty": (b"", set()),
    "2 gone; 3 waits: 3.2 receives, 3.4 waits, held": (None, {2}),
    "": (None, set()),
}


def is_read(text):
    try:
        return found.read(text.splitlines()) is not None
    except ValueError:
        return False


def lines_of(levels):
    return [line for told in levels for line in told.lines()]


def checks_of_levels():
    """Endings as they are found, and the reports of levels, are read; the last report decides."""
    first, last = found.read_levels(LEVELS.splitlines())
    yield found.read(LEVELS.splitlines()) == last, "the last report is taken"
    yield lines_of([first, last]) == [line for line in LEVELS.splitlines() if not line.startswith(("found", "steps"))], "levels are spelled"
    yield (first.within, first.preemptions, last.within, last.preemptions) == (50, 0, None, 1), f"what levels search: {first}, {last}"
    news = [ending.news(number) for number, ending in enumerate(last.endings, 1)]
    yield news == [line for line in LEVELS.splitlines() if line.startswith("found")][2:], f"endings are spelled as they are found: {news}"
    yield [ending.fails for ending in last.endings] == ["", "exit", "console=b; fails: exit"], "what endings of levels fail of"
    yield [list(told) for told in found.levels(LEVELS.splitlines()[:1])] == [[[last_of("b", 4)], None]], "a search without a report"
    for name, (old, new) in OTHER_LEVELS.items():
        yield LEVELS.count(old) == 1 and not is_read(LEVELS.replace(old, new)), f"an output with {name}"
    other = found.read(LEVELS.replace("5 slices, 1 p", "7 slices, 1 p").splitlines())
    yield list(found.differences(last, other)) == [], "orders of searches with preemptions may differ in their lengths"
    other = dataclasses.replace(last, preemptions=None)
    yield len(list(found.differences(last, other))) == 1, "a search without levels differs from one with them"


def last_of(console, slices):
    return found.Ending(f'console "{console}"; 2 exited 0', 0, slices)


# Searches that are whole or cut, whose endings differ or don't, and are asked for failures or not.
WAYS = (True, False, True), (True, True, True), (False, False, False), (False, False, True), (False, True, True)


def checks_of_reading():
    """Lines of searches are read as what they tell, and lines of other forms aren't."""
    one = found.read(SAMPLE.splitlines())
    yield one == READ, f"a search's lines are read: {one}"
    yield one.lines() == SAMPLE.splitlines(), f"a search's lines are spelled: {one.lines()}"
    yield [ending.console for ending in one.endings] == [b"Ok\n", b'; 2 " gone', b'; 2 " gone'], "the console of an ending"
    yield [ending.gone for ending in one.endings] == [{3}, {2, 3}, {2, 3}], "who is gone in an ending"
    for text, wanted in SIGHTS.items():
        line = f"ending 1: {text and f'{text}; '}1 node; 1 slice"
        ending = found.read(["states 1 slices 0 whole", line, "1 ending"]).endings[0]
        yield (ending.seen, ending.console, ending.gone) == (text, *wanted), f"an ending that is seen so: {text}"
    statuses = [found.Found(1, 0, is_whole, (), None, differ).status(is_asked) for is_whole, differ, is_asked in WAYS]
    yield statuses == [0, 1, 0, 10, 1], f"what searches end with: {statuses}"
    for name, (old, new) in OTHER_FORMS.items():
        yield SAMPLE.count(old) == 1 and not is_read(SAMPLE.replace(old, new)), f"a search's lines with {name}"
    for name, ((old, new), count) in OTHER_SEARCHES.items():
        told = list(found.differences(one, found.read(SAMPLE.replace(old, new).splitlines())))
        yield SAMPLE.count(old) == 1 and len(told) == count, f"a search with {name}: {told}"
    turned = found.Found(26, 38, True, one.endings[::-1], None, True)
    yield list(found.differences(one, turned)) == [], "the order in which endings are told doesn't matter"
    for words, lines in stored():
        yield lines_of(found.read_levels(lines)) == lines, f"the stored lines of {words}"


# What is seen of an ending.

STOOD = Seen(
    b"total 3\n",
    {
        2: [Standing(2, 1, RECEIVING, server="a"), Standing(2, 3, WAITING, server="b", message=7, kept="held")],
        3: None,
        4: [Standing(4, 2, JOINING, joined=3)],
        5: None,
        6: None,
        7: None,
        8: None,
    },
    {3: Ended(EXITED, (0,)), 5: Ended(FAULT, (15, 0x6000_0000)), 6: Ended(KILLED), 7: Ended(EXITED, (121,))},
)

def checks_of_seen():
    """What is seen is told as xousorders tells it."""
    text = (
        'console "total 3\\n"; 2 waits: 2.1 receives at a, 2.3 waits, held at b; 3 exited 0; 4 waits: 4.2 joins 4.3; '
        "5 fault 15 at 60000000; 6 killed; 7 exited 121; 8 gone"
    )
    yield STOOD.text() == text, f"what is seen: {STOOD.text()}"
    for sights, is_hex, text in (
        (("console",), True, "console 746f74616c20330a"),
        (("console", "exits", "servers"), False, 'console "total 3\\n"; 3 exited 0; 5 fault 15 at 60000000; 6 killed; 7 exited 121; 8 gone'),
        (("waits",), False, "2 waits: 2.1 receives, 2.3 waits, held; 3 gone; 4 waits: 4.2 joins 4.3; 5 gone; 6 gone; 7 gone; 8 gone"),
        (("servers",), False, ""),
    ):
        yield STOOD.text(sights, is_hex) == text, f"what is seen of {sights}: {STOOD.text(sights, is_hex)}"
    yield Seen(b"", {}).text(("console",), True) == "console empty", "an empty console in digits"


# What fails.

FAILING = {
    "exit": True, "fault": True, "waits": True, "waits=2": True, "waits=2.3": True, "waits=2.1": False, "waits=3": False, "waits=4": True,
    "console=tal 3": True, "console=Total": False, "console-not=tal 3": False, "console-not=Total": True, "console==": False,
}  # fmt: skip
NO_FAILURES = (
    "", "exits", "exit=1", "fault=", "waits=", "waits=1", "waits=66", "waits=02", "waits=2.", "waits=2.0", "waits=2.32", "waits=2.03",
    "waits=2.3.4", "console", "console=", "console-not=", "console Ok", "limit", "none", "exit,fault",
)  # fmt: skip


def checks_of_failures():
    for word, holds in FAILING.items():
        failing = fails.failing_of(word)
        yield failing.spelled() == word and failing.holds(STOOD) == holds, f"an ending fails of {word}: {holds}"
    good = Seen(b"", {2: [Standing(2, 1, RECEIVING, server="a")], 3: None}, {3: Ended(EXITED, (0,))})
    asked = [fails.failing_of(word) for word in ("fault", "exit", "waits")]
    yield (fails.first_of(asked, STOOD), fails.first_of(asked, good)) == ("fault", ""), "the first of which an ending fails"
    for word in NO_FAILURES:
        try:
            told = fails.failing_of(word).spelled()
        except Refusal as refusal:
            told = str(refusal.status)
        yield told == "2", f"--fails {word!r}: {told}"


def checks_of_words():
    """The options of the slow search that are about what is seen and what fails."""
    for words, text in (
        (("--see", "exits,exits"), "exits,exits: say one or more of console,exits,waits,servers, each once"),
        (("--see", "exits", "--see", "waits"), "--see is given more than once"),
        (("--see", "waits", "--fails", "fault"), "--fails fault: exits aren't seen"),
        (("--fails", "waits") * 256, "--fails is given 256 times; at most 255"),
    ):
        try:
            asked_of(parser().parse_args(["xousim", "--search", "image", *words]))
            told = "taken"
        except Refusal as refusal:
            told = f"{refusal.status}: {refusal}"
        yield told.startswith("2: ") and text in told, f"{words[:4]}: {told}"
    asked = asked_of(parser().parse_args("xousim --search image --see waits,exits --hex --fails waits=2.3 --fails differ --first".split()))
    yield (asked.sights, asked.is_hex, asked.differ, asked.stops) == ((EXITS, WAITS), True, True, True), f"what is asked: {asked}"
    yield [failing.spelled() for failing in asked.fails] == ["waits=2.3"], f"what fails: {asked.fails}"
    yield asked_of(parser().parse_args(["xousim", "--search", "image", "--one"])).differ, "--one"


# A search of a toy: each of two threads of process 2 has one slice, in which it writes its letter; the process ends with the second, with
# 121 if the letters aren't in order.

LETTERS = {(2, 2): b"a", (2, 3): b"b"}


class Toy(orders.Search):
    def played(self, path, once=()):
        return orders.Node(path, 0, b"", once, {})

    def visited(self, node):
        node.machine = SimpleNamespace(ready=lambda: [who for who in LETTERS if LETTERS[who] not in node.console], steps=0, claims=[])
        return node

    def slice_of(self, node, who):
        console = node.console + LETTERS[who]
        ended = b"" if len(console) < 2 else f"1 2.3 call 00000016 {0 if console == b'ab' else 121:08x}{' 00000000' * 6}\n1 2 gone\n".encode()
        ends = self.ends_on(node.ends, [decode.record_of(line) for line in ended.decode().splitlines()])
        return self.visited(orders.Node(node.path, node.slices + 1, console, node.once, ends))


TOLD_OF_TOY = {
    "": (0, 'states 5 slices 4 whole|ending 1: console "ab"; 2 exited 0; 1 node; 2 slices|ending 2: console "ba"; 2 exited 121; 1 node; 2 slices|2 endings'),
    "--fails fault --fails exit": (1, "||||fails: exit in ending 2, 2 slices"),
    "--fails fault --fails console=c": (0, "|||"),
    "--one --fails console-not=ab": (1, "||||fails: console-not=ab in ending 2, 2 slices|fails: differ, 2 endings"),
    "--see exits": (0, "|ending 1: 2 exited 0; 1 node; 2 slices|ending 2: 2 exited 121; 1 node; 2 slices|"),
    "--see waits --one": (0, "|ending 1: 2 gone; 2 nodes; 2 slices|1 ending"),
    "--see servers": (0, "|ending 1: 2 nodes; 2 slices|1 ending"),
    "--see waits --fails console=ba": (1, "|ending 1: 2 gone; 1 node; 2 slices|ending 2: 2 gone; 1 node; 2 slices||fails: console=ba in ending 2, 2 slices"),
    "--see console --hex": (0, "|ending 1: console 6162; 1 node; 2 slices|ending 2: console 6261; 1 node; 2 slices|"),
    "--states 4": (0, "states 4 slices 4 cut||1 ending"),
    "--states 4 --fails exit": (10, "states 4 slices 4 cut||1 ending"),
    "--states 4 --fails console=b": (1, "states 4 slices 4 cut||1 ending|fails: console=b in ending 1, 2 slices"),
    "--first --fails console=b": (1, "states 4 slices 4 cut||1 ending|fails: console=b in ending 1, 2 slices"),
    "--first --fails console=c": (0, "|||"),
}  # what is left out is as without words


def key_of_toy(node, counts):
    return node.console, counts


def seen_of_toy(node):
    return Seen(node.console, {2: None}, node.ends)


def checks_of_toy():
    usual = TOLD_OF_TOY[""][1].split("|")
    with mock.patch.object(orders, "key_of", key_of_toy), mock.patch.object(orders, "seen", seen_of_toy):
        for words, (status, told) in TOLD_OF_TOY.items():
            asked = asked_of(parser().parse_args(f"xousim --search image {words}".split()))
            searched = Toy("xousim", "image", asked, "folder").search().told()[0]
            wanted = told.split("|")
            if wanted[2:3] != ["1 ending"]:
                wanted += usual[len(wanted) :]
            wanted = [line or before for line, before in zip(wanted, [*usual, "", ""])]
            lines = searched.lines()
            yield (searched.status(asked.asks_for_failures()), lines) == (status, wanted), f"a toy searched {words}: {lines}"
            yield found.read(lines) == searched, f"a toy searched {words}: its lines are read"


# Which events come at a state where interrupt 3 is claimed, process 2 is alive and process 3 isn't.
COMING = (
    ("--irq 3 --irq 4 --kill 2 --kill 3 --kill 4", None, ["irq 3", "kill 2"]),
    ("--irq 3 --irq 4 --kill 2 --kill 3 --kill 4", (2, 2, 65536), ["irq 3", "irq 4", "kill 2", "kill 3", "kill 4"]),
    ("--kill 2 --irq 3 --irq 3 --kill 2", None, ["irq 3", "kill 2"]),
    ("--irq 4 --irq 4", (2, 2, 65536), ["irq 4"]),
)


def checks_of_coming():
    """The first of equal events comes, if it can do something."""
    processes = {2: SimpleNamespace(alive=True), 3: SimpleNamespace(alive=False)}
    for words, reserved, wanted in COMING:
        asked = asked_of(parser().parse_args(f"xousim --search image {words}".split()))
        machine = SimpleNamespace(reserved=reserved, claims=[SimpleNamespace(number=3)], process=processes.get)
        coming = [event.text() for event in orders.coming(orders.Node([], 0, b"", asked.once, {}, machine))]
        yield coming == wanted, f"of {words} come {coming}"


# A toy with preemptions: each of two threads adds one to a total in one slice of two steps, of which the first loads it. What is seen is
# the total, when both have ended.


class Adders(Toy):
    def begin(self, total, loaded, left, **more):
        machine = SimpleNamespace(ready=lambda: sorted(left), steps=more.pop("steps"), claims=[], total=total, loaded=loaded, left=left)
        return orders.Node([], more.pop("slices"), str(total).encode(), (), {}, machine, **more)

    def played(self, path, once=()):
        return self.begin(0, (), tuple(LETTERS), steps=0, slices=0)

    def visited(self, node):
        return node

    def slice_of(self, node, who):
        machine = node.machine
        loaded = dict(machine.loaded)
        steps = machine.steps + (1 if who in loaded else 2)
        total = loaded.pop(who, machine.total) + 1
        left = tuple(other for other in machine.left if other != who)
        return self.begin(total, tuple(loaded.items()), left, steps=steps, slices=node.slices + 1, preempted=node.preempted)

    def preempted_of(self, node, who, steps):
        machine = node.machine
        loaded = tuple(sorted([*machine.loaded, (who, machine.total)]))
        more = {"steps": machine.steps + steps, "slices": node.slices + 1, "preempted": node.preempted + 1}
        return self.begin(machine.total, loaded, machine.left, **more)


def key_of_adders(node, counts):
    return node.machine.total, node.machine.loaded, node.machine.left, node.preempted, counts


def seen_of_adders(node):
    return Seen(node.console, {})


# With one preemption: the four nodes without, four in which a thread has loaded the total, two of which come behind the other's slice, two
# in which one has ended since, two in which one has ended with the total that the other loaded before it, and two endings.
TOLD_OF_ADDERS = {
    0: 'states 4 slices 4 whole preemptions 0|ending 1: console "2"; 1 node; 2 slices|1 ending',
    1: 'states 14 slices 14 whole preemptions 1|ending 1: console "2"; 2 nodes; 2 slices|ending 2: console "1"; 1 node; 3 slices, 1 preemption|2 endings'
    "|fails: console=1 in ending 2, 3 slices, 1 preemption",
}


def checks_of_preemptions():
    asked = asked_of(parser().parse_args("xousim --search image --preemptions 1 --fails console=1".split()))
    with mock.patch.object(orders, "key_of", key_of_adders), mock.patch.object(orders, "seen", seen_of_adders):
        for level in orders.levels(asked):
            lines = Adders("xousim", "image", asked, "folder", level=level).search().told()[0].lines()
            yield "|".join(lines) == TOLD_OF_ADDERS[level], f"a toy searched with {level} preemptions: {lines}"
        lines = Adders("xousim", "image", asked, "folder").search().told()[0].lines()
        yield "|".join(lines) == TOLD_OF_ADDERS[0].replace(" preemptions 0", ""), f"a toy searched without preemptions: {lines}"


# What a file of events plays.


def seen_of_trace(program, image, path):
    """The console's bytes and the processes that are gone, by the transcript."""
    words = [program, "trace", image, path, str(MOST_STEPS)]
    told = subprocess.run(words, capture_output=True, text=True, check=True).stdout
    records = [decode.record_of(line) for line in told.splitlines()]
    console = bytes(record.words[0] for record in records if record.what == decode.BYTE)
    return console, {record.pid for record in records if record.what == decode.GONE}


def checks_of_played(program, image, asked, ending, path, name):
    """An event file leads to what was seen of the ending, by the transcript and by the last state, fails as is told, and has its slices."""
    console, gone = seen_of_trace(program, image, path)
    if ending.console is not None:
        yield console == ending.console, f"{name}: the console of its transcript"
    if EXITS in asked.sights or WAITS in asked.sights:
        yield gone == ending.gone, f"{name}: who is gone in its transcript"
    played, bad = events.read(path.read_bytes())
    with tempfile.TemporaryDirectory() as folder:
        again = orders.Search(program, str(image), asked, folder)
        node = again.visited(again.played(played))
        seen, failing = orders.seen(node).text(asked.sights, asked.is_hex), again.failing(node)
    yield bad is None and (seen, failing) == ending.key, f"{name}: its last state is {seen}, {failing or 'without failure'}"


def checks_of_orders(program, image, asked, told, folder, words):
    """The event files of the endings, each with so many slices as is told."""
    for number, ending in enumerate(told.endings, 1):
        path = pathlib.Path(folder, f"ending-{number}.events")
        name = f"orders of {words}: the events of ending {number}"
        picks = sum(event.name == "pick" for event in events.read(path.read_bytes())[0])
        yield picks == ending.slices, f"{name}: {picks} slices"
        yield from checks_of_played(program, image, asked, ending, path, name)


# The searches.


def given_of(program, words):
    image, *options = words.split()
    return EXAMPLES / image, parser().parse_args([program, "--search", image, *options]), options


def checks_of_search(program, is_long):
    for words, lines in stored():
        wanted = found.read_levels(lines)
        if wanted[-1].states > FEW and not is_long:
            continue
        image, given, _ = given_of(program, words)
        asked = asked_of(given)
        levels = list(search_levels(program, str(image), asked))
        told = [told for told, _ in levels]
        yield told == wanted, f"orders of {words}: {differences(wanted, told) or 'endings in another order'}"
        with tempfile.TemporaryDirectory() as folder:
            write_orders(folder, levels[-1][1])
            yield from checks_of_orders(program, image, asked, told[-1], folder, words)


def differences(wanted, told):
    """In what the levels of two searches differ."""
    more = [] if len(wanted) == len(told) else [f"{len(told)} levels in place of {len(wanted)}"]
    return [*more, *(text for pair in zip(wanted, told) for text in found.differences(*pair))]


def checks_of_told(program, searcher, words, wanted):
    """The program xousorders tells these levels, and the event files that it writes lead to the endings of the last."""
    image, given, options = given_of(program, words)
    with tempfile.TemporaryDirectory() as folder:
        command = [searcher, str(image), *options, "--write", folder]
        ran = subprocess.run(command, capture_output=True, text=True, check=False)
        good = ran.returncode == wanted[-1].status(asked_of(given).asks_for_failures()) and is_read(ran.stdout)
        yield good, f"xousorders {words}: status {ran.returncode}: {ran.stdout[-200:]}{ran.stderr}"
        if good:
            told = found.read_levels(ran.stdout.splitlines())
            yield not differences(wanted, told), f"xousorders {words}: {differences(wanted, told)}"
            yield from checks_of_orders(program, image, asked_of(given), told[-1], folder, f"xousorders {words}")


def checks_of_searcher(program, searcher):
    """The program xousorders tells the same as is stored."""
    for words, lines in stored():
        if has_option(searcher, words):
            yield from checks_of_told(program, searcher, words, found.read_levels(lines))


def has_option(searcher, words):
    """Whether the program knows the options of these words that it didn't always have."""
    usage = subprocess.run([searcher], capture_output=True, text=True, check=False).stderr
    return all(word in usage for word in words.split() if word in ("--preemptions", "--seconds"))


# The words of a call, how it ends, and what it writes.

LOST = "{examples}/orders/lost.image"
TIMER = "{examples}/timer/image"
CALLS = (
    # the words, the status, the first line of the report, and the text on standard error
    ("", 2, "", "usage: "),
    ("--help", 2, "", "usage: "),
    ("--quantun", 2, "", "usage: "),
    (f"{LOST} --quantun", 2, "", "usage: "),
    (f"{LOST} --quantum 0", 2, "", "usage: "),
    (f"{LOST} --states", 2, "", "usage: "),
    (f"{LOST} --preemptions 256", 2, "", "usage: "),
    (f"{LOST} --preemptions 1 --preemptions 2", 2, "", "usage: "),
    (f"{LOST} --seconds 0", 2, "", "usage: "),
    (f"{LOST} --seconds 4000000001", 2, "", "usage: "),
    (f"{LOST} {LOST}", 2, "", "usage: "),
    (f"{LOST} --write=", 2, "", "usage: "),
    (f"{LOST} --see", 2, "", "usage: "),
    (f"{LOST} --see exits,", 2, "", "usage: "),
    (f"{LOST} --see exits,exits", 2, "", "usage: "),
    (f"{LOST} --see numbers", 2, "", "usage: "),
    (f"{LOST} --see exits --see waits", 2, "", "usage: "),
    (f"{LOST} --fails", 2, "", "usage: "),
    (f"{LOST} --fails exits", 2, "", "usage: "),
    (f"{LOST} --fails waits=1", 2, "", "usage: "),
    (f"{LOST} --fails waits=2.32", 2, "", "usage: "),
    (f"{LOST} --fails waits=02", 2, "", "usage: "),
    (f"{LOST} --fails console=", 2, "", "usage: "),
    (f"{LOST} --see waits --fails exit", 2, "", "usage: "),
    ("none.image", 3, "", "read fault"),
    (f"{LOST} --from none.events", 3, "", "read fault"),
    ("bad.events", 5, "", "image fault"),
    (f"{LOST} --from bad.events", 6, "", "event fault at line 2"),
    (f"{LOST} --quantum 4000000000", 7, "", "step limit 4000000000"),
    (f"{LOST} --write none", 4, "", "write fault"),
    (LOST, 0, r"states 11 slices 11 whole", ""),
    (f"{LOST} --one", 0, r"states 11 slices 11 whole", ""),
    (f"{LOST} --fails differ --hex", 0, r"states 11 slices 11 whole", ""),
    (f"{LOST} --quantum 1 --one", 1, r"states 486 slices 770 whole", ""),
    (f"{LOST} --quantum 1 --fails exit --fails fault --fails waits", 0, r"states 486 slices 770 whole", ""),
    (f"{LOST} --fails console=3", 1, r"states 11 slices 11 whole", ""),
    (f"{LOST} --states 5 --fails exit", 10, r"states 5 slices \d+ cut", "cut"),
    (f"{LOST} --states 5 --one", 10, r"states 5 slices \d+ cut", "cut"),
    (f"{LOST} --from empty.events", 0, r"states 11 slices 11 whole", ""),
    (f"{LOST} --from good.events", 0, r"states \d+ slices \d+ whole", ""),
    (f"{LOST} --states 1", 0, r"states 1 slices 0 cut", ""),
    (f"{LOST} --states 2", 0, r"states 2 slices \d+ cut", ""),
    (f"{LOST} --states 5", 0, r"states 5 slices \d+ cut", ""),
    (f"{LOST} --states 11", 0, r"states 11 slices 11 whole", ""),
    (f"{LOST} --steps 5", 0, r"states 11 slices 11 whole", ""),
    (f"{TIMER} --steps 50", 0, r"states \d+ slices \d+ (whole|cut) within 50 steps", ""),
    (f"{TIMER} --states 50", 0, r"states \d+ slices \d+ (whole|cut) within 100000 steps", ""),
    (f"{LOST} --kill 2", 0, r"states 13 slices 11 whole", ""),
    (f"{LOST} --kill 2 --kill 2", 0, r"states 13 slices 11 whole", ""),
    (f"{LOST} --irq 3 --kill 9", 0, r"states 11 slices 11 whole", ""),
)
FILES = {"bad.events": b"tick 1\nnothing\n", "empty.events": b"", "good.events": b"tick 2"}


def checks_of_calls(searcher):
    """Each call ends with its status, and writes the first line of its report and its text on standard error."""
    with tempfile.TemporaryDirectory() as folder:
        for name, written in FILES.items():
            pathlib.Path(folder, name).write_bytes(written)
        for words, status, line, text in CALLS:
            command = [word.format(examples=EXAMPLES) for word in words.replace("--write=", "--write EMPTY").split()]
            command = ["" if word == "EMPTY" else word for word in command]
            ran = subprocess.run([searcher, *command], capture_output=True, text=True, check=False, cwd=folder)
            first = next((each for each in ran.stdout.splitlines() if each.startswith("states ")), "")
            told = f"xousorders {words}: status {ran.returncode}: {first!r}, {ran.stderr!r}"
            yield ran.returncode == status and re.fullmatch(line, first) and ran.stderr.startswith(text), told
        with open("/dev/full", "wb") as full:
            ran = subprocess.run([searcher, LOST.format(examples=EXAMPLES)], stdout=full, stderr=subprocess.PIPE, text=True, check=False)
        yield ran.returncode == 4 and ran.stderr.startswith("write fault"), f"xousorders into a full disk: status {ran.returncode}"


class Orders(Case):
    takes_long = True

    def test_reading(self):
        self.hold(checks_of_reading())

    def test_levels(self):
        self.hold(checks_of_levels())

    def test_seen(self):
        self.hold(checks_of_seen())

    def test_failures(self):
        self.hold(checks_of_failures())

    def test_words(self):
        self.hold(checks_of_words())

    def test_toy(self):
        self.hold(checks_of_toy())

    def test_coming(self):
        self.hold(checks_of_coming())

    def test_preemptions(self):
        self.hold(checks_of_preemptions())

    def test_searches(self):
        self.hold(checks_of_search(need_program(), GIVEN.is_long))

    def test_program(self):
        self.hold(checks_of_searcher(need_program(), need_searcher()))

    def test_calls(self):
        self.hold(checks_of_calls(str(pathlib.Path(need_searcher()).resolve())))
