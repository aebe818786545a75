"""The parts of xous-shake that need no program: schedules, what is seen, small files, findings and shares."""

import json
import random
import subprocess
import sys

from xous import names
from xous.errors import Refusal
from xous.runs import events, seen
from xous.runs.acting import Stretch
from xous.runs.ended import EXITED, FAULT, KILLED, Ended
from xous.runs.seen import Standing, console_text
from xous.shaking import findings, outcomes, schedules, smaller
from xous.shaking.findings import Ending, Findings, Seeds
from xous.shaking.jobs import Result
from xous.shaking.outcomes import Reader, Rule
from xous.shaking.plain import Plain, apart_of
from xous.shaking.schedules import Priorities
from xous.states.state import JOINING, READY, RECEIVING, WAITING

from .frame import EXAMPLES, TOOLS, Case
from .lost_machine import Machine

LEND = (EXAMPLES / "lend" / "expected").read_bytes()
TWO = Plain(30, [(2, 2), (2, 3)], [], {(2, 2): [4, 12, 1, 1], (2, 3): [12]})
LARGE = Plain(120_000, [(pid, 2) for pid in range(2, 9)], [(3, 1)])


def played(text):
    """The transcript of the stand-in."""
    return ("\n".join(Machine().play(text.decode().splitlines(), 1000)[0]) + "\n").encode()


def ready_before(text, place):
    history = Reader(1).history_after(played(text), place)
    return seen.ready_of(history)


def schedule(kind, seed, plain=TWO, depth=3):
    asked = ready_before if plain is TWO else lambda text, place: [(2, 2), (3, 1)]
    return schedules.schedule(kind, seed, plain, depth, asked)


class Schedules(Case):
    def test_one_text_for_a_seed(self):
        """A seed gives one text, also in another process, whose hashes differ."""
        texts = [schedule(kind, seed) for kind in schedules.KINDS for seed in range(5)]
        self.assertEqual(texts, [schedule(kind, seed) for kind in schedules.KINDS for seed in range(5)])
        self.assertGreater(len(set(texts)), 12)
        code = "from xous.shaking import schedules; print(schedules.source_of('pct', 7).sample(range(1000), 9), schedules.kind_of(7, schedules.KINDS))"
        told = [
            subprocess.run([sys.executable, "-c", code], env={"PYTHONPATH": str(TOOLS), "PYTHONHASHSEED": hashed}, capture_output=True, text=True, check=True).stdout
            for hashed in ("1", "2")
        ]
        self.assertEqual(told[0], told[1])

    def test_events(self):
        """Each schedule is picks of threads that there are, and ticks over the run or as many as a file may have."""
        for plain, kind in ((plain, kind) for plain in (TWO, LARGE) for kind in schedules.KINDS):
            for seed in range(20):
                told, bad_line = events.read(schedule(kind, seed, plain))
                self.assertIsNone(bad_line)
                self.assertTrue({each.numbers for each in told if each.name == "pick"} <= {*plain.threads, *plain.handlers})
                covered = sum(each.most_steps for each in told)
                self.assertTrue(covered >= plain.span() or len(told) >= schedules.MOST_LINES, (kind, seed))
                self.assertLessEqual(len(told), schedules.MOST_PCT_LINES + 100)
                self.assertTrue(all(each.name in ("pick", "tick") for each in told))
                self.assertEqual(any(each.name == "pick" for each in told), kind != schedules.TURNS)

    def test_spread(self):
        """Each power of two is as likely: of 1 to 1,023 half the numbers are below 32."""
        source = random.Random(1)
        found = [schedules.spread(source, 1, 1023) for _ in range(4000)]
        self.assertTrue(1 <= min(found) and max(found) <= 1023)
        self.assertAlmostEqual(sum(number < 32 for number in found) / len(found), 0.5, delta=0.05)

    def test_priorities(self):
        """The ready thread of the highest priority is the last pick that counts."""
        chosen = Priorities([(3, 2), (2, 2), (4, 2)], [(2, 1)])
        self.assertEqual(chosen.picks(), b"pick 3 2\npick 2 2\npick 4 2\npick 2 1\n")
        self.assertEqual(chosen.highest([(2, 2), (3, 2)]), (2, 2))
        self.assertEqual(chosen.highest([(2, 1), (4, 2)]), (2, 1))
        self.assertEqual(chosen.highest([(9, 9), (3, 2)]), (3, 2))
        self.assertEqual((chosen.highest([(9, 9)]), chosen.highest([])), ((9, 9), None))

    def test_changes(self):
        """At a change the thread that did the step goes below all others; each step is a tick of its own in a short run."""
        asked = []

        def ready(text, place):
            asked.append((len(text.splitlines()), place))
            return [(2, 2), (2, 3)]

        text = schedules.pct(random.Random("any"), TWO, 2, ready).decode().splitlines()
        (_, place), = asked
        order = [text[0], text[1]]
        self.assertEqual(text[: 3 * place], [*order, "tick 1"] * place)
        self.assertEqual(text[3 * place :], [*reversed(order), "tick 1"] * (TWO.span() - place))

    def test_grain(self):
        self.assertEqual(schedules.grain_of(TWO), 1)
        self.assertEqual(schedules.grain_of(LARGE), -(-LARGE.span() * 9 // schedules.MOST_PCT_LINES))

    def test_bound(self):
        """A bug of depth 2 in 2 threads and 30 steps comes in at least one of 60 runs on average: here it comes far more often."""
        runs = 600
        lost = sum(b" byte 33" not in played(schedule(schedules.PCT, seed, depth=2) + b"tick 1000\n") for seed in range(runs))
        self.assertGreaterEqual(lost, runs / (2 * 30))

    def test_window(self):
        """A schedule that is shorter than the run begins at a random place of it."""
        fronts = {len(schedules.before_window(random.Random(seed), LARGE, 1000)) for seed in range(50)}
        self.assertGreater(len(fronts), 5)
        self.assertEqual(schedules.before_window(random.Random(1), TWO, 1000), [])

    def test_distances(self):
        """The steps of a thread's own between its records, where another one did steps in between."""
        lines = ["5 2.2 call 0", "9 2.3 byte 41", "12 2.2 end", "end 12 done"]
        stretches = [Stretch((2, 2), 1, 6), Stretch((2, 3), 7, 9), Stretch((2, 2), 10, 12)]
        self.assertEqual(apart_of(stretches, lines, 0), {(2, 2): [5, 4], (2, 3): [3]})
        self.assertEqual(apart_of(stretches, lines, 5), {(2, 2): [4], (2, 3): [3]})


class Outcomes(Case):
    def test_lend(self):
        outcome = Reader(2).outcome(LEND)
        self.assertEqual(outcome.text(outcomes.USUAL_SEE), 'console "Ok\\n"; 2 waits: 2.2 receives at fill; 3 exited 0')
        self.assertEqual(outcome.text(("console",)), 'console "Ok\\n"; 3 gone')
        self.assertEqual(outcome.text(("servers",)), "3 gone; servers fill of 2")
        self.assertEqual(outcome.seen.text(), 'console "Ok\\n"; 2 waits: 2.2 receives at fill; 3 exited 0')

    def test_a_transcript_in_two_parts(self):
        """What is seen behind a start is what is seen of the whole."""
        lines = LEND.splitlines(True)
        for at in range(0, len(lines), 3):
            if at == 0 or lines[at - 1].split()[0] != lines[at].split()[0]:
                before, rest = b"".join(lines[:at]), b"".join(lines[at:])
                self.assertEqual(Reader(2, before).outcome(rest), Reader(2).outcome(LEND))

    def test_ends(self):
        """How processes end: by the fault and the exit words that the stored transcripts have."""
        for name, processes, text in (
            ("fault/expected", 2, "3 fault 15 at 60000000"),
            ("race/win.expected", 2, "2 exited 42"),
            ("threads/expected", 1, "2 exited 0"),
        ):
            told = Reader(processes).outcome((EXAMPLES / name).read_bytes()).text(("exits",))
            self.assertIn(text, told, name)

    def test_waits(self):
        """A deadlock by hand: two servers that wait for each other, and a step limit in its place."""
        word = " 00000000"
        lines = []
        for step, pid, letter in ((1, 2, "6c"), (2, 3, "72")):
            lines += [f"{step} {pid}.2 call 0000000e 000000{letter}{word * 6}", f"{step} {pid}.2 reply 00000013 000000{letter}{word * 3} 00000002{word * 2}"]
        for step, pid, letter in ((3, 2, "72"), (4, 3, "6c")):
            lines += [f"{step} {pid}.2 call 00000011 000000{letter}{word * 6}", f"{step} {pid}.2 reply 00000007 00000003{word * 6}"]
        lines += [f"{step} {pid}.2 call 00000010 00000003 00000005 00000001{word * 4}" for step, pid in ((5, 2), (6, 3))]
        outcome = Reader(2).outcome("\n".join([*lines, "end 6 done"]).encode())
        self.assertEqual(
            outcome.text(outcomes.USUAL_SEE),
            'console ""; 2 waits: 2.2 waits, queued at r; 3 waits: 3.2 waits, queued at l',
        )
        self.assertIn("2.2 waits for message 1, queued at r", outcome.text(outcomes.SEE))
        self.assertIn("servers l of 2 (1 queued, 0 held), r of 3 (1 queued, 0 held)", outcome.text(outcomes.SEE))
        self.assertEqual(outcomes.failures(outcome, outcomes.rules_of(None)), "2.2 waits, 3.2 waits")
        self.assertEqual(outcomes.failures(outcome, outcomes.rules_of(["waits=3", "waits=2.2", "waits=2.3"])), "3.2 waits, 2.2 waits")
        limited = Reader(2).outcome("\n".join([*lines, "end 6 limit"]).encode())
        self.assertEqual(limited.text(outcomes.USUAL_SEE), 'step limit; console ""')
        self.assertEqual(outcomes.failures(limited, outcomes.rules_of(None)), "")
        self.assertEqual(outcomes.failures(limited, outcomes.rules_of(["limit"])), "step limit")

    def test_yields_are_left_out(self):
        word = " 00000000"
        yields = f"7 2.2 call 00000003{word * 7}\n7 2.2 reply 00000000{word * 7}\n"
        others = f"8 2.2 call 00000002{word * 7}\n8 2.2 reply 00000000{word * 7}\n"
        self.assertEqual(outcomes.YIELDS.sub(b"", (yields * 2 + others).encode()), others.encode())

    def test_rules(self):
        for words, found in (
            (None, ["exit", "fault", "waits"]),
            (["exit,limit"], ["exit", "limit"]),
            (["console=a, b", "console-not=c"], ["console=a, b", "console-not=c"]),
            (["console a, b", "without c"], ["console=a, b", "console-not=c"]),
            (["waits=2", "waits=3.2"], ["waits=2", "waits=3.2"]),
            (["none"], []),
            (["exit", "exit"], ["exit"]),
        ):
            self.assertEqual([rule.spelled() for rule in outcomes.rules_of(words)], found)
        for word in ("", "exits", "console", "console=", "console ", "exit,all", "waits=", "waits=1", "waits=66", "waits=2.0", "waits=2.32", "waits=2.", "waits=x"):
            self.assertRaisesRegex(Refusal, "--fails", outcomes.rules_of, [word])

    def test_failures(self):
        outcome = Reader(1).outcome(played(b"tick 9\ntick 1000\n"))
        self.assertEqual(outcome.text(outcomes.USUAL_SEE), 'console "1"; 2 exited 1')
        self.assertEqual(outcomes.failures(outcome, outcomes.rules_of(None)), "2 exited 1")
        self.assertEqual(outcomes.failures(outcome, (Rule("console", "1"), Rule("console-not", "3"))), "console=1, console-not=3")
        self.assertEqual(outcomes.failures(outcome, (Rule("console", "3"), Rule("console-not", "1"))), "")

    def test_who_fails(self):
        """Each process by its exit or its fault, each thread that waits for good, and nobody while a thread is ready."""
        processes = {
            2: [Standing(2, 1, RECEIVING, server="a"), Standing(2, 3, WAITING, server="b", message=7, kept="held")],
            3: None,
            4: [Standing(4, 2, JOINING, joined=3)],
            5: None,
            6: None,
            7: None,
        }
        ends = {3: Ended(EXITED, (0,)), 5: Ended(FAULT, (15, 0x6000_0000)), 6: Ended(KILLED), 7: Ended(EXITED, (121,))}
        for also, waiting in (({}, ["2.3 waits, 4.2 waits", "4.2 waits", "2.3 waits", "", ""]), ({8: [Standing(8, 2, READY)]}, [""] * 5)):
            outcome = outcomes.Outcome(seen.Seen(b"", processes | also, ends), 1, False)
            words = ("exit", "fault", "waits", "waits=4", "waits=2.3", "waits=2.1", "waits=3")
            told = [outcomes.failures(outcome, outcomes.rules_of([word])) for word in words]
            self.assertEqual(told, ["7 exited 121", "5 fault 15 at 60000000", *waiting])

    def test_a_transcript_that_breaks_a_law(self):
        self.assertRaisesRegex(Refusal, "breaks a law", Reader(1).outcome, b"1 2.2 reply 00000000" + b" 00000000" * 7 + b"\nend 1 done\n")
        self.assertRaisesRegex(Refusal, "without a last line", Reader(1).outcome, b"")

    def test_console(self):
        for console, text in ((b"", '""'), (b'a"\n', '"a\\"\\n"'), (b"\0\\\r\x7f\xff", '"\\x00\\\\\\r\\x7f\\xff"')):
            self.assertEqual(console_text(console), f"console {text}")
            self.assertEqual(names.unquoted(text[1:-1]), console)


class SmallFiles(Case):
    def small(self, turns, wanted):
        tried = []

        def holds(text):
            tried.append(text)
            return wanted in played(text)

        found = smaller.Smaller(holds, 500, 1000).small(turns)
        return smaller.spelled(found).decode().splitlines(), tried

    def test_of_long_schedules(self):
        """Of schedules of hundreds of lines, those that lose an update become a few lines, with either sum."""
        for kind, wanted in ((kind, wanted) for kind in schedules.KINDS for wanted in (b" byte 31", b" byte 32")):
            seed = next(seed for seed in range(500) if wanted in played(schedule(kind, seed) + b"tick 1000\n"))
            turns = smaller.of_events(events.read(schedule(kind, seed) + b"tick 1000\n")[0])
            lines, tried = self.small(turns, wanted)
            self.assertLess(len(lines), 7, (kind, lines))
            self.assertLessEqual(len(tried), 500)

    def test_of_what_was_done(self):
        turns = smaller.of_stretches([Stretch((2, 2), 1, 9), Stretch((2, 3), 10, 21), Stretch((2, 2), 22, 30)], 0)
        self.assertEqual(smaller.spelled(turns).decode().split("\n")[:4], ["pick 2 2", "tick 9", "pick 2 3", "tick 12"])
        self.assertEqual(self.small(turns, b" byte 31")[0], ["tick 9", "tick 1000"])

    def test_behind_a_start(self):
        stretches = [Stretch((2, 2), 1, 9), Stretch((2, 3), 10, 21)]
        self.assertEqual(smaller.of_stretches(stretches, 4), [smaller.Turn((2, 2), 5), smaller.Turn((2, 3), 12)])
        self.assertEqual(smaller.of_stretches(stretches, 9), [smaller.Turn((2, 3), 12)])

    def test_a_schedule_that_ends_otherwise(self):
        self.assertEqual(self.small([smaller.Turn(None, 1000)], b" byte 31")[0], [])

    def test_tries_that_are_spent(self):
        """What was found when no tries are left is kept."""
        turns = smaller.of_events(events.read(b"pick 2 2\ntick 1\n" * 9 + b"pick 2 3\ntick 12\ntick 1000\n")[0])
        for most in range(1, 20):
            found = smaller.Smaller(lambda text: b" byte 31" in played(text), most, 1000).small(turns)
            self.assertIn(b" byte 31", played(smaller.spelled(found)))

    def test_gathering(self):
        one, two = smaller.Turn((2, 2), 1), smaller.Turn((2, 3), 2)
        self.assertEqual(smaller.gathered([one, two, one, two]), [smaller.Turn((2, 2), 2), smaller.Turn((2, 3), 4)])
        self.assertEqual(smaller.joined([one, one, two]), [smaller.Turn((2, 2), 2), two])


def result(seed, text, fails="", kind="turns"):
    return Result(seed, kind, text, fails, text.startswith("step limit"), 10)


def found_of(seeds, first=1, step=1, about=None):
    """Findings in which each third seed fails, and the ninth meets the limit."""
    found = Findings(about or {"image": "1", "see": ["console"]}, [Seeds(first, step)])
    for seed in seeds:
        text = "step limit" if seed == 9 else "bad" if seed % 3 == 0 else "good"
        found.take(result(seed, text, "2 exit 1" if text == "bad" else "", schedules.KINDS[seed % 2]))
    return found


class Tables(Case):
    def test_lines(self):
        found = found_of(range(1, 11))
        self.assertEqual(
            list(found.lines()),
            [
                "ending  runs  turns  picks  first  fails",
                "     1     7      4      3      1  -",
                "     2     2      1      1      3  2 exit 1",
                "     3     1      0      1      9  -",
                "3 endings in 10 runs; 2 runs failed, 1 run met the step limit",
            ],
        )
        self.assertEqual(found.endings["bad"].line(2), "ending 2: bad; first by seed 3, picks; fails: 2 exit 1")

    def write(self, name, found):
        (self.folder / name).write_bytes(found.to_json())
        return str(self.folder / name)

    def test_shares_are_the_whole(self):
        """Findings of the shares of 40 seeds, joined in any order, are those of all of them."""
        whole = found_of(range(1, 41))
        parts = [self.write(f"{part}.json", found_of(range(part, 41, 3), part, 3)) for part in (3, 1, 2)]
        merged = findings.merged(parts)
        self.assertEqual(list(merged.lines()), list(whole.lines()))
        self.assertEqual(merged.endings, whole.endings)
        self.assertEqual(merged.runs(), 40)
        again = findings.merged([self.write("all.json", merged)])
        self.assertEqual((again.lines and list(again.lines()), again.seeds), (list(whole.lines()), merged.seeds))

    def test_events_of_the_first_are_kept(self):
        early, late = found_of([4], 4), found_of([1], 1)
        early.endings["good"].events, late.endings["good"].events = "tick 4\n", ""
        merged = findings.merged([self.write("a", early), self.write("b", late)])
        self.assertEqual((merged.endings["good"].seed, merged.endings["good"].events), (1, "tick 4\n"))

    def test_what_isnt_joined(self):
        one = self.write("one", found_of([1, 2, 3]))
        other = self.write("other", found_of([7], 7, about={"image": "2", "see": ["console"]}))
        shared = self.write("shared", found_of([3, 5], 3, 2))
        self.assertRaisesRegex(Refusal, "other: its image is 2, and that of .*one is 1", findings.merged, [one, other])
        self.assertRaisesRegex(Refusal, "shared: seed 3 is in .*one too", findings.merged, [one, shared])
        self.assertRaisesRegex(Refusal, "seed 1 is in", findings.merged, [one, one])

    def test_other_files(self):
        good = json.loads(found_of([1, 3]).to_json())
        endings = good["endings"]
        for wrong in (
            [], None, 1, {}, {**good, "form": "xous-shake 2"}, {**good, "seeds": [{"first": 1}]}, {**good, "about": []},
            {**good, "seeds": [{"first": 1, "step": 1, "count": -1}]}, {**good, "endings": [{**endings[0], "runs": {"turns": "x"}}]},
            {**good, "endings": [{**endings[0], "kind": "other"}]}, {**good, "endings": [{**endings[0], "more": 1}]},
            {**good, "endings": [{**endings[0], "runs": {"turns": 0}}]}, {**good, "endings": [{**endings[0], "seen": 1}]},
        ):  # fmt: skip
            path = self.folder / "wrong"
            path.write_text(json.dumps(wrong))
            self.assertRaisesRegex(Refusal, "these are no findings", findings.read, str(path))
        path.write_bytes(b"\xff{" * 10)
        self.assertRaisesRegex(Refusal, "these are no findings", findings.read, str(path))

    def test_ending(self):
        ending = Ending("a", "", False, 1, "pct")
        ending.add({"pct": 2})
        ending.add({"turns": 1})
        self.assertEqual((ending.runs, ending.count()), ({"pct": 2, "turns": 1}, 3))
