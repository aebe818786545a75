"""What is seen of a run by its transcript, and whether it fails."""

from __future__ import annotations

import pickle
import re
from collections.abc import Iterator
from dataclasses import dataclass, field

from .. import names
from ..errors import Refusal
from ..runs import fails, seen
from ..runs.ended import ends_of
from ..transcripts import decode
from ..transcripts.history import History
from ..transcripts.laws import Broken
from ..transcripts.stored import record_of

CONSOLE, EXITS, WAITS, SERVERS, NUMBERS = "console", "exits", "waits", "servers", "numbers"
SEE = (CONSOLE, EXITS, WAITS, SERVERS, NUMBERS)
USUAL_SEE = (CONSOLE, EXITS, WAITS)
EXIT, FAULT, CONSOLE_NOT, LIMIT, NONE = fails.EXIT, fails.FAULT, fails.CONSOLE_NOT, "limit", "none"
USUAL_FAILS = (EXIT, FAULT, WAITS)
# A Yield changes nothing that is seen at the end, and long transcripts are full of them. Its reply comes right behind it.
YIELDS = re.compile(rb"^(\d+ \d+\.\d+) call 00000003 [^\n]*\n\1 reply [^\n]*\n", re.M)


@dataclass
class Outcome:
    """What is seen at the end of a run."""

    seen: seen.Seen
    steps: int
    met_limit: bool
    servers: list[str] = field(default_factory=list)

    def text(self, see: tuple[str, ...]) -> str:
        """What is seen, as far as it is asked for. At the step limit nothing is told of who waits, as that is mere chance."""
        parts = ["step limit"] if self.met_limit else []
        parts += [seen.console_text(self.seen.console)] if CONSOLE in see else []
        for pid, threads in self.seen.processes.items():
            if threads is None:
                parts.append(self.seen.process_text(pid) if EXITS in see else f"{pid} gone")
            elif WAITS in see and not self.met_limit:
                parts.append(self.seen.process_text(pid, NUMBERS in see))
        if SERVERS in see and not self.met_limit:
            parts.append(f"servers {', '.join(self.servers) or 'none'}")
        return "; ".join(parts)


@dataclass(frozen=True)
class Rule(fails.Failing):
    """What makes a run a failed one: as for an ending of a search, or that the step limit is met."""

    def failures(self, outcome: Outcome) -> Iterator[str]:
        """In words what fails of a run."""
        if self.kind in (EXIT, FAULT):
            yield from (f"{pid} {ended.text()}" for pid, ended in sorted(outcome.seen.ends.items()) if fails.is_bad(self.kind, ended))
        elif self.kind == WAITS and not outcome.met_limit:
            who = fails.waiter_of(self.text) if self.text else ()
            yield from (f"{name} waits" for name in fails.stuck(outcome.seen, who))
        elif self.kind == LIMIT and outcome.met_limit:
            yield "step limit"
        elif self.kind in (CONSOLE, CONSOLE_NOT) and self.holds(outcome.seen):
            yield self.spelled()


# What stands before a text of the console; those with a space are old names.
TEXTS = {"console=": CONSOLE, "console-not=": CONSOLE_NOT, "console ": CONSOLE, "without ": CONSOLE_NOT}


def rules_of(words: list[str] | None) -> tuple[Rule, ...]:
    """The rules of the words of --fails."""
    rules: list[Rule] = []
    for word in words if words is not None else USUAL_FAILS:
        named = ((kind, word.removeprefix(start)) for start, kind in TEXTS.items() if word.startswith(start))
        kind, text = next(named, ("", ""))
        if word.startswith(f"{WAITS}="):
            kind, text = WAITS, word.removeprefix(f"{WAITS}=")
            fails.waiter_of(text)
        if text:
            rules.append(Rule(kind, text))
            continue
        for each in word.split(","):
            if each not in (EXIT, FAULT, WAITS, LIMIT, NONE):
                raise Refusal(f"--fails {word}: say exit, fault, waits, waits=PID.TID, limit, none, 'console=TEXT' or 'console-not=TEXT'", 2)
            rules += [Rule(each)] if each != NONE else []
    return tuple(dict.fromkeys(rules))


def failures(outcome: Outcome, rules: tuple[Rule, ...]) -> str:
    """What fails of a run, in words; nothing if all is well."""
    return ", ".join(text for rule in rules for text in rule.failures(outcome))


class Reader:
    """Reads transcripts of an image, or of a state, which goes on from a transcript that was read before."""

    def __init__(self, processes: int, before: bytes = b""):
        history, records = History([], processes), records_of(before)
        self.console, self.ends = console_of(records), dict(ends_of(records))
        follow(history, records)
        self.history = pickle.dumps(history)

    def history_after(self, transcript: bytes, until: int | None = None) -> History:
        """The history after the records of a transcript; `until` leaves out those of that step and later ones."""
        history = pickle.loads(self.history)
        records = records_of(transcript)
        if until is not None:
            records = [record for record in records if record.step < until]
        follow(history, records)
        return history

    def outcome(self, transcript: bytes) -> Outcome:
        last = last_of(transcript)
        records = records_of(transcript)
        history = pickle.loads(self.history)
        follow(history, records)
        what = seen.of_history(history, self.console + console_of(records), self.ends | dict(ends_of(records)))
        return Outcome(what, last.step, last.what == decode.LIMIT, servers_of(history))


def follow(history: History, records: list[decode.Record]) -> None:
    """Takes these records in; what the history keeps doesn't need them later."""
    history.records, history.at = records, 0
    try:
        history.follow()
    except Broken as broken:
        raise Refusal(f"the program wrote a transcript that breaks a law: {broken}; XOUSIM has to name xousim") from None
    history.records, history.at, history.last = [], 0, None


def records_of(transcript: bytes) -> list[decode.Record]:
    """The records of a transcript without its Yields and its last line."""
    lines = YIELDS.sub(b"", transcript).splitlines()
    if lines and lines[-1].startswith(b"end "):
        lines.pop()
    return [record_of(line) for line in lines]


def last_of(transcript: bytes) -> decode.Record:
    lines = transcript[-100:].splitlines()
    if not lines or not lines[-1].startswith(b"end "):
        raise Refusal("the program wrote a transcript without a last line; XOUSIM has to name xousim")
    return record_of(lines[-1])


def console_of(records: list[decode.Record]) -> bytes:
    return bytes(record.words[0] for record in records if record.what == decode.BYTE)


def servers_of(history: History) -> list[str]:
    """The servers that live, each with its process and its messages."""
    living = [server for server in history.servers if server.is_alive]
    counts = [(server, len(server.queued), len(server.held)) for server in living]
    return [
        f"{names.identifier_name(server.identifier)} of {server.pid}{f' ({queued} queued, {held} held)' if queued or held else ''}"
        for server, queued, held in counts
    ]
