"""Who waits for whom at the end of a run: from a thread over its message and the server that has it to who could answer."""

from __future__ import annotations

from collections.abc import Iterator

from .. import names
from ..states.state import State
from ..transcripts import waits
from ..transcripts.decode import record_of
from ..transcripts.follow import Call, Follower


def followed(lines) -> Follower:
    follower = Follower()
    for line in lines:
        record = record_of(line)
        if record is not None:
            follower.feed(record)
    return follower


def chain_lines(follower: Follower, machine: State, named: names.Names) -> Iterator[str]:
    """A line for each thread that waits for an answer or for a thread, and one for each circle of these."""
    for thread, call in sorted(follower.pending.items(), key=lambda item: item[0]):
        why = waits.purpose(call)
        if why == waits.FOR_THREAD:
            yield f"{named.thread(thread)} -> the end of {standing(follower, named, (thread[0], call.words[1]))}"
        elif why == waits.FOR_ANSWER:
            yield f"{named.thread(thread)} -> {answer_text(follower, machine, named, call)}"
    for cycle in waits.cycles(follower):
        around = " -> ".join(named.thread(thread) for thread in [*cycle, cycle[0]])
        yield f"cycle: {around} (each waits for the next)"


def answer_text(follower: Follower, machine: State, named: names.Names, call: Call) -> str:
    """The message, where it is, and the threads that could answer it."""
    message = call.message
    found = machine.find_message(machine.threads[call.thread].waits_for)
    number = f"message {found[1].number}" if found else "its message"
    what = f"{number} ({waits.kind_text(message)} of step {call.step})" if message else number
    if found is None:
        return what
    place = f"{'held' if found[2] else 'queued'} at {found[0].name} of {named.process(found[0].pid)}"
    if found[2] and message and message.receiver:
        who = f"{standing(follower, named, message.receiver)}; it has had it since step {message.received}"
    else:
        who = ", ".join(standing(follower, named, each) for each in waits.targets(follower, call)) or "no thread that has shown itself"
    return f"{what} -> {place} -> {who}"


def standing(follower: Follower, named: names.Names, thread: tuple[int, int]) -> str:
    """A thread, and in short what it does."""
    name, call = named.thread(thread), follower.pending.get(thread)
    if thread not in follower.threads:
        return f"{name}, which hasn't shown itself" if call is None else name
    if call is None:
        return f"{name}, which is ready"
    doing = {
        waits.FOR_MESSAGE: f"waits for a message at {names.identifier_text(call.words[1:5])}",
        waits.FOR_ANSWER: "waits for an answer",
        waits.FOR_THREAD: f"waits for the end of {named.thread((thread[0], call.words[1]))}",
        waits.TO_TRY: f"is to try {names.call_name(call.number)} again",
    }
    return f"{name}, which {doing.get(waits.purpose(call), 'waits')}"
