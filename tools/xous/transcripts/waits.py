"""What threads wait for, and who waits for whom in a circle."""

from .. import names
from . import decode

FOR_MESSAGE, FOR_ANSWER, FOR_THREAD, TO_TRY = "messages", "answers", "threads to end", "another try"


def purpose(call):
    """What a call without a reply waits for, or none where it isn't one that waits."""
    number = call.number
    if call.retried is not None:
        return TO_TRY
    if number == names.RECEIVE:
        return FOR_MESSAGE
    if number in names.SENDS and call.words[2] in names.ANSWERED:
        return FOR_ANSWER
    return FOR_THREAD if number == names.JOIN else None


def kind_text(message):
    return f"{names.kind_name(message.kind)} id {names.word_text(message.ident)}"


def server_text(server, named):
    if server is None:
        return "a server that isn't known"
    return f"{server.name} of {named.process(server.pid)}" if server.pid is not None else server.name


def answer_text(message, named):
    """Where the message is whose answer is waited for."""
    if message is None:
        return "an answer"
    what = f"the answer to its {kind_text(message)}"
    if message.receiver and message.ended is None:
        return f"{what} (message {message.number}), which {named.thread(message.receiver)} has had since step {message.received}"
    return f"{what}, which is queued at {server_text(message.server, named)}"


def waiting_text(call, named):
    """What a call without a reply waits for, in words."""
    why = purpose(call)
    if why == FOR_MESSAGE:
        return f"waits for a message at {names.identifier_text(call.words[1:5])}"
    if why == FOR_ANSWER:
        return f"waits for {answer_text(call.message, named)}"
    if why == FOR_THREAD:
        return f"waits for the end of {named.thread((call.thread[0], call.words[1]))}"
    if call.number in names.CONNECTS:
        return f"is to try Connect again: no live server is {names.identifier_text(call.words[1:5])}"
    if why == TO_TRY:
        return f"is to try SendMessage again: the slots of {server_text(call.server, named)} are in use"
    return f"has no reply to {names.call_name(call.number)}"


def targets(follower, call):
    """The threads of which one could end the wait of this call, as far as they are known; none where anyone could."""
    why = purpose(call)
    if why == FOR_THREAD:
        return [(call.thread[0], call.words[1])]
    if why == FOR_ANSWER and call.message:
        pid = call.message.holder()
    elif why == TO_TRY and call.number in names.SENDS and call.server:
        pid = call.server.pid
    else:
        return []
    return [thread for thread in follower.threads if thread[0] == pid and thread[1] != decode.INTERRUPT_THREAD]


def stuck(follower):
    """The threads that can't go on but by one another, each with those that it waits for."""
    waits = {thread: targets(follower, call) for thread, call in sorted(follower.pending.items(), key=lambda item: item[0])}
    waits = {thread: others for thread, others in waits.items() if others}
    while free := [thread for thread, others in waits.items() if any(other not in waits for other in others)]:
        for thread in free:
            del waits[thread]
    return waits


def cycles(follower):
    """Lists of threads, each of which waits for the next, and the last for the first."""
    waits, found, seen = stuck(follower), [], set()
    for start in waits:
        path, thread = [], start
        while thread not in seen:
            seen.add(thread)
            path.append(thread)
            thread = waits[thread][0]
        if thread in path:
            found.append(path[path.index(thread) :])
    return found
