"""What each call asks of the replies that follow it (docs/calls.md), as far as records tell.

A rule takes the history, the call's record, the reply to its caller in the same step or none, and the replies to others, to which it adds.
It answers what the caller's reply has to pass.
"""

from .. import names
from ..machine import FIRST_TID, MOST_TIDS
from ..machine import HANDLER_TID as HANDLER

from .laws import ANSWER, LOST, MESSAGE, MOST_SERVERS, Broken, Message, Server
from .laws import eight, is_exactly, refusal

# What a served call is answered with in its own step; the calls on messages say it themselves.
SERVED = {
    names.MAP: names.MEMORY_RANGE,
    names.UNMAP: names.OK,
    names.FLAGS: names.OK,
    names.MORE_HEAP: names.MEMORY_RANGE,
    names.LESS_HEAP: names.OK,
}


def plain(_history, record, _own, _answers):
    number = record.words[0]
    if number not in names.CALLS:
        return is_exactly(refusal("UnhandledSyscall"))
    first = SERVED.get(number, names.OK)
    return lambda words: words is not None and words[0] in (first, names.ERROR)


def thread_id(_history, record, _own, _answers):
    return is_exactly(eight(names.THREAD_ID, record.thread[1]))


def process_id(_history, record, _own, _answers):
    return is_exactly(eight(names.SCALAR1, record.pid))


def yields(_history, _record, _own, _answers):
    return is_exactly(eight())


def create_thread(history, record, _own, _answers):
    pid = record.pid
    if record.words[1] % 4:
        return is_exactly(refusal("BadAlignment"))
    free = next((tid for tid in range(FIRST_TID, MOST_TIDS + 1) if (pid, tid) not in history.calls), None)
    if free is None:
        return is_exactly(refusal("ThreadNotAvailable"))
    history.calls[pid, free] = None
    return is_exactly(eight(names.THREAD_ID, free))


def join(history, record, _own, _answers):
    pid, tid = record.thread
    joined = record.words[1]
    if tid == HANDLER:
        return is_exactly(refusal("InvalidSyscall"))
    if joined in (HANDLER, tid) or (pid, joined) not in history.calls:
        return is_exactly(refusal("InvalidThread"))
    return is_exactly(None)


def claim(history, record, _own, _answers):
    _, number, handler, *_ = record.words
    if number > 31:
        return is_exactly(refusal("InterruptNotFound"))
    if handler % 4:
        return is_exactly(refusal("BadAlignment"))
    if number in history.claims:
        return is_exactly(refusal("InterruptInUse"))
    history.claims[number] = record.pid
    return is_exactly(eight())


def free_interrupt(history, record, _own, _answers):
    if history.claims.get(record.words[1]) != record.pid:
        return is_exactly(refusal("InterruptNotFound"))
    del history.claims[record.words[1]]
    return is_exactly(eight())


def create_server(history, record, _own, _answers):
    identifier, pid = record.words[1:5], record.pid
    free = history.free_connection(pid)
    if history.server_named(identifier):
        return is_exactly(refusal("ServerExists"))
    if sum(server.is_alive for server in history.servers) == MOST_SERVERS or free is None:
        return is_exactly(refusal("InvalidLimit"))
    server = Server(identifier, pid)
    history.servers = [other for other in history.servers if other.is_alive] + [server]
    history.connections[pid, free] = server
    return is_exactly(eight(names.NEW_SERVER, *identifier, free))


def connect(history, record, _own, _answers):
    server = history.server_named(record.words[1:5])
    pid, tid = record.thread
    if record.words[0] == names.CONNECT and tid == HANDLER:
        return is_exactly(refusal("InvalidSyscall"))
    if server is None:
        return is_exactly(refusal("ServerNotFound") if record.words[0] == names.TRY_CONNECT else ())
    known = next((cid for (owner, cid), other in history.connections.items() if owner == pid and other is server), None)
    cid = history.free_connection(pid) if known is None else known
    if cid is None:
        return is_exactly(refusal("InvalidLimit"))
    history.connections[pid, cid] = server
    return is_exactly(eight(names.CONNECTION_ID, cid))


def destroy(history, record, _own, answers):
    server = history.server_named(record.words[1:5])
    if server is None or server.pid != record.pid:
        return is_exactly(refusal("ServerNotFound"))
    for who in history.receivers(server):
        answers[who] = (ANSWER, is_exactly(refusal("ServerNotFound")))
    answers.update(history.close(server))
    return is_exactly(eight())


def send(history, record, own, answers):
    number, _, kind, ident, *words = record.words
    server, who = history.server_of(record), record.thread
    if who[1] == HANDLER and (number == names.SEND or kind in names.ANSWERED):
        return is_exactly(refusal("InvalidSyscall"))
    if server is None:
        return is_exactly(refusal("ServerNotFound"))
    if kind not in names.KINDS:
        return is_exactly(refusal("InvalidSyscall"))
    if own is not None and own[0] == names.ERROR:
        known = () if number == names.TRY_SEND and server.is_full() else ("ServerQueueFull",)
        return lambda words: words not in map(refusal, ("ServerNotFound", "InvalidSyscall", *known))
    if server.is_full():
        return is_exactly(())
    history.accepted += 1
    sender = who if kind in names.ANSWERED else None
    history.arrive(server, Message(history.accepted, kind, ident, tuple(words), sender), answers, record.step)
    return is_exactly(None if sender else eight())


def receive(history, record, own, _answers):
    number, who = record.words[0], record.thread
    if number == names.RECEIVE and who[1] == HANDLER:
        return is_exactly(refusal("InvalidSyscall"))
    server = history.server_named(record.words[1:5])
    if server is None or server.pid != who[0]:
        return is_exactly(refusal("ServerNotFound"))
    if not server.queued:
        return is_exactly(None if number == names.RECEIVE else eight())
    message = server.queued.pop(0)
    if own is None or own[0] != names.MESSAGE:
        return is_exactly(())
    if not message.is_told_by(own):
        raise Broken(MESSAGE, record, f"it is answered with another message than {message.number}, the oldest one")
    history.deliver(server, message, own)
    return is_exactly(own)


def returns(history, record, _own, answers):
    call = record.words
    is_memory = call[0] == names.RETURN_MEMORY
    server, message = history.held_by(record.pid, call[1], names.LENDS if is_memory else (names.BLOCKING_SCALAR,))
    if message is None:
        return is_exactly(refusal("DoubleFree"))
    if is_memory and call[2:4] != (message.address, message.words[1]):
        return is_exactly(refusal("BadAddress"))
    del server.held[message.number]
    if message.sender:
        answers[message.sender] = (MESSAGE, is_exactly(message.ends_by(call)))
    return is_exactly(eight())


def forward(history, record, own, answers):
    server, message = history.held_by(record.pid, record.words[1], names.LENDS)
    if message is None or message.sender is None:
        return is_exactly(refusal("DoubleFree"))
    other = history.connections.get((record.pid, record.words[2]))
    if other is None or not other.is_alive:
        return is_exactly(refusal("ServerNotFound"))
    if other is server:
        return is_exactly(refusal("InvalidSyscall"))
    if other.is_full():
        return is_exactly(refusal("ServerQueueFull"))
    if own is not None and own[0] == names.ERROR:
        return is_exactly(refusal("MemoryInUse"))
    del server.held[message.number]
    history.arrive(other, message, answers, record.step)
    return is_exactly(eight())


# Under which law the reply to a caller stands, where it isn't that each call is answered.
LAWS = {
    **dict.fromkeys(names.SENDS, MESSAGE),
    **dict.fromkeys(names.RECEIVES, LOST),
    **dict.fromkeys(names.RETURNS, MESSAGE),
    names.FORWARD: MESSAGE,
}
RULES = {
    names.YIELD: yields,
    names.CREATE_THREAD: create_thread,
    names.JOIN: join,
    names.NUMBERS["GetThreadId"]: thread_id,
    names.NUMBERS["GetProcessId"]: process_id,
    names.CLAIM: claim,
    names.NUMBERS["FreeInterrupt"]: free_interrupt,
    names.NEW_SERVER_CALL: create_server,
    **dict.fromkeys(names.CONNECTS, connect),
    names.DESTROY_SERVER: destroy,
    **dict.fromkeys(names.SENDS, send),
    **dict.fromkeys(names.RECEIVES, receive),
    **dict.fromkeys(names.RETURNS, returns),
    names.FORWARD: forward,
}
