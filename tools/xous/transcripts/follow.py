"""What a transcript tells of calls, servers, messages and pages, line by line.

A send stands in its server's queue from its call on, and is taken out where the call is refused or has to
be made again: so no line has to be looked at twice. What began before the transcript isn't known, and stays so.
"""

from .. import names
from . import decode
from .pages import HEAP, MOVED, Space

KILLED = "killed by an event"


class Server:
    """A server, with the messages that it hasn't taken yet; its process is none where it isn't told."""

    __slots__ = ("identifier", "name", "pid", "made", "closed", "queue")

    def __init__(self, identifier, pid, made):
        self.identifier, self.pid, self.made = identifier, pid, made
        self.name = names.identifier_text(identifier)
        self.closed = None
        self.queue = []


class Message:
    """A send, from its call until it's answered, forgotten, or taken for good."""

    __slots__ = (
        "kind", "ident", "words", "sender", "sent", "server", "number",
        "receiver", "received", "address", "ended", "orphan", "refused",
    )  # fmt: skip

    def __init__(self, kind, ident, words, sender, sent, server):
        self.kind, self.ident, self.words, self.sender, self.sent = kind, ident, words, sender, sent
        self.server = server
        self.number = self.receiver = self.received = self.address = None
        self.ended = self.orphan = None
        self.refused = False  # or its send is to be made again

    def holder(self):
        """The process that its pages are with."""
        if self.receiver:
            return self.receiver[0]
        return self.server.pid if self.server else None

    def fits(self, words):
        """Whether a reply that tells of a message can tell of this one."""
        if self.number is not None and self.number != words[1]:
            return False
        if (self.kind, self.ident) != words[2:4]:
            return False
        skipped = 1 if self.kind in names.WITH_PAGES else 0  # the address is another one at the receiver
        return self.words[skipped:] == words[4 + skipped :]


class Call:
    """A call of a thread, with its server and its message where it has them."""

    __slots__ = ("thread", "step", "words", "server", "message", "before", "retried")

    def __init__(self, thread, step, words):
        self.thread, self.step, self.words = thread, step, words
        self.server = self.message = self.before = self.retried = None

    @property
    def number(self):
        """The number of the call; none of one from before the transcript."""
        return self.words[0] if self.words else None


class Follower:
    """The state after the lines that were fed to it."""

    def __init__(self):
        self.pending = {}  # by thread, its call without an answer
        self.threads = {}  # those that live, in the order in which they were seen
        self.servers = {}  # by identifier, those that live
        self.connections = {}  # by pid and number, the server
        self.held = {}  # by number, messages that were received and are to be answered
        self.open = {}  # messages that aren't ended (an ordered set)
        self.strays = []  # messages of this step to a server that isn't known
        self.spaces = {}
        self.acted = None  # the last fault or end of a thread
        self.death = None  # why the last process died that did
        self.ended = None  # the steps that the last line tells
        self.on = {
            decode.CALL: self.on_call,
            decode.REPLY: self.on_reply,
            decode.RETRY: self.on_retry,
            decode.GONE: self.on_gone,
            decode.DONE: self.on_last,
            decode.LIMIT: self.on_last,
        }
        self.begin = {
            **dict.fromkeys(names.SENDS, self.begin_send),
            **dict.fromkeys(names.RETURNS, self.begin_return),
            **dict.fromkeys((*names.RECEIVES, names.DESTROY_SERVER), self.begin_of_server),
            names.FORWARD: self.begin_forward,
        }
        self.finish = {
            **dict.fromkeys(names.SENDS, self.finish_send),
            **dict.fromkeys(names.RETURNS, self.finish_return),
            **dict.fromkeys(names.CONNECTS, self.finish_connect),
            names.NEW_SERVER_CALL: self.finish_new_server,
            names.DESTROY_SERVER: self.finish_destroy,
            names.CREATE_THREAD: self.finish_thread,
            names.MAP: self.finish_map,
            names.UNMAP: self.finish_unmap,
            names.FLAGS: self.finish_flags,
            names.MORE_HEAP: self.finish_more_heap,
            names.LESS_HEAP: self.finish_less_heap,
        }

    def feed(self, record):
        """Takes one record in. Answers the call that it makes, answers or puts off, if any."""
        step, thread, what, words = record
        on = self.on.get(what)
        if on:
            return on(thread, step, words)
        self.on_event(record)
        return None

    # Lines.

    def on_call(self, thread, step, words):
        call = Call(thread, step, words)
        begin = self.begin.get(words[0])
        if begin:
            begin(call)
        self.threads[thread] = None
        self.pending[thread] = call
        return call

    def on_reply(self, thread, step, words):
        call = self.pending.pop(thread, None)
        if call is None:
            self.threads[thread] = None
            call = Call(thread, None, ())
        first = words[0]
        if first == names.MESSAGE:
            self.deliver(call, step, words)
        elif first == names.ERROR:
            self.refuse(call, step, words[1])
        else:
            finish = self.finish.get(call.number)
            if finish:
                finish(call, step, words)
        return call

    def on_retry(self, thread, step, _words):
        call = self.pending.get(thread)
        if call:
            call.retried = step
            if call.message:
                self.deny(call)
        return call

    def on_event(self, record):
        thread = record.thread
        self.threads[thread] = None
        if record.what == decode.FAULT:
            self.acted = record
        elif record.what == decode.END:
            self.acted = record
            self.pending.pop(thread, None)
            if thread[1] != decode.INTERRUPT_THREAD:
                del self.threads[thread]

    def on_last(self, _thread, step, _words):
        self.ended = step

    def on_gone(self, thread, step, _words):
        pid = thread[0]
        self.death = self.death_of(pid, step)
        for server in [server for server in self.servers.values() if server.pid == pid]:
            self.close(server, step)
        for message in [each for each in self.open if each.sender and each.sender[0] == pid]:
            if message.number in self.held:
                message.orphan = step
            elif message.kind in names.ANSWERED:
                self.drop(message)
                message.ended = step
        for table in (self.pending, self.threads, self.connections):
            for key in [key for key in table if key[0] == pid]:
                del table[key]
        self.spaces.pop(pid, None)

    def death_of(self, pid, step):
        """Why a process dies in this step. What isn't told of its own threads is an event `kill`."""
        for thread, call in self.pending.items():
            if thread[0] == pid and call.step == step and call.number == names.TERMINATE:
                return f"TerminateProcess(exit {names.word_text(call.words[1])})"
        acted = self.acted
        if acted and acted.pid == pid and acted.step == step:
            if acted.what == decode.FAULT:
                return f"fault {acted.words[0]} of thread {acted.tid}"
            if not any(each[0] == pid and each[1] != decode.INTERRUPT_THREAD for each in self.threads):
                return "its last thread ended"
        return KILLED

    # Messages.

    def queue_of(self, message):
        return message.server.queue if message.server else self.strays

    def begin_send(self, call):
        words = call.words
        call.server = self.connections.get((call.thread[0], words[1]))
        if words[2] in names.KINDS:
            message = Message(words[2], words[3], words[4:], call.thread, call.step, call.server)
            call.message = message
            if self.strays and self.strays[0].sent != call.step:
                self.strays.clear()
            self.queue_of(message).append(message)
            self.open[message] = None

    def drop(self, message):
        """The message isn't at its server any more."""
        self.open.pop(message, None)
        queue = self.queue_of(message)
        if message in queue:
            queue.remove(message)
        if message.number in self.held:
            del self.held[message.number]

    def deny(self, call):
        """The send of this call wasn't accepted."""
        self.drop(call.message)
        call.message.refused = True

    def refuse(self, call, step, error):
        message = call.message
        if not message:
            return
        if call.number in names.SENDS:
            self.drop(message)
            # A server that lives isn't missed: so the message came there, and the server ends with it now.
            lived = call.server and not call.server.closed and error == names.SERVER_NOT_FOUND
            if lived or message.received or step != call.step:
                message.ended = step
            else:
                self.deny(call)
        elif call.number == names.FORWARD:
            self.drop(message)
            message.server, message.receiver, message.address = call.before
            self.open[message] = self.held[message.number] = message

    def taken(self, call, step, words):
        """The message that a reply tells of, out of its queue."""
        server = call.server
        for queue in (server.queue if server else (), self.strays):
            for place, message in enumerate(queue):
                # Of those to unknown servers, only one that is sent in this step is surely meant.
                if message.fits(words) and (queue is not self.strays or message.sent == step):
                    return queue.pop(place)
        message = self.held.get(words[1])
        if not (message and message.fits(words)):
            message = Message(words[2], words[3], words[4:], None, None, server)
        self.open[message] = None
        return message

    def deliver(self, call, step, words):
        if not call.server and call.number in names.RECEIVES:
            call.server = self.implied(tuple(call.words[1:5]), call.thread[0])
        message = self.taken(call, step, words)
        call.message = message
        message.server = call.server or message.server
        message.number, message.receiver, message.received = words[1], call.thread, step
        if message.kind in names.WITH_PAGES:
            message.address = words[4]
        if message.kind in names.ANSWERED:
            self.held[message.number] = message
        else:
            message.ended = step
            self.open.pop(message, None)
        if message.kind == names.MOVE:
            self.space(call.thread[0]).pages.put(words[4], words[4] + words[5], MOVED)

    def finish_send(self, call, step, _words):
        message = call.message
        if message and message.kind in names.ANSWERED:
            self.drop(message)
            message.ended = step
        elif message and message.server is None:
            self.open.pop(message, None)  # nothing tells when it is taken
        if message and message.kind == names.MOVE:
            start, size = message.words[:2]
            self.space(call.thread[0]).pages.put(start, start + size, None)

    def begin_return(self, call):
        call.message = self.held.get(call.words[1])

    def finish_return(self, call, step, _words):
        if call.message:
            self.drop(call.message)
            call.message.ended = step

    def begin_forward(self, call):
        """The message is the newest at the other server at once, as a send's; one that isn't known finds it by its number."""
        message = call.message = self.held.get(call.words[1])
        server = call.server = self.connections.get((call.thread[0], call.words[2]))
        if message:
            call.before = (message.server, message.receiver, message.address)
            message.server, message.receiver, message.address = server, None, None
            if server:
                del self.held[message.number]
                server.queue.append(message)

    # Servers.

    def implied(self, identifier, pid):
        """The server of this name, which there is by what was answered; its process isn't always told."""
        server = self.servers.get(identifier)
        if server is None:
            server = self.servers[identifier] = Server(identifier, pid, None)
        if server.pid is None:
            server.pid = pid
        return server

    def begin_of_server(self, call):
        server = self.servers.get(call.words[1:5])
        if server and server.pid in (None, call.thread[0]):
            call.server = server

    def finish_connect(self, call, _step, words):
        call.server = self.implied(call.words[1:5], None)
        self.connections[call.thread[0], words[1]] = call.server

    def finish_new_server(self, call, step, words):
        server = Server(call.words[1:5], call.thread[0], step)
        call.server = self.servers[server.identifier] = server
        self.connections[call.thread[0], words[5]] = server

    def finish_destroy(self, call, step, _words):
        if call.server:
            self.close(call.server, step)

    def close(self, server, step):
        server.closed = step
        for message in [each for each in self.open if each.server is server]:
            self.drop(message)
            message.ended = step
        if self.servers.get(server.identifier) is server:
            del self.servers[server.identifier]

    # Threads and pages.

    def space(self, pid):
        space = self.spaces.get(pid)
        if space is None:
            space = self.spaces[pid] = Space()
        return space

    def finish_thread(self, call, _step, words):
        pid = call.thread[0]
        self.threads[pid, words[1]] = None
        self.space(pid).stacks[words[1]] = call.words[2]

    def finish_map(self, call, _step, words):
        right = "console" if call.words[1] == names.CONSOLE else names.flags_text(call.words[4])
        self.space(call.thread[0]).pages.put(words[1], words[1] + words[2], right)

    def finish_unmap(self, call, _step, _words):
        start, size = call.words[1:3]
        self.space(call.thread[0]).pages.put(start, start + size, None)

    def finish_flags(self, call, _step, _words):
        start, size, flags = call.words[1:4]
        self.space(call.thread[0]).pages.put(start, start + size, names.flags_text(flags))

    def finish_more_heap(self, call, _step, words):
        space = self.space(call.thread[0])
        space.heap = words[1] + words[2] - HEAP
        space.pages.put(words[1], words[1] + words[2], "RW")

    def finish_less_heap(self, call, _step, _words):
        space = self.space(call.thread[0])
        end = HEAP + space.heap
        if call.words[1] <= space.heap:
            space.heap -= call.words[1]
            space.pages.put(HEAP + space.heap, end, None)
