"""The numbers of calls, replies, errors and kinds of messages, and the words of each call. tools/make-lists makes this file of the
definitions of `syscall_codec` and `xk_base`: change these, and make it anew."""

# Calls by number: the name, and the fields behind the number with how many words each has.
CALLS: dict[int, tuple[str, tuple[tuple[str, int], ...]]] = {
    2: ("MapMemory", (("phys", 1), ("virt", 1), ("size", 1), ("flags", 1))),
    3: ("Yield", ()),
    5: ("ClaimInterrupt", (("number", 1), ("handler", 1), ("arg", 1))),
    6: ("FreeInterrupt", (("number", 1),)),
    10: ("IncreaseHeap", (("bytes", 1),)),
    11: ("DecreaseHeap", (("bytes", 1),)),
    12: ("UpdateMemoryFlags", (("address", 1), ("size", 1), ("flags", 1))),
    14: ("CreateServerWithAddress", (("sid", 4),)),
    15: ("ReceiveMessage", (("sid", 4),)),
    16: ("SendMessage", (("cid", 1), ("kind", 1), ("id", 1), ("words", 4))),
    17: ("Connect", (("sid", 4),)),
    18: ("CreateThread", (("entry", 1), ("sp", 1), ("args", 4))),
    19: ("UnmapMemory", (("address", 1), ("size", 1))),
    20: ("ReturnMemory", (("token", 1), ("address", 1), ("size", 1), ("offset", 1), ("valid", 1))),
    22: ("TerminateProcess", (("exit", 1),)),
    24: ("TrySendMessage", (("cid", 1), ("kind", 1), ("id", 1), ("words", 4))),
    25: ("TryConnect", (("sid", 4),)),
    26: ("ReturnScalar1", (("token", 1), ("value", 1))),
    27: ("ReturnScalar2", (("token", 1), ("value1", 1), ("value2", 1))),
    28: ("TryReceiveMessage", (("sid", 4),)),
    36: ("JoinThread", (("tid", 1),)),
    41: ("DestroyServer", (("sid", 4),)),
    42: ("GetThreadId", ()),
    43: ("GetProcessId", ()),
    44: ("ForwardMessage", (("token", 1), ("cid", 1))),
}

# The first words of replies.
REPLIES: dict[str, int] = {
    "ok": 0,
    "error": 1,
    "memory_range": 3,
    "connection_id": 7,
    "message": 9,
    "thread_id": 10,
    "scalar1": 14,
    "scalar2": 15,
    "memory_returned": 18,
    "new_server": 19,
}

# Errors by number.
ERRORS: dict[int, str] = {
    1: "BadAlignment",
    2: "BadAddress",
    3: "OutOfMemory",
    4: "MemoryInUse",
    5: "InterruptNotFound",
    6: "InterruptInUse",
    8: "ServerExists",
    9: "ServerNotFound",
    15: "ServerQueueFull",
    16: "ThreadNotAvailable",
    17: "UnhandledSyscall",
    18: "InvalidSyscall",
    19: "ShareViolation",
    20: "InvalidThread",
    23: "AccessDenied",
    25: "DoubleFree",
    27: "InvalidLimit",
}

# Kinds of messages.
KINDS: dict[str, int] = {
    "LendMut": 1,
    "Lend": 2,
    "Move": 3,
    "Scalar": 4,
    "BlockingScalar": 5,
}
