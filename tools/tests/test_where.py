"""xous-where over programs of a new user: threads that wait, and faults with the line of the source."""

from . import test_kit as kit
from .frame import COMPILER, Case, need, need_program

TOOL = kit.TOOLS / "xous-where"
SERVER = """#include "xous_short.h"

word count = 7;
word rows[3] = {1, 2, 3};

static __attribute__((noinline)) void keep(struct message *message)
{
    struct identifier other = {{'o'}};
    struct message second;
    count += message->id;
    need(take_message(other, &second)); // line 11
}

int main(void)
{
    struct identifier name = {{'k'}}, other = {{'o'}};
    struct message message;
    word connection;
    need(make_server(other, &connection));
    need(make_server(name, &connection));
    need(take_message(name, &message));
    keep(&message);
    return 0;
}
"""
CLIENT = """#include "xous_short.h"

int main(void)
{
    struct identifier name = {{'k'}};
    word connection, *pages, valid = 0;
    need(find_server(name, &connection));
    need(get_pages(PAGE_SIZE, &pages));
    pages[5] = 0xABCD;
    need(lend_to_fill(connection, 5, pages, PAGE_SIZE, &valid)); // line 10
    return 0;
}
"""
DEEP = """#include "xous_short.h"

static __attribute__((noinline)) word deep(word count)
{
    volatile word room[256];
    room[0] = count; // line 6
    return count ? deep(count - 1) + room[0] : 0;
}

int main(void)
{
    return deep(100);
}
"""
# A body of main, and what is told of the address of its fault.
FAULTS = {
    "null": (f"{kit.CONSOLE} if (open_console(&console)) {{}} *console = 'a';", "near 0, as a null pointer"),
    "physical": ("*(volatile word *)CONSOLE = 1;", "the console's physical address"),
    "clock": ("(void)*(volatile word *)TIMER;", "the timer's page, which only the process with the claim"),
    "heap": ("*(volatile word *)0x20000000 = 1;", "the heap has 0 bytes, to 20000000"),
    "far": ("*(volatile word *)0x90000000 = 1;", "outside all windows"),
    "code": ("*(volatile word *)0x10000 = 1;", "a page of the Image window, own, right rx"),
}


def where(program, folder, *words):
    environment = ["env", f"XOUSIM={program}"]
    return kit.run(*environment, TOOL, *words, folder=folder)


def checks_of_waits(program, folder):
    made, _, _ = kit.new(folder, "server")
    (made / "server.c").write_text(SERVER)
    (made / "client.c").write_text(CLIENT)
    makefile = made / "Makefile"
    makefile.write_text(makefile.read_text().replace("PROGRAMS = server", "PROGRAMS = server client"))
    status, said = kit.make(made)
    yield status == 0, f"make of two programs: {said}"
    elves = ("--elf", "out/server.elf", "--elf", "3=out/client.elf")
    status, said = where(program, made, "server.img", "events", *elves)
    yield status == 0 and " done\n2.2 in keep at server.c:11 (pc " in said, f"where a thread is: {said}"
    held = "3.2 in main at client.c:10 (pc "
    yield held in said and "waits for message 1, held at server k of 2 (threads 2.2)" in said, f"what it waits for: {said}"
    watch = ("--watch", "2:count", "--watch", "2:rows", "--watch", "3:0x60000014", "--watch", "2:0x40000000/page")
    status, said = where(program, made, "server.img", "events", *elves, "--at", "0", *watch)
    yield status == 0 and "2:count 00000007" in said, f"what is watched at the start: {said}"
    status, said = where(program, made, "server.img", "events", *elves, *watch)
    wanted = ["2:count 0000000c", "2:rows 00000001 00000002 00000003", "3:0x60000014: 60000000 of process 3: lent mutably to 2"]
    yield status == 0 and all(text in said for text in wanted), f"what is watched: {said}"
    yield "  40000000 00000000 00000000 00000000 00000000 00000000 0000abcd" in said, f"a page that is watched: {said}"
    for words, text in (
        (["--elf", "2=out/client.elf"], "the code of process 2 in the image is another one"),
        (["--elf", "9=out/client.elf"], "the image has no process 9"),
        (["--elf", "out/none.elf"], "no process of the image is named none"),
        (["--watch", "2:count"], "say --elf 2=PROGRAM.elf for it"),
        (["--watch", "count"], "say PID:SYMBOL"),
        (["--at", "100000000"], "the run has"),
        (["--fault"], "the transcript has 0 faults"),
        (["--fault", "1", "--at", "3"], "give one of them"),
    ):
        status, said = where(program, made, "server.img", "events", *words)
        yield status in (1, 2) and text in said, f"xous-where with {words}: {said}"


def checks_of_faults(program, folder):
    made, _, _ = kit.new(folder, "deep")
    (made / "deep.c").write_text(DEEP)
    kit.make(made)
    status, said = where(program, made, "deep.img", "events", "--fault", "--elf", "out/deep.elf")
    told = "2.2 in deep at deep.c:" in said and "the guard below the first thread's stack of 32 KiB" in said
    yield status == 0 and told, f"a stack that is used up: {said}"
    for name, (body, text) in FAULTS.items():
        made, _, _ = kit.new(folder, name, body)
        kit.make(made)
        status, said = where(program, made, f"{name}.img", "events", "--fault", "--elf", f"out/{name}.elf")
        yield status == 0 and f"2.2 in main at {name}.c:" in said and text in said, f"the fault of {name}: {said}"


class Where(Case):
    def setUp(self):
        super().setUp()
        self.program = need_program()
        need("make", COMPILER, "elftools", "riscv64-unknown-elf-addr2line")

    def test_waits(self):
        self.hold(checks_of_waits(self.program, self.folder))

    def test_faults(self):
        self.hold(checks_of_faults(self.program, self.folder))
