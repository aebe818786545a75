"""The kit of the examples: programs of a new user, made by its Makefile, and played where the program is given."""

import pathlib
import subprocess

from .frame import COMPILER, GIVEN, TOOLS, Case, need

HEAD = '#include "xous_short.h"\n#include "memory.h"\n'
CONSOLE = "volatile char *console; need(open_console(&console));"

# The body of main, what it writes to the console, and the beginning of a line of its transcript.
PLAYED = {
    "division": (
        f"{CONSOLE} volatile unsigned long long a = 10000000000ull, b = 3000; print(console, decimal(a / b).text);",
        "3333333",
        None,
    ),
    "bytes": (
        f"""{CONSOLE} char text[8]; memset(text, 'a', 7); text[7] = 0; memcpy(text, "bc", 2); memmove(text + 1, text, 3);
        print(console, text); print(console, decimal(strlen(text)).text);
        print(console, memcmp("ab", "ac", 2) < 0 ? "<" : ">"); print(console, hexadecimal(0xBEEF01).text);""",
        "bbcaaaa7<00beef01",
        None,
    ),
    "numbers": (
        f"{CONSOLE} print(console, decimal(0).text); print(console, decimal(4294967295u).text);",
        "04294967295",
        None,
    ),
    "below": ("*(volatile word *)(FIRST_STACK - 4) = 1;", "", "2.2 fault 15 7fff7ffc"),
    "above": ("(void)*(volatile word *)(FIRST_STACK + FIRST_STACK_SIZE);", "", "2.2 fault 13 80000000"),
    "lowest": ("*(volatile word *)FIRST_STACK = 1; *(volatile word *)HANDLER_STACK = 1;", "", None),
    "handler": ("*(volatile word *)(HANDLER_STACK - 4) = 1;", "", "2.2 fault 15 7efffffc"),
    "refused": (f"{CONSOLE} volatile char *second; return open_console(&second);", "", "2.2 call 00000016 00000004"),
    "checked": ("volatile word one = 1; check(one == 1); check(one == 2);", "", "2.2 call 00000016 00000079"),
    "needed": (f"{CONSOLE} volatile char *second; need(open_console(&second));", "", "2.2 call 00000016 00000004"),
}
EARLY = "static volatile int early; __attribute__((KIND)) static void set(void) { early = 7; }"
# What stands before main, the body of main, and a part of what is said of it.
REFUSED = {
    "unlooked": ("", "volatile char *console; open_console(&console);", "ignoring return value of 'xous_open_console'"),
    "early": (EARLY.replace("KIND", "constructor"), "return early;", "-DCONSTRUCTORS"),
    "late": (EARLY.replace("KIND", "destructor"), "return early;", "runs destructors"),
}


def run(*words, folder=None):
    ran = subprocess.run([str(word) for word in words], cwd=folder, capture_output=True, text=True, check=False)
    return ran.returncode, ran.stdout + ran.stderr


def new(folder, name, body=None, before=""):
    """A folder of a new user, with this body of main and what stands before it."""
    made = pathlib.Path(folder, name)
    status, said = run(TOOLS / "xous-new", made)
    if body is not None:
        (made / f"{name}.c").write_text(f"{HEAD}{before}\nint main(void) {{ {body} return 0; }}\n")
    return made, status, said


def make(folder, *words):
    # A locale without accents, so that the compiler quotes by '.
    return run("env", "LC_ALL=C", "make", *words, folder=folder)


def checks_of_new(folder, program):
    """The folder that xous-new makes."""
    made, status, said = new(folder, "mine")
    yield status == 0, f"xous-new: {said}"
    status, said = make(made)
    yield status == 0 and "mine.img: 1 process" in said, f"make in a new folder: {said}"
    yield make(made) == (0, "make: 'mine.img' is up to date.\n"), "make a second time"
    yield "text.h" in (made / "out" / "mine.d").read_text(), "the headers that a program depends on"
    if program:
        wanted = (0, "hello from mine, six times seven is 42\n")
        yield run(program, "run", "mine.img", "events", folder=made) == wanted, "the console of a new program"
    image = (made / "mine.img").read_bytes()
    flags = next(line for line in make(made, "-Bn")[1].splitlines() if " -c " in line).split()
    plain = " ".join(flag for flag in flags[1 : flags.index("-MMD")] if flag != "-g")
    make(made, "-B", f"CFLAGS={plain}")
    yield "-g" in flags and (made / "mine.img").read_bytes() == image, "an image without the lines of the source"
    yield "has files already" in new(folder, "mine")[2], "a folder that has files"
    yield "the folder's name" in new(folder, "Mine")[2], "a folder whose name is none of a program"


def checks_of_programs(folder, program):
    for name, (body, console, line) in PLAYED.items():
        made, _, _ = new(folder, name, body)
        status, said = make(made)
        yield status == 0, f"make of {name}: {said}"
        if program and status == 0:
            _, written = run(program, "run", f"{name}.img", "events", folder=made)
            _, told = run(program, "trace", f"{name}.img", "events", folder=made)
            yield written == console, f"the console of {name}: {written}"
            yield line is None or f" {line}" in told, f"the transcript of {name}: {told}"
    for name, (before, body, text) in REFUSED.items():
        made, _, _ = new(folder, name, body, before)
        status, said = make(made)
        yield status != 0 and text in said, f"what is said of {name}: {said}"


def checks_of_constructors(folder, program):
    made, _, _ = new(folder, "early-set", "return early;", EARLY.replace("KIND", "constructor"))
    with open(made / "Makefile", "a", encoding="ascii") as file:
        file.write("\nout/early-set.elf: CFLAGS += -DCONSTRUCTORS\n")
    status, said = make(made)
    yield status == 0, f"make of a constructor: {said}"
    if program:
        _, told = run(program, "trace", "early-set.img", "events", folder=made)
        yield " 2.2 call 00000016 00000007" in told, f"a constructor runs before main: {told}"


def checks_of_extensions(folder):
    """Code of an extension that the machine hasn't, by its flags."""
    made, _, _ = new(folder, "soft")
    for march, text in (("rv32imaf", "has code for F"), ("rv32imac", "compressed"), ("rv32ima_zba", "has code for zba")):
        _, flags = make(made, "-n", "-B")
        plain = flags.splitlines()[1].split()
        words = " ".join(f"-march={march}" if word.startswith("-march") else word for word in plain[1 : plain.index("-MMD")])
        status, said = make(made, "-B", f"CFLAGS={words}")
        yield status != 0 and text in said, f"what is said of {march}: {said}"


class Kit(Case):
    def setUp(self):
        super().setUp()
        need("make", COMPILER, "elftools")

    def test_new(self):
        self.hold(checks_of_new(self.folder, GIVEN.program))

    def test_programs(self):
        self.hold(checks_of_programs(self.folder, GIVEN.program))

    def test_constructors(self):
        self.hold(checks_of_constructors(self.folder, GIVEN.program))

    def test_extensions(self):
        self.hold(checks_of_extensions(self.folder))

    def test_checkout_that_moved(self):
        """What a Makefile says where its checkout isn't there, and that XOUSIM names the program alone."""
        made, _, _ = new(self.folder, "mine")
        status, said = make(made, "XOUS_CHECKOUT=/nowhere")
        self.assertIn("/nowhere has no examples/kit/kit.mk; set XOUS_CHECKOUT in this Makefile", said)
        self.assertNotEqual(status, 0)
        told = run("env", "XOUSIM=/a/program", "make", "-n", "run", folder=made)[1]
        self.assertIn("/a/program trace mine.img events", told)
        self.assertIn(f"{TOOLS}/xous-image", told.replace("examples/kit/../../", ""))
