#!/usr/bin/python3
"""Plays a program of cargo on the modelled machine, as the runner of `cargo run` and `cargo test` (docs/std.md).

    runner.py PROGRAM [WORD ...]

The image has the servers that the package names and then the program. What these write to the console is written as
it comes, and the exit word of the program is the status: 101 of a panic. Image and events stay in target/xous.
XOUSIM names the program that plays; with XOUS_ORDERS=N each test is played under N orders of short turns. With XOUS_SEARCH=1 the
orders of the threads are searched by xousorders, whose words the WORDs are (`cargo orders`); none may fail.
"""

import json
import os
import pathlib
import random
import re
import shlex
import subprocess
import sys
import threading
import tomllib
from dataclasses import dataclass, field

KIT = pathlib.Path(__file__).resolve().parent
ROOT = KIT.parents[2]
sys.dont_write_bytecode = True
sys.path.insert(0, str(ROOT / "tools"))

from xous.command import start_own  # noqa: E402: behind the path
from xous.errors import Refusal  # noqa: E402
from xous.runs.program import find_program  # noqa: E402

OUT = pathlib.Path(os.environ.get("XOUS_RUST_OUT") or ROOT / "examples" / "out" / "rust")  # set by the kit's cargo
KIT_SERVERS = ("log", "ticktimer", "systime", "names")
TEST_SERVER = "ticktimer"  # libtest asks it for the time
FIRST_PID = 2
TERMINATE = "00000016"
PANICKED = 101  # the exit word of a program whose first thread panicked
FAILED = 1
SHORTEST, LONGEST = 7, 2000  # turns of an order; in shorter ones locks may never be taken (docs/std.md)
AFTER_END, SECONDS_AFTER_END = 2_000_000, 10  # steps and time that the others have after the program's end
MOST_STEPS = 4_000_000_000
STATUSES = "statuses: the program's exit word; 1 if the program ends otherwise, with a sentence; 2 if the words make no sense"
CAUSES = {2: "a word that is no instruction", 12: "a fetch", 13: "a load", 15: "a store"}


# What a package says of its image.


@dataclass
class Settings:
    """[package.metadata.xous], or [workspace.metadata.xous] for all packages that haven't one."""

    servers: list = field(default_factory=lambda: ["log", "ticktimer"])
    ram: str = "16M"
    stack: str | None = None  # of the first thread
    env: dict = field(default_factory=dict)
    steps: int = 1_000_000_000
    turn: int = 10_000  # steps of each turn
    events: str | None = None  # a file of events, in place of turns


def workspace_of(package):
    """The folder with Cargo.lock, which cargo has made by now."""
    folders = [package, *package.parents]
    return next((folder for folder in folders if (folder / "Cargo.lock").exists()), package)


def read_manifest(folder):
    try:
        return tomllib.loads((folder / "Cargo.toml").read_text())
    except OSError:
        return {}
    except ValueError as error:
        raise Refusal(f"{folder}/Cargo.toml: {error}") from None


def metadata(package, workspace):
    for folder, table in ((package, "package"), (workspace, "workspace")):
        found = read_manifest(folder).get(table, {}).get("metadata", {}).get("xous")
        if found is not None:
            return folder, found
    return package, {}


def settings_of(package, workspace):
    """The settings, and the folder of the manifest that has them."""
    folder, found = metadata(package, workspace)
    if not isinstance(found, dict):
        raise Refusal(f"{folder}/Cargo.toml: metadata.xous is no table; write [package.metadata.xous]")
    known = {name: type(value) for name, value in vars(Settings()).items()}
    for name, value in found.items():
        if name not in known:
            raise Refusal(f"{folder}/Cargo.toml: metadata.xous has {name}; known are {', '.join(known)}")
        wanted = str if known[name] is type(None) else known[name]
        if not isinstance(value, wanted):
            raise Refusal(f"{folder}/Cargo.toml: metadata.xous.{name} is no {wanted.__name__}")
    settings = Settings(**found)
    if not 1 <= settings.steps <= MOST_STEPS or not 1 <= settings.turn <= MOST_STEPS:
        raise Refusal(f"{folder}/Cargo.toml: metadata.xous: steps and turn are 1 to {MOST_STEPS}")
    return folder, settings


def built_in_workspace(workspace, names):
    """The programs of these binaries of the workspace, by name, built if they are old."""
    words = [word for name in names for word in ("--bin", name)]
    command = [KIT / "cargo", "build", "--quiet", "--workspace", "--message-format=json-render-diagnostics", *words]
    built = subprocess.run(command, cwd=workspace, stdout=subprocess.PIPE, text=True, check=False)
    if built.returncode:
        known = ", ".join(KIT_SERVERS)
        raise Refusal(f"servers has {', '.join(names)}: each is one of {known}, a binary of the workspace or a path")
    messages = map(json.loads, built.stdout.splitlines())
    return {each["target"]["name"]: each["executable"] for each in messages if each.get("executable")}


def paths_of_servers(folder, workspace, names):
    """The programs of the servers: of the kit, binaries of the workspace, or paths from the manifest on."""
    own = [name for name in names if name not in KIT_SERVERS and "/" not in name]
    built = built_in_workspace(workspace, own) if own else {}
    paths = []
    for name in names:
        path = OUT / name if name in KIT_SERVERS else pathlib.Path(built.get(name) or folder / name)
        if not path.exists():
            how = "run the kit's cargo, which builds it" if name in KIT_SERVERS else "build it first"
            raise Refusal(f"server {name}: {path} isn't there; {how}")
        paths.append(path)
    return paths


# Images and events.


def make_image(image, servers, program, settings, words):
    """Writes the image of the servers and then the program, which has these words."""
    command = [ROOT / "tools" / "xous-image", image, "--ram", settings.ram, *servers, program]
    command += ["--stack", settings.stack] if settings.stack else []
    command += [f"--env={name}={value}" for name, value in settings.env.items()]
    command += [f"--arg={word}" for word in words]
    made = subprocess.run(command, stdout=subprocess.DEVNULL, stderr=subprocess.PIPE, text=True, check=False)
    if made.returncode:
        said = made.stderr.strip()
        how = '; set ram = "64M" in [package.metadata.xous]' if "RAM" in said and "no RAM of" not in said else ""
        raise Refusal(said + how)


def write_turns(path, turns, steps):
    """Writes turns of these lengths, over and over, that are at least so many steps."""
    block = "".join(f"tick {turn}\n" for turn in turns)
    with path.open("w", encoding="ascii") as file:
        for _ in range(-(-steps // sum(turns))):
            file.write(block)


def turns_of_order(number):
    """The turns of an order: their lengths are spread over all magnitudes, and the same each time."""
    source = random.Random(number)
    spread = (LONGEST / SHORTEST) ** 0.001
    return [round(SHORTEST * spread ** source.uniform(0, 1000)) for _ in range(1000)]


# A run.


@dataclass
class End:
    """How a run ended: the program's exit word, or its fault, or neither."""

    word: int | None = None
    fault: str | None = None
    step: int = 0
    is_told: bool = False  # whether the transcript has a death of the program or its own end
    said: str = ""  # by the program that plays


class Play:
    """A run, as the pieces of its console. After the last one, `end` says how the program ended."""

    def __init__(self, xousim, image, events, steps, pid):
        self.pid, self.end = str(pid), End()
        command = [xousim, "trace", image, events, str(steps)]
        try:
            self.run = subprocess.Popen(command, stdout=subprocess.PIPE, stderr=subprocess.PIPE)
        except OSError as error:
            raise Refusal(f"{xousim}: {error.strerror}; XOUSIM names the program that plays") from None

    def __iter__(self):
        timer = threading.Timer(SECONDS_AFTER_END, self.run.kill)
        try:
            yield from self.pieces(timer)
        finally:
            timer.cancel()
            self.run.kill()
            self.run.stdout.close()
            self.end.said = self.run.stderr.read().decode(errors="replace").strip()
            self.run.wait()

    def pieces(self, timer):
        found, line, gone = self.end, bytearray(), None
        for record in self.run.stdout:
            if record[-9:-4] == b" byte":
                line.append(int(record[-3:], 16))
                if line[-1] != 10:
                    continue
            if line:
                yield bytes(line)
                line.clear()
            words = record.split(b" ", 4)
            step = int(words[0]) if words[0].isdigit() else found.step
            if gone is not None and step > gone + AFTER_END:
                break
            if self.note(found, step, [word.decode() for word in words]):
                gone = step
                timer.start()

    def note(self, found, step, words):
        """Whether the record is the program's death; what it says of the end is noted."""
        match words:
            case [_, who, "call", TERMINATE_, rest] if TERMINATE_ == TERMINATE and who.startswith(f"{self.pid}."):
                found.word = int(rest[:8], 16)
            case [_, who, "fault", cause, value] if who.startswith(f"{self.pid}."):
                found.fault = f"thread {who} faults by {CAUSES.get(int(cause), f'cause {cause}')} at {value.strip()}"
            case [_, pid, "gone\n"] if pid == self.pid:
                found.step, found.is_told = step, True
                return True
            case ["end", last, *_]:
                found.step, found.is_told = found.step or int(last), True
        return False


def lines(pieces):
    """The lines of a console, as text. A line may come in pieces."""
    text = ""
    for piece in pieces:
        text += piece.decode(errors="replace")
        *whole, text = text.split("\n")
        yield from whole
    if text:
        yield text


def status_of(end, name, files, steps, where):
    """The status of a run, and a sentence if it isn't the program's own."""
    if end.fault:
        return FAILED, f"{name}: {end.fault}, in step {end.step}. Where: {where} --fault"
    if end.word is not None:
        return end.word & 0xFF or (FAILED if end.word else 0), None
    if end.said and not end.said.startswith("step limit"):
        return FAILED, f"{name}: {end.said}: xousim refuses {files}"
    if not end.is_told:
        return FAILED, f"{name}: the transcript has no end; XOUSIM has to name xousim"
    if end.said or end.step >= steps:
        return FAILED, f"{name}: met the limit of {steps} steps (steps in [package.metadata.xous]). Where: {where}"
    return FAILED, f"{name}: waits for good; no thread is ready after step {end.step}. For what: {where}"


# The commands.


def is_test(program):
    """Whether it is a program of libtest: cargo puts these into a folder of their own, with a number in their names."""
    return re.search(r"/deps/[^/]+-[0-9a-f]{16}$|/out/[^/]+-[0-9a-f]{16}$", str(program)) is not None


class Machine:
    """What is the same in all runs of a program."""

    def __init__(self, program):
        package = pathlib.Path(os.environ.get("CARGO_MANIFEST_DIR") or ".").resolve()
        workspace = workspace_of(package)
        self.program, self.name = pathlib.Path(program).absolute(), pathlib.Path(program).name
        if not self.program.is_file():
            raise Refusal(f"{program}: no such program; build it by {KIT / 'cargo'} build")
        self.manifest, self.settings = settings_of(package, workspace)
        names = self.settings.servers
        if is_test(program) and TEST_SERVER not in names:
            names = [*names, TEST_SERVER]
        self.servers = paths_of_servers(self.manifest, workspace, names)
        self.pid = FIRST_PID + len(self.servers)
        self.folder = pathlib.Path(os.environ.get("CARGO_TARGET_DIR") or workspace / "target", "xous")
        self.folder.mkdir(parents=True, exist_ok=True)
        self.xousim = find_program()

    def files(self, test=None, order=None):
        """Image and events; a test under an order has its own, which stay if it fails."""
        if order is None:
            return self.folder / f"{self.name}.img", self.folder / f"{self.name}.events"
        stem = f"{self.name}.{re.sub(r'[^0-9A-Za-z_]+', '.', test).strip('.')}"
        return self.folder / f"{stem}.img", self.folder / f"{stem}.{order}.events"

    def make(self, image, words):
        make_image(image, self.servers, self.program, self.settings, words)

    def play(self, words, test=None, order=None):
        """A run with these words, and its files."""
        image, events = self.files(test, order)
        self.make(image, words)
        if order:
            write_turns(events, turns_of_order(order), self.settings.steps)
        elif self.settings.events:
            events = self.manifest / self.settings.events
            if not events.exists():
                raise Refusal(f"{events}: no such file of events; see metadata.xous.events")
        else:
            write_turns(events, [self.settings.turn], self.settings.steps)
        return Play(self.xousim, image, events, self.settings.steps, self.pid), (image, events)

    def elf(self):
        """The words by which a tool knows the program."""
        return f"--elf {self.pid}={self.program}"

    def judge(self, end, files):
        image, events = files
        known = [str(image), str(events), str(self.settings.steps), "--elf", f"{self.pid}={self.program}"]
        where = shlex.join([f"{ROOT}/tools/xous-where", *known])
        return status_of(end, self.name, f"{image} or {events}", self.settings.steps, where)

    def test(self, *words, **how):
        """The status of the kit's script for tests, by these words."""
        known = {"ELFS": self.elf(), "STEPS": str(self.settings.steps), "XOUSIM": str(self.xousim)}
        sys.stdout.flush()
        return subprocess.run([KIT.parent / "test", *words], env={**os.environ, **known}, check=False, **how).returncode

    def name_commands(self, files):
        """Names the event file of a run that failed, and the commands that look into that run."""
        self.test("commands", *files, stdout=sys.stderr)


def search(machine, words):
    """Searches the orders of the program's threads. What is said names files as the author does, who is in their package."""
    image, _ = machine.files()
    machine.make(image, [])
    return machine.test("orders", os.path.relpath(image), os.path.relpath(machine.folder / "orders"), *words)


def show(pieces):
    for piece in pieces:
        sys.stdout.buffer.write(piece)
        sys.stdout.buffer.flush()


def run(machine, words):
    play, files = machine.play(words)
    show(play)
    status, sentence = machine.judge(play.end, files)
    if sentence:
        print(sentence, file=sys.stderr)
    if status and is_test(machine.program):
        machine.name_commands(files)
    return status


def tests_of(machine, words):
    play, files = machine.play([*words, "--list"])
    listed = b"".join(play).decode(errors="replace")
    status, sentence = machine.judge(play.end, files)
    if status:
        raise Refusal(sentence or f"{machine.name}: lists no tests:\n{listed}")
    return [line.removesuffix(": test") for line in listed.splitlines() if line.endswith(": test")]


@dataclass
class Failure:
    """A test that failed in an order: what it wrote, a sentence on its end, and its files."""

    order: int
    console: bytes
    sentence: str | None
    files: tuple


def run_test(machine, test, words, orders):
    """The first order in which a test fails; nothing if none does."""
    flags = [word for word in words if word.startswith("-") and word != "--exact"]
    for order in range(1, orders + 1):
        play, files = machine.play(["--exact", test, *flags], test, order)
        console = b"".join(play)
        status, sentence = machine.judge(play.end, files)
        if status:
            return Failure(order, console, sentence, files)
        for file in files:
            file.unlink()
    return None


def run_orders(machine, words, orders):
    """Plays each test under so many orders; 101 if one fails in one."""
    failed = 0
    for test in tests_of(machine, words):
        print(f"test {test} under {orders} orders ... ", end="", flush=True)
        found = run_test(machine, test, words, orders)
        print(f"FAILED in order {found.order}" if found else "ok", flush=True)
        if found:
            failed += 1
            show([found.console])
            if found.sentence:
                print(found.sentence, file=sys.stderr)
            machine.name_commands(found.files)
    return PANICKED if failed else 0


def main(words):
    if not words:
        raise Refusal(f"no program to play; see {KIT / 'runner.py'} --help", 2)
    orders = os.environ.get("XOUS_ORDERS") or "0"
    if not (orders.isascii() and orders.isdigit()):
        raise Refusal(f"XOUS_ORDERS={orders} is no number")
    machine = Machine(words[0])
    if os.environ.get("XOUS_SEARCH"):
        return search(machine, words[1:])
    if int(orders) and is_test(words[0]) and "--list" not in words:
        return run_orders(machine, words[1:], int(orders))
    return run(machine, words[1:])


if __name__ == "__main__":
    start_own("xous runner", __doc__, main, f"{KIT / 'cargo'} run", STATUSES)
