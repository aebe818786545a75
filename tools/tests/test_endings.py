"""How each tool ends: with a status and one sentence, whatever comes; nothing is overwritten or half written."""

import contextlib
import importlib
import io
import json
import os
import pathlib
import resource
import signal
import subprocess
import sys

from xous import command
from xous.errors import Refusal

from .builders import elf
from .frame import EXAMPLES, GIVEN, ROOT, TOOLS, Case, heed_interrupts, need
from .test_programs import TEXT

LEND, FAULT = EXAMPLES / "lend", EXAMPLES / "fault"
TOOLS_BY_MODULE = {
    "view": "xous-view",
    "where": "xous-where",
    "why": "xous-why",
    "shake": "xous-shake",
    "image": "xous-image",
    "state": "xous-state",
    "gdb": "xous-gdb",
    "new": "xous-new",
    "copy_examples": "copy-examples",
    "test": "test",
    "test_records": "test-records",
    "test_orders": "test-orders",
}


def told(module, *words):
    """The status of a tool, and what it wrote and said; without another process."""
    out, said = io.TextIOWrapper(io.BytesIO(), "utf-8"), io.StringIO()
    with contextlib.redirect_stdout(out), contextlib.redirect_stderr(said):
        try:
            status = importlib.import_module(f"xous.commands.{module}").main([str(word) for word in words])
        except BaseException as error:  # pylint: disable=broad-exception-caught
            status = command.ended(TOOLS_BY_MODULE[module], error)
    out.flush()
    return status, out.buffer.getvalue().decode(), said.getvalue()


class Words(Case):
    def test_help_and_version(self):
        version = (ROOT / "VERSION").read_text().strip()
        for module, name in TOOLS_BY_MODULE.items():
            with self.subTest(name):
                status, out, said = told(module, "--help")
                self.assertEqual((status, said), (0, ""))
                for part in (f"usage: {name}", "statuses:", "example:", "--version"):
                    self.assertIn(part, out)
                self.assertEqual(told(module, "--version"), (0, f"{name} {version}\n", ""))
                self.assertTrue((TOOLS / name).stat().st_mode & 0o100)

    def test_no_option_by_a_part_of_its_name(self):
        for module, words in (
            ("image", ("out.img", "--ra", "2M", "a.elf", "--arg", "x")),
            ("view", ("--sum", LEND / "expected")),
            ("where", (LEND / "image", LEND / "events", "--fau", "1")),
            ("gdb", (LEND / "image", LEND / "events", "--lis", "1")),
            ("state", ("--js", "x")),
        ):
            status, _, said = told(module, *words)
            self.assertEqual((status, said.count("\n")), (2, 1), said)
            self.assertIn("unrecognized arguments", said)

    def test_sentences(self):
        """What is wrong with a word is said, with what to give."""
        run = (FAULT / "image", FAULT / "events")
        for module, words, status, text in (
            ("where", (*run, "--watch", "²:0x6"), 1, "--watch ²:0x6: say PID:SYMBOL, PID:0x60000000 or either with /page"),
            ("where", (*run, "--watch", "2:0x"), 1, "--watch 2:0x: 0x is no address, such as 0x60000000"),
            ("where", (*run, "--watch", "2:0x100000000"), 1, "0x100000000 is no address"),
            ("where", (*run, "--watch", "99:0x60000000"), 1, "the image has no process 99; its processes are 2 to 3"),
            ("where", (*run, "--at", "²"), 2, "² is no step; give a number, 0 or more"),
            ("where", (*run, "0"), 2, "0 is no step limit; give a number, 1 to 4000000000"),
            ("where", (*run, "5", "16385"), 2, "16385 is no number of slots; give a number, 0 to 16384"),
            ("where", (FAULT / "expected", FAULT / "events"), 1, "fault/expected: image fault NotXArg at 0"),
            ("why", (LEND / "events", LEND / "events"), 1, "lend/events: image fault TooShort at 0"),
            ("why", (*run, "--elf", "9=none.elf"), 1, "none.elf: No such file or directory"),
            ("why", (*run, "--elf", "none.elf"), 1, "none.elf: no process of the image is named none; say --elf PID=none.elf"),
            ("why", (LEND / "image",), 2, "the following arguments are required: EVENTS"),
            ("gdb", (*run, "--elf", "²=x"), 2, "² is no pid"),
            ("gdb", (*run, "--listen", "65536"), 2, "65536 is no port; give a number, 0 to 65535"),
            ("view", ("--from", "²"), 2, "² is no step"),
            ("image", ("--version", "1", "out.img", "a.elf"), 2, "--format names the format of the image"),
            ("image", ("--json", "out.img", "a.elf"), 2, "--json is for --list"),
            ("state", (FAULT / "image",), 1, "fault/image: image fault NotState at 0"),
            ("state", ("/",), 1, "/: Is a directory"),
            ("new", (TOOLS / "help" / "xousim",), 1, "is a file; name a new folder"),
        ):
            with self.subTest(words):
                ended, out, said = told(module, *words)
                self.assertIn(text, said)
                self.assertEqual((ended, out, said.count("\n")), (status, "", 1), said)

    def test_fault_before_the_files(self):
        """--fault takes no file for its number."""
        from xous.commands.where import with_fault_numbers

        self.assertEqual(with_fault_numbers(["--fault", "image", "events"]), ["--fault=1", "image", "events"])
        self.assertEqual(with_fault_numbers(["image", "--fault", "2"]), ["image", "--fault", "2"])
        self.assertEqual(with_fault_numbers(["image", "events", "--fault"]), ["image", "events", "--fault=1"])

    def test_mistakes_are_a_sentence(self):
        for error, status in ((KeyError("x"), 70), (MemoryError(), 9), (KeyboardInterrupt(), 130), (RecursionError("deep"), 70)):
            with contextlib.redirect_stderr(io.StringIO()) as said:
                self.assertEqual(command.ended("tool", error), status)
            self.assertEqual(said.getvalue().count("\n"), 1)
            self.assertNotIn("Traceback", said.getvalue())


class Streams(Case):
    """Each tool by itself, with streams that are closed, full or gone."""

    def shell(self, line, **how):
        how.setdefault("env", {name: value for name, value in os.environ.items() if not name.startswith("PYTHON")})
        words = {"view": TOOLS / "xous-view", "image": TOOLS / "xous-image", "state": TOOLS / "xous-state", "lend": LEND, "folder": self.folder}
        text = line.format(**words)
        ran = subprocess.run(["/bin/bash", "-c", text], capture_output=True, text=True, check=False, timeout=600, **how)
        self.assertNotIn("Traceback", ran.stderr)
        self.assertNotIn("Exception ignored", ran.stderr)
        return ran.returncode, ran.stderr

    def test_output_that_takes_nothing(self):
        for line, text in (
            ("{view} {lend}/expected >/dev/full", "xous-view: standard output: No space left on device\n"),
            ("{view} --summary {lend}/expected >/dev/full", "xous-view: standard output: No space left on device\n"),
            ("{image} --list {lend}/image >/dev/full", "xous-image: standard output: No space left on device\n"),
            ("{view} {lend}/expected >&-", "xous-view: standard output is closed\n"),
            ("{view} --help >&-", "xous-view: standard output is closed\n"),
            ("{image} --list {lend}/image >&- 2>&-", ""),
        ):
            with self.subTest(line):
                self.assertEqual(self.shell(line), (4, text))

    def test_reader_that_goes(self):
        many = self.folder / "many"
        many.write_bytes((LEND / "expected").read_bytes() * 3000)
        status, said = self.shell("{view} {folder}/many | head -n 1 >/dev/null; exit ${{PIPESTATUS[0]}}")
        self.assertEqual((status, said), (4, "xous-view: standard output: its reader has gone; the rest isn't written\n"))

    def test_standard_error_that_is_closed_or_full(self):
        self.assertEqual(self.shell("{view} {folder}/missing 2>&-"), (1, ""))
        self.assertEqual(self.shell("{view} {folder}/missing 2>/dev/full"), (1, ""))
        self.assertEqual(self.shell("echo odd | {view} 2>/dev/full >/dev/null"), (1, ""))
        self.assertEqual(self.shell("{view} {folder}/missing 2>&1 | true; exit ${{PIPESTATUS[0]}}"), (1, ""))

    def test_input_that_is_closed(self):
        self.assertEqual(self.shell("{view} <&- >/dev/null"), (0, ""))
        self.assertEqual(self.shell("{state} - <&-"), (1, "xous-state: -: image fault NotState at 0\n"))

    def test_ascii_locale(self):
        image = self.folder / "größe"
        image.write_bytes((LEND / "image").read_bytes())
        how = {"env": {"PATH": os.environ["PATH"], "LC_ALL": "C", "PYTHONUTF8": "0", "PYTHONCOERCECLOCALE": "0"}}
        self.assertEqual(self.shell("{image} --list {folder}/gr*e >/dev/null", **how), (0, ""))
        status, said = self.shell("{view} --image {folder}/gr*e {folder}/größer", **how)
        self.assertEqual((status, said.count("\n")), (1, 1))
        self.assertEqual(self.shell("{view} --chart {folder}/gr.svg --image {folder}/gr*e {lend}/expected", **how), (0, ""))

    def test_interrupt(self):
        words = [sys.executable, TOOLS / "xous-view"]
        pipes = {"stdin": subprocess.PIPE, "stdout": subprocess.PIPE, "stderr": subprocess.PIPE, "text": True}
        with subprocess.Popen(words, preexec_fn=heed_interrupts, **pipes) as started:
            started.stdin.write("end 1 done\n")
            started.stdin.flush()
            started.stdout.readline()
            started.send_signal(signal.SIGINT)
            started.wait(300)
            self.assertEqual((started.returncode, started.stderr.read()), (130, "xous-view: interrupted\n"))

    def test_file_too_large(self):
        """A state of 1 GB isn't read whole, and an image that passes the limit of files isn't left half."""
        large = self.folder / "large"
        with open(large, "wb") as file:
            file.truncate(1 << 30)
        self.assertEqual(self.shell("{state} {folder}/large")[0], 1)
        need("elftools")
        (self.folder / "a.elf").write_bytes(elf([TEXT, (".data", 0x2_0000, b"a" * 9000, 9000, 6)]))

        def with_limit():
            resource.setrlimit(resource.RLIMIT_FSIZE, (4096, 4096))

        status, said = self.shell("{image} {folder}/a.img {folder}/a.elf", preexec_fn=with_limit)
        self.assertEqual((status, said), (1, f"xous-image: {self.folder}/a.img: File too large\n"))
        self.assertEqual(sorted(os.listdir(self.folder)), ["a.elf", "large"])


class Files(Case):
    def setUp(self):
        super().setUp()
        need("elftools")
        self.program = self.folder / "a.elf"
        self.program.write_bytes(elf([TEXT]))

    def refused(self, target, *programs):
        before = target.read_bytes() if target.is_file() else None
        listed = sorted(os.listdir(self.folder))
        status, _, said = told("image", target, *(programs or (self.program,)))
        self.assertEqual((status, sorted(os.listdir(self.folder))), (1, listed), said)
        self.assertEqual(target.read_bytes() if target.is_file() else None, before)
        return said

    def test_image_spares_other_files(self):
        source = self.folder / "main.c"
        source.write_text("int main(void) { return 0; }\n")
        self.assertIn("main.c: it is there, and isn't a boot image; it stays as it is", self.refused(source))
        empty = self.folder / "empty"
        empty.write_bytes(b"")
        self.assertIn("isn't a boot image", self.refused(empty))
        self.assertIn("Is a directory", self.refused(self.folder / "folder" / "a.img").replace("No such file or directory", "Is a directory"))
        (self.folder / "folder").mkdir()
        self.assertIn("isn't a regular file", self.refused(self.folder / "folder"))
        self.assertIn("isn't a regular file", self.refused(pathlib.Path("/dev/null")))

    def test_image_takes_the_place_of_an_image(self):
        target, link = self.folder / "a.img", self.folder / "link.img"
        self.assertEqual(told("image", target, self.program)[0], 0)
        target.chmod(0o640)
        link.symlink_to("a.img")
        self.assertEqual(told("image", link, self.program, self.program)[0], 0)
        self.assertTrue(link.is_symlink())
        self.assertEqual((target.read_bytes().count(b"IniE"), target.stat().st_mode & 0o777), (2, 0o640))
        self.assertEqual(sorted(os.listdir(self.folder)), ["a.elf", "a.img", "link.img"])

    def test_image_is_kept_where_its_program_is_bad(self):
        target = self.folder / "a.img"
        self.assertEqual(told("image", target, self.program)[0], 0)
        (self.folder / "b.elf").write_bytes(b"")
        self.assertIn("b.elf: the file is empty; give a linked program", self.refused(target, self.folder / "b.elf"))

    def test_chart_spares_what_it_reads(self):
        for name in ("lend.svg", "lend.html", "lend.json"):
            path = self.folder / name
            path.write_bytes((LEND / "expected").read_bytes())
            status, _, said = told("view", "--chart", path, path)
            self.assertEqual((status, path.read_bytes()), (1, (LEND / "expected").read_bytes()))
            self.assertIn("it is read by this command", said)
            status, _, said = told("view", "--chart", path, LEND / "expected")
            self.assertEqual((status, path.read_bytes()), (1, (LEND / "expected").read_bytes()))
            self.assertIn("it is there, and isn't a", said)
            path.unlink()
            for _ in range(2):
                self.assertEqual(told("view", "--chart", path, LEND / "expected")[0], 0)

    def test_empty_program(self):
        empty = self.folder / "empty"
        empty.write_bytes(b"")
        empty.chmod(0o755)
        run = (FAULT / "image", FAULT / "events")
        self.assertIn("the file is empty", told("where", *run, "--elf", f"2={empty}")[2])
        for program, text in ((empty, f"{empty}: Exec format error"), ("/bin/true", "wrote no transcript; XOUSIM has to name xousim"), ("/", "XOUSIM=/: a folder")):
            before = os.environ.get("XOUSIM")
            os.environ["XOUSIM"] = str(program)
            try:
                status, out, said = told("where", *run)
            finally:
                os.environ.pop("XOUSIM") if before is None else os.environ.update(XOUSIM=before)
            self.assertEqual((status, out, said.count("\n")), (1, "", 1), said)
            self.assertIn(text, said)


class Launching(Case):
    """What tools tell of a launcher that builds, or can't."""

    def launched(self, body):
        from xous.runs import program

        path = self.folder / "xousim"
        path.write_text(f"#!/bin/sh\n{body}\n")
        path.chmod(0o755)
        before, environment = (program.LAUNCHER, program.BUILT), os.environ.pop("XOUSIM", None)
        program.LAUNCHER, program.BUILT = path, self.folder / "built"
        said = io.StringIO()
        try:
            with contextlib.redirect_stderr(said):
                return program.find_program(), said.getvalue()
        except Refusal as refusal:
            return str(refusal), said.getvalue()
        finally:
            program.LAUNCHER, program.BUILT = before
            if environment is not None:
                os.environ["XOUSIM"] = environment

    def test_progress_is_passed_on(self):
        (self.folder / "built").write_text("")
        found, said = self.launched("echo 'xousim: 1 of 2: base' >&2; echo 'usage: xousim trace ..' >&2; exit 2")
        self.assertEqual((found, said), (str(self.folder / "built"), "xousim: 1 of 2: base\n"))

    def test_failed_build_is_told(self):
        found, said = self.launched("echo 'an open goal' >&2; echo 'xousim: the build failed, and no program is started' >&2; exit 126")
        self.assertIn("built no program: xousim: the build failed, and no program is started; or name one by the variable XOUSIM", found)
        self.assertIn("an open goal\n", said)
        self.assertIn("ended with 0 and built no program", self.launched("exit 0")[0])
        self.assertIn("command not found: rt", self.launched("echo 'xousim: command not found: rt' >&2; exit 127")[0])


class Json(Case):
    def fields(self, page, heading):
        """The names in the first column of the table behind a text of a page; several may stand in one cell."""
        rows = (ROOT / "docs" / page).read_text().split(heading)[1].split("\n| Field ")[1].split("\n\n")[0].splitlines()[2:]
        return {name for row in rows for name in row.split("|")[1].replace("`", "").replace(" ", "").split(",")}

    def test_view(self):
        lines = told_json("view", "--json", "--image", LEND / "image", LEND / "expected")
        self.assertTrue(all(set(line) == self.fields("transcript.md", "`tools/xous-view --json` prints an object") for line in lines))
        send = next(line for line in lines if line["call"] == "SendMessage" and line["kind"] == "reply")
        self.assertEqual((send["step"], send["pid"], send["process"], send["of_step"], send["message"]), (96, 3, "client", 81, 1))
        self.assertEqual(len(lines), len((LEND / "expected").read_text().splitlines()))

    def test_image(self):
        (image,) = told_json("image", "--list", LEND / "image", "--json")
        fields = self.fields("image.md", "With `--json`, `--list` prints one object")
        self.assertEqual(set(image) | {"sections"}, fields)
        self.assertEqual(set(image["processes"][0]), {"pid", "name", "entry", "load", "check", "sections"})
        self.assertEqual(set(image["processes"][0]["sections"][0]), {"address", "size", "right", "zeros"})
        self.assertEqual([process["name"] for process in image["processes"]], ["server", "client"])

    def test_where(self):
        if not GIVEN.program:
            self.skipTest("no program xousim is given: tools/test XOUSIM")
        ran = self.tool("xous-where", FAULT / "image", FAULT / "events", "--fault", "--json", "--watch", "3:0x60000000")
        (state,) = map(json.loads, ran.stdout.splitlines())
        self.assertEqual(set(state), self.fields("transcript.md", "`tools/xous-where --json` prints an object"))
        self.assertEqual((state["step"], state["fault"]["cause"], state["fault"]["value"]), (79, 15, 0x6000_0000))
        self.assertEqual([thread["state"] for thread in state["threads"] if thread["next"]], ["Ready"])
        self.assertIn("lent mutably to 2", state["watched"][0]["why"])


def told_json(module, *words):
    status, out, said = told(module, *words)
    assert (status, said) == (0, ""), said
    return [json.loads(line) for line in out.splitlines()]
