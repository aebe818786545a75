"""What tools are told by the sources: numbers of calls, the files of a call, lines that stand twice, and libraries."""

import shutil
from unittest import mock

from sources import calls, doubles, kit, libraries, places
from xous import names, numbers

from .frame import ROOT, Case

# A list of calls by hand, a number in it as it stands, and what is said if that is another.
LISTS = (
    ("docs/calls.md", "JoinThread (36)", "JoinThread (37)", "JoinThread is 36, not 37"),
    ("docs/calls.md", "JoinThread (36)", "JoinThread", "JoinThread (36) is missing"),
    ("docs/definitions.md", "JoinThread (36)", "JoinThread (37)", "JoinThread is 36, not 37"),
    ("crates/run_cases/src/acts.rt", '"JoinThread" => Some(36)', '"JoinThread" => Some(37)', "JoinThread is 36, not 37"),
    ("crates/syscall_codec/src/numbers.rt", "JOIN_THREAD: u32 = 36", "JOIN_THREAD: u32 = 37", "JOIN_THREAD is 36, not 37"),
    ("examples/kit/rust/xous/src/call.rs", "CONNECT: u32 = 17", "CONNECT: u32 = 18", "CONNECT is 17, not 18"),
)


class Calls(Case):
    def test_numbers_of_the_tools(self):
        self.assertEqual(calls.MADE.read_text(), calls.made(), "make tools/xous/numbers.py by tools/make-lists")
        self.assertEqual(numbers.CALLS[16], ("SendMessage", (("cid", 1), ("kind", 1), ("id", 1), ("words", 4))))
        self.assertEqual((numbers.ERRORS[25], numbers.REPLIES["new_server"], numbers.KINDS["BlockingScalar"]), ("DoubleFree", 19, 5))

    def test_headers_of_the_kit(self):
        """They have each call, with its words in order, and each number; the short names are those of all headers."""
        header, short = kit.CALLS_H.read_text(), kit.SHORT_H.read_text()
        self.assertEqual((header, short), (kit.calls_header(), kit.short_header()), "make both by tools/make-lists")
        for number, (name, _) in numbers.CALLS.items():
            constant = calls.capitals(name)
            self.assertIn(f" XOUS_{constant} = {number},\n", header)
            self.assertRegex(header, rf"(?m)^XOUS_INLINE .* xous_{constant.lower()}\(")
            self.assertIn(f"#define {constant.lower()}(...) xous_{constant.lower()}(__VA_ARGS__)\n", short)
        self.assertIn("xous_call(XOUS_FORWARD_MESSAGE, token, connection, 0, 0, 0, 0, 0);", header)
        self.assertIn("xous_call(XOUS_SEND_MESSAGE, connection, kind, id, w0, w1, w2, w3);", header)
        for line in (" XOUS_DOUBLE_FREE = 25,", " XOUS_NEW_SERVER = 19,", " XOUS_MUTABLE_LEND = 1,"):
            self.assertIn(line, header)
        for line in ("ask(...) xous_ask(__VA_ARGS__)", "log xous_log", "digits xous_digits", "VALID XOUS_VALID", "TIMER XOUS_TIMER"):
            self.assertIn(f"#define {line}\n", short)

    def test_a_new_call(self):
        """It is in both headers, and in the table of words."""
        known = {**calls.calls(), 45: ("MakeTea", (("sid", 4), ("cups", 1)))}
        with mock.patch.object(calls, "calls", lambda: known), mock.patch.object(calls, "comments", lambda: {"MakeTea": "Makes tea."}):
            header = kit.calls_header()
            self.assertIn("/* Makes tea. */\nXOUS_INLINE struct xous_reply xous_make_tea(struct xous_identifier server, xous_word cups)\n", header)
            words = "server.word[0], server.word[1], server.word[2], server.word[3], cups, 0, 0"
            self.assertIn(f"xous_call(XOUS_MAKE_TEA, {words});", " ".join(header.split()))
            self.assertIn("#define make_tea(...) xous_make_tea(__VA_ARGS__)\n", kit.short_header())
            self.assertIn("| `2d` | MakeTea: identifier, cups |", calls.word_rows()[-1])

    def test_a_call_that_names_has_no_words_for(self):
        self.assertEqual(list(names.labelled((("token", 1), ("new", 1), ("many", 4)))), [("message", "number"), ("new", "word"), ("many", "arguments")])

    def test_lists_by_hand(self):
        self.assertEqual(list(calls.wrong_numbers()), [])
        for path in dict.fromkeys(path for path, *_ in LISTS):
            (self.folder / path).parent.mkdir(parents=True, exist_ok=True)
            shutil.copy(ROOT / path, self.folder / path)
        with mock.patch.object(calls, "ROOT", self.folder):
            for path, old, new, said in LISTS:
                with self.subTest(path, said=said):
                    text = (self.folder / path).read_text()
                    self.assertIn(old, text)
                    (self.folder / path).write_text(text.replace(old, new))
                    self.assertEqual(list(calls.wrong_numbers()), [f"{path}: {said}"])
                    (self.folder / path).write_text(text)

    def test_files_of_a_call(self):
        rows = list(places.rows(["xk_base", "syscall_codec", "trace_text"]))
        codec = next(row for row in rows if row.startswith("| `syscall_codec` | src/calls, src/encode, "))
        self.assertIn(", specs/CallNumbers, specs/CallWords, ", codec)
        self.assertFalse(any("xk_base" in row or "trace_text" in row for row in rows))
        self.assertRegex(rows[-1], r"^GetProcess\w+: \d+ files, Decrease\w+: \d+ files\.$")


class Doubles(Case):
    def write(self, name, lines):
        path = self.folder / "crates" / name
        path.parent.mkdir(parents=True, exist_ok=True)
        path.write_text("\n".join(lines))

    def found(self):
        return [(line.file, line.number, other.file, other.number) for line, other in doubles.doubled(self.folder)]

    def test_runs(self):
        run = [f"let x{at} = {at};" for at in range(10)]
        self.write("one/src/lib.rt", ["// one", *run])
        self.assertEqual(self.found(), [])
        self.write("two/src/lib.rt", run[:7])
        self.assertEqual(self.found(), [], "seven lines")
        self.write("two/src/lib.rt", ["fn f() {", *run[:4], "", "    // a comment", *(f"  {line}" for line in run[4:9]), "}"])
        places_of_two = [2, 3, 4, 5, 8, 9, 10, 11, 12]
        wanted = [("crates/two/src/lib.rt", place, "crates/one/src/lib.rt", 2 + at) for at, place in enumerate(places_of_two)]
        self.assertEqual(self.found(), wanted)
        self.assertEqual(list(doubles.runs(doubles.doubled(self.folder))), ["crates/two/src/lib.rt:2 is as crates/one/src/lib.rt:2"])

    def test_modules(self):
        for crate in ("one", "two"):
            self.write(f"{crate}/src/lib.rt", ["#![tactic(auto)]", *(line for at in range(9) for line in ("#[cfg(test)]", f"mod m{at};"))])
        self.assertEqual(self.found(), [])

    def test_one_line_over_and_over(self):
        """A run isn't its own double."""
        self.write("one/specs/Lib.antt", ["x"] * 12)
        self.assertEqual(self.found(), [])
        self.write("one/specs/Lib.antt", ["x"] * 16)
        self.assertEqual(len(self.found()), 8)


class Libraries(Case):
    def write(self, crate, name, line):
        path = self.folder / "crates" / crate / name
        path.parent.mkdir(parents=True, exist_ok=True)
        path.write_text(f"{line}\n")

    def test_unused(self):
        self.assertEqual(list(libraries.unused()), [])
        (self.folder / "crates.txt").write_text("# lowest first\nlow:\nmiddle: low hex\ntop: low middle hex\n")
        self.write("middle", "src/lib.rt", "use low::Low;")
        self.write("middle", "proofs/Inner/Lemmas.antt", "use Rattle.hex.specs.Digits.{digit}")
        self.write("top", "specs/Lib.antt", "use Rattle.low.specs.Lib.{low}")
        self.write("top", "src/lib.rt", "//! The top of middle and hex.")
        self.assertEqual(libraries.of_crates(self.folder), {"low": [], "middle": ["low", "hex"], "top": ["low", "middle", "hex"]})
        wanted = ["crates.txt: top doesn't use middle", "crates.txt: top doesn't use hex"]
        self.assertEqual(list(libraries.unused(self.folder)), wanted)
