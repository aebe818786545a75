"""The functions of a file, the words of a check, and tools/try-edits over a small crate where `rt` is there."""

import pathlib
import subprocess

from edits import checks as crate_checks
from edits import functions, keeping, trying

from .frame import TOOLS, Case

SOURCE = """\
impl<'a, T: Read> Reader for Lines<'a, T>
where
    T: Clone,
{
    fn next(&mut self) -> Option<u8>
        ensures { IfSome result (λ n. n < 10) }
    {
        self.bytes.next().map(|n| n % 10)
    }
}

fn none() {}

pub(crate) fn first(lines: &Lines<'_, u8>) -> u8 {
    lines.first
}
"""
FELL = """\
fn small::a::first: proved
note: src/a.rt:5:1: it is not proved that what the function ensures holds when it returns (`returns`)
fn small::a::last: no proof: `search` did not prove `returns`
proofs/a/middle/Answers.antt:9:5: error: `returns`: c.take has no field result
fn small::a::middle: not proved
fn small::a::user: no proof: it calls `small::a::last`, which is not proved
logic=not-proved
"""
UNREAD = "src/a.rt:3:7: error: `size` is not in scope\nlogic=not-proved\n"
OF_SOME = "fn small::a::first: proved\nonly=1 proved=1\n"
STOPPED = "src/a.rt:3:7: error[unknown-name]: cannot find value `m` in this scope\n"

LIBRARY = """\
//! Two functions, of which edits are tried.

#![tactic(auto)]

ghost use Rattle.std.specs.Prelude.{◌≡◌, ◌<◌, ◌+◌};

/// The number after this one.
pub fn next(n: u8) -> u8
    requires { n < 255 }
    ensures { result ≡ n + 1 }
{
    n + 1
}

/// Twice the number.
pub fn twice(n: u8) -> u8
    requires { n < 100 }
    ensures { result ≡ n + n }
{
    n + n
}
"""
EDITS = {
    "must-fail/once.edit": ("    n + n", "    n"),
    "wrong-bodies/same.edit": ("    n + 1", "    1 + n"),
    "wrong-bodies/unknown.edit": ("    n + n", "    n + m"),
}
TOLD = (
    "tiny/must-fail/once.edit: refused: tiny::twice: returns",
    "tiny/wrong-bodies/same.edit: NOT REFUSED: tiny::next is still proved",
    "tiny/wrong-bodies/unknown.edit: BAD: src/lib.rt:20:9: error[unknown-name]",
    "tiny: 3 edits in 2 checks",
)


def checks_of_functions():
    found = [*functions.functions_of("src/a/b.rt", SOURCE)]
    named = [(it.module, it.type, it.trait, it.name, it.opens, it.closes) for it in found]
    yield named == [(("a", "b"), "Lines", "Reader", "next", 6, 8), (("a", "b"), "", "", "first", 13, 15)], "the functions of a file"
    symbols = ["small::a::b::LinesReader::next", "small::a::b::fn::LinesReader::next::map", "small::a::b::first", "small::a::b::LinesReader::first"]
    yield functions.symbols_of(found[0], "small", symbols) == {*symbols[:2]}, "the names of a method and of its closure in a check"
    yield functions.symbols_of(found[1], "small", symbols) == {symbols[2]}, "the name of a function in a check"
    yield [it.path() for it in found] == ["a::b", "a::b::first"], "what a check is asked for: a function, or the module of a trait's method"
    method = functions.Function("src/a/b.rt", 1, 2, ("a", "b"), "Lines", "", "take")
    symbols = ["small::a::Lines::take", "small::a::fn::Lines::take::find", "small::a::b::take", "small::a::Line::take"]
    yield functions.symbols_of(method, "small", symbols) == {*symbols[:2]}, "the name of a method whose type is of another module"
    yield method.path() == "Lines::take", "what a check is asked for: a method"


def checks_of_words():
    said = crate_checks.Check(1, FELL)
    yield said.has_verdict() and said.fell() == {"small::a::last", "small::a::middle"}, "the functions that fell themselves"
    yield said.reason("small::a::last") == ("small::a::last: returns", False), "the goal of a function that fell"
    yield said.reason("small::a::middle")[1], "a function that fell for a name that was taken away"
    yield crate_checks.Check(0, OF_SOME).has_verdict(), "a check of some functions"
    yield not crate_checks.Check(1, UNREAD).has_verdict() and not crate_checks.Check(1, STOPPED).has_verdict(), "a check that came to no verdict"


def write_small_crate(top):
    for name, text in {"src/lib.rt": LIBRARY, **{name: f"file: src/lib.rt\nold: {old}\nnew: {new}\n" for name, (old, new) in EDITS.items()}}.items():
        path = top / "crates/tiny" / name
        path.parent.mkdir(parents=True, exist_ok=True)
        path.write_text(text)
    (top / "crates.txt").write_text("tiny:\n")


def checks_of_plans(folder):
    top = pathlib.Path(folder, "edited-checkout")
    write_small_crate(top)
    planned = subprocess.run([TOOLS / "try-edits", "--root", top, "--plan"], capture_output=True, text=True)
    yield planned.returncode == 0 and planned.stdout.startswith("tiny: 3 edits in 2 checks\n"), "tools/try-edits --plan"


def tried(crate):
    """The edits of the small crate, those of which a file knows the verdict ended."""
    return trying.trials_of(crate, ["must-fail", "wrong-bodies"], "")


def checks_of_kept(folder):
    top, path = pathlib.Path(folder, "edited-checkout"), pathlib.Path(folder, "kept.tsv")
    crate = crate_checks.Crate(top, "tiny", None)
    trials = tried(crate)
    yield keeping.Kept(path).take(crate, trials) == 0, "a new file knows no verdict"
    for trial, verdict in zip(trials, (trying.REFUSED, trying.NOT_REFUSED, trying.UNSURE)):
        trial.end(verdict, "tiny::f:\ta goal\n")
    with path.open("a") as file:
        file.write("tiny/wrong-bodies/unknown.edit\trefused")  # as a run that was stopped leaves it
    again = tried(crate)
    yield keeping.Kept(path).take(crate, again) == 2 and path.read_text().endswith("edit\trefused\n"), "verdicts that are kept"
    yield [trial.verdict for trial in again] == [trying.REFUSED, trying.NOT_REFUSED, None], "no verdict is tried again"
    yield again[0].why == "tiny::f: a goal", f"why: {again[0].why}"
    source = crate.folder / "src/lib.rt"
    text = source.read_text()
    source.write_text(text + "// changed\n")
    yield keeping.Kept(path).take(crate, tried(crate)) == 0, "a crate that has changed"
    source.write_text(text)
    (crate.folder.parent / again[0].name).write_text("file: src/lib.rt\nold: n + n\nnew: n - n\n")
    yield keeping.Kept(path).take(crate, tried(crate)) == 1, "an edit that has changed"
    write_small_crate(top)
    try:
        keeping.Kept(crate.folder / "src/lib.rt")
        said = "taken"
    except ValueError as error:
        said = str(error)
    yield "isn't a file of --keep" in said and source.read_text() == text, f"another file: {said}"


def checks_of_tries(folder):
    command = [TOOLS / "try-edits", "--root", pathlib.Path(folder, "edited-checkout"), "--keep", pathlib.Path(folder, "verdicts.tsv")]
    ran = subprocess.run(command, capture_output=True, text=True)
    told = ran.stdout.splitlines()
    good = len(told) == len(TOLD) + 1 and all(line.startswith(wanted) for line, wanted in zip(told, TOLD))
    yield ran.returncode == 1 and good, f"tools/try-edits over three edits: {ran.stdout + ran.stderr}"
    again = subprocess.run(command, capture_output=True, text=True)
    wanted = ran.stdout.replace("in 2 checks", "in 0 checks, 3 known before")
    yield (again.returncode, again.stdout) == (1, wanted), f"a run with verdicts that are kept: {again.stdout + again.stderr}"
    unknown = subprocess.run([*command, "other"], capture_output=True, text=True)
    yield unknown.returncode == 2 and "other is no crate with edits" in unknown.stderr, "a crate without edits"


class Edits(Case):
    takes_long = True

    def test_functions(self):
        self.hold(checks_of_functions())

    def test_words(self):
        self.hold(checks_of_words())

    def test_tries(self):
        self.hold(checks_of_plans(self.folder))
        self.hold(checks_of_kept(self.folder))
        if not crate_checks.kit():
            self.skipTest("the command rt is missing: the Rattle kit")
        self.hold(checks_of_tries(self.folder))
