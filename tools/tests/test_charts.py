"""The charts of xous-view, against the stories of the examples; the page is opened where Chromium is."""

import io
import pathlib
import random
import re
import subprocess
import sys
import tempfile
from collections import Counter
from xml.etree import ElementTree

from xous import names
from xous.charts import chart, draw, page
from xous.errors import Refusal
from xous.transcripts import summary, view

from . import browser
from .frame import EXAMPLES, ROOT, TOOLS, Case, need

PICTURE = ROOT / "docs" / "lend.svg"
VIEW = TOOLS / "xous-view"


def drawn(lines, named=None, **filters):
    """The chart of these lines."""
    found = chart.Chart(named or names.Names(), view.Filter(**filters))
    for line in lines:
        found.feed(line)
    found.finish()
    return found


def example(path, **filters):
    return drawn((EXAMPLES / path).read_text().splitlines(), **filters)


def arrows(found):
    counts = Counter(arrow.kind for arrow in found.arrows)
    return tuple(counts[kind] for kind in (chart.SEND, chart.ANSWER, chart.START, chart.ENDED))


def step(found, row):
    return "before" if row is chart.TOP else "end" if row is chart.BOTTOM else found.steps[row]


def spans(found, given):
    """Lane, first and last step of stretches."""
    return [f"{span.thread[0]}.{span.thread[1]} {step(found, span.first)}-{step(found, span.last)}" for span in given]


def loans(found):
    return spans(found, found.loan_spans())


# Each line of a client is a page that is lent to the log.
LOG_LOANS = [f"{thread} {span}" for thread, span in (
    ("3.2", "286-1011"), ("2.2", "286-1011"), ("4.2", "896-1346"), ("2.2", "896-1346"),
    ("3.2", "1541-1678"), ("2.2", "1541-1678"), ("3.2", "1873-1988"), ("2.2", "1873-1988"),
)]

# The client of keys lends its page twice.
KEYS_LOANS = ["3.2 142-347", "2.2 142-347", "3.2 416-620", "2.2 416-620"]

# Each of two servers has lent to the other, for good.
DEADLOCK_LOANS = ["2.2 141-end", "3.2 141-end", "3.2 152-end", "2.2 152-end"]

# Of each example: messages that arrive, answers, threads that start and that are joined; loans at lender and holders;
# deaths; and marks of some kinds.
STORIES = {
    "hello/expected": ((0, 0, 0, 0), [], 1, {chart.TEXT: 1}),
    "threads/expected": ((0, 0, 2, 1), [], 1, {chart.REFUSED: 1, "end": 2}),
    "threads/picked.expected": ((0, 0, 2, 2), [], 1, {"end": 2}),
    "scalars/expected": ((4, 2, 0, 0), [], 1, {}),
    "lend/expected": ((1, 1, 0, 0), ["3.2 81-96", "2.2 81-96"], 1, {chart.TEXT: 1}),
    "fault/expected": ((1, 0, 1, 0), ["3.2 78-80", "2.2 78-91"], 1, {"fault": 1}),
    "fault/early.expected": ((1, 1, 1, 0), ["3.2 83-94", "2.2 83-94"], 1, {"end": 1}),
    "forward/expected": ((2, 1, 0, 0), ["4.2 97-155", "2.2 97-131", "3.2 131-155"], 1, {chart.AGAIN: 1}),
    "driver/expected": ((3, 0, 0, 0), [], 0, {"irq": 3, "end": 3, chart.TEXT: 3}),
    "deaths/expected": ((2, 0, 0, 0), ["3.2 54-54", "2.2 54-110", "4.2 86-120", "2.2 86-120"], 3, {chart.REFUSED: 1}),
    "keys/expected": ((2, 2, 0, 0), KEYS_LOANS, 1, {chart.TEXT: 1}),
    "keys/leaky.expected": ((2, 2, 0, 0), KEYS_LOANS, 1, {chart.TEXT: 1}),
    "orders/deadlock.expected": ((2, 0, 0, 0), DEADLOCK_LOANS, 1, {chart.AGAIN: 1}),
    "orders/desk.expected": ((2, 1, 0, 0), [], 2, {}),
    "orders/late.expected": ((0, 0, 1, 0), [], 1, {"end": 1}),
    "orders/sum.expected": ((0, 0, 1, 1), [], 1, {"end": 1}),
    "orders/lost.expected": ((0, 0, 1, 1), [], 1, {"end": 1, chart.TEXT: 1}),
    "orders/reply.expected": ((2, 2, 0, 0), [], 1, {chart.AGAIN: 1}),
    "orders/store.expected": ((6, 6, 1, 0), [], 2, {}),
    "orders/tally.expected": ((16, 14, 3, 2), ["5.2 72126-72288", "2.2 72126-72288"], 1, {"end": 2, chart.TEXT: 1}),
    "race/lose.expected": ((0, 0, 0, 0), [], 1, {chart.REFUSED: 1}),
    "race/win.expected": ((1, 1, 0, 0), [], 1, {}),
    "log/expected": ((4, 4, 0, 0), LOG_LOANS, 2, {chart.AGAIN: 2, chart.REFUSED: 1}),
    "timer/expected": ((4, 3, 1, 0), ["4.2 3857-3993", "2.2 3857-3993"], 1, {"irq": 1, "end": 1, chart.TEXT: 1}),
}


def checks_of_stories():
    stored = {str(path.relative_to(EXAMPLES)) for path in EXAMPLES.glob("*/*expected")}
    yield stored == set(STORIES), "a story for each stored transcript"
    for name, (crossing, lent, deaths, marks) in STORIES.items():
        found = example(name)
        kinds = Counter(mark.kind for mark in found.marks)
        yield arrows(found) == crossing, f"{name}: arrows {arrows(found)}"
        yield loans(found) == lent, f"{name}: loans {loans(found)}"
        yield found.deaths == deaths == kinds[chart.DEATH], f"{name}: deaths {found.deaths}"
        yield {kind: kinds[kind] for kind in marks} == marks, f"{name}: marks {kinds}"
        rows = Counter((mark.row, mark.thread) for mark in found.marks)
        yield max(rows.values()) == 1, f"{name}: two marks in one place"
    lend = example("lend/expected")
    yield spans(lend, lend.waits) == ["2.2 33-81", "3.2 81-96", "2.2 106-end"], f"waits of lend: {spans(lend, lend.waits)}"
    labels = [wait.label for wait in lend.waits[:2]]
    yield labels == ['waits for a message at "fill"', 'waits for the answer of "fill"'], f"waits of lend: {labels}"
    yield [mark.label for mark in lend.marks if mark.kind == chart.TEXT] == ['"Ok\\n"'], "the text of lend"
    forward = example("forward/expected")
    yield "2.2 26-98" in spans(forward, forward.waits), f"a call that is made again: {spans(forward, forward.waits)}"


def checks_of_windows():
    late = example("lend/expected", first=82, last=113)
    yield late.steps == [96, 106], f"the steps of a part: {late.steps}"
    yield loans(late) == ["3.2 before-96", "2.2 before-96"], f"loans from before: {loans(late)}"
    yield spans(late, late.waits) == ["3.2 before-96", "2.2 106-end"], f"waits from before: {spans(late, late.waits)}"
    yield arrows(late) == (0, 1, 0, 0), "arrows of a part"
    after = example("lend/expected", first=114)
    yield loans(after) == [] and len(after.waits) == 1, "a part without loans"
    client = example("lend/expected", only=[(3, None)])
    yield client.lanes() == [(3, 2)] and arrows(client) == (0, 0, 0, 0), "one process"
    yield loans(client) == ["3.2 81-96"], f"loans of one process: {loans(client)}"


def words(*given):
    return " ".join(f"{word:08x}" for word in (given + (0,) * 8)[:8])


def checks_of_limits():
    lines = [f"{at} 2.2 {what} {words(*given)}" for at in range(1, 5002) for what, given in (("call", (42,)), ("reply", (10, 2)))]
    try:
        drawn(lines)
        refused = "nothing"
    except Refusal as refusal:
        refused = str(refusal)
    yield refused.startswith("5,001 marks, and a chart has at most 5,000; narrow it by --from 1 --to 5000 "), f"too many marks: {refused}"
    yield len(drawn(lines, last=5000).marks) == 5000, "as many marks as can be"
    try:
        drawn(lines, first=9000)
        refused = "nothing"
    except Refusal as refusal:
        refused = str(refusal)
    yield refused == "no line to draw of these steps and threads; the transcript has steps 1 to 5001", f"no marks: {refused}"
    again = [f"{at} {at % 2 + 2}.2 {what}" for at in range(1, 20_001) for what in ("call " + words(3), "reply " + words(0))]
    yields = drawn(again)
    yield [mark.count for mark in yields.marks] == [10_000, 10_000], "runs of Yields"
    tries = [f"{at} {at % 2 + 2}.2 {what}" for at in range(1, 20_001) for what in ("call " + words(17, 1, 2, 3, 4), "retry")]
    tried = drawn([*tries, f"20001 3.2 call {words(17, 1, 2, 3, 4)}", f"20001 3.2 reply {words(7, 2)}"])
    yield [mark.count for mark in tried.marks] == [10_000, 10_000, 1], f"runs of tries: {[mark.count for mark in tried.marks]}"
    yield tried.steps == [1, 2, 20_001], f"the rows of tries: {tried.steps}"
    yield spans(tried, tried.waits) == ["3.2 1-20001", "2.2 2-end"], f"waits of tries: {spans(tried, tried.waits)}"


def checks_of_sends():
    """Sends that nobody has received, that are refused, and to oneself."""
    made = [f"1 2.2 call {words(14, 1)}", f"1 2.2 reply {words(19, 1, 0, 0, 0, 2)}", f"2 3.2 call {words(17, 1)}", f"2 3.2 reply {words(7, 2)}"]
    lend = f"3 3.2 call {words(16, 2, 2, 7, 0x6000_0000, 4096)}"
    queued = drawn([*made, lend])
    yield loans(queued) == ["3.2 3-end", "2.2 3-end"], f"a lend that is queued: {loans(queued)}"
    label = queued.marks[-1].label
    yield label == "SendMessage Lend id 7 to 1:0:0:0: 60000000+1000", f"a send without an arrow: {label}"
    killed = drawn([*made, lend, f"3 3.2 reply {words(1, 9)}", "3 2 gone"])
    yield loans(killed) == ["3.2 3-3", "2.2 3-3"] and killed.deaths == 1, f"a queue that dies: {loans(killed)}"
    refused = drawn([*made, lend, f"3 3.2 reply {words(1, 1)}"])
    yield loans(refused) == [] and refused.marks[-1].kind == chart.REFUSED, "a lend that is refused"
    again = drawn([*made, lend, "3 3.2 retry", lend.replace("3", "5", 1), f"5 3.2 reply {words(1, 19)}"])
    yield loans(again) == [] and spans(again, again.waits) == ["3.2 3-5"], "a lend that is tried again"
    own = drawn([*made, f"3 2.2 call {words(16, 2, 4, 7, 1)}", f"3 2.2 reply {words(0)}", f"4 2.2 call {words(15, 1)}", f"4 2.2 reply {words(9, 1, 4, 7, 1)}"])
    yield arrows(own) == (1, 0, 0, 0) and "m send" in classes(draw.svg(own, names.Names(), "own")), "a send to oneself"


def any_lines(seed):
    """Lines of the right form in an order that no run makes, as of a transcript that is cut and put together."""
    chance, at = random.Random(seed), 0
    values = [0, 1, 2, 3, 5, 7, 4096, 0x2000_0000, 0x4000_0000, 0x6000_0000, 0xFFFF_FFFF]
    for _ in range(60):
        at += chance.choice((0, 0, 1, 5))
        thread = f"{at} {chance.randint(2, 4)}.{chance.choice((1, 2, 2, 3))}"
        rest = [chance.choice(values) for _ in range(7)]
        yield chance.choice((
            f"{thread} call {words(chance.choice([*names.CALLS, 99]), *rest)}",
            f"{thread} reply {words(chance.choice((0, 0, 1, 3, 7, 9, 9, 10, 14, 15, 18, 19, 77)), *rest)}",
            f"{thread} {chance.choice(('retry', 'byte 41', 'end', 'fault 15 60000000'))}",
            f"{at} {chance.randint(2, 4)}{chance.choice(('.1 irq 3', ' gone', ' none'))}",
        ))  # fmt: skip


def checks_of_any_lines():
    for seed in range(30):
        lines = list(any_lines(seed))
        sink, summed = io.BytesIO(), summary.Summary(names.Names(), view.Filter())
        view.run(view.View(names.Names(), view.Filter(), folds=False), io.BytesIO("\n".join(lines).encode()), sink)
        for line in lines:
            summed.feed(line)
        told = list(summed.report())
        found = drawn(lines, first=seed)
        ElementTree.fromstring(draw.svg(found, names.Names(), "any"))
        yield sink.getvalue().count(b"\n") == len(lines) and told, f"any lines, {seed}"


def classes(text):
    root = ElementTree.fromstring(text)
    return Counter(element.get("class") for element in root.iter("{http://www.w3.org/2000/svg}g") if element.get("class"))


def checks_of_pictures(folder):
    found = example("lend/expected")
    text = draw.svg(found, names.Names(), "lend")
    counts = classes(text)
    wanted = {"m send": 1, "m answer": 1, "m loan": 2, "m wait": 3, "m mark text": 1, "m mark death": 1}
    yield {name: counts[name] for name in wanted} == wanted, f"the picture of lend: {counts}"
    yield "81 3.2 call 00000010 00000002" in text, "the line of a mark"
    yield "http" not in text.replace('xmlns="http://www.w3.org/2000/svg"', ""), "a picture has nothing from elsewhere"
    odd = drawn([f"1 2.2 byte {byte:02x}" for byte in b"<&>\"'\x07\xff"])
    yield "\"<&>\\\"'\\x07\\xff\"" in {each.text for each in ElementTree.fromstring(draw.svg(odd, names.Names(), "<&>")).iter()}, "letters of markup"
    made = page.html(odd, names.Names({2: "<b>&$x"}), "<b>&$title")
    yield "<b>" not in made and "&lt;b&gt;&amp;$title" in made and "&lt;b&gt;&amp;$x" in made, "letters of markup in a page"
    path = pathlib.Path(folder, "lend.svg")
    command = [sys.executable, VIEW, "--chart", path, "--image", "lend/image", "lend/expected"]
    ran = subprocess.run(command, cwd=EXAMPLES, capture_output=True, check=False, timeout=600)
    yield ran.returncode == 0 and not ran.stdout and not ran.stderr, f"a chart: {ran.stderr.decode()}"
    remake = "cd examples && ../tools/xous-view --chart ../docs/lend.svg --image lend/image lend/expected"
    yield PICTURE.exists() and path.read_text() == PICTURE.read_text(), f"docs/lend.svg: make it by {remake}"


# What a reader does with the page, and what is then so.
DEEDS = """
const facts = [], fact = (name, holds) => facts.push((holds ? "good " : "wrong ") + name);
const id = name => document.getElementById(name), told = () => id("told").textContent;
const key = (target, name) => target.dispatchEvent(new KeyboardEvent("keydown", { key: name, bubbles: true }));
const picture = document.querySelector("#chart svg"), width = () => Number(picture.getAttribute("width"));
try {
    const send = document.querySelector(".send"), first = width();
    fact("tools are shown", !id("tools").hidden);
    send.querySelector("line").dispatchEvent(new MouseEvent("mouseover", { bubbles: true }));
    fact("an arrow tells its line", told().includes("MutableLend id 7 (message 1)"));
    fact("the parts of a message are shown together", document.querySelectorAll(".same").length >= 6);
    id("larger").click();
    fact("larger", Math.abs(width() / first - 1.25) < 0.01 && id("zoom").textContent === "125 %");
    key(document.body, "-");
    fact("smaller", Math.abs(width() - first) < 1);
    id("view").dispatchEvent(new WheelEvent("wheel", { deltaY: -400, ctrlKey: true, bubbles: true, cancelable: true }));
    fact("the wheel", Math.abs(width() / first - Math.E) < 0.05);
    id("fit").click();
    fact("fit", Math.abs(width() - id("view").clientWidth) < 8);
    id("find").value = "mapmemory";
    id("find").dispatchEvent(new Event("input", { bubbles: true }));
    fact("search", id("found").textContent === "1 of 2" && document.querySelectorAll(".found").length === 2);
    key(id("find"), "Enter");
    fact("the next one", id("found").textContent === "2 of 2" && told().includes("58 client.2 MapMemory"));
    key(id("find"), "Escape");
    fact("no search", !document.body.classList.contains("searching"));
    document.querySelector(".death").dispatchEvent(new MouseEvent("click", { bubbles: true }));
    send.dispatchEvent(new MouseEvent("mouseover", { bubbles: true }));
    fact("a mark that is clicked at stays", told().includes("140 client is dead"));
    document.querySelector(".death").dispatchEvent(new MouseEvent("click", { bubbles: true }));
    key(id("view"), "ArrowDown");
    const marks = document.querySelectorAll(".mark"), at = document.activeElement;
    fact("an arrow key goes to the first mark", at === marks[0] && told().includes("CreateServerWithAddress"));
    fact("the focus is seen", getComputedStyle(at).outlineStyle === "solid" && getComputedStyle(at).outlineWidth === "2px");
    key(at, "ArrowDown");
    fact("the next mark", document.activeElement !== at && document.activeElement.dataset.row === "1");
    key(document.activeElement, "ArrowRight");
    fact("the lane beside", document.activeElement.dataset.lane === "1");
    key(document.activeElement, "ArrowLeft");
    fact("the lane on the other side", document.activeElement.dataset.lane === "0");
    fact("one mark is in the order of the keyboard", document.querySelectorAll('.m[tabindex="0"]').length === 1);
    key(document.activeElement, "Escape");
    fact("Escape lets go", document.activeElement === id("view") && !document.querySelector(".same"));
    for (let count = 0; count < 6; count++) id("larger").click();
    const left = id("steps").getBoundingClientRect().left;
    id("view").scrollLeft = 300;
    fact("the steps stay", id("view").scrollLeft > 100 && Math.abs(id("steps").getBoundingClientRect().left - left) < 1);
} catch (error) { facts.push("wrong " + error); }
facts.join("; ")"""


def checks_of_page(folder):
    path = pathlib.Path(folder, "lend.html")
    named = names.Names({2: "server", 3: "client"})
    made = page.html(example("lend/expected", named=named), named, "lend")
    links = re.findall(r"(?:src|href)=|url\(|@import", made)
    yield not links and "default-src 'none'" in made, f"a page has nothing from elsewhere: {links}"
    path.write_text(made)
    with browser.opened() as shown:
        shown.open(path.as_uri())
        facts = shown.value(DEEDS).split("; ")
        yield len(facts) == 19, f"what the page does: {facts}"
        for fact in facts:
            yield fact.startswith("good "), f"the page: {fact}"
        for scheme, wanted in (("light", "rgb(255, 255, 255); rgb(29, 39, 48)"), ("dark", "rgb(22, 27, 32); rgb(223, 230, 236)")):
            shown.open(path.as_uri(), scheme)
            told = shown.value(COLOURS)
            yield told == wanted, f"{scheme} colours: {told}"


COLOURS = """
[getComputedStyle(document.body).backgroundColor, getComputedStyle(document.querySelector("#chart .mark text")).fill].join("; ")"""


def printed(path):
    """The texts of the pages that it has on paper."""
    target = path.with_suffix(".pdf")
    with tempfile.TemporaryDirectory() as profile:
        command = [*browser.command(profile), f"--print-to-pdf={target}", path.as_uri()]
        subprocess.run(command, capture_output=True, check=False, timeout=600)
    told = subprocess.run(["pdftotext", "-layout", target, "-"], capture_output=True, text=True, check=True).stdout
    return told.split("\f")[:-1]


def checks_of_print(folder):
    """On paper a short chart has one page, and a wide and long one as many as it needs, without an empty one."""
    path = pathlib.Path(folder, "printed.html")
    path.write_text(page.html(example("lend/expected"), names.Names(), "lend"))
    yield len(printed(path)) == 1, "a short chart has one page"
    lines = [f"{at} {at % 12 + 2}.2 {what} {words(*given)}" for at in range(1, 601) for what, given in (("call", (42, at)), ("reply", (10, 2)))]
    named = names.Names({pid: f"process{pid}" for pid in range(2, 14)})
    path.write_text(page.html(drawn(lines, named=named), named, "many"))
    pages = printed(path)
    yield len(pages) > 1 and all(text.strip() for text in pages), f"no page of a long chart is empty: {len(pages)} pages"
    told = "\n".join(pages)
    yield all(re.search(rf"\bprocess{pid}\b", told) for pid in range(2, 14)), "each lane of a wide chart is on paper"
    missing = [at for at in range(1, 601) if not re.search(rf"\b{at}\b", told)]
    yield not missing, f"each row of a long chart is on paper, but for {missing[:9]}"


class Charts(Case):
    def test_stories(self):
        self.hold(checks_of_stories())

    def test_windows(self):
        self.hold(checks_of_windows())

    def test_limits(self):
        self.hold(checks_of_limits())

    def test_sends(self):
        self.hold(checks_of_sends())

    def test_any_lines(self):
        self.hold(checks_of_any_lines())

    def test_pictures(self):
        self.hold(checks_of_pictures(self.folder))

    def test_page(self):
        need("chromium", "bash")
        self.hold(checks_of_page(self.folder))

    def test_print(self):
        need("chromium", "pdftotext")
        self.hold(checks_of_print(self.folder))
