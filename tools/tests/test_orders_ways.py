"""What is seen of endings and what they fail of, in each way: the program xousorders against the slow search."""

import subprocess
import tempfile

from xous.commands.test_orders import asked_of, parser, search
from xous.runs import found, orders

from .frame import EXAMPLES, Case, need_program, need_searcher
from .test_orders import FEW, checks_of_orders, given_of, is_read

SEEN_SO = (
    "--hex", "--see console,exits --one", "--see exits,waits --hex --fails waits", "--see exits,servers --fails exit --fails fault",
    "--fails console=Ok --fails exit --fails fault", "--fails waits=3 --fails waits=2.2 --fails console-not=Ok --one", "--fails exit --fails console=\u00e9",
)  # fmt: skip
# A search without exits is one of its own, as its nodes don't keep them.
WITHOUT_EXITS = ("--see console", "--see waits,servers --fails waits --one", "--see waits --hex", "--see servers --fails console=h --fails differ")
# Searches that end at the first failure, and how many nodes of the last level it takes at most.
FAILING_ORDERS = {
    "orders/late.image --fails fault": FEW,
    "orders/sum.image --fails exit": FEW,
    "orders/desk.image --fails waits": 100,
    "race/image --fails console-not=x": FEW,
    "orders/lost.image --preemptions 1 --fails console-not=3": 70,
    "orders/store.image --preemptions 1 --fails waits": 400,
}


def checks_of_same(searcher, image, words, told, is_asked):
    ran = subprocess.run([searcher, str(image), *words], capture_output=True, text=True, check=False)
    name = f"xousorders {image.relative_to(EXAMPLES)} {' '.join(words)}"
    wanted = told.status(is_asked)
    yield ran.returncode == wanted and is_read(ran.stdout), f"{name}: status {ran.returncode}: {ran.stdout[-200:]}{ran.stderr}"
    if is_read(ran.stdout):
        differing = list(found.differences(told, found.read(ran.stdout.splitlines())))
        yield not differing, f"{name}: {differing}"


def checks_of_ways(program, searcher):
    """The slow search of an image is made once, and told in each way; those without exits are made anew."""
    for name in ("race/image", "lend/image", "orders/late.image", "orders/sum.image"):
        image = EXAMPLES / name
        with tempfile.TemporaryDirectory() as folder:
            whole = orders.Search(program, str(image), orders.Asked(), folder).search()
        for options in SEEN_SO:
            words = options.split()
            whole.asked = asked_of(parser().parse_args([program, "--search", str(image), *words]))
            yield from checks_of_same(searcher, image, words, whole.told()[0], whole.asked.asks_for_failures())
    for name, options in ((name, options) for name in ("hello/image", "orders/late.image") for options in WITHOUT_EXITS):
        asked = asked_of(parser().parse_args([program, "--search", name, *options.split()]))
        told, _ = search(program, str(EXAMPLES / name), asked)
        yield from checks_of_same(searcher, EXAMPLES / name, options.split(), told, asked.asks_for_failures())


def checks_of_first(program, searcher):
    """A search that ends sooner for a failure tells one whose order fails so."""
    for searched, most in FAILING_ORDERS.items():
        words = f"{searched} --first"
        image, given, options = given_of(program, words)
        with tempfile.TemporaryDirectory() as folder:
            command = [searcher, str(image), *options, "--write", folder]
            ran = subprocess.run(command, capture_output=True, text=True, check=False)
            good = ran.returncode == 1 and is_read(ran.stdout)
            yield good, f"xousorders {words}: status {ran.returncode}: {ran.stdout[-200:]}{ran.stderr}"
            if good:
                told = found.read(ran.stdout.splitlines())
                is_told = given.fails[0] in [ending.fails for ending in told.endings] and told.states <= most
                yield is_told, f"the first failure of {words}: {told}"
                yield from checks_of_orders(program, image, asked_of(given), told, folder, f"xousorders {words}")


class Ways(Case):
    takes_long = True

    def test_ways(self):
        self.hold(checks_of_ways(need_program(), need_searcher()))

    def test_first(self):
        self.hold(checks_of_first(need_program(), need_searcher()))
