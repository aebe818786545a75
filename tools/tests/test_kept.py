"""What is kept in the tree: one place for each thing that tools share, examples that can be copied, Rust's rules in the kit."""

import pathlib
import re
from collections import Counter

from .frame import EXAMPLES, ROOT, TOOLS, Case

KIT = EXAMPLES / "kit"
CRATE = KIT / "rust" / "xous" / "src"
# What several tools had of their own once.
SHARED = ("class Refusal", "class Fault", "def check_number", "def elf_library", "def identifier_text", "class Parser", "def find_program")
COPIED = ("hello", "scalars", "lend", "forward")


def texts(folder, pattern):
    return {path: path.read_text() for path in sorted(pathlib.Path(folder).glob(pattern))}


class Package(Case):
    def test_one_of_each(self):
        found = Counter()
        for text in texts(TOOLS / "xous", "**/*.py").values():
            found.update(re.findall(r"^((?:class|def) \w+)", text, re.M))
        self.assertEqual({name: found[name] for name in SHARED}, dict.fromkeys(SHARED, 1))


class Kits(Case):
    def test_examples_to_copy(self):
        """They make each call by its function that says its error, which the compiler makes one look at."""
        headers = "\n".join((KIT / name).read_text() for name in ("xous.h", "calls.h"))
        plain = re.findall(r"^XOUS_INLINE struct xous_reply (xous_\w+)\(", headers, re.M)
        self.assertGreater(len(plain), 25)
        for name in COPIED:
            for path, text in texts(EXAMPLES / name, "*.[ch]").items():
                self.assertEqual(set(re.findall(r"\w+", text)) & set(plain), set(), path)
        self.assertIn("warn_unused_result", (KIT / "checked.h").read_text())

    def test_unsafe_code(self):
        """Each unsafe block of the kit's crate says why it keeps the rules."""
        count = 0
        for path, text in texts(CRATE, "*.rs").items():
            lines = [line.strip() for line in text.splitlines()]
            for number, line in enumerate(lines):
                if not re.search(r"\bunsafe \{", line) or line.startswith("//"):
                    continue
                first = number
                while lines[first - 1].startswith("// "):
                    first -= 1
                self.assertIn("// SAFETY: ", "\n".join(lines[first:number]), f"{path}:{number + 1}")
                count += 1
        self.assertGreater(count, 20)

    def test_lends_make_no_reference(self):
        """A lend passes the address and the length of its pages, and no slice of them."""
        text = (CRATE / "send.rs").read_text()
        for name in ("lend", "lend_mut"):
            body = text.split(f"pub fn {name}(")[1].split("\n    }")[0]
            self.assertIn("pages.span()", body)
        self.assertNotIn("[u8]", text)

    def test_table_of_functions(self):
        """The kit has the functions that docs/std.md sets beside those of xous-core."""
        crate = "\n".join(texts(CRATE, "*.rs").values())
        page = (ROOT / "docs" / "std.md").read_text().split("| xous-core | Kit |")[1].split("\n\n")[0]
        cells = [row.split("|")[2] for row in page.splitlines()[2:]]
        words = [word for cell in cells for word in re.findall(r"`([^`]+)`", cell)]
        self.assertGreater(len(words), 20)
        for word in words:
            last = re.match(r"[\w:]+", word)[0].split("::")[-1]
            is_server = (KIT / "rust" / "servers" / f"{word}.rs").exists()
            is_there = re.search(rf"\b(?:fn|struct|enum|type) {last}\b", crate) is not None
            self.assertTrue(is_there or is_server or word.startswith("std::") or word.endswith("!"), word)
