#!/usr/bin/python3
"""Adds to a package that `cargo new` or `cargo init` made what its image has.

    new.py new|init WORDS-OF-CARGO ...
"""

import pathlib
import sys

WITH_VALUE = {"--vcs", "--edition", "--name", "--registry", "--color", "--config", "-Z"}
TEXT = """
# The image that `cargo run` and `cargo test` play: the servers in order of pid, and then the program.
[package.metadata.xous]
servers = ["log", "ticktimer"]
ram = "16M"
"""


def folder(words):
    """The folder that the words name; `cargo init` takes that of the caller if there is none."""
    places, words = [], iter(words)
    for word in words:
        if word in WITH_VALUE:
            next(words, None)
        elif not word.startswith("-"):
            places.append(word)
    return pathlib.Path(places[0] if places else ".")


def main(words):
    manifest = folder(words[1:]) / "Cargo.toml"
    if manifest.exists() and "[package.metadata.xous]" not in manifest.read_text():
        with manifest.open("a") as file:
            file.write(TEXT)


if __name__ == "__main__":
    main(sys.argv[1:])
