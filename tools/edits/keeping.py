"""Verdicts that a file keeps, so that a run that was stopped goes on where it stopped: a line for each edit as soon as it has one."""

import hashlib

from . import checks

HEADER = "edit\tverdict\twhy\tdigest\n"


def digest_of(crate, text):
    """What a verdict is about: the crate's own texts, and the edit's."""
    digest = hashlib.sha256(text)
    for part in checks.PARTS:
        for path in sorted((crate.folder / part).rglob("*")):
            if path.is_file():
                digest.update(f"\0{path.relative_to(crate.folder)}\0".encode() + path.read_bytes())
    return digest.hexdigest()


class Kept:
    """The verdicts of a file, by the digest of what they are about."""

    def __init__(self, path):
        self.path, self.known = path, {}
        if not path.exists():
            path.write_text(HEADER)
        text = path.read_text()
        if not text.startswith(HEADER):
            raise ValueError(f"{path} isn't a file of --keep, whose first line is: {HEADER.rstrip()}")
        if not text.endswith("\n"):  # the last line of a run that was stopped may be cut
            with path.open("a") as file:
                file.write("\n")
        for line in text.splitlines()[1:]:
            name, verdict, why, digest = (line.split("\t") + [""] * 4)[:4]
            self.known[name, digest] = verdict, why

    def take(self, crate, trials):
        """Gives the trials that have no verdict yet those that are known, and keeps the verdicts of the others as they come. How many
        are known."""
        count = 0
        for trial in trials:
            if trial.verdict:
                continue
            digest = digest_of(crate, (crate.folder.parent / trial.name).read_bytes())
            if (trial.name, digest) in self.known:
                trial.end(*self.known[trial.name, digest])
                count += 1
            else:
                trial.keep = lambda trial, digest=digest: self.add(trial, digest)
        return count

    def add(self, trial, digest):
        with self.path.open("a") as file:
            file.write("\t".join([trial.name, trial.verdict, " ".join(trial.why.split()), digest]) + "\n")
