"""Tries edits of a crate, as many in one check as stand in different functions."""

import collections

from . import checks, functions, reading

REFUSED, NOT_REFUSED, BAD, NAME_ALONE, UNSURE = "refused", "NOT REFUSED", "BAD", "A NAME ALONE", "no verdict"


class Trial:
    """An edit, the function in which it stands, and what its try came to."""

    def __init__(self, crate, path, all_functions):
        self.name = str(path.relative_to(crate.folder.parent))
        self.function, self.symbols, self.verdict, self.why, self.keep = None, set(), None, "", None
        try:
            self.pairs = [*reading.pairs_of(path.read_text())]
            reading.texts_with(crate.folder, self.pairs)
        except ValueError as error:
            self.end(BAD, str(error))
        else:
            self.function = functions.function_with(all_functions, crate.folder, self.pairs)

    def end(self, verdict, why):
        self.verdict, self.why = verdict, why
        if self.keep and verdict != UNSURE:  # which is tried again
            self.keep(self)


def trials_of(crate, folders, word):
    """The edits of the crate, or those whose names have a word in them."""
    sources = sorted((crate.folder / "src").rglob("*.rt"))
    all_functions = [it for path in sources for it in functions.functions_of(str(path.relative_to(crate.folder)), path.read_text())]
    files = (path for path in reading.files_of(crate.folder, folders) if reading.NAME.fullmatch(path.name) and word in path.stem)
    return [Trial(crate, path, all_functions) for path in files]


def rounds_of(trials):
    """The checks that are planned: edits of different functions go together, and one that stands in no function goes alone."""
    of_function, alone = collections.defaultdict(list), []
    for trial in trials:
        if not trial.verdict and trial.function:
            of_function[trial.function].append(trial)
        elif not trial.verdict:
            alone.append([trial])
    most = max(map(len, of_function.values()), default=0)
    return [[of[number] for of in of_function.values() if number < len(of)] for number in range(most)] + alone


def paths_of(trials):
    """The functions that a check has to prove for these edits; none where one stands in no function, and the whole crate is to be proved."""
    paths = [trial.function and trial.function.path() for trial in trials]
    return [*dict.fromkeys(paths)] if all(paths) else []


def texts_with_all(crate, trials):
    """The texts of the files that the edits change; None where one of them makes the text of another twice."""
    try:
        return reading.texts_with(crate.folder, [pair for trial in trials for pair in trial.pairs])
    except ValueError:
        return None


def try_round(crate, trials, jobs):
    """Tries edits in one check. Where it can't tell them apart, it tries fewer at once. Gives the number of checks."""
    texts = texts_with_all(crate, trials)
    if not texts:
        return try_parts(crate, trials, 1, jobs)
    said = checks.check_with(crate, texts, paths_of(trials), jobs)
    if len(trials) == 1:
        judge_alone(trials[0], said)
        return 1
    if not said.has_verdict():
        return 1 + try_parts(crate, trials, (len(trials) + 1) // 2, jobs)
    if not is_told_apart(trials, said):
        return 1 + try_parts(crate, trials, 1, jobs)
    for trial in trials:
        judge(trial, said, said.fell())
    return 1 + try_parts(crate, [trial for trial in trials if not trial.verdict], 1, jobs)


def try_parts(crate, trials, size, jobs):
    return sum(try_round(crate, trials[at : at + size], jobs) for at in range(0, len(trials), size))


def judge(trial, said, fell):
    """An edit is refused where its own function falls, and isn't where that is still proved. Else it has no verdict yet."""
    own = sorted(trial.symbols & fell)
    if own and not said.functions[own[0]].startswith("could not tell"):
        why, only_names = said.reason(own[0])
        trial.end(NAME_ALONE if only_names else REFUSED, why)
    elif trial.symbols and all(said.functions.get(symbol, "").startswith("proved") for symbol in trial.symbols):
        trial.end(NOT_REFUSED, f"{', '.join(sorted(trial.symbols))} is still proved")


def judge_alone(trial, said):
    last = said.lines[-1]
    if said.status == 0:
        trial.end(NOT_REFUSED, f"{', '.join(sorted(trial.symbols)) or 'the crate'} is still proved")
    elif said.status < 0 or said.status == 3:
        trial.end(UNSURE, f"the check ended with status {said.status}: {last}")
    elif not said.has_verdict():
        trial.end(BAD, next((line for line in said.lines if "error" in line), last))
    else:
        fell = said.fell()
        judge(trial, said, fell)
        if not trial.verdict and fell:
            trial.end(UNSURE if trial.symbols else REFUSED, f"another function fell: {said.reason(min(fell))[0]}")
        elif not trial.verdict:
            trial.end(UNSURE, f"no function fell: {last}")


def name_functions(crate, trials, said):
    for trial in trials:
        if trial.function:
            trial.symbols = functions.symbols_of(trial.function, crate.name, said.functions)


def is_told_apart(trials, said):
    """Whether each of the edits stands in a function that the check names, and nothing else fell."""
    return all(trial.symbols for trial in trials) and not said.fell() - set().union(*(trial.symbols for trial in trials))


def try_first(crate, trials, first, jobs):
    """Tries edits in a check from nothing, which also proves what the functions of all edits rest on, for the checks that follow. These
    are proved as they stand only where that check can't tell its edits apart; ValueError where they aren't proved then."""
    paths = paths_of([trial for trial in trials if trial.function])
    texts = texts_with_all(crate, first)
    said = texts and checks.check_with(crate, texts, paths, jobs, is_first=True)
    if said and said.has_verdict():
        name_functions(crate, trials, said)
        if is_told_apart(first, said):
            for trial in first:
                judge(trial, said, said.fell())
            return 1 + try_parts(crate, [trial for trial in first if not trial.verdict], 1, jobs)
    base = checks.check_with(crate, {}, paths, jobs, is_first=True)
    if base.status:
        raise ValueError(f"{crate.name} isn't proved as it stands: {base.lines[-1]}")
    name_functions(crate, trials, base)
    return 2 + try_parts(crate, first, 1 if len(first) < 4 else len(first) // 2, jobs)


def try_all(crate, trials, jobs):
    """Tries the edits, and gives the number of checks; ValueError where the crate isn't proved as it stands."""
    rounds = rounds_of(trials)
    if not rounds:
        return 0
    checks.build_below(crate)
    return try_first(crate, trials, rounds[0], jobs) + sum(try_round(crate, it, jobs) for it in rounds[1:])
