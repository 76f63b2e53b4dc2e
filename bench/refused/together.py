"""Tries several refused edits of a crate by one check, each in the body of another function.

A contract stands between a function and those that call it, so an edit of one body changes the proof of no other function. An
edit counts as refused here only where the check says so of its own function: the function is not proved, it calls nothing that
isn't, and an error or an open goal stands in the function's own lines or in its own proof files. Where anything else is refused
too, nothing is taken from that check."""
import os
import re

import bodies

PLACE = re.compile(r"(?:note: )?(?:\./)?((?:src|specs|proofs)/\S+?):(\d+):\d+: ")
SAID = re.compile(r"(?:fn|struct|enum|impl|trait|union|const|static) (\w+)::(\S+): (.*)")
# What a proof file is told that names what the edit took away, or that cites what is refused.
NAMES = re.compile(r"has no field|is not in scope|has no `|was not admitted")
LEANS = "which is not proved"


class Part:
    """An edit, and the body that it changes."""

    def __init__(self, edit, body, texts):
        self.edit, self.body, self.texts = edit, body, texts


def part_of(edit, folder, read):
    """An edit of one body alone, or None. `read` gives the texts that an edit leaves of the files that it changes."""
    texts, _ = read(edit, folder)
    body = texts and bodies.body_changed(folder, texts)
    return Part(edit, body, texts) if body else None


def names_in(part):
    body = part.body
    return set(re.findall(r"\w+", "\n".join(part.texts[body.path].split("\n")[body.first + 1 : body.closing])))


def meet(one, other):
    """Whether two edits stand in one function, or in two of which one may call the other."""
    names = [it.body.name.rpartition("::")[2] for it in (one, other)]
    return one.body.name == other.body.name or names[1] in names_in(one) or names[0] in names_in(other)


def waves_of(parts):
    """The edits in as few waves as an order along their names gives, so that no two of a wave meet."""
    waves = []
    for part in parts:
        free = next((it for it in waves if not any(meet(part, other) for other in it)), None)
        if free is None:
            waves.append([part])
        else:
            free.append(part)
    return waves


def texts_of(wave, folder):
    """The texts of the files that the edits of a wave leave. Each line is that of the one edit that changes it."""
    made = {}
    for part in wave:
        path = part.body.path
        with open(f"{folder}/{path}", encoding="utf-8") as file:
            was = file.read().split("\n")
        lines = made.setdefault(path, list(was))
        for at, line in enumerate(part.texts[path].split("\n")):
            if line != was[at]:
                lines[at] = line
    return {path: "\n".join(lines) for path, lines in made.items()}


def unknown(wave, output):
    """The edits of a wave whose function a check doesn't know by the name that it has here."""
    missed = re.findall(r"error: `\w+` has no function `(\S+?)`", output)
    return [it for it in wave if it.body.name in missed]


def is_own(part, line):
    """Whether a line of a check names a place in an edit's function or in the files of its proof."""
    place = PLACE.match(line)
    if not place:
        return False
    if place[1] == part.body.path:
        return part.body.has_line(int(place[2]) - 1)
    return place[1].startswith(part.body.proofs())


def is_complaint(line):
    return PLACE.match(line) and (": error" in line or ": it is not proved" in line)


def refusal(part, lines, said):
    """Why an edit is refused by the check of its own function, or None."""
    verdict = said.get(part.body.name, "")
    if not verdict.startswith(("not proved", "no proof")) or LEANS in verdict:
        return None
    own = [it for it in lines if is_own(part, it) and is_complaint(it) and not NAMES.search(it)]
    return own[0] if own else None


def strangers(wave, lines, said):
    """What a check refuses besides the functions of a wave, and those that call them."""
    names = [it.body.name for it in wave]
    for name, verdict in said.items():
        is_part = name in names or any(name.startswith(f"{it}::") for it in names)
        if not verdict.startswith("proved") and not is_part and LEANS not in verdict:
            yield name
    for line in lines:
        if is_complaint(line) and not NAMES.search(line) and not any(is_own(it, line) for it in wave):
            yield line


def verdicts(wave, status, output):
    """For each edit of a wave the line by which it is refused, or None where the check doesn't say. Nothing is said where the
    check came to no verdict on the functions, or refuses others."""
    lines = output.rstrip("\n").split("\n")
    said = {found[2]: found[3] for found in map(SAID.match, lines) if found}
    if status not in (0, 1) or not lines[-1].startswith("only=") or any(True for _ in strangers(wave, lines, said)):
        return None
    return [refusal(it, lines, said) for it in wave]
