"""Where the bodies of functions stand in a crate's source, by the layout that `rt fmt` gives it."""
import functools
import os
import re

TYPE = re.compile(r"^(?:pub(?:\([a-z ]+\))? )?(?:struct|enum|union) (\w+)", re.M)
FUNCTION = re.compile(r"( *)(?:pub(?:\([a-z ]+\))? )?(?:unsafe )?fn (\w+)")


class Body:
    """A function's body: the function's name as a check prints it, its file, and the numbers of the first and the last line
    of the function, and of the lines that open and close its body, from 0."""

    def __init__(self, name, path, first, opening, closing):
        self.name, self.path, self.first, self.opening, self.closing = name, path, first, opening, closing

    def proofs(self):
        """The folder of its proof's files."""
        return f"proofs/{self.name.replace('::', '/')}/"

    def has_line(self, number):
        return self.first <= number <= self.closing


def after_brackets(text):
    """What follows a list of type arguments at a text's beginning, if one stands there."""
    depth = 0
    for at, char in enumerate(text):
        depth += (char == "<") - (char == ">" and text[at - 1 : at] != "-")
        if depth == 0:
            return text[at + 1 :] if char == ">" else text
    return text


def words_of(path):
    """The words of a type's last name and of its arguments, as a check joins them, or None where it has other types than names."""
    if not re.fullmatch(r"[\w:<>, ]+", path):
        return None
    return "".join(re.findall(r"\w+", re.sub(r"\w+::", "", path)))


def module_of(path):
    return [it for it in path[len("src/") : -len(".rt")].split("/") if it not in ("lib", "main", "mod")]


@functools.cache
def homes_of(folder):
    """The module of each type of a crate whose name no other has."""
    found, twice = {}, set()
    for at, _, names in os.walk(f"{folder}/src"):
        for name in names:
            path = os.path.join(at, name)
            with open(path, encoding="utf-8") as file:
                for kind in TYPE.findall(file.read()):
                    twice.update([kind] if kind in found else [])
                    found[kind] = module_of(os.path.relpath(path, folder))
    return {kind: module for kind, module in found.items() if kind not in twice}


def owner_of(line, module, homes):
    """The path that a check gives an `impl` block, or None where it isn't known: a type's own calls stand where the type does."""
    rest = after_brackets(re.sub(r"^(unsafe )?impl", "", line)).strip()
    rest = re.split(r" where\b| \{", rest)[0].strip()
    trait, _, kind = rest.rpartition(" for ")
    owner = re.match(r"(?:\w+::)*(\w+)", kind)
    if owner is None:
        return None
    if not trait:
        return [*homes[owner[1]], owner[1]] if owner[1] in homes else None
    words = words_of(trait)
    return None if words is None else [*module, owner[1] + words]


def bodies_of(path, lines, homes):
    """The bodies in a file, each behind those that stand before it. A function without a body of its own lines has none."""
    module = module_of(path)
    found, owner = [], None
    for number, line in enumerate(lines):
        if line.startswith(("impl", "unsafe impl")):
            owner = owner_of(line, module, homes)
        elif line[:1] not in (" ", ""):
            owner = None
        is_function = FUNCTION.match(line)
        if not is_function:
            continue
        indent = is_function[1]
        within = owner if indent else module
        if within is None or len(indent) > 4:
            continue
        opening = ending(lines, number, indent, "{")
        closing = opening and ending(lines, opening + 1, indent, "}")
        if closing:
            found.append(Body("::".join([*within, is_function[2]]), path, number, opening, closing))
    return found


def ending(lines, first, indent, what):
    """The first line from one on that stands at an indent and ends with what opens or closes a body, if no other line does before."""
    for number in range(first, len(lines)):
        line = lines[number]
        if not line.strip() or len(line) - len(line.lstrip()) > len(indent):
            continue
        if not line.startswith(indent) or line.rstrip().endswith((";", "{}")):
            return None
        if what == "}":
            return number if line.strip() == "}" else None
        if line.rstrip().endswith("{"):
            return number
        if number > first and not re.match(r" *(>|\)|where\b)", line):
            return None
    return None


def body_changed(folder, texts):
    """The one body in which all that an edit changes stands, or None. The edit gives texts by the paths of their files."""
    changed = [path for path in texts if path.startswith("src/")]
    if len(texts) != 1 or len(changed) != 1:
        return None
    path = changed[0]
    with open(os.path.join(folder, path), encoding="utf-8") as file:
        old = file.read().split("\n")
    new = texts[path].split("\n")
    if len(old) != len(new):
        return None
    places = [at for at, line in enumerate(old) if line != new[at]]
    held = [it for it in bodies_of(path, old, homes_of(folder)) if all(it.opening <= at < it.closing for at in places)]
    if len(held) != 1:
        return None
    body = held[0]
    balanced = all(old[at].count(it) - new[at].count(it) == old[at].count("}" if it == "{" else ")") - new[at].count("}" if it == "{" else ")")
                   for at in places for it in "{(")
    opened = body.opening not in places or new[body.opening].startswith(old[body.opening])
    return body if balanced and opened else None
