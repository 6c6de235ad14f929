#!/usr/bin/env python3
"""Lists the clauses of all crates, as tables in Markdown: docs/clauses.md is what it writes.

usage, at the top of the repository:
  docs/clauses.py                  writes the page to standard output
  docs/clauses.py --cited PAGE..   tells what these pages cite that is not there, and ends with 1 where it is so

A page cites a clause as `crate::function` (`label`, `label`), and a field of a definition as `field` of `Record`. The
README of a crate says `label` of `function`, where it may be one of its own that is not exported, which is passed over.
A law is cited as law `lemma`, several as laws `lemma`, `lemma`.
"""

import glob
import os
import re
import sys

NAME = r"[A-Za-z_][A-Za-z_0-9]*"
LONGEST_TEXT = 100
GHOST_FIELDS = ("invariant", "lawful", "from_gives")
HEAD = """# The clauses of all crates

*Made by `docs/clauses.py`; don't edit it by hand. `tests/docs.sh` compares the two.*

Each row is a clause of a function that a crate exports, or of a trait, or of a trait's implementation; in the order of
`crates.txt`. An implementation meets the clauses of its trait too, which stand in the rows of the trait. A clause
without a label is written `(contract)`; `invariant` is what holds of each value of a type. The clause's text is there
where it is short or cites no definition; else the definitions that it cites, with their file below `crates/`. In
[promises.md](promises.md) stands what these clauses come to.

Behind a crate's clauses stand its laws: lemmas on definitions alone, which are proved with the crate and which those
above it rest on. A law's statement stands in the file that is named, below the line that says it.
"""


def read(path):
    with open(path, encoding="utf-8") as file:
        return file.read()


def without_comments(text):
    """Returns the text with its line comments, strings and characters blanked out, as long as it was."""
    pattern = re.compile(r"""//[^\n]*|"(?:\\.|[^"\\])*"|'(?:\\[^\n]|[^\n'\\])'""", re.DOTALL)
    return pattern.sub(lambda found: re.sub(r"[^\n]", " ", found.group()), text)


def end_of_block(plain, start):
    """Returns the place behind the brace that closes the one at this place."""
    depth = 0
    for at in range(start, len(plain)):
        if plain[at] == "{":
            depth += 1
        elif plain[at] == "}":
            depth -= 1
            if depth == 0:
                return at + 1
    raise ValueError("a brace is not closed")


class Source:
    """A file of a crate: its text, and which definitions its names are."""

    def __init__(self, path):
        self.text = read(path)
        self.plain = without_comments(self.text)
        self.names = {}
        for where, names in re.findall(r"ghost use Rattle\.([\w.]+)\.\{([^}]*)\}", self.text):
            parts = where.split(".")
            if parts[0] == "std" or "declared" in parts or parts[1] not in ("specs", "proofs"):
                continue
            for name in names.split(","):
                words = name.split()
                if words:
                    self.names.setdefault(words[-1], (".".join(parts), words[0]))

    def clause(self, start, end):
        return " ".join(self.text[start:end].split())


def definition(where, name):
    """Returns the file below crates/ that has a definition, also where the one that is named hands it on."""
    crate, folder, *rest = where.split(".")
    if not os.path.isdir(f"crates/{crate}"):
        return f"{crate}, of the kit"
    path = f"{crate}/{folder}/{'/'.join(rest)}.antt"
    text = read("crates/" + path)
    if re.search(rf"^ *(?:[a-z]+ )*pub (?:record |data )?{name}\b|^  {name} :", text, re.MULTILINE):
        return path
    for further, names in re.findall(r"^pub use Rattle\.([\w.]+)\.\{([^}]*)\}", text, re.MULTILINE):
        if name in re.split(r"[\s,]+", names):
            return definition(further, name)
    return None


def cited(source, text):
    """Returns the definitions that a clause cites, each as its file and its name."""
    bound = set()
    for names in re.findall(r"λ([^.]*)\.", text) + re.findall(r"\(([\w\s]+) :", text):
        bound.update(names.split())
    found = {}
    for match in re.finditer(rf"(?<![\w.]){NAME}(?![\w])", text):
        name = match.group()
        if name in source.names and name not in bound:
            where, real = source.names[name]
            path = definition(where, real)
            if path is None:
                raise ValueError(f"no definition of {real} in {where}")
            found.setdefault(path, []).append(real)
    return {path: list(dict.fromkeys(names)) for path, names in found.items()}


class Function:
    """A function with the labels, the places and the texts of its clauses."""

    def __init__(self, name, is_public, clauses, end):
        self.name = name
        self.is_public = is_public
        self.clauses = clauses
        self.end = end


def function_at(source, match):
    """Returns the function whose head begins here."""
    plain = source.plain
    at = match.end()
    depth = 0
    clauses = []
    head = re.compile(rf"(ensures|requires)\b\s*({NAME})?\s*\{{")
    while True:
        clause = head.match(plain, at)
        if clause and depth == 0 and not re.match(r"\w", plain[at - 1]):
            start = clause.end() - 1
            end = end_of_block(plain, start)
            if clause.group(1) == "ensures":
                clauses.append((clause.group(2) or "(contract)", source.clause(start + 1, end - 1)))
            at = end
            continue
        sign = plain[at]
        if sign in "([":
            depth += 1
        elif sign in ")]":
            depth -= 1
        elif sign == ";" and depth == 0:
            return Function(match.group(2), bool(match.group(1)), clauses, at + 1)
        elif sign == "{" and depth == 0:
            return Function(match.group(2), bool(match.group(1)), clauses, end_of_block(plain, at))
        at += 1


def functions_in(source, start, end):
    """Returns the functions and the ghost clauses of a block, in their order."""
    head = re.compile(rf"(pub(?:\(\w+\))?\s+)?fn\s+({NAME})")
    ghost = re.compile(rf"ghost\s+({NAME})\s*[:=]\s*\{{")
    found = []
    at = start
    while at < end:
        if not re.match(r"\w", source.plain[at - 1] if at else " "):
            match = head.match(source.plain, at)
            if match:
                function = function_at(source, match)
                if "(" in (match.group(1) or ""):
                    function.is_public = False
                found.append(function)
                at = function.end
                continue
            match = ghost.match(source.plain, at)
            if match:
                last = end_of_block(source.plain, match.end() - 1)
                if match.group(1) in GHOST_FIELDS:
                    clause = (match.group(1), source.clause(match.end(), last - 1))
                    found.append(Function(None, True, [clause], last))
                at = last
                continue
        at += 1
    return found


def blocks_of(source):
    """Returns the blocks at the top of a file that hold functions, as what they begin with and from where to where."""
    head = re.compile(r"(pub )?(impl|trait|enum|struct|mod|fn)\b([^;{]*)")
    found = []
    at = 0
    while at < len(source.plain):
        starts_line = at == 0 or source.plain[at - 1] == "\n"
        match = head.match(source.plain, at) if starts_line else None
        if not match:
            at += 1
            continue
        if match.group(2) == "fn":
            function = function_at(source, re.compile(rf"(pub )?fn\s+({NAME})").match(source.plain, at))
            found.append(("fn", function, at, function.end))
            at = function.end
        elif source.plain[match.end()] == ";":
            at = match.end()
        else:
            end = end_of_block(source.plain, match.end())
            found.append((match.group(2), " ".join(match.group(3).split()), match.end() + 1, end - 1))
            at = end
    return found


def without_generics(text):
    """Returns a head without what stands in angle brackets."""
    depth = 0
    kept = []
    for sign in text:
        depth += sign == "<"
        if depth == 0:
            kept.append(sign)
        depth -= sign == ">"
    return "".join(kept).strip()


def exports(crate):
    """Returns the names that a crate exports, and its public modules; None where it is a program."""
    path = f"crates/{crate}/src/lib.rt"
    if not os.path.exists(path):
        return None, []
    plain = without_comments(read(path))
    names = set(re.findall(rf"^pub (?:enum|struct|trait|fn|const) ({NAME})", plain, re.MULTILINE))
    for several, one in re.findall(r"^pub use [\w:]+?::(?:\{([^}]*)\}|(\w+));", plain, re.MULTILINE):
        for name in (several or one).split(","):
            if name.split():
                names.add(name.split()[-1])
    return names, re.findall(rf"^pub mod ({NAME});", plain, re.MULTILINE)


def files_of(crate):
    """Returns a crate's files in the order in which its lib.rt or main.rt names them."""
    top = "lib" if os.path.exists(f"crates/{crate}/src/lib.rt") else "main"
    plain = without_comments(read(f"crates/{crate}/src/{top}.rt"))
    modules = re.findall(rf"^(?:pub )?mod ({NAME});", plain, re.MULTILINE)
    return [(name, f"crates/{crate}/src/{name}.rt") for name in [top, *modules]]


def clauses_of(crate):
    """Returns a crate's rows: function, label, text, definitions."""
    names, modules = exports(crate)
    rows = []
    for module, path in files_of(crate):
        source = Source(path)
        prefix = f"{crate}::{module}::" if module in modules else f"{crate}::"
        for kind, what, start, end in blocks_of(source):
            if kind == "fn":
                if what.is_public and (module in modules or names is None or what.name in names):
                    add_rows(rows, source, prefix + what.name, what)
                continue
            if kind not in ("impl", "trait"):
                continue
            head = without_generics(what.split(":")[0] if kind == "trait" else what)
            trait, _, own = head.rpartition(" for ")
            own = without_generics(own).split(" where")[0].strip()
            if not (module in modules or names is None or own in names):
                continue
            for function in functions_in(source, start, end):
                if kind == "impl" and not trait and not function.is_public:
                    continue
                if names is None and not function.name and function.clauses[0][0] == "from_gives":
                    continue
                add_rows(rows, source, f"{prefix}{own}" + (f"::{function.name}" if function.name else ""), function)
    return rows


def add_rows(rows, source, name, function):
    for label, text in function.clauses:
        rows.append((name, label, text, cited(source, text)))


def laws_of(crate):
    """Returns a crate's laws: lemma, what it says, file."""
    rows = []
    for path in sorted(glob.glob(f"crates/{crate}/proofs/**/*.antt", recursive=True)):
        for text, name in re.findall(rf"^ *-- Law: ([^\n]*)\n *pub ({NAME}) :", read(path), re.MULTILINE):
            rows.append((name, text, path.removeprefix("crates/")))
    return rows


def crates():
    return re.findall(r"^([a-z_]+):", read("crates.txt"), re.MULTILINE)


def page(rows_by_crate):
    lines = [HEAD]
    for crate, rows in rows_by_crate.items():
        laws = laws_of(crate)
        if not rows and not laws:
            continue
        lines.append(f"## {crate}\n")
        if rows:
            lines.append("| function | label | says |\n|---|---|---|")
            for name, label, text, definitions in rows:
                shown = label if label == "(contract)" else f"`{label}`"
                lines.append(f"| `{name}` | {shown} | {saying(text, definitions)} |")
            lines.append("")
        if laws:
            lines.append("| law | says | stands in |\n|---|---|---|")
            lines += [f"| `{name}` | {text} | {path} |" for name, text, path in laws]
            lines.append("")
    return "\n".join(lines).rstrip() + "\n"


def saying(text, definitions):
    """Returns a clause's text where it is short, and the definitions that it cites."""
    parts = []
    if len(text) <= LONGEST_TEXT or not definitions:
        ticks = "``" if "`" in text else "`"
        parts.append(f"{ticks}{text}{ticks}".replace("|", "\\|"))
    for path, names in definitions.items():
        parts.append(", ".join(f"`{name}`" for name in names) + f" ({path})")
    return "; ".join(parts)


def fields():
    """Returns the fields of each record of specs/, by its name."""
    found = {}
    for path in glob.glob("crates/*/specs/**/*.antt", recursive=True):
        name = None
        for line in read(path).split("\n"):
            record = re.match(rf"\s*pub record ({NAME})", line)
            if record:
                name = record.group(1)
            elif line and not line.startswith((" ", "--")):
                name = None
            field = re.match(rf"\s+pub ({NAME}) :", line)
            if name and field:
                found.setdefault(name, set()).add(field.group(1))
    return found


def strays(path, labels, records, laws):
    """Returns what a page cites that is not there, and how much it cites."""
    text = " ".join(read(path).split())
    owners = {name: set(found) for name, found in records.items()}
    for name, found in labels.items():
        for part in name.split("::")[1:]:
            owners.setdefault(part, set()).update(found)
    pairs = []
    for owner, listed in re.findall(r"`([a-z_]+(?:::\w+)+)` \(([^)]*)\)", text):
        pairs += [(label, owner, labels.get(owner, ())) for label in re.findall(r"`(\w+)`", listed)]
    for listed, owner in re.findall(r"((?:`\w+`,? (?:and )?)+)of `(\w+)`", text):
        if path.startswith("crates/") and owner not in owners:
            continue
        pairs += [(label, owner, owners.get(owner, ())) for label in re.findall(r"`(\w+)`", listed)]
    missing = [f"`{label}` of `{owner}`" for label, owner, there in pairs if label not in there]
    for listed in re.findall(r"\blaws? ((?:`\w+`(?:,? and |, )?)+)", text):
        names = re.findall(r"`(\w+)`", listed)
        missing += [f"the law `{name}`" for name in names if name not in laws]
        pairs += names
    return missing, len(pairs)


def main():
    rows_by_crate = {crate: clauses_of(crate) for crate in crates()}
    if sys.argv[1:2] != ["--cited"]:
        sys.stdout.reconfigure(encoding="utf-8")
        sys.stdout.write(page(rows_by_crate))
        return 0
    labels = {}
    for rows in rows_by_crate.values():
        for name, label, _, _ in rows:
            labels.setdefault(name, set()).add(label)
    status = 0
    laws = {name for crate in crates() for name, _, _ in laws_of(crate)}
    for path in sys.argv[2:]:
        missing, count = strays(path, labels, fields(), laws)
        if count == 0 and not path.startswith("crates/"):
            missing = ["no clause at all"]
        for what in missing:
            print(f"{path} cites what is not there: {what}")
            status = 1
    return status


if __name__ == "__main__":
    sys.exit(main())
