#!/usr/bin/env python3
"""Brings the repository's own names to today's spelling: words in snake case, where they had hyphens or humps.

    tools/snake_names.py        once, at the top of the repository, after the toolchain's port.py

Turned are names in .antt files, in the clauses and ghost imports of .rt files, and those that a comment there has between backticks. A
name that a file takes from the toolchain's libraries keeps its spelling there, and so do the names that the toolchain makes of a
function's goals, strings, numbers and every other name of a .rt file. Types, modules and records keep their capital, constants theirs,
with underscores. Names of one file that come to be the same are printed."""
import pathlib, re, sys

NAME = re.compile(r"[A-Za-zμ_+#κ][A-Za-zμκ0-9_·'₀-₉→≤≡-]*")
HUMP = re.compile(r"^[a-z]+[a-z0-9]*[A-Z]")
USE = re.compile(r"\buse\s+([\w·+-]+(?:\.[\w·+-]+)*)(?:\.\{([^}]*)\}|\s+as\s+(\w+))?")


# Two names that would be the same as others which stand beside them.
APART = {"outputsIn": "outputs_in_row", "plan-of": "pll_plan_of"}


def turned(word):
    if word in APART:
        return APART[word]
    word = re.sub(r"(?<=[A-Za-z0-9₀-₉'])-(?=[A-Za-z0-9])", "_", word)
    if HUMP.match(word):
        word = re.sub(r"(?<=[a-z0-9])([A-Z])", lambda m: "_" + m.group(1).lower(), word)
    return word


def pieces(text, comment):
    """The text cut into pieces of code, strings (characters too) and comments."""
    mask = re.compile(r'"(?:\\.|[^"\\])*"|b?\'(?:\\.|[^\'\\])\'' + "|" + comment + r"[^\n]*")
    at = 0
    for m in mask.finditer(text):
        yield "code", text[at:m.start()]
        yield ("comment" if m.group(0).startswith(comment) else "string"), m.group(0)
        at = m.end()
    yield "code", text[at:]


def of_libraries(text, own):
    """The names that a file takes from modules which are not the repository's, and the names it gives to such modules."""
    names, modules = set(), set()
    for path, listed, alias in USE.findall(text):
        parts = path.split(".")
        if len(parts) > 1 and parts[0] == "Rattle" and parts[1] in own:
            if "Tie" in parts or "Statement" in parts:
                modules.add(alias or parts[-1])
            continue
        names.update(w.strip().split(" ")[0] for w in listed.split(",") if w.strip())
        modules.add(alias or parts[-1])
    return names, modules


class Turner:
    def __init__(self, own, names, modules):
        self.own, self.names, self.modules, self.met = own, names, modules, {}

    def word(self, text, m):
        word = m.group(0)
        before = re.search(r"([\w·+-]+)\.$", text[:m.start()])
        if word in self.names or word.startswith(("Need-", "#")) or (before and before.group(1) in self.modules):
            return word
        new = turned(word)
        if new != word:
            self.met.setdefault(new, set()).add(word)
        return new

    def code(self, text):
        return NAME.sub(lambda m: self.word(text, m), text)

    def comment(self, text):
        return re.sub(r"`([^`\n]+)`", lambda m: "`" + self.code(m.group(1)) + "`", text)


def turn(path, own):
    text = path.read_text()
    comment = "//" if path.suffix == ".rt" else "--"
    turner = Turner(own, *of_libraries(text, own))
    out = []
    for kind, piece in pieces(text, comment):
        # an import of a library stands as it is
        if kind == "code":
            at = 0
            for m in USE.finditer(piece):
                parts = m.group(1).split(".")
                if len(parts) > 1 and parts[0] == "Rattle" and parts[1] in own:
                    continue
                out.append(turner.code(piece[at:m.start()]))
                out.append(m.group(0))
                at = m.end()
            out.append(turner.code(piece[at:]))
        else:
            out.append(turner.comment(piece) if kind == "comment" else piece)
    names = set(NAME.findall(text))
    fallen = sorted((new, sorted(old)) for new, old in turner.met.items() if len(old) > 1 or new in names)
    return text, "".join(out), fallen


def turn_page(path, met):
    """A page: what it has between backticks, where that has become a name of the crates and is no request of the desk."""
    requests = set(re.findall(r'(?:call|name =) "([a-z0-9-]+)"', pathlib.Path("crates/desk_requests/specs/Table.antt").read_text()))
    def one(m):
        return "`" + NAME.sub(lambda n: turned(n.group(0)) if turned(n.group(0)) in met and n.group(0) not in requests else n.group(0), m.group(1)) + "`"
    old = path.read_text()
    new = re.sub(r"`([^`\n]+)`", one, old)
    if new != old:
        path.write_text(new)
    return new != old


def main():
    top = pathlib.Path("crates")
    if not top.is_dir():
        sys.exit("snake_names: there is no folder crates/ here: run it at the top of the repository")
    own = {p.name for p in top.iterdir()}
    changed, met = 0, set()
    for path in sorted(top.rglob("*")):
        if path.suffix not in (".antt", ".rt") or "out" in path.parts:
            continue
        old, new, fallen = turn(path, own)
        met |= set(NAME.findall(new))
        for name, before in fallen:
            print(f"the same now in {path}: {name} <- {' '.join(before)}")
        if new != old:
            path.write_text(new)
            changed += 1
    for path in [pathlib.Path("README.md"), *sorted(pathlib.Path("docs").rglob("*.md"))]:
        changed += turn_page(path, met)
    print(f"snake_names: {changed} files")


if __name__ == "__main__":
    main()
