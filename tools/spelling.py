#!/usr/bin/env python3
"""One spelling for the repository's own names: words of specs/ and proofs/ in snake case, as in clauses, in edits and in backquotes in documents.

usage: spelling.py apart | snake [FOLDER]

apart, before the kit's own port: where a lemma `entry-at` and a definition `entryAt` would fall together as `entry_at`, the lemma gets the
ending -lem. snake, after it: every other name. Names of functions in src/, of types, of modules and of libraries stay as they are."""
import collections
import os
import re
import sys

TOKEN = re.compile(r"(?<![A-Za-z0-9_'′₀-₉-])[A-Za-z][A-Za-z0-9_'′₀-₉]*(?:-[A-Za-z0-9_'′₀-₉≢≡]+)*[?]?")
DECLARED = re.compile(r"^\s*(?:pub )?(?:(?:abbrev|unfoldable) )?(?:pub )?(?:(?:record|data|ruleset) ([a-zA-Z][^\s:({]*)|([a-zA-Z][^\s:({]*)\s*:(?!:))")
USE = re.compile(r"^(?:pub )?(?:ghost )?use ([^\s{]+?)(?:\.\{([^}]*)\})?;?$")
GENERATED = re.compile(r"^(Inv|InvT|MeasureT|Need|Lts)-|^(loop|returns|decreases|invariant|then|else|in|if)-")


def snake(name):
    name = re.sub(r"(?<=[a-z0-9])([A-Z])(?=[a-z0-9]|$|[-_?'])", lambda m: "_" + m.group(1).lower(), name)
    return name.replace("-", "_")


def spelled_apart(name):
    return name[0].islower() and ("-" in name or re.search("[a-z0-9][A-Z]", name))


def files_of(root, endings):
    for top in ("crates", "docs", "README.md"):
        path = os.path.join(root, top)
        if os.path.isfile(path):
            if path.endswith(endings):
                yield path
            continue
        for folder, subfolders, names in os.walk(path):
            subfolders[:] = sorted(s for s in subfolders if s != "out")
            for name in sorted(names):
                if name.endswith(endings):
                    yield os.path.join(folder, name)


def without_comment(line, mark="--"):
    return re.sub(r"(^|\s)" + mark + ".*", r"\1", line)


class Names:
    def __init__(self, root):
        with open(os.path.join(root, "crates.txt")) as text:
            self.crates = [line.split(":")[0].split()[0] for line in text if line.strip() and not line.startswith("#")]
        self.declared, self.imported = set(), collections.defaultdict(set)
        for path in files_of(root, (".antt",)):
            self.read(path)
        self.own = {n for n in self.declared if spelled_apart(n) and not GENERATED.search(n)}
        self.functions = set()
        for path in files_of(root, (".rt",)):
            with open(path) as text:
                self.functions.update(re.findall(r"\bfn ([a-z_0-9]+)", text.read()))

    def of_repository(self, module):
        return any(re.match(r"Rattle[.·]%s(·|\.)" % crate, module) for crate in self.crates)

    def read(self, path):
        with open(path) as text:
            for line in text:
                line = without_comment(line.rstrip("\n"))
                use = USE.match(line)
                if use:
                    if not self.of_repository(use.group(1)):
                        self.imported[path].update(n.strip().split(" as ")[0] for n in (use.group(2) or "").split(","))
                    continue
                declared = DECLARED.match(line)
                if declared:
                    self.declared.add(declared.group(1) or declared.group(2))


def renamed_in(text, new, skip=()):
    """A name below a module of a library, as Memᴰ.not-nil, stays."""

    def name(m):
        below_library = re.search(r"[^\x00-\x7f]\.$", text[: m.start()])
        return m.group(0) if m.group(0) in skip or below_library else new.get(m.group(0), m.group(0))

    return TOKEN.sub(name, text)


def outside_strings(text, rename):
    parts = re.split(r'("(?:[^"\\]|\\.)*")', text)
    return "".join(p if p.startswith('"') else rename(p) for p in parts)


def in_backquotes(text, rename, camel):
    text = re.sub(r"`[^`]+`", lambda m: rename(m.group(0)), text)
    return camel(text)


def turn(path, new, names):
    """In code each name, in comments and pages a name between backquotes or one that is plainly no English word."""
    camels = {k: v for k, v in new.items() if "-" not in k}
    skip = names.imported.get(path, ())
    mark = "//" if path.endswith(".rt") else "--"
    out = []
    with open(path) as text:
        for line in text:
            if path.endswith(".md"):
                out.append(in_backquotes(line, lambda t: renamed_in(t, new), lambda t: t))
                continue
            if path.endswith(".edit") and not re.match("(old|new): ", line):
                out.append(line)
                continue
            code = without_comment(line.rstrip("\n"), mark)
            comment = line[len(code):] if line.startswith(code) else ""
            if not line.startswith(code):
                code, comment = line, ""
            use = USE.match(code.strip())
            if not (use and not names.of_repository(use.group(1))):
                code = outside_strings(code, lambda t: renamed_in(t, new, skip))
            if path.endswith("Proof.antt"):  # a step of a walk has the name of the function that is called there
                code = re.sub(r"(?<=\.)[a-z0-9_]+(-[a-z0-9_]+)+", lambda m: snake(m.group(0)) if snake(m.group(0)) in names.functions else m.group(0), code)
            out.append(code + in_backquotes(comment, lambda t: renamed_in(t, new), lambda t: renamed_in(t, camels)))
    with open(path, "w") as text:
        text.write("".join(out))


def main():
    if len(sys.argv) not in (2, 3) or sys.argv[1] not in ("apart", "snake"):
        sys.exit("usage: spelling.py apart | snake [FOLDER]")
    root = sys.argv[2] if len(sys.argv) == 3 else "."
    if not os.path.isfile(os.path.join(root, "crates.txt")):
        sys.exit("spelling.py: no crates.txt in " + root)
    names = Names(root)
    if sys.argv[1] == "apart":
        spellings = collections.defaultdict(set)
        for name in names.declared:
            if name[0].islower():
                spellings[snake(name)].add(name)
        new = {n: n + "-lem" for group in spellings.values() if len(group) > 1 for n in group if "-" in n}
    else:
        new = {n: snake(n) for n in names.own}
    for name in sorted(new):
        print(name, new[name])
    for path in files_of(root, (".antt", ".rt", ".edit", ".md")):
        turn(path, new, names)


main()
