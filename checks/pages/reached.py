#!/usr/bin/env python3
"""Lists the files and crates of this repository that a program's `main` reaches by imports.

Usage: reached.py [CRATE] [--files]

CRATE is `pdb_symbolizer` if not given. An import of a name is followed to the file that declares the name, through
re-exports. An import of a module is followed to that module's file. The script prints the counts, and with `--files`
each file.
"""
import pathlib
import re
import sys

CRATES = pathlib.Path(__file__).resolve().parents[2] / "crates"
USE = re.compile(r"^(?:pub(?:\(crate\))? )?use ((?:[^;{]|\{[^}]*\})+);", re.M)


def paths_of(text):
    """Yields the paths that a `use` names, each as a list of its parts."""
    text = re.sub(r"\s+", " ", text)
    front, brace, rest = text.partition("{")
    names = [name.strip() for name in rest.rstrip("} ").split(",")] if brace else [""]
    for name in filter(None, names) if brace else names:
        path = (front + name).split(" as ")[0]
        yield [word.strip() for word in path.split("::") if word.strip()]


def uses(file):
    """Returns the paths that a file imports."""
    text = re.sub(r"^\s*(//|ghost use).*$", "", file.read_text(encoding="utf-8"), flags=re.M)
    return [path for found in USE.findall(text) for path in paths_of(found)]


def root_of(crate):
    """Returns the root file of a crate."""
    source = CRATES / crate / "src"
    return source / "lib.rt" if (source / "lib.rt").exists() else source / "main.rt"


def declares(file, name):
    """Returns whether a file declares a name itself."""
    pattern = rf"^\s*pub(?:\(crate\))? (?:const |static |fn |struct |enum |trait |type ){name}\b"
    return re.search(pattern, file.read_text(encoding="utf-8"), re.M) is not None


def target(crate, path):
    """Returns the files that a path within a crate leads to."""
    file = root_of(crate)
    for at, word in enumerate(path):
        module = CRATES / crate / "src" / f"{word}.rt"
        if module.exists():
            file = module
            continue
        if declares(file, word):
            return [file]
        for passed in uses(file):
            if passed[-1] == word and passed != path:
                return [file, *followed(crate, passed[:-1] + path[at:])]
        return [file]
    return [file]


def followed(crate, path):
    """Returns the files that an import in a crate leads to."""
    if path[0] in ("crate", "self"):
        return target(crate, path[1:])
    if (CRATES / path[0]).is_dir():
        return target(path[0], path[1:])
    if (CRATES / crate / "src" / f"{path[0]}.rt").exists():
        return target(crate, path)
    return []


def reached(crate):
    """Returns all files that the root file of a crate reaches, including itself."""
    seen, left = set(), [root_of(crate)]
    while left:
        file = left.pop()
        if file not in seen:
            seen.add(file)
            for path in uses(file):
                left += followed(file.relative_to(CRATES).parts[0], path)
    return seen


def main(words):
    crate = next((word for word in words if not word.startswith("--")), "pdb_symbolizer")
    files = sorted(reached(crate))
    if "--files" in words:
        for file in files:
            print(file.relative_to(CRATES.parent))
    print(f"{len(files)} files of {len({file.relative_to(CRATES).parts[0] for file in files})} crates")


if __name__ == "__main__":
    sys.exit(main(sys.argv[1:]))
