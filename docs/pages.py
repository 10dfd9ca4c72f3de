#!/usr/bin/env python3
"""Prints the pages on which the promise of a run rests, with their lines: `docs/pages.py` in the folder of the repository.

These are the pages of `specs/` that `critarea_core/specs/Run.antt` cites, directly or by what it cites, with their lines. A
page that only passes words on from others is left out, and the pages of those words are followed. It needs Python 3.8.
"""
import pathlib
import re

CRATES = pathlib.Path(__file__).resolve().parent.parent / "crates"
USE = re.compile(r"^\s*(pub )?use Rattle\.([\w+]+)\.specs\.([\w.]+?)(?:\.\{([^}]*)\}| as \w+)?\s*$", re.M)


def page(crate, name):
    return CRATES.joinpath(crate, "specs", *name.split(".")).with_suffix(".antt")


def uses(path):
    """The pages that the one at this path cites: crate, page, and the words, if they are listed."""
    for public, crate, name, words in USE.findall(path.read_text()):
        if (CRATES / crate).is_dir() and not name.startswith("declared."):
            yield bool(public), crate, name, [word.split(" as ")[0].strip() for word in words.split(",")] if words else None


def passes_on(path):
    """Whether each line of the page but comments is a `pub use`."""
    lines = [line for line in path.read_text().splitlines() if line.strip() and not line.startswith("--")]
    return all(line.startswith("pub use ") for line in lines)


def visit(crate, name, words, found):
    path = page(crate, name)
    if not path.is_file() or (crate, name) in found:
        return
    if passes_on(path):
        for _, other, behind, passed in uses(path):
            wanted = [word for word in passed or [] if words is None or word in words]
            if wanted or passed is None:
                visit(other, behind, wanted or None, found)
        return
    found[crate, name] = len(path.read_text().splitlines())
    for _, other, behind, cited in uses(path):
        visit(other, behind, cited, found)


def main():
    found = {}
    visit("critarea_core", "Run", None, found)
    for line in (CRATES.parent / "crates.txt").read_text().splitlines():
        crate = re.split("[: ]", line)[0]
        pages = sorted((name.split(".")[-1], count) for (owner, name), count in found.items() if owner == crate)
        if pages:
            listed = ", ".join("`%s` %d" % each for each in pages)
            print("| `%s` | %s | %d |" % (crate, listed, sum(count for _, count in pages)))
    print(len(found), "pages,", sum(found.values()), "lines")


main()
