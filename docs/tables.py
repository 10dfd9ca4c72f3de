#!/usr/bin/env python3
"""Makes the tables of clauses in PROVED.md, of crates in ARCHITECTURE.md and of remedies in REFUSALS.md, and the index in
DEFINITIONS.md: `docs/tables.py` in the folder of the repository.

Without more it prints them. `docs/tables.py --write` puts each into its page, between the page's two marks, and
`docs/tables.py --check` says which page holds something else, and then ends with status 1. Calls, clauses and laws are taken
from `src/`, what a crate is for from the first sentence of the `//!` of its first file, what it stands on from `crates.txt`, and
the words of the index from the pages of `specs/`, each page with the subject that its head names. Pages of `specs/inside/` are
left out. A crate of tests alone says so in its `//!`. Remedies are those of `crates/input_explanation/src/remedies.rt`, with which
`explain` tells an end of a run. It needs Python 3.8.
"""
import pathlib
import re
import sys
import textwrap

DOCS = pathlib.Path(__file__).resolve().parent
CRATES = DOCS.parent / "crates"
WIDTH = 124

MODULE = re.compile(r"^(pub )?mod (\w+);", re.M)
PASSED_ON = re.compile(r"^pub use (?:\w+::)*(\w+)::(?:(\w+)|\{([^}]*)\});", re.M)
NAMED = re.compile(r"^pub (?:(?:const|unsafe) )*(?:fn|struct|enum|trait|type) (\w+)", re.M)
BLOCK = re.compile(r"^(?:unsafe )?impl\b([^{]*)\{|^(?:pub )?(trait|struct|enum) (\w+)", re.M)
FUNCTION = re.compile(r"^( *)(pub )?(?:(?:const|unsafe) )*fn (\w+)", re.M)
CLAUSE = re.compile(r"^ *ensures(?: (\w+))? \{", re.M)
BEFORE_CLAUSE = re.compile(r"(?:ensures|requires|decreases|by)(?: \w+)? $")
FACT = re.compile(r"^ +pub ghost (\w+): \{", re.M)
OUTPUT = re.compile(r"^ +ghost (output) = \{", re.M)
REMEDIES = re.compile(r'^const ROWS: &str = "\\\n(.*?)^";', re.M | re.S)
WORD = re.compile(r"^(?:(?:abbrev|unfoldable) )*pub (?:(?:record|data|unfoldable) )?(?!use |mod )([^\s:({]+)", re.M)


def crates():
    """All crates, those at the bottom first, each with the crates of this repository that it stands on."""
    return {name: below for _, group in groups() for name, below in group.items()}


def groups():
    """The headings of crates.txt, each with the crates below it, and with what these stand on. Its first comment heads no crate."""
    found = []
    for line in (CRATES.parent / "crates.txt").read_text().splitlines():
        name, _, below = line.partition(":")
        if line.startswith("#"):
            found.append((line[1:].strip(), {}))
        elif line.strip():
            found[-1][1][name.split()[0]] = below.split()
    names = {name for _, group in found for name in group}
    return [(head, {name: [it for it in below if it in names] for name, below in group.items()}) for head, group in found]


def crate_names():
    """All crates, those at the bottom first."""
    return list(crates())


def first_sentence(text):
    """The first sentence of a comment, whose lines are joined, without its full stop."""
    return re.split(r"\.(?:\s|$)", " ".join(text.split()), maxsplit=1)[0]


def coded(names):
    return ", ".join("`%s`" % name for name in names)


# ---- what a crate shows


def first_file(crate):
    """The file with which the crate begins."""
    library = CRATES / crate / "src" / "lib.rt"
    return library if library.is_file() else library.with_name("main.rt")


def modules(path, folder, public=True):
    """A file and the modules that it names: the name of each, its text without comments, and whether all in it is public."""
    text = re.sub(r"//.*", "", path.read_text())
    yield path.stem, text, public
    for shown, name in MODULE.findall(text):
        below = folder / (name + ".rt")
        if below.is_file():
            yield from modules(below, folder / name, public and bool(shown))


def public_names(found):
    """What can be reached from outside, each with its module: what public modules name, and what they pass on. Of a program,
    which nothing stands on, this is all."""
    names = set()
    for module, text, public in found:
        if public or found[0][0] == "main":
            names.update((module, name) for name in NAMED.findall(text))
            for other, one, many in PASSED_ON.findall(text):
                names.update((other, name.split(" as ")[0].strip()) for name in (one or many).split(","))
    return names


# ---- calls and their clauses


def without_generics(text):
    """A type without what stands in angle brackets."""
    shorter = re.sub(r"<[^<>]*>", "", text)
    return shorter if shorter == text else without_generics(shorter)


def head_of(text, start):
    """A function from where it is named to where its body begins, and whether the body is empty."""
    depth = 0
    for at in range(start, len(text)):
        letter = text[at]
        if depth == 0 and letter == ";":
            return text[start:at], False
        if depth == 0 and letter == "{" and not BEFORE_CLAUSE.search(text[start:at]):
            return text[start:at], text.startswith("{}", at)
        depth += (letter in "([{") - (letter in ")]}")
    return text[start:], False


def blocks_in(text):
    """The types, traits and blocks of functions of a file: where each begins, whose it is, and the trait that it keeps."""
    for found in BLOCK.finditer(text):
        kept, kind, name = found.groups()
        words = without_generics(kept or "").split(" where ")[0].split()
        if kind:
            yield found.start(), name, name if kind == "trait" else ""
        elif words:
            yield found.start(), words[-1], words[0].split("::")[-1] if "for" in words else ""


def owner_of(blocks, at):
    """Whose block the place lies in, and the trait that this block keeps."""
    before = [block for block in blocks if block[0] < at]
    return before[-1][1:] if before else ("", "")


def calls_in(text):
    """The functions of a file: whose it is, the trait that it is a part of, its name, whether it is public, whether it is a
    law, which has no body, and its clauses, of which some have no name."""
    blocks = list(blocks_in(text))
    for found in FUNCTION.finditer(text):
        indent, shown, name = found.groups()
        owner, kept = owner_of(blocks, found.start()) if indent else ("", "")
        head, empty = head_of(text, found.start())
        yield owner, kept, name, bool(shown or kept), empty and not owner, CLAUSE.findall(head)


def facts_in(text):
    """The types of a file with what holds of each of their values, or of what these print."""
    blocks = list(blocks_in(text))
    for place, (start, owner, kept) in enumerate(blocks):
        inside = text[start : blocks[place + 1][0] if place + 1 < len(blocks) else len(text)]
        yield owner, owner, FACT.findall(inside)
        yield owner, "%s as %s" % (owner, kept), OUTPUT.findall(inside)


def traits():
    """The traits of all crates that have a call with a clause."""
    found = set()
    for crate in crate_names():
        for _, text, _ in modules(first_file(crate), first_file(crate).parent):
            found.update(owner for owner, kept, _, _, _, clauses in calls_in(text) if owner and owner == kept and clauses)
    return found


def with_clauses(name, clauses):
    """A name, with those of its clauses, where they have any."""
    named = [clause for clause in clauses if clause]
    return "`%s`" % name + (" (%s)" % coded(named) if named else "")


def promises_of(crate, known_traits):
    """The public calls and types of a crate with their clauses, its laws, and the calls without a clause."""
    path = first_file(crate)
    found = list(modules(path, path.parent))
    names = public_names(found)
    types = {name for _, name in names}
    calls, laws, bare = [], [], []
    for module, text, _ in found:
        for owner, kept, name, shown, is_law, clauses in calls_in(text):
            reached = owner in types if owner else (module, name) in names
            whole = "%s::%s" % (owner, name) if owner else name
            if clauses and (module == "main" or reached and shown):
                (laws if is_law else calls).append(with_clauses(whole, clauses))
            elif reached and shown and kept in ("", owner):
                bare.append("`%s`" % whole)
        calls.extend(with_clauses(name, facts) for owner, name, facts in facts_in(text) if facts and owner in types)
        kept_traits = [block[1:] for block in blocks_in(text) if block[2] in known_traits and block[1] != block[2]]
        calls.extend("`%s as %s`" % block for block in kept_traits if block[0] in types)
    return calls, laws, bare


def head_text(crate):
    """The `//!` of the crate's first file."""
    return re.match(r"(?://!.*\n)*", first_file(crate).read_text()).group(0).replace("//!", " ")


def purpose_of(crate):
    """What the `//!` of the crate's first file says first."""
    return first_sentence(head_text(crate))


def clause_table():
    """The table of crates with their public calls, laws and clauses, but for those of tests."""
    yield "| crate | what it is for | calls with their clauses, and laws |"
    yield "|---|---|---|"
    known_traits = traits()
    for crate in (crate for head, group in groups() if head != "Tests" for crate in group):
        calls, laws, bare = promises_of(crate, known_traits)
        parts = [before + ", ".join(names) for before, names in (("", calls), ("laws: ", laws), ("no clause: ", bare)) if names]
        if parts:
            yield "| `%s` | %s | %s |" % (crate, purpose_of(crate), "; ".join(parts))


# ---- crates, and what each stands on


def all_below(below, crate):
    """All crates that one stands on, or that one of these stands on."""
    found = set(below[crate])
    for other in below[crate]:
        found |= all_below(below, other)
    return found


def stands_on(below, crate):
    """What a crate stands on, without what one of these stands on."""
    implied = set().union(*(all_below(below, other) for other in below[crate]))
    return [other for other in below[crate] if other not in implied]


def has_tests_alone(crate):
    return "The crate has tests alone" in " ".join(head_text(crate).split())


def crate_table():
    """The table of crates under the headings of crates.txt, with what each is for and what it stands on. Crates of tests alone share a
    line."""
    below = crates()
    yield "| crate | what it is for | stands on |"
    yield "|---|---|---|"
    for head, group in groups():
        shown = [crate for crate in group if not has_tests_alone(crate)]
        if shown:
            yield "| **%s** | | |" % head
            yield from ("| `%s` | %s | %s |" % (crate, purpose_of(crate), coded(stands_on(below, crate))) for crate in shown)
    yield ""
    yield from textwrap.wrap("Tests alone: %s." % coded(filter(has_tests_alone, below)), WIDTH)


# ---- words and their pages


def subject_of(text):
    """What the head of a page says that it has, with a capital."""
    subject = first_sentence(re.match(r"(?:--.*\n)*", text).group(0).replace("--", " "))
    return subject[:1].upper() + subject[1:]


def index():
    """The pages of definitions in the order of their names, each with its subject and its words."""
    for crate in sorted(crate_names()):
        folder = CRATES / crate / "specs"
        for path in sorted(folder.rglob("*.antt")):
            name = path.relative_to(folder).with_suffix("").as_posix()
            text = path.read_text()
            words = [word for word in WORD.findall(text) if "-" not in word]
            if words and not name.startswith("inside"):
                line = "- `%s/%s`. %s. %s." % (crate, name, subject_of(text), coded(words))
                yield from textwrap.wrap(line, WIDTH, subsequent_indent="  ", break_long_words=False, break_on_hyphens=False)


# ---- remedies


def remedy_table():
    """The table of what each number means, and what to do, where a run ends with it."""
    yield "| status | number | what it means | place | what to do |"
    yield "|---|---|---|---|---|"
    text = (CRATES / "input_explanation" / "src" / "remedies.rt").read_text()
    for row in REMEDIES.search(text).group(1).splitlines():
        fields = row.split("|")
        if len(fields) != 5:
            sys.exit("a remedy without five fields: " + row)
        status, number, meaning, place, remedy = fields
        yield "| %s | %s | %s | %s | %s |" % (status, "none" if number == "0" else number, meaning, place, remedy)


# ---- the pages

PARTS = {
    "PROVED.md": ("clauses", clause_table),
    "ARCHITECTURE.md": ("crates", crate_table),
    "DEFINITIONS.md": ("index", index),
    "REFUSALS.md": ("remedies", remedy_table),
}


def with_part(text, name, lines):
    """The page with these lines between its marks."""
    mark, end = "<!-- docs/tables.py: %s -->" % name, "<!-- end -->"
    before, marked, rest = text.partition(mark)
    _, ended, behind = rest.partition(end)
    if not marked or not ended:
        sys.exit("the page for %s lacks a mark" % name)
    return "%s%s\n\n%s\n\n%s%s" % (before, mark, "\n".join(lines), end, behind)


def main(options):
    if options not in ([], ["--write"], ["--check"]):
        sys.exit(__doc__)
    status = 0
    for page, (name, made) in PARTS.items():
        lines = list(made())
        if not options:
            print("\n".join(lines))
            continue
        path = DOCS / page
        text = path.read_text()
        wanted = with_part(text, name, lines)
        if options == ["--write"]:
            path.write_text(wanted)
        elif text != wanted:
            print("docs/%s does not hold what `docs/tables.py` makes: `docs/tables.py --write` puts it there" % page)
            status = 1
    return status


if __name__ == "__main__":
    sys.exit(main(sys.argv[1:]))
