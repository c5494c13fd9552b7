#!/usr/bin/env python3
"""Counts what the house rules bound, in the code that runs (every crate but those of tests), and the words of the documents.

usage: bench/house.py [NAME]

With no name, a line for each count, each function that passes a bound and each type name declared twice; with the name of a
count (`parameters`, `clauses`, `lines`, `files`, `names`, `words`, `links`, or one of the comments, such as `behind`), each place of that one
alone.
What is counted:

parameters  functions with more than five, `self` among them, as clippy counts; trait methods too
clauses     contracts with more than eight `requires` and `ensures`; a method that implements a trait's has the trait's contract
lines       functions whose body, between its braces, has more than forty
files       files of src/ with more than eight hundred lines
names       names that more than one struct, enum, trait or type alias declares; associated types are left out
words       words of README.md, CONTRIBUTING.md, bench/RESULTS.md and docs/*.md, as `wc -w` counts them
links       links of these pages to a file that is not there, or to a heading that its page does not have
comments    those of src/ and, after a plus, of specs/: blocks that begin with 'The same' or 'So does', and the words
            behind (mostly *after*), stands (mostly *is*), want of memory (*out of memory*), front (mostly *prefix*);
            what a word means is for a reader to judge. 'In front of' and 'to stand for' are not counted

The text of a file is scanned, and not parsed: comments, strings and character literals are blanked, then brackets are matched.
"""
import pathlib
import re
import sys
from collections import Counter, defaultdict
from typing import NamedTuple

TOP = pathlib.Path(__file__).resolve().parent.parent
PARAMETERS, CLAUSES, LINES, FILE = 5, 8, 40, 800

BLANKED = re.compile(r"""//[^\n]* | /\*.*?\*/ | b?r(\#*)".*?"\1 | b?"(?:\\.|[^"\\])*" | b?'(?:\\[^']+|[^'\\\n])'""", re.S | re.X)
FUNCTION = re.compile(r"\bfn\s+(\w+)\s*")
CLAUSE = re.compile(r"(?:requires|ensures)\b\s*\w*\s*(?=\{)")
TYPE = re.compile(r"^(?:pub(?:\(\w+\))?\s+)?(?:struct|enum|trait|type)\s+(\w+)", re.M)
COMMENT = {".rt": re.compile(r"^\s*//[/!]?\s?(.*)$"), ".antt": re.compile(r"^\s*--\s?(.*)$")}
OPENS, CLOSES = "([{", ")]}"

LINK = re.compile(r"\]\((?!\w+:)([^)\s#]*)(?:#([^)\s]*))?\)")
SHOWN = re.compile(r"^```.*?^```", re.S | re.M)
HEADING = re.compile(r"^#+ (.*)$", re.M)

PHRASES = {
    "The same": re.compile(r"\AThe same\b"),
    "So does": re.compile(r"\ASo (?:does|do)\b"),
    "behind": re.compile(r"\bbehind\b", re.I),
    "stands": re.compile(r"\bstands?\b", re.I),
    "want of memory": re.compile(r"\bwant of memory\b", re.I),
    "front": re.compile(r"\bfronts?\b", re.I),
}
# What has words of these phrases and is plain English.
PLAIN = re.compile(r"\bin front\b|\bstands? for\b|\bfor which\b[^.,;:]*\bstands?\b", re.I)


class Function(NamedTuple):
    """What is counted of a function, and where it is."""

    place: str
    name: str
    parameters: int
    clauses: int
    lines: int


def blanked(text):
    """The text with spaces for its comments, strings and characters, each character in its place."""
    return BLANKED.sub(lambda it: re.sub(r"[^\n]", " ", it[0]), text)


def after_bracket(text, at):
    """The place after the bracket that closes the one at this place."""
    depth = 0
    for i in range(at, len(text)):
        depth += (text[i] in OPENS) - (text[i] in CLOSES)
        if depth == 0:
            return i + 1
    raise ValueError(f"a bracket is never closed: {text[at:at + 80]}")


def after_generics(text, at):
    """The place after the `<..>` at this place; the `>` of an arrow closes nothing."""
    if text[at] != "<":
        return at
    depth = 0
    for i in range(at, len(text)):
        depth += (text[i] == "<") - (text[i] == ">" and text[i - 1] != "-")
        if depth == 0:
            return i + 1
    raise ValueError(f"generics are never closed: {text[at:at + 80]}")


def count_parts(text):
    """How many parts the commas outside all brackets make of a list; a last comma makes none."""
    depth, parts, filled = 0, 0, False
    for i, here in enumerate(text):
        depth += here in "([{<"
        depth -= here in ")]}" or (here == ">" and text[i - 1] != "-")
        if here == "," and depth == 0:
            parts, filled = parts + filled, False
        elif not here.isspace():
            filled = True
    return parts + filled


def function_at(text, found, path):
    """The function whose `fn` and name were found here, in a text that is blanked."""
    begin = after_generics(text, found.end())
    at = after_bracket(text, begin)
    parameters = count_parts(text[begin + 1:at - 1])
    clauses = lines = 0
    while text[at] not in "{;":
        clause = CLAUSE.match(text, at)
        clauses += clause is not None
        at = after_bracket(text, clause.end()) if clause else after_bracket(text, at) if text[at] in OPENS else at + 1
    if text[at] == "{":
        lines = max(0, text.count("\n", at, after_bracket(text, at)) - 1)
    return Function(f"{path}:{text.count(chr(10), 0, found.start()) + 1}", found[1], parameters, clauses, lines)


def comments(path, text):
    """The comments of a file, each a list of lines with their numbers; an empty line of one begins another."""
    begins, block = COMMENT[path.suffix], []
    for number, line in enumerate(text.split("\n"), 1):
        found = begins.match(line)
        if found and found[1].strip():
            block.append((number, found[1]))
        elif block:
            yield block
            block = []


def places_of(phrase, files):
    """Each place where a phrase is in a comment, with the line."""
    for path, text in files:
        for block in comments(path, text):
            whole = "\n".join(line for _, line in block)
            judged = PLAIN.sub(lambda it: " " * len(it[0]), re.sub(r"\s", " ", whole))
            for found in phrase.finditer(judged):
                number, line = block[whole.count("\n", 0, found.start())]
                yield f"{path.relative_to(TOP)}:{number}", line.strip()


def crates():
    """The folders of the crates that run."""
    return [it for it in sorted((TOP / "crates").iterdir()) if (it / "src").is_dir() and not it.name.endswith("_tests")]


def read(folder, pattern):
    """The files below a folder, each with its text."""
    return [(it, it.read_text(encoding="utf-8")) for it in sorted(folder.rglob(pattern))]


def declared_twice(sources):
    """For each name that is declared more than once, the crates that declare it."""
    where = defaultdict(list)
    for path, text in sources:
        for name in TYPE.findall(blanked(text)):
            where[name].append(path.relative_to(TOP / "crates").parts[0])
    return {name: it for name, it in sorted(where.items()) if len(it) > 1}


def crates_of(owners):
    """The crates that declare a name, in words."""
    return ", ".join(f"{crate} {count} times" if count > 1 else crate for crate, count in Counter(owners).items())


def anchors(page):
    """The names that the headings of a page have in links."""
    headings = HEADING.findall(SHOWN.sub("", page.read_text(encoding="utf-8")))
    return {re.sub(r"[^\w\- ]", "", it.lower()).replace(" ", "-") for it in headings}


def broken_links(pages):
    """Each link of a page that leads nowhere."""
    for page in pages:
        for name, anchor in LINK.findall(SHOWN.sub("", page.read_text(encoding="utf-8"))):
            there = page.parent / name if name else page
            if not there.exists() or anchor and anchor not in anchors(there):
                yield f"{page.relative_to(TOP)}: {name}{'#' if anchor else ''}{anchor}"


def tables():
    """For each count its name, its number or numbers, what it counts, and its places."""
    sources = [it for crate in crates() for it in read(crate / "src", "*.rt")]
    specs = [it for crate in crates() for it in read(crate / "specs", "*.antt")]
    functions = []
    for path, text in sources:
        code = blanked(text)
        functions += [function_at(code, it, path.relative_to(TOP)) for it in FUNCTION.finditer(code)]
    for name, bound, what in (("parameters", PARAMETERS, "functions with more than five parameters"),
                              ("clauses", CLAUSES, "contracts with more than eight clauses"),
                              ("lines", LINES, "functions with more than forty lines")):
        index = Function._fields.index(name)
        over = sorted((it for it in functions if it[index] > bound), key=lambda it: (-it[index], it.place))
        yield name, len(over), f"{what}, of {len(functions)}", [f"{it[index]:4} {it.name}  {it.place}" for it in over]
    long = [(text.count("\n"), path.relative_to(TOP)) for path, text in sources]
    over = sorted(it for it in long if it[0] > FILE)
    yield "files", len(over), f"files over 800 lines, of {len(long)}; the longest has {max(long)[0]}", [f"{n:4} {it}" for n, it in over]
    twice = declared_twice(sources)
    yield "names", len(twice), "type names declared more than once", [f"{len(it):4} {name}  {crates_of(it)}" for name, it in twice.items()]
    pages = [TOP / it for it in ("README.md", "CONTRIBUTING.md", "bench/RESULTS.md")] + sorted((TOP / "docs").glob("*.md"))
    words = [(len(it.read_text(encoding="utf-8").split()), it.relative_to(TOP)) for it in pages]
    yield "words", sum(it[0] for it in words), "words of the documents", [f"{n:5} {it}" for n, it in words]
    broken = list(broken_links(pages))
    yield "links", len(broken), "links of the documents that lead nowhere", broken
    for name, phrase in PHRASES.items():
        found, defined = list(places_of(phrase, sources)), list(places_of(phrase, specs))
        yield name, f"{len(found)} + {len(defined)}", "in comments of src + specs", [f"{it}: {line}" for it, line in found + defined]


def main():
    asked = " ".join(sys.argv[1:])
    shown = [it for it in tables() if not asked or it[0] == asked]
    if not shown:
        sys.exit(f"house.py: there is no count {asked}")
    for name, number, what, places in shown:
        print(f"{name}: {number} ({what})")
        for it in places if asked or name not in PHRASES else []:
            print(f"    {it}")


main()
