#!/usr/bin/python3
"""Checks the pages of this repository.

    tools/docs.py            checks that each file, link, section and identifier in them exists, and that each command
                             works and prints what the page shows
    tools/docs.py --names    checks only the names; this needs no program

The commands run in a copy of the repository; docs_commands.py lists those that aren't run, with the reason. Prints a
line for each fault, with its page and line. The status is 1 if there is one.
"""
import argparse
import glob
import os
import re
import sys

sys.dont_write_bytecode = True
sys.path.insert(0, os.path.dirname(os.path.abspath(__file__)))
import docs_commands  # noqa: E402

TOP = os.path.dirname(os.path.dirname(os.path.abspath(__file__)))
# Where the pages are. CHANGELOG.md is left out because it names things that no longer exist.
PLACES = ("README.md", "CONTRIBUTING.md", "docs/**/*.md", "*/README.md", "stacks/*.md", "*/*/README.md")
LINK = re.compile(r"\]\(([^)\s]+)\)")
# A word in backticks that can be the name of a file of this repository.
NAME = re.compile(r"`(\.?/?[\w-][\w./-]*)`")
SOURCE = re.compile(r"\.(md|py|c|h|go|rs|sbatch|scenario)$")
# A page and its section, by number or by title: `formats.md`, section 5; [it](guarantees.md), "What is trusted".
SECTION = re.compile(r'(?:(?:\]\(([^)\s]+\.md)\)|`([\w./]+\.md)`),? )?(?:\bsection (\d+)|(?<=, )"([^"\n]+)")')
# A name of code in backticks: it has an underscore, `::` or a capital inside.
IDENTIFIER = re.compile(r"`(\w+(?:::\w+)*)(?:\(\))?`")
# Names in pages that aren't in this repository: code of lwIP and gVisor.
FOREIGN = frozenset("tcp_in.c tcp_out.c tcp.c opt.h tcp_process tcp_receive tcp_abandon rcv.go endpoint.go "
                    "header/tcp.go protocol.go connect.go segment_queue.go snd.go reno.go handleRcvdSegment "
                    "maybeSendSegment".split())
# Where names of code are looked up: everything except pages.
CODE = re.compile(r"\.(rt|antt|txt|py|c|h|go|rs|scenario|edit|sbatch)$|/[\w-]+$")
# What the examples fetch from their own server, which serves the folder where the command is run.
FETCHED = re.compile(r"http://10\.9\.0\.2/([\w./-]*)")
# Where built programs are; a clone doesn't have them.
BUILT = re.compile(r"(^|/)(out|\.built)(/|$)")


def pages_of(top):
    """The names of all pages."""
    found = {os.path.relpath(path, top) for place in PLACES for path in glob.glob(f"{top}/{place}", recursive=True)}
    return sorted(page for page in found if not BUILT.search(page))


def text_of(page):
    """The text of a page, or of the file that its link points to."""
    with open(page, encoding="utf-8") as file:
        return file.read()


def words_of(path):
    """The names in a file of code; none if it isn't text."""
    try:
        return set(re.findall(r"\w+", text_of(path)))
    except (UnicodeDecodeError, OSError):
        return set()


def slug(heading):
    """The anchor of a heading."""
    return re.sub(r"[^\w -]", "", heading.lower()).strip().replace(" ", "-")


def headings(text):
    """The headings of a page, and the questions and terms that begin its paragraphs."""
    return re.findall(r"^#+ (.*)$", text, re.M) + re.findall(r"^\*\*([^*]+)\*\*", text, re.M)


def has_section(text, number, title):
    """Whether a page has a section with this number, or one whose title begins like this."""
    if number:
        return re.search(rf"^#+ {number}\b", text, re.M) is not None
    return any(re.sub(r"^[\d.]+ ", "", heading).startswith(title) for heading in headings(text))


class Tree:
    """A copy of the repository, to check its pages."""

    def __init__(self, top=TOP):
        self.top = top
        paths = [(folder, name) for folder, _, names in os.walk(top) if "/." not in folder[len(top):] for name in names]
        self.names = {name for _, name in paths}
        self.words = {word for folder, name in paths if CODE.search(f"{folder}/{name}")
                      and not BUILT.search(folder[len(top):]) for word in words_of(f"{folder}/{name}")}
        self.words |= {word for folder, name in paths
                       for word in re.findall(r"\w+", f"{os.path.basename(folder)} {name}")}

    def places(self, page, name):
        """The paths that a name in a page may mean."""
        here = os.path.dirname(os.path.join(self.top, page))
        return [os.path.normpath(os.path.join(folder, name)) for folder in (here, self.top, f"{self.top}/docs")]

    def file(self, page, name):
        """The file that a page names, or None."""
        return next((place for place in self.places(page, name) if os.path.exists(place)), None)

    def is_of_ours(self, page, name):
        """Whether a name means a file of the repository, by its ending or by its first folder."""
        if re.match(r"/|\.\w+$", name) or BUILT.search(name):
            return False
        first, slash, _ = name.removeprefix("./").partition("/")
        return bool(SOURCE.search(name)) or bool(slash) and self.file(page, first) is not None

    def links(self, page, text):
        """The faults in links."""
        for found in LINK.finditer(text):
            name, _, anchor = found[1].partition("#")
            if re.match(r"\w+:", name):
                continue
            place = os.path.join(self.top, os.path.dirname(page), name) if name else os.path.join(self.top, page)
            if not os.path.exists(place):
                yield found.start(), f"the link {found[1]} leads nowhere"
            elif anchor and anchor not in map(slug, headings(text_of(place))):
                yield found.start(), f"{name or page} has no heading #{anchor}"

    def files(self, page, text):
        """The faults in names of files."""
        for found in NAME.finditer(text):
            name = found[1]
            known = self.file(page, name) or ("/" not in name and name in self.names)
            if self.is_of_ours(page, name) and not known and name not in FOREIGN:
                yield found.start(), f"there is no file {name}"
        for found in FETCHED.finditer(text):
            if not os.path.exists(os.path.join(self.top, found[1])):
                yield found.start(), f"the server of the example has no page {found[1]}"

    def identifiers(self, text):
        """The faults in names of code."""
        for found in IDENTIFIER.finditer(text):
            if not re.search(r"[a-z0-9]_[a-z0-9]|::|[a-z][A-Z]", found[1]) or found[1] in FOREIGN:
                continue
            missing = [word for word in found[1].split("::") if word not in self.words]
            if missing:
                yield found.start(), f"no code has the name {missing[0]}"

    def sections(self, page, text):
        """The faults in section numbers. A section without a page is in the same page, or in the page named before."""
        own = re.search(r"^## \d", text, re.M) is not None
        before = page
        for found in SECTION.finditer(re.sub(r"\n(?!\n)", " ", text)):
            named = found[1] or found[2]
            if not named and found[4]:
                continue
            name = named or (page if own else before)
            before = name if named else before
            place = self.file(page, name)
            if place and not has_section(text_of(place), found[3], found[4]):
                yield found.start(), f"{name} has no section {found[3] or found[4]}"

    def faults(self, page):
        """The faults of a page, each with its line."""
        text = text_of(os.path.join(self.top, page))
        found = [*self.links(page, text), *self.files(page, text), *self.identifiers(text), *self.sections(page, text)]
        return [f"{page}:{text.count(chr(10), 0, at) + 1}: {fault}" for at, fault in sorted(found)]


def main():
    words = argparse.ArgumentParser(description=__doc__, formatter_class=argparse.RawDescriptionHelpFormatter)
    words.add_argument("--names", action="store_true",
                       help="check the names of files, links and sections, but run no command")
    given = words.parse_args()
    tree = Tree()
    pages = pages_of(TOP)
    faults = [fault for page in pages for fault in tree.faults(page)]
    print("\n".join(faults or [f"{len(pages)} pages: each file, link, section and identifier that they name exists"]),
          flush=True)
    if given.names:
        return 1 if faults else 0
    failed, count = docs_commands.faults({page: text_of(os.path.join(TOP, page)) for page in pages})
    print("\n".join(failed or [f"{count} commands or groups of commands work"]))
    return 1 if faults or failed else 0


if __name__ == "__main__":
    sys.exit(main())
