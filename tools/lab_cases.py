#!/usr/bin/env python3
"""Tests tcpwit_lab on the case files: pictures, arguments, and which witnesses it finds again.

    python3 tools/lab_cases.py TCPWIT TCPWIT_LAB CASES

CASES is crates/test_cases/data. Checks of each picture that it is XML and within its frame; that no arrow crosses a
text; that it has one red mark if the verdict is no and none otherwise; and that nothing is "not reached" after a yes.
Checks that bad arguments get `bad usage`. Looks for a witness of the trace of each case with a yes. The status is 1 if
a picture or an answer is wrong; a witness that isn't found is only counted.
"""
import pathlib
import re
import subprocess
import sys
import xml.etree.ElementTree as ElementTree

SVG = "{http://www.w3.org/2000/svg}"
USAGE = [[], ["Draw"], ["draw", "--from"], ["draw", "--from", "0"], ["draw", "--from", "+9"], ["draw", "--from", "09"],
         ["draw", "--from", "9", "--from", "9"], ["draw", "--to", "9", "--to", "9"], ["draw", "--from", "9", "--to"],
         ["draw", "--from", "9", "--to", "8"], ["draw", "--to", "8", "--from", "9"],
         ["draw", "--from", "99999999999999999999"], ["draw", "9"], ["draw", "--from", "9", "--to", "9", "--to", "9"],
         ["find", "x"], ["show", "--from", "9"], ["explain", ""], ["remark", "x"], ["remark", ""], ["judge", "none"],
         ["judge", "--least"], ["judge", "--least", "None"], ["judge", "--least", "none", "--least", "none"],
         ["judge", "--from"], ["judge", "--from", "none"], ["judge", "--from", "none", "--least", "recovery"],
         ["judge", "--case"], ["judge", "--case", ""], ["judge", "--case", "-x"],
         ["judge", "--case", "x", "--case", "x"], ["draw", "--from="], ["draw", "--from=0"],
         ["draw", "--from=9", "--to=8"], ["draw", "--from=9", "--from", "9"], ["judge", "--least="],
         ["judge", "--case="], ["judge", "--slack"], ["judge", "--slack="], ["judge", "--slack", "Any"],
         ["judge", "--slack", "any", "--slack", "0"], ["explain", "--simulated=yes"],
         ["explain", "--simulated", "--simulated"], ["explain", "--json", "--json"], ["explain", "--json", "x"],
         ["judge", "--json="], ["judge", "--json=yes"], ["judge", "--json", "yes"], ["judge", "--case", "--json"],
         ["remark", "--json", "--json"], ["remark", "--simulated"], ["judge", "--simulated"], ["find", "--json"],
         ["show", "--json"], ["draw", "--json"]]
RANGES = [(["--from", "9"], 9, None), (["--to", "12"], None, 12), (["--from", "9", "--to", "12"], 9, 12),
          (["--to", "12", "--from", "9"], 9, 12), (["--from=9"], 9, None), (["--to=12", "--from", "9"], 9, 12),
          (["--from=9", "--to=12"], 9, 12)]


def run(program, words, text):
    done = subprocess.run([program, *words], input=text, capture_output=True, timeout=120)
    return done.returncode, done.stdout


def parts(root, right=0, group=""):
    """The elements of a picture, each with how far to the right its groups are, and the innermost one's class."""
    for element in root:
        if element.tag == f"{SVG}g":
            place = re.search(r"translate\((\d+) 0\)", element.get("transform", ""))
            yield from parts(element, right + (int(place[1]) if place else 0), element.get("class", ""))
        else:
            yield element, right, group


def points(element, right):
    """The points of an element."""
    names = [("x1", "y1"), ("x2", "y2"), ("cx", "cy"), ("x", "y")]
    return [(right + int(element.get(x, "0")), int(element.get(y))) for x, y in names if element.get(y)]


def box(element, right, group):
    """The left, upper, right and lower end of a text. Letters are narrower than this, except in bold."""
    (x, y), = points(element, right)
    width = round(5.5 * len(element.text))
    words = f"{group} {element.get('class')}".split()
    left = x - width if "left" in words else x - width // 2 if "mid" in words else x
    return left, y - 7, left + width, y


def crosses(first, second, area):
    """Whether a line between two points crosses an area."""
    left, top, right, bottom = area
    (x, y), (dx, dy) = first, (second[0] - first[0], second[1] - first[1])
    begin, end = 0.0, 1.0
    for speed, low, high in ((dx, left - x, right - x), (dy, top - y, bottom - y)):
        if speed == 0:
            if not low < 0 < high:
                return False
            continue
        ends = sorted((low / speed, high / speed))
        begin, end = max(begin, ends[0]), min(end, ends[1])
    return begin < end


def crossed_texts(root):
    """The texts that an arrow crosses."""
    lines = [part for part in parts(root) if part[0].tag == f"{SVG}line"]
    arrows = [points(part, right) for part, right, group in lines if group == "arrow"]
    for part, right, group in parts(root):
        if part.tag == f"{SVG}text" and any(crosses(*arrow, box(part, right, group)) for arrow in arrows):
            yield part.text


def faults_of_picture(picture, answered):
    """The faults of a picture of a case whose verdict begins with this word."""
    root = ElementTree.fromstring(picture)
    width, height = int(root.get("width")), int(root.get("height"))
    for element, right, _ in parts(root):
        for x, y in points(element, right):
            if not (0 <= x <= width and 0 <= y <= height):
                yield f"a point out of the frame: {x} {y}"
    marks = [element for element in root.iter() if element.get("class") == "refused"]
    if len(marks) != (1 if answered == "no" else 0):
        yield f"{len(marks)} red marks, and the answer is {answered}"
    key = [element.text for element in root.iter() if element.get("class") == "key"]
    if answered == "yes" and "not reached" in key:
        yield "something is not reached, and the answer is yes"
    for text in crossed_texts(root):
        yield f"an arrow crosses {text!r}"


def lines_drawn(picture):
    """The numbers of the trace lines in a picture."""
    texts = [element for element in ElementTree.fromstring(picture).iter() if element.get("class") == "number"]
    return [int(element.text) for element in texts]


def wrong_words(lab, case):
    for words in USAGE:
        if run(lab, words, case) != (3, b"bad usage\n"):
            yield f"{words}: no `bad usage`"
    numbers = lines_drawn(run(lab, ["draw"], case)[1])
    for words, first, last in RANGES:
        wanted = [n for n in numbers if (first or 0) <= n <= (last or n)]
        if lines_drawn(run(lab, ["draw", *words], case)[1]) != wanted:
            yield f"{words}: the lines differ from {wanted}"


def main():
    if "--help" in sys.argv:
        print(__doc__.strip())
        return
    if len(sys.argv) != 4:
        sys.exit(__doc__)
    tcpwit, lab, folder = sys.argv[1], sys.argv[2], pathlib.Path(sys.argv[3])
    wrong = list(wrong_words(lab, (folder / "examples/handshake_and_five_bytes.case").read_bytes()))
    pictures = yes = 0
    missed = []
    for row in (folder / "expected.txt").read_text().splitlines():
        name, answer = row.split("\t")
        case = (folder / f"{name}.case").read_bytes()
        status, picture = run(lab, ["draw"], case)
        if status == 0:
            pictures += 1
            wrong += [f"{name}: {fault}" for fault in faults_of_picture(picture, answer.split()[0])]
        if answer.startswith("yes "):
            yes += 1
            trace = case[:case.index(b"\nwitness ") + 1]
            verdict = run(tcpwit, ["check"], run(lab, ["find"], trace)[1])[1].decode().strip()
            if not verdict.startswith("yes "):
                missed.append(f"{name}: {verdict}")
    print("\n".join(missed + wrong))
    print(f"{pictures} pictures; of {yes} cases answered yes {yes - len(missed)} are found again; "
          f"{len(wrong)} wrong answers")
    sys.exit(1 if wrong else 0)


if __name__ == "__main__":
    main()
