#!/usr/bin/env python3
"""Draws the crates of this repository as a house, for docs/design/tour.md.

    tools/map.py > docs/design/crates.svg

crates.txt says which crates there are and which each one uses. A crate is one floor above the highest crate that it
uses. WINGS says in which wing each crate is; a crate in no wing, or a wing's crate that isn't in crates.txt, is an
error.
"""
import os
import sys

TOP = os.path.dirname(os.path.dirname(os.path.abspath(__file__)))

# Each wing: its name, its color, the width of its column, and its crates.
WINGS = (
    (
        "Model",
        "#186",
        272,
        """seqno segment streams tables window_rules timer_rules spec_network spec_tcp spec_duties spec_flights
        spec_cases spec_tcp_laws spec_merge endpoint endpoint_state spec_step duties flight_parts
        scoreboard flights watched""",
    ),
    ("Texts", "#36c", 178, "counted case_forms line_fields case_lines case_stream trace_reader witness"),
    (
        "Verdict",
        "#73a",
        196,
        """verdict answers interval_order checker kept_duties kept_calls kept_flights kept_repeats parallel_check
        answer_stream cli tcpwit""",
    ),
    (
        "Around it",
        "#c60",
        300,
        """help recording_parts stack_core recorder two_hosts witness_search plain_words
        replayed why judging drawing remarks tcpwit_lab c_answers tcpwit_c""",
    ),
)
# Crates of laws alone: they have a dashed border.
DASHED = "spec_tcp_laws spec_merge kept_duties kept_calls kept_flights kept_repeats".split()
# The programs, and the library for C.
BOLD = "tcpwit tcpwit_lab tcpwit_c".split()

LEFT, TOP_ROW, ROW, BOX, GAP, FLOOR = 34, 40, 24, 19, 6, 7
STYLE = (
    "text{font:12px sans-serif;fill:#222;text-anchor:middle}.head{font:bold 15px sans-serif}"
    ".floor,.key{font:11px sans-serif;fill:#777}.key{text-anchor:start}rect{fill:#fff;stroke-width:1}"
    ".wing{fill-opacity:.08;stroke:none}.dashed{stroke-dasharray:4 3}.bold{stroke-width:2.5}line{stroke:#ddd}"
)


def uses_in(text):
    """The crates in the text of crates.txt, each with those that it uses."""
    lines = [line.split("#")[0].split(":") for line in text.splitlines()]
    found = {words[0].split()[0]: words[1].split() for words in lines if len(words) == 2}
    return {name: [used for used in all_used if used in found] for name, all_used in found.items()}


def floors_of(uses):
    """The floor of each crate, from 1."""
    floors = {}

    def floor(name):
        if name not in floors:
            floors[name] = 1 + max((floor(used) for used in uses[name]), default=0)
        return floors[name]

    for name in uses:
        floor(name)
    return floors


def mismatches(uses):
    """The crates that are in no wing, in several, or not in crates.txt."""
    housed = [name for _, _, _, crates in WINGS for name in crates.split()]
    return sorted(name for name in {*housed, *uses} if housed.count(name) != 1 or name not in uses)


def width_of(name):
    """The width of a crate's box."""
    return 14 + 7 * len(name)


def rows_of(names, width):
    """The names in rows of at most this width."""
    rows, left = [], 0
    for name in names:
        left -= width_of(name) + GAP
        if left < 0:
            rows.append([])
            left = width - GAP - width_of(name) - GAP
        rows[-1].append(name)
    return rows


def box(name, color, x, y):
    """A crate."""
    kind = "dashed" if name in DASHED else "bold" if name in BOLD else ""
    shape = f' class="{kind}"' if kind else ""
    return (
        f'<rect{shape} x="{x}" y="{y}" width="{width_of(name)}" height="{BOX}" rx="3" stroke="{color}"/>'
        f'<text x="{x + width_of(name) / 2:g}" y="{y + 14}">{name}</text>'
    )


def key(y):
    """What the borders mean."""
    parts = (("bold", "a program or a library for C"), ("dashed", "laws alone"))
    drawn = [f'<text class="key" x="{LEFT}" y="{y}">Each crate is above all that it uses.</text>']
    for place, (kind, meaning) in enumerate(parts):
        x = LEFT + 260 + 240 * place
        drawn.append(f'<rect class="{kind}" x="{x}" y="{y - 12}" width="24" height="14" rx="3" stroke="#777"/>')
        drawn.append(f'<text class="key" x="{x + 32}" y="{y}">{meaning}</text>')
    return drawn


def drawn(uses):
    """The picture."""
    floors = floors_of(uses)
    names = {wing: [name for name in uses if name in crates.split()] for wing, _, _, crates in WINGS}
    placed, floor_lines, y = [], [], TOP_ROW
    for floor in range(max(floors.values()), 0, -1):
        x, most = LEFT, 1
        for wing, color, width, _ in WINGS:
            rows = rows_of([name for name in names[wing] if floors[name] == floor], width)
            for number, row in enumerate(rows):
                left = x + (width - sum(width_of(name) + GAP for name in row) + GAP) // 2
                for name in row:
                    placed.append(box(name, color, left, y + number * ROW + 4))
                    left += width_of(name) + GAP
            most = max(most, len(rows))
            x += width + GAP
        floor_lines.append(f'<text class="floor" x="{LEFT // 2}" y="{y + 18}">{floor}</text>')
        y += most * ROW + FLOOR
        floor_lines.append(f'<line x1="{LEFT}" y1="{y - 2}" x2="{x - GAP}" y2="{y - 2}"/>')
    wings, x = [], LEFT
    for wing, color, width, _ in WINGS:
        wings.append(f'<rect class="wing" x="{x}" y="8" width="{width}" height="{y - 10}" style="fill:{color}"/>')
        wings.append(f'<text class="head" x="{x + width // 2}" y="28" style="fill:{color}">{wing}</text>')
        x += width + GAP
    whole = f'width="{x + 4}" height="{y + 26}" viewBox="0 0 {x + 4} {y + 26}"'
    head = f'<svg xmlns="http://www.w3.org/2000/svg" {whole}>\n<style>{STYLE}</style><rect width="100%" height="100%"/>'
    return "\n".join([head, *wings, *floor_lines, *placed, *key(y + 16), "</svg>"]) + "\n"


def main():
    if "--help" in sys.argv:
        print(__doc__.strip())
        return
    with open(os.path.join(TOP, "crates.txt"), encoding="utf-8") as file:
        uses = uses_in(file.read())
    wrong = mismatches(uses)
    if wrong:
        sys.exit(f"tools/map.py: put these crates into one of WINGS, or remove them: {' '.join(wrong)}")
    print(drawn(uses), end="")


if __name__ == "__main__":
    main()
