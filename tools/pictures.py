#!/usr/bin/env python3
"""Draws the pictures of docs/MAP.md: docs/architecture.svg, the crates of crates.txt and what each stands on; and docs/payment.svg, a
payment's way from words to a report.

    python3 tools/pictures.py            writes both
    python3 tools/pictures.py --check    fails if they aren't what crates.txt makes, or if a step names no crate of it

A crate stands one level above the highest of those that it stands on; a level of many crates takes several rows. A line leads to a
crate only where no other line leads there by a way through others.
"""

import functools
import sys
from pathlib import Path
from xml.sax.saxutils import escape

TOP = Path(__file__).resolve().parent.parent
ARCHITECTURE, PAYMENT = TOP / "docs" / "architecture.svg", TOP / "docs" / "payment.svg"
IN_ROW = 7  # boxes side by side
BOX, HIGH, GAP, ROW_GAP = 138, 26, 14, 26
COLOURS = {  # of a box, by what the crate is
    "program": "#f6c177", "laws": "#cfd8dc", "product": "#bfe3c0", "for people": "#b9d7f5", "for other programs": "#f2d7a6", "stored runs": "#e8dff5", "benchmarks": "#e8dff5",
}
NAMES = {"program": "a program", "laws": "laws alone", "product": "product", "for people": "for people", "for other programs": "for other programs", "stored runs": "stored runs and benchmarks"}

# The steps of a payment: what goes on, by which crates, and what goes to the next step.
STEPS = [
    ("words", ["fund_top"], "which command the words ask for", "a command"),
    ("files", ["fund_files", "fund_shelf"], "wallet, blocks and request are read in turn, or the first fault stops it", "bytes"),
    ("wallet and request", ["wallet_text", "request_text", "json_fields"], "JSON becomes scripts, transactions, amounts and rates", "a wallet, a request"),
    ("blocks", ["block_feed", "tx_codec"], "linked blocks, one by one, none of which is kept", "transactions"),
    ("book", ["coin_book", "known_fees"], "the coins, what spends them, and what fees are known", "coins"),
    ("states", ["payment_states", "fee_bump"], "which pending payments live, which coins may be spent, and at what price", "coins that may be spent"),
    ("plan", ["fund_steps", "output_groups", "fee_rates"], "the target, the groups of each row, and a problem for each stage", "steps"),
    ("search", ["search_run", "walk_engine", "random_draw"], "searches and draws in order, try by try, each leaving its letters", "a selection"),
    ("payment", ["fund_plan", "fund_payment", "psbt_codec"], "the coins in order, the change, the fee, and the unsigned PSBT", "a payment"),
    ("LOG, then the report", ["closing_log", "fund_report", "command_end"], "the log is written first; the report is printed; the status says how it ended", ""),
]
STYLE = "font-family=\"sans-serif\" font-size=\"12\""


def read_crates():
    """For each crate those of the list that it stands on, and its heading."""
    below, kinds, heading = {}, {}, ""
    for line in (TOP / "crates.txt").read_text().splitlines():
        if line.startswith("# "):
            heading = line[2:].strip()
        elif ":" in line:
            name, others = line.split(":")
            below[name.strip()], kinds[name.strip()] = others.split(), heading
    return {name: [other for other in others if other in below] for name, others in below.items()}, kinds


def kind_of(name, heading):
    """What a crate is: a program has no lib.rt, and a crate of laws is named so."""
    if not (TOP / "crates" / name / "src" / "lib.rt").is_file():
        return "program" if heading in ("product", "for people") else heading
    return "laws" if name.endswith("_laws") or name == "checked_runs" else heading


def levels_of(below):
    """The level of each crate, and the crates to which a line leads."""

    @functools.cache
    def level(name):
        return 1 + max(map(level, below[name]), default=-1)

    @functools.cache
    def all_below(name):
        return frozenset(below[name]).union(*map(all_below, below[name]))

    lines = {name: [one for one in below[name] if not any(one in all_below(other) for other in below[name])] for name in below}
    return {name: level(name) for name in below}, lines


def rows_of(levels, lines):
    """The rows of boxes from the lowest one up. In a row a crate stands near the middle of those that it stands on."""
    places, rows = {}, []
    for level in range(max(levels.values()) + 1):
        names = [name for name in levels if levels[name] == level]
        names.sort(key=lambda name: sum(places[other] for other in lines[name]) / max(1, len(lines[name])))
        count = -(-len(names) // IN_ROW)
        size = -(-len(names) // count)
        for start in range(0, len(names), size):
            row = names[start : start + size]
            rows.append(row)
            places.update({name: (at + 0.5) / len(row) for at, name in enumerate(row)})
    return rows


def box(x, y, width, text, colour, title=""):
    return (f'<g><title>{escape(title or text)}</title><rect x="{x:.0f}" y="{y:.0f}" width="{width}" height="{HIGH}" rx="5" fill="{colour}" '
            f'stroke="#455a64"/><text x="{x + width / 2:.0f}" y="{y + 17:.0f}" text-anchor="middle">{escape(text)}</text></g>')


def svg(width, height, parts):
    head = f'<svg xmlns="http://www.w3.org/2000/svg" viewBox="0 0 {width} {height}" {STYLE}><rect width="{width}" height="{height}" fill="white"/>'
    return "\n".join([head, *parts, "</svg>"]) + "\n"


def architecture():
    below, headings = read_crates()
    kinds = {name: kind_of(name, headings[name]) for name in below}
    levels, lines = levels_of(below)
    rows = rows_of(levels, lines)
    width = IN_ROW * (BOX + GAP) + GAP
    height = len(rows) * (HIGH + ROW_GAP) + 60
    at = {}
    for number, row in enumerate(rows):
        start = (width - len(row) * (BOX + GAP) + GAP) / 2
        for place, name in enumerate(row):
            at[name] = (start + place * (BOX + GAP), height - 12 - (number + 1) * (HIGH + ROW_GAP) + ROW_GAP)
    parts = []
    for name, others in lines.items():
        for other in others:
            (x, y), (x2, y2) = at[name], at[other]
            x, y, x2 = x + BOX / 2, y + HIGH, x2 + BOX / 2
            middle = (y + y2) / 2
            parts.append(f'<path d="M{x:.0f} {y:.0f}C{x:.0f} {middle:.0f} {x2:.0f} {middle:.0f} {x2:.0f} {y2:.0f}" fill="none" stroke="#90a4ae" stroke-width="0.7"/>')
    parts += [box(*at[name], BOX, name, COLOURS[kinds[name]], f"{name} stands on {', '.join(below[name]) or 'the kit alone'}") for name in below]
    for place, (kind, words) in enumerate(NAMES.items()):
        parts.append(box(GAP + place * 190, 10, 180, words, COLOURS[kind]))
    return svg(width, height, parts)


def payment():
    """The steps of a payment, one below the other: on the left what each is, then which crates do it, and what goes on."""
    width, step = 720, 74
    parts = ['<defs><marker id="end" markerWidth="8" markerHeight="8" refX="4" refY="4" orient="auto"><path d="M0 0L8 4L0 8z" fill="#455a64"/></marker></defs>']
    for number, (name, crates, what, gives) in enumerate(STEPS):
        y = 16 + number * step
        parts.append(box(16, y, 190, f"{number + 1}. {name}", COLOURS["program"]))
        parts.append(f'<text x="226" y="{y + 11}">{escape(what)}</text>')
        parts.append(f'<text x="226" y="{y + 28}" fill="#37474f" font-family="monospace">{escape(", ".join(crates))}</text>')
        if gives:
            parts.append(f'<path d="M111 {y + HIGH}V{y + step - 6}" stroke="#455a64" marker-end="url(#end)"/>')
            parts.append(f'<text x="122" y="{y + HIGH + 27}" fill="#37474f" font-style="italic">{escape(gives)}</text>')
    return svg(width, 16 + len(STEPS) * step, parts)


def unknown():
    """Crates that a step names and crates.txt doesn't."""
    known = read_crates()[0]
    return [name for _, crates, *_ in STEPS for name in crates if name not in known]


def main():
    if unknown():
        sys.exit(f"no crate of crates.txt: {', '.join(unknown())}")
    pictures = {ARCHITECTURE: architecture(), PAYMENT: payment()}
    if sys.argv[1:] == ["--check"]:
        for path, text in pictures.items():
            if not path.is_file() or path.read_text() != text:
                sys.exit(f"{path.relative_to(TOP)} isn't what crates.txt makes: run python3 tools/pictures.py")
        print("the pictures are what crates.txt makes")
    elif not sys.argv[1:]:
        for path, text in pictures.items():
            path.write_text(text)
    else:
        sys.exit(__doc__)


main()
