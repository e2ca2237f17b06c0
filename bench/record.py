#!/usr/bin/env python3
"""Data files of measurements: bench/results/NAME.csv, each row with the day, the machine and its load (runnable processes).

    bench/run --built | bench/record.py codec    writes the rows of the tables that bench/run prints, and prints them

Scripts with --record call `record`.
"""

import csv
import datetime
import os
import re
import sys
from pathlib import Path

RESULTS = Path(__file__).resolve().parent / "results"
ABOUT = ["date", "machine", "load"]


def about():
    """The day, the machine and its load."""
    processor = re.search(r"model name\s*: (.*)", Path("/proc/cpuinfo").read_text())
    machine = f"{os.cpu_count()} x {processor[1] if processor else os.uname().machine}"
    return dict(zip(ABOUT, (datetime.date.today().isoformat(), machine, f"{os.getloadavg()[0]:.0f}")))


def rows_of(name):
    """The rows of a data file, each by the names of its columns."""
    path = RESULTS / f"{name}.csv"
    if not path.exists():
        return []
    with open(path, newline="") as file:
        return list(csv.DictReader(file))


def record(name, rows, key=(), of=None):
    """Writes rows into a data file. They replace those that have the same values of the columns `key`; without a key, all."""
    now = of or about()
    rows = [{**now, **row} for row in rows]
    mine = {tuple(str(row[it]) for it in key) for row in rows}
    columns = list(rows[0])
    kept = [row for row in rows_of(name) if key and tuple(row[it] for it in key) not in mine]
    with open(RESULTS / f"{name}.csv", "w", newline="") as file:
        to = csv.DictWriter(file, columns, lineterminator="\n")
        to.writeheader()
        to.writerows({it: row.get(it, "") for it in columns} for row in [*kept, *rows])
    print(f"bench/results/{name}.csv: {len(rows)} rows written", file=sys.stderr)


def numbers_in(text):
    """The numbers in a text, by the words after them: `3 messages read; 0 differ`."""
    found = re.findall(r"(?<![\w.,])(\d[\d,]*(?:\.\d+)?):? ([a-z][^,;:|\d\n]*)", text)
    return {what.strip().removesuffix(" and"): number.replace(",", "") for number, what in found}


def tables_in(text):
    """The tables in a text, each with the line before it and its rows by the names of columns."""
    found, last, heads = [], "", None
    for line in text.split("\n"):
        cells = [it.strip() for it in line.strip().strip("|").split("|")]
        if not line.startswith("|"):
            last, heads = line.strip() or last, None
        elif heads is None:
            heads = cells
            found.append((last, []))
        elif not re.match(r"\|[-:|]+$", line):
            found[-1][1].append(dict(zip(heads, cells)))
    return found


def codec_rows(text):
    """Nanoseconds of each message and operation, of those that bench/run prints, and the floors: blocks that parse takes, a copy."""
    tables = {title: {row["message"]: row for row in rows} for title, rows in tables_in(text) if rows and "message" in rows[0]}
    times, blocks = tables["Nanoseconds:"], next(rows for title, rows in tables.items() if title.endswith("`emit`:"))
    copies, arena = tables["As multiples of a `memcpy` of the message's bytes:"], tables["Nanoseconds in an arena, and over those by malloc:"]
    for name, row in times.items():
        more = {f"arena_{it}": arena[name][it] for it in ("parse", "rewrite", "settle")}
        copy = float(row["parse"]) / float(copies[name]["parse"])
        taken = re.match(r"\d+", blocks[name]["parse"])[0]
        yield {**row, "parse_blocks": taken, **more, "copy": f"{copy:.1f}"}


def main():
    if sys.argv[1:] != ["codec"]:
        sys.exit(__doc__)
    text = sys.stdin.read()
    print(text, end="")
    record("codec", list(codec_rows(text)))
    malloc = re.search(r"A malloc and a free of 64 bytes took ([\d.]+) ns", text)
    record("checks", [{"check": "bench/run", "what": "ns of a malloc and a free of 64 bytes", "value": malloc[1]}], key=("check",))


if __name__ == "__main__":
    main()
