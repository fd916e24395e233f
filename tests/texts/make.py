#!/usr/bin/env python3
"""Writes the texts of this folder with Python's csv module, and the sheets of those that import accepts.

A sheet is made from what csv.reader reads in the text, by struct, after the layout in docs/RULES.md, 7.
Usage: python3 make.py. It writes accepted/, refused/ and their lists, and prints how many texts there are.
"""
import csv
import io
import pathlib
import random
import struct

HERE = pathlib.Path(__file__).parent
BILLION = 1_000_000_000


def written(rows, quoting=csv.QUOTE_MINIMAL, **how):
    out = io.StringIO(newline="")
    csv.writer(out, quoting=quoting, **how).writerows(rows)
    return out.getvalue().encode("utf-8")


def read(text):
    return list(csv.reader(io.StringIO(text.decode("utf-8"), newline=""), strict=True))


def plain(rows):
    """The rows as export writes them: faults rising."""
    return rows[:2] + [row[:1] + sorted(row[1:], key=lambda fault: abs(int(fault))) for row in rows[2:]]


def sheet(rows):
    """The bytes of a sheet, from the rows of a text."""
    allowance, budget, mode = map(int, [*rows[0][1:], 0][:3])
    weights = [int(weight) for weight in rows[1][1:]]
    cues = []
    for row in rows[2:]:
        cue, faults = int(row[0]), [int(fault) for fault in row[1:]]
        if not cues or cues[-1][0] != cue:
            cues.append((cue, []))
        if faults:
            present = sum(1 << fault - 1 for fault in faults if fault > 0)
            absent = sum(1 << -fault - 1 for fault in faults if fault < 0)
            cues[-1][1].append((present, absent))
    place = 12 + 8 * len(cues) + 4 * len(weights)
    out = struct.pack("<HHIHH", len(weights), len(cues), allowance, budget, mode)
    for cue, ways in cues:
        out += struct.pack("<HHI", cue, len(ways), place)
        place += 16 * len(ways)
    out += struct.pack(f"<{len(weights)}I", *weights)
    for _, ways in cues:
        for present, absent in ways:
            out += struct.pack("<QQ", present, absent)
    assert len(out) == place
    return out


def listed(allowance, budget, weights, *ways):
    return [["run", allowance, budget], ["weights", *weights], *ways]


def shared(rows, *more):
    """The rows with a third number in the first of them: 1, by which the allowance is a share, or what is given."""
    return [rows[0] + list(more or [1]), *rows[1:]]


def drawn(seed, weights, cues, most_ways):
    """Random rows, each fault absent as often as present."""
    draw = random.Random(seed)
    rows = listed(draw.randint(0, BILLION), draw.randint(0, 255), [draw.randint(0, BILLION) for _ in range(weights)])
    for cue in sorted(draw.sample(range(1, 65536), cues)):
        ways = draw.randint(0, most_ways)
        for _ in range(ways):
            faults = draw.sample(range(1, weights + 1), draw.randint(0, min(weights, 9)))
            rows.append([cue, *(draw.choice((1, -1)) * fault for fault in faults)] if faults else [cue, 0])
        if not ways:
            rows.append([cue])
    return rows


HALF = 500_000_000
# The show of samples/README.md.
SHOW = listed(
    0, 8, [17500000, 100000000, 250000000, 40000000, 30000000, 8500000, 12500000, 35000000, 60000000, 75000000],
    [1, 1, 3],
    [2, 4, -5], [2, -4, 5], [2, 6],
    [3, 9], [3, 1, 2, 3], [3, 6, 7],
    [5],
    [8, 1, 2], [8, 1, 3], [8, 8, 10], [8, -5, 8],
    [12, 1, 2], [12, 1, 3], [12, 4, -5], [12, -4, 5], [12, 6, 7], [12, 8, 10], [12, 4, 9], [12, 8, 9], [12, 1, 6],
)
# Each is written bare, which is its plain text, with all fields quoted, with the words quoted, and with the faults of
# each row in another order.
ACCEPTED = {
    "paper": listed(10_000_000, 40, [HALF, HALF, 200_000_000], [7, 1, 2], [7, 1, 3], [9]),
    "show": SHOW,
    "least": listed(0, 0, [0], [1]),
    "empty-way": listed(1, 2, [5], [7, 0], [7, 1], [7, 0], [8, -1]),
    "limits": listed(BILLION, 255, [BILLION, 0] * 32, [1], [65534, *range(1, 65)], [65535, *range(-1, -65, -1)]),
    "digits": listed(999_999_999, 100, [10**n for n in range(10)] + [10**n - 1 for n in range(1, 10)],
                     [9, 9, 10, -11], [10, -9, -10, 19], [99], [100], [999, 1], [1000, -1], [9999], [10000, 2]),
    "cues": drawn(1, 20, 24, 3),
    "ways": listed(5, 6, [1, 2, 3, 4, 5, 6, 7], *([3, *(n + 1 if way >> n & 1 else -n - 1 for n in range(7))] for way in range(128))),
    "drawn": drawn(2, 64, 10, 12),
    "share": shared(listed(76_923_077, 255, [HALF, HALF, 200_000_000], [7, 1, 2], [7, 1, 3])),
    "share-drawn": shared(drawn(3, 30, 12, 6)),
}
START = listed(1, 2, [5])
# Each with its number, and the record of a 23.
REFUSED = {
    "nothing": (b"", 23, 1),
    "blank-row": (written([[], *START, [7]]), 23, 1),
    "blank-rows-behind": (written([*START, [7], [], []]), 23, 4),
    "tabs": (written([*START, [7, 1]], dialect="excel-tab"), 23, 1),
    "semicolons": (written([*START, [7, 1]], delimiter=";"), 23, 1),
    "line-feeds": (written([*START, [7, 1]], lineterminator="\n"), 23, 1),
    "returns": (written([*START, [7, 1]], lineterminator="\r"), 23, 1),
    "byte-order-mark": ("\ufeff".encode("utf-8") + written([*START, [7, 1]]), 23, 1),
    "apostrophes": (written([*START, [7, 1]], quoting=csv.QUOTE_ALL, quotechar="'"), 23, 1),
    "decimals": (written(listed(1, 2, [0.5], [7, 1])), 23, 2),
    "comma-in-a-field": (written([*START, ["7,1"]]), 23, 3),
    "line-end-in-a-field": (written([*START, [7, 1], ["8\r\n9", 1]]), 23, 4),
    "quote-in-a-field": (written([*START, [7, '1"']]), 23, 3),
    "escaped-comma": (written([*START, ["7,1"]], quoting=csv.QUOTE_NONE, escapechar="\\"), 23, 3),
    "empty-field": (written([*START, [7, None, 1]]), 23, 3),
    "fault-twice": (written([*START, [7, 1, -1, 1]]), 23, 3),
    "cue-alone-and-more": (written([*START, [7], [7, 1]]), 23, 4),
    "cue-too-high": (written([*START, [7, 1], [65536, 1]]), 23, 4),
    "no-weight": (written(listed(1, 2, [], [7])), 2, 0),
    "no-cue": (written(START), 2, 0),
    "25-cues": (written([*START, *([cue] for cue in range(1, 26))]), 2, 0),
    "cue-0": (written([*START, [0, 1]]), 5, 0),
    "cue-again": (written([*START, [7, 1], [8], [7, 1]]), 5, 0),
    "129-ways": (written([*START, *([7, 1],) * 129], quoting=csv.QUOTE_ALL), 6, 0),
    "weight-above": (written(listed(1, 2, [5, BILLION + 1], [7, 3])), 10, 0),
    "fault-beyond": (written([*START, [7, 1, -1, 2]]), 12, 0),
    "both-senses": (written([*START, [7, 1, -1]]), 13, 0),
    "allowance-above": (written(listed(2**32, 256, [5], [7])), 14, 0),
    "budget-above": (written(listed(1, 2**16, [5], [7])), 15, 0),
    "third-number-0": (written(shared([*START, [7, 1]], 0)), 23, 1),
    "third-number-2": (written(shared([*START, [7, 1]], 2)), 23, 1),
    "third-number-256": (written(shared([*START, [7, 1]], 256), csv.QUOTE_ALL), 23, 1),
    "third-field-empty": (written(shared([*START, [7, 1]], None)), 23, 1),
    "fourth-field": (written(shared([*START, [7, 1]], 1, 1)), 23, 1),
    "share-above": (written(shared(listed(BILLION + 1, 256, [5], [7]))), 14, 0),
}


def shuffled(rows):
    draw = random.Random(3)
    return rows[:2] + [row[:1] + draw.sample(row[1:], len(row) - 1) for row in rows[2:]]


def write_accepted(folder):
    names = []
    for name, rows in ACCEPTED.items():
        rows = plain(rows)
        texts = {
            name: written(rows),
            f"{name}-all": written(rows, csv.QUOTE_ALL),
            f"{name}-words": written(rows, csv.QUOTE_NONNUMERIC),
            f"{name}-order": written(shuffled(rows), csv.QUOTE_ALL).removesuffix(b"\r\n"),
        }
        for text_name, text in texts.items():
            found = read(text)
            assert plain(found) == [[str(field) for field in row] for row in rows]
            assert written(plain(found)) == texts[name]
            assert sheet(found) == sheet(rows)
            (folder / f"{text_name}.csv").write_bytes(text)
            names.append(f"{text_name} {name}\n")
        (folder / f"{name}.sheet").write_bytes(sheet(read(texts[name])))
    (HERE / "accepted.txt").write_text("".join(names))
    return len(names)


def write_refused(folder):
    for name, (text, _, _) in REFUSED.items():
        (folder / f"{name}.csv").write_bytes(text)
    lines = (f"{name} {number} {count}\n" for name, (_, number, count) in REFUSED.items())
    (HERE / "refused.txt").write_text("".join(lines))
    return len(REFUSED)


if __name__ == "__main__":
    for folder in ("accepted", "refused"):
        (HERE / folder).mkdir(exist_ok=True)
    print(write_accepted(HERE / "accepted"), "accepted,", write_refused(HERE / "refused"), "refused")
