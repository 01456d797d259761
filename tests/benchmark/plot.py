#!/usr/bin/env python3
"""Draws the benchmark's table as a picture, one panel a command: plot.py TABLE PICTURE.svg"""
import math
import sys

PANEL, HIGH, LEFT, TOP, GAP = 250, 230, 62, 56, 46
COMMANDS = ["access", "rank", "select", "insert", "delete"]
# label, column of the table, frames a call or None for as many as the table has, colour, dashes
SERIES = [
    ("library, 1 frame a call", 3, 1, "#9ecae1", ""),
    ("library, 16 frames a call", 3, 16, "#4292c6", ""),
    ("library, up to 1,024 a call", 3, None, "#084594", ""),
    ("twin, up to 1,024 a call", 4, None, "#e6550d", "6 3"),
    ("flat array", 6, None, "#31a354", "2 3"),
    ("rope", 8, None, "#756bb1", "8 3 2 3"),
]


def read(path):
    """The table's rows by command: lists of words."""
    rows = {command: [] for command in COMMANDS}
    with open(path, encoding="ascii") as table:
        for words in map(str.split, table):
            if words and words[0] in rows:
                rows[words[0]].append(words)
    return rows


def scale(low, high, length):
    """From a value to a distance, by logarithms."""
    return lambda value: length * (math.log(value) - math.log(low)) / (math.log(high) - math.log(low))


def points(rows, column, batch):
    """Number of marks and time, of the rows with so many frames a call."""
    largest = {}
    for row in rows:
        largest[row[1]] = max(largest.get(row[1], 0), int(row[2]))
    fits = [row for row in rows if int(row[2]) == (batch or largest[row[1]])]
    return [(int(row[1]), float(row[column])) for row in fits if row[column] != "-"]


def text(x, y, content, size=11, anchor="middle"):
    return f'<text x="{x:.1f}" y="{y:.1f}" font-size="{size}" text-anchor="{anchor}">{content}</text>'


def panel(command, rows, left, across, up, ticks):
    bottom = TOP + HIGH
    parts = [f'<rect x="{left}" y="{TOP}" width="{PANEL}" height="{HIGH}" fill="none" stroke="#888"/>']
    parts.append(text(left + PANEL / 2, TOP - 8, command, 13))
    for n in sorted({int(row[1]) for row in rows}):
        parts.append(text(left + across(n), bottom + 15, f"{n:,}"))
    for tick in ticks:
        y = bottom - up(tick)
        parts.append(f'<line x1="{left}" x2="{left + PANEL}" y1="{y:.1f}" y2="{y:.1f}" stroke="#ddd"/>')
        parts.append(text(left - 5, y + 4, f"{tick:,}", 10, "end"))
    for _, column, batch, colour, dashes in SERIES:
        way = [(left + across(n), bottom - up(ns)) for n, ns in points(rows, column, batch)]
        line = " ".join(f"{x:.1f},{y:.1f}" for x, y in way)
        parts.append(f'<polyline points="{line}" fill="none" stroke="{colour}" stroke-width="2" stroke-dasharray="{dashes}"/>')
        parts += [f'<circle cx="{x:.1f}" cy="{y:.1f}" r="2.5" fill="{colour}"/>' for x, y in way]
    return parts


def legend(y):
    parts = []
    for k, (label, _, _, colour, dashes) in enumerate(SERIES):
        x = LEFT + k * 245
        parts.append(f'<line x1="{x}" x2="{x + 30}" y1="{y}" y2="{y}" stroke="{colour}" stroke-width="2" stroke-dasharray="{dashes}"/>')
        parts.append(text(x + 36, y + 4, label, 12, "start"))
    return parts


def draw(rows):
    every = [row for command in COMMANDS for row in rows[command]]
    lengths = [int(row[1]) for row in every]
    times = [float(row[column]) for row in every for column in (3, 4, 6, 8) if row[column] != "-"]
    low, high = 10 ** math.floor(math.log10(min(times))), 10 ** math.ceil(math.log10(max(times)))
    across, up = scale(min(lengths) / 1.5, max(lengths) * 1.5, PANEL), scale(low, high, HIGH)
    ticks = [10**k for k in range(round(math.log10(low)), round(math.log10(high)) + 1)]
    width, height = LEFT + len(COMMANDS) * (PANEL + GAP), TOP + HIGH + 70
    parts = [f'<svg xmlns="http://www.w3.org/2000/svg" width="{width}" height="{height}" font-family="sans-serif">']
    parts.append(f'<rect width="{width}" height="{height}" fill="white"/>')
    parts.append(text(LEFT, 22, "nanoseconds a command, by the number of marks (both scales by logarithm)", 14, "start"))
    for k, command in enumerate(COMMANDS):
        parts += panel(command, rows[command], LEFT + k * (PANEL + GAP), across, up, ticks)
    return "\n".join([*parts, *legend(height - 22), "</svg>"]) + "\n"


if __name__ == "__main__":
    with open(sys.argv[2], "w", encoding="ascii") as picture:
        picture.write(draw(read(sys.argv[1])))
