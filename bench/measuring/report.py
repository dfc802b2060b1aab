"""What a measurement prints and writes: the machine, a table, a file of comma-separated values,
and a picture."""
import csv
import math
import os
import re
import time
from html import escape

COLOURS = ["#1b6ca8", "#d9822b", "#7a9e3c", "#8e5ea2"]


def machine():
    """The machine and its load now, in a sentence."""
    with open("/proc/cpuinfo", encoding="ascii", errors="replace") as file:
        name = re.search(r"model name\s*: (.*)", file.read())
    with open("/proc/meminfo", encoding="ascii") as file:
        memory = int(re.search(r"MemTotal:\s*(\d+)", file.read())[1]) / 2**20
    when = time.strftime("%Y-%m-%d %H:%M")
    return f"{os.cpu_count()} processors ({name[1] if name else 'unknown'}), {memory:.0f} GB; load {load()} at {when}"


def load():
    """How busy the machine is: the processes that want a processor, and how many times its least
    time a short fixed loop takes: about 1 where nothing else runs, 2 where another thread of the
    same core is always busy. Processor seconds grow with it."""
    times = []
    for _ in range(20):
        times += [fixed_loop() for _ in range(50)]
        time.sleep(0.05)
    times.sort()
    return f"{os.getloadavg()[0]:.1f}, pace {times[500] / times[0]:.2f}"


def fixed_loop():
    begin, total = time.thread_time_ns(), 0
    for number in range(5000):
        total += number
    return time.thread_time_ns() - begin


def row(cells):
    print("| " + " | ".join(map(str, cells)) + " |", flush=True)


def head(cells):
    row(cells)
    row(["---"] * len(cells))


def seconds(number):
    """Seconds as milliseconds of three significant digits."""
    thousand = number * 1000
    return f"{thousand:.0f}" if thousand >= 100 else f"{thousand:.1f}" if thousand >= 10 else f"{thousand:.2f}"


def mean(ratios):
    """The geometric mean."""
    return math.exp(sum(map(math.log, ratios)) / len(ratios)) if ratios else 0.0


def write_csv(path, names, rows):
    with open(path, "w", encoding="ascii", newline="") as file:
        writer = csv.writer(file)
        writer.writerow(names)
        writer.writerows(rows)


def write_picture(path, title, names, groups, notes=()):
    """Bars, one group a text: its name and for each program, where it was asked, its milliseconds
    and whether it answered. A bar without an answer, hollow, has what it took until it gave up.
    The axis goes by powers of ten; notes stand below."""
    values = [it[0] for _, bars in groups for it in bars if it and it[0]]
    if not values:
        return
    low, high = math.floor(math.log10(min(values))), math.ceil(math.log10(max(values)))
    high = max(high, low + 1)
    bar, gap, left, top, height = 9, 10, 70, 60, 300
    group_width = bar * len(names) + gap
    width = max(left + group_width * len(groups) + 20, left + 130 * len(names) + 120)
    whole = top + height + 40 + 18 * len(notes)

    def y(value):
        return top + height - (math.log10(value) - low) / (high - low) * height

    parts = [
        f'<svg xmlns="http://www.w3.org/2000/svg" viewBox="0 0 {width} {whole}" font-family="sans-serif" font-size="12">',
        f'<rect width="{width}" height="{whole}" fill="white"/>',
        f'<text x="{left}" y="20" font-size="14">{escape(title)}</text>',
    ]
    legend = [(it, COLOURS[at % len(COLOURS)]) for at, it in enumerate(names)]
    if any(it and not it[1] for _, bars in groups for it in bars):
        legend.append(("gave up", "white"))
    for at, (name, colour) in enumerate(legend):
        x, line = left + at * 130, "#888888" if colour == "white" else colour
        shape = f'x="{x}" y="32" width="12" height="12"'
        parts.append(f'<rect {shape} fill="{colour}" stroke="{line}"/>')
        parts.append(f'<text x="{x + 18}" y="43">{escape(name)}</text>')
    for power in range(low, high + 1):
        at = y(10.0**power)
        label = f"{10.0**power:g} ms" if power < 3 else f"{10.0 ** (power - 3):g} s"
        parts.append(f'<line x1="{left}" y1="{at:.1f}" x2="{width - 10}" y2="{at:.1f}" stroke="#cccccc"/>')
        parts.append(f'<text x="{left - 8}" y="{at + 4:.1f}" text-anchor="end">{label}</text>')
    for place, (name, bars) in enumerate(groups):
        start = left + gap / 2 + place * group_width
        for at, (value, has_rows) in enumerate(it or (None, False) for it in bars):
            if value:
                colour, end = COLOURS[at % len(COLOURS)], "" if has_rows else ", gave up"
                shape = f'x="{start + at * bar:.1f}" y="{y(value):.1f}" width="{bar - 2}" height="{top + height - y(value):.1f}"'
                said = f"{escape(name)}, {escape(names[at])}: {value:.3g} ms{end}"
                fill = f'fill="{colour if has_rows else "white"}" stroke="{colour}"'
                parts.append(f"<rect {shape} {fill}><title>{said}</title></rect>")
        middle = start + bar * len(names) / 2
        parts.append(f'<text x="{middle:.1f}" y="{top + height + 18}" text-anchor="middle">{escape(name)}</text>')
    for at, note in enumerate(notes):
        parts.append(f'<text x="{left}" y="{top + height + 42 + 18 * at}" font-size="10">{escape(note)}</text>')
    parts.append("</svg>\n")
    with open(path, "w", encoding="utf-8") as file:
        file.write("\n".join(parts))
