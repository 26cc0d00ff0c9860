"""Draws the table of tools/bench as two charts in SVG: the speed of each row relative to its yardstick, and whole jobs by workers."""
import re
from html import escape

INK, MUTED, GRID, OURS, THEIRS, COMMAND = "#1b1f24", "#57606a", "#d8dee4", "#0b6bcb", "#9a6700", "#6639ba"
FONT = 'font-family="system-ui, sans-serif"'
# A row: its name and unit, our median with its spread, the yardstick's, and the ratio of the medians;
# the last two are empty and 0 if the row has no yardstick.
ChartRow = tuple[str, str, list[float], list[float], float]

# In these units less is better, so the speed is the yardstick's figure divided by ours.
TIMES = {"us", "ns"}


def rows_in(text: str) -> list[ChartRow]:
    """Returns the rows of a table, as in docs/PERFORMANCE.md or as tools/bench prints it: name, unit, our median with its spread, the yardstick's, and the
    ratio of the medians (the first if a row has two)."""
    figure = r"(\d+\.\d+) \((\d+\.\d+) to (\d+\.\d+)\)"
    # Other tables follow the table of figures, so each name is used only once.
    found: dict[str, ChartRow] = {}
    for line in text.splitlines():
        line = line.strip().strip("|").replace("|", "  ")
        row = re.match(rf"\s*(.*?)\s+(M/s|MB/s|us|ns)\s+{figure}\s+(?:{figure}|-)\s+([\d.]+|-)", line)
        if row:
            numbers = [float(it) for it in row.groups()[2:8] if it]
            found.setdefault(row[1], (row[1], row[2], numbers[:3], numbers[3:], float(row[9]) if numbers[3:] else 0.0))
    return list(found.values())


def words(
    x: float, y: float, text: str, size: float = 13, colour: str = INK, anchor: str = "start", weight: str = "normal"
) -> str:
    """Returns a text at a position."""
    return f'<text x="{x:.1f}" y="{y:.1f}" {FONT} font-size="{size}" fill="{colour}" text-anchor="{anchor}" font-weight="{weight}">{escape(text)}</text>'


def line(x1: float, y1: float, x2: float, y2: float, colour: str = GRID, width: float = 1.0) -> str:
    """Returns a line between two positions."""
    return f'<line x1="{x1:.1f}" y1="{y1:.1f}" x2="{x2:.1f}" y2="{y2:.1f}" stroke="{colour}" stroke-width="{width}"/>'


def bar(x: float, y: float, width: float, height: float, colour: str) -> str:
    """Returns a bar."""
    return f'<rect x="{x:.1f}" y="{y:.1f}" width="{width:.1f}" height="{height:.1f}" rx="2" fill="{colour}"/>'


def drawing(width: float, height: float, title: str, parts: list[str]) -> str:
    """Returns a whole drawing on white, with a title for screen readers."""
    head = f'<svg xmlns="http://www.w3.org/2000/svg" viewBox="0 0 {width} {height}" width="{width}" height="{height}" role="img" aria-label="{escape(title)}">'
    return (
        "\n".join(
            [
                head,
                f"<title>{escape(title)}</title>",
                f'<rect width="{width}" height="{height}" fill="#ffffff"/>',
                *parts,
                "</svg>",
            ]
        )
        + "\n"
    )


def ratios(rows: list[ChartRow]) -> str:
    """Returns the chart of the speed of each row that has a yardstick, as a bar with a line at 1."""
    shown = [(name, 1 / ratio if unit in TIMES else ratio) for name, unit, _, theirs, ratio in rows if theirs]
    left, top, step, most = 350, 74, 22, max([2.0, *(speed for _, speed in shown)])
    scale = 380 / most
    height = top + step * len(shown) + 34
    title = "Speed relative to the yardstick of each row"
    parts = [
        words(16, 28, title, 17, weight="600"),
        words(
            16,
            48,
            "1 is the yardstick; to the right is faster. docs/PERFORMANCE.md has the figures with their spread.",
            12,
            MUTED,
        ),
    ]
    for mark in (0, 0.5, 1, 1.5, 2):
        x = left + mark * scale
        parts += [line(x, top - 8, x, height - 26), words(x, height - 10, f"{mark:g}", 12, MUTED, "middle")]
    for at, (name, speed) in enumerate(shown):
        y = top + step * at
        # Not across the line at 1.
        label = 1 if 0.88 < speed < 1 else speed
        parts += [
            words(left - 8, y + 11, name, 12, INK, "end"),
            bar(left, y, speed * scale, step - 7, OURS),
            words(left + label * scale + 6, y + 11, f"{speed:.2f}", 12, MUTED),
        ]
    parts.append(line(left + scale, top - 8, left + scale, height - 26, INK, 1.5))
    return drawing(800, height, title, parts)


def jobs(rows: list[ChartRow]) -> str:
    """Returns the chart of whole jobs by workers: ours, the yardstick's, and those of rbhost run, each with its spread."""
    bars: dict[int, list[tuple[str, str, list[float]]]] = {}
    for name, _, ours, theirs, _ in rows:
        found = re.match(r"(whole jobs|rbhost run), (\d+) workers", name)
        if found:
            kinds = (
                [("whole jobs here", OURS, ours), ("DPDK's interpreter over the kernel ring's logic", THEIRS, theirs)]
                if found[1] == "whole jobs"
                else [("rbhost run", COMMAND, ours)]
            )
            bars.setdefault(int(found[2]), []).extend(kind for kind in kinds if kind[2])
    # A spread that goes far above all medians is cut off, and its end is printed.
    most = 1.4 * max([1.0, *(figure[0] for kinds in bars.values() for _, _, figure in kinds)])
    left, top, base, group, wide = 56, 84, 330, 220, 48
    scale, width = (base - top) / most, 56 + 220 * len(bars) + 24
    title = "Whole jobs by workers, in millions a second"
    parts = [words(16, 28, title, 17, weight="600")]
    legend = 16.0
    for kind, colour in dict.fromkeys((kind, colour) for kinds in bars.values() for kind, colour, _ in kinds):
        parts += [bar(legend, 44, 12, 12, colour), words(legend + 18, 54, kind, 12, MUTED)]
        legend += 40 + 6.4 * len(kind)
    for mark in range(0, int(most) + 1, 1 if most < 8 else 2):
        y = base - mark * scale
        parts += [line(left, y, width - 16, y), words(left - 8, y + 4, str(mark), 12, MUTED, "end")]
    for at, (workers, kinds) in enumerate(sorted(bars.items())):
        x = left + 28 + group * at
        for place, (_, colour, (median, least, greatest)) in enumerate(kinds):
            edge = x + place * (wide + 8)
            middle = edge + wide / 2
            end = min(greatest, most)
            told = f"{median:.2f}" if end == greatest else f"{median:.2f} (to {greatest:.2f})"
            parts += [
                bar(edge, base - median * scale, wide, median * scale, colour),
                line(middle, base - least * scale, middle, base - end * scale, INK, 1.5),
            ]
            parts.append(words(middle, base - end * scale - 6, told, 12, INK, "middle"))
        parts.append(
            words(
                x + (wide + 8) * len(kinds) / 2 - 4,
                base + 20,
                f"{workers} worker{'s' if workers > 1 else ''}",
                13,
                INK,
                "middle",
            )
        )
    parts.append(line(left, base, width - 16, base, INK, 1.0))
    return drawing(width, base + 40, title, parts)
