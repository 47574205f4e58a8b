"""Pictures of docs/PERFORMANCE.md's tables: the numbers of bars and lines, which docs/site/*.upon draw."""
import math
import re

# Of a table by its first head: the picture's kind and title, the columns of the names, and those of the numbers, or the
# column that names the series and that of the numbers.
TABLES = {
    "a row that is rendered": ("bars", "Instructions of a row that is rendered", 0, {1: "here", 2: "upon"}),
    "1000 bytes that are compiled": ("bars", "Instructions of 1000 bytes that are compiled", 0, {1: "here", 2: "upon"}),
    "template, bytes, output": ("bars", "Seconds of the program", 0, {3: "here", 4: "upon"}),
    "text, delimiters": ("series", "GB a second that are searched", 0, (1, -1)),
    "text, by": ("series", "GB a second that are escaped", 0, (1, -1)),
    "function, of, by": ("series", "Milliseconds of a call on 1,000,000 items or characters", 2, (2, -1)),
    "compiling: instructions": ("lines", "Instructions of compiling, by how many times the work there is", 0, None),
    "rendering: instructions": ("lines", "Instructions of rendering, by how many times the work there is", 0, None),
    "the program: peak of memory": ("lines", "Peak of memory in MiB, by how many times the work there is", 0, None),
}
# How much of the width the longest bar takes, and where the lines of a picture begin and end, in percent.
LONGEST, LEFT, RIGHT = 70, 14, 58
# Heights, in pixels.
NAME, BAR, GAP = 20, 15, 12
TOP, BOTTOM, LABEL = 12, 300, 16


def number(text):
    """A number of a table, or none."""
    found = re.fullmatch(r"([\d,]+(?:\.\d+)?)(?: ms)?", text)
    return float(found.group(1).replace(",", "")) if found else None


def of_table(rows):
    """The picture of a table's rows, its head first, or none."""
    for head, (kind, title, name, columns) in TABLES.items():
        if ", ".join(rows[0]).startswith(head):
            if kind == "lines":
                return {"lines": lines(title, rows)}
            if kind == "series":
                return {"bars": bars(title, *by_series(rows, name, *columns))}
            groups = [(row[name], [row[at] for at in columns]) for row in rows[1:]]
            return {"bars": bars(title, list(columns.values()), groups)}
    return None


def by_series(rows, name, series, value):
    """The series of a table that has a row for each, and its groups with a number for each series."""
    names, groups = [], {}
    for row in rows[1:]:
        key = row[0] if name == 0 else f"{row[0]} of {row[1]}"
        groups.setdefault(key, {})[row[series]] = row[value]
        names.extend([row[series]] if row[series] not in names else [])
    return names, [(key, [found.get(it, "") for it in names]) for key, found in groups.items()]


def bars(title, series, groups):
    """Bars: for each group a name and a bar for each series that has a number."""
    most = max(number(text) or 0 for _, texts in groups for text in texts)
    shown, y, told = [], 0, []
    for name, texts in groups:
        drawn = []
        top = y
        y += NAME
        for at, text in enumerate(texts):
            if number(text) is not None:
                width = max(0.3, number(text) / most * LONGEST)
                drawn.append({"y": y, "text_y": y + 11, "width": f"{width:.2f}", "after": f"{width + 1:.2f}", "series": at,
                              "value": text})
                y += BAR
        told.append(f"{name}: " + ", ".join(f"{series[it['series']]} {it['value']}" for it in drawn))
        shown.append({"name": name, "y": top + 14, "bars": drawn})
        y += GAP
    legend = [{"series": at, "name": name} for at, name in enumerate(series)]
    return {"title": title, "about": "; ".join(told) + ".", "height": y, "groups": shown, "series": legend}


def short(value):
    """A number of an axis: 100k, 1M."""
    for size, letter in ((10**6, "M"), (1000, "k")):
        if value >= size:
            return f"{value // size:g}{letter}"
    return f"{value:g}"


def lines(title, rows):
    """Lines over 1, 2, 4 times the work, on logarithmic scales, with upon's last number as a ring."""
    count = len(rows[0]) - 2
    drawn = [(row[0], [number(text) for text in row[1:]]) for row in rows[1:]]
    numbers = [it for _, values in drawn for it in values]
    low, high = math.floor(math.log10(min(numbers))), math.log10(max(numbers))
    y_of = lambda value: round(BOTTOM - (math.log10(value) - low) / (high - low) * (BOTTOM - TOP), 1)
    x_of = lambda at: f"{LEFT + at * (RIGHT - LEFT) / (count - 1):.2f}"
    tens = [10**at for at in range(low, math.floor(high) + 1)]
    marks = [{"y": y_of(at), "text_y": y_of(at) + 4, "text": short(at)} for at in tens]
    shown = []
    for at, (name, values) in enumerate(drawn):
        points = [{"x": x_of(i), "y": y_of(value)} for i, value in enumerate(values[:count])]
        parts = [{"x1": a["x"], "y1": a["y"], "x2": b["x"], "y2": b["y"]} for a, b in zip(points, points[1:])]
        ring = {"x": x_of(count - 1), "y": y_of(values[-1])}
        shown.append({"name": name, "series": at, "parts": parts, "end": points[-1], "upon": ring})
    place_labels(shown)
    told = [f"{row[0]}: " + ", ".join(f"{rows[0][at]} {row[at]}" for at in (1, count, count + 1)) for row in rows[1:]]
    times = [{"x": x_of(at), "text": text} for at, text in enumerate(rows[0][1:count + 1])]
    return {"title": title, "about": "; ".join(told) + ".", "height": BOTTOM + 30, "bottom": BOTTOM, "times_y": BOTTOM + 20,
            "left": LEFT, "right": RIGHT, "label_x": RIGHT + 5, "swatch_x": RIGHT + 1, "swatch_end": RIGHT + 4, "marks": marks,
            "times": times, "lines": shown}


def place_labels(shown):
    """Gives each line's name a place beside its end, with room between names."""
    free = TOP
    for line in sorted(shown, key=lambda it: it["end"]["y"]):
        line["label_y"] = round(max(free, line["end"]["y"]), 1)
        line["label_text_y"] = round(line["label_y"] + 4, 1)
        free = line["label_y"] + LABEL
    over = max(line["label_y"] for line in shown) - BOTTOM
    if over > 0:
        for line in shown:
            line["label_y"] = round(line["label_y"] - over, 1)
            line["label_text_y"] = round(line["label_text_y"] - over, 1)
