"""Charts of what bench/server measures, as SVG: bars of requests a second, and a change's time over the number of keys. It needs Python
alone. A row is what a line of the table says: who serves, on how many connections, with how many keys, the requests a second by
operation, and the µs of a CreateKey, or None."""

from xml.sax.saxutils import escape

WIDTH, HEIGHT = 760, 340
LEFT, RIGHT, TOP, BOTTOM = 70, 20, 46, 62
COLOURS = ["#2b6cb0", "#7fb3dd", "#2f855a", "#8fc7a5", "#c2571a", "#8a8a8a"]


def text(x, y, words, anchor="middle", size=12):
    """A text at a place."""
    return f'<text x="{x:.1f}" y="{y:.1f}" text-anchor="{anchor}" font-size="{size}">{escape(words)}</text>'


def step_of(most):
    """A round step of which four to nine reach the greatest value."""
    step = 1
    while most / step > 9:
        step *= 2 if str(step)[0] in "15" else 2.5
        step = int(step)
    return step


def frame(title, unit, most, names):
    """The ground of a chart, with its title, the names of its series, and lines at round values; and where a value stands."""
    step = step_of(most)
    top = (int(most / step) + 1) * step
    def height(value):
        return HEIGHT - BOTTOM - (HEIGHT - TOP - BOTTOM) * value / top
    parts = [f'<rect width="{WIDTH}" height="{HEIGHT}" fill="#ffffff"/>', text(LEFT, 18, title, "start", 14)]
    for value in range(0, top + 1, step):
        parts.append(f'<line x1="{LEFT}" x2="{WIDTH - RIGHT}" y1="{height(value):.1f}" y2="{height(value):.1f}" stroke="#dddddd"/>')
        parts.append(text(LEFT - 6, height(value) + 4, f"{value:,}", "end", 11))
    parts.append(text(LEFT, 36, unit, "start", 11))
    place = LEFT
    for name, colour in zip(names, COLOURS):
        parts.append(f'<rect x="{place}" y="{HEIGHT - 20}" width="11" height="11" fill="{colour}"/>')
        parts.append(text(place + 16, HEIGHT - 10, name, "start", 11))
        place += 34 + 6.2 * len(name)
    return parts, height


def written(parts):
    """The whole picture."""
    inside = "\n".join(parts)
    head = f'<svg xmlns="http://www.w3.org/2000/svg" viewBox="0 0 {WIDTH} {HEIGHT}" width="{WIDTH}" height="{HEIGHT}" font-family="sans-serif">'
    return f"{head}\n{inside}\n</svg>\n"


def label(row):
    """Who serves, and on how many connections."""
    return f"{row['who'].split(' ')[0]}, {row['connections']} connection{'s' if row['connections'] > 1 else ''}"


def requests_chart(rows, operations, title):
    """Bars of requests a second, of the rows with the fewest keys."""
    fewest = min(row["keys"] for row in rows)
    shown = [row for row in rows if row["keys"] == fewest and row["rates"]]
    most = max(rate for row in shown for rate in row["rates"].values())
    parts, height = frame(title, "requests a second", most, map(label, shown))
    room = (WIDTH - LEFT - RIGHT) / len(operations)
    width = room * 0.8 / len(shown)
    for group, operation in enumerate(operations):
        start = LEFT + room * (group + 0.1)
        for series, row in enumerate(shown):
            x, value = start + width * series, row["rates"][operation]
            y = height(value)
            parts.append(f'<rect x="{x:.1f}" y="{y:.1f}" width="{width - 2:.1f}" height="{height(0) - y:.1f}" fill="{COLOURS[series]}"/>')
            parts.append(text(x + width / 2, y - 4, f"{value:,.0f}", size=10))
        parts.append(text(start + room * 0.4, height(0) + 18, operation))
    return written(parts)


def changes_chart(rows, title):
    """A CreateKey's time over the number of keys, a line for each number of connections; of servers that were measured at several."""
    series = {}
    for row in rows:
        if row["micros"]:
            series.setdefault(label(row), []).append((row["keys"], row["micros"]))
    series = {name: points for name, points in series.items() if len(points) > 1}
    most = max(micros for points in series.values() for _, micros in points)
    widest = max(keys for points in series.values() for keys, _ in points)
    parts, height = frame(title, "µs a CreateKey", most, series)
    def place(keys):
        return LEFT + (WIDTH - LEFT - RIGHT - 40) * keys / widest
    for name, colour in zip(series, COLOURS):
        line = " ".join(f"{place(keys):.1f},{height(micros):.1f}" for keys, micros in series[name])
        parts.append(f'<polyline points="{line}" fill="none" stroke="{colour}" stroke-width="2"/>')
        for keys, micros in series[name]:
            parts.append(f'<circle cx="{place(keys):.1f}" cy="{height(micros):.1f}" r="3.5" fill="{colour}"/>')
            under = 16 if colour == COLOURS[0] else -8
            parts.append(text(place(keys) + 4, height(micros) + under, f"{micros:,.0f}", "start", 11))
    for keys in sorted({keys for points in series.values() for keys, _ in points}):
        parts.append(text(place(keys), height(0) + 18, f"{keys:,} keys", "start"))
    return written(parts)
