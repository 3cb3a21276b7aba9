"""The plot of bench/run: time against steps, both on logarithmic scales, one panel a kind."""

import math

COLUMNS = 4
WIDTH, HEIGHT = 250, 210
LEFT, RIGHT, TOP, BOTTOM = 52, 8, 26, 38
COLOURS = {"ours": "#c2410c", "baseline": "#1d4ed8"}
UNITS = {-6: "1 µs", -5: "10 µs", -4: "100 µs", -3: "1 ms", -2: "10 ms", -1: "100 ms", 0: "1 s", 1: "10 s", 2: "100 s"}
STEPS = {2: "100", 3: "1k", 4: "10k", 5: "100k", 6: "1M", 7: "10M", 8: "100M", 9: "1G"}


def decades(values):
    return math.floor(math.log10(min(values))), math.ceil(math.log10(max(values)))


class Panel:
    """Places in one panel; the scales are the same in all."""

    def __init__(self, column, row, steps, seconds):
        self.left = column * WIDTH + LEFT
        self.right = (column + 1) * WIDTH - RIGHT
        self.top = row * HEIGHT + TOP
        self.bottom = (row + 1) * HEIGHT - BOTTOM
        self.steps = steps
        self.seconds = seconds

    def x(self, power):
        low, high = self.steps
        return self.left + (power - low) / (high - low) * (self.right - self.left)

    def y(self, power):
        low, high = self.seconds
        return self.bottom - (power - low) / (high - low) * (self.bottom - self.top)


def line(x1, y1, x2, y2, colour):
    return f'<line x1="{x1:.1f}" y1="{y1:.1f}" x2="{x2:.1f}" y2="{y2:.1f}" stroke="{colour}"/>'


def text(x, y, words, anchor="middle", size=10, colour="#333", more=""):
    return f'<text x="{x:.1f}" y="{y:.1f}" text-anchor="{anchor}" font-size="{size}" fill="{colour}" {more}>{words}</text>'


def axes(panel, title):
    middle = (panel.left + panel.right) / 2
    parts = [text(middle, panel.top - 9, title, size=13, colour="#000")]
    for power in range(panel.steps[0], panel.steps[1] + 1):
        x = panel.x(power)
        parts += [line(x, panel.top, x, panel.bottom, "#ddd"), text(x, panel.bottom + 13, STEPS[power])]
    for power in range(panel.seconds[0], panel.seconds[1] + 1):
        y = panel.y(power)
        parts += [line(panel.left, y, panel.right, y, "#ddd"), text(panel.left - 4, y + 3, UNITS[power], "end", 9)]
    parts.append(text(middle, panel.bottom + 28, "steps"))
    return parts


def curve(panel, found, name):
    places = [(panel.x(math.log10(one["steps"])), panel.y(math.log10(one[name]))) for one in found]
    path = " ".join(f"{x:.1f},{y:.1f}" for x, y in places)
    parts = [f'<polyline points="{path}" fill="none" stroke="{COLOURS[name]}" stroke-width="1.6"/>']
    parts += [f'<circle cx="{x:.1f}" cy="{y:.1f}" r="2.6" fill="{COLOURS[name]}"/>' for x, y in places]
    return parts


def legend(panel):
    parts = []
    for i, (name, colour) in enumerate(COLOURS.items()):
        y = panel.top + 30 + 24 * i
        parts += [f'<line x1="{panel.left}" y1="{y}" x2="{panel.left + 30}" y2="{y}" stroke="{colour}" stroke-width="2"/>',
                  f'<circle cx="{panel.left + 15}" cy="{y}" r="3" fill="{colour}"/>',
                  text(panel.left + 38, y + 4, name, "start", 13)]
    parts.append(text(panel.left, panel.top + 92, "wall time of one reading", "start", 11))
    parts.append(text(panel.left, panel.top + 108, "against its steps", "start", 11))
    return parts


def plot(kinds, times):
    steps = decades([one["steps"] for one in times])
    seconds = decades([one[name] for one in times for name in COLOURS])
    rows = -(-(len(kinds) + 1) // COLUMNS)
    parts = []
    for i, kind in enumerate(kinds):
        panel = Panel(i % COLUMNS, i // COLUMNS, steps, seconds)
        found = [one for one in times if one["kind"] == kind]
        parts += axes(panel, kind)
        for name in COLOURS:
            parts += curve(panel, found, name)
    last = len(kinds)
    parts += legend(Panel(last % COLUMNS, last // COLUMNS, steps, seconds))
    width, height = COLUMNS * WIDTH, rows * HEIGHT
    head = f'<svg xmlns="http://www.w3.org/2000/svg" viewBox="0 0 {width} {height}" width="{width}" height="{height}" font-family="sans-serif">'
    return "\n".join([head, '<rect width="100%" height="100%" fill="white"/>', *parts, "</svg>"]) + "\n"
