"""A plot as SVG: lines with a mark at each point, and a thin bar from the lowest to the highest figure."""

import math

WIDTH, HEIGHT = 760, 400
LEFT, RIGHT, TOP, BOTTOM = 74, 226, 40, 52
COLOURS = ["#0072b2", "#d55e00", "#009e73", "#cc79a7", "#e69f00", "#56b4e9", "#000000"]


def _around(values, log):
    """Round numbers that the values lie between."""
    low, high = min(values), max(values)
    if log:
        return [10.0**e for e in range(math.floor(math.log10(low)), math.ceil(math.log10(high)) + 1)]
    step = 10 ** math.floor(math.log10(high))
    step = next(step * part for part in (0.1, 0.2, 0.25, 0.5, 1) if high / (step * part) <= 8)
    return [step * i for i in range(math.ceil(high / step - 1e-9) + 1)]


class _Axis:
    """Values to places between two ends of the picture."""

    def __init__(self, values, log, start, end):
        self.scale = math.log10 if log else float
        self.low, self.high = self.scale(min(values)), self.scale(max(values))
        self.start, self.end = start, end

    def __call__(self, value):
        return self.start + (self.scale(value) - self.low) / (self.high - self.low) * (self.end - self.start)


def _text(x, y, words, anchor="start", more=""):
    words = words.replace("&", "&amp;").replace("<", "&lt;")
    return f'<text x="{x:.1f}" y="{y:.1f}" text-anchor="{anchor}"{more}>{words}</text>'


def plot(title, across, up, series, log=True):
    """The picture of series, {name: [(x, (median, lowest, highest))]}; across: what x is; up: a time in ns, in words."""
    points = [point for line in series.values() for point in line]
    columns = sorted({at for at, _ in points})
    levels = _around([value for _, spread in points for value in spread], log)
    x, y = _Axis(columns, log, LEFT, WIDTH - RIGHT), _Axis(levels, log, HEIGHT - BOTTOM, TOP)
    out = [
        f'<svg xmlns="http://www.w3.org/2000/svg" viewBox="0 0 {WIDTH} {HEIGHT}" font-family="sans-serif" font-size="12">',
        f"<title>{title}</title>",
        f'<rect width="{WIDTH}" height="{HEIGHT}" fill="#fff"/>',
        _text(LEFT, 22, title, more=' font-size="14" font-weight="bold"'),
        _text((LEFT + WIDTH - RIGHT) / 2, HEIGHT - 12, across, "middle"),
    ]
    for tick in [tick for tick in _around(columns, log) if tick <= columns[-1]] if log else columns:
        out.append(f'<path d="M{x(tick):.1f} {TOP}V{HEIGHT - BOTTOM}" stroke="#ddd"/>')
        out.append(_text(x(tick), HEIGHT - BOTTOM + 18, f"{tick:,.0f}", "middle"))
    for tick in levels:
        out.append(f'<path d="M{LEFT} {y(tick):.1f}H{WIDTH - RIGHT}" stroke="#ddd"/>')
        out.append(_text(LEFT - 8, y(tick) + 4, up(tick), "end"))
    for i, (name, line) in reversed(list(enumerate(series.items()))):  # the first one on top
        colour = COLOURS[i % len(COLOURS)]
        path = " ".join(f"{x(at):.1f},{y(median):.1f}" for at, (median, _, _) in line)
        out.append(f'<polyline points="{path}" fill="none" stroke="{colour}" stroke-width="2"/>')
        for at, (median, lowest, highest) in line:
            out.append(f'<path d="M{x(at):.1f} {y(lowest):.1f}V{y(highest):.1f}" stroke="{colour}"/>')
            out.append(f'<circle cx="{x(at):.1f}" cy="{y(median):.1f}" r="3" fill="{colour}"/>')
        level = TOP + 14 + 20 * i
        out.append(f'<path d="M{WIDTH - RIGHT + 14} {level - 4}h18" stroke="{colour}" stroke-width="3"/>')
        out.append(_text(WIDTH - RIGHT + 38, level, name))
    return "\n".join([*out, "</svg>"]) + "\n"
