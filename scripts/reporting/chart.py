"""Charts as inline SVG. Colours are classes; the page's style sheet sets them for a light and a dark background."""
import html
import math

WIDTH, HEIGHT = 760, 400
LEFT, RIGHT, TOP, BOTTOM = 74, 16, 14, 64


class Scale:
    """From a figure to its place on the chart."""

    def __init__(self, low, high, start, end, logarithmic=False):
        self.logarithmic = logarithmic
        self.low, self.high = (math.log10(low), math.log10(high)) if logarithmic else (low, high)
        self.start, self.end = start, end

    def __call__(self, value):
        """A figure beyond the ends is drawn at the end, and so is 0 on a logarithmic scale, which has no place."""
        if self.logarithmic:
            value = math.log10(value) if value > 0 else self.low
        part = (min(max(value, self.low), self.high) - self.low) / (self.high - self.low)
        return self.start + part * (self.end - self.start)


def step_of(span, most):
    """The round step with which a span has at most so many parts."""
    power = 10 ** math.floor(math.log10(span / most))
    return next(power * factor for factor in (1, 2, 2.5, 5, 10) if span / (power * factor) <= most)


def linear_ticks(low, high, most=8):
    step = step_of(high - low, most)
    count = round((high - low) / step)
    return [low + step * index for index in range(count + 1) if low + step * index <= high + step / 1000]


def decades(low, high):
    """The ends of a logarithmic axis at whole powers of ten, and the ticks."""
    first, last = math.floor(math.log10(low) + 1e-9), math.ceil(math.log10(high) - 1e-9)
    last = max(last, first + 1)
    return [10.0 ** power for power in range(first, last + 1)]


def y_ticks(series, logarithmic):
    """The ticks of the vertical axis, its ends among them."""
    values = [point.y for line in series for point in line.points]
    if logarithmic:
        positive = [value for value in values if value > 0]
        return decades(min(positive), max(positive))
    ends = [point.bar[1] for line in series for point in line.points if point.bar]
    high = max(values + ends)
    step = step_of(high, 8)
    return linear_ticks(0, step * math.ceil(high / step - 1e-9))


class Point:
    """x, y, the ends of the error bar or None, and what stands beside the pointer."""

    def __init__(self, x, y, bar, tip):
        self.x, self.y, self.bar, self.tip = x, y, bar, tip


class Line:
    def __init__(self, name, points):
        self.name, self.points = name, points


def text(x, y, words, anchor="middle", more=""):
    return f'<text x="{x:.1f}" y="{y:.1f}" text-anchor="{anchor}"{more}>{html.escape(words)}</text>'


def rule(x1, y1, x2, y2, kind):
    return f'<line class="{kind}" x1="{x1:.1f}" y1="{y1:.1f}" x2="{x2:.1f}" y2="{y2:.1f}"/>'


def mark(shape, x, y, kind, tip=""):
    """A mark of one of four shapes, so that colour alone tells nothing."""
    r = 4.5
    top = f"M{x:.1f} {y - r - 1:.1f}"
    tag, attributes = [
        ("circle", f'cx="{x:.1f}" cy="{y:.1f}" r="{r}"'),
        ("rect", f'x="{x - r + 0.5:.1f}" y="{y - r + 0.5:.1f}" width="{2 * r - 1}" height="{2 * r - 1}"'),
        ("path", f'd="{top}l{r + 1} {2 * r}h{-2 * (r + 1)}z"'),
        ("path", f'd="{top}l{r + 1} {r + 1}l{-r - 1} {r + 1}l{-r - 1} {-r - 1}z"'),
    ][shape % 4]
    title = f"<title>{html.escape(tip)}</title>" if tip else ""
    return f'<{tag} class="{kind}" {attributes}>{title}</{tag}>'


def crowded(places, names):
    """Whether names that stand in one row would touch; a letter takes about eight units. Every second one is lowered
    then."""
    pairs = zip(places, places[1:], names, names[1:])
    return any(8 * (len(name) + len(following)) / 2 > right - left - 4 for left, right, name, following in pairs)


def grid(x, y, x_ticks, ticks, x_names):
    """The lines of both axes with their numbers."""
    parts = []
    lowered = crowded([x(value) for value in x_ticks], x_names)
    for index, (value, name) in enumerate(zip(x_ticks, x_names)):
        parts.append(rule(x(value), TOP, x(value), HEIGHT - BOTTOM, "grid"))
        parts.append(text(x(value), HEIGHT - BOTTOM + (33 if lowered and index % 2 else 18), name))
    for value in ticks:
        parts.append(rule(LEFT, y(value), WIDTH - RIGHT, y(value), "grid"))
        parts.append(text(LEFT - 8, y(value) + 4, f"{value:g}", "end"))
    return parts


def aside(series, index, point, logarithmic):
    """How far the bar of a point stands beside it, so that bars of several lines do not hide each other, and whether
    the point has a place on the chart. One that has none moves with its bar, if others stand there too."""
    if point.y > 0 or not logarithmic:
        return 3 * (index - (len(series) - 1) / 2), True
    open_here = [place for place, line in enumerate(series)
                 if any(other.x == point.x and other.y <= 0 for other in line.points)]
    return 10 * (open_here.index(index) - (len(open_here) - 1) / 2), False


def drawn(series, index, x, y):
    """One line with error bars and marks. Where the axis has no place for a 0 the line is broken, and an open mark
    stands on the axis."""
    line = series[index]
    colour = f"c{index % 6 + 1}"
    parts, stretch = [], []

    def end_stretch():
        if stretch:
            parts.append(f'<polyline class="line {colour}" points="{" ".join(stretch)}"/>')
            stretch.clear()

    for point in line.points:
        shift, on_chart = aside(series, index, point, y.logarithmic)
        if on_chart:
            stretch.append(f"{x(point.x):.1f},{y(point.y):.1f}")
        else:
            end_stretch()
        at = x(point.x) + shift
        if point.bar:
            parts.append(rule(at, y(point.bar[0]), at, y(point.bar[1]), f"bar {colour}"))
        kind, place = ("mark", x(point.x)) if on_chart else ("open", at)
        parts.append(mark(index, place, y(point.y), f"{kind} {colour}", f"{line.name}: {point.tip}"))
    end_stretch()
    return parts


def legend(names):
    """The names of the lines beside their marks, as a list that wraps on a narrow page."""
    items = []
    for index, name in enumerate(names):
        colour = f"c{index % 6 + 1}"
        swatch = rule(0, 7, 26, 7, f"line {colour}") + mark(index, 13, 7, f"mark {colour}")
        items.append(f'<li><svg class="swatch" viewBox="0 0 26 14">{swatch}</svg>{html.escape(name)}</li>')
    return f'<ul class="legend">{"".join(items)}</ul>'


def line_chart(title, series, x_label, y_label, log_y=False, log_x=False, x_ticks=None, x_names=None):
    """Lines over a common axis. x_names name the places of x_ticks where they are no numbers."""
    series = [line for line in series if line.points]
    places = sorted({point.x for line in series for point in line.points}.union(x_ticks or []))
    if x_ticks is None:
        x_ticks = places if len(places) <= 8 else linear_ticks(places[0], places[-1])
    x_names = x_names or [f"{value:g}" for value in x_ticks]
    ticks = y_ticks(series, log_y)
    inset = 24
    x = Scale(places[0], places[-1], LEFT + inset, WIDTH - RIGHT - inset, log_x)
    y = Scale(ticks[0], ticks[-1], HEIGHT - BOTTOM, TOP, log_y)
    parts = grid(x, y, x_ticks, ticks, x_names)
    parts.append(text((LEFT + WIDTH - RIGHT) / 2, HEIGHT - 12, x_label, more=' class="label"'))
    middle = (TOP + HEIGHT - BOTTOM) / 2
    parts.append(text(16, middle, y_label, more=f' class="label" transform="rotate(-90 16 {middle:.1f})"'))
    for index in range(len(series)):
        parts += drawn(series, index, x, y)
    return (f'<figure><figcaption>{html.escape(title)}</figcaption>{legend([line.name for line in series])}'
            f'<svg class="chart" viewBox="0 0 {WIDTH} {HEIGHT}" role="img" aria-label="{html.escape(title)}">'
            f'{"".join(parts)}</svg></figure>')
