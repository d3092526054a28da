"""The sections that come from docs/simulation."""
from . import chart
from .page import Section, note, table
from .tables import interval, number

CURVE = "Frame error rate against Eb/N0"
BLOWS = "Two blows for one word"
LONG = "Long checks: two and three deviations"
EARLY = "Stopping inside an iteration"
WORTH = "What a margin is worth"
DECIBELS = "Eb/N0, dB"


def lines(curve, by, y, tip, bar=None):
    """A line for each value of a column: a figure over Eb/N0."""
    series = []
    for name in curve.values(by):
        rows = curve.where(by, name)
        ends = [interval(cell) for cell in rows.column(bar)] if bar else [None] * len(rows.rows)
        points = zip(rows.column(DECIBELS), rows.column(y), ends, tips(rows, tip))
        series.append(chart.Line(name, [chart.Point(number(x), number(cell), end, words)
                                        for x, cell, end, words in points]))
    return series


def tips(rows, names):
    """What the columns of these names say, a text for each row."""
    columns = [rows.column(name) for name in names]
    return [", ".join(f"{name} {cell}" for name, cell in zip(names, cells)) for cells in zip(*columns)]


def error_curve(title, curve, by):
    tip = [DECIBELS, "frames", "frame errors", "frame error rate", "interval"]
    return chart.line_chart(title, lines(curve, by, "frame error rate", tip, "interval"), DECIBELS,
                            "frame error rate", log_y=True)


def frame_errors(simulation):
    """The curves, and where they cross a frame error rate."""
    curve = simulation.table(CURVE, DECIBELS, "rule", "frame error rate")
    crossing = simulation.table(CURVE, "frame error rate", "proved, dB")
    blows = simulation.table(BLOWS, DECIBELS, "decoded", "frame error rate")
    parts = [
        note("How many frames are lost, against the strength of the signal; lower is better. The bars hold the rate "
             "with a confidence of 95 percent. An open mark on the axis: no frame was lost."),
        error_curve("Each rule at its best scaling", curve, "rule"),
        table(crossing),
        error_curve("Two blows for one word", blows, "decoded"),
    ]
    for degree in [heading for heading in simulation.sections if heading.startswith("Degree ")]:
        rows = simulation.table(degree, DECIBELS, "rule", "frame error rate")
        parts.append(error_curve(f"Long checks, {degree.lower()}: two and three deviations", rows, "rule"))
    return Section("errors", "Frame errors", f"docs/simulation: “{CURVE}”, “{BLOWS}”, “{LONG}”", parts)


def iterations(simulation):
    curve = simulation.table(CURVE, DECIBELS, "rule", "mean iterations")
    tip = [DECIBELS, "frames", "mean iterations"]
    series = lines(curve, "rule", "mean iterations", tip)
    parts = [
        note("How long the decoder works on a frame, lost ones included. Time and energy of a frame follow this "
             "number."),
        chart.line_chart("Mean iterations a frame", series, DECIBELS, "mean iterations"),
    ]
    return Section("iterations", "Iterations", f"docs/simulation: “{CURVE}”", parts)


def stopping_early(simulation):
    """What is saved by stopping inside an iteration, where the document has it."""
    source = f"docs/simulation: “{EARLY}”"
    if not simulation.has(EARLY):
        return Section("early", "Updates saved by stopping early", source, [note("The document has no such section.")])
    saved = simulation.table(EARLY, DECIBELS, "all frames", "saved")
    series = []
    for occurrence, name in enumerate(("all frames", "frames that both find")):
        cells = zip(saved.column(DECIBELS), saved.column(name), saved.column("saved", occurrence),
                    saved.column("interval", occurrence))
        points = [chart.Point(number(x), number(part), interval(ends), f"{x} dB, {count} frames, {part}, {ends}")
                  for x, count, part, ends in cells if number(part) is not None]
        series.append(chart.Line(name, points))
    parts = [
        note("The part of the check updates that is saved by testing after each update, where the ordinary call "
             "tests after each iteration."),
        chart.line_chart("Check updates saved", series, DECIBELS, "saved, percent"),
    ]
    return Section("early", "Updates saved by stopping early", source, parts)


def margins_worth(simulation):
    """How often a symbol is wrong, by its margin."""
    rows = simulation.table(WORTH, DECIBELS, "margin", "error rate")
    classes = rows.values("margin")
    series = []
    for decibels in rows.values(DECIBELS):
        here = rows.where(DECIBELS, decibels)
        cells = zip(here.column("margin"), here.column("not found: symbols"), here.column("wrong"),
                    here.column("error rate"), here.column("interval"))
        points = [chart.Point(classes.index(margin), number(rate), interval(ends),
                              f"margin {margin}, {wrong} of {count} wrong, {rate}, {ends}")
                  for margin, count, wrong, rate, ends in cells if number(rate) is not None]
        series.append(chart.Line(f"{decibels} dB", points))
    parts = [
        note("In frames that were not found: how often a decided symbol is wrong, by its margin. A display shades "
             "by it. In frames that were found, see the document."),
        chart.line_chart("Wrong symbols by margin, frames not found", series, "margin", "part of the symbols",
                         log_y=True, x_ticks=list(range(len(classes))),
                         x_names=[name.replace(" to ", "–") for name in classes]),
    ]
    return Section("worth", WORTH, f"docs/simulation: “{WORTH}”", parts)


def margin_classes(simulation):
    """The margins from which a class of the document's table starts."""
    classes = simulation.table(WORTH, DECIBELS, "margin", "error rate").values("margin")
    return [int(number(name)) for name in classes]
