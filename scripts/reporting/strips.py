"""The margins of one frame's symbols before and after each iteration, a strip for each moment."""
import html
import statistics

from . import chart
from .page import Section, note

LEFT, RIGHT, CELL, STRIP, GAP, TOP = 76, 170, 3, 20, 5, 4


def class_of(margin, starts):
    """The index of the last class that starts at or below this margin."""
    return max(index for index, start in enumerate(starts) if start <= margin)


def cell(column, y):
    return f"M{LEFT + CELL * column} {y}h{CELL}v{STRIP}h-{CELL}z"


def shade(index, count):
    """How full the colour of a class is: the surer, the fuller."""
    return (index + 1) / count


def strip(moment, y, starts):
    """One moment: a path for each class of margins, and one for the symbols that are wrong."""
    classes = [[] for _ in starts]
    wrong = []
    for column, (margin, is_wrong) in enumerate(zip(moment.margins, moment.wrong)):
        (wrong if is_wrong else classes[class_of(margin, starts)]).append(cell(column, y))
    parts = [f'<path class="sure" opacity="{shade(index, len(starts)):.2f}" d="{"".join(cells)}"/>'
             for index, cells in enumerate(classes) if cells]
    if wrong:
        parts.append(f'<path class="wrong" d="{"".join(wrong)}"/>')
    name = "received" if moment.iterations == 0 else f"after {moment.iterations}"
    end = LEFT + CELL * len(moment.margins)
    parts.append(chart.text(LEFT - 8, y + 15, name, "end"))
    parts.append(chart.text(end + 8, y + 15, f"{sum(moment.wrong)} wrong, "
                                             f"median {statistics.median(moment.margins):g}", "start"))
    return "".join(parts)


def scale(starts):
    """What the shades stand for."""
    cells = "".join(f'<rect class="sure" opacity="{shade(index, len(starts)):.2f}" x="{12 * index}" y="0" width="12" '
                    f'height="14"/>' for index in range(len(starts)))
    width = 12 * len(starts)
    return (f'<ul class="legend"><li class="scale">margin {starts[0]} '
            f'<svg viewBox="0 0 {width} 14" width="{width}">{cells}</svg> {starts[-1]} and more</li>'
            '<li class="scale"><svg viewBox="0 0 12 14" width="12"><rect class="wrong" width="12" height="14"/></svg> '
            'symbol wrong</li></ul>')


def strips(run, starts):
    columns = len(run.moments[0].margins)
    width = LEFT + CELL * columns + RIGHT
    height = TOP + (STRIP + GAP) * len(run.moments)
    ended = "found" if run.found else "not found"
    title = f"Frame {run.number}: {ended} after {run.moments[-1].iterations} iterations"
    body = "".join(strip(moment, TOP + (STRIP + GAP) * index, starts) for index, moment in enumerate(run.moments))
    return (f'<figure><figcaption>{html.escape(title)}</figcaption>{scale(starts)}'
            f'<svg class="chart strips" viewBox="0 0 {width} {height}" role="img" '
            f'aria-label="{html.escape(title)}">{body}</svg></figure>')


def chosen(runs):
    """The frame that took the most iterations to be found, and the first one that was not found."""
    found = [run for run in runs if run.found]
    lost = [run for run in runs if not run.found]
    longest = max(found, key=lambda run: len(run.moments), default=None)
    return [run for run in [longest] + lost[:1] if run is not None]


def section(runs, starts, source):
    parts = [
        note("One noisy frame, symbol by symbol from left to right: a strip as received, and one after each "
             "iteration. The fuller its blue, the surer the decoder is of a symbol; a wrong one is red, which is "
             "known here because the words that were sent are."),
    ]
    parts += [strips(run, starts) for run in chosen(runs)]
    return Section("frame", "One frame, iteration by iteration", source, parts)
