"""The sections that come from docs/bench."""
import html

from . import chart
from .page import Section, note, table
from .tables import limit, number

TARGETS = "Targets"
CHECKS = "Time per check"
DECODING = "Decoding"
WIDTH, BAR = 760, 16


def part_of_limit(target, worst):
    """How much of what is allowed is used up: more than 1 is too much, whichever way the target asks."""
    way, asked = limit(target)
    return number(worst) / asked if way == "most" else asked / number(worst)


def bar(part, met, most):
    """A bar, and the limit as a line across it."""
    end, line = (WIDTH - 2) * part / most, (WIDTH - 2) / most
    kind = "met" if met else "missed"
    return (f'<svg class="target" viewBox="0 0 {WIDTH} {BAR + 8}" preserveAspectRatio="none" role="img" '
            f'aria-label="{part:.2f} of the limit">'
            f'<rect class="track" x="0" y="4" width="{WIDTH}" height="{BAR}"/>'
            f'<rect class="{kind}" x="0" y="4" width="{end:.1f}" height="{BAR}"/>'
            f'{chart.rule(line, 0, line, BAR + 8, "limit")}</svg>')


def targets(bench):
    """Each target's worst figure against its limit."""
    found = bench.table(TARGETS, "target", "worst", "where", "met", "missed by")
    names = ("target", "worst", "where", "met", "missed by")
    rows = list(zip(*(found.column(name) for name in names)))
    parts_used = [part_of_limit(target, worst) for target, worst, *_ in rows]
    most = max(parts_used + [1]) * 1.08
    items = []
    for (target, worst, where, met, missed), part in zip(rows, parts_used):
        verdict = "met" if met == "yes" else f"missed by {missed}"
        items.append(f"<li><p>{html.escape(target)}</p>{bar(part, met == 'yes', most)}"
                     f"<p class=\"figure\"><b>{html.escape(worst)}</b> at {html.escape(where)}: "
                     f"{html.escape(verdict)}</p></li>")
    parts = [
        note("The worst figure of each target as a part of its limit, the line across the bar: a bar that passes the "
             "line misses the target. Where a target says at least, the limit is divided by the figure."),
        f'<ul class="targets">{"".join(items)}</ul>',
    ]
    return Section("targets", "Speed against its limits", f"docs/bench: “{TARGETS}”", parts)


def times(bench):
    """Time of a check over its degree, a line for each field; then whole decodings."""
    found = bench.table(CHECKS, "p", "d", "proved", "sweeps")
    series = []
    for p in found.values("p"):
        rows = found.where("p", p)
        points = [chart.Point(number(d), number(proved), None, f"degree {d}, {proved} µs, Rust {rust} µs")
                  for d, proved, rust in zip(rows.column("d"), rows.column("proved"), rows.column("Rust"))]
        series.append(chart.Line(f"p = {p}", points))
    parts = [
        note("The proved library's time for one check, by its degree, for each field GF(2^p). Both axes are "
             "logarithmic."),
        chart.line_chart("Time of a check", series, "degree d", "µs", log_y=True, log_x=True),
        table(bench.table(DECODING, "code", "coded bits a second")),
    ]
    return Section("times", "Times", f"docs/bench: “{CHECKS}”, “{DECODING}”", parts)
