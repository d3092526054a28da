"""The page around the charts: one file, no script, nothing from elsewhere."""
import html
import pathlib

STYLE = pathlib.Path(__file__).with_name("style.css")


class Section:
    """A part of the page: its name in links, its heading, where its figures come from, and what it shows."""

    def __init__(self, name, heading, source, parts):
        self.name, self.heading, self.source, self.parts = name, heading, source, parts

    def html(self):
        return (f'<section id="{self.name}"><h2>{html.escape(self.heading)}</h2>{"".join(self.parts)}'
                f'<p class="source">{html.escape(self.source)}</p></section>\n')


def note(words):
    return f"<p>{html.escape(words)}</p>"


def table(found):
    """A table of a document as it stands there. A column of figures stands to the right."""
    def cell(tag, words):
        kind = ' class="number"' if words[:1].isdigit() or words[:1] == "-" else ""
        return f"<{tag}{kind}>{html.escape(words)}</{tag}>"
    head = "".join(f"<th>{html.escape(name)}</th>" for name in found.names)
    rows = "".join(f"<tr>{''.join(cell('td', words) for words in row)}</tr>" for row in found.rows)
    return f'<div class="wide"><table><thead><tr>{head}</tr></thead><tbody>{rows}</tbody></table></div>'


def cards(pairs):
    """A few figures in large letters."""
    items = "".join(f"<li><b>{html.escape(figure)}</b> {html.escape(words)}</li>" for figure, words in pairs)
    return f'<ul class="cards">{items}</ul>'


def page(glance, sections):
    links = "".join(f'<li><a href="#{section.name}">{html.escape(section.heading)}</a></li>' for section in sections)
    body = "".join(section.html() for section in sections)
    return f"""<!DOCTYPE html>
<html lang="en">
<head>
<meta charset="utf-8"/>
<meta name="viewport" content="width=device-width, initial-scale=1"/>
<meta name="color-scheme" content="light dark"/>
<title>Petsivola in pictures</title>
<style>
{STYLE.read_text(encoding="utf-8")}</style>
</head>
<body>
<header><h1>Petsivola in pictures</h1>
<p>A proved layered decoder for frames of nonbinary LDPC codes. Every figure comes from docs/bench, docs/simulation and
one run of the decoder on the noisy frames of examples; scripts/report made this page. Point at a mark for its
figures.</p>
{glance}<nav><ul>{links}</ul></nav></header>
<main>
{body}</main>
</body>
</html>
"""
