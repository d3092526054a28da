#!/usr/bin/env python3
"""Puts words.py, decoder.py and counter.py into link.grc, which has its own copy of each embedded block.

    examples/gnuradio/embed.py [--check]

--check changes nothing, and fails where link.grc has something else.
"""
import pathlib
import re
import sys

HERE = pathlib.Path(__file__).resolve().parent
INDENT = " " * 6


def embedded(graph, name, source):
    """The flow graph with this source in the block of this name."""
    lines = "".join(INDENT + line if line.strip() else line for line in source.splitlines(keepends=True))
    pattern = rf"(- name: {name}\n  id: epy_block\n  parameters:\n    _source_code: \|\n)(?:{INDENT}.*\n|\n)+"
    changed, count = re.subn(pattern, lambda found: found.group(1) + lines, graph)
    if count != 1:
        sys.exit(f"link.grc: no embedded block {name}")
    return changed


def main():
    path = HERE / "link.grc"
    before = after = path.read_text(encoding="utf-8")
    for name in ("words", "decoder", "counter"):
        after = embedded(after, name, (HERE / f"{name}.py").read_text(encoding="utf-8"))
    if "--check" not in sys.argv[1:]:
        path.write_text(after, encoding="utf-8")
    elif before != after:
        sys.exit("link.grc has other sources than words.py, decoder.py and counter.py: run embed.py")


if __name__ == "__main__":
    main()
