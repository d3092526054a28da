"""The README's example, run as it stands there."""
from __future__ import annotations

import contextlib
import io
import pathlib
import re
import textwrap
import unittest

import temporary_library

temporary_library.provide()

README = pathlib.Path(__file__).parents[2] / "README.md"


class Readme(unittest.TestCase):
    """The example prints what the README says that it prints."""

    def test_the_example(self) -> None:
        found = re.search(r"\n((?:    .*\n)+)\nprints `(.*?)`", README.read_text(encoding="utf-8"))
        assert found is not None, "the README has an example and what it prints"
        printed = io.StringIO()
        with contextlib.redirect_stdout(printed):
            exec(compile(textwrap.dedent(found.group(1)), str(README), "exec"), {})
        self.assertEqual(printed.getvalue().strip(), found.group(2))


if __name__ == "__main__":
    unittest.main()
