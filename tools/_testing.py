"""What the tests of the tools share: starting a tool, what it says, and codes to try it on."""
from __future__ import annotations

import importlib.machinery
import importlib.util
import os
import pathlib
import random
import subprocess
import sys
import types
import unittest

HERE = pathlib.Path(__file__).resolve().parent
sys.path.insert(0, str(HERE.parent / "bindings" / "python"))

import temporary_library  # noqa: E402: it stands with the tests of the binding

temporary_library.provide()

import petsivola  # noqa: E402: the library has to be there first

EXAMPLES = HERE.parent / "examples"
NOISY = str(EXAMPLES / "gf32-248-137.hex")
TOOLS = ("alist2code", "code2alist", "showcode", "mkframes", "showdecoded")


def run(tool: str, *arguments: str, text: str = "", **environment: str) -> "subprocess.CompletedProcess[str]":
    """Starts a tool with this standard input."""
    command, environment = [sys.executable, "-B", str(HERE / tool), *arguments], {**os.environ, **environment}
    return subprocess.run(command, input=text, env=environment, capture_output=True, text=True, check=False)


def module(tool: str) -> types.ModuleType:
    """A tool's functions, for what its output does not show, or not as fast."""
    loader = importlib.machinery.SourceFileLoader(tool, str(HERE / tool))
    spec = importlib.util.spec_from_loader(tool, loader)
    assert spec is not None
    found = importlib.util.module_from_spec(spec)
    # What is compiled would lie beside the tool, which has no ending.
    sys.dont_write_bytecode = True
    sys.modules[tool] = found
    loader.exec_module(found)
    return found


class ToolCase(unittest.TestCase):
    def done(self, tool: str, *arguments: str, text: str = "") -> str:
        """What a tool prints that ends well."""
        process = run(tool, *arguments, text=text)
        self.assertEqual((process.returncode, process.stderr), (0, ""))
        return process.stdout

    def fails(self, status: int, message: str, tool: str, *arguments: str, text: str = "") -> str:
        """The status, the message, and no sign of a Python error; what it printed before."""
        process = run(tool, *arguments, text=text)
        with self.subTest(tool=tool, message=message):
            self.assertEqual(process.returncode, status, process.stderr)
            self.assertIn(message, process.stderr)
            self.assertNotIn("Traceback", process.stderr)
        return process.stdout


def random_code(generator: random.Random) -> petsivola.CodeLine:
    """A code without any order in it: columns in no check and checks of all degrees."""
    p, columns = generator.randint(2, 6), generator.randint(2, 60)
    checks = [[(column, generator.randrange(1, 1 << p))
               for column in generator.sample(range(columns), generator.randint(2, min(columns, 32)))]
              for _ in range(generator.randint(1, 20))]
    return petsivola.CodeLine(p, columns, checks, generator.randint(1, 16), generator.randint(1, 255),
                              generator.choice((2, 3)), generator.choice(("sum", "min-max")))


def code_with_form(p: int = 4, columns: int = 48, checks: int = 24) -> petsivola.CodeLine:
    """Check m has three columns of the message, the own column of the check before, and its own."""
    generator, message = random.Random(5), columns - checks
    edges = []
    for m in range(checks):
        own = [message + m - 1, message + m] if m else [message]
        chosen = generator.sample(range(message), 3) + own
        edges.append([(column, generator.randrange(1, 1 << p)) for column in chosen])
    return petsivola.CodeLine(p, columns, edges, 12, 30)
