"""What holds of all code of strace/: each argument of each function is annotated, which mypy(1) then checks."""
from __future__ import annotations

import ast
import unittest

from here import TOP


def sources() -> list:
    """The modules and the programs."""
    programs = [path for path in TOP.iterdir() if path.is_file() and path.read_bytes().startswith(b"#!/usr/bin/env python3")]
    return [*sorted(TOP.rglob("*.py")), *sorted(programs)]


def bare_arguments(tree: ast.Module) -> list[str]:
    """The arguments of functions that have no annotation, but for a method's own object."""
    found = []
    for node in ast.walk(tree):
        if isinstance(node, ast.FunctionDef):
            given = node.args
            every = [*given.posonlyargs, *given.args, *given.kwonlyargs, *(one for one in (given.vararg, given.kwarg) if one)]
            found += [f"{node.name}({one.arg})" for one in every if one.annotation is None and one.arg not in ("self", "cls")]
    return found


class Annotations(unittest.TestCase):
    def test_each_argument_has_one(self):
        paths = sources()
        self.assertGreater(len(paths), 60)
        for path in paths:
            self.assertEqual(bare_arguments(ast.parse(path.read_text("utf-8"))), [], path.name)

    def test_what_has_none_is_found(self):
        self.assertEqual(bare_arguments(ast.parse("def f(a: int, b, *c, d=1, **e: int): pass")), ["f(b)", "f(d)", "f(c)"])


if __name__ == "__main__":
    unittest.main()
