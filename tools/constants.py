"""What sources have for a number: a constant of Rust or of Python, or what a pattern finds in any file."""
from __future__ import annotations

import ast
import operator
import re
from collections.abc import Callable
from pathlib import Path

OPERATORS: dict[type[ast.operator], Callable[[float, float], float]] = {
    ast.Add: operator.add,
    ast.Sub: operator.sub,
    ast.Mult: operator.mul,
    ast.FloorDiv: operator.floordiv,
    ast.Pow: operator.pow,
    ast.LShift: lambda number, count: int(number) << int(count),
}


def number_in(file: Path, name: str) -> float:
    """The number that a file has by this name: a constant's, what is reckoned of constants, or a pattern's group."""
    if "(" in name:
        found = re.search(name, file.read_text(encoding="utf-8"))
        return int(found[1]) if found else missing(file, name)
    return reckoned(ast.parse(name, mode="eval").body, file)


def missing(file: Path, name: str) -> float:
    raise ValueError(f"{file.name} has no {name}")


def reckoned(value: ast.expr, file: Path) -> float:
    match value:
        case ast.Constant(int() | float() as number):
            return number
        case ast.UnaryOp(ast.USub(), inner):
            return -reckoned(inner, file)
        case ast.BinOp(left, sign, right):
            return OPERATORS[type(sign)](reckoned(left, file), reckoned(right, file))
        case ast.Name(name) if file.suffix in (".rt", ".rs"):
            return constant_of_rust(file, name)
        case ast.Name(name):
            return constant_of_python(file, name)
    return missing(file, ast.unparse(value))


def constant_of_rust(file: Path, name: str) -> float:
    # (What stands behind the sign is arithmetic of Python too.)
    found = re.search(rf"\bconst {name}: \w+ = ([^;]+);", file.read_text(encoding="utf-8"))
    return reckoned(ast.parse(found[1], mode="eval").body, file) if found else missing(file, name)


def constant_of_python(file: Path, name: str) -> float:
    """The constant, of this file or of the one beside it that it is imported from."""
    for part in ast.parse(file.read_text(encoding="utf-8")).body:
        match part:
            case ast.ImportFrom(module=str(module), names=names, level=1) if name in {each.name for each in names}:
                return number_in(file.with_name(f"{module}.py"), name)
            case ast.Assign(targets=[*targets], value=value):
                for target in targets:
                    for one, its in pairs(target, value):
                        if one == name:
                            return reckoned(its, file)
    return missing(file, name)


def pairs(target: ast.expr, value: ast.expr) -> list[tuple[str, ast.expr]]:
    """The names that are assigned, each with its value."""
    match target, value:
        case ast.Name(name), _:
            return [(name, value)]
        case ast.Tuple(names), ast.Tuple(values):
            return [pair for one, its in zip(names, values) for pair in pairs(one, its)]
    return []
