# SPDX-License-Identifier: BSD-3-Clause
"""Bugs that can be planted into a function: the changes of one place, for Python, shell and C.

`functions(path, text)` gives each function of a file with all changes that its text offers.
"""
import ast
import re
from typing import Callable, Iterator, List, NamedTuple, Optional, Tuple


class Change(NamedTuple):
    """A piece of a file, from byte `start` up to `end`, and what takes its place."""
    line: int
    start: int
    end: int
    by: bytes

    def planted(self, text: bytes) -> bytes:
        return text[:self.start] + self.by + text[self.end:]

    def shown(self, text: bytes) -> str:
        """What was there and what is there now, each in a line."""
        pieces = (text[self.start:self.end], self.by)
        before, after = (re.sub(r"\s+", " ", piece.decode(errors="replace")).strip() for piece in pieces)
        return f"{before or 'nothing'} -> {after or 'nothing'}"


class Function(NamedTuple):
    name: str
    line: int
    changes: List[Change]


# Comparisons of Python and what takes their place.
OPPOSITE = {ast.Eq: ast.NotEq, ast.NotEq: ast.Eq, ast.Lt: ast.LtE, ast.LtE: ast.Lt, ast.Gt: ast.GtE, ast.GtE: ast.Gt,
            ast.In: ast.NotIn, ast.NotIn: ast.In, ast.Is: ast.IsNot, ast.IsNot: ast.Is}
SWAPPED = {ast.Add: ast.Sub, ast.Sub: ast.Add, ast.Mult: ast.FloorDiv, ast.BitAnd: ast.BitOr, ast.BitOr: ast.BitAnd}


def other_compare(node: ast.Compare) -> Optional[ast.expr]:
    kind = OPPOSITE.get(type(node.ops[0]))
    return ast.Compare(node.left, [kind()], node.comparators) if kind and len(node.ops) == 1 else None


def other_constant(node: ast.Constant) -> Optional[ast.expr]:
    """Another truth value, or the next number. Texts stay."""
    if isinstance(node.value, bool):
        return ast.Constant(not node.value)
    return ast.Constant(node.value + 1) if isinstance(node.value, int) else None


def other_expression(node: ast.AST) -> Optional[ast.expr]:
    """An expression with another meaning, if this one has an operator or a constant to change."""
    if isinstance(node, ast.Compare):
        return other_compare(node)
    if isinstance(node, ast.Constant):
        return other_constant(node)
    if isinstance(node, ast.BoolOp):
        return ast.BoolOp(ast.And() if isinstance(node.op, ast.Or) else ast.Or(), node.values)
    if isinstance(node, ast.UnaryOp) and isinstance(node.op, ast.Not):
        return node.operand
    if isinstance(node, ast.BinOp) and type(node.op) in SWAPPED:
        return ast.BinOp(node.left, SWAPPED[type(node.op)](), node.right)
    return None


def changes_at(node: ast.AST) -> Iterator[Tuple[ast.AST, str]]:
    """The parts of a node that can be changed, each with its new text."""
    changed = other_expression(node)
    if changed is not None:
        yield node, f"({ast.unparse(changed)})"
    if isinstance(node, (ast.If, ast.While, ast.IfExp)):
        yield node.test, f"(not ({ast.unparse(node.test)}))"
    if isinstance(node, ast.Return) and node.value is not None and not is_none(node.value):
        yield node.value, "None"
    if isinstance(node, ast.Expr) and isinstance(node.value, ast.Call):
        yield node, "pass"


def is_none(node: ast.AST) -> bool:
    return isinstance(node, ast.Constant) and node.value is None


def inside(function: ast.AST) -> Iterator[ast.AST]:
    """The nodes of a function's body, but for functions within it, annotations and what stands in an f-string."""
    left = list(getattr(function, "body"))
    while left:
        node = left.pop()
        yield node
        if not isinstance(node, ast.JoinedStr):
            left.extend(child for child in ast.iter_child_nodes(node)
                        if not isinstance(child, (ast.FunctionDef, ast.ClassDef, ast.arguments)))


def python_functions(text: bytes) -> Iterator[Function]:
    starts = [0]
    for line in text.split(b"\n"):
        starts.append(starts[-1] + len(line) + 1)

    def change(node: ast.AST, by: str) -> Change:
        return Change(node.lineno, starts[node.lineno - 1] + node.col_offset,
                      starts[node.end_lineno - 1] + node.end_col_offset, by.encode())

    for function in ast.walk(ast.parse(text)):
        if isinstance(function, ast.FunctionDef):
            changes = [change(part, by) for node in inside(function) for part, by in changes_at(node)]
            first = min([function.lineno] + [decorator.lineno for decorator in function.decorator_list])
            yield Function(function.name, first, sorted(changes))


# What can be changed in a line of shell or of C: what is found, and what takes its place.
SHELL = [(r" && ", " || "), (r" \|\| ", " && "), (r"\[ (?!!)", "[ ! "), (r"\[ ! ", "[ "), (r"(?<= )-n ", "-z "), (r"(?<= )-z ", "-n "),
         (r"(?<= )-eq ", "-ne "), (r"(?<= )-lt ", "-le "), (r"\bif (?!!)", "if ! "), (r"\bif ! ", "if "), (r"(?<=exit )0", "1"),
         (r"(?<=exit )[1-9]", "0"), (r"(?<=return )0", "1"), (r"(?<=return )[1-9]", "0"), (r"\brm -r?f?\b[^;&|\"']*", ":"), (r" = ", " != ")]
C = [(r"==", "!="), (r"!=", "=="), (r" < ", " <= "), (r" <= ", " < "), (r" > ", " >= "), (r" >= ", " > "), (r" && ", " || "),
     (r" \|\| ", " && "), (r" \+ ", " - "), (r" - ", " + "), (r" \+= ", " -= "), (r" & ", " | "), (r"\b(?<!\.)\d+\b(?!\.)", "%d"),
     (r"return (?!0;)[^;]+;", "return 0;"), (r"return 0;", "return 1;"), (r"(?<=^\t)\w+\([^;]*\);$", ";"), (r"(?<=^    )\w+\([^;]*\);$", ";")]


def line_changes(number: int, start: int, line: bytes, forms: List[Tuple[str, str]]) -> Iterator[Change]:
    """The changes of one line. A number becomes the next one."""
    for found, by in forms:
        for match in re.finditer(found.encode(), line):
            new = b"%d" % (int(match.group()) + 1) if by == "%d" else by.encode()
            yield Change(number, start + match.start(), start + match.end(), new)


def text_functions(text: bytes, begins: str, ends: bytes, forms: List[Tuple[str, str]], comment: Tuple[bytes, ...]) -> Iterator[Function]:
    """The functions that a line begins whose name `begins` finds, up to a line that is `ends`; outside of them "main"."""
    main = Function("main", 1, [])
    current, start = main, 0
    for number, line in enumerate(text.split(b"\n"), 1):
        head = re.match(begins.encode(), line)
        if head:
            current = Function(head.group(1).decode(), number, [])
            yield current
        if not line.strip().startswith(comment):
            current.changes.extend(line_changes(number, start, line, forms))
        if line == ends:
            current = main
        start += len(line) + 1
    yield main


def shell_functions(text: bytes) -> Iterator[Function]:
    yield from text_functions(text, r"(\w+)\(\) \{$", b"}", SHELL, (b"#",))


def c_functions(text: bytes) -> Iterator[Function]:
    found = text_functions(text, r"(?:[\w*]+ )+\**(\w+)\([^;]*$", b"}", C, (b"/*", b"*", b"//", b"#"))
    yield from (function for function in found if function.name != "main" or function.line > 1)


def kind_of(text: bytes, name: str) -> Callable[[bytes], Iterator[Function]]:
    first = text.split(b"\n", 1)[0]
    if name.endswith(".py") or b"python" in first:
        return python_functions
    return c_functions if name.endswith((".c", ".h")) else shell_functions


def functions(name: str, text: bytes) -> List[Function]:
    """The functions of a file that something can be changed in."""
    return [function for function in list(kind_of(text, name)(text)) if function.changes]
