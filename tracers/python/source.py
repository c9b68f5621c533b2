"""What the source of a file says of its functions: their qualified names, their classes, the lines of their returns, and which values are
of one kind of things."""

from __future__ import annotations

import ast

from relations import Relations

# `typing` isn't loaded into the program
TYPE_CHECKING = False
if TYPE_CHECKING:
    from typing import Iterator

    from relations import Function

NO_METHODS = ("__new__", "__init_subclass__", "__class_getitem__")
FUNCTIONS = (ast.FunctionDef, ast.AsyncFunctionDef)
SCOPES = (*FUNCTIONS, ast.Lambda, ast.ClassDef)


class Definition:
    """A function's definition. `class_name` is that of the class whose objects it is a method of; `returns` has the lines of each
    `return`."""

    def __init__(self, node: ast.AST | None, owner: tuple, qualname: str, class_name: str | None) -> None:
        self.owner = owner
        self.qualname = qualname
        self.class_name = class_name if is_method(node) else None
        self.returns: list = []
        # the lines of what is done when a return leaves it: the heads of `with`, and the bodies of `finally`
        self.unwinding: set = set()
        self.last_line: int | None = None
        self.gives_value = True
        if isinstance(node, FUNCTIONS):
            found = [each for each in own_nodes(node) if isinstance(each, ast.Return)]
            self.returns = [(each.lineno, each.end_lineno) for each in found]
            self.unwinding = {line for each in own_nodes(node) for line in unwinding_lines(each)}
            self.last_line = node.body[-1].lineno
            self.gives_value = any(each.value is not None and not is_none(each.value) for each in found)

    def exit_line(self, lines: list) -> int:
        """The line by which an exit is named whose instruction, and those before it, have these lines: that of the `return`, or else
        that of the last statement."""
        for line in lines:
            for first, last in self.returns:
                if line is not None and first <= line <= last:
                    return first
            if line is not None and line not in self.unwinding:
                break
        return self.last_line if self.last_line is not None else lines[0]


class Source:
    """The definitions of a file, by their first lines and names."""

    known: dict = {}

    def __init__(self, path: str) -> None:
        self.definitions: dict = {}
        self.counts: dict = {}
        self.relations = Relations()
        try:
            with open(path, "rb") as file:
                tree = ast.parse(file.read())
        except (OSError, SyntaxError, ValueError, RecursionError):
            return
        self.visit(tree, "", None)

    @classmethod
    def of(cls, path: str) -> Source:
        """What is known of this file."""
        if path not in cls.known:
            cls.known[path] = cls(path)
        return cls.known[path]

    def visit(self, node: ast.AST, prefix: str, class_name: str | None) -> None:
        """Takes down what is defined below the node, whose names begin with the prefix."""
        for child in ast.iter_child_nodes(node):
            if isinstance(child, ast.ClassDef):
                self.visit(child, prefix + child.name + ".", prefix + child.name)
            elif isinstance(child, (*FUNCTIONS, ast.Lambda)):
                name = getattr(child, "name", "<lambda>")
                self.add(child, name, prefix + name, class_name)
                self.visit(child, prefix + name + ".<locals>.", None)
            else:
                self.visit(child, prefix, class_name)

    def add(self, node: Function, name: str, qualname: str, class_name: str | None) -> None:
        """Takes down a definition. Of two that begin in the same line and have the same name the first one counts for both."""
        decorators = getattr(node, "decorator_list", [])
        line = min([node.lineno] + [each.lineno for each in decorators])
        definition = self.definitions.setdefault((line, name), Definition(node, (line, name), qualname, class_name))
        self.relations.add(node, definition.owner, definition.class_name)
        if not any(getattr(each, "id", getattr(each, "attr", "")) == "overload" for each in decorators):
            key = (qualname, parameter_names(node))
            self.counts.setdefault(key, set()).add(line)

    def find(self, line: int, name: str, qualname: str) -> Definition:
        """The definition that begins at this line and has this name; one that knows the qualified name alone, where the source isn't
        there."""
        found = self.definitions.get((line, name))
        if found is None:
            found = Definition(None, (line, name), qualname, None)
        return found

    def is_ambiguous(self, qualname: str, names: tuple) -> bool:
        """Whether the file has several functions with this qualified name and these parameters."""
        return len(self.counts.get((qualname, names), ())) > 1


def is_method(node: ast.AST | None) -> bool:
    """Whether a function in a class takes an object of the class first."""
    if not isinstance(node, FUNCTIONS) or node.name in NO_METHODS:
        return False
    decorators = [getattr(each, "id", "") for each in node.decorator_list]
    return bool(node.args.posonlyargs + node.args.args) and "staticmethod" not in decorators and "classmethod" not in decorators


def is_none(node: ast.expr) -> bool:
    """Whether an expression is None."""
    return isinstance(node, ast.Constant) and node.value is None


def parameter_names(node: Function) -> tuple:
    """The names of a function's parameters, in the order in which they are declared."""
    many = node.args
    rest, others = ([each] if each else [] for each in (many.vararg, many.kwarg))
    return tuple(each.arg for each in (*many.posonlyargs, *many.args, *rest, *many.kwonlyargs, *others))


def unwinding_lines(node: ast.AST) -> range:
    """The lines of what is done when a statement is left."""
    if isinstance(node, ast.With):
        return range(node.lineno, max(node.lineno + 1, node.body[0].lineno))
    if isinstance(node, ast.Try) and node.finalbody:
        return range(node.finalbody[0].lineno, (node.finalbody[-1].end_lineno or 0) + 1)
    return range(0)


def own_nodes(node: ast.FunctionDef | ast.AsyncFunctionDef) -> Iterator[ast.AST]:
    """The nodes of a function's body, without those of other scopes in it."""
    waiting: list[ast.AST] = list(node.body)
    while waiting:
        each = waiting.pop()
        yield each
        if not isinstance(each, SCOPES):
            waiting.extend(ast.iter_child_nodes(each))
