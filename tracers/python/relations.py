"""What a file's functions do with their values: which are compared with each other, and which are lengths, or places in sequences.

A *node* is a variable of a function, or a field of a class's objects, as (OWNER, NAME, FIELD...). The owner of variables is the first line
and the name of the function, that of fields the name of the class. Nodes whose values are added, compared or assigned to each other are of
one kind of things; `LENGTH` is one of them.
"""

from __future__ import annotations

import ast

# `typing` isn't loaded into the program
TYPE_CHECKING = False
if TYPE_CHECKING:
    from typing import Any, Callable, Tuple, Union

    Function = Union[ast.FunctionDef, ast.AsyncFunctionDef, ast.Lambda]
    Node = Tuple[Any, ...]

LENGTH = ("", "length")
# of a product or a quotient the parts are of other kinds; of a shift or a quotient of whole numbers the left part isn't
BOTH_SIDES = (ast.Add, ast.Sub, ast.Mod)
LEFT_SIDE = (ast.FloorDiv, ast.RShift, ast.LShift)


class Relations:
    """Nodes that are of one kind, and those that are places in the values of others."""

    def __init__(self) -> None:
        self.parents: dict[Node, Node] = {}
        # pairs of a node and one that is a place in its value
        self.places: list[tuple[Node, Node]] = []

    def first(self, node: Node) -> Node:
        """The node that stands for all that are of one kind with this one."""
        while self.parents.get(node, node) != node:
            node = self.parents[node]
        return node

    def join(self, nodes: list[Node]) -> list[Node]:
        """The nodes are of one kind."""
        for node in nodes[1:]:
            self.parents[self.first(node)] = self.first(nodes[0])
        return nodes

    def add(self, node: Function, owner: tuple, class_name: str | None) -> None:
        """Takes down what a function does. `class_name` is that of the class whose objects it is a method of."""
        reader = Reader(self, owner, class_name, node)
        for statement in node.body if isinstance(node.body, list) else [ast.Return(node.body)]:
            reader.visit(statement)

    def lengths(self, is_sequence: Callable[[Node], bool]) -> set[Node]:
        """What stands for the nodes that are lengths, or places in values of which `is_sequence(node)` says that they are sequences."""
        nodes = {node for pair in self.places for node in pair} | set(self.parents)
        sequences = {self.first(node) for node in nodes if is_sequence(node)}
        return {self.first(LENGTH)} | {self.first(place) for container, place in self.places if self.first(container) in sequences}


class Reader(ast.NodeVisitor):
    """Reads a function's statements."""

    def __init__(self, relations: Relations, owner: tuple, class_name: str | None, function: Function) -> None:
        self.relations = relations
        self.owner = owner
        self.class_name = class_name
        parameters = function.args.posonlyargs + function.args.args
        self.object_name = parameters[0].arg if class_name and parameters else None

    # ------------------------------------------------------------ nodes of expressions

    def nodes(self, expression: ast.expr) -> list[Node]:
        """The nodes that an expression's value is of one kind with."""
        if isinstance(expression, (ast.Name, ast.Attribute)):
            path = path_of(expression)
            return [self.node(path)] if path else []
        if isinstance(expression, ast.BinOp):
            sides = [expression.left] if isinstance(expression.op, LEFT_SIDE) else [expression.left, expression.right]
            return self.nodes_of(sides) if isinstance(expression.op, (*BOTH_SIDES, *LEFT_SIDE)) else []
        if isinstance(expression, ast.UnaryOp):
            return self.nodes(expression.operand)
        if isinstance(expression, ast.IfExp):
            return self.nodes_of([expression.body, expression.orelse])
        if isinstance(expression, ast.NamedExpr):
            return self.nodes_of([expression.target, expression.value])
        if isinstance(expression, ast.Call) and isinstance(expression.func, ast.Name):
            if expression.func.id == "len":
                return [LENGTH]
            return self.nodes_of(expression.args) if expression.func.id in ("min", "max", "abs", "range") else []
        return []

    def nodes_of(self, expressions: list[ast.expr]) -> list[Node]:
        """The nodes of several expressions."""
        return [node for expression in expressions for node in self.nodes(expression)]

    def node(self, path: tuple[str, ...]) -> Node:
        """The node of a variable or a field."""
        if len(path) > 1 and path[0] == self.object_name:
            return (self.class_name, *path[1:])
        return (self.owner, *path)

    def join(self, expressions: list[ast.expr]) -> None:
        """The expressions' values are of one kind."""
        self.relations.join(self.nodes_of(expressions))

    # ------------------------------------------------------------ what is done

    def visit_FunctionDef(self, node: ast.AST) -> None:
        """Other functions are read by themselves."""

    visit_AsyncFunctionDef = visit_Lambda = visit_ClassDef = visit_FunctionDef

    def visit_joining(self, node: ast.expr) -> None:
        """An expression whose parts are of one kind where `nodes` names several: a sum, a choice, an assignment within an expression, a
        call of `min` and the like."""
        self.relations.join(self.nodes(node))
        self.generic_visit(node)

    visit_BinOp = visit_IfExp = visit_NamedExpr = visit_Call = visit_joining

    def visit_Compare(self, node: ast.Compare) -> None:
        """A comparison, but for that of an element with a sequence and of identities."""
        sides = [node.left, *node.comparators]
        for place, operator in enumerate(node.ops):
            if isinstance(operator, (ast.Eq, ast.NotEq, ast.Lt, ast.LtE, ast.Gt, ast.GtE)):
                self.join(sides[place:place + 2])
        self.generic_visit(node)

    def visit_Assign(self, node: ast.Assign) -> None:
        """An assignment, also of several values to several targets."""
        for target in node.targets:
            self.assign(target, node.value)
        self.generic_visit(node)

    def assign(self, target: ast.expr, value: ast.expr) -> None:
        """A value is assigned."""
        if isinstance(target, ast.Tuple) and isinstance(value, ast.Tuple) and len(target.elts) == len(value.elts):
            for each, part in zip(target.elts, value.elts):
                self.assign(each, part)
        else:
            self.join([target, value])

    def visit_AugAssign(self, node: ast.AugAssign) -> None:
        """An assignment of a sum."""
        if isinstance(node.op, (*BOTH_SIDES,)):
            self.join([node.target, node.value])
        self.generic_visit(node)

    def visit_AnnAssign(self, node: ast.AnnAssign) -> None:
        """An assignment with a type."""
        if node.value is not None:
            self.assign(node.target, node.value)
        self.generic_visit(node)

    def visit_For(self, node: ast.For) -> None:
        """A loop over a range, or over elements with their numbers."""
        call = node.iter
        if isinstance(call, ast.Call) and isinstance(call.func, ast.Name):
            if call.func.id == "range":
                self.join([node.target, call])
            elif call.func.id == "enumerate" and isinstance(node.target, ast.Tuple):
                self.relations.join([LENGTH, *self.nodes(node.target.elts[0])])
        self.generic_visit(node)

    def visit_Return(self, node: ast.Return) -> None:
        """A value is returned."""
        if node.value is not None:
            self.relations.join([(self.owner, "return"), *self.nodes(node.value)])
            self.visit(node.value)

    def visit_Subscript(self, node: ast.Subscript) -> None:
        """An element at a place, or a slice between two."""
        index: Any = node.slice
        parts = [index.lower, index.upper] if isinstance(index, ast.Slice) else [index]
        for place in self.nodes_of([part for part in parts if part is not None]):
            self.relations.places += [(container, place) for container in self.nodes(node.value)]
        self.generic_visit(node)


def path_of(expression: ast.expr) -> tuple[str, ...]:
    """The names of a variable and its fields, or nothing where the expression is another one."""
    names: list[str] = []
    while isinstance(expression, ast.Attribute):
        names.insert(0, expression.attr)
        expression = expression.value
    return (expression.id, *names) if isinstance(expression, ast.Name) else ()
