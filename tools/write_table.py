#!/usr/bin/env python3
"""Writes the tree table of a program in Dana text: write_table.py PROGRAM.dana TABLE.table

docs/TABLE.md gives the table's layout. Main is function 0; the functions inside it are numbered as their names first
appear. Tables hold no arrays, strings or reference parameters, and a function reaches only its own variables and
main's; all else is refused with its line, and the status is 1.

The tool is not trusted: the check judges the table. Names and kinds are looked at here only because the check knows
nodes and no lines; levels of nesting and cells are counted by the check alone.
"""
from __future__ import annotations

import re
import sys
from dataclasses import dataclass, field

INT, BYTE, CONDITION, NOTHING = "int", "byte", "condition", "nothing"


class DanaError(Exception):
    """What is wrong with a program, and in which line."""
    def __init__(self, line: int, message: str):
        super().__init__(message)
        self.line = line


def require(holds: object, line: int, message: str) -> None:
    if not holds:
        raise DanaError(line, message)


# ---- Lexer ----------------------------------------------------------------------------------------------------------

KEYWORDS = set("and as begin break byte continue decl def elif else end exit false if is int loop not or ref return "
               "skip true var".split())
TOKEN = re.compile(r"""
    (?P<space>[ \n\r\f]+ | \#[^\n]*)
  | (?P<comment>\(\*)
  | (?P<name>[A-Za-z][A-Za-z0-9_]*)
  | (?P<number>[0-9]+)
  | (?P<char>'(?: [\ !#-&(-\[\]-~] | \\[ntr0\\'"] | \\x[0-9A-Fa-f]{2} )')
  | (?P<symbol>:= | <> | <= | >= | [-+*/%!&|=<>(),:])
""", re.VERBOSE)
COMMENT_MARK = re.compile(r"\(\*|\*\)")
NO_TOKEN = {
    '"': "a table holds no strings",
    "[": "a table holds no arrays",
    "'": "a character constant is one character or one escape sequence in single quotes",
}


@dataclass
class Token:
    """The sort of a keyword or symbol is its text. `first` says that it is its line's first token."""
    sort: str
    text: str
    line: int
    column: int
    first: bool

    def __str__(self) -> str:
        return f"'{self.text}'" if self.text else f"the {self.sort}"


def tokens_of(text: str) -> list[Token]:
    """The tokens of a program, the last one being its end."""
    text = text.expandtabs(8)
    tokens: list[Token] = []
    at, line, line_start = 0, 1, 0
    while at < len(text):
        match = TOKEN.match(text, at)
        require(match, line, NO_TOKEN.get(text[at], f"unknown character {text[at]!r}"))
        group = match.lastgroup
        end = comment_end(text, at, line) if group == "comment" else match.end()
        piece = text[at:end]
        if group not in ("space", "comment"):
            sort = piece if group == "symbol" or piece in KEYWORDS else group
            tokens.append(Token(sort, piece, line, at - line_start, not tokens or tokens[-1].line < line))
        elif "\n" in piece:
            line += piece.count("\n")
            line_start = at + piece.rfind("\n") + 1
        at = end
    return tokens + [Token("end of the program", "", line, 0, True)]


def comment_end(text: str, start: int, line: int) -> int:
    """Where the comment that opens at `start` ends; comments may stand inside comments."""
    depth = 0
    for mark in COMMENT_MARK.finditer(text, start):
        depth += 1 if mark.group() == "(*" else -1
        if depth == 0:
            return mark.end()
    raise DanaError(line, "this comment is not closed")


# ---- Programs -------------------------------------------------------------------------------------------------------

@dataclass
class Node:
    """A node as the table holds it, with its line and what it gives."""
    kind: int
    line: int
    aux: int = 0
    operand: int = 0
    children: list[Node] = field(default_factory=list)
    gives: str = NOTHING


@dataclass
class Routine:
    """What can be called: the kinds of its parameters, its result, and the fields of a call's node."""
    name: str
    parameters: list[str]
    result: str
    kind: int
    aux: int = 0
    operand: int = 0


@dataclass
class Function(Routine):
    """A function of the program, with the kinds of its variables and the numbers of its loops' names."""
    line: int = 0
    variables: list[str] = field(default_factory=list)
    loop_names: dict[str, int] = field(default_factory=dict)
    body: Node | None = None


@dataclass
class Variable:
    owner: Function
    slot: int
    kind: str


BUILT_IN = [
    Routine("readInteger", [], INT, 16, 0), Routine("readByte", [], BYTE, 16, 1), Routine("readChar", [], BYTE, 16, 2),
    Routine("writeInteger", [INT], NOTHING, 42, 0), Routine("writeByte", [BYTE], NOTHING, 42, 1),
    Routine("writeChar", [BYTE], NOTHING, 42, 2),
    Routine("extend", [BYTE], INT, 14), Routine("shrink", [INT], BYTE, 15),
]
# How tightly each operator binds, and the kind of its node. Comparisons, level 4, do not chain: they give a condition,
# and a condition is no side of a comparison.
PREFIX = {"not": (3, 26), "+": (7, 3), "-": (7, 4), "!": (7, 5)}
INFIX = {"or": (1, 28), "and": (2, 27), "=": (4, 20), "<>": (4, 21), "<": (4, 22), ">": (4, 23), "<=": (4, 24),
         ">=": (4, 25), "+": (5, 6), "-": (5, 7), "|": (5, 12), "*": (6, 8), "/": (6, 9), "%": (6, 10), "&": (6, 11)}


# ---- Parser ---------------------------------------------------------------------------------------------------------

class Parser:
    """Reads a program. Each name is looked up where it is read, so that it must be known by then."""

    def __init__(self, text: str):
        self.tokens = tokens_of(text)
        self.position = 0
        self.functions: list[Function] = []
        self.function: Function | None = None
        self.scopes: list[dict[str, Routine | Variable]] = [{routine.name: routine for routine in BUILT_IN}, {}]
        self.loops: list[str | None] = []
        self.offside: list[int] = []

    @property
    def token(self) -> Token:
        """The next token. A block without begin ends before the first token of a line that stands no further right
        than the word that opens the block; until that block is closed, its end is all that can be seen."""
        token = self.tokens[self.position]
        if self.offside and token.first and token.column <= self.offside[-1]:
            return Token("end of the block", "", token.line, token.column, True)
        return token

    def at(self, *sorts: str) -> bool:
        return self.token.sort in sorts

    def advance(self) -> Token:
        token = self.token
        self.position += 1
        return token

    def accept(self, sort: str) -> Token | None:
        return self.advance() if self.at(sort) else None

    def expect(self, *sorts: str) -> Token:
        wanted = " or ".join("a name" if sort == "name" else f"'{sort}'" for sort in sorts)
        require(self.at(*sorts), self.token.line, f"expected {wanted}, found {self.token}")
        return self.advance()

    # -- Functions and names

    def program(self) -> list[Function]:
        """The functions of the program, main first."""
        try:
            self.definition()
        except RecursionError:
            raise DanaError(self.tokens[self.position].line, "nested too deeply") from None
        require(self.at("end of the program"), self.token.line, f"{self.token} stands behind the end of main")
        for function in self.functions:
            require(function.body, function.line, f"function {function.name} is declared but not defined")
        return self.functions

    def definition(self) -> None:
        guide = self.expect("def")
        function, names = self.header()
        outer, self.function = self.function, function
        self.scopes.append({})
        for name, kind in zip(names, function.parameters):
            self.new_variable(name, kind)
        while self.at("var", "def", "decl"):
            if self.at("def"):
                self.definition()
            elif self.accept("decl"):
                self.header()
            else:
                self.advance()
                names = self.names("is")
                kind = self.number_kind()
                for name in names:
                    self.new_variable(name, kind)
        function.body = self.block(guide)
        self.scopes.pop()
        self.function = outer

    def header(self) -> tuple[Function, list[Token]]:
        """The function of a header, with its parameters' names: a new one, or the one that a decl has named."""
        token = self.expect("name")
        result = self.number_kind() if self.accept("is") else NOTHING
        names: list[Token] = []
        parameters: list[str] = []
        while self.accept("," if names else ":"):
            some = self.names("as")
            names += some
            parameters += [self.number_kind()] * len(some)
        known = self.scopes[-1].get(token.text)
        if isinstance(known, Function) and known.body is None:
            same = (known.parameters, known.result) == (parameters, result)
            require(same, token.line, f"function {token.text} is declared otherwise in line {known.line}")
            return known, names
        number = len(self.functions)
        require(len(parameters) <= 8, token.line, f"function {token.text} has more than 8 parameters")
        require(number < 32, token.line, "more than 32 functions")
        require(number > 0 or not names and result == NOTHING, token.line, "main has no parameters and no result")
        kind = 34 if result == NOTHING else 13
        function = Function(token.text, parameters, result, kind, operand=number, line=token.line)
        self.functions.append(function)
        self.enter(token, function)
        return function, names

    def names(self, closing: str) -> list[Token]:
        """One or more names and the word behind them."""
        names = [self.expect("name")]
        while not self.accept(closing):
            names.append(self.expect("name", closing))
        return names

    def number_kind(self) -> str:
        require(not self.at("ref"), self.token.line, "a table holds no reference parameters")
        return self.expect(INT, BYTE).sort

    def new_variable(self, name: Token, kind: str) -> None:
        kinds = self.function.variables
        require(len(kinds) < 32, name.line, f"function {self.function.name} has more than 32 variables")
        self.enter(name, Variable(self.function, len(kinds), kind))
        kinds.append(kind)

    def enter(self, name: Token, meaning: Routine | Variable) -> None:
        require(name.text not in self.scopes[-1], name.line, f"{name.text} is already defined here")
        self.scopes[-1][name.text] = meaning

    def look_up(self, name: Token) -> Routine | Variable:
        for scope in reversed(self.scopes):
            if name.text in scope:
                return scope[name.text]
        raise DanaError(name.line, f"{name.text} is not defined")

    def scope_of(self, variable: Variable, name: Token) -> int:
        if variable.owner is self.function:
            return 0
        require(variable.owner is self.functions[0], name.line, f"{name.text} is a variable of function "
                f"{variable.owner.name}; a function reaches only its own variables and main's")
        return 1

    # -- Blocks and statements

    def block(self, guide: Token) -> Node:
        """A block between begin and end, or by layout under the word that opens it, the guide."""
        line = self.token.line
        begin = self.accept("begin")
        self.offside.append(-1 if begin else guide.column)
        statements = []
        while not self.at("end" if begin else "end of the block"):
            statements.append(self.statement())
        self.offside.pop()
        if begin:
            self.advance()
        require(statements, guide.line, "a block has at least one statement")
        return Node(41, line, operand=len(statements), children=statements)

    def statement(self) -> Node:
        parse = {"name": self.assignment_or_call, "if": self.if_statement, "loop": self.loop, "break": self.jump,
                 "continue": self.jump, "exit": self.leave, "return": self.leave}
        if skip := self.accept("skip"):
            return Node(32, skip.line)
        require(self.at(*parse), self.token.line, f"expected a statement, found {self.token}")
        return parse[self.token.sort](self.advance())

    def leave(self, token: Token) -> Node:
        """An exit or a return."""
        result = self.function.result
        require((token.sort == "return") == (result != NOTHING), token.line,
                f"{token.sort} in {self.function.name}, whose result is {result}")
        if token.sort == "exit":
            return Node(39, token.line)
        self.expect(":")
        return Node(40, token.line, children=[as_value(self.expression(), result)])

    def assignment_or_call(self, name: Token) -> Node:
        meaning = self.look_up(name)
        if isinstance(meaning, Variable):
            scope = self.scope_of(meaning, name)
            self.expect(":=")
            return Node(33, name.line, scope, meaning.slot, [as_value(self.expression(), meaning.kind)])
        require(not self.at(":="), name.line, f"{name.text} is no variable")
        require(meaning.result == NOTHING, name.line, f"{name.text} has a result, which nothing takes here")
        return self.call(name, meaning, self.values() if self.accept(":") else [])

    def if_statement(self, guide: Token | None) -> Node:
        """An if; each elif becomes an else block that holds one if."""
        arms = []
        otherwise = []
        while guide and guide.sort != "else":
            condition = as_condition(self.expression())
            self.expect(":")
            arms.append((guide.line, condition, self.block(guide)))
            guide = self.accept("elif") or self.accept("else")
        if guide:
            self.expect(":")
            otherwise = [self.block(guide)]
        for line, condition, block in reversed(arms):
            node = Node(35, line, len(otherwise), 0, [condition, block] + otherwise)
            otherwise = [Node(41, line, operand=1, children=[node])]
        return node

    def loop(self, guide: Token) -> Node:
        """A loop. Within a function the names of loops are numbered 1, 2, ... as they first appear."""
        name = self.accept("name")
        numbers = self.function.loop_names
        number = numbers.setdefault(name.text, len(numbers) + 1) if name else 0
        self.expect(":")
        require(len(self.loops) < 16, guide.line, "more than 16 loops are open")
        self.loops.append(name.text if name else None)
        block = self.block(guide)
        self.loops.pop()
        return Node(36, guide.line, operand=number, children=[block])

    def jump(self, token: Token) -> Node:
        """A break or a continue."""
        number = 0
        require(self.loops, token.line, f"{token.text} outside of a loop")
        if self.accept(":"):
            name = self.expect("name")
            require(name.text in self.loops, name.line, f"no loop named {name.text} is open here")
            number = self.function.loop_names[name.text]
        return Node(37 if token.sort == "break" else 38, token.line, operand=number)

    # -- Expressions and conditions

    def expression(self, loosest: int = 1) -> Node:
        """An expression or condition of operators that bind at least as tightly as `loosest`."""
        level, kind = PREFIX.get(self.token.sort, (0, 0))
        if level >= loosest:
            left = prefix_node(kind, self.advance(), self.expression(level))
        else:
            left = self.primary()
        while self.at(*INFIX) and INFIX[self.token.sort][0] >= loosest:
            level, kind = INFIX[self.token.sort]
            left = infix_node(kind, left, self.advance(), self.expression(level + 1))
        return left

    def values(self) -> list[Node]:
        values = [self.expression()]
        while self.accept(","):
            values.append(self.expression())
        return values

    def primary(self) -> Node:
        token = self.token
        require(self.at("number", "char", "true", "false", "name", "("), token.line, f"expected a value, found {token}")
        self.advance()
        if token.sort == "(":
            inside = self.expression()
            self.expect(")")
            return inside
        if token.sort == "number":
            digits = token.text.lstrip("0") or "0"
            require(len(digits) < 6 and int(digits) <= 32767, token.line, f"{digits} is above 32767, the largest int")
            return Node(1, token.line, 0, int(digits), gives=INT)
        if token.sort != "name":
            # Dana's escape sequences are among Python's.
            text = {"true": "\\x01", "false": "\\0"}.get(token.sort, token.text[1:-1])
            return Node(1, token.line, 1, ord(text.encode().decode("unicode_escape")), gives=BYTE)
        meaning = self.look_up(token)
        if isinstance(meaning, Variable):
            return Node(2, token.line, self.scope_of(meaning, token), meaning.slot, gives=meaning.kind)
        require(meaning.result != NOTHING, token.line, f"{token.text} has no result")
        self.expect("(")
        values = [] if self.at(")") else self.values()
        self.expect(")")
        return self.call(token, meaning, values)

    def call(self, name: Token, routine: Routine, values: list[Node]) -> Node:
        asked = routine.parameters
        require(routine is not self.functions[0], name.line, "main cannot be called")
        require(len(values) == len(asked), name.line, f"{name.text} asks for {len(asked)} values, not {len(values)}")
        arguments = [as_value(value, kind) for value, kind in zip(values, asked)]
        return Node(routine.kind, name.line, routine.aux, routine.operand, arguments, routine.result)


def as_value(node: Node, kind: str) -> Node:
    require(node.gives == kind, node.line, f"{node.gives} where {kind} is asked for")
    return node


def as_condition(node: Node) -> Node:
    """The node as a condition: a byte becomes one by a node of its own."""
    if node.gives == CONDITION:
        return node
    require(node.gives == BYTE, node.line, f"{node.gives} where condition is asked for")
    return Node(29, node.line, 0, 0, [node], CONDITION)


def prefix_node(kind: int, sign: Token, operand: Node) -> Node:
    if kind == 26:
        return Node(kind, sign.line, 0, 0, [as_condition(operand)], CONDITION)
    gives = BYTE if kind == 5 else INT
    return Node(kind, sign.line, 0, 0, [as_value(operand, gives)], gives)


def infix_node(kind: int, left: Node, sign: Token, right: Node) -> Node:
    if kind in (27, 28):
        return Node(kind, sign.line, 0, 0, [as_condition(left), as_condition(right)], CONDITION)
    asked = (BYTE,) if kind in (11, 12) else (INT, BYTE)
    require(left.gives == right.gives and left.gives in asked, sign.line,
            f"{left.gives} and {right.gives} as the sides of {sign}")
    return Node(kind, sign.line, 0, 0, [left, right], left.gives if kind < 20 else CONDITION)


# ---- Table ----------------------------------------------------------------------------------------------------------

def preorder(root: Node) -> list[Node]:
    nodes, waiting = [], [root]
    while waiting:
        node = waiting.pop()
        nodes.append(node)
        waiting += reversed(node.children)
    return nodes


def table_of(text: str) -> bytes:
    """The table of a program's text."""
    functions = Parser(text).program()
    nodes = [node for function in functions for node in preorder(function.body)]
    require(len(nodes) <= 8192, nodes[min(len(nodes) - 1, 8192)].line, "more than 8192 nodes from here on")
    table = (1 << 20 | len(functions) << 14 | len(nodes)).to_bytes(3, "big")
    for function in functions:
        result = (NOTHING, INT, BYTE).index(function.result)
        counts = result << 14 | len(function.parameters) << 10 | len(function.variables) << 4
        kinds = sum(1 << 31 - slot for slot, kind in enumerate(function.variables) if kind == BYTE)
        table += (counts << 32 | kinds).to_bytes(6, "big")
    return table + b"".join((n.kind << 18 | n.aux << 16 | n.operand).to_bytes(3, "big") for n in nodes)


def main(arguments: list[str]) -> None:
    if len(arguments) != 2:
        sys.exit("use: write_table.py PROGRAM.dana TABLE.table")
    program, target = arguments
    try:
        with open(program, encoding="utf-8", errors="replace") as source:
            table = table_of(source.read())
        with open(target, "wb") as out:
            out.write(table)
    except DanaError as error:
        sys.exit(f"{program}:{error.line}: {error}")
    except OSError as error:
        sys.exit(f"{error.filename}: {error.strerror}")


if __name__ == "__main__":
    main(sys.argv[1:])
