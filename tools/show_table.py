#!/usr/bin/env python3
"""Lists a tree table, one node to a line, indented by nesting: show_table.py TABLE.table

It helps to find the node that a refusal or a fault tells. It judges nothing: what it cannot name it shows as numbers.
"""
import sys

SCOPES, FORMATS, KINDS = ("own", "main's"), ("integer", "byte", "char"), ("int", "byte")

# For each kind: its name, how many children it has, the names of its aux values, and what its operand is.
NODES = {
    1: ("constant", 0, KINDS, "value"), 2: ("variable", 0, SCOPES, "slot"),
    3: ("plus sign", 1, (), ""), 4: ("minus sign", 1, (), ""), 5: ("!", 1, (), ""),
    **{6 + i: (sign, 2, (), "") for i, sign in enumerate(("+", "-", "*", "/", "%", "&", "|"))},
    13: ("call with result", 0, (), "function"), 14: ("extend", 1, (), ""), 15: ("shrink", 1, (), ""),
    16: ("read", 0, FORMATS, ""),
    **{20 + i: (sign, 2, (), "") for i, sign in enumerate(("=", "<>", "<", ">", "<=", ">="))},
    26: ("not", 1, (), ""), 27: ("and", 2, (), ""), 28: ("or", 2, (), ""), 29: ("byte as condition", 1, (), ""),
    32: ("skip", 0, (), ""), 33: ("assignment", 1, SCOPES, "slot"), 34: ("call", 0, (), "function"),
    35: ("if", 2, ("without else", "with else"), ""), 36: ("loop", 1, (), "name"), 37: ("break", 0, (), "name"),
    38: ("continue", 0, (), "name"), 39: ("exit", 0, (), ""), 40: ("return", 1, (), ""),
    41: ("block", 0, (), "statements"), 42: ("write", 1, FORMATS, ""),
}


def described(kind, aux, operand):
    """The text of a node: its name and those of its fields that are in use or not 0."""
    name, _, aux_names, operand_name = NODES.get(kind, (f"kind {kind}", 0, (), ""))
    words = [name]
    if aux < len(aux_names):
        words.append(aux_names[aux])
    elif aux:
        words.append(f"aux {aux}")
    if operand_name or operand:
        words.append(f"{operand_name or 'operand'} {operand}")
    return ", ".join(words)


def children_of(kind, aux, operand, parameters):
    """How many children a node has: a call as many as its function has parameters, a block its statements."""
    if kind in (13, 34):
        return parameters[operand] if operand < len(parameters) else 0
    if kind == 41:
        return operand
    return NODES.get(kind, ("", 0))[1] + (1 if kind == 35 and aux == 1 else 0)


def listing(table):
    """The lines of the listing."""
    if len(table) < 3:
        return ["no header: fewer than three bytes"]
    header = int.from_bytes(table[:3], "big")
    functions, nodes = header >> 14 & 63, header & 16383
    lines = [f"version {header >> 20}, functions {functions}, nodes {nodes}, bytes {len(table)}"]
    length = 3 + 6 * functions + 3 * nodes
    if len(table) != length:
        return lines + [f"the length should be {length}"]
    records = [int.from_bytes(table[3 + 6 * f:9 + 6 * f], "big") for f in range(functions)]
    parameters = [record >> 42 & 15 for record in records]
    # How many subtrees are still to come at each level: the bodies, and below them the children of open nodes.
    open_nodes = [functions]
    for number in range(nodes):
        if len(open_nodes) == 1:
            lines += function_lines(functions - open_nodes[0], records)
        start = 3 + 6 * functions + 3 * number
        record = int.from_bytes(table[start:start + 3], "big")
        kind, aux, operand = record >> 18, record >> 16 & 3, record & 65535
        lines.append(f"{number:5} {'  ' * len(open_nodes)}{described(kind, aux, operand)}")
        open_nodes[-1] -= 1
        open_nodes.append(children_of(kind, aux, operand, parameters))
        while len(open_nodes) > 1 and open_nodes[-1] == 0:
            open_nodes.pop()
    if len(open_nodes) > 1 or open_nodes[0] > 0:
        lines.append("nodes are missing")
    return lines


def function_lines(number, records):
    """The line before a function's body."""
    if number >= len(records):
        return ["behind the last body:"]
    counts = records[number] >> 32
    result = ("no result", "result int", "result byte", "result 3")[counts >> 14]
    variables = [KINDS[records[number] >> 31 - slot & 1] for slot in range(min(counts >> 4 & 63, 32))]
    return [f"function {number}: {result}, parameters {counts >> 10 & 15}, variables {' '.join(variables) or 'none'}"]


def main(arguments):
    if len(arguments) != 1:
        sys.exit("use: show_table.py TABLE.table")
    try:
        with open(arguments[0], "rb") as source:
            print("\n".join(listing(source.read())))
    except OSError as error:
        sys.exit(f"{error.filename}: {error.strerror}")


if __name__ == "__main__":
    main(sys.argv[1:])
