#!/usr/bin/env python3
"""Tests of write_table.py and show_table.py: tables worked by hand, errors with their lines. Run this file."""
import os
import subprocess
import sys
import tempfile
import unittest

HERE = os.path.dirname(os.path.abspath(__file__))
sys.path.insert(0, HERE)
sys.dont_write_bytecode = True      # leaves no files beside the tools

import show_table
import write_table


def table(text):
    """The table of a text as hex bytes, records apart: header, functions, nodes."""
    data = write_table.table_of(text)
    functions = (int.from_bytes(data[:3], "big") >> 14) & 63
    ends = [3] + [9 + 6 * f for f in range(functions)] + list(range(6 + 6 * functions, len(data) + 1, 3))
    return [data[start:end].hex(" ").upper() for start, end in zip([0] + ends, ends)]


def nodes(text):
    """The nodes of a text as (kind, aux, operand)."""
    data = write_table.table_of(text)
    functions = (int.from_bytes(data[:3], "big") >> 14) & 63
    records = [int.from_bytes(data[i:i + 3], "big") for i in range(3 + 6 * functions, len(data), 3)]
    return [(record >> 18, record >> 16 & 3, record & 65535) for record in records]


def kinds_of(condition):
    """The node kinds of a condition over the ints a, b, c and the bytes p, q, in preorder."""
    text = f"def main var a b c is int var p q is byte begin if {condition}: begin skip end end"
    return [kind for kind, _, _ in nodes(text)][2:-2]


class Tables(unittest.TestCase):
    """Whole tables, byte for byte."""

    def test_skip(self):
        expected = bytes.fromhex("10 40 02 00 00 00 00 00 00 A4 00 01 80 00 00")
        self.assertEqual(write_table.table_of("def main skip"), expected)

    def test_minus_seven(self):
        self.assertEqual(table("def main\n  writeInteger: -7\n"),
                         ["10 40 04", "00 00 00 00 00 00", "A4 00 01", "A8 00 00", "10 00 00", "04 00 07"])

    def test_high_water(self):
        text = """
            def main
              var level gate is int
              level := readInteger()
              gate := readInteger()
              if not (level < 300 or gate = 0):
                gate := 100 - gate
              writeInteger: gate
        """
        self.assertEqual(table(text), [
            "10 40 15", "00 20 00 00 00 00", "A4 00 04", "84 00 00", "40 00 00", "84 00 01", "40 00 00", "8C 00 00",
            "68 00 00", "70 00 00", "58 00 00", "08 00 00", "04 01 2C", "50 00 00", "08 00 01", "04 00 00", "A4 00 01",
            "84 00 01", "1C 00 00", "04 00 64", "08 00 01", "A8 00 00", "08 00 01"])

    def test_functions_and_scope_1(self):
        text = """
            def main
              var total is int
              def double is byte: a b as byte     # function 1: result byte, 2 parameters, 3 variables of kinds 1 1 0
                var n is int
                total := n                        # main's slot 0, own slot 2
                return: a + b
              def note: n as int                  # function 2: no result, 1 parameter
                total := total + n
              note: extend(double('A', true))
        """
        self.assertEqual(table(text), [
            "10 C0 12", "00 10 00 00 00 00", "88 30 C0 00 00 00", "04 10 00 00 00 00",
            "A4 00 01", "88 00 02", "38 00 00", "34 00 01", "05 00 41", "05 00 01",
            "A4 00 02", "85 00 00", "08 00 02", "A0 00 00", "18 00 00", "08 00 00", "08 00 01",
            "A4 00 01", "85 00 00", "18 00 00", "09 00 00", "08 00 00"])

    def test_begin_end_and_layout_agree(self):
        by_layout = "def main\n  var x is int\n  loop:\n    if x = 3: break\n    else: x := x + 1\n  exit\n"
        by_words = """def main var x is int begin
            loop: begin if x = 3: begin break end else: begin x := x + 1 end end exit end"""
        self.assertEqual(table(by_layout), table(by_words))

    def test_files_and_status(self):
        with tempfile.TemporaryDirectory() as folder:
            program, target = os.path.join(folder, "p.dana"), os.path.join(folder, "p.table")
            tool = [sys.executable, os.path.join(HERE, "write_table.py"), program, target]
            with open(program, "w") as out:
                out.write("def main\n  skip\n  leap\n")
            run = subprocess.run(tool, capture_output=True, text=True)
            self.assertEqual((run.returncode, run.stderr), (1, f"{program}:3: leap is not defined\n"))
            self.assertFalse(os.path.exists(target))
            with open(program, "w") as out:
                out.write("def main skip")
            self.assertEqual(subprocess.run(tool).returncode, 0)
            with open(target, "rb") as written:
                self.assertEqual(len(written.read()), 15)


class Nodes(unittest.TestCase):
    """What single constructions become."""

    def test_precedence(self):
        self.assertEqual(kinds_of("a + b * c = a"), [20, 6, 2, 8, 2, 2, 2])
        self.assertEqual(kinds_of("(a + b) * c = a"), [20, 8, 6, 2, 2, 2, 2])
        self.assertEqual(kinds_of("a - b - c = a"), [20, 7, 7, 2, 2, 2, 2])
        self.assertEqual(kinds_of("a / b % c <> -a"), [21, 10, 9, 2, 2, 2, 4, 2])
        self.assertEqual(kinds_of("-a * b < +c"), [22, 8, 4, 2, 2, 3, 2])
        self.assertEqual(kinds_of("a = b or a > b and a <= c"), [28, 20, 2, 2, 27, 23, 2, 2, 24, 2, 2])
        self.assertEqual(kinds_of("a = b or a = c or a >= b"), [28, 28, 20, 2, 2, 20, 2, 2, 25, 2, 2])
        self.assertEqual(kinds_of("not a = b and a = c"), [27, 26, 20, 2, 2, 20, 2, 2])
        self.assertEqual(kinds_of("not (a = b and a = c)"), [26, 27, 20, 2, 2, 20, 2, 2])
        self.assertEqual(kinds_of("p | q & p = q"), [20, 12, 2, 11, 2, 2, 2])
        self.assertEqual(kinds_of("p | q - p = q"), [20, 7, 12, 2, 2, 2, 2])
        self.assertEqual(kinds_of("!p & q = q"), [20, 11, 5, 2, 2, 2])

    def test_byte_as_condition(self):
        self.assertEqual(kinds_of("p"), [29, 2])
        self.assertEqual(kinds_of("not p and (q or true)"), [27, 26, 29, 2, 28, 29, 2, 29, 1])
        self.assertEqual(kinds_of("!p & q"), [29, 11, 5, 2, 2])
        self.assertEqual(kinds_of("readChar()"), [29, 16])

    def test_elif_is_an_else_block_with_one_if(self):
        text = "def main\n  var x is int\n  if x = 1: skip\n  elif x = 2: exit\n  else:\n    x := 3\n    skip\n"
        self.assertEqual(nodes(text), [
            (41, 0, 1), (35, 1, 0), (20, 0, 0), (2, 0, 0), (1, 0, 1), (41, 0, 1), (32, 0, 0),
            (41, 0, 1), (35, 1, 0), (20, 0, 0), (2, 0, 0), (1, 0, 2), (41, 0, 1), (39, 0, 0),
            (41, 0, 2), (33, 0, 0), (1, 0, 3), (32, 0, 0)])
        without_else = "def main\n  if true: skip\n  elif false: skip\n"
        self.assertEqual([aux for kind, aux, _ in nodes(without_else) if kind == 35], [1, 0])

    def test_else_belongs_to_the_if_above_it(self):
        inner = "def main\n  if true:\n    if false: skip\n    else: skip\n"
        outer = "def main\n  if true:\n    if false: skip\n  else: skip\n"
        self.assertEqual([aux for kind, aux, _ in nodes(inner) if kind == 35], [0, 1])
        self.assertEqual([aux for kind, aux, _ in nodes(outer) if kind == 35], [1, 0])

    def test_nested_loops_with_names(self):
        text = """
            def main
              loop outer:
                loop:
                  loop inner:
                    break: outer
                    continue: inner
                    break
                  continue
              loop inner:
                break: inner
        """
        jumps = [(kind, operand) for kind, _, operand in nodes(text) if kind in (36, 37, 38)]
        self.assertEqual(jumps, [(36, 1), (36, 0), (36, 2), (37, 1), (38, 2), (37, 0), (38, 0), (36, 2), (37, 2)])

    def test_constants(self):
        text = "def main\n" + "".join(f"  writeChar: '{c}'\n" for c in (
            "a", " ", "\\n", "\\t", "\\r", "\\0", "\\\\", "\\'", '\\"', "\\xfF")) + "  writeInteger: 00200\n"
        self.assertEqual([operand for kind, _, operand in nodes(text) if kind == 1],
                         [97, 32, 10, 9, 13, 0, 92, 39, 34, 255, 200])

    def test_comments(self):
        text = "# first\ndef main (* two (* lines\n *) *) skip # last"
        self.assertEqual(table(text), table("def main skip"))

    def test_reads_writes_and_kinds(self):
        text = "def main writeInteger: readInteger() writeByte: readByte() writeChar: shrink(extend(readChar()))"
        self.assertEqual(nodes(text), [(41, 0, 3), (42, 0, 0), (16, 0, 0), (42, 1, 0), (16, 1, 0),
                                       (42, 2, 0), (15, 0, 0), (14, 0, 0), (16, 2, 0)])

    def test_decl_and_functions_inside_functions(self):
        text = """
            def main
              decl odd is byte: n as int          # function 1
              def even is byte: n as int          # function 2
                def less is int: m as int         # function 3
                  return: m - 1
                if n = 0: return: true
                return: odd(less(n))
              def odd is byte: n as int
                return: !even(n)
              if odd(3): skip
        """
        self.assertEqual([operand for kind, _, operand in nodes(text) if kind == 13], [1, 2, 1, 3])


class Errors(unittest.TestCase):
    """Each error is told with its line."""

    def refused(self, line, words, text):
        with self.assertRaises(write_table.DanaError) as caught:
            write_table.table_of(text)
        self.assertEqual(caught.exception.line, line, caught.exception)
        self.assertIn(words, str(caught.exception))

    def body(self, line, words, *lines):
        """An error of main's body, whose lines are given; the first is line 4."""
        start = "def main\n  var a is int\n  var p is byte\n"
        self.refused(line, words, start + "".join(f"  {text}\n" for text in lines))

    def test_characters(self):
        self.body(5, "unknown character '$'", "skip", "a := $")
        self.body(4, "no strings", 'writeString: "x"')
        self.body(5, "no arrays", "skip", "a[1] := 2")
        self.body(4, "character constant", "p := 'ab'")
        self.body(5, "not closed", "skip", "(* (* *)", "skip")

    def test_syntax(self):
        self.body(5, "expected ':=', found '='", "skip", "a = 1")
        self.body(6, "expected ':', found 'skip'", "if p:", "  skip", "if p skip")
        self.body(5, "expected a value, found the end of the block", "a :=")
        self.body(4, "at least one statement", "loop:", "skip")
        self.body(5, "expected a statement, found 'else'", "skip", "else: skip")
        self.refused(3, "expected a statement, found the end of the program", "def main\nbegin\nskip")
        self.refused(3, "stands behind the end of main", "def main\n  skip\ndef more\n  skip")
        self.refused(2, "expected 'int' or 'byte', found 'loop'", "def main\n  var x is loop\n  skip")
        self.refused(2, "expected a name or 'as', found 'is'", "def main\n  def f: x is int\n    skip\n  skip")

    def test_names(self):
        self.body(5, "b is not defined", "skip", "a := b")
        self.body(4, "main cannot be called", "main")
        self.body(4, "readByte has a result", "readByte")
        self.body(4, "writeByte has no result", "p := writeByte(p)")
        self.body(4, "shrink is no variable", "shrink := 3")
        self.refused(3, "x is already defined", "def main\n  var x is int\n  var x is byte\n  skip")
        self.refused(2, "declared but not defined", "def main\n  decl f\n  f")
        self.refused(3, "declared otherwise in line 2", "def main\n  decl f\n  def f is int\n    return: 1\n  skip")
        self.refused(5, "x is a variable of function f",
                     "def main\n  def f\n    var x is int\n    def g\n      x := 1\n    skip\n  skip")
        self.refused(3, "x is not defined", "def main\n  def f\n    x := 1\n  var x is int\n  skip")

    def test_kinds(self):
        self.body(4, "byte where int is asked for", "a := p")
        self.body(5, "int where byte is asked for", "writeInteger: a", "writeChar: a")
        self.body(4, "int and byte as the sides of '+'", "a := a + p")
        self.body(4, "int and int as the sides of '&'", "a := a & a")
        self.body(4, "int where condition is asked for", "if a: skip")
        self.body(4, "condition where int is asked for", "a := (a = 1)")
        self.body(4, "condition and int as the sides of '<'", "if 1 < a < 3: skip")
        self.body(4, "asks for 1 values, not 2", "writeInteger: a, a")
        self.body(4, "above 32767", "a := 32768")
        self.body(4, "above 32767", "a := " + "9" * 5000)

    def test_jumps_exit_return(self):
        self.body(4, "break outside of a loop", "break")
        self.body(5, "no loop named other is open here", "loop one:", "  break: other")
        self.body(6, "no loop named one is open here", "loop one:", "  break", "loop: continue: one")
        self.body(4, "return in main, whose result is nothing", "return: 1")
        self.refused(3, "exit in f, whose result is int", "def main\n  def f is int\n    exit\n  skip")
        self.refused(3, "byte where int is asked for", "def main\n  def f is int\n    return: true\n  skip")

    def test_what_a_table_does_not_hold(self):
        self.refused(2, "reference parameters", "def main\n  def f: x as ref int\n    skip\n  skip")
        self.refused(2, "more than 8 parameters", "def main\n  def f: a b c d e f g h i as int\n    skip\n  skip")
        self.refused(1, "no parameters and no result", "def main: x as int\n  skip")
        self.refused(34, "more than 32 variables",
                     "def main\n" + "".join(f"  var x{i} is int\n" for i in range(40)) + "  skip")
        self.refused(64, "more than 32 functions",
                     "def main\n" + "".join(f"  def f{i}\n    skip\n" for i in range(40)) + "\n  skip")
        self.refused(18, "more than 16 loops", "def main\n" + "".join(" " * i + "loop:\n" for i in range(1, 20)))
        self.refused(8193, "more than 8192 nodes", "def main\n" + "  skip\n" * 8192)
        self.refused(2, "nested too deeply", "def main\n  writeInteger: " + "(" * 5000 + "1" + ")" * 5000)


class Listing(unittest.TestCase):
    def test_listing(self):
        text = "def main var x is byte def f: n as int begin x := 'A' end begin f: 7 if x: begin skip end end"
        self.assertEqual(show_table.listing(write_table.table_of(text)), [
            "version 1, functions 2, nodes 11, bytes 48",
            "function 0: no result, parameters 0, variables byte",
            "    0   block, statements 2",
            "    1     call, function 1",
            "    2       constant, int, value 7",
            "    3     if, without else",
            "    4       byte as condition",
            "    5         variable, own, slot 0",
            "    6       block, statements 1",
            "    7         skip",
            "function 1: no result, parameters 1, variables int",
            "    8   block, statements 1",
            "    9     assignment, main's, slot 0",
            "   10       constant, byte, value 65"])

    def test_broken_tables(self):
        skip = write_table.table_of("def main skip")
        self.assertEqual(show_table.listing(b"\x10"), ["no header: fewer than three bytes"])
        self.assertEqual(show_table.listing(skip + b"x")[-1], "the length should be 15")
        self.assertEqual(show_table.listing(skip[:11] + b"\x02" + skip[12:])[-1], "nodes are missing")
        self.assertEqual(show_table.listing(skip[:12] + b"\x4D\x00\x05")[-1], "    1     kind 19, aux 1, operand 5")


if __name__ == "__main__":
    unittest.main()
