//! The tree of a Dana program, and how its records are packed into a table.

/// The kinds of node, by their numbers in the table.
pub mod op {
    pub const CONSTANT: u8 = 1;
    pub const VARIABLE: u8 = 2;
    pub const PLUS: u8 = 3;
    pub const MINUS: u8 = 4;
    pub const BYTE_NOT: u8 = 5;
    pub const ADD: u8 = 6;
    pub const SUB: u8 = 7;
    pub const MUL: u8 = 8;
    pub const DIV: u8 = 9;
    pub const REM: u8 = 10;
    pub const BYTE_AND: u8 = 11;
    pub const BYTE_OR: u8 = 12;
    pub const CALL: u8 = 13;
    pub const EXTEND: u8 = 14;
    pub const SHRINK: u8 = 15;
    pub const READ: u8 = 16;
    pub const EQUAL: u8 = 20;
    pub const UNEQUAL: u8 = 21;
    pub const LESS: u8 = 22;
    pub const GREATER: u8 = 23;
    pub const AT_MOST: u8 = 24;
    pub const AT_LEAST: u8 = 25;
    pub const NOT: u8 = 26;
    pub const AND: u8 = 27;
    pub const OR: u8 = 28;
    pub const HOLDS: u8 = 29;
    pub const SKIP: u8 = 32;
    pub const ASSIGN: u8 = 33;
    pub const PERFORM: u8 = 34;
    pub const IF: u8 = 35;
    pub const LOOP: u8 = 36;
    pub const BREAK: u8 = 37;
    pub const CONTINUE: u8 = 38;
    pub const EXIT: u8 = 39;
    pub const RETURN: u8 = 40;
    pub const BLOCK: u8 = 41;
    pub const WRITE: u8 = 42;

    /// Every kind of node with its name.
    pub const ALL: [(u8, &str); 37] = [
        (CONSTANT, "constant"),
        (VARIABLE, "variable"),
        (PLUS, "plus sign"),
        (MINUS, "minus sign"),
        (BYTE_NOT, "!"),
        (ADD, "+"),
        (SUB, "-"),
        (MUL, "*"),
        (DIV, "/"),
        (REM, "%"),
        (BYTE_AND, "&"),
        (BYTE_OR, "|"),
        (CALL, "call with result"),
        (EXTEND, "extend"),
        (SHRINK, "shrink"),
        (READ, "read"),
        (EQUAL, "="),
        (UNEQUAL, "<>"),
        (LESS, "<"),
        (GREATER, ">"),
        (AT_MOST, "<="),
        (AT_LEAST, ">="),
        (NOT, "not"),
        (AND, "and"),
        (OR, "or"),
        (HOLDS, "byte as condition"),
        (SKIP, "skip"),
        (ASSIGN, "assignment"),
        (PERFORM, "call without result"),
        (IF, "if"),
        (LOOP, "loop"),
        (BREAK, "break"),
        (CONTINUE, "continue"),
        (EXIT, "exit"),
        (RETURN, "return"),
        (BLOCK, "block"),
        (WRITE, "write"),
    ];

    /// The name of a kind of node.
    pub fn name(op: u8) -> &'static str {
        ALL.iter().find(|(number, _)| *number == op).map_or("unlisted", |(_, name)| name)
    }
}

/// The two kinds of number.
#[derive(Clone, Copy, PartialEq, Eq, Debug)]
pub enum Kind {
    Int,
    Byte,
}

/// The kind that a bit names: 0 int, 1 byte.
pub fn kind_of_bit(bit: u64) -> Kind {
    if bit == 0 {
        Kind::Int
    } else {
        Kind::Byte
    }
}

/// A node's record as it stands in the table.
#[derive(Clone, Copy, PartialEq, Eq, Debug)]
pub struct Record {
    pub op: u8,
    pub aux: u8,
    pub operand: u16,
}

impl Record {
    pub fn new(op: u8, aux: u8, operand: u16) -> Record {
        Record { op, aux, operand }
    }

    pub fn packed(self) -> [u8; 3] {
        [(self.op << 2) | (self.aux & 3), (self.operand >> 8) as u8, self.operand as u8]
    }

    pub fn unpacked(bytes: &[u8]) -> Record {
        Record::new(bytes[0] >> 2, bytes[0] & 3, u16::from_be_bytes([bytes[1], bytes[2]]))
    }
}

/// A function's record as it stands in the table, field by field.
#[derive(Clone, Copy, PartialEq, Eq, Debug, Default)]
pub struct FunctionRecord {
    pub result: u8,
    pub parameters: u8,
    pub variables: u8,
    pub spare: u8,
    pub kinds: u32,
}

impl FunctionRecord {
    pub fn packed(self) -> [u8; 6] {
        let head = (u16::from(self.result & 3) << 14)
            | (u16::from(self.parameters & 15) << 10)
            | (u16::from(self.variables & 63) << 4)
            | u16::from(self.spare & 15);
        let (h, k) = (head.to_be_bytes(), self.kinds.to_be_bytes());
        [h[0], h[1], k[0], k[1], k[2], k[3]]
    }

    pub fn unpacked(bytes: &[u8]) -> FunctionRecord {
        let head = u16::from_be_bytes([bytes[0], bytes[1]]);
        FunctionRecord {
            result: (head >> 14) as u8,
            parameters: (head >> 10 & 15) as u8,
            variables: (head >> 4 & 63) as u8,
            spare: (head & 15) as u8,
            kinds: u32::from_be_bytes([bytes[2], bytes[3], bytes[4], bytes[5]]),
        }
    }

    /// The kind of the variable in a slot.
    pub fn kind(self, slot: usize) -> Kind {
        kind_of_bit(u64::from(self.kinds >> (31 - slot) & 1))
    }
}

/// A table taken apart: what the generator makes and what damage is done to.
#[derive(Clone, PartialEq, Eq, Debug)]
pub struct Sketch {
    pub version: u8,
    pub functions: Vec<FunctionRecord>,
    pub records: Vec<Record>,
}

impl Sketch {
    /// The header for any three numbers that fit their fields.
    pub fn header(version: u8, functions: usize, nodes: usize) -> [u8; 3] {
        let all = (u32::from(version & 15) << 20) | ((functions as u32 & 63) << 14) | (nodes as u32 & 0x3fff);
        let bytes = all.to_be_bytes();
        [bytes[1], bytes[2], bytes[3]]
    }

    pub fn table(&self) -> Vec<u8> {
        let mut table = Sketch::header(self.version, self.functions.len(), self.records.len()).to_vec();
        self.functions.iter().for_each(|f| table.extend(f.packed()));
        self.records.iter().for_each(|r| table.extend(r.packed()));
        table
    }
}

/// A function of a checked program.
#[derive(Clone, PartialEq, Eq, Debug)]
pub struct Function {
    pub result: Option<Kind>,
    pub parameters: usize,
    pub kinds: Vec<Kind>,
    /// The node of its body's block.
    pub body: usize,
    /// How many cells the operands of its body take at once.
    pub height: usize,
}

/// A node of a checked program; its number is its place in `Program::nodes`.
#[derive(Clone, PartialEq, Eq, Debug)]
pub struct Node {
    pub op: u8,
    pub aux: u8,
    pub operand: u16,
    pub children: Vec<usize>,
    /// The kind of the node's value, where it has one.
    pub gives: Option<Kind>,
}

/// A checked program.
#[derive(Clone, PartialEq, Eq, Debug)]
pub struct Program {
    pub functions: Vec<Function>,
    pub nodes: Vec<Node>,
}

impl Program {
    /// How many words of stack code the program has: one entry word and one closing word for each function, and one
    /// word for each node but those that only group or only change where jumps lead.
    pub fn words(&self) -> usize {
        let worded = |n: &&Node| match n.op {
            op::PLUS | op::EXTEND | op::NOT | op::AND | op::OR | op::SKIP | op::BLOCK => false,
            op::IF => n.aux == 1,
            _ => true,
        };
        2 * self.functions.len() + self.nodes.iter().filter(worded).count()
    }
}
