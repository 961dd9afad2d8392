//! The check: reads a tree table into a tree, or tells the first rule that it breaks.

use crate::tree::{kind_of_bit, op, Function, FunctionRecord, Kind, Node, Program, Record};

pub const MOST_LEVELS: usize = 128;
pub const MOST_LOOPS: usize = 16;
pub const MOST_CELLS: usize = 64;
pub const MOST_NODES: usize = 8192;

/// A refusal: number and place.
#[derive(Clone, Copy, PartialEq, Eq, Debug)]
pub struct Refusal {
    pub number: u16,
    pub place: usize,
}

fn refuse<T>(number: u16, place: usize) -> Result<T, Refusal> {
    Err(Refusal { number, place })
}

/// The tree of a table that keeps every rule, or the first rule broken in the order of the walk.
pub fn check(table: &[u8]) -> Result<Program, Refusal> {
    if table.len() < 3 {
        return refuse(1, table.len());
    }
    let header = u32::from_be_bytes([0, table[0], table[1], table[2]]);
    let (version, functions, nodes) = (header >> 20, (header >> 14 & 63) as usize, (header & 0x3fff) as usize);
    if version != 1 {
        return refuse(2, 0);
    }
    if !(1..=32).contains(&functions) || !(1..=MOST_NODES).contains(&nodes) {
        return refuse(3, 0);
    }
    if table.len() != 3 + 6 * functions + 3 * nodes {
        return refuse(1, table.len());
    }
    let (records, trees) = table[3..].split_at(6 * functions);
    let mut walk = Walk { functions: Vec::new(), trees, nodes: Vec::new(), here: 0, loops: Vec::new() };
    for (number, bytes) in records.chunks(6).enumerate() {
        match function(number, FunctionRecord::unpacked(bytes)) {
            Some(function) => walk.functions.push(function),
            None => return refuse(4, number),
        }
    }
    for number in 0..functions {
        walk.body(number)?;
    }
    if walk.nodes.len() < nodes {
        return refuse(12, walk.nodes.len());
    }
    Ok(Program { functions: walk.functions, nodes: walk.nodes })
}

/// The function of a record, or none if the record is broken.
fn function(number: usize, record: FunctionRecord) -> Option<Function> {
    let FunctionRecord { result, parameters, variables, spare, kinds } = record;
    let past = if variables >= 32 { 0 } else { kinds & (u32::MAX >> variables) };
    let fields =
        result <= 2 && parameters <= 8 && variables <= 32 && parameters <= variables && spare == 0 && past == 0;
    let main = number > 0 || (result == 0 && parameters == 0);
    if !fields || !main {
        return None;
    }
    Some(Function {
        result: [None, Some(Kind::Int), Some(Kind::Byte)][usize::from(result)],
        parameters: usize::from(parameters),
        kinds: (0..usize::from(variables)).map(|slot| record.kind(slot)).collect(),
        body: 0,
        height: 0,
    })
}

#[derive(Clone, Copy, PartialEq, Eq)]
enum Sort {
    Expression,
    Condition,
    Statement,
    Block,
}

fn sort_of(op: u8) -> Sort {
    match op {
        1..=16 => Sort::Expression,
        20..=29 => Sort::Condition,
        op::BLOCK => Sort::Block,
        _ => Sort::Statement,
    }
}

/// Whether the node's kind is listed and its fields are in range.
fn fields_good(Record { op, aux, operand }: Record) -> bool {
    let (no_aux, no_operand) = (aux == 0, operand == 0);
    match op {
        op::CONSTANT => aux <= 1 && operand <= [32767, 255][usize::from(aux)],
        op::VARIABLE | op::ASSIGN => aux <= 1,
        op::READ | op::WRITE => aux <= 2 && no_operand,
        op::IF => aux <= 1 && no_operand,
        op::CALL | op::PERFORM | op::LOOP | op::BREAK | op::CONTINUE => no_aux,
        op::BLOCK => no_aux && (1..=MOST_NODES).contains(&usize::from(operand)),
        3..=16 | 20..=29 | op::SKIP | op::EXIT | op::RETURN => no_aux && no_operand,
        _ => false,
    }
}

/// What is known of a subtree behind it.
struct Walked {
    gives: Option<Kind>,
    height: usize,
}

struct Walk<'a> {
    functions: Vec<Function>,
    trees: &'a [u8],
    nodes: Vec<Node>,
    /// The function whose body is walked.
    here: usize,
    /// The names of the open loops, the innermost last.
    loops: Vec<u16>,
}

impl Walk<'_> {
    fn body(&mut self, number: usize) -> Result<(), Refusal> {
        let block = self.nodes.len();
        (self.here, self.functions[number].body) = (number, block);
        let walked = self.node(1, Sort::Block)?;
        let function = &mut self.functions[number];
        function.height = walked.height;
        if function.kinds.len() + function.height > MOST_CELLS {
            return refuse(19, block);
        }
        Ok(())
    }

    fn node(&mut self, level: usize, asked: Sort) -> Result<Walked, Refusal> {
        let at = self.nodes.len();
        let Some(bytes) = self.trees.get(3 * at..3 * at + 3) else {
            return refuse(12, at);
        };
        if level > MOST_LEVELS {
            return refuse(13, at);
        }
        let record = Record::unpacked(bytes);
        if !fields_good(record) {
            return refuse(10, at);
        }
        if sort_of(record.op) != asked {
            return refuse(11, at);
        }
        self.arrived(record, at)?;

        let Record { op, aux, operand } = record;
        self.nodes.push(Node { op, aux, operand, children: Vec::new(), gives: None });
        if op == op::LOOP {
            self.loops.push(operand);
        }
        let (mut children, mut walked) = (Vec::new(), Vec::new());
        for child in 0..self.children(record) {
            children.push(self.nodes.len());
            walked.push(self.node(level + 1, asked_of(op, child))?);
        }
        if op == op::LOOP {
            self.loops.pop();
        }
        let kinds: Vec<Option<Kind>> = walked.iter().map(|w| w.gives).collect();
        let Some(gives) = self.kind(record, &kinds) else {
            return refuse(15, at);
        };
        (self.nodes[at].children, self.nodes[at].gives) = (children, gives);
        let heights: Vec<usize> = walked.iter().map(|w| w.height).collect();
        Ok(Walked { gives, height: height(op, &heights) })
    }

    /// The rules that are applied on arrival and need to know where the node stands.
    fn arrived(&self, Record { op, aux, operand }: Record, at: usize) -> Result<(), Refusal> {
        let own = &self.functions[self.here];
        match op {
            op::VARIABLE | op::ASSIGN if (aux == 1 && self.here == 0) || self.slot(aux, operand).is_none() => {
                return refuse(14, at);
            }
            op::CALL | op::PERFORM => {
                let called = self.functions.get(usize::from(operand)).filter(|_| operand != 0);
                match called {
                    Some(f) if f.result.is_some() == (op == op::CALL) => {}
                    _ => return refuse(16, at),
                }
            }
            op::LOOP if self.loops.len() >= MOST_LOOPS => return refuse(17, at),
            op::BREAK | op::CONTINUE => {
                let open = if operand == 0 { !self.loops.is_empty() } else { self.loops.contains(&operand) };
                if !open {
                    return refuse(17, at);
                }
            }
            op::EXIT if own.result.is_some() => return refuse(18, at),
            op::RETURN if own.result.is_none() => return refuse(18, at),
            _ => {}
        }
        Ok(())
    }

    /// The kind of a slot that is there.
    fn slot(&self, scope: u8, slot: u16) -> Option<Kind> {
        let function = &self.functions[if scope == 0 { self.here } else { 0 }];
        function.kinds.get(usize::from(slot)).copied()
    }

    fn children(&self, Record { op, aux, operand }: Record) -> usize {
        match op {
            op::CONSTANT | op::VARIABLE | op::READ => 0,
            op::SKIP | op::BREAK | op::CONTINUE | op::EXIT => 0,
            op::ADD..=op::BYTE_OR | op::EQUAL..=op::AT_LEAST | op::AND | op::OR => 2,
            op::CALL | op::PERFORM => self.functions[usize::from(operand)].parameters,
            op::IF => 2 + usize::from(aux),
            op::BLOCK => usize::from(operand),
            _ => 1,
        }
    }

    /// The kind that a node gives, if any, where its children are of the kinds asked for; else none at all.
    fn kind(&self, Record { op, aux, operand }: Record, children: &[Option<Kind>]) -> Option<Option<Kind>> {
        let (int, byte) = (Some(Kind::Int), Some(Kind::Byte));
        let formatted = if aux == 0 { int } else { byte };
        let takes = |asked: &[Option<Kind>], gives: Option<Kind>| (children == asked).then_some(gives);
        match op {
            op::CONSTANT => Some(Some(kind_of_bit(u64::from(aux)))),
            op::VARIABLE => Some(self.slot(aux, operand)),
            op::READ => Some(formatted),
            op::PLUS | op::MINUS => takes(&[int], int),
            op::BYTE_NOT => takes(&[byte], byte),
            op::ADD..=op::REM => (children[0] == children[1]).then_some(children[0]),
            op::BYTE_AND | op::BYTE_OR => takes(&[byte, byte], byte),
            op::EXTEND => takes(&[byte], int),
            op::SHRINK => takes(&[int], byte),
            op::EQUAL..=op::AT_LEAST => (children[0] == children[1]).then_some(None),
            op::HOLDS => takes(&[byte], None),
            op::ASSIGN => takes(&[self.slot(aux, operand)], None),
            op::RETURN => takes(&[self.functions[self.here].result], None),
            op::WRITE => takes(&[formatted], None),
            op::CALL | op::PERFORM => {
                let called = &self.functions[usize::from(operand)];
                let parameters: Vec<_> = called.kinds[..called.parameters].iter().map(|k| Some(*k)).collect();
                takes(&parameters, called.result)
            }
            _ => Some(None),
        }
    }
}

/// The sort that a node asks of one of its children.
fn asked_of(op: u8, child: usize) -> Sort {
    match op {
        op::NOT | op::AND | op::OR => Sort::Condition,
        op::IF if child == 0 => Sort::Condition,
        op::IF | op::LOOP => Sort::Block,
        op::BLOCK => Sort::Statement,
        _ => Sort::Expression,
    }
}

/// How many cells the operands of a tree take at once.
fn height(op: u8, children: &[usize]) -> usize {
    match op {
        op::CONSTANT | op::VARIABLE | op::READ => 1,
        op::ADD..=op::BYTE_OR | op::EQUAL..=op::AT_LEAST => children[0].max(1 + children[1]),
        op::CALL | op::PERFORM => {
            let arguments = children.iter().enumerate().map(|(i, height)| i + height).max().unwrap_or(0);
            arguments.max(usize::from(op == op::CALL))
        }
        _ => children.iter().copied().max().unwrap_or(0),
    }
}
