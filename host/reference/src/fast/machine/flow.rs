//! Rules 13 and 14 of a function's statements, and the types of its variables, in one pass over its records.

use super::code::{Code, Part};

/// What a statement does to a set of variables with values, what it needs of it, and whether it returns.
#[derive(Clone, Copy)]
pub struct Flow {
    pub adds: u64,
    pub keeps: u64,
    pub needs: u64,
    /// The variables that it declares.
    pub declares: u64,
    pub returns: bool,
}

/// Leaves what it found.
pub const STILL: Flow = Flow { adds: 0, keeps: u64::MAX, needs: 0, declares: 0, returns: false };

impl Flow {
    /// This and then the other; both stand in an accepted file, so no read is without hope.
    #[inline]
    fn then(self, next: Flow) -> Flow {
        Flow {
            adds: next.adds | (self.adds & next.keeps),
            keeps: self.keeps & next.keeps,
            needs: self.needs | (next.needs & !self.adds),
            declares: self.declares | next.declares,
            returns: self.returns | next.returns,
        }
    }

    /// This or the other.
    #[inline]
    fn or(self, other: Flow) -> Flow {
        Flow {
            adds: self.adds & other.adds,
            keeps: (self.keeps | self.adds) & (other.keeps | other.adds),
            needs: self.needs | other.needs,
            declares: self.declares | other.declares,
            returns: self.returns & other.returns,
        }
    }

    /// The set left where this one was found; none if a read finds no value.
    #[inline]
    pub fn through(self, found: u64) -> Option<u64> {
        (self.needs & !found == 0).then_some(self.adds | (found & self.keeps))
    }
}

/// The tables of one function.
pub struct Tables<'a> {
    pub part: Part<'a>,
    pub types: [u8; 64],
    flows: Vec<Flow>,
}

impl<'a> Tables<'a> {
    /// One pass over the function's records.
    pub fn new(code: &Code<'a>, function: usize) -> Tables<'a> {
        let part = code.part(function);
        let mut types = [0; 64];
        for (i, slot) in types.iter_mut().enumerate().take(code.params(function)) {
            *slot = code.param(function, i);
        }
        let mut tables = Tables { part, types, flows: Vec::with_capacity(part.nodes.len()) };
        for node in 0..part.nodes.len() {
            let flow = tables.node(node);
            tables.flows.push(flow);
        }
        tables
    }

    /// The flow of a node over those before it.
    #[inline]
    fn node(&mut self, node: usize) -> Flow {
        let part = self.part;
        match part.kind(node) {
            0 | 1 | 6 | 15 => STILL,
            2 => Flow { needs: 1 << part.b(node), ..STILL },
            3 | 4 | 7 => self.flows[part.before(node - 1)].then(self.flows[node - 1]),
            5 => {
                let mut argument = node;
                (0..part.a(node)).fold(STILL, |all, i| {
                    argument = if i == 0 { node - 1 } else { part.before(argument) };
                    all.then(self.flows[argument])
                })
            }
            8 => {
                let one = 1 << part.b(node);
                Flow { adds: one, ..self.flows[node - 1] }
            }
            9 => {
                let (one, below) = (1u64 << part.b(node), self.flows[node - 1]);
                self.types[part.b(node) as usize] = part.a(node);
                let (adds, keeps) = (below.adds & !one, below.keeps & !one);
                Flow { adds, keeps, declares: below.declares | one, ..below }
            }
            10 => {
                let first = part.before(node - 1);
                let branches = self.flows[first].or(self.flows[node - 1]);
                self.flows[part.before(first)].then(branches)
            }
            11 => {
                let (condition, body) = self.turn(node);
                let needs = condition.needs | body.needs;
                let declares = body.declares;
                Flow { adds: 0, keeps: !declares, needs, declares, returns: false }
            }
            12 => Flow { adds: u64::MAX, returns: true, ..self.flows[node - 1] },
            _ => self.flows[node - 1],
        }
    }

    /// The flows of a while's condition and body.
    #[inline]
    fn turn(&self, node: usize) -> (Flow, Flow) {
        (self.flows[self.part.before(node - 1)], self.flows[node - 1])
    }

    /// The reads of an expression of a type; none if there is no such expression.
    #[inline]
    pub fn expr(&self, code: &Code, node: u32, ty: u8) -> Option<u64> {
        let at = node as usize;
        (self.type_of(code, node)? == ty).then(|| self.flows[at].needs)
    }

    /// The type of an expression; none if there is none at the node.
    #[inline]
    pub fn type_of(&self, code: &Code, node: u32) -> Option<u8> {
        let record = self.part.nodes.get(node as usize)?;
        let at = node as usize;
        match record[2] {
            0 => Some(1),
            1 | 4 => Some(2),
            2 => Some(self.types[self.part.b(at) as usize]),
            3 => Some(1 + u8::from(record[3] >= 10)),
            5 => Some(code.result(self.part.b(at) as usize)),
            15 => Some(0),
            _ => None,
        }
    }

    /// The flow of a statement's reference; none if it stands for none.
    #[inline]
    pub fn stmt(&self, reference: u32) -> Option<Flow> {
        let Some(number) = reference.checked_sub(1) else { return Some(STILL) };
        let node = (number / 3) as usize;
        let kind = self.part.nodes.get(node)?[2];
        match (number % 3, kind) {
            (0, 7..=14) => Some(self.flows[node]),
            (1 | 2, 11) => {
                let (condition, body) = self.turn(node);
                let seq = body.then(self.flows[node]);
                Some(if number % 3 == 2 { seq } else { condition.then(seq.or(STILL)) })
            }
            _ => None,
        }
    }
}
