//! A procedure file as records whose every field can be set.

/// The header's fields.
#[derive(Clone)]
pub struct Header {
    pub mark: [u8; 2],
    pub functions: u16,
    pub nodes: u32,
    pub edition: u8,
    pub zeros: [u8; 3],
}

/// A function record's fields.
#[derive(Clone)]
pub struct FunctionRecord {
    pub mark: [u8; 2],
    pub result: u8,
    pub params: u8,
    pub vars: u8,
    pub mask: u8,
    pub zeros: [u8; 2],
    pub count: u32,
}

/// A node record's fields.
#[derive(Clone)]
pub struct NodeRecord {
    pub mark: [u8; 2],
    pub kind: u8,
    pub a: u8,
    pub b: u32,
    pub size: u32,
}

impl NodeRecord {
    /// A node with the right mark.
    pub fn new(kind: u8, a: u8, b: u32, size: u32) -> NodeRecord {
        NodeRecord { mark: *b"ND", kind, a, b, size }
    }
}

/// A file's records, right or not.
#[derive(Clone)]
pub struct File {
    pub header: Header,
    pub functions: Vec<FunctionRecord>,
    pub nodes: Vec<NodeRecord>,
}

impl File {
    /// The file's bytes.
    pub fn bytes(&self) -> Vec<u8> {
        let mut out = Vec::with_capacity(12 * (1 + self.functions.len() + self.nodes.len()));
        out.extend(self.header.mark);
        out.extend(self.header.functions.to_le_bytes());
        out.extend(self.header.nodes.to_le_bytes());
        out.push(self.header.edition);
        out.extend(self.header.zeros);
        for f in &self.functions {
            out.extend(f.mark);
            out.extend([f.result, f.params, f.vars, f.mask]);
            out.extend(f.zeros);
            out.extend(f.count.to_le_bytes());
        }
        for n in &self.nodes {
            out.extend(n.mark);
            out.extend([n.kind, n.a]);
            out.extend(n.b.to_le_bytes());
            out.extend(n.size.to_le_bytes());
        }
        out
    }

    /// The file after a change, for writing a spoilt file in one expression.
    pub fn with(mut self, change: impl FnOnce(&mut File)) -> File {
        change(&mut self);
        self
    }

    /// The first node of a function's part.
    pub fn first_node(&self, function: usize) -> usize {
        self.functions[..function].iter().map(|f| f.count as usize).sum()
    }

    /// The function that owns a node, and the number of functions if none does.
    pub fn owner(&self, node: usize) -> usize {
        let mut end = 0;
        let owner = self.functions.iter().position(|f| {
            end += f.count as usize;
            node < end
        });
        owner.unwrap_or(self.functions.len())
    }
}
