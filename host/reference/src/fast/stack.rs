//! The finished trees of a part and the nodes that fail.

/// The type codes of expressions.
pub const NOTHING: u8 = 0;
pub const INT: u8 = 1;
pub const BOOL: u8 = 2;
/// The codes of statements, one that does not return and one that does.
pub const STATEMENT: u8 = 3;
pub const RETURNS: u8 = 4;

/// No node has failed.
pub const NONE: u32 = u32::MAX;

/// A finished tree.
#[derive(Clone, Copy)]
pub struct Entry {
    /// Its type or statement code.
    pub code: u8,
    /// Its root's number in the part.
    pub node: u32,
    /// Its number of nodes.
    pub size: u32,
    /// The variables it may read before it assigns them.
    pub reads: u64,
    /// The variables it assigns on every way through; a return counts for all.
    pub sets: u64,
}

/// The lowest nodes that fail questions 9, 11 and 12, and whether some node fails 13.
pub struct Faults {
    pub ninth: u32,
    pub eleventh: u32,
    pub twelfth: u32,
    pub thirteenth: bool,
}

impl Faults {
    /// No faults yet.
    pub fn new() -> Faults {
        Faults { ninth: NONE, eleventh: NONE, twelfth: NONE, thirteenth: false }
    }

    /// Questions 9 and 12 of a child that is to be an expression of a type.
    #[inline]
    pub fn wants(&mut self, node: u32, child: &Entry, code: u8) {
        if child.code != code {
            self.mismatch(node, child);
        }
    }

    /// Notes the question that a child of another code fails.
    #[cold]
    fn mismatch(&mut self, node: u32, child: &Entry) {
        if child.code >= STATEMENT {
            self.ninth = self.ninth.min(child.node);
        } else {
            self.twelfth = self.twelfth.min(node);
        }
    }

    /// Question 9 of a child that is to be an expression of any type.
    #[inline]
    pub fn wants_expression(&mut self, child: &Entry) {
        if child.code >= STATEMENT {
            self.ninth = self.ninth.min(child.node);
        }
    }

    /// Question 9 of a child that is to be a statement.
    #[inline]
    pub fn wants_statement(&mut self, child: &Entry) {
        if child.code < STATEMENT {
            self.ninth = self.ninth.min(child.node);
        }
    }
}
