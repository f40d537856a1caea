//! What can be wrong with a script.

use std::fmt;

/// What is wrong with a line.
#[derive(Clone, Copy, Debug, PartialEq)]
pub enum Fault {
    Size,
    Long,
    Word,
    Seed,
    Number,
    Peer,
    Hex,
    Order,
    Extra,
    Opening(u8),
    Differs,
    Read,
    Write,
}

impl Fault {
    /// The fault of the line of that number.
    pub fn at(self, line: u32) -> ScriptFault {
        ScriptFault { line, fault: self }
    }
}

/// The fault that ends a script, and its line.
#[derive(Debug, PartialEq)]
pub struct ScriptFault {
    line: u32,
    fault: Fault,
}

impl fmt::Display for ScriptFault {
    fn fmt(&self, f: &mut fmt::Formatter<'_>) -> fmt::Result {
        let name = match self.fault {
            Fault::Size => "size",
            Fault::Long => "long",
            Fault::Word => "word",
            Fault::Seed => "seed",
            Fault::Number => "number",
            Fault::Peer => "peer",
            Fault::Hex => "hex",
            Fault::Order => "order",
            Fault::Extra => "extra",
            Fault::Opening(number) => return write!(f, "line {}: opening {number}", self.line),
            Fault::Differs => "differs",
            Fault::Read => "read",
            Fault::Write => "write",
        };
        write!(f, "line {}: {name}", self.line)
    }
}
