//! Stands for `op/op_descriptor.rs`: the functions that run an operator, and whether it is turned round.

use crate::authoring::*;

#[derive(Debug)]
pub struct OpDescriptor {
    pub instantiated_as: String,
    pub fwd: InnerOp,
    pub inv: Option<InnerOp>,
    pub inverted: bool,
}

impl OpDescriptor {
    pub fn new(definition: &str, fwd: InnerOp, inv: Option<InnerOp>) -> OpDescriptor {
        OpDescriptor {
            instantiated_as: definition.to_string(),
            fwd,
            inv,
            inverted: false,
        }
    }
}
