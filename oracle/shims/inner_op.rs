//! Stands for `inner_op/mod.rs`, which names operators that are not at hand: the five, and `pipeline`. That any other
//! name is unknown is a rule of the shim's own, document 01's (10).

use crate::authoring::*;

mod adapt;
mod axisswap;
pub(crate) mod pipeline;
mod pushpop;
mod stack;

const BUILTIN_OPERATORS: [(&str, OpConstructor, &[OpParameter]); 6] = [
    ("adapt", OpConstructor(adapt::new), &adapt::GAMUT),
    ("axisswap", OpConstructor(axisswap::new), &axisswap::GAMUT),
    ("pipeline", OpConstructor(pipeline::new), &pipeline::GAMUT),
    ("pop", OpConstructor(pushpop::pop), &pushpop::PUSH_POP_GAMUT),
    (
        "push",
        OpConstructor(pushpop::push),
        &pushpop::PUSH_POP_GAMUT,
    ),
    ("stack", OpConstructor(stack::new), &stack::STACK_GAMUT),
];

pub(crate) fn builtin(name: &str) -> Result<OpConstructor, Error> {
    let found = BUILTIN_OPERATORS.into_iter().find(|one| one.0 == name);
    found.map(|one| one.1).ok_or(Error::Shim(10))
}

/// The parameters that an operator takes.
pub(crate) fn gamut(name: &str) -> &'static [OpParameter] {
    let found = BUILTIN_OPERATORS.into_iter().find(|one| one.0 == name);
    found.map_or(&[], |one| one.2)
}

/// Makes an operator of a step.
pub struct OpConstructor(pub fn(args: &RawParameters, ctx: &dyn Context) -> Result<Op, Error>);

/// Runs an operator.
pub struct InnerOp(pub fn(op: &Op, ctx: &dyn Context, operands: &mut dyn CoordinateSet) -> usize);

impl std::fmt::Debug for InnerOp {
    fn fmt(&self, f: &mut std::fmt::Formatter<'_>) -> std::fmt::Result {
        f.write_str("InnerOp")
    }
}

/// What `push`, `pop` and `stack` have in place of functions of their own, for the pipeline picks them by name: it does
/// nothing and counts 0.
impl Default for InnerOp {
    fn default() -> InnerOp {
        InnerOp(|_, _, _| 0)
    }
}
