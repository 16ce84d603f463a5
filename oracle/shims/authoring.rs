//! Stands for what the crate's files ask for by `use crate::authoring::*` and the sources at hand do not hold. It is the
//! smallest that works; where a rule of its own decides something, that is said.

use std::ops::{Index, IndexMut};

pub use crate::inner_op::{InnerOp, OpConstructor};
pub use crate::op::{Op, OpDescriptor, OpParameter, ParsedParameters, RawParameters};
pub use crate::token::Tokenize;
pub use Direction::{Fwd, Inv};
pub use std::collections::BTreeMap;

/// Stands for `warn!` of the crate `log`: nothing is logged.
macro_rules! unlogged {
    ($($said:tt)*) => {};
}
pub(crate) use unlogged as warn;

/// Stands for `Error` of `lib.rs`: the cases that the files make, and one of the shims' own. Nothing reads the words: only
/// accepted or refused is compared.
#[derive(Debug)]
#[allow(dead_code)]
pub enum Error {
    Unsupported(String),
    Operator(&'static str, &'static str),
    NotFound(String, String),
    Recursion(String, String),
    NonInvertible(String),
    MissingParam(String),
    BadParam(String, String),
    /// A shim's own rule refuses, with this number of document 01.
    Shim(u8),
}

/// The flags that every operator takes.
pub const MARKS: [&str; 3] = ["inv", "omit_fwd", "omit_inv"];

/// Stands for `Direction` of `lib.rs`.
#[derive(Debug, PartialEq, Eq)]
pub enum Direction {
    Fwd,
    Inv,
}

/// Stands for `coordinate::coor4d::Coor4D`: four numbers, all 0 by default.
#[derive(Clone, Copy, Default)]
pub struct Coor4D(pub [f64; 4]);

impl Index<usize> for Coor4D {
    type Output = f64;
    fn index(&self, i: usize) -> &f64 {
        &self.0[i]
    }
}

impl IndexMut<usize> for Coor4D {
    fn index_mut(&mut self, i: usize) -> &mut f64 {
        &mut self.0[i]
    }
}

/// Stands for `coordinate::set::CoordinateSet`.
pub trait CoordinateSet {
    fn len(&self) -> usize;
    fn get_coord(&self, i: usize) -> Coor4D;
    fn set_coord(&mut self, i: usize, value: &Coor4D);
    fn stomp(&mut self);
}

/// A plain list of tuples that keeps count of what is done to it.
#[derive(Default)]
pub struct Tuples {
    pub list: Vec<Coor4D>,
    /// How often `stomp` was called.
    pub stomps: usize,
    /// The first number of each tuple set, one after the other.
    pub firsts: Vec<f64>,
}

impl CoordinateSet for Tuples {
    fn len(&self) -> usize {
        self.list.len()
    }
    fn get_coord(&self, i: usize) -> Coor4D {
        self.list[i]
    }
    fn set_coord(&mut self, i: usize, value: &Coor4D) {
        self.list[i] = *value;
        self.firsts.push(value[0]);
    }
    /// A rule of the shim's own, document 01's: every number becomes NaN. Answers that rest on it are marked.
    fn stomp(&mut self) {
        self.list.fill(Coor4D([f64::NAN; 4]));
        self.stomps += 1;
    }
}

/// Stands for `context::Context`.
pub trait Context {
    fn globals(&self) -> BTreeMap<String, String>;
    fn get_op(&self, name: &str) -> Result<OpConstructor, Error>;
    fn get_resource(&self, name: &str) -> Result<String, Error>;
}

/// A context that knows nothing: no globals, no operators of a user's, no macros.
pub struct Nothing;

impl Context for Nothing {
    fn globals(&self) -> BTreeMap<String, String> {
        BTreeMap::new()
    }
    fn get_op(&self, _name: &str) -> Result<OpConstructor, Error> {
        Err(Error::Shim(10))
    }
    fn get_resource(&self, _name: &str) -> Result<String, Error> {
        Err(Error::Shim(10))
    }
}
