//! Preparing, checking and running, by the crate's own operators and pipeline.
//!
//! Preparing goes as document 01 says: the text is split, and each step is cut into parameters and handed to its
//! operator. Checking and running go as the crate does: `Op::new` on the whole text.

use std::cell::RefCell;

use crate::authoring::*;
use crate::inner_op::{builtin, gamut};
use crate::turns_for_ever;

/// Why there is no answer.
pub enum No {
    /// The Rust returns its error.
    Err,
    /// A shim's own rule refuses, with this number of document 01.
    Shim(u8),
    /// The Rust never returns.
    Hang,
    /// Document 01 does not ask the Rust: no separator, and not a lone `axisswap` or `adapt` without omit marks.
    Lone,
}

impl From<Error> for No {
    fn from(error: Error) -> No {
        match error {
            Error::Shim(number) => No::Shim(number),
            // Made by `Op::op` where the shim `builtin` knows no such name
            Error::NotFound(..) => No::Shim(10),
            _ => No::Err,
        }
    }
}

impl No {
    pub fn word(&self) -> String {
        match self {
            No::Err => "err".to_string(),
            No::Shim(number) => format!("shim:{number}"),
            No::Hang => "hang".to_string(),
            No::Lone => "lone".to_string(),
        }
    }
}

// ----- preparing -----------------------------------------------------------------------------------------------------

/// `COUNT` and for each step `LENGTH/KEYS/MOST/SPAN/VERDICT`: the length of its text, how many distinct keys it has, the most
/// elements of a series in it, where it stands, and its RECORD or why there is none. All steps are judged, not only the first
/// faulty one.
pub fn prepare(text: &str) -> Result<String, No> {
    if splitting_hangs(text) {
        return Err(No::Hang);
    }
    let (steps, spans) = (text.split_into_steps(), spans(text));
    assert_eq!(steps.len(), spans.len(), "steps and spans");
    let judged: Vec<String> = steps.iter().zip(spans).map(|(step, span)| judged(step, &span)).collect();
    Ok(std::iter::once(steps.len().to_string())
        .chain(judged)
        .collect::<Vec<_>>()
        .join(" "))
}

/// Whether `split_into_steps` never returns: the pieces that it hands to `handle_prefix_modifiers`, by its own first three
/// calls. Those it drops before have no words.
pub fn splitting_hangs(text: &str) -> bool {
    text.remove_comments()
        .normalize()
        .split('|')
        .any(turns_for_ever)
}

/// `FROM+LENGTH` of each step in the text that `split_into_steps` cuts, white space at both ends aside: the crate turns leading
/// modifiers after that, and tells no such thing.
fn spans(text: &str) -> Vec<String> {
    let normalised = text.remove_comments().normalize();
    let start = normalised.as_ptr() as usize;
    let span = |step: &str| format!("{}+{}", step.as_ptr() as usize - start, step.len());
    let steps = normalised.split('|').map(str::trim);
    steps.filter(|step| !step.is_empty()).map(span).collect()
}

fn judged(step: &str, span: &str) -> String {
    if turns_for_ever(&step.normalize()) {
        return format!("{}/0/0/{span}/hang", step.len());
    }
    let given = step.split_into_parameters();
    let name = given.get("_name").map_or("", String::as_str);
    let elements = |one: &OpParameter| match one {
        OpParameter::Series { key, .. } => {
            given.get(*key).map_or(0, |value| value.split(',').count())
        }
        _ => 0,
    };
    let most = gamut(name).iter().map(elements).max().unwrap_or(0);
    let verdict = made(step, name).map_or_else(|no| no.word(), |op| record(&op));
    format!("{}/{}/{most}/{span}/{verdict}", step.len(), given.len())
}

/// The step by its operator's own constructor. A step named `pipeline` is document 01's 10.
fn made(step: &str, name: &str) -> Result<Op, No> {
    if name == "pipeline" {
        return Err(No::Shim(10));
    }
    let parameters = RawParameters {
        instantiated_as: step.to_string(),
        ..RawParameters::default()
    };
    Ok(builtin(name)?.0(&parameters, &Nothing)?)
}

/// A RECORD, from what the operator's constructor left in the parameters.
fn record(op: &Op) -> String {
    let params = &op.params;
    let letters = ["i", "f", "o"];
    let marks: String = MARKS
        .iter()
        .zip(letters)
        .filter(|(mark, _)| params.given.contains_key(**mark))
        .map(|(_, letter)| letter)
        .collect();
    let (name, args) = match params.name.as_str() {
        "stack" => {
            let action = &params.text["action"];
            let args = params.series_as_i64(action).unwrap_or_default();
            (format!("stack.{action}"), joined(&args))
        }
        "axisswap" => (
            "axisswap".to_string(),
            joined(&params.series_as_i64("order").unwrap()),
        ),
        "adapt" => ("adapt".to_string(), adaption(params)),
        name => (name.to_string(), joined(&flags(params))),
    };
    format!("{name}:{}:{}", dash(marks), dash(args))
}

fn flags(params: &ParsedParameters) -> Vec<usize> {
    (1..=4)
        .filter(|axis| params.boolean(&format!("v_{axis}")))
        .collect()
}

fn adaption(params: &ParsedParameters) -> String {
    if params.boolean("noop") {
        return "noop".to_string();
    }
    let post = params.series_as_usize("post").unwrap();
    let places: Vec<usize> = post.iter().map(|place| place + 1).collect();
    format!(
        "{},{}",
        joined(&places),
        shown(params.series("mult").unwrap())
    )
}

fn joined<T: ToString>(numbers: &[T]) -> String {
    numbers
        .iter()
        .map(T::to_string)
        .collect::<Vec<_>>()
        .join(",")
}

/// A field; `-` where it is empty.
fn dash(field: String) -> String {
    match field.is_empty() {
        true => "-".to_string(),
        false => field,
    }
}

/// NUMBERS, without the dash for none.
fn shown(numbers: &[f64]) -> String {
    let one = |number: &f64| match number.is_nan() {
        true => "nan".to_string(),
        false => format!("{:016x}", number.to_bits()),
    };
    numbers.iter().map(one).collect::<Vec<_>>().join(",")
}

// ----- the operator of a whole text ----------------------------------------------------------------------------------

/// `Op::new`, if it comes to an end and document 01 asks the Rust.
fn op_of(text: &str, foresee: bool) -> Result<Op, No> {
    if foresee {
        ends(text)?;
    }
    match is_lone(text) {
        true => Err(No::Lone),
        false => Ok(Op::new(text, &Nothing)?),
    }
}

/// No separator outside comments, and not an `axisswap` or `adapt` without omit marks.
fn is_lone(text: &str) -> bool {
    let step = text.remove_comments().normalize().handle_prefix_modifiers();
    let given = step.split_into_parameters();
    let axes = given
        .get("_name")
        .is_some_and(|name| name == "axisswap" || name == "adapt");
    !step.is_pipeline()
        && (!axes || given.contains_key("omit_fwd") || given.contains_key("omit_inv"))
}

/// Whether `Op::new` comes to an end, found by going the way it goes, in its own calls. Beside steps of modifiers alone
/// it is the name of a step that can keep it: `pipeline` makes a pipeline of that step for ever, and a name that is a
/// modifier once it is normalised is turned for ever when `Op::op` looks for a colon in it.
fn ends(text: &str) -> Result<(), No> {
    let turned = |text: String| match turns_for_ever(&text) {
        true => Err(No::Hang),
        false => Ok(text.handle_prefix_modifiers()),
    };
    let text = turned(text.remove_comments().normalize())?;
    let text = turned(text.remove_comments().normalize())?;
    if !text.is_pipeline() {
        return name_ends(&text);
    }
    if splitting_hangs(&text) {
        return Err(No::Hang);
    }
    for step in text.split_into_steps() {
        name_ends(&turned(step.remove_comments().normalize())?)?;
        Op::new(&step, &Nothing)?; // a refused step comes before those behind it
    }
    Ok(())
}

fn name_ends(step: &str) -> Result<(), No> {
    if turns_for_ever(&step.normalize()) {
        return Err(No::Hang);
    }
    let name = step.operator_name();
    match name == "pipeline" || turns_for_ever(&name.normalize()) {
        true => Err(No::Hang),
        false => Ok(()),
    }
}

// ----- running -------------------------------------------------------------------------------------------------------

const FORWARD: &str = "fwd";
/// The step that takes a column off where steps run backward.
const BACKWARD: &str = "stack push=1";

/// Runs the operator over a copy of the tuples. The first is the count.
fn applied(op: &Op, direction: &str, list: &[Coor4D]) -> (usize, Tuples) {
    let mut tuples = Tuples {
        list: list.to_vec(),
        ..Tuples::default()
    };
    let way = if direction == FORWARD { Fwd } else { Inv };
    let count = op.apply(&Nothing, &mut tuples, way);
    (count, tuples)
}

/// A pipeline in a direction, with steps behind its last that take its columns off one by one, into the first number.
/// The Rust keeps its columns to itself; so they are read by what these further steps find.
struct Watched<'a> {
    op: Op,
    direction: &'a str,
    omit: &'static str,
    /// The places in `op.steps` of the steps that run, in running order, and of the steps that take columns off.
    running: Vec<usize>,
    takers: Vec<usize>,
}

impl Watched<'_> {
    fn new(mut op: Op, direction: &str) -> Watched<'_> {
        let steps = op.steps.take().unwrap_or_default();
        let many: usize = steps.iter().map(columns_made).sum();
        let taker = if direction == FORWARD {
            "stack pop=1"
        } else {
            BACKWARD
        };
        let takers = takers_of(taker, many + 1);
        let omit = if direction == FORWARD {
            "omit_fwd"
        } else {
            "omit_inv"
        };
        let runs = |step: &Op| !step.params.boolean(omit);
        let mut running: Vec<usize> = (0..steps.len()).filter(|i| runs(&steps[*i])).collect();
        let ours = steps.len()..steps.len() + many + 1;
        // Inverse, the first step runs last: those that take columns off stand before all others.
        let (all, ours): (Vec<Op>, Vec<usize>) = match direction {
            FORWARD => (steps.into_iter().chain(takers).collect(), ours.collect()),
            _ => (takers.into_iter().chain(steps).collect(), (0..many + 1).collect()),
        };
        if direction != FORWARD {
            running = running.into_iter().rev().map(|i| i + many + 1).collect();
        }
        op.steps = Some(all);
        Watched {
            op,
            direction,
            omit,
            running,
            takers: ours,
        }
    }

    /// Lets the first `many` steps in running order run, and the takers or not; runs; and lets all run again.
    fn ran(&mut self, many: usize, taking: bool, list: &[Coor4D]) -> (usize, Tuples) {
        let mut off = self.running[many..].to_vec();
        if !taking {
            off.extend(&self.takers);
        }
        for i in &off {
            self.op.steps.as_mut().unwrap()[*i]
                .params
                .boolean
                .insert(self.omit);
        }
        let ran = applied(&self.op, self.direction, list);
        for i in &off {
            self.op.steps.as_mut().unwrap()[*i]
                .params
                .boolean
                .remove(self.omit);
        }
        ran
    }

    /// The columns left by the first `many` steps, top first: each successful taker sets the first number of every tuple,
    /// and every other one stomps.
    fn columns(&mut self, many: usize, list: &[Coor4D]) -> (usize, Vec<f64>) {
        let (_, without) = self.ran(many, false, list);
        let (_, with) = self.ran(many, true, list);
        let left = self.takers.len() - (with.stomps - without.stomps);
        (left, with.firsts[without.firsts.len()..].to_vec())
    }

    /// The place of a running step in the step table, from 1.
    fn place(&self, step: usize) -> usize {
        match self.direction {
            FORWARD => self.running[step] + 1,
            _ => self.running[step] + 1 - self.takers.len(),
        }
    }
}

thread_local! {
    /// Steps that take columns off, each way, for whoever asks next: making them is what costs.
    static TAKERS: RefCell<[Vec<Op>; 2]> = const { RefCell::new([Vec::new(), Vec::new()]) };
}

fn takers_of(taker: &str, many: usize) -> Vec<Op> {
    TAKERS.with_borrow_mut(|all| {
        let kept = &mut all[usize::from(taker == BACKWARD)];
        while kept.len() < many {
            kept.push(Op::new(taker, &Nothing).ok().unwrap());
        }
        kept.split_off(kept.len() - many)
    })
}

impl Drop for Watched<'_> {
    fn drop(&mut self) {
        let mut steps = self.op.steps.take().unwrap_or_default();
        let ours = self.takers[0]..self.takers[0] + self.takers.len();
        let way = usize::from(self.direction != FORWARD);
        TAKERS.with_borrow_mut(|all| all[way].extend(steps.drain(ours)));
    }
}

/// At least as many columns as the step can make.
fn columns_made(step: &Op) -> usize {
    let series = step.params.series.values().map(Vec::len).sum::<usize>();
    series + flags(&step.params).len()
}

const ONE_TUPLE: [Coor4D; 1] = [Coor4D([1., 2., 3., 4.])];

/// `COUNT LEFT NUMBERS COLUMNS DEPTHS`, and `stomp` behind it where the numbers rest on that shim. COLUMNS are those left,
/// bottom first; DEPTHS has `PLACE:DEPTH` for each step run.
pub fn run(direction: &str, text: &str, numbers: &[f64], foresee: bool) -> Result<String, No> {
    let op = op_of(text, foresee)?;
    let list: Vec<Coor4D> = numbers
        .chunks_exact(4)
        .map(|four| Coor4D(four.try_into().unwrap()))
        .collect();
    let (count, after) = applied(&op, direction, &list);
    let mut depths = Vec::new();
    let mut left = (0, Vec::new());
    if op.steps.is_some() {
        let mut watched = Watched::new(op, direction);
        let many = watched.running.len();
        for step in 0..many {
            let (depth, _) = watched.columns(step + 1, &[]);
            depths.push(format!("{}:{depth}", watched.place(step)));
        }
        left = watched.columns(many, if numbers.len() > 64 { &[] } else { &list });
    }
    let columns: Vec<f64> = left
        .1
        .chunks(list.len().max(1))
        .rev()
        .flatten()
        .copied()
        .collect();
    let numbers: Vec<f64> = after.list.iter().flat_map(|four| four.0).collect();
    let stomped = if after.stomps > 0 { " stomp" } else { "" };
    let shown_numbers = if numbers.len() > 64 {
        String::new()
    } else {
        shown(&numbers)
    };
    Ok(format!(
        "{count} {} {} {} {}{stomped}",
        left.0,
        dash(shown_numbers),
        dash(shown(&columns)),
        dash(depths.join(","))
    ))
}

// ----- checking ------------------------------------------------------------------------------------------------------

/// What a check should have said, by what the Rust does to the tuple 1,2,3,4, step by step: the first step after which
/// there is a NaN found too few columns; a depth over 64 is too many; and the numbers afterwards are the places.
pub fn check(direction: &str, text: &str, foresee: bool) -> Result<String, No> {
    let op = op_of(text, foresee)?;
    let adapts = |step: &Op| step.params.name == "adapt";
    if op.steps.is_none() {
        let places = applied(&op, direction, &ONE_TUPLE).1;
        let places = if adapts(&op) {
            "-".to_string()
        } else {
            joined(&places.list[0].0)
        };
        return Ok(format!("passes 0 0 {places} 0"));
    }
    let mut watched = Watched::new(op, direction);
    let mut depths = Vec::new();
    for step in 0..watched.running.len() {
        let (_, after) = watched.ran(step + 1, false, &ONE_TUPLE);
        if after.list[0].0.iter().any(|number| number.is_nan()) {
            return Ok(format!("fails {} few", watched.place(step)));
        }
        let (depth, _) = watched.columns(step + 1, &[]);
        if depth > 64 {
            return Ok(format!("fails {} many", watched.place(step)));
        }
        depths.push(depth);
    }
    let (_, after) = watched.ran(watched.running.len(), false, &ONE_TUPLE);
    let steps = watched.op.steps.as_ref().unwrap();
    let adapted = watched.running.iter().any(|i| adapts(&steps[*i]));
    let places = if adapted {
        "-".to_string()
    } else {
        joined(&after.list[0].0)
    };
    Ok(format!(
        "passes {} {} {places} {}",
        depths.iter().max().unwrap_or(&0),
        depths.last().unwrap_or(&0),
        dash(joined(&depths))
    ))
}
