//! Prepares, checks and runs definitions through the library: the same as pipeline.c, from Rust.
//!
//!     pipeline [-p | -m] [-d]      reads one definition from standard input and says what becomes of it, and of the tuple 1,2,3,4
//!     pipeline [-p | -m] [-d] -x   the same for each line of standard input, which holds a definition in hexadecimal digits
//!
//! With -p the definition is read in PROJ's reading. With -m the first record is then marked as of the crate's: a mixture, which is
//! refused. With -d it is prepared in the documented mode. A number that is none is underlined in its step, and a step that the check
//! names in the normalised definition (not with -x).
//!
//! examples/run builds it. `mod sakondreno` is what a Rust program needs of the library: the records and the calls, each in
//! a safe wrapper. The calls keep no reference, write only to what they are lent, and end on every input.

mod sakondreno {
    /// The readings of a definition, by their numbers in a record.
    #[derive(Clone, Copy, PartialEq)]
    pub enum Reading {
        Crate = 0,
        Proj = 1,
    }

    /// The modes of preparing, by their numbers: what `adapt` steps do.
    #[derive(Clone, Copy, PartialEq)]
    pub enum Mode {
        Crate = 0,
        Documented = 1,
    }

    /// Where a step's text stands in the normalised definition: its first byte, and how many there are.
    #[repr(C)]
    #[derive(Clone, Copy, Default)]
    pub struct Span {
        pub from: u32,
        pub length: u32,
    }

    #[repr(C)]
    #[derive(Clone, Copy, Default)]
    pub struct Step {
        pub operator: u8,
        pub n: u8,
        pub inv: u8,
        pub omit_fwd: u8,
        pub omit_inv: u8,
        pub reading: u8,
        pub args: [i32; 8],
        pub span: Span,
    }

    #[repr(C)]
    struct Answer {
        number: u8,
        place: usize,
        length: usize,
        offset: usize,
    }

    #[repr(C)]
    #[derive(Clone, Copy)]
    pub struct Place {
        pub axis: u8,
        pub minus: bool,
    }

    #[repr(C)]
    pub struct Said {
        pub number: u8,
        pub place: usize,
    }

    #[repr(C)]
    pub struct Checked {
        pub said: Said,
        pub span: Span,
        pub run: usize,
        pub depths: [usize; 64],
        pub deepest: usize,
        pub left: usize,
        pub told: bool,
        pub places: [Place; 4],
    }

    #[repr(C)]
    struct Done {
        number: u8,
        place: usize,
        count: usize,
        left: usize,
    }

    /// A refusal: its number and its place, and the offset of 12, which is 0 of any other.
    pub struct Refused {
        pub number: u8,
        pub place: usize,
        pub offset: usize,
    }

    unsafe extern "C" {
        fn sakondreno_definition(text: *const u8, length: usize, out: *mut u8, room: usize) -> Answer;
        fn sakondreno_split(text: *const u8, length: usize, out: *mut u8, room: usize) -> Answer;
        fn sakondreno_prepare(text: *const u8, length: usize, table: *mut Step, room: usize) -> Answer;
        fn sakondreno_prepare_as(text: *const u8, length: usize, reading: u8, mode: u8, table: *mut Step, room: usize) -> Answer;
        fn sakondreno_check(table: *const Step, steps: usize, inverse: u8) -> Checked;
        fn sakondreno_run(table: *const Step, steps: usize, inverse: u8, tuples: *mut f64, numbers: usize, store: *mut f64, room: usize) -> Done;
    }

    /// The first of a row that was lent, or the refusal, as the answer has it.
    fn answered<T>(a: Answer, mut row: Vec<T>) -> Result<Vec<T>, Refused> {
        if a.number != 0 {
            return Err(Refused { number: a.number, place: a.place, offset: a.offset });
        }
        row.truncate(a.length);
        Ok(row)
    }

    /// A definition without its comments, in its normal form: the text in which spans are counted.
    pub fn definition(text: &[u8]) -> Result<Vec<u8>, Refused> {
        let mut out = vec![0; 65536];
        let a = unsafe { sakondreno_definition(text.as_ptr(), text.len(), out.as_mut_ptr(), out.len()) };
        answered(a, out)
    }

    /// The steps of a definition, each with a newline after it.
    pub fn split(text: &[u8]) -> Result<Vec<u8>, Refused> {
        let mut out = vec![0; 65536];
        let a = unsafe { sakondreno_split(text.as_ptr(), text.len(), out.as_mut_ptr(), out.len()) };
        answered(a, out)
    }

    /// The records of a definition, in the crate's reading and the crate's mode.
    pub fn prepare(text: &[u8]) -> Result<Vec<Step>, Refused> {
        let mut table = vec![Step::default(); 64];
        let a = unsafe { sakondreno_prepare(text.as_ptr(), text.len(), table.as_mut_ptr(), table.len()) };
        answered(a, table)
    }

    /// The records of a definition, in a reading and a mode.
    pub fn prepare_as(text: &[u8], reading: Reading, mode: Mode) -> Result<Vec<Step>, Refused> {
        let mut table = vec![Step::default(); 64];
        let a = unsafe { sakondreno_prepare_as(text.as_ptr(), text.len(), reading as u8, mode as u8, table.as_mut_ptr(), table.len()) };
        answered(a, table)
    }

    /// What a run will do.
    pub fn check(table: &[Step], inverse: bool) -> Checked {
        unsafe { sakondreno_check(table.as_ptr(), table.len(), inverse as u8) }
    }

    /// Runs the steps over tuples, in place: the success count and the columns left.
    pub fn run(table: &[Step], inverse: bool, tuples: &mut [f64], store: &mut [f64]) -> Result<(usize, usize), Refused> {
        let d = unsafe { sakondreno_run(table.as_ptr(), table.len(), inverse as u8, tuples.as_mut_ptr(), tuples.len(), store.as_mut_ptr(), store.len()) };
        if d.number != 0 {
            return Err(Refused { number: d.number, place: d.place, offset: 0 });
        }
        Ok((d.count, d.left))
    }
}

use sakondreno::{Mode, Reading, Refused, Span, Step, check, definition, run, split};
use std::io::{BufRead, Read, Write};

/// The normalised definition, and a line under a step of it: an editor's underline.
fn underline_step(out: &mut impl Write, text: &[u8], span: Span) -> std::io::Result<()> {
    let Ok(form) = definition(text) else { return Ok(()) };
    out.write_all(&form)?;
    writeln!(out, "\n{}{}", " ".repeat(span.from as usize), "^".repeat(span.length as usize))
}

/// What the check says; the span of a step that it names.
fn say_check(out: &mut impl Write, direction: &str, table: &[Step], inverse: bool) -> std::io::Result<Span> {
    let c = check(table, inverse);
    write!(out, "{direction}: ")?;
    match c.said.number {
        0 => {
            write!(out, "deepest {} left {}", c.deepest, c.left)?;
            if c.told {
                let places: Vec<String> = c.places.iter().map(|p| format!("{}{}", if p.minus { "-" } else { "" }, p.axis)).collect();
                write!(out, " places {}", places.join(","))?;
            }
            writeln!(out)?
        }
        18 => writeln!(out, "refused 18 {}", c.said.place)?,
        n => {
            let what = if n == 1 { "few" } else { "many" };
            writeln!(out, "step {} too {what} at {}+{}", c.said.place, c.span.from, c.span.length)?
        }
    }
    Ok(c.span)
}

fn say_run(out: &mut impl Write, direction: &str, table: &[Step], inverse: bool) -> std::io::Result<()> {
    let (mut tuple, mut store) = ([1.0, 2.0, 3.0, 4.0], [0.0; 64]);
    match run(table, inverse, &mut tuple, &mut store) {
        Err(r) => writeln!(out, "{direction}: refused {} {}", r.number, r.place),
        Ok((count, left)) => {
            let numbers: Vec<String> = tuple.iter().map(|x| x.to_string()).collect();
            writeln!(out, "{direction}: {} count {count} left {left}", numbers.join(","))
        }
    }
}

/// The text of the step that is refused, and a mark under the byte at the offset. Splitting gives the steps, a line each. A step is
/// normalised again when it is cut into parameters, so its line is split once more.
fn underline(out: &mut impl Write, text: &[u8], r: &Refused) -> std::io::Result<()> {
    let Ok(lines) = split(text) else { return Ok(()) };
    let Some(line) = lines.split(|b| *b == b'\n').nth(r.place - 1) else { return Ok(()) };
    let Ok(cut) = split(line) else { return Ok(()) };
    let label = format!("step {}: ", r.place);
    write!(out, "{label}")?;
    out.write_all(&cut)?;
    writeln!(out, "{}^", " ".repeat(label.len() + r.offset))
}

/// How a definition is prepared.
#[derive(Clone, Copy)]
struct Way {
    reading: Reading,
    mode: Mode,
    mixed: bool,
}

fn prepare(text: &[u8], way: Way) -> Result<Vec<Step>, Refused> {
    if way.reading == Reading::Crate && way.mode == Mode::Crate {
        return sakondreno::prepare(text);
    }
    sakondreno::prepare_as(text, way.reading, way.mode)
}

fn say(out: &mut impl Write, text: &[u8], way: Way, underlined: bool) -> std::io::Result<()> {
    let mut table = match prepare(text, way) {
        Err(r) if r.number == 12 => {
            writeln!(out, "refused 12 {} {}", r.place, r.offset)?;
            return if underlined { underline(out, text, &r) } else { Ok(()) };
        }
        Err(r) => return writeln!(out, "refused {} {}", r.number, r.place),
        Ok(table) => table,
    };
    if way.mixed && !table.is_empty() {
        table[0].reading = Reading::Crate as u8;
    }
    writeln!(out, "steps {}", table.len())?;
    for (direction, inverse) in [("check forward", false), ("check inverse", true)] {
        let span = say_check(out, direction, &table, inverse)?;
        if underlined && span.length > 0 {
            underline_step(out, text, span)?;
        }
    }
    say_run(out, "run forward", &table, false)?;
    say_run(out, "run inverse", &table, true)
}

fn main() -> std::io::Result<()> {
    let mut out = std::io::BufWriter::new(std::io::stdout().lock());
    let given = |option: &str| std::env::args().skip(1).any(|a| a == option);
    let mixed = given("-m");
    let way = Way {
        reading: if mixed || given("-p") { Reading::Proj } else { Reading::Crate },
        mode: if given("-d") { Mode::Documented } else { Mode::Crate },
        mixed,
    };
    if !given("-x") {
        let mut text = Vec::new();
        std::io::stdin().read_to_end(&mut text)?;
        return say(&mut out, &text, way, true);
    }
    for line in std::io::stdin().lock().lines() {
        let line = line?;
        let text: Vec<u8> = line.as_bytes().chunks_exact(2).map(|d| u8::from_str_radix(std::str::from_utf8(d).unwrap(), 16).unwrap()).collect();
        say(&mut out, &text, way, false)?;
    }
    Ok(())
}
