//! The oracle: geodesy 0.15.0, asked by the protocol of the program `answers`.
//!
//! It reads requests from standard input, one a line, and writes one line for each. The Rust that answers is that of the
//! folder given to `oracle/build`, unchanged: `token/mod.rs`, `op/mod.rs`, `op/raw_parameters.rs` and five files of
//! `inner_op`. What those ask for and is not at hand stands in `shims`. README.md says what the answers mean.

use std::io::{self, BufRead, BufReader, BufWriter, Write};
use std::panic::{AssertUnwindSafe, catch_unwind};
use std::sync::atomic::{AtomicBool, Ordering::Relaxed};

mod authoring;
mod inner_op;
#[allow(dead_code)] // the crate's other modules use the rest of these two
mod op;
mod steps;
#[allow(dead_code)]
mod token;

use authoring::Error;
use token::{Tokenize, parse_proj};

/// True exactly where `handle_prefix_modifiers` would never return from `step`. It gives back at once a text with a
/// separator, or without words; any other it turns, word by word, for as long as a modifier stands in front. So it
/// comes to an end exactly if some word is no modifier.
fn turns_for_ever(step: &str) -> bool {
    let modifiers = ["inv", "omit_fwd", "omit_inv"];
    let words: Vec<&str> = step.split_whitespace().collect();
    !step.is_pipeline() && !words.is_empty() && words.iter().all(|word| modifiers.contains(word))
}

/// Answers one request; none where it is no request. `foresee` is off only where `oracle/test` wants to see the Rust never
/// return. The room, or the store, that `answers` is to lend says nothing to the Rust, which makes its own.
fn answer(line: &[u8], foresee: bool) -> Option<String> {
    let line = std::str::from_utf8(line).ok()?;
    let fields: Vec<&str> = line.split(' ').collect();
    match fields[..] {
        [
            call
            @ ("normalise" | "split" | "parameters" | "translate" | "definition" | "prepare"),
            room,
            text,
        ] => {
            natural(room)?;
            on_text(text, |text| told_of_text(call, text, foresee))
        }
        ["check", direction @ ("fwd" | "inv"), text] => {
            on_text(text, |text| told(steps::check(direction, text, foresee)))
        }
        ["run", direction @ ("fwd" | "inv"), store, text, numbers] => {
            natural(store)?;
            let numbers = read_numbers(numbers)?;
            on_text(text, |text| {
                told(steps::run(direction, text, &numbers, foresee))
            })
        }
        ["source", reader, text] => on_text(text, |text| {
            told_of_source(reader, text).map_or("what".to_string(), |parts| {
                let parts: Vec<String> = parts.iter().map(|part| hex(part)).collect();
                format!("ok {}", parts.join(","))
            })
        }),
        _ => None,
    }
}

/// A reader of the source, and what it asks of the Rust's library: the texts that it gives.
fn told_of_source(reader: &str, text: &str) -> Option<Vec<String>> {
    let texts = |parts: &mut dyn Iterator<Item = &str>| parts.map(str::to_string).collect();
    match reader {
        "remove_comments" => Some(vec![text.remove_comments()]),
        "lines" => Some(texts(&mut text.lines())),
        "split" => Some(texts(&mut text.split(" step "))),
        "trim_start_matches" => Some(vec![text.trim_start_matches("step ").to_string()]),
        _ => None,
    }
}

fn told_of_text(call: &str, text: &str, foresee: bool) -> String {
    match call {
        "normalise" => ok(&text.normalize()),
        // What `split_into_steps` cuts
        "definition" => ok(&text.remove_comments().normalize()),
        "split" if foresee && steps::splitting_hangs(text) => "hang".to_string(),
        "split" => {
            let steps = text.split_into_steps();
            ok(&steps
                .iter()
                .map(|step| format!("{step}\n"))
                .collect::<String>())
        }
        // The one text that `split_into_parameters` hands to `handle_prefix_modifiers`
        "parameters" if foresee && turns_for_ever(&text.normalize()) => "hang".to_string(),
        "parameters" => {
            let parameters = text.split_into_parameters();
            let line = |(key, value): (&String, &String)| format!("{key}={value}\n");
            ok(&parameters.iter().map(line).collect::<String>())
        }
        "translate" => parse_proj(text).map_or("err".to_string(), |translated| ok(&translated)),
        _ => told(steps::prepare(text)),
    }
}

fn ok(text: &str) -> String {
    format!("ok {}", hex(text))
}

fn told(answer: Result<String, steps::No>) -> String {
    answer.map_or_else(|no| no.word(), |line| format!("ok {line}"))
}

/// What is told of a TEXT field: lowercase hex, `-` for none.
fn on_text(field: &str, told: impl Fn(&str) -> String) -> Option<String> {
    let bytes = if field == "-" {
        Vec::new()
    } else {
        unhex(field)?
    };
    Some(std::str::from_utf8(&bytes).map_or("not-utf8".to_string(), told))
}

fn natural(field: &str) -> Option<()> {
    (!field.is_empty() && field.bytes().all(|byte| byte.is_ascii_digit())).then_some(())
}

/// A NUMBERS field: `-` for none, `zeros:K`, or bit patterns joined by commas.
fn read_numbers(field: &str) -> Option<Vec<f64>> {
    if field == "-" {
        return Some(Vec::new());
    }
    if let Some(many) = field.strip_prefix("zeros:") {
        natural(many)?;
        return Some(vec![0.0; many.parse().ok()?]);
    }
    let number = |bits: &str| Some(f64::from_be_bytes(unhex(bits)?.try_into().ok()?));
    field.split(',').map(number).collect()
}

fn unhex(field: &str) -> Option<Vec<u8>> {
    if field.is_empty() || field.len() % 2 != 0 {
        return None;
    }
    let digit = |byte: u8| match byte {
        b'0'..=b'9' => Some(byte - b'0'),
        b'a'..=b'f' => Some(byte - b'a' + 10),
        _ => None,
    };
    let pairs = field.as_bytes().chunks_exact(2);
    pairs
        .map(|pair| Some(digit(pair[0])? * 16 + digit(pair[1])?))
        .collect()
}

/// A TEXT field.
fn hex(text: &str) -> String {
    if text.is_empty() {
        return "-".to_string();
    }
    let digit = |nibble: u8| char::from(b"0123456789abcdef"[usize::from(nibble)]);
    text.bytes()
        .flat_map(|byte| [digit(byte >> 4), digit(byte & 15)])
        .collect()
}

/// On while a request is answered: a panic then is an answer, and nothing is printed about it.
static ANSWERING: AtomicBool = AtomicBool::new(false);

fn main() -> io::Result<()> {
    let arguments: Vec<String> = std::env::args().skip(1).collect();
    let foresee = match arguments.iter().map(String::as_str).collect::<Vec<_>>()[..] {
        [] => true,
        ["really"] => false,
        _ => {
            eprintln!("usage: oracle [really] <requests >answers");
            std::process::exit(2);
        }
    };

    let loud = std::panic::take_hook();
    std::panic::set_hook(Box::new(move |panic| {
        if !ANSWERING.load(Relaxed) {
            loud(panic)
        }
    }));

    let mut input = BufReader::with_capacity(1 << 16, io::stdin().lock());
    let mut output = BufWriter::with_capacity(1 << 16, io::stdout().lock());
    let mut line = Vec::new();
    loop {
        // Whoever waits for an answer before asking again gets it now.
        if input.buffer().is_empty() {
            output.flush()?;
        }
        line.clear();
        if input.read_until(b'\n', &mut line)? == 0 {
            break;
        }
        if line.last() == Some(&b'\n') {
            line.pop();
        }

        ANSWERING.store(true, Relaxed);
        let answered = catch_unwind(AssertUnwindSafe(|| answer(&line, foresee)));
        ANSWERING.store(false, Relaxed);

        let reply = match answered {
            Ok(Some(told)) => told,
            Ok(None) => "what".to_string(),
            Err(_) => "panic".to_string(),
        };
        writeln!(output, "{reply}")?;
    }
    output.flush()
}
