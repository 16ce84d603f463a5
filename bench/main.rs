// Runs the Rust and the proved code side by side in one program.
//
//   bench check              the sides of each call agree on the fixed inputs
//   bench sides              a line for each call: its name, its sizes, and after a colon its sides
//   bench run SIDE SIZE N    only calls SIDE, N times, on the input of SIZE: for counting instructions
//
// A call that the static library does not export is left out: bench/run says which are there (`--cfg built_NAME`).
//
// It has C's `main`, not Rust's: before a Rust `main` std reads /proc/self/maps, at which some emulators fall over.
#![no_main]
#![allow(dead_code, unused_variables)] // what a call that is left out would use; and the rest of the crate's own files
use authoring::{Context, Coor4D, CoordinateSet, Error, Fwd, Nothing, Op};
use std::hint::black_box;
use token::{Tokenize, parse_proj};

// The crate's own files, unchanged, and the shims that stand for the rest of it (oracle/tree lays them out).
mod authoring;
mod inner_op;
mod op;
mod token;

// ----- the static library --------------------------------------------------------------------------------------------

// What a call of the static library answers: number 0 and the answer's length, or the refusal's number, place and offset.
#[repr(C)]
struct Reply {
    number: u8,
    place: usize,
    length: usize,
    offset: usize,
}

#[repr(C)]
#[derive(Clone, Copy, Default)]
struct Span {
    from: u32,
    length: u32,
}

#[repr(C)]
#[derive(Clone, Copy, Default)]
struct Step {
    operator: u8,
    n: u8,
    inv: u8,
    omit_fwd: u8,
    omit_inv: u8,
    reading: u8,
    args: [i32; 8],
    span: Span,
}

// A row of 64 records to lend, of which the first n are in use.
struct Steps {
    row: [Step; 64],
    n: usize,
}

#[repr(C)]
struct Place {
    axis: u8,
    minus: bool,
}

#[repr(C)]
struct Checked {
    number: u8,
    place: usize,
    span: Span,
    run: usize,
    depths: [usize; 64],
    deepest: usize,
    left: usize,
    told: bool,
    places: [Place; 4],
}

#[repr(C)]
struct Done {
    number: u8,
    place: usize,
    count: usize,
    left: usize,
}

const FORWARD: u8 = 0;

// A `&[u8]` and a `&mut [u8]` pass as a pointer and then a length.
type Call = unsafe extern "C" fn(*const u8, usize, *mut u8, usize) -> Reply;
unsafe extern "C" {
    fn sakondreno_normalise(
        text: *const u8,
        text_len: usize,
        out: *mut u8,
        out_len: usize,
    ) -> Reply;
    fn sakondreno_split(text: *const u8, text_len: usize, out: *mut u8, out_len: usize) -> Reply;
    fn sakondreno_parameters(
        text: *const u8,
        text_len: usize,
        out: *mut u8,
        out_len: usize,
    ) -> Reply;
    fn sakondreno_translate(
        text: *const u8,
        text_len: usize,
        out: *mut u8,
        out_len: usize,
    ) -> Reply;
    fn sakondreno_prepare(
        text: *const u8,
        text_len: usize,
        table: *mut Step,
        table_len: usize,
    ) -> Reply;
    fn sakondreno_check(table: *const Step, table_len: usize, inverse: u8) -> Checked;
    fn sakondreno_run(
        table: *const Step,
        table_len: usize,
        inverse: u8,
        list: *mut f64,
        list_len: usize,
        store: *mut f64,
        store_len: usize,
    ) -> Done;
}

fn proved(call: Call, text: &[u8], out: &mut [u8]) -> usize {
    let r = unsafe { call(text.as_ptr(), text.len(), out.as_mut_ptr(), out.len()) };
    assert!(r.number == 0, "refused {} {}", r.number, r.place);
    r.length
}

#[cfg(built_prepare)]
fn prepared(text: &[u8], table: &mut Steps) -> usize {
    let row = &mut table.row;
    let r = unsafe { sakondreno_prepare(text.as_ptr(), text.len(), row.as_mut_ptr(), row.len()) };
    assert!(r.number == 0, "refused {} {}", r.number, r.place);
    r.length
}

// ----- the calls on texts --------------------------------------------------------------------------------------------

fn put(out: &mut [u8], s: &str) -> usize {
    out[..s.len()].copy_from_slice(s.as_bytes());
    s.len()
}

// The original takes a &str, so a caller that holds bytes pays for this test too.
fn read(text: &[u8]) -> &str {
    std::str::from_utf8(text).unwrap()
}

// One side of a comparison: reads `text`, leaves its answer in `out`, which is as large as any answer and is not cleared
// between calls.
type Side = fn(text: &[u8], out: &mut [u8]) -> usize;

#[inline(never)]
fn normalise_rust(text: &[u8], out: &mut [u8]) -> usize {
    put(out, &read(text).normalize())
}
#[inline(never)]
fn normalise_proved(text: &[u8], out: &mut [u8]) -> usize {
    proved(sakondreno_normalise, text, out)
}

#[inline(never)]
fn split_rust(text: &[u8], out: &mut [u8]) -> usize {
    let mut n = 0;
    for step in read(text).split_into_steps() {
        n += put(&mut out[n..], &step);
        out[n] = b'\n';
        n += 1;
    }
    n
}
#[inline(never)]
fn split_proved(text: &[u8], out: &mut [u8]) -> usize {
    proved(sakondreno_split, text, out)
}

#[inline(never)]
fn parameters_rust(text: &[u8], out: &mut [u8]) -> usize {
    let mut n = 0;
    for (key, value) in read(text).split_into_parameters() {
        n += put(&mut out[n..], &key);
        out[n] = b'=';
        n += 1 + put(&mut out[n + 1..], &value);
        out[n] = b'\n';
        n += 1;
    }
    n
}
#[inline(never)]
fn parameters_proved(text: &[u8], out: &mut [u8]) -> usize {
    proved(sakondreno_parameters, text, out)
}

#[inline(never)]
fn translate_rust(text: &[u8], out: &mut [u8]) -> usize {
    put(out, &parse_proj(read(text)).ok().unwrap())
}
#[cfg(built_translate)]
#[inline(never)]
fn translate_proved(text: &[u8], out: &mut [u8]) -> usize {
    proved(sakondreno_translate, text, out)
}
#[cfg(not(built_translate))]
use translate_rust as translate_proved;

// a call, the Rust, the proved code, and the piece that its text repeats
const PAIRS: [(&str, Side, Side, &str); 5] = [
    ("normalise", normalise_rust, normalise_proved, PIPELINE),
    ("split", split_rust, split_proved, LONG_STEPS),
    ("parameters", parameters_rust, parameters_proved, ONE_STEP),
    ("translate", translate_rust, translate_proved, PROJ),
    ("translate_comment", translate_rust, translate_proved, NOTED),
];

// What only passes a text on.
#[inline(never)]
fn text_copy(text: &[u8], out: &mut [u8]) -> usize {
    out[..text.len()].copy_from_slice(text);
    text.len()
}

const PIPELINE: &str = "  push v_3 | axisswap order = 2 , 1  > adapt from=neuf_deg   to: enuf < helmert x₁= 87 y₂ =-96 $ z \n: pop  v_3 |";

// For `split`, which takes at most 64 steps: longer ones.
const LONG_STEPS: &str = "  push v_3 | axisswap order = 2 , 1  a_long_key = 1234567890 , 1234567890   another = value  > adapt from=neuf_deg   to: enuf < helmert x₁= 87 y₂ =-96 $ z \n: x = 1 y = 2 # a comment\n inv one = 1 two = 2 three = 3 four = 4 five = 5 six = 6 seven = 7 | pop  v_3 eight = 8 nine = 9 ten = 10 eleven = 11 twelve = 12 thirteen = 13 fourteen = 14 fifteen = 15 sixteen = 16 seventeen = 17 |";

// For `parameters`, which takes at most 32 keys: a step without a separator, whose keys come again and again.
const ONE_STEP: &str = "  adapt from=neuf_deg   to: enuf helmert x₁= 87 y₂ =-96 $ z \n: order = 2 , 1 rotation = 0.1 inv scale =1 position_vector exact = 1,2,3 ";

// For `translate`: steps with an ellipsoid, a scale and marks. What the cut to size leaves of the last step is one.
const PROJ: &str = " +step +x_0=1 +proj=utm +zone=32 +a=6378137 +rf=298.25 +k=0.9996 +inv\n+step +proj=push +v_3 +omit_fwd  +step +proj=axisswap +order = 2 , 1\n+step +lat_0=1 +proj=pop +v_3";

// The same with a comment. A newline with a `+` behind it becomes a space before comments are stripped: so all the rest is one comment.
const NOTED: &str = " +step +x_0=1 +proj=utm +zone=32 +a=6378137 +rf=298.25 +k=0.9996 +inv # a note\n+step +proj=push +v_3 +omit_fwd  +step +proj=axisswap +order = 2 , 1\n+step +lat_0=1 +proj=pop +v_3";

// A text of exactly `size` bytes: no clock and no randomness in it.
fn text(piece: &str, size: usize) -> Vec<u8> {
    let mut s = String::with_capacity(size + piece.len());
    while s.len() < size {
        s.push_str(piece);
    }
    let mut cut = size;
    while !s.is_char_boundary(cut) {
        cut -= 1;
    }
    s.truncate(cut);
    while s.len() < size {
        s.push('x');
    }
    s.into_bytes()
}

fn room() -> Vec<u8> {
    vec![0; 131072]
}

// The longest translation found: globals of `>`, which grow tenfold, in each of many steps.
const LONGEST: usize = 5949497;

fn longest() -> Vec<u8> {
    let text = "proj=pipeline g".to_string() + &">".repeat(2037) + &" step a".repeat(292);
    text.into_bytes()
}

// ----- the calls on steps --------------------------------------------------------------------------------------------

// Eight steps that leave no column, eight times: 64 steps.
const EIGHT: &str = "push v_3 | axisswap order = 2 , 1 | adapt from=neuf_deg to=enuf | stack push=1,2 | stack roll=2,1 inv | stack flip=3,4 | stack pop=2,1 | pop v_3 | ";

fn sixty_four() -> Vec<u8> {
    EIGHT.repeat(8).into_bytes()
}

// The Rust's steps, and each step's parameters.
#[inline(never)]
fn prepare_rust(text: &[u8]) -> usize {
    let steps = read(text).split_into_steps();
    steps
        .iter()
        .map(|step| black_box(step.split_into_parameters()).len())
        .sum()
}

// A definition for each operator, with what it needs before it.
const RUNS: [(&str, &str); 11] = [
    ("push", "push v_1|"),
    ("push_pop", "push v_1|pop v_2"),
    ("stack_push", "stack push=1,2|"),
    ("stack_push_pop", "stack push=1,2|stack pop=2,1"),
    ("stack_push_flip", "stack push=1|stack flip=2"),
    ("stack_push_roll", "stack push=1,2,3|stack roll=3,2"),
    ("stack_push_unroll", "stack push=1,2,3|stack unroll=3,2"),
    ("stack_push_swap", "stack push=1,2|stack swap"),
    ("stack_drop", "stack drop|"),
    ("axisswap", "axisswap order=2,-1|"),
    ("adapt", "adapt from=neuf_deg|"),
];

// A plain list of tuples, for the Rust.
struct List(Vec<Coor4D>);

impl CoordinateSet for List {
    fn len(&self) -> usize {
        self.0.len()
    }
    fn get_coord(&self, i: usize) -> Coor4D {
        self.0[i]
    }
    fn set_coord(&mut self, i: usize, value: &Coor4D) {
        self.0[i] = *value;
    }
    fn stomp(&mut self) {
        self.0.fill(Coor4D([f64::NAN; 4]));
    }
}

fn tuple(i: usize) -> Coor4D {
    let first = i as f64;
    Coor4D([first, first + 0.25, first + 0.5, first + 0.75])
}

#[inline(never)]
fn run_rust(op: &Op, list: &mut List) -> usize {
    op.apply(&Nothing as &dyn Context, list, Fwd)
}

#[cfg(built_run)]
#[inline(never)]
fn run_proved(table: &Steps, list: &mut [f64], store: &mut [f64]) -> usize {
    let r = unsafe {
        sakondreno_run(
            table.row.as_ptr(),
            table.n,
            FORWARD,
            list.as_mut_ptr(),
            list.len(),
            store.as_mut_ptr(),
            store.len(),
        )
    };
    assert!(r.number == 0, "refused {} {}", r.number, r.place);
    black_box(r.left);
    r.count
}

// Reads each tuple and writes it to another list: what no run can do without.
#[inline(never)]
fn run_copy(list: &[Coor4D], other: &mut [Coor4D]) -> usize {
    other.copy_from_slice(list);
    other.len()
}

#[cfg(built_prepare)]
fn lent() -> Steps {
    Steps {
        row: [Step::default(); 64],
        n: 0,
    }
}

#[cfg(built_prepare)]
fn table_of(text: &[u8]) -> Steps {
    let mut table = lent();
    table.n = prepared(text, &mut table);
    table
}

// ----- all calls -----------------------------------------------------------------------------------------------------

const BYTES: &[usize] = &[100, 1000, 4096];
const STEPS: &[usize] = &[64];
const TUPLES: &[usize] = &[1, 1000, 65536];

// A side, ready to be called again and again.
type Ready = Box<dyn FnMut() -> usize>;

fn calls() -> Vec<(String, &'static [usize])> {
    let mut all: Vec<_> = PAIRS
        .iter()
        .map(|pair| (pair.0.to_string(), BYTES))
        .collect();
    if cfg!(built_translate) {
        all.push(("translate_longest".to_string(), &[4096]));
    } else {
        all.truncate(all.len() - 2);
    }
    if cfg!(built_prepare) {
        all.push(("prepare".to_string(), STEPS));
    }
    if cfg!(all(built_prepare, built_check)) {
        all.push(("check".to_string(), STEPS));
    }
    if cfg!(all(built_prepare, built_run)) {
        all.extend(RUNS.iter().map(|run| (format!("run_{}", run.0), TUPLES)));
    }
    all
}

fn sides(call: &str, size: usize) -> Vec<(&'static str, Ready)> {
    if let Some((_, rust, proved, piece)) = PAIRS.into_iter().find(|pair| pair.0 == call) {
        let ready = |f: Side| -> Ready {
            let (src, mut out) = (text(piece, size), room());
            Box::new(move || f(black_box(&src), black_box(&mut out)))
        };
        return vec![("rust", ready(rust)), ("proved", ready(proved)), ("copy", ready(text_copy))];
    }
    if call == "translate_longest" {
        let ready = |f: Side| -> Ready {
            let (src, mut out) = (longest(), vec![0; LONGEST]);
            Box::new(move || f(black_box(&src), black_box(&mut out)))
        };
        return vec![("rust", ready(translate_rust)), ("proved", ready(translate_proved))];
    }
    steps_sides(call, size)
}

#[cfg(built_prepare)]
fn steps_sides(call: &str, size: usize) -> Vec<(&'static str, Ready)> {
    let text = sixty_four();
    match call {
        "prepare" => {
            let src = text.clone();
            let mut table = lent();
            vec![
                ("rust", Box::new(move || prepare_rust(black_box(&src)))),
                (
                    "proved",
                    Box::new(move || prepared(black_box(&text), black_box(&mut table))),
                ),
            ]
        }
        #[cfg(built_check)]
        "check" => {
            let table = table_of(&text);
            vec![(
                "proved",
                Box::new(move || {
                    let table = black_box(&table);
                    let r = unsafe { sakondreno_check(table.row.as_ptr(), table.n, FORWARD) };
                    assert!(r.number == 0, "says {} {}", r.number, r.place);
                    black_box(&r.depths);
                    r.deepest
                }),
            )]
        }
        #[cfg(built_run)]
        _ => {
            let name = call.strip_prefix("run_").unwrap();
            let definition = RUNS.iter().find(|run| run.0 == name).unwrap().1;
            let op = Op::new(definition, &Nothing).ok().unwrap();
            let mut list = List((0..size).map(tuple).collect());
            let table = table_of(definition.as_bytes());
            let mut row: Vec<f64> = list.0.iter().flat_map(|four| four.0).collect();
            let mut store = vec![0.0; 3 * size];
            let (from, mut to) = (list.0.clone(), list.0.clone());
            vec![
                (
                    "rust",
                    Box::new(move || run_rust(black_box(&op), black_box(&mut list))),
                ),
                (
                    "proved",
                    Box::new(move || {
                        run_proved(
                            black_box(&table),
                            black_box(&mut row),
                            black_box(&mut store),
                        )
                    }),
                ),
                (
                    "copy",
                    Box::new(move || run_copy(black_box(&from), black_box(&mut to))),
                ),
            ]
        }
        #[cfg(not(built_run))]
        _ => Vec::new(),
    }
}
#[cfg(not(built_prepare))]
fn steps_sides(_call: &str, _size: usize) -> Vec<(&'static str, Ready)> {
    Vec::new()
}

fn check() {
    for (name, rust, proved, piece) in PAIRS {
        for size in [0, 1, 2, 3, 7, 8, 9, 100, 1000, 4096] {
            let src = text(piece, size);
            let (mut a, mut b) = (room(), room());
            let (n, m) = (rust(&src, &mut a), proved(&src, &mut b));
            assert!(a[..n] == b[..m], "{name} differs at {size}");
        }
    }
    let (mut a, mut b) = (vec![0; LONGEST], vec![0; LONGEST]);
    let (n, m) = (translate_rust(&longest(), &mut a), translate_proved(&longest(), &mut b));
    assert!(n == LONGEST && m == n && a == b, "the longest translation differs");
    #[cfg(built_prepare)]
    assert!(
        table_of(&sixty_four()).n == read(&sixty_four()).split_into_steps().len(),
        "prepare differs"
    );
    #[cfg(all(built_prepare, built_run))]
    for (name, definition) in RUNS {
        for size in [0, 1, 3, 1000] {
            let mut list = List((0..size).map(tuple).collect());
            let mut row: Vec<f64> = list.0.iter().flat_map(|four| four.0).collect();
            let n = run_rust(&Op::new(definition, &Nothing).ok().unwrap(), &mut list);
            let m = run_proved(
                &table_of(definition.as_bytes()),
                &mut row,
                &mut vec![0.0; 3 * size],
            );
            let same = list
                .0
                .iter()
                .flat_map(|four| four.0)
                .map(f64::to_bits)
                .eq(row.iter().map(|one| one.to_bits()));
            assert!(n == m && same, "run_{name} differs at {size}");
        }
    }
    println!("check: all sides agree");
}

fn run(side: &str, size: usize, many: usize) {
    let (call, suffix) = side.rsplit_once('_').expect("CALL_SIDE");
    let mut all = sides(call, size).into_iter();
    let (_, mut f) = all.find(|one| one.0 == suffix).expect("no such side");
    for _ in 0..many {
        black_box(f());
    }
}

#[unsafe(no_mangle)]
pub extern "C" fn main(_argc: i32, _argv: *const *const u8) -> i32 {
    let words: Vec<String> = std::env::args().skip(1).collect();
    let words: Vec<&str> = words.iter().map(String::as_str).collect();
    match words[..] {
        ["check"] => check(),
        ["sides"] => {
            for (call, sizes) in calls() {
                let names: Vec<&str> = sides(&call, 1).iter().map(|side| side.0).collect();
                let sizes: Vec<String> = sizes.iter().map(usize::to_string).collect();
                println!("{call} {}:{}", sizes.join(" "), names.join(" "));
            }
        }
        ["run", side, size, calls] => run(side, size.parse().unwrap(), calls.parse().unwrap()),
        _ => {
            eprintln!("usage: bench check | sides | run SIDE SIZE CALLS");
            return 2;
        }
    }
    0
}
