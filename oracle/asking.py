"""What `compare`, `record`, `foretold` and `written` share: asking the Rust, the program `answers` and the model, and what document 01
makes of the Rust's answer. The Rust knows the crate's reading and mode only."""

import os
import platform
import re
import shutil
import subprocess
import sys

HERE = os.path.dirname(os.path.abspath(__file__))
TOP = os.path.dirname(HERE)
ORACLE = os.path.join(TOP, "target/oracle/oracle")
ANSWERS = os.path.join(TOP, "crates/answers/out/answers")
NATIVE = os.path.join(TOP, "target/native/answers")
MODEL = os.path.join(TOP, "model/model.py")
SUBSCRIPT = re.compile(rb"\xe2\x82[\x80-\x89]")

TEXT_CALLS = ["normalise", "split", "parameters", "translate", "definition"]
STEP_CALLS = ["prepare", "check", "run"]
CALLS = TEXT_CALLS + STEP_CALLS
# what may follow a call that prepares: the reading and the mode
WAYS = {"": "the crate's reading and mode", "/p": "PROJ's reading", "/d": "the documented mode", "/pd": "PROJ's reading, the documented mode"}

# ----- asking --------------------------------------------------------------------------------------------------------


def drawn(call, kind, **options):
    """The requests of a list of `oracle/lists`."""
    words = [os.path.join(HERE, "lists"), "--call", call, "--kind", kind]
    for name, value in options.items():
        words += ["--" + name, str(value)]
    return subprocess.run(words, capture_output=True, text=True, check=True).stdout.split("\n")[:-1]


def said(command, lines):
    done = subprocess.run(command, input="".join(line + "\n" for line in lines), capture_output=True, text=True)
    answers = done.stdout.split("\n")[:-1]
    if done.returncode or len(answers) != len(lines):
        sys.exit("%s: status %d, %d answers to %d requests" % (command[-1], done.returncode, len(answers), len(lines)))
    return answers


def rust(lines):
    return said([ORACLE], lines)


def answers_command():
    """The program, which `rt run` in crates/answers builds, is for x86-64: elsewhere it runs under an emulator, where the kit has one."""
    if platform.machine() == "x86_64":
        return [ANSWERS]
    kit = os.environ.get("RATTLE_HOME") or os.path.dirname(os.path.dirname(os.path.realpath(shutil.which("rt"))))
    tools = os.path.join(kit, "on", platform.machine(), "toolchain")
    return [os.path.join(tools, "bin/qemu-x86_64"), os.path.join(tools, "lib/ld-linux-x86-64.so.2"),
            "--library-path", os.path.join(tools, "lib"), ANSWERS]


def model_command():
    return [sys.executable, MODEL]


def text_of(line):
    """The text of a request, as bytes."""
    fields = line.split(" ")
    return bytes.fromhex(fields[3 if fields[0] == "run" else 2].replace("-", ""))


def prepare_of(line):
    """The request to prepare the same text."""
    return "prepare 64 " + (text_of(line).hex() or "-")


def told_of(lines):
    """What the Rust says to each request, and for check and run what it makes of the text's steps."""
    told = rust(lines)
    steps = [line for line in lines if line.startswith(("check ", "run "))]
    prepared = iter(rust([prepare_of(line) for line in steps]) if steps else [])
    return [(one, next(prepared) if line.startswith(("check ", "run ")) else None) for line, one in zip(lines, told)]


# ----- where document 01 and the Rust part (docs/DIFFERENCES.md), each as a test -------------------------------------

MODIFIER = rb"(?:inv|omit_fwd|omit_inv)"
PARTED = [
    # a `>` or `<` that is followed, white space aside, by one of `: = , | < >`
    re.compile(rb"[<>]\s*[:=,|<>]"),
    # a step of a colon and a modifier whose last word ends in `=`, `,` or `$`
    re.compile(rb"(?:^|[|<>])[:\s]*:[:\s]*" + MODIFIER + rb"\b[^|<>]*[=,$][:\s]*(?:[|<>]|$)"),
]


def normalises_apart(text):
    """Whether it could matter how often the text is normalised: document 01 once, the crate twice."""
    bare = re.sub(rb"#[^\n\r]*", b"", text)
    inner = bare.strip().strip(b":").strip()
    # a text that begins or ends in colons parted by white space, beside a separator
    colons = inner.startswith(b":") or inner.endswith(b":")
    return any(form.search(bare) for form in PARTED) or (colons and any(sign in bare for sign in b"|<>"))


def unrolls_back(line, records):
    """Whether an inverse unroll is asked for, at which the Rust panics."""
    runs = [record for record in records if "o" not in record.split(":")[1]]
    return line.split(" ")[1] == "inv" and any(record.startswith("stack.unroll:") for record in runs)


def named_apart(text):
    """Whether a step may be named `pipeline` or a modifier, from which the Rust never returns. The modifier can come to
    `_name=` from the front of its step (`inv _name=|`), and `>` and `<` write one out (`>_name=`)."""
    return b"pipeline" in text or (b"_name" in text and re.search(MODIFIER + rb"|[<>]", text) is not None)


# ----- what document 01 makes of the Rust's answer -------------------------------------------------------------------

# why an answer is not held against the Rust
SHIM = "a shim's rule"  # 10, 11, 12: the Rust that decides them is not at hand
LONE = "lone step"  # no separator: outside the domain
APART = "normalising"  # the three ways to part
UNROLL = "inverse unroll"
NAMED = "name"


class Wanted:
    """What the whole answer must be: a text, or a pattern where the Rust knows less. And why the Rust has no say where it has
    none; then `plain` is what it says all the same, if anything."""

    def __init__(self, pattern=None, why=None, plain=None, text=None):
        self.pattern = pattern
        self.why = why
        self.plain = plain
        self.text = text

    def refuses(self):
        return (self.text or self.pattern).startswith("refused")

    def number(self):
        """The refusal's number, where it is certain."""
        return int((self.text or self.pattern).split(" ")[1])

    def agrees(self, answer):
        return answer == self.text if self.text is not None else re.fullmatch(self.pattern, answer) is not None


def exactly(text):
    return Wanted(text=text)


def refused(number, place):
    """The Rust tells no offset: of 12 it may be any."""
    return Wanted(r"refused 12 %d \d+" % place) if number == 12 else exactly("refused %d %d" % (number, place))


def refused_somewhere(number):
    return Wanted(r"refused %s [1-9]\d*" % number)


def wanted(line, told, prepared=None):
    call, room = line.split(" ")[:2]
    text = text_of(line)
    if len(text) > 4096:
        return refused(1, 0)
    if not (text.isascii() or SUBSCRIPT.sub(b"", text).isascii()):
        return refused(2, 0)
    if call in TEXT_CALLS:
        return wanted_text(call, int(room), told)
    if call == "prepare":
        return wanted_prepare(int(room), told)
    return wanted_steps(line, told, prepared)


def wanted_text(call, room, told):
    """Of 3 to 6 the Rust knows no place, and of 3 and 4 not which."""
    if told == "hang":
        return refused(6, 0) if call == "parameters" else refused_somewhere("6")
    if told == "err":
        return refused_somewhere("[34]")
    if told == "panic":
        return refused_somewhere("5")
    if call == "split" and lines_of(told) > 64:
        return refused(8, 0)
    if call == "parameters" and lines_of(told) > 32:
        return refused(9, 0)
    return refused(7, 0) if length(told) > room else exactly(told)


def lines_of(told):
    return bytes.fromhex(told[3:].replace("-", "")).count(b"\n")


def step_number(step):
    """The number that refuses a step, by what the Rust says of it: LENGTH/KEYS/MOST/SPAN/VERDICT; 0 for none."""
    size, keys, most, _, verdict = step.split("/", 4)
    holds = {1: int(size) > 4096, 6: verdict == "hang", 9: int(keys) > 32, 13: int(most) > 8, 14: verdict == "err",
             **{number: verdict == "shim:%d" % number for number in (10, 11, 12)}}
    return min((number for number in holds if holds[number]), default=0)


def wanted_prepare(room, told):
    if told == "hang":
        return refused_somewhere("6")
    steps = told.split(" ")[2:]
    if len(steps) > 64:
        return refused(8, 0)
    for place, step in enumerate(steps, 1):
        number = step_number(step)
        if number:
            answer = refused(number, place)
            answer.why = SHIM if number in (10, 11, 12) else None
            return answer
    if len(steps) > room:
        return refused(7, 0)
    return exactly(" ".join(["ok", str(len(steps))] + list(map(record_of, steps))))


def record_of(step):
    """RECORD, with the span that the Rust's normalised text gives the step."""
    span, record = step.split("/", 4)[3:]
    return record + "@" + span


def with_span(checked, records):
    """What the check says: of a step that it names, the span too."""
    if not checked.startswith("fails "):
        return checked
    return checked + " " + records[int(checked.split(" ")[1]) - 1].rpartition("@")[2]


def wanted_steps(line, told, prepared):
    """Of check and run: where it could matter how often the text is normalised, the crate has no say."""
    plain = wanted_of_crate(line, told, prepared)
    return Wanted(".*", APART, plain) if normalises_apart(text_of(line)) else plain


def wanted_of_crate(line, told, prepared):
    """What preparing by document 01 gives, and then what the crate does."""
    text, made = text_of(line), wanted_prepare(64, prepared)
    if told == "lone":
        return Wanted(".*", LONE)
    if made.refuses():
        if told == "hang" and made.number() == 10:
            return Wanted(why=NAMED, text=made.text) if named_apart(text) else Wanted("not 10")
        # Where a size refuses, the Rust may answer; else it must not.
        sized = made.number() in (1, 8, 9, 13)
        return made if sized or not told.startswith("ok ") else Wanted("not refused")
    records = made.text.split(" ")[2:]
    if unrolls_back(line, records) and told == "panic":
        return Wanted("(ok|passes|fails|refused 1[567]) .*", UNROLL)
    if not told.startswith("ok "):
        return Wanted("the Rust refuses")
    return exactly(with_span(told[3:], records)) if line.startswith("check ") else wanted_run(line, told)


def wanted_run(line, told):
    _, _, store, _, numbers = line.split(" ")
    many = int(numbers[len("zeros:"):]) if numbers.startswith("zeros:") else len(numbers.split(",")) if numbers != "-" else 0
    if many % 4 or many > 4 * 65536:
        return refused(15, 0)
    count, left, after, columns, depths, *stomp = told.split(" ")[1:]
    deepest = 0
    for place, depth in (pair.split(":") for pair in depths.split(",") if pair != "-"):
        if int(depth) > 64:
            return refused(16, int(place))
        deepest = max(deepest, int(depth))
    if int(store) < deepest * (many // 4):
        return refused(17, 0)
    if stomp:  # the numbers rest on a shim's rule
        return Wanted("ok %s %s .*" % (count, left), SHIM)
    if many > 64:
        return exactly("ok %s %s - -" % (count, left))
    row = [number for number in columns.split(",") if number != "-"]
    row += ["0" * 16] * (deepest * (many // 4) - len(row))
    row += ["c01c000000000000"] * (int(store) - len(row))
    return exactly("ok %s %s %s %s" % (count, left, after, ",".join(row) or "-"))


def length(told):
    return len(told[3:].replace("-", "")) // 2 if told.startswith("ok ") else 0
