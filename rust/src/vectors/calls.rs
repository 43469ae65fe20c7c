//! What each case calls, and what it compares afterwards. Memory is lent with
//! known contents and guard values around it, inputs too.

use super::parse::{self, Case};
use super::Tested;
use crate::answer::{Answer, Layout, MapTable, PairTable, Watch, WordSet};
use crate::generate::{codewords as weights, watch};
use crate::lent::Lent;
use crate::paper::walk::{MOST_VALUES, SET};
use crate::paper::{ROW, SIX, STATE};
use crate::random::Random;
use std::fmt::Debug;
use std::io::{ErrorKind, Write};
use std::path::Path;
use std::process::{Command, Stdio};

/// What came of a case: both answers, and what else is not as it should be.
pub struct Called {
    pub expected: String,
    pub answer: String,
    pub faults: String,
}

type Call = fn(&Tested, &Case) -> Result<Called, String>;

/// Makes the call of a case; an error is why that cannot be done.
pub fn call(tested: &Tested, case: &Case) -> Result<Called, String> {
    let (keys, call): (&[&str], Call) = match case.one("call")? {
        "read" => (&["text", "room", "written"], read),
        "write" => (&["program", "stored", "room", "out"], write),
        "check" => (&["program", "stored"], check),
        "expand" => (&["layout", "program", "stored", "room", "out"], expand),
        "to-image" | "from-image" => (&["layout", "state", "room", "bytes"], image),
        "move" => (&["old", "new", "state", "room", "bytes"], image),
        "run" => (&["program", "stored", "state", "start", "budget", "room", "row", "changed"], run),
        "run-watched" => (
            &["program", "stored", "state", "start", "budget", "watch", "room", "row", "changed", "watched"],
            run,
        ),
        "walk" => (&["program", "stored", "values", "sets", "raw", "rest", "length", "budget"], walk),
        "take-in" | "send-out" => (&["text", "room", "out"], convert),
        "code" => (&["value"], code),
        "decode" => (&["word"], decode),
        "xor" => (&["operands"], xor),
        "xor-entry" => (&["index"], xor_entry),
        "map" => (&["map", "table"], map),
        "look-up" => (&["map", "word"], look_up),
        "codewords" => (&["bits", "ones", "size", "weights", "set"], codewords),
        "print-expansion" | "print-trace" => (&["text", "out"], print),
        other => return Err(format!("the call {other:?} is unknown")),
    };
    case.only(keys)?;
    call(tested, case)
}

// ---------------------------------------------------------------- answers

/// An answer as the cases write it.
fn spelled(answer: Answer) -> String {
    match answer {
        Answer::Counted(count) => format!("count {count}"),
        Answer::Halted { counter, steps } => format!("halted {counter} {steps}"),
        Answer::Spent { counter, steps } => format!("spent {counter} {steps}"),
        Answer::Balanced { .. } => "balanced".to_string(),
        Answer::Leak { line, .. } => format!("leak {line}"),
        Answer::Refused { number, line } => format!("refused {number} {line}"),
    }
}

fn called(case: &Case, answer: Answer, faults: String) -> Result<Called, String> {
    called_so(case, spelled(answer), faults)
}

/// The same of a byte that is given.
fn called_value(case: &Case, value: u8, faults: String) -> Result<Called, String> {
    called_so(case, format!("value {value}"), faults)
}

fn called_so(case: &Case, answer: String, faults: String) -> Result<Called, String> {
    Ok(Called { expected: case.one("answer")?.to_string(), answer, faults })
}

// ---------------------------------------------------------------- memory

/// Memory and what it must hold afterwards: the same, but for what is expected to be written.
struct Memory<T> {
    name: &'static str,
    lent: Lent<T>,
    expected: Lent<T>,
}

impl<T: Copy + PartialEq + Debug> Memory<T> {
    fn new(name: &'static str, contents: &[T], guard: fn(&mut Random) -> T) -> Memory<T> {
        let lent = Lent::new(&mut Random::new(0), contents, guard);
        Memory { name, expected: lent.clone(), lent }
    }

    /// A store of this size, its contents being free.
    fn store(name: &'static str, size: usize, some: fn(&mut Random) -> T) -> Memory<T> {
        let mut rng = Random::new(1);
        let contents: Vec<T> = (0..size).map(|_| some(&mut rng)).collect();
        Memory::new(name, &contents, some)
    }

    /// These are expected at the front.
    fn expect(&mut self, written: &[T]) -> Result<(), String> {
        let front = self.expected.part_mut().get_mut(..written.len());
        front.ok_or("more is written than there is room")?.copy_from_slice(written);
        Ok(())
    }

    fn part(&self) -> &[T] {
        self.lent.part()
    }

    fn part_mut(&mut self) -> &mut [T] {
        self.lent.part_mut()
    }

    fn fault(&self) -> String {
        self.lent.differs(&self.expected, self.name)
    }
}

fn input_bytes(contents: &[u8]) -> Memory<u8> {
    Memory::new("input bytes changed", contents, Random::byte)
}

fn input_numbers(contents: &[u16]) -> Memory<u16> {
    Memory::new("input numbers changed", contents, Random::number)
}

fn byte_store(case: &Case) -> Result<Memory<u8>, String> {
    Ok(Memory::store("lent bytes", room(case)?, Random::byte))
}

fn number_store(case: &Case) -> Result<Memory<u16>, String> {
    Ok(Memory::store("lent numbers", room(case)?, Random::number))
}

/// The room that a case lends; far more than any call can use is a slip.
fn room(case: &Case) -> Result<usize, String> {
    let room: u32 = case.number("room")?;
    if room > 1 << 24 {
        return Err("too much room".to_string());
    }
    Ok(room as usize)
}

/// A table or a set is written whole: so many entries must stand there.
fn expect_all(case: &Case, key: &str, lent: &mut Memory<u8>) -> Result<(), String> {
    let expected: Vec<u8> = parse::list(case.one(key)?)?;
    if expected.len() != lent.part().len() {
        return Err(format!("`{key}` of {} entries", expected.len()));
    }
    lent.expect(&expected)
}

/// The stored lines of a text.
fn stored_lines(tested: &Tested, text: &[u8]) -> Result<Vec<u16>, String> {
    let lines = text.iter().filter(|&&byte| byte == b'\n').count();
    let mut store = vec![0; SIX * lines];
    match tested.library.read(text, &mut store) {
        Answer::Counted(count) if count as usize == lines => Ok(store),
        answer => Err(format!("its lines are not read: {}", spelled(answer))),
    }
}

/// The program handed in, as text or as numbers.
fn program(tested: &Tested, case: &Case) -> Result<Memory<u16>, String> {
    match (case.text("program")?, case.numbers("stored")?) {
        (Some(text), None) => Ok(input_numbers(&stored_lines(tested, &text)?)),
        (None, Some(numbers)) => Ok(input_numbers(&numbers)),
        _ => Err("one of `program` and `stored` is wanted".to_string()),
    }
}

/// The layout handed over, right or not; none named is neighbours at 0.
fn layout(case: &Case) -> Result<Layout, String> {
    match case.optional("layout")? {
        Some(_) => named_layout(case, "layout"),
        None => Ok(Layout::LOWEST),
    }
}

/// The layout of a key that stands once.
fn named_layout(case: &Case, key: &str) -> Result<Layout, String> {
    match parse::list(case.one(key)?)?[..] {
        [position, spacing] => Ok(Layout::at(position, spacing)),
        _ => Err(format!("`{key}` is not two numbers")),
    }
}

// ---------------------------------------------------------------- calls

fn read(tested: &Tested, case: &Case) -> Result<Called, String> {
    let text = input_bytes(&case.text("text")?.ok_or("`text` is missing")?);
    let mut store = number_store(case)?;
    store.expect(&case.numbers("written")?.unwrap_or_default())?;
    let answer = tested.library.read(text.part(), store.part_mut());
    called(case, answer, text.fault() + &store.fault())
}

fn write(tested: &Tested, case: &Case) -> Result<Called, String> {
    let program = program(tested, case)?;
    let mut out = byte_store(case)?;
    out.expect(&case.text("out")?.unwrap_or_default())?;
    let answer = tested.library.write(program.part(), out.part_mut());
    called(case, answer, program.fault() + &out.fault())
}

fn check(tested: &Tested, case: &Case) -> Result<Called, String> {
    let program = program(tested, case)?;
    let answer = tested.library.check(program.part());
    called(case, answer, program.fault())
}

fn expand(tested: &Tested, case: &Case) -> Result<Called, String> {
    let program = program(tested, case)?;
    let mut out = number_store(case)?;
    let text = case.text("out")?.unwrap_or_default();
    out.expect(&stored_lines(tested, &text)?)?;
    let answer = tested.library.expand(layout(case)?, program.part(), out.part_mut());
    called(case, answer, program.fault() + &out.fault())
}

fn image(tested: &Tested, case: &Case) -> Result<Called, String> {
    let state = input_bytes(&case.bytes("state")?);
    let mut lent = byte_store(case)?;
    if case.optional("bytes")?.is_some() {
        lent.expect(&case.bytes("bytes")?)?;
    }
    let (on, from, into) = (tested.library, state.part(), lent.part_mut());
    let answer = match case.one("call")? {
        "to-image" => on.to_image(layout(case)?, from, into),
        "from-image" => on.from_image(layout(case)?, from, into),
        _ => on.move_image(named_layout(case, "old")?, named_layout(case, "new")?, from, into),
    };
    called(case, answer, state.fault() + &lent.fault())
}

/// The state before a run, and what it must be afterwards.
fn state_to_change(case: &Case) -> Result<Memory<u8>, String> {
    let mut state = Memory::new("state", &case.bytes("state")?, Random::byte);
    for changed in case.all("changed").iter().flat_map(|line| line.split(' ')) {
        let (place, value) = changed.split_once('=').ok_or("`changed` without =")?;
        let place: usize = parse::number(place)?;
        *state.expected.part_mut().get_mut(place).ok_or("`changed` beyond the state")? =
            parse::number(value)?;
    }
    Ok(state)
}

/// A store for a trace, and its rows.
fn trace_store(case: &Case) -> Result<Memory<u16>, String> {
    let mut rows = vec![];
    for row in case.all("row") {
        let row: Vec<u16> = parse::list(row)?;
        if row.len() != ROW {
            return Err(format!("a row of {} numbers", row.len()));
        }
        rows.extend(row);
    }
    let mut trace = number_store(case)?;
    trace.expect(&rows)?;
    Ok(trace)
}

/// The watches of a watched run, their fields besides the place being free, and what they must hold afterwards.
fn watches(case: &Case) -> Result<Memory<Watch>, String> {
    let mut rng = Random::new(2);
    let places: Vec<u16> = parse::list(case.one("watch")?)?;
    let watches: Vec<Watch> =
        places.into_iter().map(|place| Watch { place, ..watch::any(&mut rng) }).collect();
    let mut watches = Memory::new("watches", &watches, watch::any);
    let held: Result<Vec<Watch>, String> = case.all("watched").into_iter().map(held_watch).collect();
    watches.expect(&held?)?;
    Ok(watches)
}

/// A watch with what it holds.
fn held_watch(line: &str) -> Result<Watch, String> {
    match parse::list(line)?[..] {
        [place, value, writes, step] => {
            let value = u8::try_from(value).map_err(|_| "`watched` with a value above 255")?;
            Ok(Watch { place, value, writes, step })
        }
        _ => Err("`watched` is not four numbers".to_string()),
    }
}

/// A run, with watches where the call has them.
fn run(tested: &Tested, case: &Case) -> Result<Called, String> {
    let program = program(tested, case)?;
    let (mut state, mut trace) = (state_to_change(case)?, trace_store(case)?);
    let (start, budget) = (case.number("start")?, case.number("budget")?);
    let (on, lines, lent) = (tested.library, program.part(), (state.part_mut(), trace.part_mut()));
    let (answer, watched) = match case.one("call")? {
        "run" => (on.run(lines, start, budget, lent.0, lent.1), String::new()),
        _ => {
            let mut watches = watches(case)?;
            let answer = on.run_watched(lines, start, budget, lent.0, lent.1, watches.part_mut());
            (answer, watches.fault())
        }
    };
    called(case, answer, program.fault() + &state.fault() + &trace.fault() + &watched)
}

fn walk(tested: &Tested, case: &Case) -> Result<Called, String> {
    let program = program(tested, case)?;
    let sets = input_bytes(&lent_sets(case)?);
    let answer = tested.library.judge(program.part(), sets.part(), case.number("budget")?);
    let called = called(case, answer, program.fault() + &sets.fault())?;
    // Of a walk that is spent the cases give neither counter nor steps.
    Ok(match answer {
        Answer::Spent { .. } => Called { answer: "spent".to_string(), ..called },
        _ => called,
    })
}

fn convert(tested: &Tested, case: &Case) -> Result<Called, String> {
    let text = input_bytes(&case.text("text")?.ok_or("`text` is missing")?);
    let mut out = byte_store(case)?;
    out.expect(&case.text("out")?.unwrap_or_default())?;
    let answer = match case.one("call")? {
        "take-in" => tested.library.take_in(text.part(), out.part_mut()),
        _ => tested.library.send_out(text.part(), out.part_mut()),
    };
    called(case, answer, text.fault() + &out.fault())
}

/// The sets as they are lent: one value for each place, then other values for some, then
/// whole sets as bytes, cut or filled up to the length.
fn lent_sets(case: &Case) -> Result<Vec<u8>, String> {
    let rest: u8 = case.optional("rest")?.map_or(Ok(0), parse::number)?;
    let set = |values: &[u8]| -> Result<[u8; SET], String> {
        if values.is_empty() || values.len() > MOST_VALUES {
            return Err(format!("a set of {} values", values.len()));
        }
        let mut set = [rest; SET];
        set[0] = values.len() as u8;
        set[1..=values.len()].copy_from_slice(values);
        Ok(set)
    };
    let values = case.bytes("values")?;
    if values.len() != STATE {
        return Err(format!("`values` of {} bytes", values.len()));
    }
    let mut sets = values.iter().map(|&value| set(&[value])).collect::<Result<Vec<_>, _>>()?;
    for line in case.all("sets") {
        let numbers: Vec<u16> = parse::list(line)?;
        let [first, last, values @ ..] = &numbers[..] else {
            return Err("`sets` without places".to_string());
        };
        let values: Vec<u8> = values
            .iter()
            .map(|&value| u8::try_from(value).map_err(|_| "a value above 255".to_string()))
            .collect::<Result<_, _>>()?;
        sets.get_mut(*first as usize..=*last as usize).ok_or("no such places")?.fill(set(&values)?);
    }
    for line in case.all("raw") {
        let (place, whole) = line.split_once(' ').ok_or("`raw` without bytes")?;
        let place: usize = parse::number(place)?;
        let whole = parse::bytes(whole)?.try_into().map_err(|_| "`raw` is not a set's bytes")?;
        *sets.get_mut(place).ok_or("no such place")? = whole;
    }
    let mut bytes = sets.concat();
    if case.optional("length")?.is_some() {
        bytes.resize(case.number::<u16>("length")? as usize, 0);
    }
    Ok(bytes)
}

// ---------------------------------------------------------------- the nibble engine

fn code(tested: &Tested, case: &Case) -> Result<Called, String> {
    called_value(case, tested.library.encode(case.number("value")?), String::new())
}

fn decode(tested: &Tested, case: &Case) -> Result<Called, String> {
    called_value(case, tested.library.decode(case.number("word")?), String::new())
}

/// The exclusive-or table, written over anything: what it holds, the case says, but nothing around it may change.
fn xor_table(tested: &Tested) -> Result<Memory<u8>, String> {
    let mut table = Memory::store("table", size_of::<PairTable>(), Random::byte);
    tested.library.xor_table(table.part_mut().try_into().expect("a table"));
    let written = table.part().to_vec();
    table.expect(&written)?;
    Ok(table)
}

/// A lent table as one of its type.
fn whole<const N: usize>(table: &Memory<u8>) -> &[u8; N] {
    table.part().try_into().expect("a table")
}

/// The result for two operands, without a table and by the one that is written.
fn xor(tested: &Tested, case: &Case) -> Result<Called, String> {
    let [first, second] = parse::list(case.one("operands")?)?[..] else {
        return Err("`operands` is not two numbers".to_string());
    };
    let table = xor_table(tested)?;
    let value = tested.library.xor(first, second);
    let faults = match tested.library.look_up_pair(whole(&table), first, second) {
        same if same == value => String::new(),
        other => format!("the table gives {other}\n"),
    };
    called_value(case, value, faults + &table.fault())
}

fn xor_entry(tested: &Tested, case: &Case) -> Result<Called, String> {
    let index: usize = case.number("index")?;
    let table = xor_table(tested)?;
    let entry = table.part().get(index).ok_or("`index` beyond the table")?;
    called_value(case, *entry, table.fault())
}

/// The map handed in, and a store for its table, its contents being free.
fn map_and_store(case: &Case) -> Result<(Memory<u8>, Memory<u8>), String> {
    let map: Vec<u8> = parse::list(case.one("map")?)?;
    Ok((input_bytes(&map), Memory::store("table", size_of::<MapTable>(), Random::byte)))
}

/// Makes the table.
fn map_table(tested: &Tested, map: &Memory<u8>, table: &mut Memory<u8>) -> Answer {
    tested.library.map_table(map.part(), table.part_mut().try_into().expect("a table"))
}

fn map(tested: &Tested, case: &Case) -> Result<Called, String> {
    let (map, mut table) = map_and_store(case)?;
    expect_all(case, "table", &mut table)?;
    let answer = map_table(tested, &map, &mut table);
    let faults = map.fault() + &table.fault();
    match answer {
        Answer::Counted(64) => called_so(case, "done".to_string(), faults),
        answer => called(case, answer, faults),
    }
}

/// The result of a map's table for an operand; of a refused map the refusal.
fn look_up(tested: &Tested, case: &Case) -> Result<Called, String> {
    let (map, mut table) = map_and_store(case)?;
    match map_table(tested, &map, &mut table) {
        Answer::Counted(64) => {
            let table = input_bytes(table.part());
            let value = tested.library.look_up(whole(&table), case.number("word")?);
            called_value(case, value, map.fault() + &table.fault())
        }
        answer => called(case, answer, map.fault()),
    }
}

// ---------------------------------------------------------------- codewords

fn codewords(tested: &Tested, case: &Case) -> Result<Called, String> {
    let weights = Memory::new("weights changed", &parse::signed_list(case.one("weights")?)?, weights::any);
    let mut set = Memory::store("set", size_of::<WordSet>(), Random::byte);
    expect_all(case, "set", &mut set)?;
    let (bits, ones, size) = (case.number("bits")?, case.number("ones")?, case.number("size")?);
    let lent = set.part_mut().try_into().expect("a set");
    let answer = tested.library.choose(bits, ones, size, weights.part(), lent);
    let faults = weights.fault() + &set.fault();
    match answer {
        Answer::Counted(count) if count == size as u32 => called_so(case, "done".to_string(), faults),
        answer => called(case, answer, faults),
    }
}

// ---------------------------------------------------------------- programs

fn print(tested: &Tested, case: &Case) -> Result<Called, String> {
    let name = match case.one("call")? {
        "print-expansion" => "expand",
        _ => "trace",
    };
    let text = case.text("text")?.ok_or("`text` is missing")?;
    let expected = case.one("answer")?.to_string();
    let printed = output(&tested.programs.join(name).join("out").join(name), &text)?;
    let right = match expected.strip_prefix("refused ") {
        Some(refusal) => printed == format!("refused,{}\n", refusal.replace(' ', ",")).as_bytes(),
        None => {
            let out = case.text("out")?.ok_or("`out` is missing")?;
            printed == out && expected == format!("printed {}", out.len())
        }
    };
    let answer = match right {
        true => expected.clone(),
        false => format!("printed {}: {:?}", printed.len(), String::from_utf8_lossy(&printed)),
    };
    Ok(Called { expected, answer, faults: String::new() })
}

/// What a program prints, given this on its standard input.
fn output(program: &Path, input: &[u8]) -> Result<Vec<u8>, String> {
    let shown = program.display();
    if !program.exists() {
        return Err(format!("{shown} is missing: run `rt run < /dev/null` in crates/expand and crates/trace first"));
    }
    let failed = |what: &str, error: std::io::Error| format!("{shown} {what}: {error}");
    let mut child = Command::new(program)
        .stdin(Stdio::piped())
        .stdout(Stdio::piped())
        .spawn()
        .map_err(|error| failed("cannot be started", error))?;
    // It reads all that it wants before it prints, and need not read to the end.
    let given = match child.stdin.take() {
        Some(mut stdin) => stdin.write_all(input),
        None => Ok(()),
    };
    let output = child.wait_with_output().map_err(|error| failed("cannot be read", error))?;
    match given {
        Err(error) if error.kind() != ErrorKind::BrokenPipe => Err(failed("takes no input", error)),
        _ => Ok(output.stdout),
    }
}

#[cfg(test)]
mod tests {
    use super::*;

    #[test]
    fn outputs() {
        assert_eq!(output(Path::new("/bin/cat"), b"a\n\xff"), Ok(b"a\n\xff".to_vec()));
        // Not read to the end.
        assert_eq!(output(Path::new("/bin/true"), &[0; 1 << 20]), Ok(vec![]));
        assert!(output(Path::new("/nowhere/expand"), b"").unwrap_err().contains("crates/expand and crates/trace"));
    }
}
