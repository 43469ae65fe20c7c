//! Times the library against plain C (bench/plain.c, cc -O3 -march=native) in one process, on
//! the same inputs, and prints the ratios of the medians.

use dualrail::paper::nibble::C;
use dualrail::paper::walk::SET;
use dualrail::paper::{kind_of_place, Kind, Paper, MOST_BYTES, MOST_LINES, ROW, SIX, STATE};
use dualrail::plain::Plain;
use dualrail::random::Random;
use dualrail::simon;
use dualrail::{Answer, Dualrail, Layout, Library, MapTable, PairTable, Watch, WordSet};
use std::hint::black_box;
use std::time::Instant;

const REPEATS: usize = 301;
/// Of what takes milliseconds.
const FEW_REPEATS: usize = 31;

fn median(mut times: Vec<f64>) -> f64 {
    times.sort_by(f64::total_cmp);
    times[times.len() / 2]
}

/// The memory of one side: each has its own, of the same contents.
#[derive(Clone, PartialEq)]
struct Memory {
    bytes: Vec<u8>,
    numbers: Vec<u16>,
    state: Vec<u8>,
    watches: Vec<Watch>,
}

impl Memory {
    fn new() -> Memory {
        let mut state = vec![0; STATE];
        Library.to_image(Layout::LOWEST, &simon::load(simon::KEY, simon::PLAINTEXT), &mut state);
        Memory { bytes: vec![0; MOST_BYTES], numbers: vec![0; ROW * 65_535], state, watches: vec![] }
    }
}

type Job<'a> = &'a dyn Fn(&dyn Dualrail, &mut Memory) -> Answer;

fn time(job: Job, on: &dyn Dualrail, memory: &mut Memory) -> (f64, Answer) {
    let begin = Instant::now();
    let answer = black_box(job(on, memory));
    (begin.elapsed().as_secs_f64() * 1e6, answer)
}

fn judged(ratio: f64, goal: f64) -> String {
    format!("{ratio:8.2} {goal:6.1}{}", if ratio > goal { "  missed" } else { "" })
}

/// Times a job on both sides by turns; prints the medians in microseconds, their
/// ratio and the goal for it, and gives the library's median.
fn measure(name: &str, goal: f64, job: Job) -> f64 {
    measure_times(REPEATS, name, goal, job)
}

/// The same with so many repeats.
fn measure_times(repeats: usize, name: &str, goal: f64, job: Job) -> f64 {
    let (mut ours, mut theirs) = (Memory::new(), Memory::new());
    let (mut library, mut plain) = (vec![], vec![]);
    for turn in 0..repeats + 10 {
        // Who goes first changes from turn to turn.
        let (mine, other);
        if turn % 2 == 0 {
            mine = time(job, &Library, &mut ours);
            other = time(job, &Plain, &mut theirs);
        } else {
            other = time(job, &Plain, &mut theirs);
            mine = time(job, &Library, &mut ours);
        }
        assert_eq!(mine.1, other.1, "{name}: the answers differ");
        assert!(!matches!(mine.1, Answer::Refused { .. }), "{name}: refused");
        // The first turns only warm up.
        if turn >= 10 {
            library.push(mine.0);
            plain.push(other.0);
        }
    }
    assert!(ours == theirs, "{name}: the results differ");
    let (library, plain) = (median(library), median(plain));
    println!("{name:56} {library:10.1} {plain:10.1} {}", judged(library / plain, goal));
    library
}

/// Makes a call for each pair of operands, its result in its place; gives the nanoseconds of one.
fn time_calls(operands: &[(u8, u8)], results: &mut [u8], mut call: impl FnMut(u8, u8) -> u8) -> f64 {
    let begin = Instant::now();
    for (result, &(first, second)) in results.iter_mut().zip(operands) {
        *result = call(first, second);
    }
    black_box(results);
    begin.elapsed().as_secs_f64() * 1e9 / operands.len() as f64
}

/// Times calls that are too short for one alone, and for the detour by `dyn`, on both sides by turns; prints the medians
/// of one call in nanoseconds, their ratio and the goal for it.
fn measure_calls(
    name: &str,
    goal: f64,
    operands: &[(u8, u8)],
    mut library: impl FnMut(u8, u8) -> u8,
    mut plain: impl FnMut(u8, u8) -> u8,
) {
    let (mut ours, mut theirs) = (vec![0; operands.len()], vec![0; operands.len()]);
    let mut times = [vec![], vec![]];
    for turn in 0..REPEATS + 10 {
        // Who goes first changes from turn to turn, and the first turns only warm up.
        for side in [turn % 2, 1 - turn % 2] {
            let time = match side {
                0 => time_calls(operands, &mut ours, &mut library),
                _ => time_calls(operands, &mut theirs, &mut plain),
            };
            if turn >= 10 {
                times[side].push(time);
            }
        }
    }
    assert!(ours == theirs, "{name}: the results differ");
    let [library, plain] = times.map(median);
    println!("{name:56} {library:10.2} {plain:10.2} {}", judged(library / plain, goal));
}

fn stored(text: &str) -> Vec<u16> {
    let mut store = vec![0; SIX * MOST_LINES];
    let Answer::Counted(count) = Library.read(text.as_bytes(), &mut store) else { panic!("not read") };
    store.truncate(SIX * count as usize);
    store
}

/// The lent sets of the values that a place may have.
fn sets_of(values: impl Fn(usize) -> Vec<u8>) -> Vec<u8> {
    let mut sets = vec![];
    for place in 0..STATE {
        let mut set = values(place);
        set.insert(0, set.len() as u8);
        set.resize(SET, 0);
        sets.extend(set);
    }
    sets
}

/// Both codes in every sensitive place, one value in all others.
fn image_sets() -> Vec<u8> {
    let mut image = vec![0; STATE];
    Library.to_image(Layout::LOWEST, &[0; STATE], &mut image);
    sets_of(|place| if kind_of_place(place) == Kind::Sensitive { vec![1, 2] } else { vec![image[place]] })
}

/// A step with as many choices as any: both arguments by bases of 16 values to cells of 16 values, 16 old values, one
/// result. The second address is not as far from each of the first ones: a leak (request 07), but all choices must be
/// made, as 22 would go before it.
fn most_choices() -> (Vec<u16>, Vec<u8>) {
    let three: Vec<u8> = (0..=255u8).filter(|n| n.count_ones() == 3).collect();
    let sets = sets_of(|place| match place {
        4 => three[..16].to_vec(),
        5 => three[16..32].to_vec(),
        32 => three[..16].to_vec(),
        _ if place >= 288 && three[..16].contains(&((place - 288) as u8)) => {
            (0..16).map(|n| 16 * n).collect()
        }
        _ if place >= 288 => (0..16).collect(),
        _ => vec![0],
    });
    (stored("u,and,@0,^r4+0,^r5+0,\n"), sets)
}

/// A step with as many choices as any found that has no leak, 16 values of the bus and 16 old values among them. One
/// bit of each of four pairs, 16 values in all, is as far from both bits of two pairs, 6 values, whichever they are:
/// so the bus and the second address have the 16, and the first address, between them, the 6. The line before it puts
/// the 16 on the bus.
fn most_without_leak() -> (Vec<u16>, Vec<u8>) {
    let spread = |bits: u8, one: u8, zero: u8| -> u8 {
        (0..4).map(|pair| [zero, one][(bits >> pair & 1) as usize] << (2 * pair)).sum()
    };
    let single: Vec<u8> = (0..16).map(|bits| spread(bits, 1, 2)).collect();
    let double: Vec<u8> =
        (0..16u8).filter(|bits| bits.count_ones() == 2).map(|bits| spread(bits, 3, 0)).collect();
    let old: Vec<u8> = (0..=255u8).filter(|n| n.count_ones() == 3).take(16).collect();
    let sets = sets_of(|place| match place {
        4 | 6 => single.clone(),
        5 => double.clone(),
        32 => old.clone(),
        _ if place >= 288 && double.contains(&((place - 288) as u8)) => (0..16).map(|n| 16 * n).collect(),
        _ if place >= 288 => (0..16).collect(),
        _ => vec![0],
    });
    (stored("u,and,r7,^r6+0,#0,\nu,and,@0,^r5+0,^r4+0,\n"), sets)
}

fn runs(source: &[u16], expansion: &[u16]) {
    let run = |name: &str, program: &[u16]| {
        measure(name, 1.2, &|on, memory| on.run(program, 0, 65_535, &mut memory.state, &mut memory.numbers));
    };
    // A loop over indirect operands of all three forms.
    let looping = stored(
        "u,add,r4,r4,#1,\ns,xor,%r4+3,%r4+64,%r4+0,\nu,add,!r4+5,!r4+6,r4,\ns,mov,r16,^r4+7,,\n\
         s,and,%r5+1,%r4+9,r16,\nu,lsr,r6,!r4+100,#3,\nu,beq,,!r5+0,#255,8\ns,not,%r4+77,%r4+76,,\nu,jmp,,,,0\n",
    );
    run("run, loop with indirect operands, 65,535", &looping);
    watched_runs("that loop", &looping, [4, 6, 16, 32, 100, 160, 200, 543]);
    // The same with public places of all three forms in marked lines.
    let public = stored(
        "u,add,r4,r4,#1,\ns,xor,%r4+3,%r4+64,r4,\ns,and,%r5+1,!r4+6,%r4+9,\nu,add,!r4+5,!r4+6,r4,\n\
         s,mov,r16,!r4+7,,\ns,orr,%r4+77,@5,r6,\nu,jmp,,,,0\n",
    );
    run("run, loop with public bits, 65,535", &public);
    run("run, example cipher, 14,683 steps", source);
    run("run, its expansion, 61,579 steps", expansion);
    watched_runs("that expansion", expansion, [1, 3, 4, 8, 16, 33, 160, 224]);
}

/// Request 09: a run with eight watches, on places that it writes often, now and then, or never, and one with none.
fn watched_runs(name: &str, program: &[u16], places: [u16; 8]) {
    let eight = places.map(|place| Watch { place, value: 0, writes: 0, step: 0 });
    for (number, list) in [("eight watches", &eight[..]), ("no watches", &[])] {
        measure(&format!("run watched, {number}, {name}"), 1.5, &|on, memory| {
            memory.watches = list.to_vec();
            on.run_watched(program, 0, 65_535, &mut memory.state, &mut memory.numbers, &mut memory.watches)
        });
    }
}

/// Gives the longer of the library's medians for the two steps.
fn walks(expansion: &[u16]) -> f64 {
    let images = image_sets();
    measure("walk, its expansion on all images, 61,579", 1.2, &|on, _| on.judge(expansion, &images, 65_535));
    let (line, sets) = most_choices();
    let most = measure("walk, one step of 65,536 argument choices", 1.2, &|on, _| on.judge(&line, &sets, 1));
    let (lines, sets) = most_without_leak();
    most.max(measure("walk, one of 24,576 without a leak, 16 on the bus", 1.2, &|on, _| {
        on.judge(&lines, &sets, 2)
    }))
}

/// Request 05: 1,024 lines, every eighth of them marked, the others jumps, each with its own target.
fn mixed() -> Vec<u16> {
    let marked = ["s,xor,r16,@5,!r4+3,\n", "s,not,r17,r18,,\n", "s,mov,%r5+1,r4,,\n", "s,and,@200,#1,r18,\n"];
    let jump = ["u,jmp,,,,", "u,beq,,r4,#0,", "u,bne,,!r5+0,r6,"];
    let line = |at: usize| match at % 8 {
        0 => marked[at / 8 % 4].to_string(),
        _ => format!("{}{}\n", jump[at % 3], 1_024 - at),
    };
    stored(&(0..1_024).map(line).collect::<String>())
}

/// Gives three ratios of the library's medians: jumps to the end to jumps to line 0, and 1,024 to 4 times 256 of
/// jumps and of marked lines.
fn expansions() -> [f64; 3] {
    let few = [
        "s,xor,r16,%r4+3,r17,\n",
        "s,and,@200,#1,r18,\n",
        "s,orr,%r5+0,%r5+1,%r5+2,\n",
        "s,xor,r31,r16,r16,\n",
    ];
    let marked = |count: usize| stored(&few.concat().repeat(count / 4));
    let jumps = |count: usize, target: usize| stored(&format!("u,jmp,,,,{target}\n").repeat(count));
    let in_layout = |layout: Layout, name: &str, program: Vec<u16>| {
        measure(name, 1.0, &|on, memory| on.expand(layout, &program, &mut memory.numbers))
    };
    let expand = |name: &str, program: Vec<u16>| in_layout(Layout::LOWEST, name, program);
    expand("expand, 1,024 lines with two public bits", stored(&"s,xor,r16,@5,!r4+3,\n".repeat(1_024)));
    let long = expand("expand, 1,024 marked lines", marked(1_024));
    for layout in &Layout::ALL[1..] {
        in_layout(*layout, &format!("expand, 1,024 marked lines, {}", in_words(*layout)), marked(1_024));
    }
    let short = expand("expand, 256 marked lines", marked(256));
    let jumps_0 = expand("expand, 1,024 jumps to line 0", jumps(1_024, 0));
    let jumps_end = expand("expand, 1,024 jumps to line 1,024", jumps(1_024, 1_024));
    let few_jumps = expand("expand, 256 jumps to line 256", jumps(256, 256));
    expand("expand, 896 jumps between 128 marked lines", mixed());
    [jumps_end / jumps_0, jumps_end / (4.0 * few_jumps), long / (4.0 * short)]
}

fn in_words(layout: Layout) -> String {
    format!("{} at {}", ["neighbours", "spaced"][layout.spacing as usize], layout.position)
}

/// Images and the way back, many calls at once, as one is soon done.
fn images() {
    let bits = simon::load(simon::KEY, simon::PLAINTEXT);
    for layout in [Layout::LOWEST, Layout::at(2, 1)] {
        let mut image = vec![0; STATE];
        Library.to_image(layout, &bits, &mut image);
        measure(&format!("to_image, 1,000 calls, {}", in_words(layout)), 1.0, &|on, memory| {
            a_thousand(|| on.to_image(layout, &bits, &mut memory.bytes[..STATE]))
        });
        measure(&format!("from_image, 1,000 calls, {}", in_words(layout)), 1.0, &|on, memory| {
            a_thousand(|| on.from_image(layout, &image, &mut memory.bytes[..STATE]))
        });
    }
}

/// Request 06: moves to another layout and to its own, many at once likewise.
fn moves() {
    let old = Layout::LOWEST;
    let mut image = vec![0; STATE];
    Library.to_image(old, &simon::load(simon::KEY, simon::PLAINTEXT), &mut image);
    for new in [Layout::at(2, 1), old] {
        let to = if new == old { "its own".to_string() } else { in_words(new) };
        let name = format!("move_image, 1,000 calls, {} to {to}", in_words(old));
        measure(&name, 1.0, &|on, memory| {
            a_thousand(|| on.move_image(old, new, &image, &mut memory.bytes[..STATE]))
        });
    }
}

/// Makes a call a thousand times; gives the last answer.
fn a_thousand(mut call: impl FnMut() -> Answer) -> Answer {
    for _ in 1..1_000 {
        black_box(call());
    }
    call()
}

/// Gives two ratios of the library's medians: reading and writing 1,024 lines to 4 times 256.
fn texts() -> [f64; 2] {
    // Lines of all forms, short and long ones.
    let few = [
        "s,xor,r16,%r4+3,r17,\n",
        "u,nop,,,,\n",
        "u,beq,,!r15+127,#255,12345\n",
        "u,mov,@99,^r31+255,,\n",
        "u,jmp,,,,7\n",
        "s,not,%r4+100,@200,,\n",
        "u,mul,r9,r10,r11,\n",
        "u,lsl,!r6+0,#128,@5,\n",
    ];
    let text = |count: usize| few.concat().repeat(count / 8);
    let read = |name: &str, count: usize| {
        let text = text(count);
        measure(name, 1.1, &|on, memory| on.read(text.as_bytes(), &mut memory.numbers))
    };
    let write = |name: &str, count: usize| {
        let program = stored(&text(count));
        measure(name, 1.0, &|on, memory| on.write(&program, &mut memory.bytes))
    };
    // Into just enough room the bytes are counted first.
    let write_tightly = |name: &str, count: usize| {
        let (program, size) = (stored(&text(count)), text(count).len());
        measure(name, 1.0, &|on, memory| on.write(&program, &mut memory.bytes[..size]))
    };
    read("read, 16,384 lines", 16_384);
    let read_long = read("read, 1,024 lines", 1_024);
    let read_short = read("read, 256 lines", 256);
    write("write, 16,384 lines", 16_384);
    write_tightly("write, 16,384 lines into just enough room", 16_384);
    let write_long = write("write, 1,024 lines", 1_024);
    let write_short = write("write, 256 lines", 256);
    [read_long / (4.0 * read_short), write_long / (4.0 * write_short)]
}

/// Request 08: published text taken in, and our line form sent out.
fn published() {
    // Names of 16 letters and digits, alike in front.
    let name = |at: usize| format!("aLabelFor{:07}", at % 1_024);
    let jumps: String = (0..1_024).map(|at| format!("{}:\n jmp {}\n", name(at), name(7 * at + 5))).collect();
    let comments = "; no line\n".repeat(1_000_000) + "nop\n";
    let mut cipher = vec![0; 1 << 16];
    let Answer::Counted(count) = Paper.send_out(simon::TEXT, &mut cipher) else { panic!("not sent out") };
    cipher.truncate(count as usize);
    let take_in = |repeats: usize, name: &str, goal: f64, text: &[u8]| {
        measure_times(repeats, name, goal, &|on, memory| on.take_in(text, &mut memory.bytes));
    };
    take_in(REPEATS, "take in: 1,024 jumps to 1,024 labels", 1.5, jumps.as_bytes());
    take_in(REPEATS, "take in: the example cipher", 1.2, &cipher);
    take_in(FEW_REPEATS, "take in: a million comment lines", 1.2, comments.as_bytes());

    let jumps: String = (0..1_024).map(|at| format!("u,jmp,,,,{}\n", (7 * at + 5) % 1_024)).collect();
    let send_out = |name: &str, text: &[u8]| {
        measure(name, 1.2, &|on, memory| on.send_out(text, &mut memory.bytes));
    };
    send_out("send out: 1,024 jumps to 1,024 lines", jumps.as_bytes());
    send_out("send out: the example cipher", simon::TEXT);
}

/// So many pairs of operands.
fn operands(count: usize, mut operand: impl FnMut() -> u8) -> Vec<(u8, u8)> {
    (0..count).map(|_| (operand(), operand())).collect()
}

/// The goal for calls of few nanoseconds, though the same code can be a quarter slower by where it lies.
const CALL_GOAL: f64 = 1.2;

/// Request 10: coding and look-ups of 4,096 random operands, one call each.
fn nibbles() {
    let mut rng = Random::new(10);
    let nibbles = operands(4_096, || rng.below(16) as u8);
    let codewords = operands(4_096, || rng.pick(&C));
    let bytes = operands(4_096, || rng.byte());
    for (kind, operands) in [("nibbles", &nibbles), ("any bytes", &bytes)] {
        let name = format!("encode, {kind}");
        measure_calls(&name, CALL_GOAL, operands, |a, _| Library.encode(a), |a, _| Plain.encode(a));
    }
    let (mut table, mut pairs): (MapTable, PairTable) = ([0; 64], [0; 4_096]);
    Library.map_table(&[12, 5, 6, 11, 9, 0, 10, 13, 3, 14, 15, 8, 4, 7, 1, 2], &mut table);
    Library.xor_table(&mut pairs);
    for (kind, operands) in [("codewords", &codewords), ("any bytes", &bytes)] {
        let name = format!("decode, {kind}");
        measure_calls(&name, CALL_GOAL, operands, |a, _| Library.decode(a), |a, _| Plain.decode(a));
        let ours = |a, _| Library.look_up(&table, a);
        let theirs = |a, _| Plain.look_up(&table, a);
        measure_calls(&format!("look up in a map's table, {kind}"), CALL_GOAL, operands, ours, theirs);
        let ours = |a, b| Library.look_up_pair(&pairs, a, b);
        let theirs = |a, b| Plain.look_up_pair(&pairs, a, b);
        measure_calls(
            &format!("look up two in the exclusive-or table, {kind}"),
            CALL_GOAL,
            operands,
            ours,
            theirs,
        );
        let name = format!("exclusive or, no table lent, {kind}");
        measure_calls(&name, CALL_GOAL, operands, |a, b| Library.xor(a, b), |a, b| Plain.xor(a, b));
    }
    tables(&nibbles);
}

/// Request 10: whole tables made, of which one entry goes to the results.
fn tables(nibbles: &[(u8, u8)]) {
    let mut rng = Random::new(11);
    let mut maps = [[0; 16]; 16];
    maps.as_flattened_mut().fill_with(|| rng.below(16) as u8);
    let map_of = |a: u8| &maps[a as usize];
    let [mut ours, mut theirs]: [MapTable; 2] = [[0; 64]; 2];
    measure_calls(
        "the table of a map made",
        1.2,
        nibbles,
        |a, b| {
            Library.map_table(map_of(a), &mut ours);
            ours[C[b as usize] as usize]
        },
        |a, b| {
            Plain.map_table(map_of(a), &mut theirs);
            theirs[C[b as usize] as usize]
        },
    );
    let [mut ours, mut theirs]: [PairTable; 2] = [[0; 4_096]; 2];
    let entry = |a: u8, b: u8| 64 * C[a as usize] as usize + C[b as usize] as usize;
    measure_calls(
        "the exclusive-or table written",
        1.2,
        &nibbles[..256],
        |a, b| {
            Library.xor_table(&mut ours);
            ours[entry(a, b)]
        },
        |a, b| {
            Plain.xor_table(&mut theirs);
            theirs[entry(a, b)]
        },
    );
    assert!(ours == theirs, "the exclusive-or tables differ");
}

/// Request 11: sets of least spread by 256 lists of random weights, one word of each going to the results.
fn codewords() {
    let mut rng = Random::new(12);
    let mut lists = [[0; 8]; 256];
    lists.as_flattened_mut().fill_with(|| rng.below(2_001) as i16 - 1_000);
    let drawn = operands(256, || rng.byte());
    for (bits, ones, size) in [(8, 4, 16), (8, 3, 16), (6, 3, 16), (4, 2, 4)] {
        let list_of = |a: u8| &lists[a as usize][..bits as usize];
        let word = |b: u8| (b % size) as usize;
        let [mut ours, mut theirs]: [WordSet; 2] = [[0; 16]; 2];
        measure_calls(
            &format!("choose {size} words of {bits} bits with {ones} ones"),
            CALL_GOAL,
            &drawn,
            |a, b| {
                Library.choose(bits, ones, size, list_of(a), &mut ours);
                ours[word(b)]
            },
            |a, b| {
                Plain.choose(bits, ones, size, list_of(a), &mut theirs);
                theirs[word(b)]
            },
        );
    }
}

fn main() {
    println!(
        "Medians of {REPEATS} repeats in microseconds; both sides in one process, by turns, on the same"
    );
    println!("input; buffers are not cleared between repeats, and a run goes on from the state left before.");
    if cfg!(feature = "no-library") {
        println!(
            "Built without the library: the paper's implementation, made for clarity, stands in its place."
        );
    }
    println!("{:56} {:>10} {:>10} {:>8} {:>6}", "", "library", "plain C", "ratio", "goal");

    let (source, expansion) = simon::programs(&Library, Layout::LOWEST);
    runs(&source, &expansion);
    let step = walks(&expansion);
    let [jumps, more_jumps, lines] = expansions();
    images();
    moves();
    let [read, write] = texts();
    published();

    println!(
        "\nThe nibble engine and codewords: one call in nanoseconds, by 4,096 calls in a repeat, of the last kinds 256."
    );
    nibbles();
    codewords();

    println!("\nThe worst step of a walk found: {:.2} ms.", step / 1000.0);
    println!("\nThe library alone, ratios of its medians:");
    let alone = |name: &str, ratio: f64, goal: f64| println!("{name:78} {}", judged(ratio, goal));
    alone("expand, 1,024 jumps to line 1,024 against to line 0", jumps, 1.1);
    alone("expand, 1,024 jumps against 4 times 256 jumps", more_jumps, 1.2);
    alone("expand, 1,024 lines against 4 times 256 lines", lines, 1.2);
    alone("read, 1,024 lines against 4 times 256 lines", read, 1.2);
    alone("write, 1,024 lines against 4 times 256 lines", write, 1.2);
}
