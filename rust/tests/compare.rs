//! The library against the paper, on many random calls.

use dualrail::compare::bus::Bus;
use dualrail::compare::codewords::{Codewords, Relation};
use dualrail::compare::jumps::Jumps;
use dualrail::compare::moves::Moves;
use dualrail::compare::nibble::Nibbles;
use dualrail::compare::published::{Published, FORMS};
use dualrail::compare::watch::Watches;
use dualrail::compare::{compare, Counts, WITH_LAYOUT};
use dualrail::generate::codewords::{Wrong, SIZES};
use dualrail::generate::moves::Damage;
use dualrail::generate::published::Slip;
use dualrail::paper::Opcode;
use dualrail::plain::Plain;
use dualrail::Library;

const CASES: u64 = 144_000;

fn from_environment(name: &str) -> Option<u64> {
    std::env::var(name).ok().map(|value| value.parse().expect("a number"))
}

/// Every refusal, every verdict and the long way must be met often, 13 never. Another seed, more cases, or
/// one case alone are had by DUALRAIL_SEED, DUALRAIL_CASES, DUALRAIL_CASE in the environment.
#[test]
fn library_against_paper() {
    let seed = from_environment("DUALRAIL_SEED").unwrap_or(1);
    if let Some(case) = from_environment("DUALRAIL_CASE") {
        compare(&Library, seed, case, case + 1).unwrap_or_else(|report| panic!("{report}"));
        return;
    }
    let cases = from_environment("DUALRAIL_CASES").unwrap_or(CASES).max(CASES);
    let counts = compare(&Library, seed, 0, cases).unwrap_or_else(|report| panic!("{report}"));
    println!("seed {seed}: {}", counts.show());
    assert!(counts.calls >= 1_000_000);
    for (number, &count) in counts.refusals.iter().enumerate().skip(1) {
        match number {
            13 => assert_eq!(count, 0, "refusal 13 came"),
            _ => assert!(count >= 300, "refusal {number} came {count} times only"),
        }
    }
    assert!(counts.halted >= 10_000 && counts.spent >= 10_000);
    assert!(counts.public_bits >= 50_000, "{} public bits only", counts.public_bits);
    for number in [3, 4, 5, 6, 7, 18, 21, 22] {
        let count = counts.refused_walks[number];
        assert!(count >= 50, "walks were refused with {number} {count} times only");
    }
    assert!(counts.balanced >= 1_000 && counts.spent_walks >= 1_000 && counts.leaks >= 1_000);
    assert!(
        counts.crowded >= 100 && counts.leaks_shown >= 500 && counts.exact.iter().all(|&count| count >= 300)
    );
    layouts_are_met(&counts);
    jumps_are_met(&counts.jumps);
    moves_are_met(&counts.moves);
    the_bus_is_met(&counts.bus);
    published_text_is_met(&counts.published);
    watches_are_met(&counts.watches);
    nibbles_are_met(&counts.nibbles);
    codewords_are_met(&counts.codewords);
}

/// Request 04: each of the six layouts often, in whole runs and walks too, and 23 before every other refusal.
fn layouts_are_met(counts: &Counts) {
    assert!(counts.whole_runs.iter().all(|&count| count >= 3_000), "{:?} whole runs only", counts.whole_runs);
    for [balanced, spent] in counts.image_walks {
        assert!(balanced >= 500 && spent >= 500, "{:?} walks on images only", counts.image_walks);
    }
    assert!(counts.other_images >= 200, "{} images of other layouts only", counts.other_images);
    let others: [&[usize]; 3] =
        [&[0, 3, 4, 5, 6, 7, 9, 10, 11, 12, 14, 15, 16, 17], &[0, 18, 19], &[0, 18, 19]];
    for (at, entry) in WITH_LAYOUT.iter().enumerate() {
        let successes = counts.in_layout[at];
        assert!(successes.iter().all(|&count| count >= 3_000), "{entry:?} succeeds {successes:?} times only");
        let outside = counts.outside[at];
        assert!(outside.iter().all(|&count| count >= 1_000), "{entry:?}: 23 came {outside:?} times only");
        for &other in others[at] {
            let count = counts.before[at][other];
            assert!(count >= 100, "{entry:?}: 23 came before {other} {count} times only");
        }
    }
}

/// Request 05: in each layout jumps of all kinds, programs of 1,024 lines too; and what is refused of such.
fn jumps_are_met(jumps: &Jumps) {
    let in_each = [
        ("programs", jumps.programs, 2_000),
        ("programs of 1,024 lines", jumps.longest, 200),
        ("programs with each target its own", jumps.own_targets, 800),
        ("jumps to line 0", jumps.to_first, 20_000),
        ("jumps to the end", jumps.to_end, 20_000),
        ("jumps back across marked lines", jumps.back, 50_000),
        ("jumps on across marked lines", jumps.on, 50_000),
    ];
    for (name, counts, least) in in_each {
        assert!(counts.iter().all(|&count| count >= least), "{name}: {counts:?} only");
    }
    for opcode in [Opcode::Jmp, Opcode::Beq, Opcode::Bne] {
        let count = jumps.opcodes[opcode as usize];
        assert!(count >= 300_000, "{opcode:?} came {count} times only");
    }
    for length in [4, 5, 6, 7, 13, 14, 15, 16, 17, 18] {
        let count = jumps.parts[length];
        assert!(count >= 5_000, "a part of {length} lines came {count} times only");
    }
    for number in [9, 16, 17, 23] {
        let count = jumps.refusals[number];
        assert!(count >= 2_000, "programs full of jumps were refused with {number} {count} times only");
    }
    assert!(jumps.past_end >= 2_000 && jumps.line_short >= 2_000);
}

/// Request 06: each of the 36 pairs of layouts, everything that can be wrong with an image, and each refusal before the others.
fn moves_are_met(moves: &Moves) {
    let by_pair = [
        ("moves", moves.done, 1_500),
        ("moves refused with 19", moves.refused, 250),
        ("moves there and back", moves.back, 150),
        ("runs gone on", moves.gone_on, 150),
        ("equal traces", moves.equal, 150),
    ];
    for (name, counts, least) in by_pair {
        assert!(counts.as_flattened().iter().all(|&count| count >= least), "{name}: {counts:?} only");
    }
    assert!(moves.lines >= 20_000 && moves.equal_rows >= 500_000);
    // Since request 07 a run mostly leaves 0 in r2.
    let least = [10_000, 5_000, 10_000];
    let enough = moves.scratch.iter().zip(least).all(|(&count, least)| count >= least);
    assert!(enough && moves.left_by_run >= 3_000, "{:?} with something in scratch only", moves.scratch);
    for damage in Damage::all() {
        let [taken, refused] = moves.damages[damage as usize];
        let right = match damage {
            _ if Damage::HARMLESS.contains(&damage) => taken >= 1_000 && refused == 0,
            _ if Damage::REFUSED.contains(&damage) => taken == 0 && refused >= 1_000,
            _ => taken >= 100 && refused >= 500,
        };
        assert!(right, "{damage:?}: taken {taken} times, refused {refused} times");
    }
    assert!(moves.lengths.iter().all(|&count| count >= 5_000) && moves.before_19 >= 2_000);
    assert!(moves.outside.iter().all(|&count| count >= 5_000), "23 came {:?} times only", moves.outside);
    for number in [0, 18, 19] {
        let count = moves.before[number];
        assert!(count >= 3_000, "23 of a move came before {number} {count} times only");
    }
}

/// Request 07: addresses in every field and form, 0 and none among them, stores that are too small by the new count
/// alone, tables in each layout, and walks with one address on the bus and with several.
fn the_bus_is_met(bus: &Bus) {
    let at_least = [
        ("addresses", bus.addresses.as_flattened(), 400),
        ("addresses 0 after another", &bus.zeros, 300),
        ("fields without address after another", &bus.none, 900),
        ("cells read and written, bases written", &[bus.twice, bus.bases], 200),
        ("branches not taken and taken", &bus.branches, 300),
        ("addresses after nop, jmp, others without any", &bus.kept, 150),
        ("runs cut in two, shown by a distance", &[bus.cut, bus.shown], 450),
        ("stores too small", &bus.short, 1_300),
        ("lines with tables", bus.tables.as_flattened(), 3_000),
        ("walks with one address, with two, with four", &[1, 2, 4].map(|most| bus.most[most]), 400),
        ("walks with 16 addresses", &bus.most[16..], 40),
        ("steps from several addresses", &[bus.passed], 450),
        ("leaks in distances alone", &[bus.leaks], 900),
        ("leaks of several addresses together", &[bus.of_several], 200),
        ("leaks in distances at a branch", &[bus.at_branch], 60),
    ];
    for (name, counts, least) in at_least {
        assert!(counts.iter().all(|&count| count >= least), "{name}: {counts:?} only");
    }
}

/// Request 08: every refusal on both sides, every slip with its number alone, every form of line, stores of every
/// size, and texts that come home.
fn published_text_is_met(published: &Published) {
    let refusals: [&[usize]; 2] =
        [&[0, 17, 24, 25], &[0, 1, 2, 3, 4, 5, 6, 7, 9, 10, 11, 12, 14, 15, 16, 17]];
    for (answers, numbers) in published.answers.iter().zip(refusals) {
        for (number, &count) in answers.iter().enumerate() {
            match numbers.contains(&number) {
                true => assert!(count >= 80, "{number} came {count} times only"),
                false => assert_eq!(count, 0, "{number} came"),
            }
        }
    }
    for slip in Slip::all() {
        let [taken, first, second] = published.slips[&slip];
        let right = match slip {
            _ if Slip::HARMLESS.contains(&slip) => taken >= 300 && first == 0 && second == 0,
            _ if Slip::REFUSED_24.contains(&slip) => taken == 0 && first >= 300 && second == 0,
            _ if Slip::REFUSED_25.contains(&slip) => taken == 0 && first == 0 && second >= 300,
            _ => taken >= 200 && first >= 200 && second >= 200,
        };
        assert!(
            right,
            "{slip:?}: taken {taken} times, refused with 24 {first} times, with 25 {second} times"
        );
    }
    for ((name, _), count) in FORMS.iter().zip(published.forms) {
        assert!(count >= 5_000, "{name} came {count} times only");
    }
    let at_least = [
        ("stores", published.rooms.as_flattened(), 500),
        ("texts of 1,024 lines, of 1,025 labels", &[published.longest, published.most_labels], 300),
        ("refusals past line 65,535", &published.far, 50),
        ("labels sent out", &published.labels, 500),
        ("lines sent out without", &[published.unlabelled], 10_000),
        ("refusals of reading past line 1,023", &published.behind[1..7], 30),
        ("texts that came home", &published.home, 2_000),
    ];
    for (name, counts, least) in at_least {
        assert!(counts.iter().all(|&count| count >= least), "{name}: {counts:?} only");
    }
}

/// Request 09: lists of every length, places touched in every way, counts and steps that need all their bits, every
/// relation, and 26 after every other refusal.
fn watches_are_met(watches: &Watches) {
    let at_least = [
        ("lists", &watches.lists[..], 150),
        ("runs without a step", &watches.idle, 150),
        ("watches by how their places are touched", &watches.touched, 2_500),
        ("watches unwritten and not 0", &[watches.unwritten], 6_000),
        ("watches on one place", &[watches.twice], 9_000),
        ("watches by the destination that wrote them", &watches.forms, 800),
        ("the same value last, always", &[watches.same, watches.always_same], 1_500),
        ("written by a line that reads it, through it", &[watches.argument, watches.base], 1_200),
        ("destinations that are elsewhere at the end", &[watches.elsewhere], 100),
        ("read after the last write", &[watches.read_later], 700),
        ("written by the first step last", &[watches.first], 1_500),
        ("written by the last step, halted, spent", &watches.last, 1_300),
        ("written at the ends", &watches.ends, 140),
        ("writes and steps above 8 and 15 bits", &watches.large, 350),
        ("most writes", &[watches.most], 40),
        ("runs without watches, watches alone, cut", &[watches.without, watches.alone, watches.cut], 4_000),
        ("written in the front, in the back, in both", &watches.halves, 2_000),
        ("26 for the count, a place, both", &watches.wrong, 600),
        ("26 for nine, for 544", &watches.nearest, 150),
        ("26 without a step", &[watches.idle_26], 1_000),
        ("20 for more numbers than 16 bits count", &[watches.wide], 50),
    ];
    for (name, counts, least) in at_least {
        assert!(counts.iter().all(|&count| count >= least), "{name}: {counts:?} only");
    }
    for number in [3, 4, 5, 6, 7, 18, 20] {
        let [right, wrong] = watches.refusals.map(|refusals| refusals[number]);
        assert!(right >= 40 && wrong >= 120, "{number} came {right} and {wrong} times only");
    }
    assert_eq!(watches.refusals[0][26], 0, "26 came for a right list");
}

/// Request 10: all operands of everything, maps of every kind, and 27 at every index and for every length to 40.
fn nibbles_are_met(nibbles: &Nibbles) {
    let every = [
        ("calls", &nibbles.calls[..], 400),
        ("all operands", &[nibbles.whole], 400),
        ("pairs", nibbles.pairs.as_flattened().as_flattened(), 10_000),
        ("operands of tables", nibbles.words.as_flattened(), 60_000),
        ("maps by kind", &nibbles.kinds, 500),
        ("maps followed by another", &[nibbles.followed], 4_000),
        ("rows of the exclusive or", &[nibbles.rows], 500),
        ("27 for the length, a value, both", &nibbles.wrong, 4_000),
        ("27 for a value by its index", &nibbles.at, 40),
        ("27 before a larger value, a smaller one", &nibbles.several, 1_000),
        ("27 for the last value alone", &[nibbles.last_alone], 500),
        ("27 for 16, for 255", &nibbles.nearest, 500),
        ("27 at 0 with a wrong value elsewhere", &[nibbles.elsewhere], 2_000),
    ];
    for (name, counts, least) in every {
        assert!(counts.iter().all(|&count| count >= least), "{name}: {counts:?} only");
    }
    for length in (0..=40).filter(|&length| length != 16).chain([272, 65_552]) {
        let count = nibbles.lengths.get(&length).copied().unwrap_or(0);
        assert!(count >= 40, "27 came for {length} values {count} times only");
    }
    assert_eq!(nibbles.lengths.get(&16), None, "27 came for 16 values");
}

/// Request 11: weights of every kind, every length, number of ones and size, ties and equal signals, every relation, 28
/// for everything that can be outside, with enough words and too few, and 29 for every reason.
fn codewords_are_met(codewords: &Codewords) {
    let every = [
        ("sets by kind of weights", &codewords.kinds[..], 300),
        ("inputs by length, ones and size", codewords.shapes.as_flattened().as_flattened(), 80),
        ("inputs with all sets gone over, with some", &codewords.gone_over, 1_500),
        ("sets gone over", &codewords.sets, 500_000),
        ("the only run, the first, the last, one between", &codewords.runs, 150),
        ("ties", &[codewords.ties], 800),
        ("equal signals, all equal, none equal", &[codewords.equal, codewords.flat, codewords.distinct], 800),
        ("equal signals across the end", &[codewords.cut], 800),
        ("words not in the order of values", &[codewords.unsorted], 1_500),
        ("signals beyond 8, 12, 13 bits", &codewords.wide, 80),
        ("signals of both signs", &[codewords.signs], 500),
        ("spreads above 127, 255, 1,000", &codewords.spreads, 80),
        ("29 by the reason", &codewords.short, 5_000),
        ("28 for several", &codewords.several, 1_000),
        ("28 for a weight by its index", codewords.at.as_flattened(), 60),
        ("28 for -1001, 1001, the smallest, the largest", &codewords.nearest, 300),
    ];
    for (name, counts, least) in every {
        assert!(counts.iter().all(|&count| count >= least), "{name}: {counts:?} only");
    }
    for relation in Relation::ALL {
        let [all, exact] = [codewords.relations, codewords.exact].map(|counts| counts[relation as usize]);
        let least = match relation {
            Relation::Halved | Relation::Longer | Relation::LongerByOne => 0,
            _ => 800,
        };
        assert!(all >= 2_000 && exact >= least, "{relation:?} came {all} times, with the same words {exact}");
    }
    for wrong in Wrong::ALL {
        let [enough, too_few] = codewords.wrong[wrong as usize];
        // Nine ones are more than any length has.
        let right = too_few >= 500 && (enough >= 500 || wrong == Wrong::Ones);
        assert!(right, "28 for {wrong:?}: {enough} times with enough words, {too_few} with too few");
    }
    outside_is_met(codewords);
}

/// Request 11: 28 for lengths, ones and sizes beside the right ones, and for counts of weights beside the length.
fn outside_is_met(codewords: &Codewords) {
    let by_number = [
        ("a length", &codewords.bits, vec![0, 1, 2, 3, 9, 10, 16, 20, 255], 4..=8),
        ("ones", &codewords.ones, vec![9, 10, 16, 17, 32, 128, 129, 255], 0..=8),
    ];
    for (name, met, outside, right) in by_number {
        for number in outside {
            let count = met.get(&number).copied().unwrap_or(0);
            assert!(count >= 10, "28 came for {name} of {number} {count} times only");
        }
        assert!(!met.keys().any(|number| right.contains(number)), "28 came for {name} that is right");
    }
    for size in (0..=18).chain([20, 32, 64, 128, 255]) {
        let count = codewords.sizes.get(&size).copied().unwrap_or(0);
        match SIZES.contains(&size) {
            true => assert_eq!(count, 0, "28 came for a size of {size}"),
            false => assert!(count >= 10, "28 came for a size of {size} {count} times only"),
        }
    }
    for bits in 4..=8 {
        let length = bits as usize;
        for weights in [0, length - 1, length + 1, 256 + length, 65_536 + length] {
            let count = codewords.counts.get(&(bits, weights)).copied().unwrap_or(0);
            assert!(count >= 4, "28 came for {weights} weights of {bits} bits {count} times only");
        }
    }
}

/// The measure of the benchmark does the same job.
#[test]
fn plain_c_against_paper() {
    compare(&Plain, 1, 0, CASES / 4).unwrap_or_else(|report| panic!("plain C: {report}"));
}
