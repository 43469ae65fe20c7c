//! The edges and examples that the papers print, and a few for the walk, for the layouts, for jumps, for moves, for
//! the bus, for the published spelling, for watches, for the nibble engine and for codewords.

use dualrail::paper::walk::SET;
use dualrail::paper::{Paper, MOST_LINES, ROW, SIX, STATE};
use dualrail::plain::Plain;
use dualrail::simon;
use dualrail::Answer::{self, *};
use dualrail::{Dualrail, Layout, Library, MapTable, PairTable, Watch, WordSet};

fn each(test: fn(&dyn Dualrail)) {
    test(&Library);
    test(&Paper);
    test(&Plain);
}

fn refused(number: u16, line: u32) -> Answer {
    Refused { number, line }
}

fn stored(on: &dyn Dualrail, text: &str) -> Vec<u16> {
    let mut store = vec![0; SIX * 2_000];
    let Counted(count) = on.read(text.as_bytes(), &mut store) else { panic!("{text}") };
    store.truncate(SIX * count as usize);
    store
}

/// The answer of reading and, where it succeeds, of the mark check.
fn judged(on: &dyn Dualrail, text: &str) -> Answer {
    let mut store = vec![0; SIX * 2_000];
    match on.read(text.as_bytes(), &mut store) {
        Counted(count) => on.check(&store[..SIX * count as usize]),
        answer => answer,
    }
}

/// The value of r4 after one step from a state of zeros.
fn one_step(on: &dyn Dualrail, line: &str) -> u8 {
    let mut state = [0; STATE];
    on.run(&stored(on, line), 0, 1, &mut state, &mut [0; ROW]);
    state[4]
}

#[test]
fn spelling() {
    each(|on| {
        assert_eq!(stored(on, "s,not,r16,r17,,\n"), [1, 2, 273, 274, 0, 0]);
        assert_eq!(judged(on, ""), Counted(0));
        assert_eq!(judged(on, "\n"), refused(2, 0));
        assert_eq!(judged(on, "u"), refused(1, 0));
        assert_eq!(judged(on, "u,nop,,,,"), refused(1, 0));
        assert_eq!(judged(on, "u,nop,,,,\r\n"), refused(5, 0));
        assert_eq!(judged(on, "u,nop,,,,\nu,jmp,,,,0\r\n"), refused(6, 1));
        assert_eq!(judged(on, "u,mov,#1,,,\n"), refused(5, 0));
        assert_eq!(judged(on, "u,mov,#1,#1,,\n"), refused(6, 0));
        assert_eq!(judged(on, ",nop,,,,\n"), refused(3, 0));
        assert_eq!(judged(on, "u,,,,,\n"), refused(4, 0));
        assert_eq!(judged(on, "u,mov,r4,!r4+00,,\n"), refused(6, 0));
        assert_eq!(judged(on, &format!("u,{},,,,\n", "x".repeat(34))), refused(4, 0));
        assert_eq!(judged(on, &format!("u,{},,,,\n", "x".repeat(35))), refused(1, 0));
        let mut store = [9; 12];
        assert_eq!(on.read(b"u,nop,,,,\nu,nop,,,,\nu,nop,,,,\n", &mut store), refused(8, 2));
        assert_eq!(on.read(b"u,jmp,,,,0\nx\n", &mut store[..11]), refused(8, 1));
        assert_eq!(store, [0, 1, 0, 0, 0, 1, 0, 0, 0, 0, 0, 0]);
    });
}

#[test]
fn mark_check() {
    each(|on| {
        assert_eq!(judged(on, &"u,nop,,,,\n".repeat(1_024)), Counted(1_024));
        assert_eq!(judged(on, &"u,nop,,,,\n".repeat(1_025)), refused(9, 0));
        assert_eq!(judged(on, "s,mov,r16,#1,,\n"), Counted(1));
        assert_eq!(judged(on, "s,mov,r16,#2,,\n"), refused(15, 0));
        assert_eq!(judged(on, "s,mov,@255,r16,,\n"), Counted(1));
        assert_eq!(judged(on, "s,mov,@256,r16,,\n"), refused(10, 0));
        assert_eq!(judged(on, "s,mov,@512,r16,,\n"), refused(6, 0));
        assert_eq!(judged(on, "u,jmp,,,,2\nu,nop,,,,\n"), Counted(2));
        assert_eq!(judged(on, "u,jmp,,,,3\nu,nop,,,,\n"), refused(16, 0));
        assert_eq!(judged(on, "u,mov,r4,!r3+0,,\n"), refused(10, 0));
        assert_eq!(judged(on, "u,mov,r16,r4,,\n"), refused(11, 0));
        assert_eq!(judged(on, "u,mov,r4,!r16+0,,\n"), refused(12, 0));
        assert_eq!(judged(on, "s,nop,,,,\n"), refused(14, 0));
        // Request 03: no 13, so that the next condition shows.
        assert_eq!(judged(on, "s,mov,r16,r4,,\ns,not,@128,@127,,\ns,and,%r4+0,!r4+0,#1,\n"), Counted(3));
        assert_eq!(judged(on, "s,beq,,r4,#0,0\n"), refused(14, 0));
        assert_eq!(judged(on, "s,lsl,r16,r16,r4,\n"), refused(14, 0));
        assert_eq!(judged(on, "s,xor,r16,r4,#2,\n"), refused(15, 0));
        assert_eq!(judged(on, "s,mov,r16,r3,,\n"), refused(10, 0));
        assert_eq!(judged(on, "s,mov,r5,r4,,\n"), refused(11, 0));
        assert_eq!(judged(on, "s,mov,r16,!r16+0,,\n"), refused(12, 0));
    });
}

#[test]
fn machine() {
    each(|on| {
        assert_eq!(one_step(on, "u,add,r4,#200,#100,\n"), 44);
        assert_eq!(one_step(on, "u,lsl,r4,#128,#1,\n"), 0);
        // Request 02: the count modulo 8, in both directions and under both marks.
        assert_eq!(one_step(on, "u,lsl,r4,#1,#8,\n"), 1);
        assert_eq!(one_step(on, "u,lsr,r4,#128,#15,\n"), 1);
        for (count, left, right) in [(7, 128, 1), (8, 255, 255), (255, 128, 1)] {
            for mark in ["u", "s"] {
                assert_eq!(one_step(on, &format!("{mark},lsl,r4,#255,#{count},\n")), left);
                assert_eq!(one_step(on, &format!("{mark},lsr,r4,#255,#{count},\n")), right);
            }
        }
        assert_eq!(one_step(on, "u,not,r4,#0,,\n"), 255);
        assert_eq!(one_step(on, "s,not,r4,#2,,\n"), 3);
        let mut state = [0; STATE];
        let nop = stored(on, "u,nop,,,,\n");
        assert_eq!(on.run(&[], 0, 0, &mut state, &mut []), Halted { counter: 0, steps: 0 });
        assert_eq!(on.run(&nop, 0, 0, &mut state, &mut []), Spent { counter: 0, steps: 0 });
        assert_eq!(on.run(&nop, 0, 1, &mut state, &mut [0; ROW]), Halted { counter: 1, steps: 1 });
        assert_eq!(on.run(&nop, 0, 1, &mut state, &mut [0; ROW - 1]), refused(20, 0));
        // With r4 = 1, %r4+127 is cell 128; from 1 to 2 changes 2 bits; 261 has 3 ones.
        state[4] = 1;
        state[32 + 128] = 1;
        state[32 + 261] = 7;
        let mut trace = [0; ROW];
        on.run(&stored(on, "u,add,%r4+127,@261,#251,\n"), 0, 1, &mut state, &mut trace);
        // Request 07: 261 is 3 bits from 0, and 128 is 4 from 261.
        assert_eq!((state[32 + 128], trace), (2, [0, 1, 2, 3, 0, 1, 3, 0, 4]));
    });
}

/// Request 03: lines and targets go to 32,768.
#[test]
fn limits() {
    each(|on| {
        let mut store = vec![0; SIX * 32_770];
        let text = b"u,nop,,,,\n".repeat(32_769);
        assert_eq!(on.read(&text[10..], &mut store), Counted(32_768));
        assert_eq!(on.read(&text, &mut store), refused(7, 32_768));
        assert_eq!(on.read(&text, &mut store[..SIX * 32_768]), refused(7, 32_768));
        assert_eq!(on.read(&text, &mut store[..SIX * 32_768 - 1]), refused(8, 32_767));
        store.fill(0);
        let mut out = vec![0; text.len()];
        assert_eq!(on.write(&store[..SIX * 32_768], &mut out), Counted(327_680));
        assert_eq!(on.write(&store[..SIX * 32_769], &mut out), refused(7, 32_768));
        assert_eq!(on.check(&store[..SIX * 32_768]), refused(9, 0));
        assert_eq!(on.check(&store[..SIX * 32_769]), refused(7, 32_768));
        let mut state = [0; STATE];
        let run = |program: &[u16], state: &mut [u8]| on.run(program, 32_767, 1, state, &mut [0; ROW]);
        assert_eq!(run(&store[..SIX * 32_768], &mut state), Halted { counter: 32_768, steps: 1 });
        assert_eq!(run(&store[..SIX * 32_769], &mut state), refused(7, 32_768));
        // A target above 16,384 is right, and the mark check's to refuse.
        for target in [16_385, 32_768] {
            let text = format!("u,jmp,,,,{target}\n");
            assert_eq!(judged(on, &text), refused(16, 0));
            let jump = stored(on, &text);
            assert_eq!(jump, [0, 1, 0, 0, 0, 1 + target]);
            let mut row = [9; ROW];
            assert_eq!(on.run(&jump, 0, 1, &mut state, &mut row), Halted { counter: target, steps: 1 });
            assert_eq!(row, [0; ROW]);
        }
        assert_eq!(judged(on, "u,jmp,,,,32769\n"), refused(6, 0));
        assert_eq!(on.check(&[0, 1, 0, 0, 0, 1 + 32_769]), refused(6, 0));
    });
}

/// The value of r16 and the row after one step; before it all places are 0 but for these.
fn step_from(on: &dyn Dualrail, line: &str, places: &[(usize, u8)]) -> (u8, [u16; ROW]) {
    let mut state = [0; STATE];
    for &(place, value) in places {
        state[place] = value;
    }
    let mut row = [0; ROW];
    on.run(&stored(on, line), 0, 1, &mut state, &mut row);
    (state[16], row)
}

/// Request 03: a public place as argument of a marked line means its lowest bit.
#[test]
fn public_bits() {
    each(|on| {
        let value = |line: &str, places: &[(usize, u8)]| step_from(on, line, places).0;
        // Public places and no others, however they are reached.
        for (operand, place) in
            [("r4", 4), ("r15", 15), ("@0", 32), ("@127", 159), ("!r0+0", 32), ("!r0+127", 159)]
        {
            let (marked, unmarked) = (format!("s,mov,r16,{operand},,\n"), format!("u,mov,r16,{operand},,\n"));
            assert_eq!((value(&marked, &[(place, 7)]), value(&marked, &[(place, 254)])), (1, 0));
            assert_eq!(value(&unmarked, &[(place, 254)]), 254);
        }
        for (operand, place) in [
            ("r0", 0),
            ("r3", 3),
            ("r16", 16),
            ("r31", 31),
            ("@128", 160),
            ("@255", 287),
            ("@256", 288),
            ("@511", 543),
            ("%r4+0", 160),
            ("^r4+0", 288),
        ] {
            assert_eq!(value(&format!("s,mov,r16,{operand},,\n"), &[(place, 254)]), 254, "{operand}");
        }
        // Under every opcode, in both arguments.
        for (line, result) in [
            ("s,not,r16,r4,,\n", 0),
            ("s,and,r16,r4,#255,\n", 1),
            ("s,orr,r16,#6,r4,\n", 7),
            ("s,xor,r16,r4,r5,\n", 1),
            ("s,lsl,r16,#6,r4,\n", 12),
            ("s,lsl,r16,r4,#3,\n", 8),
            ("s,lsr,r16,#6,r4,\n", 3),
            ("s,add,r16,r4,r4,\n", 2),
            ("s,mul,r16,r4,#9,\n", 9),
        ] {
            assert_eq!(value(line, &[(4, 255), (5, 254)]), result, "{line}");
        }
        assert_eq!(value("s,lsl,r16,r16,r4,\n", &[(4, 3), (16, 5)]), 10);
        // A base is no argument; nor are literals and old values touched.
        assert_eq!(value("s,mov,r16,!r4+0,,\n", &[(4, 2), (32 + 2, 255)]), 1);
        assert_eq!(value("s,mov,r16,%r4+0,,\n", &[(4, 2), (160 + 2, 2)]), 2);
        assert_eq!(value("s,mov,r16,#6,,\n", &[]), 6);
        assert_eq!(step_from(on, "s,mov,r5,r4,,\n", &[(4, 3), (5, 254)]).1, [0, 1, 8, 0, 0, 0, 0, 0, 0]);
        // Branches too: never equal to 3.
        let mut state = [0; STATE];
        state[4] = 3;
        for (line, counter) in [
            ("s,beq,,r4,#3,5\n", 1),
            ("s,beq,,r4,#1,5\n", 5),
            ("s,bne,,#1,r4,5\n", 1),
            ("u,beq,,r4,#3,5\n", 5),
        ] {
            let answer = on.run(&stored(on, line), 0, 1, &mut state, &mut [0; ROW]);
            assert_eq!(answer, Halted { counter, steps: 1 }, "{line}");
        }
    });
}

/// The expansion as text.
fn expanded(on: &dyn Dualrail, layout: Layout, text: &str) -> String {
    let mut expansion = [0; SIX * 100];
    let Counted(lines) = on.expand(layout, &stored(on, text), &mut expansion) else { panic!("{text}") };
    let mut out = [0; 4_096];
    let Counted(size) = on.write(&expansion[..SIX * lines as usize], &mut out) else { panic!("{text}") };
    String::from_utf8_lossy(&out[..size as usize]).into_owned()
}

/// A marked line's expansion must be these lines, written without their mark.
fn becomes(on: &dyn Dualrail, layout: Layout, text: &str, lines: &[&str]) {
    let wanted: String = lines.iter().map(|line| format!("s,{line}\n")).collect();
    assert_eq!(expanded(on, layout, text), wanted, "{layout:?}");
}

/// Request 03: a public place is loaded by three lines, anything else by one as before.
#[test]
fn loads() {
    each(|on| {
        let same = |text: &str, lines: &[&str]| becomes(on, Layout::LOWEST, text, lines);
        same(
            "s,xor,r16,r16,r4,\n",
            &[
                "mov,r1,r0,,",
                "mov,r1,r16,,",
                "and,r1,r1,#3,",
                "lsl,r1,r1,#1,",
                "lsl,r1,r1,#1,",
                "mov,r2,r0,,",
                "mov,r2,r4,,",
                "and,r2,r2,#1,",
                "mov,r2,^r2+240,,",
                "and,r2,r2,#3,",
                "orr,r1,r1,r2,",
                "mov,r3,^r0+32,,",
                "mov,r3,^r1+32,,",
                "mov,r2,^r0+32,,",
                "mov,r16,r0,,",
                "mov,r16,r3,,",
            ],
        );
        same(
            "s,and,%r5+1,@127,!r4+3,\n",
            &[
                "mov,r1,r0,,",
                "mov,r1,@127,,",
                "and,r1,r1,#1,",
                "mov,r1,^r1+240,,",
                "and,r1,r1,#3,",
                "lsl,r1,r1,#1,",
                "lsl,r1,r1,#1,",
                "mov,r2,r0,,",
                "mov,r2,!r4+3,,",
                "and,r2,r2,#1,",
                "mov,r2,^r2+240,,",
                "and,r2,r2,#3,",
                "orr,r1,r1,r2,",
                "mov,r3,^r0+0,,",
                "mov,r3,^r1+0,,",
                "mov,r2,^r0+0,,",
                "mov,%r5+1,r0,,",
                "mov,%r5+1,r3,,",
            ],
        );
        same(
            "s,orr,@200,r31,#0,\n",
            &[
                "mov,r1,r0,,",
                "mov,r1,r31,,",
                "and,r1,r1,#3,",
                "lsl,r1,r1,#1,",
                "lsl,r1,r1,#1,",
                "mov,r2,r0,,",
                "mov,r2,#2,,",
                "and,r2,r2,#3,",
                "orr,r1,r1,r2,",
                "mov,r3,^r0+16,,",
                "mov,r3,^r1+16,,",
                "mov,r2,^r0+16,,",
                "mov,@200,r0,,",
                "mov,@200,r3,,",
            ],
        );
        same(
            "s,not,r16,r15,,\n",
            &[
                "mov,r1,r0,,",
                "mov,r1,r15,,",
                "and,r1,r1,#1,",
                "mov,r1,^r1+240,,",
                "xor,r1,r1,#3,",
                "mov,r16,r0,,",
                "mov,r16,r1,,",
            ],
        );
        same(
            "s,mov,r16,@0,,\n",
            &[
                "mov,r3,r0,,",
                "mov,r3,@0,,",
                "and,r3,r3,#1,",
                "mov,r3,^r3+240,,",
                "mov,r16,r0,,",
                "mov,r16,r3,,",
            ],
        );
        same("s,mov,r16,@128,,\n", &["mov,r3,r0,,", "mov,r3,@128,,", "mov,r16,r0,,", "mov,r16,r3,,"]);
        // Targets follow the longer parts.
        let jumps = expanded(on, Layout::LOWEST, "u,jmp,,,,2\ns,xor,r16,r4,r5,\nu,jmp,,,,0\n");
        assert!(jumps.starts_with("u,jmp,,,,19\n") && jumps.ends_with("u,jmp,,,,0\n"), "{jumps}");
        let longest = stored(on, &"s,xor,r16,r4,r5,\n".repeat(1_024));
        let mut expansion = vec![0; SIX * 18 * 1_024];
        assert_eq!(on.expand(Layout::LOWEST, &longest, &mut expansion[1..]), refused(17, 0));
        assert_eq!(on.expand(Layout::LOWEST, &longest, &mut expansion), Counted(18_432));
    });
}

/// The verdict, all places being 0 but for these, budget 9.
fn verdict(on: &dyn Dualrail, text: &str, places: &[(usize, &[u8])]) -> Answer {
    let mut sets = [[0; SET]; STATE];
    sets.iter_mut().for_each(|set| set[0] = 1);
    for &(place, values) in places {
        sets[place][0] = values.len() as u8;
        sets[place][1..=values.len()].copy_from_slice(values);
    }
    on.judge(&stored(on, text), &sets.concat(), 9)
}

#[test]
fn walk() {
    each(|on| {
        let balanced = |steps: u16| Balanced { counter: steps, steps };
        assert_eq!(verdict(on, "", &[]), balanced(0));
        assert_eq!(verdict(on, "u,jmp,,,,0\n", &[]), Spent { counter: 0, steps: 9 });
        assert_eq!(verdict(on, "u,jmp,,,,7\n", &[]), Balanced { counter: 7, steps: 1 });
        // The written place gets all results, and none else.
        assert_eq!(verdict(on, "u,mov,r4,r5,,\n", &[(5, &[1, 2])]), balanced(1));
        assert_eq!(verdict(on, "u,mov,r4,r5,,\n", &[(5, &[1, 3])]), Leak { line: 0, steps: 0 });
        let twice = "u,mov,r4,r5,,\nu,add,r6,r4,#1,\n";
        assert_eq!(verdict(on, twice, &[(5, &[1, 2])]), Leak { line: 1, steps: 1 });
        assert_eq!(verdict(on, "u,mov,r4,#0,,\nu,beq,,r4,#0,2\n", &[(4, &[1, 2])]), balanced(2));
        // A place used twice takes one value.
        assert_eq!(verdict(on, "u,xor,r4,r4,r4,\n", &[(4, &[1, 2, 4])]), balanced(1));
        assert_eq!(
            verdict(on, "u,xor,r4,r4,r5,\n", &[(4, &[1, 2]), (5, &[1, 2])]),
            Leak { line: 0, steps: 0 }
        );
        // A read draws on each cell that the base reaches, which the base's value decides.
        let cells: &[(usize, &[u8])] = &[(1, &[1, 2]), (32 + 257, &[2]), (32 + 258, &[1])];
        assert_eq!(verdict(on, "u,mov,r4,^r1+0,,\n", cells), balanced(1));
        assert_eq!(verdict(on, "u,mov,r1,^r1+0,,\n", cells), balanced(1));
        assert_eq!(verdict(on, "u,mov,r4,^r1+1,,\n", cells), Leak { line: 0, steps: 0 });
        // Request 02: counts alike modulo 8 give equal rows, and others from 8 up need not.
        assert_eq!(verdict(on, "u,lsl,r4,#3,r5,\n", &[(5, &[0, 8])]), balanced(1));
        assert_eq!(verdict(on, "s,lsr,r4,#3,r5,\n", &[(5, &[8, 9])]), Leak { line: 0, steps: 0 });
        // 21, also where both values of a base reach one cell, or a place is compared with itself.
        assert_eq!(verdict(on, "u,mov,!r5+0,#0,,\n", &[(5, &[0, 128])]), refused(21, 0));
        assert_eq!(verdict(on, "u,nop,,,,\nu,beq,,r5,r5,0\n", &[(5, &[0, 1])]), refused(21, 1));
        assert_eq!(verdict(on, "u,beq,,r5,#7,0\n", &[(5, &[7, 7])]), Spent { counter: 0, steps: 9 });
        // Request 03: the lowest bits of a public place in a marked line, for 21 too; a base is read whole.
        assert_eq!(verdict(on, "s,mov,r16,r5,,\n", &[(5, &[2, 6])]), balanced(1));
        assert_eq!(verdict(on, "u,mov,r16,r5,,\n", &[(5, &[2, 6])]), Leak { line: 0, steps: 0 });
        assert_eq!(verdict(on, "s,mov,r16,r5,,\n", &[(5, &[2, 3])]), Leak { line: 0, steps: 0 });
        assert_eq!(verdict(on, "s,mov,r5,r5,,\n", &[(5, &[2, 6])]), Leak { line: 0, steps: 0 });
        assert_eq!(verdict(on, "s,mov,r16,^r5+0,,\n", &[(5, &[0, 1])]), Leak { line: 0, steps: 0 });
        assert_eq!(verdict(on, "s,bne,,r5,#0,0\n", &[(5, &[0, 2])]), balanced(1));
        assert_eq!(verdict(on, "s,bne,,@3,#0,0\n", &[(32 + 3, &[1, 3])]), Spent { counter: 0, steps: 9 });
        assert_eq!(verdict(on, "s,beq,,!r4+3,#9,0\n", &[(32 + 3, &[1, 3])]), balanced(1));
        assert_eq!(verdict(on, "s,bne,,r5,#0,0\n", &[(5, &[0, 1])]), refused(21, 0));
        assert_eq!(verdict(on, "u,bne,,r5,#0,0\n", &[(5, &[0, 2])]), refused(21, 0));
        assert_eq!(verdict(on, "s,bne,,r16,#0,0\n", &[(16, &[0, 2])]), refused(21, 0));
        assert_eq!(verdict(on, "s,bne,,r3,#0,0\n", &[(3, &[0, 2])]), refused(21, 0));
        assert_eq!(verdict(on, "s,bne,,!r5+0,#0,0\n", &[(5, &[0, 2])]), refused(21, 0));
        assert_eq!(verdict(on, "s,mov,!r5+0,#0,,\n", &[(5, &[0, 2])]), refused(21, 0));
        let all: Vec<u8> = (0..16).collect();
        assert_eq!(verdict(on, "s,add,r16,r4,r5,\n", &[(4, &all), (5, &all)]), Leak { line: 0, steps: 0 });
        // 22 from 17 results on, before the leak and after 21.
        let many: Vec<u8> = (0..16).collect();
        assert_eq!(verdict(on, "u,orr,r4,r5,r6,\n", &[(5, &many), (6, &[0, 8])]), Leak { line: 0, steps: 0 });
        assert_eq!(verdict(on, "u,add,r4,r5,r6,\n", &[(5, &many), (6, &[0, 1])]), refused(22, 0));
        let based: &[(usize, &[u8])] = &[(5, &many), (6, &[0, 1]), (7, &[0, 1])];
        assert_eq!(verdict(on, "u,add,!r7+0,r5,r6,\n", based), refused(21, 0));
        // The start: 18, then 22; the program before both.
        assert_eq!(on.judge(&[], &[0; SET * STATE - 1], 0), refused(18, 0));
        assert_eq!(on.judge(&[], &[0; SET * STATE], 0), refused(22, 0));
        assert_eq!(on.judge(&[], &[17; SET * STATE], 0), refused(22, 0));
        assert_eq!(on.judge(&[0, 0, 0, 0, 0, 0, 2, 0, 0, 0, 0, 0], &[], 0), refused(3, 1));
    });
}

#[test]
fn the_two_programs() {
    each(|on| {
        let program = stored(on, "s,not,r16,r17,,\n");
        let mut expansion = [0; SIX * 5];
        assert_eq!(on.expand(Layout::LOWEST, &program, &mut expansion), Counted(5));
        let mut text = [0; 100];
        let Counted(size) = on.write(&expansion, &mut text) else { panic!() };
        let printed: &[u8] =
            b"s,mov,r1,r0,,\ns,mov,r1,r17,,\ns,xor,r1,r1,#3,\ns,mov,r16,r0,,\ns,mov,r16,r1,,\n";
        assert_eq!(&text[..size as usize], printed);
        let mut image = [0; STATE];
        assert_eq!(on.to_image(Layout::LOWEST, &[0; STATE], &mut image), Counted(544));
        let mut trace = [0; ROW * 1_000];
        assert_eq!(on.run(&expansion, 0, 1_000, &mut image, &mut trace), Halted { counter: 5, steps: 5 });
        let rows = [
            [0, 0, 0, 0, 0, 0, 0, 0, 0],
            [1, 1, 1, 0, 0, 0, 0, 0, 0],
            [2, 1, 2, 0, 0, 0, 0, 0, 0],
            [3, 0, 1, 0, 0, 0, 0, 0, 0],
            [4, 1, 1, 0, 0, 0, 0, 0, 0],
        ];
        assert_eq!(trace[..ROW * 5], rows.concat());
    });
}

#[test]
fn tables() {
    each(|on| {
        let mut image = [0; STATE];
        on.to_image(Layout::LOWEST, &[0; STATE], &mut image);
        let page = &image[32 + 256..];
        assert_eq!((page[5], page[6], page[16 + 9], page[32 + 5], page[32]), (1, 2, 1, 2, 0));
        // Request 03: cells 496 and 497.
        assert_eq!((page[240], page[241]), (2, 1));
        assert_eq!(page.iter().filter(|&&entry| entry != 0).count(), 14);
        assert_eq!((image[0], image[16], image[32 + 255], image[32 + 127]), (0, 2, 2, 0));
        let mut bits = [0; STATE];
        assert_eq!(on.from_image(Layout::LOWEST, &image, &mut bits), Counted(544));
        // An image of before it is one no more.
        for cells in [[0, 0], [2, 0], [0, 1], [1, 2], [2, 2], [1, 1]] {
            image[32 + 496..=32 + 497].copy_from_slice(&cells);
            assert_eq!(on.from_image(Layout::LOWEST, &image, &mut bits), refused(19, 0), "{cells:?}");
        }
    });
}

const NEIGHBOURS_1: Layout = Layout::at(1, 0);
const NEIGHBOURS_2: Layout = Layout::at(2, 0);
const SPACED_0: Layout = Layout::at(0, 1);
const SPACED_1: Layout = Layout::at(1, 1);
const SPACED_2: Layout = Layout::at(2, 1);

/// Request 04: neighbours at position 1 have the codes 2 for 1 and 4 for 0, mask 6, tables at 0, 32 and 64.
#[test]
fn neighbours_in_macros() {
    each(|on| {
        becomes(
            on,
            NEIGHBOURS_1,
            "s,orr,@200,r31,#1,\n",
            &[
                "mov,r1,r0,,",
                "mov,r1,r31,,",
                "and,r1,r1,#6,",
                "lsl,r1,r1,#1,",
                "lsl,r1,r1,#1,",
                "mov,r2,r0,,",
                "mov,r2,#2,,",
                "and,r2,r2,#6,",
                "orr,r1,r1,r2,",
                "mov,r3,^r0+32,,",
                "mov,r3,^r1+32,,",
                "mov,r2,^r0+32,,",
                "mov,@200,r0,,",
                "mov,@200,r3,,",
            ],
        );
        let not = ["mov,r1,r0,,", "mov,r1,#4,,", "xor,r1,r1,#6,", "mov,r16,r0,,", "mov,r16,r1,,"];
        becomes(on, NEIGHBOURS_1, "s,not,r16,#0,,\n", &not);
        let mov = ["mov,r3,r0,,", "mov,r3,#8,,", "mov,r16,r0,,", "mov,r16,r3,,"];
        becomes(on, NEIGHBOURS_2, "s,mov,r16,#0,,\n", &mov);
        // An unmarked line becomes itself in every layout.
        assert_eq!(expanded(on, SPACED_2, "u,and,r4,#1,#0,\n"), "u,and,r4,#1,#0,\n");
    });
}

/// Request 04: spaced at position 2 the codes are 4 and 16, the mask is 20, the tables at 0, 64 and 128.
#[test]
fn spaced_in_macros() {
    each(|on| {
        becomes(
            on,
            SPACED_2,
            "s,xor,r16,%r4+3,#0,\n",
            &[
                "mov,r1,r0,,",
                "mov,r1,%r4+3,,",
                "and,r1,r1,#20,",
                "lsl,r1,r1,#1,",
                "mov,r2,r0,,",
                "mov,r2,#16,,",
                "and,r2,r2,#20,",
                "orr,r1,r1,r2,",
                "mov,r3,^r0+128,,",
                "mov,r3,^r1+128,,",
                "mov,r2,^r0+128,,",
                "mov,r16,r0,,",
                "mov,r16,r3,,",
            ],
        );
        let not = ["mov,r1,r0,,", "mov,r1,r17,,", "xor,r1,r1,#20,", "mov,r16,r0,,", "mov,r16,r1,,"];
        becomes(on, SPACED_2, "s,not,r16,r17,,\n", &not);
        // Targets follow the shorter parts: 13 lines, and 17 with two public places.
        let text = "u,jmp,,,,3\ns,xor,r16,r17,#1,\ns,xor,r16,r4,@5,\nu,jmp,,,,2\n";
        let jumps = expanded(on, SPACED_0, text);
        assert!(jumps.starts_with("u,jmp,,,,31\n") && jumps.ends_with("\nu,jmp,,,,14\n"), "{jumps}");
    });
}

/// Request 04: spaced at position 1 the codes are 2 and 8 and the mask is 10; a public bit still is the lowest.
#[test]
fn a_public_bit_when_spaced() {
    each(|on| {
        becomes(
            on,
            SPACED_1,
            "s,and,r20,r4,r17,\n",
            &[
                "mov,r1,r0,,",
                "mov,r1,r4,,",
                "and,r1,r1,#1,",
                "mov,r1,^r1+240,,",
                "and,r1,r1,#10,",
                "lsl,r1,r1,#1,",
                "mov,r2,r0,,",
                "mov,r2,r17,,",
                "and,r2,r2,#10,",
                "orr,r1,r1,r2,",
                "mov,r3,^r0+0,,",
                "mov,r3,^r1+0,,",
                "mov,r2,^r0+0,,",
                "mov,r20,r0,,",
                "mov,r20,r3,,",
            ],
        );
    });
}

/// The cells of the page of a layout's images that are not 0.
fn page_cells(on: &dyn Dualrail, layout: Layout) -> Vec<(usize, u8)> {
    let mut image = [9; STATE];
    assert_eq!(on.to_image(layout, &[0; STATE], &mut image), Counted(544));
    let cells = image[32..].iter().copied().enumerate().skip(256);
    cells.filter(|&(_, value)| value != 0).collect()
}

/// Request 04: the table pages of a spaced layout and of a higher one.
#[test]
fn pages() {
    each(|on| {
        // Spaced at position 1: indices 6 (1, 1), 12 (1, 0), 18 (0, 1), 24 (0, 0), tables at 256, 288 and 320.
        let and = [(262, 2), (268, 8), (274, 8), (280, 8)];
        let orr = [(294, 2), (300, 2), (306, 2), (312, 8)];
        let xor = [(326, 8), (332, 2), (338, 2), (344, 8)];
        assert_eq!(page_cells(on, SPACED_1), [&and[..], &orr, &xor, &[(496, 8), (497, 2)]].concat());
        // Neighbours at position 2: indices 20, 24, 36 and 40, tables at 256, 320 and 384.
        let and = [(276, 4), (280, 8), (292, 8), (296, 8)];
        let orr = [(340, 4), (344, 4), (356, 4), (360, 8)];
        let xor = [(404, 8), (408, 4), (420, 4), (424, 8)];
        assert_eq!(page_cells(on, NEIGHBOURS_2), [&and[..], &orr, &xor, &[(496, 8), (497, 4)]].concat());
    });
}

/// Request 04: codes of the layout in the image, and the way back by these alone.
#[test]
fn codes() {
    each(|on| {
        let codes = [(NEIGHBOURS_1, 4, 2), (NEIGHBOURS_2, 8, 4), (SPACED_0, 4, 1), (SPACED_2, 16, 4)];
        for (layout, zero, one) in codes {
            let mut bits = [0; STATE];
            bits[31] = 1;
            bits[32 + 127] = 200;
            let mut image = [0; STATE];
            assert_eq!(on.to_image(layout, &bits, &mut image), Counted(544));
            assert_eq!((image[31], image[32 + 127], image[32 + 128]), (one, 200, zero), "{layout:?}");
            let mut back = [9; STATE];
            assert_eq!(on.from_image(layout, &image, &mut back), Counted(544));
            assert_eq!(back, bits);
            for other in [zero + one, 0, 1, 2, 4, 8, 16, 32] {
                image[32 + 255] = other;
                let right = other == zero || other == one;
                let answer = if right { Counted(544) } else { refused(19, 0) };
                assert_eq!(on.from_image(layout, &image, &mut back), answer, "{layout:?}, code {other}");
            }
        }
    });
}

/// Request 04: the printed trace is the same in every layout, the codes having one bit each.
#[test]
fn a_run_in_each_layout() {
    each(|on| {
        for (layout, one) in Layout::ALL.into_iter().zip([1, 2, 4, 1, 2, 4]) {
            let mut expansion = [0; SIX * 5];
            on.expand(layout, &stored(on, "s,not,r16,r17,,\n"), &mut expansion);
            let mut image = [0; STATE];
            on.to_image(layout, &[0; STATE], &mut image);
            let mut trace = [0; ROW * 5];
            assert_eq!(on.run(&expansion, 0, 5, &mut image, &mut trace), Halted { counter: 5, steps: 5 });
            let ones: Vec<[u16; 2]> = trace.chunks_exact(ROW).map(|row| [row[1], row[2]]).collect();
            assert_eq!(ones, [[0, 0], [1, 1], [1, 2], [0, 1], [1, 1]], "{layout:?}");
            assert_eq!(image[16], one, "{layout:?}");
        }
    });
}

/// Request 04: 23 before all else, at line 0.
#[test]
fn layouts_outside() {
    each(|on| {
        let mut state = [7; STATE];
        let mut numbers = [7; SIX];
        for (position, spacing) in [(3, 0), (0, 2), (3, 2), (255, 1), (2, 255), (255, 255)] {
            let layout = Layout::at(position, spacing);
            // A right program; no line; a line that is not accepted; too little room; too many lines.
            let nop = stored(on, "u,nop,,,,\n");
            assert_eq!(on.expand(layout, &nop, &mut numbers), refused(23, 0));
            assert_eq!(on.expand(layout, &[9; SIX], &mut numbers), refused(23, 0));
            assert_eq!(on.expand(layout, &stored(on, "u,nop,,,,\ns,nop,,,,\n"), &mut []), refused(23, 0));
            assert_eq!(on.expand(layout, &nop, &mut []), refused(23, 0));
            assert_eq!(on.expand(layout, &nop.repeat(1_025), &mut []), refused(23, 0));
            assert_eq!(on.expand(layout, &nop.repeat(32_769), &mut []), refused(23, 0));
            // Right states, wrong places, wrong lengths.
            let mut image = [0; STATE];
            assert_eq!(on.to_image(Layout::LOWEST, &[0; STATE], &mut image), Counted(544));
            for input in [&[0; STATE][..], &image, &[255; STATE], &[], &[0; STATE + 1]] {
                assert_eq!(on.to_image(layout, input, &mut state), refused(23, 0));
                assert_eq!(on.to_image(layout, input, &mut []), refused(23, 0));
                assert_eq!(on.from_image(layout, input, &mut state), refused(23, 0));
                assert_eq!(on.from_image(layout, input, &mut []), refused(23, 0));
            }
        }
        assert!(state == [7; STATE] && numbers == [7; SIX]);
    });
}

/// The expansion as stored lines, of which there must be so many; room for a line less is refused.
fn expanded_to(on: &dyn Dualrail, layout: Layout, program: &[u16], count: usize) -> Vec<u16> {
    let mut out = vec![9; SIX * count];
    for less in [SIX, 1] {
        assert_eq!(on.expand(layout, program, &mut out[less..]), refused(17, 0), "{layout:?}");
    }
    assert!(out.iter().all(|&number| number == 9), "{layout:?}");
    assert_eq!(on.expand(layout, program, &mut out), Counted(count as u32), "{layout:?}");
    out
}

/// A jump to the target that is made of each line's number.
fn jumps(on: &dyn Dualrail, count: usize, target: fn(usize) -> usize) -> Vec<u16> {
    let text: String = (0..count).map(|line| format!("u,jmp,,,,{}\n", target(line))).collect();
    stored(on, &text)
}

/// Request 05: jumps alone become themselves, each line's start being its number and the end's the line count.
#[test]
fn jumps_alone() {
    each(|on| {
        // All to the end, all to line 0; each to itself, to the next line, to one as far from the end as it from 0.
        let targets: [fn(usize) -> usize; 5] =
            [|_| 1_024, |_| 0, |line| line, |line| line + 1, |line| 1_024 - line];
        for target in targets {
            let program = jumps(on, 1_024, target);
            for layout in Layout::ALL {
                assert!(expanded_to(on, layout, &program, 1_024) == program, "{layout:?}");
            }
        }
        let mut out = [9; SIX * 1_025];
        let mut answer = |program: Vec<u16>| on.expand(Layout::LOWEST, &program, &mut out);
        assert_eq!(answer(jumps(on, 1_024, |_| 1_025)), refused(16, 0));
        assert_eq!(answer(jumps(on, 1_024, |line| line + 2)), refused(16, 1_023));
        assert_eq!(answer(jumps(on, 1_025, |_| 1_025)), refused(9, 0));
        assert_eq!(answer(jumps(on, 1_025, |_| 1_026)), refused(9, 0));
        assert_eq!(out, [9; SIX * 1_025]);
    });
}

/// The unmarked lines of the expansion must be these, each after its number.
fn unmarked(on: &dyn Dualrail, layout: Layout, text: &str, wanted: &[&str]) {
    let expansion = expanded(on, layout, text);
    let lines = expansion.lines().enumerate().filter(|(_, line)| line.starts_with('u'));
    let numbered: Vec<String> = lines.map(|(at, line)| format!("{at} {line}")).collect();
    assert_eq!(numbered, wanted, "{layout:?}");
}

/// Request 05: jumps back and on across marked lines, whose parts have 16, 4, 7 and 18 lines for neighbours; spaced,
/// 15, 4, 7 and 17.
#[test]
fn jumps_around_marked_lines() {
    each(|on| {
        let text = "u,jmp,,,,5\ns,xor,r16,r17,r4,\nu,beq,,r4,#0,1\ns,mov,r16,@128,,\nu,bne,,r4,r5,2\n\
                    s,not,r18,@5,,\nu,jmp,,,,8\ns,and,r16,r4,r5,\n";
        // The lines start at 0, 1, 17, 18, 22, 23, 30 and 31, and the end is 49.
        let neighbours = ["0 u,jmp,,,,23", "17 u,beq,,r4,#0,1", "22 u,bne,,r4,r5,17", "30 u,jmp,,,,49"];
        unmarked(on, NEIGHBOURS_1, text, &neighbours);
        // At 0, 1, 16, 17, 21, 22, 29 and 30, and the end is 47.
        let spaced = ["0 u,jmp,,,,22", "16 u,beq,,r4,#0,1", "21 u,bne,,r4,r5,16", "29 u,jmp,,,,47"];
        unmarked(on, SPACED_1, text, &spaced);
    });
}

/// Request 05: the end starts where the last part ends, be the marked lines before the jump or behind it.
#[test]
fn jumps_to_the_end() {
    each(|on| {
        // 18 lines or, spaced, 17; then 6.
        let text = "s,orr,r16,r4,@5,\ns,mov,r17,r4,,\nu,jmp,,,,3\n";
        unmarked(on, NEIGHBOURS_2, text, &["24 u,jmp,,,,25"]);
        unmarked(on, SPACED_0, text, &["23 u,jmp,,,,24"]);
        unmarked(on, SPACED_2, "u,jmp,,,,2\ns,not,r16,r17,,\n", &["0 u,jmp,,,,6"]);
        let expansion = expanded_to(on, NEIGHBOURS_2, &stored(on, text), 25);
        let answer = on.run(&expansion, 24, 9, &mut [0; STATE], &mut [0; 9 * ROW]);
        assert_eq!(answer, Halted { counter: 25, steps: 1 });
    });
}

/// Request 05: 1,024 lines, of every four the first marked and with two public places, the others jumps, each
/// with its own target: line 1 to line 1,023, line 1,023 to line 1.
#[test]
fn jumps_with_their_own_targets() {
    each(|on| {
        let mut program = jumps(on, 1_024, |line| 1_024 - line);
        for four in program.chunks_exact_mut(4 * SIX) {
            four[..SIX].copy_from_slice(&stored(on, "s,xor,r16,r4,r5,\n"));
        }
        for (layout, length) in [(NEIGHBOURS_2, 18), (SPACED_0, 17)] {
            // Four lines become three more than the marked one does.
            let start =
                |line: usize| (length + 3) * (line / 4) + [0, length, length + 1, length + 2][line % 4];
            let expansion = expanded_to(on, layout, &program, 256 * (length + 3));
            for line in (0..1_024).filter(|line| line % 4 > 0) {
                let jump = [0, 1, 0, 0, 0, 1 + start(1_024 - line) as u16];
                assert_eq!(expansion[SIX * start(line)..][..SIX], jump, "{layout:?}, line {line}");
            }
        }
    });
}

/// An image in neighbours at 0 with something in each kind of place: r1 to r3 as a run leaves them, public places
/// that look like codes, a 1 in r16, r31, cell 128 and cell 200.
fn image_to_move(on: &dyn Dualrail) -> [u8; STATE] {
    let mut bits = [0; STATE];
    for (place, value) in [(4, 1), (15, 2), (32, 4), (32 + 127, 200)] {
        bits[place] = value;
    }
    for place in [16, 31, 32 + 128, 32 + 200] {
        bits[place] = 1;
    }
    let mut image = [0; STATE];
    assert_eq!(on.to_image(Layout::LOWEST, &bits, &mut image), Counted(544));
    image[1..=3].copy_from_slice(&[10, 2, 255]);
    image
}

/// The move of a state that must succeed.
fn moved(on: &dyn Dualrail, old: Layout, new: Layout, state: &[u8]) -> [u8; STATE] {
    let mut into = [9; STATE];
    assert_eq!(on.move_image(old, new, state, &mut into), Counted(544), "{old:?} to {new:?}");
    into
}

/// Request 06: from neighbours at 0 (1 is 1, 0 is 2) to spaced at 2 (1 is 4, 0 is 16).
#[test]
fn a_move() {
    each(|on| {
        let image = image_to_move(on);
        let mut wanted = [0; STATE];
        for (place, value) in [(4, 1), (15, 2), (32, 4), (32 + 127, 200)] {
            wanted[place] = value;
        }
        wanted[16..=31].fill(16);
        wanted[32 + 128..=32 + 255].fill(16);
        for place in [16, 31, 32 + 128, 32 + 200] {
            wanted[place] = 4;
        }
        // Indices 12 (1, 1), 24 (1, 0), 36 (0, 1) and 48 (0, 0), tables at 256, 320 and 384.
        let and = [(268, 4), (280, 16), (292, 16), (304, 16)];
        let orr = [(332, 4), (344, 4), (356, 4), (368, 16)];
        let xor = [(396, 16), (408, 4), (420, 4), (432, 16)];
        for (cell, code) in [and, orr, xor].concat().into_iter().chain([(496, 16), (497, 4)]) {
            wanted[32 + cell] = code;
        }
        assert_eq!(moved(on, Layout::LOWEST, SPACED_2, &image), wanted);
    });
}

/// Request 06: there and back, and to its own layout: the same bytes, but for r1 to r3.
#[test]
fn moves_there_and_back() {
    each(|on| {
        let image = image_to_move(on);
        let mut wanted = image;
        wanted[1..=3].fill(0);
        assert_eq!(moved(on, Layout::LOWEST, Layout::LOWEST, &image), wanted);
        let mut state = image;
        // Around through all six.
        let layouts =
            [Layout::LOWEST, SPACED_1, NEIGHBOURS_2, SPACED_0, NEIGHBOURS_1, SPACED_2, Layout::LOWEST];
        for pair in layouts.windows(2) {
            assert_eq!(moved(on, pair[1], pair[0], &moved(on, pair[0], pair[1], &state))[4..], state[4..]);
            state = moved(on, pair[0], pair[1], &state);
        }
        assert_eq!(state, wanted);
    });
}

/// Request 06: what is refused, in its order, with nothing written.
#[test]
fn moves_refused() {
    each(|on| {
        let image = image_to_move(on);
        let outside = [Layout::at(3, 0), Layout::at(0, 2), Layout::at(255, 255)];
        let mut into = [7; STATE];
        for (from, size) in [(&image[..], STATE), (&[], 0), (&[255; STATE], STATE), (&image[1..], STATE + 1)]
        {
            for layout in outside {
                let mut into = vec![7; size];
                for (old, new) in [(layout, SPACED_0), (Layout::LOWEST, layout), (layout, layout)] {
                    assert_eq!(on.move_image(old, new, from, &mut into), refused(23, 0), "{old:?}, {new:?}");
                }
                assert!(into.iter().all(|&byte| byte == 7));
            }
        }
        let longer = [&image[..], &[0]].concat();
        for from in [&image[..543], &longer, &[]] {
            assert_eq!(on.move_image(Layout::LOWEST, SPACED_0, from, &mut into), refused(18, 0));
        }
        // 18 of the store before 19 of the state.
        for from in [image, [255; STATE]] {
            assert_eq!(on.move_image(Layout::LOWEST, SPACED_0, &from, &mut into[1..]), refused(18, 0));
            assert_eq!(on.move_image(Layout::LOWEST, SPACED_0, &from, &mut [7; STATE + 1]), refused(18, 0));
        }
        assert_eq!(into, [7; STATE]);
    });
}

/// Request 06: 19 by the rule of the way back, in the layout named as the old one, with nothing written.
#[test]
fn moves_judged_in_the_old_layout() {
    each(|on| {
        let image = image_to_move(on);
        let mut into = [7; STATE];
        // In r0, in each range of sensitive places, in the page; 4 is spaced at 0's code of 0.
        let wrong =
            [(0, 1), (16, 3), (17, 4), (31, 0), (160, 4), (287, 0), (288, 1), (32 + 496, 0), (543, 1)];
        for (place, value) in wrong {
            let mut damaged = image;
            damaged[place] = value;
            let answer = on.move_image(Layout::LOWEST, SPACED_0, &damaged, &mut into);
            assert_eq!(answer, refused(19, 0), "{value} in place {place}");
        }
        // Judged in the old layout alone.
        for old in &Layout::ALL[1..] {
            assert_eq!(on.move_image(*old, Layout::LOWEST, &image, &mut into), refused(19, 0), "{old:?}");
        }
        // An image of before request 03.
        let mut old = image;
        old[32 + 496..=32 + 497].fill(0);
        assert_eq!(on.move_image(Layout::LOWEST, Layout::LOWEST, &old, &mut into), refused(19, 0));
        assert_eq!(into, [7; STATE]);
    });
}

/// Request 06: a run of `not` in neighbours at 1, moved after its first line and finished in spaced at 0.
#[test]
fn a_run_that_moves() {
    each(|on| {
        let program = stored(on, "s,not,r16,r17,,\ns,and,r18,r16,#1,\n");
        let mut first = [0; SIX * 19];
        assert_eq!(on.expand(NEIGHBOURS_1, &program, &mut first), Counted(19));
        let mut second = [0; SIX * 18];
        assert_eq!(on.expand(SPACED_0, &program, &mut second), Counted(18));
        let mut image = [0; STATE];
        on.to_image(NEIGHBOURS_1, &[0; STATE], &mut image);
        let answer = on.run(&first, 0, 5, &mut image, &mut [0; ROW * 5]);
        assert_eq!(answer, Spent { counter: 5, steps: 5 });
        // r1 still has the code of 1.
        assert_eq!((image[1], image[16], image[17], image[18]), (2, 2, 4, 4));
        let mut image = moved(on, NEIGHBOURS_1, SPACED_0, &image);
        assert_eq!((image[1], image[16], image[17], image[18]), (0, 1, 4, 4));
        let mut trace = [0; ROW * 13];
        assert_eq!(on.run(&second, 5, 13, &mut image, &mut trace), Halted { counter: 18, steps: 13 });
        assert_eq!((image[16], image[17], image[18]), (1, 4, 1));
        // The first row: r1, which is 0 after the move, is cleared.
        assert_eq!(trace[..ROW], [5, 0, 0, 0, 0, 0, 0, 0, 0]);
    });
}

/// The rows of a run from line 0 to its end, all places being 0 before it but for these.
fn rows_of(on: &dyn Dualrail, text: &str, places: &[(usize, u8)]) -> Vec<[u16; ROW]> {
    let mut state = [0; STATE];
    for &(place, value) in places {
        state[place] = value;
    }
    let mut trace = [0; 20 * ROW];
    let answer = on.run(&stored(on, text), 0, 20, &mut state, &mut trace);
    let Halted { steps, .. } = answer else { panic!("{answer:?}") };
    trace.chunks_exact(ROW).take(steps as usize).map(|row| row.try_into().unwrap()).collect()
}

/// Request 07: a row ends with three distances, each from the address before it; no address, no distance.
#[test]
fn distances_in_a_row() {
    each(|on| {
        let row = |line: &str, places: &[(usize, u8)]| rows_of(on, line, places)[0];
        // From 0 to 3, to 0, to 3; and from 0 to 0 three times.
        let thrice = "u,add,!r4+0,!r4+0,@0,\n";
        assert_eq!(row(thrice, &[(4, 3)]), [0, 0, 0, 2, 0, 2, 2, 2, 2]);
        assert_eq!(row(thrice, &[(4, 0)]), [0; ROW]);
        // 1, then 7, then 256: one bit, two, four.
        assert_eq!(row("u,add,@256,@1,@7,\n", &[]), [0, 0, 0, 1, 3, 1, 1, 2, 4]);
        // A place read and written at once counts twice, with another address between too.
        assert_eq!(row("u,add,@5,@5,#1,\n", &[]), [0, 1, 1, 2, 0, 2, 2, 0, 0]);
        assert_eq!(row("u,add,@5,@5,@511,\n", &[]), [0, 0, 0, 2, 9, 2, 2, 7, 7]);
        assert_eq!(row("u,add,@5,@4,@5,\n", &[]), [0, 0, 0, 1, 2, 2, 1, 1, 0]);
        // Literals and registers leave the bus.
        assert_eq!(row("u,add,@7,#255,@1,\n", &[]), [0, 8, 8, 0, 1, 3, 0, 1, 2]);
        assert_eq!(row("u,add,@7,@1,#255,\n", &[]), [0, 8, 8, 1, 0, 3, 1, 0, 2]);
        assert_eq!(row("u,add,@7,r31,#1,\n", &[]), [0, 1, 1, 0, 0, 3, 0, 0, 3]);
        assert_eq!(row("u,mov,r4,^r5+255,,\n", &[(5, 1)]), [0, 0, 0, 1, 0, 0, 1, 0, 0]);
        // Branches too; a base itself is no address.
        assert_eq!(row("u,beq,,%r4+127,!r4+127,1\n", &[(4, 1)]), [0, 0, 0, 1, 0, 0, 1, 1, 0]);
        assert_eq!(row("s,bne,,@3,@5,1\n", &[]), [0, 0, 0, 2, 2, 0, 2, 2, 0]);
    });
}

/// Request 07: the bus holds the last address over steps that have none, jumps among them; address 0 is one.
#[test]
fn the_bus_over_steps() {
    each(|on| {
        let text = "u,mov,r4,@7,,\nu,mov,r5,r6,,\nu,mov,r4,@6,,\nu,mov,r4,@0,,\nu,mov,r4,@7,,\nu,nop,,,,\n\
                    u,jmp,,,,8\nu,nop,,,,\nu,beq,,@7,@6,10\nu,nop,,,,\nu,bne,,#1,#2,11\nu,mov,@511,#0,,\n";
        let rows = rows_of(on, text, &[]);
        let lines: Vec<u16> = rows.iter().map(|row| row[0]).collect();
        assert_eq!(lines, [0, 1, 2, 3, 4, 5, 6, 8, 10, 11]);
        let distances: Vec<[u16; 3]> = rows.iter().map(|row| [row[6], row[7], row[8]]).collect();
        let none = [0, 0, 0];
        let wanted =
            [[3, 0, 0], none, [1, 0, 0], [2, 0, 0], [3, 0, 0], none, none, [0, 1, 0], none, [0, 0, 7]];
        assert_eq!(distances, wanted);
    });
}

/// Request 07: addresses are those before the write, also where it changes a base; the next step has the new one.
#[test]
fn a_base_that_is_written() {
    each(|on| {
        // r4 goes from 2 to 9: cells 2 and 131, then cell 9.
        let rows = rows_of(on, "u,add,r4,!r4+0,%r4+1,\nu,mov,r5,!r4+0,,\n", &[(4, 2), (32 + 2, 9)]);
        assert_eq!(rows, [[0, 2, 3, 1, 3, 0, 1, 2, 0], [1, 0, 0, 2, 0, 0, 3, 0, 0]]);
    });
}

/// Request 07: the bus starts at 0 in every run, one from a later line too.
#[test]
fn the_bus_at_the_start() {
    each(|on| {
        let program = stored(on, "u,mov,r4,@7,,\nu,mov,r4,@7,,\n");
        let mut state = [0; STATE];
        let mut trace = [0; 2 * ROW];
        on.run(&program, 0, 2, &mut state, &mut trace);
        assert_eq!((trace[6], trace[ROW + 6]), (3, 0));
        for start in [0, 1, 0] {
            on.run(&program, start, 1, &mut state, &mut trace);
            assert_eq!(trace[..ROW], [start, 0, 0, 3, 0, 0, 3, 0, 0]);
        }
    });
}

/// Request 07: and so after a move. Cell 129 is 6 bits from cell 255, where the first line ends, and 2 from 0.
#[test]
fn the_bus_after_a_move() {
    each(|on| {
        let program = stored(on, "s,mov,@255,@129,,\ns,mov,@131,@129,,\n");
        let expansions = [Layout::LOWEST, SPACED_0].map(|layout| expanded_to(on, layout, &program, 8));
        let mut image = [0; STATE];
        on.to_image(Layout::LOWEST, &[0; STATE], &mut image);
        let mut trace = [0; ROW * 8];
        let mut whole = image;
        assert_eq!(on.run(&expansions[0], 0, 8, &mut whole, &mut trace), Halted { counter: 8, steps: 8 });
        assert_eq!(trace[ROW * 5..ROW * 6], [5, 1, 1, 2, 0, 0, 6, 0, 0]);
        on.run(&expansions[0], 0, 4, &mut image, &mut trace);
        let mut image = moved(on, Layout::LOWEST, SPACED_0, &image);
        assert_eq!(on.run(&expansions[1], 4, 4, &mut image, &mut trace), Halted { counter: 8, steps: 4 });
        assert_eq!(trace[ROW..ROW * 2], [5, 1, 1, 2, 0, 0, 2, 0, 0]);
    });
}

/// The rows of a line's expansion, run from the image of the all-zero state.
fn rows_of_macro(on: &dyn Dualrail, layout: Layout, text: &str, length: usize) -> Vec<Vec<u16>> {
    let expansion = expanded_to(on, layout, &stored(on, text), length);
    let mut image = [0; STATE];
    on.to_image(layout, &[0; STATE], &mut image);
    let mut trace = vec![0; ROW * length];
    let answer = on.run(&expansion, 0, length as u16, &mut image, &mut trace);
    assert_eq!(answer, Halted { counter: length as u16, steps: length as u16 });
    trace.chunks_exact(ROW).map(<[u16]>::to_vec).collect()
}

/// Request 07: the rows of a table macro in neighbours at 0. The table of xor starts at cell 288, and the entry of
/// 0 and 0 is in cell 298.
#[test]
fn rows_of_a_table_macro() {
    each(|on| {
        let rows = [
            [0, 0, 0, 0, 0, 0, 0, 0, 0],
            [1, 1, 1, 0, 0, 0, 0, 0, 0],
            [2, 1, 0, 0, 0, 0, 0, 0, 0],
            [3, 1, 2, 0, 0, 0, 0, 0, 0],
            [4, 1, 2, 0, 0, 0, 0, 0, 0],
            [5, 0, 0, 0, 0, 0, 0, 0, 0],
            [6, 1, 1, 0, 0, 0, 0, 0, 0],
            [7, 1, 0, 0, 0, 0, 0, 0, 0],
            [8, 2, 1, 0, 0, 0, 0, 0, 0],
            [9, 0, 0, 2, 0, 0, 2, 0, 0],
            [10, 1, 1, 4, 0, 0, 2, 0, 0],
            [11, 0, 1, 2, 0, 0, 2, 0, 0],
            [12, 0, 1, 0, 0, 0, 0, 0, 0],
            [13, 1, 1, 0, 0, 0, 0, 0, 0],
        ];
        assert_eq!(rows_of_macro(on, Layout::LOWEST, "s,xor,r16,r17,r18,\n", 14), rows);
    });
}

/// Request 07: the same spaced at 1, with cells. The table of and starts at cell 256, which is 4 bits from 131 and
/// from 200, and the entry of 0 and 1 is in cell 274.
#[test]
fn rows_of_a_spaced_table_macro() {
    each(|on| {
        let rows = [
            [0, 0, 0, 0, 0, 0, 0, 0, 0],
            [1, 1, 1, 3, 0, 0, 3, 0, 0],
            [2, 1, 0, 0, 0, 0, 0, 0, 0],
            [3, 1, 2, 0, 0, 0, 0, 0, 0],
            [4, 0, 0, 0, 0, 0, 0, 0, 0],
            [5, 1, 1, 0, 0, 0, 0, 0, 0],
            [6, 1, 0, 0, 0, 0, 0, 0, 0],
            [7, 2, 1, 0, 0, 0, 0, 0, 0],
            [8, 0, 0, 1, 0, 0, 4, 0, 0],
            [9, 1, 1, 3, 0, 0, 2, 0, 0],
            [10, 0, 1, 1, 0, 0, 2, 0, 0],
            [11, 0, 1, 0, 0, 3, 0, 0, 4],
            [12, 1, 1, 0, 0, 3, 0, 0, 0],
        ];
        assert_eq!(rows_of_macro(on, SPACED_1, "s,and,@200,%r4+3,#1,\n", 13), rows);
    });
}

/// Request 07: 20 reads 9 times the budget, also where that is more than 65,535 or no step is done.
#[test]
fn room_for_nine_numbers() {
    each(|on| {
        let nop = stored(on, "u,nop,,,,\n");
        for budget in [1, 2, 7_281, 7_282, 65_535] {
            let enough = 9 * budget as usize;
            for start in [0, 1, 65_535] {
                let mut state = [7; STATE];
                let mut trace = vec![5; enough];
                for room in [enough - 1, 8 * budget as usize, 6 * budget as usize, 0] {
                    let answer = on.run(&nop, start, budget, &mut state, &mut trace[..room]);
                    assert_eq!(answer, refused(20, 0), "budget {budget}, room {room}");
                }
                assert!(state == [7; STATE] && trace.iter().all(|&number| number == 5));
                let (counter, steps) = if start == 0 { (1, 1) } else { (start, 0) };
                let answer = on.run(&nop, start, budget, &mut state, &mut trace);
                assert_eq!(answer, Halted { counter, steps }, "budget {budget}");
                assert!(trace[ROW * steps as usize..].iter().all(|&number| number == 5));
            }
        }
    });
}

/// Request 07: the walk has the bus for one more place, with 0 at the start.
#[test]
fn the_bus_in_a_walk() {
    each(|on| {
        let two: &[(usize, &[u8])] = &[(1, &[1, 2]), (2, &[1, 2])];
        let verdict = |text: &str| verdict(on, text, two);
        let balanced = |steps: u16| Balanced { counter: steps, steps };
        let leak = |line: u16| Leak { line, steps: line };
        let lookup = "u,mov,r4,^r1+0,,\n";
        assert_eq!(verdict(lookup), balanced(1));
        // Read twice, both addresses are drawn apart, though every run has the same one twice.
        assert_eq!(verdict(&lookup.repeat(2)), leak(1));
        assert_eq!(verdict(&format!("{lookup}u,mov,r2,^r0+0,,\n{lookup}")), balanced(3));
        // 257 and 258 are as far from 256 and from 259, but not from 257, read or written or in a branch.
        assert_eq!(verdict(&format!("{lookup}u,mov,r5,@259,,\nu,mov,r5,@257,,\n")), balanced(3));
        assert_eq!(verdict(&format!("{lookup}u,mov,r5,@257,,\n")), leak(1));
        assert_eq!(verdict(&format!("{lookup}u,mov,@257,#0,,\n")), leak(1));
        assert_eq!(verdict(&format!("{lookup}u,beq,,#0,@257,2\n")), leak(1));
        // Both stay there over steps without address.
        let over = "u,mov,r6,r7,,\nu,nop,,,,\nu,jmp,,,,4\n";
        assert_eq!(verdict(&format!("{lookup}{over}u,beq,,@256,@257,5\n")), balanced(5));
        assert_eq!(verdict(&format!("{lookup}{over}u,beq,,@257,@256,5\n")), leak(4));
        // Within a step: from 3 to 1 or 2, from 1; one base twice, and two bases.
        assert_eq!(verdict("u,add,r4,@3,!r1+0,\n"), balanced(1));
        assert_eq!(verdict("u,add,r4,@1,!r1+0,\n"), leak(0));
        assert_eq!(verdict("u,add,r4,!r1+0,!r1+16,\n"), balanced(1));
        assert_eq!(verdict("u,add,r4,!r1+0,!r2+16,\n"), leak(0));
    });
}

/// Request 07: 22 is of written places alone; as many addresses as a base has values may be on the bus.
#[test]
fn sixteen_addresses_on_the_bus() {
    each(|on| {
        // Four ones each.
        let many: &[u8] = &[15, 23, 27, 29, 30, 39, 43, 45, 46, 51, 53, 54, 57, 58, 60, 71];
        let text = "u,mov,r4,^r1+0,,\nu,mov,r5,^r0+0,,\nu,and,r6,^r1+0,^r1+128,\n";
        assert_eq!(verdict(on, text, &[(1, many)]), Balanced { counter: 3, steps: 3 });
        let text = "u,mov,r4,^r1+0,,\nu,and,r6,@256,^r2+0,\n";
        assert_eq!(verdict(on, text, &[(1, many), (2, many)]), Balanced { counter: 2, steps: 2 });
        assert_eq!(
            verdict(on, "u,mov,r4,^r1+0,,\nu,nop,,,,\nu,mov,r4,@271,,\n", &[(1, many)]),
            Leak { line: 2, steps: 2 }
        );
    });
}

/// What a published text becomes in our line form; else the refusal, which leaves the store as it was.
fn taken_in(on: &dyn Dualrail, text: &[u8]) -> Result<String, Answer> {
    let mut out = vec![7; 40_000];
    let answer = on.take_in(text, &mut out);
    text_or_refusal(answer, out)
}

/// What a text in our line form becomes as published text, likewise.
fn sent_out(on: &dyn Dualrail, text: &[u8]) -> Result<String, Answer> {
    let mut out = vec![7; 40_000];
    let answer = on.send_out(text, &mut out);
    text_or_refusal(answer, out)
}

fn text_or_refusal(answer: Answer, mut out: Vec<u8>) -> Result<String, Answer> {
    let count = if let Counted(count) = answer { count as usize } else { 0 };
    assert!(out[count..].iter().all(|&byte| byte == 7), "{answer:?}: the rest is not as it was");
    out.truncate(count);
    match answer {
        Counted(_) => Ok(String::from_utf8(out).unwrap()),
        _ => Err(answer),
    }
}

/// Request 08: each pair is a published text and what it is taken in as.
fn all_taken_in(on: &dyn Dualrail, pairs: &[(&str, &str)]) {
    for (text, ours) in pairs {
        assert_eq!(taken_in(on, text.as_bytes()), Ok(ours.to_string()), "{text:?}");
    }
}

/// Request 08: each is refused with this number, at the line that stands beside it.
fn all_refused(on: &dyn Dualrail, number: u16, texts: &[(&[u8], u32)]) {
    for &(text, line) in texts {
        let shown = String::from_utf8_lossy(&text[..text.len().min(200)]);
        assert_eq!(taken_in(on, text), Err(refused(number, line)), "{shown:?}");
    }
}

/// Request 08: blanks, comments, operands and marks.
#[test]
fn published_lines() {
    each(|on| {
        all_taken_in(
            on,
            &[
                ("", ""),
                ("\n", ""),
                (" \t\n;a comment: nop\n\t ; another\n", ""),
                ("mov r5 !r4,3\n", "u,mov,r5,!r4+3,,\n"),
                ("mov r5 !r4\n", "u,mov,r5,!r4+0,,\n"),
                ("mov r5 !r4,0\n", "u,mov,r5,!r4+0,,\n"),
                ("mov r5 !r4,127\n", "u,mov,r5,!r4+127,,\n"),
                ("mov r16 !r4,128\n", "s,mov,r16,%r4+0,,\n"),
                ("mov r16 !r4,255\n", "s,mov,r16,%r4+127,,\n"),
                (" \tmov\t r5  !r4,3 \t;x\n", "u,mov,r5,!r4+3,,\n"),
                ("mov r5 !r4,3;,x\n", "u,mov,r5,!r4+3,,\n"),
                ("mov r5 @1;27;\r\0:\n", "u,mov,r5,@1,,\n"),
                // The mark is s exactly where the destination is sensitive.
                ("xor r16 r16 r4\n", "s,xor,r16,r16,r4,\n"),
                ("mov !r4,128 #1\n", "s,mov,%r4+0,#1,,\n"),
                ("mov !r4,127 #255\n", "u,mov,!r4+127,#255,,\n"),
                ("not @128 @127\nnot @127 @0\n", "s,not,@128,@127,,\nu,not,@127,@0,,\n"),
                ("mov r15 #2\nmov r31 #1\nnop\n", "u,mov,r15,#2,,\ns,mov,r31,#1,,\nu,nop,,,,\n"),
            ],
        );
    });
}

/// Request 08: a label names its line, the next counted one, or the end.
#[test]
fn published_labels() {
    each(|on| {
        all_taken_in(
            on,
            &[
                ("a: jmp a\n", "u,jmp,,,,0\n"),
                ("a:\njmp a\n", "u,jmp,,,,0\n"),
                ("jmp a\n\n;a\na: ;\n \n", "u,jmp,,,,1\n"),
                ("nop\na:\nb: ;b\n\nc: nop\nbeq r4 #0 a\nbne r4 r5 b\njmp c\n", JUMPS_TO_1),
                ("a:\n", ""),
                ("nop: jmp nop\n5: jmp 5\njmp 007\n007:\n", "u,jmp,,,,0\nu,jmp,,,,1\nu,jmp,,,,3\n"),
                ("nop\nr4: beq r4 r4 r4\n", "u,nop,,,,\nu,beq,,r4,r4,1\n"),
                // Case counts, and so does each of 16 letters.
                ("nop\na: nop\nA: jmp A\njmp a\n", "u,nop,,,,\nu,nop,,,,\nu,jmp,,,,2\nu,jmp,,,,1\n"),
                (
                    "jmp abcdefghijklmn15\nabcdefghijklmn16:\nnop\nabcdefghijklmn15: nop\n",
                    "u,jmp,,,,2\nu,nop,,,,\nu,nop,,,,\n",
                ),
            ],
        );
    });
}

const JUMPS_TO_1: &str = "u,nop,,,,\nu,nop,,,,\nu,beq,,r4,#0,1\nu,bne,,r4,r5,1\nu,jmp,,,,1\n";

/// Request 08: 24 a label missing, double, or beyond the limits.
#[test]
fn published_24() {
    each(|on| {
        all_refused(
            on,
            24,
            &[
                (b"jmp a\n", 0),
                (b";\n\nb: beq r4 r5 a\n", 2),
                (b"jmp A\na:\n", 0),
                (b"jmp abcdefghijklmno17\n", 0),
                (b"abcdefghijklmno17:\n", 0),
                (b"nop\njmp abcdefghijklmno17\nabcdefghijklmno17:\n", 1),
                (b"a:\nnop\na: nop\na:\n", 2),
                (b":\n", 0),
                (b"nop\na_b:\n", 1),
                (b"a:b:\n", 0),
                (b"\xe4:\n", 0),
                (b"a\r:\n", 0),
                // A target counts though its line is bad in other things.
                (b"beq #256 r4 a\n", 0),
                (b"beq r16 r4 a\n", 0),
                (b"jmp a", 0),
                // 24 before 25 on a line, and the lowest line first.
                (b"a:\na: nopp\nnopp\n", 1),
                (b"a_b: mov r4 r16\n", 0),
                (b"jmp b\nnopp\n", 0),
            ],
        );
    });
}

/// Request 08: operands without counterpart, for any reason that they have.
#[test]
fn published_operands() {
    each(|on| {
        let operands = [
            "#256", "#01", "#", "r32", "r04", "R4", "@512", "@01", "!r4,256", "!r4,03", "!r4,", "!r32",
            "!#5", "!@5", "!4", "%r4+3", "%r4,3", "^r4+0", "!r4+3", "!r4,3,3", "4", "a",
        ];
        for operand in operands {
            for line in [format!("mov {operand} r4\n"), format!("add r4 r5 {operand}\n")] {
                assert_eq!(taken_in(on, line.as_bytes()), Err(refused(25, 0)), "{line}");
            }
        }
    });
}

/// Request 08: 25 anything else without counterpart.
#[test]
fn published_25() {
    each(|on| {
        all_refused(
            on,
            25,
            &[
                (b"nop\n\nor r4 r4 r5\n", 2),
                (b"NOP\n", 0),
                (b"u,nop,,,,\n", 0),
                (b"nop r4\n", 0),
                (b"mov r4\n", 0),
                (b"jmp\n", 0),
                (b"mov #1 r4\n", 0),
                (b"mov r4 !r4, 3\n", 0),
                (b"nop\r\n", 0),
                (b"nop\x0b\n", 0),
                (b"\0\n", 0),
                (b"nop \xff\n", 0),
                (b"a : nop\n", 0),
                (b"a:nop\n", 0),
                (b"a: b:\n", 0),
                (b"jmp #0\n", 0),
                (b"jmp a_b\n", 0),
                (b"jmp a:\na:\n", 0),
                // The last line has no newline.
                (b"nop\nnop", 1),
                (b"nop\n ", 1),
                (b"nop\n;", 1),
                // The mark check: 10, 12 twice, 14, 15.
                (b"mov r4 r3\n", 0),
                (b"mov r4 r16\n", 0),
                (b"mov r4 !r16\n", 0),
                (b"add r16 r16 r17\n", 0),
                (b"mov r16 #2\n", 0),
            ],
        );
    });
}

/// Request 08: the lowest text line goes first; which labels and targets count.
#[test]
fn published_order() {
    each(|on| {
        // A label counts though its line is bad; a target only with a known opcode and its count of parts.
        all_refused(
            on,
            25,
            &[
                (b"jmp a\na: nopp\n", 1),
                (b"jmp a\na: mov r4 r16\n", 1),
                (b"jmp a\na:", 1),
                (b"jump a\n", 0),
                (b"jmp a a\n", 0),
                (b"beq r4 a\n", 0),
                (b"nopp\njmp b\n", 0),
            ],
        );
        // 17 last, at line 0.
        for (text, answer) in [
            (&b"nop\n"[..], refused(17, 0)),
            (b"\n\nnop\n", refused(17, 0)),
            (b"nop\nnopp\n", refused(25, 1)),
            (b"nop\njmp a\n", refused(24, 1)),
        ] {
            let mut out = [7; 9];
            assert_eq!(on.take_in(text, &mut out), answer);
            assert_eq!(out, [7; 9]);
        }
        let mut out = [7; 12];
        assert_eq!(on.take_in(b"nop\n", &mut out[..10]), Counted(10));
        assert_eq!(&out, b"u,nop,,,,\n\x07\x07");
    });
}

/// Request 08: 1,024 counted lines, 1,025 labels, and any count of text lines.
#[test]
fn published_limits() {
    each(|on| {
        let nops = ";\nnop\n".repeat(1_024);
        assert_eq!(taken_in(on, nops.as_bytes()), Ok("u,nop,,,,\n".repeat(1_024)));
        let taken = |more: &str| taken_in(on, (nops.clone() + more).as_bytes());
        assert_eq!(taken(";\na:\n"), Ok("u,nop,,,,\n".repeat(1_024)));
        assert_eq!(taken(";\nnop\nnopp\n"), Err(refused(25, 2_049)));
        assert_eq!(taken("a: jmp b\n"), Err(refused(24, 2_048)));
        assert_eq!(taken("jmp b\n"), Err(refused(24, 2_048)));
        // A label behind the last counted line that may be counts too.
        assert_eq!(taken_in(on, format!("jmp a\n{nops}a:\n").as_bytes()), Err(refused(25, 2_048)));

        let labels: String = (0..1_025).map(|at| format!("a{at}:\n")).collect();
        let taken = |more: &str| taken_in(on, (labels.clone() + more).as_bytes());
        assert_eq!(taken("jmp a1024\n"), Ok("u,jmp,,,,0\n".to_string()));
        assert_eq!(taken("b:\n"), Err(refused(24, 1_025)));
        assert_eq!(taken("jmp b\nb:\n"), Err(refused(24, 1_025)));
        // Labels that do not count do not fill it up.
        let wrong = format!("jmp b\na1:\n{}b:\n", labels.replace("a1024:", "a1_024:"));
        assert_eq!(taken_in(on, wrong.as_bytes()), Err(refused(24, 3)));

        for (last, number) in [("jmp a\n", 24), ("nopp\n", 25)] {
            for count in [65_535, 65_536, 70_000] {
                let text = "\n".repeat(count) + last;
                assert_eq!(taken_in(on, text.as_bytes()), Err(refused(number, count as u32)));
            }
        }
        assert_eq!(taken_in(on, ("\n".repeat(70_000) + "nop\n").as_bytes()), Ok("u,nop,,,,\n".to_string()));
    });
}

/// Request 08: what is sent out, and comes home with the same bytes.
#[test]
fn published_by_us() {
    each(|on| {
        let nops = "u,nop,,,,\n".repeat(5);
        let pairs = [
            ("".to_string(), "".to_string()),
            (nops.clone() + "u,jmp,,,,5\n", "nop\n".repeat(5) + "L5:\njmp L5\n"),
            ("u,jmp,,,,5\n".to_string() + &nops[10..], "jmp L5\n".to_string() + &"nop\n".repeat(4) + "L5:\n"),
            ("u,jmp,,,,0\nu,beq,,r4,#9,0\n".into(), "L0:\njmp L0\nbeq r4 #9 L0\n".into()),
            ("u,bne,,!r4+0,@127,1\n".into(), "bne !r4,0 @127 L1\nL1:\n".into()),
            ("s,xor,%r4+0,%r15+127,!r9+127,\n".into(), "xor !r4,128 !r15,255 !r9,127\n".into()),
            ("s,mov,r16,#1,,\nu,not,@0,#255,,\n".into(), "mov r16 #1\nnot @0 #255\n".into()),
        ];
        for (ours, sent) in pairs {
            assert_eq!(sent_out(on, ours.as_bytes()), Ok(sent.clone()), "{ours:?}");
            assert_eq!(taken_in(on, sent.as_bytes()), Ok(ours));
        }
        // 1,024 jumps, each to a line of its own, the end among them; and the example cipher.
        let jumps: String = (0..1_024).map(|at| format!("u,jmp,,,,{}\n", 1_024 - at)).collect();
        let cipher = String::from_utf8(simon::TEXT.to_vec()).unwrap();
        for (ours, labels) in [(jumps, 1_024), (cipher, 4)] {
            let sent = sent_out(on, ours.as_bytes()).unwrap();
            assert_eq!(sent.lines().filter(|line| line.ends_with(':')).count(), labels);
            assert_eq!(taken_in(on, sent.as_bytes()), Ok(ours));
        }
    });
}

/// Request 08: going out, refusals 1 to 16 come first.
#[test]
fn published_by_us_refused() {
    each(|on| {
        let nops = |count: usize, more: &str| "u,nop,,,,\n".repeat(count) + more;
        let texts = [
            (nops(2, "u,nop,,,,"), refused(1, 2)),
            (nops(1, "\n"), refused(2, 1)),
            (nops(0, "x,nop,,,,\n"), refused(3, 0)),
            (nops(0, "u,or,,,,\n"), refused(4, 0)),
            (nops(0, "u,nop,r4,,,\n"), refused(5, 0)),
            (nops(0, "u,mov,r4,!r4,3,\n"), refused(5, 0)),
            (nops(0, "u,mov,r4,!r4,,\n"), refused(6, 0)),
            // All of reading before the mark check: behind line 1,024 too, where there is room for 32,768 lines.
            (nops(1_024, "nop\n"), refused(2, 1_024)),
            (nops(32_767, "s,nop\n"), refused(2, 32_767)),
            (nops(32_768, "x"), refused(7, 32_768)),
            (nops(32_768, ""), refused(9, 0)),
            (nops(1_025, ""), refused(9, 0)),
            ("u,mov,r3,#0,,\nx\n".to_string(), refused(2, 1)),
            (nops(1, "u,mov,r3,#0,,\n"), refused(10, 1)),
            (nops(0, "s,mov,r4,#0,,\n"), refused(11, 0)),
            (nops(0, "u,mov,r4,r16,,\n"), refused(12, 0)),
            (nops(0, "s,add,r16,r16,r4,\n"), refused(14, 0)),
            (nops(0, "s,mov,r16,#2,,\n"), refused(15, 0)),
            (nops(0, "u,jmp,,,,2\n"), refused(16, 0)),
        ];
        for (text, answer) in texts {
            assert_eq!(on.send_out(text.as_bytes(), &mut []), answer);
            assert_eq!(sent_out(on, text.as_bytes()), Err(answer));
        }
        let mut out = [7; 13];
        assert_eq!(on.send_out(b"u,jmp,,,,1\n", &mut out[..10]), refused(17, 0));
        assert_eq!(out, [7; 13]);
        assert_eq!(on.send_out(b"u,jmp,,,,1\n", &mut out[..12]), Counted(11));
        assert_eq!(&out, b"jmp L1\nL1:\n\x07\x07");
    });
}

/// Watches on these places, with something in their other fields.
fn watches_on(places: &[u16]) -> Vec<Watch> {
    places.iter().map(|&place| Watch { place, value: 77, writes: 777, step: 7_777 }).collect()
}

/// Request 09: a run from line 0, all places being 0 before it but for these. Trace and state must be those without the
/// watches, each of which must then hold this: the place, its last value, how many writes reached it, the step of the last.
fn watched(on: &dyn Dualrail, text: &str, budget: u16, places: &[(usize, u8)], held: &[[u16; 4]]) -> Answer {
    let program = stored(on, text);
    let mut state = [0; STATE];
    for &(place, value) in places {
        state[place] = value;
    }
    let mut trace = vec![7; ROW * budget as usize];
    let (mut state_without, mut trace_without) = (state, trace.clone());
    let without = on.run(&program, 0, budget, &mut state_without, &mut trace_without);
    let mut watches = watches_on(&held.iter().map(|watch| watch[0]).collect::<Vec<u16>>());
    let answer = on.run_watched(&program, 0, budget, &mut state, &mut trace, &mut watches);
    assert_eq!((answer, state, trace), (without, state_without, trace_without), "{text}");
    let after: Vec<[u16; 4]> =
        watches.iter().map(|watch| [watch.place, watch.value as u16, watch.writes, watch.step]).collect();
    assert_eq!(after, held, "{text}");
    answer
}

/// Request 09: two writes each of r4 and of cell 3, the last one of the value that stood there; two watches may name one
/// place, and a place without a write has its value all the same.
#[test]
fn a_watched_run() {
    each(|on| {
        let text = "u,mov,r4,#1,,\nu,mov,@3,r4,,\nu,add,r4,r4,r4,\nu,mov,@3,#1,,\n";
        let held = [
            [4, 2, 2, 3],
            [35, 1, 2, 4],
            [5, 9, 0, 0],
            [4, 2, 2, 3],
            [543, 200, 0, 0],
            [3, 0, 0, 0],
            [31, 6, 0, 0],
        ];
        let places = [(5, 9), (543, 200), (31, 6)];
        assert_eq!(watched(on, text, 20, &places, &held), Halted { counter: 4, steps: 4 });
        assert_eq!(watched(on, text, 20, &places, &[]), Halted { counter: 4, steps: 4 });
        let eight = [[35, 1, 2, 4]; 8];
        assert_eq!(watched(on, text, 4, &places, &eight), Halted { counter: 4, steps: 4 });
    });
}

/// Request 09: what is read or compared is not written; nop, jmp and branches write nothing, r0 neither.
#[test]
fn watches_on_places_that_are_read() {
    each(|on| {
        let text = "u,nop,,,,\nu,beq,,r4,r5,3\nu,mov,r4,#9,,\nu,bne,,r4,@0,2\nu,jmp,,,,5\nu,mov,r6,r5,,\n";
        let held = [[4, 0, 0, 0], [5, 0, 0, 0], [32, 0, 0, 0], [0, 0, 0, 0], [6, 0, 1, 5]];
        assert_eq!(watched(on, text, 20, &[(6, 255)], &held), Halted { counter: 6, steps: 5 });
        // A public place in a marked line means its lowest bit; the whole of what is written counts.
        let held = [[4, 6, 0, 0], [16, 0, 1, 1], [17, 4, 1, 2]];
        watched(on, "s,mov,r16,r4,,\ns,not,r17,r18,,\n", 20, &[(4, 6), (16, 1), (18, 5)], &held);
    });
}

/// Request 09: a loop that adds at steps 1, 3 and 5, whole and cut. The last step of a budget counts too.
#[test]
fn watches_on_a_loop() {
    each(|on| {
        let text = "u,add,r4,r4,#1,\nu,bne,,r4,#3,0\n";
        assert_eq!(watched(on, text, 20, &[], &[[4, 3, 3, 5]]), Halted { counter: 2, steps: 6 });
        assert_eq!(watched(on, text, 5, &[], &[[4, 3, 3, 5]]), Spent { counter: 1, steps: 5 });
        assert_eq!(watched(on, text, 4, &[], &[[4, 2, 2, 3]]), Spent { counter: 0, steps: 4 });
        assert_eq!(watched(on, text, 1, &[], &[[4, 1, 1, 1]]), Spent { counter: 1, steps: 1 });
        assert_eq!(watched(on, text, 0, &[(4, 8)], &[[4, 8, 0, 0]]), Spent { counter: 0, steps: 0 });
        assert_eq!(watched(on, "", 9, &[(4, 8)], &[[4, 8, 0, 0]]), Halted { counter: 0, steps: 0 });
    });
}

/// Request 09: places behind bases are those before the write. r4 is 2 and then 7, which it reads through itself.
#[test]
fn watches_behind_bases() {
    each(|on| {
        let text = "u,mov,!r4+126,#7,,\nu,mov,%r4+1,#8,,\nu,mov,^r6+255,#9,,\nu,mov,r4,!r4+126,,\nu,mov,!r4+126,#1,,\n";
        let held = [
            [32, 7, 1, 1],
            [32 + 131, 8, 1, 2],
            [32 + 384, 9, 1, 3],
            [4, 7, 1, 4],
            [32 + 5, 1, 1, 5],
            [6, 129, 0, 0],
            [32 + 128, 0, 0, 0],
            [32 + 3, 0, 0, 0],
        ];
        assert_eq!(watched(on, text, 20, &[(4, 2), (6, 129)], &held), Halted { counter: 5, steps: 5 });
    });
}

/// Request 09: as many steps as a run can have, and as many writes: of the 65,535 one is a jump at least.
#[test]
fn watches_on_the_longest_runs() {
    each(|on| {
        let [add, jump] = ["u,add,r4,r4,#1,\n", "u,jmp,,,,0\n"].map(|line| stored(on, line));
        let held = |adds: usize| {
            let program = [add.repeat(adds), jump.clone()].concat();
            let (mut state, mut trace) = ([0; STATE], vec![0; ROW * 65_535]);
            let mut watches = watches_on(&[4]);
            let answer = on.run_watched(&program, 0, 65_535, &mut state, &mut trace, &mut watches);
            assert!(matches!(answer, Spent { steps: 65_535, .. }), "{answer:?}");
            (watches[0].value, watches[0].writes, watches[0].step)
        };
        assert_eq!(held(1), (0, 32_768, 65_535));
        assert_eq!(held(2), (170, 43_690, 65_534));
        assert_eq!(held(MOST_LINES - 1), (254, 65_534, 65_535));
    });
}

/// Request 09: 26 more than eight watches or a place above 543, also where no step is done; after 20, at line 0. Nothing
/// that is lent changes.
#[test]
fn watches_refused() {
    each(|on| {
        let right = stored(on, "u,mov,r4,#1,,\n");
        let answer = |program: &[u16], size: usize, room: usize, places: &[u16]| {
            let (mut state, mut trace, mut watches) = (vec![3; size], vec![5; room], watches_on(places));
            let answer = on.run_watched(program, 0, 1, &mut state, &mut trace, &mut watches);
            if let Refused { .. } = answer {
                assert_eq!((state, trace, watches), (vec![3; size], vec![5; room], watches_on(places)));
            }
            answer
        };
        let done = Halted { counter: 1, steps: 1 };
        for (places, wanted) in [
            (&[][..], done),
            (&[543; 8], done),
            (&[0; 9], refused(26, 0)),
            (&[0; 256], refused(26, 0)),
            (&[544], refused(26, 0)),
            (&[65_535], refused(26, 0)),
            (&[1_024], refused(26, 0)),
            (&[0, 0, 0, 0, 0, 0, 0, 544], refused(26, 0)),
            (&[544, 0], refused(26, 0)),
            (&[544; 9], refused(26, 0)),
        ] {
            assert_eq!(answer(&right, STATE, ROW, places), wanted, "{places:?}");
        }
        assert_eq!(answer(&[], STATE, ROW, &[544]), refused(26, 0));
        let seventh = [2, 0, 0, 0, 0, 0].repeat(MOST_LINES + 1);
        let sixth = [&right[..], &[0, 1, 0, 0, 0, 65_535]].concat();
        for wrong in [&[544][..], &[0; 9]] {
            assert_eq!(answer(&seventh, 1, 0, wrong), refused(7, MOST_LINES as u32));
            assert_eq!(answer(&[2, 0, 0, 0, 0, 0], 1, 0, wrong), refused(3, 0));
            assert_eq!(answer(&sixth, 1, 0, wrong), refused(6, 1));
            assert_eq!(answer(&right, 1, 0, wrong), refused(18, 0));
            assert_eq!(answer(&right, 545, ROW, wrong), refused(18, 0));
            assert_eq!(answer(&right, STATE, ROW - 1, wrong), refused(20, 0));
            assert_eq!(answer(&right, STATE, ROW, wrong), refused(26, 0));
        }
    });
}

/// Request 10: the code as the paragraph prints it, which is the first sixteen words of six bits with three ones.
const CODE: [u8; 16] = [7, 11, 13, 14, 19, 21, 22, 25, 26, 28, 35, 37, 38, 41, 42, 44];

#[test]
fn the_code() {
    let three_ones: Vec<u8> = (0..64).filter(|word: &u8| word.count_ones() == 3).collect();
    assert_eq!((&three_ones[..16], &three_ones[16..]), (&CODE[..], &[49, 50, 52, 56][..]));
    each(|on| {
        for (nibble, codeword) in (0..).zip(CODE) {
            assert_eq!((on.encode(nibble), on.decode(codeword)), (codeword, nibble));
        }
        // The first number above 15, others that are right in their lowest bits, the last.
        assert_eq!([16, 17, 31, 32, 128, 240, 255].map(|number| on.encode(number)), [0; 7]);
        // Beside codewords, words of three ones that are not used, codewords with a higher bit, the last.
        let outside = [0, 6, 8, 12, 15, 43, 45, 49, 50, 52, 56, 63, 64, 67, 71, 108, 135, 199, 236, 255];
        assert_eq!(outside.map(|word| on.decode(word)), [255; 20]);
    });
}

/// Request 10: 5 xor 3 is 6, 9 xor 9 is 0, 15 xor 0 is 15, 10 xor 5 is 15; 0 with a wrong half, any above 63 included.
#[test]
fn exclusive_ors() {
    each(|on| {
        let mut table: PairTable = [99; 4_096];
        on.xor_table(&mut table);
        let right = [(21, 14, 22), (28, 28, 7), (44, 7, 44), (7, 44, 44), (35, 21, 44), (7, 7, 7)];
        for (first, second, sum) in right {
            assert_eq!(on.xor(first, second), sum);
            assert_eq!(on.look_up_pair(&table, first, second), sum);
            assert_eq!(table[64 * first as usize + second as usize], sum);
        }
        let wrong = [(7, 8), (8, 7), (0, 0), (7, 0), (44, 45), (49, 7), (63, 63), (0, 7), (3, 12)];
        for (first, second) in wrong {
            assert_eq!((on.xor(first, second), on.look_up_pair(&table, first, second)), (0, 0));
            assert_eq!(table[64 * first as usize + second as usize], 0);
        }
        // 71 is 64 + 7, and 64 x 6 + 71 is 64 x 7 + 7.
        let above = [(7, 71), (71, 7), (6, 71), (71, 71), (135, 7), (7, 199), (7, 255), (255, 255), (64, 7)];
        for (first, second) in above {
            assert_eq!((on.xor(first, second), on.look_up_pair(&table, first, second)), (0, 0));
        }
        assert_eq!(table.iter().filter(|&&entry| entry != 0).count(), 256);
    });
}

/// Request 10: a table of 64 entries with these, and 0 in all others.
fn table_of(entries: &[(usize, u8)]) -> MapTable {
    let mut table = [0; 64];
    for &(index, entry) in entries {
        table[index] = entry;
    }
    table
}

/// Request 10: the map that sends 0 to 12, 1 to 5, 2 to 6 and so on, the S-box of PRESENT; maps of one value.
#[test]
fn tables_of_maps() {
    each(|on| {
        let mut table: MapTable = [99; 64];
        let map = [12, 5, 6, 11, 9, 0, 10, 13, 3, 14, 15, 8, 4, 7, 1, 2];
        assert_eq!(on.map_table(&map, &mut table), Counted(64));
        let low = [(7, 38), (11, 21), (13, 22), (14, 37), (19, 28), (21, 7), (22, 35), (25, 41)];
        let high = [(26, 14), (28, 42), (35, 44), (37, 26), (38, 19), (41, 25), (42, 11), (44, 13)];
        assert_eq!(table, table_of(&[low, high].concat()));
        let operands = [7, 44, 0, 8, 45, 49, 63, 64, 71, 108, 135, 255];
        let results = [38, 13, 0, 0, 0, 0, 0, 0, 0, 0, 0, 0];
        assert_eq!(operands.map(|word| on.look_up(&table, word)), results);
        for (value, codeword) in [(0, 7), (15, 44)] {
            assert_eq!(on.map_table(&[value; 16], &mut table), Counted(64));
            assert_eq!(table, table_of(&CODE.map(|word| (word as usize, codeword))));
        }
    });
}

/// Request 10: "27 a map not of 16 values, at index 0, else the first value above 15, at its index"; the table then is 0
/// in all entries.
#[test]
fn maps_refused() {
    each(|on| {
        let with = |places: &[(usize, u8)]| {
            let mut map = [3; 16];
            for &(at, value) in places {
                map[at] = value;
            }
            map.to_vec()
        };
        let maps = [
            (vec![], 0),
            (vec![0; 15], 0),
            (vec![0; 17], 0),
            (vec![0; 32], 0),
            (vec![0; 272], 0),
            (vec![0; 65_552], 0),
            (with(&[(0, 16)]), 0),
            (with(&[(1, 16)]), 1),
            (with(&[(15, 255)]), 15),
            (with(&[(7, 19)]), 7),
            (with(&[(4, 16), (9, 200)]), 4),
            (with(&[(4, 200), (9, 16)]), 4),
            (vec![16; 16], 0),
            // Of the wrong length and with wrong values: the length counts.
            ([with(&[(5, 16)]), vec![16]].concat(), 0),
            ([with(&[]), vec![16]].concat(), 0),
            (with(&[(14, 255)])[..15].to_vec(), 0),
            (vec![0, 16], 0),
        ];
        for (map, index) in maps {
            let mut table: MapTable = [99; 64];
            assert_eq!(on.map_table(&map, &mut table), refused(27, index), "{map:?}");
            assert_eq!(table, [0; 64], "{map:?}");
        }
    });
}

/// Request 10: look-ups in tables that nobody made: the entry, whatever it is, and 0 above 63.
#[test]
fn look_ups_in_any_table() {
    each(|on| {
        let table = std::array::from_fn(|index| 255 - index as u8);
        assert_eq!([0, 7, 8, 63].map(|word| on.look_up(&table, word)), [255, 248, 247, 192]);
        assert_eq!([64, 71, 127, 128, 255].map(|word| on.look_up(&table, word)), [0; 5]);
        let mut table: PairTable = [1; 4_096];
        (table[64 * 2 + 63], table[64 * 63 + 2], table[4_095], table[0]) = (2, 3, 255, 254);
        let pairs = [(2, 63), (63, 2), (63, 63), (0, 0), (3, 4)];
        assert_eq!(pairs.map(|(first, second)| on.look_up_pair(&table, first, second)), [2, 3, 255, 254, 1]);
        let above = [(64, 0), (0, 64), (1, 127), (66, 63), (2, 127), (191, 191), (255, 0), (0, 255)];
        assert_eq!(above.map(|(first, second)| on.look_up_pair(&table, first, second)), [0; 8]);
    });
}

/// Request 11: the set for these, and that all unused entries are 0.
fn chosen(on: &dyn Dualrail, bits: u8, ones: u8, size: u8, weights: &[i16]) -> Result<Vec<u8>, Answer> {
    let mut set: WordSet = [99; 16];
    let answer = on.choose(bits, ones, size, weights, &mut set);
    let used = match answer {
        Counted(count) => count as usize,
        _ => 0,
    };
    assert!(set[used..].iter().all(|&word| word == 0), "{set:?}");
    match answer {
        Counted(count) => {
            assert_eq!(count, size as u32);
            Ok(set[..used].to_vec())
        }
        refused => Err(refused),
    }
}

/// Request 11: the six words of four bits with two ones. With 5, -3, 2, 2 their signals are
/// 3: 5 - 3 = 2, 5: 5 + 2 = 7, 6: -3 + 2 = -1, 9: 5 + 2 = 7, 10: -3 + 2 = -1, 12: 2 + 2 = 4,
/// so that they are ranked 6, 10, 3, 12, 5, 9 with -1, -1, 2, 4, 7, 7.
#[test]
fn six_words() {
    each(|on| {
        let weights = [5, -3, 2, 2];
        // Spreads of the five pairs: 0, 3, 2, 3, 0; the lowest wins.
        assert_eq!(chosen(on, 4, 2, 2, &weights), Ok(vec![6, 10]));
        // Of the three runs: 4 + 1 = 5, 7 + 1 = 8, 7 - 2 = 5.
        assert_eq!(chosen(on, 4, 2, 4, &weights), Ok(vec![6, 10, 3, 12]));
        assert_eq!(chosen(on, 4, 2, 8, &weights), Err(refused(29, 0)));
        // With 4 for the first 2, 5 has 9, 6 has 1 and 12 has 6: ranked 10, 6, 3, 12, 9, 5 with -1, 1, 2, 6, 7, 9, spreads
        // 7, 6, 7.
        assert_eq!(chosen(on, 4, 2, 4, &[5, -3, 4, 2]), Ok(vec![6, 3, 12, 9]));
    });
}

/// Request 11: words of one bit, whose signals are the weights, "lowest bit first".
#[test]
fn words_of_one_bit() {
    each(|on| {
        assert_eq!(chosen(on, 4, 1, 2, &[0, 100, 101, 300]), Ok(vec![2, 4]));
        // In ranked order, not by value; and the lowest of three runs as narrow.
        assert_eq!(chosen(on, 4, 1, 4, &[3, 2, 1, 0]), Ok(vec![8, 4, 2, 1]));
        assert_eq!(chosen(on, 4, 1, 2, &[3, 2, 1, 0]), Ok(vec![8, 4]));
        // Below 0 too: ranked 8, 1, 4, 2 with -7, -3, 0, 3, spreads 4, 3, 3.
        assert_eq!(chosen(on, 4, 1, 2, &[-3, 3, 0, -7]), Ok(vec![1, 4]));
        // Equal signals are ranked by value; of the runs among them the lowest.
        assert_eq!(chosen(on, 5, 1, 2, &[1, 5, 5, 5, 5]), Ok(vec![2, 4]));
        assert_eq!(chosen(on, 5, 1, 4, &[1, 5, 5, 5, 5]), Ok(vec![2, 4, 8, 16]));
        assert_eq!(chosen(on, 5, 1, 4, &[9, 5, 5, 5, 4]), Ok(vec![16, 2, 4, 8]));
        // Eight words, all of them.
        let weights = [8, 7, 6, 5, 4, 3, 2, 1];
        assert_eq!(chosen(on, 8, 1, 8, &weights), Ok(vec![128, 64, 32, 16, 8, 4, 2, 1]));
    });
}

/// Request 11: with equal weights the lowest words, of six bits with three ones the code of request 10; and weights that
/// eight bits do not hold.
#[test]
fn equal_and_large_weights() {
    each(|on| {
        for weight in [7, 0, -7, 1000, -1000] {
            assert_eq!(chosen(on, 6, 3, 16, &[weight; 6]), Ok(CODE.to_vec()));
            assert_eq!(chosen(on, 8, 4, 4, &[weight; 8]), Ok(vec![15, 23, 27, 29]));
        }
        // Of eight words with seven ones 127 alone is without the last bit: 7000, the others 6000 - 1000 = 5000.
        let mut weights = [1000; 8];
        weights[7] = -1000;
        assert_eq!(chosen(on, 8, 7, 8, &weights), Ok(vec![191, 223, 239, 247, 251, 253, 254, 127]));
        assert_eq!(chosen(on, 8, 7, 4, &weights), Ok(vec![191, 223, 239, 247]));
        // The other way round it comes first, with -7000 before -5000.
        let weights = weights.map(|weight| -weight);
        assert_eq!(chosen(on, 8, 7, 8, &weights), Ok(vec![127, 191, 223, 239, 247, 251, 253, 254]));
        assert_eq!(chosen(on, 8, 7, 4, &weights), Ok(vec![191, 223, 239, 247]));
    });
}

/// Request 11: "29 fewer words than the size": one word without ones or with nothing else, none with more ones than
/// bits, or 4, 6, 8, 15 words.
#[test]
fn too_few_words() {
    each(|on| {
        let none = [(4, 0, 2), (8, 0, 16), (4, 4, 2), (8, 8, 2), (4, 5, 2), (4, 8, 2), (7, 8, 16)];
        let few =
            [(4, 1, 8), (4, 3, 16), (4, 2, 8), (8, 1, 16), (8, 7, 16), (6, 2, 16), (6, 4, 16), (5, 2, 16)];
        for (bits, ones, size) in none.into_iter().chain(few) {
            let weights = vec![-1000; bits as usize];
            assert_eq!(chosen(on, bits, ones, size, &weights), Err(refused(29, 0)), "{bits}, {ones}, {size}");
        }
        // Just as many, and more.
        for (bits, ones, size) in
            [(4, 1, 4), (4, 3, 4), (8, 7, 8), (6, 2, 8), (6, 3, 16), (7, 2, 16), (5, 2, 8)]
        {
            let weights = vec![1000; bits as usize];
            assert!(chosen(on, bits, ones, size, &weights).is_ok(), "{bits}, {ones}, {size}");
        }
    });
}

/// Request 11: "28 inputs outside these ranges or another count of weights", before 29.
#[test]
fn choices_refused() {
    each(|on| {
        let refused_28 = |bits: u8, ones: u8, size: u8, weights: &[i16]| {
            let answer = chosen(on, bits, ones, size, weights);
            assert_eq!(answer, Err(refused(28, 0)), "{bits}, {ones}, {size}, {weights:?}");
        };
        for bits in [0, 1, 3, 9, 16, 20, 132, 255] {
            refused_28(bits, 1, 2, &vec![0; bits as usize]);
            refused_28(bits, 0, 16, &[0; 4]);
        }
        // More ones than any length has.
        for ones in [9, 16, 17, 128, 255] {
            refused_28(8, ones, 2, &[0; 8]);
        }
        // With enough words, and with one.
        for size in [0, 1, 3, 5, 6, 7, 9, 12, 15, 17, 18, 32, 64, 130, 255] {
            refused_28(8, 4, size, &[0; 8]);
            refused_28(8, 8, size, &[0; 8]);
        }
        for (at, weight) in (0..8).flat_map(|at| [1001, -1001, i16::MIN, i16::MAX].map(|weight| (at, weight)))
        {
            let mut weights = [0; 8];
            weights[at] = weight;
            refused_28(8, 4, 4, &weights);
            refused_28(8, 0, 4, &weights);
        }
        for count in [0, 3, 5, 8, 260, 65_540] {
            refused_28(4, 2, 4, &vec![0; count]);
            refused_28(4, 5, 4, &vec![0; count]);
        }
    });
}
