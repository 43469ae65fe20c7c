//! Files of cases: an input, the answer, and what the lent memory holds
//! afterwards. Each case is called and compared.
//!
//! A case is a block of `key value` lines ended by an empty line, the first of
//! them `case NAME`; lines that start with `#` are comments.

pub mod calls;
pub mod parse;

use crate::answer::Dualrail;
use parse::Case;
use std::panic::{catch_unwind, AssertUnwindSafe};
use std::path::Path;

/// How many requests of document 02 are in force: one more with each that lands.
pub const IN_FORCE: u32 = 11;

/// What the cases are called on.
pub struct Tested<'a> {
    pub library: &'a dyn Dualrail,
    /// The folder with the crates of the two programs.
    pub programs: &'a Path,
    /// Requests in force.
    pub in_force: u32,
}

/// Cases compared, and how many of them differ.
#[derive(Clone, Copy, Debug, Default, PartialEq, Eq)]
pub struct Tally {
    pub cases: u32,
    pub differ: u32,
}

impl Tested<'_> {
    /// Calls each case of a file that holds with the requests in force; reports those that differ. Passed over too
    /// are cases for a form of sending out that is lent a store for lines: ours is lent none, and never refuses with 8.
    pub fn file(&self, contents: &str, report: &mut dyn FnMut(String)) -> Tally {
        let mut tally = Tally::default();
        for case in parse::cases(contents) {
            let difference = match case.holds(self.in_force) {
                Ok(false) => continue,
                Ok(true) if case.has("line-room") && case.one("call") == Ok("send-out") => continue,
                Ok(true) => self.difference(&case),
                Err(unreadable) => Some(cannot_be_read(&unreadable)),
            };
            tally.cases += 1;
            if let Some(difference) = difference {
                tally.differ += 1;
                report(format!("case {} differs\n{}{difference}", case.name, case.show()));
            }
        }
        tally
    }

    /// What a case says and what came instead, if anything did.
    fn difference(&self, case: &Case) -> Option<String> {
        let called = match catch_unwind(AssertUnwindSafe(|| calls::call(self, case))) {
            Ok(Ok(called)) => called,
            Ok(Err(unreadable)) => return Some(cannot_be_read(&unreadable)),
            Err(_) => return Some("  panic\n".to_string()),
        };
        if called.answer == called.expected && called.faults.is_empty() {
            return None;
        }
        let faults: String = called.faults.lines().map(|fault| format!("  {fault}\n")).collect();
        Some(format!("  expected {}\n  got {}\n{faults}", called.expected, called.answer))
    }
}

fn cannot_be_read(reason: &str) -> String {
    format!("  the case cannot be read: {reason}\n")
}

#[cfg(test)]
mod tests {
    use super::*;
    use crate::paper::Paper;

    /// A right case for each call, without its first two lines.
    const RIGHT: [&str; 45] = [
        "call read\ntext \"u,nop,,,,\\nx\"\nroom 13\nanswer refused 1 1\nwritten 6*0\n",
        "call read\ntext repeat 2 \"u,nop,,,,\\n\"\nroom 13\nanswer count 2\nwritten repeat 2 6*0\n",
        "call write\nprogram \"u,nop,,,,\\n\"\nroom 12\nanswer count 10\nout \"u,nop,,,,\\n\"\n",
        "call write\nstored 1 2 3\nroom 0\nanswer count 0\nout \"\"\n",
        "call check\nprogram \"u,nop,,,,\\n\"\nprogram \"s,nop,,,,\\n\"\nanswer refused 14 1\n",
        "call expand\nlayout 0 0\nprogram \"u,jmp,,,,1\\n\"\nroom 8\nanswer count 1\nout \"u,jmp,,,,1\\n\"\n",
        "call expand\nprogram \"s,jmp,,,,1\\n\"\nroom 8\nanswer refused 14 0\n",
        "call to-image\nstate 16*00 01 527*00\nroom 544\nanswer count 544\nbytes \
         16*00 01 15*02 128*00 128*02 5*00 010200000202 10*00 010100000102 10*00 020100000102 197*00 0201 14*00\n",
        "call from-image\nstate 543*00\nroom 544\nanswer refused 18 0\n",
        "call run\nprogram \"u,mov,r4,#7,,\\n\"\nstate 544*00\nstart 0\nbudget 2\nroom 18\n\
         answer halted 1 1\nrow 0 3 3 0 0 0 0 0 0\nchanged 4=7\n",
        "call walk\nprogram \"u,mov,r4,r5,,\\nu,jmp,,,,1\\n\"\nvalues 544*00\nsets 5 6 1 2\nbudget 9\nanswer spent\n",
        "call walk\nprogram \"\"\nvalues 544*00\nrest 9\nraw 3 17*00\nbudget 9\nanswer refused 22 0\n",
        "call expand\nlayout 1 1\nprogram \"s,mov,r16,#0,,\\n\"\nroom 24\nanswer count 4\n\
         out \"s,mov,r3,r0,,\\ns,mov,r3,#8,,\\ns,mov,r16,r0,,\\ns,mov,r16,r3,,\\n\"\n",
        "call to-image\nlayout 0 1\nstate 16*00 01 527*00\nroom 544\nanswer count 544\nbytes \
         16*00 01 15*04 128*00 128*04 3*00 01 2*00 04 2*00 04 2*00 04 6*00 01 2*00 01 2*00 01 2*00 04 \
         6*00 04 2*00 01 2*00 01 2*00 04 195*00 0401 14*00\n",
        "call from-image\nlayout 0 1\nstate 16*00 01 15*04 128*00 128*04 3*00 01 2*00 04 2*00 04 2*00 04 \
         6*00 01 2*00 01 2*00 01 2*00 04 6*00 04 2*00 01 2*00 01 2*00 04 195*00 0401 14*00\nroom 544\n\
         answer count 544\nbytes 16*00 01 527*00\n",
        "call from-image\nlayout 0 2\nstate -\nroom 0\nanswer refused 23 0\n",
        // Something in r1 to r3, 200 in r4, a 1 in r16.
        "call move\nold 0 0\nnew 0 1\nstate 00 090807 c8 11*00 01 15*02 128*00 128*02 \
         5*00 010200000202 10*00 010100000102 10*00 020100000102 197*00 0201 14*00\nroom 544\nanswer count 544\nbytes \
         4*00 c8 11*00 01 15*04 128*00 128*04 3*00 01 2*00 04 2*00 04 2*00 04 6*00 01 2*00 01 2*00 01 2*00 04 \
         6*00 04 2*00 01 2*00 01 2*00 04 195*00 0401 14*00\n",
        "call move\nold 1 1\nnew 0 0\nstate 544*00\nroom 544\nanswer refused 19 0\n",
        "call move\nold 0 0\nnew 0 0\nstate 544*00\nroom 543\nanswer refused 18 0\n",
        "call move\nold 0 0\nnew 3 0\nstate -\nroom 1\nanswer refused 23 0\n",
        // The bus goes from 0 to 1 to 3, and from there to 6.
        "call run\nprogram \"u,mov,@3,@1,,\\nu,mov,r4,@6,,\\n\"\nstate 544*00\nstart 0\nbudget 2\nroom 18\n\
         answer halted 2 2\nrow 0 0 0 1 0 2 1 0 1\nrow 1 0 0 2 0 0 2 0 0\n",
        "call run\nprogram \"\"\nstate 544*00\nstart 0\nbudget 2\nroom 17\nanswer refused 20 0\n",
        // Cells 1 and 2 are as far from 0 and from 3, but not from 1.
        "call walk\nprogram \"u,mov,r4,!r5+0,,\\nu,mov,r4,@3,,\\n\"\nvalues 544*00\nsets 5 5 1 2\nbudget 9\nanswer balanced\n",
        "call walk\nprogram \"u,mov,r4,!r5+0,,\\nu,mov,r4,@1,,\\n\"\nvalues 544*00\nsets 5 5 1 2\nbudget 9\nanswer leak 1\n",
        "call take-in\ntext \"a: jmp\\tb ;x\\n\"\ntext \"mov r16 !r4,130\\nb:\\n\"\nroom 40\nanswer count 29\n\
         out \"u,jmp,,,,2\\ns,mov,r16,%r4+2,,\\n\"\n",
        "call take-in\ntext \";\\njmp a\\n\"\nroom 9\nanswer refused 24 1\n",
        "call send-out\ntext \"u,jmp,,,,2\\ns,mov,r16,%r4+2,,\\n\"\nroom 27\nanswer count 27\n\
         out \"jmp L2\\nmov r16 !r4,130\\nL2:\\n\"\n",
        "call send-out\ntext \"u,jmp,,,,2\\n\"\nroom 0\nanswer refused 16 0\n",
        // Cell 1 is written twice, the second time with the same value; r5 is not, and stays 9.
        "call run-watched\nprogram \"u,mov,@1,#7,,\\n\"\nprogram \"u,mov,@1,#7,,\\n\"\nstate 5*00 09 538*00\nstart 0\n\
         budget 2\nwatch 33 5\nroom 18\nanswer halted 2 2\nrow 0 3 3 0 0 1 0 0 1\nrow 1 3 0 0 0 1 0 0 0\n\
         changed 33=7\nwatched 33 7 2 2\nwatched 5 9 0 0\n",
        "call run-watched\nprogram \"\"\nstate 544*00\nstart 0\nbudget 0\nwatch 0 543 544\nroom 0\nanswer refused 26 0\n",
        "call run-watched\nprogram \"\"\nstate 544*00\nstart 3\nbudget 0\nwatch -\nroom 0\nanswer halted 3 0\n",
        "call code\nvalue 4\nanswer value 19\n",
        "call decode\nword 20\nanswer value 255\n",
        // 1 xor 3 is 2.
        "call xor\noperands 11 14\nanswer value 13\n",
        "call xor\noperands 7 71\nanswer value 0\n",
        "call xor-entry\nindex 718\nanswer value 13\n",
        "call map\nmap 15 15*0\nanswer done\n\
         table 7*0 44 0 0 0 7 0 2*7 4*0 7 0 2*7 2*0 2*7 0 7 6*0 7 0 2*7 2*0 2*7 0 7 19*0\n",
        "call map\nmap 14*0 16 15\nanswer refused 27 14\ntable 64*0\n",
        "call map\nmap 17*16\nanswer refused 27 0\ntable 64*0\n",
        "call look-up\nmap 15 15*0\nword 7\nanswer value 44\n",
        "call look-up\nmap -\nword 7\nanswer refused 27 0\n",
        // Ranked 4, 8, 2, 1 with the signals -4, 2, 3, 10.
        "call codewords\nbits 4\nones 1\nsize 2\nweights 10 3 -4 2\nanswer done\nset 8 2 14*0\n",
        "call codewords\nbits 4\nones 4\nsize 2\nweights 2*-1000 2*1000\nanswer refused 29 0\nset 16*0\n",
        "call codewords\nbits 4\nones 5\nsize 16\nweights 3*0 -1001\nanswer refused 28 0\nset 16*0\n",
        "call codewords\nbits 4\nones 2\nsize 4\nweights -\nanswer refused 28 0\nset 16*0\n",
    ];

    fn tally(contents: &str, report: &mut dyn FnMut(String)) -> Tally {
        Tested { library: &Paper, programs: Path::new("/nowhere"), in_force: 1 }.file(contents, report)
    }

    fn case(lines: &str) -> String {
        format!("case a\nlanded 1 14\n{lines}\n")
    }

    #[test]
    fn right_cases() {
        let contents: String = RIGHT.map(case).concat();
        let mut reports = String::new();
        let found = tally(&contents, &mut |report| reports += &report);
        assert_eq!(found, Tally { cases: RIGHT.len() as u32, differ: 0 }, "{reports}");
    }

    /// What makes a case differ: which one, what stands there, and what in its place.
    const DAMAGES: &[(usize, &str, &str)] = &[
        (0, "refused 1 1", "refused 2 1"),
        (0, "written 6*0\n", ""),
        (1, "repeat 2 6*0", "repeat 2 5*0"),
        (2, "out \"u", "out \"s"),
        (3, "count 0", "count 1"),
        (4, "14 1", "14 0"),
        (5, "out \"u", "out \"s"),
        (7, "01 15*02", "02 15*02"),
        (8, "18 0", "18 0\nbytes 544*00"),
        (9, "halted 1 1", "spent 1 1"),
        (9, "row 0 3 3", "row 0 3 2"),
        (9, "4=7", "4=6"),
        (9, "changed 4=7", "note"),
        (10, "spent", "balanced"),
        (10, "sets 5 6 1 2", "sets 5 6 1 3"),
        (11, "raw 3 17*00\n", ""),
        (5, "layout 0 0", "layout 3 0"),
        (12, "layout 1 1", "layout 1 0"),
        (12, "layout 1 1\n", ""),
        (13, "layout 0 1", "layout 1 0"),
        (14, "layout 0 1", "layout 0 0"),
        (15, "layout 0 2", "layout 0 1"),
        (16, "old 0 0", "old 0 1"),
        (16, "new 0 1", "new 1 1"),
        (16, "old 0 0\nnew 0 1", "old 0 1\nnew 0 0"),
        (16, "090807 c8", "090807 c9"),
        (16, "bytes 4*00", "bytes 00 090807"),
        (16, "c8 11*00 01 15*04", "c8 11*00 01 15*02"),
        (16, "0401 14*00", "0201 14*00"),
        (16, "answer count 544", "answer count 541"),
        (17, "19 0", "18 0"),
        (18, "room 543", "room 544"),
        (18, "18 0", "18 0\nbytes 543*00"),
        (19, "new 3 0", "new 2 0"),
        (20, "1 0 2 1 0 1", "1 0 2 1 0 2"),
        (20, "1 0 2 1 0 1", "1 0 2 0 1 1"),
        (20, "2 0 0 2 0 0", "2 0 0 1 0 0"),
        (21, "room 17", "room 18"),
        (21, "20 0", "20 0\nrow 9*0"),
        (22, "@3", "@2"),
        (23, "leak 1", "balanced"),
        (23, "@1", "@3"),
        (24, "count 29", "count 28"),
        (24, "%r4+2", "!r4+2"),
        (24, "room 40", "room 28"),
        (24, "call take-in", "call send-out"),
        (24, "b ;x", "c ;x"),
        (25, "24 1", "24 0"),
        (25, "24 1", "25 1"),
        (25, "24 1", "24 1\nout \"x\""),
        (26, "L2:", "L1:"),
        (26, "r16 !r4,130", "r16 !r4,129"),
        (27, "16 0", "24 0"),
        (27, "room 0", "room 1\nout \"x\""),
        (28, "watched 33 7 2 2", "watched 32 7 2 2"),
        (28, "watched 33 7 2 2", "watched 33 6 2 2"),
        (28, "watched 33 7 2 2", "watched 33 7 1 2"),
        (28, "watched 33 7 2 2", "watched 33 7 2 1"),
        (28, "watched 5 9 0 0", "watched 5 0 0 0"),
        (28, "watched 5 9 0 0\n", ""),
        (28, "watch 33 5", "watch 5 33"),
        (28, "watch 33 5", "watch 33 5 6"),
        (28, "row 1 3 0", "row 1 3 3"),
        (28, "changed 33=7", "changed 33=6"),
        (29, "543 544", "543"),
        (29, "26 0", "20 0"),
        (29, "26 0", "26 0\nwatched 0 0 0 0"),
        (30, "watch -", "watch 9*0"),
        (30, "halted 3 0", "halted 3 1"),
        (31, "value 4", "value 5"),
        (31, "19", "4"),
        (32, "word 20", "word 19"),
        (32, "255", "0"),
        (33, "11 14", "11 13"),
        (33, "value 13", "value 5"),
        (34, "71", "7"),
        (35, "718", "717"),
        (35, "value 13", "value 0"),
        (36, "map 15", "map 14"),
        (36, "table 7*0 44", "table 7*0 42"),
        (36, "19*0", "18*0 7"),
        (36, "done", "count 64"),
        (37, "16 15", "15 16"),
        (37, "27 14", "27 0"),
        (37, "64*0", "7*0 7 56*0"),
        (38, "27 0", "27 1"),
        (38, "17*16", "16*15"),
        (39, "word 7", "word 11"),
        (39, "44", "15"),
        (40, "map -", "map 16*0"),
        (41, "bits 4", "bits 5"),
        (41, "ones 1", "ones 2"),
        (41, "size 2", "size 4"),
        (41, "-4 2", "-4 12"),
        (41, "10 3 -4 2", "2 -4 3 10"),
        (41, "set 8 2", "set 2 8"),
        (41, "14*0", "13*0 1"),
        (41, "done", "count 2"),
        (42, "2*1000", "1000 1001"),
        (42, "29 0", "29 1"),
        (42, "29 0", "28 0"),
        (42, "16*0", "15 15*0"),
        (43, "-1001", "-1000"),
        (43, "28 0", "29 0"),
        (43, "16*0", "15*0 1"),
        (44, "weights -", "weights 4*0"),
        (44, "28 0", "28 1"),
        // What cannot be read.
        (0, "call read", "call reed"),
        (0, "room 13", "room"),
        (0, "room 13\n", ""),
        (0, "room 13", "room 13\nroom 13"),
        (0, "room 13", "room 5"),
        (2, "program \"u", "program \"x"),
        (2, "room 12", "room 12\nbudget 1"),
        (5, "layout 0 0", "layout 0"),
        (5, "layout 0 0", "layout 0 0 0"),
        (5, "layout 0 0", "layout 256 0"),
        (9, "start 0", "start 0\nlayout 0 0"),
        (14, "layout 0 1", "layout 0 1\nnew 0 0"),
        (16, "old 0 0\n", ""),
        (16, "new 0 1\n", ""),
        (16, "old 0 0", "layout 0 0"),
        (16, "new 0 1", "new 0"),
        (16, "new 0 1", "new 0 256"),
        (9, "row 0 3 3", "row 0 3"),
        (20, "row 0 0 0 1 0 2 1 0 1", "row 0 0 0 1 0 2"),
        (9, "4=7", "544=7"),
        (10, "sets 5 6", "sets 5 544"),
        (10, "sets 5 6 1 2", "sets 5 6 1 256"),
        (11, "raw 3 17*00", "raw 3 16*00"),
        (24, "room 40\n", ""),
        (24, "room 40", "room 40\nline-room 6"),
        (25, "text \";\\njmp a\\n\"\n", ""),
        (26, "room 27", "room 26"),
        (27, "room 0", "room 0\nlayout 0 0"),
        (28, "watch 33 5\n", ""),
        (28, "watch 33 5", "watch 33 65536"),
        (28, "watched 5 9 0 0", "watched 5 9 0"),
        (28, "watched 5 9 0 0", "watched 5 256 0 0"),
        (28, "call run-watched", "call run"),
        (30, "watch -", "watch -\nwatched 0 0 0 0"),
        (31, "value 4\n", ""),
        (31, "value 4", "value 256"),
        (32, "word 20", "word 20\nvalue 4"),
        (33, "11 14", "11"),
        (33, "11 14", "11 14 7"),
        (35, "718", "4096"),
        (36, "map 15 15*0\n", ""),
        (36, "map 15", "map 271"),
        (36, "19*0", "18*0"),
        (36, "19*0", "20*0"),
        (37, "table 64*0\n", ""),
        (39, "word 7\n", ""),
        (41, "bits 4\n", ""),
        (41, "bits 4", "bits 256"),
        (41, "ones 1", "ones -1"),
        (41, "size 2\n", ""),
        (41, "weights 10 3 -4 2\n", ""),
        (41, "-4", "--4"),
        (41, "-4", "-32769"),
        (41, "10 3", "32768 3"),
        (41, "14*0", "13*0"),
        (41, "14*0", "15*0"),
        (42, "set 16*0\n", ""),
        (43, "size 16", "size 16\nroom 16"),
    ];

    #[test]
    fn cases_that_differ() {
        for &(which, from, to) in DAMAGES {
            let damaged = RIGHT[which].replacen(from, to, 1);
            assert_ne!(damaged, RIGHT[which], "{from} is not there");
            let mut reports = vec![];
            let found = tally(&case(&damaged), &mut |report| reports.push(report));
            assert_eq!(found, Tally { cases: 1, differ: 1 }, "{damaged}");
            assert!(reports[0].starts_with("case a differs\n  landed 1 14\n"), "{reports:?}");
        }
    }

    #[test]
    fn ranges_and_names() {
        let lines = RIGHT[0].replacen("1 1", "2 2", 1);
        let [outside, nameless] =
            ["case a\nlanded 2 14\n", "landed 1 14\n"].map(|head| format!("{head}{lines}"));
        assert_eq!(tally(&outside, &mut |_| ()), Tally { cases: 0, differ: 0 });
        assert_eq!(tally(&nameless, &mut |_| ()), Tally { cases: 1, differ: 1 });
    }

    /// Ours is not lent a store for lines, so that such a case is none of ours, whatever it says.
    #[test]
    fn cases_with_room_for_lines() {
        let lines = RIGHT[26].replacen("room 27", "room 27\nline-room 6", 1);
        for lines in [lines.clone(), lines.replacen("count 27", "refused 8 1", 1)] {
            assert_eq!(tally(&case(&lines), &mut |_| ()), Tally { cases: 0, differ: 0 });
        }
    }

    #[test]
    fn programs_that_are_missing() {
        let mut reports = String::new();
        let lines = "call print-trace\ntext \"\"\nanswer printed 9\nout \"halted,0\\n\"\n";
        assert_eq!(tally(&case(lines), &mut |report| reports += &report), Tally { cases: 1, differ: 1 });
        assert!(reports.contains("crates/expand and crates/trace"), "{reports}");
    }
}
