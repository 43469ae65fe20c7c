//! Request 10: coding, tables and look-ups that are wrong somewhere, and maps refused wrongly.

use super::*;
use dualrail::paper::nibble::C;
use dualrail::{MapTable, PairTable};
use std::array::from_fn;

pub type Byte = fn(u8) -> u8;
pub type Pair = fn(u8, u8) -> u8;
pub type WritePairs = fn(&mut PairTable);
pub type WriteMap = fn(&[u8], &mut MapTable) -> Answer;
pub type LookUp = fn(&MapTable, u8) -> u8;
pub type LookUpPair = fn(&PairTable, u8, u8) -> u8;

/// All of them, with their names.
pub fn variants() -> Vec<(String, Variant)> {
    let encodes = ENCODES.into_iter().map(|(fault, encode)| Variant { fault, encode, ..RIGHT });
    let decodes = DECODES.into_iter().map(|(fault, decode)| Variant { fault, decode, ..RIGHT });
    let xors = RESULTS.into_iter().chain(XORS);
    let xors = xors.map(|(fault, xor)| Variant { fault, xor, ..RIGHT });
    let entries = RESULTS.into_iter().map(|(fault, entry)| Variant { fault, entry: Some(entry), ..RIGHT });
    let tables = TABLES.into_iter().map(|(fault, xor_table)| Variant { fault, xor_table, ..RIGHT });
    let maps = MAPS.into_iter().chain(REFUSED).chain(LEFT);
    let maps = maps.map(|(fault, map_table)| Variant { fault, map_table, ..RIGHT });
    let look_ups = LOOK_UPS.into_iter().map(|(fault, look_up)| Variant { fault, look_up, ..RIGHT });
    let pairs = LOOK_UP_PAIRS.into_iter();
    let pairs = pairs.map(|(fault, look_up_pair)| Variant { fault, look_up_pair, ..RIGHT });
    let lists: [(&str, Vec<Variant>); 7] = [
        ("coding", encodes.collect()),
        ("decoding", decodes.collect()),
        ("exclusive or", xors.collect()),
        ("exclusive-or table", entries.chain(tables).collect()),
        ("maps", maps.collect()),
        ("look-ups", look_ups.collect()),
        ("look-ups of two", pairs.collect()),
    ];
    let named = |(of, list): (&str, Vec<Variant>)| -> Vec<(String, Variant)> {
        list.into_iter().map(|variant| (format!("{of}: {}", variant.fault), variant)).collect()
    };
    lists.into_iter().flat_map(named).collect()
}

// ---------------------------------------------------------------- coding

/// The words of six bits with three ones: the code, and four more.
fn three_ones() -> Vec<u8> {
    (0..64u8).filter(|word| word.count_ones() == 3).collect()
}

/// The codewords of two nibbles exchanged.
fn swapped(nibble: u8, one: u8, other: u8) -> u8 {
    match nibble {
        _ if nibble == one => other,
        _ if nibble == other => one,
        _ => nibble,
    }
}

const ENCODES: [(&str, Byte); 14] = [
    ("the lowest four bits", |nibble| C[(nibble & 15) as usize]),
    ("above 127 without the highest bit", |nibble| Paper.encode(nibble & 127)),
    ("255 above 15", |nibble| if nibble > 15 { 255 } else { C[nibble as usize] }),
    ("the last codeword above 15", |nibble| C[nibble.min(15) as usize]),
    ("the number itself above 15", |nibble| if nibble > 15 { nibble } else { C[nibble as usize] }),
    ("all twenty words of three ones", |nibble| three_ones().get(nibble as usize).copied().unwrap_or(0)),
    ("0 for 15 too", |nibble| if nibble == 15 { 0 } else { Paper.encode(nibble) }),
    ("0 for 0 too", |nibble| if nibble == 0 { 0 } else { Paper.encode(nibble) }),
    ("255 for 255", |nibble| if nibble == 255 { 255 } else { Paper.encode(nibble) }),
    ("two codewords exchanged", |nibble| Paper.encode(swapped(nibble, 9, 10))),
    ("codewords from 1", |nibble| if nibble > 15 { 0 } else { C[(nibble as usize + 15) % 16] }),
    ("codewords backwards", |nibble| if nibble > 15 { 0 } else { C[15 - nibble as usize] }),
    ("zeros and ones exchanged", |nibble| if nibble > 15 { 0 } else { 63 ^ C[nibble as usize] }),
    ("a wrong codeword of three ones", |nibble| if nibble == 15 { 49 } else { Paper.encode(nibble) }),
];

const DECODES: [(&str, Byte); 14] = [
    ("0 outside", |word| C.iter().position(|&codeword| codeword == word).unwrap_or(0) as u8),
    ("16 outside", |word| C.iter().position(|&codeword| codeword == word).unwrap_or(16) as u8),
    ("254 outside", |word| Paper.decode(word).min(254)),
    ("0 for 0", |word| if word == 0 { 0 } else { Paper.decode(word) }),
    ("modulo 64", |word| Paper.decode(word & 63)),
    ("without the highest bit", |word| Paper.decode(word & 127)),
    ("modulo 64 of 192 and more", |word| Paper.decode(if word >= 192 { word & 63 } else { word })),
    ("all twenty words of three ones", |word| {
        three_ones().iter().position(|&codeword| codeword == word).map_or(255, |nibble| nibble as u8)
    }),
    ("the first codeword that is not smaller", |word| {
        C.iter().position(|&codeword| codeword >= word).map_or(255, |nibble| nibble as u8)
    }),
    ("the last codeword left out", |word| if word == 44 { 255 } else { Paper.decode(word) }),
    ("the first codeword left out", |word| if word == 7 { 255 } else { Paper.decode(word) }),
    ("two codewords exchanged", |word| swapped(Paper.decode(word), 0, 15)),
    ("a nibble is its own codeword too", |word| if word < 7 { word } else { Paper.decode(word) }),
    ("255 decoded", |word| if word == 255 { 15 } else { Paper.decode(word) }),
];

// ---------------------------------------------------------------- exclusive or

/// Another operation in place of the exclusive or.
fn operation(first: u8, second: u8, operation: fn(u8, u8) -> u8) -> u8 {
    match (Paper.decode(first), Paper.decode(second)) {
        (255, _) | (_, 255) => 0,
        (a, b) => Paper.encode(operation(a, b) & 15),
    }
}

/// The right result but for these operands.
fn but(first: u8, second: u8, operands: (u8, u8), result: u8) -> u8 {
    if (first, second) == operands {
        result
    } else {
        Paper.xor(first, second)
    }
}

/// Wrong for operands to 63 already: so an entry of the table can be, too.
const RESULTS: [(&str, Pair); 28] = [
    ("one wrong result", |a, b| but(a, b, (C[5], C[9]), C[13])),
    ("one wrong result, the last", |a, b| but(a, b, (44, 44), 11)),
    ("one result 0", |a, b| but(a, b, (7, 7), 0)),
    ("0 and 0 give 7", |a, b| but(a, b, (0, 0), 7)),
    ("63 and 63 give 7", |a, b| but(a, b, (63, 63), 7)),
    ("a result with the first half wrong", |a, b| but(a, b, (45, 44), 7)),
    ("a result with the second half wrong", |a, b| but(a, b, (44, 43), 7)),
    ("a result with both halves wrong", |a, b| but(a, b, (8, 8), 7)),
    ("a result of the word after the last", |a, b| but(a, b, (49, 49), 7)),
    ("exclusive or of the codewords", |a, b| if Paper.xor(a, b) == 0 { 0 } else { a ^ b }),
    ("exclusive or of everything", |a, b| if a > 63 || b > 63 { 0 } else { a ^ b }),
    ("exclusive or of nibbles, not encoded", |a, b| match Paper.xor(a, b) {
        0 => 0,
        result => Paper.decode(result),
    }),
    ("and", |a, b| operation(a, b, |a, b| a & b)),
    ("or", |a, b| operation(a, b, |a, b| a | b)),
    ("sum", |a, b| operation(a, b, |a, b| a + b)),
    ("difference", |a, b| operation(a, b, |a, b| a.wrapping_sub(b))),
    ("equal bits", |a, b| operation(a, b, |a, b| !(a ^ b))),
    ("the first operand", |a, b| operation(a, b, |a, _| a)),
    ("the second operand", |a, b| operation(a, b, |_, b| b)),
    ("three bits of the nibbles", |a, b| operation(a, b, |a, b| (a ^ b) & 7)),
    ("0 for equal operands", |a, b| if a == b { 0 } else { Paper.xor(a, b) }),
    ("the codeword of 0 with a wrong half", |a, b| match Paper.xor(a, b) {
        0 => C[0],
        result => result,
    }),
    ("255 with a wrong half", |a, b| match Paper.xor(a, b) {
        0 => 255,
        result => result,
    }),
    ("a wrong half means 0", |a, b| {
        let nibble = |word| Paper.decode(word) % 255;
        Paper.encode(nibble(a) ^ nibble(b))
    }),
    ("the right half with a wrong one", |a, b| match (Paper.decode(a), Paper.decode(b)) {
        (255, b) => Paper.encode(b),
        (a, 255) => Paper.encode(a),
        (a, b) => Paper.encode(a ^ b),
    }),
    ("the first half not looked at", |a, b| {
        let nibble = Paper.decode(a) & 15;
        if Paper.decode(b) == 255 || a > 63 {
            0
        } else {
            Paper.encode(nibble ^ Paper.decode(b))
        }
    }),
    ("the second half not looked at", |a, b| {
        let nibble = Paper.decode(b) & 15;
        if Paper.decode(a) == 255 || b > 63 {
            0
        } else {
            Paper.encode(nibble ^ Paper.decode(a))
        }
    }),
    ("two codewords exchanged in the result", |a, b| match Paper.xor(a, b) {
        0 => 0,
        result => Paper.encode(swapped(Paper.decode(result), 3, 4)),
    }),
];

/// The entry that a table has there, the index being cut to twelve bits.
fn entry_at(index: usize) -> u8 {
    Paper.xor((index / 64 % 64) as u8, (index % 64) as u8)
}

/// Wrong for operands above 63 alone.
const XORS: [(&str, Pair); 9] = [
    ("the first operand modulo 64", |a, b| Paper.xor(a & 63, b)),
    ("the second operand modulo 64", |a, b| Paper.xor(a, b & 63)),
    ("both operands modulo 64", |a, b| Paper.xor(a & 63, b & 63)),
    ("both operands without the highest bit", |a, b| Paper.xor(a & 127, b & 127)),
    ("the index of twelve bits", |a, b| entry_at(64 * a as usize + b as usize)),
    ("the index below 4,096", |a, b| match 64 * a as usize + b as usize {
        index @ 0..=4_095 => entry_at(index),
        _ => 0,
    }),
    ("the index by or", |a, b| entry_at((64 * (a as usize & 63)) | b as usize)),
    ("255 above 63", |a, b| if a > 63 || b > 63 { 255 } else { Paper.xor(a, b) }),
    ("255 and 255 give something", |a, b| but(a, b, (255, 255), 7)),
];

/// The right table, then changed.
fn table_but(table: &mut PairTable, change: impl Fn(&mut PairTable)) {
    Paper.xor_table(table);
    change(table);
}

/// The table with entries somewhere else, by the two nibbles.
fn table_at(table: &mut PairTable, index: fn(usize, usize) -> usize) {
    table.fill(0);
    for a in 0..16 {
        for b in 0..16 {
            table[index(a, b)] = C[a ^ b];
        }
    }
}

/// Not among them is 64 × C(b) + C(a): the exclusive or is the same either way, and so is the table.
const TABLES: [(&str, WritePairs); 16] = [
    ("nothing written", |_| ()),
    ("nothing but zeros", |table| table.fill(0)),
    ("unused entries left", |table| {
        let before = *table;
        table_but(table, |table| {
            for index in (0..4_096).filter(|&index| entry_at(index) == 0) {
                table[index] = before[index];
            }
        })
    }),
    ("unused entries in rows of codewords left", |table| {
        let before = *table;
        table_but(table, |table| {
            for index in (0..4_096).filter(|&index| entry_at(index) == 0 && C.contains(&((index / 64) as u8)))
            {
                table[index] = before[index];
            }
        })
    }),
    ("the first entry left", |table| {
        let before = *table;
        table_but(table, |table| table[0] = before[0])
    }),
    ("the last entry left", |table| {
        let before = *table;
        table_but(table, |table| table[4_095] = before[4_095])
    }),
    ("entries behind the last codeword's left", |table| {
        let before = *table;
        table_but(table, |table| table[64 * 45..].copy_from_slice(&before[64 * 45..]))
    }),
    ("at 16 a + b", |table| table_at(table, |a, b| 16 * a + b)),
    ("at 64 a + b", |table| table_at(table, |a, b| 64 * a + b)),
    ("at 16 C(a) + C(b)", |table| table_at(table, |a, b| 16 * C[a] as usize + C[b] as usize)),
    ("at 64 C(a) + b", |table| table_at(table, |a, b| 64 * C[a] as usize + b)),
    ("at 64 times the exclusive or", |table| {
        table_at(table, |a, b| 64 * (C[a] ^ C[b]) as usize + C[b] as usize)
    }),
    ("at an index one too large", |table| table_at(table, |a, b| 64 * C[a] as usize + C[b] as usize + 1)),
    ("the last row left out", |table| table_but(table, |table| table[64 * 44..].fill(0))),
    ("one row twice", |table| table_but(table, |table| table.copy_within(64 * 7..64 * 8, 64 * 8))),
    ("an entry written behind the last", |table| {
        Paper.xor_table(table);
        put_behind(table.as_mut_ptr_range().end);
    }),
];

/// Writes just behind a lent table, where a guard value stands.
fn put_behind(end: *mut u8) {
    // Only the comparison lends tables here, and it has guard values behind them.
    unsafe { *end = !*end }
}

// ---------------------------------------------------------------- maps

/// The table of a map that is right, made by another rule; what is refused is refused as is right.
fn made_by(map: &[u8], table: &mut MapTable, make: impl Fn(&mut MapTable)) -> Answer {
    let answer = Paper.map_table(map, table);
    if let Counted(_) = answer {
        make(table);
    }
    answer
}

/// The table with these entries alone, each with its index, by the nibbles.
fn made_of(map: &[u8], table: &mut MapTable, entry: impl Fn(usize) -> (usize, u8)) -> Answer {
    made_by(map, table, |table| {
        table.fill(0);
        for (index, value) in (0..16).map(&entry) {
            table[index] = value;
        }
    })
}

/// The codeword's place.
fn at(nibble: usize) -> usize {
    C[nibble] as usize
}

/// The right table, but something stays of what it held before.
fn keeping(map: &[u8], table: &mut MapTable, kept: impl Fn(usize) -> bool) -> Answer {
    let before = *table;
    made_by(map, table, |table| {
        for index in (0..64).filter(|&index| kept(index)) {
            table[index] = before[index];
        }
    })
}

const MAPS: [(&str, WriteMap); 27] = [
    ("C(m(a)) at a", |map, table| made_of(map, table, |a| (a, C[map[a] as usize]))),
    ("m(a) at C(a)", |map, table| made_of(map, table, |a| (at(a), map[a]))),
    ("C(a) at C(m(a))", |map, table| made_of(map, table, |a| (at(map[a] as usize), C[a]))),
    ("C(a) at C(a)", |map, table| made_of(map, table, |a| (at(a), C[a]))),
    ("m(a) at a", |map, table| made_of(map, table, |a| (a, map[a]))),
    ("the map backwards", |map, table| made_of(map, table, |a| (at(a), C[map[15 - a] as usize]))),
    ("the map one further", |map, table| made_of(map, table, |a| (at(a), C[map[(a + 1) % 16] as usize]))),
    ("the map twice", |map, table| made_of(map, table, |a| (at(a), C[map[map[a] as usize] as usize]))),
    ("the first value everywhere", |map, table| made_of(map, table, |a| (at(a), C[map[0] as usize]))),
    ("nibbles added", |map, table| made_of(map, table, |a| (at(a), C[map[a] as usize ^ a]))),
    ("15 nibbles", |map, table| made_of(map, table, |a| (at(a.min(14)), C[map[a.min(14)] as usize]))),
    ("three bits of the values", |map, table| made_of(map, table, |a| (at(a), C[(map[a] & 7) as usize]))),
    ("two codewords exchanged", |map, table| {
        made_of(map, table, |a| (at(a), C[swapped(map[a], 9, 10) as usize]))
    }),
    ("two places exchanged", |map, table| {
        made_of(map, table, |a| (at(swapped(a as u8, 9, 10) as usize), C[map[a] as usize]))
    }),
    ("the entry of 15 without its value", |map, table| made_by(map, table, |table| table[44] = 0)),
    ("an entry in an unused place", |map, table| made_by(map, table, |table| table[63] = table[44])),
    ("an entry for 0", |map, table| made_by(map, table, |table| table[0] = table[7])),
    ("entries for the four words left over", |map, table| {
        made_by(map, table, |table| {
            for word in [49, 50, 52, 56] {
                table[word] = table[7];
            }
        })
    }),
    ("unused entries 255", |map, table| {
        made_by(map, table, |table| *table = table.map(|entry| if entry == 0 { 255 } else { entry }))
    }),
    ("unused entries the codeword of 0", |map, table| {
        made_by(map, table, |table| *table = table.map(|entry| if entry == 0 { C[0] } else { entry }))
    }),
    ("unused entries left", |map, table| keeping(map, table, |index| !C.contains(&(index as u8)))),
    ("the first entry left", |map, table| keeping(map, table, |index| index == 0)),
    ("the last entry left", |map, table| keeping(map, table, |index| index == 63)),
    ("entries behind the last codeword's left", |map, table| keeping(map, table, |index| index > 44)),
    ("an unused entry between left", |map, table| keeping(map, table, |index| index == 27)),
    ("nothing written", |map, table| keeping(map, table, |_| true)),
    ("an entry written behind the last", |map, table| {
        let answer = Paper.map_table(map, table);
        put_behind(table.as_mut_ptr_range().end);
        answer
    }),
];

/// Refuses by another rule, where the first wrong thing is; what passes is taken for 16 values, each cut to four bits.
fn refusing(map: &[u8], table: &mut MapTable, wrong_at: impl Fn(&[u8]) -> Option<usize>) -> Answer {
    match wrong_at(map) {
        Some(index) => {
            table.fill(0);
            Refused { number: 27, line: index as u32 }
        }
        None => {
            let values: [u8; 16] = from_fn(|a| map.get(a).copied().unwrap_or(0) & 15);
            Paper.map_table(&values, table)
        }
    }
}

/// The first value that is wrong by this rule.
fn first(map: &[u8], wrong: impl Fn(u8) -> bool) -> Option<usize> {
    map.iter().position(|&value| wrong(value))
}

/// The right rule for the length, another one for the values.
fn by_values(map: &[u8], table: &mut MapTable, wrong_at: impl Fn(&[u8]) -> Option<usize>) -> Answer {
    refusing(map, table, |map| if map.len() != 16 { Some(0) } else { wrong_at(map) })
}

/// The right rule for the values of a map that passes, another one for its length.
fn by_length(map: &[u8], table: &mut MapTable, wrong: impl Fn(usize) -> bool) -> Answer {
    refusing(map, table, |map| {
        if wrong(map.len()) {
            return Some(0);
        }
        first(&map[..map.len().min(16)], |value| value > 15)
    })
}

/// Another number or index of a refusal.
fn refused_so(map: &[u8], table: &mut MapTable, so: impl Fn(u32) -> (u16, u32)) -> Answer {
    match Paper.map_table(map, table) {
        Refused { line, .. } => {
            let (number, line) = so(line);
            Refused { number, line }
        }
        answer => answer,
    }
}

const REFUSED: [(&str, WriteMap); 36] = [
    ("15 refused", |map, table| by_values(map, table, |map| first(map, |value| value > 14))),
    ("16 passes", |map, table| by_values(map, table, |map| first(map, |value| value > 16))),
    ("31 passes", |map, table| by_values(map, table, |map| first(map, |value| value > 31))),
    ("255 passes", |map, table| by_values(map, table, |map| first(map, |value| value > 15 && value < 255))),
    ("values with a sign", |map, table| by_values(map, table, |map| first(map, |value| value as i8 > 15))),
    ("any value passes", |map, table| by_values(map, table, |_| None)),
    ("the last value above 15", |map, table| {
        by_values(map, table, |map| map.iter().rposition(|&value| value > 15))
    }),
    ("the largest value above 15", |map, table| {
        by_values(map, table, |map| {
            let largest = *map.iter().max()?;
            first(map, |value| value > 15 && value == largest)
        })
    }),
    ("the smallest value above 15", |map, table| {
        by_values(map, table, |map| {
            let smallest = *map.iter().filter(|&&value| value > 15).min()?;
            first(map, |value| value == smallest)
        })
    }),
    ("the first value not looked at", |map, table| {
        by_values(map, table, |map| first(&map[1..], |value| value > 15).map(|at| at + 1))
    }),
    ("the last value not looked at", |map, table| {
        by_values(map, table, |map| first(&map[..15], |value| value > 15))
    }),
    ("the first value alone looked at", |map, table| {
        by_values(map, table, |map| first(&map[..1], |value| value > 15))
    }),
    ("values at index 0", |map, table| {
        by_values(map, table, |map| first(map, |value| value > 15).map(|_| 0))
    }),
    ("values by how many are wrong", |map, table| {
        by_values(map, table, |map| match map.iter().filter(|&&value| value > 15).count() {
            0 => None,
            count => Some(count),
        })
    }),
    ("the value for its index", |map, table| {
        by_values(map, table, |map| map.iter().find(|&&value| value > 15).map(|&value| value as usize))
    }),
    ("the codeword for the index", |map, table| {
        by_values(map, table, |map| first(map, |value| value > 15).map(at))
    }),
    ("indices from 1", |map, table| {
        by_values(map, table, |map| first(map, |value| value > 15).map(|at| at + 1))
    }),
    ("a value that comes twice refused", |map, table| {
        by_values(map, table, |map| (0..16).find(|&at| map[at] > 15 || map[..at].contains(&map[at])))
    }),
    ("any length passes", |map, table| by_length(map, table, |_| false)),
    ("longer maps pass", |map, table| by_length(map, table, |length| length < 16)),
    ("shorter maps pass", |map, table| by_length(map, table, |length| length > 16)),
    ("15 values pass", |map, table| by_length(map, table, |length| length != 16 && length != 15)),
    ("17 values pass", |map, table| by_length(map, table, |length| length != 16 && length != 17)),
    ("no values pass", |map, table| by_length(map, table, |length| length != 16 && length != 0)),
    ("32 values pass", |map, table| by_length(map, table, |length| length != 16 && length != 32)),
    ("lengths modulo 256", |map, table| by_length(map, table, |length| length % 256 != 16)),
    ("lengths modulo 65,536", |map, table| by_length(map, table, |length| length % 65_536 != 16)),
    ("16 values refused", |map, table| by_length(map, table, |_| true)),
    ("the length at its number", |map, table| {
        refusing(map, table, |map| match map.len() {
            16 => first(map, |value| value > 15),
            length => Some(length),
        })
    }),
    ("the length where the map ends or goes on", |map, table| {
        refusing(map, table, |map| match map.len() {
            16 => first(map, |value| value > 15),
            length => Some(length.min(16)),
        })
    }),
    ("the length after the values", |map, table| {
        refusing(map, table, |map| {
            first(map, |value| value > 15).or(if map.len() != 16 { Some(0) } else { None })
        })
    }),
    ("the length after the first 16 values", |map, table| {
        refusing(map, table, |map| {
            let front = &map[..map.len().min(16)];
            first(front, |value| value > 15).or(if map.len() != 16 { Some(0) } else { None })
        })
    }),
    ("26 for 27", |map, table| refused_so(map, table, |line| (26, line))),
    ("28 for 27", |map, table| refused_so(map, table, |line| (28, line))),
    ("16 entries counted", |map, table| match Paper.map_table(map, table) {
        Counted(_) => Counted(16),
        answer => answer,
    }),
    ("nothing counted", |map, table| match Paper.map_table(map, table) {
        Counted(_) => Counted(0),
        answer => answer,
    }),
];

/// Refuses as is right, and then leaves something in the table, of what it held or would hold.
fn leaving(
    map: &[u8],
    table: &mut MapTable,
    change: impl Fn(&mut MapTable, &MapTable, &[u8], usize),
) -> Answer {
    let before = *table;
    let answer = Paper.map_table(map, table);
    if let Refused { line, .. } = answer {
        change(table, &before, map, line as usize);
    }
    answer
}

const LEFT: [(&str, WriteMap); 9] = [
    ("not cleared after a refusal", |map, table| leaving(map, table, |table, before, _, _| *table = *before)),
    ("not cleared after a wrong length", |map, table| {
        leaving(map, table, |table, before, map, _| {
            if map.len() != 16 {
                *table = *before;
            }
        })
    }),
    ("not cleared after a wrong value", |map, table| {
        leaving(map, table, |table, before, map, _| {
            if map.len() == 16 {
                *table = *before;
            }
        })
    }),
    ("not cleared after a refusal of no values", |map, table| {
        leaving(map, table, |table, before, map, _| {
            if map.is_empty() {
                *table = *before;
            }
        })
    }),
    ("cleared in half after a refusal", |map, table| {
        leaving(map, table, |table, before, _, _| table[32..].copy_from_slice(&before[32..]))
    }),
    ("cleared at codewords alone after a refusal", |map, table| {
        leaving(map, table, |table, before, _, _| {
            for index in (0..64).filter(|&index| !C.contains(&(index as u8))) {
                table[index] = before[index];
            }
        })
    }),
    ("cleared but for the last entry after a refusal", |map, table| {
        leaving(map, table, |table, before, _, _| table[63] = before[63])
    }),
    ("entries before the wrong value made", |map, table| {
        leaving(map, table, |table, _, map, line| {
            for a in 0..line {
                table[at(a)] = C[map[a] as usize];
            }
        })
    }),
    ("filled with 255 after a refusal", |map, table| leaving(map, table, |table, _, _, _| table.fill(255))),
];

// ---------------------------------------------------------------- look-ups

const LOOK_UPS: [(&str, LookUp); 16] = [
    ("modulo 64", |table, word| table[(word & 63) as usize]),
    ("without the highest bit", |table, word| Paper.look_up(table, word & 127)),
    ("255 above 63", |table, word| if word > 63 { 255 } else { table[word as usize] }),
    ("the codeword of 0 above 63", |table, word| if word > 63 { C[0] } else { table[word as usize] }),
    ("the last entry above 63", |table, word| table[word.min(63) as usize]),
    ("the first entry above 63", |table, word| table[if word > 63 { 0 } else { word as usize }]),
    ("the operand above 63", |table, word| if word > 63 { word } else { table[word as usize] }),
    ("0 for 63 too", |table, word| if word > 62 { 0 } else { table[word as usize] }),
    ("0 for 0 too", |table, word| if word == 0 { 0 } else { Paper.look_up(table, word) }),
    ("0 behind the last codeword", |table, word| if word > 44 { 0 } else { table[word as usize] }),
    ("0 outside the code", |table, word| if Paper.decode(word) == 255 { 0 } else { table[word as usize] }),
    ("0 for an entry outside the code", |table, word| match Paper.look_up(table, word) {
        entry if C.contains(&entry) => entry,
        _ => 0,
    }),
    ("six bits of the entry", |table, word| Paper.look_up(table, word) & 63),
    ("seven bits of the entry", |table, word| Paper.look_up(table, word) & 127),
    ("the entry beside", |table, word| if word > 63 { 0 } else { table[(word ^ 1) as usize] }),
    ("the nibble's entry", |table, word| table.get(Paper.decode(word) as usize).copied().unwrap_or(0)),
];

/// The entry at an index cut to twelve bits.
fn cut(table: &PairTable, index: usize) -> u8 {
    table[index % 4_096]
}

const LOOK_UP_PAIRS: [(&str, LookUpPair); 17] = [
    ("the first operand modulo 64", |table, a, b| Paper.look_up_pair(table, a & 63, b)),
    ("the second operand modulo 64", |table, a, b| Paper.look_up_pair(table, a, b & 63)),
    ("both operands modulo 64", |table, a, b| Paper.look_up_pair(table, a & 63, b & 63)),
    ("both operands without the highest bit", |table, a, b| Paper.look_up_pair(table, a & 127, b & 127)),
    ("the index of twelve bits", |table, a, b| cut(table, 64 * a as usize + b as usize)),
    ("the index below 4,096", |table, a, b| table.get(64 * a as usize + b as usize).copied().unwrap_or(0)),
    ("0 where both are above 63", |table, a, b| {
        if a > 63 && b > 63 {
            0
        } else {
            cut(table, 64 * a as usize + b as usize)
        }
    }),
    ("0 where the exclusive or is above 63", |table, a, b| {
        if a ^ b > 63 {
            0
        } else {
            cut(table, 64 * a as usize + b as usize)
        }
    }),
    ("at 64 times the second", |table, a, b| Paper.look_up_pair(table, b, a)),
    (
        "at 16 times the first",
        |table, a, b| {
            if a > 63 || b > 63 {
                0
            } else {
                table[16 * a as usize + b as usize]
            }
        },
    ),
    ("the index of eight bits", |table, a, b| {
        if a > 63 || b > 63 {
            0
        } else {
            table[a.wrapping_mul(64).wrapping_add(b) as usize]
        }
    }),
    ("the exclusive or, whatever the table", |_, a, b| Paper.xor(a, b)),
    (
        "0 outside the code",
        |table, a, b| {
            if Paper.xor(a, b) == 0 {
                0
            } else {
                Paper.look_up_pair(table, a, b)
            }
        },
    ),
    ("six bits of the entry", |table, a, b| Paper.look_up_pair(table, a, b) & 63),
    ("0 for 63 too", |table, a, b| if a > 62 { 0 } else { Paper.look_up_pair(table, a, b) }),
    ("0 for 63 as the second too", |table, a, b| if b > 62 { 0 } else { Paper.look_up_pair(table, a, b) }),
    ("255 above 63", |table, a, b| if a > 63 || b > 63 { 255 } else { Paper.look_up_pair(table, a, b) }),
];
