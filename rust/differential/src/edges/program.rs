//! Edges of the program: refusal 14 in each form, what it refuses after that, and its buffers' limits.

use super::tools::doubling;
use super::Edges;
use crate::compare;
use crate::findings::Findings;
use crate::program::{compare_in_pieces, compare_with, path};
use model::program::{input, output};

/// The program prints this line, and so does the model.
fn prints(found: &mut Findings, input: &[u8], line: &str) {
    let line = format!("{line}\n");
    found.note(compare::answers("model's line", &line, &output(input)), &[("input", input)]);
    compare_with(found, input, &line);
}

/// An input with other numbers in its pairs.
fn with_pairs(grammar: &[u8], capture: &[u8], pairs: [u32; 4]) -> Vec<u8> {
    let mut bytes = input(grammar, capture);
    for (index, number) in pairs.into_iter().enumerate() {
        bytes[4 * index..][..4].copy_from_slice(&number.to_le_bytes());
    }
    bytes
}

const EMPTY: &[u8] = &[4, 0, 0, 0];

pub fn add(edges: &mut Edges) {
    edges.add("the program is there", |found, _| {
        found.note(compare::answers("program", &true, &path().is_file()), &[]);
    });
    edges.add("program: C5 as hex", |found, _| {
        let bytes = [0x10, 0, 0, 0, 4, 0, 0, 0, 0x14, 0, 0, 0, 0, 0, 0, 0, 1, 0, 0, 0];
        prints(found, &bytes, "looping 2 1 1 1");
    });
    edges.add("program: the input comes in pieces", |found, _| {
        let small = input(&[5, b'a', b'z', 0], b"q");
        for piece in [1, 7, 16, 17, 20] {
            compare_in_pieces(found, &small, piece, "accepted 4 2 2 0\n");
        }
        let long = input(EMPTY, &vec![b'x'; 1090]);
        compare_in_pieces(found, &long, 100, "stuck 3 2 1 0\n");
        for (length, line) in [(65_516, "refused 8 982770\n"), (65_517, "refused 14 0\n")] {
            compare_in_pieces(found, &input(EMPTY, &vec![b'x'; length]), 5000, line);
            compare_in_pieces(found, &input(EMPTY, &vec![b'x'; length]), 65_535, line);
        }
    });
    lengths(edges);
    pairs(edges);
    later_refusals(edges);
    limits(edges);
}

fn lengths(edges: &mut Edges) {
    for length in [0, 1, 15, 65_537, 70_000, 200_000] {
        edges.add(format!("program: {length} bytes"), move |found, _| {
            let mut bytes = input(EMPTY, &vec![b'x'; 200_000]);
            bytes.truncate(length);
            prints(found, &bytes, "refused 14 0");
            // A right directory does not help a long input.
            if length >= 20 {
                prints(found, &input(EMPTY, &vec![b'x'; length - 20]), "refused 14 0");
            }
        });
    }
    edges.add("program: 16 bytes", |found, _| {
        prints(found, &input(b"", b""), "refused 11 0");
        prints(found, &[0; 16], "refused 14 0");
        prints(found, &[0xff; 16], "refused 14 0");
    });
    edges.add("program: 65,536 bytes", |found, _| {
        // 5 states, 65,518 places, 3 symbols.
        prints(found, &input(EMPTY, &vec![b'x'; 65_516]), "refused 8 982770");
        prints(found, &input(&vec![0; 65_520], b""), "refused 11 65520");
        prints(found, &input(b"", &vec![0; 65_520]), "refused 11 0");
    });
}

fn pairs(edges: &mut Edges) {
    for (name, pairs, place) in [
        ("first offset too small", [15, 4, 20, 1], 0),
        ("first offset too great", [17, 4, 20, 1], 0),
        ("first offset zero", [0, 4, 20, 1], 0),
        ("grammar one byte too long for the input", [16, 6, 22, 0], 0),
        ("grammar far too long", [16, 65_536, 20, 1], 0),
        ("grammar longer than 32 bits reach", [16, u32::MAX, 15, 6], 0),
        ("grammar of 2 to the 32nd less 16", [16, u32::MAX - 15, 0, 21], 0),
        ("both pairs", [0, 0, 0, 0], 0),
        ("second offset too small", [16, 4, 19, 1], 8),
        ("second offset too great", [16, 4, 21, 1], 8),
        ("second offset far too great", [16, 4, u32::MAX, 1], 8),
        ("capture one byte short of the end", [16, 4, 20, 0], 8),
        ("capture one byte over the end", [16, 4, 20, 2], 8),
        ("capture longer than 32 bits reach", [16, 4, 20, u32::MAX], 8),
        ("capture's length with its highest bit set", [16, 4, 20, 1 << 31 | 1], 8),
    ] {
        edges.add(format!("program: {name}"), move |found, _| {
            prints(found, &with_pairs(EMPTY, b"a", pairs), &format!("refused 14 {place}"));
        });
    }
    edges.add("program: the pairs cut the grammar elsewhere", |found, _| {
        // Right pairs, but of other parts: whole input as grammar, and the grammar's bytes as capture.
        prints(found, &with_pairs(EMPTY, b"a", [16, 5, 21, 0]), "refused 11 5");
        prints(found, &with_pairs(EMPTY, b"a", [16, 0, 16, 5]), "refused 11 0");
        prints(found, &with_pairs(EMPTY, EMPTY, [16, 8, 24, 0]), "accepted 3 2 1 0");
    });
}

fn later_refusals(edges: &mut Edges) {
    edges.add("program: refusals 11 and 12", |found, _| {
        prints(found, &input(&[4; 5], b"a"), "refused 11 5");
        prints(found, &input(&EMPTY.repeat(32), b"a"), "refused 11 128");
        prints(found, &input(&EMPTY.repeat(31), b""), "accepted 3 2 1 0");
        prints(found, &input(&[0; 4], b"a"), "refused 12 0");
        let mut bytes = EMPTY.repeat(31);
        bytes[120] = 9;
        prints(found, &input(&bytes, b"a"), "refused 12 120");
        // Before 8, which such a capture would have.
        prints(found, &input(&bytes, &vec![0; 60_000]), "refused 12 120");
    });
    edges.add("program: refusal 13", |found, _| {
        // 31 rules with 62 borders, and with as many as the buffer just holds, or not.
        let ranges = |count: u8| -> Vec<u8> {
            let range = |rule: u8| [5, 2 + 8 * rule, 5 + 8 * rule, 0];
            (0..31).flat_map(|rule| if rule < count { range(rule) } else { [4, 0, 0, 0] }).collect()
        };
        prints(found, &input(&ranges(31), b""), "refused 13 82188");
        prints(found, &input(&ranges(31), &vec![0; 60_000]), "refused 13 82188");
        // 25 ranges: 51 classes, so 288 + 20 * 53 * 63 bytes. 24 ranges: 49 classes, 64,548 bytes.
        prints(found, &input(&ranges(25), b""), "refused 13 67068");
        prints(found, &input(&ranges(24), b""), "stuck 3 3 1 0");
        // One border more than 24 ranges have: 50 classes, 65,808 bytes.
        let mut bytes = ranges(24);
        bytes[96..100].copy_from_slice(&[5, 0, 250, 0]);
        prints(found, &input(&bytes, b""), "refused 13 65808");
    });
}

fn limits(edges: &mut Edges) {
    edges.add("program: as many notes as there are", |found, _| {
        // 15 cells a place: 1,092 places need 16,380 of 16,384 cells, one more needs 16,395.
        prints(found, &input(EMPTY, &vec![b'x'; 1090]), "stuck 3 2 1 0");
        prints(found, &input(EMPTY, &vec![b'x'; 1091]), "refused 8 16395");
        let star = [2, 1, 3, 0, 1, 2, 0, 0, 5, b'a', b'z', 0, 4, 0, 0, 0];
        for length in [0, 1, 361, 362, 363] {
            compare_with(found, &input(&star, &vec![b'x'; length]), &output(&input(&star, &vec![b'x'; length])));
        }
    });
    edges.add("program: runs of exponential length", |found, _| {
        for rules in [15, 25, 31] {
            let bytes = input(&doubling(rules, 1, [4, 0, 0, 0]), b"");
            compare_with(found, &bytes, &output(&bytes));
        }
    });
}
