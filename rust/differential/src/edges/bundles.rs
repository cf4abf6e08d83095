//! Bundles: the count and every number of a pair at both ends of what it may be, and the place that is refused.

use super::tools::{bundle_refused, reported};
use super::Edges;
use crate::bundles::deciding;
use crate::findings::Findings;
use crate::rng::Rng;
use crate::{compare, sides};
use model::answer::Verdict::*;
use model::bundle::{self, write};

/// The bundle holds these captures: each gets a line, and is accepted, as one of a's alone is, by so many readings.
fn holds(found: &mut Findings, rng: &mut Rng, bundle: &[u8], captures: &[&[u8]]) {
    let read = bundle::read(bundle);
    found.note(compare::answers("captures, as told", &Ok(captures.to_vec()), &read), &[("bundle", bundle)]);
    let line = |capture: &&[u8]| {
        assert!(capture.iter().all(|&byte| byte == b'a'), "told of a's alone");
        reported(Accepted, capture.len() + 2, capture.len() + 1)
    };
    let told: Vec<_> = captures.iter().map(line).collect();
    let got = sides::judge_bundle(found, rng, &deciding(), bundle, 40, 40).map(|report| report.lines);
    found.note(compare::answers("lines, as told", &Ok(told), &got), &[("bundle", bundle)]);
}

fn refused(found: &mut Findings, rng: &mut Rng, bundle: &[u8], place: usize) {
    bundle_refused(found, rng, &deciding(), bundle, 18, place);
}

/// So many empty captures right behind their pairs.
fn of_empty_captures(count: u32) -> Vec<u8> {
    write(count, &vec![(4 + 8 * count, 0); count as usize], b"")
}

pub fn add(edges: &mut Edges) {
    counts(edges);
    lengths(edges);
    starts(edges);
    ends(edges);
    past_32_bits(edges);
    many(edges);
}

fn counts(edges: &mut Edges) {
    for count in [1, 2, 63, 64] {
        edges.add(format!("bundle: {count} captures"), move |found, rng| {
            let bundle = of_empty_captures(count);
            holds(found, rng, &bundle, &vec![&b""[..]; count as usize]);
            let pairs: Vec<(u32, u32)> = (0..count).map(|at| (4 + 8 * count + at, 1)).collect();
            let bytes = vec![b'a'; count as usize];
            holds(found, rng, &write(count, &pairs, &bytes), &vec![&b"a"[..]; count as usize]);
            // A count one lower: the last pair is then a gap; one higher asks for a pair more.
            if count > 1 {
                holds(found, rng, &write(count - 1, &pairs, &bytes), &vec![&b"a"[..]; count as usize - 1]);
            }
            refused(found, rng, &write(count + 1, &pairs, b""), 0);
            // Each byte of the count counts.
            for at in 1..4 {
                let mut bundle = bundle.clone();
                bundle[at] = 1;
                refused(found, rng, &bundle, 0);
            }
        });
    }
    for count in [0, 65, 66, 128, 255, 256, 1 << 16, 1 << 24, 1 << 29, (1 << 29) + 1, 1 << 31, u32::MAX] {
        edges.add(format!("bundle: a count of {count}"), move |found, rng| {
            for bytes in [vec![], vec![0; 2000], vec![0xff; 2000]] {
                refused(found, rng, &write(count, &[], &bytes), 0);
            }
            // With right pairs, for 65 and 66.
            refused(found, rng, &write(count, &[(600, 0); 66], &[0; 900]), 0);
        });
    }
    edges.add("bundle: 65 right pairs", |found, rng| refused(found, rng, &of_empty_captures(65), 0));
}

fn lengths(edges: &mut Edges) {
    edges.add("bundle: shorter than its count and pairs", |found, rng| {
        for count in [1, 2, 64] {
            let bundle = of_empty_captures(count);
            for length in (0..13).chain([bundle.len() - 9, bundle.len() - 8, bundle.len() - 1]) {
                if length < bundle.len() {
                    refused(found, rng, &bundle[..length], 0);
                }
            }
            holds(found, rng, &bundle, &vec![&b""[..]; count as usize]);
        }
        for length in 0..40 {
            refused(found, rng, &vec![0; length], 0);
            refused(found, rng, &vec![0xff; length], 0);
        }
    });
    edges.add("bundle: bytes before, between and behind the captures", |found, rng| {
        holds(found, rng, &write(1, &[(14, 2)], b"..aa.."), &[b"aa"]);
        holds(found, rng, &write(3, &[(29, 1), (31, 2), (35, 0)], b".a.aa...."), &[b"a", b"aa", b""]);
        holds(found, rng, &write(1, &[(12, 0)], b"...."), &[b""]);
    });
}

/// A start one before, at and one after the earliest that it may be.
fn starts(edges: &mut Edges) {
    edges.add("bundle: where the first may start", |found, rng| {
        for start in [0, 1, 4, 11] {
            refused(found, rng, &write(1, &[(start, 0)], b"aaaa"), 4);
            refused(found, rng, &write(1, &[(start, 1)], b"aaaa"), 4);
        }
        holds(found, rng, &write(1, &[(12, 1)], b"aaaa"), &[b"a"]);
        holds(found, rng, &write(1, &[(13, 3)], b"aaaa"), &[b"aaa"]);
        // Behind its own pair, and not behind all of them.
        refused(found, rng, &write(2, &[(12, 0), (20, 0)], b"aaaa"), 4);
        refused(found, rng, &write(2, &[(19, 0), (20, 0)], b"aaaa"), 4);
        holds(found, rng, &write(2, &[(20, 0), (20, 0)], b"aaaa"), &[b"", b""]);
    });
    edges.add("bundle: where a later one may start", |found, rng| {
        refused(found, rng, &write(2, &[(20, 2), (21, 1)], b"aaaa"), 12);
        refused(found, rng, &write(2, &[(20, 2), (21, 0)], b"aaaa"), 12);
        refused(found, rng, &write(2, &[(20, 2), (20, 2)], b"aaaa"), 12);
        holds(found, rng, &write(2, &[(20, 2), (22, 1)], b"aaaa"), &[b"aa", b"a"]);
        holds(found, rng, &write(2, &[(20, 2), (23, 1)], b"aaaa"), &[b"aa", b"a"]);
        refused(found, rng, &write(2, &[(22, 1), (20, 1)], b"aaaa"), 12);
        // By the end of the one before, and not by its offset or by an earlier one's end.
        refused(found, rng, &write(3, &[(28, 1), (30, 2), (29, 1)], b"aaaa"), 20);
        refused(found, rng, &write(3, &[(28, 1), (30, 2), (31, 1)], b"aaaa"), 20);
        holds(found, rng, &write(3, &[(28, 1), (30, 1), (31, 1)], b"aaaa"), &[b"a", b"a", b"a"]);
    });
    edges.add("bundle: equal offsets", |found, rng| {
        holds(found, rng, &write(3, &[(29, 0), (29, 0), (29, 2)], b"aaaa"), &[b"", b"", b"aa"]);
        refused(found, rng, &write(3, &[(29, 0), (29, 2), (29, 0)], b"aaaa"), 20);
        refused(found, rng, &write(2, &[(20, 1), (20, 0)], b"aaaa"), 12);
    });
}

/// An end one before, at and one after that of the bundle.
fn ends(edges: &mut Edges) {
    edges.add("bundle: where a capture may end", |found, rng| {
        holds(found, rng, &write(1, &[(12, 3)], b"aaaa"), &[b"aaa"]);
        holds(found, rng, &write(1, &[(12, 4)], b"aaaa"), &[b"aaaa"]);
        refused(found, rng, &write(1, &[(12, 5)], b"aaaa"), 4);
        holds(found, rng, &write(1, &[(15, 1)], b"aaaa"), &[b"a"]);
        holds(found, rng, &write(1, &[(16, 0)], b"aaaa"), &[b""]);
        refused(found, rng, &write(1, &[(16, 1)], b"aaaa"), 4);
        refused(found, rng, &write(1, &[(17, 0)], b"aaaa"), 4);
        holds(found, rng, &write(2, &[(20, 1), (21, 3)], b"aaaa"), &[b"a", b"aaa"]);
        refused(found, rng, &write(2, &[(20, 1), (21, 4)], b"aaaa"), 12);
        refused(found, rng, &write(2, &[(20, 1), (25, 0)], b"aaaa"), 12);
    });
}

/// Sums of 33 bits that would be right modulo 2 to the 32nd.
fn past_32_bits(edges: &mut Edges) {
    edges.add("bundle: an end past 32 bits", |found, rng| {
        for start in [12, 13, 16, 17, 1 << 16, 1 << 31, u32::MAX - 1, u32::MAX] {
            for end in 0..=17u32 {
                let size = end.wrapping_sub(start);
                // Those that do not pass 32 bits are told above.
                if u64::from(start) + u64::from(size) > u32::MAX.into() {
                    refused(found, rng, &write(1, &[(start, size)], b"aaaa"), 4);
                    refused(found, rng, &write(2, &[(20, 1), (start.max(21), size)], b"aaaa"), 12);
                }
            }
            refused(found, rng, &write(1, &[(start, u32::MAX)], b"aaaa"), 4);
            refused(found, rng, &write(1, &[(start, 1 << 31)], b"aaaa"), 4);
        }
        refused(found, rng, &write(1, &[(u32::MAX, 0)], b"aaaa"), 4);
    });
    edges.add("bundle: a start behind an end past 32 bits", |found, rng| {
        // The first pair is the wrong one, wherever the second starts.
        for start in [0, 19, 20, 24, u32::MAX] {
            refused(found, rng, &write(2, &[(20, u32::MAX), (start, 0)], b"aaaa"), 4);
            refused(found, rng, &write(2, &[(20, u32::MAX - 19), (start, 0)], b"aaaa"), 4);
        }
    });
}

fn many(edges: &mut Edges) {
    edges.add("bundle: each of 64 pairs wrong", |found, rng| {
        for wrong in 0..64 {
            let right: Vec<(u32, u32)> = (0..64).map(|pair| (516 + pair, 1)).collect();
            for pair in [(515, 0), (515 + wrong as u32, 1), (516 + wrong as u32, 100), (581, 0), (0, u32::MAX)] {
                let mut pairs = right.clone();
                pairs[wrong] = pair;
                refused(found, rng, &write(64, &pairs, &[b'a'; 64]), 4 + 8 * wrong);
                // All behind it wrong too.
                pairs[wrong..].fill(pair);
                refused(found, rng, &write(64, &pairs, &[b'a'; 64]), 4 + 8 * wrong);
            }
        }
    });
    edges.add("bundle: each byte of a right one changed", |found, rng| {
        let right = write(3, &[(29, 2), (31, 0), (33, 2)], b".aa..ae.");
        for at in 0..right.len() {
            for bit in 0..8 {
                let mut bundle = right.clone();
                bundle[at] ^= 1 << bit;
                let _ = sides::judge_bundle(found, rng, &deciding(), &bundle, 12, 12);
            }
        }
    });
    edges.add("bundle: packed and read back", |found, rng| {
        for count in [1, 2, 64] {
            for most in [0, 1, 300] {
                let captures: Vec<Vec<u8>> = (0..count).map(|_| vec![b'a'; rng.within(0..=most)]).collect();
                let bundle = sides::pack_bundle(found, &captures);
                let got = sides::judge_bundle(found, rng, &deciding(), &bundle, 604, 604);
                let accepted = got.map(|report| report.totals.accepted);
                found.note(compare::answers("accepted", &Ok(count), &accepted), &[("bundle", &bundle)]);
            }
        }
    });
}
