//! Every refusal at its first and last place, each way of being wrong, and which one wins.

use super::tools::*;
use super::Edges;
use crate::findings::Findings;
use crate::rng::Rng;
use crate::sides;
use model::image::write;

/// A good small image: two states, three classes, two symbols; 20 rules.
fn good() -> Vec<u8> {
    let mut parts = blank(2, 3, 2, 0b11);
    parts.class_map.iter_mut().enumerate().for_each(|(byte, class)| *class = (byte % 3) as u8);
    parts.rules.iter_mut().for_each(|rule| *rule = pop(1));
    write(&parts)
}

/// The image is refused so, whatever call it is given to.
fn image_refused(found: &mut Findings, rng: &mut Rng, image: &[u8], number: u32, place: usize) {
    let got = sides::check(found, image);
    refused(found, "check", got, number, place);
    // Whatever else is wrong with a call, its image comes first.
    for (length, cells) in [(0, 100), (70_000, 100), (0, 0), (70_000, 0)] {
        let capture = vec![0; length];
        let got = sides::cells(found, image, length);
        refused(found, "cells", got, number, place);
        let got = sides::judge(found, rng, image, &capture, cells, cells);
        refused(found, "judge", got, number, place);
        let got = sides::plain_run(found, rng, image, &capture, 10, cells);
        refused(found, "plain run", got, number, place);
    }
}

/// Adds an edge for the good image with some bytes changed.
fn changed(edges: &mut Edges, name: &str, changes: &'static [(usize, u8)], number: u32, place: usize) {
    edges.add(format!("refusal {number} at {place}: {name}"), move |found, rng| {
        let mut image = good();
        for &(at, byte) in changes {
            image[at] = byte;
        }
        image_refused(found, rng, &image, number, place);
    });
}

pub fn add(edges: &mut Edges) {
    lengths(edges);
    directory(edges);
    counts(edges);
    classes(edges);
    bad_rules(edges);
    grammars(edges);
    edges.add("refusal 10: no stack cell", |found, rng| {
        let got = sides::plain_run(found, rng, &good(), b"", 0, 0);
        refused(found, "plain run", got, 10, 0);
    });
}

fn lengths(edges: &mut Edges) {
    for length in [0, 1, 24, 31] {
        edges.add(format!("refusal 1: {length} bytes"), move |found, rng| {
            image_refused(found, rng, &good()[..length], 1, length);
            image_refused(found, rng, &vec![0xff; length], 1, length);
        });
    }
    for length in [32, 287] {
        edges.add(format!("refusal 2: {length} bytes of a good image"), move |found, rng| {
            let mut image = good()[..length].to_vec();
            image_refused(found, rng, &image, 2, 16);
            // No third length helps: not 0, and not what would be right modulo 2 to the 32nd.
            for third in [0, (length as u32).wrapping_sub(288)] {
                image[20..24].copy_from_slice(&third.to_le_bytes());
                image_refused(found, rng, &image, 2, 16);
            }
        });
    }
    edges.add("refusal 2: one byte too few, one too many", |found, rng| {
        let mut image = good();
        image.push(0);
        image_refused(found, rng, &image, 2, 16);
        image_refused(found, rng, &good()[..good().len() - 1], 2, 16);
    });
    edges.add("refusal 4: other lengths of rules", |found, rng| {
        for length in [0, 1, 4, 76, 79, 81, 84, 160] {
            let mut image = good();
            image.resize(288 + length, 0);
            image[20..24].copy_from_slice(&(length as u32).to_le_bytes());
            image_refused(found, rng, &image, 4, 20);
        }
    });
    edges.add("refusal 4: counts that ask for another length", |found, rng| {
        for (at, byte) in [(24, 3), (25, 4), (26, 1), (26, 128), (25, 64)] {
            let mut image = good();
            image[at] = byte;
            image_refused(found, rng, &image, 4, 20);
        }
    });
}

fn directory(edges: &mut Edges) {
    changed(edges, "first offset", &[(0, 25)], 2, 0);
    changed(edges, "first offset's last byte", &[(3, 1)], 2, 0);
    changed(edges, "first length", &[(4, 9)], 2, 0);
    changed(edges, "first length's last byte", &[(7, 128)], 2, 0);
    changed(edges, "second offset", &[(8, 33)], 2, 8);
    changed(edges, "second length", &[(13, 0)], 2, 8);
    changed(edges, "third offset", &[(16, 0x21)], 2, 16);
    changed(edges, "third length", &[(20, 81)], 2, 16);
    changed(edges, "third length's last byte", &[(23, 1)], 2, 16);
    changed(edges, "all three pairs", &[(0, 0), (8, 0), (16, 0)], 2, 0);
    changed(edges, "the last two pairs", &[(8, 0), (16, 0)], 2, 8);
    changed(edges, "the third pair and everything behind it", &[(20, 0), (24, 0), (32, 9), (288, 9)], 2, 16);
}

fn counts(edges: &mut Edges) {
    changed(edges, "no state", &[(24, 0)], 3, 24);
    changed(edges, "33 states", &[(24, 33)], 3, 24);
    changed(edges, "no class", &[(25, 0)], 3, 25);
    changed(edges, "65 classes", &[(25, 65)], 3, 25);
    changed(edges, "no symbol", &[(26, 0)], 3, 26);
    changed(edges, "129 symbols", &[(26, 129)], 3, 26);
    changed(edges, "byte 27", &[(27, 1)], 3, 27);
    changed(edges, "finals, first bit too many", &[(28, 4)], 3, 28);
    changed(edges, "finals, last bit", &[(31, 128)], 3, 28);
    changed(edges, "all counts", &[(24, 255), (25, 255), (26, 255), (27, 255), (28, 255)], 3, 24);
    changed(edges, "byte 27 and finals", &[(27, 255), (28, 255)], 3, 27);
    changed(edges, "finals and a class and a rule", &[(28, 255), (32, 255), (288, 255)], 3, 28);
}

fn classes(edges: &mut Edges) {
    changed(edges, "the first class", &[(32, 3)], 5, 32);
    changed(edges, "the last class", &[(287, 3)], 5, 287);
    changed(edges, "a class of 255", &[(100, 255)], 5, 100);
    changed(edges, "two classes", &[(101, 64), (200, 3)], 5, 101);
    changed(edges, "the last class and the first rule", &[(287, 3), (288, 5)], 5, 287);
}

/// Each kind of bad rule, as the first rule and as the last one.
fn bad_rules(edges: &mut Edges) {
    let bad: &[(&str, [u8; 4])] = &[
        ("kind 5", [5, 0, 0, 0]),
        ("kind 255", [255, 0, 0, 0]),
        ("halt with state 1", [4, 1, 0, 0]),
        ("halt with state 255", [4, 255, 0, 0]),
        ("halt with symbol 1", [4, 0, 1, 0]),
        ("halt with symbol 255", [4, 0, 255, 0]),
        ("halt with move 1", [4, 0, 0, 1]),
        ("halt with move 255", [4, 0, 0, 255]),
        ("halt with all of them", [4, 1, 1, 1]),
        ("none with a state", [0, 1, 0, 0]),
        ("none with a symbol", [0, 0, 1, 0]),
        ("none with a move", [0, 0, 0, 1]),
        ("change to no state", [1, 2, 0, 0]),
        ("change to no symbol", [1, 0, 2, 0]),
        ("change with move 3", [1, 0, 0, 3]),
        ("push to no state", [2, 2, 0, 0]),
        ("push of no symbol", [2, 0, 2, 0]),
        ("push with move 3", [2, 0, 0, 3]),
        ("push with move 255", [2, 0, 0, 255]),
        ("pop to no state", [3, 2, 0, 0]),
        ("pop with a symbol", [3, 0, 1, 0]),
        ("pop with move 2", [3, 0, 0, 2]),
        ("pop with move 255", [3, 0, 0, 255]),
    ];
    for &(name, rule) in bad {
        edges.add(format!("refusal 6: {name}"), move |found, rng| {
            for place in [288, 292, 364] {
                let mut image = good();
                image[place..place + 4].copy_from_slice(&rule);
                image_refused(found, rng, &image, 6, place);
            }
        });
    }
    edges.add("refusal 6: moves off the tape", |found, rng| {
        // Classes 0 to 4 have two rules each; class 3 is the left marker and class 4 the right one.
        for state in 0..2 {
            for (class, bad_move) in [(3, LEFT), (4, RIGHT)] {
                for kind in [1, 2] {
                    for symbol in 0..2 {
                        let place = 288 + 4 * ((state * 5 + class) * 2 + symbol);
                        let mut image = good();
                        image[place..place + 4].copy_from_slice(&[kind, 0, 0, bad_move]);
                        image_refused(found, rng, &image, 6, place);
                    }
                }
            }
        }
    });
    edges.add("moves that stay on the tape are good", |found, _| {
        for class in 0..5 {
            for (kind, go) in [(1, STAY), (1, RIGHT), (1, LEFT), (2, STAY), (2, RIGHT), (2, LEFT), (3, 0), (3, 1)] {
                if kind != 3 && (class == 3 && go == LEFT || class == 4 && go == RIGHT) {
                    continue;
                }
                let place = 288 + 4 * (class * 2);
                let mut image = good();
                image[place..place + 4].copy_from_slice(&[kind, 1, 0, go]);
                let got = sides::check(found, &image);
                found.note(crate::compare::answers("check", &Ok(()), &got), &[("image", &image)]);
            }
        }
    });
    changed(edges, "the first and the last rule", &[(288, 9), (364, 9)], 6, 288);
}

/// Refusals 11 to 13.
fn grammars(edges: &mut Edges) {
    edges.add("refusal 11: lengths", |found, rng| {
        for length in [0, 1, 2, 3, 5, 7, 121, 122, 123, 125, 128, 256, 4096] {
            // Bad rules and a short buffer come after.
            for (byte, room) in [(0, 0), (4, 1000), (255, 90_000)] {
                build_refused(found, rng, &vec![byte; length], room, 11, length);
            }
        }
    });
    let wrong: &[[u8; 4]] = &[
        [0, 0, 0, 0],
        [6, 0, 0, 0],
        [255, 0, 0, 0],
        [1, 3, 0, 0],
        [1, 0, 3, 0],
        [1, 255, 0, 0],
        [1, 0, 0, 1],
        [2, 3, 0, 0],
        [2, 0, 3, 0],
        [2, 0, 255, 0],
        [2, 0, 0, 255],
        [3, 3, 0, 0],
        [3, 0, 1, 0],
        [3, 0, 0, 1],
        [4, 1, 0, 0],
        [4, 0, 1, 0],
        [4, 0, 0, 1],
        [5, 97, 98, 1],
        [5, 98, 97, 1],
        [5, 255, 0, 128],
        [6, 98, 97, 0],
    ];
    for &rule in wrong {
        edges.add(format!("refusal 12: {rule:?} among three rules"), move |found, rng| {
            for at in [0, 4, 8] {
                for room in [0, 5000] {
                    let mut bytes = [4, 0, 0, 0].repeat(3);
                    bytes[at..at + 4].copy_from_slice(&rule);
                    build_refused(found, rng, &bytes, room, 12, at);
                }
            }
        });
    }
    edges.add("refusal 12: the last of 31 rules, and the first of two", |found, rng| {
        let mut bytes = [4, 0, 0, 0].repeat(31);
        bytes[121] = 1;
        build_refused(found, rng, &bytes, 5000, 12, 120);
        bytes[60] = 7;
        build_refused(found, rng, &bytes, 5000, 12, 60);
    });
    edges.add("refusal 13: buffers around the length needed", |found, rng| {
        for room in [0, 1, 288, 466, 467] {
            build_refused(found, rng, &[4, 0, 0, 0], room, 13, 468);
        }
        for (room, matching) in for_both(&[468, 469, 1000]) {
            let got = sides::build(found, rng, &[4, 0, 0, 0], matching, room).map(|image| image.len());
            found.note(crate::compare::answers("build", &Ok(468), &got), &[]);
        }
    });
}
