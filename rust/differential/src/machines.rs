//! Random machines, mostly small and with dense rules, in three styles whose runs do a lot.

use crate::edges::tools::{HALT, NONE};
use crate::lively::{liveliest, Drawn};
use crate::rng::Rng;
use model::image::{write, Parts};

#[derive(Clone, Copy)]
enum Style {
    /// Any rule anywhere. Such runs loop or get stuck soon.
    Wild,
    /// An entry's symbol only grows, so that runs end, often after many more steps than there are configurations.
    Ranked,
    /// Even states walk right and push, odd ones walk left and pop.
    Sweeping,
}

/// What a random machine is made with.
struct Recipe {
    states: usize,
    classes: usize,
    symbols: usize,
    style: Style,
    /// How many rules in a thousand are wild whatever the style.
    noise: usize,
    /// Weights of the kinds 0 to 4 in a wild rule.
    kinds: [usize; 5],
    /// How many rules in a thousand are missing or halt, whatever the style.
    stops: usize,
    /// Weights of stay, right and left.
    moves: [usize; 3],
    /// How many removals in a hundred return.
    returns: usize,
}

/// An image with a capture on which it does a lot.
pub fn with_capture(rng: &mut Rng) -> (Vec<u8>, Vec<u8>) {
    let sizes = sizes(rng);
    // A large one takes too long to make for several to be drawn.
    let draws: &[usize] = if sizes.0 * sizes.1 * sizes.2 > 2000 { &[1] } else { &[1, 6, 12, 24] };
    let drawn = liveliest(rng, draws, |rng| Drawn { image: image_of(rng, sizes), capture: capture(rng), from: () });
    (drawn.image, drawn.capture)
}

/// A small image.
pub fn small_image(rng: &mut Rng) -> Vec<u8> {
    let sizes = (rng.within(1..=5), rng.within(1..=4), rng.within(1..=6));
    image_of(rng, sizes)
}

/// An image with so many states, classes and symbols.
pub fn image_of(rng: &mut Rng, (states, classes, symbols): (usize, usize, usize)) -> Vec<u8> {
    let recipe = Recipe {
        states,
        classes,
        symbols,
        style: rng.pick(&[Style::Wild, Style::Ranked, Style::Ranked, Style::Sweeping]),
        noise: rng.pick(&[0, 0, 2, 10, 50]),
        kinds: [
            rng.pick(&[0, 0, 1, 2]),
            rng.within(1..=8),
            rng.within(1..=6),
            rng.within(1..=8),
            rng.pick(&[0, 0, 1, 2]),
        ],
        stops: rng.pick(&[0, 0, 20, 50]),
        moves: rng.pick(&[[2, 2, 2], [1, 4, 1], [1, 3, 2], [4, 2, 1], [0, 1, 1], [0, 5, 1]]),
        returns: rng.pick(&[0, 20, 50, 100]),
    };
    let mut rules = Vec::new();
    for state in 0..states {
        for class in 0..classes + 2 {
            for symbol in 0..symbols {
                rules.push(rule(rng, &recipe, state, class, symbol));
            }
        }
    }
    let mut class_map = [0; 256];
    class_map.fill_with(|| rng.below(classes) as u8);
    let some_finals = rng.next() as u32;
    let finals = rng.pick(&[some_finals, u32::MAX]) & (u32::MAX >> (32 - states));
    write(&Parts { states: states as u8, classes: classes as u8, symbols: symbols as u8, finals, class_map, rules })
}

/// Counts of states, classes and symbols: two in a hundred are of any size, for these take a thousand times as long.
fn sizes(rng: &mut Rng) -> (usize, usize, usize) {
    match rng.below(200) {
        0..=3 => (rng.within(1..=32), rng.within(1..=64), rng.within(1..=128)),
        4..=29 => (rng.within(1..=10), rng.within(1..=6), rng.within(1..=14)),
        _ => (rng.within(1..=5), rng.within(1..=3), rng.within(1..=6)),
    }
}

fn rule(rng: &mut Rng, recipe: &Recipe, state: usize, class: usize, symbol: usize) -> [u8; 4] {
    if rng.below(1000) < recipe.noise {
        return wild(rng, recipe, class);
    }
    if rng.below(1000) < recipe.stops {
        return rng.pick(&[NONE, HALT]);
    }
    match recipe.style {
        Style::Wild => wild(rng, recipe, class),
        Style::Ranked => ranked(rng, recipe, state, class, symbol),
        Style::Sweeping => sweeping(rng, recipe, state, class),
    }
}

fn wild(rng: &mut Rng, recipe: &Recipe, class: usize) -> [u8; 4] {
    let (state, symbol) = (rng.below(recipe.states), rng.below(recipe.symbols));
    match rng.weighted(&recipe.kinds) {
        0 => NONE,
        4 => HALT,
        3 => pop(rng, recipe, state),
        kind => [kind as u8, state as u8, symbol as u8, some_move(rng, recipe, class)],
    }
}

fn pop(rng: &mut Rng, recipe: &Recipe, state: usize) -> [u8; 4] {
    [3, state as u8, 0, rng.percent(recipe.returns) as u8]
}

/// A move that the class under the head allows.
fn some_move(rng: &mut Rng, recipe: &Recipe, class: usize) -> u8 {
    let mut moves = recipe.moves;
    if class == recipe.classes {
        moves = [moves[0] + 1, moves[1], 0];
    } else if class == recipe.classes + 1 {
        moves = [moves[0] + 1, 0, moves[2]];
    }
    rng.weighted(&moves) as u8
}

/// The lower half of the states pushes, or changes to a greater symbol; the upper half, which removals lead to, changes
/// to a greater symbol or removes. So an entry pushes at most once for each of its symbols, and the run ends.
fn ranked(rng: &mut Rng, recipe: &Recipe, state: usize, class: usize, symbol: usize) -> [u8; 4] {
    let half = recipe.states.div_ceil(2);
    let upper = |rng: &mut Rng| if half < recipe.states { rng.within(half..=recipe.states - 1) } else { 0 };
    let chance = rng.below(10);
    if symbol + 1 == recipe.symbols || chance < 1 {
        let state = upper(rng);
        return pop(rng, recipe, state);
    }
    let greater = rng.within(symbol + 1..=recipe.symbols - 1);
    // Mostly the next symbol, which makes for the longest runs.
    let greater = if rng.percent(70) { symbol + 1 } else { greater } as u8;
    let go = some_move(rng, recipe, class);
    if state < half && chance < 7 {
        [2, rng.below(half) as u8, greater, go]
    } else {
        [1, rng.below(half) as u8, greater, go]
    }
}

fn sweeping(rng: &mut Rng, recipe: &Recipe, state: usize, class: usize) -> [u8; 4] {
    let (chance, symbol) = (rng.below(20), rng.below(recipe.symbols) as u8);
    let other = if rng.percent(85) { state } else { rng.below(recipe.states) };
    let (on_left, on_right) = (class == recipe.classes, class == recipe.classes + 1);
    match (state.is_multiple_of(2), chance) {
        (_, 0) => wild(rng, recipe, class),
        (true, 1..=12) if !on_right => [2, other as u8, symbol, 1],
        (true, 13..=18) if !on_right => [1, other as u8, symbol, 1],
        (true, _) => pop(rng, recipe, if on_right { (state + 1) % recipe.states } else { other }),
        (false, 1..=6) if !on_left => [1, other as u8, symbol, 2],
        (false, _) => pop(rng, recipe, other),
    }
}

/// A capture of 0 to 40 bytes, seldom of more; of few different ones or of any.
pub fn capture(rng: &mut Rng) -> Vec<u8> {
    let length = match rng.below(100) {
        0 => rng.within(41..=500),
        1..=25 => rng.within(0..=3),
        _ => rng.within(0..=40),
    };
    if rng.percent(20) {
        return rng.bytes(length);
    }
    let alphabet = rng.bytes(3);
    (0..length).map(|_| rng.pick(&alphabet)).collect()
}
