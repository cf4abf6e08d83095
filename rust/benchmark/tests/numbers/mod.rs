//! Small grammars, images, texts and captures, drawn from a fixed sequence of numbers.

/// The names of a text's lines: one begins as another does, and one as a reserved word.
const NAMES: [&[u8]; 3] = [b"a", b"ab", b"emptyx"];

/// The ends of ranges: letters of captures, and bytes that are signs elsewhere.
const ENDS: [u8; 8] = *b"aabbc;'-";

/// A sequence of numbers, the same in every run.
pub struct Numbers(pub u64);

impl Numbers {
    pub fn below(&mut self, limit: usize) -> usize {
        // xorshift, by Marsaglia
        self.0 ^= self.0 << 13;
        self.0 ^= self.0 >> 7;
        self.0 ^= self.0 << 17;
        (self.0 >> 11) as usize % limit
    }

    pub fn byte(&mut self, limit: usize) -> u8 {
        self.below(limit) as u8
    }

    pub fn capture(&mut self) -> Vec<u8> {
        (0..self.below(9)).map(|_| b'a' + self.byte(3)).collect()
    }

    pub fn grammar(&mut self) -> Vec<u8> {
        let m = 1 + self.below(6);
        (0..m).flat_map(|_| self.grammar_rule(m)).collect()
    }

    fn grammar_rule(&mut self, m: usize) -> [u8; 4] {
        match self.below(6) {
            0 | 1 => [1, self.byte(m), self.byte(m), 0],
            2 => [2, self.byte(m), self.byte(m), 0],
            3 => [3, self.byte(m), 0, 0],
            4 => [4, 0, 0, 0],
            _ => [5, b'a' + self.byte(3), b'a' + self.byte(3), 0],
        }
    }

    /// Of up to 31 rules, of which most name none, so that many lead nowhere back.
    pub fn sparse_grammar(&mut self) -> Vec<u8> {
        let (m, leaf) = (1 + self.below(31), [5, b'a', b'b', 0]);
        (0..m).flat_map(|_| if self.below(5) == 0 { self.grammar_rule(m) } else { leaf }).collect()
    }

    /// A good image, most of whose rules lead somewhere.
    pub fn image(&mut self) -> Vec<u8> {
        let (q, k, g) = (1 + self.below(4), 1 + self.below(3), 1 + self.below(3));
        let size = 4 * q * (k + 2) * g;
        let counts = u32::from_le_bytes([q as u8, k as u8, g as u8, 0]);
        let header = [24, 8, 32, 256, 288, size as u32, counts, self.below(1 << q) as u32];
        let mut image: Vec<u8> = header.into_iter().flat_map(u32::to_le_bytes).collect();
        image.extend((0..256).map(|_| self.byte(k)));
        for rule in 0..size / 4 {
            let class = rule / g % (k + 2);
            image.extend(self.rule(q, g, class == k, class == k + 1));
        }
        image
    }

    fn rule(&mut self, q: usize, g: usize, is_left: bool, is_right: bool) -> [u8; 4] {
        match self.below(8) {
            0 => [[0, 4][self.below(2)], 0, 0, 0],
            1..=2 => [3, self.byte(q), 0, self.byte(2)],
            kind => {
                let moves: &[u8] = if is_left {
                    &[0, 1]
                } else if is_right {
                    &[0, 2]
                } else {
                    &[0, 1, 1, 2]
                };
                [1 + (kind % 2) as u8, self.byte(q), self.byte(g), moves[self.below(moves.len())]]
            }
        }
    }

    /// A rule that stops the run, or one that is nearly such.
    pub fn stop(&mut self) -> [u8; 4] {
        let mut rule = [[0, 4, 4, 4, 5][self.below(5)], 0, 0, 0];
        if self.below(3) == 0 {
            rule[1 + self.below(3)] = [1, 255][self.below(2)];
        }
        rule
    }

    /// A text that is right, but for the rules that it may need.
    pub fn text(&mut self) -> Vec<u8> {
        let lines = 1 + self.below(3);
        let mut text = Vec::new();
        for name in &NAMES[..lines] {
            text.extend([name, &b"="[..]].concat());
            self.expression(lines, 3, &mut text);
            text.extend([b";", &b";\n"[..]][self.below(2)]);
        }
        text
    }

    fn expression(&mut self, lines: usize, depth: usize, text: &mut Vec<u8>) {
        for part in 0..1 + self.below(3) {
            if part > 0 {
                text.push([b' ', b'/'][self.below(2)]);
            }
            text.extend([&b""[..], b"", b"!", b"&"][self.below(4)]);
            match self.below(7) {
                0 => text.push(b'.'),
                1 => text.extend(b"empty"),
                2 => text.extend(b"fail"),
                3..=4 => text.extend(NAMES[self.below(lines)]),
                5 if depth > 0 => {
                    text.push(b'(');
                    self.expression(lines, depth - 1, text);
                    text.push(b')');
                }
                _ => text.extend([b'\'', ENDS[self.below(8)], b'-', ENDS[self.below(8)], b'\'']),
            }
            text.extend([&b""[..], b"", b"", b"*", b"+", b"?"][self.below(6)]);
        }
    }

    /// Spoils a byte, or the length, of every third of the given bytes.
    pub fn spoil(&mut self, bytes: &mut Vec<u8>) {
        match self.below(9) {
            0 => bytes.truncate(self.below(bytes.len() + 1)),
            1 => {
                let at = self.below(bytes.len().min(33));
                bytes[at] = bytes[at].wrapping_add(1 + self.byte(255));
            }
            2 => {
                let at = self.below(bytes.len());
                bytes[at] = bytes[at].wrapping_add(1 + self.byte(255));
            }
            _ => {}
        }
    }
}
