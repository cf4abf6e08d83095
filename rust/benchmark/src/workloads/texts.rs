//! Texts that are read: of one length with few names or many, and the one of the ring, with its captures.

/// The text of the examples: a table that a switch prints of its ring.
pub const RING: &[u8] = include_bytes!("../../../../examples/ring.peg");

/// The lengths of text that are measured.
pub const LENGTHS: [usize; 4] = [1_000, 16_000, 250_000, 1_000_000];

/// How many names there are in texts of one length, from few to many, and that length.
pub const NAMES: [usize; 4] = [1, 10, 100, 1_000];
pub const LENGTH_WITH_NAMES: usize = 64_000;

/// The ring's text with blanks after its last line: it is read, and gives its grammar.
pub fn blanks(n: usize) -> Vec<u8> {
    let mut text = RING.to_vec();
    text.resize(n.max(RING.len()), b' ');
    text
}

/// One line of every operator, with no name but its own: it needs too many rules, which its end decides.
pub fn operators(n: usize) -> Vec<u8> {
    let mut text = b"a=.".to_vec();
    end_line(&mut text, b" / ('a-z'* !'0-9'+ &.)? empty", n);
    text
}

/// As many lines as there are names, each of many tokens and with a use of another line's name.
pub fn names(n: usize, count: usize) -> Vec<u8> {
    let mut text = Vec::with_capacity(n);
    for line in 0..count {
        text.extend([name(line), b"=".to_vec(), name(count - 1 - line)].concat());
        end_line(&mut text, b"/.", (line + 1) * n / count);
    }
    text
}

/// Goes on with one thing again and again, then with blanks, so that the line ends with the text's nth byte.
fn end_line(text: &mut Vec<u8>, more: &[u8], n: usize) {
    while text.len() + more.len() < n {
        text.extend(more);
    }
    text.resize(n - 1, b' ');
    text.push(b';');
}

/// Five letters, another for each number.
fn name(number: usize) -> Vec<u8> {
    format!("{number:05}").bytes().map(|digit| b'a' + digit - b'0').collect()
}

/// A ring's table of so many lines of 6 bytes.
pub fn table(lines: usize) -> Vec<u8> {
    let line = |line: usize| [b'1' + (line % 8) as u8, b'-', b'1' + ((line + 1) % 8) as u8, b' ', b'F', b'\n'];
    (0..lines).flat_map(line).collect()
}
