//! The worked examples C1 to C10 and the samples, judged on site: that this build of the tool does on this machine what it must.
use crate::output::{self, complain};
use crate::status::Status;
use sejimakpu::{Config, Error, Grammar, Image, Judged, Matching, Verdict, Workspace};

/// An example: by what it is judged, the capture, and what the answer must be.
struct Example {
    name: &'static str,
    by: By,
    capture: &'static [u8],
    verdict: Verdict,
    readings: u32,
    end: [u32; 3],
}

enum By {
    Bytes(&'static [u8]),
    Text(&'static [u8], Matching),
    Image(fn() -> Vec<u8>),
}

impl By {
    fn image(&self) -> Result<Image, Error> {
        match self {
            By::Bytes(bytes) => Grammar::from_bytes(bytes)?.image(Matching::Whole),
            By::Text(text, matching) => Grammar::from_text(text)?.image(*matching),
            By::Image(bytes) => Image::from_bytes(bytes()),
        }
    }
}

const RING: &[u8] = include_bytes!("../../examples/ring.peg");
const RING_BYTES: &[u8] = include_bytes!("../../examples/ring.grammar");
const FORMED: &[u8] = include_bytes!("../../examples/formed.capture");
const BROKEN: &[u8] = include_bytes!("../../examples/broken.capture");

/// C10's: one state, class and symbol, no final state; the left marker pops and stays.
fn popping_image() -> Vec<u8> {
    let numbers = [24u32, 8, 32, 256, 288, 12];
    let mut bytes: Vec<u8> = numbers.iter().flat_map(|number| number.to_le_bytes()).collect();
    bytes.extend([1, 1, 1, 0, 0, 0, 0, 0]);
    bytes.extend([0; 256]);
    bytes.extend([0, 0, 0, 0, 3, 0, 0, 0, 0, 0, 0, 0]);
    bytes
}

use Verdict::{Accepted, Ended, Looping, Stuck};

const fn example(
    name: &'static str,
    by: By,
    capture: &'static [u8],
    verdict: Verdict,
    readings: u32,
    end: [u32; 3],
) -> Example {
    Example { name, by, capture, verdict, readings, end }
}

const EXAMPLES: &[Example] = &[
    example("C1", By::Bytes(&[4, 0, 0, 0]), b"", Accepted, 3, [2, 1, 0]),
    example("C2", By::Bytes(&[4, 0, 0, 0]), b"a", Stuck, 3, [2, 1, 0]),
    example("C3", By::Bytes(&[5, 97, 97, 0]), b"a", Accepted, 4, [2, 2, 0]),
    example("C4", By::Bytes(&[5, 97, 97, 0]), b"b", Stuck, 3, [3, 1, 0]),
    example("C5", By::Bytes(&[1, 0, 0, 0]), b"", Looping, 2, [1, 1, 1]),
    example("C6", By::Bytes(&[1, 1, 1, 0, 1, 2, 2, 0, 4, 0, 0, 0]), b"", Accepted, 11, [2, 1, 0]),
    example("C7", By::Bytes(&[3, 1, 0, 0, 5, 97, 97, 0]), b"", Accepted, 5, [2, 1, 0]),
    example("C8", By::Bytes(&[3, 1, 0, 0, 5, 97, 97, 0]), b"a", Stuck, 6, [3, 1, 0]),
    example("C9", By::Bytes(&[2, 1, 2, 0, 5, 97, 97, 0, 4, 0, 0, 0]), b"", Accepted, 8, [2, 1, 0]),
    example("C10", By::Image(popping_image), b"", Ended, 1, [0, 0, 0]),
    example("formed", By::Text(RING, Matching::Whole), FORMED, Accepted, 174, [2, 25, 0]),
    example("formed, bytes", By::Bytes(RING_BYTES), FORMED, Accepted, 174, [2, 25, 0]),
    example("broken", By::Text(RING, Matching::Whole), BROKEN, Stuck, 105, [2, 13, 0]),
    example("broken, bytes", By::Bytes(RING_BYTES), BROKEN, Stuck, 105, [2, 13, 0]),
    example("broken, leading", By::Text(RING, Matching::Leading), BROKEN, Accepted, 117, [2, 25, 0]),
];

/// Judges each, in the same cells, and tells those that came out otherwise.
pub fn run() -> Status {
    let mut workspace = Workspace::new();
    let mut wrong = 0;
    for example in EXAMPLES {
        let judged = example.by.image().and_then(|image| workspace.judge(&image, example.capture));
        let [state, head, symbol] = example.end;
        let end = Config { state, head, symbol };
        let must = Judged { verdict: example.verdict, readings: example.readings, end };
        if judged != Ok(must) {
            wrong += 1;
            complain(&format!("error: {}: must be {must:?}, is {judged:?}", example.name));
        }
    }
    let right = EXAMPLES.len() - wrong;
    let told = output::print(format!("{} examples: {right} as they must be\n", EXAMPLES.len()).as_bytes());
    if wrong == 0 {
        told
    } else {
        Status::Failed
    }
}
