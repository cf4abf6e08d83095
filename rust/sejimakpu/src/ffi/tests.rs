//! Every call writes every field of its answer, and numbers that no archive gives are an error.
use super::*;

/// What stood in the answer before: no field of an answer or of a refusal can be this.
const OLD: u64 = u64::MAX;

const UNWRITTEN: Answer = Answer { place: OLD, verdict: OLD, count: OLD, state: OLD, head: OLD, symbol: OLD };

/// The number returned, and every field, after a call that found old contents in the answer.
fn told(call: impl FnOnce(&mut Answer) -> u32) -> [u64; 7] {
    let mut answer = UNWRITTEN;
    let returned = call(&mut answer);
    let Answer { place, verdict, count, state, head, symbol } = answer;
    [returned.into(), place, verdict, count, state, head, symbol]
}

/// The image of the empty grammar for the whole capture: C1's.
fn image() -> [u8; 468] {
    image_of(Matching::Whole)
}

fn image_of(matching: Matching) -> [u8; 468] {
    let mut image = [0; 468];
    assert_eq!(told(|answer| build(&[4, 0, 0, 0], matching, &mut image, answer)), [0, 0, 0, 468, 0, 0, 0]);
    image
}

/// The same, with a rule that halts where C2 is stuck: in state 2, on a byte, at (2 · 3 + 0) · 3 + 0.
pub(super) fn halting() -> [u8; 468] {
    let mut image = image();
    assert_eq!(image[360..364], [0; 4]);
    image[360] = 4;
    image
}

#[test]
fn build_writes_every_field() {
    for matching in [Matching::Whole, Matching::Leading] {
        let mut image = [9; 467];
        let mut built = |grammar: &[u8]| told(|answer| build(grammar, matching, &mut image, answer));
        assert_eq!(built(&[4, 0, 0]), [11, 3, 0, 0, 0, 0, 0]);
        assert_eq!(built(&[4, 0, 0, 0, 4, 0, 0, 1]), [12, 4, 0, 0, 0, 0, 0]);
        assert_eq!(built(&[4, 0, 0, 0]), [13, 468, 0, 0, 0, 0, 0]);
        assert_eq!(image, [9; 467]);
    }
}

/// C2, stuck where nothing may follow; else its byte is passed in state 2, and the run accepts at the right marker.
#[test]
fn each_matching_is_a_call_of_its_own() {
    let (mut notes, mut work) = ([7; 45], [7; 45]);
    let mut judged = |matching| {
        let image = image_of(matching);
        told(|answer| judge(&image, b"a", &mut notes, &mut work, answer))
    };
    assert_eq!(judged(Matching::Whole), [0, 0, 3, 3, 2, 1, 0]);
    assert_eq!(judged(Matching::Leading), [0, 0, 1, 4, 2, 2, 0]);
}

#[test]
fn check_writes_every_field() {
    let image = image();
    assert_eq!(told(|answer| check(&image, answer)), [0; 7]);
    assert_eq!(told(|answer| check(&image[..31], answer)), [1, 31, 0, 0, 0, 0, 0]);
    let mut image = halting();
    assert_eq!(told(|answer| check(&image, answer)), [0; 7]);
    image[360] = 5;
    assert_eq!(told(|answer| check(&image, answer)), [6, 360, 0, 0, 0, 0, 0]);
}

#[test]
fn cells_writes_every_field() {
    let image = image();
    assert_eq!(told(|answer| cells(&image, 0, answer)), [0, 0, 0, 30, 0, 0, 0]);
    assert_eq!(told(|answer| cells(&image, 65_536, answer)), [7, 65_536, 0, 0, 0, 0, 0]);
}

#[test]
fn judge_writes_every_field() {
    let (image, mut notes, mut work) = (image(), [7; 30], [7; 30]);
    let mut judge = |cells| told(|answer| judge(&image, &[], &mut notes[..cells], &mut work, answer));
    assert_eq!(judge(29), [8, 30, 0, 0, 0, 0, 0]);
    assert_eq!(judge(30), [0, 0, 1, 3, 2, 1, 0]);
}

#[test]
fn plain_run_writes_every_field() {
    let (image, mut stack) = (image(), [7; 2]);
    let mut run = |budget, cells| told(|answer| plain_run(&image, &[], budget, &mut stack[..cells], answer));
    assert_eq!(run(3, 0), [10, 0, 0, 0, 0, 0, 0]);
    assert_eq!(run(3, 2), [0, 0, 1, 3, 2, 1, 0]);
    assert_eq!(run(2, 2), [0, 0, 5, 2, 2, 1, 0]);
    assert_eq!(run(3, 1), [0, 0, 6, 0, 0, 0, 0]);
}

/// C2, stuck and halted: the verdict alone is another. Of the plain run it comes before spent.
#[test]
fn halting_is_told_apart_from_stuck() {
    let (mut notes, mut work, mut stack) = ([7; 45], [7; 45], [7; 2]);
    for (image, verdict) in [(image(), 3), (halting(), 7)] {
        assert_eq!(told(|answer| judge(&image, b"a", &mut notes, &mut work, answer)), [0, 0, verdict, 3, 2, 1, 0]);
        let mut run = |budget| told(|answer| plain_run(&image, b"a", budget, &mut stack, answer));
        assert_eq!(run(9), [0, 0, verdict, 2, 2, 1, 0]);
        assert_eq!(run(2), [0, 0, verdict, 2, 2, 1, 0]);
        assert_eq!(run(1), [0, 0, 5, 1, 1, 1, 1]);
    }
}

#[test]
fn read_grammar_writes_every_field() {
    let mut grammar = [9; MAX_GRAMMAR];
    let mut read = |text: &[u8]| told(|answer| read_grammar(text, &mut grammar, answer));
    assert_eq!(read(b"a=b;"), [15, 2, 0, 0, 0, 0, 0]);
    assert_eq!(read(b"a=.++++++++;"), [16, 12, 0, 0, 0, 0, 0]);
    assert_eq!(read(b"a=((((((((((((((((("), [17, 18, 0, 0, 0, 0, 0]);
    assert_eq!(read(b"a=.;"), [0, 0, 0, 4, 0, 0, 0]);
    assert_eq!((&grammar[..4], &grammar[4..]), (&[5, 0, 255, 0][..], &[9; 120][..]));
}

#[test]
fn build_text_writes_every_field() {
    let mut lent = [9; 468];
    let mut built = |text: &[u8], room| told(|answer| build_text(text, &mut lent[..room], answer));
    assert_eq!(built(b"", 468), [15, 0, 0, 0, 0, 0, 0]);
    assert_eq!(built(b"a=empty;", 467), [13, 468, 0, 0, 0, 0, 0]);
    assert_eq!(built(b"a=empty;", 468), [0, 0, 0, 468, 0, 0, 0]);
    assert_eq!(lent, image());
}

#[test]
fn judge_text_writes_every_field() {
    let (mut lent, mut notes, mut work) = ([9; 468], [7; 30], [7; 30]);
    let mut judged = |text: &[u8], room, cells| {
        told(|answer| judge_text(text, &[], &mut lent[..room], &mut notes[..cells], &mut work, answer))
    };
    assert_eq!(judged(b"a=empty", 468, 30), [15, 7, 0, 0, 0, 0, 0]);
    assert_eq!(judged(b"a=empty;", 467, 30), [13, 468, 0, 0, 0, 0, 0]);
    assert_eq!(judged(b"a=empty;", 468, 29), [8, 30, 0, 0, 0, 0, 0]);
    assert_eq!(judged(b"a=empty;", 468, 30), [0, 0, 1, 3, 2, 1, 0]);
    assert_eq!(lent, image());
}

#[test]
fn check_recursion_writes_every_field() {
    let check = |grammar: &[u8]| told(|answer| check_recursion(grammar, answer));
    assert_eq!(check(&[]), [11, 0, 0, 0, 0, 0, 0]);
    assert_eq!(check(&[1, 0, 0, 0, 4, 0, 1, 0]), [12, 4, 0, 0, 0, 0, 0]);
    // The place is a rule's number, and no offset.
    assert_eq!(check(&[4, 0, 0, 0, 3, 1, 0, 0]), [19, 1, 0, 0, 0, 0, 0]);
    assert_eq!(check(&[1, 0, 0, 0]), [19, 0, 0, 0, 0, 0, 0]);
    assert_eq!(check(&[4, 0, 0, 0]), [0; 7]);
}

#[test]
fn check_text_recursion_writes_every_field() {
    let check = |text: &[u8]| told(|answer| check_text_recursion(text, answer));
    assert_eq!(check(b"a=a;b"), [15, 5, 0, 0, 0, 0, 0]);
    assert_eq!(check(b"a=a.++++++++;"), [16, 13, 0, 0, 0, 0, 0]);
    assert_eq!(check(b"a=((((((((((((((((("), [17, 18, 0, 0, 0, 0, 0]);
    assert_eq!(check(b"a=a;"), [19, 0, 0, 0, 0, 0, 0]);
    // The lines' own rules, 2 and 3 of a, and 4 to 6 of the star in b, whose first leads back.
    assert_eq!(check(b"a=.?; b=a* .;"), [19, 4, 0, 6, 0, 0, 0]);
    assert_eq!(check(b"a=.;"), [0; 7]);
}

/// What another archive might give is an error, and no panic.
#[test]
fn unknown_numbers_are_a_mismatch() {
    let of = |field, value| Error::Mismatch { field, value };
    for verdict in [0, 8, OLD] {
        assert_eq!(Answer { verdict, ..UNWRITTEN }.verdict(), Err(of("verdict", verdict)));
    }
    assert_eq!(UNWRITTEN.count::<u32>(), Err(of("count", OLD)));
    let zero = Answer::default();
    assert_eq!(Answer { state: 1 << 32, ..zero }.config(), Err(of("state", 1 << 32)));
    assert_eq!(Answer { head: 1 << 32, ..zero }.config(), Err(of("head", 1 << 32)));
    assert_eq!(Answer { symbol: 1 << 32, ..zero }.config(), Err(of("symbol", 1 << 32)));
    for unknown in [14, 20, u32::MAX] {
        assert_eq!(answer_of(|_| unknown).err(), Some(of("refusal", unknown.into())));
    }
    assert_eq!(answer_of(|_| 13).err(), Some(Refusal::new(Reason::ImageBufferShort, 0).into()));
    assert_eq!(answer_of(|_| 17).err(), Some(Refusal::new(Reason::TextDepth, 0).into()));
    assert_eq!(answer_of(|_| 18).err(), Some(Refusal::new(Reason::Bundle, 0).into()));
    assert_eq!(answer_of(|_| 19).err(), Some(Refusal::new(Reason::LeftRecursion, 0).into()));
}

/// A name is told with refusal 19 alone, and by the call that gives one.
#[test]
fn names_are_told_with_left_recursion_alone() {
    let wrote = |number, place, count| {
        move |answer: &mut Answer| {
            *answer = Answer { place, count, ..Answer::default() };
            number
        }
    };
    let recursion = Refusal::new(Reason::LeftRecursion, 3);
    assert_eq!(named_answer_of(wrote(19, 3, 12)).err(), Some(recursion.with_name(12).into()));
    assert_eq!(named_answer_of(wrote(19, 3, 0)).err(), Some(recursion.with_name(0).into()));
    assert_eq!(answer_of(wrote(19, 3, 12)).err(), Some(recursion.into()));
    let syntax = Refusal::new(Reason::TextSyntax, 3);
    assert_eq!(named_answer_of(wrote(15, 3, 12)).err(), Some(syntax.into()));
    let unknown = Error::Mismatch { field: "refusal", value: 20 };
    assert_eq!(named_answer_of(wrote(20, 3, 12)).err(), Some(unknown));
    assert!(named_answer_of(wrote(0, 0, 0)).is_ok());
}
