//! What is refused or cannot be read: grammars, images and captures. The status is 2, and nothing is accepted by it.
use crate::common::*;

const NO_FILE: &str = "No such file or directory (os error 2)";

/// A refused grammar or image: it is told once, each capture has its line, and none is accepted.
#[track_caller]
fn refused(folder: &Folder, option: &str, file: &str, complaint: &str, refusal: &str) {
    folder.words(&format!("judge {option} {file} formed.capture broken.capture")).gives(
        2,
        "refused  formed.capture\nrefused  broken.capture\n2 captures: 0 accepted, 2 refused; 0 readings\n",
        &format!("error: {file}: {complaint}\n"),
    );
    // The record has the library's refusal for each capture.
    let rows = folder.words(&format!("judge {option} {file} --format jsonl formed.capture broken.capture")).stdout;
    let told = |row: &serde_json::Value| format!("refused {} {}: ", row["refusal"], row["place"]);
    let rows: Vec<_> = rows.lines().map(|line| told(&serde_json::from_str(line).unwrap())).collect();
    assert_eq!(rows.len(), 2);
    assert!(rows.iter().all(|row| refusal.starts_with(row)), "{rows:?} {refusal}");
}

#[test]
fn a_refused_grammar_is_2() {
    let folder = Folder::ring();
    let length = "the grammar has no rule, over 31 rules, or a part of a rule";
    for bytes in [&[][..], &[5, 0, 255], &[4, 0, 0, 0, 4], &[4, 0, 0, 0].repeat(32)] {
        folder.file("bad.grammar", bytes);
        let place = bytes.len();
        let complaint = format!("{length} (refusal 11 {place})");
        refused(&folder, "-g", "bad.grammar", &complaint, &format!("refused 11 {place}: {length}"));
    }
    for (bytes, rule) in
        [([[4, 0, 0, 0], [1, 0, 2, 0]], 1), ([[6, 0, 0, 0], [4, 0, 0, 0]], 0), ([[4, 0, 0, 1], [4; 4]], 0)]
    {
        folder.file("bad.grammar", bytes.as_flattened());
        let place = 4 * rule;
        let complaint = format!("rule {rule} is wrong (refusal 12 {place})");
        refused(
            &folder,
            "-g",
            "bad.grammar",
            &complaint,
            &format!("refused 12 {place}: a rule of the grammar is wrong"),
        );
    }
    folder.file("bad.peg", "a = b /\n  ; b = .;\n");
    let complaint =
        "line 2, column 3: this cannot stand here, is repeated or is not defined (refusal 15)\n      ; b = .;\n      ^";
    refused(&folder, "-g", "bad.peg", complaint, "refused 15 10: the text is wrong at that place, or ends early");
    let complaint = "line 2, column 1: the typed grammar needs over 31 rules (refusal 16)\n\n    ^";
    folder.file("bad.peg", format!("a = {};\n", ". ".repeat(17)));
    refused(&folder, "-g", "bad.peg", complaint, "refused 16 40: the typed grammar needs over 31 rules");
    folder.file("bad.peg", format!("a =\n{}.{};\n", "(".repeat(17), ")".repeat(17)));
    let complaint = format!(
        "line 2, column 17: over 16 parentheses are open at once (refusal 17)\n    {}.{};\n    {}^",
        "(".repeat(17),
        ")".repeat(17),
        " ".repeat(16)
    );
    refused(&folder, "-g", "bad.peg", &complaint, "refused 17 20: over 16 parentheses are open at once");
}

#[test]
fn a_refused_image_is_2() {
    let folder = Folder::ring();
    let good = image(ENDING);
    let changed = |place: usize, byte: u8| {
        let mut bytes = good.clone();
        bytes[place] = byte;
        bytes
    };
    let mut longer = good.clone();
    longer.extend([0; 4]);
    longer[20] = 16;
    for (bytes, number, place, words) in [
        (good[..31].to_vec(), 1, 31, "the image is shorter than 32 bytes"),
        (changed(8, 33), 2, 8, "a pair of offset and length in the image's directory is wrong"),
        (good[..299].to_vec(), 2, 16, "a pair of offset and length in the image's directory is wrong"),
        (changed(24, 33), 3, 24, "a count, byte 27 or the final states of the image are wrong"),
        (changed(27, 1), 3, 27, "a count, byte 27 or the final states of the image are wrong"),
        (longer, 4, 20, "the image's rules are not as long as its counts ask for"),
        (changed(40, 1), 5, 40, "the image's class map names a class that is not there"),
        (changed(292, 5), 6, 292, "a rule of the image is bad"),
    ] {
        folder.file("bad.image", bytes);
        let complaint = format!("{words} (refusal {number} {place})");
        refused(&folder, "-i", "bad.image", &complaint, &format!("refused {number} {place}: {words}"));
    }
}

#[test]
fn a_capture_that_is_too_long_is_2() {
    let folder = Folder::ring();
    folder.file("long.capture", [b'1'; 65_536]);
    folder.words("judge -g ring.peg long.capture formed.capture").gives(
        2,
        "refused  long.capture\naccepted formed.capture\n2 captures: 1 accepted, 1 refused; 174 readings\n",
        "refused: long.capture: refused 7 65536: the capture is longer than 65,535 bytes\n",
    );
}

#[test]
fn what_cannot_be_read_is_2() {
    let folder = Folder::ring();
    folder.words("judge -g ring.peg no.capture").gives(
        2,
        "error    no.capture\n1 capture: 0 accepted, 1 error; 0 readings\n",
        &format!("error: no.capture: cannot be read: {NO_FILE}\n"),
    );
}

/// It is told once, by its own name: the captures could be read.
#[test]
fn an_unreadable_grammar_is_not_told_as_the_capture() {
    let folder = Folder::ring();
    folder.folder("folder.peg");
    for (grammar, words) in [
        ("no.peg", NO_FILE),
        ("folder.peg", "Is a directory (os error 21)"),
        ("/proc/self/mem", "Input/output error (os error 5)"),
        ("/dev/zero", "it is no grammar and no image: over 16 MiB"),
    ] {
        for option in ["-g", "-i"] {
            let ran = folder.words(&format!("judge {option} {grammar} formed.capture"));
            ran.writes(2, "error    formed.capture\n1 capture: 0 accepted, 1 error; 0 readings\n");
            assert_eq!(ran.stderr, format!("error: {grammar}: cannot be read: {words}\n"));
        }
    }
}
