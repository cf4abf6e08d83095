//! Files that are read are not written over: captures, grammars and the plan.
use crate::common::*;

/// A file that is judged, or that judges, is not written over.
#[test]
fn what_is_read_is_not_written() {
    let folder = Folder::ring();
    folder.link("formed.capture", "link.json");
    for (option, file) in
        [("--out", "formed.capture"), ("--out", "ring.peg"), ("--report", "formed.capture"), ("--out", "link.json")]
    {
        let told = format!("error: {file}: is a file that is read, and is not written\n");
        folder.words(&format!("judge -g ring.peg {option} {file} formed.capture")).gives(2, "", &told);
    }
    assert_eq!((folder.text("formed.capture").as_bytes(), folder.text("ring.peg").as_bytes()), (FORMED, RING));
}

#[test]
fn nor_is_a_plan() {
    let folder = Folder::ring();
    let plan = "[[row]]\ncaptures = \"*\"\ngrammars = [\"ring.peg\"]\n";
    folder.file("plan.toml", plan);
    folder.file("shift/formed.capture", FORMED);
    let told = "error: plan.toml: is a file that is read, and is not written\n";
    folder.words("shift plan.toml shift --out plan.toml").gives(2, "", told);
    assert_eq!(folder.text("plan.toml"), plan);
    folder.words("shift plan.toml shift --out record.txt").gives(
        0,
        "accepted shift/formed.capture\n1 capture: 1 accepted; 174 readings\n",
        "",
    );
}
