//! The rows of a printed table are found again, and nothing else is taken for one.
use benchmark::layouts::figures;

#[test]
fn rows_are_read_back() {
    let read = figures("judging       60,000  accepted 380,019   5827.49  6658.01   0.88").unwrap();
    assert_eq!((read.row.as_str(), read.judge, read.other), ("judging, 60,000, accepted 380,019", 5827.49, 6658.01));
    let heading = "ring's text  capture            answer  judge us  twin us  ratio";
    assert!([heading, "", "0                                7"].into_iter().all(|line| figures(line).is_none()));
}

#[test]
#[should_panic(expected = "each run has the same rows")]
fn runs_with_other_rows_are_not_compared() {
    let folder = std::env::temp_dir().join(format!("layouts-{}", std::process::id()));
    std::fs::create_dir_all(&folder).unwrap();
    let files = ["a  1.00  2.00  0.50\n", "b  1.00  2.00  0.50\n"].map(|text| {
        let file = folder.join(&text[..1]);
        std::fs::write(&file, text).unwrap();
        file.to_str().unwrap().to_string()
    });
    benchmark::layouts::print(&files).unwrap();
}
