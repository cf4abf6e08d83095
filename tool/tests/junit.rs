//! JUnit's XML, read back: a test case for each capture and grammar, and what was not judged never looks passed.
use crate::common::*;
use quick_xml::events::{BytesStart, Event};
use quick_xml::Reader;
use std::collections::BTreeMap;
use std::ffi::OsStr;
use std::os::unix::ffi::OsStrExt;

/// A test case: the capture, the grammar, and what it is told to be: an element with its message.
#[derive(Debug, PartialEq)]
struct Case {
    class: String,
    name: String,
    told: Option<(String, String)>,
}

#[derive(Default)]
struct Suite {
    attributes: BTreeMap<String, String>,
    properties: BTreeMap<String, String>,
    cases: Vec<Case>,
}

fn attributes(element: &BytesStart<'_>) -> BTreeMap<String, String> {
    let attribute = |attribute: quick_xml::events::attributes::Attribute<'_>| {
        let key = String::from_utf8(attribute.key.as_ref().to_vec()).unwrap();
        (key, attribute.unescape_value().unwrap().into_owned())
    };
    element.attributes().map(|given| attribute(given.unwrap())).collect()
}

/// Reads it strictly: an element or a place that is not known fails.
fn read(xml: &str) -> Suite {
    let mut reader = Reader::from_str(xml);
    reader.trim_text(true).check_end_names(true);
    let (mut suite, mut open) = (Suite::default(), Vec::<String>::new());
    loop {
        let event = reader.read_event().unwrap();
        let (element, is_open) = match &event {
            Event::Start(element) => (element, true),
            Event::Empty(element) => (element, false),
            Event::Text(text) => {
                // The text of a failure is its message.
                let (_, message) = suite.cases.last().unwrap().told.as_ref().unwrap();
                assert_eq!(&text.unescape().unwrap(), message);
                continue;
            }
            Event::End(_) => {
                open.pop().unwrap();
                continue;
            }
            Event::Decl(_) => continue,
            Event::Eof => break,
            other => panic!("{other:?}"),
        };
        let name = String::from_utf8(element.name().as_ref().to_vec()).unwrap();
        let mut given = attributes(element);
        match (open.join(" ").as_str(), name.as_str()) {
            ("", "testsuite") => suite.attributes = given,
            ("testsuite", "properties") => {}
            ("testsuite properties", "property") => {
                suite.properties.insert(given["name"].clone(), given["value"].clone());
            }
            ("testsuite", "testcase") => {
                let mut take = |key| given.remove(key).unwrap();
                suite.cases.push(Case { class: take("classname"), name: take("name"), told: None });
            }
            ("testsuite testcase", "failure" | "error") => {
                let case = suite.cases.last_mut().unwrap();
                assert_eq!(case.told, None);
                case.told = Some((name.clone(), given["message"].clone()));
            }
            other => panic!("{other:?}"),
        }
        if is_open {
            open.push(name);
        }
    }
    assert!(open.is_empty() && xml.ends_with("</testsuite>\n"));
    // The counts are those of the elements.
    let count = |element: &str| {
        let told = suite.cases.iter().filter_map(|case| case.told.as_ref());
        told.filter(|(name, _)| name == element).count().to_string()
    };
    assert_eq!(suite.attributes["tests"], suite.cases.len().to_string());
    assert_eq!((&suite.attributes["failures"], &suite.attributes["errors"]), (&count("failure"), &count("error")));
    suite
}

fn case(class: &str, name: &str, told: &[&str]) -> Case {
    let told = (!told.is_empty()).then(|| (told[0].to_string(), told[1].to_string()));
    Case { class: class.into(), name: name.into(), told }
}

#[test]
fn every_outcome() {
    let folder = Folder::ring();
    folder.file("list.peg", "list = list ',-,' / empty;");
    folder.file("bad.peg", "a = (\n;");
    folder.file("ended.image", image(ENDING));
    folder.file("halted.image", image(HALTING));
    folder.file("long.capture", [b'1'; 65_536]);
    let machines = ["ring.peg", "list.peg", "bad.peg", "no.peg", "ended.image", "halted.image"];
    let ran = folder.words(
        "judge -f junit -g ring.peg -g list.peg -g bad.peg -g no.peg -i ended.image -i halted.image formed.capture broken.capture long.capture no.capture",
    );
    assert_eq!(ran.status, Some(2));
    let suite = read(&ran.stdout);
    let no_file = "cannot be read: No such file or directory (os error 2)";
    let no_grammar = format!("no.peg: {no_file}");
    let looping =
        "looping: line 1, column 1: list goes round in a circle without reading on, at '1' (readings 3, end 1 1 1)";
    let stopped = |word: &str| {
        format!("{word}: line 1, column 1: the machine came this far; {word} at place 0 in state 0 with symbol 0, at '1' (readings 1, end 0 0 0)")
    };
    let bad = "refused 15 6: the text is wrong at that place, or ends early";
    let long = "refused 7 65536: the capture is longer than 65,535 bytes";
    let stuck = "stuck: line 3, column 3: expected '1'-'8' (port), found '?' (readings 105, end 2 13 0)";
    let mut cases = Vec::new();
    for (capture, ring) in [("formed.capture", &[][..]), ("broken.capture", &["failure", stuck])] {
        cases.push(case(capture, "ring.peg", ring));
        cases.push(case(capture, "list.peg", &["failure", looping]));
        cases.push(case(capture, "bad.peg", &["error", bad]));
        cases.push(case(capture, "no.peg", &["error", &no_grammar]));
        cases.push(case(capture, "ended.image", &["failure", &stopped("ended")]));
        cases.push(case(capture, "halted.image", &["failure", &stopped("halted")]));
    }
    for machine in machines {
        let words = match machine {
            "bad.peg" => bad,
            "no.peg" => &no_grammar,
            _ => long,
        };
        cases.push(case("long.capture", machine, &["error", words]));
    }
    cases.push(case("no.capture", "no.capture", &["error", no_file]));
    assert_eq!(suite.cases, cases);
    let counts = ["name", "tests", "failures", "errors"].map(|key| suite.attributes[key].as_str());
    assert_eq!(counts, ["sejimakpu", "19", "7", "11"]);
    let shape = suite.attributes["timestamp"].replace(|c: char| c.is_ascii_digit(), "0");
    assert_eq!((shape.as_str(), suite.attributes.len()), ("0000-00-00T00:00:00Z", 5));
    let version = folder.words("--version").stdout;
    let by = |key: &str| suite.properties[key].as_str();
    assert_eq!(
        version,
        format!(
            "sejimakpu {}\narchive {}\narchive sha256 {}\ncommit {}\n",
            by("tool_version"),
            by("archive_version"),
            by("archive_sha256"),
            by("tool_commit")
        )
    );
    assert_eq!(suite.properties.len(), 4);
}

#[test]
fn all_accepted_has_neither_failure_nor_error() {
    let folder = Folder::ring();
    let ran = folder.words("judge -f junit -g ring.peg -g ring.grammar formed.capture");
    assert_eq!(ran.status, Some(0));
    let cases = [case("formed.capture", "ring.peg", &[]), case("formed.capture", "ring.grammar", &[])];
    assert_eq!(read(&ran.stdout).cases, cases);
}

/// A folder without a capture, and a link that leads nowhere: errors that no grammar is named in.
#[test]
fn what_is_found_and_is_no_capture_is_an_error() {
    let folder = Folder::ring();
    folder.folder("none");
    folder.folder("links");
    folder.link("nowhere", folder.path("links/a"));
    let ran = folder.words("judge -f junit -g ring.peg -g ring.grammar none links");
    assert_eq!(ran.status, Some(2));
    let no_file = "cannot be read: No such file or directory (os error 2)";
    let cases = [
        case("none", "none", &["error", "there is no capture in this folder"]),
        case("links/a", "links/a", &["error", no_file]),
    ];
    assert_eq!(read(&ran.stdout).cases, cases);
}

#[test]
fn names_and_bytes_survive() {
    let folder = Folder::ring();
    let names: [(&[u8], &str); 6] = [
        (b"a\"b'c,d", "a\"b'c,d"),
        (b"line\nfeed\t", "line\\nfeed\\t"),
        (b"<&>]]>&amp;&#10;", "<&>]]>&amp;&#10;"),
        (b"\xff\x01", "\\xff\\u{1}"),
        ("\u{fffe}\u{ffff}".as_bytes(), "\\u{fffe}\\u{ffff}"),
        ("  zwei  Wörter ".as_bytes(), "  zwei  Wörter "),
    ];
    let grammar = OsStr::from_bytes(b"<&\">\n\xff.peg");
    folder.file(grammar, RING);
    for (name, shown) in names {
        for (byte, found) in
            [(b'<', "'<'"), (b'&', "'&'"), (b'"', "'\"'"), (b'\'', "'\\''"), (0, "'\\x00'"), (0xff, "'\\xff'")]
        {
            folder.file(OsStr::from_bytes(name), [byte]);
            let [judge, format, junit, option] = ["judge", "-f", "junit", "-g"].map(OsStr::new);
            let ran = folder.run([judge, format, junit, option, grammar, OsStr::from_bytes(name)]);
            let words =
                format!("stuck: line 1, column 1: expected '1'-'8' (port), found {found} (readings 13, end 3 1 0)");
            assert_eq!(read(&ran.stdout).cases, [case(shown, "<&\">\\n\\xff.peg", &["failure", &words])]);
        }
    }
}

/// A reader of such files may know a test case by its two names only: a failure must not be covered by another that passed.
#[test]
fn no_two_cases_have_the_same_names() {
    let folder = Folder::ring();
    let row =
        |matching: &str| format!("[[row]]\ncaptures = \"*\"\ngrammars = [\"ring.peg\"]\nmatching = \"{matching}\"\n");
    folder.file("plan.toml", row("whole") + &row("leading"));
    folder.file("caps/broken", BROKEN);
    let ran = folder.words("shift plan.toml caps --format junit");
    assert_eq!(ran.status, Some(1));
    let suite = read(&ran.stdout);
    assert_eq!(suite.cases.iter().map(|case| case.told.is_some()).collect::<Vec<_>>(), [true, false]);
    let names = |case: &Case| (case.class.clone(), case.name.clone());
    assert_ne!(names(&suite.cases[0]), names(&suite.cases[1]));
}
