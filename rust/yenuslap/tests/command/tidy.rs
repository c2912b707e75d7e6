//! `table --tidy` and `table --labels`: texts as other tools write them.

use std::fs;
use std::path::PathBuf;

use crate::program::{complains, prints, run, run_with};

/// A text of the form, and its table.
const TEXT: &str = "des (0,2,2)\n(0,\"a1!\",1)\n(1,\"i\",0)\n";
const SECTION: &str = "# first state 0, pairs 1 or more\nleft 2\n  0 1 1\n  1 0 0\n";

/// What is told of repairs.
fn told(repairs: &[&str]) -> String {
    let lines = repairs.iter();
    lines
        .map(|repair| format!("yenuslap: standard input: tidied: {repair}\n"))
        .collect()
}

/// Demands that the text is tidied to the table with these repairs told, and refused without `--tidy`, with a hint
/// behind this place.
fn tidied(text: &[u8], repairs: &[&str], place: &str) {
    let ran = run_with(&["table", "-", "--tidy"], text);
    let shown = String::from_utf8_lossy(text);
    assert_eq!(ran.text(), SECTION, "{shown:?}");
    assert_eq!(ran.err, told(repairs), "{shown:?}");
    assert_eq!(ran.status, Some(0));
    let ran = run_with(&["table", "-"], text);
    let begin = format!("yenuslap: standard input: refused {place}: ");
    assert!(ran.err.starts_with(&begin), "{shown:?}: {}", ran.err);
    let hints = ["; --tidy repairs this\n", "; --tidy writes it as i\n"];
    assert!(
        hints.iter().any(|hint| ran.err.ends_with(hint)),
        "{shown:?}: {}",
        ran.err
    );
    assert_eq!((ran.status, ran.out.len()), (Some(1), 0));
}

/// A text of the form needs no repair, and none is told.
#[test]
fn nothing_to_repair() {
    prints(&["table", "-", "--tidy"], TEXT.as_bytes(), SECTION);
}

/// Demands that each change of the text alone (from, to, line, column) is told with its line and this repair, and that
/// its place is named without `--tidy`.
fn each_repaired(repair: &str, changes: &[(&str, &str, usize, usize)]) {
    for (from, to, line, column) in changes {
        let told = format!("line {line}: {repair}");
        let place = format!("19: line {line}, column {column}");
        repaired(from, to, &told, &place);
    }
}

/// Demands the same of one change.
fn repaired(from: &str, to: &str, told: &str, place: &str) {
    let text = TEXT.replacen(from, to, 1);
    assert_ne!(text, TEXT);
    tidied(text.as_bytes(), &[told], place);
}

/// No blank behind des, or several, or a tab.
#[test]
fn blank_behind_des() {
    let changes = [
        ("des (0", "des(0", 1, 4),
        ("des (0", "des  (0", 1, 5),
        ("des (0", "des\t(0", 1, 4),
    ];
    each_repaired("one blank put behind des", &changes);
}

/// Blanks and tabs in every place outside labels.
#[test]
fn blanks() {
    let changes = [
        ("des", " des", 1, 1),
        ("0,2,2", "0, 2,2", 1, 8),
        ("2,2)", "2,2\t)", 1, 11),
        ("\n(0", "\n (0", 2, 1),
        ("(0,\"", "( 0,\"", 2, 2),
        ("(0,\"", "(0 ,\"", 2, 3),
        ("(0,\"", "(0, \"", 2, 4),
        ("!\",1", "!\" ,1", 2, 9),
        ("!\",1", "!\", 1", 2, 10),
        ("1)\n", "1)  \n", 2, 12),
    ];
    each_repaired("blanks outside labels taken out", &changes);
}

/// Zeros in front, quotes that are missing, and what stands before the header.
#[test]
fn numbers_quotes_and_mark() {
    let zeros = [("(0,2,2)", "(00,2,2)", 1, 6), ("(1,", "(0000001,", 3, 2)];
    each_repaired("leading zeros taken out", &zeros);
    let quotes = [("\"i\"", "i", 3, 4)];
    each_repaired("labels put in double quotes", &quotes);
    let mark = [("des", "\u{feff}des", 1, 1)];
    each_repaired("the byte order mark taken out", &mark);
    let tau = "line 3: label tau written as i";
    repaired("\"i\"", "\"tau\"", tau, "21: line 3, column 5");
}

/// Line ends, and what stands behind the last one.
#[test]
fn line_ends() {
    let returns = [("2)\n", "2)\r\n", 1, 12)];
    each_repaired("carriage returns before line feeds taken out", &returns);
    each_repaired("a line feed put at the end", &[("0)\n", "0)", 3, 10)]);
    let blank = [("0)\n", "0)\n\n", 4, 1)];
    each_repaired("blank lines at the end taken out", &blank);
    let several = "lines 4 to 5: blank lines at the end taken out";
    repaired("0)\n", "0)\n\r\n \t", several, "19: line 4, column 1");
}

/// All at once: each kind is told once, with its lines.
#[test]
fn all_repairs() {
    let text = "\u{feff}des(0, 02, 2)\r\n( 0 , a1! , 1 )\r\n(1,tau,0) \n\n";
    tidied(
        text.as_bytes(),
        &[
            "line 1: the byte order mark taken out",
            "line 1: one blank put behind des",
            "lines 1 to 3: blanks outside labels taken out",
            "line 1: leading zeros taken out",
            "lines 2 to 3: labels put in double quotes",
            "line 3: label tau written as i",
            "lines 1 to 2: carriage returns before line feeds taken out",
            "line 4: blank lines at the end taken out",
        ],
        "19: line 1, column 1",
    );
}

/// Demands that a text is refused with `--tidy`, with these repairs told before.
fn still_refused(text: &str, repairs: &[&str], sentence: &str) {
    let ran = run_with(&["table", "-", "--tidy"], text.as_bytes());
    let refusal = format!("yenuslap: standard input: refused {sentence}\n");
    assert_eq!(ran.err, told(repairs) + &refusal, "{text:?}");
    assert_eq!((ran.status, ran.out.len()), (Some(1), 0));
}

/// What is no matter of writing is not repaired; places are those of the file.
#[test]
fn not_repaired() {
    let blanks = "line 2: blanks outside labels taken out";
    still_refused("", &[], "19: line 1, column 1: expected the header des (first,rows,states), found the end of the text");
    still_refused(
        "\n\n",
        &["lines 1 to 2: blank lines at the end taken out"],
        "19: line 1, column 1: expected the header des (first,rows,states), found the end of the text",
    );
    still_refused(
        "des (0,1,1)\n\n(0,\"i\",0)\n",
        &[],
        "19: line 2, column 1: expected `(` of a row (from,\"label\",to), found the end of the line",
    );
    still_refused(
        "des (0,1,1)\n(0,\"i\",0) (0,\"i\",0)\n",
        &[],
        "19: line 2, column 11: expected the end of the line, found `(`",
    );
    still_refused(
        "des (0,0,1)\r\r\n",
        &[],
        "19: line 1, column 12: expected the end of the line, found a carriage return",
    );
    still_refused(
        "des (0,1,1)\n(0, a\"b, 0)\n",
        &[],
        "19: line 2, column 5: expected `\"` before the label, found `a`",
    );
    still_refused(
        "des (0,2,1)\n(0,\"i\", 0)\n",
        &[blanks],
        "20: line 1, column 8: the header says 2 rows, but has 1 line below it; a row count of 1 would be right",
    );
    still_refused(
        "des (0,1,1)\n(0,\" i\",  7)\n",
        &[blanks],
        "21: line 2, column 5: label ` i` is not one of ours; labels are spelled i for the silent step, \
         and a1! and a1? to a15! and a15?; --labels MAP renames those of other tools",
    );
    still_refused(
        "des (0,1,1)\n(0,\"i\",  7)\n",
        &[blanks],
        "5: line 2, column 10: to 7 is out of range; the table has 1 state, counted from 0",
    );
    still_refused(
        "des (0,2,1)\n (0,\"i\",0)\n(0,tau,0)\n",
        &[
            blanks,
            "line 3: labels put in double quotes",
            "line 3: label tau written as i",
        ],
        "6: line 3, column 1: (0,\"i\",0) stands in line 2 too; a row is given once",
    );
}

/// A bare label goes to the last comma, and keeps its inner blanks.
#[test]
fn bare_labels() {
    still_refused(
        "des (0,1,1)\n(0,f(1, 2),0)\n",
        &["line 2: labels put in double quotes"],
        "21: line 2, column 4: label `f(1, 2)` is not one of ours; labels are spelled i for the silent step, \
         and a1! and a1? to a15! and a15?; --labels MAP renames those of other tools",
    );
}

/// A file of labels that no other test has; it goes when it is dropped.
struct MapFile(PathBuf);

impl MapFile {
    fn new(name: &str, text: &[u8]) -> MapFile {
        let file = format!("yenuslap-labels-{name}-{}", std::process::id());
        let path = std::env::temp_dir().join(file);
        fs::write(&path, text).unwrap();
        MapFile(path)
    }

    fn name(&self) -> &str {
        self.0.to_str().unwrap()
    }
}

impl Drop for MapFile {
    fn drop(&mut self) {
        let _ = fs::remove_file(&self.0);
    }
}

/// Labels are renamed, and what is not renamed stays; a name may have any bytes.
#[test]
fn renamed_labels() {
    let map = MapFile::new(
        "good",
        b"\xef\xbb\xbf# theirs = ours\r\n\r\n SEND !1=a1!\r\n\"\" = a2?\n a = b = a3!\n\" x\"=\"a3?\"\ni = a4!\ntau = a4?\n\xff=a5!",
    );
    let text = b"des (0,9,3)\n(0,\"SEND !1\",0)\n(0,\"\",0)\n(0,\"a = b\",0)\n(0,\" x\",0)\n(1,\"i\",0)\n(1,\"tau\",0)\n(1,\"\xff\",0)\n(1,\"a1?\",0)\n(2,\"a1!\",0)\n";
    let section = "# first state 0, pairs 5 or more\nleft 3\n  0 1 0\n  0 4 0\n  0 5 0\n  0 6 0\n  1 2 0\n  1 7 0\n  1 8 0\n  1 9 0\n  2 1 0\n";
    for arguments in [
        &["table", "-", "--labels", map.name()][..],
        &["table", "-", "--labels", map.name(), "--tidy"],
    ] {
        prints(arguments, text, section);
    }
}

/// Renaming repairs nothing else, and two labels may become one; faults are told by the file's places and labels.
#[test]
fn renamed_and_refused() {
    let map = MapFile::new("refused", b"SEND = a1!\nTAKE = a1!\n");
    let refused = |text: &str, sentence: &str| {
        let complaint = format!("standard input: refused {sentence}");
        let arguments = ["table", "-", "--labels", map.name()];
        complains(&arguments, text.as_bytes(), 1, &complaint);
    };
    refused(
        "des (0,1,1)\n(0,SEND,0)\n",
        "19: line 2, column 4: expected `\"` before the label, found `SEND`; --tidy repairs this",
    );
    refused(
        "des (0,1,1)\n(0,\"SEND\",0)",
        "19: line 2, column 13: expected a line feed, found the end of the text; --tidy repairs this",
    );
    refused(
        "des (0,2,1)\n(0,\"SEND\",0)\n(0,\"send\",0)\n",
        "21: line 3, column 5: label `send` is not one of ours; labels are spelled i for the silent step, \
         and a1! and a1? to a15! and a15?; --labels MAP renames those of other tools",
    );
    refused(
        "des (0,1,1)\n(0,\"tau\",0)\n",
        "21: line 2, column 5: label `tau` is not one of ours; labels are spelled i for the silent step, \
         and a1! and a1? to a15! and a15?; --tidy writes it as i",
    );
    refused(
        "des (0,1,1)\n(0,\"SEND\",7)\n",
        "5: line 2, column 11: to 7 is out of range; the table has 1 state, counted from 0",
    );
    refused(
        "des (0,2,1)\n(0,\"SEND\",0)\n(0,\"TAKE\",0)\n",
        "6: line 3, column 1: (0,\"a1!\",0) stands in line 2 too; a row is given once",
    );
}

/// A file of labels that is wrong is misuse, with its line.
#[test]
fn wrong_maps() {
    let labels = "labels are spelled i for the silent step, and a1! and a1? to a15! and a15?";
    let faults: [(&str, &str, String); 6] = [
        (
            "sign",
            "a = a1!\n\nSEND a1!\n",
            "line 3: expected theirs = ours, found `SEND a1!`".into(),
        ),
        (
            "ours",
            "SEND = a16!\n",
            format!("line 1: expected a label behind the last =, found `a16!`; {labels}"),
        ),
        (
            "turned",
            "a1! = SEND\n",
            format!("line 1: expected a label behind the last =, found `SEND`; {labels}"),
        ),
        (
            "none",
            "SEND =\n",
            format!("line 1: expected a label behind the last =, found ``; {labels}"),
        ),
        (
            "theirs",
            " = a1!\n",
            "line 1: expected a label before the last =; an empty one is \"\"".into(),
        ),
        (
            "twice",
            "A = i\nB = i\n\"A\" = a1!\n",
            "line 3: `A` is renamed in line 1 too".into(),
        ),
    ];
    for (name, text, fault) in faults {
        let map = MapFile::new(name, text.as_bytes());
        let complaint = format!("{}: {fault}", map.name());
        let arguments = ["table", "-", "--labels", map.name()];
        complains(&arguments, TEXT.as_bytes(), 2, &complaint);
    }
    let complaint = "none: No such file or directory";
    complains(
        &["table", "-", "--labels", "none"],
        TEXT.as_bytes(),
        2,
        complaint,
    );
}

/// The shipped text of another tool, tidied and renamed, with the map on standard input.
#[test]
fn shipped_text() {
    let file = "cases/coiler_untidy.aut";
    let arguments = [
        "table",
        file,
        "--right",
        "--tidy",
        "--labels",
        "cases/coiler.labels",
    ];
    let ran = run(&arguments);
    let section = "# first state 0, pairs 2 or more\nright 2\n  0 2 1\n  0 4 1\n  1 0 0\n";
    assert_eq!((ran.text().as_str(), ran.status), (section, Some(0)));
    assert_eq!(ran.err.lines().count(), 5, "{}", ran.err);
    let map = fs::read(crate::program::root().join("cases/coiler.labels")).unwrap();
    let from_input = run_with(&["table", file, "--right", "--tidy", "--labels=-"], &map);
    assert_eq!(from_input, ran);
}
