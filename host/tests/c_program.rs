//! C programs over `include/robequarry.h` and the archive: header and library fit, in C99, C11 and C++.

#[path = "../build/archive.rs"]
#[allow(dead_code)]
mod archive;

use std::env;
use std::ffi::{OsStr, OsString};
use std::fs;
use std::path::{Path, PathBuf};
use std::process::{Command, Stdio};

use robequarry::limits::{
    CALL, FRAME, FRAME_BODY, IMAGE, LAYERS, LONGEST, LONGEST_LIST, MOST_EDGES, MOST_NUMBERS, PARTIES, PLACES, REPLY, SIDE,
    WITNESS_NUMBERS,
};
use robequarry::raw::{HolderMemory, PileMemory};
use robequarry::{codec, Action, Cell, Corner, Reading, Refusal, SectionKind};

const WARNINGS: [&str; 5] = ["-Wall", "-Wextra", "-pedantic", "-Wconversion", "-Werror"];

/// A compiler and the words that make it one of a language: C99, C11, and C++ where there is a compiler for it.
fn languages() -> Vec<(OsString, Vec<&'static str>)> {
    let c = env::var_os("CC").unwrap_or("cc".into());
    let mut languages = vec![(c.clone(), vec!["-std=c99"]), (c, vec!["-std=c11"])];
    let cpp = env::var_os("CXX").unwrap_or("c++".into());
    if answers(Command::new(&cpp).arg("--version")) {
        languages.extend(["-std=c++98", "-std=c++17"].map(|standard| (cpp.clone(), vec!["-x", "c++", standard])));
    }
    languages
}

fn host() -> &'static Path {
    Path::new(env!("CARGO_MANIFEST_DIR"))
}

/// A file that the tests make.
fn made(name: &str) -> PathBuf {
    Path::new(env!("CARGO_TARGET_TMPDIR")).join(name)
}

/// Whether a command can be run, and ends well.
fn answers(command: &mut Command) -> bool {
    command.stdout(Stdio::null()).stderr(Stdio::null()).status().is_ok_and(|status| status.success())
}

/// A compiler with every warning an error, and the header at hand.
fn compiler(name: &OsStr, words: &[&str]) -> Command {
    let mut command = Command::new(name);
    command.args(words).args(WARNINGS).arg("-I").arg(host().join("../include"));
    command
}

/// Compiles and links a program, and runs it. Gives what it wrote.
fn run(source: &Path, program: &str, defined: &[String]) -> Vec<String> {
    let mut wrote = Vec::new();
    for (i, (name, words)) in languages().iter().enumerate() {
        let program = made(&format!("{program}_{i}"));
        let mut command = compiler(name, words);
        command.args(defined).arg(source).args(["-x", "none"]);
        let folder = archive::folder("x86_64-unknown-linux-gnu", None, &host().join("..")).expect("the build has linked it");
        command.arg(folder.join(archive::ARCHIVE)).arg("-o").arg(&program);
        assert!(command.status().expect("there is a compiler").success(), "{name:?} {words:?}");
        let output = Command::new(&program).output().expect("it was just linked");
        let said = String::from_utf8_lossy(&output.stderr);
        assert!(output.status.success(), "{name:?} {words:?}: {said}");
        wrote.push(String::from_utf8_lossy(&output.stdout).into_owned());
    }
    wrote
}

/// The specimens through every function.
#[test]
fn specimens() {
    let file = fs::read_to_string(host().join("program/specimens.txt")).expect("the specimens ship");
    let longest = file.lines().find(|line| line.contains("# As many edges")).expect("one has as many edges as any");
    let letters = longest.split_whitespace().nth(2).expect("a line has a start and letters");
    run(&host().join("tests/specimens.c"), "specimens", &[format!("-DMANY_EDGES=\"{letters}\"")]);
}

/// The program in README.md, "From C": it compiles without a warning, and says what the text says.
#[test]
fn example_of_the_readme() {
    let text = fs::read_to_string(host().join("../README.md")).expect("it is there");
    let (_, section) = text.split_once("\n## From C\n").expect("it has that section");
    let (section, _) = section.split_once("\n## ").expect("another follows");
    let code: Vec<&str> =
        section.lines().filter_map(|line| line.strip_prefix("    ").or((line.is_empty()).then_some(""))).collect();
    let source = made("readme.c");
    fs::write(&source, code.join("\n")).expect("it can be written");
    for wrote in run(&source, "readme", &[]) {
        assert_eq!(wrote, "taken with 4 edges\n(1, 1) is inside\n");
    }
}

/// What the header names, and what it is here.
fn facts() -> Vec<(&'static str, usize)> {
    let call = |action: Action| usize::from(action.by(0).bytes()[0]);
    let refused = |refusal: Refusal| usize::from(refusal.number());
    let (place, cell) = (0, Cell::new(0, 0));
    let (holder, pile) = (HolderMemory::filled(0), PileMemory::filled(0));
    vec![
        ("RQ_SIDE", SIDE.into()),
        ("RQ_LETTERS", LONGEST),
        ("RQ_MOST_EDGES", MOST_EDGES),
        ("RQ_EDGE_NUMBERS", MOST_NUMBERS),
        ("RQ_LIST_NUMBERS", LONGEST_LIST),
        ("RQ_WITNESS_NUMBERS", WITNESS_NUMBERS),
        ("RQ_PARTIES", PARTIES.into()),
        ("RQ_PLACES", PLACES.into()),
        ("RQ_LAYERS", LAYERS.into()),
        ("RQ_CALL_BYTES", CALL),
        ("RQ_IMAGE_BYTES", IMAGE),
        ("RQ_FRAME_BYTES", FRAME),
        ("RQ_FRAME_BODY", FRAME_BODY),
        ("RQ_REPLY_NUMBERS", REPLY),
        ("RQ_SLOTS", usize::from(PARTIES) * (usize::from(PLACES) + 1)),
        ("RQ_HOLDER_LETTERS", holder.letters.len()),
        ("RQ_HOLDER_ROWS", holder.rows.len()),
        ("RQ_HOLDER_NUMBERS", holder.numbers.len()),
        ("RQ_HOLDER_HEADS", holder.heads.len()),
        ("RQ_DRAFT_NUMBERS", 4),
        ("RQ_PLACE_WORDS", 4 * usize::from(PARTIES)),
        ("RQ_SLOT_HEADS", (4 + usize::from(PLACES)) * usize::from(PARTIES)),
        ("RQ_SLOT_NUMBERS", 3),
        ("RQ_SLOT_HEADS + RQ_SLOT_NUMBERS * RQ_SLOTS", holder.heads.len()),
        ("RQ_PILE_ROWS", pile.rows.len()),
        ("RQ_PILE_STATE", pile.state.len()),
        ("sizeof(rq_reply)", 2 * REPLY),
        ("sizeof(rq_holder)", size_of::<HolderMemory>()),
        ("sizeof(rq_pile)", size_of::<PileMemory>()),
        ("offsetof(rq_holder, rows)", std::mem::offset_of!(HolderMemory, rows)),
        ("offsetof(rq_holder, numbers)", std::mem::offset_of!(HolderMemory, numbers)),
        ("offsetof(rq_holder, heads)", std::mem::offset_of!(HolderMemory, heads)),
        ("offsetof(rq_pile, state)", std::mem::offset_of!(PileMemory, state)),
        ("RQ_REFUSED_LENGTH", refused(Refusal::Length)),
        ("RQ_REFUSED_START", refused(Refusal::Start)),
        ("RQ_REFUSED_LETTER", refused(Refusal::Letter { place: 0 })),
        ("RQ_REFUSED_OFF_CHART", refused(Refusal::OffChart { place: 0 })),
        ("RQ_REFUSED_NOT_CLOSED", refused(Refusal::NotClosed)),
        ("RQ_REFUSED_TOUCHES", refused(Refusal::Touches { place: 0 })),
        ("RQ_REFUSED_BACK_STEP", refused(Refusal::BackStep { piece: 1, place: 0 })),
        ("RQ_REFUSED_DENT", refused(Refusal::Dent { piece: 1, place: 0, length: 0, missing: cell })),
        ("RQ_REFUSED_EDGE_LIST", refused(Refusal::EdgeList { edges: None })),
        ("RQ_REFUSED_CELL", refused(Refusal::Cell)),
        ("RQ_REFUSED_NOTHING_AT_WORK", refused(Refusal::NothingAtWork)),
        ("RQ_REFUSED_NO_DRAFT", refused(Refusal::NoDraft)),
        ("RQ_REFUSED_DRAFT_OPEN", refused(Refusal::DraftOpen)),
        ("RQ_REFUSED_DRAFT_FULL", refused(Refusal::DraftFull)),
        ("RQ_REFUSED_DIRECTIONS", refused(Refusal::Directions)),
        ("RQ_REFUSED_NO_OUTLINE", refused(Refusal::NoOutline)),
        ("RQ_REFUSED_LETTER_BUFFER", refused(Refusal::LetterBuffer)),
        ("RQ_REFUSED_PARTY", refused(Refusal::Party)),
        ("RQ_REFUSED_PLACE", refused(Refusal::Place)),
        ("RQ_REFUSED_SECTION", refused(Refusal::Section { kind: SectionKind::Row, at: 0 })),
        ("RQ_REFUSED_LAYER", refused(Refusal::Layer)),
        ("RQ_REFUSED_IMAGE", refused(Refusal::Image)),
        ("RQ_REFUSED_DAMAGED", refused(Refusal::Damaged)),
        ("RQ_REFUSED_FRAME", refused(Refusal::Frame)),
        ("RQ_NO_WORD", codec::NO_WORD.into()),
        ("RQ_WORD_INSIDE", codec::INSIDE.into()),
        ("RQ_WORD_OUTSIDE", codec::OUTSIDE.into()),
        ("RQ_WORD_TAKEN", codec::TAKEN.into()),
        ("RQ_WORD_SAME", codec::SAME.into()),
        ("RQ_WORD_NONE", codec::NONE.into()),
        ("RQ_WORD_COLUMNS", codec::COLUMNS.into()),
        ("RQ_WORD_UNDECIDED", codec::UNDECIDED.into()),
        ("RQ_WORD_MOVE", codec::MOVE.into()),
        ("RQ_WORD_LINE", codec::LINE.into()),
        ("RQ_WORD_CLOSE", codec::CLOSE.into()),
        ("RQ_WORD_EQUAL", codec::EQUAL.into()),
        ("RQ_WORD_FIRST_WITHIN", codec::FIRST_WITHIN.into()),
        ("RQ_WORD_SECOND_WITHIN", codec::SECOND_WITHIN.into()),
        ("RQ_WORD_NO_COMMON", codec::NO_COMMON.into()),
        ("RQ_WORD_CROSSING", codec::CROSSING.into()),
        ("RQ_WORD_MORE", codec::MORE.into()),
        ("RQ_CALL_BEGIN", call(Action::Begin(Corner::new(0, 0)))),
        ("RQ_CALL_ADD", call(Action::Add(0))),
        ("RQ_CALL_DROP", call(Action::Drop)),
        ("RQ_CALL_CLEAR", call(Action::Clear { place })),
        ("RQ_CALL_CLOSE", call(Action::Close { place })),
        ("RQ_CALL_QUERY", call(Action::Query { place, cell })),
        ("RQ_CALL_ROW", call(Action::Row { place, row: 0 })),
        ("RQ_CALL_READING", call(Action::Reading { place, reading: Reading::new(0.0, 0.0) })),
        ("RQ_CALL_PIECE", call(Action::Piece { place, position: 0 })),
    ]
}

/// Every name of the header is one of the facts, which the compiler holds to the header: for 64 bits and, where it can, for 32. A holder has at
/// most 10,500 bytes and a pile at most 8,200.
#[test]
fn names_and_sizes() {
    let header = fs::read_to_string(host().join("../include/robequarry.h")).expect("it is there");
    let mut source = "#include <stddef.h>\n#include \"robequarry.h\"\n".to_string();
    let mut fact = |fact: String| source += &format!("typedef char fact_{}[({fact}) ? 1 : -1];\n", source.len());
    for (name, value) in facts() {
        fact(format!("{name} == {value}"));
    }
    fact("sizeof(rq_holder) <= 10500 && sizeof(rq_pile) <= 8200".to_string());
    let named = |line: &&str| line.starts_with("    RQ_") && line.contains(" = ");
    for line in header.lines().filter(named) {
        let name = line.split_whitespace().next().expect("it begins with a name");
        assert!(facts().iter().any(|(known, _)| *known == name), "{name} is no fact");
    }

    let version: Vec<&str> = env!("CARGO_PKG_VERSION").split('.').collect();
    for (part, number) in ["MAJOR", "MINOR", "PATCH"].iter().zip(&version) {
        fact(format!("RQ_VERSION_{part} == {number}"));
    }
    fact("RQ_VERSION_NUMBER == (RQ_VERSION_MAJOR << 16 | RQ_VERSION_MINOR << 8 | RQ_VERSION_PATCH)".to_string());
    fact(format!("RQ_VERSION_NUMBER == {}", robequarry::raw::version()));
    fact(format!("sizeof RQ_VERSION == sizeof \"{}\"", version.join(".")));
    assert!(header.contains(&format!("#define RQ_VERSION \"{}\"", version.join("."))));
    assert!(header.starts_with(&format!("/*\n * Robequarry {}:", version.join("."))));

    let file = made("facts.c");
    fs::write(&file, source).expect("it can be written");
    let blank = made("blank.c");
    fs::write(&blank, "#include <stdint.h>\nextern int32_t blank;\n").expect("it can be written");
    for (name, words) in languages() {
        for bits in [&[][..], &["-m32", "-ffreestanding"]] {
            let mut trial = compiler(&name, &words);
            if answers(trial.args(bits).arg("-fsyntax-only").arg(&blank)) {
                let mut command = compiler(&name, &words);
                let status = command.args(bits).arg("-fsyntax-only").arg(&file).status();
                assert!(status.expect("there is a compiler").success(), "{name:?} {words:?} {bits:?}");
            } else {
                println!("{name:?} {words:?} knows no {bits:?}: not tried");
                assert!(!bits.is_empty(), "{name:?} {words:?} compiles nothing");
            }
        }
    }
}
