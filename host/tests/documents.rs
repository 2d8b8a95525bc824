//! Every theorem, definition, function, file, must-fail edit and command that the README, docs/DEMANDS.md, docs/SAFETY.md and
//! docs/TRACE.md name exists. A name with a file behind it, as in "`level` (lattice/proofs/RightHand)", is defined in that file. The
//! duties that the header cites are those of docs/SAFETY.md, and docs/PERFORMANCE.md lists every loop with the measure that its proof
//! has. The README's reading list is closed under imports.

#[path = "documents/text.rs"]
mod text;
#[path = "documents/tree.rs"]
mod tree;

use std::collections::BTreeSet;

use text::Part;
use tree::{read, Tree};

const DOCUMENTS: [&str; 4] = ["README.md", "docs/DEMANDS.md", "docs/SAFETY.md", "docs/TRACE.md"];

/// Spans in backticks that name nothing of the repository: words of Rattle, Rust, C and the tools, endings, and what programs print.
const WORDS: [&str; 14] = [
    ".antt",
    ".fit",
    ".lines",
    "&self",
    "Result",
    "cargo",
    "crate/file",
    "io",
    "libc",
    "pub",
    "requires",
    "rt",
    "taken with 4 edges",
    "(1, 1) is inside",
];

/// Files that a command writes.
const WRITTEN: [&str; 3] =
    ["crates/robequarry/out/librobequarry.a", "host/target/release/robequarry", "crates/fittings/out/fittings"];

/// What `rt` can be told to do at the top of the repository, where names of crates may follow.
const RT: [&str; 3] = ["ci", "must-fail", "version"];

/// What it can be told to do in a crate's folder, where no name follows.
const RT_IN_A_CRATE: [&str; 3] = ["check", "lib", "run"];

fn command_error(tree: &Tree, line: &str) -> Option<String> {
    if let Some((folder, then)) = line.strip_prefix("cd ").and_then(|rest| rest.split_once(" && ")) {
        if !tree.is_folder(folder) {
            return Some(format!("no folder {folder}"));
        }
        let in_a_crate = folder.strip_prefix("crates/").is_some_and(|name| tree.is_crate(name));
        let verb = then.strip_prefix("rt ").and_then(|rest| rest.split_whitespace().next());
        if verb.is_some_and(|verb| !in_a_crate || !RT_IN_A_CRATE.contains(&verb)) {
            return Some(format!("not in {folder}"));
        }
        return command_error(tree, then);
    }
    let words: Vec<&str> = line.split_whitespace().take_while(|word| !word.starts_with('#')).collect();
    let after = |flag: &str| words.iter().position(|word| *word == flag).and_then(|at| words.get(at + 1)).copied();
    if let Some(name) = after("--bin") {
        let there = ["checks", "program"].iter().any(|folder| {
            tree.is_file(&format!("host/{folder}/src/bin/{name}.rs"))
                || tree.is_folder(&format!("host/{folder}/src/bin/{name}"))
                || read(&format!("host/{folder}/Cargo.toml")).contains(&format!("name = \"{name}\""))
        });
        return (!there).then(|| format!("no program {name}"));
    }
    if let Some(name) = after("--test") {
        let there = ["", "checks/", "program/"].iter().any(|folder| tree.is_file(&format!("host/{folder}tests/{name}.rs")));
        return (!there).then(|| format!("no test {name}"));
    }
    let first = *words.first()?;
    if let Some(script) = first.strip_prefix("./") {
        return (!tree.is_executable(script)).then(|| format!("no command {first}"));
    }
    let second = *words.get(1)?;
    match first {
        "rt" => {
            let name = words.get(2).filter(|name| tree::is_name(name));
            match (RT.contains(&second), RT_IN_A_CRATE.contains(&second)) {
                (true, _) => name.filter(|name| !tree.is_crate(name)).map(|name| format!("no crate {name}")),
                (_, true) => name.map(|name| format!("rt {second} {name}: in that crate's folder, with no name")),
                _ => Some(format!("rt has no {second}")),
            }
        }
        "robequarry" if second.starts_with('-') => None,
        "robequarry" => {
            (!tree.is_file(&format!("host/program/src/commands/{second}.rs"))).then(|| format!("robequarry has no {second}"))
        }
        _ => None,
    }
}

fn is_command(span: &str) -> bool {
    let first = span.split_whitespace().next().unwrap_or("");
    first.starts_with("./") || (span.contains(' ') && ["rt", "cargo", "cd", "robequarry"].contains(&first))
}

/// `rq_..._parts`: some name of the header begins and ends so.
fn header_error(tree: &Tree, name: &str) -> Option<String> {
    let (begin, end) = name.split_once("...").unwrap_or((name, ""));
    let fits = |known: &String| match name.contains("...") {
        true => known.starts_with(begin) && known.ends_with(end) && known.len() > begin.len() + end.len(),
        false => known == name,
    };
    (!tree.header.iter().any(fits)).then(|| "not in include/robequarry.h".to_string())
}

fn path_error(tree: &Tree, path: &str) -> Option<String> {
    let plain = path.trim_end_matches('/');
    let known = WRITTEN.contains(&plain) || tree.in_some_crate(plain) || tree.path(path).is_some();
    (!known).then(|| "no such file".to_string())
}

/// What is wrong with a span in backticks.
fn span_error(tree: &Tree, span: &str) -> Option<String> {
    if WORDS.contains(&span) {
        return None;
    }
    if is_command(span) {
        return command_error(tree, span);
    }
    if span.starts_with("rq_") || span.starts_with("RQ_") {
        let name = span.split(|c: char| !(c.is_ascii_alphanumeric() || "_.".contains(c))).next().unwrap_or(span);
        return header_error(tree, name);
    }
    if span.contains("::") {
        return (!tree.code_path(span)).then(|| "no such function".to_string());
    }
    if span.contains('/') && !span.contains(' ') {
        return path_error(tree, span);
    }
    if tree::is_name(span) {
        return (!tree.knows(span)).then(|| "defined nowhere".to_string());
    }
    None
}

/// The names that stand directly before a file in brackets, as in "`a`, `b` (crate/proofs/File".
fn names_before(parts: &[Part]) -> Vec<&str> {
    let mut names = Vec::new();
    let mut rest = parts;
    while let [before @ .., Part::Quoted(name), Part::Plain(gap)] = rest {
        let joins = if names.is_empty() { gap == " (" } else { [", ", " and "].contains(&gap.as_str()) };
        if !joins || !tree::is_name(name) {
            break;
        }
        names.push(name.as_str());
        rest = before;
    }
    names
}

/// Each name before a file is defined in it.
fn place_errors(tree: &Tree, parts: &[Part], found: &mut Vec<String>) {
    for (at, part) in parts.iter().enumerate() {
        let Part::Path(written) = part else { continue };
        let Some(path) = tree.path(written) else { continue };
        if !path.contains("/proofs") && !path.contains("/specs") {
            continue;
        }
        for name in names_before(&parts[..at]).into_iter().filter(|name| !tree.defines(&path, name)) {
            found.push(format!("`{name}`: not in {written}"));
        }
    }
}

/// Behind `crate/must-fail/name` further names of the same folder may follow, with commas between them.
fn edit_errors(tree: &Tree, parts: &[Part], found: &mut Vec<String>) {
    for pair in parts.windows(2) {
        let [Part::Path(path), Part::Plain(behind)] = pair else { continue };
        let Some((of, _)) = path.split_once("/must-fail/") else { continue };
        let mut rest = behind.as_str();
        while let Some(more) = rest.strip_prefix(", ") {
            let end = more.find(|c: char| !(c.is_ascii_alphanumeric() || c == '_')).unwrap_or(more.len());
            let name = &more[..end];
            if !name.contains('_') || more[end..].starts_with('/') {
                break;
            }
            if !tree.has_edit(of, name) {
                found.push(format!("{of}/must-fail/{name}: no such file"));
            }
            rest = &more[end..];
        }
    }
}

/// The parts of each paragraph and of each cell of a table.
fn cells(prose: &str) -> Vec<Vec<Part>> {
    text::without_links(prose).split('|').flat_map(|cell| cell.split("\n\n")).map(text::parts).collect()
}

/// Everything wrong with the names of a document.
fn errors(tree: &Tree, document: &str) -> Vec<String> {
    let (prose, code) = text::prose_and_code(&read(document));
    let mut found = Vec::new();
    for line in code.iter().filter(|line| is_command(line)) {
        found.extend(command_error(tree, line).map(|why| format!("{line}: {why}")));
    }
    for parts in cells(&prose) {
        for part in &parts {
            found.extend(match part {
                Part::Quoted(span) => span_error(tree, span).map(|why| format!("`{span}`: {why}")),
                Part::Path(path) => path_error(tree, path).map(|why| format!("{path}: {why}")),
                Part::Plain(_) => None,
            });
        }
        place_errors(tree, &parts, &mut found);
        edit_errors(tree, &parts, &mut found);
    }
    found
}

/// The documents are read whole: each has names in backticks up to its last section.
#[test]
fn the_documents_are_read() {
    for (document, least) in DOCUMENTS.iter().zip([100, 500, 50, 500]) {
        let (prose, _) = text::prose_and_code(&read(document));
        let quoted = cells(&prose).into_iter().flatten().filter(|part| matches!(part, Part::Quoted(_))).count();
        assert!(quoted >= least, "{document}: {quoted} names");
        assert_eq!(
            read(document).matches("\n## ").count(),
            prose.matches("\n## ").count(),
            "{document}: every section is read"
        );
    }
}

#[test]
fn what_the_documents_name_exists() {
    let tree = Tree::new();
    let found: BTreeSet<String> = DOCUMENTS
        .iter()
        .flat_map(|document| errors(&tree, document).into_iter().map(move |error| format!("{document}: {error}")))
        .collect();
    let all: Vec<String> = found.into_iter().collect();
    assert!(all.is_empty(), "{} wrong references:\n{}", all.len(), all.join("\n"));
}

/// The methods that go over a list by themselves.
const METHODS: [&str; 9] = ["position", "rposition", "any", "all", "find", "find_map", "fold", "copy_from_slice", "fill"];

/// The loops of the library, each with what bounds its rounds: for a `while` the measure in its proof, for a `for` what it goes over, for a
/// method its name. The programs' are left out.
fn loops(tree: &Tree) -> BTreeSet<(String, String)> {
    let mut found = BTreeSet::new();
    for path in tree.code.keys().filter(|path| path.starts_with("crates/")) {
        let parts: Vec<&str> = path.trim_end_matches(".rt").split('/').collect();
        if tree.is_file(&format!("crates/{}/src/main.rt", parts[1])) {
            continue;
        }
        let mut names: Vec<&str> = [&parts[1..2], &parts[3..]].concat();
        if ["lib", "main"].contains(&names[names.len() - 1]) {
            names.pop();
        }
        let text = read(path);
        let mut function = "";
        let lines: Vec<&str> = text.lines().map(str::trim_start).filter(|line| !line.starts_with("//")).collect();
        for (at, line) in lines.iter().enumerate() {
            if let Some((_, rest)) = line.split_once("fn ") {
                function = rest.split(['(', '<']).next().unwrap_or(rest);
            }
            let mut add = |bound| found.insert((format!("{}::{function}", names.join("::")), bound));
            if line.starts_with("while ") || line.starts_with("loop ") {
                add(measure(tree, &names, function));
            } else if line.starts_with("for ") {
                add(head_of(&lines[at..]));
            }
            for method in METHODS.iter().filter(|method| line.contains(&format!(".{method}("))) {
                add(format!(".{method}(..)"));
            }
        }
    }
    found
}

/// The head of a `for`, which may take several lines.
fn head_of(lines: &[&str]) -> String {
    let mut head = String::new();
    for line in lines {
        if !head.is_empty() && !line.starts_with(['.', ')']) && !head.ends_with('(') {
            head.push(' ');
        }
        head.push_str(line);
        if let Some(whole) = head.strip_suffix(" {") {
            return whole.to_string();
        }
    }
    head
}

/// The measure of the one loop of a function, which stands in one of the files of its proof.
fn measure(tree: &Tree, names: &[&str], function: &str) -> String {
    let folder = format!("crates/{}/proofs/{}", names[0], [&names[1..], &[function]].concat().join("/"));
    let files = ["Invariants.antt", "Proof.antt"].map(|file| format!("{folder}/{file}"));
    let measures: Vec<String> =
        files.iter().filter(|file| tree.is_file(file)).flat_map(|file| measures_in(&read(file))).collect();
    assert_eq!(measures.len(), 1, "{folder} has one measure");
    measures.into_iter().next().expect("there is one")
}

/// What a proof says of the measures of loops: `decreases-loop a b = MEASURE`, or `decreases-loop-b l = MEASURE`, where `l.a` and `l.b` are
/// the names of the code. It may take several lines.
fn measures_in(proof: &str) -> Vec<String> {
    let mut found: Vec<(String, String)> = Vec::new();
    let mut on = false;
    for line in proof.lines() {
        if let Some((left, right)) = line.split_once(" =").filter(|_| line.starts_with("decreases-loop")) {
            let words: Vec<&str> = left.split_whitespace().collect();
            let all = if let [_, one] = words[..] { one } else { "" };
            found.push((all.to_string(), right.trim().to_string()));
            on = true;
        } else if let Some((_, measure)) = found.last_mut().filter(|_| on && line.starts_with(' ')) {
            *measure = format!("{measure} {}", line.trim()).trim().to_string();
        } else {
            on = false;
        }
    }
    found.iter().map(|(all, measure)| without_fields(measure, all)).collect()
}

/// A term with `a` for each `l.a`.
fn without_fields(term: &str, all: &str) -> String {
    let mut out = String::new();
    let mut rest = term;
    while let Some(at) = rest.find(&format!("{all}.")).filter(|_| !all.is_empty()) {
        let begins = !rest[..at].ends_with(|c: char| c.is_alphanumeric() || "_-'.".contains(c));
        let end = at + all.len() + 1;
        out.push_str(if begins { &rest[..at] } else { &rest[..end] });
        rest = &rest[end..];
    }
    out + rest
}

#[test]
fn measures_are_read() {
    let old = "abbrev decreases-loop : tie.decreases-loop-i\ndecreases-loop w i₀ i = length w - i\n";
    let new = "abbrev pub decreases-loop-i : goal.decreases-loop-i\ndecreases-loop-i l =\n    length l.w\n    - l.i + tail.x\n\nother = l.z\n";
    assert_eq!(measures_in(old), ["length w - i"]);
    assert_eq!(measures_in(new), ["length w - i + tail.x"]);
}

#[test]
fn heads_are_read() {
    assert_eq!(head_of(&["for x in list {", "}"]), "for x in list");
    assert_eq!(head_of(&["for (a, b) in list", ".iter()", ".zip(other)", "{", "}"]), "for (a, b) in list.iter().zip(other)");
}

#[test]
fn every_loop_is_listed_with_its_measure() {
    let text = read("docs/PERFORMANCE.md");
    let (_, section) = text.split_once("## Bounds on work").expect("the section is there");
    let mut listed = BTreeSet::new();
    for line in section.lines().filter(|line| line.starts_with("| `") && line.contains("::")) {
        let spans: Vec<&str> = line.split('`').collect();
        listed.insert((spans[1].to_string(), spans[3].to_string()));
    }
    let found = loops(&Tree::new());
    let missing: Vec<_> = found.difference(&listed).collect();
    let wrong: Vec<_> = listed.difference(&found).collect();
    assert!(
        missing.is_empty() && wrong.is_empty(),
        "loops that are not listed: {missing:#?}\nlisted, and not so: {wrong:#?}"
    );
}

/// The duties that a text cites: D1, D2, and all between in "D4 to D7".
fn cited(text: &str) -> BTreeSet<u32> {
    let mut found = BTreeSet::new();
    let words: Vec<&str> = text.split(|c: char| !c.is_ascii_alphanumeric()).filter(|word| !word.is_empty()).collect();
    let number = |word: &str| word.strip_prefix('D').and_then(|digits| digits.parse::<u32>().ok());
    for (at, word) in words.iter().enumerate() {
        let Some(first) = number(word) else { continue };
        let last = match words.get(at + 1..at + 3) {
            Some(["to", next]) => number(next).unwrap_or(first),
            _ => first,
        };
        found.extend(first..=last);
    }
    found
}

#[test]
fn the_header_cites_every_duty() {
    let safety = read("docs/SAFETY.md");
    let duties: Vec<u32> =
        safety.lines().filter_map(|line| line.strip_prefix("- **D")?.split_once('.')?.0.parse().ok()).collect();
    assert!(!duties.is_empty());
    assert_eq!(duties, (1..=duties.len() as u32).collect::<Vec<u32>>(), "docs/SAFETY.md numbers its duties from 1");
    let all: BTreeSet<u32> = duties.into_iter().collect();
    let header = read("include/robequarry.h");
    let (_, owed) = header.split_once("WHAT A CALLER OWES").expect("the section is there");
    let (owed, _) = owed.split_once("STACK").expect("the next section is there");
    assert_eq!(cited(owed), all, "include/robequarry.h cites the duties of docs/SAFETY.md");
    assert_eq!(cited(&safety), all, "docs/SAFETY.md cites its own duties");
}

/// The clauses in a list such as "3, 5.1 to 5.3, 7.2"; a chapter stands for all its clauses.
fn clauses_in(list: &str, all: &[String]) -> BTreeSet<String> {
    let mut found = BTreeSet::new();
    for part in list.split(", ") {
        let (first, last) = part.split_once(" to ").unwrap_or((part, part));
        let within = |clause: &String| match (first.split_once('.'), clause.split_once('.'), last.split_once('.')) {
            (Some((chapter, from)), Some((of, number)), Some((_, to))) => {
                let number: u32 = number.parse().expect("a clause has a number");
                chapter == of && from.parse().is_ok_and(|n: u32| n <= number) && to.parse().is_ok_and(|n: u32| number <= n)
            }
            (None, Some((of, _)), _) => first == of,
            _ => false,
        };
        found.extend(all.iter().filter(|clause| within(clause)).cloned());
    }
    found
}

/// The list of clauses at the front of a table's cell.
fn clause_list(cell: &str) -> &str {
    let part_of_list = |word: &str| word == "to" || word.trim_end_matches(',').split('.').all(|n| n.parse::<u32>().is_ok());
    let mut end = 0;
    for word in cell.split(' ').take_while(|word| part_of_list(word)) {
        end += word.len() + 1;
    }
    cell[..end.min(cell.len())].trim_end_matches([' ', ','])
}

#[test]
fn every_clause_has_its_row() {
    let contract = read("docs/CONTRACT.md");
    let number = |line: &str| {
        let first = line.split(' ').next()?;
        let (chapter, clause) = first.split_once('.')?;
        (chapter.parse::<u32>().is_ok() && clause.parse::<u32>().is_ok()).then(|| first.to_string())
    };
    let all: Vec<String> = contract.lines().filter_map(number).collect();
    assert!(all.len() >= 88, "the contract's clauses are found: {}", all.len());
    let demands = read("docs/DEMANDS.md");
    let cells = |title: &str, column: usize| -> Vec<String> {
        let (_, section) = demands.split_once(title).expect("the section is there");
        let section = section.split_once("\n## ").map_or(section, |(own, _)| own);
        let rows = section.lines().filter(|line| line.starts_with("| "));
        rows.filter_map(|line| line.split('|').nth(column)).map(|cell| cell.trim().to_string()).collect()
    };
    let mut carried = BTreeSet::new();
    for cell in cells("## Definitions and claims", 1) {
        carried.extend(clauses_in(clause_list(&cell), &all));
    }
    let missing: Vec<&String> = all.iter().filter(|clause| !carried.contains(*clause)).collect();
    assert!(missing.is_empty(), "docs/DEMANDS.md has no row for {missing:?}");
    let jobs = cells("## Jobs, their clauses", 2);
    assert_eq!(jobs.len(), 15, "a heading and fourteen jobs");
    for cell in &jobs[1..] {
        assert!(!clauses_in(cell, &all).is_empty(), "{cell}: no such clause");
    }
}

/// Modules that the reading list leaves out although it needs one name of each: `rows`, a list of numbers as a function of the row, and
/// `spell`, the letters of a word in a frame.
const NOT_LISTED: [&str; 2] = ["rows/specs/parts/Rows", "convexity/specs/parts/InFrame"];

/// The modules in a cell such as "`chart/specs`: Limits, Outline; `images/specs/Image`". A folder without names stands for all in it.
fn modules_in(tree: &Tree, cell: &str) -> Vec<String> {
    let spans: Vec<&str> = cell.split('`').skip(1).collect();
    let mut found = Vec::new();
    for pair in spans.chunks(2) {
        let (path, behind) = (pair[0], pair.get(1).copied().unwrap_or(""));
        let folder = format!("crates/{path}/");
        match behind.strip_prefix(": ") {
            Some(names) => {
                let names = names.split([',', ';']).map(str::trim).filter(|name| !name.is_empty());
                found.extend(names.map(|name| format!("{path}/{name}")));
            }
            None if path.ends_with("/specs") => found.extend(tree.files.iter().filter_map(|file| {
                let name = file.strip_prefix(&folder)?.strip_suffix(".antt")?;
                (!["Lib", "parts"].contains(&name) && !name.contains('/')).then(|| format!("{path}/{name}"))
            })),
            None => found.push(path.to_string()),
        }
    }
    found
}

/// The modules of `specs/` that a file imports of the repository's crates. What is declared there is left out: the code's own structs and
/// enums.
fn imported(tree: &Tree, path: &str) -> BTreeSet<String> {
    let module = |line: &str| {
        let (of, rest) = line.split_once("use Rattle.")?.1.split_once(".specs.")?;
        let name = rest.split([' ', '{', ';']).next()?.trim_end_matches('.');
        assert!(!name.is_empty(), "{path}: {line}");
        (tree.is_crate(of) && !name.starts_with("declared.")).then(|| format!("{of}/specs/{}", name.replace('.', "/")))
    };
    let found: BTreeSet<String> = read(path).lines().filter_map(module).collect();
    for module in &found {
        assert!(tree.is_file(&format!("crates/{module}.antt")), "{path} imports {module}");
    }
    found
}

#[test]
fn the_reading_list_is_closed() {
    let tree = Tree::new();
    let readme = read("README.md");
    let (_, section) = readme.split_once("## A reading list").expect("the section is there");
    let section = section.split_once("\n## ").map_or(section, |(own, _)| own);
    let mut listed = BTreeSet::new();
    let mut wrong = Vec::new();
    let mut total = 0;
    for row in section.lines().filter(|line| line.starts_with("| `")) {
        let cells: Vec<&str> = row.split('|').map(str::trim).collect();
        let modules = modules_in(&tree, cells[1]);
        let lines: usize = modules.iter().map(|module| read(&format!("crates/{module}.antt")).lines().count()).sum();
        if cells[2] != lines.to_string() {
            wrong.push(format!("{}: {lines} lines, and not {}", cells[1], cells[2]));
        }
        total += lines;
        listed.extend(modules);
    }
    assert!(listed.len() > 50, "the list is found: {}", listed.len());
    let (before, _) = section.split_once(" pages of 50 lines").expect("the pages are counted");
    let pages: usize = before.rsplit(' ').next().and_then(|word| word.parse().ok()).expect("a count of pages");
    if total.abs_diff(50 * pages) > 250 {
        wrong.push(format!("{total} lines are not some {pages} pages"));
    }
    let mut read_first: Vec<String> = listed.iter().map(|module| format!("crates/{module}.antt")).collect();
    read_first.push("crates/outline/src/lib.rt".to_string());
    for reader in read_first {
        for module in
            imported(&tree, &reader).into_iter().filter(|m| !listed.contains(m) && !NOT_LISTED.contains(&m.as_str()))
        {
            wrong.push(format!("{reader} imports {module}, which is not listed"));
        }
    }
    assert!(wrong.is_empty(), "README.md, \"A reading list\":\n{}", wrong.join("\n"));
}

/// The first function of a file of code that calls itself by its name, or is in a cycle of calls. A method stands further in, and a function
/// beside it may have its name.
fn calls_itself(text: &str) -> Option<String> {
    let (mut function, mut of_a_type) = ("", false);
    for line in text.lines().map(|line| line.split("//").next().unwrap_or("")) {
        if line.contains("#[cycle(") {
            return Some(line.trim().to_string());
        }
        if let Some((_, rest)) = line.split_once("fn ") {
            function = rest.split(['(', '<']).next().unwrap_or(rest);
            of_a_type = line.starts_with(' ');
            continue;
        }
        let calls = |at: usize| !line[..at].ends_with(|c: char| c.is_alphanumeric() || "_:.".contains(c));
        let named = match of_a_type {
            true => vec![format!("self.{function}("), format!("Self::{function}(")],
            false => vec![format!("{function}(")],
        };
        if !function.is_empty() && named.iter().any(|call| line.match_indices(call).any(|(at, _)| calls(at))) {
            return Some(function.to_string());
        }
    }
    None
}

/// What docs/SAFETY.md says of the tree as a whole.
#[test]
fn the_tree_is_as_the_safety_case_says() {
    let tree = Tree::new();
    for path in tree.files.iter().filter(|path| path.starts_with("crates/robequarry/src/") && path.ends_with(".rt")) {
        let code = |line: &str| {
            line.split("//")
                .next()
                .unwrap_or("")
                .split(|c: char| !c.is_alphanumeric() && c != '_')
                .any(|word| word == "requires")
        };
        assert!(!read(path).lines().any(code), "{path}: no function of C requires anything");
    }
    // The proof of a cycle of calls stands in a folder that begins with a plus sign.
    let cycles = tree.files.iter().filter(|path| path.starts_with("crates/") && path.contains("/+"));
    let mut others = cycles.filter(|path| !path.starts_with("crates/text_lines/"));
    assert_eq!(others.next(), None, "a function that calls itself");
    for path in tree.code.keys().filter(|path| path.starts_with("crates/") && !path.starts_with("crates/text_lines/")) {
        assert_eq!(calls_itself(&read(path)), None, "{path}: a function that calls itself");
    }
    assert_eq!(calls_itself(&read("crates/text_lines/src/lib.rt")).as_deref(), Some("put_number"));
    for line in read("crates.txt").lines().filter(|line| !line.starts_with('#')) {
        let (name, uses) = line.split_once(':').unwrap_or((line, ""));
        let outside = uses.split_whitespace().any(|used| !tree.is_crate(used));
        assert!(
            !outside || name == "fittings" || name.starts_with("test_"),
            "{name}: only programs use libraries of the toolchain besides std"
        );
    }
}

/// The search itself: wrong names of each kind are found, and right ones are not.
#[test]
fn a_wrong_name_is_found() {
    let tree = Tree::new();
    let count = |text: &str| {
        let parts = text::parts(text);
        let mut found = Vec::new();
        for part in &parts {
            found.extend(match part {
                Part::Quoted(span) => span_error(&tree, span),
                Part::Path(path) => path_error(&tree, path),
                Part::Plain(_) => None,
            });
        }
        place_errors(&tree, &parts, &mut found);
        edit_errors(&tree, &parts, &mut found);
        found.len()
    };
    for right in [
        "`level` (lattice/proofs/RightHand)",
        "`survey::survey`",
        "`Pile::check`",
        "words/must-fail/never_a_dent, all_dented",
        "`rq_test`",
        "`rq_..._parts`",
        "`RQ_SIDE`",
        "docs/CONTRACT.md",
        "`./test`",
        "`rt must-fail words`",
        "`rt check`",
        "`cd crates/words && rt check`",
        "`cargo run --release --bin differential`",
        "`robequarry check FILE`",
        "1/64",
    ] {
        assert_eq!(count(right), 0, "{right}");
    }
    for wrong in [
        "`level` (lattice/proofs/Jumps)",
        "`no-such-theorem`",
        "`survey::no_such`",
        "`Pile::no_such`",
        "words/must-fail/never_a_dent, no_such_edit",
        "words/must-fail/no_such_edit",
        "`rq_no_such`",
        "`rq_..._pasts`",
        "docs/NO.md",
        "`./no_such`",
        "`rt must-fail no_such`",
        "`rt check words`",
        "`rt no_such`",
        "`cd crates/no_such && rt check`",
        "`cd host && rt check`",
        "`cd host && rt ci`",
        "`cd crates/words && rt ci`",
        "`cargo run --release --bin no_such`",
        "`robequarry no_such FILE`",
    ] {
        assert_eq!(count(wrong), 1, "{wrong}");
    }
}
