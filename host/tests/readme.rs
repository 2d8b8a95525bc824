//! The example of host/README.md, "In twenty lines": it is the one in `examples/`, and does what it says.

#[path = "../examples/twenty_lines.rs"]
mod example;

#[test]
fn it_runs() {
    assert_eq!(example::main(), Ok(()));
}

/// The lines of the section are those of the program, in their order.
#[test]
fn it_is_in_the_readme() {
    let (_, section) = include_str!("../README.md").split_once("\n## In twenty lines\n").expect("it has that section");
    let (section, _) = section.split_once("\n## ").expect("another follows");
    let told: Vec<&str> = section.lines().filter_map(|line| line.strip_prefix("    ")).collect();
    let (imported, body) = include_str!("../examples/twenty_lines.rs").split_once("\npub fn main()").expect("it has a main");
    let body = body.lines().skip(1).take_while(|line| *line != "    Ok(())").filter_map(|line| line.strip_prefix("    "));
    let import = imported.lines().find(|line| line.starts_with("use ")).expect("it imports what it uses");
    assert_eq!(told, [import].into_iter().chain(body).collect::<Vec<_>>());
}
