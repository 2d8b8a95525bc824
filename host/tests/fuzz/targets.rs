//! What holds of the parsers for every input.

use robequarry::fitting::{record, Fault, Records, MARK};
use robequarry::limits::LONGEST_FILE;
use robequarry::text::{self, Lines};
use robequarry::{Edges, Outline};

/// The records of a file are its bytes, up to a fault that is where the contract has it (11.3).
pub fn fitting(bytes: &[u8]) {
    let mut read: Vec<Result<Outline, Fault>> = Records::of(bytes).collect();
    let fault = read.last().and_then(|last| last.as_ref().err()).copied();
    read.truncate(read.len() - usize::from(fault.is_some()));
    let whole: Vec<Outline> = read.into_iter().map(|record| record.expect("a fault comes last")).collect();
    let written: Vec<u8> = whole.iter().flat_map(|outline| record(outline).expect("it was a record")).collect();
    assert!(bytes.starts_with(&written));
    let rest = &bytes[written.len()..];
    let expected = match rest {
        _ if bytes.len() > LONGEST_FILE => Some((25, 0, LONGEST_FILE)),
        [] => None,
        _ if rest.starts_with(&MARK) => Some((24, whole.len(), written.len())),
        _ => Some((23, whole.len(), written.len())),
    };
    assert_eq!(fault.map(|fault| (fault.number(), fault.record(), fault.position())), expected);
    if let Some(Fault::CutShort { .. }) = fault {
        assert!(rest.len() < 6 || rest.len() < 6 + usize::from(u16::from_le_bytes([rest[4], rest[5]])));
    }
}

/// Each line of a text is read as it is by itself, and what is read is written back and read again.
pub fn text(bytes: &[u8]) {
    let decoded = text::decode(bytes);
    assert_eq!(text::decode(decoded.as_bytes()), decoded.strip_prefix('\u{feff}').unwrap_or(&decoded));
    let read: Vec<_> = Lines::of(&decoded).collect();
    for (outline, name) in read.iter().flatten() {
        let line = text::line(outline).expect("it was digits");
        assert_eq!(line.parse().as_ref(), Ok(outline));
        let escaped = text::Escaped(name).to_string();
        assert!(!escaped.chars().any(char::is_control));
        assert_eq!(text::unescaped(&escaped), *name);
        let again = format!("{line} #{}", escaped.trim_matches(|char: char| char.is_ascii_whitespace()));
        assert_eq!(text::entry(&again).map(|entry| entry.map(|(outline, _)| outline)).as_ref(), Ok(&Some(outline.clone())));
    }
    let alone = decoded.split('\n').enumerate().map(|(i, line)| (i + 1, text::entry(line)));
    let alone = alone.filter_map(|(line, read)| read.map_err(|wrong| text::Fault { line, wrong }).transpose());
    assert!(alone.eq(read.iter().cloned()));
    for fault in read.iter().filter_map(|read| read.as_ref().err()) {
        assert!(!fault.to_string().chars().any(char::is_control));
    }
}

/// Edges that are read are written back and read again.
pub fn edges(bytes: &[u8]) {
    let Ok(line) = std::str::from_utf8(bytes) else {
        return;
    };
    match line.parse::<Edges>() {
        Ok(edges) if edges.numbers().len() % 2 == 0 => assert_eq!(text::edge_line(&edges).parse(), Ok(edges)),
        Ok(edges) => assert_eq!(edges.contains(edges.anchor()).map_err(|refusal| refusal.number()), Err(10)),
        Err(wrong) => assert!(!wrong.to_string().chars().any(char::is_control)),
    }
}
