//! Which outlines of two sources belong together: by a serial number, or by a name.

use std::collections::HashMap;
use std::fmt;

/// What marks a serial number in a name: `wearer 1, knee, serial=4711`.
const SERIAL: &str = "serial=";

/// By what something is known.
#[derive(Clone, Debug, Default, PartialEq, Eq)]
pub struct Key {
    pub serial: Option<String>,
    /// The name without its serial number.
    pub name: Option<String>,
}

impl Key {
    /// Of a name that may hold a serial number.
    pub fn of(name: &str) -> Self {
        let separator = |char: char| char.is_whitespace() || matches!(char, ',' | ';');
        let begins = |at: &usize| name[..*at].chars().next_back().is_none_or(separator);
        let Some(at) = name.match_indices(SERIAL).map(|(at, _)| at).find(begins) else {
            return Key { serial: None, name: some(name) };
        };
        let rest = &name[at + SERIAL.len()..];
        let (serial, after) = rest.split_at(rest.find(separator).unwrap_or(rest.len()));
        let before = name[..at].trim_end_matches(separator);
        let after = after.trim_start_matches(separator);
        let between = if before.is_empty() || after.is_empty() { "" } else { ", " };
        Key { serial: some(serial), name: some(&format!("{before}{between}{after}")) }
    }

    /// Of an image, which is known by its file's name.
    pub fn of_image(stem: &str) -> Self {
        let Key { serial, name } = Key::of(stem);
        Key { serial: serial.or_else(|| some(stem)), name }
    }

    pub fn is_none(&self) -> bool {
        self.serial.is_none() && self.name.is_none()
    }

    /// Whether both say who they are, and are not the same.
    pub fn contradicts(&self, other: &Key) -> bool {
        match (&self.serial, &other.serial) {
            (Some(one), Some(two)) => one != two,
            _ => self.name.is_some() && other.name.is_some() && self.name != other.name,
        }
    }
}

fn some(text: &str) -> Option<String> {
    Some(text.trim().to_string()).filter(|text| !text.is_empty())
}

/// Why nothing belongs to a key.
#[derive(Clone, Copy, Debug, PartialEq, Eq)]
pub enum Unpaired {
    /// It has neither serial number nor name.
    Nameless,
    /// Nothing has that serial number or name.
    Unknown,
    /// Several have it.
    Ambiguous,
}

impl fmt::Display for Unpaired {
    fn fmt(&self, f: &mut fmt::Formatter<'_>) -> fmt::Result {
        f.write_str(match self {
            Unpaired::Nameless => "it has no name and no serial number by which to find its outline",
            Unpaired::Unknown => "no outline has its serial number or its name",
            Unpaired::Ambiguous => "several outlines have its serial number or its name",
        })
    }
}

/// Things by their keys.
pub struct Index<T> {
    serials: HashMap<String, Option<T>>,
    names: HashMap<String, Option<(T, Option<String>)>>,
}

impl<T: Copy> Index<T> {
    pub fn of(things: impl Iterator<Item = (Key, T)>) -> Self {
        let mut index = Index { serials: HashMap::new(), names: HashMap::new() };
        for (key, thing) in things {
            if let Some(name) = key.name {
                let known = (thing, key.serial.clone());
                index.names.entry(name).and_modify(|known| *known = None).or_insert(Some(known));
            }
            if let Some(serial) = key.serial {
                index.serials.entry(serial).and_modify(|known| *known = None).or_insert(Some(thing));
            }
        }
        index
    }

    /// The one thing that a key means: the serial number decides, and where one of the two has none, the name.
    pub fn find(&self, key: &Key) -> Result<T, Unpaired> {
        if key.is_none() {
            return Err(Unpaired::Nameless);
        }
        if let Some(found) = key.serial.as_ref().and_then(|serial| self.serials.get(serial)) {
            return found.ok_or(Unpaired::Ambiguous);
        }
        // An image is known by one word, which may be either.
        let name = key.name.as_ref().or(key.serial.as_ref());
        match name.and_then(|name| self.names.get(name)) {
            None => Err(Unpaired::Unknown),
            Some(None) => Err(Unpaired::Ambiguous),
            Some(Some((_, Some(_)))) if key.serial.is_some() && key.serial != key.name => Err(Unpaired::Unknown),
            Some(Some((thing, _))) => Ok(*thing),
        }
    }
}

#[cfg(test)]
mod tests {
    use super::*;

    fn key(serial: &str, name: &str) -> Key {
        Key { serial: some(serial), name: some(name) }
    }

    #[test]
    fn keys() {
        for (text, serial, name) in [
            ("wearer 1, knee", "", "wearer 1, knee"),
            ("wearer 1, knee, serial=4711", "4711", "wearer 1, knee"),
            ("serial=4711", "4711", ""),
            ("serial=4711; wearer 1", "4711", "wearer 1"),
            ("a serial=7 b", "7", "a, b"),
            ("myserial=7", "", "myserial=7"),
            ("myserial=7 serial=8", "8", "myserial=7"),
            ("", "", ""),
        ] {
            assert_eq!(Key::of(text), key(serial, name), "{text}");
        }
        assert_eq!(Key::of_image("4711"), key("4711", "4711"));
        assert!(key("1", "a").contradicts(&key("2", "a")) && !key("1", "a").contradicts(&key("1", "b")));
        assert!(key("1", "a").contradicts(&key("", "b")) && !key("1", "").contradicts(&key("", "b")));
    }

    #[test]
    fn pairs() {
        let things = [key("1", "a"), key("2", "a"), key("", "b"), key("3", "c"), key("3", "d"), key("", "")];
        let index = Index::of(things.into_iter().zip(0..));
        for (sought, found) in [
            (key("1", "x"), Ok(0)),
            (key("2", "b"), Ok(1)),
            (key("", "a"), Err(Unpaired::Ambiguous)),
            (key("9", "b"), Ok(2)),
            (key("9", "c"), Err(Unpaired::Unknown)),
            (key("", "c"), Ok(3)),
            (key("3", "c"), Err(Unpaired::Ambiguous)),
            (key("", "e"), Err(Unpaired::Unknown)),
            (key("", ""), Err(Unpaired::Nameless)),
            (Key::of_image("b"), Ok(2)),
            (Key::of_image("1"), Ok(0)),
        ] {
            assert_eq!(index.find(&sought), found, "{sought:?}");
        }
    }
}
