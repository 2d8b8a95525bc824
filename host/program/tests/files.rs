//! Fitting files are read as the proved program `fittings` reads them: the listing of contract 11 is the same.

use std::fs;
use std::path::Path;

use robequarry::fitting::Records;
use robequarry::Refusal;
use robequarry_checks::random::Random;
use robequarry_checks::reference::files;

/// The listing that the reader and the library's test make.
fn listing(file: &[u8]) -> String {
    let mut lines = String::new();
    for (number, record) in Records::of(file).enumerate() {
        let (said, place) = match record {
            Err(fault) => {
                assert_eq!(fault.record(), number);
                (fault.number(), fault.position())
            }
            Ok(outline) => match outline.test() {
                Ok(edges) => (0, edges.steps().len()),
                Err(refusal) => (refusal.number(), place(refusal)),
            },
        };
        lines += &format!("{number} {said} {place}\n");
    }
    lines
}

fn place(refusal: Refusal) -> usize {
    match refusal {
        Refusal::Letter { place } | Refusal::OffChart { place } | Refusal::Touches { place } => place,
        Refusal::BackStep { place, .. } | Refusal::Dent { place, .. } => place,
        _ => 0,
    }
}

#[test]
fn the_repository_s_files() {
    let folder = Path::new(env!("CARGO_MANIFEST_DIR")).join("../../files");
    let mut read = 0;
    for entry in fs::read_dir(folder).expect("the folder is there") {
        let path = entry.expect("it can be read").path();
        if path.extension().is_some_and(|extension| extension == "fit") {
            let expected = fs::read_to_string(path.with_extension("lines")).expect("each file has its lines");
            assert_eq!(listing(&fs::read(&path).expect("it can be read")), expected, "{}", path.display());
            read += 1;
        }
    }
    assert!(read > 10);
}

#[test]
fn spoilt_files() {
    let mut random = Random::new(14);
    for _ in 0..4000 {
        let mut file = Vec::new();
        for _ in 0..random.below(4) {
            let letters: Vec<u8> = (0..random.below(12)).map(|_| random.below(5) as u8).collect();
            file.extend([0x4B, 0x4F, random.any() as u8, random.any() as u8, letters.len() as u8, 0]);
            file.extend(letters);
        }
        if !file.is_empty() && random.once_in(2) {
            let at = random.below(file.len());
            file[at] = random.any() as u8;
        }
        file.truncate(file.len() - random.below(file.len() + 1) * random.below(2));
        assert_eq!(listing(&file), files::listing(&file), "{file:?}");
    }
}
