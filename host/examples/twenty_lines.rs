//! The example of host/README.md. `cargo run --example twenty_lines` runs it.

use robequarry::{Cell, Corner, Holder, Located, Outline, Refusal};

pub fn main() -> Result<(), Refusal> {
    let plus = Outline::new(Corner::new(0, 1), [1, 0, 1, 0, 3, 0, 3, 2, 3, 2, 1, 2]);
    match plus.test() {
        Ok(edges) => println!("{} edges from {}", edges.steps().len(), edges.anchor()),
        Err(refusal) => println!("refusal {}, {}: {refusal}", refusal.number(), refusal.name()),
    }

    // The same letter by letter, for the knee at place 3.
    let (mut holder, knee, place) = (Holder::new(), 0, 3);
    holder.begin(knee, plus.start)?;
    for &letter in &plus.letters {
        holder.add(knee, letter)?;
    }
    assert_eq!(holder.close(knee, place)?.edges, 4);
    assert!(holder.query(knee, place, Cell::new(1, 1))?);
    assert_eq!(holder.row(knee, place, 1)?, Some((0, 2)));
    assert_eq!(holder.reading(knee, place, 1.25, 0.75)?, Located::Inside);

    // What is kept over a reset, and put to work again.
    let image = holder.save(knee, place)?.bytes();
    let restored = Holder::new().restore(knee, place, &image)?;
    assert!(restored.is_some_and(|closed| closed.anchor == Cell::new(0, 1)));
    Ok(())
}
