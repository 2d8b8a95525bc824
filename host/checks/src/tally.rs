//! Counts of what the inputs reached.

use robequarry::codec::CROSSING;
use robequarry::limits::LAST_REFUSAL;

use crate::case::{Case, Outcome};
use crate::Fields;

const NUMBERS: usize = LAST_REFUSAL as usize + 1;
const WORDS: usize = CROSSING as usize + 1;

/// The words that some input reaches, and their names.
const NAMES: [(usize, &str); 16] = [
    (0, "no word"),
    (1, "inside"),
    (2, "outside"),
    (3, "taken"),
    (4, "same"),
    (5, "none"),
    (6, "columns"),
    (7, "undecided"),
    (8, "move"),
    (9, "line"),
    (10, "close"),
    (11, "equal"),
    (12, "first within"),
    (13, "second within"),
    (14, "no common cell"),
    (15, "crossing"),
];

/// How often each number and each word was replied.
#[derive(Clone, Default)]
pub struct Replies {
    pub numbers: [u64; NUMBERS],
    pub words: [u64; WORDS],
}

impl Replies {
    pub fn count(&mut self, reply: Fields) {
        self.numbers[usize::from(reply.number)] += 1;
        self.words[usize::from(reply.word)] += 1;
    }
}

#[derive(Clone, Default)]
pub struct Tally {
    pub tests: Replies,
    pub loose_queries: Replies,
    pub borders: Replies,
    pub comparisons: Replies,
    pub witnesses: Replies,
    pub completions: Replies,
    pub calls: Replies,
    pub pieces: Replies,
    pub piles: Replies,
    /// Lists of calls with checks, saves and restores; and the same on memory of any content.
    pub images: Replies,
    pub memories: Replies,
    /// Scripts that begin with no call, or without space for a reply.
    pub unanswered: u64,
    /// The most letters, and the most edges, of a taken test.
    pub longest_taken: usize,
    pub most_edges: u16,
}

impl Tally {
    /// Counts what the reference replied.
    pub fn count(&mut self, case: &Case, outcome: &Outcome) {
        let replies = match case {
            Case::Test { .. } => &mut self.tests,
            Case::Loose { .. } => &mut self.loose_queries,
            Case::Border { .. } => &mut self.borders,
            Case::Compare { .. } => &mut self.comparisons,
            Case::Witness { .. } => &mut self.witnesses,
            Case::Complete { .. } => &mut self.completions,
            Case::Script { .. } => &mut self.calls,
            Case::Piece { .. } => &mut self.pieces,
        };
        for reply in outcome.fields() {
            replies.count(reply);
        }
        match (case, outcome.fields().next()) {
            (_, None) => self.unanswered += 1,
            (Case::Test { outline, .. }, Some(Fields { number: 0, place: edges, .. })) => {
                self.longest_taken = self.longest_taken.max(outline.letters.len());
                self.most_edges = self.most_edges.max(edges);
            }
            _ => {}
        }
    }

    /// Counts what the reference replied to a call on a pile.
    pub fn count_pile(&mut self, reply: Fields) {
        self.piles.count(reply);
    }

    /// The table of numbers and words, and a complaint for each that some input reaches and none of these did.
    pub fn report(&self) -> Vec<String> {
        // What no input reaches: a test knows no state, a loose query no outline, and a holder and a pile have space for every edge.
        let reached: [(&str, &Replies, &[usize], &[usize]); 11] = [
            ("tests", &self.tests, &[0, 1, 2, 3, 4, 5, 6, 8, 9, 10], &[0]),
            ("loose queries", &self.loose_queries, &[0, 10, 11, 16], &[0, 1, 2]),
            ("borders", &self.borders, &[0, 10, 11, 16, 17, 18], &[0]),
            ("comparisons", &self.comparisons, &[0, 10, 11, 16], &[0, 11, 12, 13, 14, 15]),
            ("witnesses", &self.witnesses, &[0, 1, 2, 3, 4, 5, 6, 10], &[0, 5]),
            ("completions", &self.completions, &[0, 1, 2, 3, 4, 5, 6, 18], &[0]),
            (
                "calls",
                &self.calls,
                &[0, 1, 2, 3, 4, 5, 6, 8, 9, 11, 12, 13, 14, 15, 19, 20],
                &[0, 1, 2, 3, 4, 5, 6, 7, 8, 9, 10],
            ),
            ("pieces", &self.pieces, &[0, 12, 19, 20], &[0, 5, 8, 9, 10]),
            ("piles", &self.piles, &[0, 1, 2, 3, 4, 5, 6, 8, 9, 11, 12, 21, 22, 26], &[0, 1, 2]),
            (
                "images",
                &self.images,
                &[0, 1, 2, 3, 4, 5, 6, 8, 9, 11, 12, 13, 14, 15, 18, 19, 20, 26],
                &[0, 1, 2, 3, 4, 5, 6, 7, 8, 9, 10],
            ),
            (
                "memories",
                &self.memories,
                &[0, 1, 2, 3, 4, 5, 6, 8, 9, 11, 12, 13, 14, 15, 18, 19, 20, 22, 26, 27],
                &[0, 1, 2, 3, 4, 5, 6, 7, 8, 9, 10],
            ),
        ];
        let line = |name: &str, cells: [String; 11]| {
            println!("{name:>16}{}", cells.iter().map(|cell| format!(" {cell:>14}")).collect::<String>());
        };
        line("number", reached.map(|(name, ..)| name.to_string()));
        for number in (0..NUMBERS).filter(|number| !(23..26).contains(number)) {
            let counts = reached.map(|(_, replies, numbers, _)| cell(replies.numbers[number], numbers.contains(&number)));
            line(&number.to_string(), counts);
        }
        for (word, name) in NAMES {
            line(name, reached.map(|(_, replies, _, words)| cell(replies.words[word], words.contains(&word))));
        }
        println!("{} scripts began with no call, or had no space for a reply", self.unanswered);
        println!("taken outlines had up to {} letters and up to {} edges", self.longest_taken, self.most_edges);
        let mut complaints = Vec::new();
        for (name, replies, numbers, words) in reached {
            complaints.extend(missed(name, "number", &replies.numbers, numbers));
            complaints.extend(missed(name, "word", &replies.words, words));
        }
        complaints
    }
}

fn cell(count: u64, reachable: bool) -> String {
    if reachable || count > 0 {
        count.to_string()
    } else {
        "-".to_string()
    }
}

/// A complaint for each count that is 0 and should not be, or the other way round.
fn missed(name: &str, what: &str, counts: &[u64], reachable: &[usize]) -> Vec<String> {
    let wrong = |&i: &usize| (counts[i] > 0) != reachable.contains(&i);
    (0..counts.len()).filter(wrong).map(|i| format!("{name}: {what} {i} was replied {} times", counts[i])).collect()
}
