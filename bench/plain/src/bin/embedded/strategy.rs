//! The rows of a strategy, and its bounds.

use plain::short::Short;

pub enum Act {
    List,
    Split(Vec<usize>),
}

/// A row: up to how many items, and what is done.
pub type Row = (usize, Act);

pub struct Strategy {
    rows: Vec<Row>,
    has_short_bounds: bool,
}

impl Strategy {
    /// The strategy of a text in which each key has a line.
    pub fn of(text: &str) -> Strategy {
        let mut strategy = Strategy { rows: Vec::new(), has_short_bounds: false };
        for line in text.lines() {
            match line.split_once(" = ") {
                Some(("bounds", word)) => strategy.has_short_bounds = word == "\"short\"",
                Some(("upto", number)) => strategy.rows.push((number.parse().expect("a number"), Act::List)),
                Some(("split", weights)) => {
                    let weights = weights.trim_matches(['[', ']']).split(", ");
                    let weights = weights.map(|weight| weight.parse().expect("a weight")).collect();
                    strategy.rows.last_mut().expect("a row").1 = Act::Split(weights);
                }
                _ => {}
            }
        }
        strategy
    }

    /// What is done with so many items.
    pub fn act(&self, count: usize) -> &Act {
        let (_, act) = self.rows.iter().find(|(upto, _)| count <= *upto).expect("a row");
        act
    }

    /// The bound between an item and the next one: the next one, or as few of its bytes as tell it from the other.
    pub fn bound(&self, item: &Short, next: &Short) -> Short {
        if !self.has_short_bounds {
            return *next;
        }
        let same = item.bytes().iter().zip(next.bytes()).take_while(|(one, other)| one == other).count();
        Short::new(&next.bytes()[..same + 1])
    }
}
