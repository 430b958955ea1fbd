//! Parts and their placing in the plain programs.

use crate::ranges::Range;
use crate::refusal::Refusal;
use crate::short::Short;
use crate::sums::Sum;

#[derive(Clone)]
pub enum Part {
    Sum(Range, Sum),
    List(Range, Vec<Short>),
    Answer(Range, Vec<bool>, Vec<Short>),
}

impl Part {
    /// Whether it is to be replied to.
    pub fn is_open(&self) -> bool {
        !matches!(self, Part::Answer(..))
    }
}

/// The items of each List of these parts, in order.
pub fn items_of_lists(parts: &[Part]) -> impl Iterator<Item = &Vec<Short>> {
    parts.iter().filter_map(|part| match part {
        Part::List(_, items) => Some(items),
        _ => None,
    })
}

/// What is still to come of a partition.
type Step = Result<Option<Range>, Refusal>;

fn rest_behind(part: &Range, whole: &Range) -> Option<Range> {
    let lower = part.upper?;
    if whole.upper.is_none_or(|upper| lower < upper) { Some(Range { lower, upper: whole.upper }) } else { None }
}

fn next_outside(sent: &[Part], at: &mut usize, part: &Part) -> Step {
    while let Some(own) = sent.get(*at) {
        *at += 1;
        match (own, part) {
            (Part::List(range, listed), Part::Answer(answered, marks, items)) => {
                if range != answered {
                    return Err(Refusal(20));
                }
                if marks.len() != listed.len() {
                    return Err(Refusal(24));
                }
                if items.iter().any(|item| listed.binary_search(item).is_ok()) {
                    return Err(Refusal(25));
                }
                return Ok(None);
            }
            (Part::List(..), _) => return Err(Refusal(23)),
            (Part::Sum(range, _), Part::List(listed, _)) if range == listed => return Ok(None),
            (Part::Sum(range, _), Part::Sum(cut, _)) if range.lower == cut.lower => {
                if range.upper == cut.upper {
                    return Err(Refusal(21));
                }
                return rest_behind(cut, range).map(Some).ok_or(Refusal(20));
            }
            _ => {}
        }
    }
    Err(Refusal(20))
}

fn next_inside(rest: &Range, part: &Part) -> Step {
    let Part::Sum(range, _) = part else {
        return Err(Refusal(22));
    };
    if range == rest {
        return Ok(None);
    }
    if range.lower != rest.lower {
        return Err(Refusal(22));
    }
    rest_behind(range, rest).map(Some).ok_or(Refusal(22))
}

/// Whether the parts of a message each reply to one that was sent, in order.
pub fn place(sent: &[Part], message: &[Part]) -> Result<(), Refusal> {
    let mut at = 0;
    let mut inside = None;
    for part in message {
        inside = match &inside {
            None => next_outside(sent, &mut at, part)?,
            Some(rest) => next_inside(rest, part)?,
        };
    }
    if inside.is_some() {
        return Err(Refusal(22));
    }
    if sent[at..].iter().any(|own| matches!(own, Part::List(..))) {
        return Err(Refusal(23));
    }
    Ok(())
}
