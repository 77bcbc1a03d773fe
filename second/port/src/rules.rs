//! The value rules: whether a value keeps those of its parameter.

use crate::block::{is_list, last_four, Block};
use crate::table::{Parameter, Rule, PARTS, TABLE};

impl Parameter {
    /// Whether `value` keeps the length and the rule of a stored value.
    pub fn permits(&self, value: &[u8]) -> bool {
        if value.len() < self.least || value.len() > self.most {
            return false;
        }
        match self.rule {
            Rule::Free => true,
            Rule::Octet(least, most) => value.iter().all(|octet| (least..=most).contains(octet)),
            Rule::LastFour(least, most) => {
                last_four(value).is_some_and(|number| (least..=most).contains(&number))
            }
            Rule::List => is_list(value),
            Rule::Block => Block::split(value).is_some_and(|block| has_form_and_fit(&block)),
        }
    }
}

/// Whether each value of a block keeps its rule and they fit one another.
fn has_form_and_fit(block: &Block) -> bool {
    let keeps_rule = |(&part, value): (&usize, &&[u8])| TABLE[part].permits(value);
    PARTS.iter().zip(&block.0).all(keeps_rule) && block.fits()
}
