//! Mistaken models. Each takes every rule of the right model but one, which it replaces (two where
//! a step is made at another moment); they serve to show that the comparisons would notice such a
//! mistake in the product.

mod calls;
mod circles;
mod completion;
mod copies;
mod deadlines;
mod order;
mod programs;
mod range;
mod reader;
mod tables;
mod words;

use crate::model::rules::Model;

pub struct Mistake {
    pub name: &'static str,
    /// Whether the sampling check, too, has to notice it.
    pub breaks_sampling: bool,
    pub model: Model,
}

impl Mistake {
    fn new(name: &'static str, model: Model) -> Mistake {
        Mistake {
            name,
            breaks_sampling: false,
            model,
        }
    }

    fn breaking_sampling(self) -> Mistake {
        Mistake {
            breaks_sampling: true,
            ..self
        }
    }
}

/// All mistakes, those of 01's "Slips that look right" among them.
pub fn all() -> Vec<Mistake> {
    let lists = vec![
        deadlines::mistakes(),
        copies::mistakes(),
        completion::mistakes(),
        calls::mistakes(),
        order::mistakes(),
        tables::mistakes(),
        circles::mistakes(),
        range::mistakes(),
        reader::mistakes(),
        words::mistakes(),
        programs::mistakes(),
    ];
    lists.into_iter().flatten().collect()
}
