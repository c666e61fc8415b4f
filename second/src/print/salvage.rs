//! A salvage as text: which facts are dropped, what each clashes with, and how.

use super::clash;
use crate::desk::dropped_line;
use crate::explain::salvage::{Dropped, Salvage, Typed};
use crate::salvage::Fact;
use std::fmt::{Display, Formatter, Result};

impl Display for Fact {
    fn fmt(&self, f: &mut Formatter) -> Result {
        match self {
            Fact::Concept(fact) => write!(f, "{}({})", fact.name, fact.who),
            Fact::Role(fact) => write!(f, "{}({}, {})", fact.role, fact.first, fact.second),
        }
    }
}

pub fn salvage(salvage: &Salvage) -> String {
    let Salvage { line, facts, dropped } = salvage;
    let mut text = format!("\nSALVAGE (line {line}): of {facts} facts {} are dropped\n", dropped.len());
    dropped.iter().for_each(|one| text += &self::dropped(one));
    text
}

fn dropped(dropped: &Dropped) -> String {
    let what = match &dropped.with[..] {
        [] => "the rules alone".to_string(),
        with => with.iter().map(typed).collect::<Vec<String>>().join(" and "),
    };
    let mut text = format!("  {} is dropped: it clashes with {what}.\n", typed(&dropped.fact));
    text.extend(clash::body(&dropped.clash).lines().map(|line| format!("  {line}\n")));
    let written = dropped_line(dropped.fact.1.line);
    text + &format!("    the desk writes {}", String::from_utf8_lossy(&written))
}

/// `A0(i0) (deed 4,711, line 12)`.
fn typed((fact, noted): &Typed) -> String {
    format!("{fact} ({noted})")
}
