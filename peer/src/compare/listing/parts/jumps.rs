//! The rules of jumps, part by part.

use super::target;
use crate::checker::Walk;
use crate::listing::context::Context;
use crate::listing::item::Item;
use crate::listing::types::Type;

/// In which way the stacks differ.
pub fn stacks(walk: &Walk, item: Item) -> Vec<&'static str> {
    let now: Vec<u8> = walk.now.stack.labels().collect();
    if item == Item::Halt {
        return vec!["17: deeper"];
    }
    let wanted: Vec<u8> = target(walk, item).stack.labels().collect();
    if let Item::Cjmp(label) = item {
        let part = match now.first() {
            None => "17: cjmp from an empty stack",
            Some(&top) if top == label && wanted.len() == 16 && now[1..] == wanted[..15] => {
                "17: cjmp, a full stack below"
            }
            Some(&top) if top == label => "17: cjmp, another rest",
            Some(_) if now[1..] == wanted => "17: cjmp, another top",
            Some(_) => return vec![],
        };
        return vec![part];
    }
    vec![if now.len() > wanted.len() {
        "17: deeper"
    } else if now.len() < wanted.len() {
        "17: less deep"
    } else if now[0] != wanted[0] {
        "17: another label"
    } else {
        "17: another label deeper"
    }]
}

pub fn lists(now: &Context, target: &Context) -> Vec<(&'static str, bool)> {
    let unmet = |fails: fn(Type, Type) -> bool| {
        let wanted = target.types.iter().zip(&now.types).filter(|(wanted, _)| wanted.is_some());
        wanted.into_iter().any(|(&wanted, &now)| wanted != now && fails(wanted, now))
    };
    vec![
        ("18: not listed", unmet(|_, now| !now.is_some())),
        ("18: another kind", unmet(|wanted, now| now.is_some() && wanted.kind() != now.kind())),
        ("18: another level", unmet(|wanted, now| now.is_some() && wanted.level() != now.level())),
    ]
}
