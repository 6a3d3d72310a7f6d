//! Pushes up to the stack's limit and past it, and a cjmp at the limit.

use super::super::draft::Draft;
use crate::listing::context::{Context, Stack};
use crate::listing::item::Item;
use crate::listing::types::at_or_below;
use crate::packet::grammar::{ITEMS, LABELS, STACK};
use crate::random::Random;

/// Puts in one push less than fill the stack, just as many, or one more, which
/// may break the level rule too. Does nothing where there is no room or no label.
pub fn put_in_pushes(random: &mut Random, draft: &mut Draft) {
    let walks = draft.walks();
    let place = random.below(walks.len() as u32) as usize;
    let now = walks[place].now;
    let (above, others): (Vec<u8>, Vec<u8>) = (0..draft.contexts.len() as u8)
        .partition(|&label| at_or_below(now.pc, draft.contexts[usize::from(label)].pc));
    let fill = STACK as usize - now.stack.depth();
    if !walks[place].open || above.is_empty() || draft.items.len() + fill >= ITEMS as usize {
        return;
    }
    let mut pushes: Vec<Item> = (0..fill).map(|_| Item::Cpush(random.pick(&above))).collect();
    match random.below(8) {
        0 => drop(pushes.pop()),
        1 => {}
        _ if others.is_empty() || random.once_in(2) => {
            pushes.push(Item::Cpush(random.pick(&above)))
        }
        _ => pushes.push(Item::Cpush(random.pick(&others))),
    }
    draft.items.splice(place..place, pushes);
}

/// Puts a block at the end whose stack is full of its own label, and jumps to that:
/// below the label there would have to be as many again.
pub fn put_in_full_stack(random: &mut Random, draft: &mut Draft) {
    let label = draft.contexts.len() as u8;
    if u32::from(label) == LABELS || draft.items.len() + 2 > ITEMS as usize {
        return;
    }
    let own = Stack::of([label; STACK as usize].into_iter());
    let like = random.pick(&draft.contexts);
    draft.contexts.push(Context { stack: own, ..like });
    draft.items.extend([Item::Label(label), Item::Cjmp(label)]);
}
