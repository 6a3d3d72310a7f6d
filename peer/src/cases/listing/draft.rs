//! A listing that is being made or changed, as data.

use crate::checker::Walk;
use crate::listing::context::{Context, Stack};
use crate::listing::item::Item;
use crate::listing::types::{fields, Types};
use crate::packet::number::encode_all;

#[derive(Clone, Debug, PartialEq)]
pub struct Draft {
    pub shapes: Vec<Types>,
    pub contexts: Vec<Context>,
    pub items: Vec<Item>,
}

impl Draft {
    pub fn packet(&self) -> Vec<u8> {
        encode_all(self.numbers())
    }

    pub fn numbers(&self) -> Vec<u32> {
        let mut numbers = vec![1, self.shapes.len() as u32];
        self.shapes.iter().for_each(|shape| put_shape(shape, &mut numbers));
        numbers.push(self.contexts.len() as u32);
        self.contexts.iter().for_each(|context| put_context(context, &mut numbers));
        numbers.push(self.items.len() as u32);
        numbers.extend(self.items.iter().flat_map(|item| item.numbers()));
        numbers
    }

    /// The walk before each item and behind the last. The draft must be accepted.
    pub fn walks(&self) -> Vec<Walk<'_>> {
        let mut walk = Walk::new(&self.shapes, &self.contexts);
        let mut walks = vec![walk];
        for (place, &item) in self.items.iter().enumerate() {
            let step = walk.step(item);
            assert_eq!(step, Ok(()), "item {place} of {self:?}");
            walks.push(walk);
        }
        assert_eq!(walk.end(), Ok(()), "the end of {self:?}");
        walks
    }

    pub fn assert_accepted(&self) {
        self.walks();
    }

    /// The same listing with other numbers for its labels, by their old ones.
    pub fn renamed(&self, names: &[u8]) -> Self {
        let name = |label: u8| names[usize::from(label)];
        let mut contexts = self.contexts.clone();
        for (context, label) in self.contexts.iter().zip(names) {
            let stack: Vec<u8> = context.stack.labels().map(name).collect();
            let stack = Stack::of(stack.into_iter());
            contexts[usize::from(*label)] = Context { stack, ..*context };
        }
        let items = self.items.iter().map(|&item| renamed_item(item, name)).collect();
        Draft { shapes: self.shapes.clone(), contexts, items }
    }
}

fn put_shape(shape: &Types, numbers: &mut Vec<u32>) {
    let fields = fields(shape);
    numbers.push(fields.len() as u32);
    numbers.extend(fields.iter().flat_map(|field| [field.kind(), field.level()].map(u32::from)));
}

fn put_context(context: &Context, numbers: &mut Vec<u32>) {
    numbers.extend([u32::from(context.pc), context.stack.depth() as u32]);
    numbers.extend(context.stack.labels().map(u32::from));
    let listed = (1..16).filter(|&register| context.types[register].is_some());
    numbers.push(listed.clone().count() as u32);
    for register in listed {
        let found = context.types[register];
        numbers.extend([register as u8, found.kind(), found.level()].map(u32::from));
    }
}

fn renamed_item(item: Item, name: impl Fn(u8) -> u8) -> Item {
    match item {
        Item::Jmp(label) => Item::Jmp(name(label)),
        Item::Bnz { rs, label } => Item::Bnz { rs, label: name(label) },
        Item::Cpush(label) => Item::Cpush(name(label)),
        Item::Cjmp(label) => Item::Cjmp(name(label)),
        Item::Label(label) => Item::Label(name(label)),
        _ => item,
    }
}
