//! A listing as data, from the numbers that the reader took: shapes, label
//! contexts and items.

pub mod context;
pub mod item;
pub mod types;

use context::{Context, Stack};
use item::{Item, Items};
use types::{Type, Types};

pub struct Listing<'a> {
    pub shapes: Vec<Types>,
    pub contexts: Vec<Context>,
    items: &'a [u32],
}

impl<'a> Listing<'a> {
    /// The numbers are a whole listing, as the reader takes it.
    pub fn of(numbers: &'a [u32]) -> Self {
        let mut rest = Rest { numbers };
        let _edition = rest.next();
        let shapes = (0..rest.next()).map(|_| rest.shape()).collect();
        let contexts = (0..rest.next()).map(|_| rest.context()).collect();
        let _item_count = rest.next();
        Listing { shapes, contexts, items: rest.numbers }
    }

    pub fn items(&self) -> Items<'a> {
        Items::new(self.items)
    }

    /// The first label's context: the label that item 0 places, if it is one.
    pub fn first(&self) -> Option<&Context> {
        match self.items().next() {
            Some(Item::Label(label)) => Some(&self.contexts[usize::from(label)]),
            _ => None,
        }
    }
}

/// The numbers that are not yet taken.
struct Rest<'a> {
    numbers: &'a [u32],
}

impl Rest<'_> {
    #[inline]
    fn next(&mut self) -> u32 {
        let (&number, rest) = self.numbers.split_first().expect("the listing is whole");
        self.numbers = rest;
        number
    }

    #[inline]
    fn next_type(&mut self) -> Type {
        let (kind, level) = (self.next(), self.next());
        Type::new(kind as u8, level as u8)
    }

    fn shape(&mut self) -> Types {
        let mut fields = [Type::NONE; 16];
        let count = self.next() as usize;
        for field in &mut fields[..count] {
            *field = self.next_type();
        }
        fields
    }

    fn context(&mut self) -> Context {
        let pc = self.next() as u8;
        let depth = self.next() as usize;
        let (stack, rest) = self.numbers.split_at(depth);
        let stack = Stack::of(stack.iter().map(|&label| label as u8));
        self.numbers = rest;
        let mut types = [Type::NONE; 16];
        types[0] = Type::R0;
        for _ in 0..self.next() {
            let register = self.next();
            types[register as usize] = self.next_type();
        }
        Context { pc, stack, types }
    }
}
