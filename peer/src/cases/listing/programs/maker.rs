//! Writes a program item by item, and knows the context at each place.

use super::super::draft::Draft;
use super::{start, Style};
use crate::listing::context::{Context, Stack};
use crate::listing::item::Item;
use crate::listing::types::{at_or_below, meets, Type, Types};
use crate::random::Random;

pub struct Maker<'a> {
    pub random: &'a mut Random,
    pub style: Style,
    pub levels: Vec<u8>,
    pub draft: Draft,
    /// The context here, of an open block.
    pub now: Context,
    /// Registers that keep their kind and are not dropped, a bit for each: loops
    /// about this place list them.
    pub held: u16,
    /// The register that every context lists, if there is one.
    sink: Option<usize>,
}

impl<'a> Maker<'a> {
    pub fn new(random: &'a mut Random, style: Style) -> Self {
        let levels = start::any_levels(random);
        let shapes = start::any_shapes(random, &levels);
        let draft = Draft { shapes, contexts: vec![], items: vec![] };
        let sink = style.sink.then(|| random.between(1, 15) as usize);
        let now = Context { pc: 0, stack: Stack::EMPTY, types: [Type::NONE; 16] };
        Maker { random, style, levels, draft, now, held: 0, sink }
    }

    /// A first block, what follows from it, an end, and sometimes stray blocks.
    pub fn program(mut self) -> Draft {
        self.now.pc = if self.random.once_in(4) { self.random.pick(&self.levels) } else { 0 };
        self.now.types = self.fresh_types();
        self.held = self.sink_bit();
        let first = self.label_here();
        self.place(first);
        let room = self.style.items - 2;
        let tail = if self.random.once_in(5) { self.share(room) } else { 0 };
        self.body(room - tail);
        self.end();
        while self.room_for_stray(self.style.items) {
            self.stray(self.style.items - self.draft.items.len());
        }
        self.draft
    }

    /// A halt, or a jump back to where the context may be met.
    fn end(&mut self) {
        let now = self.now;
        let back = |context: &Context| {
            let met = meets(&now.types, &context.types) && at_or_below(now.pc, context.pc);
            met && now.stack == context.stack
        };
        let labels = 0..self.draft.contexts.len();
        let backs: Vec<usize> = labels.filter(|&label| back(&self.draft.contexts[label])).collect();
        if !backs.is_empty() && self.random.once_in(4) {
            let label = self.random.pick(&backs);
            self.emit(Item::Jmp(label as u8));
        } else {
            self.emit(Item::Halt);
        }
    }

    pub fn fresh_types(&mut self) -> Types {
        let shapes = self.draft.shapes.len() as u32;
        let mut types = start::any_types(self.random, &self.levels, shapes);
        if let Some(sink) = self.sink {
            types[sink] = Type::new(0, 255);
        }
        types
    }

    pub fn sink_bit(&self) -> u16 {
        self.sink.map_or(0, |sink| 1 << sink)
    }

    pub fn emit(&mut self, item: Item) {
        self.draft.items.push(item);
    }

    pub fn labels_left(&self) -> usize {
        self.style.labels - self.draft.contexts.len()
    }

    /// A part of the room, small ones often.
    pub fn share(&mut self, room: usize) -> usize {
        let most = if self.random.once_in(3) { room.min(6) } else { room };
        self.random.between(0, most as u32) as usize
    }

    /// A new label with the context here.
    pub fn label_here(&mut self) -> u8 {
        self.draft.contexts.push(self.now);
        self.draft.contexts.len() as u8 - 1
    }

    /// A new label with the stack here, this pc level, and some registers dropped.
    pub fn label_ahead(&mut self, pc: u8) -> u8 {
        let mut context = Context { pc, ..self.now };
        for register in 1..16 {
            let free = !is_in(register, self.held);
            if free && self.random.once_in(self.style.dropped_once_in) {
                context.types[register] = Type::NONE;
            }
        }
        self.draft.contexts.push(context);
        self.draft.contexts.len() as u8 - 1
    }

    /// The label's list loses what is not met here. It is not placed yet, or
    /// it loses nothing.
    fn aim(&mut self, label: u8) {
        let target = &mut self.draft.contexts[usize::from(label)];
        for (wanted, now) in target.types.iter_mut().zip(&self.now.types) {
            if wanted != now {
                *wanted = Type::NONE;
            }
        }
    }

    /// As `aim`, for a jump that has the level rule.
    fn aim_level(&mut self, label: u8) {
        self.aim(label);
        self.draft.contexts[usize::from(label)].pc |= self.now.pc;
    }

    pub fn jmp(&mut self, label: u8) {
        self.aim_level(label);
        self.emit(Item::Jmp(label));
    }

    pub fn bnz(&mut self, rs: u8, label: u8) {
        self.now.pc |= self.now.types[usize::from(rs)].level();
        self.aim_level(label);
        self.emit(Item::Bnz { rs, label });
    }

    pub fn cpush(&mut self, label: u8) {
        self.emit(Item::Cpush(label));
        self.now.stack = self.now.stack.push(label);
    }

    pub fn cjmp(&mut self, label: u8) {
        self.aim(label);
        self.emit(Item::Cjmp(label));
    }

    /// Goes on at the label, into which no open block falls.
    pub fn place(&mut self, label: u8) {
        self.emit(Item::Label(label));
        self.now = self.draft.contexts[usize::from(label)];
    }

    pub fn fall(&mut self, label: u8) {
        self.aim_level(label);
        self.place(label);
    }

    /// Any of the registers, r0 too, whose type will do.
    pub fn any_register(&mut self, will_do: impl Fn(usize, Type) -> bool) -> Option<u8> {
        let types = self.now.types;
        let such =
            |&register: &usize| types[register].is_some() && will_do(register, types[register]);
        let count = (0..16).filter(such).count() as u32;
        if count == 0 {
            return None;
        }
        (0..16).filter(such).nth(self.random.below(count) as usize).map(|register| register as u8)
    }
}

/// Whether the register is in a set that has a bit for each.
pub fn is_in(register: usize, set: u16) -> bool {
    set >> register & 1 == 1
}
