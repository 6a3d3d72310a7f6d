//! Types: a kind and a level, of a register or of a field.

/// A type, or none: so a context has it for a register that it does not list, and
/// a shape for a field that it does not have.
#[derive(Clone, Copy, Debug, PartialEq, Eq)]
pub struct Type(u16);

/// By the register's index, or by the field's.
pub type Types = [Type; 16];

/// A bit that every type but none has; below it the kind, and the level last.
const SOME: u16 = 1 << 15;
const KIND_PLACE: u32 = 8;

impl Type {
    pub const NONE: Type = Type(0);
    /// r0's, in every context.
    pub const R0: Type = Type::new(0, 0);

    /// Kinds are at most 64.
    #[inline]
    pub const fn new(kind: u8, level: u8) -> Self {
        Type(SOME | (kind as u16) << KIND_PLACE | level as u16)
    }

    #[inline]
    pub fn is_some(self) -> bool {
        self != Type::NONE
    }

    #[inline]
    pub fn kind(self) -> u8 {
        ((self.0 & !SOME) >> KIND_PLACE) as u8
    }

    #[inline]
    pub fn level(self) -> u8 {
        self.0 as u8
    }

    #[inline]
    pub fn is_pointer(self) -> bool {
        self.kind() != 0
    }

    /// The shape that a pointer points to.
    #[inline]
    pub fn shape(self) -> Option<usize> {
        usize::from(self.kind()).checked_sub(1)
    }
}

/// The fields that a shape has.
#[inline]
pub fn fields(shape: &Types) -> &[Type] {
    let count = shape.iter().take_while(|field| field.is_some()).count();
    &shape[..count]
}

/// One level is at or below another.
#[inline]
pub fn at_or_below(lower: u8, upper: u8) -> bool {
    lower & !upper == 0
}

/// Each register that the target lists is listed now with equal kind and level.
#[inline]
pub fn meets(now: &Types, target: &Types) -> bool {
    let pairs = now.iter().zip(target);
    pairs.fold(true, |met, (now, wanted)| met & (now == wanted || *wanted == Type::NONE))
}
