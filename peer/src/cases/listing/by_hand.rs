//! Packets whose numbers are written by hand.

use crate::packet::number::encode_all;

/// A shape has its fields' kinds and levels, without their count; labels and items
/// are as in the packet.
pub fn packet(shapes: &[&[u32]], labels: &[&[u32]], items: &[&[u32]]) -> Vec<u8> {
    let mut numbers = vec![1, shapes.len() as u32];
    for shape in shapes {
        numbers.push(shape.len() as u32 / 2);
        numbers.extend(*shape);
    }
    numbers.push(labels.len() as u32);
    numbers.extend(labels.concat());
    numbers.push(items.len() as u32);
    numbers.extend(items.concat());
    encode_all(numbers)
}
