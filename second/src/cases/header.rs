//! Rules 1 to 3: length, fixed values, s.

use super::image::Image;
use super::Case;

/// The fields of rule 2: place and width.
const FIELDS: [(u64, u64); 18] = [
    (0, 4),
    (4, 1),
    (5, 2),
    (7, 2),
    (9, 6),
    (15, 1),
    (16, 2),
    (18, 6),
    (24, 1),
    (26, 1),
    (35, 1),
    (36, 2),
    (38, 6),
    (44, 1),
    (70, 2),
    (72, 6),
    (78, 1),
    (79, 8),
];

/// Changes the image as the clause asks.
pub fn damage(image: &mut Image, case: Case) {
    match case.rule {
        1 => short(image, case),
        2 => fixed(image, case),
        _ => shape(image, case),
    }
}

fn short(image: &mut Image, case: Case) {
    image.length = match case.i % 4 {
        0 => 86,
        1 => image.plan.dice.below(86),
        2 => 0,
        _ => 1,
    };
}

fn fixed(image: &mut Image, case: Case) {
    let (place, width) = FIELDS[case.clause];
    let more = match case.i / width % 4 {
        0 => 1,
        1 => 255,
        2 => 128,
        _ => 1 + image.plan.dice.below(255) as u8,
    };
    let byte = &mut image.bytes[(place + case.i % width) as usize];
    *byte = byte.wrapping_add(more);
}

fn shape(image: &mut Image, case: Case) {
    let z = image.z();
    match case.clause {
        0 => image.bytes[25] = 5,
        1 => image.bytes[25] = image.plan.dice.below(5) as u8,
        2 => image.bytes[25] = 13,
        3 => image.bytes[25] = case.of(&[14, 38, 70, 134, 255]),
        4 => image.length = 87,
        5 => image.length = 88 + image.plan.dice.below(z - 1),
        6 => image.length += 1,
        7 => image.length -= 1,
        8 => image.length += 1 + image.plan.dice.below(z - 1),
        _ => image.length += z,
    }
}
