//! Rule 4: the table's own descriptor, in the header, and its pyramid.

use super::image::Image;
use super::{Case, FF8};

/// Changes the image as the clause asks.
pub fn damage(image: &mut Image, case: Case) {
    let size = image.size(0);
    let reserved = image.reserved(0);
    let z = image.z();
    match case.clause {
        0 => image.put(45, 8, size + 1),
        1 => image.put(45, 8, size - 1),
        2 => {
            let more = 2 + image.plan.dice.below(22);
            image.put(45, 8, size + more);
        }
        3 => image.put(45, 8, size + case.of(&[1 << 32, 1 << 63])),
        4 => sized(image, 8, z),
        5 => sized(image, case.i % 8, if case.i % 8 == 0 { 0 } else { z }),
        6 => image.put(45, 8, 8 + 25 * 257),
        7 => {
            let n = 258 + image.plan.dice.below(60);
            image.put(45, 8, 8 + 25 * n);
        }
        8 => {
            let flags = image.wrong_flags(case);
            image.put(69, 1, flags);
        }
        9 => image.put(61, 8, image.wrong_reserved(case, reserved)),
        10 => {
            let n = (64 * image.count - 8) / 25 + 1;
            sized(image, 8 + 25 * n, 64 * (image.count + 1));
        }
        11 => {
            let n = (64 * image.count - 8) / 25;
            sized(image, 8 + 25 * n, 64 * image.count);
        }
        12 => {
            let mut wrong = image.wrong_blocks(image.top(0)).to_vec();
            wrong.push(FF8);
            image.put(53, 8, case.of(&wrong));
        }
        13 => image.out_of_range(case, 0),
        14 => image.deep_out_of_range(case, 0, 2),
        15 => image.twice(0),
        16 => image.in_data_row(0, image.top(0)),
        _ => image.deep_twice(0, 2),
    }
}

fn sized(image: &mut Image, size: u64, reserved: u64) {
    image.put(45, 8, size);
    image.put(61, 8, reserved);
}
