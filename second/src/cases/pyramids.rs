//! Rule 6: the streams' pyramids.

use super::image::{Image, RESERVED, SIZE, TOP};
use super::Case;

/// Changes the image as the clause asks.
pub fn damage(image: &mut Image, case: Case) {
    match case.clause {
        0 => {
            let owner = 1 + image.plan.dice.below(3) as usize;
            let wrong = case.of(&image.wrong_blocks(image.top(owner)));
            image.field(image.index(owner), TOP, wrong);
        }
        1 => image.out_of_range(case, 2),
        2 => image.deep_out_of_range(case, 2, 2 + case.i % 2),
        3 => image.twice(2),
        4 => image.in_data_row(2, image.top(2)),
        5 => image.deep_twice(2, 2 + case.i % 2),
        6 => top_of(image, 3, 2),
        7 => {
            let j = image.plan.dice.below(image.d(2));
            let block = image.any_block(1);
            image.put(image.slot(2, 0, j), 4, block);
        }
        8 => top_of(image, 3, 0),
        9 => top_of(image, 1, 0),
        _ => {
            let all = image.count * image.z();
            image.field(image.index(2), SIZE, all);
            image.field(image.index(2), RESERVED, all);
        }
    }
}

/// The top of one becomes a block of another.
fn top_of(image: &mut Image, owner: usize, other: usize) {
    let block = image.any_block(other);
    image.field(image.index(owner), TOP, block);
}
