//! Rule 7: the free chain.

use super::image::{Image, RESERVED, SIZE, TOP};
use super::{Case, FF4, FF8};

/// Changes the image as the clause asks.
pub fn damage(image: &mut Image, case: Case) {
    let free = image.free().to_vec();
    match case.clause {
        1 => image.first_free(case.of(&[FF4, image.count, FF8 - 1, (1 << 63) - 1])),
        6..=11 => used(image, case, &free),
        16..=18 => let_go(image, case),
        _ => links(image, case, &free),
    }
}

/// Links and the first-free field.
fn links(image: &mut Image, case: Case, free: &[u64]) {
    let last = free[free.len() - 1];
    let dice = &mut image.plan.dice;
    match case.clause {
        0 => image.first_free(case.of(&image.wrong_blocks(free[0]))),
        2 => {
            let wrong = wrong_link(image, case, free[0]);
            image.link(last, wrong);
        }
        3 => {
            let wrong = wrong_link(image, case, free[1]);
            image.link(free[0], wrong);
        }
        4 => {
            let item = free[dice.below(free.len() as u64) as usize];
            image.link(last, item);
        }
        5 => {
            let item = free[dice.below(free.len() as u64) as usize];
            image.link(item, item);
        }
        12 => {
            let item = free[dice.below(free.len() as u64 - 1) as usize];
            image.link(item, FF4);
        }
        13 => image.first_free(FF8),
        14 => image.first_free(free[1]),
        _ => image.link(free[0], free[2]),
    }
}

fn wrong_link(image: &mut Image, case: Case, x: u64) -> u64 {
    match case.i % 5 {
        0 => image.count,
        1 => image.count + 1 + image.plan.dice.below(1000),
        2 => x + (1 << 31),
        3 => FF4 - 1,
        _ => x + 65536,
    }
}

/// Blocks in use that the chain meets.
fn used(image: &mut Image, case: Case, free: &[u64]) {
    let last = free[free.len() - 1];
    match case.clause {
        6 => {
            let b = image.any_data(2);
            image.link(last, b);
            image.link(b, FF4);
        }
        7 => {
            let b = image.any_data(2);
            image.first_free(b);
            image.link(b, free[0]);
        }
        8 => {
            let b = image.any_data(2);
            image.link(free[0], b);
            image.link(b, free[2]);
        }
        9 => image.link(last, image.top(2)),
        10 => {
            let b = image.any_block(0);
            image.link(last, b);
        }
        _ => {
            let b = image.any_block(1);
            image.link(last, b);
        }
    }
}

/// Blocks that nobody has.
fn let_go(image: &mut Image, case: Case) {
    let k = image.index(2);
    match case.clause {
        16 => {
            image.field(k, SIZE, 0);
            image.field(k, TOP, 0);
            image.field(k, RESERVED, 0);
        }
        17 => {
            let d = image.d(2);
            image.field(k, SIZE, (d - 1) * image.z());
            image.field(k, RESERVED, (d - 1) * image.z());
            if d == 2 {
                image.field(k, TOP, image.blocks(2)[0]);
            }
        }
        _ => image.length += image.z(),
    }
}
