//! Rule 5: descriptors and their chain.

use super::image::{Image, FLAGS, RESERVED, SIZE, TOP};
use super::{Case, FF4, FF8};

/// Changes the image as the clause asks.
pub fn damage(image: &mut Image, case: Case) {
    match case.clause {
        0..=9 => form(image, case),
        _ => chain(image, case),
    }
}

/// The fields of one descriptor.
fn form(image: &mut Image, case: Case) {
    let z = image.z();
    let reserved = image.reserved(2);
    match case.clause {
        0 => {
            let k = any_spare(image);
            image.field(k, RESERVED, image.not_zero(case));
        }
        1 => {
            let k = any_spare(image);
            let flags = image.wrong_flags(case);
            image.field(k, FLAGS, flags);
        }
        2 => {
            let owner = 1 + image.plan.dice.below(image.plan.m + 1) as usize;
            let flags = image.wrong_flags(case);
            image.field(image.index(owner), FLAGS, flags);
        }
        3 => {
            let owner = 1 + image.plan.dice.below(2) as usize;
            let wrong = image.wrong_reserved(case, image.reserved(owner));
            image.field(image.index(owner), RESERVED, wrong);
        }
        4 => image.field(image.index(4), RESERVED, image.not_zero(case)),
        5 => image.field(image.index(2), SIZE, reserved + 1),
        6 => image.field(image.index(2), SIZE, reserved - z),
        7 => {
            let size = FF8 - image.plan.dice.below(z - 1);
            image.field(image.index(4), SIZE, size);
        }
        8 => {
            let top = case.of(&[1, FF4, 1 << 32, 1 << 63, FF8 - 1]);
            image.field(image.index(4), TOP, top);
        }
        _ => {
            let owner = 1 + image.plan.dice.below(2) as usize;
            let reserved = (image.count + 1) * z;
            image.field(image.index(owner), RESERVED, reserved);
            let size = reserved - case.of(&[0, z - 1]);
            image.field(image.index(owner), SIZE, size);
        }
    }
}

fn any_spare(image: &mut Image) -> u64 {
    let j = image.plan.dice.below(image.plan.v);
    image.plan.spare(j)
}

/// The chain of free descriptors.
fn chain(image: &mut Image, case: Case) {
    let v = image.plan.v;
    let beyond = 8 + 25 * image.plan.n();
    let spare = |image: &Image, j: u64| image.plan.spare(j);
    let offset = |image: &Image, j: u64| image.plan.spare_offset(j);
    match case.clause {
        10 => {
            let wrong = wrong_offset(case, offset(image, 0), beyond);
            image.first_offset(wrong);
        }
        11 => {
            let wrong = case.of(&[beyond, 0, FF4, FF8 - 1, offset(image, 0) + 1]);
            image.field(spare(image, v - 1), SIZE, wrong);
        }
        12 => {
            let wrong = wrong_offset(case, offset(image, 1), beyond);
            image.field(spare(image, 0), SIZE, wrong);
        }
        13 | 14 => image.first_offset(8 + 25 * image.index(3)),
        15 => {
            let j = image.plan.dice.below(v);
            image.field(spare(image, v - 1), SIZE, offset(image, j));
        }
        16 => {
            let j = image.plan.dice.below(v);
            image.field(spare(image, j), SIZE, offset(image, j));
        }
        17 => image.first_offset(offset(image, 1)),
        18 => {
            let next = case.of(&[offset(image, 2), FF8]);
            image.field(spare(image, 0), SIZE, next);
        }
        19 => image.first_offset(FF8),
        20 => {
            let owner = 2 + image.plan.dice.below(image.plan.m) as usize;
            make_free(image, image.index(owner), FF8);
        }
        21 => {
            make_free(image, 0, offset(image, 0));
            image.first_offset(8);
        }
        _ => image.first_offset(case.of(&[FF4, 0, beyond, FF8 - 1])),
    }
}

fn wrong_offset(case: Case, x: u64, beyond: u64) -> u64 {
    let far = [x + (1 << 32), FF4, x + (1 << 63), FF8 - 1];
    let near = [x + 1, x - 1, 0, beyond];
    case.of(&[near, far].concat())
}

fn make_free(image: &mut Image, k: u64, next: u64) {
    image.field(k, SIZE, next);
    image.field(k, TOP, FF8);
    image.field(k, RESERVED, 0);
}
