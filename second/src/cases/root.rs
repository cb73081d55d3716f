//! Rule 8: the root. Most of its clauses change the plan, so that all else stays right.

use super::image::{Image, SIZE};
use super::plan::Plan;
use super::{Case, FF4};

/// Changes the plan as the clause asks.
pub fn change(plan: &mut Plan, case: Case) {
    match case.clause {
        5..=7 => name_length(plan, case),
        9 => equal_lengths(plan, case),
        10..=13 => {
            plan.indices[plan.m as usize] = extra_index(plan, case);
            plan.entries = plan.m + 1;
        }
        14..=17 => other_index(plan, case),
        18 => plan.entries = plan.m - 1,
        19 => plan.entries = 0,
        _ => {}
    }
}

fn any_entry(plan: &mut Plan) -> usize {
    plan.dice.below(plan.entries) as usize
}

fn name_length(plan: &mut Plan, case: Case) {
    let x = any_entry(plan);
    plan.names[x] = match (case.clause, case.i % 5) {
        (5, _) => 0,
        (6, _) => 65,
        (_, 4) => 257 + plan.dice.below(64),
        (_, which) => [66, 128, 255, 256][which as usize],
    };
}

fn equal_lengths(plan: &mut Plan, case: Case) {
    let x = any_entry(plan);
    let m = plan.m as usize;
    let y = (x + 1 + plan.dice.below(m as u64 - 1) as usize) % m;
    plan.names[x] = case.of(&[plan.names[x], 1, 64]);
    plan.names[y] = plan.names[x];
    plan.equal = Some((x as u64, y as u64));
}

fn extra_index(plan: &mut Plan, case: Case) -> u64 {
    match case.clause {
        10 => plan.order[1 + plan.dice.below(plan.m) as usize],
        11 => any_spare(plan),
        12 => beyond(plan, case, plan.order[1]),
        _ => 0,
    }
}

fn other_index(plan: &mut Plan, case: Case) {
    let x = any_entry(plan);
    plan.indices[x] = match case.clause {
        14 => plan.indices[(x + 1) % plan.m as usize],
        15 => any_spare(plan),
        16 => beyond(plan, case, plan.indices[x]),
        _ => 0,
    };
}

fn any_spare(plan: &mut Plan) -> u64 {
    let j = plan.dice.below(plan.v);
    plan.spare(j)
}

/// An index beyond the table.
fn beyond(plan: &mut Plan, case: Case, x: u64) -> u64 {
    match case.i % 5 {
        0 => plan.n(),
        1 => plan.n() + 1 + plan.dice.below(1000),
        2 => x + (1 << 31),
        3 => FF4,
        _ => x + 65536,
    }
}

/// Changes the image as the clause asks.
pub fn damage(image: &mut Image, case: Case) {
    match case.clause {
        0..=2 => last_length(image, case),
        3 => {
            let less = 1 + image.plan.dice.below(5);
            image.field(0, SIZE, image.size(1) - less);
        }
        4 => {
            let more = 1 + image.plan.dice.below(5);
            image.field(0, SIZE, image.size(1) + more);
        }
        8 => slash(image, case),
        9 => same_name(image),
        _ => {}
    }
}

fn last_length(image: &mut Image, case: Case) {
    let last = image.plan.m - 1;
    let length = image.plan.names[last as usize];
    let wrong = match case.clause {
        0 => length + 1 + image.plan.dice.below(5),
        1 => case.of(&[65535, length + 256, length + 32768]),
        _ => length - 1 - image.plan.dice.below(5),
    };
    image.put_in(1, image.entry(last) + 4, 2, wrong);
}

fn slash(image: &mut Image, case: Case) {
    let x = any_entry(&mut image.plan);
    let length = image.plan.names[x];
    let place = match case.i % 3 {
        0 => 0,
        1 => length - 1,
        _ => image.plan.dice.below(length),
    };
    image.put_in(1, image.entry(x as u64) + 6 + place, 1, 47);
}

fn same_name(image: &mut Image) {
    let Some((x, y)) = image.plan.equal else {
        return;
    };
    for i in 0..image.plan.names[x as usize] {
        let byte = image.bytes[image.spot(1, image.entry(x) + 6 + i)];
        image.put_in(1, image.entry(y) + 6 + i, 1, byte.into());
    }
}
