//! That each clause of docs/CASES.md is broken alone.
//!
//! The check stops at the first thing it finds. Here each clause of the layout page is asked by itself, as far as it can
//! be asked, and what is broken must be what the page lists for the card's name: the first one always, no other one ever.

use second::bytes::{get_u16, get_u32, get_u64};
use second::cases::names::NAMES;
use second::cases::{Case, FF4, FF8};
use std::collections::{BTreeMap, BTreeSet};

type Clauses = BTreeSet<u32>;

/// A card that rules 1 to 3 let through.
struct Card<'a> {
    bytes: &'a [u8],
    z: u64,
    count: u64,
}

/// What a walk over pyramids meets: how often each block, and slots out of range with the block they stand in.
#[derive(Default)]
struct Walk {
    met: BTreeMap<u64, u64>,
    out: Vec<Option<u64>>,
}

impl Walk {
    fn twice(&self) -> bool {
        self.met.values().any(|&times| times > 1)
    }

    /// A slot is asked about only in a block that is what it is taken for: one that is met once.
    fn out_of_range(&self) -> bool {
        let once = |block: &u64| self.met.get(block) == Some(&1);
        self.out.iter().any(|at| at.as_ref().is_none_or(once))
    }
}

/// The 25 bytes of a descriptor.
struct Desc {
    size: u64,
    top: u64,
    reserved: u64,
    flags: u8,
}

impl Desc {
    fn of(bytes: &[u8]) -> Desc {
        Desc {
            size: get_u64(bytes, 0),
            top: get_u64(bytes, 8),
            reserved: get_u64(bytes, 16),
            flags: bytes[24],
        }
    }

    fn is_free(&self) -> bool {
        self.top == FF8
    }
}

impl<'a> Card<'a> {
    fn of(bytes: &'a [u8]) -> Card<'a> {
        let z = 1 << bytes[25];
        let count = (bytes.len() as u64 - 87) / z;
        Card { bytes, z, count }
    }

    fn start(&self, block: u64) -> usize {
        (87 + block * self.z) as usize
    }

    fn own(&self) -> Desc {
        Desc::of(&self.bytes[45..70])
    }

    fn d(&self, size: u64) -> u64 {
        size.div_ceil(self.z)
    }

    fn reserved_right(&self, desc: &Desc) -> bool {
        u128::from(desc.reserved) == u128::from(self.d(desc.size)) * u128::from(self.z)
    }

    fn rows(&self, d: u64) -> Vec<u64> {
        let mut rows = vec![d];
        while rows[rows.len() - 1] > 1 {
            rows.push(rows[rows.len() - 1].div_ceil(self.z / 4));
        }
        rows
    }

    /// Follows a pyramid from its top: the rows' blocks, or none where an index is out of range or a row above is.
    fn walk(&self, desc: &Desc, walk: &mut Walk) -> Vec<u64> {
        let d = self.d(desc.size);
        let mut row = vec![(None, desc.top)];
        row.truncate(d as usize);
        for (height, _) in self.rows(d).iter().enumerate().rev() {
            let below = if height > 0 {
                self.rows(d)[height - 1]
            } else {
                0
            };
            let mut next = Vec::new();
            for (j, &(at, block)) in row.iter().enumerate() {
                if block >= self.count {
                    walk.out.push(at);
                    continue;
                }
                *walk.met.entry(block).or_default() += 1;
                let fan = self.z / 4;
                let slots = below.saturating_sub(j as u64 * fan).min(fan);
                let slot = |i: u64| get_u32(self.bytes, self.start(block) + 4 * i as usize);
                next.extend((0..slots).map(|i| (Some(block), u64::from(slot(i)))));
            }
            if height == 0 {
                return row.iter().map(|&(_, block)| block).collect();
            }
            row = next;
        }
        Vec::new()
    }

    fn contents(&self, desc: &Desc) -> Vec<u8> {
        let data = self.walk(desc, &mut Walk::default());
        let block = |&b: &u64| &self.bytes[self.start(b)..self.start(b + 1)];
        let mut all: Vec<u8> = data.iter().flat_map(block).copied().collect();
        all.truncate(desc.size as usize);
        all
    }

    fn table(&self) -> (u64, Vec<Desc>) {
        let table = self.contents(&self.own());
        (
            get_u64(&table, 0),
            table[8..].chunks(25).map(Desc::of).collect(),
        )
    }
}

fn collect(tests: &[(u32, bool)]) -> Clauses {
    let broken = tests.iter().filter(|(_, broken)| *broken);
    broken.map(|&(clause, _)| clause).collect()
}

fn rule_3(bytes: &[u8]) -> Clauses {
    let s = bytes[25];
    let rest = bytes.len() as u64 - 87;
    let asked = s <= 13; // a larger block is more than a card
    let count = if asked { rest >> s } else { 1 };
    let whole = !asked || count << s == rest;
    let right = whole && (1..=4096).contains(&count);
    collect(&[(79, !(6..=12).contains(&s)), (80, !right)])
}

/// Where rows are longer than the card has blocks, that alone is told.
fn too_many(card: &Card, d: u64) -> bool {
    d <= card.count && card.rows(d).iter().sum::<u64>() > card.count
}

fn rule_4(card: &Card) -> Clauses {
    let own = card.own();
    let n = own.size.wrapping_sub(8) / 25;
    let form = own.size >= 8 && (own.size - 8) % 25 == 0 && (1..=256).contains(&n);
    let right = card.reserved_right(&own);
    let above = right && card.d(own.size) > card.count;
    let many = right && too_many(card, card.d(own.size));
    let mut walk = Walk::default();
    if right && !above && !many {
        card.walk(&own, &mut walk);
    }
    collect(&[
        (81, !form),
        (82, own.flags != 0),
        (83, !right),
        (84, above),
        (85, walk.out_of_range()),
        (86, walk.twice()),
        (100, many),
    ])
}

fn rule_5(card: &Card) -> Clauses {
    let (first, table) = card.table();
    let free = |d: &&Desc| d.is_free();
    let live = |d: &&Desc| !d.is_free();
    let right = |d: &Desc| card.reserved_right(d);
    let live_any = |test: &dyn Fn(&Desc) -> bool| table.iter().filter(live).any(test);
    let mut clauses = collect(&[
        (
            87,
            table
                .iter()
                .filter(free)
                .any(|d| d.reserved != 0 || d.flags != 0),
        ),
        (88, live_any(&|d| d.flags != 0)),
        (89, live_any(&|d| !right(d))),
        (90, live_any(&|d| right(d) && d.size == 0 && d.top != 0)),
        (91, live_any(&|d| right(d) && card.d(d.size) > card.count)),
        (97, table[0].is_free()),
    ]);
    let mut met = BTreeSet::new();
    let mut offset = first;
    loop {
        if offset == FF8 || met.contains(&offset) {
            clauses.extend(
                met.contains(&offset)
                    .then_some([94, 96])
                    .into_iter()
                    .flatten(),
            );
            let all = (0..table.len() as u64).filter(|&k| table[k as usize].is_free());
            let missed = all.into_iter().any(|k| !met.contains(&(8 + 25 * k)));
            clauses.extend(missed.then_some(95));
            return clauses;
        }
        let k = offset.wrapping_sub(8) / 25;
        if offset < 8 || (offset - 8) % 25 != 0 || k >= table.len() as u64 {
            clauses.insert(92); // nothing tells how the chain goes on
            return clauses;
        }
        met.insert(offset);
        clauses.extend((!table[k as usize].is_free()).then_some(93));
        offset = table[k as usize].size;
    }
}

fn rule_6(card: &Card) -> Clauses {
    let mut walk = Walk::default();
    card.walk(&card.own(), &mut walk);
    let (_, table) = card.table();
    let mut many = false;
    for stream in table.iter().filter(|d| !d.is_free()) {
        match too_many(card, card.d(stream.size)) {
            true => many = true,
            false => drop(card.walk(stream, &mut walk)),
        }
    }
    collect(&[(98, walk.out_of_range()), (99, walk.twice()), (100, many)])
}

fn rule_7(card: &Card) -> Clauses {
    let mut used = Walk::default();
    card.walk(&card.own(), &mut used);
    let (_, table) = card.table();
    let live = table.iter().filter(|d| !d.is_free());
    live.for_each(|stream| drop(card.walk(stream, &mut used)));
    let mut clauses = Clauses::new();
    let mut met = BTreeSet::new();
    let mut block = get_u64(card.bytes, 27);
    let mut from_used = false;
    loop {
        if from_used && (block != FF8 && block >= card.count || met.contains(&block)) {
            return clauses; // what a used block begins with is no link
        }
        if block == FF8 || met.contains(&block) {
            clauses.extend(
                met.contains(&block)
                    .then_some([102, 103])
                    .into_iter()
                    .flatten(),
            );
            let missed = |b: u64| !met.contains(&b) && !used.met.contains_key(&b);
            clauses.extend((0..card.count).any(missed).then_some(105));
            return clauses;
        }
        if block >= card.count {
            clauses.insert(101);
            return clauses;
        }
        met.insert(block);
        from_used = used.met.contains_key(&block);
        clauses.extend(from_used.then_some(104));
        let link = u64::from(get_u32(card.bytes, card.start(block)));
        block = if link == FF4 { FF8 } else { link };
    }
}

fn rule_8(card: &Card) -> Clauses {
    let (_, table) = card.table();
    let root = card.contents(&table[0]);
    let mut names: Vec<&[u8]> = Vec::new();
    let mut indices: Vec<u64> = Vec::new();
    let mut rest = &root[..];
    let mut cut = false;
    while !rest.is_empty() && !cut {
        let length = if rest.len() < 6 {
            0
        } else {
            usize::from(get_u16(rest, 4))
        };
        cut = rest.len() < 6 + length;
        if !cut {
            indices.push(get_u32(rest, 0).into());
            names.push(&rest[6..6 + length]);
            rest = &rest[6 + length..];
        }
    }
    let good = |name: &&[u8]| (1..=64).contains(&name.len()) && !name.contains(&47);
    let live = |k: u64| table.get(k as usize).is_some_and(|d| !d.is_free());
    let once = |count: usize, all: usize| count != all;
    let others = 1..table.len() as u64;
    collect(&[
        (106, cut),
        (107, !cut && !names.iter().all(good)),
        (
            108,
            once(names.iter().collect::<BTreeSet<_>>().len(), names.len()),
        ),
        (
            109,
            once(indices.iter().collect::<BTreeSet<_>>().len(), indices.len()),
        ),
        (110, indices.iter().any(|&k| !live(k))),
        (111, indices.contains(&0)),
        (
            112,
            !cut && others.into_iter().any(|k| live(k) && !indices.contains(&k)),
        ),
    ])
}

fn broken(case: Case) -> Clauses {
    let bytes = case.card();
    match case.rule {
        3 => rule_3(&bytes),
        4 => rule_4(&Card::of(&bytes)),
        5 => rule_5(&Card::of(&bytes)),
        6 => rule_6(&Card::of(&bytes)),
        7 => rule_7(&Card::of(&bytes)),
        _ => rule_8(&Card::of(&bytes)),
    }
}

/// The clauses that the page lists for the names of rules 4 to 8, rule by rule.
fn listed() -> BTreeMap<(usize, String), Vec<u32>> {
    let path = concat!(env!("CARGO_MANIFEST_DIR"), "/../docs/CASES.md");
    let page = std::fs::read_to_string(path).expect("docs/CASES.md");
    let mut out = BTreeMap::new();
    let mut rule = 0;
    // The tables after the last rule's are those of the runs.
    for line in page.lines().take_while(|&line| line != "# Runs of calls") {
        if let Some(rest) = line.strip_prefix("Rule ") {
            rule = rest[..1].parse().expect("a rule");
        }
        let cells: Vec<&str> = line.split('|').map(str::trim).collect();
        if rule > 3 && cells.len() > 4 && cells[1].parse::<usize>().is_ok() {
            let number = |word: &str| word[1..].parse().expect("a clause");
            let clauses = cells[3].split(", ").map(number).collect();
            out.insert((rule, cells[2].to_string()), clauses);
        }
    }
    out
}

#[test]
fn each_clause_is_broken_alone() {
    let listed = listed();
    for case in Case::all().filter(|case| case.rule >= 3) {
        let expected = match case.rule {
            3 if case.clause <= 3 => vec![79],
            3 => vec![80],
            _ => listed[&(case.rule, case.name().to_string())].clone(),
        };
        let broken = broken(case);
        assert!(
            broken.contains(&expected[0]) && broken.iter().all(|clause| expected.contains(clause)),
            "{} {}: {broken:?}, and the page lists {expected:?}",
            case.name(),
            case.i
        );
    }
}

#[test]
fn every_clause_of_rules_3_to_8_is_broken_ten_times_alone() {
    let mut times: BTreeMap<u32, u32> = BTreeMap::new();
    for case in Case::all().filter(|case| case.rule >= 3) {
        let broken = broken(case);
        let with = |clause: &u32| broken.len() == 1 || matches!(clause, 94 | 96 | 102 | 103);
        let alone = broken.iter().filter(|clause| with(clause));
        alone.for_each(|&clause| *times.entry(clause).or_default() += 1);
    }
    for clause in 79..=112 {
        let found = times.get(&clause).copied().unwrap_or(0);
        assert!(found >= 10, "L{clause} is broken alone {found} times");
    }
}

#[test]
fn sound_cards_break_nothing() {
    for case in Case::all().filter(|case| case.rule == 0) {
        let bytes = case.card();
        let card = Card::of(&bytes);
        let rules = [rule_4, rule_5, rule_6, rule_7, rule_8];
        let all: Vec<Clauses> = rules.iter().map(|rule| rule(&card)).collect();
        assert!(
            all.iter().all(Clauses::is_empty),
            "{} {}: {all:?}",
            case.name(),
            case.i
        );
    }
}

#[test]
fn the_page_and_the_program_have_the_same_names() {
    let names = |rule: usize| NAMES[rule].iter().map(move |name| (rule, name.to_string()));
    let program: BTreeSet<_> = (4..=8).flat_map(names).collect();
    let page: BTreeSet<_> = listed().into_keys().collect();
    assert_eq!(program, page);
}
