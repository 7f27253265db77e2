//! Sheets: accepted ones of all sizes and kinds, each limit of document 01, and damaged ones.

use crate::damage;
use crate::support::outcome::{accepted, refused, Outcome, SHEET};
use crate::support::random::Random;
use crate::support::sheets::{
    counted, random_entry, random_number, random_sheet, random_steps, sheet_bytes, step, Entry,
    Sheet,
};
use crate::support::versions::{all_labels, step_width, VERSIONS};
use crate::support::{changed, set_length};
use crate::tally::Tally;

const MOST_ENTRIES: usize = 16_385;
const MOST_STEPS: usize = 60;

pub fn all(tally: &mut Tally) {
    let random = &mut Random::new(2);
    by_hand(tally);
    for version in VERSIONS {
        sizes(tally, random, version);
        longest(tally, random, version);
        limits(tally, random, version);
        numbers(tally, random, version);
        second_entries(tally, version);
        small(tally, random, version);
        damage::past_the_length_field(tally, &example().bytes(version));
    }
    faulty_entries(tally, random);
    likely_bytes(tally, random);
    damage::tiny(tally, random);
    damage::headers(
        tally,
        &[0, 1, 4, 5, 255],
        &[0, 1, 2, 3, 16_385, 16_386],
        &[1, 0, 3, 1, 0, 0, 2, 4, 0],
    );
}

fn refusal(number: u8) -> Outcome {
    refused(SHEET, number)
}

/// "differ: stay, step 1", as entry 1.
fn example() -> Sheet {
    Sheet {
        bound: 1,
        entries: vec![Entry::True, Entry::Differ(vec![], vec![step(1, 0)])],
    }
}

/// Answers found by hand: one input at least for each refusal, and two refusals at once.
fn by_hand(tally: &mut Tally) {
    // The example in version 1 and in version 2: entry 1 is from byte 10 on, its step from byte 14 on.
    let narrow = [0, 0, 0, 17, 1, 1, 0, 2, 1, 0, 6, 6, 0, 1, 1, 0, 0];
    let wide = [0, 0, 0, 18, 2, 1, 0, 2, 1, 0, 7, 6, 0, 1, 0, 1, 0, 0];
    for sheet in [&narrow[..], &wide] {
        faults_by_hand(tally, sheet);
        bodies_by_hand(tally, sheet[4]);
    }
    // Read in the other version, the body has not the size required, if there are steps.
    tally.expect(&changed(&narrow, &[(4, 2)]), refusal(14));
    tally.expect(&changed(&wide, &[(4, 1)]), refusal(14));
    tally.expect(&[0, 0, 0, 10, 1, 4, 0, 1, 1, 0], accepted(1, 4));
    tally.expect(&[0, 0, 0, 10, 2, 4, 0, 1, 1, 0], accepted(1, 4));
    tally.expect(&[], refusal(1));
}

/// Changes of the example's sheet.
fn faults_by_hand(tally: &mut Tally, sheet: &[u8]) {
    let (length, last) = (sheet.len() as u8, sheet.len() - 1);
    let count = sheet[10];
    let changed = |changes: &[(usize, u8)]| changed(sheet, changes);
    tally.expect(sheet, accepted(2, 1));
    tally.expect(&example().bytes(sheet[4]), accepted(2, 1));
    tally.expect(&sheet[..7], refusal(1));
    tally.expect(&sheet[..8], refusal(2));
    tally.expect(&changed(&[(3, length - 1)]), refusal(2));
    tally.expect(&changed(&[(0, 1)]), refusal(2));
    tally.expect(&changed(&[(4, 0)]), refusal(3));
    tally.expect(&changed(&[(4, 3), (5, 5)]), refusal(3));
    tally.expect(&changed(&[(4, 255)]), refusal(3));
    tally.expect(&changed(&[(5, 5)]), refusal(8));
    tally.expect(&changed(&[(7, 0)]), refusal(8));
    tally.expect(&changed(&[(6, 64)]), refusal(8)); // 16,386 entries
    tally.expect(&changed(&[(5, 4)]), accepted(2, 4));
    tally.expect(&changed(&[(7, 3)]), refusal(9)); // no count byte of entry 2
    tally.expect(&changed(&[(7, 1)]), refusal(9)); // bytes left over
    tally.expect(&changed(&[(8, 0)]), refusal(9));
    tally.expect(&changed(&[(10, count + 1)]), refusal(9));
    tally.expect(&changed(&[(10, 255), (11, 9)]), refusal(9));
    tally.expect(&changed(&[(10, count - 1)]), refusal(14));
    tally.expect(&changed(&[(9, 7)]), refusal(10)); // before 13
    tally.expect(&changed(&[(11, 7)]), refusal(10));
    tally.expect(&changed(&[(9, 1)]), refusal(13)); // before 14
    tally.expect(&changed(&[(11, 4)]), refusal(14)); // a way of no steps with bytes too many
    tally.expect(&changed(&[(11, 0)]), refusal(14));
    tally.expect(&changed(&[(12, 2)]), refusal(11)); // before 14
    tally.expect(&changed(&[(13, 2)]), refusal(11));
    tally.expect(&changed(&[(5, 0)]), refusal(11));
    tally.expect(&changed(&[(12, 1)]), refusal(14)); // two steps, room for one
    tally.expect(&changed(&[(13, 0)]), refusal(14));
    tally.expect(&changed(&[(13, 0), (last, 9)]), refusal(14)); // before 12
    tally.expect(&changed(&[(12, 1), (13, 0)]), accepted(2, 1));
    tally.expect(&changed(&[(last, 1)]), refusal(12)); // its own number
    tally.expect(&changed(&[(last - 1, 1)]), refusal(12));
    tally.expect(&changed(&[(14, 255), (last - 2, 255)]), accepted(2, 1));
}

/// Entry 1 of a sheet of bound 1.
fn bodies_by_hand(tally: &mut Tally, version: u8) {
    let sheet = |body: &[u8]| sheet_bytes(version, 1, 2, &[counted(&[0]), counted(body)]);
    // Its kind byte and body.
    for (body, expected) in [
        (&[0][..], accepted(2, 1)),
        (&[0, 0], refusal(14)),
        (&[1, 0, 0], accepted(2, 1)),
        (&[1, 0, 1], refusal(12)),
        (&[1, 1, 0], refusal(12)),
        (&[1, 0], refusal(14)),
        (&[1, 0, 1, 0], refusal(14)),
        (&[2, 0, 0, 0, 0], accepted(2, 1)),
        (&[2, 0, 0, 0, 1], refusal(12)),
        (&[2, 0, 1, 0, 0], refusal(12)),
        (&[3, 0, 0, 0, 0], accepted(2, 1)),
        (&[3, 0, 0, 0, 1], refusal(12)),
        (&[3, 0, 9], refusal(14)),
        (&[4], refusal(14)),
        (&[4, 0], accepted(2, 1)),
        (&[4, 61], refusal(11)),
        (&[4, 60], refusal(14)),
        (&[5], refusal(14)),
        (&[5, 2], refusal(14)), // a count byte is missing, before the other is too large
        (&[6, 255], refusal(14)),
        (&[5, 0, 0], accepted(2, 1)),
        (&[5, 2, 0], refusal(11)),
        (&[6, 0, 2], refusal(11)),
        (&[7], refusal(10)),
        (&[255, 1, 1], refusal(10)),
    ] {
        tally.expect(&sheet(body), expected);
    }
    // Steps by label 9, with these tests.
    let one = |test| vec![step(9, test)];
    for (entry, expected) in [
        (Entry::Way(one(0)), accepted(2, 1)),
        (Entry::Way(vec![step(9, 0), step(8, 0)]), accepted(2, 1)), // not limited by the bound
        (Entry::Way(vec![step(9, 0), step(8, 1)]), refusal(12)),
        (Entry::Same(one(0), one(0)), accepted(2, 1)),
        (Entry::Same(one(1), one(0)), refusal(12)),
        (Entry::Differ(one(0), one(1)), refusal(12)),
    ] {
        let body = entry.body(version);
        tally.expect(&sheet(&body), expected);
        tally.expect(&sheet(&body[..body.len() - 1]), refusal(14)); // before 12
        tally.expect(&sheet(&[&body[..], &[0]].concat()), refusal(14));
    }
    let alone = |body: &[u8]| sheet_bytes(version, 1, 1, &[counted(body)]);
    tally.expect(&alone(&[0, 0]), refusal(14)); // entry 0 of kind 0 with a body
    tally.expect(&alone(&[4, 0]), refusal(13)); // always true, but not of kind 0
}

/// Accepted sheets: every number of entries up to 300 and some up to the most, at every bound.
fn sizes(tally: &mut Tally, random: &mut Random, version: u8) {
    let many = [511, 512, 513, 1_000, 4_096, 8_191, 16_384, MOST_ENTRIES];
    for (i, entries) in (1..=300).chain(many).enumerate() {
        for bound in 0..=4 {
            let longest = random
                .pick(&[0, 1, 4, 5, 8, MOST_STEPS])
                .min(if entries > 300 { 5 } else { MOST_STEPS });
            let labels = random.pick(&[1, 3, all_labels(version)]);
            let sheet = random_sheet(random, bound, entries, longest, labels);
            let bytes = sheet.bytes(version);
            tally.expect(&bytes, accepted(entries as u32, bound as u32));
            damage::some_bytes(tally, random, &bytes, if entries > 300 { 8 } else { 40 });
            if i % 50 == 0 {
                damage::lengthened(tally, random, &bytes);
                damage::wrong_length(tally, &bytes);
            }
        }
    }
}

/// The most entries, each the longest that there is but for entry 0: almost 3 MB, or 4.
fn longest(tally: &mut Tally, random: &mut Random, version: u8) {
    let label = (all_labels(version) - 1) as u16;
    let longest = |number: usize| match number {
        0 => Entry::True,
        _ => Entry::Way(vec![step(label, number as u16 - 1); MOST_STEPS]),
    };
    let sheet = Sheet {
        bound: 4,
        entries: (0..MOST_ENTRIES).map(longest).collect(),
    };
    let bytes = sheet.bytes(version);
    // The count byte of entry 1: kind, step count and 60 steps.
    assert_eq!(bytes[10], if version == 1 { 182 } else { 242 });
    tally.expect(&bytes, accepted(MOST_ENTRIES as u32, 4));
    damage::some_bytes(tally, random, &bytes, 20);
    damage::wrong_length(tally, &bytes);
}

/// Fields at document 01's limits, and just beyond.
fn limits(tally: &mut Tally, random: &mut Random, version: u8) {
    let labels = all_labels(version);
    // Entries.
    for q in [
        0, 1, 2, 16_384, 16_385, 16_386, 16_387, 20_000, 32_768, 65_535,
    ] {
        for bound in [0, 4, 5] {
            let expected = if (1..=16_385).contains(&q) && bound <= 4 {
                accepted(q, bound)
            } else {
                refusal(8)
            };
            let entries = vec![counted(&[0]); q as usize];
            let bytes = sheet_bytes(version, bound as u8, q as u16, &entries);
            tally.expect(&bytes, expected);
        }
    }
    // The bound.
    for bound in 0..=255 {
        let expected = if bound <= 4 {
            accepted(2, bound as u32)
        } else {
            refusal(8)
        };
        let sheet = Sheet {
            bound,
            entries: vec![Entry::True; 2],
        };
        tally.expect(&sheet.bytes(version), expected);
    }
    // Steps of a way, as many as a count byte can count, at every bound.
    for bound in 0..=4 {
        for k in 0..=253 / step_width(version) {
            let number = random.between(1, 40);
            let mut entries = vec![Entry::True; number];
            entries.push(Entry::Way(random_steps(random, number, k, labels)));
            let expected = if k <= 60 {
                accepted(number as u32 + 1, bound as u32)
            } else {
                refusal(11)
            };
            tally.expect(&Sheet { bound, entries }.bytes(version), expected);
        }
    }
    // Steps of the two ways of a same and a differ, at every bound.
    for bound in 0..=4 {
        for j in 0..=9 {
            for k in 0..=9 {
                let number = random.between(1, 40);
                let w = random_steps(random, number, j, labels);
                let v = random_steps(random, number, k, labels);
                let fits = j.max(k) <= bound as usize;
                let expected = if fits {
                    accepted(number as u32 + 1, bound as u32)
                } else {
                    refusal(11)
                };
                for compared in [Entry::Same(w.clone(), v.clone()), Entry::Differ(w, v)] {
                    let mut entries = vec![Entry::True; number];
                    entries.push(compared);
                    tally.expect(&Sheet { bound, entries }.bytes(version), expected);
                }
            }
        }
    }
    // Many bytes, of a length that needs all of the length field.
    let mut long = example().bytes(version);
    long.resize((1 << 24) + 17, 0);
    set_length(&mut long);
    tally.expect(&long, refusal(9));
}

/// Every place of a number in every kind, with the latest number that is earlier, and with some that are not.
fn numbers(tally: &mut Tally, random: &mut Random, version: u8) {
    // Where the test of step i is, after so many bytes.
    let of_step = |before: usize| move |i: usize| before + step_width(version) * (i + 1) - 2;
    for number in (1..40).chain([254, 255, 256, 257, 511, 512, 513, 4_096, 16_384]) {
        let entries = vec![Entry::True; number];
        let latest = number as u16 - 1;
        for kind in 1..=6 {
            let earlier = match kind {
                1 => Entry::Not(latest),
                2 => Entry::And(latest, latest),
                3 => Entry::Or(latest, latest),
                4 => Entry::Way(vec![step(7, latest); 3]),
                5 => Entry::Same(vec![step(7, latest); 1], vec![step(7, latest); 2]),
                _ => Entry::Differ(vec![step(7, latest); 2], vec![step(7, latest); 1]),
            };
            let mut sheet = Sheet {
                bound: 2,
                entries: entries.clone(),
            };
            sheet.entries.push(earlier);
            let bytes = sheet.bytes(version);
            tally.expect(&bytes, accepted(number as u32 + 1, 2));

            let kind_at = 8 + 2 * number + 1;
            let places = match kind {
                1 => vec![1],
                2 | 3 => vec![1, 3],
                4 => [0, 1, 2].map(of_step(2)).to_vec(),
                _ => [0, 1, 2].map(of_step(3)).to_vec(),
            };
            for place in places {
                for late in [
                    number as u16,
                    number as u16 + 1,
                    number as u16 + 256,
                    65_535,
                ] {
                    let mut changed = bytes.clone();
                    changed[kind_at + place..][..2].copy_from_slice(&late.to_be_bytes());
                    tally.expect(&changed, refusal(12));
                }
                let mut changed = bytes.clone();
                changed[kind_at + place..][..2]
                    .copy_from_slice(&random_number(random, number).to_be_bytes());
                tally.expect(&changed, accepted(number as u32 + 1, 2));
            }
        }
    }
}

/// Entry 0, and an entry after it, from a few values a byte: the order of an entry's refusals.
fn second_entries(tally: &mut Tally, version: u8) {
    const VALUES: [u8; 6] = [0, 1, 2, 60, 61, 255];
    for bound in [0, 1, 4] {
        for count in 0..=8 {
            for kind in 0..=7 {
                for bytes in 0..6 * 6 * 6 {
                    let mut rest = vec![
                        count,
                        kind,
                        VALUES[bytes % 6],
                        VALUES[bytes / 6 % 6],
                        VALUES[bytes / 36],
                        0,
                        0,
                        0,
                        0,
                    ];
                    let alone = |rest: &[u8]| sheet_bytes(version, bound, 1, &[rest.to_vec()]);
                    let second = |rest: &[u8]| {
                        sheet_bytes(version, bound, 2, &[counted(&[0]), rest.to_vec()])
                    };
                    tally.agree(&alone(&rest));
                    tally.agree(&second(&rest));
                    rest.resize(1 + count as usize, 0);
                    tally.agree(&alone(&rest));
                    tally.agree(&second(&rest));
                    rest.pop();
                    tally.agree(&second(&rest));
                }
            }
        }
    }
}

/// Small sheets with each byte changed, cut and lengthened.
fn small(tally: &mut Tally, random: &mut Random, version: u8) {
    damage::each_byte(tally, &example().bytes(version));
    for round in 0..400 {
        let bound = random.between(0, 4) as u8;
        let entries = random.between(1, 7);
        let labels = random.pick(&[3, 3, all_labels(version)]);
        let bytes = random_sheet(random, bound, entries, 4, labels).bytes(version);
        tally.expect(&bytes, accepted(entries as u32, bound as u32));
        if round % 20 == 0 {
            damage::each_byte(tally, &bytes);
        }
        damage::some_bytes(tally, random, &bytes, 40);
        damage::cut(tally, &bytes);
        damage::lengthened(tally, random, &bytes);
        damage::wrong_length(tally, &bytes);
    }
}

/// Sheets with one to three faults in their entries, at any place, with the length right.
fn faulty_entries(tally: &mut Tally, random: &mut Random) {
    for round in 0..60_000 {
        let bound = random.between(0, 4) as u8;
        let most = if round % 100 == 0 { 600 } else { 6 };
        let count = random.between(1, most);
        let longest = random.pick(&[1, 4, 5, MOST_STEPS]);
        let version = random.pick(&VERSIONS);
        let mut entries = random_sheet(random, bound, count, longest, 4).entry_bytes(version);
        let mut q = count as u16;
        for _ in 0..random.between(1, 3) {
            let number = random.below(entries.len());
            let entry = &mut entries[number];
            match random.below(9) {
                // The count byte.
                0 => {
                    entry[0] =
                        random.pick(&[0, 255, entry[0].wrapping_add(1), entry[0].wrapping_sub(1)])
                }
                // The kind, the same size as another's or not.
                1 if entry.len() > 1 => entry[1] = random.pick(&[0, 1, 2, 3, 4, 5, 6, 7, 255]),
                // The first or the second step count, or a number.
                2 if entry.len() > 2 => entry[2] = random.pick(&[0, 1, 4, 5, 60, 61, 255]),
                3 if entry.len() > 3 => entry[3] = random.pick(&[0, 1, 4, 5, 60, 61, 255]),
                // A byte of a number or a label.
                4 if entry.len() > 2 => {
                    let place = random.between(2, entry.len() - 1);
                    entry[place] = random.pick(&[
                        number as u8,
                        (number as u8).wrapping_sub(1),
                        (number >> 8) as u8,
                    ]);
                }
                // A body too short or too long, the count byte right.
                5 if entry.len() > 2 => {
                    entry.pop();
                    *entry = counted(&entry[1..]);
                }
                6 if entry.len() < 200 => {
                    entry.push(0);
                    *entry = counted(&entry[1..]);
                }
                // An entry that would be right at a later place.
                7 => {
                    let later = random.between(number + 1, 2 * number + 2);
                    *entry = random_entry(random, later, bound, longest, 4).bytes(version);
                }
                // The number of entries.
                _ => q = random.pick(&[q.wrapping_add(1), q.wrapping_sub(1), 0, 16_385, 16_386, q]),
            }
        }
        tally.agree(&sheet_bytes(version, bound, q, &entries));
    }
}

/// Random bytes with a header that is nearly always plausible, and small numbers in the entries.
fn likely_bytes(tally: &mut Tally, random: &mut Random) {
    for _ in 0..60_000 {
        let q = random.between(1, 5);
        let version = random.pick(&VERSIONS);
        let step = step_width(version);
        let mut bytes = vec![0, 0, 0, 0, version, random.below(5) as u8, 0, q as u8];
        if !random.one_in(10) {
            bytes.extend([1, 0]);
        }
        let most = random.pick(&[1, 2, 3, 8]);
        for _ in 1..q {
            // A count byte that fits the kind, now and then.
            let kind = random.below(7);
            let count = [1, 3, 5, 5, 2 + step, 3 + step, 3 + 2 * step][kind];
            bytes.push(if random.one_in(4) {
                random.below(12) as u8
            } else {
                count as u8
            });
            bytes.push(kind as u8);
            bytes.extend((1..count).map(|_| random.below(most) as u8));
        }
        set_length(&mut bytes);
        if random.one_in(8) {
            let place = random.below(8);
            bytes[place] = random.byte();
        }
        tally.agree(&bytes);
    }
}
