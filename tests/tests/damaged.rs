//! Valid sheets cut at every length, made longer, and with bits and bytes changed.
use dibwunek_tests::harness::agreement::Tally;
use dibwunek_tests::makers::random::Random;
use dibwunek_tests::makers::sheets::{small, valid, Draft, CASE_14};
use dibwunek_tests::reference::answers::Answer;

/// What the specification gives a valid sheet whose length is not its own.
fn of_length(length: usize, count: usize) -> Answer {
    if length < 2 + 4 * count {
        (1, 255)
    } else {
        (2, count as u8 - 1)
    }
}

#[test]
fn cut_at_every_length() {
    let mut random = Random::of_test("cut");
    let mut tally = Tally::new("cut at every length", 100);
    let mut drafts: Vec<Draft> = (1..=16).map(|count| Draft::of(&small(&mut random, count))).collect();
    drafts.extend((0..16).map(|_| Draft::of(&valid(&mut random))));
    for draft in drafts {
        let sheet = draft.bytes();
        for length in 0..sheet.len() {
            tally.expect(&sheet[..length], of_length(length, draft.records.len()));
        }
        tally.expect(&sheet, (0, 255));
    }
    tally.close(&[1, 2], 500);
}

#[test]
fn records_cut_at_every_length() {
    let mut random = Random::of_test("cut records");
    let mut tally = Tally::new("records cut at every length", 100);
    for count in 1..=16 {
        let draft = Draft::of(&small(&mut random, count));
        for (task, record) in draft.records.iter().enumerate() {
            for length in 0..record.len() {
                tally.expect(&draft.with_record(task, record[..length].to_vec()).bytes(), (3, task as u8));
            }
        }
    }
    tally.close(&[3], 2_000);
}

#[test]
fn longer_by_some_bytes() {
    let mut random = Random::of_test("longer");
    let mut tally = Tally::new("longer by some bytes", 100);
    for count in (1..=16).cycle().take(64) {
        let mut sheet = Draft::of(&small(&mut random, count)).bytes();
        for _ in 0..40 {
            sheet.push(random.word() as u8);
            tally.expect(&sheet, of_length(sheet.len(), count));
        }
    }
    tally.close(&[2], 2_000);
}

#[test]
fn every_bit_flipped() {
    let mut random = Random::of_test("flipped");
    let mut tally = Tally::new("every bit flipped", 50);
    let mut sheets = vec![CASE_14.to_vec()];
    sheets.extend((1..=16).map(|count| Draft::of(&small(&mut random, count)).bytes()));
    sheets.extend((0..8).map(|_| Draft::of(&valid(&mut random)).bytes()));
    for sheet in &mut sheets {
        for (at, bit) in (0..sheet.len()).flat_map(|at| (0..8).map(move |bit| (at, bit))) {
            sheet[at] ^= 1 << bit;
            tally.check(sheet);
            sheet[at] ^= 1 << bit;
        }
    }
    tally.close(&[0, 1, 2, 3, 4, 5, 6], 50);
}

#[test]
fn some_bytes_changed() {
    let mut random = Random::of_test("changed");
    let mut tally = Tally::new("some bytes changed", 50);
    for _ in 0..20_000 {
        let count = random.within(1..=16);
        let mut sheet = Draft::of(&small(&mut random, count)).bytes();
        for _ in 0..random.within(1..=3) {
            let at = random.within(0..=sheet.len() - 1);
            sheet[at] = random.word() as u8;
        }
        tally.check(&sheet);
    }
    tally.close(&[1, 2, 3, 4, 5, 6], 100);
}
