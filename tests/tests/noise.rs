//! Bytes that nobody wrote as a sheet.
use dibwunek_tests::harness::agreement::Tally;
use dibwunek_tests::makers::random::Random;
use dibwunek_tests::makers::sheets::plausible;

#[test]
fn every_header_of_two_bytes() {
    let mut tally = Tally::new("every header of two bytes", 100);
    for (processors, count) in (0..=255).flat_map(|m| (0..=255).map(move |n| (m, n))) {
        tally.expect(&[processors, count], (1, 255));
    }
    tally.close(&[1], 65_536);
}

#[test]
fn random_bytes() {
    let mut random = Random::of_test("random bytes");
    let mut tally = Tally::new("random bytes", 100);
    for _ in 0..20_000 {
        let most = *random.pick(&[3, 70, 300, 3_000]);
        let length = random.within(0..=most);
        tally.check(&random.bytes(length));
    }
    for length in [65_535, 65_536, 65_537, 70_000, 131_072] {
        for _ in 0..100 {
            tally.check(&random.bytes(length));
        }
    }
    tally.close(&[1, 2], 100);
}

#[test]
fn random_bytes_after_a_lawful_header() {
    let mut random = Random::of_test("random bytes after a header");
    let mut tally = Tally::new("random bytes after a lawful header", 100);
    for _ in 0..10_000 {
        let length = random.within(2..=300);
        let mut sheet = random.bytes(length);
        sheet[0] = random.within(1..=64) as u8;
        sheet[1] = random.within(1..=16) as u8;
        tally.check(&sheet);
    }
    tally.close(&[1, 2], 500);
}

#[test]
fn plausible_sheets() {
    let mut random = Random::of_test("plausible sheets");
    let mut tally = Tally::new("plausible sheets", 50);
    for _ in 0..30_000 {
        tally.check(&plausible(&mut random));
    }
    tally.close(&[0, 1, 2, 3, 4, 5, 6], 300);
}
