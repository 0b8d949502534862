//! Sheets that must be accepted: the answer and the whole task set agree.
use dibwunek_tests::harness::agreement::Tally;
use dibwunek_tests::harness::proved;
use dibwunek_tests::makers::random::Random;
use dibwunek_tests::makers::sheets::{valid, Draft, CASE_14};

#[test]
fn case_14() {
    Tally::new("case 14", 1).expect(&CASE_14, (0, 255));
    let set = proved::task_set(&CASE_14);
    assert_eq!((set.processors, set.count), (8, 3));
    assert_eq!(set.tasks[0][..8], [1, 1, 45, 9, 4, 52, 20, 0]);
    assert_eq!(set.tasks[1][..8], [1, 1, 54, 11, 4, 80, 42, 0]);
    assert_eq!(set.tasks[2][..8], [0, 1, 18, 66, 6, 66, 6, 0]);
}

#[test]
fn random_valid_sheets() {
    let mut random = Random::of_test("valid");
    let mut tally = Tally::new("valid sheets", 1);
    for _ in 0..3_000 {
        tally.expect(&Draft::of(&valid(&mut random)).bytes(), (0, 255));
    }
    tally.close(&[0], 3_000);
}

#[test]
fn fields_out_of_range_are_zero() {
    let far = [32, 255, 256, 65_536, 1 << 32, (1 << 32) + 1, usize::MAX];
    for field in (0..40).chain(far) {
        for task in (17..40).chain(far) {
            assert_eq!(proved::read_field(&CASE_14, task, field), 0);
        }
        if field > 1 {
            assert_eq!(proved::read_field(&CASE_14, 16, field), 0);
        }
        if field > 38 {
            assert!((0..16).all(|task| proved::read_field(&CASE_14, task, field) == 0));
        }
    }
}
