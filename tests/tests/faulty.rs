//! Sheets with one fault of each kind at each task, and with several: the specification gives each its answer.
use dibwunek_tests::harness::agreement::Tally;
use dibwunek_tests::makers::faults::{of_directory, of_header, of_record, one_of_record, twice_of_record, Faulty};
use dibwunek_tests::makers::random::Random;
use dibwunek_tests::makers::sheets::{small, valid, Draft};

#[test]
fn single_faults() {
    let mut random = Random::of_test("single faults");
    let mut tally = Tally::new("single faults", 100);
    for count in (1..=16).chain(1..=16) {
        let draft = Draft::of(&small(&mut random, count));
        single_faults_of(&draft, &mut random, &mut tally);
    }
    for _ in 0..16 {
        let draft = Draft::of(&valid(&mut random));
        single_faults_of(&draft, &mut random, &mut tally);
    }
    tally.close(&[1, 2, 3, 4, 5, 6], 1_000);
}

fn single_faults_of(draft: &Draft, random: &mut Random, tally: &mut Tally) {
    for Faulty { sheet, answer } in of_header(draft).into_iter().chain(of_directory(draft, random)) {
        tally.expect(&sheet, answer);
    }
    for task in 0..draft.records.len() {
        for (number, record) in of_record(&draft.records[task], random) {
            tally.expect(&draft.with_record(task, record).bytes(), (number, task as u8));
        }
    }
}

#[test]
fn two_faults_in_one_task() {
    let mut random = Random::of_test("two faults in one task");
    let mut tally = Tally::new("two faults in one task", 100);
    for count in (1..=16).chain(1..=16) {
        let draft = Draft::of(&small(&mut random, count));
        for task in 0..count {
            for (number, record) in twice_of_record(&draft.records[task], &mut random) {
                tally.expect(&draft.with_record(task, record).bytes(), (number, task as u8));
            }
        }
    }
    tally.close(&[3, 4, 5], 1_000);
}

#[test]
fn faults_in_two_tasks_then_in_the_directory_then_in_the_header() {
    let mut random = Random::of_test("faults in two places");
    let mut tally = Tally::new("faults in two tasks, the directory and the header", 100);
    for _ in 0..5_000 {
        let count = random.within(2..=16);
        let mut draft = Draft::of(&small(&mut random, count));
        let later = random.within(1..=count - 1);
        let earlier = random.within(0..=later - 1);
        let mut number = 0;
        for task in [later, earlier] {
            let (of, record) = one_of_record(&draft.records[task], &mut random);
            (number, draft) = (of, draft.with_record(task, record));
        }
        let mut sheet = draft.bytes();
        tally.expect(&sheet, (number, earlier as u8));

        sheet.push(0);
        tally.expect(&sheet, (2, count as u8 - 1));
        let place = random.within(0..=count - 1);
        sheet[2 + 4 * place] ^= 1 << random.within(0..=7);
        tally.expect(&sheet, (2, place as u8));

        let at = random.within(0..=1);
        sheet[at] = *random.pick(&[0, 65, 255]);
        tally.expect(&sheet, (1, 255));
    }
    tally.close(&[1, 2, 3, 4, 5, 6], 500);
}
