//! Tables with class records of 8 bytes, as they were before document 02's order 6.

use reading::bytes::*;
use reading::gen::mixed;
use reading::name::NONE;
use reading::words::table::{check_of, record_lengths_of, table_number, ClassForm, Fault};
use reading::words::{said, said_of};

/// A generated table with its class records written back says what it said, to every question; where it is refused, so is the
/// older one (`renew`'s cases compare the numbers). Only a table over 60,000 bytes may have fitted before.
#[test]
fn an_older_table_says_what_the_same_with_longer_records_says() {
    let (mut with_classes, mut accepted) = (0, 0);
    for index in 0..20_000 {
        let case = mixed(11, index);
        let table = without_interfaces(&case.table);
        let older = older(&table).expect("no class has an interface");
        let number = table_number(&table);
        if number == 1 && older.len() <= 60_000 {
            continue;
        }
        let classes = class_places(&table).len();
        assert_eq!(older.len() + 4 * classes, table.len());
        let old = said_of(&older, &case.question, ClassForm::Older);
        match number {
            0 => assert_eq!(old, said(&table, &case.question), "{}", index),
            _ => assert!(check_of(&older, ClassForm::Older).is_err(), "{}", index),
        }
        with_classes += (classes > 0) as u64;
        accepted += (number == 0) as u64;
    }
    println!("older: {} tables, {} of them accepted", with_classes, accepted);
    assert!(with_classes > 8_000 && accepted > 10_000);
}

/// Of each form the record that draws a number, counted from 0.
#[test]
fn a_fault_says_which_record_draws_its_number() {
    let mut table = Table::with_names(&["Scan", "Page"]);
    table.class(41, NONE, NONE, true);
    table.class(40, 41, NONE, true);
    table.suspend(40, 41);
    let (now, older) = (table.bytes(), older(&table.bytes()).expect("no class has an interface"));
    assert_eq!(record_lengths_of(&now, ClassForm::Now), [26, 26, 12, 12, 5]);
    assert_eq!(record_lengths_of(&older, ClassForm::Older), [26, 26, 8, 8, 5]);
    assert_eq!((check_of(&now, ClassForm::Now), check_of(&older, ClassForm::Older)), (Ok(42), Ok(42)));
    let fault = |number: u8, record: usize| Err(Fault { number, record: Some(record) });
    let itself = [&older[..52], &[2, 40, 0, 40, 0, 255, 255, 0]].concat();
    assert_eq!(check_of(&itself, ClassForm::Older), fault(6, 2));
    let undefined = [&older[..60], &[2, 40, 0, 42, 0, 255, 255, 0]].concat();
    assert_eq!(check_of(&undefined, ClassForm::Older), fault(4, 3));
    // Each form is malformed in the place of the other: the second record's kind stands where the first one's fields do.
    assert_eq!(check_of(&now, ClassForm::Older), fault(2, 2));
    assert_eq!(check_of(&older, ClassForm::Now), fault(2, 2));
    let long = Err(Fault { number: 1, record: None });
    for form in [ClassForm::Older, ClassForm::Now] {
        assert_eq!(check_of(&[0; 60_001], form), long);
    }
}
