//! What the calls promise together: a record's text gives the record again and is not longer
//! than the command; an order's text gives the order; its sole order is itself.

mod common;

use common::*;

const COMMANDS: &[(&str, &str)] = &[
    ("A;", ""),
    ("A:;", "H"),
    ("A-B-C::::::::;", "DHOBKDHO"),
    ("SET-ATT:LIN=7-1&&-3,LEV=3.5;", "DD"),
    ("A:5&&9++2&10;", ""),
    ("A:5-1&&-3&8-2&-5&-6;", ""),
    ("A:5-1&&-7++2&8-1&-3;", ""),
    ("A:H'5&&H'9++H'2;", ""),
    ("A:5-1&D'5-2&H'5-3&5.0-4;", ""),
    ("A:CAFE&D'12&O'17&B'1&K'12&GO&1#&\"\";", "H"),
    ("A:*1&K'#2&GO&1%&\" \";", "K"),
    ("a:cafe&d'12&o'17&b'1&k'1d&go&1#&\"ff\";", "H"),
    ("a:n-1=*ab&k'#d&go&1%,n=ab-e&AB-e;", "KK"),
    ("A:h'9&&h'1f++h'a&fF,k'aB-h'A&K'Ab-h'a;", ""),
    ("A: 0001 & 00.10 /* half */ & \"a\"\"b\" ;", ""),
    ("A:N-1-M-02=1-2-3-4&-5&-6&1-2-4-5,M=X;", "OD"),
    ("A:1,,,X,:N=0&&65534++17:;", "DDDDDDD"),
    ("A:+&A+&+A&+1+;", ""),
    ("A:11111111111111111111111111111111;", "B"),
    ("A:B'11111111111111111111111111111111;", "D"),
    ("A:37777777777&O'37777777777;", "O"),
    ("A:0.000000000&4294967295&4.294967295;", ""),
    ("A:\"a\"-\"b\"-1&&-3&-\"c\"&\"a\"-\"b\"-4;", ""),
];

#[test]
fn the_text_of_a_record_gives_the_record() {
    for &(text, bases) in COMMANDS {
        let record = record(text, bases);
        let printed = print(&record).unwrap();
        assert!(printed.len() <= text.len(), "{text}: {printed}");
        let letters = bases_of(&record);
        assert_eq!(
            read_bytes(printed.as_bytes(), &letters),
            Ok(record.clone()),
            "{text}"
        );
        assert_eq!(print(&record), Ok(printed));
    }
}

#[test]
fn the_text_of_an_order_gives_the_order() {
    for &(text, bases) in COMMANDS {
        let record = record(text, bases);
        let count = common::count(&record).unwrap() as u64;
        for k in (0..count)
            .step_by(1 + count as usize / 50)
            .chain([count - 1])
        {
            let order = common::order(&record, k).unwrap();
            assert!(order.len() <= record.len());
            let printed = print(&order).unwrap();
            assert!(printed.len() <= print(&record).unwrap().len());
            let again = read_bytes(printed.as_bytes(), &bases_of(&order));
            assert_eq!(again, Ok(order.clone()));
            assert_eq!(common::count(&order), Ok(1));
            assert_eq!(common::order(&order, 0), Ok(order));
        }
    }
}
