//! The requests of document 02 that have landed, sentence by sentence.

mod common;

use common::*;

/// M-100.
mod correction_keys {
    use super::*;
    use model::{key, Keeper, Refusal};

    const BS: u8 = 8;
    const CAN: u8 = 24;

    /// The bytes that a keeper carries with it.
    const ROOM: usize = 1024;

    /// What a key that is not taken is answered.
    const NOT_TAKEN: Result<bool, Refusal> = Err(Refusal {
        number: 20,
        place: ROOM as u32,
    });

    /// A keeper that holds this line, its other bytes filled.
    fn holding(line: &[u8], filling: u8) -> Keeper {
        let mut keeper = Keeper {
            bytes: [filling; ROOM],
            count: line.len() as u32,
        };
        keeper.bytes[..line.len()].copy_from_slice(line);
        keeper
    }

    /// The line that a keeper holds.
    fn line(keeper: &Keeper) -> &[u8] {
        &keeper.bytes[..keeper.count as usize]
    }

    /// Takes keys to a keeper, all of which must be taken; gives whether the line is ready behind
    /// the last.
    #[track_caller]
    fn takes(keeper: &mut Keeper, keys: &[u8]) -> bool {
        let mut ready = false;
        for &one in keys {
            ready = key(keeper, one).unwrap();
        }
        ready
    }

    /// Expects keys, typed to an empty line, to leave this line, not ready.
    #[track_caller]
    fn leaves(keys: &str, expected: &str) {
        let mut keeper = Keeper::new();
        let ready = takes(&mut keeper, keys.as_bytes());
        assert_eq!(line(&keeper), expected.as_bytes(), "{keys:?}");
        assert!(!ready, "{keys:?}");
    }

    /// Expects keys, typed to an empty line, to leave this line, ready.
    #[track_caller]
    fn readies(keys: &str, expected: &str) {
        let mut keeper = Keeper::new();
        let ready = takes(&mut keeper, keys.as_bytes());
        assert_eq!(line(&keeper), expected.as_bytes(), "{keys:?}");
        assert!(ready, "{keys:?}");
    }

    /// Expects a key to be taken and every byte of the keeper to be what it was, but for the one
    /// that is held, if one is, as the last.
    #[track_caller]
    fn changes(before: &Keeper, one: u8, count: usize, held: bool, ready: bool) {
        let mut keeper = before.clone();
        let mut expected = before.clone();
        if held {
            expected.bytes[count - 1] = one;
        }
        expected.count = count as u32;
        assert_eq!(key(&mut keeper, one), Ok(ready), "key {one}");
        assert!(keeper == expected, "key {one}");
    }

    /// Expects a key not to be taken and no byte of the keeper to change.
    #[track_caller]
    fn is_not_taken(before: &Keeper, one: u8) {
        let mut keeper = before.clone();
        assert_eq!(key(&mut keeper, one), NOT_TAKEN, "key {one}");
        assert!(keeper == *before, "key {one}");
    }

    /// All keys but BS and CAN.
    fn held_keys() -> impl Iterator<Item = u8> {
        (0..=u8::MAX).filter(|one| ![BS, CAN].contains(one))
    }

    #[test]
    fn bs_removes_the_last_byte_held() {
        leaves("AB\x08", "A");
        leaves("AB\x08\x08", "");
        leaves("AB\x08C\x08\x08D", "D");
        changes(&holding(b"AB", b'x'), BS, 1, false, false);
    }

    #[test]
    fn bs_does_nothing_on_an_empty_line() {
        leaves("\x08", "");
        leaves("A\x08\x08\x08B", "B");
        changes(&holding(b"", b'x'), BS, 0, false, false);
    }

    #[test]
    fn can_empties_the_line() {
        leaves("\x18", "");
        leaves("ABC\x18", "");
        leaves("ABC\x18D", "D");
        leaves("A:\"x\x18B", "B");
        changes(&holding(b"ABC", b'x'), CAN, 0, false, false);
    }

    #[test]
    fn any_other_key_is_held() {
        for one in held_keys() {
            let ready = one == b';';
            changes(&holding(b"", b'x'), one, 1, true, ready);
            changes(&holding(b"A:B", b'x'), one, 4, true, ready);
            changes(&holding(b"A:\"", b'x'), one, 4, true, false);
            changes(&holding(b"A/*", b'x'), one, 4, true, false);
        }
    }

    #[test]
    fn the_keeper_carries_its_bytes_with_it() {
        assert_eq!(size_of::<Keeper>(), ROOM + size_of::<u32>());
        assert_eq!(Keeper::new(), Keeper::default());
        assert_eq!(line(&Keeper::new()), b"");
    }

    #[test]
    fn a_semicolon_outside_string_and_comment_makes_the_line_ready() {
        for text in [
            ";",
            "A;",
            "SET-ATT:LIN=7-1&&-3,LEV=3.5;",
            "A:\"x;y\";",
            "A:\"\";",
            "A:\"a;\"\"b;\";",
            "A/*;*/;",
            "A/*\"*/;",
            "A:\"/*\";",
            "/**/;",
            "/***/;",
            "/*/*/;",
            "/**/*;",
            "*/;",
            "//*;*/;",
            "/\"*\";",
        ] {
            readies(text, text);
        }
        for text in [
            "A",
            "A:\";",
            "A:\"x;\"",
            "A:\"\"\";",
            "A/*;",
            "/*;*",
            "/*\"*/\";",
            "\"/*\"/*;",
            "*/*;",
        ] {
            leaves(text, text);
        }
    }

    #[test]
    fn the_next_key_starts_an_empty_line() {
        readies("A;;", ";");
        readies("A;B;", "B;");
        leaves("A;B", "B");
        leaves("A:\"x\";\"", "\"");
        let ready = holding(b"A:1;", b'x');
        for one in held_keys() {
            changes(&ready, one, 1, true, one == b';');
        }
    }

    #[test]
    fn a_ready_line_is_empty_before_the_key_acts() {
        leaves("A;\x08", "");
        leaves("A;\x18", "");
        leaves("A;\x08B", "B");
        changes(&holding(b"A:1;", b'x'), BS, 0, false, false);
        changes(&holding(b"A:1;", b'x'), CAN, 0, false, false);
    }

    #[test]
    fn string_and_comment_are_judged_on_the_bytes_held() {
        readies("\"\x08;", ";");
        leaves("/x\x08*;", "/*;");
        readies("/ *;", "/ *;");
        leaves("/*/;", "/*/;");
        readies("A:\"x\x08\x08;", "A:;");
        leaves("A:\"x\"\x08;", "A:\"x;");
        leaves("A:\"x;\"\x08;", "A:\"x;;");
        readies("A/*\x08;", "A/;");
        readies("A/*\x08\x08;", "A;");
        leaves("A/**/\x08;", "A/**;");
        readies("A/**/\x08\x08\x08;", "A/;");
    }

    #[test]
    fn a_line_that_the_reader_refuses_is_ready_all_the_same() {
        readies("$@)/;", "$@)/;");
        refused("$@)/;", "", 5, 0);
        readies("\0\u{7F};", "\0\u{7F};");
        refused("\0\u{7F};", "", 3, 0);
    }

    /// A line is ready by the bytes held alone, whether keys made it or not.
    #[test]
    fn a_keeper_that_no_keys_made() {
        let mut keeper = holding(b"A;B;", b'x');
        assert!(!takes(&mut keeper, b"C"));
        assert_eq!(line(&keeper), b"A;B;C");
        let mut keeper = holding(b"A;B", b'x');
        assert!(!takes(&mut keeper, b";"));
        assert_eq!(line(&keeper), b"A;B;");
        assert!(!takes(&mut keeper, &[BS]));
        assert!(takes(&mut keeper, &[BS]));
        assert_eq!(line(&keeper), b"A;");
        assert!(takes(&mut keeper, b";"));
        assert_eq!(line(&keeper), b";");
        changes(&holding(b"A;B", b'x'), CAN, 0, false, false);
        changes(&holding(b"A\x08\x18;", b'x'), b'B', 1, true, false);
    }

    #[test]
    fn a_ready_line_goes_to_the_reader_unchanged() {
        let text = "SET-ATT:LIN=7-1&&-3,LEV=3.5;";
        let typed = "SETT\x08-AT\x18SET-ATT:LIN=7-1&&&\x08-3,\"\x08LEV=3..\x085;";
        let mut keeper = Keeper::new();
        assert!(takes(&mut keeper, typed.as_bytes()));
        assert_eq!(line(&keeper), text.as_bytes());
        assert_eq!(read_bytes(line(&keeper), b"DD"), Ok(record(text, "DD")));
    }

    #[test]
    fn the_reader_still_refuses_bs_and_can_with_3() {
        refused("A\x08;", "", 3, 1);
        refused("A\x18;", "", 3, 1);
        refused("A:\"\x08\";", "", 3, 3);
        refused("A/*\x18*/;", "", 3, 3);
        let mut keeper = Keeper::new();
        assert!(takes(&mut keeper, b"A:\"\x08\x18A;"));
        assert_eq!(read_bytes(line(&keeper), b""), Ok(record("A;", "")));
    }

    #[test]
    fn a_key_to_be_held_by_a_full_line_is_not_taken() {
        let mut keeper = holding(&[b'A'; ROOM - 1], b'x');
        changes(&keeper, b'B', ROOM, true, false);
        changes(&keeper, b';', ROOM, true, true);
        assert!(!takes(&mut keeper, b"A"));
        for one in held_keys() {
            is_not_taken(&keeper, one);
        }
        is_not_taken(&holding(&[b'"'; ROOM], b'x'), b';');
    }

    #[test]
    fn bs_and_can_are_taken_on_a_full_line() {
        let full = holding(&[b'A'; ROOM], b'x');
        changes(&full, BS, ROOM - 1, false, false);
        changes(&full, CAN, 0, false, false);
        let mut keeper = full;
        takes(&mut keeper, &[BS]);
        assert!(takes(&mut keeper, b";"));
        assert_eq!(line(&keeper), [&[b'A'; ROOM - 1][..], b";"].concat());
    }

    #[test]
    fn a_full_line_that_is_ready_takes_every_key() {
        let full = holding(&[&[b'A'; ROOM - 1][..], b";"].concat(), b'x');
        for one in held_keys() {
            changes(&full, one, 1, true, one == b';');
        }
        changes(&full, BS, 0, false, false);
        changes(&full, CAN, 0, false, false);
    }

    #[test]
    fn a_full_line_that_only_ends_with_a_semicolon_takes_none() {
        for first in [b';', b'"'] {
            let mut full = holding(&[b'A'; ROOM], b'x');
            full.bytes[0] = first;
            full.bytes[ROOM - 1] = b';';
            is_not_taken(&full, b'A');
            is_not_taken(&full, b';');
            changes(&full, BS, ROOM - 1, false, false);
        }
    }

    #[test]
    fn a_keeper_whose_count_passes_its_bytes_takes_no_key() {
        for count in [ROOM as u32 + 1, 1 << 16, 1 << 31, u32::MAX] {
            for filling in [b'A', b';'] {
                let mut keeper = holding(b";", filling);
                keeper.count = count;
                for one in 0..=u8::MAX {
                    is_not_taken(&keeper, one);
                }
            }
        }
    }

    /// A line as a plain list of bytes that takes keys by the request's sentences.
    #[derive(Clone, Default)]
    struct List {
        held: Vec<u8>,
        ready: bool,
    }

    impl List {
        fn key(&mut self, one: u8) -> Result<bool, Refusal> {
            let is_removed = one == BS || one == CAN;
            if !self.ready && self.held.len() == ROOM && !is_removed {
                return NOT_TAKEN;
            }
            if self.ready || one == CAN {
                self.held.clear();
            }
            if one == BS {
                self.held.pop();
            }
            self.ready = one == b';' && is_outside(&self.held);
            if !is_removed {
                self.held.push(one);
            }
            Ok(self.ready)
        }
    }

    /// What stands open behind some bytes.
    #[derive(Clone, Copy)]
    enum Open {
        Nothing,
        /// Nothing yet: a `*` opens a comment.
        Slash,
        String,
        Comment,
        /// A comment still: a `/` closes it.
        Star,
    }

    /// Whether what comes behind these bytes is outside string and comment.
    fn is_outside(bytes: &[u8]) -> bool {
        let mut open = Open::Nothing;
        for byte in bytes {
            open = match (open, byte) {
                (Open::String, b'"') | (Open::Star, b'/') => Open::Nothing,
                (Open::String, _) => Open::String,
                (Open::Comment | Open::Star, b'*') => Open::Star,
                (Open::Comment | Open::Star, _) | (Open::Slash, b'*') => Open::Comment,
                (Open::Nothing | Open::Slash, b'"') => Open::String,
                (Open::Nothing | Open::Slash, b'/') => Open::Slash,
                (Open::Nothing | Open::Slash, _) => Open::Nothing,
            };
        }
        matches!(open, Open::Nothing | Open::Slash)
    }

    /// Takes a key to a keeper and to the list that it held alike; they must answer and hold alike
    /// then, and no byte of the keeper may change but the one that is held. The reader must find
    /// no fault with the end of a line that is ready.
    #[track_caller]
    fn alike(keeper: &mut Keeper, list: &mut List, one: u8) {
        let before = list.held.clone();
        let mut bytes = keeper.bytes;
        let answer = list.key(one);
        bytes[..list.held.len()].copy_from_slice(&list.held);
        let shown = before.escape_ascii();
        assert_eq!(key(keeper, one), answer, "{shown}, key {one}");
        assert_eq!(line(keeper), list.held, "{shown}, key {one}");
        assert!(keeper.bytes == bytes, "{shown}, key {one}");
        if answer == Ok(true) {
            let read = model::read(line(keeper), b"", &mut []).unwrap_err();
            assert!(![4, 6, 7].contains(&read.number), "{shown}, key {one}");
        }
    }

    /// Tries all runs of so many keys behind those that the keeper and the list have taken.
    fn every_run(keeper: &Keeper, list: &List, keys: &[u8], length: usize) {
        if length == 0 {
            return;
        }
        for &one in keys {
            let (mut keeper, mut list) = (keeper.clone(), list.clone());
            alike(&mut keeper, &mut list, one);
            every_run(&keeper, &list, keys, length - 1);
        }
    }

    #[test]
    fn for_every_short_run_it_does_what_a_plain_list_does() {
        every_run(&holding(b"", b';'), &List::default(), b"A;\"/*\x08\x18", 6);
        every_run(&holding(b"", b'"'), &List::default(), b"/*;", 9);
    }

    #[test]
    fn for_every_short_run_at_the_limit_too() {
        for first in [b'A', b'"'] {
            let mut keeper = holding(b"", b'x');
            let mut list = List::default();
            for at in 0..ROOM - 2 {
                alike(&mut keeper, &mut list, if at == 0 { first } else { b'A' });
            }
            every_run(&keeper, &list, b"A;\"/\x08\x18", 5);
        }
    }

    /// Keys by a fixed rule that looks like none, of these.
    fn scattered(keys: &[u8], length: usize) -> impl Iterator<Item = u8> + '_ {
        let mut state = 1_u32;
        (0..length).map(move |_| {
            state = state.wrapping_mul(1_664_525).wrapping_add(1_013_904_223);
            keys[(state >> 16) as usize % keys.len()]
        })
    }

    #[test]
    fn for_long_runs_it_does_what_a_plain_list_does() {
        let all: Vec<u8> = (0..=u8::MAX).collect();
        for keys in [
            &b"AB;\"\"/*\x08"[..],
            b"AAAAAAAAAA\x08",
            b"\"AAAAAAA;;;A/*\x08",
            b"/*AAAAAA;;;A*\"\x08",
            &all,
        ] {
            let mut keeper = holding(b"", b'x');
            let mut list = List::default();
            for one in scattered(keys, 4 * ROOM) {
                alike(&mut keeper, &mut list, one);
            }
        }
    }
}

/// M-102.
mod the_same_name_twice {
    use super::*;

    /// The command `A` with one named block: a place with the value 1 for each name.
    fn named(names: &[&[&str]]) -> Vec<u8> {
        let mut record = one(&[field(1, b"A"), field(2, b"N")]);
        for pieces in names {
            record.extend(field(3, b"D"));
            for piece in *pieces {
                record.extend(field(4, piece.as_bytes()));
            }
            record.extend([single(), numeral(b'D', 0, 1)].concat());
        }
        record
    }

    #[test]
    fn a_name_that_already_stands_in_its_block() {
        refused("A:LEV=3,LEV=4;", "", 21, 8);
        refused("A:N=1,M=1&2,O=1, N=1;", "", 21, 17);
        refused("A:1:N=1,N=2;", "", 21, 8);
        refused("A:N=1,N=1:N=1.;", "", 21, 6);
    }

    #[test]
    fn all_pieces_equal_byte_for_byte() {
        refused("A:N-1=1,N - 1=2;", "", 21, 8);
        refused("A:N/**/-1=1,N-/*x*/1=2;", "", 21, 12);
        refused("A:N-A-2-B=1,N-A-2-B=1;", "", 21, 12);
        for names in [
            ["N-1", "N-01"],
            ["N", "n"],
            ["N", "N-1"],
            ["N-1-1", "N-1"],
            ["N-1", "M-1"],
            ["NM", "N-M"],
            ["N-1-2", "N-12"],
            ["PORT", "PART"],
            ["OWNER", "OTNER"],
        ] {
            let [one, other] = names;
            record(&format!("A:{one}=1,{other}=1;"), "");
            record(&format!("A:{other}=1,{one}=1;"), "");
        }
    }

    #[test]
    fn in_another_block_it_is_fine() {
        record("A:N=1:N=1;", "");
        record("A:N-1=1:2:N-1=1;", "");
        refused("A:N=1:N=1,M=2,N=3;", "", 21, 14);
    }

    #[test]
    fn places_without_a_name_are_as_before() {
        record("A:1,1:,,;", "");
    }

    #[test]
    fn at_the_second_names_first_token_after_10_and_before_11_in_the_same_place() {
        refused("A:N=1,N-=2;", "", 10, 8);
        refused("A:N=1,N-1-2-3-4=2;", "", 10, 13);
        refused("A:N=1,N=;", "", 21, 6);
        refused("A:N=1,N=1.;", "", 21, 6);
        refused("A:N=1,N=9&&5;", "", 21, 6);
        refused("A:N=1.,N=1;", "", 12, 4);
        refused("A:N=1,N;", "", 9, 6);
        refused("A:N=0&&255,M=0&&255,N=1;", "", 21, 20);
    }

    #[test]
    fn the_33rd_place_goes_before() {
        let places: String = (10..42).map(|n| format!("N{n}=1,")).collect();
        let text = format!("A:{places}N10=1;");
        refused(&text, "", 15, text.len() - 6);
        let text = format!("A:{}N10=1;", places.replace(",N41=1", ""));
        refused(&text, "", 21, text.len() - 6);
    }

    #[test]
    fn a_record_with_such_a_pair_is_not_well_formed() {
        not_well_formed(&named(&[&["LEV"], &["LEV"]]));
        not_well_formed(&named(&[&["N"], &["M"], &["O", "1"], &["N"]]));
        not_well_formed(&named(&[
            &["N", "A", "2", "B"],
            &["M"],
            &["N", "A", "2", "B"],
        ]));
    }

    #[test]
    fn a_record_whose_names_differ_is() {
        for names in [
            &[&["N", "1"][..], &["N", "01"]],
            &[&["N"], &["n"]],
            &[&["N"], &["N", "1"]],
            &[&["N", "1", "1"], &["N", "1"]],
            &[&["N", "1"], &["M", "1"]],
            &[&["NM"], &["N", "M"]],
            &[&["PORT"], &["PART"]],
            &[&["OWNER"], &["OTNER"]],
        ] {
            assert_eq!(count(&named(names)), Ok(1));
        }
        let block = &named(&[&["N"]])[11..];
        let blocks = [&named(&[&["N"]]), block].concat();
        assert_eq!(print(&blocks).as_deref(), Ok("A:N=1:N=1;"));
    }

    #[test]
    fn as_many_names_as_there_may_be() {
        let names: Vec<String> = (1..=32).map(|n| format!("N-{n}=1")).collect();
        let text = format!("A:{};", names.join(","));
        let whole = record(&text, "");
        assert_eq!(print(&whole), Ok(text));
        for again in 0..31 {
            let mut names = names.clone();
            names[31] = names[again].clone();
            let text = format!("A:{};", names.join(","));
            refused(&text, "", 21, text.rfind('N').unwrap());
        }
    }
}

/// M-103.
mod keep_the_order_count {
    use super::*;

    /// The bytes that stand before the code.
    const HEAD: usize = 7;

    const TEXT: &str = "SET-ATT:LIN=7-1&&-3,LEV=3.5;";

    /// What a record of document 01 has, without the count: the example's 77 bytes.
    fn example() -> Vec<u8> {
        record(TEXT, "DD")[HEAD..].to_vec()
    }

    #[test]
    fn a_record_begins_with_tag_12_four_bytes_the_number_of_its_orders() {
        let expected = hex(
            "0C000400000003 010003534554 010003415454 0200014E 03000144 0400034C494E \
             0600080000000300000001 070006440000000007 070006440000000001 03000144 \
             0400034C4556 050000 070006440100000023",
        );
        assert_eq!(expected.len(), 84);
        assert_eq!(record(TEXT, "DD"), expected);
        assert_eq!(count(&expected), Ok(3));
        assert_eq!(print(&expected).as_deref(), Ok(TEXT));
        assert_eq!(record("A;", ""), hex("0C000400000001 01000141"));
    }

    #[test]
    fn the_reader_writes_the_product() {
        for (text, orders) in [
            ("A;", 1),
            ("A:;", 1),
            ("A:,,:;", 1),
            ("A:5;", 1),
            ("A:5&&5;", 1),
            ("A:5&&9++7;", 1),
            ("A:5&5;", 2),
            ("A:5&&9++2&10;", 4),
            ("A:1&2,,X:N=3&&7,M=0&1&9;", 30),
            ("A:0&&255;", 256),
            ("A:0&&4095;", 4096),
            ("A:0&&4095,1&&15;", 61_440),
            ("A:0&&254,0&&256;", 65_535),
        ] {
            let record = record(text, "");
            assert_eq!(
                record[..HEAD],
                field(12, &u32::to_be_bytes(orders)),
                "{text}"
            );
            assert_eq!(count(&record), Ok(orders), "{text}");
        }
    }

    #[test]
    fn each_order_carries_1() {
        let record = record(TEXT, "DD");
        for k in 0..3 {
            let order = order(&record, k).unwrap();
            assert_eq!(order[..HEAD], hex("0C000400000001"));
            assert_eq!(count(&order), Ok(1));
            assert_eq!(common::order(&order, 0), Ok(order.clone()));
            assert_eq!(common::order(&order, 1), Err((19, 1)));
        }
        let expected = one(&[hex(
            "010003534554 010003415454 0200014E 03000144 0400034C494E 050000 \
             070006440000000007 070006440000000003 03000144 0400034C4556 050000 \
             070006440100000023",
        )]);
        assert_eq!(order(&record, 2), Ok(expected));
    }

    /// The field is what the count answers, and no other field is taken.
    #[test]
    fn a_field_that_is_not_the_product() {
        let product = 3;
        for orders in (0..=300).chain([3 << 8, 3 << 16, 3 << 24, 65_536 + 3, u32::MAX]) {
            let record = counted(orders, &[example()]);
            if orders == product {
                assert_eq!(count(&record), Ok(product));
            } else {
                not_well_formed(&record);
            }
        }
        for (text, orders) in [("A;", 1), ("A:;", 1), ("A:0&&254,0&&256;", 65_535)] {
            let rest = [record(text, "")[HEAD..].to_vec()];
            assert_eq!(count(&counted(orders, &rest)), Ok(orders));
            for wrong in [0, orders - 1, orders + 1, u32::MAX] {
                not_well_formed(&counted(wrong, &rest));
            }
        }
    }

    /// A record over a limit stays so, whatever its field says.
    #[test]
    fn a_product_over_the_limit() {
        let places = |number| {
            [field(3, b"D"), range(255, 1), numeral(b'D', 0, 0)]
                .concat()
                .repeat(number)
        };
        let rest = |number| [field(1, b"A"), field(2, b"P"), places(number)].concat();
        assert_eq!(count(&counted(256, &[rest(1)])), Ok(256));
        for orders in [0, 1, 256, 65_535, 65_536, u32::MAX] {
            not_well_formed(&counted(orders, &[rest(2)]));
            not_well_formed(&counted(orders, &[rest(4)]));
            not_well_formed(&counted(orders, &[rest(32)]));
        }
    }

    #[test]
    fn a_record_that_lacks_it() {
        assert_eq!(example().len(), 77);
        not_well_formed(&example());
        not_well_formed(&field(1, b"A"));
        not_well_formed(b"");
    }

    #[test]
    fn a_field_of_another_length() {
        for content in [&b""[..], b"\x03", b"\0\x03", b"\0\0\x03", b"\0\0\0\0\x03"] {
            not_well_formed(&[field(12, content), example()].concat());
        }
        not_well_formed(&[field(12, &[0; 256]), example()].concat());
        let mut long = record(TEXT, "DD");
        for (high, low) in [(0, 3), (0, 5), (1, 4), (4, 0), (255, 255)] {
            long[1..3].copy_from_slice(&[high, low]);
            not_well_formed(&long);
        }
    }

    #[test]
    fn another_tag_in_its_place() {
        for tag in 0..=255 {
            let record = [field(tag, b"\0\0\0\x03"), example()].concat();
            if tag == 12 {
                assert_eq!(count(&record), Ok(3));
            } else {
                not_well_formed(&record);
            }
        }
    }

    #[test]
    fn the_field_anywhere_else() {
        let head = field(12, b"\0\0\0\x03");
        let mut behind = 0;
        for (_, content) in fields(&example()) {
            behind += 3 + content.len();
            let (before, rest) = (&example()[..behind], &example()[behind..]);
            not_well_formed(&[before, &head, rest].concat());
            not_well_formed(&[&head, before, &head, rest].concat());
        }
        assert_eq!(behind, 77);
    }

    #[test]
    fn the_field_twice_or_alone() {
        let head = field(12, b"\0\0\0\x03");
        not_well_formed(&[&head[..], &head, &example()].concat());
        for orders in [0, 1, 3] {
            assert_eq!(counted(orders, &[]).len(), HEAD);
            not_well_formed(&counted(orders, &[]));
        }
    }

    #[test]
    fn a_field_cut_off() {
        for orders in [1, 3] {
            for length in 0..HEAD {
                let cut = &counted(orders, &[])[..length];
                not_well_formed(cut);
                not_well_formed(&[cut, &example()].concat());
                not_well_formed(&[cut, &field(1, b"A")].concat());
            }
        }
    }

    #[test]
    fn the_place_of_17_counts_the_seven_bytes() {
        let mut out = [0x5A; 84];
        let read = |out: &mut [u8]| model::read(TEXT.as_bytes(), b"DD", out);
        for room in [0, 6, 7, 76, 77, 83] {
            let refusal = read(&mut out[..room]).unwrap_err();
            assert_eq!((refusal.number, refusal.place), (17, 84));
        }
        assert_eq!(out, [0x5A; 84]);
        assert_eq!(read(&mut out), Ok(84));
        let record = record(TEXT, "DD");
        let mut out = [0x5A; 76];
        let order = |out: &mut [u8]| model::order(&record, 1, out);
        for room in [0, 6, 7, 69, 75] {
            let refusal = order(&mut out[..room]).unwrap_err();
            assert_eq!((refusal.number, refusal.place), (17, 76));
        }
        assert_eq!(out, [0x5A; 76]);
        assert_eq!(order(&mut out), Ok(76));
    }

    /// The text is what it was, and its length.
    #[test]
    fn the_printer_does_not_show_it() {
        let record = record("A:1&2;", "");
        let mut out = [0; 6];
        let refusal = model::print(&record, &mut out[..5]).unwrap_err();
        assert_eq!((refusal.number, refusal.place), (17, 6));
        assert_eq!(model::print(&record, &mut out), Ok(6));
        assert_eq!(&out, b"A:1&2;");
    }

    #[test]
    fn without_it_18_goes_before_19_and_2() {
        assert_eq!(order(&example(), 3), Err((18, 0)));
        assert_eq!(order(&counted(4, &[example()]), 3), Err((18, 0)));
        assert_eq!(order(&counted(3, &[example()]), 3), Err((19, 3)));
        let places = [field(3, b"D"), single(), field(11, &[b'x'; 80])].concat();
        let long = [field(1, b"A"), field(2, b"P"), places.repeat(13)];
        assert_eq!(print(&one(&long)), Err((2, 1024)));
        assert_eq!(print(&counted(2, &long)), Err((18, 0)));
        assert_eq!(print(&long.concat()), Err((18, 0)));
    }
}

/// M-106.
mod the_whole_list_on_one_buffer {
    use super::*;

    /// The bytes that stand before an order.
    const HEAD: usize = 7;

    /// Groups of all kinds and what is none, and commands without a group.
    const COMMANDS: &[(&str, &str)] = &[
        ("A;", ""),
        ("A:;", "H"),
        ("A:,,:;", "DKD"),
        ("A-B-C:5:N-1-M=X-\"y\"-3:K'1#,;", "HD"),
        ("SET-ATT:LIN=7-1&&-3,LEV=3.5;", "DD"),
        ("A:5&&5;", ""),
        ("A:5&&9++7;", ""),
        ("A:5&5;", ""),
        ("A:5&&9++2&10;", ""),
        ("A:1&2,,X:N=3&&7,M=0&1&9:,;", ""),
        ("A:,5&6,:,7&8,;", ""),
        ("A:5-1&&-3&8-2&-5&-6,7-1&-3&&-5;", ""),
        (
            "A:\"a\"-\"b\"-1&&-3&-\"c\"&\"a\"-\"b\"-4,X&\"\"&LONGER&1%;",
            "",
        ),
        ("A:1-2-3-1&&-7++4&1-2-4-1&-2:B=GO&STOP,C=1&&2;", "O"),
        ("A:h'9&&h'1f++h'a&fF,k'aB-h'A&K'Ab-h'a;", ""),
        ("A:1&&100++10,1&&11;", "BB"),
        ("A:4294967290&&4294967295++2;", ""),
        (
            "A:4294967295&&4294967295++4294967295&4294967294&&4294967295;",
            "",
        ),
        ("A:0&&4294967295++2147483648,0&&4294967295++4294967295;", ""),
        ("A:1&2,1&2,1&2,1&2,1&2,1&2,1&2,1&2,1&2,1&2;", ""),
        ("A:0&&4095,1&&15;", ""),
        ("A:0&&254,0&&256;", ""),
        ("A:0&&256,0&&254;", ""),
    ];

    /// The texts of a list's pieces.
    #[track_caller]
    fn texts(text: &str) -> Vec<String> {
        let list = list(&record(text, "")).unwrap();
        let pieces = pieces(&list).into_iter();
        pieces.map(|piece| print(piece).unwrap()).collect()
    }

    #[test]
    fn every_order_behind_a_field_of_tag_14_with_its_length() {
        let expected = hex(
            "0E0004 0000001F 0C000400000001 01000141 02000150 03000144 050000 070006440000000005 \
             0E0004 0000001F 0C000400000001 01000141 02000150 03000144 050000 070006440000000007 \
             0E0004 0000001B 0C000400000001 01000141 02000150 03000144 050000 0900025550",
        );
        assert_eq!(list(&record("A:5&&8++2&UP;", "")), Ok(expected));
        let sole = hex("0E0004 0000000B 0C000400000001 01000141");
        assert_eq!(list(&record("A;", "")), Ok(sole));
    }

    /// "Its k-th piece is what order k gives, for all k, and it writes as many pieces as the
    /// count."
    #[test]
    fn the_pieces_are_the_orders() {
        for &(text, bases) in COMMANDS {
            let record = record(text, bases);
            let list = list(&record).unwrap();
            let pieces = pieces(&list);
            assert_eq!(count(&record), Ok(pieces.len() as u32), "{text}");
            let mut out = vec![0; record.len()];
            for (k, piece) in pieces.into_iter().enumerate() {
                let length = model::order(&record, k as u64, &mut out).unwrap();
                assert_eq!(piece, &out[..length], "order {k} of {text}");
            }
        }
    }

    #[test]
    fn groups_are_unrolled_place_after_place() {
        assert_eq!(
            texts("A:1&&3++2,,X&Y:N=7-1&-2;"),
            [
                "A:1,,X:N=7-1;",
                "A:1,,X:N=7-2;",
                "A:1,,Y:N=7-1;",
                "A:1,,Y:N=7-2;",
                "A:3,,X:N=7-1;",
                "A:3,,X:N=7-2;",
                "A:3,,Y:N=7-1;",
                "A:3,,Y:N=7-2;",
            ]
        );
        assert_eq!(
            texts("A:7-1&&-3&-5&8-2&&-6++2;"),
            ["7-1", "7-2", "7-3", "7-5", "8-2", "8-4", "8-6"].map(|value| format!("A:{value};"))
        );
    }

    #[test]
    fn the_length_is_that_of_the_order_alone() {
        let texts = |lengths: &[usize]| {
            let strings = lengths.iter().map(|&n| format!("\"{}\"", "x".repeat(n)));
            strings.collect::<Vec<String>>().join("&")
        };
        let text = format!("A:{},{};", texts(&[0, 80, 1]), texts(&[2, 0]));
        let list = list(&record(&text, "")).unwrap();
        let lengths: Vec<usize> = pieces(&list).into_iter().map(<[u8]>::len).collect();
        let bare = 7 + 4 + 4 + 2 * (4 + 3 + 3);
        assert_eq!(lengths, [2, 0, 82, 80, 3, 1].map(|strings| bare + strings));
        assert_eq!(list.len(), lengths.iter().sum::<usize>() + 6 * HEAD);
    }

    #[test]
    fn a_length_of_two_bytes() {
        let places = [field(3, b"D"), single(), field(11, &[b'x'; 80])].concat();
        let rest = [field(1, b"A"), field(2, b"P"), places.repeat(32)];
        let record = one(&rest);
        assert_eq!(record.len(), 7 + 4 + 4 + 32 * 90);
        let expected = [hex("0E0004 00000B4F"), record.clone()].concat();
        assert_eq!(list(&record), Ok(expected));
    }

    #[test]
    fn the_list_of_an_order_is_the_order_behind_its_length() {
        for &(text, bases) in COMMANDS {
            let record = record(text, bases);
            let order = order(&record, 0).unwrap();
            let expected = [
                field(14, &(order.len() as u32).to_be_bytes()),
                order.clone(),
            ]
            .concat();
            assert_eq!(list(&order), Ok(expected), "{text}");
        }
    }

    #[test]
    fn the_place_of_17_is_all_bytes_needed() {
        let record = record("A:5&UP;", "");
        let needed = 2 * HEAD + 31 + 27;
        let mut out = vec![0x5A; needed];
        for room in 0..needed {
            let refusal = model::list(&record, &mut out[..room]).unwrap_err();
            assert_eq!((refusal.number, refusal.place), (17, needed as u32));
        }
        assert_eq!(out, vec![0x5A; needed]);
        assert_eq!(model::list(&record, &mut out), Ok(needed));
    }

    #[test]
    fn eighteen_goes_before_17() {
        let mut record = record("A:5&&8;", "");
        for at in 0..record.len() {
            record[at] ^= 0x80;
            not_well_formed(&record);
            record[at] ^= 0x80;
        }
        assert_eq!(model::list(&record, &mut []).unwrap_err().number, 17);
    }

    #[test]
    fn a_list_is_no_record_and_tag_14_stands_in_none() {
        let record = record("A:5&6;", "");
        not_well_formed(&list(&record).unwrap());
        not_well_formed(&list(&order(&record, 0).unwrap()).unwrap());
        let length = field(14, &[0, 0, 0, 4]);
        let mut behind = 0;
        for (_, content) in fields(&record) {
            behind += 3 + content.len();
            not_well_formed(&[&record[..behind], &length, &record[behind..]].concat());
        }
        assert_eq!(behind, record.len());
    }
}

/// M-107.
mod is_this_amplifier_in_it {
    use super::*;

    /// Values, in a place of this base, with groups of all kinds and what is none.
    const VALUES: &[(&str, &str)] = &[
        ("5", ""),
        ("X", ""),
        ("\"a \"\"b\"\"\"", ""),
        ("5&&9", ""),
        ("5&&9++2&10", ""),
        ("5&&9++7", ""),
        ("5&&5&5", ""),
        ("5&5&6&5&&7", ""),
        ("7-1&&-3&-5&8-2&-5&-6&7-2", ""),
        ("7-1&-3&&-5&7-0&&-9++3", ""),
        ("X-\"\"-1&&-7++2&-X&\"\"-X-1&&-3", ""),
        ("1-2-3-1&&-7++4&1-2-4-1&-2&1-2-3-5", "O"),
        ("h'9&&h'1f++h'a&9&&29&o'11&b'1001&k'9&9.0&0.9", ""),
        ("9&&1f++a&d'19&cafe&CAFG&1%", "H"),
        ("1&*#&ABCD&abcd&\"1\"&e&1%", "K"),
        ("0&&100&11&1&d'1", "B"),
        ("4294967290&&4294967295++2&4294967295", ""),
        ("4294967295&&4294967295++4294967295&0", ""),
        ("0&&4294967295++2147483648&2147483648", ""),
        ("0&&4094&5", ""),
        ("4000&&4095&0&&3999", ""),
    ];

    /// Where an argument, typed so, stands first in a place of a command.
    #[track_caller]
    fn asked(text: &str, place: u32, base: &str, typed: &str) -> Result<Option<u32>, (u8, u32)> {
        member(&record(text, ""), place, &argument(typed, base))
    }

    /// Expects an argument, typed so, to stand in the first place of a command, and where.
    #[track_caller]
    fn stands(text: &str, typed: &str, position: u32) {
        assert_eq!(asked(text, 0, "", typed), Ok(Some(position)), "{typed}");
    }

    /// Expects an argument, typed so, not to stand in the first place of a command.
    #[track_caller]
    fn stands_not(text: &str, typed: &str) {
        assert_eq!(asked(text, 0, "", typed), Ok(None), "{typed}");
    }

    #[test]
    fn whether_amplifier_7_117_is_touched() {
        let text = "SET-ATT:LIN=7-100&&-120,LEV=3.5;";
        stands(text, "7-117", 17);
        stands_not(text, "7-121");
        stands_not(text, "8-117");
        stands("SET-ATT:LIN=6-1&7-100&&-120++17&-5,LEV=3.5;", "7-117", 2);
        stands_not("SET-ATT:LIN=6-1&7-100&&-120++16&-5,LEV=3.5;", "7-117");
    }

    /// The arguments of the sole place of a command, as its orders have them.
    fn written_out(record: &[u8]) -> Vec<Vec<u8>> {
        let before = group_in_place(1, b'D', &[single()]).len();
        let count = u64::from(count(record).unwrap());
        let mut out = vec![0; record.len()];
        let mut argument = |k| {
            let length = model::order(record, k, &mut out).unwrap();
            out[before..length].to_vec()
        };
        (0..count).map(&mut argument).collect()
    }

    /// "the first position among that place's arguments, all written out"
    #[test]
    fn every_argument_stands_where_it_is_written_first() {
        for &(value, base) in VALUES {
            let record = record(&format!("A:{value};"), base);
            let arguments = written_out(&record);
            for argument in &arguments {
                let first = arguments.iter().position(|other| other == argument);
                let first = first.map(|position| position as u32);
                assert_eq!(member(&record, 0, argument), Ok(first), "{value}");
            }
        }
    }

    #[test]
    fn what_stands_in_another_value_alone_does_not_stand() {
        for &(value, base) in VALUES {
            let record = record(&format!("A:{value};"), base);
            let arguments = written_out(&record);
            for other in VALUES.iter().filter(|other| other.1 == base) {
                let other = argument(other.0.split('&').next().unwrap(), base);
                let first = arguments.iter().position(|argument| *argument == other);
                let first = first.map(|position| position as u32);
                assert_eq!(member(&record, 0, &other), Ok(first), "{value}");
            }
        }
    }

    #[test]
    fn the_first_of_arguments_that_are_repeated() {
        stands("A:1&5&5&&7&5;", "5", 1);
        stands("A:1&&9++4&5;", "5", 1);
        stands("A:5&&7&5&&9;", "9", 7);
        stands("A:5&&7&5&&9;", "6", 1);
    }

    #[test]
    fn between_two_terms_and_past_the_ends_of_a_range() {
        let text = "A:7-10&&-20++4;";
        for (typed, position) in [("7-10", 0), ("7-14", 1), ("7-18", 2)] {
            stands(text, typed, position);
        }
        for typed in ["7-0", "7-9", "7-11", "7-13", "7-19", "7-20", "7-22"] {
            stands_not(text, typed);
        }
        stands_not("A:4294967290&&4294967295++4;", "4294967295");
        stands_not("A:4294967290&&4294967295++4;", "2");
    }

    #[test]
    fn places_count_from_0_through_all_blocks_omitted_ones_included() {
        let text = "A:1&2,,3:N=4,M=5&6:,;";
        for (place, typed) in [(0, "2"), (2, "3"), (3, "4"), (4, "6")] {
            let position = u32::from(typed == "2" || typed == "6");
            assert_eq!(asked(text, place, "", typed), Ok(Some(position)));
            assert_eq!(asked(text, place, "", "7"), Ok(None));
        }
        for place in [1, 5, 6, 7, 31, 32, 255, 65_536, u32::MAX] {
            assert_eq!(asked(text, place, "", "3"), Err((26, place)));
        }
    }

    #[test]
    fn a_value_of_another_place_is_not_looked_at() {
        let text = "A:1,2&&4:N=5;";
        for (place, typed) in [(0, "2"), (0, "5"), (1, "1"), (1, "5"), (2, "4")] {
            assert_eq!(asked(text, place, "", typed), Ok(None), "{typed}");
        }
    }

    #[test]
    fn units_are_equal_when_their_fields_are() {
        stands("A:07&8;", "7", 0);
        stands("A:h'1f;", "H'01F", 0);
        stands("A:k'ab;", "K'AB", 0);
        for (text, typed) in [
            ("A:7;", "H'7"),
            ("A:7;", "7.0"),
            ("A:5&&9;", "O'7"),
            ("A:5&&9;", "7.0"),
            ("A:5&&9;", "0.7"),
            ("A:3.5;", "3.50"),
            ("A:3.5;", "35"),
            ("A:K'12;", "12"),
            ("A:K'12;", "K'012"),
            ("A:UP;", "up"),
            ("A:UP;", "\"UP\""),
            ("A:10%;", "10#"),
            ("A:7-1&&-9;", "H'7-5"),
            ("A:7-1&&-9;", "7.0-5"),
        ] {
            stands_not(text, typed);
        }
    }

    #[test]
    fn an_argument_with_another_number_of_units() {
        for typed in ["7", "1", "7-1-1", "7-7-1", "7-1-1-1"] {
            stands_not("A:7-1&&-3&8-1;", typed);
        }
        for typed in ["5-5", "0-5", "5-5-5-5"] {
            stands_not("A:5&&9;", typed);
        }
    }

    #[test]
    fn eighteen_goes_before_26_and_27() {
        let mut record = record("A:5&&8,;", "");
        for at in 0..record.len() {
            record[at] ^= 0x80;
            not_well_formed(&record);
            assert_eq!(member(&record, 0, &numeral(b'D', 0, 5)), Err((18, 0)));
            record[at] ^= 0x80;
        }
        assert_eq!(member(&record, 0, &numeral(b'D', 0, 5)), Ok(Some(0)));
    }

    #[test]
    fn no_such_place_or_an_omitted_one_goes_before_27() {
        let five = numeral(b'D', 0, 5);
        for (text, place) in [("A;", 0), ("A:;", 0), ("A:5,;", 1), ("A:5,;", 2)] {
            let record = record(text, "K");
            for argument in [&five[..], b"", b"x", &five.repeat(5)] {
                assert_eq!(member(&record, place, argument), Err((26, place)));
            }
        }
    }

    #[test]
    fn an_argument_has_1_to_4_units() {
        let five = numeral(b'D', 0, 5);
        let record = record("A:5;", "");
        for (units, answer) in [
            (0, Err((27, 0))),
            (1, Ok(Some(0))),
            (2, Ok(None)),
            (4, Ok(None)),
            (5, Err((27, 0))),
            (1000, Err((27, 0))),
        ] {
            assert_eq!(member(&record, 0, &five.repeat(units)), answer);
        }
    }

    #[test]
    fn an_argument_is_whole_unit_fields_and_nothing_else() {
        let record = record("A:5;", "");
        let five = numeral(b'D', 0, 5);
        for length in 1..five.len() {
            assert_eq!(member(&record, 0, &five[..length]), Err((27, 0)));
            let behind = [&five[..], &five[..length]].concat();
            assert_eq!(member(&record, 0, &behind), Err((27, 0)));
        }
        for other in (0..=255).filter(|tag| !(7..=11).contains(tag)) {
            for content in [&b""[..], b"D", &five[3..]] {
                let other = field(other, content);
                assert_eq!(member(&record, 0, &other), Err((27, 0)));
                for argument in [[&other, &five[..]], [&five[..], &other]] {
                    assert_eq!(member(&record, 0, &argument.concat()), Err((27, 0)));
                }
            }
        }
        let single = [single(), five].concat();
        assert_eq!(member(&record, 0, &single), Err((27, 0)));
    }

    /// An argument is refused exactly where a record that holds it in this place would be.
    #[track_caller]
    fn stands_or_27(base: u8, argument: &[u8]) {
        let place = with_unit(base, field(9, b"GO"));
        let holds_it = count(&in_place(base, &[single(), argument.to_vec()])) == Ok(1);
        let expected = if holds_it { Ok(None) } else { Err((27, 0)) };
        assert_eq!(member(&place, 0, argument), expected, "{argument:?}");
    }

    #[test]
    fn units_that_could_stand_under_the_base_of_the_place() {
        for base in *b"DHOBK" {
            for byte in 0..=255u8 {
                for word in [vec![byte], vec![b'0', byte], vec![b'A', byte]] {
                    for tag in 7..=11 {
                        stands_or_27(base, &field(tag, &word));
                    }
                }
                stands_or_27(base, &numeral(byte, 0, 5));
                stands_or_27(base, &numeral(b'D', byte, 5));
                stands_or_27(base, &numeral(b'H', byte, 5));
            }
            for length in [0, 1, 31, 32, 33, 80, 81, 255, 256] {
                for (tag, byte) in [(8, b'*'), (9, b'G'), (10, b'%'), (11, b'x')] {
                    stands_or_27(base, &field(tag, &vec![byte; length]));
                }
            }
        }
        let record = record("A:GO,1;", "KH");
        assert_eq!(member(&record, 0, &numeral(b'D', 0, 5)), Err((27, 0)));
        assert_eq!(member(&record, 1, &numeral(b'D', 0, 5)), Ok(None));
        assert_eq!(member(&record, 1, &field(9, b"CAFE")), Err((27, 0)));
        assert_eq!(member(&record, 0, &field(9, b"CAFE")), Ok(None));
    }

    #[test]
    fn every_unit_is_judged_whatever_the_number_of_units() {
        let record = record("A:GO;", "K");
        let right = field(9, b"GO");
        let wrong = numeral(b'D', 0, 5);
        for units in 1..=4 {
            for at in 0..units {
                let mut argument = vec![right.clone(); units];
                argument[at] = wrong.clone();
                assert_eq!(member(&record, 0, &argument.concat()), Err((27, 0)));
            }
        }
    }
}

/// M-108.
mod an_index_of_places {
    use super::*;

    /// Commands with places of all kinds.
    const COMMANDS: &[(&str, &str)] = &[
        ("A;", ""),
        ("A:;", ""),
        ("SET-ATT-X:;", "K"),
        ("A:,,5,;", ""),
        ("A:5&&9++2&10;", ""),
        ("SET-ATT:LIN=7-1&&-3,LEV=3.5;", "DD"),
        ("A:N-1-B-2=UP;", "H"),
        (
            "A:,1:N=2,M=3::\"a \"\"b\"\"\",,*21#:X=1-2-3-4&&-6;",
            "DHOOKKKKD",
        ),
        ("A::::::::;", "DHOBK"),
        ("A:::::::,,,,,,,,,,,,,,,,,,,,,,,,,;", ""),
        ("A:1&&3,,N&\"\"&7.25:P=3&4,Q=1-2&-4,R=X:,;", ""),
    ];

    /// The record of a command that must be accepted, and its row.
    #[track_caller]
    fn rowed(text: &str, bases: &str) -> (Vec<u8>, Vec<u32>) {
        match read_row(text, bases) {
            Ok(rowed) => rowed,
            Err(refusal) => panic!("{text} with {bases}: refused {refusal:?}"),
        }
    }

    /// Where the fields of tag 3 begin, counted along all fields from the first byte on.
    fn offsets(record: &[u8]) -> Vec<u32> {
        let mut at = 0;
        let mut offsets = Vec::new();
        for (tag, content) in fields(record) {
            if tag == 3 {
                offsets.push(at);
            }
            at += 3 + content.len() as u32;
        }
        offsets
    }

    /// The fields of all places by this row.
    #[track_caller]
    fn pages<'r>(record: &'r [u8], row: &[u32]) -> Vec<&'r [u8]> {
        let page = |number| place(record, row, number).unwrap();
        (0..bases_of(record).len() as u32).map(page).collect()
    }

    /// A place's own field, of this base.
    fn begin(base: u8) -> Vec<u8> {
        field(3, &[base])
    }

    /// The record of the paper's command, place by place.
    #[test]
    fn each_place_hands_back_its_fields() {
        let (record, row) = rowed("SET-ATT:LIN=7-1&&-3,LEV=3.5;", "DD");
        assert_eq!(row, [23, 62]);
        let seven = numeral(b'D', 0, 7);
        let line = [
            begin(b'D'),
            field(4, b"LIN"),
            range(3, 1),
            seven,
            numeral(b'D', 0, 1),
        ];
        let level = [
            begin(b'D'),
            field(4, b"LEV"),
            single(),
            numeral(b'D', 1, 35),
        ];
        assert_eq!(pages(&record, &row), [line.concat(), level.concat()]);
    }

    #[test]
    fn an_offset_counts_the_seven_bytes_and_points_at_tag_3() {
        let (record, row) = rowed("A:5,6;", "HO");
        assert_eq!(row, [15, 31]);
        assert_eq!(record[15..19], [3, 0, 1, b'H']);
        assert_eq!(record[31..35], [3, 0, 1, b'O']);
        for &(text, bases) in COMMANDS {
            let (record, row) = rowed(text, bases);
            assert_eq!(row, offsets(&record), "{text}");
        }
    }

    /// "one for each place", through all blocks
    #[test]
    fn the_places_and_what_is_between_are_the_record() {
        for &(text, bases) in COMMANDS {
            let (record, row) = rowed(text, bases);
            let mut behind = row
                .first()
                .map_or(record.len(), |&first| first as usize - 4);
            for (page, &offset) in pages(&record, &row).iter().zip(&row) {
                let between = &record[behind..offset as usize];
                assert!(matches!(between, [] | [2, 0, 1, b'P' | b'N']), "{text}");
                let tags: Vec<u8> = fields(page).iter().map(|field| field.0).collect();
                assert_eq!(tags[0], 3, "{text}");
                assert!(tags[1..].iter().all(|&tag| tag > 3), "{text}");
                behind = offset as usize + page.len();
            }
            assert_eq!(behind, record.len(), "{text}");
        }
    }

    #[test]
    fn an_omitted_place_hands_back_what_fields_it_has() {
        let (record, row) = rowed("A:,5,:;", "KHO");
        assert_eq!(row, [15, 19, 35, 43]);
        let five = [begin(b'H'), single(), numeral(b'H', 0, 5)].concat();
        let omitted = [b'K', b'H', b'O', b'D'].map(begin);
        let [first, _, third, fourth] = &omitted;
        assert_eq!(pages(&record, &row), [first, &five, third, fourth]);
        for page in [0, 2, 3] {
            assert_eq!(place(&record, &row, page).unwrap().len(), 4);
        }
    }

    #[test]
    fn names_of_several_pieces_are_part_of_the_place() {
        let (record, row) = rowed("A:N-1-B-2=UP;", "H");
        let name = [b"N", b"1", b"B", b"2"].map(|piece| field(4, piece));
        let page = [begin(b'H'), name.concat(), single(), field(9, b"UP")];
        assert_eq!(pages(&record, &row), [page.concat()]);
    }

    /// Bytes 2 and 3 begin no field where they stand in a content.
    #[test]
    fn contents_that_look_like_tags() {
        let (record, row) = rowed("A:771&&772,50529027&33751042:\"\t\";", "");
        assert_eq!(row, offsets(&record));
        let pages = pages(&record, &row);
        assert_eq!(pages[0][18..], [b'D', 0, 0, 0, 3, 3]);
        assert_eq!(pages[1].len(), 28);
        assert_eq!(pages[1][12..16], [3, 3, 3, 3]);
    }

    #[test]
    fn thirty_two_places_in_one_block_and_in_eight() {
        for colons in 1..=8 {
            let text = format!("A{}{};", ":".repeat(colons), ",".repeat(32 - colons));
            let (record, row) = rowed(&text, "");
            assert_eq!(row.len(), 32);
            assert_eq!(row[31] as usize, record.len() - 4);
            assert_eq!(place(&record, &row, 31), Ok(&begin(b'D')[..]));
            assert_eq!(place(&record, &row, 32), Err((26, 32)));
            let mut short = vec![7; 31];
            let mut out = vec![9; record.len()];
            let answer = model::read_row(text.as_bytes(), b"", &mut out, &mut short);
            assert_eq!(answer.map_err(|r| (r.number, r.place)), Err((17, 32)));
            assert_eq!((short, out), (vec![7; 31], vec![9; record.len()]));
        }
        refused(&format!("A:{};", ",".repeat(32)), "", 15, 34);
        let thirty_three = read_row(&format!("A:{};", ",".repeat(32)), "");
        assert_eq!(thirty_three, Err((15, 34)));
    }

    #[test]
    fn slots_beyond_the_places_keep_their_numbers() {
        let mut out = [0; 100];
        let mut row = [1, 2, 3, 4];
        let length = model::read_row(b"A:5,6;", b"", &mut out, &mut row).unwrap();
        assert_eq!(row, [15, 31, 3, 4]);
        let mut again = [0; 100];
        let mut row = [u32::MAX; 4];
        let order = model::order_row(&out[..length], 0, &mut again, &mut row);
        assert_eq!(order, Ok(length));
        assert_eq!(row, [15, 31, u32::MAX, u32::MAX]);
        let mut row = [5];
        assert!(model::read_row(b"A;", b"", &mut out, &mut row).is_ok());
        assert_eq!(row, [5]);
    }

    #[test]
    fn the_order_writer_fills_the_row_of_its_order() {
        let record = record("A:1&&3,,N&\"\"&7.25:P=3&4,Q=1-2&-4,R=X:,;", "");
        let whole = offsets(&record);
        let (order, row) = order_row(&record, 0).unwrap();
        assert_eq!(row, offsets(&order));
        assert_eq!(row, [15, 31, 35, 50, 70, 99, 118, 122]);
        assert!(row
            .iter()
            .zip(&whole)
            .skip(1)
            .all(|(one, other)| one < other));
        for k in 0..u64::from(count(&record).unwrap()) {
            let (order, row) = order_row(&record, k).unwrap();
            assert_eq!(row, offsets(&order), "{k}");
        }
    }

    /// The pages of every order: what is no group's stays, of a group there is one argument.
    #[test]
    fn the_pages_of_an_order() {
        let record = record("A:5,X&7&&8,N;", "");
        let numerals = [numeral(b'D', 0, 7), numeral(b'D', 0, 8)];
        let chosen = [field(9, b"X"), numerals[0].clone(), numerals[1].clone()];
        for (k, unit) in chosen.iter().enumerate() {
            let (order, row) = order_row(&record, k as u64).unwrap();
            let page = |unit: &[u8]| [&begin(b'D')[..], &single(), unit].concat();
            let five = page(&numeral(b'D', 0, 5));
            let expected = [five, page(unit), page(&field(9, b"N"))];
            assert_eq!(pages(&order, &row), expected);
        }
    }

    #[test]
    fn an_order_of_an_order_has_the_same_row() {
        let record = record("SET-ATT:LIN=7-1&&-3,LEV=3.5;", "DD");
        let (order, row) = order_row(&record, 2).unwrap();
        assert_eq!(row, [23, 54]);
        assert_eq!(order_row(&order, 0), Ok((order, row)));
    }

    #[test]
    fn eighteen_and_19_go_before_both_17s() {
        let record = record("A:5&&9,6;", "");
        assert_eq!(order_row(&record, 5), Err((19, 5)));
        assert_eq!(order_row(&record, u64::MAX), Err((19, 5)));
        not_well_formed(&record[7..]);
        not_well_formed(&record[..record.len() - 1]);
    }

    /// Every refusal of the reader goes before the row's 17, and leaves buffer and row.
    #[test]
    fn the_readers_refusals_go_before_the_rows_17() {
        for (text, bases, refusal) in [
            ("A:5;", "X", (1, 0)),
            ("A:\u{1};", "", (3, 2)),
            ("A:\"x;", "", (4, 2)),
            ("A:/;", "", (5, 2)),
            ("A:5", "", (6, 3)),
            ("A:5;6", "", (7, 4)),
            ("1:5;", "", (8, 0)),
            ("A:B=3,5;", "", (9, 6)),
            ("A:=1;", "", (10, 2)),
            ("A:N=1,N=1;", "", (21, 6)),
            ("A:1&;", "", (11, 4)),
            ("A:1.;", "", (12, 2)),
            ("A:4294967296;", "", (13, 2)),
            ("A:9&&5;", "", (14, 5)),
            ("A:::::::::;", "", (15, 9)),
            ("A:0&&4096;", "", (16, 2)),
        ] {
            assert_eq!(read_row(text, bases), Err(refusal), "{text}");
        }
    }

    /// The place of 17 is the bytes needed where both are too short, else the slots needed.
    #[test]
    fn the_rows_17_comes_behind_the_records_own() {
        let text = b"A:5,6,7;";
        let read = |room: usize, slots: usize| {
            let (mut out, mut row) = (vec![1; room], vec![2; slots]);
            let answer = model::read_row(text, b"", &mut out, &mut row);
            let refusal = answer.map_err(|refusal| (refusal.number, refusal.place));
            let untouched = out == vec![1; room] && row == vec![2; slots];
            (refusal, untouched)
        };
        assert_eq!(read(62, 2), (Err((17, 63)), true));
        assert_eq!(read(62, 3), (Err((17, 63)), true));
        assert_eq!(read(0, 0), (Err((17, 63)), true));
        assert_eq!(read(63, 2), (Err((17, 3)), true));
        assert_eq!(read(1000, 0), (Err((17, 3)), true));
        assert_eq!(read(63, 3), (Ok(63), false));
    }

    #[test]
    fn a_row_that_is_shorter_than_the_places() {
        let (record, row) = rowed("A:5,6:,N;", "");
        for slots in 0..4 {
            let missing = Err((28, slots as u32));
            for asked in [0, 1, 3, 4, u32::MAX] {
                assert_eq!(place(&record, &row[..slots], asked), missing);
            }
        }
        assert!(place(&record, &row, 0).is_ok());
    }

    #[test]
    fn a_slot_that_differs() {
        let (record, row) = rowed("A:5,6:,N;", "");
        for at in 0..4 {
            for other in [0, row[at] + 1, row[at] - 1, row[at] + 256, u32::MAX] {
                let mut wrong = row.clone();
                wrong[at] = other;
                for asked in [0, 1, 2, 3, 4, u32::MAX] {
                    assert_eq!(place(&record, &wrong, asked), Err((28, at as u32)));
                }
            }
        }
        let mut swapped = row.clone();
        swapped.swap(1, 2);
        assert_eq!(place(&record, &swapped, 0), Err((28, 1)));
        let behind_the_head: Vec<u32> = row.iter().map(|offset| offset - 7).collect();
        assert_eq!(place(&record, &behind_the_head, 3), Err((28, 0)));
    }

    #[test]
    fn the_first_such_slot() {
        let (record, row) = rowed("A:5,6:,N;", "");
        for first in 0..4 {
            for second in first + 1..4 {
                let mut wrong = row.clone();
                wrong[first] ^= 1;
                wrong[second] ^= 1;
                let refusal = Err((28, first as u32));
                assert_eq!(place(&record, &wrong, second as u32), refusal);
                assert_eq!(place(&record, &wrong[..second], 4), refusal);
            }
        }
    }

    #[test]
    fn slots_behind_the_places_are_not_looked_at() {
        for &(text, bases) in COMMANDS {
            let (record, row) = rowed(text, bases);
            let pages = pages(&record, &row);
            for more in [vec![0], vec![u32::MAX; 40], row.clone()] {
                let long = [row.clone(), more].concat();
                assert_eq!(self::pages(&record, &long), pages, "{text}");
                let past = row.len() as u32;
                assert_eq!(place(&record, &long, past), Err((26, past)), "{text}");
            }
        }
    }

    #[test]
    fn no_such_place() {
        for &(text, bases) in COMMANDS {
            let (record, row) = rowed(text, bases);
            let past = row.len() as u32;
            for asked in [past, past + 1, 33, 256, 1 << 16, 1 << 31, u32::MAX] {
                assert_eq!(place(&record, &row, asked), Err((26, asked)), "{text}");
            }
        }
    }

    #[test]
    fn a_record_without_places_has_an_empty_row() {
        let (record, row) = rowed("SET-ATT;", "");
        assert!(row.is_empty());
        assert_eq!(place(&record, &[], 0), Err((26, 0)));
        assert_eq!(place(&record, &[1, 2], 1), Err((26, 1)));
        assert_eq!(order_row(&record, 0), Ok((record, row)));
    }

    #[test]
    fn eighteen_goes_before_28_and_26() {
        let (mut record, row) = rowed("A:5&&8,;", "");
        for at in 0..record.len() {
            record[at] ^= 0x80;
            not_well_formed(&record);
            for asked in [0, 1, 2] {
                assert_eq!(place(&record, &row, asked), Err((18, 0)));
                assert_eq!(place(&record, &[9], asked), Err((18, 0)));
            }
            record[at] ^= 0x80;
        }
        assert!(place(&record, &row, 1).is_ok());
    }

    /// The row of one record is not that of another, though a slot may be alike.
    #[test]
    fn the_row_of_another_record() {
        let (record, row) = rowed("SET-ATT:LIN=7-1&&-3,LEV=3.5;", "DD");
        let (order, shorter) = order_row(&record, 0).unwrap();
        assert_eq!(place(&record, &shorter, 0), Err((28, 1)));
        assert_eq!(place(&order, &row, 0), Err((28, 1)));
        let (wider, other) = rowed("SET-ATT-X:LIN=7-1&&-3,LEV=3.5;", "DD");
        assert_eq!(place(&wider, &row, 1), Err((28, 0)));
        assert!(place(&wider, &other, 1).is_ok());
    }
}

/// M-109.
mod terminals_without_shift_lock {
    use super::*;

    #[test]
    fn a_base_prefix_may_be_small() {
        let expected = with_unit(b'D', numeral(b'H', 0, 255));
        assert_eq!(record("A:h'ff;", ""), expected);
        for (small, capital) in [
            ("d'19", "D'19"),
            ("d'1.90", "D'1.90"),
            ("h'1F", "H'1F"),
            ("o'17", "O'17"),
            ("b'101", "B'101"),
            ("k'0*#AD", "K'0*#AD"),
        ] {
            for base in ["D", "H", "O", "B"] {
                same(&format!("A:{small};"), &format!("A:{capital};"), base);
            }
        }
        same("A:k'1;", "A:1;", "K");
        same("A:h ' f\tf;", "A:H'FF;", "");
    }

    #[test]
    fn a_prefix_is_shut_out_where_its_capital_is() {
        for prefix in ["d", "h", "o", "b"] {
            refused(&format!("A:{prefix}'1;"), "K", 12, 2);
        }
        for word in ["a'1", "x'1", "hh'1", "h''1", "h'", "'f"] {
            refused(&format!("A:{word};"), "", 12, 2);
        }
    }

    #[test]
    fn a_hexadecimal_digit_may_be_small() {
        for (value, digit) in (10..).zip("abcdef".chars()) {
            let expected = with_unit(b'H', numeral(b'H', 0, value));
            assert_eq!(record(&format!("A:{digit};"), "H"), expected);
            assert_eq!(record(&format!("A:h'{digit};"), "H"), expected);
        }
        assert_eq!(
            record("A:cafe;", "H"),
            with_unit(b'H', numeral(b'H', 0, 51_966))
        );
        for word in ["fF", "Ff", "ff", "0fF"] {
            same(&format!("A:h'{word};"), "A:H'FF;", "");
            same(&format!("A:{word};"), "A:FF;", "H");
        }
        refused("A:h'g;", "", 12, 2);
        refused("A:H'g;", "", 12, 2);
        refused("A:d'a;", "", 12, 2);
        assert_eq!(record("A:fg;", "H"), with_unit(b'H', field(9, b"fg")));
    }

    #[test]
    fn a_keyed_letter_may_be_small() {
        assert_eq!(record("A:ab;", "K"), with_unit(b'K', field(8, b"AB")));
        assert_eq!(record("A:abcd;", "K"), with_unit(b'K', field(8, b"ABCD")));
        assert_eq!(record("A:0#a;", "K"), with_unit(b'K', field(8, b"0#A")));
        assert_eq!(record("A:k'1d#*;", "D"), with_unit(b'D', field(8, b"1D#*")));
        same("A:k'aBcD;", "A:K'ABCD;", "H");
        assert_eq!(record("A:e;", "K"), with_unit(b'K', field(9, b"e")));
        assert_eq!(record("A:abe;", "K"), with_unit(b'K', field(9, b"abe")));
        refused("A:k'e;", "", 12, 2);
        refused("A:a*e;", "K", 12, 2);
    }

    #[test]
    fn the_printer_writes_capitals() {
        prints("A:h'ff;", "", "A:H'FF;");
        prints("A:h'ff;", "H", "A:FF;");
        prints("A:ff&d'10&o'17&b'1;", "H", "A:FF&D'10&O'17&B'1;");
        prints("A:ab;", "K", "A:AB;");
        prints("A:k'1d#*;", "", "A:K'1D#*;");
    }

    #[test]
    fn leading_units_are_compared_as_the_record_holds_them() {
        prints("A:k'ab-1&K'AB-2;", "", "A:K'AB-1&-2;");
        prints("A:h'a-1&H'A-2;", "", "A:H'A-1&-2;");
        prints("A:ab-1&AB-2;", "", "A:ab-1&AB-2;");
    }

    #[test]
    fn identifiers_and_symbolic_names_keep_their_case() {
        prints("a:b=cafe;", "", "a:b=cafe;");
        prints("A:cafe&ab;", "O", "A:cafe&ab;");
        prints("A:cafg&Go;", "H", "A:cafg&Go;");
        prints("A:abe&Ok;", "K", "A:abe&Ok;");
        prints("A:1a&#a&a+&Ss#6;", "", "A:1a&#a&a+&Ss#6;");
        prints("A:#a&1g;", "H", "A:#a&1g;");
        prints("A:1e&a%;", "K", "A:1e&a%;");
        prints("A:\"h'ff\";", "", "A:\"h'ff\";");
        assert_eq!(record("A:1a;", ""), with_unit(b'D', field(10, b"1a")));
    }

    #[test]
    fn code_and_names_are_read_as_before() {
        for base in ["H", "K"] {
            prints("cafe-ab:ab-cafe=1;", base, "cafe-ab:ab-cafe=1;");
            record("A:ab=1,AB=1;", base);
            refused("h'a;", base, 8, 0);
            refused("A:h'a=1;", base, 10, 2);
            refused("A:n-k'1=1;", base, 10, 4);
        }
    }

    #[test]
    fn the_list_of_bases_keeps_capitals() {
        for letter in ["d", "h", "o", "b", "k"] {
            refused("A:1;", letter, 1, 0);
            refused("A:1;", &format!("HK{letter}"), 1, 2);
        }
    }

    #[test]
    fn the_elements_of_a_value_may_differ_in_kind() {
        let expected = ["A:FF;", "A:gg;", "A:\"ff\";", "A:K'AB;", "A:#f;"];
        assert_eq!(orders("A:ff&gg&\"ff\"&k'ab&#f;", "H"), expected);
    }

    #[test]
    fn ranges_with_small_letters() {
        let expected: Vec<String> = (9..=255).map(|n| format!("A:{n:X};")).collect();
        assert_eq!(expected.len(), 247);
        assert_eq!(orders("A:9&&ff;", "H"), expected);
        prints("A:h'9&&h'ff++h'a;", "", "A:H'9&&H'FF++H'A;");
        assert_eq!(
            orders("A:h'9&&H'f++h'3;", ""),
            ["A:H'9;", "A:H'C;", "A:H'F;"]
        );
        prints("A:7-a&&-f++b;", "H", "A:7-A&&-F++B;");
        refused("A:9&&ff;", "", 14, 3);
        refused("A:ff&&9;", "H", 14, 6);
        refused("A:h'9&&d'15;", "", 14, 5);
        refused("A:a&&b;", "K", 14, 3);
        refused("A:0&&ffff;", "H", 16, 2);
    }

    #[test]
    fn numerals_too_big() {
        refused("A:fffffffff;", "H", 13, 2);
        refused("A:h'fffffffff;", "", 13, 2);
        same("A:ffffffff;", "A:FFFFFFFF;", "H");
    }

    #[test]
    fn words_of_34_bytes() {
        let keyed = |letters| format!("A:k'{};", "d".repeat(letters));
        let expected = with_unit(b'D', field(8, &[b'D'; 32]));
        assert_eq!(record(&keyed(32), ""), expected);
        refused(&keyed(33), "", 15, 2);
        let zeros = "0".repeat(30);
        same(&format!("A:h'{zeros}ff;"), "A:H'FF;", "");
        refused(&format!("A:h'{zeros}0ff;"), "", 15, 2);
    }

    /// A word over these characters reads as a numeral where the same word in capitals does, and
    /// as the same one. If it is none, the word is kept as it is typed.
    #[test]
    fn every_short_word_under_every_base() {
        let characters = b"17abdefghkDHK*#%'.";
        for base in ["D", "H", "O", "B", "K"] {
            for first in characters {
                for second in characters {
                    for third in characters {
                        short_word(&[*first, *second, *third], base);
                    }
                }
            }
        }
    }

    /// Expects what is said above of one word.
    #[track_caller]
    fn short_word(word: &[u8], base: &str) {
        let read = |word: &[u8]| read_bytes(&[b"A:", word, b";"].concat(), base.as_bytes());
        let mut expected = read(&word.to_ascii_uppercase());
        if let Ok(record) = &mut expected {
            let (tag, _) = fields(record).pop().unwrap();
            if tag == 9 || tag == 10 {
                let start = record.len() - word.len();
                record[start..].copy_from_slice(word);
            }
        }
        assert_eq!(read(word), expected, "{} under {base}", word.escape_ascii());
    }

    #[test]
    fn a_record_that_holds_small_keyed_letters_is_not_well_formed() {
        for base in *b"DHOBK" {
            for word in [&b"a"[..], b"ab", b"Ab", b"aB", b"1d#*", b"1D#d"] {
                not_well_formed(&with_unit(base, field(8, word)));
            }
            for word in [&b"A"[..], b"AB", b"1D#*"] {
                assert_eq!(count(&with_unit(base, field(8, word))), Ok(1));
            }
        }
    }

    #[test]
    fn a_record_that_holds_a_small_numeral_as_another_unit_is_not_well_formed() {
        for (base, tag, word) in [
            (b'H', 9, &b"cafe"[..]),
            (b'H', 9, b"a"),
            (b'H', 9, b"a1"),
            (b'H', 9, b"Fe"),
            (b'K', 9, b"ab"),
            (b'K', 9, b"d"),
            (b'H', 10, b"1a"),
            (b'K', 10, b"1a"),
            (b'K', 10, b"#a"),
        ] {
            not_well_formed(&with_unit(base, field(tag, word)));
            assert_eq!(count(&with_unit(b'D', field(tag, word))), Ok(1));
        }
        for (base, tag, word) in [
            (b'K', 9, &b"cafe"[..]),
            (b'H', 9, b"cafg"),
            (b'K', 9, b"abe"),
            (b'H', 10, b"#a"),
            (b'K', 10, b"1e"),
        ] {
            assert_eq!(count(&with_unit(base, field(tag, word))), Ok(1));
        }
    }

    #[test]
    fn base_letters_in_records_are_capitals() {
        for letter in *b"dhobk" {
            not_well_formed(&in_place(letter, &[]));
            not_well_formed(&with_unit(b'D', numeral(letter, 0, 5)));
        }
    }
}
