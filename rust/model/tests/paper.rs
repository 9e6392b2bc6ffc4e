//! Document 01, sentence by sentence.

mod common;

use common::*;

mod characters_and_tokens {
    use super::*;

    #[test]
    fn base_letters() {
        for letter in ["D", "H", "O", "B", "K"] {
            record("A;", letter);
        }
        for letter in 0..=255u8 {
            if !b"DHOBK".contains(&letter) {
                assert_eq!(read_bytes(b"A;", &[letter]), Err((1, 0)));
                assert_eq!(read_bytes(b"A;", &[b'D', letter]), Err((1, 1)));
            }
        }
        record("A;", &"K".repeat(32));
        refused("A;", &"K".repeat(33), 1, 32);
    }

    #[test]
    fn the_nth_letter_is_of_the_nth_place_through_all_blocks() {
        let record = record("A:1,,11:X=1:,;", "HOBKDO");
        assert_eq!(bases_of(&record), b"HOBKDO");
        let record = common::record("A:10,10;", "H");
        assert_eq!(bases_of(&record), b"HD");
        assert!(record.ends_with(&numeral(b'D', 0, 10)));
    }

    #[test]
    fn permitted_bytes() {
        for byte in 0..=255u8 {
            let permitted = matches!(byte, 9..=13 | 32..=126);
            let comment = read_bytes(&[b"A/*", &[byte][..], b"*/;"].concat(), b"");
            let behind = read_bytes(&[b"\"A;", &[byte][..]].concat(), b"");
            if permitted {
                assert!(comment.is_ok(), "{byte}");
                assert_eq!(behind.unwrap_err().0 == 4, byte != b'"', "{byte}");
            } else {
                assert_eq!(comment, Err((3, 3)), "{byte}");
                assert_eq!(behind, Err((3, 3)), "{byte}");
            }
        }
    }

    #[test]
    fn what_a_byte_is_outside_strings() {
        for byte in 33..=126u8 {
            let text = [b"A:".as_slice(), &[byte], b";"].concat();
            let answer = read_bytes(&text, b"");
            let number = answer.err().map_or(0, |refusal| refusal.0);
            let expected = match byte {
                b'0'..=b'9' | b'A'..=b'Z' | b'a'..=b'z' | b'+' | b'#' | b'%' => 0,
                b',' | b':' => 0,
                b';' => 7,
                b'=' => 10,
                b'-' | b'&' => 11,
                b'.' | b'\'' | b'*' => 12,
                b'"' => 4,
                _ => 5,
            };
            assert_eq!(number, expected, "{}", byte as char);
        }
    }

    /// Since M-109 not in numerals.
    #[test]
    fn case_counts() {
        assert_ne!(record("Up;", ""), record("UP;", ""));
        same("A:d'1;", "A:D'1;", "");
        same("A:h'1;", "A:H'1;", "");
        assert_eq!(record("A:a;", "H"), with_unit(b'H', numeral(b'H', 0, 10)));
        assert_eq!(record("A:g;", "H"), with_unit(b'H', field(9, b"g")));
    }

    #[test]
    fn strings_and_comments_hold_every_permitted_byte() {
        let all: Vec<u8> = (9..=13).chain(32..=126).filter(|&b| b != b'"').collect();
        for content in all.chunks(80) {
            let text = [b"A:\"", content, b"\";"].concat();
            let expected = with_unit(b'D', field(11, content));
            assert_eq!(read_bytes(&text, b""), Ok(expected));
        }
        let text = [b"A/*", &all[..], b"*/;"].concat();
        assert_eq!(read_bytes(&text, b""), Ok(record("A;", "")));
    }

    #[test]
    fn only_strings_and_comments_hold_these() {
        for byte in "@[\\]^`{|}~$_!?<>()".chars() {
            refused(&format!("A{byte};"), "", 5, 1);
            record(&format!("A:\"{byte}\"/*{byte}*/;"), "");
        }
    }

    #[test]
    fn a_format_effector_is_nothing() {
        let spaced = "\tS E\n\x0bT -\x0c\rA T T : L I N = 7 - 1 & & - 3 , L E V = 3 . 5 ; ";
        same(spaced, "SET-ATT:LIN=7-1&&-3,LEV=3.5;", "DD");
        same("A:5&&9+ +2;", "A:5&&9++2;", "");
        same("A:H ' F F;", "A:H'FF;", "");
        same("A:7-1& -3& & -5;", "A:7-1&-3&&-5;", "");
        assert_ne!(record("A:\" \";", ""), record("A:\"\";", ""));
    }

    #[test]
    fn comments() {
        same("/*a*/A/*b*/:/*c*/5/*d*/;/*e*/", "A:5;", "");
        same("A:5/*/ * **/&/*;\"*/6;", "A:5&6;", "");
        same("A:\"/*\";", "A : \"/*\" ;", "");
        refused("A:5&&9+/**/+2;", "", 11, 11);
        refused("A:1/**/2;", "", 11, 7);
        refused("A:D/**/'1;", "", 11, 7);
        refused("A;/*", "", 4, 2);
        refused("A;/*/", "", 4, 2);
    }

    #[test]
    fn strings() {
        assert_eq!(record("A:\"\";", ""), with_unit(b'D', field(11, b"")));
        assert_eq!(record("A:\"\"\"\";", ""), with_unit(b'D', field(11, b"\"")));
        assert_eq!(
            record("A:\"a\"\"b\"\"\";", ""),
            with_unit(b'D', field(11, b"a\"b\""))
        );
        refused("A:\"a\"\";", "", 4, 2);
        refused("A:\"", "", 4, 2);
    }

    #[test]
    fn separators_longest_first() {
        names("7-1&&-3", &["7-1", "7-2", "7-3"]);
        names("7-1&-3", &["7-1", "7-3"]);
        names("5&&7", &["5", "6", "7"]);
        names("5&7", &["5", "7"]);
        names("5&&9++4", &["5", "9"]);
    }

    #[test]
    fn words_end_at_the_first_plus_plus() {
        for name in ["+", "+A", "A+", "A+B+C", "+1", "1+", "#+%"] {
            let expected = with_unit(b'D', field(10, name.as_bytes()));
            assert_eq!(record(&format!("A:{name};"), ""), expected);
        }
        refused("A:A++B;", "", 14, 3);
        refused("A:++;", "", 11, 2);
        refused("A:+ + +;", "", 11, 2);
    }
}

mod units {
    use super::*;

    /// What a unit's field is under a base: tag and content in words.
    fn unit(word: &str, base: &str) -> String {
        let record = match read(&format!("A:{word};"), base) {
            Ok(record) => record,
            Err((number, place)) => return format!("{number} at {place}"),
        };
        let (tag, content) = fields(&record).pop().unwrap();
        match tag {
            7 => {
                let value = u32::from_be_bytes(content[2..].try_into().unwrap());
                format!("{} {} {value}", content[0] as char, content[1])
            }
            _ => format!("{tag} {}", String::from_utf8(content).unwrap()),
        }
    }

    #[test]
    fn rule_1_prefixes() {
        for base in ["D", "H", "O", "B"] {
            assert_eq!(unit("D'19", base), "D 0 19");
            assert_eq!(unit("D'1.9", base), "D 1 19");
            assert_eq!(unit("d'1", base), "D 0 1");
            assert_eq!(unit("H'1F", base), "H 0 31");
            assert_eq!(unit("H'f", base), "H 0 15");
            assert_eq!(unit("O'17", base), "O 0 15");
            assert_eq!(unit("B'101", base), "B 0 5");
            assert_eq!(unit("K'0*#AD", base), "8 0*#AD");
        }
        assert_eq!(unit("K'0*#AD", "K"), "8 0*#AD");
        for word in ["D'1", "H'1", "O'1", "B'1", "d'1", "H'f"] {
            assert_eq!(unit(word, "K"), "12 at 2");
        }
    }

    #[test]
    fn rule_1_refuses() {
        let words = [
            "'", "D'", "'1", "1'1", "A'1", "DD'1", "D'1'1", "D''1", "D'A", "H'G", "H'g", "O'8",
            "B'2", "K'E", "K'", "K'1.5", "H'1.5", "O'1.5", "B'1.1", "D'.5", "D'5.", "D'1.2.3",
            "D'+1", "H'#", "K'%", "d'",
        ];
        for word in words {
            for base in ["D", "H", "O", "B", "K"] {
                assert_eq!(unit(word, base), "12 at 2", "{word} under {base}");
            }
        }
    }

    #[test]
    fn rule_2_numerals_of_the_default_base() {
        assert_eq!(unit("10", "D"), "D 0 10");
        assert_eq!(unit("10", "H"), "H 0 16");
        assert_eq!(unit("10", "O"), "O 0 8");
        assert_eq!(unit("10", "B"), "B 0 2");
        assert_eq!(unit("10", "K"), "8 10");
        assert_eq!(unit("CAFE", "H"), "H 0 51966");
        assert_eq!(unit("cafe", "H"), "H 0 51966");
        assert_eq!(unit("ABCD", "K"), "8 ABCD");
        assert_eq!(unit("0123456789*#ABCD", "K"), "8 0123456789*#ABCD");
        assert_eq!(unit("1.5", "H"), "12 at 2");
        assert_eq!(unit("1.5", "K"), "12 at 2");
    }

    #[test]
    fn rule_3_identifiers() {
        assert_eq!(unit("CAFE", "D"), "9 CAFE");
        assert_eq!(unit("CAFE", "K"), "9 CAFE");
        assert_eq!(unit("CAFG", "H"), "9 CAFG");
        assert_eq!(unit("U", "H"), "9 U");
        assert_eq!(unit("UPD8", "B"), "9 UPD8");
        assert_eq!(unit("cafe", "D"), "9 cafe");
    }

    #[test]
    fn rule_4_symbolic_names() {
        assert_eq!(unit("06H", "D"), "10 06H");
        assert_eq!(unit("10%", "D"), "10 10%");
        assert_eq!(unit("SS#6", "D"), "10 SS#6");
        assert_eq!(unit("1A", "D"), "10 1A");
        assert_eq!(unit("1A", "H"), "H 0 26");
        assert_eq!(unit("1A", "K"), "8 1A");
        assert_eq!(unit("#", "D"), "10 #");
        assert_eq!(unit("#", "K"), "8 #");
        assert_eq!(unit("1#", "H"), "10 1#");
        assert_eq!(unit("#%", "K"), "10 #%");
    }

    #[test]
    fn rule_5_otherwise_refused() {
        assert_eq!(unit("8", "O"), "12 at 2");
        assert_eq!(unit("2", "B"), "12 at 2");
        assert_eq!(unit("*", "D"), "12 at 2");
        assert_eq!(unit("A*", "D"), "12 at 2");
        assert_eq!(unit("1.A", "D"), "12 at 2");
        assert_eq!(unit("A.B", "D"), "12 at 2");
        assert_eq!(unit(".", "D"), "12 at 2");
    }

    #[test]
    fn decimal_numerals_with_a_full_stop() {
        assert_eq!(unit("3.50", "D"), "D 2 350");
        assert_eq!(unit("0003.5", "D"), "D 1 35");
        assert_eq!(unit("0.000", "D"), "D 3 0");
        assert_eq!(unit("1.000000000", "D"), "D 9 1000000000");
        assert_eq!(unit("0.0000000001", "D"), "13 at 2");
        assert_eq!(unit("4.294967295", "D"), "D 9 4294967295");
        assert_eq!(unit("4.294967296", "D"), "13 at 2");
        for word in ["1.", ".1", "1.2.3", "1..2"] {
            assert_eq!(unit(word, "D"), "12 at 2");
        }
    }

    #[test]
    fn values_to_the_limit() {
        assert_eq!(unit("4294967295", "D"), "D 0 4294967295");
        assert_eq!(unit("4294967296", "D"), "13 at 2");
        assert_eq!(unit("FFFFFFFF", "H"), "H 0 4294967295");
        assert_eq!(unit("100000000", "H"), "13 at 2");
        assert_eq!(unit("37777777777", "O"), "O 0 4294967295");
        assert_eq!(unit("40000000000", "O"), "13 at 2");
        assert_eq!(unit(&"1".repeat(32), "B"), "B 0 4294967295");
        assert_eq!(
            unit(&format!("B'{}", "1".repeat(32)), "D"),
            "B 0 4294967295"
        );
        assert_eq!(unit(&"9".repeat(32), "D"), "13 at 2");
        assert_eq!(unit(&format!("{}1", "0".repeat(31)), "D"), "D 0 1");
    }

    #[test]
    fn leading_zeros_go_but_not_from_keyed_numerals() {
        assert_eq!(unit("007", "D"), "D 0 7");
        assert_eq!(unit("00F", "H"), "H 0 15");
        assert_eq!(unit("007", "K"), "8 007");
        assert_eq!(unit("K'007", "D"), "8 007");
    }
}

mod command_block_place {
    use super::*;

    #[test]
    fn codes() {
        record("A;", "");
        record("A-B;", "");
        record("A-B-C1;", "");
        refused("A-B-C-D;", "", 8, 5);
        refused("1;", "", 8, 0);
        refused("A-1;", "", 8, 2);
        refused("A#;", "", 8, 0);
        refused("\"A\";", "", 8, 0);
        refused(";", "", 8, 0);
        refused(":;", "", 8, 0);
        refused("A B-;", "", 8, 4);
        refused("A&B;", "", 8, 1);
        refused("A=B;", "", 8, 1);
        refused("A,B;", "", 8, 1);
    }

    #[test]
    fn blocks_and_places() {
        assert_eq!(bases_of(&record("A:;", "")).len(), 1);
        assert_eq!(bases_of(&record("A:,;", "")).len(), 2);
        assert_eq!(bases_of(&record("A::;", "")).len(), 2);
        assert_eq!(bases_of(&record("A:1,2:N=3;", "")).len(), 3);
        let expected = [
            field(1, b"A"),
            field(2, b"P"),
            field(3, b"D"),
            field(2, b"N"),
            field(3, b"D"),
            field(4, b"N"),
            single(),
            numeral(b'D', 0, 1),
        ];
        assert_eq!(record("A::N=1;", ""), one(&expected));
    }

    #[test]
    fn kinds_must_agree_within_a_block() {
        record("A:N=1,M=2:3,4;", "");
        refused("A:N=1,2;", "", 9, 6);
        refused("A:1,N=2;", "", 9, 4);
        refused("A:N=1,;", "", 9, 6);
        refused("A:,N=1;", "", 9, 3);
        refused("A:N=1:1,N=2;", "", 9, 8);
    }

    #[test]
    fn names() {
        record("A:N=1;", "");
        record("A:N-M-1-02=1;", "");
        refused("A:1=1;", "", 10, 2);
        refused("A:N-M-1-2-3=1;", "", 10, 9);
        refused("A:N-H'1=1;", "", 10, 4);
        refused("A:N-1.5=1;", "", 10, 4);
        refused("A:N&M=1;", "", 10, 3);
        refused("A:N M/**/O=1;", "", 10, 9);
        refused("A:N+=1;", "", 10, 2);
        refused("A:=;", "", 10, 2);
        refused("A:N=;", "", 11, 4);
        refused("A:N=,M=1;", "", 11, 4);
        refused("A:N=:;", "", 11, 4);
    }
}

mod groups {
    use super::*;

    #[test]
    fn elements_and_arguments() {
        names("5&A&\"x\"&1.5", &["5", "A", "\"x\"", "1.5"]);
        names("1-2-3-4", &["1-2-3-4"]);
        names("A-B&C-D", &["A-B", "C-D"]);
        names("5&5&5", &["5", "5", "5"]);
        names("5&&5", &["5"]);
        names("5&&6&5&&6", &["5", "6", "5", "6"]);
        names(
            "1-2-3&-4&&-6&-\"x\"&7-8-9",
            &["1-2-3", "1-2-4", "1-2-5", "1-2-6", "1-2-\"x\"", "7-8-9"],
        );
    }

    #[test]
    fn ranges_name_nothing_above_the_upper_end() {
        names("5&&9++2&10", &["5", "7", "9", "10"]);
        names("5&&9++3", &["5", "8"]);
        names("5&&9++4", &["5", "9"]);
        names("5&&9++5", &["5"]);
        names("4294967290&&4294967295++3", &["4294967290", "4294967293"]);
        names("4294967295&&4294967295++2", &["4294967295"]);
        names("0&&4294967295++4294967295", &["0", "4294967295"]);
        names("0&&4294967295++2147483648", &["0", "2147483648"]);
    }

    #[test]
    fn ranges_in_every_base() {
        assert_eq!(orders("A:9&&B;", "H"), ["A:9;", "A:A;", "A:B;"]);
        assert_eq!(orders("A:7&&11;", "O"), ["A:7;", "A:10;", "A:11;"]);
        assert_eq!(orders("A:1&&100++10;", "B"), ["A:1;", "A:11;"]);
        assert_eq!(orders("A:H'9&&H'A;", ""), ["A:H'9;", "A:H'A;"]);
    }

    #[test]
    fn broken_rules() {
        refused("A:1-2-3-4-5;", "", 14, 9);
        refused("A:1&2-3;", "", 14, 4);
        refused("A:1-2&3;", "", 14, 6);
        refused("A:5&-6;", "", 14, 3);
        refused("A:5&&-6;", "", 14, 3);
        refused("A:5-1&&6;", "", 14, 5);
        refused("A:A&&B;", "", 14, 3);
        refused("A:5&&B;", "", 14, 3);
        refused("A:A&&5;", "", 14, 3);
        refused("A:K'5&&K'6;", "", 14, 5);
        refused("A:5&&6;", "K", 14, 3);
        refused("A:5&&H'6;", "", 14, 3);
        refused("A:5&&6.0;", "", 14, 3);
        refused("A:\"5\"&&\"6\";", "", 14, 5);
        refused("A:9&&5;", "", 14, 5);
        refused("A:7-3&&-1;", "", 14, 8);
        refused("A:5&&9++0;", "", 14, 8);
        refused("A:5&&9++A;", "", 14, 8);
        refused("A:5&&9++1.0;", "", 14, 8);
        refused("A:5&&9++H'1;", "", 14, 8);
        refused("A:5&&9&&12;", "", 14, 6);
        refused("A:5++2;", "", 14, 3);
        refused("A:7-1&-3++2;", "", 14, 8);
    }
}

mod the_record {
    use super::*;

    #[test]
    fn the_example_of_77_bytes() {
        let example = hex(
            "010003534554 010003415454 0200014E 03000144 0400034C494E 0600080000000300000001 \
             070006440000000007 070006440000000001 03000144 0400034C4556 050000 \
             070006440100000023",
        );
        let text = "SET-ATT:LIN=7-1&&-3,LEV=3.5;";
        assert_eq!(example.len(), 77);
        let expected = counted(3, &[example]);
        assert_eq!(read(text, "DD"), Ok(expected.clone()));
        assert_eq!(print(&expected).as_deref(), Ok(text));
        assert_eq!(count(&expected), Ok(3));
        let expected = [
            "SET-ATT:LIN=7-1,LEV=3.5;",
            "SET-ATT:LIN=7-2,LEV=3.5;",
            "SET-ATT:LIN=7-3,LEV=3.5;",
        ];
        assert_eq!(orders(text, "DD"), expected);
    }

    #[test]
    fn every_tag() {
        let expected = [
            field(1, b"A"),
            field(1, b"B2"),
            field(2, b"P"),
            field(3, b"H"),
            single(),
            numeral(b'H', 0, 31),
            single(),
            field(8, b"*1#"),
            single(),
            field(9, b"GO"),
            single(),
            field(10, b"+1"),
            single(),
            field(11, b"a\"b"),
            field(3, b"D"),
            field(2, b"N"),
            field(3, b"K"),
            field(4, b"N"),
            field(4, b"07"),
            single(),
            field(8, b"007"),
            field(8, b"1"),
            single(),
            field(8, b"007"),
            field(8, b"2"),
            field(3, b"D"),
            field(4, b"M"),
            range(9, 2),
            numeral(b'O', 0, 5),
        ];
        let text = "A-B2:1F&K'*1#&GO&+1&\"a\"\"b\",:N-07=007-1&-2,M=O'5&&O'11++O'2;";
        let expected = counted(30, &expected);
        assert_eq!(record(text, "HDKD"), expected);
        assert_eq!(print(&expected).as_deref(), Ok(text));
    }

    #[test]
    fn leading_units_are_repeated_in_full() {
        assert_eq!(
            record("A:7-1&-3&&-5;", ""),
            group_in_place(
                4,
                b'D',
                &[
                    single(),
                    numeral(b'D', 0, 7),
                    numeral(b'D', 0, 1),
                    range(5, 1),
                    numeral(b'D', 0, 7),
                    numeral(b'D', 0, 3),
                ]
            )
        );
    }
}

mod the_printer {
    use super::*;

    #[test]
    fn writes_no_comment_and_no_format_effector() {
        prints("A : \" x \" /*c*/ , 5 ;", "", "A:\" x \",5;");
    }

    #[test]
    fn writes_a_prefix_only_where_the_base_differs() {
        prints("A:D'5,H'5,K'5;", "DHK", "A:5,5,5;");
        prints("A:H'5,D'5,K'5;", "DHD", "A:H'5,D'5,K'5;");
        prints("A:D'1.5;", "H", "A:D'1.5;");
        prints("A:B'101&O'17&D'9;", "H", "A:B'101&O'17&D'9;");
    }

    #[test]
    fn writes_numerals_without_leading_zeros_but_with_all_fraction_digits() {
        prints("A:007&00.50&0.05&0.0&000;", "", "A:7&0.50&0.05&0.0&0;");
        prints("A:0000A0;", "H", "A:A0;");
        prints("A:4294967295&4.294967295;", "", "A:4294967295&4.294967295;");
        prints("A:0.000000001;", "", "A:0.000000001;");
    }

    #[test]
    fn writes_no_increment_of_1() {
        prints("A:5&&9++1;", "", "A:5&&9;");
        prints("A:5&&9++2;", "", "A:5&&9++2;");
        prints("A:7-5&&-9++01;", "", "A:7-5&&-9;");
    }

    #[test]
    fn writes_the_short_form_exactly_where_leading_units_repeat() {
        prints("A:7-1&7-3&8-1&8-2;", "", "A:7-1&-3&8-1&-2;");
        prints("A:7-1&&-3&7-5;", "", "A:7-1&&-3&-5;");
        prints("A:7-1&7-3&&-5;", "", "A:7-1&-3&&-5;");
        prints("A:1-2-3&1-2-4&1-3-4;", "", "A:1-2-3&-4&1-3-4;");
        prints("A:5&5&5;", "", "A:5&5&5;");
        prints("A:\"a\"-1&\"a\"-2&A-3;", "", "A:\"a\"-1&-2&A-3;");
        prints("A:7-1,7-1;", "", "A:7-1,7-1;");
    }

    #[test]
    fn refuses_a_text_over_the_limit() {
        let string = field(11, &[b'x'; 80]);
        let place = [field(3, b"D"), single(), string.clone()].concat();
        let mut long = one(&[field(1, b"A"), field(2, b"P")]);
        for _ in 0..12 {
            long.extend_from_slice(&place);
        }
        assert_eq!(print(&long).unwrap().len(), 2 + 12 * 83);
        let rest = |length: usize| {
            let string = field(11, &vec![b'y'; length]);
            [&long[..], &field(3, b"D"), &single(), &string].concat()
        };
        assert_eq!(print(&rest(23)).unwrap().len(), 1024);
        assert_eq!(print(&rest(24)), Err((2, 1024)));
        assert_eq!(count(&rest(24)), Ok(1));
        assert_eq!(order(&rest(24), 0), Ok(rest(24)));
        let marks = [
            &long[..],
            &field(3, b"D"),
            &single(),
            &field(11, &[b'"'; 12]),
        ]
        .concat();
        assert_eq!(print(&marks), Err((2, 1024)));
    }
}

mod orders {
    use super::*;

    /// The arguments that a value of single elements and ranges names, by stepping.
    fn list(places: &[&[&str]]) -> Vec<String> {
        let mut list = vec![String::from("A:")];
        for (n, place) in places.iter().enumerate() {
            let mut longer = Vec::new();
            for start in &list {
                for argument in *place {
                    let comma = if n > 0 { "," } else { "" };
                    longer.push(format!("{start}{comma}{argument}"));
                }
            }
            list = longer;
        }
        list.iter().map(|order| format!("{order};")).collect()
    }

    #[test]
    fn every_combination_the_last_place_fastest() {
        let expected = list(&[
            &["1", "2"],
            &[""],
            &["7-1", "7-2", "8-5"],
            &["X"],
            &["0", "3", "6", "6"],
        ]);
        let text = "A:1&2,,7-1&&-2&8-5,X,0&&8++3&6;";
        assert_eq!(orders(text, ""), expected);
    }

    #[test]
    fn an_omitted_place_counts_one() {
        assert_eq!(orders("A:;", ""), ["A:;"]);
        assert_eq!(orders("A;", ""), ["A;"]);
        assert_eq!(orders("A:,:,;", ""), ["A:,:,;"]);
    }

    #[test]
    fn an_order_keeps_blocks_names_and_letters() {
        let text = "A-B:N-1=F&&10,M=1&2::,5;";
        let expected = [
            "A-B:N-1=F,M=1::,5;",
            "A-B:N-1=F,M=2::,5;",
            "A-B:N-1=10,M=1::,5;",
            "A-B:N-1=10,M=2::,5;",
        ];
        assert_eq!(orders(text, "HDOBD"), expected);
        let record = record(text, "HDOBD");
        for k in 0..4 {
            assert_eq!(bases_of(&order(&record, k).unwrap()), b"HDOBD");
        }
    }

    #[test]
    fn the_sole_order_of_an_order_is_itself() {
        let record = record("A:1&&3,7-1&-2:N=X&\"y\";", "");
        for k in 0..count(&record).unwrap() as u64 {
            let order = common::order(&record, k).unwrap();
            assert_eq!(count(&order), Ok(1));
            assert_eq!(common::order(&order, 0), Ok(order.clone()));
        }
    }

    #[test]
    fn the_last_order_of_many() {
        let record = record("A:0&&4094,0&&15;", "");
        assert_eq!(count(&record), Ok(65_520));
        let text = |k| print(&order(&record, k).unwrap()).unwrap();
        assert_eq!(text(0), "A:0,0;");
        assert_eq!(text(65_519), "A:4094,15;");
        assert_eq!(text(16 * 1000 + 7), "A:1000,7;");
    }

    #[test]
    fn refuses_k_from_the_count_on() {
        let record = record("A:1&&3;", "");
        assert!(order(&record, 2).is_ok());
        for k in [3, 4, 65_536, 1 << 32, u64::MAX] {
            assert_eq!(order(&record, k), Err((19, 3)));
        }
    }
}

mod refusals {
    use super::*;

    #[test]
    fn text_length() {
        let text = |length: usize| format!("A;{}", " ".repeat(length - 2));
        record(&text(1024), "");
        refused(&text(1025), "", 2, 1024);
        refused(&text(5000), "", 2, 1024);
        refused(&"\x00".repeat(1025), "", 2, 1024);
    }

    #[test]
    fn word_length() {
        let word = |length: usize| "A".repeat(length);
        record(&format!("{};", word(32)), "");
        refused(&format!("{};", word(33)), "", 15, 0);
        refused(&format!("A:{};", word(33)), "", 15, 2);
        record(&format!("A:K'{};", "1".repeat(32)), "");
        refused(&format!("A:K'{};", "1".repeat(33)), "", 15, 2);
        record(&format!("A:{};", "1 ".repeat(32)), "K");
        refused(&format!("A:{};", "1 ".repeat(33)), "K", 15, 2);
        refused(&format!("A:{}++{};", word(32), word(33)), "", 15, 36);
    }

    #[test]
    fn string_length() {
        record(&format!("A:\"{}\";", "x".repeat(80)), "");
        refused(&format!("A:\"{}\";", "x".repeat(81)), "", 15, 2);
        record(&format!("A:\"{}\";", "\"\"".repeat(80)), "");
        refused(&format!("A:\"{}\";", "\"\"".repeat(81)), "", 15, 2);
        refused(&format!("A:\"{};", "x".repeat(81)), "", 4, 2);
    }

    #[test]
    fn the_first_found_of_the_scan_wins() {
        let long = "A".repeat(33);
        refused(&format!("{long}$"), "", 15, 0);
        refused(&format!("${long}"), "", 5, 0);
        refused(&format!("{long}\""), "", 15, 0);
        refused(&format!("\"{long}"), "", 4, 0);
        refused("/**//", "", 5, 4);
        refused("/**/\"", "", 4, 4);
    }

    #[test]
    fn in_the_paper_s_order() {
        refused("\x00", "X", 1, 0);
        refused(&"\x00".repeat(1025), "", 2, 1024);
        refused("$\x00", "", 3, 1);
        refused("\"\x7f", "", 3, 1);
        refused("$", "", 5, 0);
        refused("1", "", 6, 1);
        refused("1;1;", "", 7, 2);
        refused("1:::::::::;", "", 8, 0);
        refused("A:N=1,1-;", "", 9, 6);
        refused("A:1=-;", "", 10, 2);
        refused("A:N=1.-;", "", 11, 7);
        refused("A:1.&-2;", "", 12, 2);
        refused("A:4294967296&-2;", "", 13, 2);
        refused("A:0&&5000&-2;", "", 14, 9);
    }

    #[test]
    fn no_end_and_past_the_end() {
        refused("", "", 6, 0);
        refused("A", "", 6, 1);
        refused("A:5 ", "", 6, 4);
        refused("A:\";\"", "", 6, 5);
        refused("A/*;*/", "", 6, 6);
        refused("A;;", "", 7, 2);
        refused("A; B", "", 7, 3);
        refused("A;/*x*/\"y\"", "", 7, 7);
        record("A; \n/*x*/", "");
    }

    #[test]
    fn blocks_and_places() {
        record(&format!("A{};", ":".repeat(8)), "");
        refused(&format!("A{};", ":".repeat(9)), "", 15, 9);
        record(&format!("A:{};", ",".repeat(31)), "");
        refused(&format!("A:{};", ",".repeat(32)), "", 15, 34);
        refused(&format!("A:{}5;", ",".repeat(32)), "", 15, 34);
        refused(&format!("A:{}:,5;", ",".repeat(30)), "", 15, 34);
        refused(&format!("A:{}::;", ",".repeat(30)), "", 15, 34);
    }

    #[test]
    fn elements() {
        let value = |elements: usize| vec!["5"; elements].join("&");
        record(&format!("A:{};", value(64)), "");
        refused(&format!("A:{};", value(65)), "", 15, 2 + 127);
        refused(&format!("A:{}&&9&&5;", value(65)), "", 15, 2 + 127);
        refused(&format!("A:9&&5&{};", value(65)), "", 14, 5);
        let short = format!("A:7-1{};", "&-1".repeat(63));
        record(&short, "");
        refused(&format!("A:7-1{};", "&-1".repeat(64)), "", 15, 5 + 63 * 3);
    }

    #[test]
    fn arguments_and_orders() {
        record("A:0&&4095;", "");
        refused("A:0&&4096;", "", 16, 2);
        refused("A:0&&4095&5;", "", 16, 2);
        refused("A:5&0&&4095;", "", 16, 2);
        refused("A:N=0&&4096;", "", 16, 4);
        assert_eq!(count(&record("A:0&&254,0&&256;", "")), Ok(65_535));
        refused("A:0&&255,0&&255;", "", 16, 9);
        refused("A:0&&255,0&&255,1&2;", "", 16, 9);
        refused("A:0&&254,0&&256,1&2;", "", 16, 16);
    }

    #[test]
    fn what_is_empty_is_shown_by_the_separator_that_ends_it() {
        refused("A:N=1, ,M=2;", "", 9, 7);
        refused("A:5&,6;", "", 11, 4);
        refused("A:5&:6;", "", 11, 4);
        refused("A:5& ;", "", 11, 5);
        refused("A:N= ;", "", 11, 5);
    }

    #[test]
    fn the_buffer_too_short() {
        let mut out = [7; 83];
        let answer = model::read(b"SET-ATT:LIN=7-1&&-3,LEV=3.5;", b"DD", &mut out);
        let refusal = answer.unwrap_err();
        assert_eq!((refusal.number, refusal.place), (17, 84));
        assert_eq!(out, [7; 83]);
    }
}

mod lines_to_prove {
    use super::*;

    #[test]
    fn the_twelve() {
        assert_eq!(orders("A;", ""), ["A;"]);
        assert_eq!(record("A:;", ""), in_place(b'D', &[]));
        names("5&&9++2&10", &["5", "7", "9", "10"]);
        names("5&&9++7", &["5"]);
        refused("A:9&&5;", "", 14, 5);
        refused("A:B=3,5;", "", 9, 6);
        assert_eq!(bases_of(&record("A:3,5;", "")).len(), 2);
        names("7-1&-3&&-5", &["7-1", "7-3", "7-4", "7-5"]);
        assert_eq!(
            record("A:CAFE;", "H"),
            with_unit(b'H', numeral(b'H', 0, 51_966))
        );
        assert_eq!(record("A:CAFE;", "D"), with_unit(b'D', field(9, b"CAFE")));
        refused("A:9;", "O", 12, 2);
        refused("U/*x*/P;", "", 8, 6);
        prints("U P;", "", "UP;");
        refused("A:5&&5++0;", "", 14, 8);
    }

    #[test]
    fn the_lines_to_run() {
        refused("", "", 6, 0);
        refused("A:D'1;", "K", 12, 2);
        assert_eq!(
            record("A:4294967295;", ""),
            with_unit(b'D', numeral(b'D', 0, u32::MAX))
        );
        refused("A:4294967296;", "", 13, 2);
        assert_eq!(count(&record("A:0&&4095;", "")), Ok(4096));
        refused("A:0&&4096;", "", 16, 2);
        assert_eq!(count(&record("A:0&&254,0&&256;", "")), Ok(65_535));
        refused("A:0&&255,0&&255;", "", 16, 9);
    }

    #[test]
    fn the_three_misreadings() {
        refused("U/*x*/P;", "", 8, 6);
        assert_ne!(record("A:CAFE;", "H"), record("A:CAFE;", "D"));
        names("4294967295&&4294967295++2", &["4294967295"]);
    }
}
