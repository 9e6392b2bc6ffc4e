//! How document 01 is read where it leaves a choice: each row is a test.

mod common;

use common::*;

mod scan {
    use super::*;

    #[test]
    fn adjacent_means_neighbouring_bytes() {
        refused("/ *x*/A;", "", 5, 0);
        refused("/*x* /A;", "", 4, 0);
        refused("A:\"a\" \"b\";", "", 11, 6);
    }

    #[test]
    fn the_closing_of_a_comment_shares_no_byte_with_the_opening() {
        refused("/*/A;", "", 4, 0);
        same("/***/A;", "A;", "");
    }

    #[test]
    fn the_asterisk_is_a_word_character_and_the_solidus_is_none() {
        refused("A*/B;", "", 5, 2);
        same("A:1*/*c*/;", "A:1*;", "K");
        prints("A:1*/*c*/;", "K", "A:1*;");
    }

    #[test]
    fn bytes_that_stand_only_in_strings_and_comments() {
        refused("A$B;", "", 5, 1);
        refused("A:(1);", "", 5, 2);
    }

    #[test]
    fn the_leftmost_plus_plus_wins() {
        refused("A:5&&9+++2;", "", 14, 8);
        refused("A:5&&9++++2;", "", 11, 8);
        refused("A:X+ +Y;", "", 14, 3);
    }

    #[test]
    fn a_lone_plus_is_a_word() {
        assert_eq!(record("A:+;", ""), with_unit(b'D', field(10, b"+")));
    }

    #[test]
    fn longest_separator_first_through_format_effectors_but_not_comments() {
        refused("A:5&&&9;", "", 11, 5);
        same("A:7-1& & - 3;", "A:7-1&&-3;", "");
        refused("A:7-1&/**/-3;", "", 11, 10);
    }

    #[test]
    fn the_limit_is_34_where_the_second_byte_is_the_apostrophe() {
        refused(&format!("A:Z'{};", "1".repeat(32)), "", 12, 2);
        let zeros = format!("A:D '{};", "0".repeat(32));
        assert_eq!(record(&zeros, ""), with_unit(b'D', numeral(b'D', 0, 0)));
    }

    #[test]
    fn format_effectors_inside_a_string_count() {
        refused(&format!("A:\"{}\";", " ".repeat(81)), "", 15, 2);
    }

    #[test]
    fn refusal_15_is_shown_by_the_first_byte() {
        refused(&format!("A: {};", "B".repeat(33)), "", 15, 3);
        refused(&format!("A: \"{}\";", "b".repeat(81)), "", 15, 3);
    }

    #[test]
    fn the_scan_runs_over_the_whole_text() {
        refused("A;$", "", 5, 2);
        refused(";A;", "", 7, 1);
    }

    #[test]
    fn bytes_above_127() {
        for byte in 127..=255u8 {
            assert_eq!(read_bytes(&[b'A', byte, b';'], b""), Err((3, 1)));
        }
    }

    #[test]
    fn the_first_of_a_wrong_letter_and_a_33rd() {
        let letters = format!("{}X", "D".repeat(40));
        refused("A;", &letters, 1, 32);
    }

    #[test]
    fn letters_that_no_place_uses_are_judged_too() {
        refused("A;", "X", 1, 0);
    }
}

mod code_places_names {
    use super::*;

    #[test]
    fn identifiers_in_codes_and_names_ask_no_base() {
        record("CAFE:1;", "H");
        record("A:CAFE=1;", "H");
    }

    #[test]
    fn a_piece_too_many_is_shown_by_the_hyphen_before_it() {
        refused("A-B-C-D;", "", 8, 5);
        refused("A:N-1-2-3-4=1;", "", 10, 9);
    }

    #[test]
    fn a_missing_piece_is_shown_by_the_token_met() {
        refused("A-;", "", 8, 2);
        refused("A:=1;", "", 10, 2);
        refused("A:N-=1;", "", 10, 4);
        refused("A:N=;", "", 11, 4);
    }

    #[test]
    fn the_name_ends_at_the_first_equal_sign() {
        refused("A:N=1=2;", "", 11, 5);
        refused("A:N==1;", "", 11, 4);
    }

    #[test]
    fn a_place_is_named_if_an_equal_sign_stands_anywhere_in_it() {
        refused("A:5=;", "", 10, 2);
        refused("A:1,2=3;", "", 9, 4);
    }

    #[test]
    fn first_place_omitted_the_block_is_p() {
        refused("A:,N=1;", "", 9, 3);
        refused("A:N=1,;", "", 9, 6);
    }

    #[test]
    fn identifiers_and_index_numbers_mix() {
        let expected = [
            field(1, b"A"),
            field(2, b"N"),
            field(3, b"D"),
            field(4, b"B"),
            field(4, b"1"),
            field(4, b"C"),
            field(4, b"07"),
            single(),
            numeral(b'D', 0, 5),
        ];
        assert_eq!(record("A:B-1-C-07=5;", ""), one(&expected));
    }

    #[test]
    fn no_strings_prefixes_numerals() {
        refused("H'A;", "", 8, 0);
        refused("A:B-\"x\"=1;", "", 10, 4);
    }

    #[test]
    fn all_rows_for_one_place_then_the_next() {
        refused("A:9&&5,N=1;", "", 14, 5);
        refused("A:::::::9&&5::;", "", 14, 11);
        refused("A:0&&4096,N=1;", "", 16, 2);
    }

    #[test]
    fn a_ninth_colon_that_ends_a_wrong_place() {
        refused("A::::::::B=1,:;", "", 9, 13);
    }

    #[test]
    fn a_33rd_place_goes_before_its_own_refusals() {
        refused(&format!("A:{}B=5;", ",".repeat(32)), "", 15, 34);
        refused(&format!("A:{}1-;", ",".repeat(32)), "", 15, 34);
    }

    #[test]
    fn a_ninth_block_goes_before_a_33rd_place() {
        let text = format!("A:{}::::::::;", ",".repeat(24));
        assert_eq!(text.matches(':').count(), 9);
        refused(&text, "", 15, text.rfind(':').unwrap());
    }
}

mod units {
    use super::*;

    #[test]
    fn only_prefixes_are_shut_out_under_k() {
        assert_eq!(record("A:E;", "K"), with_unit(b'K', field(9, b"E")));
        assert_eq!(record("A:\"x\";", "K"), with_unit(b'K', field(11, b"x")));
        assert_eq!(record("A:1%;", "K"), with_unit(b'K', field(10, b"1%")));
    }

    #[test]
    fn rule_2_goes_before_3_and_4_even_where_the_numeral_is_too_big() {
        refused("A:FFFFFFFFF;", "H", 13, 2);
    }

    #[test]
    fn the_digit_of_rule_4_is_0_to_9() {
        assert_eq!(record("A:9%;", "O"), with_unit(b'O', field(10, b"9%")));
        refused("A:12;", "B", 12, 2);
    }

    #[test]
    fn the_value_with_a_fraction_is_the_number_without_the_stop() {
        refused("A:42949672.96;", "", 13, 2);
        let expected = with_unit(b'D', numeral(b'D', 1, 4_294_967_295));
        assert_eq!(record("A:429496729.5;", ""), expected);
    }

    #[test]
    fn all_units_before_any_group_rule() {
        refused("A:4294967296&1.;", "", 13, 2);
        refused("A:9&&5&1.;", "", 12, 7);
    }

    #[test]
    fn keyed_numerals_keep_leading_zeros() {
        assert_eq!(record("A:007;", "K"), with_unit(b'K', field(8, b"007")));
    }
}

mod groups {
    use super::*;

    #[test]
    fn an_argument_in_full_with_another_number_of_units() {
        refused("A:1&2-3;", "", 14, 4);
        refused("A:1-2&3-4-5;", "", 14, 6);
        refused("A:5-1&6-3-4-5-6;", "", 14, 6);
    }

    #[test]
    fn the_leftmost_place_not_the_first_discovery() {
        refused("A:5-1&6&&9;", "", 14, 6);
    }

    #[test]
    fn the_first_argument_past_4_units() {
        refused("A:1-2-3-4-5;", "", 14, 9);
    }

    #[test]
    fn a_hyphen_too_many() {
        refused("A:1-2&-3-4;", "", 14, 8);
        refused("A:5&&9-2;", "", 14, 6);
        refused("A:5&&9++2-1;", "", 14, 9);
    }

    #[test]
    fn the_range_is_the_element_before() {
        names("7-1&&-3&-5", &["7-1", "7-2", "7-3", "7-5"]);
    }

    #[test]
    fn a_range_cannot_continue() {
        refused("A:5&&9&&12;", "", 14, 6);
        refused("A:5&&9++2&&12;", "", 14, 9);
        refused("A:7-5&&-9&&-12;", "", 14, 9);
    }

    #[test]
    fn plus_plus_without_a_range_or_twice() {
        refused("A:5++2;", "", 14, 3);
        refused("A:5&&9++2++3;", "", 14, 9);
    }

    #[test]
    fn no_prefix_is_inherited() {
        refused("A:H'5&&9;", "", 14, 5);
        refused("A:H'5&&H'9++2;", "", 14, 12);
        names("5&&D'9", &["5", "6", "7", "8", "9"]);
    }

    #[test]
    fn without_fraction_is_no_fraction_digits() {
        refused("A:5.0&&9;", "", 14, 5);
    }

    #[test]
    fn the_order_within_one_range() {
        refused("A:9&&X++0;", "", 14, 3);
        refused("A:9&&5++0;", "", 14, 5);
    }

    #[test]
    fn the_65th_element() {
        let text = format!("A:{}5&-5;", "5&".repeat(63));
        refused(&text, "", 15, text.find("&-").unwrap());
        let text = format!("A:{}5&&-5;", "5&".repeat(63));
        refused(&text, "", 14, text.find("&&-").unwrap());
    }

    #[test]
    fn refusal_15_goes_before_16() {
        let text = format!("A:0&&4096{};", "&5".repeat(64));
        refused(&text, "", 15, text.rfind('&').unwrap());
    }

    #[test]
    fn a_range_stays_as_typed() {
        let expected = in_place(b'D', &[range(9, 7), numeral(b'D', 0, 5)]);
        assert_eq!(record("A:5&&9++7;", ""), expected);
        let expected = in_place(b'D', &[range(5, 1), numeral(b'D', 0, 5)]);
        assert_eq!(record("A:5&&5;", ""), expected);
    }
}

mod sizes_records_printer_orders {
    use super::*;

    #[test]
    fn too_many_orders_comes_after_all_places() {
        refused("A:0&&255,0&&255,0&&4096;", "", 16, 16);
        refused("A:N=0&&255,M=0&&255;", "", 16, 13);
    }

    #[test]
    fn terms_are_counted_without_wrap_around() {
        refused("A:0&&4294967295;", "", 16, 2);
    }

    #[test]
    fn records_that_no_text_gives() {
        not_well_formed(&with_unit(b'H', field(9, b"CAFE")));
        not_well_formed(&with_unit(b'H', field(10, b"1A")));
        not_well_formed(&with_unit(b'K', field(10, b"#")));
        not_well_formed(&with_unit(b'K', numeral(b'D', 0, 5)));
        not_well_formed(&with_unit(b'D', field(10, b"A++")));
    }

    #[test]
    fn fraction_digits_0_to_9_and_only_with_letter_d() {
        for fraction in 0..=9 {
            assert_eq!(count(&with_unit(b'H', numeral(b'D', fraction, 5))), Ok(1));
        }
        not_well_formed(&with_unit(b'D', numeral(b'D', 10, 5)));
        not_well_formed(&with_unit(b'D', numeral(b'D', 255, 5)));
        for letter in *b"HOB" {
            assert_eq!(count(&with_unit(b'D', numeral(letter, 0, 5))), Ok(1));
            not_well_formed(&with_unit(b'D', numeral(letter, 1, 5)));
        }
    }

    #[test]
    fn keyed_characters_are_32_under_every_base() {
        for base in *b"DHOBK" {
            assert_eq!(count(&with_unit(base, field(8, &[b'*'; 32]))), Ok(1));
            not_well_formed(&with_unit(base, field(8, &[b'*'; 33])));
        }
    }

    #[test]
    fn the_prefix_at_lower_upper_and_increment() {
        prints("A:H'5&&H'9++H'2;", "", "A:H'5&&H'9++H'2;");
    }

    #[test]
    fn the_short_form_compares_fields() {
        let text = "A:5-1&D'5-2&H'5-3&5.0-4;";
        prints(text, "", "A:5-1&-2&H'5-3&5.0-4;");
        prints("A:7-1&&-3&7-5;", "", "A:7-1&&-3&-5;");
    }

    #[test]
    fn an_order_keeps_what_is_no_group() {
        let text = "A:N=H'5&&H'7,M=X:,B'1&O'7;";
        let expected = [
            "A:N=H'5,M=X:,1;",
            "A:N=H'5,M=X:,O'7;",
            "A:N=H'6,M=X:,1;",
            "A:N=H'6,M=X:,O'7;",
            "A:N=H'7,M=X:,1;",
            "A:N=H'7,M=X:,O'7;",
        ];
        assert_eq!(orders(text, "DKDB"), expected);
    }

    #[test]
    fn any_k_not_below_the_count() {
        let record = record("A:5&6;", "");
        for k in [2, 1 << 16, 1 << 32, (1 << 32) + 1, u64::MAX] {
            assert_eq!(order(&record, k), Err((19, 2)));
        }
    }
}
