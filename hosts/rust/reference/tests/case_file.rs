//! Lines of the case file: which are lines, and what is listed for them.

use reference::samples::{self, Random};
use reference::{list_line, listing, settle, Terms};

const SOUND: &str = "     1 50 67  0 2 1  9   125011111";
const NO_LINE: &str = "     0 15   0 0         0         0         0\n";

fn listed(line: impl AsRef<[u8]>) -> String {
    String::from_utf8(list_line(line.as_ref()).to_vec()).unwrap()
}

fn listing_of(file: impl AsRef<[u8]>) -> String {
    let mut output = Vec::new();
    listing(file.as_ref(), &mut output).unwrap();
    String::from_utf8(output).unwrap()
}

fn with(at: usize, text: &str) -> String {
    let mut line = SOUND.to_string();
    line.replace_range(at..at + text.len(), text);
    line
}

#[test]
fn sound_lines() {
    assert_eq!(listed(SOUND), "     1  0   0 1     17150      7166         0\n");
    assert_eq!(listed(&SOUND[..29]), "     1  0   0 0     17150         0         0\n");
    assert_eq!(listed(with(0, "999999")), "999999  0   0 1     17150      7166         0\n");
    assert_eq!(listed(with(0, "     0")), "     0  0   0 1     17150      7166         0\n");
    assert_eq!(listed(with(6, "999")), "     1  5   0 0         0         0         0\n");
    assert_eq!(listed(with(22, "9999999")), "     1  7   0 0         0         0         0\n");
    assert_eq!(listed(with(29, "11311")), "     1 11   2 0         0         0         0\n");
    assert_eq!(listed(with(29, "11119")), "     1 11   4 0         0         0         0\n");
    assert_eq!(listed(with(29, "01111")), "     1 12   0 0         0         0         0\n");
    assert_eq!(listed(with(15, " 0")), "     1  1   0 0         0         0         0\n");
    assert_eq!(listed(with(19, "  0")), "     1  0   0 6   1455000    125000         0\n");
}

#[test]
fn lines_of_lump_sums() {
    let lump_sum = |payer: u32, marks: &str| listed(format!("     6 40 67  0 1 {payer}  0   2000{marks}"));
    for payer in 1..=2 {
        for marks in ["", "1", "11111111111", "111111111111"] {
            assert_eq!(lump_sum(payer, marks), "     6  0   0 6   1664000    200000         0\n");
        }
        for marks in ["2", "12", "111111111112", "222222222222"] {
            assert_eq!(lump_sum(payer, marks), "     6  0   0 5   1664000         0   1664000\n");
        }
        assert_eq!(lump_sum(payer, "0"), "     6 12   0 0         0         0         0\n");
        assert_eq!(lump_sum(payer, "11111111110"), "     6 12  10 0         0         0         0\n");
        assert_eq!(lump_sum(payer, "1121"), "     6 12   3 0         0         0         0\n");
        assert_eq!(lump_sum(payer, "1129"), "     6 11   3 0         0         0         0\n");
        assert_eq!(lump_sum(payer, "1111111111111"), "     6 10   0 0         0         0         0\n");
    }
}

#[test]
fn no_lines() {
    let no_lines = [
        "".to_string(),
        SOUND[..28].to_string(),
        format!("{SOUND}\r"),
        format!("{SOUND} "),
        with(0, "      "),
        with(0, "1     "),
        with(0, "000001"),
        with(0, "    01"),
        with(0, "  1  1"),
        with(6, "   "),
        with(9, "067"),
        with(12, " 00"),
        with(15, "  "),
        with(15, "02"),
        with(17, "-1"),
        with(19, "+ 9"),
        with(22, "0001250"),
        with(22, " 1,250 "),
        with(22, "   1250 1"),
        with(30, "x"),
        with(33, "\0"),
        with(6, "\t50"),
        with(33, "/"),
        with(33, ":"),
    ];
    for line in no_lines {
        assert_eq!(listed(&line), NO_LINE, "{line:?}");
    }
}

#[test]
fn the_longest_line() {
    let line = |marks: usize| format!("{}{}", &SOUND[..29], "1".repeat(marks));
    assert_eq!(listed(line(108)), "     1  0   0 3     17150    125000         0\n");
    for marks in [109, 240, 241, 256] {
        assert_eq!(listed(line(marks)), "     1 10   0 0         0         0         0\n");
    }
    for marks in [257, 258, 5_000, 1_000_000] {
        assert_eq!(listed(line(marks)), NO_LINE);
        assert_eq!(listing_of(line(marks)), NO_LINE);
        assert_eq!(listing_of(line(marks) + "\n"), NO_LINE);
        assert_eq!(listing_of(line(marks) + "\n" + SOUND), NO_LINE.to_string() + &listed(SOUND));
    }
    let twenty = "     7 40 67  0 2 1 20   1250".to_string();
    assert!(listed(twenty.clone() + &"1".repeat(240)).contains(" 0   0 3 "));
    assert!(listed(twenty.clone() + &"1".repeat(241)).contains("10   0 0 "));
    assert!(listed(twenty + &"1".repeat(257)).contains("15   0 0 "));
}

#[test]
fn where_lines_end() {
    let one = listed(SOUND);
    assert_eq!(listing_of(""), "");
    assert_eq!(listing_of("\n"), NO_LINE);
    assert_eq!(listing_of("\n\n"), NO_LINE.repeat(2));
    assert_eq!(listing_of(SOUND), one);
    assert_eq!(listing_of(format!("{SOUND}\n")), one);
    assert_eq!(listing_of(format!("{SOUND}\n\n")), one.clone() + NO_LINE);
    assert_eq!(listing_of(format!("\n{SOUND}")), NO_LINE.to_string() + &one);
    assert_eq!(listing_of(format!("{SOUND}\n{SOUND}")), one.repeat(2));
    assert_eq!(listing_of(format!("{SOUND}\r\n{SOUND}\n")), NO_LINE.to_string() + &one);
}

#[test]
fn a_line_lists_what_settle_gives() {
    let mut random = Random::new(2015);
    let mut line = Vec::new();
    for election in 0..50_000 {
        let terms = samples::lawful_terms(&mut random);
        let marks = samples::marks(&mut random, terms.term);
        if marks.len() > 256 || marks.iter().any(|&mark| mark > 9) {
            continue;
        }
        samples::write_line(&mut line, election, &terms, &marks);
        let settled = settle(&terms, &marks);
        let expected = format!(
            "{election:>6}{:>3}{:>4}{:>2}{:>10}{:>10}{:>10}\n",
            settled.refusal, settled.place, settled.status, settled.contribution, settled.credit, settled.refund
        );
        assert_eq!(listed(&line), expected);
    }
}

#[test]
fn a_file_is_listed_line_by_line() {
    let file = samples::case_file(&mut Random::new(2015), 20_000);
    let lines = file.strip_suffix(b"\n").unwrap().split(|&byte| byte == b'\n');
    let expected: String = lines.map(listed).collect();
    assert_eq!(listing_of(&file), expected);
    for refusal in [0, 1, 2, 3, 4, 5, 7, 8, 10, 11, 12, 15] {
        let shown = format!("{refusal:>3}");
        assert!(expected.lines().any(|line| line[6..9] == shown), "refusal {refusal} is met");
    }
}

#[test]
fn terms_are_read_field_by_field() {
    let terms = Terms { age: 40, pension_age_years: 66, pension_age_months: 11, option: 1, payer: 1, term: 20, amount: 6_500 };
    let settled = settle(&terms, &[1; 13]);
    assert_eq!(
        listed("   123 40 66 11 1 1 20   65001111111111111"),
        format!("   123  0   0 1{:>10}{:>10}         0\n", settled.contribution, settled.credit)
    );
}
