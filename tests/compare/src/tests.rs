//! 01's worked example with its variations, and each reason of refusal with its line.

use crate::reader::{INDEX_CELLS, ROW_CELLS, VALUE_CELLS};
use crate::verify;

const EXAMPLE: &str = "VER 1.0\nVAR 1\nx\nINT 1\n0\nOBJ max\n1 0 1\nCON 1 0\nR1 L 3 1 0 2\nRTP range 1 1\nSOL 1\na 1 0 1\nDER 1\nD1 L 1 OBJ { rnd 1 0 1/2 } -1\n";

struct Answer {
    result: Result<(), (u8, u32)>,
    index: Vec<u16>,
    values: Vec<i32>,
    rows: Vec<u16>,
}

/// Verifies with tables that have some cells more than needed, all 7 at the start.
fn answer(text: &str) -> Answer {
    let (mut index, mut values, mut rows) = (vec![7; INDEX_CELLS + 3], vec![7; VALUE_CELLS + 1], vec![7; ROW_CELLS + 2]);
    let result = verify(text.as_bytes(), &mut index, &mut values, &mut rows);
    Answer { result, index, values, rows }
}

fn refused(text: &str, reason: u8, line: u32) {
    assert_eq!(answer(text).result, Err((reason, line)), "{text}");
}

fn verified(text: &str) {
    assert_eq!(answer(text).result, Ok(()), "{text}");
}

/// The example with one part exchanged.
fn edited(part: &str, by: &str) -> String {
    assert!(EXAMPLE.contains(part));
    EXAMPLE.replacen(part, by, 1)
}

fn begins_with_then_zero<T: Copy + PartialEq + Default>(cells: &[T], first: &[T]) -> bool {
    cells.starts_with(first) && cells[first.len()..].iter().all(|&cell| cell == T::default())
}

#[test]
fn worked_example() {
    assert_eq!(EXAMPLE.len(), 123);
    let answer = answer(EXAMPLE);
    assert_eq!(answer.result, Ok(()));
    let index = [1, 1, 0, 1, 1, 0, 1, 0, 1, 1, 0, 1, 1, 1, 1, 1, 0, 1, 1, 65535, 2, 1, 0, 65535];
    assert!(begins_with_then_zero(&answer.index, &index));
    assert!(begins_with_then_zero(&answer.values, &[1, 1, 3, 1, 2, 1, 1, 1, 1, 1, 1, 1, 1, 1, 1, 2]));
    assert!(begins_with_then_zero(&answer.rows[..4096], &[46, 2, 8, 1, 93, 2, 18, 6]));
    assert!(begins_with_then_zero(&answer.rows[4096..], &[79, 1, 15, 5]));
}

#[test]
fn worked_variations() {
    refused(&edited("D1 L 1", "D1 L 0"), 15, 14);
    refused(&edited("a 1 0 1", "a 1 0 2"), 9, 12);
    refused(&edited("R1 L 3", "R1 L 1.5-101"), 4, 9);
}

#[test]
fn tables_after_refusals() {
    let read = answer(&edited("a 1 0 1", "a 1 0 2"));
    assert_eq!((read.index[23], read.rows[4096]), (65535, 79));
    let not_read = answer(&edited("-1\n", "-1 x"));
    assert_eq!(not_read.result, Err((8, 14)));
    assert!(begins_with_then_zero(&not_read.index, &[]) && begins_with_then_zero(&not_read.values, &[]));
    assert!(begins_with_then_zero(&not_read.rows, &[]));
}

#[test]
fn small_tables_go_before_long_texts_and_nothing_is_touched() {
    let text = vec![b' '; 32_769];
    for (cells, values, rows, reason) in
        [(16_383, 16_384, 4_352, 1), (16_384, 16_383, 4_352, 1), (16_384, 16_384, 4_351, 1), (16_384, 16_384, 4_352, 2)]
    {
        let (mut index, mut values, mut rows) = (vec![7; cells], vec![7; values], vec![7; rows]);
        assert_eq!(verify(&text, &mut index, &mut values, &mut rows), Err((reason, 0)));
        assert!(index.iter().chain(&rows).all(|&cell| cell == 7) && values.iter().all(|&cell| cell == 7));
    }
    refused(std::str::from_utf8(&text[..32_768]).unwrap(), 3, 1);
}

#[test]
fn reading_refuses() {
    refused("", 3, 1);
    refused("% only a comment", 3, 1);
    refused("%\n\n \n", 3, 4);
    refused(" %\nVER", 4, 1);
    refused("%\r%\nVER 1.0\nVAR", 3, 3);
    refused(&edited("-1\n", "\n\n"), 3, 16);
    refused(&edited("{ rnd", "{rnd"), 4, 14);
    refused(&edited("x", "\u{e4}"), 4, 3);
    refused(&edited("x", "x\u{c}y"), 4, 3);
    refused(&edited("INT 1\n0", "INT 1\n-0"), 4, 5);
    refused(&edited("range 1", "range inf"), 4, 10);
    refused(&edited("range 1 1", "range 1 -inf"), 4, 10);
    refused(&edited("-1\n", "-01\n"), 4, 14);
    refused(&edited("VAR 1", "VAR 257"), 5, 2);
    refused(&edited("INT 1\n0", "INT 1\n1"), 5, 5);
    refused(&edited("CON 1 0", "CON 1 2"), 5, 8);
    refused(&edited("CON 1 0", "CON 1 99999999999999999999999999"), 5, 8);
    refused(&edited("-1\n", "2\n"), 5, 14);
    refused(&edited("rnd 1 0", "rnd 1 1"), 5, 14);
    refused(&edited("rnd 1 0", "rnd 2 0"), 5, 14);
    refused(&edited("DER 1\n", "DER 1024\n"), 5, 13);
    refused(&edited("D1 L", "R1 L"), 6, 14);
    refused(&edited("1 0 1\nCON", "1 0 2147483648\nCON"), 7, 7);
    refused(&edited("-1\n", "-1\n\n\x07"), 8, 16);
    verified(&edited("R1 L", "{ L"));
    verified(&edited("D1 L", "OBJ L"));
    verified(&edited("-1\n", "0000000000000000000000000000000"));
}

/// Request 1 of 02. Counts and indices are still digits only.
#[test]
fn values_may_have_exponents() {
    let (plain, spelled) = (answer(EXAMPLE), answer(&edited("3 1 0 2", "30E-1 1 0 0.2e+01")));
    assert_eq!(spelled.result, Ok(()));
    assert_eq!((spelled.index, spelled.values), (plain.index, plain.values));
    verified(&edited("1/2 }", "5E-1 }"));
    verified(&edited("range 1 1", "range 1e0 1E+0"));
    refused(&edited("R1 L 3", "R1 L 1.5E-101"), 7, 9);
    refused(&edited("R1 L 3", "R1 L 1.5E"), 4, 9);
    refused(&edited("a 1 0 1", "a 1 0 2E0"), 9, 12);
    refused(&edited("1/2 }", "1/2E0 }"), 4, 14);
    refused(&edited("VAR 1", "VAR 1E0"), 4, 2);
    refused(&edited("INT 1\n0", "INT 1\n0E5"), 4, 5);
    refused(&edited("-1\n", "-1E0\n"), 4, 14);
}

#[test]
fn lists_have_distinct_indices_and_uns_is_no_list() {
    refused("VER 1.0 VAR 2 x x INT 2 1\n1", 6, 2);
    refused("VER 1.0 VAR 2 x x INT 0 OBJ min 2 1 1\n1 x", 6, 2);
    refused(
        "VER 1.0 VAR 0 INT 0 OBJ min 0 CON 0 0 RTP infeas SOL 0 DER 2 a L 0 0 { asm } -1\nb L 0 0 { uns 0 0 0 0 } -1",
        16,
        2,
    );
}

#[test]
fn the_65th_assumption_is_out_of_range() {
    let rows: String = (0..65).map(|row| format!("r{row} L 0 0 {{\nasm }} -1 ")).collect();
    let start = "VER 1.0 VAR 0 INT 0 OBJ min 0 CON 0 0 RTP range -inf inf SOL 0 DER";
    refused(&format!("{start} 65 {rows}"), 5, 66);
    let rows = rows.split_once(" -1 r64").unwrap().0;
    verified(&format!("{start} 64 {rows} -1"));
}

#[test]
fn solutions_refuse() {
    refused(&edited("a 1 0 1", "a 1 0 1/2"), 9, 12);
    refused(&edited("range 1 1", "range 3/2 1"), 10, 10);
    refused(&edited("SOL 1\na 1 0 1", "SOL 0"), 10, 10);
    refused(&edited("R1 L 3 1 0 2", "R1 L 3 1 0 2147483647").replace("a 1 0 1", "a 1 0 2"), 12, 12);
    refused(&edited("1 0 1\nCON", "1 0 2147483647\nCON").replace("a 1 0 1", "a 1 0 -2"), 12, 12);
}

/// One integer variable x with 0 <= x, 2 x <= 1, to which derivations are added; the claim is x <= 0.
fn derived(derivations: &[&str]) -> String {
    format!(
        "VER 1.0 VAR 2 x y INT 1 0 OBJ max 1 0 1 CON 3 1 a G 0 1 0 1 b L 1 1 0 2 c E 1 1 1 2 RTP range -inf 0 SOL 0 DER {}\n{}\n",
        derivations.len(),
        derivations.join("\n")
    )
}

#[test]
fn derivations_refuse() {
    verified(&derived(&["d L 0 OBJ { rnd 1 1 1/2 } -1"]));
    refused(
        &derived(&["d L 1 1 0 1 { lin 1 1 1/2 } 3", "e L 0 OBJ { rnd 1 1 1/2 } 0", "f L 0 OBJ { lin 2 0 0 3 0 } 5"]),
        11,
        4,
    );
    refused(&derived(&["d L 1 1 0 1 { lin 1 1 2147483647 } 3"]), 12, 2);
    refused(&derived(&["d L 1 1 0 1 { lin 2 1 2147483647 0 1 } 3"]), 13, 2);
    refused(&derived(&["d E 0 0 { rnd 0 } -1"]), 14, 2);
    refused(&derived(&["d E 1 1 1 2 { rnd 1 2 1 } -1"]), 14, 2);
    refused(&derived(&["d L 1 1 0 1 { rnd 1 1 1/4 } -1"]), 14, 2);
    refused(&derived(&["d L 1 1 0 1 { rnd 2 1 1 2 1 } -1"]), 14, 2);
    refused(&derived(&["d L 0 1 0 1 { lin 1 1 1/2 } -1"]), 15, 2);
    refused(&derived(&["d G -1 1 0 1 { lin 0 } -1"]), 15, 2);
    refused(&derived(&["d L 0 OBJ { lin 2 0 -1 0 1 } -1"]), 6, 2);
    refused(&derived(&["d L 0 OBJ { sol } -1"]), 18, 2);
    refused(&derived(&["d G 0 OBJ { lin 1 0 1 } -1"]), 17, 2);
    refused(&derived(&["d L 0 OBJ { asm } -1"]), 17, 2);
    refused(&derived(&[]), 17, 1);
}

#[test]
fn an_equality_comes_of_signs_and_not_of_cancelling() {
    verified(&derived(&["d E 0 0 { lin 0 } -1", "e E 1/2 1 1 1 { lin 1 2 1/2 } -1", "f L 0 OBJ { rnd 1 1 1/2 } -1"]));
    let cancelled = ["d G 1 1 0 1 { asm } -1", "e L 1 1 0 1 { asm } -1", "f E 0 0 { lin 2 3 1 4 -1 } -1"];
    refused(&derived(&cancelled), 15, 4);
}

#[test]
fn splits() {
    let split = |less: &str, greater: &str| {
        let derivations = [
            less,
            greater,
            "i1 L 0 OBJ { rnd 2 1 1/2 3 0 } -1",
            "i2 G 1 0 { lin 2 1 -1/2 4 1 } -1",
            "u L 0 OBJ { uns 5 3 6 4 } -1",
        ];
        derived(&derivations)
    };
    // `i2` combines to 0 >= 1/2, an absurdity, which dominates 0 >= 1 as well.
    verified(&split("l1 L 0 1 0 1 { asm } -1", "l2 G 1 1 0 1 { asm } -1"));
    let fine = |less: &str, greater: &str| {
        split(less, greater).replace("i2 G 1 0 { lin 2 1 -1/2 4 1 }", "i2 L 0 OBJ { rnd 2 1 1/2 4 0 }")
    };
    verified(&fine("l1 L 0 2 0 1 1 0 { asm } -1", "l2 G 1 1 0 1 { asm } -1"));
    verified(&fine("l1 L 0 0 { asm } -1", "l2 G 1 0 { asm } -1"));
    refused(&fine("l1 L 0 1 0 1 { asm } -1", "l2 G 2 1 0 1 { asm } -1"), 16, 6);
    refused(&fine("l1 L 1/2 1 0 1 { asm } -1", "l2 G 3/2 1 0 1 { asm } -1"), 16, 6);
    refused(&fine("l1 L 0 1 1 1 { asm } -1", "l2 G 1 1 1 1 { asm } -1"), 16, 6);
    refused(&fine("l1 L 2147483647 1 0 1 { asm } -1", "l2 G -2147483647 1 0 1 { asm } -1"), 16, 6);
    let kept = fine("l1 L 0 1 0 1 { asm } -1", "l2 G 1 1 0 1 { asm } -1").replace("uns 5 3 6 4", "uns 5 4 6 3");
    refused(&kept, 17, 6);
}

/// Request 3 of 02: the l rows of `uns` may be any rows.
#[test]
fn splits_at_any_rows() {
    // x >= 0 is given (row 0), x <= -1 is assumed.
    let at_given = |right: &str, unsplit: &str| {
        let assumed = format!("l L {right} 1 0 1 {{ asm }} -1");
        let unsplit = format!("u L 0 OBJ {{ uns {unsplit} }} -1");
        derived(&[&assumed, "i L 0 OBJ { rnd 1 1 1/2 } -1", "j L 0 OBJ { rnd 2 1 1/2 3 0 } -1", &unsplit])
    };
    verified(&at_given("-1", "4 0 5 3"));
    verified(&at_given("-1", "5 3 4 0"));
    refused(&at_given("0", "4 0 5 3"), 16, 5);
    refused(&at_given("-2", "4 0 5 3"), 16, 5);
    refused(&at_given("-1", "4 0 5 0"), 16, 5);
    refused(&at_given("-1", "4 3 5 3"), 16, 5);
    refused(&at_given("-1", "4 2 5 3"), 16, 5);
    // Only `j` assumes `l`, and only its set loses it.
    refused(&at_given("-1", "5 0 4 3"), 17, 5);
    // A copy of the assumption is no assumption: it makes the pair, and removes nothing.
    let at_copy = |copy: &str, unsplit: &str| {
        let rows = ["l L -1 1 0 1 { asm } -1", copy, "i L 0 OBJ { rnd 2 1 1/2 4 0 } -1", unsplit];
        derived(&rows)
    };
    verified(
        &at_copy("k L -1 1 0 1 { lin 1 3 1 } 6", "u L 0 OBJ { uns 5 3 5 0 } -1").replace("rnd 2 1 1/2 4 0", "rnd 1 1 1/2"),
    );
    refused(&at_copy("k L -1 1 0 1 { lin 1 3 1 } 6", "u L 0 OBJ { uns 5 4 5 0 } -1"), 17, 5);
    refused(&at_copy("k L -1 1 0 1 { lin 1 3 1 } 5", "u L 0 OBJ { uns 5 4 5 0 } -1"), 11, 5);
    verified(
        &at_copy("k L -1 1 0 1 { lin 1 3 1 } 6", "u L 0 OBJ { uns 5 4 5 0 } -1").replace("rnd 2 1 1/2 4 0", "rnd 1 1 1/2"),
    );
}
