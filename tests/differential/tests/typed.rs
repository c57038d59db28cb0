//! The independent marker on the examples of document 02, order 1, and of its readings.

use differential::marker::{Answer, TypedRow, read_row};

fn accepted(coefficients: &[i32], bound: i32) -> TypedRow {
    let mut row = TypedRow { answer: Answer { sheet: 2, ..Answer::default() }, bound, ..TypedRow::default() };
    row.coefficients[..coefficients.len()].copy_from_slice(coefficients);
    row
}

fn refused(number: u32, place: u32) -> TypedRow {
    TypedRow { answer: Answer { number, sheet: 2, place, done: 0, score: 0 }, ..TypedRow::default() }
}

#[track_caller]
fn breaks(place: u32, text: &str) {
    assert_eq!(read_row(text.as_bytes(), 2), refused(16, place), "{text}");
}

#[track_caller]
fn fails(place: u32, text: &str) {
    assert_eq!(read_row(text.as_bytes(), 2), refused(17, place), "{text}");
}

#[track_caller]
fn gives(coefficients: &[i32], bound: i32, text: &str) {
    assert_eq!(read_row(text.as_bytes(), 2), accepted(coefficients, bound), "{text}");
}

#[test]
fn the_number_of_variables_comes_first() {
    for variables in [0, 9, 10, 256, 257, u32::MAX] {
        for text in [&b"a<=1"[..], b"", b")", &[b' '; 256]] {
            assert_eq!(read_row(text, variables), refused(5, 0));
        }
    }
    for variables in 1..=8 {
        for letter in 0..8 {
            let mut coefficients = [0; 8];
            coefficients[letter] = 1;
            let expected = if letter < variables { accepted(&coefficients, 1) } else { refused(17, 0) };
            assert_eq!(read_row(&[b'a' + letter as u8, b'<', b'=', b'1'], variables as u32), expected);
        }
    }
}

#[test]
fn texts_that_break_the_rules() {
    for (place, text) in [(0, ""), (1, "a"), (2, "1 2"), (2, "1< =2"), (2, "1<2"), (2, "(a<=1)"), (4, "a<=1<"), (1, "a)"), (1, "()")] {
        breaks(place, text);
    }
    for (place, text) in [(0, "+a"), (1, "2a"), (1, "a2"), (1, "ab"), (1, "2(a)"), (0, "i"), (0, "A"), (0, "\t"), (0, "\0"), (1, "a≤1")] {
        breaks(place, text);
    }
    for byte in 128..=255 {
        assert_eq!(read_row(&[b'a', byte], 2), refused(16, 1));
    }
    breaks(255, &"(".repeat(255));
    breaks(255, &")".repeat(256));
    breaks(0, &")".repeat(255));
    breaks(255, &format!("{}a<=1", " ".repeat(252)));
    gives(&[1], 1, &format!("{}a<=1", " ".repeat(251)));
    gives(&[1], 1, &format!("{}a{}<=1 ", "(".repeat(125), ")".repeat(125)));
    // All of 16 before 17.
    breaks(15, "c*2147483648<=1)");
    breaks(14, "c*2147483648<=");
}

#[test]
fn results_and_where_they_fail() {
    for (place, text) in [(0, "2147483648<=a"), (1, "-2147483648<=a"), (2, "0*2147483648<=a"), (0, "2147483648*0<=a")] {
        fails(place, text);
    }
    fails(3, &format!("a<={}", "9".repeat(252)));
    gives(&[1], 7, &format!("a<={}7", "0".repeat(251)));
    gives(&[1], i32::MIN, "a<=-2147483647-1");
    gives(&[i32::MIN], i32::MAX, "(-2147483647-1)*a<=2147483647");
    fails(1, "1+2147483647-1<=0");
    fails(0, "-(-2147483647-1)*0<=a");
    fails(15, "(-2147483647-1)*-1<=a");
    gives(&[], 1, "(a-a)*b<=1");
    fails(5, "2*a*3*b<=1");
    // In working order.
    fails(2, "a*c<=1");
    fails(1, "a*b<=c");
    fails(2, "0*c<=1");
    fails(5, "a*(b*c)<=1");
    assert_eq!(read_row(b"a*(b*c)<=1", 3), refused(17, 4));
    // Collecting.
    fails(12, "2147483647*a<=-a");
    gives(&[i32::MIN], 0, "-2147483647*a<=a");
    fails(2, "-1<=2147483647");
    gives(&[], i32::MIN, "1<=-2147483647");
}

#[test]
fn rows_as_they_are_meant() {
    gives(&[1, -1], 1, "a-(b-1)<=2");
    gives(&[1, -1], 3, "a-b-1<=2");
    gives(&[-1], -7, "1+2*3<=a");
    gives(&[2, 6], 7, "2*(a+3*(b-1))<=1");
    gives(&[1, 1], 1, "a--b<=- -1");
    gives(&[-2], 1, " -a * 2 <= 1 ");
    gives(&[12, 12], -27, "  12  *  (  a  -  -  b  )  -  7  <=  -  34  ");
    let row = b"9<=a+2*b+3*c+4*d+5*e+6*f+7*g+8*h";
    assert_eq!(read_row(row, 8), accepted(&[-1, -2, -3, -4, -5, -6, -7, -8], -9));
}
