//! The figures of the rules, and some of their sentences.

use crate::cases;
use crate::envelope::{div_down, div_up, Envelope, Verdict};
use crate::listing::{list, refusal_line, LISTING_MAX};
use crate::model::{marked, not, on, Expr, Model, Word};
use crate::pattern::{check, first, next, Four};
use crate::protocol::{reply, Case};
use crate::samples::{full, typical, EXAMPLE};
use crate::sheet::{close, quote, work_out, Counts, Design, Refusal, SHEET_MAX};

fn bits(text: &str) -> Vec<u8> {
    text.bytes().map(|byte| byte - b'0').collect()
}

fn word(prefix: &str, period: &str) -> Envelope {
    Envelope::word(&bits(prefix), &bits(period)).expect("a period with a 1")
}

fn declared(four: [i64; 4]) -> Option<[i64; 4]> {
    Envelope::declared(four[0], four[1], four[2], four[3]).map(Envelope::four)
}

fn refused<T>(number: u8, place: usize) -> Result<T, Refusal> {
    Err(Refusal { number, place })
}

fn one_clock(words: &[(&str, &str)], expr: Expr) -> Model {
    let words = words.iter().map(|(prefix, period)| Word {
        prefix: bits(prefix),
        period: bits(period),
    });
    Model {
        words: words.collect(),
        clocks: vec![(0, expr)],
        links: Vec::new(),
    }
}

fn worked(bytes: &[u8]) -> Result<Vec<i64>, Refusal> {
    let (mut clocks, mut links) = (vec![0; 512], vec![0; 768]);
    let counts = work_out(bytes, &mut clocks, &mut links)?;
    clocks.truncate(4 * counts.clocks);
    Ok(clocks)
}

#[test]
fn rounding() {
    assert_eq!((div_up(-7, 2), div_down(-7, 2)), (-3, -4));
    assert_eq!((div_up(7, 2), div_down(7, 2)), (4, 3));
    assert_eq!((div_up(-8, 2), div_down(8, 2)), (-4, 4));
}

#[test]
fn words() {
    assert_eq!(word("", "11010").four(), [-2, 0, 5, 3]);
    assert_eq!(word("0", "00111").four(), [5, 9, 5, 3]);
    assert_eq!(word("", "00100").four(), [2, 2, 5, 1]);
    assert_eq!(Envelope::word(&[1], &[0]), None);
}

#[test]
fn ons() {
    let ten = word("", "10");
    assert_eq!(ten.on(ten).unwrap().four(), [0, 0, 4, 1]);
    let five = word("", "11010");
    assert_eq!(five.on(word("", "010")).unwrap().four(), [1, 1, 5, 1]);
    assert_eq!(five.on(word("", "100")).unwrap().four(), [0, 0, 5, 1]);
    assert_eq!(five.on(word("", "110")).unwrap().four(), [-3, 0, 5, 2]);
}

#[test]
fn nots() {
    let once = Envelope::new(6, 9, 5, 3).not().unwrap();
    assert_eq!(once.four(), [-6, 0, 5, 2]);
    assert_eq!(once.not().unwrap().four(), [2, 9, 5, 3]);
    assert_eq!(word("0", "1").not(), Err(8));
    let edge = Envelope::new(1 - 1_000_000_000, 0, 2, 1);
    assert_eq!(edge.not().unwrap().high, 1_000_000_000);
    assert_eq!(Envelope::new(-1_000_000_000, 0, 2, 1).not(), Err(9));
}

#[test]
fn declareds() {
    assert_eq!(declared([0, 1, 5, 3]), None);
    assert_eq!(declared([0, 0, 2, 2]), Some([0, 0, 1, 1]));
    assert_eq!(declared([1, 9, 10, 6]), Some([1, 4, 5, 3]));
    assert_eq!(declared([-2, 0, 1, 1]), Some([0, 0, 1, 1]));
    assert_eq!(declared([-5, 3, 2, 2]), Some([0, 1, 1, 1]));
    assert_eq!(declared([-2, 0, 2, 1]), Some([-2, 0, 2, 1]));
}

#[test]
fn links() {
    let consumer = Envelope::new(0, 2, 5, 3);
    assert_eq!(Verdict::judge(consumer, consumer), Verdict::Accepted(0));
    let producer = Envelope::new(0, 3, 5, 3);
    assert_eq!(Verdict::judge(producer, consumer), Verdict::Early);
    let other = Envelope::new(0, 3, 5, 2);
    assert_eq!(Verdict::judge(producer, other), Verdict::Rates);
}

#[test]
fn rate_one() {
    let early = Envelope::declared(-2, 0, 1, 1).unwrap();
    let plain = Envelope::new(0, 0, 1, 1);
    assert_eq!(Verdict::judge(plain, early), Verdict::Accepted(0));
    let later = Envelope::new(3, 3, 1, 1);
    assert_eq!(Verdict::judge(early, later), Verdict::Accepted(3));
    let four = Four {
        low: -2,
        high: 0,
        l: 1,
        n: 1,
    };
    assert_eq!(check(&four, &[1]), refused(12, 0));
    assert_eq!(first(&four, &mut [0]), refused(12, 0));
    assert_eq!(next(&four, &mut [1]), refused(12, 0));
}

#[test]
fn refusals_of_figures() {
    let sheet = one_clock(&[("0", "1")], marked(not(Expr::Word(0)))).write();
    assert_eq!(worked(&sheet.bytes), refused(8, sheet.marked.unwrap()));
    let sheet = one_clock(&[("", "0")], Expr::Word(0)).write();
    assert_eq!(worked(&sheet.bytes), refused(4, 4));
    let sheet = one_clock(&[], Expr::Declared([0, 1, 5, 3])).write();
    assert_eq!(worked(&sheet.bytes), refused(7, 5));
    let mut expr = Expr::Declared([0, 9, 5, 3]);
    for _ in 0..11 {
        expr = not(expr);
    }
    let deep = one_clock(&[], expr);
    assert_eq!(worked(&deep.write().bytes).map(|found| found.len()), Ok(4));
    let deeper = one_clock(&[], not(deep.clocks.into_iter().next().unwrap().1));
    assert_eq!(worked(&deeper.write().bytes), refused(6, 5 + 12));
}

#[test]
fn order_of_tests() {
    // l is tested as it is fetched, also where n is missing
    let sheet = one_clock(&[], Expr::Declared([0, 0, 0, 1])).write().bytes;
    assert_eq!(worked(&sheet[..5 + 13]), refused(2, 5 + 9));
    // a producer that isn't there comes before a missing consumer
    assert_eq!(worked(&[0, 0, 0, 0, 1, 0, 7, 0]), refused(5, 6));
    // length first
    assert_eq!(worked(&[255; 32_769]), refused(2, 32_768));
    assert_eq!(worked(&[255; 32_768]), refused(2, 0));
    assert_eq!(worked(&[]), refused(1, 0));
    assert_eq!(worked(&[0]), refused(1, 0));
    assert_eq!(worked(&[0, 0, 0]), refused(1, 2));
    assert_eq!(worked(&[0; 6]), Ok(Vec::new()));
    assert_eq!(worked(&[0; 7]), refused(10, 6));
    // 9 stands at the node, after both its parts
    let big = || Expr::Declared([0, 0, 1_000_000, 1]);
    let sheet = one_clock(&[], on(big(), marked(on(big(), big())))).write();
    assert_eq!(worked(&sheet.bytes), refused(9, sheet.marked.unwrap()));
}

#[test]
fn example() {
    let text = "clock 0 open -2 0 5 3\nclock 1 open 5 9 5 3\nclock 2 closed 3 4 5 2\n\
                link 0 0 1 open accepted 2\nlink 1 1 0 open early 0\n\
                link 2 0 2 closed rates 0\nroom 2 2\n";
    let mut lent = vec![9; text.len() + 1];
    assert_eq!(list(&EXAMPLE, &mut lent[..text.len() - 1]), refused(11, 0));
    assert!(lent.iter().all(|&byte| byte == 9));
    assert_eq!(list(&EXAMPLE, &mut lent), Ok(text.len()));
    assert_eq!(&lent[..text.len()], text.as_bytes());

    let (mut clocks, mut links) = ([7; 13], [7; 10]);
    let counts = work_out(&EXAMPLE, &mut clocks, &mut links);
    let expected = Counts {
        clocks: 3,
        links: 3,
        open: 2,
        whole: 2,
    };
    assert_eq!(counts, Ok(expected));
    assert_eq!(clocks, [-2, 0, 5, 3, 5, 9, 5, 3, 3, 4, 5, 2, 7]);
    assert_eq!(links, [0, 2, 0, 2, 0, 0, 1, 0, 1, 7]);
    let short = work_out(&EXAMPLE, &mut clocks[..11], &mut links);
    assert_eq!(short, refused(11, 0));
}

#[test]
fn a_refused_sheet_has_no_listing() {
    for room in [0, 1, 15, 16, 17, LISTING_MAX] {
        let mut lent = vec![9; room];
        assert_eq!(list(&EXAMPLE[..45], &mut lent), refused(1, 44));
        assert!(lent.iter().all(|&byte| byte == 9));
    }
    let refusal = list(&EXAMPLE[..45], &mut []).unwrap_err();
    assert_eq!(refusal_line(refusal), "refused 1 at 44\n");
}

/// As many clocks and links as there may be, with the widest numbers; two of the clocks give the largest size.
#[test]
fn the_longest_listing_fits() {
    let mut fours = vec![[-1_000_000_000, 1_000_000_000, 1_000_000, 999_999]; 126];
    fours.push([-1_000_000_000, 1_000_000_000, 2, 1]);
    fours.push([1_000_000_000, 1_000_000_000, 2, 1]);
    let sheet = Model {
        words: Vec::new(),
        clocks: fours
            .iter()
            .map(|&four| (1, Expr::Declared(four)))
            .collect(),
        links: vec![(126, 127); 256],
    };
    let bytes = sheet.write().bytes;
    let mut lent = vec![9; LISTING_MAX];
    assert_eq!(list(&bytes, &mut lent[..18_080]), refused(11, 0));
    assert_eq!(list(&bytes, &mut lent), Ok(18_081));
    assert!(lent[..18_081].ends_with(b"accepted 1000000000\nroom 0 256000000000\n"));
    assert!(lent[18_081..].iter().all(|&byte| byte == 9));
}

#[test]
fn closing_and_quoting() {
    let mut sheet = EXAMPLE;
    assert_eq!(quote(&sheet, 0), Ok(&[1, 0, 0][..]));
    assert_eq!(quote(&sheet, 2), Ok(&[3, 5, 0, 0][..]));
    assert_eq!(quote(&sheet, 3), refused(16, 0));
    assert_eq!(close(&mut sheet, 2), refused(17, 0));
    assert_eq!(close(&mut sheet, u64::MAX), refused(16, 0));
    assert_eq!(sheet, EXAMPLE);
    assert_eq!(close(&mut sheet, 1), Ok(23));
    assert_eq!(close(&mut sheet, 1), refused(17, 0));
    let mut design = Design::new(&sheet);
    design.read().unwrap();
    let states: Vec<bool> = design.links().map(|link| link.closed).collect();
    assert_eq!(states, [true, true, true]);
}

#[test]
fn patterns() {
    let (low, high, l, n) = (2, 3, 2, 1);
    let four = Four { low, high, l, n };
    let mut pattern = [9; 5];
    first(&four, &mut pattern).unwrap();
    assert_eq!(pattern, *bits("00010"));
    for text in ["00011", "00100", "00101"] {
        assert_eq!(next(&four, &mut pattern), Ok(true));
        assert_eq!(pattern, *bits(text));
    }
    assert_eq!(next(&four, &mut pattern), Ok(false));
    assert_eq!(pattern, *bits("00101"));
    let mut pattern = [9; 2];
    first(&four, &mut pattern).unwrap();
    assert_eq!(pattern, [0, 0]);
    assert_eq!(next(&four, &mut pattern), Ok(false));
    assert_eq!(check(&four, &[]), Ok(()));
    assert_eq!(next(&four, &mut []), Ok(false));
    assert_eq!(check(&four, &bits("0000")), refused(15, 3));
    assert_eq!(check(&four, &[1, 0, 2]), refused(14, 2));
    assert_eq!(check(&four, &[9; 4097]), refused(13, 0));
    assert_eq!(first(&four, &mut [9; 4097]), refused(13, 0));
    let low = i64::MIN;
    assert_eq!(check(&Four { low, ..four }, &[9; 4097]), refused(12, 0));
    let (low, high, l, n) = (0, 9, 4, 2);
    assert_eq!(check(&Four { low, high, l, n }, &[]), refused(12, 0));
}

#[test]
fn sample_sheets_are_taken() {
    assert_eq!(worked(&typical()).unwrap().len(), 4 * 24);
    assert_eq!(worked(&full()).unwrap().len(), 4 * 128);
    assert_eq!(full().len(), SHEET_MAX);
}

#[test]
fn cases_come_back_from_their_bytes() {
    for number in 0..2_000 {
        let (case, aim) = cases::case(5, number, None);
        let mut bytes = Vec::new();
        case.encode(&mut bytes);
        let again = Case::decode(&mut &bytes[..]).unwrap().unwrap();
        assert_eq!(case, again);
        let mut answer = Vec::new();
        case.answer(&mut answer);
        assert_eq!(case.answer_length(&answer), Some(answer.len()));
        if let Some(aim) = aim {
            assert_eq!(reply(&answer), (aim.number, aim.place));
        }
    }
}
