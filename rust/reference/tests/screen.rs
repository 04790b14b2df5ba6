//! Document 02, W-202: which items are hidden or grey, on the examples of its readings.

mod frame;

use frame::framed;
use reference::{read, show, Position, Refusal, ANSWERS_REFUSAL, BYTES_REFUSAL};

/// The rows of the frame, whose bytes are always 0.
const FRAME: usize = 2;

/// The bytes of the fragment's rows, with much lent. The rows and the free count are as after reading.
fn shown(fragment: &str, answers: &[u64]) -> Vec<u8> {
    let source = framed(fragment);
    let (reading, bytes) = show(source.as_bytes(), answers, 70_000, 70_000).expect(fragment);
    assert_eq!(read(source.as_bytes(), 70_000).as_ref(), Ok(&reading), "{fragment}");
    assert_eq!(bytes.len(), reading.rows.len(), "{fragment}");
    assert_eq!(bytes[..FRAME], [0; FRAME], "{fragment}");
    bytes[FRAME..].to_vec()
}

fn refused(fragment: &str, answers: &[u64], rows: usize, bytes: usize) -> Refusal {
    show(framed(fragment).as_bytes(), answers, rows, bytes).expect_err(fragment)
}

/// A refusal without line and column.
fn placeless(number: u64, place: usize, need: usize) -> Refusal {
    Refusal { number, place, position: Position::NONE, need }
}

/// Whether a condition of this expression hides what is in it.
fn is_true(expression: &str) -> bool {
    let bytes = shown(&format!("suppressif {expression};label 1;endif;"), &[]);
    bytes[bytes.len() - 1] == 1
}

/// An expression is worth the same as another, of one sort.
fn assert_worth(expression: &str, value: &str) {
    assert!(is_true(&format!("({expression})==({value})")), "{expression} is {value}");
    assert!(!is_true(&format!("({expression})!=({value})")), "{expression} is {value}");
}

/// What is undefined is equal to nothing, and different from nothing.
fn assert_undefined(expression: &str) {
    for other in [expression, "TRUE", "FALSE", "0", "1"] {
        for operator in ["==", "!="] {
            assert!(!is_true(&format!("({expression}){operator}({other})")), "{expression} {operator} {other}");
        }
    }
}

#[test]
fn only_true_hides() {
    assert_eq!(shown("suppressif 1;label 1;endif;", &[]), [0, 0, 0]);
    assert_eq!(shown("suppressif ONE;label 1;endif;", &[]), [0, 0, 0]);
    assert_eq!(shown("grayoutif ONES;label 1;endif;", &[]), [0, 0, 0]);
    assert_eq!(shown("grayoutif UNDEFINED;label 1;endif;", &[]), [0, 0, 0]);
    assert_eq!(shown("grayoutif 1==1;label 1;endif;", &[]), [0, 0, 0, 0, 2]);
}

#[test]
fn no_short_cut() {
    for expression in [
        "TRUE OR UNDEFINED",
        "UNDEFINED OR TRUE",
        "FALSE AND UNDEFINED",
        "UNDEFINED AND FALSE",
        "NOT UNDEFINED",
        "0*UNDEFINED",
        "UNDEFINED<<64",
        "UNDEFINED==UNDEFINED",
        "UNDEFINED!=1",
    ] {
        assert_undefined(expression);
    }
}

#[test]
fn sorts() {
    for operator in ["|", "&", "<<", ">>", "+", "-", "*", "/", "%", "<", "<=", ">", ">="] {
        for operands in [["TRUE", "TRUE"], ["TRUE", "FALSE"], ["TRUE", "1"], ["1", "FALSE"]] {
            assert_undefined(&operands.join(operator));
        }
    }
    for expression in [
        "NOT 0",
        "NOT ZERO",
        "1 OR TRUE",
        "1 OR 0",
        "TRUE AND 1",
        "1 AND 1",
        "TRUE==1",
        "FALSE==0",
        "ONE==TRUE",
        "TRUE!=0",
    ] {
        assert_undefined(expression);
    }
    assert_worth("TRUE==TRUE", "TRUE");
    assert_worth("TRUE!=FALSE", "TRUE");
    assert_undefined("6&3==2");
    assert_worth("(6&3)==2", "TRUE");
    assert_undefined("NOT 1==1");
}

#[test]
fn logic() {
    for (expression, value) in [
        ("NOT TRUE", "FALSE"),
        ("NOT FALSE", "TRUE"),
        ("TRUE AND TRUE", "TRUE"),
        ("TRUE AND FALSE", "FALSE"),
        ("FALSE AND FALSE", "FALSE"),
        ("TRUE OR FALSE", "TRUE"),
        ("FALSE OR TRUE", "TRUE"),
        ("FALSE OR FALSE", "FALSE"),
        ("FALSE==FALSE", "TRUE"),
        ("TRUE==FALSE", "FALSE"),
    ] {
        assert_worth(expression, value);
    }
}

#[test]
fn numbers() {
    for (expression, value) in [
        ("1-2", "18446744073709551615"),
        ("ONES+1", "0"),
        ("ONES+ONES", "18446744073709551614"),
        ("ONES*ONES", "1"),
        ("3<<63", "9223372036854775808"),
        ("1<<64", "0"),
        ("1<<65", "0"),
        ("1<<ONES", "0"),
        ("1<<4294967296", "0"),
        ("ONES>>63", "1"),
        ("ONES>>64", "0"),
        ("ONES>>ONES", "0"),
        ("5<<0", "5"),
        ("6|3", "7"),
        ("6&3", "2"),
        ("7/2", "3"),
        ("7%2", "1"),
        ("ZERO", "0"),
        ("ONE", "1"),
        ("ONES", "18446744073709551615"),
        ("0x10", "16"),
        ("2+3*4", "14"),
        ("10-3-2", "5"),
    ] {
        assert_worth(expression, value);
    }
    for expression in ["7/0", "7%0", "0/0", "0%0", "1/(1<<64)"] {
        assert_undefined(expression);
    }
}

/// Unsigned, always.
#[test]
fn order() {
    for (expression, value) in [
        ("0-1>5", "TRUE"),
        ("9223372036854775808>9223372036854775807", "TRUE"),
        ("1<2", "TRUE"),
        ("2<2", "FALSE"),
        ("2<=2", "TRUE"),
        ("3<=2", "FALSE"),
        ("2>2", "FALSE"),
        ("2>=2", "TRUE"),
        ("1>=2", "FALSE"),
        ("1!=2", "TRUE"),
    ] {
        assert_worth(expression, value);
    }
    let numeric = "numeric questionid=6,P,minimum=0,maximum=255,endnumeric;suppressif questionref(6)>5;label 1;endif;";
    assert_eq!(shown(numeric, &[6, 251]), [0, 0, 0, 0, 0, 1]);
}

#[test]
fn what_a_question_answers() {
    let checkbox = "checkbox questionid=5,P,endcheckbox;suppressif questionref(5);label 1;endif;";
    assert_eq!(shown(checkbox, &[5, 2]), [0, 0, 0, 1]);
    assert_eq!(shown(checkbox, &[5, u64::MAX]), [0, 0, 0, 1]);
    assert_eq!(shown(checkbox, &[5, 0]), [0, 0, 0, 0]);
    let without = "checkbox questionid=5,P,endcheckbox;suppressif NOT questionref(5);label 1;endif;";
    assert_eq!(shown(without, &[5, 0]), [0, 0, 0, 0, 1]);
    assert_eq!(shown(without, &[]), [0, 0, 0, 0, 0]);
    let numeric = "numeric questionid=6,P,minimum=0,maximum=9,endnumeric;suppressif questionref(6)==400;label 1;endif;";
    assert_eq!(shown(numeric, &[6, 400]), [0, 0, 0, 0, 0, 1]);
    let oneof =
        "oneof name=Q,P,option text=S,value=1,flags=DEFAULT;endoneof;suppressif questionref(Q)==7;label 1;endif;";
    assert_eq!(shown(oneof, &[1, 7]), [0, 0, 0, 0, 0, 0, 1]);
    let goto = "goto 1,questionid=8,P;suppressif questionref(8)==questionref(8);label 1;endif;";
    assert_eq!(shown(goto, &[8, 1]), [0, 0, 0, 0, 0, 0]);
    let default = "checkbox questionid=5,P,default=TRUE,endcheckbox;suppressif questionref(5);label 1;endif;";
    assert_eq!(shown(default, &[]), [0, 0, 0, 0]);
}

#[test]
fn rules() {
    assert_eq!(shown("rule A,7 endrule;suppressif ruleref(A)+1==8;label 1;endif;", &[]), [0, 0, 0, 0, 0, 0, 0, 0, 1]);
    assert_eq!(shown("suppressif ruleref(A);label 1;endif;rule A,NOT FALSE endrule;", &[]), [0, 0, 1, 0, 0, 0]);
    let later = "suppressif ruleref(A);label 1;endif;rule A,ruleref(B) endrule;rule B,TRUE endrule;";
    assert_eq!(shown(later, &[]), [0, 0, 1, 0, 0, 0, 0]);
    let doubling: String =
        (0..60).map(|at| format!("rule R{at},ruleref(R{0})+ruleref(R{0}) endrule;", at + 1)).collect();
    let condition = "rule R60,1 endrule;suppressif ruleref(R0)==1152921504606846976;label 1;endif;";
    assert_eq!(shown(&(doubling + condition), &[]).last(), Some(&1));
}

/// 255 rules with as many open groups as there may be, each referring to the next.
#[test]
fn deep_rules() {
    let (open, close) = ("(".repeat(32), ")".repeat(32));
    let rules: String = (0..254).map(|at| format!("rule A{at},{open}ruleref(A{}){close} endrule;", at + 1)).collect();
    let condition = "rule A254,TRUE endrule;suppressif ruleref(A0);label 1;endif;";
    assert_eq!(shown(&(rules + condition), &[]).last(), Some(&1));
}

/// The longest expression that groups to the left.
#[test]
fn a_long_chain() {
    let chain = format!("suppressif {}1==32001;label 1;endif;", "1+".repeat(32_000));
    assert_eq!(shown(&chain, &[]).last(), Some(&1));
}

#[test]
fn which_rows_have_a_byte() {
    let all = "suppressif TRUE;subtitle text=S;text help=S,text=S;label 1;goto 1,P;checkbox P,endcheckbox;\
               numeric P,minimum=0,maximum=9,endnumeric;oneof P,option text=S,value=1,flags=0;endoneof;endif;";
    assert_eq!(shown(all, &[]), [0, 0, 1, 1, 1, 1, 1, 1, 1, 0]);
    assert_eq!(shown("suppressif TRUE;grayoutif FALSE;endif;endif;", &[]), [0, 0, 0, 0]);
}

#[test]
fn round_an_item() {
    let nested = "suppressif TRUE;grayoutif TRUE;label 1;endif;label 2;endif;label 3;";
    assert_eq!(shown(nested, &[]), [0, 0, 0, 0, 3, 1, 0]);
    let outer = "grayoutif TRUE;suppressif UNDEFINED;disableif FALSE;label 1;endif;endif;endif;";
    assert_eq!(shown(outer, &[]), [0, 0, 0, 0, 0, 0, 2]);
    assert_eq!(shown("disableif TRUE;label 1;endif;", &[]), [0, 0, 1]);
}

/// Three questions, the last of which gets number 1.
const THREE: &str = "checkbox questionid=5,P,endcheckbox;checkbox questionid=9,P,endcheckbox;checkbox P,endcheckbox;";

#[test]
fn the_first_answer_at_fault() {
    let cases: &[(&[u64], usize)] = &[
        (&[5, 1, 5, 1], 1),
        (&[9, 1, 5, 1, 9], 1),
        (&[5, 1, 8, 1], 1),
        (&[5], 0),
        (&[5, 1, 9], 1),
        (&[2, 0, 1], 0),
        (&[0, 1], 0),
        (&[65_541, 1], 0),
        (&[u64::MAX, 1], 0),
        (&[5, 1, 9, 0, u64::MAX], 2),
        (&[1, 1, 5, 1, 9, 0, 9, 0], 3),
    ];
    for &(answers, place) in cases {
        assert_eq!(refused(THREE, answers, 70_000, 70_000), placeless(ANSWERS_REFUSAL, place, 0), "{answers:?}");
    }
}

#[test]
fn numbers_that_are_borne() {
    assert_eq!(shown(THREE, &[1, 1, 5, 1, 9, 0]), [0, 0, 0]);
    assert_eq!(shown("goto 1,questionid=8,P;", &[8, 0]), [0]);
}

#[test]
fn order_of_checks() {
    assert_eq!(refused(THREE, &[4, 1], 4, 0), placeless(6, 0, 5));
    assert_eq!(refused(THREE, &[4, 1], 5, 0), placeless(ANSWERS_REFUSAL, 0, 0));
    assert_eq!(refused(THREE, &[5, 1], 5, 4), placeless(BYTES_REFUSAL, 0, 0));
    assert_eq!(refused(THREE, &[], 5, 0), placeless(BYTES_REFUSAL, 0, 0));
    let (reading, bytes) = show(framed(THREE).as_bytes(), &[], 5, 5).expect("as many bytes as rows");
    assert_eq!((reading.rows.len(), reading.free, bytes), (5, 65_532, vec![0; 5]));
}
