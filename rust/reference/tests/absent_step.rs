//! Document 02, W-208: an absent step is 1 and a written 0 stays 0, on the examples of the readings and some more.

mod frame;
mod only_question;

use frame::framed;
use only_question::{question, resolved};
use reference::{column, quick_check, read, resolve, show, Reading, Refusal, Row};

/// Document 01's worked example.
const EXAMPLE: &str = include_str!("../../../examples/fan.vfr");

/// Its resolved text as document 01 prints it, which is that of before W-204.
const BEFORE_SIZES: &str = "\
formset guid = { 0x00000001 , 0x0002 , 0x0003 , { 0x04 , 0x05 , 0x06 , 0x07 , 0x08 , 0x09 , 0x0a , 0x0b } } , \
title = STRING_TOKEN ( 2 ) , help = STRING_TOKEN ( 3 ) , form formid = 16 , title = STRING_TOKEN ( 4 ) ;
checkbox questionid = 2 , prompt = STRING_TOKEN ( 5 ) , help = STRING_TOKEN ( 6 ) , default = TRUE , endcheckbox ;
suppressif NOT questionref ( 2 ) OR 1 + 2 * 3 == 7 ;
numeric questionid = 1 , prompt = STRING_TOKEN ( 7 ) , help = STRING_TOKEN ( 8 ) , flags = READ_ONLY , \
minimum = 0 , maximum = 9 , step = 0 , endnumeric ;
endif ;
endform ;
endformset ;
";

const NUMERIC: u64 = 7;

/// A source with the fragment, in which `#` is this step of one digit; or, if it is absent, as many blanks, so that all
/// places are the same.
fn stepped(fragment: &str, step: Option<u64>) -> String {
    let step = step.map_or(" ".repeat("step=0,".len()), |step| format!("step={step},"));
    framed(&fragment.replace('#', &step))
}

/// What the rows of numerics hold for their steps, in order.
fn steps(rows: &[Row]) -> Vec<u64> {
    rows.iter().filter(|row| row[column::CODE] == NUMERIC).map(|row| row[column::C]).collect()
}

fn read_and_resolved(source: &str) -> (Reading, String) {
    resolve(source.as_bytes(), 70_000, 65_536).expect(source)
}

/// 37: no step and a written 1 give one row and one text, a written 0 another.
#[test]
fn absent_0_and_1() {
    let strings = "prompt = STRING_TOKEN ( 0 ) , help = STRING_TOKEN ( 0 )";
    let format = "flags = NUMERIC_SIZE_8 | DISPLAY_UINT_DEC";
    for (written, step) in [("", 1), ("step=0,", 0), ("step=1,", 1), ("step=00,", 0), ("step=0x0,", 0)] {
        let fragment = format!("numeric P,minimum=0,maximum=0,{written}endnumeric;");
        assert_eq!(question(&fragment), [7, 1, 1, 0, 0, 0, 0, 0, step, 0, 0, 140, 33], "{fragment}");
        let settings = format!("minimum = 0 , maximum = 0 , step = {step} , endnumeric ;");
        assert_eq!(resolved(&fragment), format!("numeric questionid = 1 , {strings} , {format} , {settings}"));
    }
}

/// The 1 fits every size, and is not compared with the limits.
#[test]
fn any_size_and_limits() {
    for (size, most) in [(1, 255u64), (2, 65_535), (4, 4_294_967_295), (8, u64::MAX)] {
        for display in ["DISPLAY_INT_DEC", "DISPLAY_UINT_DEC", "DISPLAY_UINT_HEX"] {
            for limit in [0, 1, 2, most / 2, most / 2 + 1, most] {
                let flags = format!("flags=NUMERIC_SIZE_{size}|{display}");
                let of = |rest: &str| question(&format!("numeric P,{flags},minimum={limit},maximum={limit},{rest}"));
                assert_eq!(of("endnumeric;")[column::C], 1, "{flags} {limit}");
                assert_eq!(of(&format!("default={limit},endnumeric;"))[column::C], 1, "{flags} {limit}");
                assert_eq!(of("step=0,endnumeric;")[column::C], 0, "{flags} {limit}");
                assert_eq!(of(&format!("step={most},endnumeric;"))[column::C], most, "{flags} {limit}");
            }
        }
    }
}

/// Each numeric has its own step, and other rows have none.
#[test]
fn each_numeric_by_itself() {
    let numeric =
        |step: &str| format!("numeric P,minimum=0,maximum=9,{step}default=5,endnumeric;checkbox P,endcheckbox;");
    let fragment = ["step=7,", "", "step=0,", "", "step=1,", ""].map(numeric).concat();
    let (reading, text) = read_and_resolved(&framed(&fragment));
    assert_eq!(steps(&reading.rows), [7, 1, 0, 1, 1, 1]);
    let others = reading.rows.iter().filter(|row| row[column::CODE] != NUMERIC).map(|row| row[column::C]);
    assert_eq!(others.collect::<Vec<u64>>(), [0; 8]);
    let printed: Vec<&str> = text.split("step = ").skip(1).map(|rest| &rest[..1]).collect();
    assert_eq!(printed, ["7", "1", "0", "1", "1", "1"]);
}

/// Fragments with a numeric that may have a step, and their refusals.
const FRAGMENTS: [(&str, u64); 14] = [
    ("numeric P,minimum=0,maximum=0,#endnumeric;", 0),
    ("numeric P,flags=DISPLAY_INT_DEC,minimum=0,maximum=1,#default=1,endnumeric;goto 1,P;label 1;", 0),
    ("suppressif 1<2;numeric name=A,P,flags=NUMERIC_SIZE_1,minimum=5,maximum=9,#endnumeric;endif;goto 1,P;", 0),
    ("numeric P,minimum=0,maximum=0,#endnumeric;label 1;@", 2),
    ("numeric P,minimum=0,maximum=0,#endnumeric;label;", 3),
    ("numeric P,minimum=0,maximum=0,#endnumeric,", 3),
    ("numeric P,flags=NUMERIC_SIZE_1|NUMERIC_SIZE_1,minimum=0,maximum=0,#endnumeric;", 16),
    ("numeric P,flags=NUMERIC_SIZE_1,minimum=0,maximum=256,#endnumeric;", 5),
    ("numeric P,flags=NUMERIC_SIZE_1,minimum=0,maximum=0,#default=256,endnumeric;", 5),
    ("numeric questionid=1,P,minimum=0,maximum=0,#endnumeric;goto 1,questionid=1,P;", 8),
    ("numeric P,minimum=0,maximum=0,#endnumeric;goto 2,P;", 11),
    ("numeric P,minimum=0,maximum=0,#default=1,endnumeric;", 12),
    ("numeric P,minimum=2,maximum=1,#endnumeric;", 12),
    ("numeric P,minimum=0,maximum=0,#endnumeric;rule A,ruleref(A)endrule;", 14),
];

/// Rows and texts of a written 1 are those of an absent step. Those of a written 0 differ from them in one number and
/// one byte.
#[test]
fn beside_a_written_one() {
    for (fragment, _) in FRAGMENTS.iter().filter(|(_, number)| *number == 0) {
        let [absent, zero, one] = [None, Some(0), Some(1)].map(|step| read_and_resolved(&stepped(fragment, step)));
        assert_eq!(absent, one, "{fragment}");
        let cells = absent.0.rows.iter().flatten().zip(zero.0.rows.iter().flatten());
        let differences: Vec<_> = cells.filter(|(one, other)| one != other).collect();
        assert_eq!(differences, [(&1, &0)], "{fragment}");
        assert_eq!((steps(&absent.0.rows), steps(&zero.0.rows)), (vec![1], vec![0]), "{fragment}");
        assert_eq!(absent.1.replace(" , step = 1 , ", " , step = 0 , "), zero.1, "{fragment}");
        assert_ne!(absent.1, zero.1, "{fragment}");
    }
}

/// How many rows, free numbers and bytes an acceptance counts.
type Counts = (usize, u64, usize);

/// The answers of all calls, with enough lent and with too little.
fn told(source: &str) -> (u64, [Result<Counts, Refusal>; 6]) {
    let source = source.as_bytes();
    let reading = |rows| read(source, rows).map(|reading| (reading.rows.len(), reading.free, 0));
    let resolving =
        |bytes| resolve(source, 70_000, bytes).map(|(reading, text)| (reading.rows.len(), reading.free, text.len()));
    let showing = |bytes| {
        show(source, &[], 70_000, bytes).map(|(reading, bytes)| (reading.rows.len(), reading.free, bytes.len()))
    };
    let answers = [reading(70_000), reading(2), resolving(65_536), resolving(100), showing(70_000), showing(2)];
    (quick_check(source), answers)
}

/// No answer depends on whether a step is absent; only rows and text do.
#[test]
fn answers_stay() {
    for (fragment, number) in FRAGMENTS {
        let [absent, zero, one] = [None, Some(0), Some(1)].map(|step| told(&stepped(fragment, step)));
        assert_eq!(absent.1[0].map_or_else(|refusal| refusal.number, |_| 0), number, "{fragment}");
        assert_eq!((&absent, &absent), (&zero, &one), "{fragment}");
    }
}

/// 34 and 38: older texts of the worked example, from before W-204 and after it, keep the 0 that they write.
#[test]
fn older_texts() {
    let after_sizes = BEFORE_SIZES.replace("READ_ONLY", "READ_ONLY | NUMERIC_SIZE_8 | DISPLAY_UINT_DEC");
    let (reading, text) = read_and_resolved(EXAMPLE);
    assert_eq!(text, after_sizes.replace("step = 0", "step = 1"));
    assert_eq!((steps(&reading.rows), reading.free), (vec![1], 65_533));
    let without_places = |row: &Row| {
        let mut row = *row;
        [row[column::NAME], row[column::PLACE]] = [0; 2];
        row
    };
    for older in [BEFORE_SIZES, &after_sizes] {
        let (again, resolved) = read_and_resolved(older);
        assert_eq!(resolved, after_sizes, "{older}");
        let mut rows: Vec<Row> = reading.rows.iter().map(without_places).collect();
        rows[14][column::C] = 0;
        assert_eq!(again.rows.iter().map(without_places).collect::<Vec<Row>>(), rows, "{older}");
        assert_eq!(again.free, reading.free, "{older}");
    }
}
