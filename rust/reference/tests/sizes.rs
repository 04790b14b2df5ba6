//! Document 02, W-204: sizes and displays of numerics, and signed order, on the examples of the readings and some more.

mod frame;
mod only_question;
mod outcome;

use frame::framed;
use only_question::{question, resolved};
use outcome::{assert_accepted, assert_refused, at};
use reference::{column, quick_check, read, resolve, Position, Refusal, ROW};

/// Document 01's worked example.
const EXAMPLE: &str = include_str!("../../../examples/fan.vfr");

/// A numeric with these words of FL and this after it.
fn numeric(flags: &str, rest: &str) -> String {
    format!("numeric P,flags={flags},{rest},endnumeric;")
}

/// One with any limits.
fn flagged(flags: &str) -> String {
    numeric(flags, "minimum=0,maximum=1")
}

fn assert_one_question(fragment: &str) {
    assert_accepted(fragment, 3, 65_534);
}

/// 21: seven words, reserved everywhere; what is near to them is a name.
#[test]
fn new_words() {
    let words = ["NUMERIC_SIZE_1", "NUMERIC_SIZE_2", "NUMERIC_SIZE_4", "NUMERIC_SIZE_8"];
    for word in words.into_iter().chain(["DISPLAY_INT_DEC", "DISPLAY_UINT_DEC", "DISPLAY_UINT_HEX"]) {
        assert_refused(&format!("rule {word},1 endrule;"), at(3, 145));
        assert_refused(&format!("checkbox name={word},P,endcheckbox;"), at(3, 154));
    }
    for name in ["_2", "NUMERIC_SIZE_3", "NUMERIC_SIZE_16", "NUMERIC_SIZE_", "numeric_size_1", "DISPLAY_INT_HEX"] {
        assert_accepted(&format!("rule {name},1 endrule;"), 4, 65_535);
        assert_refused(&flagged(name), at(3, 198));
    }
}

/// 22: in a numeric's FL alone, in any order, among the old words or by themselves.
#[test]
fn where_they_may_stand() {
    assert_refused("checkbox P,flags=NUMERIC_SIZE_1,endcheckbox;", at(3, 199));
    assert_refused("goto 1,P,flags=READ_ONLY|DISPLAY_INT_DEC;", at(3, 207));
    assert_refused("oneof P,flags=DISPLAY_UINT_HEX,option text=S,value=1,flags=0;endoneof;", at(3, 196));
    assert_refused("oneof P,option text=S,value=1,flags=NUMERIC_SIZE_8;endoneof;", at(3, 232));
    assert_one_question(&flagged("DISPLAY_UINT_HEX|READ_ONLY|NUMERIC_SIZE_2"));
    assert_one_question(&flagged("NUMERIC_SIZE_2"));
    assert_one_question(&flagged("DISPLAY_UINT_DEC"));
}

/// 23 and 24: a second word of one sort, even the same; the earlier of two seconds.
#[test]
fn second_words() {
    assert_one_question(&flagged("NUMERIC_SIZE_1|DISPLAY_INT_DEC"));
    assert_one_question(&flagged("READ_ONLY|READ_ONLY"));
    for (flags, place) in [
        ("NUMERIC_SIZE_1|NUMERIC_SIZE_1", 213),
        ("NUMERIC_SIZE_1|NUMERIC_SIZE_8", 213),
        ("DISPLAY_UINT_DEC|DISPLAY_UINT_HEX", 215),
        ("NUMERIC_SIZE_1|DISPLAY_INT_DEC|DISPLAY_UINT_HEX|NUMERIC_SIZE_1", 229),
        ("NUMERIC_SIZE_1|DISPLAY_INT_DEC|NUMERIC_SIZE_1|DISPLAY_UINT_HEX", 229),
        ("DISPLAY_INT_DEC|DISPLAY_INT_DEC|DISPLAY_INT_DEC", 214),
        ("NUMERIC_SIZE_4|READ_ONLY|READ_ONLY|NUMERIC_SIZE_4", 233),
    ] {
        assert_refused(&flagged(flags), at(16, place));
    }
    let later = format!("{}{}", flagged("NUMERIC_SIZE_1"), flagged("NUMERIC_SIZE_1"));
    assert_accepted(&later, 4, 65_533);
    let refusal = Refusal { position: Position { line: 3, column: 3 }, ..at(16, 217) };
    let lines = "\nnumeric P,flags=NUMERIC_SIZE_1|\n  NUMERIC_SIZE_1,minimum=0,maximum=1,endnumeric;";
    assert_refused(lines, refusal);
}

/// 25 and 26: a stage of its own over the whole source, after 2, 3 and 4 and before 5, in the quick check too.
#[test]
fn order_of_second_words() {
    let second = flagged("NUMERIC_SIZE_1|NUMERIC_SIZE_1");
    assert_refused(&format!("{second}label;"), at(3, 264));
    assert_refused(&format!("{second}label 1;@"), at(2, 267));
    assert_refused(&format!("{second}rule A,{}1 ", "(".repeat(33)), at(4, 298));
    assert_refused(&format!("label 65536;{second}"), at(16, 225));
    assert_eq!(quick_check(framed(&second).as_bytes()), 68_719_476_949);
    assert_refused(&numeric("NUMERIC_SIZE_1|NUMERIC_SIZE_2", "minimum=0,maximum=256"), at(16, 213));
    assert_refused(&numeric("NUMERIC_SIZE_2|NUMERIC_SIZE_1", "minimum=0,maximum=256"), at(16, 213));
    assert_eq!(read(framed(&second).as_bytes(), 0), Err(at(16, 213)));
}

/// 27: all four numbers fit the size, signed or not.
#[test]
fn fit() {
    for (size, most) in [(1, 255u64), (2, 65_535), (4, 4_294_967_295), (8, u64::MAX)] {
        for display in ["DISPLAY_INT_DEC", "DISPLAY_UINT_DEC", "DISPLAY_UINT_HEX"] {
            let flags = format!("NUMERIC_SIZE_{size}|{display}");
            assert_one_question(&numeric(&flags, &format!("minimum={most},maximum={most},step={most},default={most}")));
            let over = u128::from(most) + 1;
            let all = format!("minimum=0,maximum=0,step=0,default={over}");
            assert_refused(&numeric(&flags, &all), at(5, 198 + flags.len() + 36));
            let spelled = format!("minimum=0x00000{over:x},maximum=0");
            assert_refused(&numeric(&flags, &spelled), at(5, 198 + flags.len() + 9));
        }
    }
    let step = numeric("NUMERIC_SIZE_1", "minimum=0,maximum=255,step=256");
    assert_refused(&step, at(5, 240));
    assert_refused(&numeric("NUMERIC_SIZE_4", "minimum=0,maximum=4294967296"), at(5, 231));
    assert_one_question(&numeric("NUMERIC_SIZE_2", "minimum=0x0000000ffff,maximum=65535"));
}

/// Numbers of other places have no size.
#[test]
fn fit_of_others() {
    let condition = format!("{}suppressif 256==65536;endif;", flagged("NUMERIC_SIZE_1"));
    assert_accepted(&condition, 7, 65_534);
    let option = format!("{}oneof P,option text=S,value=256,flags=0;endoneof;", flagged("NUMERIC_SIZE_1"));
    assert_accepted(&option, 5, 65_533);
    let next = format!("{}numeric P,minimum=0,maximum=256,endnumeric;", flagged("NUMERIC_SIZE_1"));
    assert_accepted(&next, 4, 65_533);
}

/// One stage with the numbers that no place has: the earliest answers.
#[test]
fn order_of_fit() {
    let over = "18446744073709551616";
    let both = numeric("NUMERIC_SIZE_1", &format!("minimum=300,maximum={over}"));
    assert_refused(&both, at(5, 221));
    let step = numeric("NUMERIC_SIZE_1", &format!("minimum=0,maximum={over},step=256"));
    assert_refused(&step, at(5, 231));
    let size = numeric("NUMERIC_SIZE_1", "minimum=0,maximum=256");
    assert_refused(&size, at(5, 231));
    assert_refused(&format!("{size}label 65536;"), at(5, 231));
    assert_refused(&format!("label 65536;{size}"), at(5, 146));
    assert_eq!(quick_check(framed(&size).as_bytes()), 5 << 32 | 231);
    assert_refused(&format!("{}goto 7,P;", numeric("NUMERIC_SIZE_1", "minimum=256,maximum=0")), at(5, 221));
}

/// 28 and 29: minimum, maximum and default in the signed order of the size for `DISPLAY_INT_DEC` alone.
#[test]
fn signed_order() {
    let small = "NUMERIC_SIZE_1|DISPLAY_INT_DEC";
    assert_one_question(&numeric(small, "minimum=251,maximum=5,default=255"));
    assert_refused(&numeric(small, "minimum=127,maximum=128"), at(12, 249));
    assert_refused(&numeric(small, "minimum=251,maximum=5,default=250"), at(12, 259));
    assert_refused(&numeric(small, "minimum=251,maximum=5,default=6"), at(12, 259));
    assert_refused(&numeric("NUMERIC_SIZE_1|DISPLAY_UINT_HEX", "minimum=251,maximum=5"), at(12, 250));
    assert_refused(&numeric("DISPLAY_INT_DEC", "minimum=251,maximum=5"), at(12, 234));
    assert_one_question(&numeric("DISPLAY_INT_DEC", "minimum=18446744073709551611,maximum=5"));
    assert_refused(&numeric("NUMERIC_SIZE_1", "minimum=251,maximum=5"), at(12, 233));
    assert_one_question(&numeric(small, "minimum=128,maximum=127,step=255"));
}

/// The greatest number is followed by the least in each size.
#[test]
fn signed_borders() {
    for (size, least) in [(1, 1u64 << 7), (2, 1 << 15), (4, 1 << 31), (8, 1 << 63)] {
        let flags = format!("NUMERIC_SIZE_{size}|DISPLAY_INT_DEC");
        let of = |minimum: u64, maximum: u64| numeric(&flags, &format!("minimum={minimum},maximum={maximum}"));
        let last = least - 1 + least;
        assert_one_question(&of(least, least - 1));
        assert_one_question(&of(last, 0));
        assert_one_question(&of(least, last));
        let place = |minimum: u64| 198 + flags.len() + ",minimum=,maximum=".len() + minimum.to_string().len();
        assert_refused(&of(least - 1, least), at(12, place(least - 1)));
        assert_refused(&of(0, last), at(12, place(0)));
        assert_refused(&of(last, least), at(12, place(last)));
    }
}

/// 30 and 31: rows hold numbers as they are written, and the format by itself; the words add nothing to the flags.
#[test]
fn rows() {
    let signed = "NUMERIC_SIZE_1|DISPLAY_INT_DEC";
    let default = question(&numeric(signed, "minimum=251,maximum=5,default=255"));
    assert_eq!(default, [7, 1, 1, 0, 0, 256, 251, 5, 1, 255, 0, 140, 4]);
    let absent = question(&numeric(signed, "minimum=251,maximum=254"));
    assert_eq!(absent, [7, 1, 1, 0, 0, 0, 251, 254, 1, 0, 0, 140, 4]);
    let plain = question("numeric P,minimum=0,maximum=1,endnumeric;");
    assert_eq!(plain, [7, 1, 1, 0, 0, 0, 0, 1, 1, 0, 0, 140, 33]);
    let hex = question(&flagged("NUMERIC_SIZE_1|DISPLAY_UINT_HEX|READ_ONLY"));
    assert_eq!(hex, [7, 1, 1, 0, 0, 1, 0, 1, 1, 0, 0, 140, 6]);
    assert_eq!(question("checkbox P,endcheckbox;"), [6, 1, 1, 0, 0, 0, 0, 0, 0, 0, 0, 140, 0]);
    for (at, display) in ["INT_DEC", "UINT_DEC", "UINT_HEX"].into_iter().enumerate() {
        for size in [1, 2, 4, 8] {
            let row = question(&flagged(&format!("DISPLAY_{display}|NUMERIC_SIZE_{size}")));
            assert_eq!(row[column::SIZE], size * 4 + at as u64);
        }
        assert_eq!(question(&flagged(&format!("DISPLAY_{display}")))[column::SIZE], 32 + at as u64);
    }
    assert_eq!(question(&flagged("NUMERIC_SIZE_2"))[column::SIZE], 9);
}

/// 32: thirteen numbers a row, and of other rows the last is 0.
#[test]
fn width() {
    assert_eq!(ROW, 13);
    let reading = read(EXAMPLE.as_bytes(), 195 / ROW).expect("the worked example");
    assert_eq!((reading.rows.len(), reading.free), (15, 65_533));
    let formats: Vec<u64> = reading.rows.iter().map(|row| row[column::SIZE]).collect();
    assert_eq!(formats, [0, 0, 0, 0, 0, 0, 0, 0, 0, 0, 0, 0, 0, 0, 33]);
    let short = Refusal { number: 6, place: 0, position: Position::NONE, need: 15 };
    assert_eq!(read(EXAMPLE.as_bytes(), 194 / ROW), Err(short));
}

/// 33: a numeric's text has both words always, after the old flags; other questions' flags are as before.
#[test]
fn resolved_flags() {
    let strings = "prompt = STRING_TOKEN ( 0 ) , help = STRING_TOKEN ( 0 )";
    let signed = numeric("DISPLAY_INT_DEC|RESET_REQUIRED|NUMERIC_SIZE_1|READ_ONLY", "minimum=251,maximum=5");
    let flags = "flags = READ_ONLY | RESET_REQUIRED | NUMERIC_SIZE_1 | DISPLAY_INT_DEC";
    let limits = "minimum = 251 , maximum = 5 , step = 1 , endnumeric ;";
    assert_eq!(resolved(&signed), format!("numeric questionid = 1 , {strings} , {flags} , {limits}"));
    let flags = "flags = NUMERIC_SIZE_8 | DISPLAY_UINT_HEX";
    let limits = "minimum = 16 , maximum = 255 , step = 1 , endnumeric ;";
    let hex = resolved(&numeric("DISPLAY_UINT_HEX", "minimum=0x10,maximum=0xff"));
    assert_eq!(hex, format!("numeric questionid = 1 , {strings} , {flags} , {limits}"));
    assert_eq!(resolved("checkbox P,endcheckbox;"), format!("checkbox questionid = 1 , {strings} , endcheckbox ;"));
    let plain = resolved("numeric P,minimum=0,maximum=1,endnumeric;");
    assert!(plain.contains(" , flags = NUMERIC_SIZE_8 | DISPLAY_UINT_DEC , minimum = 0 , "), "{plain}");
}

/// 34: the worked example, and its text without the words of size and display, which it then gets.
#[test]
fn worked_example() {
    let (_, text) = resolve(EXAMPLE.as_bytes(), 15, 65_536).expect("the worked example");
    let line = "numeric questionid = 1 , prompt = STRING_TOKEN ( 7 ) , help = STRING_TOKEN ( 8 ) , \
                flags = READ_ONLY | NUMERIC_SIZE_8 | DISPLAY_UINT_DEC , minimum = 0 , maximum = 9 , step = 1 , \
                endnumeric ;\n";
    assert!(text.contains(line), "{text}");
    let without = text.replace(" | NUMERIC_SIZE_8 | DISPLAY_UINT_DEC", "");
    assert_eq!((without.len(), text.len()), (569, 605));
    assert_eq!(resolve(without.as_bytes(), 15, 65_536).map(|(_, text)| text), Ok(text));
}

/// 35: the text is longer than before, and the limits stay.
#[test]
fn longer_texts() {
    let short = |need| Refusal { number: 13, place: 0, position: Position::NONE, need };
    assert_eq!(resolve(EXAMPLE.as_bytes(), 15, 569), Err(short(605)));
    let numerics = |count: usize| framed(&"numeric P,minimum=0,maximum=1,endnumeric;".repeat(count));
    let line = |number: u32| {
        let words = "flags = NUMERIC_SIZE_8 | DISPLAY_UINT_DEC , minimum = 0 , maximum = 1 , step = 1 , endnumeric ;\n";
        format!("numeric questionid = {number} , prompt = STRING_TOKEN ( 0 ) , help = STRING_TOKEN ( 0 ) , {words}")
            .len()
    };
    let length = |count: u32| 237 + (1..=count).map(line).sum::<usize>();
    let most = (1..).take_while(|&count| length(count) <= 65_536).last().expect("one numeric fits");
    let resolved = |count: u32| resolve(numerics(count as usize).as_bytes(), 1_000, 65_536).map(|(_, text)| text.len());
    assert_eq!(resolved(most), Ok(length(most)));
    assert_eq!(resolved(most + 1), Err(short(length(most + 1))));
}
