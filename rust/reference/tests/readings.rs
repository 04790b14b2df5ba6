//! The reference on the examples of docs/DECISIONS.md. A fragment stands in that page's frame.

mod frame;

use frame::framed;
use reference::{quick_check, read, resolve, Kind, Lexer, Placed, Position, Refusal, Token, Walk};

/// Refusal number and place of a source, with many rows lent.
fn refused(source: &str) -> (u64, usize) {
    match read(source.as_bytes(), 70_000) {
        Ok(_) => (0, 0),
        Err(Refusal { number, place, .. }) => (number, place),
    }
}

/// The refusal of a table or an output that is too short.
fn short(number: u64, need: usize) -> Refusal {
    Refusal { number, place: 0, position: Position::NONE, need }
}

#[test]
fn whole_sources() {
    let cases: &[(&str, (u64, usize))] = &[
        ("", (3, 0)),
        (" 12ab", (2, 1)),
        ("00x1", (2, 0)),
        ("0xg", (2, 0)),
        ("0X10", (2, 0)),
        ("//x\rformset", (3, 11)),
        ("//x\nendif", (3, 4)),
        ("! =", (2, 0)),
        ("formset  //x\n", (3, 13)),
        ("endif @", (2, 6)),
    ];
    for (source, answer) in cases {
        assert_eq!(refused(source), *answer, "{source:?}");
        assert_eq!(quick_check(source.as_bytes()), answer.0 << 32 | answer.1 as u64, "{source:?}");
    }
}

#[test]
fn refused_fragments() {
    let cases: &[(&str, (u64, usize))] = &[
        ("rule A,8/ /2 endrule;", (3, 150)),
        ("rule A,8//2 endrule;", (3, 179)),
        ("rule A,1<<=2 endrule;", (3, 150)),
        ("checkbox name=TRUE,P,endcheckbox;", (3, 154)),
        ("suppressif 1;rule A,1 endrule;endif;", (3, 153)),
        ("oneof P,endoneof;", (3, 190)),
        ("goto 1,P,;", (3, 191)),
        ("checkbox questionid=1,name=A,P,endcheckbox;", (3, 162)),
        ("numeric P,minimum=0,maximum=1,default=0,step=1,endnumeric;", (3, 222)),
        ("oneof P,option text=S,value=1,flags=16;endoneof;", (5, 232)),
        ("goto 0,P;", (5, 145)),
        ("goto 65535,P;", (11, 145)),
        ("numeric P,minimum=0,maximum=1,step=18446744073709551616,endnumeric;", (5, 217)),
        ("numeric P,minimum=9,maximum=1,default=18446744073709551616,endnumeric;", (5, 220)),
        ("checkbox P,endcheckbox;rule A,questionref(1) endrule;", (11, 224)),
        ("rule A,questionref(A) endrule;", (11, 159)),
        ("numeric P,minimum=5,maximum=4,default=9,endnumeric;", (12, 210)),
        ("numeric P,minimum=5,maximum=6,default=4,endnumeric;", (12, 220)),
        ("oneof P,option text=S,value=1,flags=DEFAULT;option text=S,value=0x1,flags=DEFAULT;endoneof;", (12, 274)),
    ];
    for (fragment, answer) in cases {
        assert_eq!(refused(&framed(fragment)), *answer, "{fragment}");
    }
}

#[test]
fn accepted_fragments() {
    let cases = [
        ("rule A,0x1+0x2 endrule;", 6, 65_535),
        ("checkbox name=NAME,P,endcheckbox;", 3, 65_534),
        ("suppressif 1;endif;", 4, 65_535),
        ("goto 1,P;", 3, 65_534),
        ("label 0;label 0;", 4, 65_535),
        ("rule A,1 endrule;checkbox name=A,P,endcheckbox;", 5, 65_534),
        ("numeric P,minimum=5,maximum=5,default=5,endnumeric;", 3, 65_534),
        ("goto 1,P;goto 1,P;label 1;", 5, 65_533),
    ];
    for (fragment, rows, free) in cases {
        let reading = read(framed(fragment).as_bytes(), rows).expect(fragment);
        assert_eq!((reading.rows.len(), reading.free), (rows, free), "{fragment}");
        assert_eq!(read(framed(fragment).as_bytes(), rows - 1), Err(short(6, rows)), "{fragment}");
    }
}

#[test]
fn depths() {
    let groups = |count: usize| framed(&format!("rule A,{}1{} endrule;", "(".repeat(count), ")".repeat(count)));
    assert_eq!(refused(&groups(32)), (0, 0));
    assert_eq!(refused(&groups(33)), (4, 179));
    let conditions = |count: usize| framed(&format!("{}{}", "suppressif 1;".repeat(count), "endif;".repeat(count)));
    assert_eq!(refused(&conditions(16)), (0, 0));
    assert_eq!(refused(&conditions(17)), (4, 348));
}

#[test]
fn rules() {
    let rules = |count| framed(&(0..count).map(|at| format!("rule A{at},1 endrule;")).collect::<String>());
    assert_eq!(refused(&rules(255)), (0, 0));
    assert_eq!(refused(&rules(256)), (10, 5130));
    assert_eq!(read(rules(256).as_bytes(), 512), Err(short(6, 514)));
}

#[test]
fn resolved_expressions() {
    let cases = [
        ("1-(2-3)", "1 - ( 2 - 3 )"),
        ("(1-2)-3", "1 - 2 - 3"),
        ("(1==2)!=3", "1 == 2 != 3"),
        ("(1 OR 2)AND 3", "( 1 OR 2 ) AND 3"),
        ("1+(NOT 2)", "1 + NOT 2"),
        ("NOT(1+2)", "NOT ( 1 + 2 )"),
        ("NOT((1))", "NOT 1"),
        ("1*(2%3)", "1 * ( 2 % 3 )"),
    ];
    for (written, printed) in cases {
        let source = framed(&format!("rule A,{written} endrule;"));
        let (_, text) = resolve(source.as_bytes(), 70_000, 65_536).expect(written);
        assert!(text.contains(&format!("rule R1 , {printed} endrule ;\n")), "{text}");
    }
}

#[test]
fn output_lengths() {
    let source = framed("");
    assert_eq!(resolve(source.as_bytes(), 2, 237).map(|(_, text)| text.len()), Ok(237));
    assert_eq!(resolve(source.as_bytes(), 2, 236), Err(short(13, 237)));
    assert_eq!(resolve(source.as_bytes(), 1, 0), Err(short(6, 2)));
}

// ---- Document 02, W-201: line and column

/// A token by its sort, start, end, line and column.
type Sorted = (&'static str, usize, usize, u64, u64);

fn sorted(Placed { token: Token { kind, start, end }, position: Position { line, column } }: Placed) -> Sorted {
    let sort = match kind {
        Kind::Hex | Kind::Decimal => "number",
        Kind::Bad => "bad",
        Kind::End => "end",
        _ if kind.class() < Kind::And.class() => "sign",
        _ => "word",
    };
    (sort, start, end, line, column)
}

/// The tokens of a source, with the bad one or the end as the last.
fn walked(source: &[u8]) -> Vec<Sorted> {
    let mut walk = Walk::new(source);
    let mut tokens = Vec::new();
    loop {
        let placed = walk.next_token();
        tokens.push(sorted(placed));
        if placed.token.kind.is_last() {
            return tokens;
        }
    }
}

/// Refusal number, place, line and column of a source, with many rows lent.
fn refused_where(source: &[u8]) -> (u64, usize, u64, u64) {
    let refusal = read(source, 70_000).expect_err("a refusal");
    let Position { line, column } = refusal.position;
    assert_eq!(resolve(source, 70_000, 65_536), Err(refusal));
    (refusal.number, refusal.place, line, column)
}

#[test]
fn lines_columns_and_whose_they_are() {
    let cases: &[(&[u8], &[Sorted])] = &[
        // LF alone makes a line.
        (b"1\r\n;", &[("number", 0, 1, 1, 1), ("sign", 3, 4, 2, 1), ("end", 4, 4, 2, 2)]),
        (b"\ra", &[("word", 1, 2, 1, 2), ("end", 2, 2, 1, 3)]),
        (b"a//x\r\n\n b", &[("word", 0, 1, 1, 1), ("word", 8, 9, 3, 2), ("end", 9, 9, 3, 3)]),
        // A column counts bytes.
        (b"\t\tx", &[("word", 2, 3, 1, 3), ("end", 3, 3, 1, 4)]),
        (b"//\xc3\xa9 \n \xc3", &[("bad", 7, 7, 2, 2)]),
        // Those before the token's first byte count.
        (b"a\n  b", &[("word", 0, 1, 1, 1), ("word", 4, 5, 2, 3), ("end", 5, 5, 2, 4)]),
        // A bad token and the end have both.
        (b"//c\n@", &[("bad", 4, 4, 2, 1)]),
        (b"", &[("end", 0, 0, 1, 1)]),
        (b"x\n", &[("word", 0, 1, 1, 1), ("end", 2, 2, 2, 1)]),
    ];
    for (source, tokens) in cases {
        assert_eq!(walked(source), *tokens, "{}", source.escape_ascii());
    }
}

#[test]
fn bad_token_and_end_repeat() {
    for (source, last) in [("a\n @", ("bad", 3, 3, 2, 2)), ("a\n ", ("end", 3, 3, 2, 2))] {
        let mut walk = Walk::new(source.as_bytes());
        assert_eq!(sorted(walk.next_token()), ("word", 0, 1, 1, 1), "{source:?}");
        for _ in 0..3 {
            assert_eq!(sorted(walk.next_token()), last, "{source:?}");
        }
    }
}

/// From a place with a given line and column the numbers count on from these, and wrap; past the length is the end.
#[test]
fn tokens_from_a_place() {
    const MOST: u64 = u64::MAX;
    let cases: &[(&str, usize, (u64, u64), Sorted)] = &[
        ("a\n  b", 1, (1, 2), ("word", 4, 5, 2, 3)),
        ("a\n  b", 2, (7, 9), ("word", 4, 5, 7, 11)),
        ("a\n  b", 1, (MOST, MOST), ("word", 4, 5, 0, 3)),
        ("a   b", 1, (MOST, MOST), ("word", 4, 5, MOST, 2)),
        ("a\n  b", 5, (3, 4), ("end", 5, 5, 3, 4)),
        ("a\n  b", usize::MAX, (3, 4), ("end", 5, 5, 3, 4)),
    ];
    for &(source, place, (line, column), token) in cases {
        let mut walk = Walk::at(source.as_bytes(), place, Position { line, column });
        assert_eq!(sorted(walk.next_token()), token, "{source:?} from {place}");
    }
}

#[test]
fn refusals_at_0() {
    assert_eq!(refused_where(b""), (3, 0, 1, 1));
    assert_eq!(refused_where(b"@"), (2, 0, 1, 1));
    assert_eq!(refused_where(&[b' '; 65_537]), (1, 0, 0, 0));
    let source = framed("label 1;");
    assert_eq!(read(source.as_bytes(), 2), Err(short(6, 3)));
    assert_eq!(resolve(framed("").as_bytes(), 2, 236), Err(short(13, 237)));
}

#[test]
fn refusals_at_the_end() {
    assert_eq!(refused_where(b"formset"), (3, 7, 1, 8));
    assert_eq!(refused_where(b"formset\n"), (3, 8, 2, 1));
    assert_eq!(refused_where(b"formset\n//ab"), (3, 12, 2, 5));
    assert_eq!(refused_where(&[b'\n'; 65_536]), (3, 65_536, 65_537, 1));
}

/// Every refusal that has a place, on a later line, with CR, a tab and a byte over 127 before it.
#[test]
fn refusals_on_later_lines() {
    let rules = (0..256).map(|at| format!("rule A{at},1 endrule;\n")).collect::<String>();
    let cases = [
        (2, "@", 3, 2),
        (3, "label;", 3, 7),
        (4, &format!("rule A,{}1 ", "(".repeat(33)), 3, 41),
        (5, "label 65536;", 3, 8),
        (7, "endform;form\nformid=1,title=STRING_TOKEN(4);", 4, 8),
        (8, "goto 1,questionid=7,P;goto 1,\nquestionid=7,P;", 4, 12),
        (9, "rule A,1 endrule;\r\n\t\trule A,1 endrule;", 4, 8),
        (10, &rules, 258, 1),
        (11, "rule A,ruleref(\n B) endrule;", 4, 2),
        (12, "numeric P,minimum=5,\n\n maximum= 4,endnumeric;", 5, 11),
        (16, "numeric P,flags=NUMERIC_SIZE_1|\n  NUMERIC_SIZE_1,minimum=0,maximum=1,endnumeric;", 4, 3),
    ];
    for (number, items, line, column) in cases {
        let source = framed(&format!("// \u{e9}\r\n\r \n\t{items}"));
        let (given, _, given_line, given_column) = refused_where(source.as_bytes());
        assert_eq!((given, given_line, given_column), (number, line, column), "{items}");
    }
}

/// The quick check has one number, with neither line nor column.
#[test]
fn what_stays() {
    assert_eq!(quick_check(b"\n@"), 8_589_934_593);
    assert_eq!(refused_where(b"\n@"), (2, 1, 2, 1));
}

/// The classes of signs are in document 01's order, those of reserved words in byte order.
#[test]
fn classes() {
    let class_of = |word: &str| Lexer::new(word.as_bytes()).next_token().kind.class();
    let signs = "{ } ( ) , ; = | & == != < <= > >= << >> + - * / %";
    assert!(signs.split(' ').map(class_of).eq(0..22));
    let words = "AND DEFAULT DISPLAY_INT_DEC DISPLAY_UINT_DEC DISPLAY_UINT_HEX FALSE INTERACTIVE NOT NUMERIC_SIZE_1 \
                 NUMERIC_SIZE_2 NUMERIC_SIZE_4 NUMERIC_SIZE_8 ONE ONES OR READ_ONLY RESET_REQUIRED STRING_TOKEN TRUE \
                 UNDEFINED ZERO checkbox default disableif endcheckbox endform endformset endif endnumeric endoneof endrule flags form \
                 formid formset goto grayoutif guid help label maximum minimum name numeric oneof option prompt questionid \
                 questionref rule ruleref step subtitle suppressif text title value";
    assert!(words.split(' ').is_sorted());
    assert!(words.split(' ').map(class_of).eq(22..79));
    assert!(["a", "0x1", "1", "@", ""].into_iter().map(class_of).eq(79..84));
}
