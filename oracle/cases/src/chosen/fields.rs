//! Fields whose name comes again (change request 2): which `( )` count, what is one name, what comes before 31 and what behind it, and the text beside the tape.
use super::Lines;
use crate::damage::NOT_UTF8;
use crate::limits::sized;
use crate::line;
use crate::tapes::{self, WIDTH};
use crate::walks::Walk;

pub fn lines(lines: &mut Lines, call: u8) {
    match call {
        b'w' => of_text(lines),
        b'W' => of_any_tape(lines),
        _ => {}
    }
}

/// As worked in the requests' reading: 31 stands at the name that comes again, whatever stands behind it.
const WORKED: &[&str] = &[
    "(a:1,a:2)", "(a:1,a)", "(a:1,a", "(a:1,a(2))", "(a:1,a:[)", "(a:1 a:2)", "(a:[],a:1)", "(a:(b:1,b:2),a:3)",
    "(a:1,a:[[]])", "(a:(a:1),b:2)", "[(a:1),(a:1)]", "(a,a)", "[a,a]", "{a:1,a:2}", "a(a:1,b:2)",
    "(width:1,r#width:2)",
];

/// Of several that come again the first is told.
const SEVERAL: &[&str] = &[
    "(a:1,a:2,a:3)", "(a:1,a:2,b:3,b:4)", "(a:1,b:2,a:3,b:4)", "(a:1,b:2,b:3,a:4)", "(a:1,b:2,c:3,a:4)",
    "(a:1,b:2,c:3,b:4)", "(a:1,b:2,c:3,c:4)", "(a:1,b:2,c:3,d:4)", "(c:1,b:2,a:3,c:4)", "(b:1,a:2,b:3,a:4)",
    "(a:1,b:2,)", "(a:1,a:2,)",
];

/// Each `( )` by itself.
const EACH: &[&str] = &[
    "(a:(a:(a:1)))", "(a:(a:(a:1,b:2)))", "(a:(b:1),b:2)", "(a:(b:1),b:2,a:3)", "(a:(b:1),b:(a:2),c:(a:1,b:2))",
    "(a:(b:1,c:2,b:3),a:4)", "(a:1,b:(a:1,a:2))", "(a:1,b:(c:1,c:2),a:3)", "(a:1,b:(c:1),a:3)",
    "(a:1,b:(c:1,d:(e:1,e:2),c:3),a:4)", "(a:1,b:(c:1,d:(e:1),c:3),a:4)", "(a:(),a:())", "(a:(),b:())",
    "((a:1),(a:1))", "((a:1),(a:1,a:2))", "((a:1,a:2),(b:1,b:2))", "[(a:1,b:2,a:3)]", "[(a:1),(b:1),(a:1,b:2,b:3)]",
    "{(a:1):(a:1),(a:1):(a:1)}", "{(a:1,a:2):3}", "{1:(a:1,a:2)}", "{(a:1):2,b:(a:1,b:2,a:3)}",
    "(a:[(a:1),(a:1)],b:[(a:1)])", "(a:[(a:1)],b:[(a:1,a:2)])",
];

/// Values, keys and the names of structs may come again.
const NO_FIELDS: &[&str] = &[
    "(a:a,b:a)", "(a:b,b:a)", "(a:a,a:a)", "(a:a(a),b:a(a))", "(a:(a,a),b:[a,a])", "(a:{a:1,a:2},b:2)",
    "(a:{a:1,a:2},a:2)", "(a:r#a,b:r#a)", "(a,b,a,b)", "(a,r#a,a)", "(a(1),a(1))", "(a(a:1),a(a:1))", "(a(a:1,a:2),a)",
    "(a,a(b:1,b:2))", "(a,b:1,b:2)", "(a,a:1)", "a(a:1)", "a(a:a(a:1))", "a(a:a(a:1),a:2)", "r#a(a:1,b:r#a)",
    "a(a:1,r#a:2)", "{a:1,a:2,r#a:3}", "{a:(a:1),a:(a:1)}", "[a,r#a,a,a(a:1)]",
];

/// What is one name: bytes behind `r#`, nothing folded, and nothing but all of it.
const ONE_NAME: &[&str] = &[
    "(r#a:1,a:2)", "(r#a:1,r#a:2)", "(a:1,b:2,r#a:3)", "(r#a:1,b:2,r#b:3,a:4)", "(r:1,r#r:2)", "(r:1,a:2)",
    "(r#r:1,a:2)", "(r#a:1,r:2,ra:3,r_a:4)", "(b:1,br:2,r:3,rb:4,r#b:5)", "(r#1:1,r#1:2)", "(r#1:1,r#2:2)",
    "(r#inf:1,r#inf:2)", "(r#a.b:1,r#a.b:2)", "(r#a.b:1,r#a.c:2,r#a:3,a:4)", "(r#a-b:1,a_b:2,r#a+b:3)",
    "(r#true:1,true:2)", "(true:1,false:2,true:3)", "(A:1,a:2)", "(aB:1,ab:2,Ab:3,AB:4)", "(ab:1,ba:2)",
    "(ab:1,ac:2,bb:3)", "(abc:1,adc:2,abd:3)", "(a:1,aa:2,aaa:3)", "(aaa:1,aa:2,a:3)", "(ab:1,a:2,ab:3)",
    "(a:1,ab:2,a:3)", "(a1:1,a10:2,a1:3)", "(a1:1,a01:2)", "(_:1,__:2,_:3)", "(_:1,r#_:2)", "(é:1,é:2)", "(é:1,r#é:2)",
    "(é:1,e\u{301}:2)", "(é:1,ê:2)", "(ŵ:1,ŷ:2,ŵ:3)", "(\u{212a}:1,K:2,k:3)", "(ﬁ:1,fi:2)", "(字:1,孚:2,字:3)",
    "(𐌰:1,𐌱:2,r#𐌰:3)", "(a\u{200d}:1,a:2)", "(dŵr_y_gamlas_a:1,dŵr_y_gamlas_b:2,dŵr_y_gamlas_a:3)",
    "(dŵr_y_gamlas_a:1,dŵr_y_gamlas_b:2,dŵr_y_gamlas_c:3)",
];

/// Whatever stands between.
const BETWEEN: &[&str] = &[
    "( a : 1 , a : 2 )", "(a:1,/*b*/a:2)", "(a:1,//b\na:2)", "(a/*a*/:1,b/*a*/:2)", "\u{85}(\u{2028}a:1,\n\ta :2)",
    "(a:\"a:1,a:2\",b:'a')", "#![type=\"s\"](a:1,a:2)", "#![enable(implicit_some)]#![type=\"a\"]a(a:1,b:2,a:3)",
];

/// 25 and 26 before it.
const BEFORE: &[&str] = &[
    "(a:1,,a:2)", "(a:1,2,a:3)", "(a:1,b,a:2)", "(a:1,b:],a:2)", "(a:1,b:2 a:3)", "(a:1:a:2)", "(a a:1,a:2)",
    "(a::1,a:2)", "(:1,a:2,a:3)", "(1:1,a:2,a:3)", "(1,a:1,a:2)", "(a(1):1,a:2)", "(a:1)(a:1)", "(a:1)a", "1(a:1,a:2)",
    "1,(a:1,a:2)", "[a:1,a:2]", "(a:1],a:2)", "(a:[1),a:2)", "(a:1#![type=\"s\"],a:2)", "(a:1,b", "(a:1,b:2",
    "(a:1,b:2,", "(a:1,", "(a:(b:1",
];

/// And behind it.
const BEHIND: &[&str] = &[
    "(a:1,a:2", "(a:1,a:", "(a:1,r#a", "(a:1,r#a)", "(a:1,a,b:2)", "(a:1,a a)", "(a:1,a[", "(a:1,a:])", "(a:1,a::2)",
    "(a:1,a:2))", "(a:1,a:2]", "(a:1,a:2),", "(a:1,a:2)a", "(a:1,a:2)#![type=\"s\"]", "[(a:1,a:2",
    "[(a:1,b:(c:1,b:2),a", "(a:1,b:(c:1,c", "(a:1,b:(c:1,b", "(a:1,b:(c:1,b:2),a",
];

/// The reader's refusals come before all of them.
const UNREAD: &[&str] = &["(a:1,a:2,@)", "(a:1,a:\"", "(a:1,a:2)/*", "(a:1,a:1_.5)", "(a:1,a:\"\\q\")", "(r#:1,r#:2)"];

/// Each walked with all brackets allowed.
const TEXTS: &[&[&str]] = &[WORKED, SEVERAL, EACH, NO_FIELDS, ONE_NAME, BETWEEN, BEFORE, BEHIND, UNREAD];

/// Texts, and limits to walk them with.
const LIMITED: &[(&str, &[u64])] = &[
    ("(a:1,a:2)", &[0, 1, 2, 127, 129]),
    ("(a:[],a:1)", &[0, 1, 2]),
    ("(a:1,a:[])", &[0, 1, 2]),
    ("(a:1,a:[[]])", &[0, 1, 2]),
    ("(a:1,a[[]])", &[1]),
    ("(a:1,a(b))", &[0, 1]),
    ("(a:(b:1,b:2),a:3)", &[0, 1, 2]),
    ("(a:1,b:(c:1,c:2),a:3)", &[0, 1, 2]),
    ("(a:1,b:(c:1),a:3)", &[1, 2]),
    ("(a:1,a:2,b:[])", &[1]),
    ("(a:1,b:[],a:2)", &[1, 2]),
    ("[(a:1,a:2),[]]", &[0, 1, 2]),
    ("[(a:1,b:[],a:2)]", &[1, 2, 3]),
    ("a(a:1,a:2)", &[0, 1]),
    ("{(a:1,a:2):[]}", &[0, 1, 2]),
    ("{[]:(a:1,a:2)}", &[0, 1, 2]),
    ("(a:\"", &[129]),
];

/// How many fields: around the numbers at which a program might change its way.
const FIELDS: &[usize] = &[2, 3, 7, 8, 9, 15, 16, 17, 18, 31, 32, 33, 40, 64, 65];

/// A field for each name, then those that come again: the place among the fields, and the one that it repeats.
fn record(names: &[String], again: &[(usize, usize)]) -> String {
    let mut names = names.to_vec();
    for &(at, of) in again {
        names.insert(at, names[of].clone());
    }
    let fields: Vec<String> = names.iter().map(|name| format!("{name}:1")).collect();
    format!("({})", fields.join(","))
}

/// So many names, each made from its number.
fn names(fields: usize, name: fn(usize) -> String) -> Vec<String> {
    (0..fields).map(name).collect()
}

/// Ways to name many fields so that they are alike.
const WAYS: &[fn(usize) -> String] = &[
    |n| format!("width{n}"),
    |n| format!("w{:03}h", 997 - 7 * n % 997),
    |n| "a".repeat(n + 1),
    |n| format!("r#x{}", n * n),
    |n| (0..7).map(|bit| if n >> bit & 1 == 0 { 'a' } else { 'b' }).collect(),
];

fn of_text(lines: &mut Lines) {
    let mut walk = |limit: u64, text: &str| lines.add(|l| line::walk(l, limit, text.as_bytes()));
    TEXTS.concat().iter().for_each(|text| walk(128, text));
    for (text, limits) in LIMITED {
        limits.iter().for_each(|&limit| walk(limit, text));
    }
    for (n, &fields) in FIELDS.iter().enumerate() {
        let (last, middle) = (fields - 1, fields / 2);
        let names = names(fields, WAYS[n % WAYS.len()]);
        walk(128, &record(&names, &[]));
        for again in [(1, 0), (fields, 0), (fields, last), (fields, middle), (middle + 1, middle), (middle + 1, 0)] {
            walk(128, &record(&names, &[again]));
        }
        walk(128, &record(&names, &[(fields, 0), (fields, last)]));
        walk(128, &record(&names, &[(fields, last), (middle + 1, 0), (fields + 2, middle)]));
    }
    for (n, way) in WAYS.iter().enumerate() {
        let names = names(20, *way);
        let raw: Vec<String> = names.iter().map(|name| format!("r#{}", name.trim_start_matches("r#"))).collect();
        let (whole, named_raw) = (record(&names, &[(20, 3 + n)]), record(&raw, &[(20, 3 + n)]));
        walk(128, &[&whole[..whole.len() - 1], ",", &named_raw[1..]].concat());
        // inside another with as many fields, whose name comes again behind it; open at the end; stopped by 24 and by 25
        walk(128, &record(&names, &[]).replace(":1)", &[":", &whole, ",x:1,x:1)"].concat()));
        walk(128, &record(&names, &[]).replace(":1)", &[":", &record(&names, &[]), ",x:1,x:1)"].concat()));
        walk(128, &record(&names, &[(20, 0)]).replace(":1)", ":(b:1,b:2"));
        walk(1, &record(&names, &[(20, 0)]).replace(":1)", ":[])"));
        walk(1, &record(&names, &[]).replace(":1)", ":[],x:1,x:1)"));
        walk(128, &record(&names, &[(20, 0)]).replace(":1)", "::1)"));
        walk(128, &record(&names, &[]).replace(":1)", ":1,,x:1,x:1)"));
    }
    for fields in [127, 128, 129, 300] {
        walk(128, &record(&names(fields, WAYS[0]), &[(fields, 0)]));
        walk(128, &record(&names(fields, WAYS[0]), &[]));
    }
    walk(128, &record(&names(2_050, WAYS[0]), &[(2_050, 1_024)]));
    walk(128, &record(&names(5_900, WAYS[0]), &[]));
    for deep in [127, 128, 129] {
        let front = "(a:1,b:".repeat(deep);
        walk(128, &[&front, "1", &")".repeat(deep)].concat());
        walk(128, &[&front, "1", &",a:2)".repeat(deep)].concat());
        walk(128, &[&front, "1", &")".repeat(deep - 1), ",a:2)"].concat());
        walk(128, &[&front, "1,b"].concat());
    }
}

/// A tape side by side over its own text. Between spaces stand entries: brackets and marks, names, raw names, digits; `9=` and `10=` say another kind.
fn spelt(entries: &str) -> Walk {
    let (mut text, mut tape) = (Vec::new(), Vec::new());
    for entry in entries.split(' ').filter(|entry| !entry.is_empty()) {
        let (kind, bytes) = match entry.split_once('=') {
            Some((kind, bytes)) => (kind.parse().expect("a kind"), bytes),
            None => (kind(entry), entry),
        };
        let start = text.len() as u32;
        text.extend_from_slice(bytes.as_bytes());
        tape.extend_from_slice(&[kind, start, text.len() as u32, 0, 0]);
    }
    let count = (tape.len() / WIDTH) as u64;
    Walk { limit: 128, links: count, count, text, tape }
}

fn kind(entry: &str) -> u32 {
    match "()[]{},:".find(entry) {
        Some(at) => 1 + at as u32,
        None if entry.starts_with("r#") => 10,
        None if entry.starts_with(|c: char| c.is_ascii_digit()) => 11,
        None => 9,
    }
}

/// Entries over their own text: the kind says what a name is, not the bytes.
const SPELT: &[&str] = &[
    "( a : 1 , a : 2 )", "( a : 1 , r#a : 2 )", "( 9=r#a : 1 , r#a : 2 )", "( r#a : 1 , 9=r#a : 2 )",
    "( 9=r#a : 1 , 9=r#a : 2 )", "( 9=r#a : 1 , r#r#a : 2 )", "( r#r#a : 1 , 9=r#a : 2 )", "( r#r#a : 1 , r#r#a : 2 )",
    "( r#r#a : 1 , r#a : 2 )", "( 9=r#a : 1 , a : 2 )", "( a : 1 , 9=r#a : 2 )", "( 9=r# : 1 , 9=r# : 2 )",
    "( 9=r# : 1 , r#r# : 2 )", "( 9=r# : 1 , a : 2 )", "( 9=r# : 1 , 9=r#a : 2 )", "( 9=a:1 : 1 , 9=a:1 : 2 )",
    "( 9=\" : 1 , 9=\" : 2 )", "( 9=( : 1 , 9=( : 2 )", "( 9=1 : 1 , 9=1 : 2 )", "( 9=1 : 1 , r#1 : 2 )",
    "( 9=\0 : 1 , 9=\0\0 : 2 , 9=\0 : 3 )", "( 9=\u{2028} : 1 , 9=\u{2029} : 2 )", "( 9=\n : 1 , r#\n : 2 )",
    "( a : 1 , 11=a : 2 )", "( a : a , 9=b : a )", "( a : 1 , 9=ab : 2 , 9=abc : 3 , 9=ab : 4 )",
    "( r#é : 1 , é : 2 )", "( r## : 1 , 9=# : 2 )",
];

/// The bytes of other entries are not asked.
const UNASKED: &[&str] = &[
    "1=x 9=a 8=x 11=x 7=x 9=a 8=x 11=x 2=x", "1=x 9=a 8=x 11=x 7=x 9=b 8=x 11=x 2=x", "3=( 9=a 7=: 9=a 4=)",
    "5=( 9=a 8=: 11=1 7=, 9=a 8=: 11=2 6=)", "1=[ 9=a 8=: 11=1 7=, 9=a 8=: 11=2 2=]", "( a : 1 7=: a : 2 )",
    "( a 8=, 1 , a : 2 )", "( a 7=: a 7=: a )",
];

/// Raw name entries that are none, wherever they stand; and some that are.
const RAW: &[&str] = &[
    "10=r#a", "10=r#", "10=r", "10=#", "10=a", "10=ab", "10=abc", "10=r_x", "10=R#a", "10=#ra", "10=rr#a", "10=r#r#",
    "10=r##", "10=r#\0", "10=ré", "10=é#a", "10=r#é", "10=br#a", "10=\"r#a\"",
];

/// `?` is the entry, which is judged wherever it stands, before all that the entries say; of the raw names, the first eight stand everywhere.
const AROUND: &[&str] = &[
    "?", "( ? )", "( ? : 1 )", "( a : ? )", "( a : 1 , ? : 2 )", "[ ? ]", "{ ? : ? }", "? ( )", "1 ?", "1 1 ?",
    "( a : 1 , a : ? )", "( a : 1 , a : 2 ) ?", "( : ? )", "] ?",
];

/// Text in the place of that of `( a : 1 , b : 2 )`, or of `( r#a : 1 , b : 2 )`.
const PLAIN_TEXTS: &[&str] = &[
    "(a:1,b:2)", "(a:1,a:2)", "xxxxxxxxx", "         ", "(b:1,a:2)", "(A:1,a:2)", ")a:1,b:2(", "(a:1,b:2)x",
    "(a:1,b:2", "(a:1,b:", "(a", "(", "", "(é:1éb:2", "(a:1é:2)", "(é1,b:2)", "ééééx", "xéééé", "(a:1,\0:2)",
];
const RAW_TEXTS: &[&str] = &[
    "(r#a:1,b:2)", "(r#b:1,b:2)", "(r_b:1,b:2)", "(R#b:1,b:2)", "(r#::1,::2)", "(r#é1,é2)x", "(r#é:1,\u{a9}:2",
    "r#r#r#r#r#r", "(r#r:1,r:2)", "(rr#b,b:2)x", "(r#b:1,b:2", "(r#b:1,b:2)é",
];

/// The tape of a text like `(éa:1,éb:`, with names of so many bytes from these places on: they may be half a character.
fn halves(text: &str, names: [u32; 2], length: u32) -> Walk {
    let rows = [(1, 0, 1), (9, names[0], length), (8, 4, 1), (11, 5, 1), (7, 6, 1), (9, names[1], length), (8, 10, 1)];
    let mut tape = Vec::new();
    let mut end = 0;
    for (kind, start, bytes) in rows {
        tape.extend_from_slice(&[kind, start, start + bytes, 0, start - end]);
        end = start + bytes;
    }
    Walk { limit: 128, links: 7, count: 7, text: text.into(), tape }
}

fn of_any_tape(lines: &mut Lines) {
    let mut walk = |walk: Walk| lines.add(|l| line::walk_of(l, &walk));
    for text in WORKED.iter().filter(|text| !text.contains("width")) {
        let entries: Vec<String> = text.chars().filter(|c| *c != ' ').map(String::from).collect();
        walk(spelt(&entries.join(" ")));
    }
    SPELT.iter().chain(UNASKED).for_each(|entries| walk(spelt(entries)));
    for (n, raw) in RAW.iter().enumerate() {
        let around = if n < 8 { AROUND } else { &AROUND[..4] };
        around.iter().for_each(|around| walk(spelt(&around.replace('?', raw))));
    }
    let plain = "( a : 1 , b : 2 )";
    PLAIN_TEXTS.iter().for_each(|text| walk(Walk { text: text.as_bytes().to_vec(), ..spelt(plain) }));
    RAW_TEXTS.iter().for_each(|text| walk(Walk { text: text.as_bytes().to_vec(), ..spelt("( r#a : 1 , b : 2 )") }));
    for (names, length) in [([1, 7], 2), ([1, 7], 1), ([2, 8], 1), ([1, 8], 1), ([2, 8], 2), ([1, 7], 3)] {
        ["(éa:1,éb:", "(éa:1,êa:", "(€:1,₭:"].iter().for_each(|text| walk(halves(text, names, length)));
    }
    counts(&mut walk);
    orders(&mut walk);
}

/// Counts below the tape, and links too few.
fn counts(walk: &mut impl FnMut(Walk)) {
    let again = "( a : 1 , a : 2 )";
    for count in 0..=10 {
        walk(Walk { count, ..spelt(again) });
        walk(Walk { count, links: 5, ..spelt(again) });
    }
    // beyond the count nothing is judged: no end, no raw name
    for count in 4..=6 {
        walk(Walk { count, text: b"(a:1,a".to_vec(), ..spelt(again) });
        walk(Walk { count, text: b"(a:1,".to_vec(), ..spelt(again) });
        walk(Walk { count, ..spelt("( a : 1 ) 10=abc") });
        walk(Walk { count, ..spelt("( a : 1 , 10=r# : 2 )") });
    }
    for limit in [0, 1, 2] {
        walk(Walk { limit, ..spelt("( a : [ ] , a : 1 )") });
        walk(Walk { limit, ..spelt("( a : 1 , a : [ [ ] ] )") });
        walk(Walk { limit, ..spelt("( a : 1 , b : ( c : 1 , c : 2 ) , a : 3 )") });
    }
}

/// 1, 2, 28, 23, 22, then 31: each with all that comes behind it wrong as well.
fn orders(walk: &mut impl FnMut(Walk)) {
    let again = || spelt("( a : 1 , a : 2 )");
    let bad = |n: usize| [b"(a:1,a:2)", NOT_UTF8[n]].concat();
    let wrong_gap = |mut w: Walk| {
        tapes::row(&mut w.tape, 8)[4] = 1;
        w
    };
    walk(Walk { links: 8, ..again() });
    walk(Walk { links: 8, ..wrong_gap(again()) });
    walk(wrong_gap(again()));
    walk(Walk { links: 8, text: b"(a:1,a:2".to_vec(), ..again() });
    walk(Walk { limit: 129, links: 8, text: b"(a:1,a:2".to_vec(), ..again() });
    walk(Walk { limit: 129, ..wrong_gap(again()) });
    walk(Walk { limit: u64::MAX, count: 0, ..again() });
    for n in [0, 9, 17, 20] {
        walk(Walk { text: bad(n), ..again() });
    }
    walk(Walk { text: bad(0), limit: 129, links: 8, ..wrong_gap(again()) });
    walk(Walk { text: b"\xff(a:1,a:2".to_vec(), ..again() });
    walk(Walk { text: b"\xff".to_vec(), count: 0, tape: vec![], ..again() });
    walk(Walk { text: b"\xff".to_vec(), count: 9, tape: vec![], ..again() });
    walk(Walk { text: b"(a:1\xc3\xa9:2)".to_vec(), ..again() });
    walk(Walk { text: b"(\xc3:1,\xc3:2)".to_vec(), ..again() });
    walk(Walk { text: sized("(a:1,a:2)", " ", "", 65_536), ..again() });
    walk(Walk {
        text: sized("", "a", "", 65_536),
        links: 1,
        count: 1,
        tape: vec![9, 65_535, 65_537, 0, 65_535],
        ..again()
    });
    walk(Walk { text: sized("(a:1,a:2)", " ", "", 65_537), limit: 129, ..again() });
    walk(Walk { text: sized("(a:1,a:2", "é", "\u{85}", 65_537), links: 0, count: 99, ..again() });
}
