//! Each call of the crate, its answers and its refusals.

use vrepl::{explain, groups, messages, row_message, tiles, vindex_id};
use vrepl::{Checked, Counts, Difference, Entry, GtidSet, KeyRange, Plan, Refused, Table, Unread, Workflow};

const UUID: [u8; 16] = [0x3e, 0x11, 0xfa, 0x47, 0x71, 0xca, 0x11, 0xe1, 0x9e, 0x33, 0xc8, 0x0a, 0xa9, 0x42, 0x95, 0x62];

fn refused<T>(number: u32) -> Result<T, Refused> {
    Err(Refused { number })
}

#[test]
fn refusals_have_words() {
    assert!(explain(41).unwrap().starts_with("41   a key range doesn't start below its end\n"));
    assert_eq!(explain(0), None);
    assert_eq!(Refused { number: 72 }.to_string(), "refused 72: memory was refused");
}

#[test]
fn sets_are_read_and_compared() {
    let set = GtidSet::parse("MySQL56/3E11FA47-71CA-11E1-9E33-C80AA9429562:1-3:4").unwrap();
    assert_eq!(set.as_str(), "3e11fa47-71ca-11e1-9e33-c80aa9429562:1-4");
    assert_eq!((set.contains(&UUID, 4), set.contains(&UUID, 5)), (Ok(true), Ok(false)));
    let more = GtidSet::parse("3e11fa47-71ca-11e1-9e33-c80aa9429562:3-9").unwrap();
    assert_eq!((set.is_within(&more), more.is_within(&more)), (Ok(false), Ok(true)));
    let both = set.union(&more).unwrap();
    assert_eq!(both.to_string(), "3e11fa47-71ca-11e1-9e33-c80aa9429562:1-9");
    assert_eq!(set.is_within(&both), Ok(true));
    assert_eq!(GtidSet::parse(""), GtidSet::parse(" , "));
    assert_eq!((GtidSet::parse("a/b"), GtidSet::parse("a")), (refused(31), refused(32)));
}

#[test]
fn a_long_set_makes_its_room_larger() {
    let text: Vec<String> = (1..2000).map(|n| format!("3e11fa47-71ca-11e1-9e33-c80aa9429562:{}", 2 * n)).collect();
    let set = GtidSet::parse(&text.join(",")).unwrap();
    assert_eq!(GtidSet::parse(set.as_str()).as_ref(), Ok(&set));
    assert!(set.as_str().len() > 8000);
}

#[test]
fn ranges_hold_ids() {
    let range = KeyRange::parse("40-8000").unwrap();
    assert_eq!((range.start.as_slice(), range.end.as_deref()), (&[0x40][..], Some(&[0x80][..])));
    assert_eq!((range.holds(&[0x40]), range.holds(&[0x80]), range.holds(&[])), (Ok(true), Ok(false), Ok(false)));
    assert_eq!(KeyRange::parse("-").unwrap().end, None);
    assert_eq!(KeyRange::parse("80-40"), refused(41));
}

#[test]
fn ranges_tile() {
    assert_eq!((tiles(&["-40", "40-80", "80-"]), tiles(&["0"])), (Ok(true), Ok(true)));
    assert_eq!((tiles(&["80-", "-80"]), tiles(&["-80", "40-"]), tiles(&[])), (Ok(false), Ok(false), Ok(false)));
    assert_eq!((tiles(&["-80", "80"]), tiles(&["80-40"])), (refused(41), refused(41)));
}

const FILE: &str = r#"{"keyspace":"ks","tables":[{"name":"t","columns":[["id","INT64"],["v","VARCHAR"]],"key":["id"]}],
    "streams":[{"shard":"-","filter":{"rules":[{"match":"t","filter":""}]}}]}"#;

#[test]
fn workflows_are_checked() {
    assert_eq!(Workflow::check(FILE.as_bytes()), Ok(Checked::Read(String::new())));
    let misspelt = FILE.replace("\"match\":\"t\"", "\"match\":\"u\"");
    let warned = "warning workflow streams[0].filter.rules[0] matches no table\nnote workflow streams[0] has no rule for table t\n";
    assert_eq!(Workflow::check(misspelt.as_bytes()), Ok(Checked::Read(warned.to_owned())));
    let told = |file: &str| match Workflow::check(file.as_bytes()) {
        Ok(Checked::Refused(Refused { number }, place)) => (number, place),
        other => panic!("{other:?}"),
    };
    assert_eq!(told("{"), (51, String::new()));
    assert_eq!(told(&FILE.replace("VARCHAR", "DECIMAL")), (52, "tables[0].columns[1][1]: no type \"DECIMAL\"".to_owned()));
    assert_eq!(told(&FILE.replace("\"key\":[\"id\"]", "\"key\":[\"x\"]")), (53, "table t column x".to_owned()));
    let workflow = Workflow::read(FILE.as_bytes()).unwrap();
    assert_eq!(workflow.rules(), Ok("rule stream 0 table t every row\n".to_owned()));
    let columns = vec![("id".to_owned(), 265), ("v".to_owned(), 6165)];
    let table = Table { name: "t".to_owned(), columns, key: vec![0], kept: vec![0, 1] };
    assert_eq!(workflow.plan(0), Ok(Plan { keyspace: "ks".to_owned(), shard: "-".to_owned(), tables: vec![table] }));
    assert_eq!(workflow.plan(1), refused(115));
}

#[test]
fn dumps_are_compared() {
    let workflow = Workflow::read(FILE.as_bytes()).unwrap();
    let (source, target) = (&b"table t\nx31\tN\nx32\tx\n"[..], &b"table t\nx31\tN\nx32\tx61\nx33\tx\n"[..]);
    let row = |id: &[u8], v: Option<&[u8]>| vec![Some(id.to_vec()), v.map(<[u8]>::to_vec)];
    let entry = |id: &[u8], v: Option<&[u8]>| Entry { table: "t".to_owned(), key: vec![id.to_vec()], row: row(id, v) };
    assert_eq!(workflow.entries(source), Ok(vec![entry(b"1", None), entry(b"2", Some(b""))]));
    let found = workflow.compare(source, target, usize::MAX).unwrap();
    assert_eq!(found.counts, Counts { processed: 3, matching: 1, mismatched: 1, extra_source: 0, extra_target: 1 });
    let differs = |id: &[u8], source, target| Difference { table: "t".to_owned(), key: vec![id.to_vec()], source, target };
    let wanted = vec![differs(b"2", Some(row(b"2", Some(b""))), Some(row(b"2", Some(b"a")))), differs(b"3", None, Some(row(b"3", Some(b""))))];
    assert_eq!(found.differences, wanted);
    assert_eq!(workflow.compare(source, target, 1).unwrap().differences, wanted[..1]);
    let unread = |line, in_target| Unread { refused: Refused { number: 121 }, line, in_target };
    assert_eq!(workflow.compare(source, &target[..3], 1), Err(unread(1, true)));
    assert_eq!(workflow.compare(&source[..9], target, 1), Err(unread(2, false)));
    assert_eq!(workflow.entries(&source[..9]), Err(unread(2, false)));
    assert!(unread(2, false).to_string().ends_with(", at line 2 of the source"));
}

#[test]
fn values_have_ids() {
    assert_eq!(vindex_id("numeric", Some(b"258")), Ok(vec![0, 0, 0, 0, 0, 0, 1, 2]));
    assert_eq!(vindex_id("binary", Some(&[7; 1000])), Ok(vec![7; 1000]));
    assert_eq!((vindex_id("lookup", None), vindex_id("numeric", None), vindex_id("numeric", Some(b"x"))), (refused(42), refused(43), refused(44)));
}

#[test]
fn rows_pass_filters() {
    let file = br#"{"keyspace":"ks","tables":[{"name":"t","columns":[["id","INT64"],["v","VARCHAR"]],"key":["id"],
        "vindex":["id","numeric"]}],"streams":[{"shard":"-","filter":{"rules":[{"match":"t","filter":"80-"}]}}]}"#;
    let workflow = Workflow::read(file).unwrap();
    assert_eq!(workflow.streams, 1);
    let row = |id: &'static str| row_message(&[Some(id.as_bytes()), None]);
    assert_eq!(workflow.passes(0, "t", &row("1")), Ok(false));
    assert_eq!(workflow.passes(0, "t", &row("9223372036854775808")), Ok(true));
    let one = row_message(&[Some(b"1")]);
    let refusals = [workflow.passes(1, "t", &one), workflow.passes(0, "u", &one), workflow.passes(0, "t", &one)];
    assert_eq!(refusals, [refused(115), refused(85), refused(87)]);
    assert_eq!((workflow.passes(0, "t", &row("x")), workflow.passes(0, "t", b"\x0a\x01")), (refused(44), refused(11)));
    assert_eq!(workflow.passes(0, "t", &row_message(&[None, None])), refused(43));
    assert!(matches!(Workflow::read(b"{"), Err(Refused { number: 51 })));
}

#[test]
fn rows_have_keys() {
    let file = br#"{"keyspace":"ks","tables":[{"name":"t","columns":[["id","INT64"],["v","VARCHAR"]],"key":["v","id"]}],
        "streams":[{"shard":"-","filter":{"rules":[{"match":"t","filter":""}]}}]}"#;
    let workflow = Workflow::read(file).unwrap();
    assert_eq!(workflow.key(0, "t", &row_message(&[Some(b"007"), Some(b"a")])), Ok(vec![b"a".to_vec(), b"7".to_vec()]));
    assert_eq!(workflow.key(0, "t", &row_message(&[Some(b"7"), None])), refused(61));
    assert_eq!(workflow.key(0, "t", &row_message(&[Some(b"x"), Some(b"")])), refused(62));
}

#[test]
fn feeds_have_groups() {
    // BEGIN; FIELD of t with id INT64; an insert of 1; the position; COMMIT: docs/FORMATS.md, "Feed"
    let position = "3e11fa47-71ca-11e1-9e33-c80aa9429562:1";
    let field = |number: u8, body: &[u8]| [&[number << 3 | 2, body.len() as u8], body].concat();
    let event = |kind: u8, body: Vec<u8>| field(1, &[vec![8, kind], body].concat());
    let fields = field(6, &[field(1, b"t"), field(2, &[field(1, b"id"), vec![16, 0x89, 2]].concat())].concat());
    let row = field(5, &[field(1, b"t"), field(2, &field(2, &row_message(&[Some(b"1")])))].concat());
    let events = [event(2, vec![]), event(13, fields), event(12, row), event(1, field(3, position.as_bytes())), event(3, vec![])];
    let body = events.concat();
    let feed = [&[body.len() as u8][..], &body].concat();
    let found = groups(&feed, "", "").unwrap();
    assert_eq!((found.len(), found[0].number, found[0].position.as_str()), (1, 1, position));
    assert_eq!((found[0].changes[0].table.as_str(), &found[0].changes[0].before), ("t", &None));
    assert_eq!(found[0].changes[0].after, Some(vec![Some(b"1".to_vec())]));
    assert_eq!((groups(&feed[..feed.len() - 1], "", ""), groups(b"", "", "")), (refused(81), Ok(vec![])));
}

#[test]
fn feeds_have_messages() {
    let found: Result<Vec<&[u8]>, Refused> = messages(b"\x02ab\x00\x01c").collect();
    assert_eq!(found, Ok(vec![&b"ab"[..], b"", b"c"]));
    let mut cut = messages(b"\x01a\x03b");
    assert_eq!((cut.next(), cut.next(), cut.next()), (Some(Ok(&b"a"[..])), Some(refused(81)), None));
}
