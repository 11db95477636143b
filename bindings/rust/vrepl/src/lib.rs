//! The readers and judges of vrepl: positions, key ranges, vindexes, workflows, dumps and the messages of feeds. Each goes
//! through a proved call of the library; what is refused has the number of docs/FORMATS.md.

use std::fmt;
use vrepl_sys as sys;

/// Why something isn't read.
#[derive(Clone, Copy, Debug, PartialEq, Eq)]
pub struct Refused {
    /// The number of docs/FORMATS.md, 72 for want of memory.
    pub number: u32,
}

impl fmt::Display for Refused {
    fn fmt(&self, f: &mut fmt::Formatter<'_>) -> fmt::Result {
        let words = explain(u64::from(self.number)).unwrap_or_default();
        let line = words.lines().next().unwrap_or("").trim_start_matches(|c: char| c.is_ascii_digit());
        write!(f, "refused {}: {}", self.number, line.trim_start())
    }
}

impl std::error::Error for Refused {}

fn made(number: u32) -> Result<(), Refused> {
    match number {
        0 => Ok(()),
        number => Err(Refused { number }),
    }
}

/// What a call puts into a room, which is made larger where it is too small. The call is given the room and the place of
/// the length.
fn put(call: impl Fn(&mut [u8], &mut usize) -> u32) -> Result<Vec<u8>, Refused> {
    let mut room = vec![0; 256];
    loop {
        let mut length = 0;
        made(call(&mut room, &mut length))?;
        if length <= room.len() {
            room.truncate(length);
            return Ok(room);
        }
        room.resize(length, 0);
    }
}

/// A text that the library made.
fn text(bytes: Vec<u8>) -> String {
    String::from_utf8(bytes).expect("the library's texts are UTF-8")
}

/// What a refusal's number means, its usual causes and what to do next; `None` for a number that no refusal has.
pub fn explain(number: u64) -> Option<String> {
    let room = put(|room, length| {
        *length = unsafe { sys::vrepl_explain(number, room.as_mut_ptr(), room.len()) };
        0
    });
    room.ok().filter(|words| !words.is_empty()).map(text)
}

/// A set of pairs of a uuid and a number: a position. It is kept in its printed form, so equal sets are equal.
#[derive(Clone, Debug, PartialEq, Eq, Hash)]
pub struct GtidSet {
    text: String,
}

impl GtidSet {
    /// The set that a position's text means.
    pub fn parse(text_of_set: &str) -> Result<GtidSet, Refused> {
        let given = text_of_set.as_bytes();
        let printed = put(|room, length| unsafe {
            sys::vrepl_gtid_set(given.as_ptr(), given.len(), room.as_mut_ptr(), room.len(), length)
        })?;
        Ok(GtidSet { text: text(printed) })
    }

    /// The printed form.
    pub fn as_str(&self) -> &str {
        &self.text
    }

    /// Whether the set has a uuid, as its bytes, and a number.
    pub fn contains(&self, uuid: &[u8; 16], number: u64) -> Result<bool, Refused> {
        let mut contains = false;
        let answer = unsafe {
            sys::vrepl_gtid_contains(self.text.as_ptr(), self.text.len(), uuid.as_ptr(), number, &mut contains)
        };
        made(answer)?;
        Ok(contains)
    }

    /// Whether each pair of the set is in the other one.
    pub fn is_within(&self, other: &GtidSet) -> Result<bool, Refused> {
        let mut is_within = false;
        let (one, other) = (&self.text, &other.text);
        made(unsafe { sys::vrepl_gtid_is_within(one.as_ptr(), one.len(), other.as_ptr(), other.len(), &mut is_within) })?;
        Ok(is_within)
    }

    /// The pairs of both sets.
    pub fn union(&self, other: &GtidSet) -> Result<GtidSet, Refused> {
        let (one, other) = (&self.text, &other.text);
        let printed = put(|room, length| unsafe {
            sys::vrepl_gtid_union(one.as_ptr(), one.len(), other.as_ptr(), other.len(), room.as_mut_ptr(), room.len(), length)
        })?;
        Ok(GtidSet { text: text(printed) })
    }
}

impl fmt::Display for GtidSet {
    fn fmt(&self, f: &mut fmt::Formatter<'_>) -> fmt::Result {
        f.write_str(&self.text)
    }
}

/// A range of keyspace ids: from `start` on and before `end`, `None` where it is open.
#[derive(Clone, Debug, PartialEq, Eq, Hash)]
pub struct KeyRange {
    text: String,
    /// Where it starts, without the 00 bytes at its end.
    pub start: Vec<u8>,
    /// Where it ends.
    pub end: Option<Vec<u8>>,
}

impl KeyRange {
    /// The range that a text writes, as `40-80`.
    pub fn parse(range: &str) -> Result<KeyRange, Refused> {
        // A bound has no more bytes than the text has digits.
        let (mut start, mut end) = (vec![0; range.len()], vec![0; range.len()]);
        let (mut start_length, mut end_length) = (0, 0);
        made(unsafe {
            sys::vrepl_key_range(
                range.as_ptr(),
                range.len(),
                start.as_mut_ptr(),
                start.len(),
                &mut start_length,
                end.as_mut_ptr(),
                end.len(),
                &mut end_length,
            )
        })?;
        start.truncate(start_length);
        end.truncate(end_length);
        Ok(KeyRange { text: range.to_owned(), start, end: Some(end).filter(|end| !end.is_empty()) })
    }

    /// Whether the range has a keyspace id.
    pub fn holds(&self, id: &[u8]) -> Result<bool, Refused> {
        let mut holds = false;
        made(unsafe { sys::vrepl_key_range_holds(self.text.as_ptr(), self.text.len(), id.as_ptr(), id.len(), &mut holds) })?;
        Ok(holds)
    }
}

/// Whether ranges, as `40-80`, lie end to end over all keyspace ids, in this order: then each id is in exactly one of them.
pub fn tiles(ranges: &[&str]) -> Result<bool, Refused> {
    let (given, mut tile) = (ranges.join(","), false);
    if ranges.is_empty() {
        return Ok(false);
    }
    made(unsafe { sys::vrepl_key_ranges_tile(given.as_ptr(), given.len(), &mut tile) })?;
    Ok(tile)
}

/// The keyspace id of a value, `None` for NULL, under a vindex by its name, as `numeric` or `binary_md5`.
pub fn vindex_id(vindex: &str, value: Option<&[u8]>) -> Result<Vec<u8>, Refused> {
    let bytes = value.unwrap_or(&[]);
    put(|room, length| unsafe {
        sys::vrepl_vindex_id(
            vindex.as_ptr(),
            vindex.len(),
            value.is_none(),
            bytes.as_ptr(),
            bytes.len(),
            room.as_mut_ptr(),
            room.len(),
            length,
        )
    })
}

/// A workflow file.
#[derive(Clone, Debug)]
pub struct Workflow {
    file: Vec<u8>,
    /// How many streams it has.
    pub streams: usize,
}

impl Workflow {
    /// The workflow that a file's bytes say.
    pub fn read(file: &[u8]) -> Result<Workflow, Refused> {
        let mut streams = 0;
        made(unsafe { sys::vrepl_workflow(file.as_ptr(), file.len(), &mut streams) })?;
        Ok(Workflow { file: file.to_vec(), streams })
    }

    /// Whether a row of a table, as a Row message (`row_message`), passes the filter of a stream, by its number from 0.
    pub fn passes(&self, stream: usize, table: &str, row: &[u8]) -> Result<bool, Refused> {
        let mut passes = false;
        made(unsafe {
            sys::vrepl_row_passes(
                self.file.as_ptr(),
                self.file.len(),
                stream,
                table.as_ptr(),
                table.len(),
                row.as_ptr(),
                row.len(),
                &mut passes,
            )
        })?;
        Ok(passes)
    }
}

/// What is told of a workflow file.
#[derive(Clone, Debug, PartialEq, Eq)]
pub enum Checked {
    /// It is read; what is warned of it, a line each.
    Read(String),
    /// It is refused; where its fault is, as `tables[3].key: no list`, and nothing for what is no JSON.
    Refused(Refused, String),
}

/// A table of a plan: its columns in order, by name and type's number, and the places, from 0, of those of its key and of
/// those that a target keeps.
#[derive(Clone, Debug, PartialEq, Eq)]
pub struct Table {
    pub name: String,
    pub columns: Vec<(String, u64)>,
    pub key: Vec<u64>,
    pub kept: Vec<u64>,
}

/// The plan of a stream of a workflow.
#[derive(Clone, Debug, PartialEq, Eq)]
pub struct Plan {
    pub keyspace: String,
    pub shard: String,
    pub tables: Vec<Table>,
}

impl Workflow {
    /// What is told of a workflow file: where its fault is, or what is warned of it.
    pub fn check(file: &[u8]) -> Result<Checked, Refused> {
        let number = std::cell::Cell::new(0);
        let told = put(|room, length| unsafe {
            sys::vrepl_workflow_check(file.as_ptr(), file.len(), number.as_ptr(), room.as_mut_ptr(), room.len(), length)
        })?;
        Ok(match number.get() {
            0 => Checked::Read(text(told)),
            number => Checked::Refused(Refused { number }, text(told)),
        })
    }

    /// The rows of each table that each stream passes, in words: a line each, as `vrepl check` prints it.
    pub fn rules(&self) -> Result<String, Refused> {
        let rules = put(|room, length| unsafe {
            sys::vrepl_workflow_rules(self.file.as_ptr(), self.file.len(), room.as_mut_ptr(), room.len(), length)
        })?;
        Ok(text(rules))
    }

    /// The plan of a stream, by its number from 0.
    pub fn plan(&self, stream: usize) -> Result<Plan, Refused> {
        let made = put(|room, length| unsafe {
            sys::vrepl_plan(self.file.as_ptr(), self.file.len(), stream, room.as_mut_ptr(), room.len(), length)
        })?;
        let mut cursor = Cursor { rest: &made };
        let (keyspace, shard) = (cursor.text(), cursor.text());
        let tables = (0..cursor.number()).map(|_| cursor.table()).collect();
        Ok(Plan { keyspace, shard, tables })
    }

    /// The rows of a dump of the workflow's tables, by rising key.
    pub fn entries(&self, dump: &[u8]) -> Result<Vec<Entry>, Unread> {
        let (count, line) = (std::cell::Cell::new(0), std::cell::Cell::new(0));
        let made = put(|room, length| unsafe {
            sys::vrepl_dump(
                self.file.as_ptr(),
                self.file.len(),
                dump.as_ptr(),
                dump.len(),
                count.as_ptr(),
                line.as_ptr(),
                room.as_mut_ptr(),
                room.len(),
                length,
            )
        })
        .map_err(|refused| Unread { refused, line: line.get(), in_target: false })?;
        let mut cursor = Cursor { rest: &made };
        Ok((0..count.get()).map(|_| cursor.entry()).collect())
    }

    /// Two dumps of the workflow's tables compared, with the first keys at which they differ, at most so many.
    pub fn compare(&self, source: &[u8], target: &[u8], most: usize) -> Result<Comparison, Unread> {
        let counts = std::cell::Cell::new(Counts::default());
        let (line, in_target) = (std::cell::Cell::new(0), std::cell::Cell::new(false));
        let made = put(|room, length| unsafe {
            sys::vrepl_compare(
                self.file.as_ptr(),
                self.file.len(),
                source.as_ptr(),
                source.len(),
                target.as_ptr(),
                target.len(),
                most,
                counts.as_ptr(),
                line.as_ptr(),
                in_target.as_ptr(),
                room.as_mut_ptr(),
                room.len(),
                length,
            )
        })
        .map_err(|refused| Unread { refused, line: line.get(), in_target: in_target.get() })?;
        let (mut cursor, mut differences) = (Cursor { rest: &made }, Vec::new());
        while !cursor.rest.is_empty() {
            differences.push(cursor.difference());
        }
        Ok(Comparison { counts: counts.get(), differences })
    }
}

/// How many keys of a source and of a target there are of each kind.
pub type Counts = sys::vrepl_counts;

/// A row of a dump, with its table and its key: each part's bytes, a number as its shortest decimal text.
#[derive(Clone, Debug, PartialEq, Eq)]
pub struct Entry {
    pub table: String,
    pub key: Vec<Vec<u8>>,
    pub row: Row,
}

/// A key at which two dumps differ, with the rows that stand there.
#[derive(Clone, Debug, PartialEq, Eq)]
pub struct Difference {
    pub table: String,
    pub key: Vec<Vec<u8>>,
    pub source: Option<Row>,
    pub target: Option<Row>,
}

/// Two dumps compared.
#[derive(Clone, Debug, PartialEq, Eq)]
pub struct Comparison {
    pub counts: Counts,
    /// By rising key.
    pub differences: Vec<Difference>,
}

/// Why a dump isn't read: where the number is 121, its first line, from 1, that can't stand there, and whether it is the
/// target's of two.
#[derive(Clone, Copy, Debug, PartialEq, Eq)]
pub struct Unread {
    pub refused: Refused,
    pub line: usize,
    pub in_target: bool,
}

impl fmt::Display for Unread {
    fn fmt(&self, f: &mut fmt::Formatter<'_>) -> fmt::Result {
        match self.line {
            0 => self.refused.fmt(f),
            line => write!(f, "{}, at line {line} of the {}", self.refused, if self.in_target { "target" } else { "source" }),
        }
    }
}

impl std::error::Error for Unread {}

impl Workflow {
    /// The key of a row of a table, as a Row message: each part's bytes, a number as its shortest decimal text.
    pub fn key(&self, stream: usize, table: &str, row: &[u8]) -> Result<Vec<Vec<u8>>, Refused> {
        let made = put(|room, length| unsafe {
            sys::vrepl_row_key(
                self.file.as_ptr(),
                self.file.len(),
                stream,
                table.as_ptr(),
                table.len(),
                row.as_ptr(),
                row.len(),
                room.as_mut_ptr(),
                room.len(),
                length,
            )
        })?;
        Ok(Cursor { rest: &made }.key())
    }
}

/// A place in bytes that the library gave (include/vrepl.h, vrepl_cursor).
struct Cursor<'m> {
    rest: &'m [u8],
}

impl Cursor<'_> {
    fn number(&mut self) -> u64 {
        let (number, rest) = self.rest.split_at(8);
        self.rest = rest;
        number.iter().rev().fold(0, |number, byte| number << 8 | u64::from(*byte))
    }

    fn bytes(&mut self) -> Option<Vec<u8>> {
        let count = self.number();
        if count == u64::MAX {
            return None;
        }
        let (bytes, rest) = self.rest.split_at(count as usize);
        self.rest = rest;
        Some(bytes.to_vec())
    }

    fn row(&mut self) -> Option<Row> {
        match self.number() {
            u64::MAX => None,
            count => Some((0..count).map(|_| self.bytes()).collect()),
        }
    }

    fn text(&mut self) -> String {
        text(self.bytes().unwrap_or_default())
    }

    fn key(&mut self) -> Vec<Vec<u8>> {
        (0..self.number()).map(|_| self.bytes().unwrap_or_default()).collect()
    }

    fn table(&mut self) -> Table {
        let name = self.text();
        let columns = (0..self.number()).map(|_| (self.text(), self.number())).collect();
        let key = (0..self.number()).map(|_| self.number()).collect();
        let kept = (0..self.number()).map(|_| self.number()).collect();
        Table { name, columns, key, kept }
    }

    fn entry(&mut self) -> Entry {
        Entry { table: self.text(), key: self.key(), row: self.row().unwrap_or_default() }
    }

    fn difference(&mut self) -> Difference {
        Difference { table: self.text(), key: self.key(), source: self.row(), target: self.row() }
    }

    fn change(&mut self) -> Change {
        let table = self.text();
        let (before, after) = (self.row(), self.row());
        Change { table, before, after }
    }
}

/// A row that was read: the bytes of each column, `None` for NULL.
pub type Row = Vec<Option<Vec<u8>>>;

/// A change of one row: `before` alone is a delete, `after` alone an insert.
#[derive(Clone, Debug, PartialEq, Eq)]
pub struct Change {
    pub table: String,
    pub before: Option<Row>,
    pub after: Option<Row>,
}

/// The changes of one transaction of the source, with the position behind them.
#[derive(Clone, Debug, PartialEq, Eq)]
pub struct Group {
    pub number: u64,
    pub position: String,
    pub changes: Vec<Change>,
}

/// The groups of a feed that was recorded from a shard of a keyspace, both mostly empty.
pub fn groups(feed: &[u8], keyspace: &str, shard: &str) -> Result<Vec<Group>, Refused> {
    let made = put(|room, length| unsafe {
        sys::vrepl_groups(
            feed.as_ptr(),
            feed.len(),
            keyspace.as_ptr(),
            keyspace.len(),
            shard.as_ptr(),
            shard.len(),
            room.as_mut_ptr(),
            room.len(),
            length,
        )
    })?;
    let (mut cursor, mut found) = (Cursor { rest: &made }, Vec::new());
    while !cursor.rest.is_empty() {
        let (number, position) = (cursor.number(), cursor.text());
        let changes = (0..cursor.number()).map(|_| cursor.change()).collect();
        found.push(Group { number, position, changes });
    }
    Ok(found)
}

fn push_varint(into: &mut Vec<u8>, number: u64) {
    let mut left = number;
    while left > 0x7f {
        into.push(left as u8 | 0x80);
        left >>= 7;
    }
    into.push(left as u8);
}

/// The Row message of a row's columns, `None` for NULL.
pub fn row_message(columns: &[Option<&[u8]>]) -> Vec<u8> {
    let (mut lengths, mut values) = (Vec::new(), Vec::new());
    for column in columns {
        // zigzag: -1, which is NULL, is 1
        push_varint(&mut lengths, column.map_or(1, |bytes| 2 * bytes.len() as u64));
        values.extend_from_slice(column.unwrap_or(&[]));
    }
    let mut message = Vec::new();
    for (field, bytes) in [(1 << 3 | 2, lengths), (2 << 3 | 2, values)] {
        message.push(field);
        push_varint(&mut message, bytes.len() as u64);
        message.extend_from_slice(&bytes);
    }
    message
}

/// The messages of a feed, without their lengths; the last item is a refusal where one is cut short.
pub fn messages(feed: &[u8]) -> Messages<'_> {
    Messages { rest: feed }
}

/// The messages of a feed that are still to come.
#[derive(Clone, Debug)]
pub struct Messages<'f> {
    rest: &'f [u8],
}

impl<'f> Messages<'f> {
    /// What stands behind the messages that came.
    pub fn rest(&self) -> &'f [u8] {
        self.rest
    }
}

impl<'f> Iterator for Messages<'f> {
    type Item = Result<&'f [u8], Refused>;

    fn next(&mut self) -> Option<Self::Item> {
        if self.rest.is_empty() {
            return None;
        }
        let (mut start, mut length) = (0, 0);
        if let Err(refused) = made(unsafe { sys::vrepl_message(self.rest.as_ptr(), self.rest.len(), &mut start, &mut length) }) {
            self.rest = &[];
            return Some(Err(refused));
        }
        let (message, rest) = self.rest[start..].split_at(length);
        self.rest = rest;
        Some(Ok(message))
    }
}
