//! Safe Rust over the static library `art_index_c`: an ordered index of typed rows, which many threads read and change at once.
//!
//! `open` gives the passes of a new table. A `Pass` is the right to call it, one call at a time, so each call takes `&mut self`. It
//! may be sent to any thread, and the table ends with its last pass.
//!
//! ```text
//! let mut passes = open("u64,text8", &Sizes::default(), 4)?;
//! let pass = &mut passes[0];
//! pass.insert(&[5u64.into(), "five".into()], 55)?;
//! assert_eq!(pass.get(&[5u64.into(), "five".into()])?, Some(55));
//! ```
//!
//! `Busy` and `Crowded` say that other passes were in the way. A call is then made again, after its thread gave way to others, as often
//! as `set_tries` says, and refused only after that.
use std::error::Error;
use std::fmt;
use std::thread;
use std::time::Duration;

/// Why a call was refused; the rows are as before. The numbers are those of the protocol of lines.
#[derive(Clone, Copy, Debug, PartialEq, Eq)]
#[repr(u32)]
pub enum Refusal {
    WrongColumns = 4,
    WrongType = 5,
    OutOfRange = 6,
    TextTooLong = 7,
    BadRange = 8,
    BadLimit = 9,
    Busy = 10,
    Full = 11,
    Crowded = 12,
    Exhausted = 13,
    NoMemory = 14,
    NoColumns = 20,
    TooManyColumns = 21,
    KeyTooWide = 22,
    BadColumn = 23,
    BadConfig = 24,
}

impl Refusal {
    const ALL: [Refusal; 16] = [
        Refusal::WrongColumns,
        Refusal::WrongType,
        Refusal::OutOfRange,
        Refusal::TextTooLong,
        Refusal::BadRange,
        Refusal::BadLimit,
        Refusal::Busy,
        Refusal::Full,
        Refusal::Crowded,
        Refusal::Exhausted,
        Refusal::NoMemory,
        Refusal::NoColumns,
        Refusal::TooManyColumns,
        Refusal::KeyTooWide,
        Refusal::BadColumn,
        Refusal::BadConfig,
    ];

    /// The refusal with this number. The library answers no other status that is left here.
    fn of(status: u32) -> Refusal {
        let found = Refusal::ALL
            .into_iter()
            .find(|refusal| *refusal as u32 == status);
        found.expect("a status of art_index.h")
    }
}

impl fmt::Display for Refusal {
    fn fmt(&self, f: &mut fmt::Formatter<'_>) -> fmt::Result {
        write!(f, "refused {} {self:?}", *self as u32)
    }
}

impl Error for Refusal {}

/// How many leaves and nodes of each kind a table has room for, and where the counter of its anchor begins.
#[repr(C)]
#[derive(Clone, Copy, Debug)]
pub struct Sizes {
    pub leaves: u32,
    pub n4: u32,
    pub n16: u32,
    pub n48: u32,
    pub n256: u32,
    pub counter_start: u64,
}

impl Default for Sizes {
    fn default() -> Sizes {
        Sizes {
            leaves: 4096,
            n4: 4096,
            n16: 1024,
            n48: 512,
            n256: 128,
            counter_start: 0,
        }
    }
}

/// The value of a column.
#[derive(Clone, Debug, PartialEq, Eq)]
pub enum Value {
    Bool(bool),
    Int(i128),
    Text(String),
}

impl From<bool> for Value {
    fn from(truth: bool) -> Value {
        Value::Bool(truth)
    }
}

impl From<u64> for Value {
    fn from(number: u64) -> Value {
        Value::Int(number.into())
    }
}

impl From<i64> for Value {
    fn from(number: i64) -> Value {
        Value::Int(number.into())
    }
}

impl From<&str> for Value {
    fn from(text: &str) -> Value {
        Value::Text(text.into())
    }
}

/// A row: its tuple, and its value.
pub type Row = (Vec<Value>, u64);

/// What an insert did.
#[derive(Clone, Copy, Debug, PartialEq, Eq)]
pub enum Inserted {
    New,
    /// A row with the tuple stands, and keeps this value.
    Present(u64),
}

// ---- as C has it

#[repr(C)]
#[derive(Clone, Copy, Default)]
struct RawColumn {
    kind: u32,
    length: u32,
    number: u64,
    text: [u8; 24],
}

#[repr(C)]
#[derive(Clone, Copy, Default)]
struct RawRow {
    columns: [RawColumn; 8],
    count: u32,
    value: u64,
}

#[repr(C)]
struct RawPass {
    at: *mut u8,
}

// The prototypes of art_index.h.
unsafe extern "C" {
    fn art_index_open(
        schema: *const u8,
        length: usize,
        sizes: *const Sizes,
        passes: *mut RawPass,
        count: usize,
    ) -> u32;
    fn art_index_insert(
        pass: *mut RawPass,
        tuple: *const RawColumn,
        count: usize,
        value: u64,
        stands: *mut u64,
    ) -> u32;
    fn art_index_remove(
        pass: *mut RawPass,
        tuple: *const RawColumn,
        count: usize,
        gone: *mut u64,
    ) -> u32;
    fn art_index_get(
        pass: *mut RawPass,
        tuple: *const RawColumn,
        count: usize,
        found: *mut u64,
    ) -> u32;
    fn art_index_scan(
        pass: *mut RawPass,
        lo: *const RawColumn,
        lo_count: usize,
        hi: *const RawColumn,
        hi_count: usize,
        rows: *mut RawRow,
        room: usize,
        listed: *mut usize,
    ) -> u32;
    fn art_index_close(pass: *mut RawPass);
}

impl RawColumn {
    fn of(value: &Value) -> Result<RawColumn, Refusal> {
        match value {
            Value::Bool(truth) => Ok(RawColumn {
                number: u64::from(*truth),
                ..RawColumn::default()
            }),
            Value::Int(number) => RawColumn::of_number(*number),
            Value::Text(text) => RawColumn::of_text(text.as_bytes()),
        }
    }

    fn of_number(number: i128) -> Result<RawColumn, Refusal> {
        let (kind, number) = match (u64::try_from(number), i64::try_from(number)) {
            (Ok(number), _) => (1, number),
            (_, Ok(number)) => (2, number.cast_unsigned()),
            _ => return Err(Refusal::OutOfRange),
        };
        Ok(RawColumn {
            kind,
            number,
            ..RawColumn::default()
        })
    }

    fn of_text(bytes: &[u8]) -> Result<RawColumn, Refusal> {
        let mut column = RawColumn {
            kind: 3,
            ..RawColumn::default()
        };
        let room = column
            .text
            .get_mut(..bytes.len())
            .ok_or(Refusal::TextTooLong)?;
        room.copy_from_slice(bytes);
        column.length = bytes.len() as u32;
        Ok(column)
    }

    fn value(&self) -> Value {
        match self.kind {
            0 => Value::Bool(self.number != 0),
            1 => Value::Int(self.number.into()),
            2 => Value::Int(self.number.cast_signed().into()),
            _ => Value::Text(
                String::from_utf8_lossy(&self.text[..self.length as usize]).into_owned(),
            ),
        }
    }
}

impl RawRow {
    fn row(&self) -> Row {
        let columns = &self.columns[..self.count as usize];
        (columns.iter().map(RawColumn::value).collect(), self.value)
    }
}

/// The columns of a tuple, at most eight, in place.
struct Columns {
    columns: [RawColumn; 8],
    count: usize,
}

impl Columns {
    fn of(tuple: &[Value]) -> Result<Columns, Refusal> {
        if tuple.len() > 8 {
            return Err(Refusal::WrongColumns);
        }
        let mut all = Columns {
            columns: [RawColumn::default(); 8],
            count: tuple.len(),
        };
        for (to, from) in all.columns.iter_mut().zip(tuple) {
            *to = RawColumn::of(from)?;
        }
        Ok(all)
    }
}

// ---- passes

/// The right to call a table, one call at a time. The table ends with its last pass.
pub struct Pass {
    raw: RawPass,
    tries: u32,
}

// SAFETY: what a pass of C owns is proved to be `Send` (`art_index_c`), and `&mut self` keeps it to one call at a time. It is not `Sync`.
unsafe impl Send for Pass {}

impl Drop for Pass {
    fn drop(&mut self) {
        // SAFETY: the pass holds what the library wrote there last.
        unsafe { art_index_close(&mut self.raw) }
    }
}

/// How often a call is made before `Busy` or `Crowded` is told, where `set_tries` was not called.
const TRIES: u32 = 1000;

/// How often a thread that was refused so only yields, before it sleeps.
const YIELDS: u32 = 100;

/// An empty table under the schema, as its passes.
pub fn open(schema: &str, sizes: &Sizes, passes: usize) -> Result<Vec<Pass>, Refusal> {
    let mut raw: Vec<RawPass> = (0..passes)
        .map(|_| RawPass {
            at: std::ptr::null_mut(),
        })
        .collect();
    // SAFETY: each pointer and length is a slice's that is borrowed for the call, and each pass is zero.
    let status = unsafe {
        art_index_open(
            schema.as_ptr(),
            schema.len(),
            sizes,
            raw.as_mut_ptr(),
            raw.len(),
        )
    };
    match status {
        0 => Ok(raw
            .into_iter()
            .map(|raw| Pass { raw, tries: TRIES })
            .collect()),
        refused => Err(Refusal::of(refused)),
    }
}

impl Pass {
    /// How often a call is made before `Busy` or `Crowded` is told: at least once.
    pub fn set_tries(&mut self, tries: u32) {
        self.tries = tries.max(1);
    }

    /// Adds a row, unless one with the tuple stands, which keeps its value.
    pub fn insert(&mut self, tuple: &[Value], value: u64) -> Result<Inserted, Refusal> {
        let (tuple, mut told) = (Columns::of(tuple)?, 0);
        // SAFETY: the pointers are those of values that are borrowed for the call.
        let call = |raw: &mut RawPass| unsafe {
            art_index_insert(raw, tuple.columns.as_ptr(), tuple.count, value, &mut told)
        };
        match self.tried(call) {
            0 => Ok(Inserted::New),
            1 => Ok(Inserted::Present(told)),
            refused => Err(Refusal::of(refused)),
        }
    }

    /// Takes the row with the tuple out, and gives its value.
    pub fn remove(&mut self, tuple: &[Value]) -> Result<Option<u64>, Refusal> {
        let (tuple, mut told) = (Columns::of(tuple)?, 0);
        // SAFETY: as of `insert`.
        let call = |raw: &mut RawPass| unsafe {
            art_index_remove(raw, tuple.columns.as_ptr(), tuple.count, &mut told)
        };
        match self.tried(call) {
            0 => Ok(Some(told)),
            2 => Ok(None),
            refused => Err(Refusal::of(refused)),
        }
    }

    /// The value of the row with the tuple.
    pub fn get(&mut self, tuple: &[Value]) -> Result<Option<u64>, Refusal> {
        let (tuple, mut told) = (Columns::of(tuple)?, 0);
        // SAFETY: as of `insert`.
        let call = |raw: &mut RawPass| unsafe {
            art_index_get(raw, tuple.columns.as_ptr(), tuple.count, &mut told)
        };
        match self.tried(call) {
            0 => Ok(Some(told)),
            2 => Ok(None),
            refused => Err(Refusal::of(refused)),
        }
    }

    /// The rows from `lo` to `hi`, both included, in order, at most `limit`, 1 to 100; and whether as many as the limit are listed.
    pub fn scan(
        &mut self,
        lo: &[Value],
        hi: &[Value],
        limit: usize,
    ) -> Result<(Vec<Row>, bool), Refusal> {
        let (lo, hi, mut listed) = (Columns::of(lo)?, Columns::of(hi)?, 0);
        if limit > 100 {
            return Err(Refusal::BadLimit);
        }
        let mut rows = vec![RawRow::default(); limit];
        // SAFETY: as of `insert`; there is room for as many rows as are asked for.
        let status = self.tried(|raw| unsafe {
            let (lo_at, hi_at) = (lo.columns.as_ptr(), hi.columns.as_ptr());
            art_index_scan(
                raw,
                lo_at,
                lo.count,
                hi_at,
                hi.count,
                rows.as_mut_ptr(),
                limit,
                &mut listed,
            )
        });
        match status {
            0 | 1 => Ok((
                rows[..listed].iter().map(RawRow::row).collect(),
                status == 1,
            )),
            refused => Err(Refusal::of(refused)),
        }
    }

    /// The rows of a range, in order, page by page: each page is a scan of its own, so rows may come and go between two of them.
    pub fn rows(&mut self, lo: &[Value], hi: &[Value]) -> Rows<'_> {
        Rows {
            pass: self,
            from: lo.to_vec(),
            to: hi.to_vec(),
            page: Vec::new().into_iter(),
            begun: false,
            more: true,
        }
    }

    /// Makes the call until it is not refused for passes in the way, or was made as often as it may be.
    fn tried(&mut self, mut call: impl FnMut(&mut RawPass) -> u32) -> u32 {
        for tries in 1..self.tries {
            let status = call(&mut self.raw);
            if status != Refusal::Busy as u32 && status != Refusal::Crowded as u32 {
                return status;
            }
            give_way(tries);
        }
        call(&mut self.raw)
    }
}

/// Lets other threads run: by a yield at first, and by a millisecond's sleep where that does not help, since the thread in the way may
/// wait for another processor.
fn give_way(tries: u32) {
    if tries < YIELDS {
        thread::yield_now();
    } else {
        thread::sleep(Duration::from_millis(1));
    }
}

/// The rows of a range. A refusal ends nothing: what is asked for after it tries the page again.
pub struct Rows<'a> {
    pass: &'a mut Pass,
    from: Vec<Value>,
    to: Vec<Value>,
    page: std::vec::IntoIter<Row>,
    begun: bool,
    more: bool,
}

impl Rows<'_> {
    /// Takes the next page. It begins at the last row that was listed, which is left out if it stands still.
    fn turn(&mut self) -> Result<(), Refusal> {
        let (mut rows, more) = self.pass.scan(&self.from, &self.to, 100)?;
        if self.begun && rows.first().is_some_and(|row| row.0 == self.from) {
            rows.remove(0);
        }
        self.begun = true;
        self.more = more;
        self.page = rows.into_iter();
        Ok(())
    }
}

impl Iterator for Rows<'_> {
    type Item = Result<Row, Refusal>;

    fn next(&mut self) -> Option<Self::Item> {
        loop {
            if let Some(row) = self.page.next() {
                self.from.clone_from(&row.0);
                return Some(Ok(row));
            }
            if !self.more {
                return None;
            }
            if let Err(refusal) = self.turn() {
                return Some(Err(refusal));
            }
        }
    }
}
