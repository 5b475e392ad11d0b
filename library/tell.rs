//! tell FILE: what the library says of a file, line by line, from Rust. `try.py` compares it with the program.
use std::io::Write;
use std::{env, fs, io};

const PASS: u32 = 0;
const REFUSED: u32 = 1;
const NO_ROOM: u32 = 4;
const LONGEST_TEXT: usize = 65_536;
const MENDING_ROOM: usize = 155;
const LONGEST_FILE: usize = 16_777_216;
const MOST_ROWS: usize = 8193;
const MOST_BYTES: usize = 33_558_528;

#[repr(C)]
#[derive(Default)]
struct Fault {
    number: u32,
    row: u32,
    column: u32,
    offset: usize,
}

#[repr(C)]
#[derive(Default)]
struct Size {
    columns: u32,
    lines: u32,
    cells: usize,
    scratch: usize,
}

/// A row of a screen, in memory that is lent.
#[repr(C)]
#[derive(Default, Clone, Copy)]
struct ScreenRow {
    held: [u64; 3],
}

#[repr(C)]
#[derive(Default)]
struct Piece {
    start: usize,
    length: usize,
}

#[repr(C)]
#[derive(Default)]
struct Place {
    row: usize,
    column: usize,
}

#[repr(C)]
#[derive(Default)]
struct Passing {
    needs: u32,
    players: u32,
    needs_on_all_players: u32,
    taller_screens: u32,
}

#[repr(C)]
#[derive(Default)]
struct Blame {
    fault: Fault,
    bytes: Piece,
    low: Place,
    high: Place,
    known: u32,
    lines: u32,
    mends: u32,
}

#[repr(C)]
#[derive(Default)]
struct Parts {
    content: usize,
    comments: Piece,
    notes: u32,
}

#[repr(C)]
#[derive(Default)]
struct Fields {
    is_there: u32,
    flags: u32,
    ice: u32,
    spacing: u32,
    aspect: u32,
    width: usize,
    lines: usize,
    font: Piece,
    date: Piece,
    title: Piece,
    author: Piece,
    group: Piece,
}

#[repr(C)]
#[derive(Default)]
struct Row {
    passing: Passing,
    blame: Blame,
    parts: Parts,
    fields: Fields,
}

#[rustfmt::skip]
unsafe extern "C" {
    fn ans_size(file: *const u8, file_len: usize, size: &mut Size, fault: &mut Fault) -> u32;
    fn ans_record(file: *const u8, file_len: usize, text: *mut u8, text_len: usize, length: &mut usize) -> u32;
    fn ans_copy_version(text: *mut u8, text_len: usize, length: &mut usize) -> u32;
    fn ans_check_on(
        file: *const u8, file_len: usize, known: u32, rows: *mut ScreenRow, rows_len: usize, bytes: *mut u8,
        bytes_len: usize, glyphs: *mut u8, glyphs_len: usize, attributes: *mut u8, attributes_len: usize,
        fault: &mut Fault,
    ) -> u32;
    fn ans_needs_on(
        file: *const u8, file_len: usize, rows: *mut ScreenRow, rows_len: usize, bytes: *mut u8, bytes_len: usize,
        parts: &mut u32, fault: &mut Fault,
    ) -> u32;
    fn ans_row_on(
        file: *const u8, file_len: usize, rows: *mut ScreenRow, rows_len: usize, bytes: *mut u8, bytes_len: usize,
        row: &mut Row,
    ) -> u32;
    fn ans_why_on(
        file: *const u8, file_len: usize, rows: *mut ScreenRow, rows_len: usize, bytes: *mut u8, bytes_len: usize,
        text: *mut u8, text_len: usize, length: &mut usize,
    ) -> u32;
    fn ans_mend_on(
        file: *const u8, file_len: usize, classes: u32, add_record: u32, columns: u32, lines: u32,
        rows: *mut ScreenRow, rows_len: usize, bytes: *mut u8, bytes_len: usize, draft: *mut u8, draft_len: usize,
        mended: *mut u8, mended_len: usize, size: &mut usize, text: *mut u8, text_len: usize, length: &mut usize,
    ) -> u32;
    fn ans_redraw_on(
        file: *const u8, file_len: usize, rows: *mut ScreenRow, rows_len: usize, bytes: *mut u8, bytes_len: usize,
        redrawn: *mut u8, redrawn_len: usize, size: &mut usize, text: *mut u8, text_len: usize, length: &mut usize,
    ) -> u32;
}

/// A file and the memory that its check needs. In each call below a pointer and its length are those of one slice that
/// is borrowed for the call, and no two that are written are one.
struct Checker {
    file: Vec<u8>,
    rows: Vec<ScreenRow>,
    bytes: Vec<u8>,
    cells: usize,
    fault: Fault,
}

impl Checker {
    fn new(file: Vec<u8>) -> Checker {
        let (mut size, mut fault) = (Size::default(), Fault::default());
        let answer = unsafe { ans_size(file.as_ptr(), file.len(), &mut size, &mut fault) };
        let (columns, rows) = if answer == PASS { (size.columns as usize, size.lines as usize + 1) } else { (0, 0) };
        let bytes = vec![0; 4 * columns * rows];
        Checker { file, rows: vec![ScreenRow::default(); rows], bytes, cells: size.cells, fault }
    }

    fn check(&mut self, known: u32) -> (u32, String) {
        let (mut glyphs, mut attributes) = (vec![0u8; self.cells], vec![0u8; self.cells]);
        let answer = unsafe {
            ans_check_on(
                self.file.as_ptr(), self.file.len(), known, self.rows.as_mut_ptr(), self.rows.len(),
                self.bytes.as_mut_ptr(), self.bytes.len(), glyphs.as_mut_ptr(), glyphs.len(),
                attributes.as_mut_ptr(), attributes.len(), &mut self.fault,
            )
        };
        let cells = glyphs.iter().zip(&attributes).map(|(glyph, attribute)| format!("{glyph:02x}{attribute:02x}"));
        (answer, cells.collect())
    }

    fn needs(&mut self) -> (u32, String) {
        let mut parts = 0;
        let answer = unsafe {
            ans_needs_on(
                self.file.as_ptr(), self.file.len(), self.rows.as_mut_ptr(), self.rows.len(),
                self.bytes.as_mut_ptr(), self.bytes.len(), &mut parts, &mut self.fault,
            )
        };
        (answer, parts.to_string())
    }

    fn row(&mut self) -> (u32, Row) {
        let mut row = Row::default();
        let answer = unsafe {
            ans_row_on(
                self.file.as_ptr(), self.file.len(), self.rows.as_mut_ptr(), self.rows.len(),
                self.bytes.as_mut_ptr(), self.bytes.len(), &mut row,
            )
        };
        (answer, row)
    }

    fn why(&mut self, text: &mut [u8], length: &mut usize) -> u32 {
        unsafe {
            ans_why_on(
                self.file.as_ptr(), self.file.len(), self.rows.as_mut_ptr(), self.rows.len(),
                self.bytes.as_mut_ptr(), self.bytes.len(), text.as_mut_ptr(), text.len(), length,
            )
        }
    }

    /// What `ans_mend_on` answers, and the mended file.
    fn mend(&self, classes: u32, add_record: u32, text: &mut [u8], length: &mut usize) -> (u32, Vec<u8>) {
        let line_feeds = self.file.iter().filter(|&&byte| byte == b'\n').count();
        let named = LONGEST_FILE.min(9 * self.file.len() + 8);
        let most = if classes & 16 == 0 { self.file.len() } else { named };
        let room = most + line_feeds + MENDING_ROOM;
        let (mut rows, mut bytes) = (vec![ScreenRow::default(); MOST_ROWS], vec![0u8; MOST_BYTES]);
        let (mut draft, mut mended, mut size) = (vec![0u8; room], vec![0u8; room], 0);
        let answer = unsafe {
            ans_mend_on(
                self.file.as_ptr(), self.file.len(), classes, add_record, 0, 0, rows.as_mut_ptr(), rows.len(),
                bytes.as_mut_ptr(), bytes.len(), draft.as_mut_ptr(), draft.len(), mended.as_mut_ptr(), mended.len(),
                &mut size, text.as_mut_ptr(), text.len(), length,
            )
        };
        mended.truncate(size);
        (answer, mended)
    }

    fn redraw_in(&mut self, redrawn: &mut [u8], size: &mut usize, text: &mut [u8], length: &mut usize) -> u32 {
        unsafe {
            ans_redraw_on(
                self.file.as_ptr(), self.file.len(), self.rows.as_mut_ptr(), self.rows.len(),
                self.bytes.as_mut_ptr(), self.bytes.len(), redrawn.as_mut_ptr(), redrawn.len(), size,
                text.as_mut_ptr(), text.len(), length,
            )
        }
    }

    /// What `ans_redraw_on` answers, and the redrawn file. Its size is asked for first, with an empty slice.
    fn redraw(&mut self, text: &mut [u8], length: &mut usize) -> (u32, Vec<u8>) {
        let (mut redrawn, mut size) = (Vec::new(), 0);
        let mut answer = self.redraw_in(&mut redrawn, &mut size, text, length);
        if answer == NO_ROOM {
            redrawn = vec![0; size];
            answer = self.redraw_in(&mut redrawn, &mut size, text, length);
        }
        (answer, redrawn)
    }

    fn put_answer(&self, out: &mut impl Write, name: &str, (answer, passed): (u32, String)) -> io::Result<()> {
        match answer {
            PASS => writeln!(out, "{name} pass {passed}"),
            REFUSED => put_fault(out, &format!("{name} refused"), &self.fault),
            _ => writeln!(out, "{name} answer {answer}"),
        }
    }

    fn put_piece(&self, out: &mut impl Write, name: &str, piece: &Piece) -> io::Result<()> {
        let bytes = &self.file[piece.start..piece.start + piece.length];
        let digits: String = bytes.iter().map(|byte| format!("{byte:02x}")).collect();
        writeln!(out, "{name} {} {} {digits}", piece.start, piece.length)
    }

    fn put_row(&mut self, out: &mut impl Write) -> io::Result<()> {
        let (answer, row) = self.row();
        writeln!(out, "row {answer}")?;
        if answer != PASS && answer != REFUSED {
            return Ok(());
        }
        let Row { passing, blame, parts, fields } = row;
        let Passing { needs, players, needs_on_all_players, taller_screens } = passing;
        writeln!(out, "passing {needs} {players} {needs_on_all_players} {taller_screens}")?;
        put_fault(out, "fault", &blame.fault)?;
        self.put_piece(out, "bytes", &blame.bytes)?;
        let Blame { low, high, known, lines, mends, .. } = blame;
        writeln!(out, "low {} {}\nhigh {} {}", low.row, low.column, high.row, high.column)?;
        writeln!(out, "known {known}\nlines {lines}\nmends {mends}")?;
        writeln!(out, "content {}\nnotes {}", parts.content, parts.notes)?;
        self.put_piece(out, "comments", &parts.comments)?;
        self.put_fields(out, &fields)
    }

    fn put_fields(&self, out: &mut impl Write, fields: &Fields) -> io::Result<()> {
        let Fields { is_there, flags, ice, spacing, aspect, width, lines, .. } = fields;
        writeln!(out, "fields {is_there} {flags} {ice} {spacing} {aspect} {width} {lines}")?;
        self.put_piece(out, "font", &fields.font)?;
        self.put_piece(out, "date", &fields.date)?;
        self.put_piece(out, "title", &fields.title)?;
        self.put_piece(out, "author", &fields.author)?;
        self.put_piece(out, "group", &fields.group)
    }

    fn put_mend(&self, out: &mut impl Write, classes: u32, add_record: u32) -> io::Result<()> {
        let (mut mended, mut told) = (Vec::new(), Vec::new());
        put_text(&mut told, "mended", |text, length| {
            let (answer, file) = self.mend(classes, add_record, text, length);
            mended = file;
            answer
        })?;
        writeln!(out, "mend {classes} {add_record} {}", mended.len())?;
        out.write_all(&mended)?;
        out.write_all(&told)
    }

    fn put_redraw(&mut self, out: &mut impl Write) -> io::Result<()> {
        let (mut redrawn, mut told) = (Vec::new(), Vec::new());
        put_text(&mut told, "redrawn", |text, length| {
            let (answer, file) = self.redraw(text, length);
            redrawn = file;
            answer
        })?;
        writeln!(out, "redraw {}", redrawn.len())?;
        out.write_all(&redrawn)?;
        out.write_all(&told)
    }
}

fn put_fault(out: &mut impl Write, before: &str, fault: &Fault) -> io::Result<()> {
    writeln!(out, "{before} {} {} {} {}", fault.number, fault.offset, fault.row, fault.column)
}

fn put_text(out: &mut impl Write, name: &str, call: impl FnOnce(&mut [u8], &mut usize) -> u32) -> io::Result<()> {
    let (mut text, mut length) = (vec![0; LONGEST_TEXT], 0);
    let answer = call(&mut text, &mut length);
    writeln!(out, "{name} {answer} {length}")?;
    let told = if answer == PASS || answer == REFUSED { length } else { 0 };
    out.write_all(&text[..told])
}

fn put_version(out: &mut impl Write) -> io::Result<()> {
    let (mut text, mut length) = ([0; 16], 0);
    let answer = unsafe { ans_copy_version(text.as_mut_ptr(), text.len(), &mut length) };
    writeln!(out, "version {answer} {}", String::from_utf8_lossy(&text[..length]))
}

fn main() -> io::Result<()> {
    let Some(name) = env::args_os().nth(1) else {
        eprintln!("usage: tell FILE");
        std::process::exit(2);
    };
    let mut checker = Checker::new(fs::read(name)?);
    let out = &mut io::stdout().lock();
    put_version(out)?;
    for known in [0, 3, 31] {
        let told = checker.check(known);
        checker.put_answer(out, &format!("check {known}"), told)?;
    }
    let told = checker.needs();
    checker.put_answer(out, "needs", told)?;
    checker.put_row(out)?;
    put_text(out, "why", |text, length| checker.why(text, length))?;
    let file = &checker.file;
    put_text(out, "record", |text, length| unsafe {
        ans_record(file.as_ptr(), file.len(), text.as_mut_ptr(), text.len(), length)
    })?;
    checker.put_mend(out, 0, 0)?;
    checker.put_mend(out, 255, 80)?;
    checker.put_redraw(out)
}
