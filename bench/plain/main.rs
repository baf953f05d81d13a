//! A plain bandtrace: the same lines in, the same lines out, nothing proved.
//!
//! It is what the proved program is timed against. The table is changed in
//! place and kept in whole-number positions as document 01 has them. So that
//! both programs do the same work, each call first tests the whole table as
//! refusal 1 asks.

use std::io::{self, ErrorKind, Read, Write};
use std::process::ExitCode;

const ROWS: usize = 64;
const HEAVIEST: u64 = 16;
const LONGEST_LENGTH: u64 = 10_000;
/// What a length of 0 stands for: the one that the table was made with.
const DEFAULT_LENGTH: u64 = 8;
const FORMER_DEFAULT: u64 = 20;
const LARGEST_LIMIT: u64 = 100;
const LAST_RULE: u64 = 2;
const LARGEST_TOTAL: u64 = ROWS as u64 * HEAVIEST;
/// P, the ceiling for positions.
const CEILING: u64 = 1 << 48;
/// 720,720 / weight; entry 0 stands for no weight.
const STEPS: [u64; 17] = [
    0, 720720, 360360, 240240, 180180, 144144, 120120, 102960, 90090, 80080, 72072, 65520, 60060,
    55440, 51480, 48048, 45045,
];

/// Answer 15 of bandtrace; the refusals have document 01's numbers.
const BROKEN_LINE: u64 = 15;

#[derive(Clone, Copy, PartialEq, Eq)]
enum State {
    Free,
    Going,
    Asking,
}

#[derive(Clone, Copy, PartialEq, Eq)]
struct Row {
    state: State,
    weight: u64,
    position: u64,
    opening: u64,
    length: u64,
    served: u64,
    next_length: u64,
}

const FREE_ROW: Row = Row {
    state: State::Free,
    weight: 0,
    position: 0,
    opening: 0,
    length: 0,
    served: 0,
    next_length: 0,
};

impl Row {
    fn step(&self) -> u64 {
        STEPS[self.weight as usize]
    }

    /// Equation 8 of document 000.
    fn deadline(&self) -> u64 {
        self.opening + self.length * self.step()
    }

    fn has_weight_and_position(&self) -> bool {
        (1..=HEAVIEST).contains(&self.weight) && self.position <= CEILING
    }

    fn has_request(&self) -> bool {
        (1..=LONGEST_LENGTH).contains(&self.length)
            && (1..=LONGEST_LENGTH).contains(&self.next_length)
            && self.served < self.length
            && self.opening <= self.position
            && self.position - self.opening == self.served * self.step()
    }

    fn has_no_request(&self) -> bool {
        (self.opening | self.length | self.served | self.next_length) == 0
    }
}

struct Table {
    rows: [Row; ROWS],
    /// W, the weight of all rows not free.
    total: u64,
    /// A, the sum of weight x position over them.
    sum: u64,
    /// Where V stands while no row is present; 0 while one is.
    resting: u64,
    limit: u64,
    /// For ties: 1 to the lower number, 2 to the lesser position first.
    rule: u64,
    default: u64,
    out: bool,
    holder: usize,
    ticks: u64,
}

fn is_default(length: u64) -> bool {
    length == DEFAULT_LENGTH || length == FORMER_DEFAULT
}

impl Table {
    fn fresh(limit: u64, rule: u64, default: u64) -> Table {
        Table {
            rows: [FREE_ROW; ROWS],
            total: 0,
            sum: 0,
            resting: 0,
            limit,
            rule,
            default,
            out: false,
            holder: 0,
            ticks: 0,
        }
    }

    /// Document 01, "A sound table", in one walk over the rows.
    fn is_sound(&self) -> bool {
        if !(1..=LARGEST_LIMIT).contains(&self.limit)
            || !(1..=LAST_RULE).contains(&self.rule)
            || !is_default(self.default)
            || self.total > LARGEST_TOTAL
        {
            return false;
        }
        let (mut total, mut sum) = (0, 0);
        for row in &self.rows {
            let sound = match row.state {
                State::Free => row.weight == 0 && row.position == 0 && row.has_no_request(),
                State::Going => {
                    row.has_weight_and_position()
                        && row.has_no_request()
                        && !self.is_reached(row.position)
                }
                State::Asking => row.has_weight_and_position() && row.has_request(),
            };
            if !sound {
                return false;
            }
            total += row.weight;
            sum += row.weight * row.position;
        }
        total == self.total && sum == self.sum && self.rests_soundly() && self.has_sound_slice()
    }

    fn rests_soundly(&self) -> bool {
        self.resting <= if self.total == 0 { CEILING } else { 0 }
    }

    fn has_sound_slice(&self) -> bool {
        if !self.out {
            return self.holder == 0 && self.ticks == 0;
        }
        let Some(row) = self.rows.get(self.holder) else {
            return false;
        };
        row.state == State::Asking
            && self.is_reached(row.opening)
            && row.deadline() <= CEILING
            && self.ticks == self.limit.min(row.length - row.served)
    }

    /// Position at most V. Nothing is divided, so nothing is rounded.
    fn is_reached(&self, position: u64) -> bool {
        position * self.total <= self.sum
    }

    fn is_asking(&self, number: u64) -> bool {
        self.rows[number as usize].state == State::Asking
    }

    /// The row enters at the least whole number not below V, or where an empty table rests.
    fn enter(&mut self, number: u64, weight: u64, length: u64) {
        let entry = if self.total == 0 {
            self.resting
        } else {
            self.sum.div_ceil(self.total)
        };
        let length = if length == 0 { self.default } else { length };
        self.rows[number as usize] = Row {
            state: State::Asking,
            weight,
            position: entry,
            opening: entry,
            length,
            served: 0,
            next_length: length,
        };
        self.total += weight;
        self.sum += weight * entry;
        self.resting = 0;
    }

    /// Taking the share out of A and W is the whole of equation 14.
    fn free(&mut self, number: usize) {
        let row = &mut self.rows[number];
        self.total -= row.weight;
        self.sum -= row.weight * row.position;
        if self.total == 0 {
            self.resting = row.position;
        }
        *row = FREE_ROW;
    }

    fn stop_asking(&mut self, number: usize) {
        let row = &mut self.rows[number];
        *row = Row {
            state: State::Going,
            weight: row.weight,
            position: row.position,
            ..FREE_ROW
        };
    }

    /// Freeing one row may make another ready, so walk until none is freed.
    fn release(&mut self) {
        let mut freed = true;
        while freed {
            freed = false;
            for number in 0..ROWS {
                let row = &self.rows[number];
                if row.state == State::Going && self.is_reached(row.position) {
                    self.free(number);
                    freed = true;
                }
            }
        }
    }

    fn join(&mut self, number: u64, weight: u64, length: u64) -> u64 {
        if !self.is_sound() {
            return 1;
        }
        if number >= ROWS as u64 {
            return 2;
        }
        if !(1..=HEAVIEST).contains(&weight) {
            return 3;
        }
        if length > LONGEST_LENGTH {
            return 4;
        }
        if self.out {
            return 5;
        }
        if self.rows[number as usize].state != State::Free {
            return 7;
        }
        self.enter(number, weight, length);
        self.release();
        0
    }

    fn leave(&mut self, number: u64) -> u64 {
        if !self.is_sound() {
            return 1;
        }
        if number >= ROWS as u64 {
            return 2;
        }
        if self.out {
            return 5;
        }
        if !self.is_asking(number) {
            return 8;
        }
        let number = number as usize;
        if self.is_reached(self.rows[number].position) {
            self.free(number);
        } else {
            self.stop_asking(number);
        }
        self.release();
        0
    }

    fn reweight(&mut self, number: u64, weight: u64, length: u64) -> u64 {
        if !self.is_sound() {
            return 1;
        }
        if number >= ROWS as u64 {
            return 2;
        }
        if !(1..=HEAVIEST).contains(&weight) {
            return 3;
        }
        if length > LONGEST_LENGTH {
            return 4;
        }
        if self.out {
            return 5;
        }
        if !self.is_asking(number) {
            return 8;
        }
        if !self.is_reached(self.rows[number as usize].position) {
            return 9;
        }
        self.free(number as usize);
        self.release();
        self.enter(number, weight, length);
        self.release();
        0
    }

    fn set_length(&mut self, number: u64, length: u64) -> u64 {
        if !self.is_sound() {
            return 1;
        }
        if number >= ROWS as u64 {
            return 2;
        }
        if length > LONGEST_LENGTH {
            return 4;
        }
        if self.out {
            return 5;
        }
        if !self.is_asking(number) {
            return 8;
        }
        let length = if length == 0 { self.default } else { length };
        self.rows[number as usize].next_length = length;
        0
    }

    /// Least deadline among the eligible, and under rule 2 of equal ones the
    /// least position; the walk upwards keeps the lowest number of what is left.
    fn choose(&self) -> Option<(usize, u64)> {
        let mut chosen = None;
        let mut least = (u64::MAX, 0);
        for (number, row) in self.rows.iter().enumerate() {
            if row.state == State::Asking && self.is_reached(row.opening) {
                let bid = (row.deadline(), if self.rule == 2 { row.position } else { 0 });
                if bid < least {
                    least = bid;
                    chosen = Some((number, bid.0));
                }
            }
        }
        chosen
    }

    fn grant(&mut self) -> u64 {
        if !self.is_sound() {
            return 1;
        }
        if self.out {
            return 5;
        }
        // In a table that isn't empty somebody always stands at or below V.
        let Some((number, deadline)) = self.choose() else {
            return 11;
        };
        if deadline > CEILING {
            return 12;
        }
        let row = &self.rows[number];
        self.ticks = self.limit.min(row.length - row.served);
        self.holder = number;
        self.out = true;
        0
    }

    fn take_back(&mut self, number: u64, used: u64, early: bool) -> u64 {
        if !self.is_sound() {
            return 1;
        }
        if number >= ROWS as u64 {
            return 2;
        }
        if !self.out || self.holder as u64 != number {
            return 6;
        }
        if used > self.ticks {
            return 10;
        }
        let row = &mut self.rows[number as usize];
        let moved = used * row.step();
        row.position += moved;
        row.served += used;
        self.sum += row.weight * moved;
        if row.served == row.length || early {
            row.opening = row.position;
            row.length = row.next_length;
            row.served = 0;
        }
        self.out = false;
        self.holder = 0;
        self.ticks = 0;
        self.release();
        0
    }
}

// ------------------------------------------------------------------ the lines

/// Takes one space and one decimal of 1 to 5 digits off the front.
fn number(fields: &mut &[u8]) -> Option<u64> {
    let digits = fields.strip_prefix(b" ")?;
    let count = digits
        .iter()
        .take_while(|byte| byte.is_ascii_digit())
        .count();
    let (digits, rest) = digits.split_at(count);
    if count == 0 || count > 5 || (count > 1 && digits[0] == b'0') {
        return None;
    }
    *fields = rest;
    Some(
        digits
            .iter()
            .fold(0, |value, digit| value * 10 + u64::from(digit - b'0')),
    )
}

/// The numbers that follow the letter, all of them and nothing else.
fn numbers<const COUNT: usize>(mut fields: &[u8]) -> Option<[u64; COUNT]> {
    let mut values = [0; COUNT];
    for value in &mut values {
        *value = number(&mut fields)?;
    }
    fields.is_empty().then_some(values)
}

/// Does what the line says; None for a line that is none of document 01's. No
/// overlong line gets through, because 19 bytes are the most that can be read.
fn answer(table: &mut Table, line: &[u8]) -> Option<u64> {
    let (letter, fields) = line.split_first()?;
    Some(match letter {
        b'S' => {
            let [limit, rule, default] = if let Some([limit]) = numbers(fields) {
                [limit, 1, DEFAULT_LENGTH]
            } else if let Some([limit, rule]) = numbers(fields) {
                [limit, rule, DEFAULT_LENGTH]
            } else {
                numbers(fields)?
            };
            if !(1..=LARGEST_LIMIT).contains(&limit) {
                return Some(14);
            }
            if !(1..=LAST_RULE).contains(&rule) {
                return Some(23);
            }
            if !is_default(default) {
                return Some(25);
            }
            *table = Table::fresh(limit, rule, default);
            0
        }
        b'J' => {
            let [number, weight, length] = numbers(fields)?;
            table.join(number, weight, length)
        }
        b'L' => {
            let [number] = numbers(fields)?;
            table.leave(number)
        }
        b'W' => {
            let [number, weight, length] = numbers(fields)?;
            table.reweight(number, weight, length)
        }
        b'R' => {
            let [number, length] = numbers(fields)?;
            table.set_length(number, length)
        }
        b'G' => {
            let [] = numbers(fields)?;
            table.grant()
        }
        b'U' => {
            let [number, used, early] = numbers(fields)?;
            if early > 1 {
                return None;
            }
            table.take_back(number, used, early == 1)
        }
        _ => return None,
    })
}

fn put_number(out: &mut Vec<u8>, mut value: u64) {
    let mut digits = [0u8; 20];
    let mut first = digits.len();
    loop {
        first -= 1;
        digits[first] = b'0' + (value % 10) as u8;
        value /= 10;
        if value == 0 {
            break;
        }
    }
    out.extend_from_slice(&digits[first..]);
}

/// One run: the table, the count of lines, and what is still to be written.
struct Trace {
    table: Table,
    lines: u64,
    printed: Vec<u8>,
}

impl Trace {
    fn new() -> Trace {
        Trace {
            table: Table::fresh(1, 1, DEFAULT_LENGTH),
            lines: 0,
            printed: b"line answer who slice sum total\n".to_vec(),
        }
    }

    fn line(&mut self, line: &[u8]) {
        let answer = answer(&mut self.table, line).unwrap_or(BROKEN_LINE);
        self.lines += 1;
        let out = &mut self.printed;
        put_number(out, self.lines);
        out.push(b' ');
        put_number(out, answer);
        if line == b"G" && answer == 0 {
            out.push(b' ');
            put_number(out, self.table.holder as u64);
            out.push(b' ');
            put_number(out, self.table.ticks);
            out.push(b' ');
        } else {
            out.extend_from_slice(b" - - ");
        }
        put_number(out, self.table.sum);
        out.push(b' ');
        put_number(out, self.table.total);
        out.push(b'\n');
    }
}

const PIECE: usize = 1 << 16;
/// Enough of a broken-up line to see that it is overlong.
const KEPT: usize = 41;

/// Lines that lie wholly in a piece are read where they stand; only one that
/// runs over the end of a piece is kept aside.
fn run(mut input: impl Read, mut output: impl Write) -> io::Result<()> {
    let mut trace = Trace::new();
    let mut piece = vec![0; PIECE];
    let mut kept: Vec<u8> = Vec::with_capacity(KEPT);
    let mut inside_line = false;
    loop {
        let count = match input.read(&mut piece) {
            Ok(0) => break,
            Ok(count) => count,
            Err(error) if error.kind() == ErrorKind::Interrupted => continue,
            Err(error) => return Err(error),
        };
        let mut rest = &piece[..count];
        while let Some(end) = rest.iter().position(|&byte| byte == b'\n') {
            if inside_line {
                keep(&mut kept, &rest[..end]);
                trace.line(&kept);
                kept.clear();
                inside_line = false;
            } else {
                trace.line(&rest[..end]);
            }
            rest = &rest[end + 1..];
        }
        if !rest.is_empty() {
            keep(&mut kept, rest);
            inside_line = true;
        }
        output.write_all(&trace.printed)?;
        trace.printed.clear();
    }
    if inside_line {
        trace.line(&kept);
    }
    output.write_all(&trace.printed)?;
    output.flush()
}

fn keep(kept: &mut Vec<u8>, bytes: &[u8]) {
    let room = KEPT - kept.len();
    kept.extend_from_slice(&bytes[..bytes.len().min(room)]);
}

fn main() -> ExitCode {
    match run(io::stdin().lock(), io::stdout().lock()) {
        Ok(()) => ExitCode::SUCCESS,
        Err(error) => {
            eprintln!("plain: {error}");
            ExitCode::FAILURE
        }
    }
}
