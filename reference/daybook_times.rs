//! What `daybook` does with a daybook of opens over a table, filings, posts, bills, resettlements and pays, in Rust,
//! for a comparison of their times (tools/time-daybook.sh).

use std::fmt;
use std::io::{self, BufRead, BufReader, BufWriter, Read, Write};

const LONGEST: u64 = 65_536;
const MOST_KWH: u64 = 10_000_000_000;
const NONE: u64 = u64::MAX;

// --- the book -------------------------------------------------------------------------------

#[derive(Clone, Copy)]
struct Row {
    project: i64,
    requirement: i64,
    paid: i64,
}

struct Book {
    year: u16,
    rate: Option<i64>,
    money: i64,
    rows: Vec<Row>,
    numbers: Vec<u64>,
}

fn rounded(amount: i64, divisor: i64) -> i64 {
    let size = (amount.unsigned_abs() + divisor.unsigned_abs() / 2) / divisor.unsigned_abs();
    if amount < 0 { -(size as i64) } else { size as i64 }
}

fn charge(kwh: u64, rate: i64) -> i64 {
    rounded(kwh as i64 * rate, 100_000)
}

impl Book {
    fn open(year: u16, participants: u16) -> Book {
        let numbers = vec![NONE; 12 * usize::from(participants)];
        Book { year, rate: None, money: 0, rows: Vec::with_capacity(64), numbers }
    }

    fn file(&mut self, project: i64, requirement: i64) -> Result<(), u8> {
        if !(1..=99_999_999).contains(&project) {
            return Err(1);
        }
        if self.rate.is_some() {
            return Err(2);
        }
        let place = self.rows.iter().position(|row| row.project == project);
        if place.is_none() && self.rows.len() == 64 {
            return Err(3);
        }
        if !(0..=100_000_000).contains(&requirement) {
            return Err(4);
        }
        match place {
            Some(place) => self.rows[place].requirement = requirement,
            None => self.rows.push(Row { project, requirement, paid: 0 }),
        }
        Ok(())
    }

    fn total(&self) -> i64 {
        self.rows.iter().map(|row| row.requirement).sum()
    }

    fn sum_of_paid(&self) -> i64 {
        self.rows.iter().map(|row| row.paid).sum()
    }

    fn post(&mut self, forecast: i64) -> Result<i64, u8> {
        if self.rate.is_some() {
            return Err(2);
        }
        if self.rows.is_empty() {
            return Err(5);
        }
        if !(1..=1_000_000_000).contains(&forecast) {
            return Err(6);
        }
        let rate = rounded(10_000 * self.total(), forecast);
        if !(1..=1_000_000).contains(&rate) {
            return Err(7);
        }
        self.rate = Some(rate);
        Ok(rate)
    }

    fn spot(&self, participant: i64, month: i64) -> Option<usize> {
        let has_place = participant as usize <= self.numbers.len() / 12;
        has_place.then(|| 12 * (participant as usize - 1) + (month as usize - 1))
    }

    /// The usage rate, what is held, and where it stands.
    fn asked(&self, participant: i64, month: i64, kwh: i64) -> Result<(i64, Option<u64>, Option<usize>), u8> {
        let is_in_range = (1..=65_535).contains(&participant)
            && (1..=12).contains(&month)
            && (0..=MOST_KWH as i64).contains(&kwh);
        if !is_in_range {
            return Err(8);
        }
        let rate = self.rate.ok_or(9)?;
        let spot = self.spot(participant, month);
        let held = spot.map(|spot| self.numbers[spot]).filter(|&kwh| kwh <= MOST_KWH);
        Ok((rate, held, spot))
    }

    fn enter(&mut self, spot: Option<usize>, kwh: i64, change: i64) -> Result<i64, u8> {
        let money = self.money + change;
        if !(0..=90_000_000_000).contains(&money) {
            return Err(11);
        }
        self.numbers[spot.ok_or(12)?] = kwh as u64;
        self.money = money;
        Ok(change)
    }

    fn bill(&mut self, participant: i64, month: i64, kwh: i64) -> Result<i64, u8> {
        let (rate, held, spot) = self.asked(participant, month, kwh)?;
        if held.is_some() {
            return Err(10);
        }
        self.enter(spot, kwh, charge(kwh as u64, rate))
    }

    fn resettle(&mut self, participant: i64, month: i64, kwh: i64) -> Result<i64, u8> {
        let (rate, held, spot) = self.asked(participant, month, kwh)?;
        let replaced = held.ok_or(13)?;
        self.enter(spot, kwh, charge(kwh as u64, rate) - charge(replaced, rate))
    }

    fn pay(&mut self) -> Result<(i64, i64), u8> {
        self.rate.ok_or(9)?;
        let (before, total, money) = (self.sum_of_paid(), self.total(), self.money);
        for row in &mut self.rows {
            row.paid = if total == 0 { 0 } else { (money * row.requirement).div_euclid(total) };
        }
        let paid = self.sum_of_paid();
        Ok((paid - before, money - paid))
    }
}

// --- entries and answers --------------------------------------------------------------------

enum Entry {
    Open(u16, u16),
    File(i64, i64),
    Post(i64),
    Bill(i64, i64, i64),
    Resettle(i64, i64, i64),
    Pay,
}

enum Answer {
    Opened(u16),
    Filed,
    Rate(i64),
    Charge(i64),
    Change(i64),
    Paid(i64, i64),
    Refused(u8),
    Unread,
}

impl fmt::Display for Answer {
    fn fmt(&self, f: &mut fmt::Formatter<'_>) -> fmt::Result {
        match self {
            Answer::Opened(year) => write!(f, "opened {year}"),
            Answer::Filed => f.write_str("filed"),
            Answer::Rate(rate) => write!(f, "rate {rate}"),
            Answer::Charge(charge) => write!(f, "charge {charge}"),
            Answer::Change(change) => write!(f, "change {change}"),
            Answer::Paid(change, till) => write!(f, "paid {change} till {till}"),
            Answer::Refused(number) => write!(f, "refused {number}"),
            Answer::Unread => f.write_str("unread"),
        }
    }
}

/// A number in its only spelling.
fn number(word: &str) -> Option<i64> {
    let digits = word.strip_prefix('-').unwrap_or(word);
    let is_plain = digits.bytes().all(|b| b.is_ascii_digit())
        && (!digits.starts_with('0') || word == "0");
    if is_plain { word.parse().ok() } else { None }
}

fn number_u16(word: &str) -> Option<u16> {
    number(word)?.try_into().ok()
}

fn read_entry(line: &str) -> Option<Entry> {
    let mut words = line.split(',');
    let name = words.next()?;
    let entry = match name {
        "open" => {
            let year = number_u16(words.next()?)?;
            if words.next()? != "table" {
                return None;
            }
            Entry::Open(year, number_u16(words.next()?)?)
        }
        "file" => Entry::File(number(words.next()?)?, number(words.next()?)?),
        "post" => Entry::Post(number(words.next()?)?),
        "bill" => Entry::Bill(number(words.next()?)?, number(words.next()?)?, number(words.next()?)?),
        "resettle" => Entry::Resettle(number(words.next()?)?, number(words.next()?)?, number(words.next()?)?),
        "pay" => Entry::Pay,
        _ => return None,
    };
    words.next().is_none().then_some(entry)
}

fn perform(book: &mut Book, entry: &Entry) -> Result<Answer, u8> {
    Ok(match *entry {
        Entry::Open(..) => Answer::Unread,
        Entry::File(project, requirement) => {
            book.file(project, requirement)?;
            Answer::Filed
        }
        Entry::Post(forecast) => Answer::Rate(book.post(forecast)?),
        Entry::Bill(participant, month, kwh) => Answer::Charge(book.bill(participant, month, kwh)?),
        Entry::Resettle(participant, month, kwh) => Answer::Change(book.resettle(participant, month, kwh)?),
        Entry::Pay => {
            let (change, till) = book.pay()?;
            Answer::Paid(change, till)
        }
    })
}

// --- the daybook ----------------------------------------------------------------------------

struct Daybook<W> {
    out: W,
    book: Option<Book>,
}

impl<W: Write> Daybook<W> {
    fn show_book(&mut self) -> io::Result<()> {
        let Some(book) = &self.book else {
            return Ok(());
        };
        let till = book.money - book.sum_of_paid();
        match book.rate {
            None => writeln!(self.out, "year {} draft money {} till {till}", book.year, book.money)?,
            Some(rate) => writeln!(self.out, "year {} posted {rate} money {} till {till}", book.year, book.money)?,
        }
        for Row { project, requirement, paid } in &book.rows {
            let dues = "due-now 0 due-next 0";
            writeln!(self.out, "row {project} {dues} paid {paid} kept 0 requirement {requirement} actual -")?;
        }
        Ok(())
    }

    fn answer(&mut self, entry: &Entry) -> io::Result<Answer> {
        match (entry, &mut self.book) {
            (Entry::Open(year, participants), _) => {
                self.show_book()?;
                self.book = Some(Book::open(*year, *participants));
                Ok(Answer::Opened(*year))
            }
            (_, Some(book)) => Ok(perform(book, entry).unwrap_or_else(Answer::Refused)),
            (_, None) => Ok(Answer::Unread),
        }
    }

    fn line(&mut self, number: u64, line: &[u8], is_too_long: bool) -> io::Result<()> {
        let shown = if is_too_long { line } else { line.strip_suffix(b"\r").unwrap_or(line) };
        if shown.is_empty() || shown[0] == b'#' {
            return Ok(());
        }
        let entry = std::str::from_utf8(shown).ok().filter(|_| !is_too_long).and_then(read_entry);
        let answer = match entry {
            Some(entry) => self.answer(&entry)?,
            None => Answer::Unread,
        };
        write!(self.out, "{number}: ")?;
        self.out.write_all(shown)?;
        writeln!(self.out, " -> {answer}")
    }
}

fn main() -> io::Result<()> {
    let mut input = BufReader::with_capacity(65_536, io::stdin().lock());
    let out = BufWriter::with_capacity(65_536, io::stdout().lock());
    let mut daybook = Daybook { out, book: None };
    let mut line = Vec::new();
    for number in 1.. {
        line.clear();
        if input.by_ref().take(LONGEST + 1).read_until(b'\n', &mut line)? == 0 {
            break;
        }
        if line.ends_with(b"\n") {
            line.pop();
        }
        let is_too_long = line.len() as u64 > LONGEST;
        if is_too_long {
            line.truncate(LONGEST as usize);
            input.skip_until(b'\n')?;
        }
        daybook.line(number, &line, is_too_long)?;
    }
    daybook.show_book()?;
    daybook.out.flush()
}
