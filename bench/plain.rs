// The same program in plain Rust, with nothing proved: what `settle` is measured against. Only the standard library is used.
use std::io::{self, BufRead, BufReader, BufWriter, Write};

const LIMIT: i64 = 1_000_000_000;
const SERIES: usize = 32;
const WINDOWS: usize = 13;
const MOST: usize = 30_000;
const DECIMALS: usize = 10;

enum Refusal {
    Number(u8),
    NoPrice(u8),
    NotRead(usize),
}

use Refusal::{NoPrice, NotRead, Number};

type Answered<T> = Result<T, Refusal>;

// ---- lines

struct Fields<'a> {
    line: &'a [u8],
    at: usize,
}

impl<'a> Fields<'a> {
    fn next(&mut self) -> Answered<(&'a [u8], usize)> {
        if self.at > self.line.len() {
            return Err(NotRead(self.line.len()));
        }
        let start = self.at;
        let end = self.line[start..].iter().position(|b| *b == b' ').map_or(self.line.len(), |n| start + n);
        self.at = end + 1;
        Ok((&self.line[start..end], start))
    }

    fn end(&self) -> Answered<()> {
        if self.at <= self.line.len() { Err(NotRead(self.at - 1)) } else { Ok(()) }
    }

    fn value(&mut self) -> Answered<i64> {
        let (field, start) = self.next()?;
        number(field).ok_or(NotRead(start))
    }

    fn value_if(&mut self) -> Answered<Option<i64>> {
        let (field, start) = self.next()?;
        if field == b"-" {
            return Ok(None);
        }
        number(field).map(Some).ok_or(NotRead(start))
    }

    fn mark(&mut self) -> Answered<bool> {
        match self.next()? {
            (b"0", _) => Ok(false),
            (b"1", _) => Ok(true),
            (_, start) => Err(NotRead(start)),
        }
    }

    fn word(&mut self, no: &[u8], yes: &[u8]) -> Answered<bool> {
        let (field, start) = self.next()?;
        if field == no { Ok(false) } else if field == yes { Ok(true) } else { Err(NotRead(start)) }
    }
}

fn number(field: &[u8]) -> Option<i64> {
    let (digits, negative) = match field {
        [b'-', rest @ ..] => (rest, true),
        _ => (field, false),
    };
    if digits.is_empty() || digits.len() > DECIMALS || (digits[0] == b'0' && (digits.len() > 1 || negative)) {
        return None;
    }
    let mut n = 0i64;
    for b in digits {
        if !b.is_ascii_digit() {
            return None;
        }
        n = n * 10 + i64::from(b - b'0');
    }
    Some(if negative { -n } else { n })
}

// ---- books

#[derive(Clone, Copy)]
struct Last<T> {
    stamp: i64,
    value: T,
}

fn later<T>(last: &mut Option<Last<T>>, stamp: i64, value: T) {
    if last.as_ref().is_none_or(|l| l.stamp <= stamp) {
        *last = Some(Last { stamp, value });
    }
}

#[derive(Clone, Copy, Default)]
struct Figures {
    trade: Option<Last<i64>>,
    auction: Option<Last<i64>>,
    spread: Option<Last<i64>>,
    quote: Option<Last<(Option<i64>, Option<i64>)>>,
    lots: i64,
    money: i64,
}

#[derive(Clone, Copy)]
struct Day {
    night: i64,
    opening: i64,
    afternoon: i64,
    close: i64,
    cut: i64,
}

impl Day {
    fn lawful(&self) -> bool {
        (0..=86_399).contains(&self.night)
            && 86_400 <= self.opening
            && self.opening <= self.afternoon
            && self.afternoon < self.close
            && self.close <= 172_799
            && self.opening < self.cut
            && self.cut < self.close
    }

    fn windows(&self) -> [(i64, i64); WINDOWS] {
        let Day { night: n, opening: o, afternoon: m, close: e, cut: k } = *self;
        [
            (n, e), (o, e), (139_800, e), (m, e), (142_200, e), (135_900, 143_100), (117_900, 143_100),
            (o, 126_120), (n, 126_120), (125_100, 126_000), (o, k - 1), (n, k - 1), (125_100, k - 1),
        ]
    }
}

enum Kind {
    Trade,
    Auction,
    Leg,
}

// ---- series and rows

#[derive(Clone, Copy)]
struct Terms {
    family: i64,
    ladder: usize,
    reference: Option<usize>,
    settlement: Option<i64>,
    spread: Option<i64>,
    last_day: bool,
    quarter_end: bool,
}

#[derive(Clone, Copy)]
struct Series {
    terms: Terms,
    theory: Option<i64>,
    ruling: Option<(i64, bool)>,
}

// close, last-day close, quarter-end close, morning
const ROWS: [[&[(u8, usize)]; 4]; 15] = {
    const A4L1T: &[(u8, usize)] = &[(b'A', 4), (b'L', 1), (b'T', 0)];
    const L8DB: &[(u8, usize)] = &[(b'L', 8), (b'D', 0), (b'B', 0)];
    const S1P: &[(u8, usize)] = &[(b'S', 1), (b'P', 0)];
    const F3: &[(u8, usize)] = &[(b'A', 4), (b'Q', 4), (b'L', 3), (b'L', 2), (b'T', 0)];
    const C: &[(u8, usize)] = &[(b'C', 0)];
    const F5: &[(u8, usize)] = &[(b'A', 4), (b'Q', 4), (b'L', 4), (b'T', 0), (b'D', 0)];
    const L9D: &[(u8, usize)] = &[(b'L', 9), (b'D', 0)];
    const L5TD: &[(u8, usize)] = &[(b'L', 5), (b'T', 0), (b'D', 0)];
    const TD: &[(u8, usize)] = &[(b'T', 0), (b'D', 0)];
    const L10TD: &[(u8, usize)] = &[(b'L', 10), (b'T', 0), (b'D', 0)];
    const T: &[(u8, usize)] = &[(b'T', 0)];
    const F10: &[(u8, usize)] = &[(b'A', 2), (b'Q', 2), (b'L', 1), (b'D', 0)];
    const M10: &[(u8, usize)] = &[(b'Q', 12), (b'L', 12), (b'B', 0)];
    const L1D: &[(u8, usize)] = &[(b'L', 1), (b'D', 0)];
    const L11D: &[(u8, usize)] = &[(b'L', 11), (b'D', 0)];
    const V2L1B: &[(u8, usize)] = &[(b'V', 2), (b'L', 1), (b'B', 0)];
    const L1B: &[(u8, usize)] = &[(b'L', 1), (b'B', 0)];
    const L11B: &[(u8, usize)] = &[(b'L', 11), (b'B', 0)];
    const F13: &[(u8, usize)] = &[(b'V', 6), (b'L', 1), (b'B', 0), (b'C', 0)];
    const F13L: &[(u8, usize)] = &[(b'V', 7), (b'L', 1), (b'B', 0), (b'C', 0)];
    const L12B: &[(u8, usize)] = &[(b'L', 12), (b'B', 0)];
    const L5U: &[(u8, usize)] = &[(b'L', 5), (b'U', 0)];
    const L13U: &[(u8, usize)] = &[(b'L', 13), (b'U', 0)];
    const U: &[(u8, usize)] = &[(b'U', 0)];
    [
        [A4L1T, A4L1T, A4L1T, L8DB], [S1P, S1P, S1P, L8DB], [F3, F3, F3, L8DB], [C, C, C, L8DB], [F5, F5, F5, L9D],
        [L5TD, L5TD, TD, L10TD], [TD, TD, TD, L10TD], [C, C, C, C], [T, T, T, T], [F10, F10, F10, M10],
        [L1D, V2L1B, L1D, L11D], [L1B, L1B, L1B, L11B], [F13, F13L, F13, L12B], [L5U, L5U, U, L13U], [U, U, U, U],
    ]
};

// ---- rounding

fn up(tick: i64, v: i64) -> i64 {
    v + (-v).rem_euclid(tick)
}

fn nearest(tick: i64, numerator: i64, denominator: i64) -> i64 {
    let width = i128::from(tick) * i128::from(denominator);
    let doubled = 2 * i128::from(numerator) + width;
    (doubled.div_euclid(2 * width) * i128::from(tick)) as i64
}

// ---- the house

#[derive(Clone, Copy)]
struct Settled {
    price: i64,
    step: u8,
    place: usize,
    time: Option<i64>,
}

#[derive(Clone, Copy, PartialEq)]
enum Phase {
    Listing,
    Trading,
    Closed,
}

struct House {
    day: Day,
    windows: [(i64, i64); WINDOWS],
    ticks: [i64; 4],
    phase: Phase,
    series: Vec<Series>,
    figures: Vec<[Figures; WINDOWS]>,
    count: usize,
}

fn price_ok(v: i64) -> bool {
    (-LIMIT..=LIMIT).contains(&v)
}

fn spread_ok(v: i64) -> bool {
    (-100_000_000..=100_000_000).contains(&v)
}

impl House {
    fn find(&self, series: i64) -> Answered<usize> {
        usize::try_from(series).ok().filter(|n| *n < self.series.len()).ok_or(Number(4))
    }

    fn list(&mut self, f: [i64; 2], reference: Option<i64>, settlement: Option<i64>, spread: Option<i64>, marks: (bool, bool)) -> Answered<usize> {
        let [family, ladder] = f;
        if self.phase != Phase::Listing {
            return Err(Number(2));
        }
        let number = self.series.len();
        if number == SERIES {
            return Err(Number(3));
        }
        let needs = matches!(family, 2 | 4 | 8);
        let reference_ok = match reference {
            None => !needs,
            Some(r) => (needs || family == 13) && 0 <= r && r < number as i64,
        };
        let lawful = (1..=15).contains(&family)
            && (0..4).contains(&ladder)
            && reference_ok
            && settlement.is_none_or(price_ok)
            && spread.is_none_or(|v| family == 2 && spread_ok(v));
        if !lawful {
            return Err(Number(5));
        }
        let terms = Terms {
            family,
            ladder: ladder as usize,
            reference: reference.map(|r| r as usize),
            settlement,
            spread,
            last_day: marks.0,
            quarter_end: marks.1,
        };
        self.series.push(Series { terms, theory: None, ruling: None });
        Ok(number)
    }

    // What comes before an entry's own limits.
    fn trading(&self, series: i64) -> Answered<usize> {
        if self.phase != Phase::Trading {
            return Err(Number(2));
        }
        self.find(series)
    }

    fn stamp_ok(&self, stamp: i64) -> bool {
        (self.day.night..=self.day.close).contains(&stamp)
    }

    fn on_ladder(&self, n: usize, v: i64) -> bool {
        v % self.ticks[self.series[n].terms.ladder] == 0
    }

    fn room(&mut self) -> Answered<()> {
        if self.count == MOST {
            return Err(Number(9));
        }
        self.count += 1;
        Ok(())
    }

    fn deal(&mut self, kind: Kind, series: i64, stamp: i64, price: i64, lots: i64) -> Answered<()> {
        let n = self.trading(series)?;
        if !self.stamp_ok(stamp) || !price_ok(price) || !(1..=100_000).contains(&lots) {
            return Err(Number(6));
        }
        if !self.on_ladder(n, price) {
            return Err(Number(7));
        }
        self.room()?;
        if matches!(kind, Kind::Leg) {
            return Ok(());
        }
        for (window, figures) in self.windows.iter().zip(&mut self.figures[n]) {
            if (window.0..=window.1).contains(&stamp) {
                later(&mut figures.trade, stamp, price);
                if matches!(kind, Kind::Auction) {
                    later(&mut figures.auction, stamp, price);
                }
                figures.lots += lots;
                figures.money += price * lots;
            }
        }
        Ok(())
    }

    fn spread(&mut self, series: i64, stamp: i64, difference: i64) -> Answered<()> {
        let n = self.trading(series)?;
        if !self.stamp_ok(stamp) || !spread_ok(difference) {
            return Err(Number(6));
        }
        if self.series[n].terms.family != 2 {
            return Err(Number(8));
        }
        self.room()?;
        for (window, figures) in self.windows.iter().zip(&mut self.figures[n]) {
            if (window.0..=window.1).contains(&stamp) {
                later(&mut figures.spread, stamp, difference);
            }
        }
        Ok(())
    }

    fn quote(&mut self, series: i64, stamp: i64, bid: Option<i64>, ask: Option<i64>) -> Answered<()> {
        let n = self.trading(series)?;
        let crossed = bid.is_some_and(|b| ask.is_some_and(|a| b >= a));
        if !self.stamp_ok(stamp) || !bid.is_none_or(price_ok) || !ask.is_none_or(price_ok) || crossed {
            return Err(Number(6));
        }
        if !bid.is_none_or(|v| self.on_ladder(n, v)) || !ask.is_none_or(|v| self.on_ladder(n, v)) {
            return Err(Number(7));
        }
        self.room()?;
        for (window, figures) in self.windows.iter().zip(&mut self.figures[n]) {
            if (window.0..=window.1).contains(&stamp) {
                later(&mut figures.quote, stamp, (bid, ask));
            }
        }
        Ok(())
    }

    fn theory(&mut self, series: i64, value: Option<i64>) -> Answered<()> {
        let n = self.find(series)?;
        if !value.is_none_or(price_ok) {
            return Err(Number(6));
        }
        self.series[n].theory = value;
        Ok(())
    }

    fn ruling(&mut self, series: i64, value: Option<i64>, first: bool) -> Answered<()> {
        let n = self.find(series)?;
        if !value.map_or(!first, price_ok) {
            return Err(Number(6));
        }
        self.series[n].ruling = value.map(|v| (v, first));
        Ok(())
    }

    fn settle(&self, series: i64, morning: bool) -> Answered<Settled> {
        let open = self.phase == Phase::Closed || (morning && self.phase == Phase::Trading);
        if !open {
            return Err(Number(2));
        }
        let n = self.find(series)?;
        self.answer(n, morning).map_err(NoPrice)
    }

    fn answer(&self, n: usize, morning: bool) -> Result<Settled, u8> {
        let series = &self.series[n];
        if let Some((price, true)) = series.ruling {
            return Ok(Settled { price, step: b'D', place: 0, time: None });
        }
        let terms = &series.terms;
        let row = match (terms.family, morning) {
            (14, _) if terms.quarter_end => 2,
            (_, true) => 3,
            (11 | 13, false) if terms.last_day => 1,
            (6, false) if terms.quarter_end => 2,
            _ => 0,
        };
        let row = ROWS[terms.family as usize - 1][row];
        let reference = match terms.reference {
            Some(r) if row.iter().any(|(s, _)| matches!(s, b'S' | b'P' | b'C')) => Some(self.answer(r, morning)),
            _ => None,
        };
        let settled = reference.and_then(|r| r.ok());
        let tick = self.ticks[terms.ladder];
        for (place, (step, window)) in row.iter().enumerate() {
            let figures = &self.figures[n][window.saturating_sub(1)];
            let found = match step {
                b'A' => figures.auction.map(|l| (l.value, Some(l.stamp))),
                b'L' => figures.trade.map(|l| (l.value, Some(l.stamp))),
                b'Q' => figures.quote.and_then(|l| Some((nearest(tick, l.value.0? + l.value.1?, 2), Some(l.stamp)))),
                b'V' => figures.trade.map(|l| (nearest(tick, figures.money, figures.lots), Some(l.stamp))),
                b'T' => series.theory.map(|v| (nearest(tick, v, 1), None)),
                b'U' => series.theory.map(|v| (up(tick, v), None)),
                b'S' => settled.and_then(|b| figures.spread.map(|l| (b.price - l.value, Some(l.stamp)))),
                b'P' => settled.and_then(|b| terms.spread.map(|v| (b.price - v, None))),
                b'C' => settled.map(|b| (b.price, b.time)),
                b'B' => terms.settlement.map(|v| (v, None)),
                _ => series.ruling.map(|(v, _)| (v, None)),
            };
            if let Some((price, time)) = found {
                return Ok(Settled { price, step: *step, place: place + 1, time });
            }
        }
        Err(match reference {
            Some(Err(origin)) => origin,
            _ => n as u8,
        })
    }
}

// ---- the desk

enum Answer {
    Done,
    Listed(usize),
    Price(i64, Settled),
}

fn house(desk: &mut Option<House>) -> Answered<&mut House> {
    desk.as_mut().ok_or(Number(2))
}

fn line(desk: &mut Option<House>, line: &[u8]) -> Answered<Answer> {
    if line.len() > 200 {
        return Err(NotRead(200));
    }
    let mut fields = Fields { line, at: 0 };
    let (command, _) = fields.next()?;
    match command {
        b"day" => {
            let mut v = [0; 9];
            for v in &mut v {
                *v = fields.value()?;
            }
            fields.end()?;
            let [night, opening, afternoon, close, cut, ticks @ ..] = v;
            if desk.is_some() {
                return Err(Number(2));
            }
            let day = Day { night, opening, afternoon, close, cut };
            if !day.lawful() {
                return Err(Number(1));
            }
            if !ticks.iter().all(|t| (1..=1_000_000).contains(t)) {
                return Err(Number(13));
            }
            *desk = Some(House {
                day,
                windows: day.windows(),
                ticks,
                phase: Phase::Listing,
                series: Vec::with_capacity(SERIES),
                figures: vec![[Figures::default(); WINDOWS]; SERIES],
                count: 0,
            });
            Ok(Answer::Done)
        }
        b"list" => {
            let f = [fields.value()?, fields.value()?];
            let (reference, settlement, spread) = (fields.value_if()?, fields.value_if()?, fields.value_if()?);
            let marks = (fields.mark()?, fields.mark()?);
            fields.end()?;
            house(desk)?.list(f, reference, settlement, spread, marks).map(Answer::Listed)
        }
        b"bell" => {
            let close = fields.word(b"open", b"close")?;
            fields.end()?;
            let house = house(desk)?;
            house.phase = match (house.phase, close) {
                (Phase::Listing, false) => Phase::Trading,
                (Phase::Trading, true) => Phase::Closed,
                _ => return Err(Number(2)),
            };
            Ok(Answer::Done)
        }
        b"trade" | b"auction" | b"leg" => {
            let (series, stamp, price, lots) = (fields.value()?, fields.value()?, fields.value()?, fields.value()?);
            fields.end()?;
            let kind = match command {
                b"trade" => Kind::Trade,
                b"auction" => Kind::Auction,
                _ => Kind::Leg,
            };
            house(desk)?.deal(kind, series, stamp, price, lots).map(|()| Answer::Done)
        }
        b"spread" => {
            let (series, stamp, difference) = (fields.value()?, fields.value()?, fields.value()?);
            fields.end()?;
            house(desk)?.spread(series, stamp, difference).map(|()| Answer::Done)
        }
        b"quote" => {
            let (series, stamp, bid, ask) = (fields.value()?, fields.value()?, fields.value_if()?, fields.value_if()?);
            fields.end()?;
            house(desk)?.quote(series, stamp, bid, ask).map(|()| Answer::Done)
        }
        b"theory" => {
            let (series, value) = (fields.value()?, fields.value_if()?);
            fields.end()?;
            house(desk)?.theory(series, value).map(|()| Answer::Done)
        }
        b"ruling" => {
            let (series, value, first) = (fields.value()?, fields.value_if()?, fields.mark()?);
            fields.end()?;
            house(desk)?.ruling(series, value, first).map(|()| Answer::Done)
        }
        b"settle" => {
            let series = fields.value()?;
            let morning = fields.word(b"close", b"morning")?;
            fields.end()?;
            house(desk)?.settle(series, morning).map(|s| Answer::Price(series, s))
        }
        _ => Err(NotRead(0)),
    }
}

fn main() -> io::Result<()> {
    let mut input = BufReader::new(io::stdin().lock());
    let mut output = BufWriter::new(io::stdout().lock());
    let mut desk = None;
    let mut bytes = Vec::new();
    loop {
        bytes.clear();
        if input.buffer().is_empty() {
            output.flush()?;
        }
        if input.read_until(b'\n', &mut bytes)? == 0 {
            return output.flush();
        }
        let whole = bytes.strip_suffix(b"\n").unwrap_or(&bytes);
        match line(&mut desk, whole) {
            Ok(Answer::Done) => output.write_all(b"done\n")?,
            Ok(Answer::Listed(n)) => writeln!(output, "listed {n}")?,
            Ok(Answer::Price(n, Settled { price, step, place, time })) => match time {
                Some(stamp) => writeln!(output, "price {n} {price} {} {place} {stamp}", char::from(step))?,
                None => writeln!(output, "price {n} {price} {} {place} -", char::from(step))?,
            },
            Err(Number(n)) => writeln!(output, "refused {n}")?,
            Err(NoPrice(origin)) => writeln!(output, "refused 10 {origin}")?,
            Err(NotRead(place)) => writeln!(output, "refused 11 {place}")?,
        }
    }
}
