//! The yardstick: the job of Jutescraper as a plain Rust program, std only.
//!
//! It reads a deck of 96-byte records on standard input, says which of them
//! are refused and prints the forces that stand at the end. Whole numbers
//! only. The job is laid down in `docs/`; nothing here is proved and nothing
//! is shared with the crates.

use std::io::{self, BufReader, BufWriter, Read, Write};
use std::process::ExitCode;

const RECORD: usize = 96;
const MAX_FLOORS: usize = 40;
const MIN_HEIGHT: u16 = 20;
const MAX_HEIGHT: u16 = 2000;
const HEIGHTS: usize = (MAX_HEIGHT - MIN_HEIGHT + 1) as usize;
const MAX_MODES: usize = 9;
const MAX_TOTAL: u32 = 500_000;
const MAX_PERIOD: u32 = 4000;
const MAX_ORDINATE: u16 = 4000;

/// Bytes of the deck, and of the output, that are held at a time.
const BUFFER: usize = 64 * 1024;

// ---------------------------------------------------------------- refusals

/// Why a record is refused; the discriminant is the number that is printed.
#[derive(Clone, Copy)]
enum Ground {
    ShortRecord = 1,
    UnknownLetter = 2,
    UnusedByte = 3,
    SiteOrder = 4,
    SiteValue = 5,
    FloorHeight = 6,
    FloorWeight = 7,
    TotalWeight = 8,
    TooManyFloors = 9,
    NoSuchFloor = 10,
    ModesEntered = 11,
    OrdinateCount = 12,
    ModePeriod = 13,
    OrdinateRange = 14,
    OrdinatesAllZero = 15,
    TooManyModes = 16,
    NoSuchMode = 17,
    NoFloors = 19,
    PeriodTooLong = 20,
    TooHighForStatic = 21,
    ModalWeightShort = 22,
    NoCombinedShear = 23,
    NoSuchRule = 24,
}

struct Refusal {
    ground: Ground,
    place: u32,
}

impl Ground {
    fn at(self, place: impl TryInto<u32>) -> Refusal {
        // Every place is a byte, a count, a height, a period or a sum of
        // weights, and so fits.
        Refusal {
            ground: self,
            place: place.try_into().unwrap_or(u32::MAX),
        }
    }
}

fn ensure(holds: bool, ground: Ground, place: impl TryInto<u32>) -> Result<(), Refusal> {
    if holds {
        Ok(())
    } else {
        Err(ground.at(place))
    }
}

// ----------------------------------------------------------------- numbers

/// The whole number nearest to n / d, a half going up.
fn nearest(n: u64, d: u64) -> u64 {
    (2 * n + d) / (2 * d)
}

/// The whole number nearest to the root of q.
fn nearest_root(q: u64) -> u64 {
    let r = q.isqrt();
    if q - r * r > r {
        r + 1
    } else {
        r
    }
}

// ----------------------------------------------------------------- records

/// What 96 bytes ask for. A mode's ordinates stay bytes of the record.
enum Record<'a> {
    Site {
        values: [u8; 6],
        base: u16,
    },
    Floor {
        height: u16,
        weight: u32,
    },
    Reweigh {
        floor: u8,
        weight: u32,
    },
    Mode {
        period: u16,
        count: u8,
        ordinates: &'a [u8],
    },
    Strike {
        mode: u8,
    },
    Static,
    Modal {
        rule: u8,
    },
}

impl<'a> Record<'a> {
    fn read(bytes: &'a [u8]) -> Result<Self, Refusal> {
        let bytes: &[u8; RECORD] = bytes
            .try_into()
            .map_err(|_| Ground::ShortRecord.at(bytes.len()))?;
        let pair = |at: usize| u16::from_be_bytes([bytes[at], bytes[at + 1]]);
        let four = |at: usize| {
            u32::from_be_bytes([bytes[at], bytes[at + 1], bytes[at + 2], bytes[at + 3]])
        };
        let (record, used) = match bytes[0] {
            b'S' => {
                let values = [bytes[1], bytes[2], bytes[3], bytes[4], bytes[5], bytes[6]];
                (
                    Record::Site {
                        values,
                        base: pair(7),
                    },
                    9,
                )
            }
            b'F' => (
                Record::Floor {
                    height: pair(1),
                    weight: four(3),
                },
                7,
            ),
            b'W' => (
                Record::Reweigh {
                    floor: bytes[1],
                    weight: four(2),
                },
                6,
            ),
            b'M' => {
                let count = bytes[3];
                let used = (4 + 2 * usize::from(count)).min(RECORD);
                (
                    Record::Mode {
                        period: pair(1),
                        count,
                        ordinates: &bytes[4..used],
                    },
                    used,
                )
            }
            b'K' => (Record::Strike { mode: bytes[1] }, 2),
            b'E' => (Record::Static, 1),
            b'C' => (Record::Modal { rule: bytes[1] }, 2),
            _ => return Err(Ground::UnknownLetter.at(0u32)),
        };
        // Or-ing all bytes together takes a few vector instructions; the
        // search for the first bad one is left for the records that have one.
        let unused = &bytes[used..];
        if unused.iter().fold(0, |all, byte| all | byte) != 0 {
            let first = unused.iter().take_while(|&&byte| byte == 0).count();
            return Err(Ground::UnusedByte.at(used + first));
        }
        Ok(record)
    }
}

// -------------------------------------------------------------------- site

#[derive(Clone, Copy)]
enum Soil {
    Hard,
    Medium,
    Soft,
}

#[derive(Clone, Copy)]
enum Formula {
    ConcreteFrame,
    SteelFrame,
    Other { base: u16 },
}

struct Site {
    /// Z, a hundred times the zone factor.
    zone: u32,
    soil: Soil,
    /// I and R, both in tenths.
    importance: u32,
    reduction: u32,
    formula: Formula,
    /// The highest roof that the static method takes.
    static_limit: u16,
}

struct Fraction {
    numerator: u64,
    denominator: u64,
}

impl Fraction {
    /// The whole number nearest to this fraction of a weight.
    fn of(&self, weight: u64) -> u64 {
        nearest(self.numerator * weight, self.denominator)
    }
}

impl Site {
    fn new(values: [u8; 6], base: u16) -> Result<Site, Refusal> {
        let bad = |position: u32| Ground::SiteValue.at(position);
        let [zone, soil, importance, system, formula, plan] = values;
        let (factor, low) = match zone {
            2 => (10, true),
            3 => (16, true),
            4 => (24, false),
            5 => (36, false),
            _ => return Err(bad(1)),
        };
        let soil = match soil {
            1 => Soil::Hard,
            2 => Soil::Medium,
            3 => Soil::Soft,
            _ => return Err(bad(2)),
        };
        let importance = match importance {
            10 | 15 => u32::from(importance),
            _ => return Err(bad(3)),
        };
        let reduction = match system {
            1 | 7 | 8 | 10 => 30,
            2 | 4 | 13 => 50,
            3 | 9 | 11 => 40,
            5 => 15,
            6 => 25,
            12 => 45,
            _ => return Err(bad(4)),
        };
        if !(1..=3).contains(&formula) {
            return Err(bad(5));
        }
        let static_limit = match (plan, low) {
            (0, true) => 900,
            (0, false) | (1, true) => 400,
            (1, false) => 120,
            _ => return Err(bad(6)),
        };
        let formula = match (formula, base) {
            (1, 0) => Formula::ConcreteFrame,
            (2, 0) => Formula::SteelFrame,
            (3, 20..=5000) => Formula::Other { base },
            _ => return Err(bad(7)),
        };
        Ok(Site {
            zone: factor,
            soil,
            importance,
            reduction,
            formula,
            static_limit,
        })
    }

    /// Ta: from a table for bare frames; otherwise the least t for which
    /// (2t + 1)^2 D > 3240 H^2, that is, 2t + 1 above the whole root r.
    fn period(&self, roof: u16) -> u32 {
        let h = u64::from(roof);
        match self.formula {
            Formula::ConcreteFrame => u32::from(CONCRETE_PERIODS[usize::from(roof - MIN_HEIGHT)]),
            Formula::SteelFrame => u32::from(STEEL_PERIODS[usize::from(roof - MIN_HEIGHT)]),
            Formula::Other { base } => (3240 * h * h / u64::from(base)).isqrt().div_ceil(2) as u32,
        }
    }

    /// Sa by the code curve.
    fn spectrum(&self, t: u32) -> (u32, u32) {
        let (plateau, falling) = match self.soil {
            Soil::Hard => (400, 1000),
            Soil::Medium => (550, 1360),
            Soil::Soft => (670, 1670),
        };
        if t <= 100 {
            (1000 + 15 * t, 1000)
        } else if t <= plateau {
            (5, 2)
        } else {
            (falling, t)
        }
    }

    /// The design acceleration A(t), with its floor for short periods.
    fn acceleration(&self, t: u32) -> Fraction {
        let (p, q) = self.spectrum(t);
        let (n, d) = (self.importance * p, self.reduction * q);
        let (n, d) = if t <= 100 && n < d { (1, 1) } else { (n, d) };
        Fraction {
            numerator: u64::from(self.zone) * u64::from(n),
            denominator: 200 * u64::from(d),
        }
    }
}

static CONCRETE_PERIODS: [u16; HEIGHTS] = frame_periods(506_250);
static STEEL_PERIODS: [u16; HEIGHTS] = frame_periods(835_210);

/// For each height H the least t with (2t + 1)^4 > factor H^3. It never falls
/// where H rises, so the search goes on from the height before. The compiler
/// works this out; a run then only looks it up.
const fn frame_periods(factor: u64) -> [u16; HEIGHTS] {
    let mut periods = [0; HEIGHTS];
    let mut t = 0u16;
    let mut at = 0;
    while at < HEIGHTS {
        let height = at as u64 + MIN_HEIGHT as u64;
        while (2 * t as u64 + 1).pow(4) <= factor * height.pow(3) {
            t += 1;
        }
        periods[at] = t;
        at += 1;
    }
    periods
}

// ------------------------------------------------------------------- rules

#[derive(Clone, Copy, PartialEq)]
enum Rule {
    Squares,
    Absolute,
    GroupedSquares,
    GroupedAbsolute,
}

impl Rule {
    fn new(number: u8) -> Result<Rule, Refusal> {
        match number {
            1 => Ok(Rule::Squares),
            2 => Ok(Rule::Absolute),
            3 => Ok(Rule::GroupedSquares),
            4 => Ok(Rule::GroupedAbsolute),
            _ => Err(Ground::NoSuchRule.at(1u32)),
        }
    }

    /// Grouping does not change a sum of sizes.
    fn is_absolute(self) -> bool {
        matches!(self, Rule::Absolute | Rule::GroupedAbsolute)
    }

    /// Are the sizes of a mode and of the next one added before squaring?
    fn joins(self, period: u16, next: u16) -> bool {
        match self {
            Rule::Squares => false,
            Rule::GroupedSquares => 10 * u32::from(period) <= 11 * u32::from(next),
            Rule::Absolute | Rule::GroupedAbsolute => true,
        }
    }
}

// ------------------------------------------------------------------- sheet

#[derive(Clone, Copy)]
struct Floor {
    height: u16,
    weight: u32,
}

#[derive(Clone, Copy)]
struct Mode {
    period: u16,
    ordinates: [i16; MAX_FLOORS],
}

/// The design shear of a storey and the force on its floor.
#[derive(Clone, Copy)]
struct Storey {
    shear: u64,
    force: i64,
}

struct Sheet {
    floor_count: usize,
    mode_count: usize,
    total: u32,
    floors: [Floor; MAX_FLOORS],
    modes: [Mode; MAX_MODES],
    /// Do forces stand? Where they do, there is a storey for each floor.
    stands: bool,
    storeys: [Storey; MAX_FLOORS],
}

impl Sheet {
    fn new() -> Sheet {
        Sheet {
            floor_count: 0,
            mode_count: 0,
            total: 0,
            floors: [Floor {
                height: 0,
                weight: 0,
            }; MAX_FLOORS],
            modes: [Mode {
                period: 0,
                ordinates: [0; MAX_FLOORS],
            }; MAX_MODES],
            stands: false,
            storeys: [Storey { shear: 0, force: 0 }; MAX_FLOORS],
        }
    }

    fn floors(&self) -> &[Floor] {
        &self.floors[..self.floor_count]
    }

    fn modes(&self) -> &[Mode] {
        &self.modes[..self.mode_count]
    }

    /// The storeys, lowest first, where forces stand.
    fn storeys(&self) -> Option<&[Storey]> {
        self.stands.then(|| &self.storeys[..self.floor_count])
    }

    fn floor(&mut self, height: u16, weight: u32) -> Result<(), Refusal> {
        let number = self.floor_count + 1;
        let below = self.floors().last().map_or(0, |floor| floor.height);
        let in_range = (MIN_HEIGHT..=MAX_HEIGHT).contains(&height);
        ensure(in_range && height > below, Ground::FloorHeight, number)?;
        ensure(
            (100..=100_000).contains(&weight),
            Ground::FloorWeight,
            number,
        )?;
        ensure(
            self.total + weight <= MAX_TOTAL,
            Ground::TotalWeight,
            number,
        )?;
        ensure(number <= MAX_FLOORS, Ground::TooManyFloors, number)?;
        ensure(self.mode_count == 0, Ground::ModesEntered, self.mode_count)?;
        self.floors[self.floor_count] = Floor { height, weight };
        self.floor_count = number;
        self.total += weight;
        self.stands = false;
        Ok(())
    }

    fn reweigh(&mut self, number: u8, weight: u32) -> Result<(), Refusal> {
        ensure(
            (100..=100_000).contains(&weight),
            Ground::FloorWeight,
            number,
        )?;
        let floor = usize::from(number)
            .checked_sub(1)
            .and_then(|index| self.floors[..self.floor_count].get_mut(index))
            .ok_or(Ground::NoSuchFloor.at(number))?;
        let total = self.total - floor.weight + weight;
        ensure(total <= MAX_TOTAL, Ground::TotalWeight, number)?;
        floor.weight = weight;
        self.total = total;
        self.stands = false;
        Ok(())
    }

    fn mode(&mut self, period: u16, count: u8, ordinates: &[u8]) -> Result<(), Refusal> {
        let number = self.mode_count + 1;
        let fits = self.floor_count > 0 && usize::from(count) == self.floor_count;
        ensure(fits, Ground::OrdinateCount, count)?;
        let bound = self
            .modes()
            .last()
            .map_or(MAX_PERIOD + 1, |mode| u32::from(mode.period));
        ensure(
            (1..bound).contains(&u32::from(period)),
            Ground::ModePeriod,
            number,
        )?;
        // Places past the floors stay 0: within range, and of no weight.
        let mut mode = Mode {
            period,
            ordinates: [0; MAX_FLOORS],
        };
        for (place, bytes) in mode.ordinates.iter_mut().zip(ordinates.chunks_exact(2)) {
            *place = i16::from_be_bytes([bytes[0], bytes[1]]);
        }
        if let Some(at) = mode
            .ordinates
            .iter()
            .position(|o| o.unsigned_abs() > MAX_ORDINATE)
        {
            return Err(Ground::OrdinateRange.at(at + 1));
        }
        ensure(
            mode.ordinates != [0; MAX_FLOORS],
            Ground::OrdinatesAllZero,
            number,
        )?;
        ensure(number <= MAX_MODES, Ground::TooManyModes, number)?;
        self.modes[self.mode_count] = mode;
        self.mode_count = number;
        self.stands = false;
        Ok(())
    }

    fn strike(&mut self, number: u8) -> Result<(), Refusal> {
        let mode = usize::from(number);
        ensure(
            (1..=self.mode_count).contains(&mode),
            Ground::NoSuchMode,
            number,
        )?;
        self.modes.copy_within(mode..self.mode_count, mode - 1);
        self.mode_count -= 1;
        self.stands = false;
        Ok(())
    }

    fn roof(&self) -> Result<u16, Refusal> {
        self.floors()
            .last()
            .map(|floor| floor.height)
            .ok_or(Ground::NoFloors.at(0u32))
    }

    fn code_base_shear(&self, site: &Site) -> Result<u64, Refusal> {
        let period = site.period(self.roof()?);
        ensure(period <= MAX_PERIOD, Ground::PeriodTooLong, period)?;
        Ok(site.acceleration(period).of(u64::from(self.total)))
    }

    fn run_static(&mut self, site: &Site) -> Result<(), Refusal> {
        let base = self.code_base_shear(site)?;
        let roof = self.roof()?;
        ensure(roof <= site.static_limit, Ground::TooHighForStatic, roof)?;
        // S of each storey, from the roof down.
        let mut sums = [0; MAX_FLOORS];
        let mut sum = 0;
        for (place, floor) in sums.iter_mut().zip(self.floors()).rev() {
            let height = u64::from(floor.height);
            sum += u64::from(floor.weight) * height * height;
            *place = sum;
        }
        self.put(|storey| nearest(base * sums[storey], sum));
        Ok(())
    }

    fn run_modal(&mut self, site: &Site, rule: Rule) -> Result<(), Refusal> {
        let code = self.code_base_shear(site)?;
        let (floors, modes) = (self.floors(), self.modes());

        // L of storey 1 and M, for each mode.
        let mut sums = [(0, 0); MAX_MODES];
        for ((lever, mass), mode) in sums.iter_mut().zip(modes) {
            for (floor, &ordinate) in floors.iter().zip(&mode.ordinates) {
                let moment = i64::from(floor.weight) * i64::from(ordinate);
                *lever += moment;
                *mass += (moment * i64::from(ordinate)) as u64;
            }
        }
        let sums = &sums[..modes.len()];
        let reached: u64 = sums
            .iter()
            .map(|&(lever, mass)| modal_weight(lever, lever, mass))
            .sum();
        ensure(
            10 * reached >= 9 * u64::from(self.total),
            Ground::ModalWeightShort,
            reached,
        )?;

        // The shears, mode by mode and from the roof down, so that L of each
        // storey is a running sum. No rule looks at a sign, so sizes are
        // enough: `groups` has the sizes of the group of modes at hand, added
        // up, and `squares` the squares of the groups before it.
        let mut groups = [0; MAX_FLOORS];
        let mut squares = [0; MAX_FLOORS];
        for (k, (mode, &(first, mass))) in modes.iter().zip(sums).enumerate() {
            let acceleration = site.acceleration(u32::from(mode.period));
            let mut lever = 0;
            let ordinates = &mode.ordinates[..floors.len()];
            let rows = groups[..floors.len()].iter_mut().zip(floors).zip(ordinates);
            for ((group, floor), &ordinate) in rows.rev() {
                lever += i64::from(floor.weight) * i64::from(ordinate);
                *group += acceleration.of(modal_weight(first, lever, mass));
            }
            let joined = modes
                .get(k + 1)
                .is_none_or(|next| rule.joins(mode.period, next.period));
            if !joined {
                for (square, group) in squares.iter_mut().zip(&mut groups) {
                    *square += *group * *group;
                    *group = 0;
                }
            }
        }
        let combined = |storey: usize| {
            let group: u64 = groups[storey];
            if rule.is_absolute() {
                group
            } else {
                nearest_root(squares[storey] + group * group)
            }
        };

        let base = combined(0);
        ensure(base > 0 || code == 0, Ground::NoCombinedShear, 0u32)?;
        if base < code {
            self.put(|storey| nearest(combined(storey) * code, base));
        } else {
            self.put(combined);
        }
        Ok(())
    }

    /// Puts design shears on the sheet, and their differences as forces.
    fn put(&mut self, shear_of: impl Fn(usize) -> u64) {
        let mut above = 0;
        for (index, storey) in self.storeys[..self.floor_count]
            .iter_mut()
            .enumerate()
            .rev()
        {
            let shear = shear_of(index);
            *storey = Storey {
                shear,
                force: shear as i64 - above as i64,
            };
            above = shear;
        }
        self.stands = true;
    }
}

/// The size of a storey's modal weight.
fn modal_weight(first: i64, lever: i64, mass: u64) -> u64 {
    nearest((first * lever).unsigned_abs(), mass)
}

// -------------------------------------------------------------------- desk

struct Desk {
    site: Option<Site>,
    sheet: Sheet,
}

impl Desk {
    fn take(&mut self, bytes: &[u8]) -> Result<(), Refusal> {
        let record = Record::read(bytes)?;
        let sheet = &mut self.sheet;
        match (record, &self.site) {
            (Record::Site { values, base }, None) => {
                self.site = Some(Site::new(values, base)?);
                Ok(())
            }
            (Record::Site { .. }, Some(_)) | (_, None) => Err(Ground::SiteOrder.at(0u32)),
            (Record::Floor { height, weight }, _) => sheet.floor(height, weight),
            (Record::Reweigh { floor, weight }, _) => sheet.reweigh(floor, weight),
            (
                Record::Mode {
                    period,
                    count,
                    ordinates,
                },
                _,
            ) => sheet.mode(period, count, ordinates),
            (Record::Strike { mode }, _) => sheet.strike(mode),
            (Record::Static, Some(site)) => sheet.run_static(site),
            (Record::Modal { rule }, Some(site)) => sheet.run_modal(site, Rule::new(rule)?),
        }
    }

    fn print(&self, output: &mut impl Write) -> io::Result<()> {
        let Some(storeys) = self.sheet.storeys() else {
            return writeln!(output, "none");
        };
        writeln!(output, "base {}", storeys[0].shear)?;
        for (index, storey) in storeys.iter().enumerate().rev() {
            writeln!(output, "{} {} {}", index + 1, storey.shear, storey.force)?;
        }
        Ok(())
    }
}

// ----------------------------------------------------------------- program

/// Reads up to a whole record; fewer bytes than that mean the deck's end.
fn read_record(input: &mut impl Read, record: &mut [u8; RECORD]) -> io::Result<usize> {
    let mut length = 0;
    while length < RECORD {
        match input.read(&mut record[length..]) {
            Ok(0) => break,
            Ok(more) => length += more,
            Err(error) if error.kind() == io::ErrorKind::Interrupted => {}
            Err(error) => return Err(error),
        }
    }
    Ok(length)
}

fn run() -> io::Result<()> {
    let mut input = BufReader::with_capacity(BUFFER, io::stdin().lock());
    let mut output = BufWriter::with_capacity(BUFFER, io::stdout().lock());
    let mut desk = Desk {
        site: None,
        sheet: Sheet::new(),
    };
    let mut record = [0; RECORD];
    for number in 1u64.. {
        let length = read_record(&mut input, &mut record)?;
        if length == 0 {
            break;
        }
        if let Err(Refusal { ground, place }) = desk.take(&record[..length]) {
            writeln!(output, "refused {number} {} {place}", ground as u8)?;
        }
    }
    desk.print(&mut output)?;
    output.flush()
}

fn main() -> ExitCode {
    match run() {
        Ok(()) => ExitCode::SUCCESS,
        Err(error) => {
            eprintln!("plain: {error}");
            ExitCode::FAILURE
        }
    }
}
