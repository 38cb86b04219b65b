//! How long one valuation takes, proved and in floating point: the same formulas on the same figures.
//! Nothing is kept from one valuation to the next on either side.
use std::hint::black_box;
use std::time::Instant;

// The sum of the lower numbers of one promise that is valued a number of times: interest, instalments, benefit, age, times.
type Dotselm = extern "C" fn(u32, u32, u32, u32, u32) -> u64;

unsafe extern "C" {
    safe fn dotselm_on_table(
        interest: u32,
        instalments: u32,
        benefit: u32,
        age: u32,
        times: u32,
    ) -> u64;

    safe fn dotselm_on_line(
        interest: u32,
        instalments: u32,
        benefit: u32,
        age: u32,
        times: u32,
    ) -> u64;
}

const AGES: usize = 121;
const CERTAIN: u32 = 1_000_000;
const AMOUNT: u32 = 12_000;
const TERMS: Terms = Terms {
    interest: 400,
    instalments: 12,
};

// In each round both sides have their turn at each benefit; the median round counts.
const ROUNDS: usize = 31;
const TIMES: u32 = 500;

// ---- Figures

#[derive(Clone, Copy)]
enum Kind {
    Invalidity,
    ActiveDeath,
    InvalidDeath,
    PopulationDeath,
    WidowDeath,
    Married,
    SpouseAge,
}

impl Kind {
    const ALL: [Kind; 7] = [
        Kind::Invalidity,
        Kind::ActiveDeath,
        Kind::InvalidDeath,
        Kind::PopulationDeath,
        Kind::WidowDeath,
        Kind::Married,
        Kind::SpouseAge,
    ];

    fn count(self, final_age: usize) -> usize {
        match self {
            Kind::Invalidity | Kind::ActiveDeath => final_age,
            _ => AGES,
        }
    }
}

trait Basis {
    fn final_age(&self) -> usize;

    // 0 at an age that the list has not
    fn figure(&self, kind: Kind, age: usize) -> u32;
}

struct Line {
    final_age: usize,
    invalidity: u32,
}

impl Basis for Line {
    fn final_age(&self) -> usize {
        self.final_age
    }

    fn figure(&self, kind: Kind, age: usize) -> u32 {
        if age >= kind.count(self.final_age) {
            return 0;
        }
        match kind {
            Kind::Invalidity => self.invalidity,
            Kind::Married => 800_000,
            Kind::SpouseAge => (age as u32).saturating_sub(3),
            _ => CERTAIN / (AGES - age) as u32,
        }
    }
}

struct Table {
    final_age: usize,
    rows: [[u32; AGES]; 7],
}

impl Table {
    fn of(basis: &impl Basis) -> Table {
        Table {
            final_age: basis.final_age(),
            rows: Kind::ALL.map(|kind| std::array::from_fn(|age| basis.figure(kind, age))),
        }
    }
}

impl Basis for Table {
    fn final_age(&self) -> usize {
        self.final_age
    }

    fn figure(&self, kind: Kind, age: usize) -> u32 {
        if age >= kind.count(self.final_age) {
            return 0;
        }
        self.rows[kind as usize][age]
    }
}

// ---- Promises

#[derive(Clone, Copy)]
enum Benefit {
    Retired,
    Population,
    Invalid,
    Widow,
    RetiredWidow,
    PopulationWidow,
    InvalidWidow,
    Active,
    ActiveRetirement,
    ActiveInvalidity,
    ActiveInvalidityRetirement,
    ActiveDeathWidow,
    ActiveRetiredWidow,
    ActiveOrRetiredWidow,
    ActiveInvalidWidow,
    ActiveWidow,
}

// Each with its name and the age at which it is valued, in the order of the proved list.
const BENEFITS: [(Benefit, &str, usize); 16] = [
    (Benefit::Retired, "r", 65),
    (Benefit::Population, "g", 20),
    (Benefit::Invalid, "i", 20),
    (Benefit::Widow, "w", 20),
    (Benefit::RetiredWidow, "rw", 65),
    (Benefit::PopulationWidow, "gw", 20),
    (Benefit::InvalidWidow, "iw", 20),
    (Benefit::Active, "a", 20),
    (Benefit::ActiveRetirement, "aA", 20),
    (Benefit::ActiveInvalidity, "ai", 20),
    (Benefit::ActiveInvalidityRetirement, "aiA", 20),
    (Benefit::ActiveDeathWidow, "caaw", 20),
    (Benefit::ActiveRetiredWidow, "aAw", 20),
    (Benefit::ActiveOrRetiredWidow, "aaw", 20),
    (Benefit::ActiveInvalidWidow, "aiw", 20),
    (Benefit::ActiveWidow, "aw", 20),
];

impl Benefit {
    fn span(self, final_age: usize, age: usize) -> usize {
        match self {
            Benefit::Retired
            | Benefit::Population
            | Benefit::Invalid
            | Benefit::Widow
            | Benefit::RetiredWidow
            | Benefit::PopulationWidow
            | Benefit::InvalidWidow => AGES - age,
            _ => final_age + 1 - age,
        }
    }
}

// ---- Values in floating point

#[derive(Clone, Copy)]
struct Terms {
    interest: u32,
    instalments: u32,
}

// A value at each age, and 0 past the last.
type Column = [f64; AGES + 1];

struct Columns {
    widows: Column,
    others: Column,
}

#[derive(Clone, Copy)]
enum Level {
    Annuities,
    Pensions,
    Widows,
}

struct Model<'a, B> {
    basis: &'a B,
    discount: f64,
    loss: f64,
}

fn half(q: f64) -> f64 {
    if q == 1.0 {
        return 0.0;
    }
    (1.0 - q) / (1.0 - q / 2.0)
}

impl<B: Basis> Model<'_, B> {
    fn new(basis: &B, terms: Terms) -> Model<'_, B> {
        let interest = terms.interest as f64 / 10_000.0;
        let t = terms.instalments as f64;
        let parts = (0..terms.instalments).map(|m| m as f64 / (t + m as f64 * interest));
        Model {
            basis,
            discount: 1.0 / (1.0 + interest),
            loss: (1.0 + interest) / t * parts.sum::<f64>(),
        }
    }

    fn chance(&self, kind: Kind, age: usize) -> f64 {
        self.basis.figure(kind, age) as f64 / CERTAIN as f64
    }

    fn goes_on(&self, kind: Kind, age: usize) -> f64 {
        self.discount * (1.0 - self.chance(kind, age))
    }

    fn stays_on(&self, age: usize) -> f64 {
        let leaving = self.chance(Kind::Invalidity, age) + self.chance(Kind::ActiveDeath, age);
        self.discount * (1.0 - leaving)
    }

    fn paid(&self, survival: f64) -> f64 {
        1.0 - self.loss * (1.0 - survival)
    }

    fn to_next_year(&self, kind: Kind, age: usize) -> f64 {
        self.discount * half(self.chance(kind, age))
    }

    fn wid(&self, widows: &Column, y: usize) -> f64 {
        self.to_next_year(Kind::WidowDeath, y) * widows[y + 1]
    }

    fn left(&self, widows: &Column, age: usize) -> f64 {
        let spouse = self.basis.figure(Kind::SpouseAge, age) as usize;
        self.chance(Kind::Married, age) * self.wid(widows, spouse)
    }

    fn widowed(&self, widows: &Column, kind: Kind, age: usize) -> f64 {
        self.chance(kind, age) * self.left(widows, age)
    }

    fn level_share(&self, widows: &Column, kind: Kind, level: Level, age: usize) -> f64 {
        match level {
            Level::Annuities => 1.0,
            Level::Pensions => self.paid(self.goes_on(kind, age)),
            Level::Widows => self.widowed(widows, kind, age),
        }
    }

    fn fill(&self, kind: Kind, column: &mut Column, share: impl Fn(usize) -> f64) {
        let mut later = 0.0;
        for age in (0..AGES).rev() {
            later = share(age) + self.goes_on(kind, age) * later;
            column[age] = later;
        }
    }

    fn fill_widows(&self, columns: &mut Columns) {
        self.fill(Kind::WidowDeath, &mut columns.widows, |_| 1.0);
    }

    fn fill_others(&self, kind: Kind, level: Level, columns: &mut Columns) {
        let Columns { widows, others } = columns;
        self.fill(kind, others, |age| {
            self.level_share(widows, kind, level, age)
        });
    }

    fn level_at_final(&self, level: Level, columns: &mut Columns) -> f64 {
        self.fill_others(Kind::PopulationDeath, level, columns);
        columns.others[self.basis.final_age()]
    }

    // Fills the columns that an active's benefit reads; the answer is what it is worth at the final age.
    fn prepare(&self, benefit: Benefit, columns: &mut Columns) -> f64 {
        match benefit {
            Benefit::ActiveRetirement => self.level_at_final(Level::Pensions, columns),
            Benefit::ActiveInvalidity => {
                self.fill_others(Kind::InvalidDeath, Level::Annuities, columns);
                0.0
            }
            Benefit::ActiveInvalidityRetirement => {
                let at_final = self.level_at_final(Level::Pensions, columns);
                self.fill_others(Kind::InvalidDeath, Level::Annuities, columns);
                at_final
            }
            Benefit::ActiveDeathWidow => {
                self.fill_widows(columns);
                0.0
            }
            Benefit::ActiveRetiredWidow | Benefit::ActiveOrRetiredWidow => {
                self.fill_widows(columns);
                self.level_at_final(Level::Widows, columns)
            }
            Benefit::ActiveInvalidWidow => {
                self.fill_widows(columns);
                self.fill_others(Kind::InvalidDeath, Level::Widows, columns);
                0.0
            }
            Benefit::ActiveWidow => {
                self.fill_widows(columns);
                let at_final = self.level_at_final(Level::Widows, columns);
                self.fill_others(Kind::InvalidDeath, Level::Widows, columns);
                at_final
            }
            _ => 0.0,
        }
    }

    fn turning_invalid(&self, annuities: &Column, age: usize) -> f64 {
        let pension = self.to_next_year(Kind::InvalidDeath, age) * annuities[age + 1];
        self.chance(Kind::Invalidity, age) * pension
    }

    fn turning_invalid_widow(&self, columns: &Columns, age: usize) -> f64 {
        let survives = half(self.chance(Kind::InvalidDeath, age));
        let later = self.discount * survives * columns.others[age + 1];
        let same_year = (1.0 - survives) * self.left(&columns.widows, age);
        self.chance(Kind::Invalidity, age) * (later + same_year)
    }

    fn share_below(&self, columns: &Columns, benefit: Benefit, age: usize) -> f64 {
        match benefit {
            Benefit::Active => self.paid(self.stays_on(age)),
            Benefit::ActiveInvalidity | Benefit::ActiveInvalidityRetirement => {
                self.turning_invalid(&columns.others, age)
            }
            Benefit::ActiveDeathWidow | Benefit::ActiveOrRetiredWidow => {
                self.widowed(&columns.widows, Kind::ActiveDeath, age)
            }
            Benefit::ActiveInvalidWidow => self.turning_invalid_widow(columns, age),
            Benefit::ActiveWidow => {
                self.widowed(&columns.widows, Kind::ActiveDeath, age)
                    + self.turning_invalid_widow(columns, age)
            }
            _ => 0.0,
        }
    }

    fn along_life(
        &self,
        kind: Kind,
        level: Level,
        age: usize,
        amounts: &[u32],
        columns: &mut Columns,
    ) -> f64 {
        if let Level::Widows = level {
            self.fill_widows(columns);
        }
        run(
            amounts,
            |year| self.goes_on(kind, age + year),
            |year| self.level_share(&columns.widows, kind, level, age + year),
        )
    }

    fn along_active(
        &self,
        benefit: Benefit,
        age: usize,
        amounts: &[u32],
        columns: &mut Columns,
    ) -> f64 {
        let final_age = self.basis.final_age();
        let at_final = self.prepare(benefit, columns);
        run(
            amounts,
            |year| self.stays_on(age + year),
            |year| {
                if age + year >= final_age {
                    return at_final;
                }
                self.share_below(columns, benefit, age + year)
            },
        )
    }

    fn sum_of(&self, benefit: Benefit, age: usize, amounts: &[u32], columns: &mut Columns) -> f64 {
        let (kind, level) = match benefit {
            Benefit::Retired | Benefit::Population => (Kind::PopulationDeath, Level::Pensions),
            Benefit::Invalid => (Kind::InvalidDeath, Level::Pensions),
            Benefit::Widow => (Kind::WidowDeath, Level::Pensions),
            Benefit::RetiredWidow | Benefit::PopulationWidow => {
                (Kind::PopulationDeath, Level::Widows)
            }
            Benefit::InvalidWidow => (Kind::InvalidDeath, Level::Widows),
            _ => return self.along_active(benefit, age, amounts, columns),
        };
        self.along_life(kind, level, age, amounts, columns)
    }
}

fn run(amounts: &[u32], survival: impl Fn(usize) -> f64, share: impl Fn(usize) -> f64) -> f64 {
    let mut later = 0.0;
    for (year, amount) in amounts.iter().enumerate().rev() {
        later = *amount as f64 * share(year) + survival(year) * later;
    }
    later
}

// In cents. The black boxes keep the loop from knowing that it does the same again.
#[inline(never)]
fn repeat<B: Basis>(basis: &B, benefit: Benefit, age: usize, times: u32) -> f64 {
    let amounts = [AMOUNT; AGES];
    let years = benefit.span(basis.final_age(), age);
    let mut columns = Columns {
        widows: [0.0; AGES + 1],
        others: [0.0; AGES + 1],
    };
    let mut sum = 0.0;
    for _ in 0..times {
        let model = Model::new(black_box(basis), black_box(TERMS));
        let amounts = black_box(&amounts[..years]);
        sum += model.sum_of(black_box(benefit), black_box(age), amounts, &mut columns);
    }
    100.0 * sum
}

// ---- Measuring

// Microseconds for one of a round's valuations.
fn time<T>(round: impl Fn(u32) -> T) -> f64 {
    let start = Instant::now();
    black_box(round(black_box(TIMES)));
    start.elapsed().as_secs_f64() * 1e6 / TIMES as f64
}

fn median(times: &mut [f64]) -> f64 {
    times.sort_by(f64::total_cmp);
    times[times.len() / 2]
}

fn compare<B: Basis>(basis: &B, dotselm: Dotselm) {
    let proved = |place: usize, times| {
        let terms = black_box(TERMS);
        let age = BENEFITS[place].2 as u32;
        dotselm(terms.interest, terms.instalments, place as u32, age, times)
    };
    let floating = |place: usize, times| {
        let (benefit, _, age) = BENEFITS[place];
        repeat(basis, benefit, age, times)
    };
    let mut slow = BENEFITS.map(|_| Vec::new());
    let mut fast = BENEFITS.map(|_| Vec::new());
    for _ in 0..ROUNDS {
        for place in 0..BENEFITS.len() {
            slow[place].push(time(|times| proved(place, times)));
            fast[place].push(time(|times| floating(place, times)));
        }
    }
    println!("benefit  age  Dotselm us   f64 us  ratio  Dotselm cents      f64 cents");
    for (place, (_, name, age)) in BENEFITS.into_iter().enumerate() {
        let (slow, fast) = (median(&mut slow[place]), median(&mut fast[place]));
        let (lower, cents) = (proved(place, 1), floating(place, 1));
        let ratio = slow / fast;
        println!(
            "{name:<7}  {age:>3}  {slow:>10.2}  {fast:>7.2}  {ratio:>5.1}  {lower:>13}  {cents:>13.2}"
        );
        assert!((cents.floor() - lower as f64).abs() <= 1.0, "{name}");
    }
}

fn main() {
    let line = |invalidity| Line {
        final_age: 65,
        invalidity,
    };
    println!("On the table basis, with no invalidity:");
    compare(&Table::of(&line(0)), dotselm_on_table);
    println!("\nOn the straight line, with invalidity:");
    compare(&line(5_000), dotselm_on_line);
}
