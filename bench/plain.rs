//! The job of the program `runsheet` in plain Rust: what others may measure themselves against. It is written from the rules
//! and shares nothing with the crates.
//!
//!     rustc -O --edition 2021 bench/plain.rs

use std::io::{self, Read, Write};

const LONGEST_TEXT: usize = 65_536;
const MOST_SPEED: u32 = 1_600;
const MOST_PULL: u32 = 1_000_000;
const MOST_PLACE: u32 = 4_000_000;
const PULL_PERCENT: u32 = 90;

fn main() -> io::Result<()> {
    let mut text = Vec::with_capacity(LONGEST_TEXT + 1);
    let input = io::stdin().lock();
    input.take(LONGEST_TEXT as u64 + 1).read_to_end(&mut text)?;
    let mut out = Vec::new();
    match read_run(&text) {
        Ok(run) => {
            for (k, question) in run.questions.iter().enumerate() {
                put_answer(&mut out, k as u64 + 1, run.answer(question));
            }
        }
        Err(fault) => put_fault(&mut out, &fault),
    }
    io::stdout().write_all(&out)
}

// ---- printing

fn put_number(out: &mut Vec<u8>, mut number: u64) {
    let mut digits = [0; 20];
    let mut start = digits.len();
    loop {
        start -= 1;
        digits[start] = b'0' + (number % 10) as u8;
        number /= 10;
        if number == 0 {
            break;
        }
    }
    out.extend_from_slice(&digits[start..]);
}

fn put_answer(out: &mut Vec<u8>, question: u64, answer: Result<Answer, No>) {
    put_number(out, question);
    match answer {
        Ok(answer) => {
            out.extend_from_slice(b" OK ");
            match answer {
                Answer::Stop(stop) => {
                    put_number(out, stop.distance);
                    out.push(b' ');
                    put_number(out, stop.least_force);
                    out.push(b' ');
                    put_number(out, stop.steps);
                }
                Answer::Speed(speed) => put_number(out, speed.into()),
                Answer::Mass(mass) => put_number(out, mass),
            }
        }
        Err(No(number)) => {
            out.extend_from_slice(b" NO ");
            put_number(out, number.into());
        }
    }
    out.push(b'\n');
}

fn put_fault(out: &mut Vec<u8>, fault: &Fault) {
    let layer: &[u8] = match fault.no.0 {
        15 | 16 => b"TEXT",
        14 => b"LAW",
        _ => b"SHEET",
    };
    out.extend_from_slice(b"FAULT ");
    out.extend_from_slice(layer);
    out.push(b' ');
    put_number(out, fault.line);
    out.push(b' ');
    put_number(out, fault.no.0.into());
    out.push(b'\n');
}

// ---- what a run file holds

/// The number of a refusal.
#[derive(Clone, Copy)]
struct No(u32);

const UNLAWFUL_VEHICLE: No = No(1);
const UNLAWFUL_SECTION: No = No(4);
const UNLAWFUL_DISTANCE: No = No(6);
const OUT_OF_RANGE: No = No(7);
const NO_LOCOMOTIVE: No = No(8);
const LINE_TOO_SHORT: No = No(9);
const WEAK_BRAKES: No = No(10);
const WEAK_FORCE: No = No(11);
const TOO_LONG: No = No(12);
const TOO_HEAVY: No = No(13);
const UNLAWFUL_TABLE: No = No(14);
const MALFORMED: No = No(15);
const WRONG_COUNT: No = No(16);

struct Fault {
    line: u64,
    no: No,
}

struct Run {
    /// T and c of the kind of brake.
    delay: (u64, u64),
    braking_distance: u32,
    points: Vec<Point>,
    vehicles: Vec<Vehicle>,
    sections: Vec<Section>,
    questions: Vec<Question>,
}

struct Point {
    speed: u32,
    pull: u32,
}

struct Vehicle {
    is_locomotive: bool,
    mass: u32,
    pressure: u32,
    brake_is_in: bool,
}

struct Section {
    length: u32,
    gradient: i32,
    curve: u32,
    radius: u32,
    is_stop: bool,
}

enum Question {
    Stop { place: u32, speed: u32, factor: u32 },
    Speed { place: u32, factor: u32 },
    Mass { speed: u32, mass_per_wagon: u32 },
}

enum Answer {
    Stop(Stop),
    Speed(u32),
    Mass(u64),
}

// ---- reading

/// The lines of a text, taken one after another.
struct Lines<'a> {
    rest: &'a [u8],
    /// How many have been taken, the one that is wanting included.
    line: u64,
}

fn read_run(text: &[u8]) -> Result<Run, Fault> {
    if text.len() > LONGEST_TEXT {
        return Err(Fault {
            line: 1,
            no: WRONG_COUNT,
        });
    }
    let mut lines = Lines {
        rest: text,
        line: 0,
    };
    let run = lines.read_run();
    run.map_err(|no| Fault {
        line: lines.line,
        no,
    })
}

impl<'a> Lines<'a> {
    fn read_run(&mut self) -> Result<Run, No> {
        self.heading(b"RUN", 1, 1)?;
        let (delay, braking_distance) = read_brake(self.next()?)?;

        let count = self.heading(b"PUL", 1, 16)?;
        let mut points: Vec<Point> = Vec::with_capacity(count);
        for _ in 0..count {
            let point = read_point(self.next()?, points.last())?;
            points.push(point);
        }
        let vehicles = self.entries(b"VEH", 120, read_vehicle)?;
        let sections = self.entries(b"SEC", 200, read_section)?;
        let questions = self.entries(b"ASK", 200, read_question)?;
        if !self.rest.is_empty() {
            self.line += 1;
            return Err(WRONG_COUNT);
        }
        Ok(Run {
            delay,
            braking_distance,
            points,
            vehicles,
            sections,
            questions,
        })
    }

    fn next(&mut self) -> Result<&'a [u8], No> {
        self.line += 1;
        match self.rest.iter().position(|&byte| byte == b'\n') {
            Some(end) => {
                let line = &self.rest[..end];
                self.rest = &self.rest[end + 1..];
                Ok(line)
            }
            None if self.rest.is_empty() => Err(WRONG_COUNT),
            None => Err(MALFORMED),
        }
    }

    fn heading(&mut self, name: &[u8], least: u32, most: u32) -> Result<usize, No> {
        let mut fields = Fields::of(self.next()?);
        if fields.next()? != name {
            return Err(MALFORMED);
        }
        let count = fields.number()?;
        fields.end()?;
        if count < least || count > most {
            return Err(WRONG_COUNT);
        }
        Ok(count as usize)
    }

    fn entries<T>(
        &mut self,
        name: &[u8],
        most: u32,
        read: impl Fn(&[u8]) -> Result<T, No>,
    ) -> Result<Vec<T>, No> {
        let count = self.heading(name, 0, most)?;
        let mut entries = Vec::with_capacity(count);
        for _ in 0..count {
            entries.push(read(self.next()?)?);
        }
        Ok(entries)
    }
}

/// The fields of a line, parted by single spaces.
struct Fields<'a> {
    rest: Option<&'a [u8]>,
}

impl<'a> Fields<'a> {
    fn of(line: &'a [u8]) -> Self {
        Fields { rest: Some(line) }
    }

    fn next(&mut self) -> Result<&'a [u8], No> {
        let rest = self.rest.ok_or(MALFORMED)?;
        match rest.iter().position(|&byte| byte == b' ') {
            Some(end) => {
                self.rest = Some(&rest[end + 1..]);
                Ok(&rest[..end])
            }
            None => {
                self.rest = None;
                Ok(rest)
            }
        }
    }

    fn letter(&mut self) -> Result<u8, No> {
        match self.next()? {
            &[letter] => Ok(letter),
            _ => Err(MALFORMED),
        }
    }

    fn number(&mut self) -> Result<u32, No> {
        parse_number(self.next()?)
    }

    fn signed(&mut self) -> Result<i32, No> {
        let field = self.next()?;
        match field.strip_prefix(b"-") {
            Some(digits) => match parse_number(digits)? {
                0 => Err(MALFORMED),
                number => Ok(-(number as i32)),
            },
            None => Ok(parse_number(field)? as i32),
        }
    }

    fn end(&self) -> Result<(), No> {
        if self.rest.is_some() {
            Err(MALFORMED)
        } else {
            Ok(())
        }
    }
}

fn parse_number(digits: &[u8]) -> Result<u32, No> {
    if digits.is_empty() || digits.len() > 7 || digits.len() > 1 && digits[0] == b'0' {
        return Err(MALFORMED);
    }
    let mut number = 0;
    for &digit in digits {
        if !digit.is_ascii_digit() {
            return Err(MALFORMED);
        }
        number = 10 * number + u32::from(digit - b'0');
    }
    Ok(number)
}

fn read_brake(line: &[u8]) -> Result<((u64, u64), u32), No> {
    let mut fields = Fields::of(line);
    let delay = match fields.letter()? {
        b'F' => (7, 10),
        b'P' => (4, 5),
        b'E' => (2, 0),
        b'H' => (30, 0),
        b'J' => (60, 0),
        _ => return Err(MALFORMED),
    };
    let distance = fields.number()?;
    fields.end()?;
    if !(400..=4_000).contains(&distance) {
        return Err(UNLAWFUL_DISTANCE);
    }
    Ok((delay, distance))
}

fn read_point(line: &[u8], before: Option<&Point>) -> Result<Point, No> {
    let mut fields = Fields::of(line);
    let point = Point {
        speed: fields.number()?,
        pull: fields.number()?,
    };
    fields.end()?;
    let follows = match before {
        Some(before) => point.speed > before.speed && point.pull <= before.pull,
        None => point.speed == 0,
    };
    if point.speed > MOST_SPEED || point.pull > MOST_PULL || !follows {
        return Err(UNLAWFUL_TABLE);
    }
    Ok(point)
}

fn read_vehicle(line: &[u8]) -> Result<Vehicle, No> {
    let mut fields = Fields::of(line);
    let is_locomotive = match fields.letter()? {
        b'L' => true,
        b'W' => false,
        _ => return Err(MALFORMED),
    };
    let (mass, pressure) = (fields.number()?, fields.number()?);
    let brake_is_in = match fields.letter()? {
        b'0' => false,
        b'1' => true,
        _ => return Err(MALFORMED),
    };
    fields.end()?;
    if !(50..=2_000).contains(&mass) || pressure > mass {
        return Err(UNLAWFUL_VEHICLE);
    }
    Ok(Vehicle {
        is_locomotive,
        mass,
        pressure,
        brake_is_in,
    })
}

fn read_section(line: &[u8]) -> Result<Section, No> {
    let mut fields = Fields::of(line);
    let length = fields.number()?;
    let gradient = fields.signed()?;
    let (curve, radius, stop) = (fields.number()?, fields.number()?, fields.number()?);
    fields.end()?;
    let curve_is_lawful = if curve == 0 {
        radius == 0
    } else {
        curve <= length && (100..=20_000).contains(&radius)
    };
    if !(1..=20_000).contains(&length)
        || !(-400..=400).contains(&gradient)
        || !curve_is_lawful
        || stop > 1
    {
        return Err(UNLAWFUL_SECTION);
    }
    Ok(Section {
        length,
        gradient,
        curve,
        radius,
        is_stop: stop == 1,
    })
}

fn read_question(line: &[u8]) -> Result<Question, No> {
    let mut fields = Fields::of(line);
    let question = match fields.letter()? {
        b'S' => Question::Stop {
            place: fields.number()?,
            speed: fields.number()?,
            factor: fields.number()?,
        },
        b'V' => Question::Speed {
            place: fields.number()?,
            factor: fields.number()?,
        },
        b'M' => Question::Mass {
            speed: fields.number()?,
            mass_per_wagon: fields.number()?,
        },
        _ => return Err(MALFORMED),
    };
    fields.end()?;
    Ok(question)
}

// ---- laws: friction in millionths, pull in kgf, drag in milli

fn cast_iron_below(speed: u64) -> u64 {
    270_000 * (speed + 1_000) / (5 * speed + 1_000)
}

/// The drag of a DF4 as a ratio.
fn df4(speed: u64) -> (u64, u64) {
    (
        100 * 2_280_000 + 10 * 29_300 * speed + 178 * speed * speed,
        100_000,
    )
}

/// The drag of wagons as a ratio.
fn wagon(speed: u64, mass_per_wagon: u64) -> (u64, u64) {
    (100_000 * (speed + 650), 12_000 + 55 * mass_per_wagon)
}

fn below((upper, lower): (u64, u64)) -> u64 {
    upper / lower
}

fn above((upper, lower): (u64, u64)) -> u64 {
    upper.div_ceil(lower)
}

impl Section {
    /// What the curve adds to the grade, as a ratio.
    fn curve_grade(&self) -> (u64, u64) {
        if self.curve == 0 {
            return (0, 1);
        }
        (
            700_000 * u64::from(self.curve),
            u64::from(self.length) * u64::from(self.radius),
        )
    }

    fn low_grade(&self) -> i64 {
        100 * i64::from(self.gradient) + below(self.curve_grade()) as i64
    }

    fn high_grade(&self) -> u64 {
        let grade = 100 * i64::from(self.gradient) + above(self.curve_grade()) as i64;
        grade.max(0) as u64
    }
}

// ---- questions

struct Stop {
    distance: u64,
    least_force: u64,
    steps: u64,
}

/// What a question about stopping reads of the train and of the line.
struct Approach {
    factor: u64,
    locomotives: u64,
    wagons: u64,
    pressure: u64,
    mass_per_wagon: u64,
    lowest_grade: i64,
    delay: (u64, u64),
    braking_distance: u64,
}

impl Run {
    fn answer(&self, question: &Question) -> Result<Answer, No> {
        match *question {
            Question::Stop {
                place,
                speed,
                factor,
            } => {
                if speed > MOST_SPEED {
                    return Err(OUT_OF_RANGE);
                }
                self.approach(place, factor)?
                    .stop(speed.into())
                    .map(Answer::Stop)
            }
            Question::Speed { place, factor } => {
                self.approach(place, factor)?.speed().map(Answer::Speed)
            }
            Question::Mass {
                speed,
                mass_per_wagon,
            } => self.mass(speed, mass_per_wagon).map(Answer::Mass),
        }
    }

    fn approach(&self, place: u32, factor: u32) -> Result<Approach, No> {
        if !(1..=10).contains(&factor) || place > MOST_PLACE {
            return Err(OUT_OF_RANGE);
        }
        let (mut locomotives, mut wagons, mut wagon_count, mut pressure) = (0, 0, 0, 0);
        for vehicle in &self.vehicles {
            let mass = u64::from(vehicle.mass);
            if vehicle.is_locomotive {
                locomotives += mass;
            } else {
                wagons += mass;
                wagon_count += 1;
            }
            if vehicle.brake_is_in {
                pressure += u64::from(vehicle.pressure);
            }
        }
        if locomotives == 0 {
            return Err(NO_LOCOMOTIVE);
        }
        let end = place + self.braking_distance;
        let mut lowest_grade = i64::MAX;
        let mut start = 0;
        for section in &self.sections {
            let stop = start + section.length;
            if start <= end && stop >= place {
                lowest_grade = lowest_grade.min(section.low_grade());
            }
            start = stop;
        }
        if start < end {
            return Err(LINE_TOO_SHORT);
        }
        let mass_per_wagon = if wagon_count == 0 {
            50
        } else {
            u64::div_ceil(wagons, wagon_count)
        };
        Ok(Approach {
            factor: factor.into(),
            locomotives,
            wagons,
            pressure,
            mass_per_wagon,
            lowest_grade,
            delay: self.delay,
            braking_distance: self.braking_distance.into(),
        })
    }

    fn mass(&self, speed: u32, mass_per_wagon: u32) -> Result<u64, No> {
        if speed > MOST_SPEED || !(50..=2_000).contains(&mass_per_wagon) {
            return Err(OUT_OF_RANGE);
        }
        let (mut count, mut locomotives) = (0, 0);
        for vehicle in self.vehicles.iter().filter(|vehicle| vehicle.is_locomotive) {
            count += 1;
            locomotives += u64::from(vehicle.mass);
        }
        if count == 0 {
            return Err(NO_LOCOMOTIVE);
        }
        if self.sections.is_empty() {
            return Err(LINE_TOO_SHORT);
        }
        let way = |pull_speed, drag_speed: u32, extra_grade, coupler: u64| Hauling {
            pull: 10_000 * count * self.pull_below(pull_speed),
            locomotives,
            pulling_drag: above(df4(drag_speed.into())),
            wagon_drag: above(wagon(drag_speed.into(), mass_per_wagon.into())),
            extra_grade,
            coupler: 10_000 * coupler,
        };
        let moving = way(speed, speed, 0, 130_000);
        let starting = way(0, 100, 4_000, 95_000);
        let mut greatest = 100_000;
        for section in &self.sections {
            let grade = section.high_grade();
            greatest = greatest.min(moving.greatest_mass(grade));
            if section.is_stop {
                greatest = greatest.min(starting.greatest_mass(grade));
            }
        }
        match greatest / 500 * 500 {
            0 => Err(TOO_HEAVY),
            mass => Ok(mass),
        }
    }

    /// The pull of one locomotive by the scaled table.
    fn pull_below(&self, speed: u32) -> u64 {
        let pull = match self.points.iter().position(|point| point.speed >= speed) {
            None => 0,
            Some(k) if self.points[k].speed == speed => self.points[k].pull.into(),
            Some(k) => {
                let (from, to) = (&self.points[k - 1], &self.points[k]);
                let lost = u64::from(from.pull - to.pull) * u64::from(speed - from.speed);
                u64::from(from.pull) - lost.div_ceil((to.speed - from.speed).into())
            }
        };
        pull * u64::from(PULL_PERCENT) / 100
    }
}

/// One way of hauling, forces in ten-thousandths of kgf.
struct Hauling {
    pull: u64,
    locomotives: u64,
    pulling_drag: u64,
    wagon_drag: u64,
    extra_grade: u64,
    coupler: u64,
}

impl Hauling {
    /// The greatest mass of wagons, of any figure, that is hauled up a grade.
    fn greatest_mass(&self, grade: u64) -> u64 {
        let grade = grade + self.extra_grade;
        let own = self.locomotives * (self.pulling_drag + grade);
        let left = self.pull.saturating_sub(own).min(self.coupler);
        left / (self.wagon_drag + grade)
    }
}

fn next_edge_below(speed: u64) -> u64 {
    let apart = if speed > 500 { 50 } else { 100 };
    (speed - 1) / apart * apart
}

impl Approach {
    fn mass(&self) -> u64 {
        self.locomotives + self.wagons
    }

    fn brake_force(&self, speed: u64) -> u64 {
        self.factor * self.pressure * cast_iron_below(speed) / (10 * self.mass())
    }

    fn drag(&self, speed: u64) -> u64 {
        let locomotives = self.locomotives * below(df4(speed));
        let wagons = self.wagons * below(wagon(speed, self.mass_per_wagon));
        (locomotives + wagons) / self.mass()
    }

    fn stop(&self, speed: u64) -> Result<Stop, No> {
        let brake_force = self.brake_force(speed);
        if brake_force < 1_000 {
            return Err(WEAK_BRAKES);
        }
        let (seconds, per_fall) = self.delay;
        let fall = (-self.lowest_grade).max(0) as u64;
        let delay = speed * (1_000 * seconds * brake_force + 1_000 * per_fall * fall);
        let mut stop = Stop {
            distance: delay.div_ceil(36 * brake_force),
            least_force: brake_force,
            steps: 0,
        };
        let mut upper = speed;
        while upper > 0 {
            let lower = next_edge_below(upper);
            let force = (self.brake_force(upper) + self.drag(lower)) as i64 + self.lowest_grade;
            if force < 1_000 {
                return Err(WEAK_FORCE);
            }
            let force = force as u64;
            stop.distance += (41_700 * (upper * upper - lower * lower)).div_ceil(force);
            stop.least_force = stop.least_force.min(force);
            stop.steps += 1;
            upper = lower;
        }
        if stop.distance > 1_000 * self.braking_distance {
            return Err(TOO_LONG);
        }
        Ok(stop)
    }

    fn speed(&self) -> Result<u32, No> {
        self.stop(0)?;
        let speeds = (50..=MOST_SPEED).step_by(50);
        Ok(speeds
            .take_while(|&speed| self.stop(speed.into()).is_ok())
            .last()
            .unwrap_or(0))
    }
}
