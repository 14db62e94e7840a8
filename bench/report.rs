// The report of a plan, straight from the definitions of docs/analysis.md, in plain Rust: tick by tick over a cycle for slots, sure
// ticks and block, and span by span for delay and held bytes. It takes a well-formed plan, and is here only to be compared with.
use std::io::Read;

const MAX_SPAN: usize = 4_000_000;

enum Flow {
    Bucket { burst: u64, num: u64, den: u64 },
    Periodic { bytes: u64, period: u64, jitter: u64 },
}

struct Plan {
    port: u64,
    cycle: usize,
    open: Vec<[bool; 8]>,
    hold: [usize; 8],
    flows: Vec<(usize, Flow)>,
}

fn field(line: &str) -> &str {
    line.split_once('=').expect("a line has an equals sign").1
}

fn number(text: &str) -> u64 {
    text.parse().expect("a number")
}

fn read(text: &str) -> Plan {
    let mut lines = text.lines();
    let mut next = || field(lines.next().expect("a line"));
    let port = number(next());
    let cycle = number(next()) as usize;
    let mut open = Vec::with_capacity(cycle);
    for _ in 0..number(next()) {
        let (length, letters) = next().split_once(',').expect("two fields");
        let mut gates = [false; 8];
        for (i, letter) in letters.bytes().enumerate() {
            gates[7 - i] = letter == b'O';
        }
        for _ in 0..number(length) {
            open.push(gates);
        }
    }
    let mut hold = [0; 8];
    for _ in 0..8 {
        let fields: Vec<&str> = next().split(',').collect();
        hold[number(fields[0]) as usize] = number(fields[1]) as usize;
    }
    let mut flows = Vec::new();
    for _ in 0..number(next()) {
        let fields: Vec<&str> = next().split(',').collect();
        let (a, b, c) = (number(fields[2]), number(fields[3]), number(fields[4]));
        let flow = match fields[1] {
            "b" => Flow::Bucket { burst: a, num: b, den: c },
            _ => Flow::Periodic { bytes: a, period: b, jitter: c },
        };
        flows.push((number(fields[0]) as usize, flow));
    }
    Plan { port, cycle, open, hold, flows }
}

impl Plan {
    fn is_open(&self, class: usize, tick: usize) -> bool {
        self.open[tick % self.cycle][class]
    }

    fn is_clear(&self, class: usize, tick: usize) -> bool {
        let gates = &self.open[tick % self.cycle];
        gates[class] && !gates[class + 1..].iter().any(|&open| open)
    }

    // How many ticks from `tick` on pass in a row, `most` at the most.
    fn lasts(&self, tick: usize, most: usize, passes: impl Fn(usize) -> bool) -> usize {
        (0..most).take_while(|&i| passes(tick + i)).count()
    }

    fn slots(&self, class: usize) -> Vec<(usize, usize)> {
        let (cycle, hold) = (self.cycle, self.hold[class]);
        if hold == 0 {
            return Vec::new();
        }
        if (0..cycle).all(|t| self.is_clear(class, t)) {
            return vec![(0, cycle)];
        }
        let mut slots = Vec::new();
        for a in 0..cycle {
            if !self.is_clear(class, a) || self.is_clear(class, a + cycle - 1) {
                continue;
            }
            let run = self.lasts(a, cycle, |t| self.is_clear(class, t));
            let open = self.lasts(a, cycle + hold, |t| self.is_open(class, t));
            let wait = (0..class)
                .filter(|&k| self.hold[k] > 0 && self.is_open(k, a + cycle - 1))
                .map(|k| self.lasts(a, self.hold[k] - 1, |t| self.is_open(k, t)))
                .max()
                .unwrap_or(0);
            let usable = run.min((open + 1).saturating_sub(hold));
            if usable > wait {
                slots.push(((a + wait) % cycle, usable - wait));
            }
        }
        slots.sort();
        slots
    }

    fn alpha(&self, class: usize, span: usize) -> u64 {
        let span = span as u64;
        let of = |flow: &Flow| match flow {
            Flow::Bucket { burst, num, den } => burst + num * span / den,
            Flow::Periodic { bytes, period, jitter } => bytes * (span + jitter).div_ceil(*period),
        };
        self.flows.iter().filter(|f| f.0 == class).map(|f| of(&f.1)).sum()
    }
}

// The least number of sure ticks in any window: every window has at least as many as one that begins right behind a slot.
struct Curve {
    cycle: usize,
    sure: usize,
    block: usize,
    before: Vec<usize>,
    ends: Vec<usize>,
}

impl Curve {
    fn at(&self, span: usize) -> u64 {
        let (whole, rest) = (span / self.cycle, span % self.cycle);
        let least = self.ends.iter().map(|&e| self.before[e + rest] - self.before[e]).min().unwrap_or(0);
        (whole * self.sure + least).saturating_sub(self.block) as u64
    }
}

fn bound(plan: &Plan, class: usize, curve: &Curve) -> Result<(usize, u64), u32> {
    if !plan.flows.iter().any(|f| f.0 == class) {
        return Err(41);
    }
    if curve.sure == 0 {
        return Err(42);
    }
    let (mut x, mut delay, mut held) = (0, 0, 0);
    for span in 1..=MAX_SPAN {
        let bytes = plan.alpha(class, span);
        while x <= MAX_SPAN && curve.at(x) < bytes {
            x += 1;
        }
        if x > MAX_SPAN {
            return Err(43);
        }
        delay = delay.max(x - (span - 1));
        held = held.max(bytes - curve.at(span - 1));
        if x <= span {
            return Ok((delay, held));
        }
    }
    Err(43)
}

fn main() {
    let mut text = String::new();
    std::io::stdin().read_to_string(&mut text).expect("a plan");
    let plan = read(&text);
    println!("port={}", plan.port);
    for class in (0..8).rev() {
        let slots = plan.slots(class);
        let mut sure = vec![false; plan.cycle];
        for &(begin, length) in &slots {
            for t in begin..begin + length {
                sure[t % plan.cycle] = true;
            }
        }
        let opens = |k: usize| (0..plan.cycle).any(|t| sure[t] && plan.is_open(k, t));
        let block = (0..class).filter(|&k| plan.hold[k] > 0 && opens(k)).map(|k| plan.hold[k] - 1).max().unwrap_or(0);
        let mut before = vec![0; 2 * plan.cycle + 1];
        for t in 0..2 * plan.cycle {
            before[t + 1] = before[t] + sure[t % plan.cycle] as usize;
        }
        let ends = slots.iter().map(|s| (s.0 + s.1) % plan.cycle).collect();
        let curve = Curve { cycle: plan.cycle, sure: before[plan.cycle], block, before, ends };
        println!("class={class}\nslots={}\nsure={}\nblock={}", slots.len(), curve.sure, block);
        match bound(&plan, class, &curve) {
            Ok((delay, held)) => println!("delay={delay}\nheld={held}"),
            Err(number) => println!("none={number}"),
        }
    }
}
