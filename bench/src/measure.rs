//! Alternating runs: in every round each rival runs once, in turn, and the round's ratio is what counts.

#[repr(C)]
struct Timespec {
    seconds: i64,
    nanoseconds: i64,
}

extern "C" {
    fn clock_gettime(clock: i32, time: *mut Timespec) -> i32;
}

/// Seconds of processor time that this process has used (CLOCK_PROCESS_CPUTIME_ID of Linux).
fn used() -> f64 {
    let mut time = Timespec {
        seconds: 0,
        nanoseconds: 0,
    };
    assert_eq!(unsafe { clock_gettime(2, &mut time) }, 0);
    time.seconds as f64 + time.nanoseconds as f64 * 1e-9
}

/// One of those who run: its name, and the run with the number of an input.
pub struct Rival<'a> {
    pub name: &'static str,
    pub run: Box<dyn FnMut(usize) + 'a>,
}

impl<'a> Rival<'a> {
    pub fn new(name: &'static str, run: impl FnMut(usize) + 'a) -> Rival<'a> {
        Rival {
            name,
            run: Box::new(run),
        }
    }

    fn time(&mut self, input: usize, repeats: usize) -> f64 {
        let start = used();
        for _ in 0..repeats {
            (self.run)(input);
        }
        (used() - start) / repeats as f64
    }
}

/// The least processor time of one sample, so that the clock's own cost does not count.
const SAMPLE: f64 = 0.002;

fn median(values: &[f64]) -> f64 {
    let mut sorted = values.to_vec();
    sorted.sort_by(f64::total_cmp);
    sorted[sorted.len() / 2]
}

/// Runs the rivals in turn and prints, for each but the first, the first one's time as a multiple of its own in every round:
/// `what, rival, ratios` with tabs between, the ratios apart by blanks. The inputs' numbers go round below `inputs`.
pub fn contest(what: &str, rounds: usize, inputs: usize, mut rivals: Vec<Rival>) {
    let mut repeats = Vec::new();
    for rival in &mut rivals {
        let mut count = 1;
        let mut time = rival.time(0, 1);
        while time * (count as f64) < SAMPLE {
            count *= 2;
            time = rival.time(0, count);
        }
        repeats.push(count);
    }
    let mut times = vec![Vec::new(); rivals.len()];
    for round in 0..rounds {
        for turn in 0..rivals.len() {
            let who = (round + turn) % rivals.len();
            times[who].push(rivals[who].time(round % inputs, repeats[who]));
        }
    }
    for who in 1..rivals.len() {
        let ratios = times[0]
            .iter()
            .zip(&times[who])
            .map(|(own, other)| format!("{:.4}", own / other));
        println!("{what}\t{}\t{}", rivals[who].name, ratios.collect::<Vec<_>>().join(" "));
    }
    if std::env::var_os("BENCH_TIMES").is_some() {
        for (rival, times) in rivals.iter().zip(&times) {
            eprintln!("{what}: {} {:.2} us", rival.name, median(times) * 1e6);
        }
    }
}
