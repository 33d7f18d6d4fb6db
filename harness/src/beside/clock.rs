//! CPU time of this process, and times of two programs measured by turns.

#[repr(C)]
struct TimeSpec {
    seconds: i64,
    nanoseconds: i64,
}

extern "C" {
    fn clock_gettime(clock: i32, time: &mut TimeSpec) -> i32;
}

const PROCESS_CPU_TIME: i32 = 2;

const FEWEST_ROUNDS: usize = 3;
const MOST_ROUNDS: usize = 7;
/// Seconds after which no round is begun beyond the fewest.
const LONG: f64 = 0.2;

/// Seconds of CPU time that this process has taken.
pub fn cpu_time() -> f64 {
    let mut time = TimeSpec { seconds: 0, nanoseconds: 0 };
    // SAFETY: the time is written, nothing else is touched.
    let failed = unsafe { clock_gettime(PROCESS_CPU_TIME, &mut time) };
    assert_eq!(failed, 0, "no clock of CPU time");
    time.seconds as f64 + time.nanoseconds as f64 * 1e-9
}

/// Seconds that one call takes, from enough calls to fill `least` seconds.
fn seconds_of(least: f64, calls: &mut u32, run: &mut impl FnMut()) -> f64 {
    loop {
        let start = cpu_time();
        for _ in 0..*calls {
            run();
        }
        let taken = cpu_time() - start;
        if taken >= least {
            return taken / f64::from(*calls);
        }
        let factor = if taken > 0.0 { (1.2 * least / taken).ceil() } else { 16.0 };
        *calls = (f64::from(*calls) * factor.clamp(2.0, 16.0)) as u32;
    }
}

/// The seconds that one call of each takes: the medians of rounds in which both are measured by turns. Calls that take
/// long have fewer rounds, since a single one is measured well.
pub fn by_turns(least: f64, mut first: impl FnMut(), mut second: impl FnMut()) -> (f64, f64) {
    let (mut first_calls, mut second_calls) = (1, 1);
    let (mut firsts, mut seconds) = (Vec::new(), Vec::new());
    let start = cpu_time();
    while firsts.len() < FEWEST_ROUNDS || (firsts.len() < MOST_ROUNDS && cpu_time() - start < LONG) {
        firsts.push(seconds_of(least, &mut first_calls, &mut first));
        seconds.push(seconds_of(least, &mut second_calls, &mut second));
    }
    (median(firsts), median(seconds))
}

/// The seconds that one call takes.
pub fn alone(least: f64, mut run: impl FnMut()) -> f64 {
    let mut calls = 1;
    median((0..MOST_ROUNDS).map(|_| seconds_of(least, &mut calls, &mut run)).collect())
}

fn median(mut times: Vec<f64>) -> f64 {
    times.sort_by(f64::total_cmp);
    times[times.len() / 2]
}
