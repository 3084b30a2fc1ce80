//! Medians of interleaved rounds, in the CPU time of this thread, so that other programs on the
//! machine disturb little.

/// About how long each side runs in one round, in ns.
const ROUND: f64 = 250_000.0;
/// About how long the rounds may take for each that was asked for, in ns; there are fewer where
/// one call takes longer, but not fewer than `LEAST`.
const SHARE: f64 = 5_000_000.0;
const LEAST: usize = 11;

/// Median ns of one call of the Rust's, of ours, and of what is timed beside them.
#[derive(Clone, Copy)]
pub struct Times {
    pub rust: f64,
    pub ours: f64,
    pub beside: f64,
}

impl Times {
    /// Nothing is timed beside.
    pub fn of_two([rust, ours]: [f64; 2]) -> Times {
        Times {
            rust,
            ours,
            beside: 0.0,
        }
    }

    pub fn of_three([rust, ours, beside]: [f64; 3]) -> Times {
        Times { rust, ours, beside }
    }

    /// What `Display` wrote.
    pub fn parse(text: &str) -> Option<Times> {
        let numbers: Result<Vec<f64>, _> = text.split_whitespace().map(str::parse).collect();
        numbers.ok()?.try_into().ok().map(Times::of_three)
    }

    pub fn ratio(&self) -> f64 {
        self.rust / self.ours
    }
}

impl std::fmt::Display for Times {
    fn fmt(&self, f: &mut std::fmt::Formatter) -> std::fmt::Result {
        write!(f, "{} {} {}", self.rust, self.ours, self.beside)
    }
}

/// The median time in ns of one run of each side; the sides take turns in every round, and are told
/// its number.
pub fn medians<const N: usize>(rounds: usize, mut sides: [&mut dyn FnMut(usize); N]) -> [f64; N] {
    let counts = sides.each_mut().map(|side| calls_a_round(side));
    let mut times = [const { Vec::new() }; N];
    let mut spent = 0.0;
    while times[0].len() < rounds.min(LEAST)
        || (times[0].len() < rounds && spent < rounds as f64 * SHARE)
    {
        for (i, side) in sides.iter_mut().enumerate() {
            let each = time(side, times[i].len(), counts[i]);
            spent += each * counts[i] as f64;
            times[i].push(each);
        }
    }
    times.map(|mut side| {
        side.sort_by(f64::total_cmp);
        side[side.len() / 2]
    })
}

/// How many calls last about a round; two runs of the side come before its first round.
fn calls_a_round(side: &mut dyn FnMut(usize)) -> usize {
    let first = time(side, 0, 1);
    let each = time(side, 0, count_of(first).min(1000));
    count_of(each)
}

fn count_of(each: f64) -> usize {
    ((ROUND / each) as usize).clamp(1, 100_000)
}

fn time(side: &mut dyn FnMut(usize), round: usize, count: usize) -> f64 {
    let start = now();
    for _ in 0..count {
        side(round);
    }
    (now() - start) as f64 / count as f64
}

/// The CPU time that this thread has had, in ns.
fn now() -> i64 {
    let mut time = [0, 0];
    // SAFETY: a timespec is two numbers of 64 bits on 64-bit Linux, seconds and ns.
    let failed = unsafe { clock_gettime(CLOCK_THREAD_CPUTIME_ID, &mut time) };
    assert_eq!(failed, 0, "clock_gettime");
    time[0] * 1_000_000_000 + time[1]
}

/// Memory that is freed stays with the process, so that no call of the Rust's waits for the system.
pub fn keep_memory() {
    // SAFETY: the numbers are those of glibc's malloc.h, and 32 MB is the most that it takes.
    let kept = unsafe {
        [
            mallopt(M_TRIM_THRESHOLD, i32::MAX),
            mallopt(M_MMAP_THRESHOLD, 32 << 20),
        ]
    };
    assert_eq!(kept, [1, 1], "mallopt");
}

const CLOCK_THREAD_CPUTIME_ID: i32 = 3;
const M_TRIM_THRESHOLD: i32 = -1;
const M_MMAP_THRESHOLD: i32 = -3;

unsafe extern "C" {
    fn clock_gettime(clock: i32, time: *mut [i64; 2]) -> i32;
    fn mallopt(what: i32, value: i32) -> i32;
}
