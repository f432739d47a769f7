//! Timing several programs in turn: rounds of samples, medians, ratios within a round.

use std::time::Duration;

/// How many rounds, and how long a sample of one program is.
pub struct Pace {
    rounds: usize,
    sample: Duration,
}

impl Pace {
    /// Half a minute or so in all.
    pub fn quick() -> Pace {
        Pace {
            rounds: 5,
            sample: Duration::from_micros(1_000),
        }
    }

    /// A few minutes in all.
    pub fn full() -> Pace {
        Pace {
            rounds: 21,
            sample: Duration::from_micros(4_000),
        }
    }
}

/// What was measured of a program: ns a call, and its ratio to program 0 in the same round.
pub struct Times {
    pub median: f64,
    pub ratio: f64,
}

/// Times the programs in turn; the round starts with another one each time.
pub fn time(pace: &Pace, programs: usize, mut call: impl FnMut(usize)) -> Vec<Times> {
    let calls: Vec<u32> = (0..programs)
        .map(|program| calls_in_sample(pace, program, &mut call))
        .collect();
    let mut samples = vec![Vec::new(); programs];
    for round in 0..pace.rounds {
        for turn in 0..programs {
            let program = (round + turn) % programs;
            samples[program].push(sample(program, calls[program], &mut call));
        }
    }
    let times = samples.iter().map(|own| {
        let ratios = own.iter().zip(&samples[0]).map(|(own, first)| own / first);
        Times {
            median: median(own.clone()),
            ratio: median(ratios.collect()),
        }
    });
    times.collect()
}

/// How many calls fill a sample; at least one.
fn calls_in_sample(pace: &Pace, program: usize, call: &mut impl FnMut(usize)) -> u32 {
    let mut calls = 1;
    loop {
        let ns = sample(program, calls, call);
        let ns = ns.max(1.0);
        if ns * f64::from(calls) * 4.0 > pace.sample.as_nanos() as f64 {
            return ((pace.sample.as_nanos() as f64 / ns) as u32).max(1);
        }
        calls *= 2;
    }
}

/// ns a call over so many calls.
fn sample(program: usize, calls: u32, call: &mut impl FnMut(usize)) -> f64 {
    let start = processor_time();
    for _ in 0..calls {
        call(program);
    }
    (processor_time() - start) as f64 / f64::from(calls)
}

/// The middle one of some numbers.
fn median(mut numbers: Vec<f64>) -> f64 {
    numbers.sort_by(f64::total_cmp);
    numbers[numbers.len() / 2]
}

/// ns that this thread has had of a processor: what other work takes meanwhile doesn't count.
fn processor_time() -> i64 {
    extern "C" {
        fn clock_gettime(clock: i32, time: *mut [i64; 2]) -> i32;
    }
    const THREAD_PROCESSOR_TIME: i32 = 3;
    let mut time = [0; 2];
    let failed = unsafe { clock_gettime(THREAD_PROCESSOR_TIME, &mut time) };
    assert_eq!(failed, 0, "Linux on a 64-bit processor has this clock");
    time[0] * 1_000_000_000 + time[1]
}
