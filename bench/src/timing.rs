//! Processor times of two jobs taken by turns: other work on the machine is not counted, and what it does to the caches meets
//! both alike.

use crate::clock::processor_time;

/// Seconds that one call takes: medians over the samples.
#[derive(Clone, Copy)]
pub struct Times {
    pub library: f64,
    pub plain: f64,
}

impl Times {
    pub fn ratio(self) -> f64 {
        self.library / self.plain
    }

    /// The times of one where a job has `count` of them, pictures or calls.
    pub fn of_one_in(self, count: usize) -> Times {
        Times { library: self.library / count as f64, plain: self.plain / count as f64 }
    }
}

/// How many samples a time is the median of.
pub const SAMPLES: usize = 21;

/// A sample is as many calls as fill this many seconds.
const SAMPLE: f64 = 400e-6;

/// Times both jobs, by turns, with the order changed from sample to sample.
pub fn compare(mut library: impl FnMut(), mut plain: impl FnMut()) -> Times {
    let calls = calls_in_a_sample(&mut library).max(calls_in_a_sample(&mut plain));
    let mut times = (Vec::new(), Vec::new());
    for sample in 0..SAMPLES {
        if sample % 2 == 0 {
            times.0.push(time(calls, &mut library));
            times.1.push(time(calls, &mut plain));
        } else {
            times.1.push(time(calls, &mut plain));
            times.0.push(time(calls, &mut library));
        }
    }
    Times { library: median(times.0), plain: median(times.1) }
}

/// The calls that fill a sample, found by doubling; these calls also warm the caches.
fn calls_in_a_sample(job: &mut impl FnMut()) -> u32 {
    let mut calls = 1;
    while time(calls, job) * f64::from(calls) < SAMPLE {
        calls *= 2;
    }
    calls
}

/// Seconds a call, over a number of calls.
fn time(calls: u32, job: &mut impl FnMut()) -> f64 {
    let began = processor_time();
    for _ in 0..calls {
        job();
    }
    (processor_time() - began) / f64::from(calls)
}

fn median(mut times: Vec<f64>) -> f64 {
    times.sort_by(f64::total_cmp);
    times[times.len() / 2]
}
