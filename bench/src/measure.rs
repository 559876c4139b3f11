//! Routes through the same job, timed in turn, and what their times say.

use std::hint::black_box;

use crate::clock;

/// A route runs the given number of times and says how many nanoseconds it took.
pub struct Route<'a> {
    pub label: &'static str,
    run: Box<dyn FnMut(usize) -> f64 + 'a>,
}

impl<'a> Route<'a> {
    /// All of the work is timed.
    pub fn new<T>(label: &'static str, mut work: impl FnMut() -> T + 'a) -> Route<'a> {
        let run = move |times| {
            clock::time(|| {
                for _ in 0..times {
                    black_box(work());
                }
            })
        };
        Route { label, run: Box::new(run) }
    }

    /// The work eats what it is given: that is made before the clock runs, and the results go after it has stopped.
    pub fn eating<I, T>(label: &'static str, make: impl Fn() -> I + 'a, work: impl Fn(I) -> T + 'a) -> Route<'a> {
        let run = move |times| {
            let given: Vec<I> = (0..times).map(|_| make()).collect();
            let mut results = Vec::with_capacity(times);
            clock::time(|| {
                for one in given {
                    results.push(black_box(work(black_box(one))));
                }
            })
        };
        Route { label, run: Box::new(run) }
    }

    pub fn run(&mut self, times: usize) -> f64 {
        (self.run)(times)
    }

    /// How often it must run for a sample of about the given number of nanoseconds.
    fn times_for(&mut self, sample: f64) -> usize {
        let mut times = 1;
        loop {
            let took = self.run(times).min(self.run(times));
            if took >= sample / 4.0 || times >= 1 << 20 {
                return ((times as f64 * sample / took).ceil() as usize).max(1);
            }
            times *= 2;
        }
    }
}

/// The times of one run of a route, one for each round.
pub struct Times {
    pub label: &'static str,
    all: Vec<f64>,
}

/// A median and the quartiles around it.
#[derive(Clone, Copy)]
pub struct Spread {
    pub low: f64,
    pub median: f64,
    pub high: f64,
}

impl Spread {
    fn of(mut values: Vec<f64>) -> Spread {
        values.sort_by(f64::total_cmp);
        let at = |part: f64| values[((values.len() - 1) as f64 * part).round() as usize];
        Spread { low: at(0.25), median: at(0.5), high: at(0.75) }
    }
}

impl Times {
    pub fn spread(&self) -> Spread {
        Spread::of(self.all.clone())
    }

    /// How much of another's time, round by round: the two stood next to each other in time.
    pub fn part_of(&self, other: &Times) -> Spread {
        Spread::of(self.all.iter().zip(&other.all).map(|(own, other)| own / other).collect())
    }
}

pub struct Effort {
    pub rounds: usize,
    /// Nanoseconds of one sample.
    pub sample: f64,
}

/// Round by round, each route in its turn.
pub fn in_turn(routes: &mut [Route], effort: &Effort) -> Vec<Times> {
    let times: Vec<usize> = routes.iter_mut().map(|route| route.times_for(effort.sample)).collect();
    let mut all: Vec<Times> = routes.iter().map(|route| Times { label: route.label, all: Vec::new() }).collect();
    for _ in 0..effort.rounds {
        for (at, route) in routes.iter_mut().enumerate() {
            all[at].all.push(route.run(times[at]) / times[at] as f64);
        }
    }
    all
}
