//! The random number generator of the cases, written out here so that a seed gives the same cases on every
//! machine; and work done in numbered parts, each with numbers of its own, so that the cases are the same however
//! the parts fall to the threads.

use std::sync::atomic::{AtomicUsize, Ordering};
use std::sync::Mutex;

pub const SEED: u64 = 20_240_615;
const THREADS: usize = 2;

/// The generator splitmix64.
pub struct Rng(u64);

impl Rng {
    pub fn new(seed: u64) -> Rng {
        Rng(seed)
    }

    /// The numbers of one part.
    pub fn of_part(part: usize) -> Rng {
        Rng::new(Rng::new(SEED + part as u64).draw())
    }

    pub fn draw(&mut self) -> u64 {
        self.0 = self.0.wrapping_add(0x9e37_79b9_7f4a_7c15);
        let mixed = (self.0 ^ (self.0 >> 30)).wrapping_mul(0xbf58_476d_1ce4_e5b9);
        let mixed = (mixed ^ (mixed >> 27)).wrapping_mul(0x94d0_49bb_1331_11eb);
        mixed ^ (mixed >> 31)
    }

    /// A number from 0 to just below the bound: the drawn number over 2^64, times the bound.
    pub fn below(&mut self, bound: u64) -> u64 {
        ((u128::from(self.draw()) * u128::from(bound)) >> 64) as u64
    }

    pub fn between(&mut self, low: i64, high: i64) -> i64 {
        low + self.below((high - low + 1) as u64) as i64
    }

    /// A length or an index from 0 to the last.
    pub fn up_to(&mut self, last: usize) -> usize {
        self.below(last as u64 + 1) as usize
    }

    pub fn one_in(&mut self, times: u64) -> bool {
        self.below(times) == 0
    }

    pub fn pick<T: Copy>(&mut self, from: &[T]) -> T {
        from[self.below(from.len() as u64) as usize]
    }
}

/// Does the parts until one fails, and hands back what each gave or the first failure.
pub fn in_parts<T: Send>(
    parts: usize,
    work: impl Fn(usize) -> Result<T, String> + Sync,
) -> Result<Vec<T>, String> {
    let next = AtomicUsize::new(0);
    let done = Mutex::new(Ok(Vec::new()));
    let one_thread = || loop {
        let part = next.fetch_add(1, Ordering::Relaxed);
        if part >= parts {
            return;
        }
        let result = work(part);
        let mut all = done.lock().unwrap();
        match (&mut *all, result) {
            (Ok(given), Ok(result)) => given.push(result),
            (Ok(_), Err(message)) => {
                next.store(parts, Ordering::Relaxed);
                *all = Err(message);
            }
            (Err(_), _) => return,
        }
    };
    std::thread::scope(|scope| {
        for _ in 0..THREADS {
            scope.spawn(one_thread);
        }
    });
    done.into_inner().unwrap()
}

#[cfg(test)]
mod tests {
    use super::*;

    /// The first numbers of splitmix64 from seed 1234567, as its authors' program gives them.
    #[test]
    fn draws_as_splitmix64() {
        let mut rng = Rng::new(1_234_567);
        let drawn: Vec<u64> = (0..2).map(|_| rng.draw()).collect();
        assert_eq!(
            drawn,
            [6_457_827_717_110_365_317, 3_203_168_211_198_807_973]
        );
    }

    #[test]
    fn does_every_part_once_or_hands_back_a_failure() {
        let done = in_parts(100, Ok).unwrap();
        assert_eq!((done.len(), done.iter().sum::<usize>()), (100, 4_950));
        let odd = |part: usize| (part != 7).then_some(part).ok_or("seven".to_string());
        assert_eq!(in_parts(100, odd), Err("seven".to_string()));
    }
}
