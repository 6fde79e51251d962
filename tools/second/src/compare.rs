//! One question asked of both, the model and the library. What holds for every call alike stands here: refusal
//! 12 comes last, a refused call changes nothing that it was lent, what lies past a result is kept, and what is
//! lent for reading is unchanged.

use crate::ask::Ask;
use crate::corners::{length, LENGTHS};
use crate::coverage::Coverage;
use crate::model::{refuse_if, Rectangle, Refusal};
use crate::rng::Rng;

/// What answers a question and leaves its results in the buffers lent to it: the library, or one with a fault.
pub type Library<'a> = dyn Fn(&mut Ask, &mut Lent) -> u64 + Sync + 'a;

/// The library that is asked, the numbers that are drawn, and what has come up.
pub struct Trial<'a> {
    pub library: &'a Library<'a>,
    pub rng: Rng,
    pub coverage: Coverage,
}

impl Trial<'_> {
    /// Asks both, and hands back what both stored, where they accepted. A disagreement is told in words.
    pub fn ask(&mut self, ask: &Ask) -> Result<Option<Stored>, String> {
        let model = ask.by_model();
        let before = self.lend(ask, &model);
        let model = model.and_then(|stored| stored.fits(&before).map(|()| stored));
        let expected = Outcome::expected(ask, &model, before.clone());
        let (mut lent_for_reading, mut after) = (ask.clone(), before);
        let answer = (self.library)(&mut lent_for_reading, &mut after);
        let got = Outcome { answer, after };
        if got != expected || lent_for_reading != *ask {
            return Err(format!(
                "asked {ask:?}\nthe model: {}\nthe library: {}\nwhat was lent for reading: {lent_for_reading:?}",
                expected.words(),
                got.words()
            ));
        }
        self.coverage.count(ask, &model);
        Ok(model.ok())
    }

    /// Buffers about as long as the result, or of any length where the call is refused.
    fn lend(&mut self, ask: &Ask, model: &Result<Stored, Refusal>) -> Lent {
        let rng = &mut self.rng;
        let buffers = (0..ask.buffers()).map(|k| {
            let length = match model {
                Ok(stored) => length(rng, stored.buffers[k].len()),
                Err(_) => rng.pick(&LENGTHS),
            };
            Buffer::new(length, rng.draw() as u8)
        });
        Lent {
            buffers: buffers.collect(),
            flag: rng.draw() as u32,
        }
    }
}

/// An answer, and the buffers after it.
#[derive(PartialEq)]
struct Outcome {
    answer: u64,
    after: Lent,
}

impl Outcome {
    /// A refusal's number in the low 32 bits and its place in the high ones; on success 0, with the results in
    /// front of the buffers.
    fn expected(ask: &Ask, model: &Result<Stored, Refusal>, mut after: Lent) -> Outcome {
        let answer = match model {
            Ok(stored) => {
                for (buffer, words) in after.buffers.iter_mut().zip(&stored.buffers) {
                    buffer.words[..words.len()].copy_from_slice(words);
                }
                after.flag = stored.flag.unwrap_or(after.flag);
                0
            }
            Err(Refusal { number, place }) => {
                let place = if ask.has_places() { *place as u64 } else { 0 };
                (place << 32) | u64::from(*number)
            }
        };
        Outcome { answer, after }
    }

    fn words(&self) -> String {
        let (number, place) = (self.answer as u32, self.answer >> 32);
        let said = match self.answer {
            0 => "accepted".to_string(),
            _ => format!("refused {number} at {place}"),
        };
        format!("{said}, and left {:?}", self.after)
    }
}

/// What an accepted call stores in front of its buffers, and in the number lent for its flag or for what it
/// found.
#[derive(Clone, PartialEq, Debug)]
pub struct Stored {
    pub buffers: Vec<Vec<i64>>,
    pub flag: Option<u32>,
}

impl Stored {
    pub fn one(words: Vec<i64>) -> Stored {
        Stored {
            buffers: vec![words],
            flag: None,
        }
    }

    pub fn with_flag(buffers: Vec<Vec<i64>>, flag: u32) -> Stored {
        let flag = Some(flag);
        Stored { buffers, flag }
    }

    /// The four sides in front of a buffer.
    pub fn rectangle(&self) -> Rectangle {
        std::array::from_fn(|side| self.buffers[0][side])
    }

    /// Whether a call said that nothing was rounded.
    pub fn is_exact(&self) -> bool {
        self.flag == Some(1)
    }

    /// Refusal 12, where a buffer is shorter than its result.
    fn fits(&self, lent: &Lent) -> Result<(), Refusal> {
        let mut pairs = self.buffers.iter().zip(&lent.buffers);
        let short = pairs.find(|(words, buffer)| buffer.length < words.len());
        refuse_if(
            short.is_some(),
            12,
            short.map_or(0, |(words, _)| words.len()),
        )
    }
}

/// Buffers as they are before a call or after it, and the number beside them.
#[derive(Clone, PartialEq, Debug)]
pub struct Lent {
    pub buffers: Vec<Buffer>,
    pub flag: u32,
}

/// The words lent, and behind them some that are not lent.
#[derive(Clone, PartialEq, Debug)]
pub struct Buffer {
    pub words: Vec<i64>,
    pub length: usize,
}

/// How many words behind those lent are watched.
const BEHIND: usize = 3;

impl Buffer {
    /// So many words. What they hold begins with a byte and changes from word to word.
    pub fn new(length: usize, first: u8) -> Buffer {
        let words = (0..length + BEHIND).map(|k| i64::from(first.wrapping_add(k as u8)));
        Buffer {
            words: words.collect(),
            length,
        }
    }

    fn typed<T: Word>(&self) -> Vec<T> {
        self.words.iter().map(|word| T::of(*word)).collect()
    }
}

/// A number as it stands in a buffer of its type.
pub trait Word: Copy {
    fn of(word: i64) -> Self;
    fn word(self) -> i64;
}

macro_rules! whole_words {
    ($($whole:ty),*) => {$(
        impl Word for $whole {
            fn of(word: i64) -> $whole {
                word as $whole
            }
            fn word(self) -> i64 {
                self.into()
            }
        }
    )*};
}
whole_words!(i32, u32, u8);

impl Word for f32 {
    fn of(word: i64) -> f32 {
        f32::from_bits(word as u32)
    }
    fn word(self) -> i64 {
        self.to_bits().into()
    }
}

impl Lent {
    /// Lends the one buffer as words of a type, and the flag.
    pub fn one<T: Word>(&mut self, call: impl FnOnce(&mut [T], &mut u32) -> u64) -> u64 {
        let buffer = &mut self.buffers[0];
        let mut typed = buffer.typed();
        let answer = call(&mut typed[..buffer.length], &mut self.flag);
        buffer.words = typed.into_iter().map(T::word).collect();
        answer
    }

    /// Lends both buffers, each as words of a type, and the flag.
    pub fn two<T: Word, U: Word>(
        &mut self,
        call: impl FnOnce(&mut [T], &mut [U], &mut u32) -> u64,
    ) -> u64 {
        let [first, second] = &mut self.buffers[..] else {
            unreachable!("a call with two buffers");
        };
        let (mut one, mut other) = (first.typed(), second.typed());
        let lent = (&mut one[..first.length], &mut other[..second.length]);
        let answer = call(lent.0, lent.1, &mut self.flag);
        first.words = one.into_iter().map(T::word).collect();
        second.words = other.into_iter().map(U::word).collect();
        answer
    }
}
