//! One job done by both sides on the same inputs.
use std::fmt::Debug;
use std::hint::black_box;

#[derive(Clone, Copy)]
pub enum Side {
    Ours,
    Other,
}

pub const SIDES: [Side; 2] = [Side::Ours, Side::Other];

pub trait Pair {
    /// Calls one side on every input, so many times over.
    fn run(&mut self, side: Side, passes: usize);
    /// Panics where the last answers of the two sides differ.
    fn compare(&self);
    /// The number of inputs.
    fn calls(&self) -> usize;
}

struct Jobs<I, A, F, G> {
    inputs: Vec<I>,
    answers: [Vec<A>; 2],
    ours: F,
    other: G,
}

/// The closures get an input and the place for the answer, which is kept for the comparison.
pub fn pair<I: 'static, A: Default + Debug + PartialEq + 'static>(
    inputs: Vec<I>,
    ours: impl Fn(&I, &mut A) + 'static,
    other: impl Fn(&I, &mut A) + 'static,
) -> Box<dyn Pair> {
    let answers = SIDES.map(|_| inputs.iter().map(|_| A::default()).collect());
    Box::new(Jobs { inputs, answers, ours, other })
}

// One copy for each side's closure, so that no call goes through a pointer.
fn repeat<I, A>(passes: usize, inputs: &[I], answers: &mut [A], job: impl Fn(&I, &mut A)) {
    for _ in 0..passes {
        for (input, answer) in inputs.iter().zip(answers.iter_mut()) {
            job(black_box(input), black_box(answer));
        }
    }
}

impl<I, A: Debug + PartialEq, F: Fn(&I, &mut A), G: Fn(&I, &mut A)> Pair for Jobs<I, A, F, G> {
    fn run(&mut self, side: Side, passes: usize) {
        let answers = &mut self.answers[side as usize];
        match side {
            Side::Ours => repeat(passes, &self.inputs, answers, &self.ours),
            Side::Other => repeat(passes, &self.inputs, answers, &self.other),
        }
    }

    fn compare(&self) {
        let [ours, other] = &self.answers;
        for (a, b) in ours.iter().zip(other) {
            assert_eq!(a, b, "ours and the other's answer");
        }
    }

    fn calls(&self) -> usize {
        self.inputs.len()
    }
}
