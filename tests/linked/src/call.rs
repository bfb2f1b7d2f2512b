//! What every call of the library has in common.

use crate::guarded::Area;

/// The number given back, then the call's counts; words that it does not have are 0.
pub type Answer = [u32; 5];

/// The name of an area, and what is not as expected there.
pub type Difference = (&'static str, Option<String>);

/// A call: all that it is lent, and what became of it once the call is made. Two are equal if no
/// lent word or guard differs.
pub trait Call: Clone + PartialEq {
    /// By what number host.c knows it.
    const NUMBER: u32;

    /// The lent memory, in the order of the call's parameters; at most four areas.
    fn areas(&mut self) -> Vec<&mut dyn Area>;

    /// The one number that is no lent memory (watch's i, the list run's rewrites).
    fn argument(&self) -> u32 {
        0
    }

    /// Lets the library make the call, in this process.
    #[cfg(target_arch = "x86_64")]
    fn make_linked(&mut self) -> Answer;

    /// Lets the second implementation make the call.
    fn make_second(&mut self) -> Answer;

    /// Each area beside the expected one; what is written to comes first.
    fn differences(&self, expected: &Self) -> Vec<Difference>;
}

/// What is not as expected of a call that was made, for a message.
pub fn difference<C: Call>(made: (&C, Answer), expected: (&C, Answer)) -> Option<String> {
    if made.1 != expected.1 {
        return Some(format!("answer {:?} and not {:?}", made.1, expected.1));
    }
    if made.0 == expected.0 {
        return None;
    }
    let areas = made.0.differences(expected.0).into_iter();
    areas.filter_map(|(area, what)| Some(format!("{area}: {}", what?))).next()
}
