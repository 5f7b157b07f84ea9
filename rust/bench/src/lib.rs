//! What the benches share: the state of the machine, the rounds that are timed,
//! how deep a call goes into its stack, and the library's calls under measure.

#[cfg(feature = "doors")]
pub mod calls;
pub mod growth;
pub mod machine;
#[cfg(feature = "doors")]
pub mod measure;
#[cfg(feature = "doors")]
pub mod opened;
pub mod rounds;
pub mod stack;

use std::time::Duration;

pub fn median(mut times: Vec<Duration>) -> Duration {
    times.sort();
    times[times.len() / 2]
}
