//! The library under test: linked into this process, or in a host program beside it.

mod frame;
mod host;
#[cfg(target_arch = "x86_64")]
pub mod linked;

use std::io;

use crate::call::{Answer, Call};
use host::Host;

pub enum Engine {
    #[cfg(target_arch = "x86_64")]
    Linked,
    Host(Host),
}

impl Engine {
    /// The engine that build.rs has chosen, unless REED_OTHER_HOST names another host program.
    pub fn start() -> io::Result<Engine> {
        let built = option_env!("REED_HOST").map(String::from);
        match std::env::var("REED_OTHER_HOST").ok().or(built) {
            Some(program) => Ok(Engine::Host(Host::start(&program)?)),
            #[cfg(target_arch = "x86_64")]
            None => Ok(Engine::Linked),
            #[cfg(not(target_arch = "x86_64"))]
            None => Err(io::Error::other("build.rs made no host program")),
        }
    }

    pub fn name(&self) -> &'static str {
        match self {
            #[cfg(target_arch = "x86_64")]
            Engine::Linked => "linked",
            Engine::Host(_) => "host",
        }
    }

    /// Makes these calls and gives their answers; an error if the host does not come back from one.
    pub fn make<C: Call>(&mut self, calls: &mut [C]) -> io::Result<Vec<Answer>> {
        match self {
            #[cfg(target_arch = "x86_64")]
            Engine::Linked => Ok(calls.iter_mut().map(C::make_linked).collect()),
            Engine::Host(host) => host.make(calls),
        }
    }
}
