//! Builds of the library as shared objects.

use crate::object::Object;

#[repr(C)]
pub struct ReadAnswer {
    pub number: u32,
    pub place: usize,
    pub episodes: usize,
    pub links: usize,
}

#[repr(C)]
pub struct Answer {
    pub number: u32,
    pub value: usize,
}

/// A service of a build, as the header declares it.
#[derive(Clone, Copy)]
pub enum Function {
    Reading(unsafe extern "C" fn(*const u32, usize) -> ReadAnswer),
    Lending(unsafe extern "C" fn(*const u32, usize, *mut u32, usize, *mut u32, usize) -> Answer),
    Counting(unsafe extern "C" fn(*const u32, usize) -> Answer),
}

impl Function {
    /// A call. It gives the figures of the answer, the number first.
    pub fn call(self, log: &[u32], out: &mut [u32], work: &mut [u32]) -> [usize; 4] {
        match self {
            Function::Reading(read) => {
                // SAFETY: the pointer and the length are those of a slice.
                let answer = unsafe { read(log.as_ptr(), log.len()) };
                [answer.number as usize, answer.place, answer.episodes, answer.links]
            }
            Function::Lending(lending) => {
                // SAFETY: the pointers and the lengths are those of three slices, and no two of them share a word.
                let answer =
                    unsafe { lending(log.as_ptr(), log.len(), out.as_mut_ptr(), out.len(), work.as_mut_ptr(), work.len()) };
                [answer.number as usize, answer.value, 0, 0]
            }
            Function::Counting(count) => {
                // SAFETY: the pointer and the length are those of a slice.
                let answer = unsafe { count(log.as_ptr(), log.len()) };
                [answer.number as usize, answer.value, 0, 0]
            }
        }
    }

    fn address(self) -> usize {
        match self {
            Function::Reading(read) => read as usize,
            Function::Lending(lending) => lending as usize,
            Function::Counting(count) => count as usize,
        }
    }
}

/// The services that are measured, as commands name them.
pub const SERVICES: [&str; 5] = ["read", "report", "fair-copy", "trimmed-copy", "links"];

/// The functions of a build, in this order. Before version 0.5.0 there was no link count, and such a build has one fewer.
pub type Build = Vec<Function>;

fn functions(path: &str) -> Result<Build, String> {
    let object = Object::open(path)?;
    // SAFETY: these are the types that the header gives the functions.
    unsafe {
        let mut build = vec![
            Function::Reading(object.function(c"zohapy_read")?),
            Function::Lending(object.function(c"zohapy_report")?),
            Function::Lending(object.function(c"zohapy_fair_copy")?),
            Function::Lending(object.function(c"zohapy_trimmed_copy")?),
        ];
        build.extend(object.function(c"zohapy_links").map(Function::Counting));
        Ok(build)
    }
}

/// The build at `path`. The program ends where there is none.
pub fn open(path: &str) -> Build {
    functions(path).unwrap_or_else(|error| {
        eprintln!("{error}");
        std::process::exit(1)
    })
}

/// Whether the builds have no function in common.
pub fn are_two([old, new]: &[Build; 2]) -> bool {
    old.iter().zip(new).all(|(old, new)| old.address() != new.address())
}
