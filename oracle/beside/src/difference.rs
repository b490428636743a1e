//! What stops a run.

/// Where the library does what the rules do not, in words.
#[derive(Debug)]
pub struct Difference(pub String);

impl Difference {
    /// `Err` unless it is so.
    pub fn unless(so: bool, what: impl FnOnce() -> String) -> Result<(), Difference> {
        if so {
            Ok(())
        } else {
            Err(Difference(what()))
        }
    }
}
