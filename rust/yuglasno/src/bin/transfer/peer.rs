//! The panel as the commands see it: a session over its link.
use crate::check::is_nothing;
use crate::stop::{Stop, NOT_THERE};
use yuglasno::{Details, Link, Session, Shown};

pub struct Peer<'a> {
    pub session: &'a mut Session<Vec<u8>>,
    pub link: &'a mut dyn Link,
}

impl Peer<'_> {
    /// The numbers of a file. v1 has no error code: there, what is not there is all zeros.
    pub fn details(&mut self, path: &[u8]) -> Result<Details, Stop> {
        let details = self.session.details(self.link, path).map_err(|e| Stop::from(e).about(Shown(path)))?;
        if is_nothing(&details) {
            return Err(Stop::new(NOT_THERE, Shown(path), "it is not there (mode, size and mtime are all 0)"));
        }
        Ok(details)
    }
}
