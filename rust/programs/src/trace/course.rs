//! Where a message came from.

use crate::net::Course;

/// A server, or the file that has the message, of which it is not known how it was asked for.
#[derive(Clone, Debug)]
pub struct Source {
    pub server: String,
    pub course: Option<Course>,
}

impl Source {
    /// Whether the message came by TCP.
    pub fn is_by_tcp(&self) -> bool {
        self.course.as_ref().map_or(false, |it| it.by_tcp)
    }
}
