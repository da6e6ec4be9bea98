//! The lines of `pef list`.

use core::fmt;

use crate::error::Error;
use crate::raw;

/// The lines that `pef list` prints of a container, read by [`std::io::Read`], or by [`read_part`](Self::read_part).
///
/// Each line is made once, whatever the size of the buffer, and no more of them are in memory than a few kilobytes. Buffers of 64 KB are
/// the fastest.
///
/// ```
/// use std::io::Read;
///
/// let bytes = pef::link("versions 3 2 1\n")?;
/// let mut lines = String::new();
/// pef::Listing::open(&bytes)?.read_to_string(&mut lines)?;
/// assert_eq!(lines.lines().next(), Some("container current 3 olddef 2 oldimp 1 date 0"));
/// # Ok::<(), Box<dyn std::error::Error>>(())
/// ```
///
/// A listing is over before its container is:
///
/// ```compile_fail,E0505
/// let bytes = pef::link("versions 3 2 1\n").unwrap();
/// let mut listing = pef::Listing::open(&bytes).unwrap();
/// drop(bytes);
/// listing.read_part(&mut [0]).unwrap();
/// ```
pub struct Listing<'a>(raw::Listing<'a>);

impl<'a> Listing<'a> {
    /// Opens the listing of a container.
    ///
    /// # Errors
    ///
    /// 1 to 20 for a damaged container, 31 to 36 for a damaged program, and 99.
    pub fn open(bytes: &'a [u8]) -> Result<Self, Error> {
        match raw::Listing::open(bytes) {
            Ok(it) => Ok(Self(it)),
            Err(number) => Err(Error::of_container(number, bytes)),
        }
    }

    /// Writes the next bytes to the front of a buffer, as many as fit, and returns how many these are: fewer than fit only at the end.
    ///
    /// # Errors
    ///
    /// 99, and then the next call goes on where this one began.
    pub fn read_part(&mut self, buffer: &mut [u8]) -> Result<usize, Error> {
        self.0.next(buffer).map_err(Error::new)
    }
}

#[cfg(feature = "std")]
impl std::io::Read for Listing<'_> {
    fn read(&mut self, buffer: &mut [u8]) -> std::io::Result<usize> {
        Ok(self.read_part(buffer)?)
    }
}

impl fmt::Debug for Listing<'_> {
    fn fmt(&self, out: &mut fmt::Formatter<'_>) -> fmt::Result {
        out.debug_struct("Listing").finish_non_exhaustive()
    }
}
