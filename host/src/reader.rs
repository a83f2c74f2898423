//! A sheet that comes in parts.
use crate::calls;
use crate::refusal::Refusal;
use crate::sheet::Sheet;
use std::fmt;
use std::io;

/// The bytes that a reader has: two words, and one place more than the longest sheet has bytes.
const SIZE: usize = 17_301;

/// A reader of a sheet that comes over a line a few bytes at a time: opened, fed any number of parts of any lengths, and closed. The close gives
/// what [`Sheet::read`] gives for the parts joined, however they were cut. It can be written to, as any [`std::io::Write`].
///
/// ```
/// use cutting_bench::{Refusal, Sheet, SheetReader};
/// let bytes = std::fs::read("../examples/worked.sheet")?;
/// let mut reader = SheetReader::open();
/// for part in bytes.chunks(7) {
///     reader.feed(part)?;
/// }
/// assert_eq!(reader.close(), Sheet::read(&bytes));
/// assert_eq!(reader.feed(&bytes), Err(Refusal::ReaderClosed));
/// # Ok::<(), Box<dyn std::error::Error>>(())
/// ```
#[derive(Clone)]
pub struct SheetReader {
    bytes: Box<[u8]>,
}

impl SheetReader {
    /// Opens a reader that was fed nothing.
    ///
    /// ```
    /// use cutting_bench::{Refusal, SheetReader};
    /// assert_eq!(SheetReader::open().close(), Err(Refusal::BadSheet));
    /// ```
    pub fn open() -> SheetReader {
        let mut reader = SheetReader { bytes: vec![0; SIZE].into() };
        reader.open_again();
        reader
    }

    /// Opens it again, for another sheet: it was fed nothing, whether it was closed or not.
    ///
    /// ```
    /// use cutting_bench::{Sheet, SheetReader};
    /// let bytes = std::fs::read("../examples/rope.sheet")?;
    /// let mut reader = SheetReader::open();
    /// reader.feed(b"no sheet")?;
    /// reader.open_again();
    /// reader.feed(&bytes)?;
    /// assert_eq!(reader.close(), Sheet::read(&bytes));
    /// # Ok::<(), Box<dyn std::error::Error>>(())
    /// ```
    pub fn open_again(&mut self) {
        assert_eq!(calls::sheet_open(&mut self.bytes), 0, "a reader has its bytes");
    }

    /// Feeds a part: accepted, whatever the bytes are, until the reader is closed.
    ///
    /// ```
    /// use cutting_bench::{Refusal, SheetReader};
    /// let mut reader = SheetReader::open();
    /// assert_eq!(reader.feed(&[]), Ok(()));
    /// assert_eq!(reader.feed(&[255; 40_000]), Ok(()));
    /// assert!(reader.close().is_err());
    /// assert_eq!(reader.feed(&[]), Err(Refusal::ReaderClosed));
    /// ```
    pub fn feed(&mut self, part: &[u8]) -> Result<(), Refusal> {
        match Refusal::of(calls::sheet_feed(&mut self.bytes, part)) {
            None => Ok(()),
            Some(why) => Err(why),
        }
    }

    /// Closes it: the sheet, as [`Sheet::read`] gives it for all that was fed, or its refusal; [`Refusal::ReaderClosed`] if it is closed already.
    ///
    /// ```
    /// use cutting_bench::{Refusal, SheetReader};
    /// let mut reader = SheetReader::open();
    /// let mut file = std::fs::File::open("../examples/grid.sheet")?;
    /// std::io::copy(&mut file, &mut reader)?;
    /// assert_eq!(reader.close()?.triangles.len(), 24);
    /// assert_eq!(reader.close(), Err(Refusal::ReaderClosed));
    /// # Ok::<(), Box<dyn std::error::Error>>(())
    /// ```
    pub fn close(&mut self) -> Result<Sheet, Refusal> {
        Sheet::told(|out| calls::sheet_close(&mut self.bytes, out))
    }
}

impl io::Write for SheetReader {
    fn write(&mut self, part: &[u8]) -> io::Result<usize> {
        self.feed(part).map_err(io::Error::other)?;
        Ok(part.len())
    }
    fn flush(&mut self) -> io::Result<()> {
        Ok(())
    }
}

impl fmt::Debug for SheetReader {
    fn fmt(&self, f: &mut fmt::Formatter<'_>) -> fmt::Result {
        f.debug_struct("SheetReader").finish_non_exhaustive()
    }
}
