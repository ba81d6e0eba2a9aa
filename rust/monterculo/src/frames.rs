//! A roll as a frame text, and back.

use crate::refusal::Given;
use crate::{sys, Refusal, Roll};

/// The lines of a text: each up to its byte 10, which belongs to it, or to the text's end.
fn lines(text: &[u8]) -> impl Iterator<Item = &[u8]> {
    text.split_inclusive(|&byte| byte == b'\n')
}

/// The first of them, which may be all of a text.
pub(crate) fn first_line(text: &[u8]) -> &[u8] {
    lines(text).next().unwrap_or_default()
}

/// The value of a digit.
fn digit(byte: u8) -> Option<u8> {
    char::from(byte).to_digit(16).and_then(|value| u8::try_from(value).ok())
}

/// What a first line tells, for the words of a refusal: where the width is bad, that alone.
fn told(line: &[u8]) -> sys::Roll {
    let sys::Rolled { answer, mut roll } = sys::read_first(line);
    if let (1, Some(&[high, low])) = (answer.number, line.get(2..4)) {
        let k = digit(high).zip(digit(low)).map(|(high, low)| high << 4 | low);
        roll.table.k = k.unwrap_or_default();
    }
    roll
}

impl Roll {
    /// Writes the roll as a frame text, from the first byte of `out` on, and gives the text; later bytes are unchanged.
    ///
    /// A frame text is lines of lower-case hexadecimal digits, each ended by byte 10. The first has the record, and each
    /// later one [`FRAME`](crate::FRAME) packed bytes, the last perhaps fewer. It has
    /// [`frame_text_for`](crate::frame_text_for)(k, σ, h) bytes.
    ///
    /// Refusals, in their order: those of [`Roll::check`], then 13 (bytes needed).
    ///
    /// ```
    /// use monterculo::{frame_text_for, Roll, Table};
    ///
    /// let roll = Roll::new(Table::new(4, 3, b"anb"), 6, 6);
    /// let mut out = [0; frame_text_for(4, 3, 6)];
    /// let text = roll.to_frames(&[0x20, 0x10, 0x10], &mut out)?;
    /// assert_eq!(text, b"01040300030000000600000006616e62\n02201010\n");
    /// # Ok::<(), monterculo::Refusal>(())
    /// ```
    pub fn to_frames<'a>(&self, buf: &[u8], out: &'a mut [u8]) -> Result<&'a [u8], Refusal> {
        let length: usize = sys::write_frames(self.record(), buf, out).narrow(self.given())?;
        Ok(out.get(..length).unwrap_or_default())
    }

    /// Reads a frame text: the packed bytes come to the front of the buffer, and later bytes are unchanged.
    ///
    /// The roll is checked. This finds what breaks the form, and not every change of a digit: send a checksum of your own.
    ///
    /// Refusals, in their order: 15 (0; the first line), 1 (0; the width), 15 (the first line that is wrong, missing or
    /// too many), then those of [`Roll::check`] in this buffer. Nothing is written then.
    ///
    /// ```
    /// use monterculo::{Refusal, Roll};
    ///
    /// let text = b"01040300030000000600000006616e62\n02201010\n";
    /// let mut buf = [0xff; 4];
    /// let roll = Roll::from_frames(text, &mut buf)?;
    /// assert_eq!((roll.table().characters(), roll.n(), buf), (&b"anb"[..], 6, [0x20, 0x10, 0x10, 0xff]));
    /// assert_eq!(Roll::from_frames(&text[..33], &mut buf), Err(Refusal::BadLine { line: 1, missing: true }));
    /// # Ok::<(), monterculo::Refusal>(())
    /// ```
    pub fn from_frames(text: &[u8], buf: &mut [u8]) -> Result<Roll, Refusal> {
        let read = sys::read_frames(text, buf);
        if read.answer.number == 0 {
            return Ok(read.roll.into());
        }
        let told = told(first_line(text));
        let given = Given { table: Some(&told.table), n: told.n, lines: lines(text).count(), ..Given::default() };
        read.answer.result(given).map(|_| read.roll.into())
    }

    /// The record that the first line of a frame text has, its byte 10 included: for a roll that comes in line by line.
    /// The later ones are read by [`read_frame`].
    ///
    /// Of the table the width alone is asked here. Whoever is given the record looks at the rest.
    ///
    /// Refusals, in their order: 15 (0), 1 (0; the width).
    ///
    /// ```
    /// use monterculo::{Refusal, Roll, Table};
    ///
    /// let roll = Roll::from_first_line(b"01040300030000000600000006616e62\n")?;
    /// assert_eq!(roll, Roll::new(Table::new(4, 3, b"anb"), 6, 6));
    /// assert_eq!(Roll::from_first_line(b"01040300030000000600000006616E62\n"), Err(Refusal::NotTheFrame));
    /// # Ok::<(), monterculo::Refusal>(())
    /// ```
    pub fn from_first_line(line: &[u8]) -> Result<Roll, Refusal> {
        let read = sys::read_first(line);
        match read.answer.number {
            0 => Ok(read.roll.into()),
            _ => {
                let told = told(line);
                of_one_line(read.answer.result(Given { table: Some(&told.table), ..Given::default() }))
                    .map(|_| read.roll.into())
            }
        }
    }
}

/// Reads a later line of a frame text, its byte 10 included, and gives its packed bytes, 1 to [`FRAME`](crate::FRAME) of
/// them: the front of `out`; later bytes are unchanged.
///
/// Whether all lines came, and in their order, is not seen here. [`Searcher::feed`](crate::Searcher::feed) takes the bytes
/// as a piece of the roll.
///
/// Refusals, in their order: 15 (0), 13 (packed bytes of the line).
///
/// ```
/// use monterculo::{hits_for, read_frame, OwnedRoll, Roll, Searcher, Width, FRAME};
///
/// // What the sender has.
/// let members = OwnedRoll::new(Width::Two, b"pan 7 Oda 5550143\npan 12 Jory 5550128\npan 112 Maren 5550167\n")?;
/// let text = members.to_frames();
///
/// let mut lines = text.split_inclusive(|&byte| byte == b'\n');
/// let record = Roll::from_first_line(lines.next().unwrap_or_default())?;
/// let mut searcher = Searcher::new(&record, b"pan ")?;
/// let (mut packed, mut hits) = ([0; FRAME], [0; hits_for(2, FRAME)]);
/// let mut found = Vec::new();
/// for line in lines {
///     let piece = read_frame(line, &mut packed)?;
///     found.extend_from_slice(searcher.feed(piece, &mut hits)?);
/// }
/// searcher.finish()?;
/// assert_eq!(found, [0, 18, 38]);
/// # Ok::<(), monterculo::Refusal>(())
/// ```
pub fn read_frame<'a>(line: &[u8], out: &'a mut [u8]) -> Result<&'a [u8], Refusal> {
    let length: usize = of_one_line(sys::read_frame(line, out).narrow(Given::default()))?;
    Ok(out.get(..length).unwrap_or_default())
}

/// A line by itself has no number.
fn of_one_line<T>(answer: Result<T, Refusal>) -> Result<T, Refusal> {
    match answer {
        Err(Refusal::BadLine { .. }) => Err(Refusal::NotTheFrame),
        answer => answer,
    }
}
