//! The calls on a sheet, which holds its code itself.

use crate::raw;
use crate::refusal::{accepted, value, Refusal};
use crate::Code;

/// Reads a sheet into the first n bytes of word and of marks, each of at least
/// [`SHEET_LEAST`](crate::SHEET_LEAST) bytes; answers its code. A lost symbol is 0 in the word.
///
/// ```
/// use latsefidy::{read_sheet, Code, Refusal, SHEET_LEAST};
///
/// let words = [0x10020301u32, 0x20000005, 0x30000100, 0x20000205, 0x40000003];
/// let sheet = words.map(u32::to_be_bytes).concat();
/// let (mut word, mut marks) = ([0; SHEET_LEAST], [0; SHEET_LEAST]);
/// let code = read_sheet(&sheet, &mut word, &mut marks)?;
/// assert_eq!(code, Code::new(0, 2, 3, 1)?);
/// assert_eq!((&word[..3], &marks[..3]), (&[5, 0, 5][..], &[0, 1, 0][..]));
/// let wired = [&[0x18], &sheet[1..]].concat();
/// assert_eq!(read_sheet(&wired, &mut word, &mut marks)?, Code::with_wiring(0, 2, 3, 1, 1)?);
/// assert_eq!(read_sheet(&[], &mut word, &mut marks), Err(Refusal::SheetStart));
/// # Ok::<(), Refusal>(())
/// ```
pub fn read_sheet(sheet: &[u8], word: &mut [u8], marks: &mut [u8]) -> Result<Code, Refusal> {
    let mut code = [0; raw::CODE];
    // SAFETY: as for the calls with a code.
    accepted(unsafe {
        raw::latsefidy_read_sheet(
            sheet.as_ptr(),
            sheet.len(),
            word.as_mut_ptr(),
            word.len(),
            marks.as_mut_ptr(),
            marks.len(),
            code.as_mut_ptr(),
            code.len(),
        )
    })?;
    let [field, r, n, k, wiring] = code;
    Ok(Code { field, r, n, k, wiring })
}

/// Writes the report of a sheet at the front of text, of at least
/// [`REPORT_TEXT`](crate::REPORT_TEXT) bytes; answers its length. A refused sheet is no refusal of
/// the call: its text says so. The call takes about 66 kilobytes of stack.
///
/// ```
/// use latsefidy::{report, Refusal, REPORT_TEXT};
///
/// let words = [0x10020301u32, 0x20000005, 0x30000100, 0x20000205, 0x40000003];
/// let mut text = [0; REPORT_TEXT];
/// let length = report(&words.map(u32::to_be_bytes).concat(), &mut text)?;
/// assert_eq!(&text[..length], b"code 0 2 3 1\nlost 1 sure 2 grade 1 first 255\nmessage 5\n");
/// let length = report(&[], &mut text)?;
/// assert_eq!(&text[..length], b"refused 12\n");
/// # Ok::<(), Refusal>(())
/// ```
pub fn report(input: &[u8], text: &mut [u8]) -> Result<usize, Refusal> {
    let (to, len) = (text.as_mut_ptr(), text.len());
    // SAFETY: as for the calls with a code.
    value(unsafe { raw::latsefidy_report(input.as_ptr(), input.len(), to, len) }).map(|length| length as usize)
}

/// Writes the previews of a sheet at the front of text, of at least
/// [`PREVIEW_TEXT`](crate::PREVIEW_TEXT) bytes; answers its length. Each kept slot has a line with the
/// grade and the first group with two or more losses (255 if none) that would follow from its loss,
/// as [`Code::preview`] answers them; the last line has the slots whose loss would leave the message
/// decided. Code and marks alone count. A refused sheet is no refusal of the call: its text says so.
/// The call takes about 66 kilobytes of stack.
///
/// ```
/// use latsefidy::{preview_sheet, Refusal, PREVIEW_TEXT};
///
/// let words = [0x10020301u32, 0x20000005, 0x30000100, 0x20000205, 0x40000003];
/// let mut text = [0; PREVIEW_TEXT];
/// let length = preview_sheet(&words.map(u32::to_be_bytes).concat(), &mut text)?;
/// assert_eq!(&text[..length], b"slot 0 grade 2 first 0\nslot 2 grade 2 first 0\nsafe 0 2\n");
/// let length = preview_sheet(&[], &mut text)?;
/// assert_eq!(&text[..length], b"refused 12\n");
/// # Ok::<(), Refusal>(())
/// ```
pub fn preview_sheet(input: &[u8], text: &mut [u8]) -> Result<usize, Refusal> {
    let (to, len) = (text.as_mut_ptr(), text.len());
    // SAFETY: as for the calls with a code.
    value(unsafe { raw::latsefidy_preview_sheet(input.as_ptr(), input.len(), to, len) }).map(|length| length as usize)
}
