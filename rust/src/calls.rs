//! The calls with a code.

use crate::raw;
use crate::refusal::{accepted, value, Refusal};
use crate::{Code, Preview, Record, WEIGHTS};

// SAFETY, for every call below: a slice is a valid pointer, never null, with its length, and Rust's
// borrows keep a mutable slice apart from the others. The library has no other condition.
impl Code {
    /// Writes the n symbols of the message's codeword. The message has k symbols. Wiring 1 puts the
    /// same symbols in other slots.
    ///
    /// ```
    /// use latsefidy::{Code, Refusal};
    ///
    /// let code = Code::new(0, 2, 9, 4)?;
    /// let mut codeword = [0; 9];
    /// code.encode(&[1, 2, 3, 4], &mut codeword)?;
    /// assert_eq!(codeword, [10, 9, 6, 2, 8, 0, 3, 0, 4]);
    /// assert_eq!(code.encode(&[1, 2, 3], &mut codeword), Err(Refusal::Length));
    /// assert_eq!(code.encode(&[1, 2, 3, 13], &mut codeword), Err(Refusal::Symbol));
    /// Code::with_wiring(0, 2, 9, 4, 1)?.encode(&[1, 2, 3, 4], &mut codeword)?;
    /// assert_eq!(codeword, [10, 2, 3, 9, 8, 0, 6, 0, 4]);
    /// # Ok::<(), Refusal>(())
    /// ```
    pub fn encode(self, message: &[u8], codeword: &mut [u8]) -> Result<(), Refusal> {
        let Code { field, r, n, k, wiring } = self;
        let (to, len) = (codeword.as_mut_ptr(), codeword.len());
        accepted(unsafe { raw::latsefidy_encode(field, r, n, k, wiring, message.as_ptr(), message.len(), to, len) })
    }

    /// Encodes many messages at once: k strips, one for each symbol of a message, to n strips, one
    /// for each slot, all end to end and of one length, 1 to [`STRIP_MOST`](crate::STRIP_MOST)
    /// symbols. Column c of the codewords, symbol c of each strip, is what [`encode`](Code::encode)
    /// writes of column c of the messages. The call takes about 107 kilobytes of stack.
    ///
    /// ```
    /// use latsefidy::{Code, Refusal};
    ///
    /// let code = Code::new(0, 2, 9, 4)?;
    /// let messages = [1, 1, 1, 2, 1, 3, 1, 4]; // the columns 1 1 1 1 and 1 2 3 4
    /// let mut codewords = [0; 18];
    /// code.encode_strips(&messages, &mut codewords)?;
    /// assert_eq!(codewords, [4, 10, 8, 9, 7, 6, 1, 2, 11, 8, 2, 0, 0, 3, 0, 0, 0, 4]);
    /// assert_eq!(code.encode_strips(&messages, &mut codewords[1..]), Err(Refusal::Length));
    /// assert_eq!(code.encode_strips(&[1, 1, 1, 2, 1, 3, 1, 13], &mut codewords), Err(Refusal::Symbol));
    /// # Ok::<(), Refusal>(())
    /// ```
    pub fn encode_strips(self, messages: &[u8], codewords: &mut [u8]) -> Result<(), Refusal> {
        let Code { field, r, n, k, wiring } = self;
        let (from, from_len) = (messages.as_ptr(), messages.len());
        let (to, len) = (codewords.as_mut_ptr(), codewords.len());
        accepted(unsafe { raw::latsefidy_encode_strips(field, r, n, k, wiring, from, from_len, to, len) })
    }

    /// The repair weights of a slot, one a mate, in slot order of its mates, and then zeros: the
    /// slot's symbol is the sum of weight times mate.
    ///
    /// ```
    /// let code = latsefidy::Code::new(1, 4, 10, 3)?;
    /// assert_eq!(code.weights(7)?, [146, 221, 10, 68, 0, 0, 0, 0, 0, 0, 0, 0, 0, 0, 0, 0]);
    /// let short = latsefidy::Code::new(1, 4, 8, 5)?;
    /// assert_eq!(short.weights(7)?, [146, 221, 0, 0, 0, 0, 0, 0, 0, 0, 0, 0, 0, 0, 0, 0]);
    /// # Ok::<(), latsefidy::Refusal>(())
    /// ```
    pub fn weights(self, slot: u32) -> Result<[u8; WEIGHTS], Refusal> {
        let Code { field, r, n, k, wiring } = self;
        let mut weights = [0; WEIGHTS];
        accepted(unsafe { raw::latsefidy_weights(field, r, n, k, wiring, slot, weights.as_mut_ptr(), WEIGHTS) })?;
        Ok(weights)
    }

    /// The slot's symbol from its [`mates`](Code::mates), in slot order: r of them, fewer for a slot
    /// of a short last group. The mates are true where some codeword has these symbols there; others
    /// are refused, 9. Where k is r or more, and in a short last group, all are true.
    ///
    /// ```
    /// use latsefidy::{Code, Refusal};
    ///
    /// let code = Code::new(0, 2, 9, 4)?;
    /// assert_eq!(code.repair(0, &[8, 7])?, 4); // the mates of slot 0 are slots 1 and 2
    /// let wired = Code::with_wiring(0, 2, 9, 4, 1)?;
    /// assert_eq!(wired.repair(0, &[8, 7])?, 4); // they are slots 3 and 6
    /// let short = Code::new(0, 2, 11, 5)?;
    /// assert_eq!(short.repair(9, &[7])?, 5); // slot 10 is the one mate of slot 9
    /// let equal = Code::new(0, 2, 3, 1)?; // a codeword is one symbol three times
    /// assert_eq!(equal.repair(0, &[5, 5])?, 5);
    /// assert_eq!(equal.repair(0, &[5, 7]), Err(Refusal::Foreign));
    /// # Ok::<(), Refusal>(())
    /// ```
    pub fn repair(self, slot: u32, mates: &[u8]) -> Result<u8, Refusal> {
        let Code { field, r, n, k, wiring } = self;
        let symbol =
            value(unsafe { raw::latsefidy_repair(field, r, n, k, wiring, slot, mates.as_ptr(), mates.len()) })?;
        Ok(symbol as u8)
    }

    /// Rebuilds a strip of the slot, 1 to [`STRIP_MOST`](crate::STRIP_MOST) symbols, from its
    /// [`mates`](Code::mates)' strips, end to end in slot order. One column that is not true, as
    /// [`repair`](Code::repair) has it, refuses the whole strip, 9, and `out` stays as it is. The
    /// repair weights are worked out once a call.
    ///
    /// ```
    /// use latsefidy::{Code, Refusal};
    ///
    /// let code = Code::new(1, 4, 10, 3)?;
    /// let mut strips = [9, 0, 22, 62, 0, 110, 11, 0, 41, 196, 0, 52];
    /// let mut out = [0; 3];
    /// code.rebuild(7, &strips, &mut out)?;
    /// assert_eq!(out, [249, 0, 97]);
    /// strips[11] = 53; // of the third column
    /// assert_eq!(code.rebuild(7, &strips, &mut out), Err(Refusal::Foreign));
    /// assert_eq!(out, [249, 0, 97]);
    /// # Ok::<(), Refusal>(())
    /// ```
    pub fn rebuild(self, slot: u32, strips: &[u8], out: &mut [u8]) -> Result<(), Refusal> {
        let Code { field, r, n, k, wiring } = self;
        let (to, len) = (out.as_mut_ptr(), out.len());
        accepted(unsafe {
            raw::latsefidy_rebuild(field, r, n, k, wiring, slot, strips.as_ptr(), strips.len(), to, len)
        })
    }

    /// The part of the word that is the slot's group, all of it. Under wiring 1 a group is no part of
    /// the word: refusal 18.
    ///
    /// ```
    /// use latsefidy::{Code, Refusal};
    ///
    /// let word = [4, 8, 7, 1, 11, 2, 0, 0, 0];
    /// assert_eq!(Code::new(0, 2, 9, 4)?.view(4, &word)?, [1, 11, 2]);
    /// assert_eq!(Code::with_wiring(0, 2, 9, 4, 1)?.view(4, &word), Err(Refusal::ViewWired));
    /// # Ok::<(), Refusal>(())
    /// ```
    pub fn view(self, slot: u32, word: &[u8]) -> Result<&[u8], Refusal> {
        let Code { field, r, n, k, wiring } = self;
        let first = value(unsafe { raw::latsefidy_view(field, r, n, k, wiring, slot, word.as_ptr(), word.len()) })?;
        Ok(&word[first as usize..n.min(first + self.group_size()) as usize])
    }

    /// Repairs the lost symbol of each group with exactly one loss, and sets its mark to 0; answers
    /// how many groups. All else stays: also a group with one loss whose kept symbols no codeword
    /// has.
    ///
    /// ```
    /// let code = latsefidy::Code::new(0, 2, 9, 4)?;
    /// let mut word = [4, 8, 0, 1, 11, 2, 0, 0, 0];
    /// let mut marks = [0, 0, 1, 0, 0, 0, 0, 0, 0];
    /// assert_eq!(code.local_pass(&mut word, &mut marks)?, 1);
    /// assert_eq!((word, marks), ([4, 8, 7, 1, 11, 2, 0, 0, 0], [0; 9]));
    /// let equal = latsefidy::Code::new(0, 2, 6, 1)?; // a codeword is one symbol six times
    /// let (mut word, mut marks) = ([99, 5, 7, 4, 99, 4], [1, 0, 0, 0, 1, 0]);
    /// assert_eq!(equal.local_pass(&mut word, &mut marks)?, 1);
    /// assert_eq!((word, marks), ([99, 5, 7, 4, 4, 4], [1, 0, 0, 0, 0, 0]));
    /// # Ok::<(), latsefidy::Refusal>(())
    /// ```
    pub fn local_pass(self, word: &mut [u8], marks: &mut [u8]) -> Result<u32, Refusal> {
        let Code { field, r, n, k, wiring } = self;
        let (at, len) = (word.as_mut_ptr(), word.len());
        value(unsafe { raw::latsefidy_local_pass(field, r, n, k, wiring, at, len, marks.as_mut_ptr(), marks.len()) })
    }

    /// Writes the message of the one codeword that agrees with every kept symbol: refusal 9 if none
    /// does, 10 if more than one does. Work has at least [`work_len`](Code::work_len) bytes; once
    /// the other questions are passed that many of them are 0 at the end, also under 9 and 10.
    ///
    /// A kept symbol is believed. A wrong one that is not marked can decode to another message.
    ///
    /// ```
    /// use latsefidy::{Code, Refusal};
    ///
    /// let code = Code::new(0, 2, 9, 4)?;
    /// let word = [4, 8, 7, 1, 11, 2, 0, 0, 0];
    /// let (mut message, mut work) = ([0; 4], [0; 45]);
    /// code.decode(&word, &[1, 1, 1, 1, 0, 0, 0, 0, 0], &mut message, &mut work)?;
    /// assert_eq!(message, [1, 1, 1, 1]);
    /// let answer = code.decode(&word, &[0, 0, 0, 0, 1, 1, 1, 1, 1], &mut message, &mut work);
    /// assert_eq!(answer, Err(Refusal::Undecided));
    /// let answer = code.decode(&[4, 8, 7, 1, 11, 2, 0, 0, 1], &[0; 9], &mut message, &mut work);
    /// assert_eq!(answer, Err(Refusal::Foreign));
    /// # Ok::<(), Refusal>(())
    /// ```
    pub fn decode(self, word: &[u8], marks: &[u8], message: &mut [u8], work: &mut [u8]) -> Result<(), Refusal> {
        let Code { field, r, n, k, wiring } = self;
        accepted(unsafe {
            raw::latsefidy_decode(
                field,
                r,
                n,
                k,
                wiring,
                word.as_ptr(),
                word.len(),
                marks.as_ptr(),
                marks.len(),
                message.as_mut_ptr(),
                message.len(),
                work.as_mut_ptr(),
                work.len(),
            )
        })
    }

    /// Decodes after the local pass: on a copy of its own it mends each group with exactly one loss, as
    /// [`local_pass`](Code::local_pass) does, and then decodes what that copy keeps. For every input
    /// the refusal, the message and work are those of [`decode`](Code::decode). Answers how many groups
    /// were mended: those with exactly one loss.
    ///
    /// ```
    /// use latsefidy::{Code, Refusal};
    ///
    /// let code = Code::new(0, 2, 9, 4)?;
    /// let word = [4, 8, 7, 1, 11, 2, 0, 0, 0];
    /// let (mut message, mut work) = ([0; 4], [0; 45]);
    /// let mended = code.decode_near(&word, &[1, 0, 0, 1, 0, 0, 1, 0, 0], &mut message, &mut work)?;
    /// assert_eq!((mended, message), (3, [1, 1, 1, 1]));
    /// let mended = code.decode_near(&word, &[1, 1, 1, 1, 0, 0, 0, 0, 0], &mut message, &mut work)?;
    /// assert_eq!((mended, message), (1, [1, 1, 1, 1])); // slot 3, in group 1; group 0 is lost as a whole
    /// let answer = code.decode_near(&word, &[0, 0, 0, 0, 1, 1, 1, 1, 1], &mut message, &mut work);
    /// assert_eq!(answer, Err(Refusal::Undecided));
    /// # Ok::<(), Refusal>(())
    /// ```
    pub fn decode_near(self, word: &[u8], marks: &[u8], message: &mut [u8], work: &mut [u8]) -> Result<u32, Refusal> {
        let Code { field, r, n, k, wiring } = self;
        value(unsafe {
            raw::latsefidy_decode_near(
                field,
                r,
                n,
                k,
                wiring,
                word.as_ptr(),
                word.len(),
                marks.as_ptr(),
                marks.len(),
                message.as_mut_ptr(),
                message.len(),
                work.as_mut_ptr(),
                work.len(),
            )
        })
    }

    /// The grade of the losses, by the code and the marks alone:
    ///
    /// - 0: nothing is lost;
    /// - 1: else, no group has more than one loss: the [local pass](Code::local_pass) repairs all of a codeword;
    /// - 2: else, the number lost is at most the [guarantee](Code::guarantee);
    /// - 3: else, past the guarantee, but the kept slots still decide: no two codewords agree on them;
    /// - 4: some two different codewords agree on the kept slots.
    ///
    /// Of a codeword with these losses [`decode`](Code::decode) gives the message back up to grade 3,
    /// and is refused, 10, under grade 4. Work has at least [`work_len`](Code::work_len) bytes; that
    /// many of them are 0 at the end, whatever the grade, and a refusal leaves them.
    ///
    /// ```
    /// use latsefidy::{Code, Refusal};
    ///
    /// let code = Code::new(0, 2, 9, 4)?;
    /// let mut work = vec![0; code.work_len()];
    /// assert_eq!(code.grade(&[0, 0, 0, 0, 0, 0, 0, 0, 0], &mut work)?, 0);
    /// assert_eq!(code.grade(&[1, 0, 0, 1, 0, 0, 1, 0, 0], &mut work)?, 1);
    /// assert_eq!(code.grade(&[1, 1, 1, 1, 0, 0, 0, 0, 0], &mut work)?, 2);
    /// assert_eq!(code.grade(&[0, 0, 1, 0, 0, 1, 1, 1, 1], &mut work)?, 3);
    /// assert_eq!(code.grade(&[0, 0, 0, 0, 1, 1, 1, 1, 1], &mut work)?, 4);
    /// assert_eq!(code.grade(&[0; 9], &mut work[1..]), Err(Refusal::Length));
    /// # Ok::<(), Refusal>(())
    /// ```
    pub fn grade(self, marks: &[u8], work: &mut [u8]) -> Result<u32, Refusal> {
        let Code { field, r, n, k, wiring } = self;
        let (at, len) = (work.as_mut_ptr(), work.len());
        value(unsafe { raw::latsefidy_grade(field, r, n, k, wiring, marks.as_ptr(), marks.len(), at, len) })
    }

    /// What would follow from losing the slot too, as before a drive is pulled: the number lost, the
    /// grade and the first group with two or more losses, of the marks with that slot marked. A slot
    /// that is lost already changes nothing, and the marks stay as they are. Work is lent as for
    /// [`grade`](Code::grade).
    ///
    /// ```
    /// use latsefidy::{Code, Preview, Refusal};
    ///
    /// let code = Code::new(0, 2, 9, 4)?;
    /// let (marks, mut work) = ([1, 1, 1, 1, 0, 0, 0, 0, 0], vec![0; code.work_len()]);
    /// assert_eq!(code.preview(6, &marks, &mut work)?, Preview { lost: 5, grade: 3, first: Some(0) });
    /// assert_eq!(code.preview(4, &marks, &mut work)?, Preview { lost: 5, grade: 4, first: Some(0) });
    /// assert_eq!(code.preview(0, &marks, &mut work)?, Preview { lost: 4, grade: 2, first: Some(0) });
    /// assert_eq!(code.preview(7, &[0; 9], &mut work)?, Preview { lost: 1, grade: 1, first: None });
    /// assert_eq!(code.preview(9, &marks, &mut work), Err(Refusal::Slot));
    /// # Ok::<(), Refusal>(())
    /// ```
    pub fn preview(self, slot: u32, marks: &[u8], work: &mut [u8]) -> Result<Preview, Refusal> {
        let Code { field, r, n, k, wiring } = self;
        let mut preview = [0; raw::PREVIEW];
        accepted(unsafe {
            raw::latsefidy_preview(
                field,
                r,
                n,
                k,
                wiring,
                slot,
                marks.as_ptr(),
                marks.len(),
                work.as_mut_ptr(),
                work.len(),
                preview.as_mut_ptr(),
                preview.len(),
            )
        })?;
        Ok(Preview::from_numbers(preview))
    }

    /// Decodes, as [`decode`](Code::decode) does, and answers the stripe's record. 9 and 10 are
    /// outcomes here and refuse nothing; they leave the message as it was.
    ///
    /// ```
    /// use latsefidy::{Code, Outcome};
    ///
    /// let code = Code::new(0, 2, 9, 4)?;
    /// let (word, marks) = ([4, 8, 7, 1, 11, 2, 0, 0, 0], [0, 0, 1, 0, 0, 1, 1, 1, 1]);
    /// let (mut message, mut work) = ([0; 4], [0; 45]);
    /// let record = code.record(&word, &marks, &mut message, &mut work)?;
    /// assert_eq!((record.lost, record.sure, record.grade), (5, 4, 3));
    /// assert_eq!(record.first, Some(2)); // slots 6, 7 and 8 are group 2
    /// assert_eq!((record.outcome, message), (Outcome::Decided, [1, 1, 1, 1]));
    /// # Ok::<(), latsefidy::Refusal>(())
    /// ```
    pub fn record(self, word: &[u8], marks: &[u8], message: &mut [u8], work: &mut [u8]) -> Result<Record, Refusal> {
        let Code { field, r, n, k, wiring } = self;
        let mut record = [0; raw::RECORD];
        accepted(unsafe {
            raw::latsefidy_record(
                field,
                r,
                n,
                k,
                wiring,
                word.as_ptr(),
                word.len(),
                marks.as_ptr(),
                marks.len(),
                message.as_mut_ptr(),
                message.len(),
                work.as_mut_ptr(),
                work.len(),
                record.as_mut_ptr(),
                record.len(),
            )
        })?;
        Ok(Record::from_numbers(record))
    }

    /// Writes the stripe's sheet of 4 * (n + 2) bytes; lost slots go without their symbols.
    ///
    /// ```
    /// let code = latsefidy::Code::new(0, 2, 3, 1)?;
    /// let mut sheet = [0; 20];
    /// code.write_sheet(&[5, 99, 5], &[0, 1, 0], &mut sheet)?;
    /// let words = [0x10020301u32, 0x20000005, 0x30000100, 0x20000205, 0x40000003];
    /// assert_eq!(sheet, words.map(u32::to_be_bytes).concat()[..]);
    /// # Ok::<(), latsefidy::Refusal>(())
    /// ```
    pub fn write_sheet(self, word: &[u8], marks: &[u8], sheet: &mut [u8]) -> Result<(), Refusal> {
        let Code { field, r, n, k, wiring } = self;
        accepted(unsafe {
            raw::latsefidy_write_sheet(
                field,
                r,
                n,
                k,
                wiring,
                word.as_ptr(),
                word.len(),
                marks.as_ptr(),
                marks.len(),
                sheet.as_mut_ptr(),
                sheet.len(),
            )
        })
    }
}
