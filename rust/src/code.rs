//! A code: its five numbers, its groups and its guarantee.

use crate::raw;
use crate::refusal::{accepted, Refusal};
use crate::WEIGHTS;
use std::iter::StepBy;
use std::ops::Range;

/// A code that the library accepts: field 0 has thirteen symbols, field 1 has bytes; groups of r + 1
/// slots; n slots; k message symbols; and the wiring, which says what slots make a group. Where n is
/// no multiple of r + 1 the last group is short. Its calls are these methods.
#[derive(Clone, Copy, Debug, PartialEq, Eq, Hash)]
pub struct Code {
    pub(crate) field: u32,
    pub(crate) r: u32,
    pub(crate) n: u32,
    pub(crate) k: u32,
    pub(crate) wiring: u32,
}

impl Code {
    /// The code of four numbers and wiring 0, if the library accepts them: questions 1 to 4.
    ///
    /// ```
    /// use latsefidy::{Code, Refusal};
    ///
    /// assert!(Code::new(0, 2, 9, 6).is_ok());
    /// assert_eq!(Code::new(2, 2, 9, 4), Err(Refusal::Field));
    /// assert_eq!(Code::new(0, 4, 10, 4), Err(Refusal::R)); // 5 does not divide 12
    /// assert!(Code::new(1, 4, 10, 4).is_ok()); // it divides 255
    /// assert!(Code::new(0, 2, 11, 5).is_ok()); // three groups of three and one of two
    /// assert_eq!(Code::new(0, 2, 10, 4), Err(Refusal::N)); // no group has one slot
    /// assert_eq!(Code::new(0, 2, 15, 4), Err(Refusal::N));
    /// assert_eq!(Code::new(0, 2, 9, 7), Err(Refusal::K));
    /// ```
    pub fn new(field: u32, r: u32, n: u32, k: u32) -> Result<Code, Refusal> {
        Code::with_wiring(field, r, n, k, 0)
    }

    /// The code of five numbers, if the library accepts them: questions 1 to 4 and then 17. Under
    /// wiring 0 the slots of a group stand side by side. Under wiring 1, with G groups, slot p is in
    /// group p mod G: any G slots side by side, as on a shelf, are of G groups. Wiring 1 wants whole
    /// groups.
    ///
    /// ```
    /// use latsefidy::{Code, Refusal};
    ///
    /// let code = Code::with_wiring(0, 2, 9, 4, 1)?;
    /// assert_eq!(code.mates(0)?.collect::<Vec<_>>(), [3, 6]);
    /// assert_eq!(Code::with_wiring(0, 2, 9, 4, 0), Code::new(0, 2, 9, 4));
    /// assert_eq!(Code::with_wiring(0, 2, 9, 4, 2), Err(Refusal::Wiring));
    /// assert_eq!(Code::with_wiring(0, 2, 11, 5, 1), Err(Refusal::Wiring));
    /// # Ok::<(), Refusal>(())
    /// ```
    pub fn with_wiring(field: u32, r: u32, n: u32, k: u32, wiring: u32) -> Result<Code, Refusal> {
        let mut weights = [0; WEIGHTS];
        // SAFETY: the pointer and the length are of one array. Of an accepted code slot 0 is no
        // refusal, so the answer is about the code alone.
        accepted(unsafe { raw::latsefidy_weights(field, r, n, k, wiring, 0, weights.as_mut_ptr(), WEIGHTS) })?;
        Ok(Code { field, r, n, k, wiring })
    }

    /// The field: 0 is thirteen, 1 is bytes.
    ///
    /// ```
    /// assert_eq!(latsefidy::Code::new(0, 2, 9, 4)?.field(), 0);
    /// # Ok::<(), latsefidy::Refusal>(())
    /// ```
    pub fn field(self) -> u32 {
        self.field
    }

    /// The locality: a lost symbol is repaired from r others, fewer in a short last group.
    ///
    /// ```
    /// assert_eq!(latsefidy::Code::new(0, 2, 9, 4)?.r(), 2);
    /// # Ok::<(), latsefidy::Refusal>(())
    /// ```
    pub fn r(self) -> u32 {
        self.r
    }

    /// The length: symbols of a codeword, one for each drive slot.
    ///
    /// ```
    /// assert_eq!(latsefidy::Code::new(0, 2, 9, 4)?.n(), 9);
    /// # Ok::<(), latsefidy::Refusal>(())
    /// ```
    pub fn n(self) -> u32 {
        self.n
    }

    /// The dimension: symbols of a message.
    ///
    /// ```
    /// assert_eq!(latsefidy::Code::new(0, 2, 9, 4)?.k(), 4);
    /// # Ok::<(), latsefidy::Refusal>(())
    /// ```
    pub fn k(self) -> u32 {
        self.k
    }

    /// The wiring: 0, groups side by side, or 1, groups spread.
    ///
    /// ```
    /// assert_eq!(latsefidy::Code::new(0, 2, 9, 4)?.wiring(), 0);
    /// # Ok::<(), latsefidy::Refusal>(())
    /// ```
    pub fn wiring(self) -> u32 {
        self.wiring
    }

    /// The guarantee: whichever slots are lost, and marked so, up to that many
    /// [`decode`](Code::decode) gives the message back. It is n - k - ⌈k'/r⌉ + 1, where k' is k plus
    /// the slots that a short last group lacks.
    ///
    /// ```
    /// use latsefidy::Code;
    ///
    /// assert_eq!(Code::new(0, 2, 9, 4)?.guarantee(), 4);
    /// assert_eq!(Code::new(1, 16, 255, 240)?.guarantee(), 1);
    /// assert_eq!(Code::new(0, 2, 11, 5)?.guarantee(), 4); // k' is 6
    /// # Ok::<(), latsefidy::Refusal>(())
    /// ```
    pub fn guarantee(self) -> u32 {
        let missing = self.group_size() - self.last_group_size();
        self.n - self.k - (self.k + missing).div_ceil(self.r) + 1
    }

    /// The slots of a whole group: r + 1.
    ///
    /// ```
    /// assert_eq!(latsefidy::Code::new(0, 2, 9, 4)?.group_size(), 3);
    /// # Ok::<(), latsefidy::Refusal>(())
    /// ```
    pub fn group_size(self) -> u32 {
        self.r + 1
    }

    /// The slots of the last group: r + 1, or the fewer that are left for a short one.
    ///
    /// ```
    /// use latsefidy::Code;
    ///
    /// assert_eq!(Code::new(0, 2, 9, 4)?.last_group_size(), 3);
    /// assert_eq!(Code::new(0, 2, 11, 5)?.last_group_size(), 2);
    /// # Ok::<(), latsefidy::Refusal>(())
    /// ```
    pub fn last_group_size(self) -> u32 {
        self.n - (self.group_count() - 1) * self.group_size()
    }

    /// The slots of each group, from group 0 on, in slot order.
    ///
    /// ```
    /// use latsefidy::Code;
    ///
    /// let groups = |code: Code| code.groups().map(Vec::from_iter).collect::<Vec<_>>();
    /// assert_eq!(groups(Code::new(0, 2, 9, 4)?), [[0, 1, 2], [3, 4, 5], [6, 7, 8]]);
    /// assert_eq!(groups(Code::with_wiring(0, 2, 9, 4, 1)?), [[0, 3, 6], [1, 4, 7], [2, 5, 8]]);
    /// assert_eq!(groups(Code::new(0, 2, 8, 4)?), [vec![0, 1, 2], vec![3, 4, 5], vec![6, 7]]);
    /// # Ok::<(), latsefidy::Refusal>(())
    /// ```
    pub fn groups(self) -> impl ExactSizeIterator<Item = StepBy<Range<u32>>> + DoubleEndedIterator + Clone {
        (0..self.group_count()).map(move |group| self.group(group))
    }

    fn group_count(self) -> u32 {
        self.n.div_ceil(self.group_size())
    }

    /// The slots of a group that is there.
    fn group(self, group: u32) -> StepBy<Range<u32>> {
        if self.wiring == 0 {
            let first = group * self.group_size();
            (first..self.n.min(first + self.group_size())).step_by(1)
        } else {
            (group..self.n).step_by(self.group_count() as usize)
        }
    }

    /// The group of a slot. A slot of n or more is refused, 7.
    ///
    /// ```
    /// use latsefidy::{Code, Refusal};
    ///
    /// let code = Code::new(0, 2, 9, 4)?;
    /// assert_eq!(code.group_of(4), Ok(1));
    /// assert_eq!(code.group_of(9), Err(Refusal::Slot));
    /// # Ok::<(), Refusal>(())
    /// ```
    pub fn group_of(self, slot: u32) -> Result<u32, Refusal> {
        if slot >= self.n {
            Err(Refusal::Slot)
        } else if self.wiring == 0 {
            Ok(slot / self.group_size())
        } else {
            Ok(slot % self.group_count())
        }
    }

    /// The mates of a slot: the other slots of its group, in slot order. They are r, fewer in a short
    /// last group. A slot of n or more is refused, 7.
    ///
    /// ```
    /// use latsefidy::{Code, Refusal};
    ///
    /// let code = Code::new(0, 2, 9, 4)?;
    /// assert_eq!(code.mates(4)?.collect::<Vec<_>>(), [3, 5]);
    /// assert_eq!(code.mates(9).err(), Some(Refusal::Slot));
    /// assert_eq!(Code::new(0, 2, 11, 5)?.mates(9)?.collect::<Vec<_>>(), [10]);
    /// # Ok::<(), Refusal>(())
    /// ```
    pub fn mates(self, slot: u32) -> Result<impl DoubleEndedIterator<Item = u32> + Clone, Refusal> {
        Ok(self.group(self.group_of(slot)?).filter(move |&mate| mate != slot))
    }

    /// Bytes of work that [`decode`](Code::decode), [`decode_near`](Code::decode_near),
    /// [`grade`](Code::grade), [`preview`](Code::preview) and [`record`](Code::record) need: n * (k + 1).
    ///
    /// ```
    /// use latsefidy::Code;
    ///
    /// assert_eq!(Code::new(0, 2, 9, 4)?.work_len(), 45);
    /// assert_eq!(Code::new(1, 16, 255, 240)?.work_len(), 61_455); // the most
    /// # Ok::<(), latsefidy::Refusal>(())
    /// ```
    pub fn work_len(self) -> usize {
        self.n as usize * (self.k as usize + 1)
    }
}
