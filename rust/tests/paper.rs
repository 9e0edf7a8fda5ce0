//! The worked cases of the specification, through the archive.

use latsefidy::{preview_sheet, read_sheet, report, Code, Outcome, Preview, Refusal, PREVIEW_TEXT};

const WORD: [u8; 9] = [4, 8, 7, 1, 11, 2, 0, 0, 0];

fn code(field: u32, r: u32, n: u32, k: u32) -> Code {
    Code::new(field, r, n, k).unwrap()
}

/// The code N of the classroom sheet.
fn classroom() -> Code {
    code(0, 2, 9, 4)
}

/// The same code with its groups spread: points 1 2 4 3 6 12 9 5 10.
fn wired() -> Code {
    Code::with_wiring(0, 2, 9, 4, 1).unwrap()
}

/// Its codeword of 1 1 1 1.
const WIRED: [u8; 9] = [4, 1, 0, 8, 11, 0, 7, 2, 0];

/// The code S, whose last group is short: slots 9 and 10 with the points 8 and 11; 7 is missing.
fn short() -> Code {
    code(0, 2, 11, 5)
}

/// Its codeword of 1 2 3 4 5.
const SHORT: [u8; 11] = [5, 10, 12, 11, 4, 9, 4, 8, 7, 5, 7];

/// The marks of its losses.
fn marked_short(lost: &[usize]) -> [u8; 11] {
    let mut marks = [0; 11];
    lost.iter().for_each(|&p| marks[p] = 1);
    marks
}

fn encoded(code: Code, message: &[u8]) -> Result<Vec<u8>, Refusal> {
    let mut codeword = vec![0; code.n() as usize];
    code.encode(message, &mut codeword).map(|()| codeword)
}

fn marked(lost: &[usize]) -> [u8; 9] {
    let mut marks = [0; 9];
    lost.iter().for_each(|&p| marks[p] = 1);
    marks
}

fn decoded(word: &[u8], lost: &[usize]) -> Result<Vec<u8>, Refusal> {
    let (mut message, mut work) = (vec![99; 4], vec![99; classroom().work_len()]);
    let answer = classroom().decode(word, &marked(lost), &mut message, &mut work);
    assert!(work.iter().all(|&b| b == 0));
    assert!(answer.is_ok() || message == [99; 4]);
    answer.map(|()| message)
}

/// The grade; the front of work is clear then, and the rest as it was.
fn graded(code: Code, marks: &[u8]) -> u32 {
    let mut work = vec![99; code.work_len() + 3];
    let grade = code.grade(marks, &mut work).unwrap();
    assert!(work[..code.work_len()].iter().all(|&b| b == 0) && work[code.work_len()..] == [99; 3]);
    grade
}

#[test]
fn encodes() {
    assert_eq!(encoded(classroom(), &[1, 1, 1, 1]).unwrap(), WORD);
    assert_eq!(encoded(classroom(), &[1, 2, 3, 4]).unwrap(), [10, 9, 6, 2, 8, 0, 3, 0, 4]);
    let wide = code(0, 3, 12, 7);
    assert_eq!(encoded(wide, &[1, 2, 3, 4, 5, 6, 7]).unwrap(), [2, 7, 1, 12, 12, 4, 9, 6, 1, 0, 2, 8]);
    let bytes = code(1, 2, 9, 5);
    assert_eq!(encoded(bytes, &[1, 2, 3, 4, 255]).unwrap(), [251, 51, 53, 108, 244, 176, 97, 1, 125]);
    assert_eq!(encoded(classroom(), &[1, 2, 3]), Err(Refusal::Length));
    assert_eq!(encoded(classroom(), &[1, 2, 3, 13]), Err(Refusal::Symbol));
}

#[test]
fn repairs() {
    assert_eq!(classroom().repair(0, &[8, 7]), Ok(4));
    let bytes = code(1, 4, 10, 3);
    assert_eq!(bytes.weights(7).unwrap()[..5], [146, 221, 10, 68, 0]);
    assert_eq!(bytes.repair(7, &[9, 62, 11, 196]), Ok(249));
    assert_eq!(classroom().repair(9, &[13, 13]), Err(Refusal::Slot));
    assert_eq!(classroom().repair(8, &[13, 13]), Err(Refusal::Symbol));
}

#[test]
fn refuses_mates_of_no_codeword() {
    let equal = code(0, 2, 3, 1);
    assert_eq!(equal.repair(0, &[5, 7]), Err(Refusal::Foreign));
    assert_eq!(equal.repair(0, &[5, 5]), Ok(5));
    // The questions before: 5, then 7, then 6.
    assert_eq!(equal.repair(3, &[5, 13, 7]), Err(Refusal::Length));
    assert_eq!(equal.repair(3, &[5, 13]), Err(Refusal::Slot));
    assert_eq!(equal.repair(0, &[5, 13]), Err(Refusal::Symbol));
    // Over bytes, by both wirings.
    assert_eq!(code(1, 4, 10, 3).repair(7, &[10, 200, 30, 140]), Err(Refusal::Foreign));
    let spread = Code::with_wiring(1, 4, 10, 3, 1).unwrap();
    assert_eq!(spread.repair(7, &[9, 62, 249, 196]), Ok(11));
    assert_eq!(spread.repair(7, &[10, 200, 30, 140]), Err(Refusal::Foreign));
    // A whole group of a short code: true mates of degree k, and others of a degree below k. In the short one any are true.
    let six = code(0, 3, 6, 2);
    assert_eq!(six.repair(0, &[6, 2, 4]), Ok(12));
    assert_eq!(six.repair(0, &[8, 12, 5]), Err(Refusal::Foreign));
    assert_eq!((six.repair(5, &[1]), six.repair(5, &[2])), (Ok(8), Ok(3)));
}

#[test]
fn refuses_a_strip_for_one_column() {
    let (bytes, mut out) = (code(1, 4, 10, 3), [99; 3]);
    let good = [9, 0, 22, 62, 0, 110, 11, 0, 41, 196, 0, 52];
    bytes.rebuild(7, &good, &mut out).unwrap();
    assert_eq!(out, [249, 0, 97]);
    for at in 0..12 {
        let (mut strips, mut out) = (good, [99; 3]);
        strips[at] ^= 1;
        assert_eq!(bytes.rebuild(7, &strips, &mut out), Err(Refusal::Foreign));
        assert_eq!(out, [99; 3]);
    }
    // 6 is asked of all columns before 9 of any.
    let mut out = [99; 2];
    assert_eq!(code(0, 2, 3, 1).rebuild(0, &[5, 13, 7, 5], &mut out), Err(Refusal::Symbol));
    assert_eq!(code(0, 2, 3, 1).rebuild(0, &[5, 6, 7, 6], &mut out), Err(Refusal::Foreign));
    assert_eq!(out, [99; 2]);
}

#[test]
fn leaves_groups_of_no_codeword() {
    // Codewords are one symbol nine times: group 0 is left, group 1 mended, group 2 has lost two.
    let (equal, mut word, mut marks) = (code(0, 2, 9, 1), [99, 5, 7, 4, 99, 4, 99, 99, 6], marked(&[0, 4, 6, 7]));
    assert_eq!(equal.local_pass(&mut word, &mut marks), Ok(1));
    assert_eq!((word, marks), ([99, 5, 7, 4, 4, 4, 99, 99, 6], marked(&[0, 6, 7])));
    // 6 is asked of the group that is left too.
    word[1] = 13;
    assert_eq!(equal.local_pass(&mut word, &mut marks), Err(Refusal::Symbol));
    // Groups need not be of one codeword.
    let (mut word, mut marks) = ([99, 5, 5, 4, 99, 4, 6, 6, 99], marked(&[0, 4, 8]));
    assert_eq!(equal.local_pass(&mut word, &mut marks), Ok(3));
    assert_eq!((word, marks), ([5, 5, 5, 4, 4, 4, 6, 6, 6], [0; 9]));
}

#[test]
fn decodes() {
    assert_eq!(decoded(&WORD, &[0, 1, 2, 3]).unwrap(), [1; 4]);
    assert_eq!(decoded(&WORD, &[2, 5, 6, 7, 8]).unwrap(), [1; 4]);
    assert_eq!(decoded(&WORD, &[4, 5, 6, 7, 8]), Err(Refusal::Undecided));
    assert_eq!(decoded(&WORD, &[0, 1, 2, 3, 4, 5, 6, 7, 8]), Err(Refusal::Undecided));
    assert_eq!(decoded(&[4, 8, 7, 1, 11, 2, 0, 0, 1], &[]), Err(Refusal::Foreign));
}

/// How many groups were mended, and the message; the front of work is clear then, and the rest as it was.
fn decoded_near(code: Code, word: &[u8], marks: &[u8]) -> Result<(u32, Vec<u8>), Refusal> {
    let (mut message, mut work) = (vec![99; code.k() as usize], vec![99; code.work_len() + 3]);
    let answer = code.decode_near(word, marks, &mut message, &mut work);
    assert!(work[..code.work_len()].iter().all(|&b| b == 0) && work[code.work_len()..] == [99; 3]);
    assert!(answer.is_ok() || message.iter().all(|&b| b == 99));
    answer.map(|mended| (mended, message))
}

#[test]
fn decodes_near() {
    let near = |lost: &[usize]| decoded_near(classroom(), &WORD, &marked(lost));
    assert_eq!(near(&[]), Ok((0, vec![1; 4])));
    assert_eq!(near(&[4]), Ok((1, vec![1; 4])));
    assert_eq!(near(&[0, 3, 6]), Ok((3, vec![1; 4])));
    assert_eq!(near(&[0, 1, 2, 3]), Ok((1, vec![1; 4])));
    assert_eq!(near(&[2, 5, 6, 7, 8]), Ok((2, vec![1; 4])));
    assert_eq!(near(&[0, 1, 3, 4]), Ok((0, vec![1; 4])));
    // Groups that are spread, and a short last group.
    assert_eq!(decoded_near(wired(), &WIRED, &marked(&[3, 4, 5])), Ok((3, vec![1; 4])));
    assert_eq!(decoded_near(wired(), &WIRED, &marked(&[0, 1, 2, 3])), Ok((2, vec![1; 4])));
    assert_eq!(decoded_near(short(), &SHORT, &marked_short(&[0, 1, 2, 9])), Ok((1, vec![1, 2, 3, 4, 5])));
    assert_eq!(decoded_near(short(), &SHORT, &marked_short(&[2, 5, 8, 9, 10])), Ok((3, vec![1, 2, 3, 4, 5])));
    // Undecided, with a group that is mended and without one.
    assert_eq!(near(&[4, 5, 6, 7, 8]), Err(Refusal::Undecided));
    assert_eq!(near(&[2, 4, 5, 6, 7, 8]), Err(Refusal::Undecided));
    assert_eq!(near(&[0, 1, 2, 3, 4, 5, 6, 7, 8]), Err(Refusal::Undecided));
    // Foreign: with nothing lost, and where a group is mended from a wrong symbol.
    let other = [4, 8, 7, 1, 11, 2, 0, 0, 1];
    assert_eq!(decoded_near(classroom(), &other, &[0; 9]), Err(Refusal::Foreign));
    assert_eq!(decoded_near(classroom(), &other, &marked(&[7])), Err(Refusal::Foreign));
    // Codewords are one symbol nine times: two groups are mended, or one is left and the word refused.
    let equal = code(0, 2, 9, 1);
    assert_eq!(decoded_near(equal, &[99, 5, 5, 5, 99, 5, 99, 99, 5], &marked(&[0, 4, 6, 7])), Ok((2, vec![5])));
    assert_eq!(decoded_near(equal, &[99, 5, 7, 5, 99, 5, 99, 99, 5], &marked(&[0, 4, 6, 7])), Err(Refusal::Foreign));
}

#[test]
fn decode_near_asks_in_order() {
    let (marks, word) = (marked(&[0, 3, 6]), [99, 8, 7, 99, 11, 2, 99, 0, 0]);
    let (mut bad, mut large, mut foreign) = (marks, word, word);
    (bad[8], large[8], foreign[8]) = (2, 13, 1);
    // Lengths, then the marks, then the kept symbols, and only then whether some codeword has them.
    let refused = [
        (&word[..8], &marks[..], 4, 45, Refusal::Length),
        (&word[..], &marks[..8], 4, 45, Refusal::Length),
        (&word[..], &marks[..], 3, 45, Refusal::Length),
        (&word[..], &marks[..], 4, 44, Refusal::Length),
        (&large[..], &bad[..], 4, 44, Refusal::Length),
        (&large[..], &bad[..], 5, 45, Refusal::Length),
        (&large[..], &bad[..], 4, 45, Refusal::Mark),
        (&foreign[..], &bad[..], 4, 50, Refusal::Mark),
        (&large[..], &marks[..], 4, 45, Refusal::Symbol),
        (&large[..], &marked(&[0, 1, 2, 3, 4, 5, 6]), 4, 45, Refusal::Symbol),
    ];
    for (word, marks, k, room, refusal) in refused {
        let (mut message, mut work) = (vec![99; k], vec![99; room]);
        assert_eq!(classroom().decode_near(word, marks, &mut message, &mut work), Err(refusal));
        assert_eq!((message, work), (vec![99; k], vec![99; room]));
        let (mut message, mut work) = (vec![99; k], vec![99; room]);
        assert_eq!(classroom().decode(word, marks, &mut message, &mut work), Err(refusal));
    }
    assert_eq!(decoded_near(classroom(), &word, &marks), Ok((3, vec![1; 4])));
    assert_eq!(decoded_near(classroom(), &foreign, &marks), Err(Refusal::Foreign));
}

#[test]
fn grades_and_records() {
    assert_eq!(graded(classroom(), &marked(&[])), 0);
    assert_eq!(graded(classroom(), &marked(&[0, 3, 6])), 1);
    assert_eq!(graded(classroom(), &marked(&[0, 1, 2, 3])), 2);
    assert_eq!(graded(classroom(), &marked(&[2, 5, 6, 7, 8])), 3);
    assert_eq!(graded(classroom(), &marked(&[4, 5, 6, 7, 8])), 4);
    assert_eq!(graded(classroom(), &[1; 9]), 4);
    let (mut message, mut work) = ([0; 4], vec![0; classroom().work_len()]);
    let record = classroom().record(&WORD, &marked(&[2, 5, 6, 7, 8]), &mut message, &mut work).unwrap();
    assert_eq!((record.code, record.lost, record.sure, record.grade, record.first), (classroom(), 5, 4, 3, Some(2)));
    assert_eq!((record.outcome, message), (Outcome::Decided, [1; 4]));
    let record = classroom().record(&WORD, &[1; 9], &mut message, &mut work).unwrap();
    assert_eq!((record.outcome, record.grade, record.first), (Outcome::Undecided, 4, Some(0)));
    // The grade is of the marks: with group 0 kept a foreign word is foreign under grade 4 too.
    let other = [5, 8, 7, 1, 11, 2, 0, 0, 0];
    let record = classroom().record(&other, &marked(&[4, 5, 6, 7, 8]), &mut message, &mut work).unwrap();
    assert_eq!((record.outcome, record.grade, record.first), (Outcome::Foreign, 4, Some(1)));
    let foreign = [4, 8, 7, 1, 11, 2, 0, 0, 1];
    let record = classroom().record(&foreign, &[0; 9], &mut message, &mut work).unwrap();
    assert_eq!((record.outcome, record.first, message), (Outcome::Foreign, None, [1; 4]));
    let record = classroom().record(&WORD, &marked(&[0, 3, 6]), &mut message, &mut work).unwrap();
    assert_eq!((record.lost, record.grade, record.first), (3, 1, None));
}

#[test]
fn grade_borrows_work() {
    let marks = marked(&[2, 5, 6, 7, 8]);
    let mut bad = marks;
    bad[8] = 2;
    // Marks of n and work of n * (k + 1) at least are asked before the marks themselves, and a refusal leaves work.
    let refused = [
        (&marks[..], 44, Refusal::Length),
        (&marks[..8], 45, Refusal::Length),
        (&bad[..], 44, Refusal::Length),
        (&bad[..], 0, Refusal::Length),
        (&bad[..], 45, Refusal::Mark),
        (&bad[..], 50, Refusal::Mark),
    ];
    for (marks, room, refusal) in refused {
        let mut work = vec![99; room];
        assert_eq!(classroom().grade(marks, &mut work), Err(refusal));
        assert_eq!(work, vec![99; room]);
    }
}

/// The number lost, the grade and the first group that follow; marks stay, and work is left as a grade leaves it.
fn previewed(code: Code, slot: u32, marks: &[u8]) -> (u32, u32, Option<u32>) {
    let (before, mut work) = (marks.to_vec(), vec![99; code.work_len() + 3]);
    let Preview { lost, grade, first } = code.preview(slot, marks, &mut work).unwrap();
    assert!(work[..code.work_len()].iter().all(|&b| b == 0) && work[code.work_len()..] == [99; 3]);
    assert_eq!(marks, before);
    (lost, grade, first)
}

#[test]
fn previews() {
    assert_eq!(previewed(classroom(), 7, &[0; 9]), (1, 1, None));
    assert_eq!(previewed(classroom(), 3, &marked(&[0, 7])), (3, 1, None));
    assert_eq!(previewed(classroom(), 1, &marked(&[0])), (2, 2, Some(0)));
    assert_eq!(previewed(classroom(), 6, &marked(&[0, 1, 2, 3])), (5, 3, Some(0)));
    assert_eq!(previewed(classroom(), 4, &marked(&[0, 1, 2, 3])), (5, 4, Some(0)));
    assert_eq!(previewed(classroom(), 8, &marked(&[2, 5, 6, 7])), (5, 3, Some(2)));
    assert_eq!(previewed(classroom(), 8, &marked(&[4, 5, 6, 7])), (5, 4, Some(1)));
    // A slot that is lost already.
    assert_eq!(previewed(classroom(), 0, &marked(&[0, 1, 2, 3])), (4, 2, Some(0)));
    assert_eq!(previewed(classroom(), 8, &[1; 9]), (9, 4, Some(0)));
    // Groups that are spread, and a short last group.
    assert_eq!(previewed(wired(), 0, &marked(&[0, 1])), (2, 1, None));
    assert_eq!(previewed(wired(), 3, &marked(&[0, 1])), (3, 2, Some(0)));
    assert_eq!(previewed(wired(), 6, &marked(&[0, 1, 3, 4])), (5, 4, Some(0)));
    assert_eq!(previewed(short(), 10, &marked_short(&[0, 9])), (3, 2, Some(3)));
    assert_eq!(previewed(short(), 8, &marked_short(&[0, 5, 9, 10])), (5, 3, Some(3)));
    assert_eq!(previewed(code(1, 4, 8, 5), 0, &[0, 0, 0, 0, 0, 1, 1, 0]), (3, 3, Some(1)));
    assert_eq!(previewed(code(1, 4, 8, 5), 7, &[0, 0, 0, 0, 0, 1, 1, 0]), (3, 4, Some(1)));
}

#[test]
fn preview_asks_in_order() {
    let marks = marked(&[2, 5, 6, 7]);
    let mut bad = marks;
    bad[8] = 2;
    // Lengths, then the slot, then the marks; a refusal leaves work.
    let refused = [
        (8, &marks[..], 44, Refusal::Length),
        (9, &marks[..], 44, Refusal::Length),
        (9, &bad[..], 0, Refusal::Length),
        (9, &bad[..8], 45, Refusal::Length),
        (9, &marks[..], 45, Refusal::Slot),
        (9, &bad[..], 45, Refusal::Slot),
        (u32::MAX, &bad[..], 50, Refusal::Slot),
        (0, &bad[..], 45, Refusal::Mark),
        (8, &bad[..], 50, Refusal::Mark),
    ];
    for (slot, marks, room, refusal) in refused {
        let mut work = vec![99; room];
        assert_eq!(classroom().preview(slot, marks, &mut work), Err(refusal));
        assert_eq!(work, vec![99; room]);
    }
}

#[test]
fn previews_sheets() {
    let (mut sheet, mut text) = ([0; 44], [99; PREVIEW_TEXT + 1]);
    let all = b"slot 4 grade 4 first 0\nslot 5 grade 4 first 0\n\
                slot 6 grade 3 first 0\nslot 7 grade 3 first 0\nslot 8 grade 3 first 0\nsafe 6 7 8\n";
    // Symbols of no codeword change nothing.
    for word in [WORD, [4, 8, 7, 1, 11, 2, 0, 0, 1]] {
        classroom().write_sheet(&word, &marked(&[0, 1, 2, 3]), &mut sheet).unwrap();
        let length = preview_sheet(&sheet, &mut text).unwrap();
        assert_eq!(&text[..length], all);
        assert!(text[length..].iter().all(|&b| b == 99));
    }
    classroom().write_sheet(&WORD, &marked(&[2, 5, 6, 7, 8]), &mut sheet).unwrap();
    let length = preview_sheet(&sheet, &mut text).unwrap();
    let none =
        b"slot 0 grade 4 first 0\nslot 1 grade 4 first 0\nslot 3 grade 4 first 1\nslot 4 grade 4 first 1\nsafe\n";
    assert_eq!(&text[..length], none);
    sheet[0] = 0x12;
    let length = preview_sheet(&sheet, &mut text).unwrap();
    assert_eq!(&text[..length], b"refused 1\n");
    let before = text;
    assert_eq!(preview_sheet(&sheet, &mut text[..PREVIEW_TEXT - 1]), Err(Refusal::Length));
    assert_eq!(text, before);
}

#[test]
fn works_by_groups() {
    assert_eq!(classroom().view(4, &WORD).unwrap(), [1, 11, 2]);
    let (mut word, mut marks) = ([99, 8, 7, 1, 99, 2, 99, 99, 0], marked(&[0, 4, 6, 7]));
    assert_eq!(classroom().local_pass(&mut word, &mut marks), Ok(2));
    assert_eq!((word, marks), ([4, 8, 7, 1, 11, 2, 99, 99, 0], marked(&[6, 7])));
    let mut strip = [0; 2];
    classroom().rebuild(0, &[8, 9, 7, 6], &mut strip).unwrap();
    assert_eq!(strip, [4, 10]);
}

#[test]
fn encodes_and_repairs_wired() {
    assert_eq!(encoded(wired(), &[1, 1, 1, 1]).unwrap(), WIRED);
    assert_eq!(encoded(wired(), &[1, 2, 3, 4]).unwrap(), [10, 2, 3, 9, 8, 0, 6, 0, 4]);
    let bytes = Code::with_wiring(1, 2, 9, 5, 1).unwrap();
    assert_eq!(encoded(bytes, &[1, 2, 3, 4, 255]).unwrap(), [251, 108, 97, 51, 244, 1, 53, 176, 125]);
    // Message 1 is the polynomial X: the points. Exponents are 0 1 3 4.
    assert_eq!(encoded(wired(), &[0, 1, 0, 0]).unwrap(), [1, 2, 4, 3, 6, 12, 9, 5, 10]);
    assert_eq!(wired().repair(0, &[8, 7]), Ok(4)); // slots 3 and 6
    assert_eq!(wired().repair(4, &[1, 2]), Ok(11)); // slots 1 and 7
    for slot in 0..9 {
        let mates: Vec<u8> = wired().mates(slot).unwrap().map(|p| WIRED[p as usize]).collect();
        assert_eq!(wired().repair(slot, &mates), Ok(WIRED[slot as usize]));
        let (weights, mut strip) = (wired().weights(slot).unwrap(), [0]);
        let sum: u32 = weights.iter().zip(&mates).map(|(&w, &m)| u32::from(w) * u32::from(m)).sum();
        wired().rebuild(slot, &mates, &mut strip).unwrap();
        assert_eq!((sum % 13, strip), (u32::from(WIRED[slot as usize]), [WIRED[slot as usize]]));
    }
}

#[test]
fn decodes_and_grades_wired() {
    // A shelf, slots 3 to 5, has one of each group: the local pass repairs all of it.
    let (mut word, mut marks) = (WIRED, marked(&[3, 4, 5]));
    word[3..6].fill(99);
    assert_eq!(graded(wired(), &marks), 1);
    assert_eq!(wired().local_pass(&mut word, &mut marks), Ok(3));
    assert_eq!((word, marks), (WIRED, [0; 9]));
    // Group 1 is slots 1, 4 and 7: two of it are lost and stay so, slot 0 is mended.
    let (mut word, mut marks) = ([99, 1, 0, 8, 99, 0, 7, 99, 0], marked(&[0, 4, 7]));
    assert_eq!(wired().local_pass(&mut word, &mut marks), Ok(1));
    assert_eq!((word, marks), ([4, 1, 0, 8, 99, 0, 7, 99, 0], marked(&[4, 7])));
    let (mut message, mut work) = ([0; 4], vec![0; wired().work_len()]);
    let record = wired().record(&word, &marked(&[0, 3, 4, 7]), &mut message, &mut work).unwrap();
    assert_eq!((record.code, record.lost, record.sure, record.grade, record.first), (wired(), 4, 4, 2, Some(0)));
    assert_eq!((record.outcome, message), (Outcome::Decided, [1; 4]));
    let answer = wired().decode(&WIRED, &marked(&[1, 4, 7, 2, 5]), &mut message, &mut work);
    assert_eq!((answer, graded(wired(), &marked(&[1, 4, 7, 2, 5]))), (Err(Refusal::Undecided), 4));
    let answer = wired().decode(&WIRED, &marked(&[4, 5, 6, 7, 8]), &mut message, &mut work);
    assert_eq!((answer, graded(wired(), &marked(&[4, 5, 6, 7, 8]))), (Ok(()), 3));
    let all = wired().decode(&WIRED, &[1; 9], &mut message, &mut work);
    assert_eq!(all, Err(Refusal::Undecided));
    // The codeword of wiring 0 is foreign to wiring 1.
    assert_eq!(wired().decode(&WORD, &[0; 9], &mut message, &mut work), Err(Refusal::Foreign));
}

#[test]
fn encodes_short() {
    assert_eq!(encoded(short(), &[1, 2, 3, 4, 5]).unwrap(), SHORT);
    assert_eq!(encoded(short(), &[1, 1, 1, 1, 1]).unwrap(), [5, 5, 5, 5, 5, 5, 4, 5, 8, 1, 4]);
    // g = X^3 - 5 and h = X - 7: the message goes with g, g X, g^2, g^2 X and h.
    assert_eq!(encoded(short(), &[1, 0, 0, 0, 0]).unwrap(), [9, 9, 9, 3, 3, 3, 7, 7, 7, 0, 0]);
    assert_eq!(encoded(short(), &[0, 1, 0, 0, 0]).unwrap(), [9, 1, 3, 6, 5, 2, 2, 6, 5, 0, 0]);
    assert_eq!(encoded(short(), &[0, 0, 1, 0, 0]).unwrap(), [3, 3, 3, 9, 9, 9, 10, 10, 10, 0, 0]);
    assert_eq!(encoded(short(), &[0, 0, 0, 1, 0]).unwrap(), [3, 9, 1, 5, 2, 6, 1, 3, 9, 0, 0]);
    assert_eq!(encoded(short(), &[0, 0, 0, 0, 1]).unwrap(), [7, 9, 2, 8, 12, 11, 10, 5, 3, 1, 4]);
    // Two and three missing points, bytes, and a code that is one short group.
    assert_eq!(encoded(code(0, 3, 6, 3), &[1, 2, 3]).unwrap(), [4, 10, 8, 3, 8, 12]);
    assert_eq!(encoded(code(0, 5, 9, 6), &[1, 2, 3, 4, 5, 6]).unwrap(), [6, 4, 8, 0, 4, 10, 6, 4, 10]);
    assert_eq!(encoded(code(1, 4, 8, 5), &[1, 2, 3, 4, 255]).unwrap(), [184, 218, 169, 88, 134, 218, 144, 126]);
    assert_eq!(encoded(code(1, 4, 3, 2), &[1, 2]).unwrap(), [30, 202, 144]);
    assert_eq!(encoded(short(), &[1, 2, 3, 4]), Err(Refusal::Length));
    assert_eq!(encoded(short(), &[1, 2, 3, 4, 13]), Err(Refusal::Symbol));
}

#[test]
fn repairs_short() {
    assert_eq!((short().repair(9, &[7]), short().repair(10, &[5])), (Ok(5), Ok(7)));
    assert_eq!(short().repair(8, &[4, 8]), Ok(7));
    assert_eq!(short().weights(9).unwrap()[..3], [10, 0, 0]);
    assert_eq!(short().weights(10).unwrap()[..3], [4, 0, 0]);
    assert_eq!(short().weights(8).unwrap()[..3], [10, 4, 0]);
    let mut strip = [0; 3];
    short().rebuild(9, &[7, 4, 0], &mut strip).unwrap();
    assert_eq!(strip, [5, 1, 0]);
    let bytes = code(1, 4, 8, 5);
    assert_eq!(bytes.weights(7).unwrap()[..3], [146, 221, 0]);
    assert_eq!(bytes.repair(7, &[218, 144]), Ok(126));
    bytes.rebuild(6, &[10, 0, 1, 200, 0, 2], &mut strip).unwrap();
    assert_eq!(strip, [130, 0, 201]);
    // The last group has one mate for each slot, others have two, and two are wanted for what is no slot.
    assert_eq!(short().repair(9, &[7, 7]), Err(Refusal::Length));
    assert_eq!(short().repair(8, &[4]), Err(Refusal::Length));
    assert_eq!(short().repair(11, &[7]), Err(Refusal::Length));
    assert_eq!(short().repair(11, &[7, 7]), Err(Refusal::Slot));
    assert_eq!(short().repair(10, &[13]), Err(Refusal::Symbol));
    assert_eq!(short().rebuild(10, &[5; 6], &mut strip), Err(Refusal::Length));
    assert_eq!(short().rebuild(11, &[5; 3], &mut strip), Err(Refusal::Length));
    assert_eq!(short().rebuild(11, &[5; 6], &mut strip), Err(Refusal::Slot));
}

#[test]
fn works_by_groups_short() {
    assert_eq!(short().view(9, &SHORT).unwrap(), [5, 7]);
    assert_eq!(short().view(10, &SHORT).unwrap(), [5, 7]);
    assert_eq!(short().view(8, &SHORT).unwrap(), [4, 8, 7]);
    assert_eq!(short().view(11, &SHORT), Err(Refusal::Slot));
    // Groups 0 and 3 have one loss each, group 1 has two.
    let (mut word, mut marks) = (SHORT, marked_short(&[0, 3, 4, 9]));
    [0, 3, 4, 9].into_iter().for_each(|p| word[p] = 99);
    assert_eq!(short().local_pass(&mut word, &mut marks), Ok(2));
    assert_eq!((word, marks), ([5, 10, 12, 99, 99, 9, 4, 8, 7, 5, 7], marked_short(&[3, 4])));
    // With both of its slots lost the last group has none that mends it.
    let (mut word, mut marks) = (SHORT, marked_short(&[9, 10]));
    assert_eq!(short().local_pass(&mut word, &mut marks), Ok(0));
    assert_eq!((word, marks), (SHORT, marked_short(&[9, 10])));
}

#[test]
fn decodes_and_grades_short() {
    let decoded = |lost: &[usize]| {
        let (mut word, marks) = (SHORT, marked_short(lost));
        lost.iter().for_each(|&p| word[p] = 99);
        let (mut message, mut work) = ([0; 5], vec![0; short().work_len()]);
        let record = short().record(&word, &marks, &mut message, &mut work).unwrap();
        assert_eq!((record.code, record.lost, record.sure), (short(), lost.len() as u32, 4));
        let decided = short().decode(&word, &marks, &mut message, &mut work) == Ok(());
        assert_eq!(record.outcome, if decided { Outcome::Decided } else { Outcome::Undecided });
        assert!(!decided || message == [1, 2, 3, 4, 5]);
        assert_eq!(graded(short(), &marks), record.grade);
        (decided, record.grade, record.first)
    };
    assert_eq!(decoded(&[]), (true, 0, None));
    assert_eq!(decoded(&[0, 3, 6, 10]), (true, 1, None));
    assert_eq!(decoded(&[9, 10]), (true, 2, Some(3)));
    assert_eq!(decoded(&[0, 1, 2, 9]), (true, 2, Some(0)));
    assert_eq!(decoded(&[2, 5, 8, 9, 10]), (true, 3, Some(3)));
    assert_eq!(decoded(&[0, 1, 2, 9, 10]), (false, 4, Some(0)));
    assert_eq!(decoded(&[0, 1, 2, 3, 4]), (false, 4, Some(0)));
    let bytes = code(1, 4, 8, 5);
    assert_eq!(graded(bytes, &[0, 0, 0, 0, 0, 1, 1, 0]), 2);
    assert_eq!(graded(bytes, &[1, 0, 0, 0, 0, 1, 1, 0]), 3);
    assert_eq!(graded(bytes, &[0, 0, 0, 0, 0, 1, 1, 1]), 4);
    assert_eq!(graded(bytes, &[1, 1, 1, 0, 0, 0, 0, 0]), 4);
    let (mut word, mut message, mut work) = (SHORT, [0; 5], vec![0; short().work_len()]);
    word[10] = 8;
    assert_eq!(short().decode(&word, &[0; 11], &mut message, &mut work), Err(Refusal::Foreign));
}

#[test]
fn refuses_short_codes() {
    let refusal = |field, r, n, k, wiring| Code::with_wiring(field, r, n, k, wiring).err().map(Refusal::number);
    // One slot is no group, and r 1 leaves no other remainder.
    assert_eq!((refusal(0, 2, 1, 1, 0), refusal(0, 2, 10, 4, 0), refusal(0, 1, 11, 5, 0)), (Some(3), Some(3), Some(3)));
    assert_eq!(
        (refusal(0, 2, 0, 0, 0), refusal(0, 2, 14, 5, 0), refusal(1, 16, 257, 5, 0)),
        (Some(3), Some(3), Some(3))
    );
    // k is from s - 1 to n less the groups.
    assert_eq!((refusal(0, 2, 11, 0, 0), refusal(0, 2, 11, 1, 0)), (Some(4), None));
    assert_eq!((refusal(0, 2, 11, 7, 0), refusal(0, 2, 11, 8, 0)), (None, Some(4)));
    assert_eq!((refusal(1, 4, 8, 1, 0), refusal(1, 4, 8, 2, 0)), (Some(4), None));
    assert_eq!((refusal(1, 4, 3, 1, 0), refusal(1, 4, 3, 2, 0), refusal(1, 4, 3, 3, 0)), (Some(4), None, Some(4)));
    // A short last group wants wiring 0, and 4 is asked before.
    assert_eq!((refusal(0, 2, 11, 5, 1), refusal(0, 2, 11, 5, 2)), (Some(17), Some(17)));
    assert_eq!(refusal(0, 2, 11, 8, 1), Some(4));
}

#[test]
fn reads_and_writes_short_sheets() {
    let (mut sheet, mut text) = ([0; 52], [0; 1032]);
    short().write_sheet(&SHORT, &marked_short(&[0, 9]), &mut sheet).unwrap();
    assert_eq!(sheet[..12], [0x10, 2, 11, 5, 0x30, 0, 0, 0, 0x20, 0, 1, 10]);
    assert_eq!(sheet[40..], [0x30, 0, 9, 0, 0x20, 0, 10, 7, 0x40, 0, 0, 11]);
    let (mut word, mut marks) = ([9; 255], [9; 255]);
    assert_eq!(read_sheet(&sheet, &mut word, &mut marks), Ok(short()));
    assert_eq!(word[..12], [0, 10, 12, 11, 4, 9, 4, 8, 7, 0, 7, 9]);
    let length = report(&sheet, &mut text).unwrap();
    assert_eq!(&text[..length], b"code 0 2 11 5\nlost 2 sure 4 grade 1 first 255\nmessage 1 2 3 4 5\n");
    sheet[0] = 0x18;
    assert_eq!(read_sheet(&sheet, &mut word, &mut marks), Err(Refusal::Wiring));
    sheet[3] = 8;
    assert_eq!(read_sheet(&sheet, &mut word, &mut marks), Err(Refusal::K));
}

#[test]
fn refuses_wirings() {
    let refusal = |field, r, n, k, wiring| Code::with_wiring(field, r, n, k, wiring).err().map(Refusal::number);
    assert_eq!((refusal(0, 2, 9, 4, 1), refusal(0, 2, 9, 4, 2)), (None, Some(17)));
    assert_eq!((refusal(0, 2, 9, 7, 2), refusal(0, 2, 10, 4, 1)), (Some(4), Some(3)));
    assert_eq!(wired().view(4, &WIRED), Err(Refusal::ViewWired));
    assert_eq!(wired().view(9, &[]), Err(Refusal::ViewWired));
}

#[test]
fn reads_and_writes_wired_sheets() {
    let (mut sheet, mut text) = ([0; 44], [0; 1032]);
    wired().write_sheet(&WIRED, &marked(&[0, 3]), &mut sheet).unwrap();
    assert_eq!(sheet[..16], [0x18, 2, 9, 4, 0x30, 0, 0, 0, 0x20, 0, 1, 1, 0x20, 0, 2, 0]);
    let (mut word, mut marks) = ([9; 255], [9; 255]);
    assert_eq!(read_sheet(&sheet, &mut word, &mut marks), Ok(wired()));
    assert_eq!(
        (&word[..10], &marks[..10]),
        (&[0, 1, 0, 0, 11, 0, 7, 2, 0, 9][..], &[1, 0, 0, 1, 0, 0, 0, 0, 0, 9][..])
    );
    let length = report(&sheet, &mut text).unwrap();
    assert_eq!(&text[..length], b"code 0 2 9 4 1\nlost 2 sure 4 grade 2 first 0\nmessage 1 1 1 1\n");
    // Fields 2 to 7 are no fields, wired or not.
    for first in (0x12..=0x17).chain(0x1a..=0x1f) {
        sheet[0] = first;
        assert_eq!(read_sheet(&sheet, &mut word, &mut marks), Err(Refusal::Field));
    }
}

#[test]
fn refuses_codes() {
    let refusal = |field, r, n, k| Code::new(field, r, n, k).err().map(Refusal::number);
    assert_eq!(refusal(2, 2, 9, 4), Some(1));
    assert_eq!((refusal(0, 4, 10, 4), refusal(1, 4, 10, 4)), (Some(2), None));
    assert_eq!((refusal(0, 2, 12, 4), refusal(0, 2, 10, 4), refusal(0, 2, 15, 4)), (None, Some(3), Some(3)));
    assert_eq!((refusal(0, 2, 9, 6), refusal(0, 2, 9, 7), refusal(0, 2, 9, 0)), (None, Some(4), Some(4)));
    assert_eq!(refusal(1, 16, 255, 240), None);
}

#[test]
fn reads_and_writes_sheets() {
    let sheet = [0x10, 2, 3, 1, 0x20, 0, 0, 5, 0x30, 0, 1, 0, 0x20, 0, 2, 5, 0x40, 0, 0, 3];
    let (mut word, mut marks, mut text) = ([9; 255], [9; 255], [0; 1032]);
    let read = read_sheet(&sheet, &mut word, &mut marks).unwrap();
    assert_eq!(read, code(0, 2, 3, 1));
    assert_eq!((&word[..4], &marks[..4]), (&[5, 0, 5, 9][..], &[0, 1, 0, 9][..]));
    let mut written = [0; 20];
    read.write_sheet(&word[..3], &marks[..3], &mut written).unwrap();
    assert_eq!(written, sheet);
    let length = report(&sheet, &mut text).unwrap();
    assert_eq!(&text[..length], b"code 0 2 3 1\nlost 1 sure 2 grade 1 first 255\nmessage 5\n");
    assert_eq!(read_sheet(&[], &mut word, &mut marks), Err(Refusal::SheetStart));
    assert_eq!(read_sheet(&[0; 5], &mut word, &mut marks), Err(Refusal::SheetLength));
    assert_eq!(report(&sheet, &mut text[..1031]), Err(Refusal::Length));
}
