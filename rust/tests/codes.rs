//! What the crate works out of a code's numbers, against the library, over every code there is.

use latsefidy::{Code, Refusal};
use std::iter::StepBy;
use std::ops::Range;

/// The number of nonzero symbols of a field.
fn nonzero(field: u32) -> u32 {
    [12, 255][field as usize]
}

/// Questions 1 to 4 and 17, from the specification.
fn refusal(field: u32, r: u32, n: u32, k: u32, wiring: u32) -> Option<Refusal> {
    let (groups, left) = (n.div_ceil(r + 1), n % (r + 1));
    let least = if left == 0 { 1 } else { left - 1 };
    if field > 1 {
        Some(Refusal::Field)
    } else if ![&[1, 2, 3, 5, 11][..], &[2, 4, 14, 16]][field as usize].contains(&r) {
        Some(Refusal::R)
    } else if n == 0 || left == 1 || groups * (r + 1) > nonzero(field) {
        Some(Refusal::N)
    } else if !(least..=n - groups).contains(&k) {
        Some(Refusal::K)
    } else if wiring > 1 || (wiring == 1 && left > 0) {
        Some(Refusal::Wiring)
    } else {
        None
    }
}

/// Every code of a field with wiring 0.
fn codes(field: u32) -> impl Iterator<Item = Code> {
    let numbers = (1..=16).flat_map(move |r| (1..=nonzero(field)).map(move |n| (r, n)));
    numbers.flat_map(move |(r, n)| (1..=n).filter_map(move |k| Code::new(field, r, n, k).ok()))
}

/// Whether the last group has less than r + 1 slots.
fn is_short(code: &Code) -> bool {
    code.last_group_size() < code.group_size()
}

/// Every code of a field with whole groups and wiring 0.
fn whole(field: u32) -> impl Iterator<Item = Code> {
    codes(field).filter(|code| !is_short(code))
}

/// A code of a field for each r and n, with the smallest k.
fn lengths(field: u32) -> impl Iterator<Item = Code> {
    codes(field).filter(|c| Code::new(c.field(), c.r(), c.n(), c.k() - 1).is_err())
}

/// The same code with wiring 1.
fn wired(code: Code) -> Code {
    Code::with_wiring(code.field(), code.r(), code.n(), code.k(), 1).unwrap()
}

#[test]
fn new_asks_what_the_specification_asks() {
    for field in 0..=2 {
        for r in 0..=18 {
            for n in (0..=40).chain(250..=260) {
                for k in (0..=40).chain(235..=245) {
                    assert_eq!(Code::new(field, r, n, k).err(), refusal(field, r, n, k, 0), "{field} {r} {n} {k}");
                    for w in 0..=2 {
                        let found = Code::with_wiring(field, r, n, k, w).err();
                        assert_eq!(found, refusal(field, r, n, k, w), "{field} {r} {n} {k} {w}");
                    }
                }
            }
        }
    }
    let most = u32::MAX;
    assert_eq!(Code::new(most, 2, 9, 4), Err(Refusal::Field));
    assert_eq!(Code::new(0, most, 9, 4), Err(Refusal::R));
    assert_eq!(Code::new(0, 2, most, 4), Err(Refusal::N));
    assert_eq!(Code::new(0, 2, 9, most), Err(Refusal::K));
    assert_eq!(Code::with_wiring(0, 2, 9, 4, most), Err(Refusal::Wiring));
}

#[test]
fn there_are_as_many_codes_as_the_rules_allow() {
    assert_eq!(whole(0).count(), 85);
    assert_eq!(whole(1).count(), 7_310 + 5_304 + 2_142 + 1_920); // r 2, 4, 14, 16
    assert_eq!(codes(0).filter(is_short).count(), 16 + 24 + 28 + 10); // r 2, 3, 5, 11
    assert_eq!(codes(1).filter(is_short).count(), 7_225 + 15_453 + 24_973 + 25_425);
}

#[test]
fn getters_give_the_numbers_back() {
    let code = Code::new(1, 4, 20, 12).unwrap();
    assert_eq!((code.field(), code.r(), code.n(), code.k(), code.wiring()), (1, 4, 20, 12, 0));
    assert_eq!(wired(code).wiring(), 1);
    assert_ne!(wired(code), code);
}

#[test]
fn guarantee_agrees_with_the_record() {
    let short = codes(1).filter(|code| is_short(code) && code.k() % 8 == 0);
    for code in codes(0).chain(whole(1)).chain(short).chain(whole(0).map(wired)) {
        let (zeros, mut message) = (vec![0; code.n() as usize], vec![0; code.k() as usize]);
        let record = code.record(&zeros, &zeros, &mut message, &mut vec![0; code.work_len()]).unwrap();
        assert_eq!((record.code, record.sure), (code, code.guarantee()));
    }
}

#[test]
fn work_is_just_enough() {
    let large = [(2, 255, 170), (16, 255, 240), (16, 250, 230)].map(|(r, n, k)| Code::new(1, r, n, k).unwrap());
    for code in codes(0).chain(large) {
        let (zeros, mut message) = (vec![0; code.n() as usize], vec![0; code.k() as usize]);
        let mut work = vec![0; code.work_len()];
        assert_eq!(code.decode(&zeros, &zeros, &mut message, &mut work), Ok(()));
        assert_eq!(code.decode(&zeros, &zeros, &mut message, &mut work[1..]), Err(Refusal::Length));
        assert_eq!(code.decode_near(&zeros, &zeros, &mut message, &mut work), Ok(0));
        assert_eq!(code.decode_near(&zeros, &zeros, &mut message, &mut work[1..]), Err(Refusal::Length));
    }
}

/// The slots of a slot's group, as the library sees them: a view of the word that holds slot p at p.
fn viewed(code: Code, slot: u32) -> Vec<u32> {
    let word: Vec<u8> = (0..code.n() as u8).collect();
    code.view(slot, &word).unwrap().iter().map(|&p| u32::from(p)).collect()
}

#[test]
fn groups_and_mates_agree_with_the_view() {
    for code in codes(0).chain(lengths(1)) {
        let groups: Vec<Vec<u32>> = code.groups().map(|group| group.collect()).collect();
        assert_eq!(groups.concat(), (0..code.n()).collect::<Vec<_>>());
        assert_eq!(code.groups().len(), groups.len());
        let (last, others) = groups.split_last().unwrap();
        assert_eq!(last.len(), code.last_group_size() as usize);
        assert!(others.iter().all(|group| group.len() == code.group_size() as usize));
        for slot in 0..code.n() {
            let group = viewed(code, slot);
            assert_eq!(groups[code.group_of(slot).unwrap() as usize], group);
            let mates: Vec<u32> = group.into_iter().filter(|&p| p != slot).collect();
            assert_eq!(code.mates(slot).unwrap().collect::<Vec<_>>(), mates);
        }
    }
}

/// As many mates as a slot has are wanted, and weighed; a slot of n or more wants r.
#[test]
fn mates_are_as_many_as_the_library_wants() {
    for code in codes(0).chain(lengths(1).filter(|code| code.n() < 40)) {
        for slot in 0..code.n() + 2 {
            let mates = code.mates(slot).map_or(code.r() as usize, |mates| mates.count());
            for count in 0..=17 {
                let strips = vec![0; 3 * count];
                let expected = match () {
                    _ if count != mates => Err(Refusal::Length),
                    _ if slot >= code.n() => Err(Refusal::Slot),
                    _ => Ok(()),
                };
                assert_eq!(code.repair(slot, &strips[..count]).map(|symbol| assert_eq!(symbol, 0)), expected);
                assert_eq!(code.rebuild(slot, &strips, &mut [1; 3]), expected);
            }
            if let Ok(weights) = code.weights(slot) {
                assert!(weights[..mates].iter().all(|&w| w > 0) && weights[mates..].iter().all(|&w| w == 0));
            }
        }
    }
}

/// What is lost comes back, of short codes too: one of each group by repair, and all within the guarantee.
#[test]
fn losses_come_back() {
    let large = [(2, 254, 160), (4, 248, 196), (14, 250, 220), (16, 250, 230)];
    let large = large.map(|(r, n, k)| Code::new(1, r, n, k).unwrap());
    for code in codes(0).chain(lengths(1).filter(|code| code.n() < 40)).chain(large) {
        let q = nonzero(code.field()) + 1;
        let message: Vec<u8> = (0..code.k()).map(|m| ((7 * m + 1) % q) as u8).collect();
        let mut word = vec![0; code.n() as usize];
        code.encode(&message, &mut word).unwrap();
        for slot in 0..code.n() {
            let mates: Vec<u8> = code.mates(slot).unwrap().map(|p| word[p as usize]).collect();
            assert_eq!(code.repair(slot, &mates), Ok(word[slot as usize]), "{code:?} slot {slot}");
        }
        // As many lost slots as the guarantee, the first, the last and the middle ones.
        let sure = code.guarantee() as usize;
        for first in [0, word.len() - sure, (word.len() - sure) / 2] {
            let (mut lost, mut marks) = (word.clone(), vec![0; word.len()]);
            lost[first..first + sure].fill(255);
            marks[first..first + sure].fill(1);
            let (mut back, mut work) = (vec![0; message.len()], vec![0; code.work_len()]);
            assert_eq!(code.decode(&lost, &marks, &mut back, &mut work), Ok(()), "{code:?} from {first}");
            assert_eq!(back, message);
        }
        // The last slot of each group.
        let (mut lost, mut marks) = (word.clone(), vec![0; word.len()]);
        for last in code.groups().map(|mut group| group.next_back().unwrap() as usize) {
            (lost[last], marks[last]) = (255, 1);
        }
        assert_eq!(code.grade(&marks, &mut vec![99; code.work_len()]), Ok(1));
        assert_eq!(code.local_pass(&mut lost, &mut marks), Ok(code.groups().len() as u32));
        assert_eq!((lost, marks), (word, vec![0; code.n() as usize]));
    }
}

/// Numbers below a bound, the same in every run.
fn numbers(mut state: u32) -> impl FnMut(usize) -> usize {
    move |bound| {
        state ^= state << 13;
        state ^= state >> 17;
        state ^= state << 5;
        state as usize % bound
    }
}

/// Encode_strips writes, column by column, what encode writes, at lengths about those where it takes another way; under any
/// refusal it writes nothing.
#[test]
fn strips_are_columns() {
    let large = [(2, 255, 170), (4, 20, 12), (4, 8, 5), (14, 45, 6), (16, 255, 240), (16, 250, 230)];
    let large: Vec<Code> = large.map(|(r, n, k)| Code::new(1, r, n, k).unwrap()).into();
    let spread = large.iter().copied().filter(|code| !is_short(code)).map(wired).collect::<Vec<_>>();
    let mut below = numbers(2014);
    for code in codes(0).chain(whole(0).map(wired)).chain(large).chain(spread) {
        let (n, k, q) = (code.n() as usize, code.k() as usize, nonzero(code.field()) as usize + 1);
        let longest = if code.field() == 0 { 300 } else { 4096 };
        for l in [1, 2, 7, 8, 9, 63, 64, 65, 129, longest] {
            let messages: Vec<u8> = (0..k * l).map(|_| below(q) as u8).collect();
            let (mut codewords, mut codeword) = (vec![99; n * l], vec![99; n]);
            assert_eq!(code.encode_strips(&messages, &mut codewords), Ok(()), "{code:?} {l}");
            for c in 0..l {
                let message: Vec<u8> = messages.iter().skip(c).step_by(l).copied().collect();
                code.encode(&message, &mut codeword).unwrap();
                assert!(codewords.iter().skip(c).step_by(l).eq(&codeword), "{code:?} {l} column {c}");
            }
        }
        for (messages, codewords) in [(0, 0), (k, n + 1), (k + 1, n), (2 * k, n), (k * 4097, n * 4097)] {
            let mut room = vec![99; codewords];
            assert_eq!(code.encode_strips(&vec![0; messages], &mut room), Err(Refusal::Length), "{code:?}");
            assert!(room.iter().all(|&b| b == 99));
        }
        let (mut messages, mut room) = (vec![0; k * 9], vec![99; n * 9]);
        messages[below(k * 9)] = 13;
        let refusal = if code.field() == 0 { Err(Refusal::Symbol) } else { Ok(()) };
        assert_eq!(code.encode_strips(&messages, &mut room), refusal, "{code:?}");
        assert!(refusal.is_ok() || room.iter().all(|&b| b == 99));
    }
}

/// Decode_near refuses what decode refuses and leaves the message and work that decode leaves; its number is that of the
/// groups with exactly one loss. Of random losses, with anything in the lost slots, and of codewords and changed ones.
#[test]
fn near_is_decode() {
    let large = [(2, 255, 170), (4, 60, 40), (4, 58, 39), (14, 45, 6), (16, 255, 200), (16, 250, 12)];
    let large: Vec<Code> = large.map(|(r, n, k)| Code::new(1, r, n, k).unwrap()).into();
    let spread = large.iter().copied().filter(|code| !is_short(code)).map(wired).collect::<Vec<_>>();
    let mut below = numbers(2014);
    let (mut refused, mut mended) = ([0; 11], 0);
    for code in codes(0).chain(whole(0).map(wired)).chain(large).chain(spread) {
        let (n, q) = (code.n() as usize, nonzero(code.field()) as usize + 1);
        for round in 0..24 {
            let message: Vec<u8> = (0..code.k()).map(|_| below(q) as u8).collect();
            let (mut word, mut marks) = (vec![0; n], vec![0; n]);
            code.encode(&message, &mut word).unwrap();
            // One in each group, or any; past the guarantee too.
            if round % 3 == 0 {
                code.groups().for_each(|group| marks[Vec::from_iter(group.clone())[below(group.len())] as usize] = 1);
            }
            (0..below(n - code.k() as usize + 2)).for_each(|_| marks[below(n)] = 1);
            if round % 4 == 0 {
                word[below(n)] = below(q) as u8;
            }
            (0..n).filter(|&p| marks[p] == 1).for_each(|p| word[p] = below(256) as u8);
            let (mut near, mut far) = (vec![99; message.len()], vec![99; message.len()]);
            let (mut room, mut work) = (vec![99; code.work_len() + 1], vec![99; code.work_len() + 1]);
            let single = |group: &StepBy<Range<u32>>| group.clone().filter(|&p| marks[p as usize] == 1).count() == 1;
            let answer = code.decode(&word, &marks, &mut far, &mut work);
            let expected = answer.map(|()| code.groups().filter(single).count() as u32);
            assert_eq!(code.decode_near(&word, &marks, &mut near, &mut room), expected, "{code:?} {word:?} {marks:?}");
            assert_eq!((near, room), (far, work), "{code:?} {word:?} {marks:?}");
            refused[answer.map_or_else(|refusal| refusal.number() as usize, |()| 0)] += 1;
            mended += expected.unwrap_or(0);
        }
    }
    assert!(refused[0] > 1000 && refused[9] > 100 && refused[10] > 100 && mended > 1000, "{refused:?} {mended}");
    assert_eq!(refused[1..9], [0; 8]);
}

/// A codeword's mates with one symbol changed are refused in whole groups where k is below r: all of them where no group is
/// short, else some. Where k is r or more, and in a short last group, none are.
#[test]
fn changed_mates_are_refused() {
    let large = [(4, 20, 3), (14, 45, 6), (16, 255, 8), (16, 250, 12)].map(|(r, n, k)| Code::new(1, r, n, k).unwrap());
    for code in codes(0).chain(whole(0).map(wired)).chain(large) {
        let q = nonzero(code.field()) + 1;
        let message: Vec<u8> = (0..code.k()).map(|m| ((5 * m + 2) % q) as u8).collect();
        let mut word = vec![0; code.n() as usize];
        code.encode(&message, &mut word).unwrap();
        for slot in (0..code.n()).step_by(if code.n() < 100 { 1 } else { 16 }) {
            let mates: Vec<u8> = code.mates(slot).unwrap().map(|p| word[p as usize]).collect();
            let told = code.k() < code.r() && mates.len() == code.r() as usize;
            let mut refused = 0;
            for at in 0..mates.len() {
                let (mut changed, mut out) = (mates.clone(), [99]);
                changed[at] = ((u32::from(changed[at]) + 1) % q) as u8;
                let answer = code.repair(slot, &changed);
                assert!(
                    answer.is_ok() || (told && answer == Err(Refusal::Foreign)),
                    "{code:?} slot {slot}: {answer:?}"
                );
                assert_eq!(code.rebuild(slot, &changed, &mut out).map(|()| out[0]), answer);
                assert!(answer.is_ok() || out == [99]);
                refused += usize::from(answer.is_err());
            }
            assert!(
                !told || refused > 0 && (is_short(&code) || refused == mates.len()),
                "{code:?} slot {slot}: {refused}"
            );
        }
    }
}

/// Grade 4 is where decode cannot tell, and up to grade 3 the message comes back: slots side by side, and every other one.
#[test]
fn grades_say_what_decodes() {
    let large = [Code::new(1, 4, 60, 40).unwrap(), Code::with_wiring(1, 4, 60, 40, 1).unwrap()];
    let mut seen = [0; 5];
    for code in codes(0).chain(whole(0).map(wired)).chain(large) {
        let (n, sure) = (code.n() as usize, code.guarantee() as usize);
        let message = vec![1; code.k() as usize];
        let (mut word, mut work) = (vec![0; n], vec![0; code.work_len()]);
        code.encode(&message, &mut word).unwrap();
        for (lost, step) in (0..=n).flat_map(|lost| [(lost, 1), (lost, 2)]) {
            let (mut marks, mut back) = (vec![0; n], vec![0; message.len()]);
            (0..n).step_by(step).take(lost).for_each(|slot| marks[slot] = 1);
            let gone = marks.iter().filter(|&&mark| mark == 1).count();
            let grade = code.grade(&marks, &mut work).unwrap();
            let expected = if grade == 4 { Err(Refusal::Undecided) } else { Ok(()) };
            assert_eq!(code.decode(&word, &marks, &mut back, &mut work), expected, "{code:?} {marks:?}");
            assert!(grade == 4 || back == message, "{code:?} {marks:?}");
            assert!(if gone <= sure { grade <= 2 } else { [1, 3, 4].contains(&grade) }, "{code:?} {marks:?}");
            seen[grade as usize] += 1;
        }
    }
    assert!(seen.iter().all(|&count| count > 0), "{seen:?}");
}

/// A preview is the count, the grade and the first broken group of the marks with the slot marked, and marks nothing.
#[test]
fn previews_say_what_follows() {
    let large = [Code::new(1, 4, 60, 40).unwrap(), Code::with_wiring(1, 4, 60, 40, 1).unwrap()];
    let mut seen = [[0; 5]; 5];
    for code in codes(0).chain(whole(0).map(wired)).chain(large) {
        let n = code.n() as usize;
        let (word, mut message) = (vec![0; n], vec![0; code.k() as usize]);
        let mut work = vec![0; code.work_len()];
        for (lost, step) in (0..n).flat_map(|lost| [(lost, 1), (lost, 2)]) {
            let mut marks = vec![0; n];
            (0..n).step_by(step).take(lost).for_each(|slot| marks[slot] = 1);
            let grade = code.grade(&marks, &mut work).unwrap();
            for slot in [0, lost, n / 2, n - 1] {
                let mut copy = marks.clone();
                copy[slot] = 1;
                let found = code.preview(slot as u32, &marks, &mut work).unwrap();
                let record = code.record(&word, &copy, &mut message, &mut work).unwrap();
                let expected = (record.lost, record.grade, record.first);
                assert_eq!((found.lost, found.grade, found.first), expected, "{code:?} {marks:?} {slot}");
                assert!(found.grade >= grade && (marks[slot] == 0 || found.grade == grade));
                seen[grade as usize][found.grade as usize] += 1;
            }
        }
    }
    for (grade, next) in [(0, 1), (1, 1), (1, 2), (1, 3), (1, 4), (2, 2), (2, 3), (2, 4), (3, 3), (3, 4), (4, 4)] {
        assert!(seen[grade][next] > 0, "{seen:?}");
    }
}

/// Member i of group g, by the first k unit messages: its symbols are the same under both wirings.
#[test]
fn wired_members_have_the_symbols_of_their_places() {
    let large = [Code::new(1, 4, 60, 40).unwrap(), Code::new(1, 16, 255, 240).unwrap()];
    for code in whole(0).chain(large) {
        let wired = wired(code);
        let (mut plain, mut spread) = (vec![0; code.n() as usize], vec![0; code.n() as usize]);
        for m in [0, code.k() / 2, code.k() - 1] {
            let mut message = vec![0; code.k() as usize];
            message[m as usize] = 1;
            code.encode(&message, &mut plain).unwrap();
            wired.encode(&message, &mut spread).unwrap();
            for (slots, others) in code.groups().zip(wired.groups()) {
                assert!(slots.zip(others).all(|(p, w)| plain[p as usize] == spread[w as usize]), "{wired:?}");
            }
        }
    }
}

#[test]
fn wired_groups_are_spread() {
    for code in whole(0).chain(whole(1).filter(|c| c.k() == 1)).map(wired) {
        let count = code.n() / code.group_size();
        assert_eq!(code.groups().len(), count as usize);
        for (number, group) in (0..).zip(code.groups()) {
            let group: Vec<u32> = group.collect();
            assert_eq!(group, (0..code.group_size()).map(|member| number + member * count).collect::<Vec<_>>());
            for &slot in &group {
                assert_eq!(code.group_of(slot), Ok(number));
                let mates: Vec<u32> = group.iter().copied().filter(|&p| p != slot).collect();
                assert_eq!(code.mates(slot).unwrap().collect::<Vec<_>>(), mates);
                assert_eq!(code.view(slot, &[]), Err(Refusal::ViewWired));
            }
        }
    }
}

#[test]
fn slots_of_n_or_more_are_refused() {
    for code in codes(0).chain(whole(0).map(wired)) {
        for slot in [code.n(), code.n() + 1, u32::MAX] {
            assert_eq!(code.weights(slot), Err(Refusal::Slot));
            assert_eq!(code.group_of(slot), Err(Refusal::Slot));
            assert_eq!(code.mates(slot).err(), Some(Refusal::Slot));
            let (marks, mut work) = (vec![0; code.n() as usize], vec![0; code.work_len()]);
            assert_eq!(code.preview(slot, &marks, &mut work), Err(Refusal::Slot));
        }
    }
}

#[test]
fn an_unmarked_wrong_symbol_can_decode_to_another_message() {
    let code = Code::new(0, 2, 3, 1).unwrap();
    let (mut word, mut message, mut work) = ([0; 3], [0], [0; 6]);
    code.encode(&[5], &mut word).unwrap();
    word[0] = 6;
    assert_eq!(code.decode(&word, &[0, 1, 1], &mut message, &mut work), Ok(()));
    assert_eq!(message, [6]);
}
