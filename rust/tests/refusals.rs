//! Refusals: their numbers, names and sentences.

use latsefidy::Refusal;

const NAMED: [Refusal; 17] = [
    Refusal::Field,
    Refusal::R,
    Refusal::N,
    Refusal::K,
    Refusal::Length,
    Refusal::Symbol,
    Refusal::Slot,
    Refusal::Mark,
    Refusal::Foreign,
    Refusal::Undecided,
    Refusal::SheetLength,
    Refusal::SheetStart,
    Refusal::SheetCount,
    Refusal::SheetSlot,
    Refusal::SheetEnd,
    Refusal::Wiring,
    Refusal::ViewWired,
];

#[test]
fn numbers_have_their_names() {
    for (number, refusal) in (1..=15).chain([17, 18]).zip(NAMED) {
        assert_eq!((refusal.number(), Refusal::from_number(number)), (number, Some(refusal)));
    }
}

#[test]
fn no_number_is_lost() {
    assert_eq!(Refusal::from_number(0), None);
    for number in (1..=300).chain([u32::MAX]) {
        assert_eq!(Refusal::from_number(number).map(Refusal::number), Some(number));
    }
    assert_eq!(Refusal::from_number(16), Some(Refusal::Other(16)));
}

#[test]
fn sentences_differ_and_stand_with_their_number() {
    for (i, refusal) in NAMED.iter().enumerate() {
        assert!(NAMED[..i].iter().all(|other| other.text() != refusal.text()));
        assert_eq!(refusal.to_string(), format!("refused {}: {}", refusal.number(), refusal.text()));
    }
    assert_eq!(Refusal::Foreign.to_string(), "refused 9: no codeword agrees with every kept symbol");
    assert_eq!(Refusal::Other(99).to_string(), "refused 99: unknown");
}

#[test]
fn is_an_error_like_others() {
    fn refused() -> Result<(), Box<dyn std::error::Error>> {
        latsefidy::Code::new(0, 2, 9, 7)?;
        Ok(())
    }
    let error = refused().unwrap_err();
    assert_eq!(error.downcast_ref(), Some(&Refusal::K));
}
