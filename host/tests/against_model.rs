//! The proved library against the model: every answer, record and buffer of random calls, and two of its ends over a bad channel. And the model over words against
//! itself, so that what is read from the words of a record, and written there, is what the model has.

mod linked;

use linked::Linked;
use model::{drive, Model};
use modelled::Modelled;

const SEED: u64 = 9260;

#[test]
fn words_show_what_the_model_has() {
    const CALLS: usize = 100_000;
    let seen = drive(&Linked::<Modelled>::new(), &Model, SEED, CALLS).unwrap_or_else(|d| panic!("{d}"));
    assert!(seen.calls >= CALLS);
}

#[cfg(feature = "proved")]
mod proved {
    use super::*;
    use model::channel::Faults;
    use model::record::CLOSED;
    use model::soak::{Due, Soak};
    use oilwhisper::library::Proved;

    const CALLS: usize = 1_000_000;

    #[test]
    fn the_library_answers_as_the_model() {
        let seen = drive(&Linked::<Proved>::new(), &Model, SEED, CALLS).unwrap_or_else(|d| panic!("{d}"));
        println!("{seen}");
        assert!(seen.calls >= CALLS);
        assert_eq!(seen.missing(), [] as [String; 0]);
    }

    #[test]
    fn the_library_keeps_the_state_table() {
        let faults = model::table::faults(&Linked::<Proved>::new());
        assert!(faults.is_empty(), "{}", faults.join("\n"));
    }

    #[test]
    fn the_library_refuses_a_flag_that_is_neither_0_nor_1() {
        assert_eq!(model::flags::faults(&Linked::<Proved>::new()), [] as [String; 0]);
    }

    /// Both circles close: the first TSN is 100 below 2^32, and one stream carries more than 65,536 messages.
    #[test]
    fn every_message_comes_once_and_in_order() {
        let library = Linked::<Proved>::new();
        let first = u32::MAX - 99;
        let mut soak = Soak::new(&library, SEED, Faults::MANY, [first, first]);
        let messages = 65_700;
        for id in 0..messages {
            soak.hand_in_later(0, Due { id, stream: 5, unordered: false, length: 1 + id as usize % 40 });
        }
        soak.shut_down_after(0);
        let report = soak.run();
        assert_eq!((report.taken[1], report.states), (messages as usize, [CLOSED; 2]), "{report:?}");
        assert_eq!(report.points[1], first.wrapping_add(messages - 1), "the last TSN");
    }
}
