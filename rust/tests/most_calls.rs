//! How many calls an operation takes: runs that reach what `Sizes::most_calls` says, and none goes beyond it.

use bead_index::{Answer, File, Kind, Operation, Outcome, Sizes};

/// Steps a party to its end: its answer, and how many calls that took.
fn counted(file: &mut File, party: u32) -> (Answer, u32) {
    let most = file.sizes().most_calls(Kind::Find);
    for taken in 1..=most {
        match file.step(party).unwrap() {
            Outcome::Done { answer, .. } => return (answer, taken),
            outcome => assert_eq!(outcome, Outcome::Moved),
        }
    }
    panic!("party {party} is not done after {most} calls")
}

#[test]
fn a_find_that_is_led_on_to_a_longer_chain() {
    let sizes = Sizes::new()
        .records_a_page(1)
        .most_chains(2)
        .overflow_pages(1)
        .parties(2);
    let mut file = File::new(sizes).unwrap();
    file.begin(0, Operation::find(4)).unwrap();
    for _ in 0..3 {
        assert_eq!(file.step(0), Ok(Outcome::Moved));
    }
    for key in [1, 0, 4] {
        assert_eq!(file.insert_as(1, key, 7), Ok(true));
    }
    let (answer, taken) = counted(&mut file, 0);
    assert_eq!(answer, Answer::Found { setting: 7 });
    assert_eq!(3 + taken, 11);
    assert_eq!(sizes.most_calls(Kind::Find), 11);
}

/// The words of a file whose one chain has the keys from 0 on, one a page, on all its pages.
fn one_long_chain(sizes: Sizes) -> Vec<u32> {
    let mut words = File::new(sizes).unwrap().into_words();
    let (head, free) = (7, 8);
    words[head] = 0;
    words[free] = 0;
    let pages = sizes.words() - sizes.waiting_words() - sizes.page_words();
    let last = sizes.overflow_pages;
    for key in 0..=last {
        let link = if key < last { key + 2 } else { 0 };
        let place = pages + 16 * key as usize;
        words[place..place + 5].copy_from_slice(&[0, 1, link, key, 40]);
    }
    words
}

#[test]
fn a_chain_taken_up_with_all_overflow_pages() {
    for overflow in [0, 1, 2, 7, 100, Sizes::MOST_OVERFLOW_PAGES] {
        let sizes = Sizes::new()
            .records_a_page(1)
            .most_chains(1)
            .overflow_pages(overflow)
            .parties(1);
        let mut file = File::take_up(one_long_chain(sizes)).unwrap();
        for (key, found) in [
            (overflow, Answer::Found { setting: 40 }),
            (!0, Answer::Absent),
        ] {
            file.begin(0, Operation::find(key)).unwrap();
            assert_eq!(counted(&mut file, 0), (found, 7 + overflow));
            assert_eq!(file.find(key).unwrap(), found.setting());
        }
        assert_eq!(sizes.most_calls(Kind::Find), 7 + overflow);
    }
}
