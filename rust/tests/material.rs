//! The random lists by themselves, on the model: they meet every refusal and every sort of answer.

mod common;

use common::calls::compare;
use common::lists::list;
use common::seen::Seen;
use jeddyspangle::model::Session;
use jeddyspangle::Exchange;

#[test]
fn the_lists_meet_everything() {
    let mut seen = Seen::default();
    for seed in 0..4_000 {
        let list = list(seed);
        seen.start(Session::hours(list.date).unwrap_or(24));
        // The model beside itself: one history, one result.
        compare::<Session, Session>(&list, &mut seen).unwrap();
    }
    println!("{seen}");
    seen.insist();
}
