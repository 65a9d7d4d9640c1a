//! The harness itself: a case is known by its number alone, and every kind of difference is seen.

use compare::call::{fault, Call, Left, Verb};
use compare::{Cases, PEER};

/// The first case of a call and set that ends so in the peer.
fn find(verb: Verb, set: u8, returned: u16) -> (Call, Left) {
    let mut cases = Cases::default();
    (0..)
        .map(|number| cases.case(number))
        .filter(|case| case.call.verb == verb && case.set == Some(set))
        .map(|case| (PEER.make(&case.call), case.call))
        .find_map(|(left, call)| (left.returned == returned).then_some((call, left)))
        .expect("there are cases of every kind")
}

#[test]
fn a_case_depends_on_its_number_alone() {
    let mut one = Cases::default();
    let calls: Vec<Call> = (0..60).map(|number| one.case(number).call).collect();
    let mut other = Cases::default();
    for number in (0..60).rev() {
        let (before, again) = (&calls[number], other.case(number as u64).call);
        assert_eq!(
            (before.verb, before.set, &before.kind),
            (again.verb, again.set, &again.kind)
        );
        assert!(before.read == again.read && before.list == again.list);
        assert!(before.written == again.written && before.numbers == again.numbers);
    }
}

#[test]
fn every_difference_is_seen() {
    for (verb, returned) in [
        (Verb::Open, 0),
        (Verb::Open, 10),
        (Verb::Open, 2),
        (Verb::Setup, 256),
        (Verb::Wrap, 9),
    ] {
        let (call, left) = find(verb, 6, returned);
        assert_eq!(fault(&call, &left, &left), None);
        let differs = |change: &dyn Fn(&mut Left)| {
            let mut changed = left.clone();
            change(&mut changed);
            assert!(fault(&call, &changed, &left).is_some());
            assert!(fault(&call, &left, &changed).is_some());
            // both alike, but not as the table says
            fault(&call, &changed, &changed).is_some()
        };
        differs(&|left| left.returned ^= 256);
        differs(&|left| left.returned ^= 1);
        let seen = differs(&|left| left.numbers.iter_mut().take(1).for_each(|number| *number ^= 1));
        assert!(seen || call.numbers.is_empty());
        let seen = differs(&|left| left.written[0].iter_mut().take(1).for_each(|byte| *byte ^= 1));
        assert!(seen || returned % 256 == 0 || call.written[0].is_empty());
        assert!(differs(&|left| left.trespass = Some("a byte".into())));
    }
}
