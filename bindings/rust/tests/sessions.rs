//! Sessions by threads, and what endpoints refuse.
use rumpsteak::{ActError, Endpoint, EndpointError, Message, RefusalKind, Session, TrySendError, Value};
use std::thread;

const VALUES: &str = "roles A, B
protocol rec X. A->B{unit(). X, flag(bool). X, natural(nat). X, whole(int). X, octets(bytes). X, numbers(list). X, last(). end}";

/// Each role sends first, and then receives.
const RING: &str = "roles A, B, C
protocol rec X. A->B:x(nat). B->C:x(nat). C->A:x(nat). X
machine B: rec X. C!x(nat). A?x(nat). X
machine C: rec X. A!x(nat). B?x(nat). X";

fn two(text: &str, capacity: u16) -> (Endpoint, Endpoint) {
    let mut session = Session::with_capacity(text, capacity).unwrap();
    (session.endpoint("A").unwrap(), session.endpoint("B").unwrap())
}

fn not_now(result: Result<(), ActError>) -> String {
    match result {
        Err(ActError::NotNow { act, .. }) => act,
        other => panic!("{other:?}"),
    }
}

#[test]
fn values_arrive_as_they_were_sent() {
    let (mut a, mut b) = two(VALUES, 0);
    let cases: [(&str, Value); 10] = [
        ("unit", ().into()),
        ("flag", true.into()),
        ("flag", false.into()),
        ("natural", (u64::MAX >> 1).into()),
        ("whole", i64::MIN.into()),
        ("whole", 7u8.into()),
        ("octets", vec![0u8, 255, 0].into()),
        ("octets", "".into()),
        ("numbers", vec![i64::MAX, -1, 0].into()),
        ("numbers", Vec::<i64>::new().into()),
    ];
    for (name, value) in cases {
        a.send(name, value.clone()).unwrap();
        let message = b.receive().unwrap();
        assert_eq!((message.name, &message.value), (name, &value));
        let label = message.label;
        assert_eq!(b.label(name), Some(label));
    }
    a.send("last", ()).unwrap();
    b.receive().unwrap();
    assert!(a.has_ended() && b.has_ended());
}

#[test]
fn an_integer_is_sent_as_a_natural_number_if_it_is_one() {
    let (mut a, mut b) = two(VALUES, 0);
    a.send("natural", 7).unwrap();
    assert_eq!(b.receive().unwrap().value, Value::Nat(7));
    assert_eq!(not_now(a.send("natural", -7)), "send natural(int)");
    assert_eq!(not_now(a.send("natural", u64::MAX)), "send natural(nat)");
}

#[test]
fn an_act_that_the_state_does_not_have_is_refused_and_changes_nothing() {
    let (mut a, mut b) = two(VALUES, 1);
    let before = a.state().to_string();
    assert_eq!(not_now(a.send("unit", true)), "send unit(bool)");
    assert_eq!(not_now(a.send("none", ())), "send none()");
    assert_eq!(not_now(b.send("unit", ())), "send unit()");
    assert!(matches!(a.receive(), Err(ActError::NotNow { .. })));
    assert!(matches!(b.try_receive(), Ok(None)));
    assert_eq!(a.state().to_string(), before);
    a.send("unit", ()).unwrap();
    assert_eq!(a.try_send("octets", "text"), Err(TrySendError::Full(Value::from("text"))));
    assert_eq!(b.receive().unwrap().name, "unit");
}

#[test]
fn a_shared_reference_is_enough_to_read_a_state() {
    let (mut a, b) = two(VALUES, 1);
    let (one, other) = (&a, &a);
    let before = one.state();
    assert_eq!(before, other.state());
    assert!(!one.has_ended() && before.peer() == Some("B"));
    a.send("last", ()).unwrap();
    assert!(a.has_ended() && !b.has_ended());
}

#[test]
fn a_dropped_endpoint_is_gone_once_its_messages_are_received() {
    let (mut a, mut b) = two(VALUES, 4);
    a.send("octets", "last words").unwrap();
    drop(a);
    assert_eq!(b.receive().unwrap().value, Value::from("last words"));
    assert_eq!(b.receive().unwrap_err(), ActError::Gone { peer: "A".to_owned() });
}

#[test]
fn only_who_receives_from_a_dropped_endpoint_finds_it_gone() {
    let mut session = Session::open(RING).unwrap();
    let [mut a, b, mut c] = ["A", "B", "C"].map(|role| session.endpoint(role).unwrap());
    drop(b);
    a.send("x", 1u64).unwrap();
    assert!(matches!(a.try_receive(), Ok(None)));
    c.send("x", 2u64).unwrap();
    assert!(matches!(c.try_receive(), Err(ActError::Gone { peer }) if peer == "B"));
    assert_eq!(a.receive().unwrap().value, Value::Nat(2));
}

#[test]
fn endpoints_are_handed_out_once() {
    let mut session = Session::open(RING).unwrap();
    assert_eq!(session.roles().collect::<Vec<_>>(), ["A", "B", "C"]);
    assert_eq!(session.labels().collect::<Vec<_>>(), ["x"]);
    let role = session.role("C").unwrap();
    let c = session.endpoint(role).unwrap();
    assert_eq!(c.role(), "C");
    assert_eq!(session.endpoint("C").unwrap_err(), EndpointError::HandedOut);
    assert_eq!(session.endpoint("D").unwrap_err(), EndpointError::UnknownRole);
}

#[test]
fn a_refused_text_says_which_role_and_why() {
    let refusal = Session::open("roles A, B protocol A->B:x(). B->A:y(). end machine A: B?y(). B!x(). end").unwrap_err();
    assert_eq!((refusal.kind(), refusal.role()), (RefusalKind::Refused, Some("A")));
    assert!(refusal.text().starts_with("refused\nA: not found, cut no\n"));
    assert!(refusal.text().lines().count() > 2, "{refusal}");
    let refusal = Session::open("roles A, B\nprotocol A->B;").unwrap_err();
    assert_eq!((refusal.kind(), refusal.role()), (RefusalKind::Malformed, None));
    assert!(refusal.text().starts_with("malformed 2:14 "));
}

#[test]
fn threads_exchange_what_was_sent_in_order() {
    for capacity in [1, 2, 16, 1024] {
        let (mut a, mut b) = two(VALUES, capacity);
        let (natural, last) = (a.label("natural").unwrap(), a.label("last").unwrap());
        let sending = thread::spawn(move || {
            for number in 0..20_000u64 {
                a.send(natural, number).unwrap();
            }
            a.send(last, ()).unwrap();
        });
        for number in 0..20_000 {
            assert_eq!(b.receive().unwrap().value, Value::Nat(number));
        }
        assert_eq!(b.receive().unwrap(), Message { name: "last", label: last, value: Value::Unit });
        sending.join().unwrap();
    }
}

#[test]
fn a_ring_of_threads_goes_round() {
    let mut session = Session::open(RING).unwrap();
    let threads: Vec<_> = ["A", "B", "C"]
        .map(|role| session.endpoint(role).unwrap())
        .into_iter()
        .map(|mut end| {
            thread::spawn(move || {
                let mut sum = 0;
                for turn in 0..1_000u64 {
                    end.send("x", turn).unwrap();
                    sum += u64::try_from(end.receive().unwrap().value).unwrap();
                }
                sum
            })
        })
        .collect();
    for thread in threads {
        assert_eq!(thread.join().unwrap(), 999 * 1_000 / 2);
    }
}

/// C acts first and last. In between its endpoint is held, and the other two roles go on without it on two threads.
#[test]
fn an_endpoint_is_held_while_two_threads_go_on() {
    let text = "roles A, B, C protocol C->A:x(). A->B:y(). B->A:y(). A->B:y(). B->A:y(). A->C:x(). end";
    let mut session = Session::with_capacity(text, 1).unwrap();
    let [mut a, mut b, mut c] = ["A", "B", "C"].map(|role| session.endpoint(role).unwrap());
    assert!(matches!(a.try_receive(), Ok(None)));
    assert!(matches!(b.try_receive(), Ok(None)));
    c.send("x", ()).unwrap();
    let first = thread::spawn(move || {
        assert_eq!(a.receive().unwrap().name, "x");
        for _ in 0..2 {
            a.send("y", ()).unwrap();
            assert_eq!(a.receive().unwrap().name, "y");
        }
        a.send("x", ()).unwrap();
        a
    });
    let second = thread::spawn(move || {
        for _ in 0..2 {
            assert_eq!(b.receive().unwrap().name, "y");
            b.send("y", ()).unwrap();
        }
        b
    });
    assert!(first.join().unwrap().has_ended() && second.join().unwrap().has_ended());
    assert_eq!(c.receive().unwrap().name, "x");
    assert!(c.has_ended());
}

#[test]
fn the_library_and_the_crate_have_the_same_version() {
    let parts: Vec<u32> = env!("CARGO_PKG_VERSION").split('.').map(|part| part.parse().unwrap()).collect();
    assert_eq!(rumpsteak::version(), parts[0] * 1_000_000 + parts[1] * 1_000 + parts[2]);
}
