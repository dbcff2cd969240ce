//! What monitors let through, and why they refuse.
use rumpsteak::{ask, certify, explain, explain_within, Monitor, Reason, RefusalKind, Session, Value};

const FILM: &str = "roles Camera, Screen, Audience
protocol rec X. Screen->Camera:ready(). Camera->Screen{frame(nat). Screen->Audience:shown(). X, over(). Screen->Audience:over(). end}";

#[test]
fn a_monitor_lets_through_what_its_machine_does() {
    let mut screen = Monitor::open(FILM, "Screen").unwrap();
    assert_eq!(screen.state().to_string(), "Camera!{ready()}");
    screen.may_send("Camera", "ready", &Value::Unit).unwrap();
    assert_eq!(screen.acts(), 0);
    screen.sent("Camera", "ready", &Value::Unit).unwrap();
    screen.received("Camera", "frame", &Value::Nat(3)).unwrap();
    screen.sent("Audience", "shown", &Value::Unit).unwrap();
    screen.sent("Camera", "ready", &Value::Unit).unwrap();
    let (camera, over) = (screen.role_of("Camera").unwrap(), screen.label("over").unwrap());
    screen.received(camera, over, &Value::Unit).unwrap();
    screen.sent("Audience", over, &Value::Unit).unwrap();
    assert!(screen.has_ended());
    assert_eq!((screen.acts(), screen.role()), (6, "Screen"));
    assert!(screen.room() > 0);
}

#[test]
fn a_shared_reference_is_enough_to_read_a_monitor() {
    let mut screen = Monitor::open(FILM, "Screen").unwrap();
    screen.sent("Camera", "ready", &Value::Unit).unwrap();
    let (one, other) = (&screen, &screen);
    let state = one.state();
    assert_eq!(other.may_send("Camera", "ready", &Value::Unit).unwrap_err().reason(), Reason::StateReceives);
    assert_eq!((state.to_string(), one.acts(), other.has_ended()), ("Camera?{frame(nat), over()}".to_owned(), 1, false));
}

#[test]
fn a_refusal_gives_the_first_reason_and_changes_nothing() {
    let mut screen = Monitor::open(FILM, "Screen").unwrap();
    let mut reason = |peer: &str, label: &str, value: Value| screen.sent(peer, label, &value).unwrap_err().reason();
    assert_eq!(reason("Audience", "shown", Value::Unit), Reason::AnotherPeer);
    assert_eq!(reason("Camera", "frame", Value::Nat(1)), Reason::NoSuchLabel);
    assert_eq!(reason("Camera", "ready", Value::Nat(1)), Reason::AnotherSort);
    assert_eq!(reason("Camera", "click", Value::Unit), Reason::UnknownName);
    assert_eq!(reason("Cinema", "ready", Value::Unit), Reason::UnknownName);
    assert_eq!(screen.received("Camera", "frame", &Value::Nat(1)).unwrap_err().reason(), Reason::StateSends);
    screen.sent("Camera", "ready", &Value::Unit).unwrap();
    assert_eq!(screen.sent("Camera", "ready", &Value::Unit).unwrap_err().reason(), Reason::StateReceives);
    assert_eq!(screen.received("Camera", "frame", &Value::Nat(u64::MAX)).unwrap_err().reason(), Reason::AnotherSort);
    assert_eq!(screen.received("Camera", "frame", &Value::Int(1)).unwrap_err().reason(), Reason::AnotherSort);
    screen.received("Camera", "frame", &Value::Nat(1)).unwrap();
    assert_eq!(screen.acts(), 2);
}

#[test]
fn a_refusal_says_what_is_wrong() {
    let mut screen = Monitor::open(FILM, "Screen").unwrap();
    let unknown = screen.sent("Camera", "redy", &Value::Unit).unwrap_err();
    assert_eq!(unknown.to_string(), "Screen can't send redy() to Camera: the text has no such role or label; its state is Camera!{ready()}");
    screen.sent("Camera", "ready", &Value::Unit).unwrap();
    let large = screen.received("Camera", "frame", &Value::Nat(u64::MAX)).unwrap_err();
    assert_eq!(large.to_string(), "Screen can't receive frame(2^63 or more) from Camera now: its state is Camera?{frame(nat), over()}");
}

#[test]
fn a_reason_is_a_sentence() {
    assert_eq!(Reason::HasEnded.to_string(), "the machine has ended");
    assert_eq!(Reason::UnknownName.to_string(), "the text has no such role or label");
    assert_eq!(RefusalKind::Refused.to_string(), "some role's machine is refused");
    assert_eq!(RefusalKind::Other(99).to_string(), "status 99");
}

/// `A` sends before it receives 17 messages, one more than a search puts off.
fn ahead_by_seventeen() -> String {
    let (talks, acts) = ("B->A:v(). ".repeat(17), "B?v(). ".repeat(17));
    format!("roles A, B protocol {talks}A->B:x(). end machine A: B!x(). {acts}end")
}

#[test]
fn a_text_with_derivations_is_opened_by_them() {
    let text = ahead_by_seventeen();
    let refusal = Monitor::open(&text, "A").unwrap_err();
    assert_eq!(refusal, explain(&text).unwrap_err());
    assert!(explain_within(&text, 17).is_ok());
    let certified = ask(&["check", "--bound", "17", "--derivations"], &text).text;
    let mut monitor = Monitor::open(&certified, "A").unwrap();
    monitor.sent("B", "x", &Value::Unit).unwrap();
    let wrong = certified.replacen("bound 17", "bound 16", 1);
    let refusal = Monitor::open(&wrong, "A").unwrap_err();
    assert_eq!((refusal.kind(), refusal.role()), (RefusalKind::Refused, Some("A")));
    assert_eq!(refusal.text(), ask(&["verify"], &wrong).text);
    assert!(refusal.is_outdated());
}

#[test]
fn a_certificate_of_another_version_is_said_to_be_outdated() {
    let certified = certify("roles A, B protocol B->A:x(). A->B:y(). end machine A: B!y(). B?x(). end").unwrap();
    let certificate = &certified[certified.find("derivation").unwrap()..];
    let second = "roles A, B protocol B->A:x(). A->B:y(). A->B:z(). end machine A: B!y(). B?x(). B!z(). end";
    let mixed = format!("{second}\n{certificate}");
    for refusal in [Monitor::open(&mixed, "A").unwrap_err(), Session::open(&mixed).unwrap_err()] {
        assert!(refusal.is_outdated());
        assert_eq!(refusal.text(), ask(&["verify"], &mixed).text);
        let told = refusal.to_string();
        let (first, last) = told.rsplit_once('\n').unwrap();
        assert_eq!(first, refusal.text().trim_end());
        assert!(last.ends_with("is for another version of the text: certify the text again."), "{last}");
    }
    Session::open(&certify(&mixed).unwrap()).unwrap();
    for text in [&ahead_by_seventeen(), "roles A, B protocol A->B:x(). B->A:y(). end machine A: B?y(). B!x(). end", "roles A"] {
        let refusal = Session::open(text).unwrap_err();
        assert!(!refusal.is_outdated());
        assert_eq!(refusal.to_string(), refusal.text().trim_end());
    }
}

#[test]
fn a_text_that_is_refused_has_no_monitor() {
    assert_eq!(Monitor::open(FILM, "Cinema").unwrap_err().kind(), RefusalKind::Malformed);
    let refusal = Monitor::open("roles A, B protocol A->B:x(). B->A:y(). end machine A: B?y(). B!x(). end", "B").unwrap_err();
    assert_eq!((refusal.kind(), refusal.role()), (RefusalKind::Refused, Some("A")));
}
