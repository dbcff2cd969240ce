//! Answers to texts: what the program `rumpsteak` prints, and why a text is refused.
use crate::raw::{self, Handle};
use std::error::Error;
use std::fmt;

/// A text that a call of the library left.
pub(crate) struct TextHandle {
    pub raw: Handle,
}

impl TextHandle {
    pub fn closed() -> TextHandle {
        TextHandle { raw: Handle::closed() }
    }

    /// The text, or nothing if no call left one.
    pub fn text(&mut self) -> String {
        let (mut out, mut written) = (Vec::new(), 0);
        loop {
            // SAFETY: the handle is ours alone; `out` has room for its length, and `written` is a place of ours.
            match unsafe { raw::rumpsteak_text(&mut self.raw, out.as_mut_ptr(), out.len(), &mut written) } {
                raw::FINE => return String::from_utf8_lossy(&out).into_owned(),
                raw::TOO_SMALL => out.resize(written, 0),
                _ => return String::new(),
            }
        }
    }
}

impl Drop for TextHandle {
    fn drop(&mut self) {
        // SAFETY: the handle is ours alone, and nobody uses it after this.
        unsafe { raw::rumpsteak_text_close(&mut self.raw) };
    }
}

/// What the program `rumpsteak` answers: its status, and the text that it prints.
#[derive(Clone, Debug, PartialEq, Eq)]
pub struct Answer {
    /// 0 is success; [`RefusalKind`] has the others.
    pub status: u32,
    pub text: String,
}

/// What the program `rumpsteak` prints if it is called with these words and reads this text, and its status.
///
/// For words without a function of their own, such as `run`, `project`, `verify` or `show`:
///
/// ```
/// let answer = rumpsteak::ask(&["project"], "roles A, B protocol A->B:hello(nat). end");
/// assert_eq!(answer.status, 0);
/// assert!(answer.text.starts_with("table A {\n0 B!{hello(nat) 1}\n"));
/// ```
pub fn ask(words: &[&str], text: &str) -> Answer {
    let words = words.join("\0");
    let mut answer = TextHandle::closed();
    // SAFETY: the pointers are those of slices, and the handle is ours alone.
    let status = unsafe { raw::rumpsteak_ask(words.as_ptr(), words.len(), text.as_ptr(), text.len(), &mut answer.raw) };
    Answer { status, text: if status == raw::NO_MEMORY { String::new() } else { answer.text() } }
}

/// Checks the text's session: whether its machines can go wrong together.
///
/// A report means that in every configuration that the machines can reach over unbounded first-in-first-out queues, no machine
/// finds a message that it doesn't take at the head of the queue it reads, and either some machine can step, or all have ended
/// with every queue empty. This is proved of the library. A refused session may still be safe.
///
/// ```
/// let report = rumpsteak::check("roles A, B protocol rec X. A->B:ping(). B->A:pong(). X").unwrap();
/// assert_eq!(report.room(), 3);
///
/// let refusal = rumpsteak::check("roles A, B, C protocol A->B{x(). C->A:y(). end, z(). end}").unwrap_err();
/// assert_eq!(refusal.role(), Some("C"));
/// ```
pub fn check(text: &str) -> Result<Report, Refusal> {
    report(ask(&["check"], text))
}

/// Checks as [`check`] does, with a search within this bound: no machine may put off more acts than this. The bound of [`check`] is 16.
///
/// ```
/// let text = "roles A, B protocol B->A:x(). B->A:x(). A->B:y(). end
/// machine A: B!y(). B?x(). B?x(). end";
/// assert!(rumpsteak::check_within(text, 2).is_ok());
/// assert!(rumpsteak::check_within(text, 1).is_err());
/// ```
pub fn check_within(text: &str, bound: u8) -> Result<Report, Refusal> {
    report(ask(&["check", "--bound", &bound.to_string()], text))
}

/// Checks as [`check`] does, and says why: where a machine breaks which rule, by line and column, or how far it is ahead.
///
/// ```
/// let text = "roles A, B
/// protocol A->B:x(). B->A:y(). end
/// machine A: B?y(). B!x(). end";
/// let refusal = rumpsteak::explain(text).unwrap_err();
/// assert_eq!(refusal.role(), Some("A"));
/// assert!(refusal.text().lines().count() > 2);
/// ```
pub fn explain(text: &str) -> Result<Report, Refusal> {
    report(ask(&["explain"], text))
}

/// Explains as [`explain`] does, with a search within this bound, as [`check_within`] has it.
pub fn explain_within(text: &str, bound: u8) -> Result<Report, Refusal> {
    report(ask(&["explain", "--bound", &bound.to_string()], text))
}

/// The document with a derivation of each role, by which it is accepted: [`Session::open`](crate::Session::open) and
/// [`Monitor::open`](crate::Monitor::open) test these derivations, and search nothing. The refusal has the text of [`explain`].
///
/// ```
/// let certified = rumpsteak::certify("roles A, B protocol B->A:x(). A->B:y(). end machine A: B!y(). B?x(). end")?;
/// assert!(certified.contains("derivation A"));
/// rumpsteak::Session::open(&certified)?;
/// # Ok::<(), rumpsteak::Refusal>(())
/// ```
pub fn certify(text: &str) -> Result<String, Refusal> {
    let answer = ask(&["check", "--derivations"], text);
    if answer.status == raw::FINE {
        Ok(answer.text)
    } else {
        Err(explain(text).err().unwrap_or_else(|| Refusal::of(answer)))
    }
}

/// Tests the certificate that the text has (the derivations, as [`certify`] makes them), and searches nothing: for a build, or a start,
/// that must not accept a text whose certificate is outdated. ([`check`] ignores a certificate, and searches for its own.) If a role has no
/// derivation, or a wrong one, the text is refused; [`Refusal::is_outdated`] says whether it is one of another version of the text.
///
/// ```
/// let text = "roles A, B protocol B->A:x(). A->B:y(). end machine A: B!y(). B?x(). end";
/// assert!(rumpsteak::verify(&rumpsteak::certify(text)?).is_ok());
/// assert!(rumpsteak::verify(text).is_err());
/// # Ok::<(), rumpsteak::Refusal>(())
/// ```
pub fn verify(text: &str) -> Result<Report, Refusal> {
    report(ask(&["verify"], text))
}

/// Moves sends of the role ahead of its receives, as often as `swaps` says: the document with the machine that results, and with a
/// derivation of each role.
///
/// ```
/// let text = "roles A, B protocol rec X. A->B:ping(). B->A:pong(). X";
/// let improved = rumpsteak::improve(text, "B", 1).unwrap();
/// assert!(improved.starts_with("# B: swaps 1, asked\n"));
/// assert!(rumpsteak::check(&improved).is_ok());
/// ```
pub fn improve(text: &str, role: &str, swaps: u32) -> Result<String, Refusal> {
    let answer = ask(&["improve", role, "--swaps", &swaps.to_string()], text);
    if answer.status == raw::FINE {
        Ok(answer.text)
    } else {
        Err(Refusal::of(answer))
    }
}

fn report(answer: Answer) -> Result<Report, Refusal> {
    if answer.status == raw::FINE {
        Ok(Report { text: answer.text })
    } else {
        Err(Refusal::of(answer))
    }
}

/// What `check` or `explain` reports of an accepted text.
#[derive(Clone, Debug, PartialEq, Eq)]
pub struct Report {
    text: String,
}

impl Report {
    /// The lines that the program prints.
    pub fn text(&self) -> &str {
        &self.text
    }

    /// Queues for this number of messages are always enough.
    pub fn room(&self) -> u64 {
        self.text.lines().find_map(|line| line.strip_prefix("room ")).and_then(|room| room.parse().ok()).unwrap_or(0)
    }
}

impl fmt::Display for Report {
    fn fmt(&self, f: &mut fmt::Formatter<'_>) -> fmt::Result {
        f.write_str(&self.text)
    }
}

/// Why a text is refused, in one word.
#[derive(Clone, Copy, Debug, PartialEq, Eq, Hash)]
#[non_exhaustive]
pub enum RefusalKind {
    /// Some role's machine is refused.
    Refused,
    /// The words are none of the program's.
    Usage,
    /// The text is at fault, or has no such role.
    Malformed,
    /// The protocol has no projection onto some role.
    Unprojectable,
    /// A quantity passes its limit.
    TooLarge,
    /// Memory ran out; this says nothing of the text.
    NoMemory,
    /// Another status, which only [`ask`] answers: those of the words `run` and `demo`.
    Other(u32),
}

impl RefusalKind {
    /// The status, as [`Answer`] has it.
    pub fn status(self) -> u32 {
        match self {
            RefusalKind::Refused => 1,
            RefusalKind::Usage => 2,
            RefusalKind::Malformed => 3,
            RefusalKind::Unprojectable => 4,
            RefusalKind::TooLarge => 5,
            RefusalKind::NoMemory => raw::NO_MEMORY,
            RefusalKind::Other(status) => status,
        }
    }
}

/// What [`status_text`] says of the status.
impl fmt::Display for RefusalKind {
    fn fmt(&self, f: &mut fmt::Formatter<'_>) -> fmt::Result {
        f.write_str(&text_of_status(self.status()))
    }
}

/// What a status of the library says; None if no status has this number.
///
/// ```
/// assert_eq!(rumpsteak::status_text(19).as_deref(), Some("the queue is full"));
/// assert_eq!(rumpsteak::status_text(7), None);
/// ```
pub fn status_text(status: u32) -> Option<String> {
    let (mut out, mut written) = (vec![0; 100], 0);
    loop {
        // SAFETY: `out` has room for its length, and `written` is a place of ours.
        match unsafe { raw::rumpsteak_status_text(status, out.as_mut_ptr(), out.len(), &mut written) } {
            raw::FINE => return Some(String::from_utf8_lossy(&out[..written]).into_owned()),
            raw::TOO_SMALL => out.resize(written, 0),
            _ => return None,
        }
    }
}

/// What the status says, or its number.
pub(crate) fn text_of_status(status: u32) -> String {
    status_text(status).unwrap_or_else(|| format!("status {status}"))
}

/// Why a text is refused: what the program prints, and for which role.
#[derive(Clone, Debug, PartialEq, Eq)]
pub struct Refusal {
    kind: RefusalKind,
    text: String,
}

impl Refusal {
    pub(crate) fn of(answer: Answer) -> Refusal {
        let kind = match answer.status {
            1 => RefusalKind::Refused,
            2 => RefusalKind::Usage,
            3 => RefusalKind::Malformed,
            4 => RefusalKind::Unprojectable,
            5 => RefusalKind::TooLarge,
            raw::NO_MEMORY => RefusalKind::NoMemory,
            other => RefusalKind::Other(other),
        };
        let text = if answer.text.is_empty() { text_of_status(answer.status) + "\n" } else { answer.text };
        Refusal { kind, text }
    }

    /// The refusal of a text that isn't opened, with what the call left.
    pub(crate) fn of_opening(status: u32, mut refusal: TextHandle) -> Refusal {
        Refusal::of(Answer { status, text: refusal.text() })
    }

    pub(crate) fn of_role(role: &str) -> Refusal {
        Refusal { kind: RefusalKind::Malformed, text: format!("the text has no role {role}\n") }
    }

    /// Why, in one word.
    pub fn kind(&self) -> RefusalKind {
        self.kind
    }

    /// The role whose machine, or whose projection, is at fault.
    pub fn role(&self) -> Option<&str> {
        self.blame().map(|(role, _)| role)
    }

    /// The second line of a refusal for a role: the role, and what is wrong with its machine, its projection or its derivation.
    fn blame(&self) -> Option<(&str, &str)> {
        match self.kind {
            RefusalKind::Refused | RefusalKind::Unprojectable => self.text.lines().nth(1)?.split_once(": "),
            _ => None,
        }
    }

    /// Whether the text has a certificate (as [`certify`] makes it) that isn't one of this text, since a machine or the protocol was changed
    /// later. The error's message then says so in its last line.
    ///
    /// ```
    /// use rumpsteak::{certify, Session};
    ///
    /// let certified = certify("roles A, B protocol B->A:x(). A->B:y(). end machine A: B!y(). B?x(). end")?;
    /// let certificate = &certified[certified.find("derivation").unwrap()..];
    /// let changed = format!("roles A, B protocol B->A:x(). A->B:y(). end machine A: B?x(). B!y(). end\n{certificate}");
    /// let refusal = Session::open(&changed).unwrap_err();
    /// assert!(refusal.is_outdated());
    /// assert!(refusal.to_string().ends_with("is for another version of the text: certify the text again."));
    /// Session::open(&certify(&changed)?)?;
    /// # Ok::<(), rumpsteak::Refusal>(())
    /// ```
    pub fn is_outdated(&self) -> bool {
        self.blame().is_some_and(|(_, fault)| is_derivation_fault(fault))
    }

    /// The lines that the program prints.
    pub fn text(&self) -> &str {
        &self.text
    }
}

/// Whether this is a fault of a derivation that the text has, as `verify` prints them. A search for derivations has none of them.
fn is_derivation_fault(fault: &str) -> bool {
    let Some((what, place)) = fault.split_once(" at node ") else {
        return fault == "bad start";
    };
    match what {
        "bad state" | "too long" | "no move" => true,
        "wrong next" | "forgets" => place.contains(" arm "),
        _ => false,
    }
}

/// The lines that the program prints; for an outdated certificate, a line more says what to do.
impl fmt::Display for Refusal {
    fn fmt(&self, f: &mut fmt::Formatter<'_>) -> fmt::Result {
        f.write_str(self.text.trim_end())?;
        if self.is_outdated() {
            f.write_str("\nThe certificate (the derivations in the text) is for another version of the text: certify the text again.")?;
        }
        Ok(())
    }
}

impl Error for Refusal {}
