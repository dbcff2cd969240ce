//! The names of a text's roles and labels, with their numbers.
use crate::raw::{self, Handle, NameOf};
use std::sync::Arc;

/// A label of a session or a monitor, by its number. It is faster to act by a `Label` than by a name.
///
/// The numbers of two texts have nothing to do with each other.
#[derive(Clone, Copy, Debug, PartialEq, Eq, Hash, PartialOrd, Ord)]
pub struct Label(pub(crate) u32);

/// A role of a session or a monitor, by its number.
#[derive(Clone, Copy, Debug, PartialEq, Eq, Hash, PartialOrd, Ord)]
pub struct Role(pub(crate) u32);

/// The names of all roles and labels, each at the place of its number.
#[derive(Debug)]
pub(crate) struct Names {
    pub roles: Vec<String>,
    pub labels: Vec<String>,
}

fn place_of(names: &[String], name: &str) -> Option<u32> {
    names.iter().position(|it| it == name).map(|place| place as u32)
}

impl Names {
    pub fn role(&self, name: &str) -> Option<Role> {
        place_of(&self.roles, name).map(Role)
    }

    pub fn label(&self, name: &str) -> Option<Label> {
        place_of(&self.labels, name).map(Label)
    }

    pub fn role_name(&self, role: Role) -> &str {
        self.roles.get(role.0 as usize).map_or("?", String::as_str)
    }

    pub fn label_name(&self, label: Label) -> &str {
        self.labels.get(label.0 as usize).map_or("?", String::as_str)
    }

    /// The names behind the handle, by its calls for the name of a role and of a label.
    pub fn of(handle: &mut Handle, role: NameOf, label: NameOf) -> Arc<Names> {
        Arc::new(Names { roles: all_names(handle, role), labels: all_names(handle, label) })
    }
}

fn all_names(handle: &mut Handle, call: NameOf) -> Vec<String> {
    (0..).map_while(|number| name(handle, call, number)).collect()
}

/// The name with this number, or nothing if the text has fewer. A name has at most 64 bytes.
fn name(handle: &mut Handle, call: NameOf, number: u32) -> Option<String> {
    let (mut out, mut written) = ([0; 64], 0);
    // SAFETY: the handle is open and ours alone; `out` and `written` are places of ours.
    let status = unsafe { call(handle, number, out.as_mut_ptr(), out.len(), &mut written) };
    (status == raw::FINE).then(|| String::from_utf8_lossy(&out[..written]).into_owned())
}

mod sealed {
    pub trait Sealed {}
}

/// A label, by its number ([`Label`]) or its name.
pub trait AsLabel: sealed::Sealed {
    #[doc(hidden)]
    fn number(&self, names: &NameTable) -> Option<u32>;

    #[doc(hidden)]
    fn told(&self, names: &NameTable) -> String;
}

/// A role, by its number ([`Role`]) or its name.
pub trait AsRole: sealed::Sealed {
    #[doc(hidden)]
    fn number(&self, names: &NameTable) -> Option<u32>;

    #[doc(hidden)]
    fn told(&self, names: &NameTable) -> String;
}

/// The names of a text.
#[doc(hidden)]
pub struct NameTable<'a>(pub(crate) &'a Names);

impl sealed::Sealed for Label {}
impl sealed::Sealed for Role {}
impl sealed::Sealed for &str {}
impl sealed::Sealed for &String {}

impl AsLabel for Label {
    #[inline]
    fn number(&self, _: &NameTable) -> Option<u32> {
        Some(self.0)
    }

    fn told(&self, names: &NameTable) -> String {
        names.0.label_name(*self).to_owned()
    }
}

impl AsRole for Role {
    #[inline]
    fn number(&self, _: &NameTable) -> Option<u32> {
        Some(self.0)
    }

    fn told(&self, names: &NameTable) -> String {
        names.0.role_name(*self).to_owned()
    }
}

macro_rules! by_name {
    ($($type:ty),*) => {
        $(
            impl AsLabel for $type {
                fn number(&self, names: &NameTable) -> Option<u32> {
                    place_of(&names.0.labels, self)
                }

                fn told(&self, _: &NameTable) -> String {
                    self.to_string()
                }
            }

            impl AsRole for $type {
                fn number(&self, names: &NameTable) -> Option<u32> {
                    place_of(&names.0.roles, self)
                }

                fn told(&self, _: &NameTable) -> String {
                    self.to_string()
                }
            }
        )*
    };
}

by_name!(&str, &String);
