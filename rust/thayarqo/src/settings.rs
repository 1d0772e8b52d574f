//! Node settings of the keyboard ring.
use crate::refusal::{Answer, Refusal};
use thayarqo_sys::{self as sys, safe};

/// The nodes that have come so far.
///
/// ```
/// use thayarqo::{Refusal, Settings};
///
/// let mut settings = Settings::new();
/// settings.node("feature-abs-pointer", "1")?;
/// settings.node("request-abs-pointer", "1")?;
/// assert_eq!(settings.close(), Err(Refusal::BadSetting), "absolute, but no width");
/// settings.node("width", "800")?;
/// settings.node("height", "600")?;
/// assert!(settings.close()?.absolute);
/// # Ok::<(), Refusal>(())
/// ```
#[derive(Clone, Debug, PartialEq, Eq)]
pub struct Settings(sys::Settings);

/// The modes that settings come to. A number that no mode needs is the node's, or 0 where it wasn't given.
#[derive(Clone, Copy, Debug, PartialEq, Eq)]
pub struct Closed {
    /// Positions are absolute.
    pub absolute: bool,
    /// Contacts are reported.
    pub multi_touch: bool,
    /// Positions aren't scaled.
    pub raw: bool,
    /// The keyboard isn't wanted.
    pub disable_keyboard: bool,
    /// The pointer isn't wanted.
    pub disable_pointer: bool,
    /// Of the pointer's area.
    pub width: u32,
    /// Of the pointer's area.
    pub height: u32,
    /// How many contacts there can be, 1 to 32 under multi-touch. A ring takes [`Closed::contact_limit`].
    pub contacts: u32,
    /// Of the contacts' area.
    pub touch_width: u32,
    /// Of the contacts' area.
    pub touch_height: u32,
}

impl Closed {
    /// The contact limit for both ends of the ring. Without multi-touch no contact is reported, and the least limit will do: 1.
    pub fn contact_limit(&self) -> u32 {
        if self.multi_touch {
            self.contacts
        } else {
            1
        }
    }
}

impl Settings {
    /// Before any node.
    pub fn new() -> Settings {
        Settings(safe::fresh_settings())
    }

    /// Takes one node. Names that aren't meant here are ignored; a bad value is [`Refusal::BadSetting`].
    pub fn node(&mut self, name: impl AsRef<[u8]>, value: impl AsRef<[u8]>) -> Answer<()> {
        Refusal::check(safe::node(&mut self.0, name.as_ref(), value.as_ref()))
    }

    /// The modes, once all nodes have come. [`Refusal::BadSetting`] where a mode lacks a node.
    pub fn close(&self) -> Answer<Closed> {
        let closed = safe::close(self.0);
        Refusal::check(closed.answer).map(|()| Closed {
            absolute: closed.absolute,
            multi_touch: closed.multi_touch,
            raw: closed.raw,
            disable_keyboard: closed.disable_keyboard,
            disable_pointer: closed.disable_pointer,
            width: closed.width,
            height: closed.height,
            contacts: closed.contacts,
            touch_width: closed.touch_width,
            touch_height: closed.touch_height,
        })
    }
}

impl Default for Settings {
    fn default() -> Settings {
        Settings::new()
    }
}
