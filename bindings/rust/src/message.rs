//! What an invocation sends.

/// What an invocation sends: four words, the first of which is the order, and the capabilities in four registers. Register 0 is always
/// void.
///
/// ```
/// use vezhnake::{Message, NewMessage};
/// // Order 2 of a node stores the capability in register 5 into slot 7.
/// let message = [2, 7].sending([5]);
/// assert_eq!(message, Message { words: [2, 7, 0, 0], sent: [5, 0, 0, 0] });
/// ```
#[derive(Debug, Clone, Copy, PartialEq, Eq, Hash, Default)]
pub struct Message {
    /// The words.
    pub words: [u64; 4],
    /// The registers of the capabilities, each below 32.
    pub sent: [u8; 4],
}

impl<const N: usize> From<[u64; N]> for Message {
    /// A message of up to four words and no capability.
    fn from(words: [u64; N]) -> Self {
        const { assert!(N <= 4, "a message has at most four words") };
        let mut all = [0; 4];
        all[..N].copy_from_slice(&words);
        Message {
            words: all,
            sent: [0; 4],
        }
    }
}

/// Makes a message that sends capabilities.
pub trait NewMessage: Into<Message> {
    /// The message with the capabilities in up to four registers.
    fn sending<const N: usize>(self, registers: [u8; N]) -> Message {
        const { assert!(N <= 4, "a message sends at most four capabilities") };
        let mut message = self.into();
        message.sent = [0; 4];
        message.sent[..N].copy_from_slice(&registers);
        message
    }
}

impl<const N: usize> NewMessage for [u64; N] {}
impl NewMessage for Message {}
