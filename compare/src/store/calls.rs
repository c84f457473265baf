//! The calls on a lent store, and what each leaves: by the model, and by the
//! linked library.

use crate::model::Answer;
use crate::store::Lent;
use std::fmt;

/// Whoever answers calls: from a call and the lent store to what is left.
pub type Calls = fn(&Call, &[u8]) -> Left;

/// One call, but for the store that is lent to it.
#[derive(Clone, Debug, PartialEq, Eq)]
pub enum Call {
    Fresh,
    Save {
        table: u64,
        text: Vec<u8>,
    },
    Return {
        table: u64,
        version: u64,
    },
    Read {
        table: u64,
        version: u64,
        /// As it is before the call.
        buffer: Vec<u8>,
    },
    Keep {
        list: Vec<u64>,
    },
}

/// The names of the calls, each with all its answers' numbers, 0 for done.
pub const CODES: [(&str, &[u64]); 5] = [
    ("fresh", &[0, 4]),
    ("save", &[0, 1, 2, 4, 6, 11, 12]),
    ("return", &[0, 4, 6, 11, 12]),
    ("read", &[0, 4, 8, 11]),
    ("keep", &[0, 4, 11]),
];

/// What a call leaves: its answer, and every lent byte.
#[derive(Clone, Debug, PartialEq, Eq)]
pub struct Left {
    pub answer: Answer,
    pub store: Vec<u8>,
    /// Empty for a call that takes none.
    pub buffer: Vec<u8>,
}

impl Call {
    pub fn name(&self) -> &'static str {
        match self {
            Call::Fresh => "fresh",
            Call::Save { .. } => "save",
            Call::Return { .. } => "return",
            Call::Read { .. } => "read",
            Call::Keep { .. } => "keep",
        }
    }

    /// The buffer that is lent besides the store.
    pub fn buffer(&self) -> Vec<u8> {
        match self {
            Call::Read { buffer, .. } => buffer.clone(),
            _ => Vec::new(),
        }
    }

    /// The list that is lent besides the store, and is not changed.
    pub fn list(&self) -> &[u64] {
        match self {
            Call::Keep { list } => list,
            _ => &[],
        }
    }

    /// What the model foretells. The lent store is as afterwards.
    pub fn by_model(&self, lent: &mut Lent) -> Left {
        let mut buffer = self.buffer();
        let answer = self.answer_by_model(lent, &mut buffer);
        Left {
            answer,
            store: lent.bytes(),
            buffer,
        }
    }

    /// What the linked library leaves.
    pub fn by_library(&self, store: &[u8]) -> Left {
        let mut store = store.to_vec();
        let mut buffer = self.buffer();
        let answer = self.answer_by_library(&mut store, &mut buffer);
        Left {
            answer,
            store,
            buffer,
        }
    }

    /// The model's answer. What is lent is as afterwards.
    pub fn answer_by_model(&self, lent: &mut Lent, buffer: &mut [u8]) -> Answer {
        match *self {
            Call::Fresh => lent.make_fresh(),
            Call::Save { table, ref text } => lent.save(table, text),
            Call::Return { table, version } => lent.return_to(table, version),
            Call::Read { table, version, .. } => {
                let text = lent.read(table, version, buffer.len());
                text.map(|text| {
                    buffer[..text.len()].copy_from_slice(&text);
                    text.len() as u64
                })
            }
            Call::Keep { ref list } => lent.keep(list),
        }
    }

    /// The linked library's answer. What is lent is as afterwards.
    pub fn answer_by_library(&self, store: &mut [u8], buffer: &mut [u8]) -> Answer {
        let answer = match *self {
            Call::Fresh => lamptwin::store_fresh(store).map(|()| 0),
            Call::Save { table, ref text } => lamptwin::store_save(store, table, text),
            Call::Return { table, version } => lamptwin::store_return(store, table, version),
            Call::Read { table, version, .. } => {
                let length = lamptwin::store_read(store, table, version, buffer);
                length.map(|length| length as u64)
            }
            Call::Keep { ref list } => lamptwin::store_keep(store, list),
        };
        answer.map_err(|refused| refused.code)
    }
}

impl fmt::Display for Call {
    fn fmt(&self, f: &mut fmt::Formatter<'_>) -> fmt::Result {
        let name = self.name();
        match self {
            Call::Fresh => write!(f, "{name}"),
            Call::Save { table, text } => {
                write!(f, "{name} table={table} text=\"{}\"", text.escape_ascii())
            }
            Call::Return { table, version } => write!(f, "{name} table={table} version={version}"),
            Call::Read {
                table,
                version,
                buffer,
            } => {
                let room = buffer.len();
                write!(f, "{name} table={table} version={version} buffer={room}")
            }
            Call::Keep { list } => write!(f, "{name} list={list:?}"),
        }
    }
}
