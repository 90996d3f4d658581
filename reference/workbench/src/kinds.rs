//! The thirteen kinds: their names and fields by name. One table for showing a record, for reading its text back
//! and for saying why a record does not read. RECORD-1, RECORD-2, RECORD-3: "Message record, 32 bytes".

use reference::message::Message;

/// A field of a kind, beside time and zone, which every kind has.
pub enum Field {
    /// The id, under the name of what it is.
    Id(&'static str),
    SetA(&'static str),
    SetB(&'static str),
    /// A detail, its name, its lowest and highest value.
    Number(usize, &'static str, u8, u8),
    /// A detail and the words for its values.
    Choice(usize, &'static [(&'static str, u8)]),
    /// A detail of 0 or 1, at the line's end: the words for 1, and older words that are still read; for 0 there are none.
    Flag(usize, &'static str, &'static str),
}

pub struct Kind {
    pub name: &'static str,
    pub fields: &'static [Field],
}

use Field::{Choice, Flag, Id, Number, SetA, SetB};

const FORM: Field = Id("form");
const TRAIN: Field = Id("train");

/// Kind n at n - 1.
pub const KINDS: [Kind; 13] = [
    Kind {
        name: "work asked",
        fields: &[FORM, SetA("turnouts"), Choice(0, &[("request M.45", 1), ("request recorded verbal", 2)])],
    },
    Kind { name: "agreed", fields: &[FORM] },
    Kind { name: "withdrawn", fields: &[FORM] },
    Kind { name: "detection off", fields: &[FORM, SetA("lost"), SetB("portable device")] },
    Kind { name: "movement asked", fields: &[TRAIN, Number(0, "route", 0, 63)] },
    Kind {
        name: "clearance",
        fields: &[
            TRAIN,
            Number(0, "turnout", 0, 63),
            Number(1, "declaration", 1, 9),
            Choice(2, &[("position normal", 0), ("position reverse", 1)]),
            Choice(3, &[("no clamp", 0), ("clamp", 1), ("attended", 2)]),
            Choice(4, &[("medium voice", 1), ("medium written", 2)]),
            Flag(5, "covers the whole group", "covers both ends"),
        ],
    },
    Kind { name: "ordered", fields: &[TRAIN, Choice(0, &[("signals clear", 1), ("signals danger", 2)])] },
    Kind { name: "passed", fields: &[TRAIN] },
    Kind { name: "cancelled", fields: &[TRAIN] },
    Kind { name: "part restored", fields: &[FORM, SetA("turnouts")] },
    Kind { name: "all restored", fields: &[FORM] },
    Kind { name: "recorder", fields: &[Choice(0, &[("out", 0), ("working", 1)])] },
    Kind {
        name: "key used",
        fields: &[TRAIN, Number(0, "turnout", 0, 63), Choice(1, &[("key Tcl", 1), ("key Es", 2)])],
    },
];

pub fn kind(number: u8) -> Option<&'static Kind> {
    KINDS.get(usize::from(number.checked_sub(1)?))
}

/// The word for a detail's value.
pub fn word(table: &[(&'static str, u8)], value: u8) -> Option<&'static str> {
    table.iter().find(|(_, other)| *other == value).map(|(word, _)| *word)
}

/// The fields that break a rule of the kind (13), in words; none for a record that reads.
pub fn bad_fields(message: &Message) -> Vec<String> {
    let Some(kind) = kind(message.kind) else {
        return Vec::new();
    };
    let mut bad = Vec::new();
    let (mut id, mut a, mut b, mut details) = (None, false, false, [false; 6]);
    for field in kind.fields {
        match *field {
            Id(name) => id = Some(name),
            SetA(_) => a = true,
            SetB(_) => b = true,
            Number(n, name, low, high) => {
                details[n] = true;
                if !(low..=high).contains(&message.d[n]) {
                    bad.push(format!("d{n} ({name}) is {}, not {low} to {high}", message.d[n]));
                }
            }
            Choice(n, table) => {
                details[n] = true;
                if word(table, message.d[n]).is_none() {
                    let words: Vec<String> = table.iter().map(|(word, value)| format!("{value} {word}")).collect();
                    bad.push(format!("d{n} is {}, not {}", message.d[n], words.join(" or ")));
                }
            }
            Flag(n, ..) => {
                details[n] = true;
                if message.d[n] > 1 {
                    bad.push(format!("d{n} is {}, not 0 or 1", message.d[n]));
                }
            }
        }
    }
    match id {
        Some(name) if message.id == 0 => bad.push(format!("id ({name}) is 0")),
        None if message.id != 0 => bad.push(format!("id is {}, not 0", message.id)),
        _ => {}
    }
    if !a && message.a != 0 {
        bad.push("set a is not empty".to_string());
    }
    if !b && message.b != 0 {
        bad.push("set b is not empty".to_string());
    }
    for (n, value) in message.d.iter().enumerate() {
        if !details[n] && *value != 0 {
            bad.push(format!("d{n} is {value}, not 0"));
        }
    }
    bad
}
