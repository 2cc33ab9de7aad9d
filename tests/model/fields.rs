//! Results of the programs `test_probe_..` in words, for the report of a disagreement.

/// The fields of PORTS.
const PORTS: [(&str, usize); 15] = [
    ("ComLynx held", 265),
    ("ComLynx stage", 1),
    ("ComLynx count", 2),
    ("ComLynx came", 2),
    ("Eversolar held", 263),
    ("Eversolar stage", 1),
    ("Eversolar count", 2),
    ("Eversolar length", 2),
    ("Fronius held", 130),
    ("Fronius stage", 1),
    ("Fronius count", 2),
    ("Fronius length", 2),
    ("drives held", 42),
    ("drives stage", 1),
    ("drives count", 2),
];

const COUNTS: [(&str, usize); 3] = [("packets", 8), ("messages", 8), ("damages", 8)];

/// The fields after the number: their names and bytes; 0 bytes for a list.
fn fields_of(op: u8) -> Vec<(&'static str, usize)> {
    let ports = PORTS.as_slice();
    match op {
        0x86 => ports.to_vec(),
        0x87 => {
            let told =
                [("used", 2), ("lost", 2), ("from", 0), ("to", 0), ("code", 0), ("length", 2)];
            [&told, ports, &[("lent", 0)]].concat()
        }
        0x88 => [ports, &COUNTS].concat(),
        0x89 => {
            let told = [("came", 1), ("used", 2), ("wrote", 2)];
            [&told, ports, &COUNTS, &[("lent", 0)]].concat()
        }
        _ => other_fields_of(op).to_vec(),
    }
}

fn other_fields_of(op: u8) -> &'static [(&'static str, usize)] {
    match op {
        0x01 => &[
            ("used", 2),
            ("lost", 2),
            ("source", 2),
            ("destination", 2),
            ("type", 1),
            ("length", 2),
            ("held", 265),
            ("stage", 1),
            ("count", 2),
            ("came", 2),
            ("lent", 0),
        ],
        0x02 => &[
            ("used", 2),
            ("lost", 2),
            ("source", 2),
            ("destination", 2),
            ("control", 1),
            ("function", 1),
            ("length", 2),
            ("held", 263),
            ("stage", 1),
            ("count", 2),
            ("state length", 2),
            ("lent", 0),
        ],
        0x03 => &[
            ("used", 2),
            ("lost", 2),
            ("device", 1),
            ("number", 1),
            ("command", 1),
            ("length", 2),
            ("held", 130),
            ("stage", 1),
            ("count", 2),
            ("state length", 2),
            ("lent", 0),
        ],
        0x04 => &[("held", 265), ("stage", 1), ("count", 2), ("came", 2)],
        0x05 => &[("held", 263), ("stage", 1), ("count", 2), ("state length", 2)],
        0x06 => &[("held", 130), ("stage", 1), ("count", 2), ("state length", 2)],
        0x07 => &[
            ("used", 2),
            ("lost", 2),
            ("source", 2),
            ("destination", 2),
            ("type", 1),
            ("length", 2),
            ("stage", 1),
            ("count", 2),
            ("came", 2),
            ("held", 0),
            ("lent", 0),
        ],
        0x08 => &[
            ("used", 2),
            ("lost", 2),
            ("source", 2),
            ("destination", 2),
            ("control", 1),
            ("function", 1),
            ("length", 2),
            ("stage", 1),
            ("count", 2),
            ("state length", 2),
            ("held", 0),
            ("lent", 0),
        ],
        0x09 => &[
            ("used", 2),
            ("lost", 2),
            ("device", 1),
            ("number", 1),
            ("command", 1),
            ("length", 2),
            ("stage", 1),
            ("count", 2),
            ("state length", 2),
            ("held", 0),
            ("lent", 0),
        ],
        0x0A => &[
            ("used", 2),
            ("lost", 2),
            ("opening", 1),
            ("station", 2),
            ("letter", 1),
            ("length", 2),
            ("held", 42),
            ("stage", 1),
            ("count", 2),
            ("lent", 0),
        ],
        0x0B => &[("held", 42), ("stage", 1), ("count", 2)],
        0x0C => &[
            ("used", 2),
            ("lost", 2),
            ("opening", 1),
            ("station", 2),
            ("letter", 1),
            ("length", 2),
            ("stage", 1),
            ("count", 2),
            ("held", 0),
            ("lent", 0),
        ],
        0x11..=0x14 | 0x31..=0x33 | 0x62 | 0x81 | 0x83..=0x85 | 0x8A..=0x8D => {
            &[("length", 2), ("lent", 0)]
        }
        0x21 => &[("kind", 1), ("id", 1), ("code", 1)],
        0x22 => &[("network", 1), ("subnet", 1), ("node", 1)],
        0x23 => &[("word", 2)],
        0x24 => &[("expected", 1)],
        0x34 => &[("tenths", 4)],
        0x35 => &[("units", 8)],
        0x36 => &[("word", 2)],
        0x37 => &[("first", 1), ("second", 1)],
        0x41 => &[("thousandths", 8)],
        0x42 => &[("kind", 1), ("double", 8)],
        0x51 | 0x53 | 0x54 | 0x56 => &[("address", 1), ("roster", 0)],
        0x52 | 0x55 => &[("roster", 0)],
        0x61 => &[("port", 1), ("count", 1), ("used", 2)],
        0x71 | 0x72 | 0x74..=0x79 => &[("state", 2)],
        0x73 => &[("first", 1), ("second", 1)],
        0x92 => &[
            ("place", 4),
            ("lost", 2),
            ("source", 2),
            ("destination", 2),
            ("type", 1),
            ("length", 2),
            ("lent", 0),
        ],
        0x93 => &[
            ("place", 4),
            ("lost", 2),
            ("source", 2),
            ("destination", 2),
            ("control", 1),
            ("function", 1),
            ("length", 2),
            ("lent", 0),
        ],
        0x94 => &[
            ("place", 4),
            ("lost", 2),
            ("device", 1),
            ("number", 1),
            ("command", 1),
            ("length", 2),
            ("lent", 0),
        ],
        0x95 => &[
            ("place", 4),
            ("lost", 2),
            ("opening", 1),
            ("station", 2),
            ("letter", 1),
            ("length", 2),
            ("lent", 0),
        ],
        0x96 => &[
            ("lost", 2),
            ("source", 2),
            ("destination", 2),
            ("type", 1),
            ("length", 2),
            ("lent", 0),
        ],
        _ => &[],
    }
}

pub fn hex(bytes: &[u8]) -> String {
    let bytes: Vec<String> = bytes.iter().map(|byte| format!("{byte:02X}")).collect();
    bytes.join(" ")
}

/// A list's size is that of its length and of so many bytes.
fn size_of_field(size: usize, rest: &[u8]) -> usize {
    match (size, rest) {
        (0, [low, high, ..]) => 2 + usize::from(*low) + 256 * usize::from(*high),
        _ => size,
    }
}

/// The number and every field; short ones as numbers too.
pub fn in_words(op: u8, result: &[u8]) -> String {
    let Some((number, mut rest)) = result.split_first() else {
        return "an empty result".to_string();
    };
    let mut words = format!("number {number}");
    for (name, size) in fields_of(op) {
        let (field, later) = rest.split_at(size_of_field(size, rest).min(rest.len()));
        rest = later;
        words.push_str(&format!("\n    {name}: {}", hex(field)));
        if field.len() <= 8 {
            let number =
                field.iter().rev().fold(0_u64, |number, &byte| number << 8 | u64::from(byte));
            words.push_str(&format!(" ({number})"));
        }
    }
    if !rest.is_empty() {
        words.push_str(&format!("\n    beyond the fields: {}", hex(rest)));
    }
    words
}
