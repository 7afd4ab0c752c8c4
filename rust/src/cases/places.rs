//! Texts by hand, with the number and the place that document 02 gives: of 17 byte by byte, and of 18 at node 1,025 and condition 257.

/// A text, and the number and the place; 0 and the length of its image where it is read.
pub type Placed = (String, [u64; 2]);

/// A text that is refused with 17 at the byte behind the bar, which is left out.
const STOPS: &[&str] = &[
    "|",
    " \n|",
    "opt|",
    "options|",
    "options 6|",
    "options 0 ski|",
    "options 0 v1|6 := 2",
    "options 0 v0 := 0|1",
    "options 0 throw -|0",
    "options 0 throw -| 5",
    "options 0 throw 214748364|8",
    "options 0 throw -214748364|9",
    "options 0 throw 999999999|9",
    "options 3 [o|3 ? skip : skip]",
    "options 0 [|o0 ? skip : skip]",
    "options 0 wh|ale true do skip",
    "options 0 v1 :| = 2",
    "options 0 skip |skip",
    "options 0 skip \n|}",
    "options 0 {skip;skip}                    |x",
    "options |7 skip",
    "options 0|0 skip",
    "options 1|0 skip",
    "options|0 skip",
    "options 0|skip",
    "options 0 throw|-5",
    "options 0 throw 5 |-5",
    "options 0 throw |+5",
    "options 0 if|true then skip else skip",
    "options 0 try skip catch v1|6 with skip",
    "options 0 try skip catch v1|with skip",
    "options 0 skip|X",
    "options 0 skip|\t",
    "options 0 skip|\r\n",
];

/// Texts that are read, and how many conditions and nodes each has.
const READ: &[(&str, u64, u64)] = &[
    (" \n options \n 0 \n skip \n ", 0, 1),
    ("options 0 v1:=(1+-2)", 0, 4),
    ("options 0 throw -5", 0, 2),
    ("options 0 throw 2147483647", 0, 2),
    ("options 0 throw -2147483648", 0, 2),
    ("options 0 throw(v15+v0)", 0, 4),
    ("options 1[o0?v0:=-1:v0:=1]", 1, 5),
    ("options 6[(o5 and not o0)?skip:skip]", 4, 3),
    (
        "options 0 if not(1<2)then{skip;skip}else try skip catch v3 with skip",
        0,
        11,
    ),
];

/// What stands at node 1,025, and its number and place from there on.
const NODE_1025: &[(&str, [u64; 2])] = &[
    ("", [17, 0]),
    ("ski", [17, 3]),
    ("skip", [18, 0]),
    ("skipx", [17, 4]),
    ("skipX", [17, 4]),
    ("skip!", [18, 0]),
    ("throw -0", [18, 0]),
    ("throw-5", [18, 0]),
    ("v", [17, 1]),
    ("v1", [18, 0]),
    ("v16", [17, 2]),
    ("v1:", [18, 0]),
    ("{", [18, 0]),
    ("[", [18, 0]),
    ("(", [17, 0]),
    ("  while", [18, 2]),
];

/// What stands at node 1,023, where all else is right behind it.
const NODE_1023: &[(&str, [u64; 2])] = &[
    ("throw (1 + 2)", [18, 7]),
    ("throw (1!", [18, 7]),
    ("throw (01", [17, 8]),
    ("throw (-", [17, 8]),
    ("throw (", [17, 7]),
    ("v1 := pick (true ? 1 : 2)", [18, 12]),
    ("if both (true and true) then", [18, 9]),
];

/// What stands at condition 257.
const CONDITION_257: &[(&str, [u64; 2])] = &[
    ("o0", [18, 0]),
    ("o0 ?", [18, 0]),
    ("o1", [17, 1]),
    ("o0x", [17, 2]),
    ("o", [17, 1]),
    ("(x", [18, 0]),
    ("not", [18, 0]),
    ("true", [18, 0]),
    ("tru", [17, 3]),
    ("truee", [17, 4]),
    ("[", [17, 0]),
];

/// Texts behind a start, their places counted from its end.
fn behind(start: String, texts: &[(&str, [u64; 2])], end: &str) -> Vec<Placed> {
    let at = start.len() as u64;
    let placed = |&(text, [number, place]): &(&str, [u64; 2])| {
        (format!("{start}{text}{end}"), [number, at + place])
    };
    texts.iter().map(placed).collect()
}

/// Sequences up to node `count`, an odd number, which stands next.
fn sequences(count: usize) -> String {
    format!("options 0 {}", "{skip;".repeat((count - 1) / 2))
}

/// A condition up to record `count`, an odd number, which stands next.
fn joined(count: usize) -> String {
    format!("options 1 [{}", "(o0 and ".repeat((count - 1) / 2))
}

fn length(conditions: u64, nodes: u64) -> [u64; 2] {
    [0, 8 + 4 * conditions + 8 * nodes]
}

/// As many nodes and conditions as there may be, and one less.
fn fullest() -> Vec<Placed> {
    let nodes = |last: &str| format!("{}{last}{}", sequences(1023), "}".repeat(511));
    let conditions = |last: &str| format!("{}{last}{}?skip:skip]", joined(255), ")".repeat(127));
    vec![
        (nodes("throw 1"), length(0, 1024)),
        (nodes("skip"), length(0, 1023)),
        (conditions("not o0"), length(256, 3)),
        (conditions("o0"), length(255, 3)),
    ]
}

pub fn all() -> Vec<Placed> {
    let stops = STOPS.iter().map(|marked| {
        let place = marked.find('|').unwrap_or(marked.len()) as u64;
        (marked.replacen('|', "", 1), [17, place])
    });
    let read = READ
        .iter()
        .map(|&(text, conditions, nodes)| (text.to_string(), length(conditions, nodes)));
    let mut all: Vec<Placed> = stops.chain(read).collect();
    all.extend(fullest());
    all.extend(behind(sequences(1025), NODE_1025, ""));
    all.extend(behind(sequences(1023), NODE_1023, ""));
    all.extend(behind(joined(257), CONDITION_257, ""));
    all
}
