//! Sessions, and the composer's fixed list, which they make. Each line is a session: calls one after another on one composition,
//! the answer of the last of them, and the composition after it. tests/fixed/README.md has the form.

use crate::calls::GUARD_BYTE;
use crate::composer::{codes, handed, odd_cells, plain, random_composition, random_key};
use crate::composition::{Call, Composition, Oracle, CELLS, HEAD, OLD_CELLS, OLD_SIZE, ROOM, SIZE};
use crate::draft;
use crate::engine::bamboo::spy::Cell;
use crate::engine::bamboo::Mode;
use crate::engine::spelling;
use crate::fixed::{bracketed, byte, refused, spaced};
use crate::input_method::InputMethod::{self, Telex, Vni};
use crate::oracle::TONE_KEYS;
use crate::report::Random;

/// A line in the making: its calls so far, the keys that are still to be written among them, and the answer of the last one.
pub struct Session {
    oracle: Oracle,
    room: usize,
    draft_room: usize,
    bytes: Vec<u8>,
    calls: Vec<String>,
    pressed: Vec<u32>,
    last: Option<Result<String, u32>>,
}

impl Session {
    pub fn new(method: InputMethod) -> Session {
        Session::on(&Composition::new(method), if method == Telex { "telex" } else { "vni" }.to_string())
    }

    /// A composition that the line hands in, cell by cell.
    pub fn handed(composition: &Composition) -> Session {
        Session::on(composition, format!("handed {composition:?} ;"))
    }

    fn on(composition: &Composition, start: String) -> Session {
        Session { bytes: composition.bytes().to_vec(), calls: vec![start], ..Session::unmade() }
    }

    /// Bytes of no meaning.
    pub fn unmade() -> Session {
        let (bytes, calls, pressed) = (vec![GUARD_BYTE; SIZE], Vec::new(), Vec::new());
        Session { oracle: Oracle::new(), room: ROOM, draft_room: draft::MOST, bytes, calls, pressed, last: None }
    }

    fn call(&mut self, call: Call) {
        let left = self.oracle.left(&self.bytes, call);
        self.bytes = left.bytes().to_vec();
        self.last = Some(match (left.refusal(), left.text(), left.number()) {
            (0, Some(text), _) => Ok(bracketed(text)),
            (0, None, Some(behaviour)) if call.name() == "undo" => Ok(["append", "consume"][behaviour].to_string()),
            (0, None, Some(number)) => Ok(number.to_string()),
            (0, None, None) => Ok("done".to_string()),
            (refusal, ..) => Err(refusal),
        });
    }

    fn say(&mut self, words: String) {
        if !self.pressed.is_empty() {
            self.calls.push(format!("keys {}", bracketed(&self.pressed)));
            self.pressed.clear();
        }
        self.calls.push(words);
    }

    /// A call for each key.
    fn keys(mut self, keys: &[u32]) -> Session {
        keys.iter().for_each(|&key| self.call(Call::Key(key, self.room)));
        self.pressed.extend(keys);
        self
    }

    pub fn typed(self, keys: &str) -> Session {
        self.keys(&codes(keys))
    }

    /// A call by its name and its numbers; the rooms are those of the session.
    pub fn named(mut self, call: Call) -> Session {
        let call = match call {
            Call::Text(_) => Call::Text(self.room),
            Call::RemoveLast(_) => Call::RemoveLast(self.room),
            call => call,
        };
        self.call(call);
        self.say(match call {
            Call::Text(_) | Call::RemoveLast(_) => call.name().to_string(),
            call => format!("{call:?}"),
        });
        self
    }

    fn undo(self, trigger: char, raw: &str) -> Session {
        self.named(Call::Undo(trigger.into(), &codes(raw)))
    }

    pub fn write_draft(mut self) -> Session {
        let written = draft::written(&self.bytes, self.draft_room);
        self.last = Some(written.map(|draft| format!("{} ;", spaced(draft.into_iter(), byte))));
        self.say("write_draft".to_string());
        self
    }

    pub fn read_draft(mut self, draft: &[u8]) -> Session {
        let found = draft::found(self.bytes.len(), draft);
        if let Ok(composition) = &found {
            self.bytes = composition.bytes().to_vec();
        }
        self.last = Some(found.map(|_| "done".to_string()));
        self.say(format!("read_draft {} ;", spaced(draft.iter().copied(), byte)));
        self
    }

    /// The room of every output from here on.
    pub fn room(mut self, room: usize) -> Session {
        (self.room, self.draft_room) = (room, room);
        self.say(format!("room {room}"));
        self
    }

    pub fn poke(mut self, place: usize, value: u8) -> Session {
        self.bytes[place] = value;
        self.say(format!("poke {place} {value}"));
        self
    }

    /// Bytes of another length from here on: cut off, or blank ones more.
    pub fn length(mut self, length: usize) -> Session {
        self.bytes.resize(length, 0);
        self.say(format!("length {length}"));
        self
    }

    /// The composition's bytes as they stand.
    pub fn bytes(&self) -> &[u8] {
        &self.bytes
    }

    pub fn line(mut self) -> String {
        self.say("=".to_string());
        let calls = self.calls.join(" ");
        let composition = || Composition::read(&self.bytes).expect("a call that is done leaves a sound composition");
        match self.last.expect("a session has a call") {
            Ok(answer) => format!("session {calls} {answer} / {:?}", composition()),
            Err(refusal) => format!("session {calls} {}", refused(refusal)),
        }
    }
}

pub fn fixed() -> Vec<String> {
    let mut lines = examples();
    lines.extend(rules(typed));
    lines.extend(tones());
    lines.extend(words(typed));
    lines.extend(reaches());
    lines.extend(calls());
    lines.extend(undos());
    lines.extend(odd());
    lines.extend(unsound());
    lines.extend(random());
    lines.extend(capitals());
    lines.extend(capital_calls());
    lines.extend(turned());
    lines
}

fn typed(method: InputMethod, keys: &str) -> String {
    Session::new(method).typed(keys).line()
}

/// The same with capitals on.
fn typed_on(method: InputMethod, keys: &str) -> String {
    on(method).typed(keys).line()
}

/// A new composition with capitals on.
pub fn on(method: InputMethod) -> Session {
    Session::new(method).named(Call::SetCapitals(1))
}

/// The Telex keys of "Examples to hold it to" in document 01.
pub const EXAMPLES: [&str; 17] = [
    "dad", "osaf", "uosw", "uows", "AAN", "quar", "gif", "quow", "quaw", "xuaw", "a.s", "abbbbw", "abbbbbw", "uobbbbw",
    "uobbbbbw", "uaw", "qu",
];

/// "Examples to hold it to" of document 01.
fn examples() -> Vec<String> {
    let mut lines: Vec<String> = EXAMPLES.map(|keys| typed(Telex, keys)).to_vec();
    lines.push(typed(Vni, "pha6n 2"));
    for cells in [CELLS, OLD_CELLS] {
        lines.push(typed(Telex, &"b".repeat(cells)));
        lines.push(typed(Telex, &"b".repeat(cells + 1)));
        lines.push(typed(Telex, &("b".repeat(cells - 1) + "aw")));
    }
    lines.push(Session::new(Telex).typed("uaw").undo('w', "uaw").line());
    lines.push(Session::new(Telex).typed("dd").undo('d', "dd").line());
    lines.push(Session::new(Telex).typed("dd").undo('d', "dd").named(Call::Text(ROOM)).line());
    lines
}

/// Each mark rule in either case of its two letters, on a toned letter, and after another mark.
fn rules(typed: fn(InputMethod, &str) -> String) -> Vec<String> {
    let mut lines = Vec::new();
    for (method, rules, tone) in [(Telex, "aw aa ee oo ow uw dd", "s"), (Vni, "a6 e6 o6 o7 u7 a8 d9", "1")] {
        for rule in rules.split(' ') {
            let upper = rule.to_uppercase();
            let (base, key) = rule.split_at(1);
            for keys in [
                rule.to_string(), upper.clone(), [&upper[..1], key].concat(), [base, &upper[1..]].concat(),
                [base, tone, key].concat(), [rule, key].concat(), [rule, tone].concat(), [&upper, tone].concat(),
                ["b", base, "n", key].concat(), [base, " ", key].concat(), [base, base, key].concat(),
            ] {
                lines.push(typed(method, &keys));
            }
        }
        for start in ["uo", "Uo", "uO", "UO", "quo", "huong", "uou", "uoi", "ua", "Ua", "uA", "qua", "QUa", "uan", "uơ", "ưo", "ưa"] {
            let key = if method == Telex { "w" } else { "7" };
            lines.push(typed(method, &[start, key].concat()));
            lines.push(typed(method, &[start, tone, key].concat()));
            lines.push(typed(method, &[start, key, tone].concat()));
        }
    }
    lines
}

/// The tone's place: the vowels of the rows, after no onset, one letter, q u and g i, and in a later syllable; then pairs whose
/// last vowel takes it, and pairs whose first does.
fn tones() -> Vec<String> {
    let mut lines = Vec::new();
    for vowels in spelling::spy::vowels() {
        for onset in ["", "t", "qu", "gi", "a.", "q"] {
            lines.push(typed(Telex, &[onset, vowels, "ns"].concat()));
        }
        lines.push(typed(Vni, &["Th", vowels, "5"].concat()));
    }
    for pair in ["oa", "oe", "uy", "iê", "yê", "uô", "ươ", "io", "uâ", "uê", "uơ", "ao", "ia", "eo", "ưa", "ơu"] {
        for keys in ["", "b", "gi", "dgi", "bqu", "Q"] {
            lines.push(typed(Telex, &[keys, pair, "f"].concat()));
            lines.push(typed(Telex, &[keys, &pair.to_ascii_uppercase(), "nj"].concat()));
        }
    }
    for keys in ["bs", "s", "a s", "a b", "a bs", "b s", "a,bcs", "GIas", "QUas", "gis", "qus", "aeious", "Aas", "ầs", "Ăs", "âs"] {
        lines.push(typed(Telex, keys));
    }
    for tone in TONE_KEYS.chars() {
        let method = if tone.is_ascii_digit() { Vni } else { Telex };
        for keys in ["toan", "oA", "A", "b", "ưƠ"] {
            lines.push(typed(method, &format!("{keys}{tone}")));
            lines.push(typed(method, &format!("{keys}{tone}{tone}")));
        }
    }
    lines
}

fn words(typed: fn(InputMethod, &str) -> String) -> Vec<String> {
    const TELEX: &str = "tieengs Vieetj nguwowif dduwowngf nghieeng khuyru thuowr quaanf giowf giuwongf hoaf khoer tuys muoons \
        buoonf uoonfg banhs chuwax ddaays nghix nguwowfi ngwowif rau huees bacsf basc HAF NOOIJ DDaf LAJT Ddoongf aas aww oww \
        ddd dddd uww eee ooo aaa ww w d s";
    const VNI: &str = "tie6ng1 Vie6t5 ngu7o7i2 d9u7o7ng2 nghie6ng khuyu3 thuo73 qua6n2 gio72 hoa2 muo6n1 buo6n2 chu7a4 \
        d9a6y1 uo7 a6 a66 a8 a88 d9 d99 9 7 6 1";
    let telex = TELEX.split_whitespace().map(|keys| typed(Telex, keys));
    telex.chain(VNI.split_whitespace().map(|keys| typed(Vni, keys))).collect()
}

/// 0 to 9 letters between a letter and its key.
fn reaches() -> Vec<String> {
    let mut lines = Vec::new();
    for (method, start, key, filler) in [
        (Telex, "a", "w", "b"), (Telex, "d", "d", "n"), (Telex, "u", "w", "i"), (Telex, "uo", "w", "b"), (Telex, "uo", "w", "."),
        (Telex, "uo", "w", "i"), (Telex, "uo", "W", " "), (Vni, "o", "6", "b"), (Vni, "d", "9", " "), (Vni, "uo", "7", "b"),
        (Vni, "ua", "7", "b"),
    ] {
        lines.extend((0..=9).map(|between| typed(method, &[start, &filler.repeat(between), key].concat())));
    }
    lines
}

/// The calls that only tell of a composition, but for its text.
const ASKED: [Call; 5] = [Call::CheckComposition, Call::Method, Call::Mode, Call::Capitals, Call::Count];

/// Rooms, removal, literals, reset, the settings, the numbers and English mode.
fn calls() -> Vec<String> {
    let start = |keys: &str| Session::new(Telex).typed(keys);
    let mut lines = Vec::new();
    for room in 0..=4 {
        lines.push(start("dd").room(room).typed("a").line());
        lines.push(start("dda").room(room).typed("s").line());
        lines.push(start("dda").room(room).named(Call::Text(room)).line());
        lines.push(start("dda").room(room).named(Call::RemoveLast(room)).line());
        lines.push(start("a").named(Call::SetMode(1)).room(room).typed("w").line());
    }
    let changes = [Call::Text(ROOM), Call::RemoveLast(ROOM), Call::Reset, Call::SetMode(0), Call::SetMode(1)];
    for call in changes.into_iter().chain(ASKED) {
        lines.push(start("").named(call).line());
        lines.push(start("Uows").named(call).line());
        lines.push(start("Uows").named(call).typed("a").line());
        lines.push(start("Uows").named(call).named(Call::RemoveLast(ROOM)).line());
        lines.push(start("a").named(Call::SetMode(1)).named(Call::Literal('A'.into())).named(call).line());
    }
    for number in [0, 1, 2, 255, 256, u32::MAX] {
        for call in [Call::New(number), Call::SetMethod(number), Call::SetMode(number), Call::SetCapitals(number)] {
            lines.push(start("Uows").named(call).line());
            lines.push(start("Uows").named(call).typed("a6").line());
            lines.push(start("o").named(Call::SetMode(1)).named(Call::Literal('s'.into())).named(call).line());
            lines.extend(ASKED.map(|asked| start("Uows").named(call).named(asked).line()));
        }
    }
    for letter in codes("aAsw Ăđ\0").into_iter().chain([0x80, 0xd800, 0x110000, 0x80000061]) {
        lines.push(start("a").named(Call::Literal(letter)).line());
        lines.push(start("a").keys(&[letter]).line());
        for cells in [OLD_CELLS, CELLS] {
            lines.push(Session::handed(&handed(Telex, &vec![plain('b'); cells])).named(Call::Literal(letter)).line());
            lines.push(Session::handed(&handed(Telex, &vec![plain('b'); cells])).keys(&[letter]).line());
            lines.push(Session::handed(&handed(Vni, &vec![plain('a'); cells])).keys(&[letter]).room(0).keys(&[letter]).line());
        }
    }
    lines
}

fn undos() -> Vec<String> {
    let start = |keys: &str| Session::new(Telex).typed(keys);
    let mut lines = Vec::new();
    for rule in ["aw", "aa", "ee", "oo", "ow", "uw", "dd"] {
        let (trigger, upper) = (rule.chars().nth(1).expect("a rule's key"), rule.to_uppercase());
        for (keys, raw) in [
            (rule, rule), (&upper, &upper), (rule, ""), (rule, &rule[..1]), (rule, &[rule, "b"].concat()), (rule, &[rule, "i"].concat()),
            (&[rule, "s"].concat(), rule), (&[rule, "n"].concat(), &[rule, "n"].concat()), (&[rule, rule].concat(), rule),
            (rule, &["u", rule].concat()), (rule, &[rule, "a", rule].concat()), ("b", rule), (rule, &"b".repeat(65)),
            (rule, &("b".repeat(62) + rule)),
        ] {
            lines.push(start(keys).undo(trigger, raw).line());
        }
        lines.push(start(rule).undo(trigger.to_ascii_uppercase(), rule).line());
        lines.push(start(rule).undo('b', rule).line());
        lines.push(start(rule).undo('\0', rule).line());
        lines.push(start(rule).undo('\u{80}', rule).line());
        lines.push(start(rule).named(Call::Undo(trigger.into(), &[0x61, 0x110000])).line());
        lines.push(start(rule).named(Call::SetMode(0)).undo(trigger, rule).undo(trigger, rule).line());
        lines.push(Session::new(Vni).named(Call::Literal('a'.into())).undo(trigger, rule).line());
    }
    for tone in "sfrxj".chars() {
        let keys = format!("toa{tone}");
        for raw in [&keys[..], "", "b", &keys.to_uppercase(), "toa"] {
            lines.push(start(&keys).undo(tone, raw).line());
            lines.push(start(&keys).undo(tone.to_ascii_uppercase(), raw).line());
        }
        lines.push(start(&format!("a{tone} o{tone}")).undo(tone, &keys).line());
    }
    for tone in [None, Some('1'), Some('s')] {
        let cells = [Cell { tone, ..plain('a') }, Cell { tone, ..plain('b') }];
        for (trigger, raw) in [('1', "1"), ('s', "s"), ('\0', "\0"), ('\0', "")] {
            lines.push(Session::handed(&handed(Telex, &cells)).undo(trigger, raw).line());
            lines.push(Session::handed(&Composition { mode: Mode::English, ..handed(Telex, &cells) }).undo(trigger, raw).line());
            lines.push(Session::handed(&handed(Vni, &cells)).undo(trigger, raw).line());
        }
    }
    lines
}

/// Sound cells that no key makes.
fn odd() -> Vec<String> {
    let mut lines = Vec::new();
    for cell in odd_cells() {
        let session = |method| Session::handed(&handed(method, &[cell]));
        lines.push(session(Telex).named(Call::Text(ROOM)).line());
        lines.push(session(Telex).typed("w").line());
        lines.push(session(Vni).typed("b5").line());
    }
    lines
}

/// Bytes to be poked into `POKED`, some of which make it unsound: a place, and values.
pub const POKES: [(usize, &[u8]); 33] = [
    (0, &[1, 2, 255]), (1, &[1, 2, 255]), (2, &[2, 4, 32, 33, 96, 97, 255]), (3, &[1, 2, 255]), (4, &[1]), (5, &[1]), (6, &[1]),
    (7, &[1, 255]),
    (8, &[0x62, 0x80]), (9, &[1, 2]), (10, &[1]), (11, &[1, 255]), (12, &[0x61, 1]), (13, &[1]), (14, &[1, 0x31, 0x36, 0x61, 0x73, 0x80]),
    (15, &[1, 2, 255]), (16, &[2, 4, 0xe2]), (17, &[0, 2]), (18, &[1]), (20, &[0, 2, 0xe2]), (21, &[0, 2]), (22, &[0, 0x6a, 0x7a]),
    (23, &[0, 2]), (32, &[1]), (36, &[1]), (38, &[0x73]), (39, &[1]), (OLD_SIZE - 8, &[0x61]), (OLD_SIZE - 2, &[0x73]),
    (OLD_SIZE - 1, &[1]), (SIZE - 8, &[0x61]), (SIZE - 2, &[0x73]), (SIZE - 1, &[1]),
];
pub const POKED: [Cell; 3] = [
    Cell { base: 'a', mark: None, tone: None, upper: false },
    Cell { base: 'ă', mark: Some('ă'), tone: Some('s'), upper: true },
    Cell { base: 'B', mark: None, tone: None, upper: true },
];

/// A byte of each kind with a value that spells nothing, and other lengths.
fn unsound() -> Vec<String> {
    let session = || Session::handed(&handed(Telex, &POKED));
    let mut lines = Vec::new();
    for (place, values) in POKES {
        for &value in values {
            for call in ASKED.into_iter().chain([Call::Text(ROOM), Call::Reset]) {
                lines.push(session().poke(place, value).named(call).line());
            }
            lines.push(session().poke(place, value).typed("a").line());
        }
    }
    for length in [0, 1, 2, 3, HEAD, HEAD + 8, OLD_SIZE - 1, OLD_SIZE, OLD_SIZE + 1, OLD_SIZE + 8, SIZE - 1, SIZE + 1, SIZE + 8] {
        let changes = [
            Call::Text(ROOM), Call::RemoveLast(ROOM), Call::Reset, Call::New(0), Call::SetMethod(0), Call::SetMode(0),
            Call::SetCapitals(0), Call::Literal('a'.into()), Call::Key('a'.into(), ROOM),
        ];
        for call in ASKED.into_iter().chain(changes) {
            let shorter = session().length(length);
            lines.push(match call {
                Call::Key(key, _) => shorter.keys(&[key]).line(),
                _ => shorter.named(call).line(),
            });
        }
    }
    for cell in [0, OLD_CELLS - 1, OLD_CELLS, CELLS - 1] {
        for (place, value) in [(0, 0x80), (6, b'z'), (7, 2)] {
            let full = Session::handed(&handed(Telex, &[plain('b'); CELLS]));
            lines.push(full.poke(HEAD + 8 * cell + place, value).named(Call::CheckComposition).line());
        }
    }
    lines.push(session().length(OLD_SIZE - 1).undo('\u{80}', &"b".repeat(65)).line());
    lines.push(session().length(SIZE - 1).undo('\u{80}', &"b".repeat(65)).line());
    lines.push(session().poke(0, 9).named(Call::New(1)).line());
    lines.push(session().undo('\u{80}', &"b".repeat(65)).line());
    lines
}

/// Sessions at random, from a seed of their own.
fn random() -> Vec<String> {
    let mut random = Random(3);
    (0..150)
        .map(|turn| {
            let mut session = if turn % 3 == 0 {
                let count = random.below(12);
                Session::handed(&random_composition(&mut random, count))
            } else {
                Session::new(random.of(&[Telex, Vni]))
            };
            for _ in 0..1 + random.below(24) {
                let key = random_key(&mut random);
                session = match random.below(20) {
                    0..16 => session.keys(&[key]),
                    16 => session.named(Call::Literal(key)),
                    17 => session.named(Call::RemoveLast(ROOM)),
                    18 => session.named(Call::SetMode(random.below(8) as u32 / 7)),
                    _ => session.undo('w', "uow"),
                };
            }
            session.named(Call::Text(ROOM)).line()
        })
        .collect()
}

/// Capitals on: request 2026-01's own case and 01's in capitals, each rule, each tone on each vowel, words in capitals, and cells
/// that no key makes.
fn capitals() -> Vec<String> {
    let mut lines: Vec<String> = [
        "AAN", "As", "DD", "dD", "UOW", "uOw", "Uow", "QUAR", "UOSW", "XUAW", "DAD", "OSAF", "UOWS", "GIF", "QUOW", "QUAW", "A.S",
        "ABBBBW", "ABBBBBW", "UOBBBBW", "UOBBBBBW", "UAW", "QU", "dad", "aan", "aS", "AaN", "aAN", "uOsw", "uOws", "hUOngw",
        "quOw",
    ]
    .map(|keys| typed_on(Telex, keys))
    .to_vec();
    lines.extend(["PHA6N", "A61", "D9", "d9", "PHA6N 2", "UO7", "uO7", "Uo7", "U7O7", "a61"].map(|keys| typed_on(Vni, keys)));
    lines.extend(rules(typed_on));
    for (method, vowels, tones) in [
        (Telex, "A AW AA E EE I O OO OW U UW Y", "SFRXJ"), (Vni, "A A8 A6 E E6 I O O6 O7 U U7 Y", "12345"),
    ] {
        for vowel in vowels.split(' ') {
            lines.extend(tones.chars().map(|tone| typed_on(method, &format!("{vowel}{tone}"))));
        }
    }
    lines.extend(words(|method, keys| typed_on(method, &keys.to_uppercase())));
    for cell in odd_cells() {
        let composition = Composition { capitals: true, ..handed(Telex, &[cell]) };
        lines.push(Session::handed(&composition).named(Call::Text(ROOM)).line());
    }
    lines
}

/// Every call with capitals on: which of them keep the setting, and what they show.
fn capital_calls() -> Vec<String> {
    let start = |keys: &str| on(Telex).typed(keys);
    let mut lines = vec![Session::new(Telex).named(Call::Capitals).line(), Session::new(Vni).named(Call::Capitals).line()];
    for room in 0..=3 {
        lines.push(start("DD").room(room).typed("A").line());
        lines.push(start("DDA").room(room).typed("S").line());
        lines.push(start("DDA").room(room).named(Call::Text(room)).line());
        lines.push(start("DDA").room(room).named(Call::RemoveLast(room)).line());
        lines.push(start("A").named(Call::SetMode(1)).room(room).typed("w").line());
    }
    let changes = [
        Call::Text(ROOM), Call::RemoveLast(ROOM), Call::Reset, Call::Literal('Ầ'.into()), Call::Literal('ầ'.into()), Call::New(0),
        Call::New(1), Call::SetMethod(0), Call::SetMethod(1), Call::SetMethod(2), Call::SetMode(0), Call::SetMode(1),
        Call::SetMode(2), Call::SetCapitals(0), Call::SetCapitals(1), Call::SetCapitals(2), Call::SetCapitals(255),
        Call::SetCapitals(256), Call::SetCapitals(257), Call::SetCapitals(u32::MAX),
    ];
    for call in changes.into_iter().chain(ASKED) {
        lines.push(start("").named(call).line());
        lines.push(start("hUOWS").named(call).line());
        lines.push(start("hUOWS").named(call).named(Call::Capitals).line());
        lines.push(start("hUOWS").named(call).named(Call::Text(ROOM)).line());
        lines.push(start("hUOWS").named(call).typed("DAD61").line());
        lines.push(start("A").named(Call::SetMode(1)).named(Call::Literal('Đ'.into())).named(call).line());
        lines.push(start("A").named(Call::SetMode(1)).named(call).typed("ấ").line());
    }
    for keys in ["AW", "AA", "EE", "OO", "OW", "UW", "DD", "UOW", "uOw", "Uow", "aS", "AS", "aw", "dD", "Dd"] {
        let trigger = keys.chars().last().expect("keys end in one");
        lines.push(start(keys).undo(trigger, keys).line());
        lines.push(start(keys).undo(trigger, keys).named(Call::Text(ROOM)).line());
        lines.push(start(&[keys, "S"].concat()).undo('s', &[keys, "S"].concat()).named(Call::Text(ROOM)).line());
        lines.push(start(&[keys, "S"].concat()).named(Call::RemoveLast(ROOM)).line());
        lines.push(start(keys).named(Call::SetCapitals(0)).undo(trigger, keys).named(Call::Text(ROOM)).line());
    }
    lines
}

/// The setting turned between keys: the cells stay, and only an ơ that is made meanwhile goes by it.
fn turned() -> Vec<String> {
    let turn = |session: Session, on: u32| session.named(Call::SetCapitals(on));
    let mut lines = Vec::new();
    for keys in ["AAN", "UOW", "uOw", "Uow", "UOSW", "DAD", "OSAF", "QUAR", "XUAW", "HUOWNGS"] {
        for half in 0..=keys.len() {
            let (first, then) = keys.split_at(half);
            lines.push(turn(Session::new(Telex).typed(first), 1).typed(then).named(Call::Text(ROOM)).line());
            lines.push(turn(on(Telex).typed(first), 0).typed(then).named(Call::Text(ROOM)).line());
            lines.push(turn(turn(on(Telex).typed(first), 0).typed(then), 1).named(Call::Text(ROOM)).line());
        }
    }
    let mut random = Random(4);
    for turn in 0..100 {
        let mut session = if turn % 3 == 0 {
            let count = random.below(12);
            Session::handed(&Composition { capitals: random.below(2) == 0, ..random_composition(&mut random, count) })
        } else {
            on(random.of(&[Telex, Vni]))
        };
        for _ in 0..1 + random.below(24) {
            let key = random_key(&mut random);
            session = match random.below(20) {
                0..8 => session.keys(&[key]),
                8..14 => session.keys(&[random.letter_of("uUoOwWaAdD7")]),
                14 => session.named(Call::Literal(key)),
                15 => session.named(Call::RemoveLast(ROOM)),
                16 => session.named(Call::SetMode(random.below(8) as u32 / 7)),
                17 => session.undo('w', "uow"),
                _ => session.named(Call::SetCapitals(random.of(&[0, 1, 1]))),
            };
        }
        lines.push(session.named(Call::Text(ROOM)).line());
    }
    lines
}
