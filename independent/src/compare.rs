//! One case run on a library: its answer and every lent buffer afterwards.

use std::collections::BTreeMap;
use std::fmt::Write;

use crate::inputs::{self, Dice};
use crate::library::{
    FieldAnswer, Library, LineAnswer, Model, OfferAnswer, ReadAnswer, SalvageAnswer, StatusAnswer, SuspectAnswer,
};
use crate::rows;
use crate::salvage::{changed_text, ENTRY_NUMBERS, SPAN};
use crate::tags::Tag;
use crate::watch::Watch;

/// Where a sequence of offers begins.
#[derive(Clone, Copy, Debug)]
pub enum Start {
    Begun(u32),
    Lent(Watch),
}

/// A block offered to a watch with its data valid word and its tag, and the leap days lent this time.
#[derive(Clone, Debug)]
pub struct Offer {
    pub block: u8,
    pub valid: u32,
    pub tag: Vec<u8>,
    pub leap_days: Vec<u32>,
}

/// `shift` moves the buffers, so that no alignment is relied on.
#[derive(Clone, Debug)]
pub enum Case {
    CheckWord { bytes: Vec<u8> },
    Read { block: Vec<u8>, room: Vec<u16>, shift: usize },
    Write { header: Vec<u8>, words: Vec<u16>, dest: Vec<u8>, shift: usize },
    Record { header: Vec<u8>, words: Vec<u16>, k: usize },
    Place { block: u8, version: u8, record: u8 },
    ReadTag { bytes: Vec<u8>, leap_days: Vec<u32> },
    WriteTag { tag: Tag, leap_days: Vec<u32> },
    Elapsed { first: Vec<u8>, second: Vec<u8>, leap_days: Vec<u32> },
    Begin { limit: u32 },
    Offers { start: Start, offers: Vec<Offer> },
    Imager { words: Vec<u16> },
    Sounder { words: Vec<u16> },
    Status { words: Vec<u16>, leap_days: Vec<u32>, shift: usize },
    Suspect { words: Vec<u16>, leap_days: Vec<u32>, channel: u32, detector: u32, shift: usize },
    NextField { recording: Vec<u8>, at: usize, shift: usize },
    Line { before: u64, tag: u32, body: Vec<u8>, room: Vec<u16>, shift: usize },
    FirstText { room: Vec<u8> },
    LineText { seq: u64, block: u32, version: u32, words: usize, answer: u32, room: Vec<u8> },
    LastText { cut: u32, fields: u64, room: Vec<u8> },
    Salvage { input: Vec<u8>, recording: Vec<u8>, report: Vec<usize>, scratch: Vec<u16>, shift: usize },
    List { recording: Vec<u8> },
}

#[derive(Clone, Debug, PartialEq, Eq)]
pub enum Answer {
    Word(u16),
    Read(ReadAnswer),
    Written(u8, usize),
    Part(u8, usize, usize),
    Place(u8, u8, u8),
    Tag(u8, Tag),
    TagBytes(u8, [u8; 8]),
    Elapsed(u8, i64),
    Begun(u8, Watch),
    Offers(u8, Vec<(OfferAnswer, Watch)>),
    Imager(u8, [bool; 4]),
    Sounder(u8, [bool; 2]),
    Status(Box<StatusAnswer>),
    Suspect(SuspectAnswer),
    Field(FieldAnswer),
    Line(LineAnswer),
    Text(u8, usize),
    /// With what was found, entry by entry.
    Salvaged(SalvageAnswer, Vec<usize>),
    Listing(String),
}

/// Buffers afterwards, the room around them included.
#[derive(Debug, PartialEq, Eq)]
pub struct Outcome {
    pub answer: Answer,
    pub bytes: Vec<(&'static str, Lent<u8>)>,
    pub words: Vec<(&'static str, Lent<u16>)>,
    pub leap_days: Vec<(&'static str, Lent<u32>)>,
    pub numbers: Vec<(&'static str, Lent<usize>)>,
}

const AROUND: usize = 24;

/// A buffer with room before and behind it that nobody may touch.
#[derive(Debug, PartialEq, Eq)]
pub struct Lent<T> {
    space: Vec<T>,
    front: usize,
    length: usize,
}

impl<T: Copy> Lent<T> {
    fn new(content: &[T], shift: usize, guard: T) -> Lent<T> {
        let front = AROUND + shift;
        let mut space = vec![guard; front + content.len() + AROUND];
        space[front..front + content.len()].copy_from_slice(content);
        Lent { space, front, length: content.len() }
    }

    pub(crate) fn get(&self) -> &[T] {
        &self.space[self.front..self.front + self.length]
    }

    pub(crate) fn get_mut(&mut self) -> &mut [T] {
        &mut self.space[self.front..self.front + self.length]
    }
}

pub(crate) fn lend_bytes(content: &[u8], shift: usize) -> Lent<u8> {
    Lent::new(content, shift, 0xA5)
}

pub(crate) fn lend_words(content: &[u16], shift: usize) -> Lent<u16> {
    Lent::new(content, shift, 0xA5C3)
}

/// At the second number of its space, so that no more than a number's own alignment is relied on.
fn lend_leap_days(content: &[u32]) -> Lent<u32> {
    Lent::new(content, 1, 0xA5C3_A5C3)
}

fn lend_numbers(content: &[usize], shift: usize) -> Lent<usize> {
    Lent::new(content, shift, 0xA5C3_A5C3)
}

pub fn run(library: &dyn Library, case: &Case) -> Outcome {
    let mut bytes = Vec::new();
    let mut words = Vec::new();
    let mut lists = Vec::new();
    let mut numbers = Vec::new();
    let answer = match case {
        Case::CheckWord { bytes: lent } => {
            let lent = lend_bytes(lent, 0);
            let answer = library.check_word(lent.get());
            bytes.push(("bytes", lent));
            Answer::Word(answer)
        }
        Case::Read { block, room, shift } => {
            let block = lend_bytes(block, *shift);
            let mut room = lend_words(room, *shift);
            let answer = library.read(block.get(), room.get_mut());
            bytes.push(("block", block));
            words.push(("room", room));
            Answer::Read(answer)
        }
        Case::Write { header, words: lent, dest, shift } => {
            let header = lend_bytes(header, *shift);
            let lent = lend_words(lent, *shift);
            let mut dest = lend_bytes(dest, *shift);
            let (number, written) = library.write(header.get(), lent.get(), dest.get_mut());
            bytes.push(("header", header));
            bytes.push(("destination", dest));
            words.push(("words", lent));
            Answer::Written(number, written)
        }
        Case::Record { header, words: lent, k } => {
            let header = lend_bytes(header, 0);
            let lent = lend_words(lent, 0);
            let (number, start, length) = library.record(header.get(), lent.get(), *k);
            bytes.push(("header", header));
            words.push(("words", lent));
            Answer::Part(number, start, length)
        }
        Case::Place { block, version, record } => {
            let (number, channel, detector) = library.place(*block, *version, *record);
            Answer::Place(number, channel, detector)
        }
        Case::ReadTag { bytes: lent, leap_days } => {
            let lent = lend_bytes(lent, 0);
            let leap_days = lend_leap_days(leap_days);
            let (number, tag) = library.read_tag(lent.get(), leap_days.get());
            bytes.push(("tag", lent));
            lists.push(("leap days", leap_days));
            Answer::Tag(number, tag)
        }
        Case::WriteTag { tag, leap_days } => {
            let leap_days = lend_leap_days(leap_days);
            let (number, written) = library.write_tag(tag, leap_days.get());
            lists.push(("leap days", leap_days));
            Answer::TagBytes(number, written)
        }
        Case::Elapsed { first, second, leap_days } => {
            let first = lend_bytes(first, 0);
            let second = lend_bytes(second, 0);
            let leap_days = lend_leap_days(leap_days);
            let (number, time) = library.elapsed(first.get(), second.get(), leap_days.get());
            bytes.push(("first", first));
            bytes.push(("second", second));
            lists.push(("leap days", leap_days));
            Answer::Elapsed(number, time)
        }
        Case::Begin { limit } => {
            let (number, watch) = library.begin(*limit);
            Answer::Begun(number, watch)
        }
        Case::Offers { start, offers } => {
            let (number, mut watch) = match start {
                Start::Begun(limit) => library.begin(*limit),
                Start::Lent(watch) => (0, *watch),
            };
            let mut answers = Vec::new();
            for Offer { block, valid, tag, leap_days } in offers {
                let tag = lend_bytes(tag, 0);
                let leap_days = lend_leap_days(leap_days);
                let answer = library.offer(&mut watch, *block, *valid, tag.get(), leap_days.get());
                answers.push((answer, watch));
                bytes.push(("tag", tag));
                lists.push(("leap days", leap_days));
            }
            Answer::Offers(number, answers)
        }
        Case::Imager { words: lent } => {
            let lent = lend_words(lent, 0);
            let (number, right) = library.imager(lent.get());
            words.push(("words", lent));
            Answer::Imager(number, right)
        }
        Case::Sounder { words: lent } => {
            let lent = lend_words(lent, 0);
            let (number, right) = library.sounder(lent.get());
            words.push(("words", lent));
            Answer::Sounder(number, right)
        }
        Case::Status { words: lent, leap_days, shift } => {
            let lent = lend_words(lent, *shift);
            let leap_days = lend_leap_days(leap_days);
            let answer = library.sounder_status(lent.get(), leap_days.get());
            words.push(("words", lent));
            lists.push(("leap days", leap_days));
            Answer::Status(answer.into())
        }
        Case::Suspect { words: lent, leap_days, channel, detector, shift } => {
            let lent = lend_words(lent, *shift);
            let leap_days = lend_leap_days(leap_days);
            let answer = library.sounder_suspect(lent.get(), leap_days.get(), *channel, *detector);
            words.push(("words", lent));
            lists.push(("leap days", leap_days));
            Answer::Suspect(answer)
        }
        Case::NextField { recording, at, shift } => {
            let lent = lend_bytes(recording, *shift);
            let answer = library.next_field(lent.get(), *at);
            bytes.push(("recording", lent));
            Answer::Field(answer)
        }
        Case::Line { before, tag, body, room, shift } => {
            let body = lend_bytes(body, *shift);
            let mut room = lend_words(room, *shift);
            let answer = library.line(*before, *tag, body.get(), room.get_mut());
            bytes.push(("body", body));
            words.push(("room", room));
            Answer::Line(answer)
        }
        Case::FirstText { room } => {
            let mut room = lend_bytes(room, 0);
            let (number, written) = library.first_text(room.get_mut());
            bytes.push(("room", room));
            Answer::Text(number, written)
        }
        Case::LineText { seq, block, version, words, answer, room } => {
            let mut room = lend_bytes(room, 0);
            let (number, written) = library.line_text(*seq, *block, *version, *words, *answer, room.get_mut());
            bytes.push(("room", room));
            Answer::Text(number, written)
        }
        Case::LastText { cut, fields, room } => {
            let mut room = lend_bytes(room, 0);
            let (number, written) = library.last_text(*cut, *fields, room.get_mut());
            bytes.push(("room", room));
            Answer::Text(number, written)
        }
        Case::Salvage { input, recording, report, scratch, shift } => {
            let input = lend_bytes(input, *shift);
            let mut recording = lend_bytes(recording, *shift);
            let mut report = lend_numbers(report, *shift);
            let mut scratch = lend_words(scratch, *shift);
            let answer = library.salvage(input.get(), recording.get_mut(), report.get_mut(), scratch.get_mut());
            let entries = report.get().chunks_exact(ENTRY_NUMBERS).take(answer.entries);
            let found = entries.map(|entry| entry[2]).collect();
            bytes.push(("input", input));
            bytes.push(("recording", recording));
            numbers.push(("report", report));
            words.push(("scratch", scratch));
            Answer::Salvaged(answer, found)
        }
        Case::List { recording } => {
            let lent = lend_bytes(recording, 0);
            let listing = library.list(lent.get());
            bytes.push(("recording", lent));
            Answer::Listing(listing)
        }
    };
    Outcome { answer, bytes, words, leap_days: lists, numbers }
}

pub(crate) fn hex(bytes: &[u8]) -> String {
    bytes.iter().map(|byte| format!("{byte:02X}")).collect()
}

pub(crate) fn hex_words(words: &[u16]) -> String {
    let words: Vec<String> = words.iter().map(|word| format!("{word:04X}")).collect();
    words.join(" ")
}

impl Case {
    pub fn kind(&self) -> &'static str {
        match self {
            Case::CheckWord { .. } => "check word",
            Case::Read { .. } => "read",
            Case::Write { .. } => "write",
            Case::Record { .. } => "record",
            Case::Place { .. } => "place",
            Case::ReadTag { .. } => "read tag",
            Case::WriteTag { .. } => "write tag",
            Case::Elapsed { .. } => "elapsed",
            Case::Begin { .. } => "begin",
            Case::Offers { .. } => "offer",
            Case::Imager { .. } => "imager",
            Case::Sounder { .. } => "sounder",
            Case::Status { .. } => "status",
            Case::Suspect { .. } => "suspect",
            Case::NextField { .. } => "next field",
            Case::Line { .. } => "line",
            Case::FirstText { .. } => "first text",
            Case::LineText { .. } => "line text",
            Case::LastText { .. } => "last text",
            Case::Salvage { .. } => "salvage",
            Case::List { .. } => "list",
        }
    }

    /// The whole input, buffers in hex.
    pub fn input(&self) -> String {
        let mut text = String::new();
        let mut bytes = |name: &str, content: &[u8]| {
            writeln!(text, "  {name}, {} bytes: {}", content.len(), hex(content)).unwrap();
        };
        match self {
            Case::CheckWord { bytes: content } => bytes("bytes", content),
            Case::Read { block, room, shift } => {
                bytes("block", block);
                writeln!(text, "  room, {} words: {}", room.len(), hex_words(room)).unwrap();
                writeln!(text, "  shift: {shift}").unwrap();
            }
            Case::Write { header, words, dest, shift } => {
                bytes("header", header);
                bytes("destination", dest);
                writeln!(text, "  words, {}: {}", words.len(), hex_words(words)).unwrap();
                writeln!(text, "  shift: {shift}").unwrap();
            }
            Case::Record { header, words, k } => {
                bytes("header", header);
                writeln!(text, "  words: {}, record {k}", words.len()).unwrap();
            }
            Case::ReadTag { bytes: content, leap_days } => {
                bytes("tag", content);
                writeln!(text, "  leap days: {leap_days:?}").unwrap();
            }
            Case::Elapsed { first, second, leap_days } => {
                bytes("first", first);
                bytes("second", second);
                writeln!(text, "  leap days: {leap_days:?}").unwrap();
            }
            Case::Offers { start, offers } => {
                for Offer { block, valid, tag, leap_days } in offers {
                    bytes(&format!("offer of block {block}, data valid {valid}, leap days {leap_days:?}, tag"), tag);
                }
                writeln!(text, "  start: {start:?}").unwrap();
            }
            Case::Imager { words } | Case::Sounder { words } => {
                writeln!(text, "  words, {}: {}", words.len(), hex_words(words)).unwrap();
            }
            Case::Status { words, leap_days, shift } => {
                writeln!(text, "  words, {}: {}", words.len(), hex_words(words)).unwrap();
                writeln!(text, "  leap days: {leap_days:?}, shift: {shift}").unwrap();
            }
            Case::Suspect { words, leap_days, channel, detector, shift } => {
                writeln!(text, "  words, {}: {}", words.len(), hex_words(words)).unwrap();
                writeln!(text, "  channel {channel}, detector {detector}").unwrap();
                writeln!(text, "  leap days: {leap_days:?}, shift: {shift}").unwrap();
            }
            Case::NextField { recording, at, shift } => {
                bytes("recording", recording);
                writeln!(text, "  at: {at}, shift: {shift}").unwrap();
            }
            Case::Line { before, tag, body, room, shift } => {
                bytes("body", body);
                writeln!(text, "  before: {before}, tag: {tag}, shift: {shift}").unwrap();
                writeln!(text, "  room, {} words: {}", room.len(), hex_words(room)).unwrap();
            }
            Case::Salvage { input, recording, report, scratch, shift } => {
                bytes("input", input);
                let rooms = [recording.len(), report.len(), scratch.len()];
                writeln!(text, "  rooms: {rooms:?}, shift: {shift}").unwrap();
            }
            Case::List { recording } => bytes("recording", recording),
            Case::Place { .. }
            | Case::WriteTag { .. }
            | Case::Begin { .. }
            | Case::FirstText { .. }
            | Case::LineText { .. }
            | Case::LastText { .. } => {
                writeln!(text, "  {self:?}").unwrap();
            }
        }
        text
    }
}

/// Refusal 22 is counted by the word that it names.
fn refusal_label(number: u8, word: u32) -> String {
    if word == 0 {
        number.to_string()
    } else {
        format!("{number} at {word}")
    }
}

/// Names under which answers are counted.
fn labels(answer: &Answer) -> Vec<String> {
    match answer {
        Answer::Word(_) => vec!["word".into()],
        Answer::Read(read) => vec![read.number.to_string()],
        Answer::Field(field) => vec![format!("{:?}", field.found)],
        Answer::Line(line) => vec![line.number.to_string()],
        Answer::Offers(_, answers) => answers.iter().map(|(answer, _)| format!("{:?}", answer.verdict)).collect(),
        Answer::Salvaged(answer, found) => {
            let name = |&found| if found == SPAN { "span".into() } else { format!("block {}", changed_text(found)) };
            [answer.number.to_string()].into_iter().chain(found.iter().map(name)).collect()
        }
        Answer::Status(answer) => {
            let tags = answer.tags.iter().filter(|_| answer.number == 0).map(|(number, _)| format!("tag {number}"));
            [refusal_label(answer.number, answer.word)].into_iter().chain(tags).collect()
        }
        Answer::Suspect(SuspectAnswer { number: 0, suspect, .. }) => {
            vec!["0".into(), if *suspect { "suspect".into() } else { "not suspect".into() }]
        }
        Answer::Suspect(answer) => vec![refusal_label(answer.number, answer.word)],
        Answer::Listing(text) => {
            let lines: Vec<&str> = text.lines().skip(1).collect();
            lines
                .iter()
                .map(|line| if line.starts_with(['e', 'c']) { &line[..3] } else { line.rsplit(' ').next().unwrap() })
                .map(String::from)
                .collect()
        }
        Answer::Written(number, ..)
        | Answer::Part(number, ..)
        | Answer::Place(number, ..)
        | Answer::Text(number, _)
        | Answer::Tag(number, _)
        | Answer::TagBytes(number, _)
        | Answer::Elapsed(number, _)
        | Answer::Begun(number, _)
        | Answer::Imager(number, _)
        | Answer::Sounder(number, _) => vec![number.to_string()],
    }
}

pub(crate) fn first_difference<T: PartialEq + std::fmt::UpperHex>(
    name: &str,
    ours: &Lent<T>,
    theirs: &Lent<T>,
) -> String {
    for (place, (our, their)) in ours.space.iter().zip(&theirs.space).enumerate() {
        if our != their {
            let at = place as i64 - ours.front as i64;
            return format!("  {name} afterwards, at {at} of {}: model {our:X}, library {their:X}\n", ours.length);
        }
    }
    String::new()
}

/// None where they agree, else the input and both answers.
pub fn difference(library: &dyn Library, case: &Case, ours: &Outcome) -> Option<String> {
    let theirs = run(library, case);
    if *ours == theirs {
        return None;
    }
    let mut text = format!("difference in {}\n{}", case.kind(), case.input());
    if let (Answer::Offers(a, ours), Answer::Offers(b, theirs)) = (&ours.answer, &theirs.answer) {
        let place = ours.iter().zip(theirs).position(|(our, their)| our != their);
        writeln!(text, "  begun: model {a}, library {b}").unwrap();
        if let Some(place) = place {
            writeln!(text, "  first at offer {}", place + 1).unwrap();
            writeln!(text, "  model:   {:?}\n  library: {:?}", ours[place], theirs[place]).unwrap();
        }
    } else {
        writeln!(text, "  model:   {:?}\n  library: {:?}", ours.answer, theirs.answer).unwrap();
    }
    for ((name, ours), (_, theirs)) in ours.bytes.iter().zip(&theirs.bytes) {
        text += &first_difference(name, ours, theirs);
    }
    for ((name, ours), (_, theirs)) in ours.words.iter().zip(&theirs.words) {
        text += &first_difference(name, ours, theirs);
    }
    for ((name, ours), (_, theirs)) in ours.leap_days.iter().zip(&theirs.leap_days) {
        text += &first_difference(name, ours, theirs);
    }
    for ((name, ours), (_, theirs)) in ours.numbers.iter().zip(&theirs.numbers) {
        text += &first_difference(name, ours, theirs);
    }
    Some(text)
}

/// One case on the model and on a library, the model's answer counted.
pub(crate) fn compare_case(library: &dyn Library, case: &Case, tally: &mut Tally) -> Result<(), String> {
    let ours = run(&Model, case);
    tally.count(case.kind(), &ours.answer);
    match difference(library, case, &ours) {
        Some(text) => Err(text),
        None => Ok(()),
    }
}

/// How often each answer of each kind was met.
#[derive(Default)]
pub struct Tally(pub BTreeMap<(&'static str, String), u64>);

impl Tally {
    pub fn count(&mut self, kind: &'static str, answer: &Answer) {
        for label in labels(answer) {
            *self.0.entry((kind, label)).or_default() += 1;
        }
    }

    pub fn met(&self, kind: &'static str, label: &str) -> u64 {
        self.0.get(&(kind, label.to_string())).copied().unwrap_or(0)
    }

    /// One line for each kind.
    pub fn lines(&self) -> String {
        let mut kinds: BTreeMap<&str, Vec<(u64, String)>> = BTreeMap::new();
        for ((kind, label), count) in &self.0 {
            let order = label.parse().unwrap_or(99);
            kinds.entry(kind).or_default().push((order, format!("{label}: {count}")));
        }
        let mut text = String::new();
        for (kind, mut answers) in kinds {
            answers.sort();
            let answers: Vec<String> = answers.into_iter().map(|(_, answer)| answer).collect();
            writeln!(text, "{kind:11} {}", answers.join(", ")).unwrap();
        }
        text
    }
}

pub fn case_of(seed: u64, number: u64) -> Case {
    inputs::case(&mut Dice::for_case(seed, number))
}

/// Cases `first` up to `end` of a seed; stops at the first difference.
pub fn compare(library: &dyn Library, seed: u64, first: u64, end: u64, tally: &mut Tally) -> Result<(), String> {
    for number in first..end {
        let case = case_of(seed, number);
        compare_case(library, &case, tally).map_err(|text| format!("seed {seed}, case {number}: {text}"))?;
    }
    Ok(())
}

/// Every block, version and record that three bytes can name.
pub fn compare_placements(library: &dyn Library) -> Result<u64, String> {
    let mut compared = 0;
    for block in 0..=255 {
        for version in 0..=255 {
            for record in 0..=255 {
                let ours = Model.place(block, version, record);
                let theirs = library.place(block, version, record);
                if ours != theirs {
                    return Err(format!(
                        "difference in place\n  block {block}, version {version}, record {record}\n  \
                         model:   {ours:?}\n  library: {theirs:?}\n"
                    ));
                }
                compared += 1;
            }
        }
    }
    Ok(compared)
}

/// The length of record 1 and whether there is a record 4 tell the row.
fn compare_header(library: &dyn Library, words: &[u16], header: &[u8; 28]) -> Result<(), String> {
    let answers =
        |library: &dyn Library| ([1, 4].map(|k| library.record(header, words, k)), library.write(header, &[], &mut []));
    let (ours, theirs) = (answers(&Model), answers(library));
    if ours == theirs {
        return Ok(());
    }
    Err(format!(
        "difference in a header: {}\n  records 1 and 4, and writing no words\n  model:   {ours:?}\n  \
         library: {theirs:?}\n",
        hex(header)
    ))
}

/// Refusals 4 to 7 over headers: every id with every size or version, and
/// every count for the ids, sizes and versions that are known.
pub fn compare_headers(library: &dyn Library) -> Result<u64, String> {
    let words = vec![0; rows::LARGEST_C];
    let mut compared = 0;
    let mut judge = |id: u8, size: u8, version: u8, count: u16| {
        let mut header = [0; 28];
        header[0] = id;
        header[1] = size;
        header[2..4].copy_from_slice(&count.to_be_bytes());
        header[7] = version;
        compared += 1;
        compare_header(library, &words, &header)
    };
    for id in 0..=255 {
        for other in 0..=255 {
            for version in 0..=4 {
                judge(id, other, version, 70)?;
            }
            judge(id, 10, other, 70)?;
        }
    }
    for id in (1..=11).chain([240]) {
        for size in [6, 8, 10] {
            for version in 0..=3 {
                for count in 0..=65_535 {
                    judge(id, size, version, count)?;
                }
            }
        }
    }
    Ok(compared)
}
