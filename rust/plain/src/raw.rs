//! Any bytes as the header, the sections and the records that they claim to be, word by word, and nothing read into
//! them: for whoever writes images and looks for a wrong offset.

use std::fmt::Write;

use crate::fields::SECTIONS;
use crate::words;

/// Words of the header.
const HEADER: usize = 20;
/// A line has at most so many words.
const LINE: usize = 8;

/// A section as the header gives it: where it starts, how many records it counts, and where the next one starts.
#[derive(Clone, Copy, Debug, PartialEq, Eq)]
pub struct Section {
    pub name: &'static str,
    pub count: u32,
    pub start: usize,
    pub end: usize,
}

impl Section {
    /// Whether it lies in order inside an image of so many words.
    pub fn fits(&self, words: usize) -> bool {
        HEADER <= self.start && self.start <= self.end && self.end <= words
    }

    /// Where each record starts and ends, as the offsets say; special types have no offsets.
    pub fn records(&self, words: &[u32]) -> Vec<(usize, usize)> {
        if self.name == SECTIONS[8] {
            return Vec::new();
        }
        let offset = |own: usize| words.get(self.start + own).map(|offset| self.start + *offset as usize);
        let count = (self.count as usize).min(self.end.saturating_sub(self.start));
        let starts: Vec<usize> = (0..count).map_while(offset).collect();
        let ends = starts.iter().skip(1).copied().chain([self.end]);
        starts.iter().copied().zip(ends).collect()
    }
}

/// The nine sections of the words' header, where there is a whole header.
pub fn sections(words: &[u32]) -> Vec<Section> {
    if words.len() < HEADER {
        return Vec::new();
    }
    let start = |k: usize| words[3 + 2 * k] as usize;
    let section = |k: usize| {
        let end = if k + 1 < SECTIONS.len() { start(k + 1) } else { words.len() };
        Section { name: SECTIONS[k], count: words[2 + 2 * k], start: start(k), end }
    };
    (0..SECTIONS.len()).map(section).collect()
}

/// The raw view. A range of words leaves out its end.
pub fn raw(image: &[u8]) -> String {
    let words = words(image);
    let mut text = format!("{} bytes, {} words", image.len(), words.len());
    if image.len() % 4 != 0 {
        write!(text, " and {} bytes behind them", image.len() % 4).expect("a string takes all");
    }
    text.push('\n');
    let sections = sections(&words);
    if sections.is_empty() {
        text.push_str("no header: it has 20 words\n");
        dump(&mut text, &words, 0, words.len());
        return text;
    }
    let told = if words[1] as usize == words.len() { "" } else { ", but it is not" };
    writeln!(text, "word 0, edition: {}\nword 1, total of words: {}{told}", words[0], words[1])
        .expect("a string takes all");
    for (k, section) in sections.iter().enumerate() {
        let (count, start) = (section.count, section.start);
        writeln!(text, "words {} and {}, {}: {count} from word {start}", 2 + 2 * k, 3 + 2 * k, section.name)
            .expect("a string takes all");
    }
    for section in &sections {
        section_words(&mut text, &words, section);
    }
    text
}

/// A section's offsets and records.
fn section_words(text: &mut String, words: &[u32], section: &Section) {
    let (start, end) = (section.start, section.end);
    if !section.fits(words.len()) {
        writeln!(text, "{}: words {start}..{end} are no part of the image behind the header", section.name)
            .expect("a string takes all");
        return;
    }
    writeln!(text, "{}: words {start}..{end}", section.name).expect("a string takes all");
    let records = section.records(words);
    if records.is_empty() {
        return dump(text, words, start, end);
    }
    writeln!(text, "  offsets").expect("a string takes all");
    dump(text, words, start, start + records.len());
    for (own, (from, to)) in records.into_iter().enumerate() {
        writeln!(text, "  record {own}: words {from}..{to}").expect("a string takes all");
        match from <= to && to <= end && start <= from {
            true => dump(text, words, from, to),
            false => writeln!(text, "    (no part of the section)").expect("a string takes all"),
        }
    }
}

/// Words with their places, in decimal and, where they look like text or bits, in hexadecimal.
fn dump(text: &mut String, words: &[u32], from: usize, to: usize) {
    for at in (from..to).step_by(LINE) {
        let line: Vec<String> = words[at..to.min(at + LINE)].iter().map(shown).collect();
        writeln!(text, "    {at:>5}  {}", line.join(" ")).expect("a string takes all");
    }
}

fn shown(word: &u32) -> String {
    match *word {
        small @ ..=65_535 => small.to_string(),
        large => format!("0x{large:08x}"),
    }
}
