//! An accepted image, read for its names: what a caller who knows functions by name wants to look up.

use crate::Refusal;

/// Words of the header that give the offsets of the tables of names and of functions; the count stands before.
const NAMES: usize = 3;
const FUNCTIONS: usize = 15;

/// An image that intake accepted, lent by its owner. Names are any bytes.
///
/// ```
/// let bytes = plain::assemble(
///     r#"wuldgisp-text 1
///     names { "colour" "tone" "fog" }
///     functions { function name=2 { body { } } function name=1 { body { } } }
///     special_types { }"#,
/// )?;
/// let image = wuldgisp::Image::new(&bytes)?;
/// assert_eq!(image.name_number("fog"), Some(2));
/// assert_eq!(image.function("fog"), Some(0));
/// assert_eq!(image.function("colour"), None);
/// assert_eq!(image.function_name(1), Some(&b"tone"[..]));
/// assert_eq!(image.functions().collect::<Vec<_>>(), [&b"fog"[..], b"tone"]);
/// # Ok::<(), Box<dyn std::error::Error>>(())
/// ```
#[derive(Clone, Copy, Debug)]
pub struct Image<'a> {
    bytes: &'a [u8],
}

impl<'a> Image<'a> {
    /// The image in these bytes, or why it is refused.
    pub fn new(bytes: &'a [u8]) -> Result<Self, Refusal> {
        crate::intake(bytes)?;
        Ok(Image { bytes })
    }

    /// Its bytes.
    pub fn bytes(&self) -> &'a [u8] {
        self.bytes
    }

    /// Its names, by their numbers.
    pub fn names(&self) -> impl Iterator<Item = &'a [u8]> + '_ {
        (0..self.word(NAMES - 1)).filter_map(|number| self.name(number))
    }

    /// A name by its number.
    pub fn name(&self, number: u32) -> Option<&'a [u8]> {
        let at = self.record(NAMES, number)?;
        self.bytes[4 * at + 4..].get(..self.word(at) as usize)
    }

    /// The number of a name: names are distinct.
    pub fn name_number<N: AsRef<[u8]> + ?Sized>(&self, name: &N) -> Option<u32> {
        self.names().position(|own| own == name.as_ref()).map(|own| own as u32)
    }

    /// The names of the functions, by the functions' numbers.
    pub fn functions(&self) -> impl Iterator<Item = &'a [u8]> + '_ {
        (0..self.word(FUNCTIONS - 1)).filter_map(|number| self.function_name(number))
    }

    /// The name of a function.
    pub fn function_name(&self, number: u32) -> Option<&'a [u8]> {
        // An optional name is its number plus 1, and a function of the table has one.
        self.name(self.word(self.record(FUNCTIONS, number)?).checked_sub(1)?)
    }

    /// The number of the function of this name: functions have distinct names.
    pub fn function<N: AsRef<[u8]> + ?Sized>(&self, name: &N) -> Option<u32> {
        self.functions().position(|own| own == name.as_ref()).map(|own| own as u32)
    }

    /// The word where a table's record starts, where there is such a record.
    fn record(&self, table: usize, number: u32) -> Option<usize> {
        let section = self.word(table) as usize;
        let there = number < self.word(table - 1);
        there.then(|| section + self.word(section + number as usize) as usize)
    }

    /// A word of the image.
    fn word(&self, at: usize) -> u32 {
        let mut four = [0; 4];
        four.copy_from_slice(&self.bytes[4 * at..4 * at + 4]);
        u32::from_le_bytes(four)
    }
}
