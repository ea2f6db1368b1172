//! Where an image breaks a rule. The archive answers a number alone; the plain reading, which is held to the same
//! answers by tests, finds the place.

/// The first place at which an image breaks a rule of the test that refuses it.
#[derive(Clone, Copy, Debug, PartialEq, Eq)]
pub struct Place {
    /// The number of the test, 1 to 6.
    pub number: u32,
    /// The rule that is broken, in words.
    pub rule: &'static str,
    /// The word of the image that breaks it, where the rule is about one.
    pub word: Option<usize>,
    /// The section that holds the word, by its name.
    pub section: Option<&'static str>,
    /// The record of that section that holds the word.
    pub record: Option<usize>,
}

/// Where and why intake refuses an image, or `None` where it accepts.
///
/// ```
/// let mut image = plain::assemble("wuldgisp-text 1 names { \"a\" \"b\" } special_types { }").unwrap();
/// assert_eq!(wuldgisp::place(&image), None);
/// let last = image.iter().position(|byte| *byte == b'b').unwrap();
/// image[last] = b'a';
/// let place = wuldgisp::place(&image).unwrap();
/// assert_eq!((place.number, place.rule), (5, "names are distinct"));
/// assert_eq!((place.word, place.section, place.record), (Some(24), Some("names"), Some(1)));
/// ```
pub fn place(image: &[u8]) -> Option<Place> {
    let refused = plain::intake(image).err()?;
    let holds = plain::listing::holder(image, refused);
    Some(Place {
        number: refused.number,
        rule: refused.rule,
        word: refused.at,
        section: holds.map(|holds| holds.section),
        record: holds.and_then(|holds| holds.record),
    })
}
