//! The operations on one image, compared: the number, what comes with it, and every byte of what is lent and around it.
//! Link is compared twice: in memory of its own, and in memory that is lent and holds whatever the images before left.

use plain::random::Random;
use plain::words;

use crate::archive::{self, Memory};
use crate::guarded::{difference, Guarded, BYTE};

/// The answer that both give, or how they differ.
pub type Outcome = Result<u32, String>;

/// What is asked of an image beside the image itself, drawn.
pub struct Asked {
    original: u32,
    replacement: u32,
    omit: Vec<u32>,
    /// Bytes of link's output more than the image's, and fewer; and whether an image that is refused meets them too.
    longer: usize,
    shorter: usize,
    all_lengths: bool,
    /// Guards more in front of what is lent.
    more: usize,
}

impl Asked {
    /// A redirect mostly of names that functions bear, now and then of one past the table.
    pub fn draw(random: &mut Random, image: &[u8]) -> Self {
        let header = words(image);
        let names = header.get(2).copied().unwrap_or(0).min(512) as usize;
        let functions = header.get(14).copied().unwrap_or(0).min(256) as usize;
        let mut name = || {
            let bound =
                if functions > 0 && !random.once_in(8) { functions.min(names + 1) } else { names + 2 };
            random.below(bound.max(1)) as u32
        };
        let (original, replacement) = (name(), name());
        let omitted = [name(), name(), name()];
        let omit = if random.once_in(3) { omitted[..random.between(1, 3)].to_vec() } else { Vec::new() };
        let shorter = if random.once_in(2) { 1 } else { random.between(1, image.len().max(1)) };
        let (longer, all_lengths, more) = (random.between(1, 99), random.once_in(2), random.below(8));
        Asked { original, replacement, omit, longer, shorter, all_lengths, more }
    }
}

/// Compares every operation on an image and tells each answer that both give. The memory is lent to linking.
pub fn agrees(
    image: &[u8],
    asked: &Asked,
    memory: &mut Memory,
    answer: &mut dyn FnMut(&'static str, u32),
) -> Result<(), String> {
    let taken = intake_agrees(image)?;
    answer("intake", taken);
    answer("order", order_agrees(image)?);
    answer("redirect", redirect_agrees(image, asked)?);
    let mut link = |length| link_agrees(image, length, asked.more, memory);
    answer("link", link(image.len())?);
    // Where intake refuses, the length of the output is not to matter.
    if taken == 0 || asked.all_lengths {
        answer("link", link(image.len() + asked.longer)?);
        answer("link", link(image.len().saturating_sub(asked.shorter))?);
    }
    Ok(())
}

fn intake_agrees(image: &[u8]) -> Outcome {
    let archive = wuldgisp::intake(image).map_or_else(|refusal| refusal.number(), |()| 0);
    let expected = plain::intake(image).map_or_else(|refused| refused.number, |()| 0);
    if archive == expected {
        return Ok(expected);
    }
    Err(format!("intake: the archive answers {archive}, the plain reading {expected}"))
}

fn order_agrees(image: &[u8]) -> Outcome {
    let archive = wuldgisp::order(image).map_err(|refusal| match refusal {
        wuldgisp::Refusal::Ring { left } => (12, left),
        other => (other.number(), 0),
    });
    let expected = plain::order(image).map_err(|refused| (refused.number, refused.left));
    if archive == expected {
        return Ok(expected.map_or_else(|(number, _)| number, |_| 0));
    }
    Err(format!("order: the archive answers {archive:?}, the plain reading {expected:?}"))
}

fn redirect_agrees(image: &[u8], asked: &Asked) -> Outcome {
    let Asked { original, replacement, omit, .. } = asked;
    let what = || format!("redirect {original} {replacement} {omit:?}");
    let mut lent = Guarded::holding(BYTE, image, asked.more);
    let archive = wuldgisp::redirect(lent.lent(), *original, *replacement, omit)
        .map(|both| (both.original, both.replacement))
        .map_err(|refusal| refusal.number());
    let mut expected_image = image.to_vec();
    let expected =
        plain::redirect(&mut expected_image, *original, *replacement, omit).map_err(|refused| refused.number);
    if archive != expected {
        return Err(format!("{}: the archive answers {archive:?}, the plain reading {expected:?}", what()));
    }
    same_bytes(&what(), &lent, &expected_image)?;
    Ok(expected.map_or_else(|number| number, |_| 0))
}

/// Link into an output of so many bytes, both ways. What was written is then taken in and linked once more.
fn link_agrees(image: &[u8], length: usize, more: usize, memory: &mut Memory) -> Outcome {
    let mut expected_output = vec![BYTE; length];
    let expected = plain::link::answer(plain::link(image, &mut expected_output));
    let what = format!("link of {} bytes into {length}", image.len());
    let link = |output: &mut [u8]| archive::link(image, output);
    same_link(&what, link, more, expected, &expected_output)?;
    let what = format!("{what}, lent");
    let link_in = |output: &mut [u8]| archive::link_in(image, output, memory);
    same_link(&what, link_in, more, expected, &expected_output)?;
    if !memory.intact() {
        return Err(format!("{what}: words around the memory that is lent changed"));
    }
    let (number, written) = (expected as u32, (expected >> 32) as usize);
    if number == 0 && length == image.len() {
        linked_is_final(&expected_output[..written], memory)?;
    }
    Ok(number)
}

/// A way to link gives the answer and the output that are expected.
fn same_link(
    what: &str,
    link: impl FnOnce(&mut [u8]) -> u64,
    more: usize,
    expected: u64,
    expected_output: &[u8],
) -> Result<(), String> {
    let mut output = Guarded::fresh(BYTE, expected_output.len(), more);
    let archive = link(output.lent());
    if archive != expected {
        return Err(format!("{what}: the archive answers {archive:#x}, the plain reading {expected:#x}"));
    }
    same_bytes(what, &output, expected_output)
}

/// A linked image passes intake, and linking it gives the same bytes, both ways.
fn linked_is_final(linked: &[u8], memory: &mut Memory) -> Result<(), String> {
    let taken = intake_agrees(linked)?;
    if taken != 0 {
        return Err(format!("link: the linked image is refused by {taken}"));
    }
    let length = linked.len();
    let (mut own, mut lent) = (vec![BYTE; length], vec![BYTE; length]);
    let answer = archive::link(linked, &mut own);
    let answer_lent = archive::link_in(linked, &mut lent, memory);
    if [answer, answer_lent] != [(length as u64) << 32; 2] || own != linked || lent != linked {
        return Err(format!(
            "link: linking the linked image of {length} bytes answers {answer:#x}, lent {answer_lent:#x}"
        ));
    }
    Ok(())
}

fn same_bytes(what: &str, lent: &Guarded<u8>, expected: &[u8]) -> Result<(), String> {
    if let Some(at) = difference(lent.content(), expected) {
        let (archive, expected) = (lent.content()[at], expected[at]);
        return Err(format!(
            "{what}: byte {at} is {archive} by the archive, {expected} by the plain reading"
        ));
    }
    if !lent.intact() {
        return Err(format!("{what}: bytes around what is lent changed"));
    }
    Ok(())
}
