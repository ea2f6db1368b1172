//! Sessions: records and functions of several images drawn into derived images.
//!
//! The archive runs a session in one call, from a list of steps ([`run_steps`]). A [`Session`] is that list, made by
//! the names of its operations, and [`Answers`] are its answers, looked up by the tickets that the operations gave.

use std::fmt;

use crate::{Linker, Refusal, LONGEST};

/// Runs the steps of a session: `wuldgisp_session` of `include/wuldgisp.h`, which has the table of operations.
///
/// A step is four words, an operation and its three operands, and its answer three: the refusal or 0, and two values.
/// Answers 0 where every step was accepted; else the first refusal in the low half and its step's number in the high
/// half.
///
/// ```
/// // No source is set, so map_span (2) is refused by 20; has_required_special_types (12) is answered 0.
/// let mut answers = [9; 6];
/// let first = wuldgisp::run_steps(&[], &[12, 0, 0, 0, 2, 5, 9, 0], &mut answers, &mut []);
/// assert_eq!(answers, [0, 0, 0, 20, 0, 0]);
/// assert_eq!(first, 1 << 32 | 20);
/// ```
pub fn run_steps(sources: &[u8], steps: &[u32], answers: &mut [u32], output: &mut [u8]) -> u64 {
    // SAFETY: the pointers and lengths are those of slices that outlive the call; sources and steps are only read,
    // and answers and output, which are written, are lent by no one else.
    unsafe {
        wuldgisp_sys::wuldgisp_session(
            sources.as_ptr(),
            sources.len(),
            steps.as_ptr(),
            steps.len(),
            answers.as_mut_ptr(),
            answers.len(),
            output.as_mut_ptr(),
            output.len(),
        )
    }
}

/// The operations by their numbers.
#[derive(Clone, Copy)]
enum Operation {
    Set = 0,
    Clear = 1,
    MapSpan = 2,
    ImportType = 3,
    RenameType = 4,
    ImportConst = 5,
    ImportPipelineOverride = 6,
    ImportGlobal = 7,
    ImportGlobalExpression = 8,
    ImportFunction = 9,
    ImportFunctionIfNew = 10,
    MapFunctionHandle = 11,
    HasRequiredSpecialTypes = 12,
    Finish = 13,
    FinishWithEntryPoints = 14,
}

/// A session: steps that are put together by name, and then run in one call (`docs/RULES.md`, 12).
///
/// Every operation adds a step and gives a [`Ticket`], by which [`Answers::get`] tells what the step answered. Records
/// of the source are given by their numbers, and answers are numbers of the derived module; [`Image::function`] and
/// [`Image::name_number`] look names up. A refused step changes nothing, and the next one follows.
///
/// [`Image::function`]: crate::Image::function
/// [`Image::name_number`]: crate::Image::name_number
///
/// Linking is the session that imports the functions of an image in output order:
///
/// ```
/// use wuldgisp::Session;
///
/// let image = plain::assemble(
///     r#"wuldgisp-text 1
///     names { "shade" "tone" }
///     functions {
///       function name=0 { body { Call function=1 arguments=[] } }
///       function name=1 { body { } }
///     }
///     special_types { }"#,
/// )?;
/// let mut session = Session::new();
/// session.set(&image, 0);
/// for function in wuldgisp::order(&image)? {
///     session.import_function(function);
/// }
/// let linked = session.finish_with_entry_points();
/// let answers = session.run()?;
/// assert_eq!(answers.get(linked)?, wuldgisp::link(&image)?);
/// # Ok::<(), Box<dyn std::error::Error>>(())
/// ```
///
/// Records of two sources that are equal, spans apart, become one:
///
/// ```
/// use wuldgisp::{Image, Session};
///
/// let lights = plain::assemble(
///     r#"wuldgisp-text 1
///     names { "Light" "shade" }
///     types { leaf name=0 span=[4 9] leaf=Scalar copied=[2 4 0 0 0 0] }
///     functions { function name=1 { argument type=0 body { } } }
///     special_types { }"#,
/// )?;
/// let fogs = plain::assemble(
///     r#"wuldgisp-text 1
///     names { "fog" "Fog" "Light" }
///     types {
///       leaf name=1 leaf=Scalar copied=[2 4 0 0 0 0]
///       leaf name=2 span=[7 12] leaf=Scalar copied=[2 4 0 0 0 0]
///     }
///     functions { function name=0 { argument type=1 body { } } }
///     special_types { }"#,
/// )?;
/// let mut session = Session::new();
/// session.set(&lights, 0);
/// let light = session.import_type(0);
/// session.import_function(Image::new(&lights)?.function("shade").ok_or("no shade")?);
/// session.set(&fogs, 1000);
/// let other = session.import_type(0);
/// let same = session.import_type(1);
/// session.import_function(Image::new(&fogs)?.function("fog").ok_or("no fog")?);
/// let both = session.finish();
///
/// let answers = session.run()?;
/// assert_eq!((answers.get(light)?, answers.get(other)?, answers.get(same)?), (0, 1, 0));
/// let both = answers.get(both)?;
/// assert_eq!(Image::new(&both)?.functions().collect::<Vec<_>>(), [&b"shade"[..], b"fog"]);
/// # Ok::<(), Box<dyn std::error::Error>>(())
/// ```
///
/// A step that is refused leaves the others as they are:
///
/// ```
/// use wuldgisp::{Refusal, Session};
///
/// let image = plain::assemble(
///     r#"wuldgisp-text 1
///     names { "tone" }
///     functions { function name=0 { body { } } }
///     special_types { }"#,
/// )?;
/// let mut session = Session::new();
/// let early = session.map_span(5, 9);
/// session.set(&image, 4_294_967_290);
/// let span = session.map_span(5, 9);
/// let missing = session.import_function(1);
/// let tone = session.import_function(0);
/// let finished = session.finish();
///
/// let answers = session.run()?;
/// assert_eq!(answers.get(early), Err(Refusal::NoSource));
/// assert_eq!(answers.get(span), Ok((4_294_967_295, 3)));
/// assert_eq!(answers.get(missing), Err(Refusal::NumberGiven));
/// assert_eq!(answers.get(tone), Ok(0));
/// assert_eq!(answers.get(finished), Ok(image));
/// assert_eq!(answers.first_refusal(), Some((0, Refusal::NoSource)));
/// assert_eq!(answers.refusals().count(), 2);
/// # Ok::<(), Box<dyn std::error::Error>>(())
/// ```
#[derive(Clone, Debug)]
pub struct Session {
    sources: Vec<u8>,
    /// The parts of the sources that steps set, each once.
    set: Vec<Part>,
    steps: Vec<[u32; 4]>,
    /// How many bytes of output the finishes have, and how many the next one is given.
    output: usize,
    room: usize,
    /// Whether a part did not fit any more.
    too_long: bool,
}

impl Default for Session {
    fn default() -> Self {
        Session {
            sources: Vec::new(),
            set: Vec::new(),
            steps: Vec::new(),
            output: 0,
            room: LONGEST,
            too_long: false,
        }
    }
}

impl Session {
    /// A session without steps.
    pub fn new() -> Self {
        Session::default()
    }

    /// Sets a source, whose spans are to be moved by an offset, and imports its special types. Refused by 1 to 6, as
    /// intake refuses the image, or by 21; the source before it then stays set.
    pub fn set(&mut self, image: &[u8], span_offset: u32) -> Ticket<()> {
        // What is longer than an image is refused by its size, and one byte more is enough to tell.
        let image = &image[..image.len().min(LONGEST + 1)];
        let there = self.set.iter().rev().find(|part| part.of(&self.sources) == image).copied();
        let part = there.unwrap_or_else(|| self.store(image));
        self.step(Operation::Set, [part.start, part.length, span_offset], |_, _| ())
    }

    /// Clears the source, if one is set. The functions that are derived stay known by their names.
    pub fn clear(&mut self) -> Ticket<()> {
        self.step(Operation::Clear, [0; 3], |_, _| ())
    }

    /// A span of the source as the derived module has it: its start and its end. Refused by 20.
    pub fn map_span(&mut self, start: u32, end: u32) -> Ticket<(u32, u32)> {
        self.step(Operation::MapSpan, [start, end, 0], |answers, step| {
            let [_, start, end] = answers.words[step];
            (start, end)
        })
    }

    /// Imports a type. Refused, as the imports of the other records are, by 20, 13 or 21.
    pub fn import_type(&mut self, ty: u32) -> Ticket<u32> {
        self.import(Operation::ImportType, ty)
    }

    /// Imports a type under another name, which is given by its number among the names of the source. A type that is
    /// imported already keeps the name that it has.
    pub fn rename_type(&mut self, ty: u32, name: u32) -> Ticket<u32> {
        self.step(Operation::RenameType, [ty, name, 0], value)
    }

    /// Imports a constant.
    pub fn import_const(&mut self, constant: u32) -> Ticket<u32> {
        self.import(Operation::ImportConst, constant)
    }

    /// Imports an override.
    pub fn import_pipeline_override(&mut self, number: u32) -> Ticket<u32> {
        self.import(Operation::ImportPipelineOverride, number)
    }

    /// Imports a global.
    pub fn import_global(&mut self, global: u32) -> Ticket<u32> {
        self.import(Operation::ImportGlobal, global)
    }

    /// Imports a global expression.
    pub fn import_global_expression(&mut self, expression: u32) -> Ticket<u32> {
        self.import(Operation::ImportGlobalExpression, expression)
    }

    /// Appends a function, before it those that it calls and whose names are not known yet. It is appended whether or
    /// not its own name is known; an image with a function name that stands twice is finished, and intake refuses it by
    /// 5. Refused by 20, 13, 22 or 21.
    pub fn import_function(&mut self, function: u32) -> Ticket<u32> {
        self.import(Operation::ImportFunction, function)
    }

    /// The derived function of this function's name; where there is none it is imported. Refused likewise.
    pub fn import_function_if_new(&mut self, function: u32) -> Ticket<u32> {
        self.import(Operation::ImportFunctionIfNew, function)
    }

    /// The same, as the calls of an import find the function that they call.
    pub fn map_function_handle(&mut self, function: u32) -> Ticket<u32> {
        self.import(Operation::MapFunctionHandle, function)
    }

    /// Whether any special type is derived.
    pub fn has_required_special_types(&mut self) -> Ticket<bool> {
        self.step(Operation::HasRequiredSpecialTypes, [0; 3], |answers, step| value(answers, step) != 0)
    }

    /// Gives the finishes that follow room for so many bytes; one whose image is longer is refused by 7. Where this is
    /// not called they have 65,536, and no image is longer.
    pub fn room(&mut self, bytes: usize) {
        self.room = bytes.min(LONGEST);
    }

    /// Writes the derived module as an image, and starts afresh with no source set. Refused by 21 or 7.
    pub fn finish(&mut self) -> Ticket<Vec<u8>> {
        self.end(Operation::Finish)
    }

    /// The same with the entry points of the source. Refused by 20, 22, 21 or 7.
    pub fn finish_with_entry_points(&mut self) -> Ticket<Vec<u8>> {
        self.end(Operation::FinishWithEntryPoints)
    }

    /// Runs the steps. The session stays as it is: more steps can be added, and all be run again.
    ///
    /// The call has a thread of its own with a stack of [`LINK_STACK`](crate::LINK_STACK) bytes, since functions of a
    /// source may nest deep; it panics where the system has no thread left.
    pub fn run(&self) -> Result<Answers, TooLong> {
        self.run_by(|steps, answers, output| {
            let call = || run_steps(&self.sources, steps, answers, output);
            std::thread::scope(|scope| {
                let thread =
                    std::thread::Builder::new().stack_size(crate::LINK_STACK).spawn_scoped(scope, call);
                thread.expect("a thread for the session").join().expect("a call that returns")
            })
        })
    }

    /// Runs the steps in the memory of a linker and on the calling thread, whose stack should have
    /// [`LINK_STACK`](crate::LINK_STACK) bytes: for a caller that runs many sessions.
    ///
    /// ```
    /// use wuldgisp::{Linker, Session};
    ///
    /// let image = plain::assemble(
    ///     r#"wuldgisp-text 1 names { "tone" } functions { function name=0 { body { } } } special_types { }"#,
    /// )?;
    /// let mut session = Session::new();
    /// session.set(&image, 0);
    /// session.import_function(0);
    /// let linked = session.finish();
    /// let mut linker = Linker::new();
    /// assert_eq!(session.run_in(&mut linker)?.get(linked)?, session.run()?.get(linked)?);
    /// # Ok::<(), Box<dyn std::error::Error>>(())
    /// ```
    pub fn run_in(&self, linker: &mut Linker) -> Result<Answers, TooLong> {
        self.run_by(|steps, answers, output| linker.run_steps(&self.sources, steps, answers, output))
    }

    /// The answers that a call gives, which is lent the steps, their answers and the output.
    fn run_by(&self, call: impl FnOnce(&[u32], &mut [u32], &mut [u8]) -> u64) -> Result<Answers, TooLong> {
        if self.too_long || u32::try_from(self.steps.len()).is_err() {
            return Err(TooLong);
        }
        let mut words = vec![[0; 3]; self.steps.len()];
        let mut output = vec![0; self.output];
        let first = call(self.steps.as_flattened(), words.as_flattened_mut(), &mut output);
        Ok(Answers { first, steps: self.steps.clone(), words, output })
    }

    fn import(&mut self, operation: Operation, record: u32) -> Ticket<u32> {
        self.step(operation, [record, 0, 0], value)
    }

    fn end(&mut self, operation: Operation) -> Ticket<Vec<u8>> {
        let part = self.part(self.output, self.room);
        self.output += part.length as usize;
        self.step(operation, [part.start, part.length, 0], |answers, step| {
            let part = Part { start: answers.steps[step][1], length: value(answers, step) };
            part.of(&answers.output).to_vec()
        })
    }

    fn step<T>(
        &mut self,
        operation: Operation,
        [a, b, c]: [u32; 3],
        read: fn(&Answers, usize) -> T,
    ) -> Ticket<T> {
        self.steps.push([operation as u32, a, b, c]);
        Ticket { step: self.steps.len() - 1, read }
    }

    /// Takes an image to the sources.
    fn store(&mut self, image: &[u8]) -> Part {
        let part = self.part(self.sources.len(), image.len());
        self.sources.extend(&image[..part.length as usize]);
        self.set.push(part);
        part
    }

    /// A part behind so many bytes. One that does not fit is empty, and the session is not run.
    fn part(&mut self, before: usize, length: usize) -> Part {
        let part = Part::behind(before, length);
        self.too_long |= part.is_none();
        part.unwrap_or_default()
    }
}

/// A part of sources or output, in bytes.
#[derive(Clone, Copy, Debug, Default, PartialEq, Eq)]
struct Part {
    start: u32,
    length: u32,
}

impl Part {
    /// The part of so many bytes behind so many others, if its end is a number of 32 bits.
    fn behind(before: usize, length: usize) -> Option<Self> {
        let end = u32::try_from(before.checked_add(length)?).ok()?;
        let length = length as u32;
        Some(Part { start: end - length, length })
    }

    fn of(self, bytes: &[u8]) -> &[u8] {
        &bytes[self.start as usize..][..self.length as usize]
    }
}

/// What a step of a session will have answered: a number of the derived module, a span, an image.
pub struct Ticket<T> {
    step: usize,
    /// Reads the answer of that step where it was accepted.
    read: fn(&Answers, usize) -> T,
}

impl<T> Ticket<T> {
    /// The step's number, counted from 0.
    pub fn step(&self) -> usize {
        self.step
    }
}

impl<T> Clone for Ticket<T> {
    fn clone(&self) -> Self {
        *self
    }
}

impl<T> Copy for Ticket<T> {}

impl<T> fmt::Debug for Ticket<T> {
    fn fmt(&self, f: &mut fmt::Formatter) -> fmt::Result {
        f.debug_struct("Ticket").field("step", &self.step).finish_non_exhaustive()
    }
}

/// The first value of an answer.
fn value(answers: &Answers, step: usize) -> u32 {
    answers.words[step][1]
}

/// What the steps of a session answered.
#[derive(Clone, Debug)]
pub struct Answers {
    first: u64,
    steps: Vec<[u32; 4]>,
    words: Vec<[u32; 3]>,
    output: Vec<u8>,
}

impl Answers {
    /// What a step answered, or why it was refused. A ticket is good for the session that gave it.
    ///
    /// # Panics
    ///
    /// Where the session that was run has no such step.
    pub fn get<T>(&self, ticket: Ticket<T>) -> Result<T, Refusal> {
        match self.refusal(ticket.step) {
            None => Ok((ticket.read)(self, ticket.step)),
            Some(refusal) => Err(refusal),
        }
    }

    /// The first refusal behind its step's number, or `None` where every step was accepted.
    pub fn first_refusal(&self) -> Option<(usize, Refusal)> {
        let refusal = Refusal::from_answer(self.first & u64::from(u32::MAX))?;
        Some(((self.first >> 32) as usize, refusal))
    }

    /// Every refusal behind its step's number.
    pub fn refusals(&self) -> impl Iterator<Item = (usize, Refusal)> + '_ {
        (0..self.words.len()).filter_map(|step| Some((step, self.refusal(step)?)))
    }

    fn refusal(&self, step: usize) -> Option<Refusal> {
        Refusal::from_answer(self.words[step][0].into())
    }
}

/// A session that cannot be run: the count of its steps, the bytes of its sources or the room of its finishes is no number
/// of 32 bits.
#[derive(Clone, Copy, Debug, PartialEq, Eq)]
pub struct TooLong;

impl fmt::Display for TooLong {
    fn fmt(&self, f: &mut fmt::Formatter) -> fmt::Result {
        write!(f, "a session has at most 4,294,967,295 steps, bytes of sources and bytes of room")
    }
}

impl std::error::Error for TooLong {}

#[cfg(test)]
mod tests {
    use super::*;

    #[test]
    fn parts_end_at_a_number_of_32_bits() {
        const MOST: usize = u32::MAX as usize;
        assert_eq!(Part::behind(0, 0), Some(Part { start: 0, length: 0 }));
        assert_eq!(Part::behind(7, 5), Some(Part { start: 7, length: 5 }));
        assert_eq!(Part::behind(MOST - 5, 5), Some(Part { start: u32::MAX - 5, length: 5 }));
        assert_eq!(Part::behind(MOST - 5, 6), None);
        assert_eq!(Part::behind(MOST + 1, 0), None);
        assert_eq!(Part::behind(usize::MAX, 1), None);
    }

    #[test]
    fn equal_sources_are_stored_once() {
        let mut session = Session::new();
        for image in [&b"one"[..], b"two", b"one", b"on", b"two", b""] {
            session.set(image, 9);
        }
        assert_eq!(session.sources, b"onetwoon");
        let set: Vec<&[u8]> = session
            .steps
            .iter()
            .map(|[_, start, length, _]| Part { start: *start, length: *length }.of(&session.sources))
            .collect();
        assert_eq!(set, [&b"one"[..], b"two", b"one", b"on", b"two", b""]);
    }

    #[test]
    fn what_is_longer_than_an_image_is_cut() {
        let mut session = Session::new();
        let set = session.set(&vec![0; 1 << 20], 0);
        assert_eq!(session.sources.len(), LONGEST + 1);
        assert_eq!(session.run().unwrap().get(set), Err(Refusal::Size));
    }
}
