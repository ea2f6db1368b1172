//! Sessions by hand: what document 01 says of each operation, on the smallest sources that show it.

use plain::module::{Body, Inner, Module, Value};
use plain::session::Session;

/// The image of a module in the text form, without its heading.
fn image(text: &str) -> Vec<u8> {
    plain::assemble(&format!("wuldgisp-text 1 {text}")).unwrap()
}

/// A session with this source set, at an offset of 0.
fn session(text: &str) -> Session {
    let mut session = Session::new();
    session.set_shader_source(&image(text), 0).unwrap();
    session
}

fn finished(session: &mut Session) -> Vec<u8> {
    let mut output = vec![0; 65_536];
    let length = session.finish(&mut output).unwrap();
    output.truncate(length as usize);
    output
}

fn module(session: &mut Session) -> Module {
    plain::read(&finished(session)).unwrap()
}

/// The number of a refusal.
fn number<T: std::fmt::Debug>(answer: Result<T, plain::Refused>) -> u32 {
    answer.unwrap_err().number
}

fn names(module: &Module) -> Vec<String> {
    module.names.iter().map(|name| String::from_utf8(name.bytes.clone()).unwrap()).collect()
}

#[test]
fn spans_are_mapped() {
    let at = |offset: u32, start: u32, end: u32| {
        let mut session = Session::new();
        session.set_shader_source(&image("special_types { }"), offset).unwrap();
        session.map_span(start, end).unwrap()
    };
    assert_eq!(at(10, 0, 0), (0, 0));
    assert_eq!(at(10, 0, 4), (10, 14));
    assert_eq!(at(4_294_967_290, 5, 9), (4_294_967_295, 3));
    assert_eq!(at(4_294_967_290, 6, 6), (0, 0));
}

const TYPES: &str = "names { \"a\" \"b\" \"c\" }
types {
  leaf name=0 span=[1 2] leaf=1
  leaf name=0 span=[3 4] leaf=1
  leaf name=1 leaf=1
  pointer name=2 base=1
}
special_types { }";

#[test]
fn equal_records_merge_and_keep_the_first_span() {
    let mut session = session(TYPES);
    assert_eq!(session.import_type(1), Ok(0));
    assert_eq!(session.import_type(0), Ok(0));
    assert_eq!(session.import_type(2), Ok(1));
    assert_eq!(session.import_type(3), Ok(2));
    let module = module(&mut session);
    assert_eq!(module.types[0].span.map(|word| word.value), [3, 4]);
    assert!(matches!(module.types[2].inner, Inner::Pointer { base, .. } if base.value == 0));
}

#[test]
fn a_mapped_type_keeps_its_name() {
    let mut session = session(TYPES);
    assert_eq!(session.rename_type(0, 1), Ok(0));
    assert_eq!(session.rename_type(0, 2), Ok(0));
    assert_eq!(session.import_type(2), Ok(0));
    assert_eq!(session.rename_type(1, 2), Ok(1));
    // Names are numbered as they appear.
    assert_eq!(names(&module(&mut session)), ["b", "c"]);
}

#[test]
fn tests_come_in_their_sequence() {
    let mut session = Session::new();
    assert_eq!(number(session.import_type(9)), 20);
    assert_eq!(number(session.map_span(0, 0)), 20);
    assert_eq!(number(session.finish_with_entry_points(&mut [])), 20);
    assert_eq!(number(session.finish(&mut [])), 7);
    session.set_shader_source(&image(TYPES), 0).unwrap();
    assert_eq!(number(session.rename_type(0, 3)), 13);
    assert_eq!(number(session.rename_type(4, 0)), 13);
    assert_eq!(session.import_type(0), Ok(0));
    // A mapped type asks for a name that is there all the same.
    assert_eq!(number(session.rename_type(0, 3)), 13);
    // A source that is refused leaves the other set.
    assert_eq!(number(session.set_shader_source(&[], 0)), 1);
    assert_eq!(session.import_type(2), Ok(1));
    session.clear_shader_source();
    assert_eq!(number(session.import_type(0)), 20);
    assert_eq!(number(session.finish(&mut [0; 80])), 7);
    assert_eq!(session.finish(&mut [0; 300]), Ok(4 * (23 + 6 + 24)));
    // Afresh, and without a source.
    assert_eq!(finished(&mut session), image("special_types { }"));
    assert_eq!(number(session.import_type(0)), 20);
}

/// Three functions, of which the first calls the second.
const CALLS: &str = "names { \"a\" \"b\" \"d\" }
functions {
  function name=0 { body { Call function=1 arguments=[] } }
  function name=1 { body { } }
  function name=2 { body { } }
}
special_types { }";

/// Functions of the same names: two in a ring, one that calls itself, and one that calls that one.
const RING: &str = "names { \"b\" \"a\" \"c\" \"d\" }
functions {
  function name=0 { body { Call function=1 arguments=[] } }
  function name=1 { body { Call function=0 arguments=[] } }
  function name=2 { body { Call function=2 arguments=[] } }
  function name=3 { body { Call function=2 arguments=[] } }
}
entry_points { entry_point name=0 stage=0 { function { body { Call function=1 arguments=[] } } } }
special_types { }";

fn callees(module: &Module) -> Vec<Option<u32>> {
    let callee = |body: &[plain::module::Statement]| body.first().and_then(|first| first.callee());
    module.functions.iter().map(|function| callee(&function.body).map(|word| word.value)).collect()
}

#[test]
fn unknown_callees_come_first_and_known_ones_are_taken() {
    let mut session = session(CALLS);
    assert_eq!(session.map_function_handle(0), Ok(1));
    assert_eq!(session.import_function_if_new(1), Ok(0));
    // Names are known from source to source.
    session.set_shader_source(&image(RING), 0).unwrap();
    assert_eq!(session.map_function_handle(0), Ok(0));
    assert_eq!(session.import_function(0), Ok(2));
    assert_eq!(session.import_function(1), Ok(3));
    let mut image = finished(&mut session);
    assert_eq!(callees(&plain::read(&image).unwrap()), [None, Some(0), Some(1), Some(2)]);
    assert_eq!(plain::intake(&image).unwrap_err().number, 5);
    assert_eq!(plain::link(&image.clone(), &mut image).unwrap_err().number, 5);
}

#[test]
fn rings_of_unknown_names_are_refused() {
    let mut ring = session(RING);
    for function in 0..4 {
        assert_eq!(number(ring.import_function(function)), 22);
        assert_eq!(number(ring.import_function_if_new(function)), 22);
        assert_eq!(number(ring.map_function_handle(function)), 22);
    }
    assert_eq!(number(ring.finish_with_entry_points(&mut [])), 22);
    assert_eq!(finished(&mut ring), image("special_types { }"));
    // One known name opens the ring, also for what is imported again.
    let mut open = session(CALLS);
    assert_eq!(open.import_function(1), Ok(0));
    open.set_shader_source(&image(RING), 0).unwrap();
    assert_eq!(open.import_function(0), Ok(2));
    assert_eq!(number(open.import_function(2)), 22);
    assert_eq!(number(open.import_function(3)), 22);
    // What a known function calls is followed only where the function is imported again.
    open.set_shader_source(&image(CALLS), 0).unwrap();
    assert_eq!(open.import_function(2), Ok(3));
    open.set_shader_source(&image(RING), 0).unwrap();
    assert_eq!(open.map_function_handle(3), Ok(3));
    assert_eq!(number(open.import_function(3)), 22);
    assert_eq!(open.finish_with_entry_points(&mut [0; 600]).map(|_| ()), Ok(()));
}

#[test]
fn a_special_type_that_is_derived_takes_its_place() {
    let special = |leaf: u32, places: &str| {
        image(&format!("types {{ leaf leaf={leaf} pointer base=0 }} special_types {{ {places} }}"))
    };
    let mut session = Session::new();
    assert!(!session.has_required_special_types());
    session.set_shader_source(&special(1, "ray_desc=0 pair key=7 type=1"), 0).unwrap();
    assert!(session.has_required_special_types());
    assert_eq!(session.import_type(1), Ok(1));
    // Another type at the same place: the first one stands for it, and so in what refers to it.
    session.set_shader_source(&special(2, "ray_desc=0 pair key=8 type=0"), 0).unwrap();
    assert_eq!(session.import_type(0), Ok(0));
    assert_eq!(session.import_type(1), Ok(1));
    let module = module(&mut session);
    assert_eq!(module.types.len(), 2);
    let pairs = module.special.pairs.iter().map(|(key, ty)| (key.value, ty.value));
    assert_eq!(pairs.collect::<Vec<_>>(), [(7, 1), (8, 0)]);
    assert!(!session.has_required_special_types());
}

#[test]
fn the_last_name_of_a_merged_expression_counts_in_the_first_place() {
    let mut session = session(
        "names { \"f\" \"x\" \"y\" \"z\" }
        types { leaf leaf=1 }
        functions { function name=0 {
          local type=0 init=0
          local type=0 init=1
          expressions { Literal code=U32 low=7 high=0 Literal code=U32 low=7 high=0 Literal code=U32 low=8 high=0 }
          named { expression number=0 name=1 expression number=2 name=2 expression number=1 name=3 }
          body { Return value=2 }
        } }
        special_types { }",
    );
    assert_eq!(session.import_function(0), Ok(0));
    let module = module(&mut session);
    let named = module.functions[0].named.iter().map(|named| (named.expression.value, named.name.value));
    assert_eq!(names(&module), ["f", "z", "y"]);
    assert_eq!(named.collect::<Vec<_>>(), [(0, 2), (1, 3)]);
}

#[test]
fn an_atomic_imports_what_it_compares_first() {
    let mut session = session(
        "names { \"f\" }
        functions { function name=0 {
          expressions { Literal code=U32 low=0 high=0 Literal code=U32 low=1 high=0 Literal code=U32 low=2 high=0 }
          body { Atomic pointer=0 fun=Exchange(2) value=1 }
        } }
        special_types { }",
    );
    assert_eq!(session.import_function(0), Ok(0));
    let module = module(&mut session);
    let low = |own: usize| module.functions[0].expressions[own].words()[1].1.value;
    assert_eq!([low(0), low(1), low(2)], [2, 0, 1]);
    let Body::Plain(values) = &module.functions[0].body[0].body else { panic!("an Atomic has no blocks") };
    assert!(matches!(values[0], Value::One(pointer) if pointer.value == 1));
}
