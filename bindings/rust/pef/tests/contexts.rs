//! Contexts: what is prepared, and what the errors are.

mod common;

use std::sync::atomic::{AtomicBool, Ordering};

use common::linked;
use pef::{Code, Connection, Context, ContextOptions, Entries, Error, Fragments, SectionKind, Share, StubValues, SymbolClass, Target};

fn names(fragments: Fragments<'_, '_>) -> Vec<String> {
    fragments.map(|it| it.name().escape_ascii().to_string()).collect()
}

/// The names of an error, as text.
fn named(error: &Error) -> Vec<String> {
    [error.fragment(), error.library(), error.symbol()].iter().flatten().map(|it| it.escape_ascii().to_string()).collect()
}

fn refuses<T: std::fmt::Debug>(number: u32, given: Result<T, Error>) -> Error {
    let error = given.unwrap_err();
    assert_eq!(error.number(), number, "{error}");
    error
}

#[test]
fn a_library_and_what_uses_it() {
    let (user, tools) = (linked("uses-library"), linked("shared-library"));
    let context = Context::new().unwrap();
    context.add("user", &user).unwrap();
    context.add(b"Tools", &tools).unwrap();
    let connection = context.prepare("user").unwrap();
    let fragments: Vec<_> = connection.fragments().collect();
    assert_eq!((names(connection.fragments()), connection.root().name()), (vec!["Tools".into(), "user".into()], &b"user"[..]));
    assert_eq!(fragments.iter().map(|it| it.number()).collect::<Vec<_>>(), [1, 0]);
    let sections = |at: usize| fragments[at].sections().map(|it| (it.address(), it.to_vec().unwrap())).collect::<Vec<_>>();
    assert_eq!(sections(0), [(0x10000, vec![0, 0, 0, 0x2A])]);
    assert_eq!(sections(1), [(0x10010, vec![0, 1, 0, 0, 0, 1, 0, 0x14])]);
    let section = fragments[1].section(0).unwrap();
    assert_eq!((section.number(), section.size(), section.kind(), section.share()), (0, 8, SectionKind::Data, Share::Process));
    assert!(fragments[1].section(1).is_none() && section.fragment().number() == 0);
    assert_eq!((fragments[0].entries(), fragments[1].entries().main), (Entries::default(), Some(0x10010)));
    assert_eq!((fragments[0].symbol("answer"), fragments[0].symbol("question")), (Some(0x10000), None));
    assert_eq!(names(connection.init_order()), ["Tools", "user"]);
    assert_eq!((context.fragment_name(0), context.fragment_name(2)), (Some(&b"user"[..]), None));
}

#[test]
fn missing_libraries() {
    let app = pef::link("library W 1 0 weak\nlibrary S 7 5 -\n").unwrap();
    let other = pef::link("versions 3 2 0\n").unwrap();
    let context = Context::new().unwrap();
    assert_eq!(named(&refuses(60, context.missing("App"))), [""; 0]);
    context.add("App", &app).unwrap();
    context.add("S", &other).unwrap();
    let rows = context.missing("App").unwrap();
    let said: Vec<_> = rows.iter().map(|it| (it.name[0], it.fragment, it.current_version, it.old_imp_version, it.weak, it.found)).collect();
    assert_eq!(said, [(b'W', 0, 1, 0, true, None), (b'S', 0, 7, 5, false, Some((3, 2)))]);
    context.add("W", b"no container").unwrap();
    assert_eq!(named(&refuses(1, context.missing("App"))), ["W"]);
}

/// More than one call has places for.
#[test]
fn many_missing_libraries() {
    let app = pef::link(&(0..300).map(|it| format!("library L{it} 0 0 weak\n")).collect::<String>()).unwrap();
    let context = Context::new().unwrap();
    context.add("App", &app).unwrap();
    let missing = context.missing("App").unwrap();
    assert!(missing.len() == 300 && missing.iter().enumerate().all(|(at, it)| it.name == format!("L{at}").as_bytes()));
}

/// Stubs of what nobody has, and who owns them. What they have is tried in cases/library.
#[test]
fn stubs_of_what_is_lacking() {
    let script = "library S 7 5 -\nimport f tvector strong\nlibrary W 1 0 weak\nimport g data weak\nsection d data process 4 8\n";
    let app = pef::link(&format!("{script}fix d 0 import f\nfix d 4 import g\n")).unwrap();
    let (mut few, mut kept) = (Vec::new(), Vec::new());
    let context = Context::new().unwrap();
    context.add("App", &app).unwrap();
    let lacking: Vec<_> = context.lacking().unwrap().iter().map(|it| (it.name[0], it.weak)).collect();
    assert_eq!(lacking, [(b'S', false), (b'W', true)]);
    let past = StubValues::Numbers { first: u32::MAX - 7, step: 16 };
    assert_eq!(named(&refuses(214, context.add_stubs(past, true, &mut few))), ["W"]);
    assert_eq!((context.lacking().unwrap().len(), context.stub("S", past).unwrap().symbol_count()), (2, 1));
    let stubs = context.add_stubs(StubValues::default(), true, &mut kept).unwrap();
    assert_eq!(stubs.iter().map(|it| it.library()[0]).collect::<Vec<_>>(), b"SW");
    let connection = context.prepare("App").unwrap();
    assert_eq!(connection.root().section(0).unwrap().to_vec().unwrap(), [0xF0, 0, 0, 0, 0xF0, 0, 0, 0x10]);
    assert_eq!(connection.fragments().next().unwrap().name().as_ptr(), stubs[0].library().as_ptr());
}

/// A library that each fragment can do without gets no stub if that is asked, and memory takes the place of numbers.
#[test]
fn stubs_in_memory() {
    let app =
        pef::link("library S 7 5 -\nimport f data strong\nlibrary W 1 0 weak\nsection d data process 4 4\nfix d 0 import f\n").unwrap();
    let mut kept = Vec::new();
    let context = Context::new().unwrap();
    context.add("App", &app).unwrap();
    let stubs = context.add_stubs(StubValues::Memory { word: 0x4400_0002, zeros: 32 }, false, &mut kept).unwrap();
    assert_eq!((stubs.len(), context.lacking().unwrap().len()), (1, 1));
    let connection = context.prepare("App").unwrap();
    let stub = connection.fragments().next().unwrap();
    assert_eq!((stub.symbol("f"), stub.sections().last().unwrap().to_vec().unwrap()), (Some(0x10010), vec![0; 32]));
}

#[test]
fn sections_at_given_addresses() {
    let app = pef::link("section s data process 4 20\nsection t data global 6 16\n").unwrap();
    let context = Context::new().unwrap();
    refuses(60, context.new_sections("App"));
    context.add("App", &app).unwrap();
    let sections = context.new_sections("App").unwrap();
    let rows: Vec<_> = sections.iter().map(|it| (it.fragment, it.number, it.kind, it.share, it.size, it.alignment)).collect();
    assert_eq!(rows, [(0, 0, SectionKind::Data, Share::Process, 32, 16), (0, 1, SectionKind::Data, Share::Global, 16, 64)]);
    refuses(210, context.prepare_at("App", &[]));
    assert_eq!(named(&refuses(67, context.prepare_at("App", &[0x20000, 0x20020]))), ["App"]);
    let connection = context.prepare_at("App", &[0x20000, 0x10040]).unwrap();
    let addresses: Vec<_> = connection.root().sections().map(|it| it.address()).collect();
    assert_eq!(addresses, [0x20000, 0x10040]);
}

/// Each option, and the error of what it forbids.
#[test]
fn options() {
    let two = pef::link("versions 1 0 0\nsection a data process 4 17\nsection b data process 4 4\nfix a 0 section a\nfix b 0 section a\n")
        .unwrap();
    let prepared = |options: ContextOptions| {
        let context = Context::with(options)?;
        context.add("A", &two)?;
        context.prepare("A")?.close()?;
        let connection = context.prepare("A")?;
        let addresses: Vec<_> = connection.root().sections().map(|it| it.address()).collect();
        Ok(addresses)
    };
    let usual = ContextOptions::default;
    assert_eq!(prepared(usual()).unwrap(), [0x10000, 0x10020]);
    assert_eq!(prepared(usual().granule(4096)).unwrap(), [0x10000, 0x11000]);
    for (number, options) in [
        (67, usual().limit(0x10020)),
        (69, usual().connections(1)),
        (70, usual().steps(1)),
        (75, usual().bytes(47)),
        (205, usual().granule(24)),
    ] {
        refuses(number, prepared(options));
    }
}

/// Ranges that are out of use, and fragments that are added and removed.
#[test]
fn ranges_and_removals() {
    let tools = linked("shared-library");
    let context = Context::new().unwrap();
    context.reserve(0x10000, 0x20).unwrap();
    refuses(67, context.reserve(0x10010, 1));
    refuses(201, context.unreserve(0x10000, 0x10));
    context.add("Tools", &tools).unwrap();
    refuses(209, context.add_new("Tools", &tools));
    let connection = context.prepare("Tools").unwrap();
    assert_eq!(connection.root().section(0).unwrap().address(), 0x10020);
    refuses(207, context.remove("Tools"));
    connection.close().unwrap();
    context.remove("Tools").unwrap();
    context.unreserve(0x10000, 0x20).unwrap();
    context.add_new(b"Tools", &tools).unwrap();
    assert_eq!(context.prepare("Tools").unwrap().root().section(0).unwrap().address(), 0x10000);
}

#[test]
fn copies_of_sections() {
    let user = linked("shared-library");
    let context = Context::new().unwrap();
    context.add("Tools", &user).unwrap();
    let connection = context.prepare("Tools").unwrap();
    let section = connection.root().section(0).unwrap();
    let mut buffer = [7; 6];
    section.copy_to(&mut buffer).unwrap();
    assert_eq!(buffer, [0, 0, 0, 0x2A, 7, 7]);
    refuses(200, section.copy_to(&mut buffer[..3]));
    assert_eq!(buffer, [0, 0, 0, 0x2A, 7, 7]);
}

#[test]
fn connections() {
    let tools = linked("shared-library");
    let context = Context::new().unwrap();
    context.add("Tools", &tools).unwrap();
    let second = {
        let first = context.prepare("Tools").unwrap();
        let second = context.prepare("Tools").unwrap();
        assert_eq!((first.number(), second.number()), (0, 1));
        second
    };
    assert_eq!(second.root().section(0).unwrap().address(), 0x10000);
    second.close().unwrap();
    assert!(!context.is_present("Tools"));
    assert_eq!(context.prepare("Tools").unwrap().number(), 2);
}

/// A connection has all that it needs when the context is dropped before it.
#[test]
fn connections_outlive_their_context() {
    let (user, tools) = (linked("uses-library"), linked("shared-library"));
    let context = Context::new().unwrap();
    context.add("user", &user).unwrap();
    context.add("Tools", &tools).unwrap();
    let (first, second) = (context.prepare("user").unwrap(), context.prepare("Tools").unwrap());
    drop(context);
    first.close().unwrap();
    assert_eq!(second.root().section(0).unwrap().to_vec().unwrap(), [0, 0, 0, 0x2A]);
    drop(second);
    drop(tools);
}

/// A struct may have a context and its connections side by side.
#[test]
fn in_one_struct() {
    struct Machine<'a> {
        open: Vec<Connection<'a>>,
        context: Context<'a>,
    }
    let tools = linked("shared-library");
    let context = Context::new().unwrap();
    context.add("Tools", &tools).unwrap();
    let mut machine = Machine { open: Vec::new(), context };
    for _ in 0..3 {
        machine.open.push(machine.context.prepare("Tools").unwrap());
    }
    machine.open.swap_remove(0).close().unwrap();
    assert_eq!(names(machine.open[1].released().unwrap()), Vec::<String>::new());
    machine.open.truncate(1);
    assert_eq!(names(machine.open[0].released().unwrap()), ["Tools"]);
}

#[test]
fn what_changes_with_a_connection() {
    let (user, tools) = (linked("uses-library"), linked("shared-library"));
    let context = Context::new().unwrap();
    context.add("user", &user).unwrap();
    context.add("Tools", &tools).unwrap();
    let (first, second) = (context.prepare("Tools").unwrap(), context.prepare("user").unwrap());
    assert_eq!((names(first.new_fragments()), names(second.new_fragments())), (vec!["Tools".to_string()], vec!["user".to_string()]));
    assert_eq!((names(first.released().unwrap()), names(second.released().unwrap())), (vec![], vec!["user".to_string()]));
    drop(first);
    assert_eq!(names(second.released().unwrap()), ["user", "Tools"]);
}

#[test]
fn what_imports_and_exports_mean() {
    let (user, tools) = (linked("uses-library"), linked("shared-library"));
    let context = Context::new().unwrap();
    context.add("user", &user).unwrap();
    context.add("Tools", &tools).unwrap();
    let connection = context.prepare("user").unwrap();
    match connection.root().import_target(0) {
        Some(Target::InSection { fragment, section, offset, address }) => {
            assert_eq!((fragment.name(), section, offset, address), (&b"Tools"[..], 0, 0, 0x10000))
        }
        other => panic!("{other:?}"),
    }
    assert!(connection.root().import_target(1).is_none());
    let tools = connection.fragments().next().unwrap();
    assert_eq!((tools.export_address(0), tools.export_address(1)), (Some(0x10000), None));
}

/// N: k at 10000, l at 10010. The section of A is after them, at 10020.
const EXPORTING: &str =
    "versions 1 0 0\nsection k const process 2 4\nsection l data process 4 8\nexport v data l 4\nabsolute n data 0x89ABCDEF\n";
const PASSING: &str = "library N 1 0 -\nimport v data strong\nimport n data strong\nimport x code weak\nsection a data process 4 16\n\
    export low tvector a 4\nexport high code a 12\nabsolute none glue 0\nreexport v data v\nreexport n data n\nreexport gone data x\n";

#[test]
fn exports_and_where_an_address_is() {
    let (passing, exporting) = (pef::link(PASSING).unwrap(), pef::link(EXPORTING).unwrap());
    let container = pef::Container::read(&passing).unwrap();
    let found = container.find_import("x").unwrap();
    assert_eq!((found.number, found.name, found.library, found.class, found.weak), (2, &b"x"[..], Some(0), SymbolClass::Code, true));
    assert!(container.find_import("high").is_none() && container.find_import("").is_none());

    let context = Context::new().unwrap();
    context.add("A", &passing).unwrap();
    context.add("N", &exporting).unwrap();
    let connection = context.prepare("A").unwrap();
    let (library, root) = (connection.fragments().next().unwrap(), connection.root());
    assert_eq!((root.export_count(), library.export_count()), (6, 2));
    assert_eq!((root.import_named("n"), root.import_named("high"), library.import_named("n")), (Some(1), None, None));

    let none = root.export_named("none").unwrap();
    assert!(matches!(none.target, Target::Absolute(0)) && none.class == SymbolClass::Glue && none.import.is_none());
    let number = root.export_named("n").unwrap();
    assert!(matches!(number.target, Target::Absolute(0x89AB_CDEF)) && number.import == Some(1));
    let gone = root.export_named("gone").unwrap();
    assert!(matches!(gone.target, Target::Missing) && gone.target.address() == 0 && gone.import == Some(2));
    let (v, high) = (root.export_named("v").unwrap(), root.export_named(b"high").unwrap());
    for (export, (owner, in_section, at, to, passed)) in [(v, (1, 1, 4, 0x10014, Some(0))), (high, (0, 0, 12, 0x1002C, None))] {
        match export.target {
            Target::InSection { fragment, section, offset, address } => {
                assert_eq!((fragment.number(), section, offset, address, export.import), (owner, in_section, at, to, passed))
            }
            other => panic!("{other:?}"),
        }
        assert_eq!(root.export(export.number).unwrap().name, export.name);
    }
    assert!(root.export_named("hig").is_none() && root.export(6).is_none());

    let at = |address| context.at(address).map(|it| (it.fragment, it.section, it.offset, it.nearest));
    assert!(at(0x10004).is_none() && at(0x10003) == Some((1, 0, 3, None)));
    let (fragment, section, offset, nearest) = at(0x1002B).unwrap();
    let low = nearest.unwrap();
    assert_eq!((fragment, section, offset, low.number, low.name), (0, 0, 11, root.export_named("low").unwrap().number, &b"low"[..]));
    assert_eq!((low.class, low.offset), (SymbolClass::TransitionVector, 4));
}

#[test]
fn refusals_have_names() {
    let (user, lacks) = (linked("uses-library"), pef::link("library L 1 0 -\nimport w data strong\n").unwrap());
    let other = pef::link("versions 1 0 0\nabsolute v data 0\n").unwrap();
    let context = Context::new().unwrap();
    context.add("user", &user).unwrap();
    context.add("bad", b"no container").unwrap();
    context.add("lacks", &lacks).unwrap();
    context.add("L", &other).unwrap();
    let error = refuses(61, context.prepare("user"));
    assert_eq!((named(&error), error.code()), (vec!["user".into(), "Tools".into()], Code::LibraryMissing));
    assert!(error.to_string().starts_with("61 LibraryMissing fragment user library Tools in library 0 at 0x"), "{error}");
    assert_eq!(error.place().unwrap().part, pef::Part::Library);
    assert_eq!(named(&refuses(1, context.prepare("bad"))), ["bad"]);
    assert_eq!(named(&refuses(62, context.prepare("lacks"))), ["lacks", "L", "w"]);
    assert_eq!(named(&refuses(60, context.prepare("nobody"))), [""; 0]);
}

/// The names of an error stay when all that was added is gone.
#[test]
fn errors_own_their_names() {
    let error = {
        let user = linked("uses-library");
        let context = Context::new().unwrap();
        context.add("user", &user).unwrap();
        context.prepare("user").unwrap_err()
    };
    assert_eq!(named(&error), ["user", "Tools"]);
}

/// What a thread reads of a connection.
fn read(connection: &Connection<'_>) -> String {
    let mut said = format!("{connection:?}");
    for fragment in connection.fragments() {
        said +=
            &format!("{:?} {:?} {:?} {:?}", fragment.sections(), fragment.symbol("answer"), fragment.entries(), fragment.import_target(0));
        said += &format!("{:?}", fragment.sections().map(|it| it.to_vec()).collect::<Vec<_>>());
    }
    said
}

/// Threads read a context while others open and close connections of it, and each reads what one thread reads alone.
#[test]
fn threads() {
    let times = if std::env::var_os("PEF_FEW").is_some() { 20 } else { 300 };
    let (user, tools) = (linked("uses-library"), linked("shared-library"));
    let context = Context::new().unwrap();
    context.add("user", &user).unwrap();
    context.add("Tools", &tools).unwrap();
    let connection = context.prepare("user").unwrap();
    let alone = read(&connection);
    let done = AtomicBool::new(false);
    std::thread::scope(|scope| {
        let readers: Vec<_> = (0..4).map(|_| scope.spawn(|| (0..times).for_each(|_| assert_eq!(read(&connection), alone)))).collect();
        for _ in 0..2 {
            scope.spawn(|| {
                while !done.load(Ordering::Relaxed) {
                    context.prepare("Tools").unwrap().close().unwrap();
                    std::thread::yield_now();
                    if context.prepare("Tools").unwrap().number() > 60_000 {
                        break;
                    }
                }
            });
        }
        for reader in readers {
            reader.join().unwrap();
        }
        done.store(true, Ordering::Relaxed);
    });
}

/// A context and a connection go to another thread.
#[test]
fn contexts_go_to_another_thread() {
    fn goes<T: Send + Sync>(_: &T) {}
    static TOOLS: &[u8] = b"no container";
    let context = Context::new().unwrap();
    goes(&context);
    let thread = std::thread::spawn(move || {
        context.add("Tools", TOOLS).unwrap();
        context.prepare("Tools").unwrap_err().number()
    });
    assert_eq!(thread.join().unwrap(), 1);
    let tools = linked("shared-library");
    let context = Context::new().unwrap();
    context.add("Tools", &tools).unwrap();
    let connection = context.prepare("Tools").unwrap();
    goes(&connection);
    drop(context);
    std::thread::scope(|scope| scope.spawn(|| connection.close().unwrap()).join().unwrap());
}

/// Bytes that were added may go, and be changed, when the context and its connections are gone.
#[test]
fn what_was_added_is_free_again() {
    let (mut user, mut tools, mut name) = (linked("uses-library"), linked("shared-library"), "Tools".to_string());
    {
        let context = Context::new().unwrap();
        context.add("user", &user).unwrap();
        context.add(&name, &tools).unwrap();
        let connection = context.prepare("user").unwrap();
        assert_eq!(connection.fragments().next().unwrap().name(), b"Tools");
    }
    user.fill(0);
    tools.clear();
    name.push('!');
    drop((user, tools, name));
}

/// A context that is forgotten keeps its memory, and nothing is wrong with that.
#[test]
fn forgotten() {
    let tools = linked("shared-library");
    let context = Context::new().unwrap();
    context.add("Tools", &tools).unwrap();
    std::mem::forget(context.prepare("Tools").unwrap());
    assert!(context.is_present("Tools"));
    assert_eq!(context.prepare("Tools").unwrap().number(), 1);
}

#[test]
fn two_contexts() {
    let tools = linked("shared-library");
    let (one, other) = (Context::new().unwrap(), Context::with(ContextOptions::new().limit(0x20000)).unwrap());
    for context in [&one, &other] {
        context.add("Tools", &tools).unwrap();
    }
    let (first, second) = (one.prepare("Tools").unwrap(), other.prepare("Tools").unwrap());
    assert_eq!(first.root().symbol("answer"), second.root().symbol("answer"));
}

#[test]
fn what_debug_says() {
    let tools = linked("shared-library");
    let context = Context::new().unwrap();
    context.add("Tools", &tools).unwrap();
    let connection = context.prepare("Tools").unwrap();
    assert_eq!(format!("{context:?}"), r#"Context { fragments: [b"Tools"] }"#);
    assert_eq!(format!("{connection:?}"), r#"Connection { number: 0, fragments: [b"Tools"] }"#);
    assert_eq!(format!("{:?}", connection.root()), r#"Fragment { number: 0, name: b"Tools" }"#);
}

/// 100,000 contexts take the memory of one.
#[cfg(target_os = "linux")]
#[test]
fn memory() {
    let (user, tools) = (linked("uses-library"), linked("shared-library"));
    let open_once = || {
        let context = Context::new().unwrap();
        context.add("user", &user).unwrap();
        context.add("Tools", &tools).unwrap();
        let _ = context.prepare("user").unwrap();
    };
    let resident = || {
        let said = std::fs::read_to_string("/proc/self/statm").unwrap();
        4096 * said.split_whitespace().nth(1).unwrap().parse::<usize>().unwrap()
    };
    let times = if std::env::var_os("PEF_FEW").is_some() { 200 } else { 100_000 };
    (0..1000.min(times)).for_each(|_| open_once()); // the heap has found its size
    let before = resident();
    (0..times).for_each(|_| open_once());
    // other tests run beside this one
    assert!(resident() < before + (8 << 20));
}
