//! Files of the classic Mac OS.

use pef::{resource_files, Code, FileKind, Locator, MacFile, MacPart, Usage};

/// A resource fork of resources without names: a type, an id and the bytes of each.
fn resource_fork(rows: &[(&[u8; 4], i16, &[u8])]) -> Vec<u8> {
    let mut kinds: Vec<&[u8; 4]> = rows.iter().map(|it| it.0).collect();
    kinds.sort_unstable();
    kinds.dedup();
    let (mut contents, mut lists, mut types) = (Vec::new(), Vec::new(), (kinds.len() as u16 - 1).to_be_bytes().to_vec());
    for kind in &kinds {
        let own: Vec<_> = rows.iter().filter(|it| it.0 == *kind).collect();
        types.extend(**kind);
        types.extend((own.len() as u16 - 1).to_be_bytes());
        types.extend((2 + 8 * kinds.len() as u16 + lists.len() as u16).to_be_bytes());
        for (_, id, bytes) in own {
            lists.extend(id.to_be_bytes());
            lists.extend([0xFF, 0xFF]);
            lists.extend((contents.len() as u32).to_be_bytes());
            lists.extend([0; 4]);
            contents.extend((bytes.len() as u32).to_be_bytes());
            contents.extend(*bytes);
        }
    }
    types.extend(lists);
    let length = contents.len() as u32;
    let header: Vec<u8> = [256, 256 + length, length, 28 + types.len() as u32].iter().flat_map(|it: &u32| it.to_be_bytes()).collect();
    let mut it = header.clone();
    it.resize(256, 0);
    it.extend(contents);
    it.extend(header);
    it.extend([0; 8]);
    it.extend([0, 28]);
    it.extend((28 + types.len() as u16).to_be_bytes());
    it.extend(types);
    it
}

fn crc(bytes: &[u8]) -> u16 {
    bytes.iter().fold(0, |sum, byte| {
        (0..8).fold(sum ^ u16::from(*byte) << 8, |sum: u16, _| if sum & 0x8000 == 0 { sum << 1 } else { sum << 1 ^ 0x1021 })
    })
}

fn padded(bytes: &[u8]) -> Vec<u8> {
    let mut it = bytes.to_vec();
    it.resize((bytes.len() + 127) / 128 * 128, 0);
    it
}

fn mac_binary(name: &str, fork: &[u8], resources: &[u8]) -> Vec<u8> {
    let mut it = vec![0, name.len() as u8];
    it.extend(name.bytes());
    it.resize(65, 0);
    it.extend(b"APPL????");
    it.resize(83, 0);
    it.extend((fork.len() as u32).to_be_bytes());
    it.extend((resources.len() as u32).to_be_bytes());
    it.resize(122, 0);
    it.extend([129, 129]);
    let sum = crc(&it);
    it.extend(sum.to_be_bytes());
    it.extend([0; 2]);
    it.extend(padded(fork));
    it.extend(padded(resources));
    it
}

fn apple_double(resources: &[u8]) -> Vec<u8> {
    let mut it: Vec<u8> = [0x0005_1607, 0x0002_0000].iter().flat_map(|it: &u32| it.to_be_bytes()).collect();
    it.resize(24, 0);
    it.extend([0, 1]);
    it.extend([2, 38, resources.len() as u32].iter().flat_map(|it: &u32| it.to_be_bytes()));
    it.extend(resources);
    it
}

fn member(name: &str, locator: u8, offset: u32, length: u32, architecture: &[u8; 4]) -> Vec<u8> {
    let size = (43 + name.len() + 3) / 4 * 4;
    let mut it = architecture.to_vec();
    it.extend([0, 0, 0, 7]);
    for number in [0x0120_6003_u32, 0x0100_8000, 65536] {
        it.extend(number.to_be_bytes());
    }
    it.extend([0, 5, 1, locator]);
    for number in [offset, length, 9] {
        it.extend(number.to_be_bytes());
    }
    for number in [11, 12, size as u16] {
        it.extend(number.to_be_bytes());
    }
    it.push(name.len() as u8);
    it.extend(name.bytes());
    it.resize(size, 0);
    it
}

fn table(members: &[Vec<u8>]) -> Vec<u8> {
    let mut it = vec![0; 10];
    it.extend([0, 1]);
    it.resize(30, 0);
    it.extend((members.len() as u16).to_be_bytes());
    it.extend(members.concat());
    it
}

/// The files that the tests read.
struct Files {
    code: Vec<u8>,
    fork: Vec<u8>,
    resources: Vec<u8>,
    whole: Vec<u8>,
}

fn files() -> Files {
    let mut code = b"Joy!peffpwpc".to_vec();
    code.resize(112, 0);
    let fork = [&b"12345678"[..], &code].concat();
    let rows = [
        member("Calc", 1, 0, 0, b"m68k"),
        member("Calc", 1, 8, 112, b"pwpc"),
        member("Twin", 1, 8, 112, b"pwpc"),
        member("Drv", 2, 0x6E64_7276, 0xFF80, b"pwpc"),
    ];
    let resources = resource_fork(&[(b"cfrg", 0, &table(&rows)), (b"ndrv", -128, &code[..50]), (b"ndrv", 5, &code[..60])]);
    let whole = mac_binary("Calc", &fork, &resources);
    Files { code, fork, resources, whole }
}

fn numbers(file: &MacFile<'_>) -> Vec<u32> {
    file.errors().iter().map(|it| it.code.number()).collect()
}

#[test]
fn all_of_a_file() {
    let made = files();
    let file = MacFile::read(&made.whole);
    assert_eq!(
        (file.kind(), file.data_fork(), file.resource_fork()),
        (FileKind::MacBinary, Some(&made.fork[..]), Some(&made.resources[..]))
    );
    assert_eq!((file.name(), file.comment(), file.errors()), (Some(&b"Calc"[..]), Some(&b""[..]), &[][..]));
    let finder = file.finder().unwrap();
    assert_eq!((finder.file_type, finder.creator), (*b"APPL", *b"????"));
    assert_eq!(file.resources().iter().map(|it| (it.kind, it.id)).collect::<Vec<_>>(), [(*b"cfrg", 0), (*b"ndrv", -128), (*b"ndrv", 5)]);
    assert!(file.resources().iter().all(|it| !it.is_compressed() && it.name.is_none()));
    assert_eq!(file.members().iter().map(|it| it.name.unwrap()).collect::<Vec<_>>(), [&b"Calc"[..], b"Calc", b"Twin", b"Drv"]);
    let it = file.members()[1];
    assert_eq!((it.number, it.name, it.architecture, it.update_level), (1, Some(&b"Calc"[..]), *b"pwpc", 7));
    assert_eq!((it.current_version, it.old_def_version, it.stack_size, it.directory_or_flags), (0x0120_6003, 0x0100_8000, 65536, 5));
    assert_eq!((it.usage, it.locator, it.offset, it.length, it.space_id), (Usage::Application, Locator::DataFork, 8, 112, 9));
    assert_eq!((it.fork_instance, it.extension_count, it.size, it.container), (11, 12, 48, Some(&made.code[..])));
}

fn found(file: &MacFile<'_>) -> Vec<(String, usize, Vec<String>, usize)> {
    let names = |it: &pef::FoundContainer<'_>| it.names().map(|it| String::from_utf8_lossy(it).into_owned()).collect();
    file.containers().iter().map(|it| (it.part.to_string(), it.offset, names(it), it.bytes.len())).collect()
}

#[test]
fn containers() {
    let made = files();
    let file = MacFile::read(&made.whole);
    let names = |them: &[&str]| them.iter().map(|it| it.to_string()).collect::<Vec<_>>();
    let wanted = [
        ("data fork".to_string(), 0, names(&["Calc"]), 120),
        ("data fork".to_string(), 8, names(&["Calc", "Twin"]), 112),
        ("resource ndrv -128".to_string(), 0, names(&["Drv"]), 50),
        ("resource ndrv 5".to_string(), 0, names(&[]), 60),
    ];
    assert_eq!(found(&file), wanted);
    assert_eq!((file.container("Calc").unwrap(), file.container(b"Drv").unwrap()), (&made.code[..], &made.code[..50]));
    let error = file.container("calc").unwrap_err();
    assert_eq!((error.code(), error.name()), (Code::NoContainer, "NoContainer"));
}

/// What a file gives is a part of it, and stays when the reading is gone.
#[test]
fn parts_outlive_the_reading() {
    let made = files();
    let (code, name) = {
        let file = MacFile::read(&made.whole);
        let member = file.members()[1];
        (file.container("Calc").unwrap(), member.name.unwrap())
    };
    assert_eq!((code, name), (&made.code[..], &b"Calc"[..]));
    assert!(made.whole.as_ptr_range().contains(&code.as_ptr()));
}

#[test]
fn no_table() {
    let made = files();
    let bytes = [b"before", &made.code[..], &made.code].concat();
    let file = MacFile::read(&bytes);
    let said: Vec<_> = file.containers().iter().map(|it| (it.part, it.offset, it.members.len())).collect();
    assert_eq!(said, [(MacPart::DataFork, 6, 0), (MacPart::DataFork, 118, 0)]);
    assert_eq!(file.container("Calc").unwrap_err().number(), 80);
}

#[test]
fn forks_in_two_files() {
    let made = files();
    let double = apple_double(&made.resources);
    for other in [&double, &made.resources] {
        let file = MacFile::read_with_resources(&made.fork, other);
        assert_eq!((file.resource_fork(), file.errors()), (Some(&made.resources[..]), &[][..]));
        assert_eq!(file.container("Twin").unwrap(), made.code);
        assert_eq!(file.container("Drv").unwrap(), &made.code[..50]);
    }
    let alone = MacFile::read(&double);
    assert_eq!((alone.kind(), alone.data_fork(), numbers(&alone)), (FileKind::AppleDouble, None, vec![98, 98, 98]));
    assert_eq!(alone.container("Drv").unwrap(), &made.code[..50]);
}

#[test]
fn usual_places_of_resource_forks() {
    let places = resource_files(std::path::Path::new("Disk/Calc"));
    let said: Vec<_> = places.iter().map(|it| it.to_str().unwrap()).collect();
    assert_eq!(
        said,
        [
            "Disk/._Calc",
            "Disk/__MACOSX/._Calc",
            "Disk/.AppleDouble/Calc",
            "Disk/.rsrc/Calc",
            "Disk/Calc.rsrc",
            "Disk/%Calc",
            "Disk/resource.frk/Calc",
            "Disk/.resource/Calc"
        ]
    );
}

#[test]
fn damage_hides_nothing_else() {
    let made = files();
    let mut wrong_sum = made.whole.clone();
    wrong_sum[124] ^= 1;
    let file = MacFile::read(&wrong_sum);
    assert_eq!(file.errors().iter().map(|it| it.to_string()).collect::<Vec<_>>(), ["81 BadMacBinaryCrc in file at 0x7C"]);
    assert_eq!(file.members().len(), 4);
    let cut = &made.resources[..made.resources.len() - 4];
    let file = MacFile::read_with_resources(&made.fork, cut);
    assert_eq!((numbers(&file), file.members().len()), (vec![87, 91], 4));
    assert_eq!(file.resources().iter().map(|it| it.id).collect::<Vec<_>>(), [0, -128]);
    let mut bytes = vec![0, 5, 0x16, 7, 0, 3];
    bytes.resize(36, 0);
    let file = MacFile::read(&bytes);
    assert_eq!((numbers(&file), file.kind()), (vec![83], FileKind::DamagedApple));
    let file = MacFile::read_with_resources(&made.fork[..60], &made.resources);
    let said: Vec<_> = file.errors().iter().map(|it| (it.code.number(), it.part)).collect();
    assert_eq!(said, [(98, MacPart::FragmentTable), (98, MacPart::FragmentTable)]);
    assert_eq!(file.container("Drv").unwrap(), &made.code[..50]);
}

#[test]
fn forks_over_16_megabytes() {
    let made = files();
    let (mut fork, contents) = (made.code.clone(), vec![0; 17 << 20]);
    fork.resize(made.code.len() + (17 << 20), 0);
    let resources = resource_fork(&[(b"cfrg", 0, &table(&[member("Calc", 1, 0, 0, b"pwpc")])), (b"long", 1, &contents)]);
    let whole = mac_binary("Calc", &fork, &resources);
    let file = MacFile::read(&whole);
    assert!(file.data_fork() == Some(&fork) && file.resource_fork() == Some(&resources) && file.resources()[1].bytes == Some(&contents));
    assert!(file.container("Calc").unwrap() == fork && file.errors().is_empty());
}

/// What is found in a file that ends too early is a part of it.
#[test]
fn cut_anywhere() {
    let made = files();
    for length in 0..made.whole.len() {
        let cut = &made.whole[..length];
        let file = MacFile::read(cut);
        assert!(file.errors().iter().all(|it| it.code.name() != "Unknown"));
        for it in file.containers() {
            assert!(it.bytes.is_empty() || cut.as_ptr_range().contains(&it.bytes.as_ptr()));
        }
        let _ = format!("{file:?}");
    }
}
