//! The rows that `AMQP_ROWS` names, a file each, and what no row says.

use amqp_types_canonical::{canonical, canonical_into, path_of, read, term_len, ErrorKind, Kind, Limits, Nodes, Text, Type};

fn bytes_of(digits: &str) -> Option<Vec<u8>> {
    if digits == "-" {
        return Some(Vec::new());
    }
    if digits.is_empty() || digits.len() % 2 != 0 || !digits.bytes().all(|digit| digit.is_ascii_hexdigit()) {
        return None;
    }
    Some((0..digits.len()).step_by(2).map(|i| u8::from_str_radix(&digits[i..i + 2], 16).unwrap()).collect())
}

fn digits_of(bytes: &[u8]) -> String {
    match bytes {
        [] => "-".to_string(),
        bytes => bytes.iter().map(|byte| format!("{byte:02x}")).collect(),
    }
}

fn number_of(digits: &str) -> Option<u64> {
    let is_plain = digits.len() <= 19 && digits.bytes().all(|digit| digit.is_ascii_digit());
    let number = digits.parse::<u64>().ok().filter(|_| is_plain)?;
    (number.to_string() == digits).then_some(number)
}

fn limits_of(line: &str) -> Option<Limits> {
    let words: Vec<&str> = line.strip_prefix("limits ")?.split(' ').collect();
    let [nesting, bytes, items] = words[..] else { return None };
    let nesting = u32::try_from(number_of(nesting)?).ok().filter(|nesting| *nesting <= 128)?;
    Some(Limits { nesting, bytes: number_of(bytes)?, items: number_of(items)?, ..Limits::greatest() })
}

// What the program answers to a line that sets no limits.
fn answer(line: &str, limits: &Limits) -> String {
    let asked = line.split_once(' ').and_then(|(name, digits)| Some((Type::from_name(name)?, bytes_of(digits)?)));
    let Some((of, input)) = asked else { return "no 0 Line".to_string() };
    let lengths = read(of, &input, limits);
    match canonical(of, &input, limits) {
        Ok((text, taken)) => {
            assert_eq!(lengths, Ok(taken), "{line}");
            check_room(of, &input, limits, &text, taken);
            format!("ok {} {}", digits_of(&text), input.len() - taken)
        }
        Err(error) => {
            assert_eq!(lengths, Err(error), "{line}");
            assert!(!error.to_string().is_empty());
            assert_eq!(error.at().is_none(), error.name() == "TooLarge", "{line}");
            assert!(error.at() <= Some(input.len()), "{line}");
            assert_eq!(error.path(of, &input).is_some(), error.at().is_some(), "{line}");
            format!("no {} {}", error.number(), error.name())
        }
    }
}

// Room that is too small by one byte stays as it is, and of exact room all is written.
fn check_room(of: Type, input: &[u8], limits: &Limits, text: &[u8], taken: usize) {
    let mut room = vec![0xaa; text.len() + 1];
    if let Some(less) = text.len().checked_sub(1) {
        assert_eq!(canonical_into(of, input, limits, &mut room[..less]), Ok(Text::Needs(text.len())));
        assert!(room.iter().all(|byte| *byte == 0xaa));
    }
    let fits = Text::Fits { written: text.len(), taken };
    assert_eq!(canonical_into(of, input, limits, &mut room[..text.len()]), Ok(fits));
    assert_eq!(room[..text.len()], *text);
    assert_eq!(room[text.len()], 0xaa);
}

#[test]
fn rows() {
    let files = std::env::var("AMQP_ROWS").expect("AMQP_ROWS names files of rows, with a colon between two");
    let mut rows = 0;
    for file in files.split(':') {
        let mut limits = Limits::greatest();
        for row in std::fs::read_to_string(file).unwrap().lines() {
            let Some((line, wanted)) = row.split_once(" => ").filter(|_| !row.starts_with('#')) else { continue };
            let found = match limits_of(line) {
                Some(set) => {
                    limits = set;
                    line.to_string()
                }
                None => answer(line, &limits),
            };
            assert_eq!(found, wanted, "{file}: {line}");
            rows += 1;
        }
    }
    println!("{rows} rows");
    assert!(rows > 0);
}

#[test]
fn names() {
    for (name, of) in Type::all() {
        assert_eq!(Type::from_name(name), Some(of));
        assert_eq!(of.name(), name);
    }
    assert_eq!(Type::from_name(""), None);
}

#[test]
fn limits_that_are_none() {
    let deep = Limits { nesting: 129, ..Limits::greatest() };
    let error = read(Type::Boolean, &[0x41], &deep).unwrap_err();
    assert_eq!((error.kind(), error.at()), (ErrorKind::NoLimits, None));
    assert_eq!(ErrorKind::NoLimits.name(), "NoLimits");
}

#[test]
fn limits_for_peers() {
    let limits = Limits::for_peers(5);
    assert_eq!((limits.nesting, limits.bytes, limits.items), (128, 5, 5));
    assert_ne!(limits.hash_seed, 0);
    let error = canonical(Type::Accepted, &[0x00, 0x53, 0x24, 0xc0, 0x00, 0x00], &limits).unwrap_err();
    assert_eq!(error.kind(), ErrorKind::Limit);
    let properties = [0x00, 0x53, 0x74, 0xc1, 0x0d, 0x04, 0xa1, 0x03, b'o', b'n', b'e', 0x43, 0xa1, 0x02, b'i', b't', 0x52, 0x00];
    for hash_seed in [0, 1, u64::MAX] {
        let seeded = Limits { hash_seed, ..Limits::greatest() };
        assert_eq!(
            canonical(Type::ApplicationProperties, &properties, &seeded),
            Ok(([&properties[..4], &[0x0c], &properties[5..16], &[0x43]].concat(), properties.len()))
        );
    }
}

#[test]
fn eight_threads() {
    let threads = (0..8u8).map(|i| {
        std::thread::spawn(move || {
            for j in 0..20_000u32 {
                let input = [0x53, i, 0x52, j as u8, i];
                assert_eq!(
                    canonical(Type::Value, &input, &Limits::greatest()),
                    Ok((vec![0x53, i], 2)).map(|(text, taken)| {
                        if i == 0 {
                            (vec![0x44], taken)
                        } else {
                            (text, taken)
                        }
                    })
                );
                assert_eq!(term_len(&input[2..]), Ok(2));
                let error = read(Type::Boolean, &input[2..], &Limits::greatest()).unwrap_err();
                assert_eq!((error.kind(), error.at()), (ErrorKind::WrongType(0x52), Some(0)));
            }
        })
    });
    for thread in threads.collect::<Vec<_>>() {
        thread.join().unwrap();
    }
}

// Each node's kind, depth, and bytes.
fn nodes_of(digits: &str) -> Vec<(Kind, usize, String)> {
    let bytes = bytes_of(digits).unwrap();
    Nodes::new(&bytes).map(|node| node.map(|node| (node.kind, node.depth, digits_of(node.data)))).collect::<Result<_, _>>().unwrap()
}

// (Part 1, sections 1.2.3 and 1.2.4: the items of a list have constructors, those of an array share one.)
#[test]
fn nodes() {
    let text = |digits: &str| digits.to_string();
    assert_eq!(
        nodes_of("005323c005025209530d"),
        [
            (Kind::Described, 0, text("5323c005025209530d")),
            (Kind::Ulong, 1, text("23")),
            (Kind::List, 1, text("5209530d")),
            (Kind::Uint, 2, text("09")),
            (Kind::Ulong, 2, text("0d")),
        ]
    );
    assert_eq!(
        nodes_of("e00902005301a101610162"),
        [(Kind::Array, 0, text("005301a101610162")), (Kind::String, 1, text("61")), (Kind::String, 1, text("62")),]
    );
    assert_eq!(nodes_of("45"), [(Kind::List, 0, text("-"))]);
    assert_eq!(nodes_of("40ff"), [(Kind::Null, 0, text("-"))]);
}

#[test]
fn refused_nodes() {
    let found: Vec<_> = Nodes::new(&[0xc0, 0x02, 0x01, 0x72]).map(|node| node.map_err(|error| (error.kind(), error.at()))).collect();
    assert_eq!(found, [Err((ErrorKind::FloatCode(0x72), None))]);
}

// The fault, its place and the path there, as they are printed.
fn fault(of: Type, digits: &str) -> String {
    let input = bytes_of(digits).unwrap();
    let error = read(of, &input, &Limits::greatest()).unwrap_err();
    let path = error.path(of, &input).unwrap();
    format!("{} {} {path}", error.name(), error.at().unwrap())
}

// (the fields of Part 2, section 2.7, Part 3, sections 3.2, 3.4 and 3.5.3, and Part 5, section 5.3.3.6, by the standard's tables)
#[test]
fn places_and_paths() {
    let attach = "005312c01a06a1066f726465727343414040005328c00801a1057175ff7565";
    assert_eq!(fault(Type::Attach, attach), "BadUtf8 24 attach.source.address");
    assert_eq!(fault(Type::Performative, attach), "BadUtf8 24 attach.source.address");
    let filter = "005312c01c06a1016143414040005328c00f0840404040404040c10502a3016699";
    assert_eq!(fault(Type::Attach, filter), "UnknownCode 32 attach.source.filter[{0}]");
    assert_eq!(fault(Type::Open, "005310c0020140"), "Missing 6 open.container-id");
    assert_eq!(fault(Type::Begin, "005311c00d07404343434040e00401a301ff"), "NonAscii 16 begin.desired-capabilities[0]");
    let disposition = "005315c0120541434040005325c0080100531dc0020141";
    assert_eq!(fault(Type::Disposition, disposition), "WrongType 22 disposition.state.error.condition");
    assert_eq!(fault(Type::SaslOutcome, "005344c003015005"), "UnknownNumber 6 sasl-outcome.code");
    assert_eq!(fault(Type::Received, "005323c003015209"), "Missing 8 received(end)");
    assert_eq!(fault(Type::Received, "005323c005025209"), "Cut 8 received.section-offset");
    assert_eq!(fault(Type::Accepted, "005323c003015209"), "WrongDescriptor 1 accepted(descriptor)");
    let properties = "005374c10904a1016140";
    assert_eq!(fault(Type::ApplicationProperties, &format!("{properties}a3016240")), "WrongType 10 application-properties{1}");
    assert_eq!(fault(Type::ApplicationProperties, &format!("{properties}a1016245")), "InvalidValue 13 application-properties[{1}]");
    assert_eq!(fault(Type::Value, "e0050356000102"), "BadBool 6 value[2]");
    assert_eq!(fault(Type::Value, "e0020241"), "ZeroWidthItems 3 value(constructor)");
}

// (a header without fields before the section with the fault, Part 3, section 3.2)
#[test]
fn paths_behind_a_section() {
    assert_eq!(fault(Type::Message, "00537045005373c003015001"), "WrongType 10 properties.message-id");
    assert_eq!(fault(Type::MessageData, "00537045005374c10904a1016140a3016240"), "WrongType 14 application-properties{1}");
}

#[test]
fn paths_are_as_long_as_values_are_deep() {
    let deep = [[0xc0, 0xff, 0x01].repeat(40), vec![0x40]].concat();
    let path = path_of(&deep, 120);
    assert_eq!(path.nodes().len(), 41);
    assert_eq!(path.to_string(), format!("value{}", "[0]".repeat(40)));
    assert_eq!(path_of(&[], 0).to_string(), "value");
}
