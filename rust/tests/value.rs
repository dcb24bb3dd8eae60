//! Typed values, by document 01's table of kinds.

use sindovaleph::value::Element;
use sindovaleph::{Elements, Kind, List, NodeType, Refusal, Value, kind_of, read, read_strict};
use std::net::Ipv4Addr;

/// Each kind with the first and the last code of its ranges, as document 01 has them.
const RANGES: [(Kind, &[(u8, u8)]); 15] = {
    use Kind::*;
    [
        (Address, &[(1, 1), (16, 16), (28, 28), (32, 32), (50, 50), (54, 54), (118, 118), (150, 150)]),
        (Addresses, &[(3, 11), (41, 42), (44, 45), (48, 49), (65, 65), (68, 76), (89, 89), (92, 92)]),
        (Pairs, &[(21, 21), (33, 33)]),
        (Byte, &[(23, 23), (37, 37), (52, 52)]),
        (YesNo, &[(19, 20), (27, 27), (29, 31), (34, 34), (36, 36), (39, 39)]),
        (U16, &[(13, 13), (22, 22), (26, 26), (57, 57), (93, 93)]),
        (U16s, &[(25, 25)]),
        (U32, &[(24, 24), (35, 35), (38, 38), (51, 51), (58, 59), (91, 91), (106, 106), (152, 155)]),
        (I32, &[(2, 2)]),
        (
            Text,
            &[(12, 12), (14, 15), (17, 18), (40, 40), (47, 47), (56, 56), (62, 62), (64, 64), (100, 101), (114, 114)],
        ),
        (Codes, &[(55, 55)]),
        (NodeType, &[(46, 46)]),
        (MessageType, &[(53, 53)]),
        (ThreeBytes, &[(94, 94)]),
        (Flag, &[(80, 80)]),
    ]
};

fn address(a: u8, b: u8, c: u8, d: u8) -> Ipv4Addr {
    Ipv4Addr::new(a, b, c, d)
}

#[test]
fn every_code_has_its_kind() {
    for code in 0..=255 {
        let inside = |ranges: &[(u8, u8)]| ranges.iter().any(|&(first, last)| (first..=last).contains(&code));
        let listed = RANGES.iter().find(|(_, ranges)| inside(ranges)).map_or(Kind::Raw, |(kind, _)| *kind);
        assert_eq!(kind_of(code), listed, "code {code}");
    }
    assert_eq!(RANGES.map(|(kind, _)| kind.number()), [1, 2, 3, 4, 5, 6, 7, 8, 9, 10, 11, 12, 13, 14, 15]);
    assert_eq!((Kind::from_number(0), Kind::from_number(16)), (Some(Kind::Raw), None));
}

/// The codes of a value's kind.
fn codes_like(value: &Value) -> Vec<u8> {
    let kind = match value {
        Value::Raw(_) => Kind::Raw,
        Value::Address(_) => Kind::Address,
        Value::Addresses(_) => Kind::Addresses,
        Value::Pairs(_) => Kind::Pairs,
        Value::Byte(_) => Kind::Byte,
        Value::YesNo(_) => Kind::YesNo,
        Value::U16(_) => Kind::U16,
        Value::U16s(_) => Kind::U16s,
        Value::U32(_) => Kind::U32,
        Value::I32(_) => Kind::I32,
        Value::Text(_) => Kind::Text,
        Value::Codes(_) => Kind::Codes,
        Value::NodeType(_) => Kind::NodeType,
        Value::MessageType(_) => Kind::MessageType,
        Value::ThreeBytes(_) => Kind::ThreeBytes,
        Value::Flag => Kind::Flag,
        other => panic!("{other:?} has no kind here"),
    };
    (0..=255).filter(|&code| kind_of(code) == kind).collect()
}

#[test]
fn every_code_reads_as_its_kind() {
    let bytes = [0x41, 0x42, 0x43, 0x44, 0x45, 0x46, 0x47, 0x48];
    for code in 1..=254 {
        let length = match kind_of(code) {
            Kind::Address | Kind::U32 | Kind::I32 => 4,
            Kind::Byte | Kind::YesNo | Kind::NodeType | Kind::MessageType => 1,
            Kind::U16 => 2,
            Kind::ThreeBytes => 3,
            Kind::Flag => 0,
            _ => 8,
        };
        let value = read(code, &bytes[..length]).unwrap();
        assert!(codes_like(&value).contains(&code), "code {code} reads as {value:?}");
        if kind_of(code) != Kind::YesNo {
            assert_eq!(read_strict(code, &bytes[..length]), Ok(value));
        }
    }
}

#[test]
fn single_values() {
    assert_eq!(read(200, &[1, 2]), Ok(Value::Raw(&[1, 2])));
    assert_eq!(read(1, &[255, 255, 255, 0]), Ok(Value::Address(address(255, 255, 255, 0))));
    assert_eq!(read(23, &[200]), Ok(Value::Byte(200)));
    assert_eq!(read(19, &[1]), Ok(Value::YesNo(true)));
    assert_eq!(read(19, &[0]), Ok(Value::YesNo(false)));
    assert_eq!(read(57, &[0xFE, 1]), Ok(Value::U16(0xFE01)));
    assert_eq!(read(51, &[0xFE, 1, 2, 3]), Ok(Value::U32(0xFE01_0203)));
    assert_eq!(read(2, &[255, 255, 255, 255]), Ok(Value::I32(-1)));
    assert_eq!(read(2, &[128, 0, 0, 0]), Ok(Value::I32(i32::MIN)));
    assert_eq!(read(2, &[127, 255, 255, 255]), Ok(Value::I32(i32::MAX)));
    assert_eq!(read(12, "hôte".as_bytes()), Ok(Value::Text("hôte")));
    assert_eq!(read(12, &[]), Ok(Value::Text("")));
    assert_eq!(read(55, &[1, 0, 255]), Ok(Value::Codes(&[1, 0, 255])));
    assert_eq!(read(53, &[5]), Ok(Value::MessageType(5)));
    assert_eq!(read(94, &[1, 2, 0xFE]), Ok(Value::ThreeBytes([1, 2, 0xFE])));
    assert_eq!(read(80, &[]), Ok(Value::Flag));
}

#[test]
fn node_types() {
    let named = [(1, NodeType::B), (2, NodeType::P), (4, NodeType::M), (8, NodeType::H), (3, NodeType::Unknown(3))];
    for (byte, node) in named {
        assert_eq!(read(46, &[byte]), Ok(Value::NodeType(node)));
        assert_eq!((NodeType::from(byte), u8::from(node)), (node, byte));
    }
}

#[test]
fn plain_and_strict_part() {
    assert_eq!(
        (read(51, &[0, 0, 0, 9, 7]), read_strict(51, &[0, 0, 0, 9, 7])),
        (Ok(Value::U32(9)), Err(Refusal::WrongLength))
    );
    assert_eq!((read(80, &[7]), read_strict(80, &[7])), (Ok(Value::Flag), Err(Refusal::WrongLength)));
    assert_eq!((read(20, &[2]), read_strict(20, &[2])), (Ok(Value::YesNo(false)), Err(Refusal::UnclearYesNo)));
}

/// The codes whose lists and texts have an element at least in strict mode: by RFC 2132, by RFC 4280 and 4388 (89 and
/// 92), and 62, 100, 101 and 114 by document 02, ticket 3, alone. 68 is none of them.
const SOME_ELEMENT: [u8; 43] = [
    3, 4, 5, 6, 7, 8, 9, 10, 11, 12, 14, 15, 17, 18, 21, 25, 33, 40, 41, 42, 44, 45, 47, 48, 49, 55, 56, 62, 64, 65,
    69, 70, 71, 72, 73, 74, 75, 76, 89, 92, 100, 101, 114,
];

#[test]
fn an_empty_list_or_text_is_refused_strictly() {
    for code in 0..=255 {
        let (plain, strict) = (read(code, &[]), read_strict(code, &[]));
        if SOME_ELEMENT.contains(&code) {
            assert!(plain.is_ok(), "code {code}");
            assert_eq!(strict, Err(Refusal::WrongLength), "code {code}");
        } else {
            assert_eq!(strict, plain, "code {code}");
        }
    }
    assert!(matches!(read_strict(68, &[]), Ok(Value::Addresses(agents)) if agents.is_empty()));
    assert_eq!((read_strict(68, &[1]), read_strict(61, &[])), (Err(Refusal::WrongLength), Ok(Value::Raw(&[]))));
}

#[test]
fn refusals() {
    let long = vec![b'a'; 65_536];
    for reading in [read, read_strict] {
        assert_eq!((reading(0, &[]), reading(255, &[1])), (Err(Refusal::NoSuchCode), Err(Refusal::NoSuchCode)));
        assert_eq!(reading(1, &[1, 2, 3]), Err(Refusal::WrongLength));
        assert_eq!(reading(3, &[1, 2, 3, 4, 5]), Err(Refusal::WrongLength));
        assert_eq!(reading(12, &[0xED, 0xA0, 0x80]), Err(Refusal::NotUtf8));
        assert_eq!(reading(200, &long), Err(Refusal::TooLong));
        assert_eq!(reading(12, &long), Err(Refusal::TooLong));
        assert!(matches!(reading(12, &long[1..]), Ok(Value::Text(text)) if text.len() == 65_535));
    }
}

/// What a list gives, asked in every way.
fn all_of<E: Element + PartialEq + std::fmt::Debug>(list: List<'_, E>) -> Vec<E> {
    let elements: Elements<'_, E> = list.iter();
    assert_eq!((elements.len(), list.is_empty()), (list.len(), list.len() == 0));
    let all: Vec<E> = elements.collect();
    assert_eq!(all.len(), list.len());
    assert_eq!((0..list.len()).map(|index| list.get(index)).collect::<Result<Vec<E>, _>>().as_ref(), Ok(&all));
    assert_eq!((list.get(list.len()), list.get(usize::MAX)), (Err(Refusal::PastEnd), Err(Refusal::PastEnd)));
    assert_eq!(
        (list.into_iter().collect::<Vec<_>>(), (&list).into_iter().collect::<Vec<_>>()),
        (all.clone(), all.clone())
    );
    all
}

#[test]
fn lists_give_their_elements() {
    let bytes = [1, 2, 3, 4, 5, 6, 7, 8, 9, 10, 11, 12, 13, 14, 15, 16];
    let Ok(Value::Addresses(list)) = read(6, &bytes[..12]) else { panic!("6 is a list of addresses") };
    assert_eq!(all_of(list), [address(1, 2, 3, 4), address(5, 6, 7, 8), address(9, 10, 11, 12)]);
    let Ok(Value::Pairs(list)) = read_strict(33, &bytes) else { panic!("33 is a list of pairs") };
    let first = (address(1, 2, 3, 4), address(5, 6, 7, 8));
    assert_eq!(all_of(list), [first, (address(9, 10, 11, 12), address(13, 14, 15, 16))]);
    let Ok(Value::U16s(list)) = read(25, &bytes[..4]) else { panic!("25 is a list of numbers") };
    assert_eq!(all_of(list), [0x0102, 0x0304]);
    let Ok(Value::U16s(list)) = read(25, &[]) else { panic!("an empty list is one too") };
    assert_eq!(all_of(list), []);
}

#[test]
fn lists_are_alike_where_their_elements_are() {
    let bytes = [1, 2, 3, 4, 5, 6, 7, 8];
    assert_eq!(read(3, &bytes), read(6, &bytes));
    assert_ne!(read(3, &bytes), read(3, &bytes[..4]));
    assert_ne!(read(3, &bytes), read(33, &bytes));
}
