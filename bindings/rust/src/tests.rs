use crate::*;

fn requestor() -> Requestor {
    Requestor::default()
}

/// As from a stored list, which may have all that a new entry may be.
fn parse(tag: impl AsRef<[u8]>) -> Result<Address, Refused> {
    parse_tag(tag, Reading::Stored)
}

fn read(tag: &str) -> Result<Vec<u8>, Refused> {
    let mut out = [0; REQUEST_ROOM];
    Ok(read_request(tag, Reading::Stored, requestor(), 0, &mut out)?.message.to_vec())
}

fn write(tag: &str, value: WriteValue) -> Result<Vec<u8>, Refused> {
    let mut out = [0; WRITE_ROOM];
    Ok(write_request(tag, Reading::Stored, value, requestor(), 0, &mut out)?.message.to_vec())
}

/// A command from the function byte on, behind the default requester's id, 0F 00 and sequence 0.
fn command(function: &[u8]) -> Vec<u8> {
    [&[7, 9, 0x10, 9, 0x10, 0x19, 0x71, 0x0F, 0, 0, 0], function].concat()
}

fn ask(processor: &mut Processor, command: &[u8]) -> Result<Vec<u8>, Refused> {
    let mut reply = [0; REPLY_ROOM];
    Ok(processor.pccc(command, &mut reply)?.to_vec())
}

fn file(number: u32, file_type: FileType, elements: u32) -> File {
    File { number, file_type, elements }
}

fn at(number: u16, file_type: FileType, element: usize) -> Spot {
    Spot { number, file_type, element }
}

fn default_processor() -> Processor {
    Processor::new(&[], b"1747-L552", &[]).unwrap()
}

const W1: [u8; 23] = [0x4B, 2, 0x20, 0x67, 0x24, 1, 7, 9, 0x10, 9, 0x10, 0x19, 0x71, 0x0F, 0, 0x34, 0x12, 0xA2, 2, 7, 0x89, 0, 0];
const BAD: [u8; 12] = [7, 9, 0x10, 9, 0x10, 0x19, 0x71, 0x4F, 0xF0, 0, 0, 6];

#[test]
fn refusals_have_numbers_and_questions() {
    let numbers: Vec<u8> = Refused::ALL.iter().map(|r| r.number()).collect();
    assert_eq!(numbers, Vec::from_iter((1..=26).chain([39])));
    assert!(Refused::ALL.iter().all(|&r| Refused::try_from(r.number()) == Ok(r)));
    assert_eq!([0, 27, 38, 40, 255].map(Refused::try_from), [0, 27, 38, 40, 255].map(|n| Err(UnknownNumber(n))));
    assert_eq!(UnknownNumber(27).to_string(), "no refusal has the number 27");
    assert_eq!(Refused::Unsound.question().as_str(), "Is the processor sound?");
    assert_eq!(Refused::TagBytes.question().as_str(), "Is the tag at most 255 bytes and well-formed UTF-8?");
    assert!(Refused::ALL.iter().all(|r| r.question().as_str().ends_with('?')));
    assert_eq!(
        format!("{:?} {:>6}", Refused::Number.question(), Refused::RowSize.question()),
        "\"Is the number in range?\" Is the row size not 0?"
    );
    assert_eq!(Refused::Offset.to_string(), "refused 26: Is the offset at most 65,535? No.");
    assert_eq!(
        Refused::Separator.to_string(),
        "refused 39: Is a timer's or counter's separator in a new entry a full stop or a slash? No."
    );
}

#[test]
fn every_code_has_the_type_that_the_library_knows() {
    let known: Vec<FileType> = (0..=255).filter_map(FileType::from_code).collect();
    assert_eq!(known, FileType::ALL);
    for t in FileType::ALL {
        assert_eq!(FileType::from_name(t.name().as_bytes()), Some(t));
    }
    for code in 0..=255 {
        assert_eq!(FileType::try_from(code).ok(), FileType::from_code(code));
    }
    assert_eq!(FileType::try_from(0x81), Err(UnknownCode(0x81)));
    assert_eq!(UnknownCode(0x81).to_string(), "no file type has the code 81");
    assert_eq!(FileType::from_name(b"n"), None);
    assert_eq!(FileType::from_name(b""), None);
}

#[test]
fn types_have_sizes_and_names() {
    let sizes: Vec<usize> = FileType::ALL.iter().map(|t| t.element_size()).collect();
    assert_eq!(sizes, [2, 2, 2, 2, 6, 6, 6, 2, 4, 84, 2, 4, 50, 46, 12]);
    assert_eq!(FileType::ALL.iter().filter(|t| t.simulated()).count(), 12);
    assert_eq!(format!("{} {:?} {:>4}", FileType::PLS, FileType::ST.name(), FileType::N), "PLS \"ST\"    N");
}

#[test]
fn fields_have_names() {
    let r = FileType::R;
    let bits: Vec<String> = (0..r.bits()).map(|i| r.bit_name(i).to_string()).collect();
    assert_eq!(bits, ["EN", "EU", "DN", "EM", "ER", "UL", "IN", "FD"]);
    assert_eq!((r.word_name(0).as_str(), r.word_name(1).as_str(), r.word_name(2).as_str()), ("LEN", "POS", ""));
    assert_eq!(r.field(b"pos"), Some(Field::Word(2)));
    assert_eq!(r.field(b"Fd"), Some(Field::Bit(8)));
    assert_eq!(FileType::T.field(b"EN"), Some(Field::Bit(15)));
    assert_eq!(FileType::N.field(b"EN"), None);
}

#[test]
fn text() {
    let mut out = [0xEE; 84];
    assert_eq!(string_swap(b"abc", &mut out), Ok(&b"ba\0c"[..]));
    assert_eq!(out[4], 0xEE);
    assert_eq!(string_swap(b"abc", &mut out[..3]), Err(Refused::OutputRoom));
    assert_eq!(string_swap(b"", &mut []), Ok(&b""[..]));
    let mut bytes = *b"abc";
    swap_pairs(&mut bytes);
    assert_eq!(&bytes, b"bac");
    swap_pairs(&mut []);
    assert_eq!(encode_ascii(b"x", &mut out), Ok(&b" x"[..]));
    assert_eq!(encode_ascii(b"x", &mut out[..1]), Err(Refused::OutputRoom));
    let st = encode_string(b"abc", &mut out).unwrap();
    assert_eq!((st.len(), &st[..7]), (84, &b"\x03\0ba\0c\0"[..]));
    assert_eq!(encode_string(b"abc", &mut [0; 83]), Err(Refused::OutputRoom));
}

#[test]
fn elements() {
    let mut none = [0; 0];
    let mut word = [0xEE; 3];
    assert_eq!(encode_element(FileType::N, Value::Whole(-2), &mut word), Ok(()));
    assert_eq!(word, [0xFE, 0xFF, 0xEE]);
    assert_eq!(decode_element(FileType::N, &word, &mut none), Ok(Element::Whole(-2)));
    assert_eq!(encode_element(FileType::N, Value::Whole(65536), &mut word), Err(Refused::Number));
    assert_eq!(encode_element(FileType::N, Value::Text(b"a"), &mut word), Err(Refused::Kind));
    assert_eq!(encode_element(FileType::L, Value::Whole(1), &mut word), Err(Refused::NoElement));
    assert_eq!(encode_element(FileType::MG, Value::Whole(1), &mut [0; 50]), Err(Refused::Kind));
    assert_eq!(word, [0xFE, 0xFF, 0xEE]);

    let mut long = [0; 4];
    let bits = (-1.5f32).to_bits();
    assert_eq!(encode_element(FileType::F, Value::Float(bits), &mut long), Ok(()));
    assert_eq!(decode_element(FileType::F, &long, &mut none), Ok(Element::Float(bits)));
    assert_eq!(encode_element(FileType::L, Value::Whole(-70_000), &mut long), Ok(()));
    assert_eq!(decode_element(FileType::L, &long, &mut none), Ok(Element::Whole(-70_000)));

    let mut timer = [0; 6];
    assert_eq!(encode_element(FileType::T, Value::Words(1, 500, -3), &mut timer), Ok(()));
    assert_eq!(encode_element(FileType::T, Value::Field(b"en", 1), &mut timer), Ok(()));
    assert_eq!(timer, [1, 0x80, 0xF4, 1, 0xFD, 0xFF]);
    assert_eq!(decode_element(FileType::T, &timer, &mut none), Ok(Element::Fields { word1: 500, word2: -3, status: 0x8000 }));
    assert_eq!(encode_element(FileType::T, Value::Field(b"XX", 1), &mut timer), Err(Refused::Field));
    assert_eq!(encode_element(FileType::T, Value::Words(0, 99_999, 0), &mut timer), Err(Refused::Number));

    let mut line = [0; 84];
    let mut text = [0; TEXT_ROOM];
    assert_eq!(encode_element(FileType::ST, Value::Text(b"robusta"), &mut line), Ok(()));
    assert_eq!(decode_element(FileType::ST, &line, &mut text), Ok(Element::Text(b"robusta")));
    assert_eq!(decode_element(FileType::ST, &line, &mut text[..81]), Err(Refused::TextRoom));
    assert_eq!(encode_element(FileType::ST, Value::Text(&[b'x'; 83]), &mut line), Err(Refused::TextLength));
}

#[test]
fn floats_keep_their_bits() {
    let mut processor = default_processor();
    let f8 = at(8, FileType::F, 0);
    for bits in [0x3DCC_CCCD, 0x8000_0000, 0x7F80_0001, 0xFFC1_2345, u32::MAX] {
        processor.set(f8, f32::from_bits(bits).into()).unwrap();
        let read = processor.read(f8, &mut []).unwrap();
        assert_eq!((read, read.float().map(f32::to_bits)), (Element::Float(bits), Some(bits)));
    }
    processor.set(f8, 0.1.into()).unwrap();
    assert_eq!(processor.read(f8, &mut []).unwrap().float(), Some(0.1));
    assert_eq!(Element::Whole(1).float(), None);
}

#[test]
fn a_clone_is_independent_and_threads_may_have_it() {
    fn sent<T: Send + Sync>(value: T) -> T {
        value
    }
    let mut first = sent(default_processor());
    let second = first.clone();
    first.set(at(7, FileType::N, 0), Value::Whole(1)).unwrap();
    assert_eq!((first.data().iter().sum::<u8>(), second.data().iter().sum::<u8>()), (1, 0));
}

#[test]
fn w1_to_w6() {
    let mut out = [0xEE; 30];
    let w1 = read_request(b"N7:0", Reading::New, requestor(), 0x1234, &mut out).unwrap();
    assert_eq!(w1.message, W1);
    assert_eq!(w1.address, parse(b"n7:0").unwrap());
    assert_eq!(out[23..], [0xEE; 7]);

    let w2 = parse(b"T4:123PRE").unwrap();
    assert_eq!((w2.file_type, w2.file_number, w2.element_number, w2.sub_element, w2.bit), (FileType::T, 4, 12, Some(1), true));
    assert_eq!((w2.position, w2.element_count, w2.kept), (None, 1, 9));
    assert_eq!(read("I99:3.300/5").unwrap()[18..], [2, 1, 0x83, 3, 0xFF, 0x2C, 1]);
    assert_eq!(read("B3/4095").unwrap()[19..], [3, 0x85, 0xFF, 0xFF, 0, 0]);
    assert_eq!((read("N7:0{0}").unwrap()[18], read("N7:0{127}").unwrap()[18]), (0, 254));
    assert_eq!(parse(b"N7:0{99999999999999999999}").unwrap().element_count, u64::MAX);
    let refused =
        ["N7:0{128}", "ST9:0{3}", "N7:0/3{2}", "", "X7:0", &"N".repeat(256), "N7:\u{e9}"].map(|tag| read(tag).unwrap_err().number());
    assert_eq!(refused, [5, 2, 3, 2, 2, 1, 2]);
    assert_eq!(read_request(b"N7:0", Reading::New, requestor(), 0, &mut out[..26]), Err(Refused::OutputRoom));
}

/// Tags that only a stored list may have, and their dotted texts: separators that are a digit, a letter, a sign, and of one to four bytes.
const RETIRED: [(&str, &str); 12] = [
    ("T4:123PRE", "T4:12.PRE"),
    ("t4:12PRE", "t4:1.PRE"),
    ("T4:1:ACC", "T4:1.ACC"),
    ("C5:255{DN", "C5:255.DN"),
    ("C5:0\0CU", "C5:0.CU"),
    ("c005:007 ov", "c005:007.ov"),
    ("T4:1XEN", "T4:1.EN"),
    ("T4:1\u{7F}TT", "T4:1.TT"),
    ("T4:1éPRE", "T4:1.PRE"),
    ("T4:1€ACC", "T4:1.ACC"),
    ("C5:12\u{1F600}UN", "C5:12.UN"),
    ("C5:1\u{10FFFF}UA", "C5:1.UA"),
];

#[test]
fn a_new_entry_has_no_odd_separator() {
    for (tag, plain) in RETIRED {
        let stored = parse(tag).unwrap();
        assert_eq!(parse_tag(tag, Reading::New), Err(Refused::Separator), "{tag}");
        // 39 comes before 4, 5 and 6
        assert_eq!(read_request(tag, Reading::New, requestor(), 0, &mut []), Err(Refused::Separator), "{tag}");
        for value in [WriteValue::Text(b"a"), WriteValue::Raw(b"1"), WriteValue::Raw(b"1234")] {
            assert_eq!(write_request(tag, Reading::New, value, requestor(), 0, &mut []), Err(Refused::Separator), "{tag}");
        }
        assert_eq!(parse_tag(plain, Reading::New), Ok(Address { kept: plain.len(), ..stored }), "{tag}");
        assert_eq!((read(tag).is_ok(), read(tag)), (true, read(plain)), "{tag}");
    }
}

#[test]
fn all_else_is_read_alike() {
    let accepted = ["T4:12.PRE", "T4:12/PRE", "c5:0/dn", "C5:255.UA", "N7:0", "F8:1/3", "B3/4095", "ı:3.300/5", "ſ:1/15", "ST9:0{2}"];
    let refused =
        ["", "X7:0", "T4:1", "T4:1PRE", "T4:1..PRE", "T4:1.é", "T4:1\nPRE", "R6:0.EN", "N7:0/3{2}", "N7:0{128}", &"N".repeat(256)];
    for (tag, good) in accepted.map(|tag| (tag, true)).into_iter().chain(refused.map(|tag| (tag, false))) {
        let mut out = [0; REQUEST_ROOM];
        let new = read_request(tag, Reading::New, requestor(), 0, &mut out).map(|r| r.message.to_vec());
        assert_eq!((new.is_ok(), new), (good, read(tag)), "{tag}");
        assert_eq!(parse_tag(tag, Reading::New), parse(tag), "{tag}");
        let mut out = [0; WRITE_ROOM];
        let new = write_request(tag, Reading::New, WriteValue::Raw(b"1234"), requestor(), 0, &mut out).map(|r| r.message.to_vec());
        assert_eq!(new, write(tag, WriteValue::Raw(b"1234")), "{tag}");
    }
    // 1 and 2 come before 39
    assert_eq!(parse_tag(b"T4:123\xFFPRE", Reading::New), Err(Refused::TagBytes));
    assert_eq!(parse_tag("T4:123\u{E9}PRE", Reading::New), Err(Refused::Separator));
    assert_eq!(parse_tag("T4:256\u{E9}PRE", Reading::New), Err(Refused::Tag));
}

#[test]
fn dotted_texts() {
    let plain = ["T4:12.PRE", "N7:0", "N7:0{02}", "ı:3.300/5{2}", "B3/4095"].map(|tag| (tag, tag));
    for (tag, text) in RETIRED.into_iter().chain([("T4:12/PRE", "T4:12.PRE"), ("c5:0/dn", "c5:0.dn")]).chain(plain) {
        let mut out = [0xEE; DOTTED_ROOM + 5];
        assert_eq!(dotted(tag, &mut out), Ok(text), "{tag}");
        assert!(out[text.len()..].iter().all(|&b| b == 0xEE), "{tag}");
        assert_eq!(parse_tag(text, Reading::New).map(|a| a.element_number), parse(tag).map(|a| a.element_number), "{tag}");
    }
    let longest = format!("N7:0{{{}}}", "0".repeat(249));
    assert_eq!((longest.len(), dotted(&longest, &mut [0; DOTTED_ROOM])), (255, Ok(&longest[..])));

    let mut out = [0xEE; DOTTED_ROOM - 1];
    for (tag, refused) in [("T4:123PRE", Refused::OutputRoom), ("N7:0", Refused::OutputRoom), ("T4:123", Refused::Tag), ("", Refused::Tag)]
    {
        assert_eq!((dotted(tag, &mut []), dotted(tag, &mut out)), (Err(refused), Err(refused)), "{tag}");
        assert_eq!(out, [0xEE; DOTTED_ROOM - 1], "{tag}");
    }
    for tag in [b"T4:1\xE9PRE".to_vec(), vec![b'N'; 256]] {
        assert_eq!(dotted(tag, &mut out), Err(Refused::TagBytes));
        assert_eq!(out, [0xEE; DOTTED_ROOM - 1]);
    }

    // the text borrows the output alone, and is a tag again
    let mut out = [0; DOTTED_ROOM];
    let text = {
        let tag = String::from("T4:1éPRE");
        dotted(&tag, &mut out).unwrap()
    };
    assert_eq!(dotted(text, &mut [0; DOTTED_ROOM]), Ok("T4:1.PRE"));
}

/// The address that a tag spells, with the length of what is kept apart.
fn spelled(tag: &str) -> (Address, usize) {
    let address = parse(tag).unwrap();
    (Address { kept: 0, ..address }, address.kept)
}

#[test]
fn letters_and_separators_past_ascii() {
    for (tag, plain, kept) in [
        ("ı:0", "I:0", 4),
        ("ı7:0", "I7:0", 5),
        ("ı:3.300/5", "I:3.300/5", 10),
        ("ſ:4{2}", "S:4{2}", 4),
        ("ſt9:0", "ST9:0", 6),
        ("T4:1éPRE", "T4:1.PRE", 9),
        ("c5:12\u{1F600}dn", "C5:12.DN", 11),
    ] {
        assert_eq!(spelled(tag), (spelled(plain).0, kept), "{tag}");
        assert_eq!(read(tag), read(plain), "{tag}");
        assert!(read(tag).is_ok(), "{tag}");
    }
    let i = spelled("ı:0").0;
    assert_eq!((i.file_type, i.file_number, i.element_number, i.position, i.sub_element), (FileType::I, 1, 0, Some(0), Some(0)));
    let st = spelled("ſt9:0").0;
    assert_eq!((st.file_type, st.file_number, st.element_number, st.position, st.sub_element), (FileType::ST, 9, 0, None, None));
    let t = spelled("T4:1éPRE").0;
    assert_eq!((t.file_type, t.file_number, t.element_number, t.position, t.sub_element), (FileType::T, 4, 1, None, Some(1)));
    assert_eq!(read("ı:0").unwrap()[17..], [0xA2, 2, 1, 0x83, 0, 0]);

    // the first and the last character of each length, and the neighbours of the surrogates
    for separator in
        ["\0", "\r", "\u{7F}", "\u{80}", "\u{7FF}", "\u{800}", "\u{D7FF}", "\u{E000}", "\u{FFFF}", "\u{10000}", "\u{10FFFF}", "\u{2028}"]
    {
        assert_eq!(spelled(&format!("T4:1{separator}PRE")), (t, 7 + separator.len()));
    }
    // a newline, none, two characters (é as e and an accent)
    for separator in ["\n", "", "éé", ".é", "e\u{301}"] {
        assert_eq!(parse(format!("T4:1{separator}PRE")), Err(Refused::Tag));
    }
    // a capital I with a dot; a ligature of s and t; a byte order mark; a wide letter and sign; an Arabic digit
    let others = ["\u{130}:0", "\u{FB06}9:0", "\u{FEFF}N7:0", "\u{FF2E}7:0", "N7\u{FF1A}0", "N\u{667}:0"];
    for tag in ["N7:ı", "Nı:0", "N7:é", "T4:1.PRÉ", "sſ:0", "ı"].into_iter().chain(others) {
        assert_eq!(parse(tag), Err(Refused::Tag), "{tag}");
    }
}

#[test]
fn tags_that_are_not_well_formed() {
    // no beginning of a character, or one that is cut; more bytes than the character needs; surrogates, and above U+10FFFF
    let cut: [&[u8]; 5] = [b"\x80", b"\xFF", b"\xC4", b"\xE2\x82", b"\xF0\x9F\x98"];
    let too_long: [&[u8]; 3] = [b"\xC0\xAF", b"\xE0\x9F\xBF", b"\xF0\x8F\xBF\xBF"];
    let no_character: [&[u8]; 4] = [b"\xED\xA0\x80", b"\xED\xBF\xBF", b"\xF4\x90\x80\x80", b"\xF5\x80\x80\x80"];
    for bad in [&cut[..], &too_long, &no_character].concat() {
        assert!(std::str::from_utf8(bad).is_err());
        // alone, as a separator, at the end
        for tag in [bad.to_vec(), [b"T4:1", bad, b"PRE"].concat(), [b"N7:0", bad].concat()] {
            for reading in [Reading::New, Reading::Stored] {
                assert_eq!(parse_tag(&tag, reading), Err(Refused::TagBytes), "{tag:02X?}");
                assert_eq!(read_request(&tag, reading, requestor(), 0, &mut [0; REQUEST_ROOM]), Err(Refused::TagBytes));
                let raw = WriteValue::Raw(&[1, 2]);
                assert_eq!(write_request(&tag, reading, raw, requestor(), 0, &mut [0; WRITE_ROOM]), Err(Refused::TagBytes));
            }
            assert_eq!(dotted(&tag, &mut [0; DOTTED_ROOM]), Err(Refused::TagBytes));
        }
    }
    // bytes count, not characters
    let counted = |zeros| format!("ı:0{{{}1}}", "0".repeat(zeros));
    assert_eq!((counted(248).len(), counted(249).chars().count()), (255, 255));
    assert_eq!(spelled(&counted(248)), (spelled("I:0").0, 4));
    assert_eq!(parse(counted(249)), Err(Refused::TagBytes));
    // 255 bytes that end with a character, and inside one
    let ended = ["N".repeat(253).as_bytes(), "é".as_bytes()].concat();
    assert_eq!(parse(&ended), Err(Refused::Tag));
    assert_eq!(parse(["N".as_bytes(), &ended[..254]].concat()), Err(Refused::TagBytes));
}

#[test]
fn a_tag_is_text_or_bytes() {
    let (text, bytes) = (String::from("T4:1éPRE"), "T4:1éPRE".as_bytes().to_vec());
    let address = parse("T4:1éPRE").unwrap();
    assert_eq!([parse(&text), parse(&bytes), parse(&bytes[..]), parse(b"T4:1\xC3\xA9PRE")], [Ok(address); 4]);
    assert_eq!(parse(text.chars().map(|c| c as u8).collect::<Vec<u8>>()), Err(Refused::TagBytes));

    // a request borrows the output alone; its text is Latin-1
    let mut out = [0; WRITE_ROOM];
    let built = {
        let tag = String::from("ſt9:0");
        write_request(&tag, Reading::New, WriteValue::Text(b"\xE9"), requestor(), 0, &mut out).unwrap()
    };
    assert_eq!(built.message[17..29], [0xAB, 84, 9, 0x8D, 0, 0, 0xFF, 0xFF, 1, 0, 0, 0xE9]);
    assert_eq!(built.message, write("ST9:0", WriteValue::Text(b"\xE9")).unwrap());
    let mut out = [0; REQUEST_ROOM];
    let built = {
        let tag = "ſt9:0".as_bytes().to_vec();
        read_request(&tag, Reading::New, requestor(), 0, &mut out).unwrap()
    };
    assert_eq!(built.message[17..], [0xA2, 84, 9, 0x8D, 0, 0]);
}

#[test]
fn w7_and_w8() {
    assert_eq!(write("N7:0/3", WriteValue::Bool(true)).unwrap()[23..], [8, 0, 8, 0]);
    assert_eq!(write("N7:0/3", WriteValue::Bool(false)).unwrap()[23..], [8, 0, 0, 0]);
    let w8 = write("ST9:0", WriteValue::Text(b"abc")).unwrap();
    assert_eq!(w8[23..31], [0xFF, 0xFF, 3, 0, 0x62, 0x61, 0, 0x63]);
    assert_eq!(write("N7:0", WriteValue::Raw(&[0xFF, 0xFF, 1, 2])).unwrap()[17..], [0xAB, 2, 7, 0x89, 0, 0, 0xFF, 0xFF, 1, 2]);
    assert_eq!(write("N7:0", WriteValue::Bool(true)), Err(Refused::Value));
    assert_eq!(write("T4:0.PRE", WriteValue::Bool(true)), Err(Refused::Value));
    assert_eq!(write("N7:0", WriteValue::Raw(&[1])), Err(Refused::Size));
    assert_eq!(write("N7:0/3{2}", WriteValue::Raw(&[1, 2])), Err(Refused::BitCount));
    assert_eq!(write_request(b"N7:0/3", Reading::New, WriteValue::Bool(true), requestor(), 0, &mut [0; 283]), Err(Refused::OutputRoom));
}

#[test]
fn other_requests() {
    let mut out = [0; REQUEST_ROOM];
    let q = Requestor { vid: [1, 2], vsn: [3, 4, 5, 6] };
    assert_eq!(requestor(), Requestor { vid: [9, 0x10], vsn: [9, 0x10, 0x19, 0x71] });
    let head = [0x4B, 2, 0x20, 0x67, 0x24, 1, 7, 1, 2, 3, 4, 5, 6];
    let message = processor_type_request(q, 0x0102, &mut out).unwrap();
    assert_eq!((&message[..13], &message[13..]), (&head[..], &[6, 0, 2, 1, 3][..]));
    assert_eq!(datalog_request(3, &mut out).unwrap().len(), 23);
    assert_eq!(datalog_request(3, &mut out[..26]), Err(Refused::OutputRoom));

    let info = sys0_info(b"1766-L32BXB");
    assert_eq!((info.file_position, info.row_size, info.file_type, info.size_element), (233, 10, 3, 0x2B));
    assert_eq!((info.size_len, info.size_const), (8, 19968));
    assert_eq!(file_directory_size_request(info, q, 0, &mut out).unwrap()[17..], [0xA1, 8, 0, 3, 0x2B]);
    assert_eq!(file_directory_read_request(3, 65_536, 80, q, 0, &mut out[..1]), Err(Refused::Offset));
    assert_eq!(file_directory_read_request(3, 65_535, 80, q, 0, &mut out[..1]), Err(Refused::OutputRoom));
    assert!(file_directory_read_request(3, 65_535, 80, q, 0, &mut out).is_ok());
}

#[test]
fn replies() {
    let mut raw = [0; 64];
    let mut out = [0; STATUS_ROOM];
    assert_eq!(request_status(&raw, &mut []), Ok(None));
    raw[58] = 0xF0;
    raw[61] = 6;
    assert_eq!(request_status(&raw, &mut out), Ok(Some("Error code in EXT STS Byte (EXT STS 0x06)")));
    assert_eq!(request_status(&raw, &mut out[..95]), Err(Refused::OutputRoom));
    assert_eq!(request_status(&[], &mut out), Ok(Some("Unknown Status")));
    assert_eq!(error_text(0x70, &mut out), Ok(Some("Processor is in Program mode")));
    assert_eq!(error_text(0x11, &mut out), Ok(None));
    assert_eq!(parse_datalog(&raw), [6, 0, 0]);
    assert_eq!(parse_datalog(&raw[..61]), []);
    assert_eq!(parse_datalog(&[]), []);
}

/// The replies of a processor to the command behind an id of so many bytes, which counts itself.
fn replies_by_id(function: &[u8], status: u8, datalog: &[&[u8]]) -> Vec<Vec<u8>> {
    let of = |length: u8| {
        let mut processor = Processor::new(&[], b"1747-L552", datalog).unwrap();
        let id = Vec::from_iter((0..length).map(|i| length - i));
        let reply = ask(&mut processor, &[&id[..], &[0x0F, 0, 0, 0], function].concat()).unwrap();
        assert_eq!(reply[usize::from(length) + 1], status);
        reply
    };
    [7, 1, 2, 8, 255].map(of).to_vec()
}

#[test]
fn replies_from_the_id_on() {
    let mut out = [0; STATUS_ROOM];
    let info = sys0_info(b"1747-L552");
    let bad = "Error code in EXT STS Byte (EXT STS 0x06)";
    for reply in replies_by_id(&[0xA2, 2, 7, 0x89, 100, 0], 0xF0, &[]) {
        assert_eq!(reply_status(&reply, &mut out), Ok(Some(bad)));
        assert_eq!(reply_status(&reply, &mut out[..95]), Err(Refused::OutputRoom));
        assert_eq!(reply_directory_size(&reply, info), Err(Refused::ReplyLength));
    }
    for reply in replies_by_id(&[0xA2, 0x6D, 0, 0xA5, 0, 0], 0, &[b"ABC"]) {
        assert_eq!((reply_status(&reply, &mut []), reply_datalog(&reply)), (Ok(None), &b"ABC"[..]));
    }
    for reply in replies_by_id(&[0xA1, 2, 0, info.file_type, info.size_element], 0, &[]) {
        assert_eq!(reply_directory_size(&reply, info), Ok(0xA9));
    }
    assert_eq!(reply_status(&[], &mut out), Ok(Some("Unknown Status")));
    assert_eq!((reply_datalog(&[]), reply_datalog(&[9, 1])), (&[][..], &[][..]));
}

#[test]
fn raw_replies_are_those_behind_50_bytes() {
    let info = sys0_info(b"1766");
    for status in 0..=255 {
        let whole = [7, 9, 0x10, 9, 0x10, 0x19, 0x71, 0x4F, status, 1, 2, status ^ 0xFF, 4, 5];
        for reply in (8..=whole.len()).map(|n| &whole[..n]) {
            let raw = [&[0xEE; 50], reply].concat();
            let (mut one, mut other) = ([0; STATUS_ROOM], [0; STATUS_ROOM]);
            assert_eq!(reply_status(reply, &mut one), request_status(&raw, &mut other));
            assert_eq!(reply_datalog(reply), parse_datalog(&raw));
            assert_eq!(reply_directory_size(reply, info), parse_file_directory_size(&raw, info));
        }
    }
}

#[test]
fn directories() {
    let info = sys0_info(b"");
    let mut raw = [0; 63];
    raw[61] = 0xA9;
    assert_eq!(parse_file_directory_size(&raw, info), Ok(0xA9));
    assert_eq!(parse_file_directory_size(&raw, sys0_info(b"1766")), Ok(0xA9 - 19968));
    assert_eq!(parse_file_directory_size(&raw[..62], info), Err(Refused::ReplyLength));

    let rows = [0xEE, 0x82, 4, 0, 0x81, 0, 0, 0x89, 6, 0];
    let mut out = [ListedFile::default(); 2];
    let files = parse_file_directory(1, 3, &rows, &mut out).unwrap();
    assert_eq!(files[1], ListedFile { code: 0x89, number: 2, elements: 3, length: 6 });
    assert_eq!((files.len(), files[0].file_type(), files[0].elements), (2, Some(FileType::O), 2));
    let mut refused = |row_size, bytes: &[u8], room| parse_file_directory(1, row_size, bytes, &mut out[..room]).unwrap_err().number();
    assert_eq!([refused(3, &[0; 65_536], 2), refused(0, &rows, 2), refused(3, &rows[..9], 2), refused(3, &rows, 1)], [7, 8, 9, 10]);
}

#[test]
fn the_default_processor() {
    let mut processor = default_processor();
    let files: Vec<(String, u8, usize)> =
        processor.files().map(|f| (f.file_type.to_string(), f.number, f.length / f.file_type.element_size())).collect();
    let named: Vec<(&str, u8, usize)> = files.iter().map(|(t, n, e)| (t.as_str(), *n, *e)).collect();
    let expected =
        [("O", 0, 8), ("I", 1, 8), ("S", 2, 83), ("B", 3, 32), ("T", 4, 16), ("C", 5, 16), ("R", 6, 8), ("N", 7, 100), ("F", 8, 50)];
    assert_eq!(named, expected);
    assert_eq!(processor.data(), [0; 902]);

    assert_eq!(processor.set(at(7, FileType::N, 0), Value::Whole(0x0F17)), Ok(()));
    let reply = ask(&mut processor, &W1[6..]).unwrap();
    assert_eq!(reply, [7, 9, 0x10, 9, 0x10, 0x19, 0x71, 0x4F, 0, 0x34, 0x12, 0x17, 0x0F]);
    assert_eq!(ask(&mut processor, &command(&[0xA2, 2, 7, 0x89, 100, 0])).unwrap(), BAD);
}

#[test]
fn w9_masked_write() {
    let mut processor = Processor::new(&[file(7, FileType::N, 2)], b"", &[]).unwrap();
    for (element, word) in [0x2211, 0x0033].into_iter().enumerate() {
        processor.set(at(7, FileType::N, element), Value::Whole(word)).unwrap();
    }
    ask(&mut processor, &command(&[0xAB, 3, 7, 0x89, 0, 0, 0xF0, 0x0F, 0xAA, 0xBB, 0xCC])).unwrap();
    assert_eq!(processor.data(), [0xA1, 0x2B, 0xC3, 0]);
}

#[test]
fn w10_directory_size() {
    for (text, size) in [(&b"1766-LEC"[..], [0x43, 0x4F]), (b"1747-L552", [0xA9, 0])] {
        let mut processor = Processor::new(&[], text, &[]).unwrap();
        let info = sys0_info(text);
        let reply = ask(&mut processor, &command(&[0xA1, 2, 0, info.file_type, info.size_element])).unwrap();
        assert_eq!(reply[11..], size);
    }
}

#[test]
fn w11_datalog() {
    let mut processor = Processor::new(&[], b"1747-L552", &[b"ABC", b""]).unwrap();
    assert_eq!(ask(&mut processor, &command(&[0xA2, 0x6D, 0, 0xA5, 0xFF, 0])).unwrap(), BAD);
    let mut out = [0; REQUEST_ROOM];
    let request = datalog_request(0, &mut out).unwrap();
    for (left, entry) in [(1, &b"ABC"[..]), (0, b"")] {
        assert_eq!(&ask(&mut processor, &request[6..]).unwrap()[11..], entry);
        assert_eq!(processor.datalog_left(), left);
    }
    assert_eq!(ask(&mut processor, &request[6..]).unwrap()[8], 0x10);
}

#[test]
fn building_is_refused() {
    let refused = |files: &[File], text: &[u8], log: &[&[u8]]| Processor::new(files, text, log).unwrap_err().number();
    let n = |number, elements| file(number, FileType::N, elements);
    assert_eq!(refused(&[file(7, FileType::PD, 1)], b"", &[]), 11);
    assert_eq!(refused(&[n(256, 1)], b"", &[]), 12);
    assert_eq!(refused(&[n(7, 1), n(7, 1)], b"", &[]), 12);
    assert_eq!(refused(&[], b"123456789012", &[]), 13);
    assert_eq!(refused(&[], &[128], &[]), 13);
    assert_eq!(refused(&[n(7, 32_768)], b"", &[]), 14);
    assert_eq!(refused(&[n(7, u32::MAX)], b"", &[]), 14);
    assert_eq!(refused(&[], b"", &[&[0; 256]]), 15);
    assert_eq!(refused(&[], b"", &[&[0; 65_536 + 3]]), 15);
    assert_eq!(refused(&[], b"", &[&[0][..]; 65]), 15);
    let most: Vec<File> = (0..256).map(|number| n(number, 127)).collect();
    let full = Processor::new(&most, b"12345678901", &[&[0; 255][..]; 64]).unwrap();
    assert_eq!((full.files().count(), full.data().len(), full.datalog_left()), (256, 65_024, 64));
}

#[test]
fn commands_are_refused() {
    let mut processor = default_processor();
    assert_eq!(processor.pccc(&W1[6..], &mut [0; 513]), Err(Refused::ReplyRoom));
    let refused = [&[][..], &[0, 1, 2, 3, 4], &[1, 2, 3, 4]].map(|c| ask(&mut processor, c).unwrap_err().number());
    assert_eq!(refused, [18, 18, 18]);
    assert_eq!(ask(&mut processor, &[1, 2, 3, 4, 5]).unwrap(), [1, 0x42, 0x10, 4, 5]);
}

#[test]
fn elements_of_a_processor() {
    let st = at(9, FileType::ST, 1);
    let mut processor = Processor::new(&[file(9, FileType::ST, 2), file(4, FileType::T, 1)], b"", &[]).unwrap();
    let mut text = [0; TEXT_ROOM];
    assert_eq!(processor.set(st, Value::Text(b"arabica")), Ok(()));
    assert_eq!(processor.read(st, &mut text), Ok(Element::Text(b"arabica")));
    assert_eq!(processor.read(st, &mut text[..81]), Err(Refused::TextRoom));
    assert_eq!(processor.read(at(9, FileType::ST, 2), &mut text), Err(Refused::NoElement));
    assert_eq!(processor.read(at(9, FileType::N, 0), &mut text), Err(Refused::NoElement));
    assert_eq!(processor.set(at(4, FileType::T, 0), Value::Field(b"pre", 500)), Ok(()));
    assert_eq!(processor.read(at(4, FileType::T, 0), &mut []), Ok(Element::Fields { word1: 500, word2: 0, status: 0 }));
    let mut refused = |to, value| processor.set(to, value).unwrap_err().number();
    let timer = at(4, FileType::T, 0);
    assert_eq!(
        [
            refused(at(5, FileType::T, 0), Value::Whole(1)),
            refused(timer, Value::Whole(1)),
            refused(timer, Value::Field(b"X", 1)),
            refused(timer, Value::Field(b"PRE", 40_000)),
            refused(st, Value::Text(&[0; 83]))
        ],
        [19, 20, 21, 22, 23]
    );
}

#[test]
fn tags_cut_anyhow() {
    let input = "N7:0\nN7:0/3{2}\n\nT4:0.PRE\r\nı:0\nT4:1éPRE\nT4:1/PRE\nN7:ı\nB3/4095".as_bytes();
    let whole = |size: usize| {
        let (mut tags, mut out, mut at, mut answers) = (Tags::new(), [0; 5 * TAG_ROOM], 0, Vec::new());
        while at < input.len() {
            let (taken, said) = tags.feed(&input[at..(at + size).min(input.len())], &mut out);
            answers.extend(said);
            at += taken;
        }
        answers.extend(tags.finish(&mut out));
        String::from_utf8(answers).unwrap()
    };
    let expected = "4B0220672401070910091019710F000000A20207890000\nrefused 3\nrefused 2\nrefused 2\n\
                    4B0220672401070910091019710F000000A20201830000\nrefused 39\n4B0220672401070910091019710F000000A20604860100\nrefused 2\n\
                    4B0220672401070910091019710F000000A2020385FFFF0000\n";
    for size in 1..=input.len() {
        assert_eq!(whole(size), expected, "in pieces of {size}");
    }
    assert_eq!(Tags::new().feed(input, &mut [0; 63]), (0, &b""[..]));
    assert_eq!(Tags::default().finish(&mut [0; 64]), b"");
}
