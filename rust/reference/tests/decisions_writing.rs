//! The points that document 01 leaves to be settled, each as it was settled: the writer and the codecs.

mod common;

use common::{filled, header_a, hex};
use reference::*;

const TEXT: &[u8] = b"UTAB00001";
const SIGNATURE: [u8; 56] = [0xAA; 56];

/// The number of a writing in a room for every seal.
fn written(header: Header, text: &[u8], rows: &[usize], values: &[u8], signature: &[u8]) -> usize {
    let answer = filled(4096, |out| write(&header, text, rows, values, signature, out));
    answer.map_or_else(|(number, place)| number + place, |_| 0)
}

fn header_with(change: impl FnOnce(&mut Header)) -> usize {
    let mut header = header_a();
    change(&mut header);
    written(header, TEXT, &[], &[], &SIGNATURE)
}

fn rows(rows: &[usize]) -> usize {
    written(header_a(), TEXT, rows, &[7; 300], &SIGNATURE)
}

#[test]
fn fields_of_the_header() {
    for version in [0, 1, 2, 5, 259, usize::MAX] {
        assert_eq!(header_with(|header| header.version = version), 20);
    }
    for country in [b"D  ", b"<DE", b"D<E", b"UT0", b"uto", b"<<<"] {
        assert_eq!(header_with(|header| header.country = *country), 21);
    }
    assert_eq!(header_with(|header| header.country = *b"D<<"), 0);
    for length in [0, 4, 6, 261, usize::MAX] {
        assert_eq!(header_with(|header| header.length = length), 21);
    }
    let february = Date { month: 2, day: 30, year: 2000 };
    for date in
        [february, Date { day: 32, ..Date::FIRST }, Date { year: 0, ..Date::FIRST }, Date { month: 13, ..Date::FIRST }]
    {
        assert_eq!(header_with(|header| header.issued_on = date), 22);
        assert_eq!(header_with(|header| header.signed_on = date), 22);
    }
    for number in [0, 255, 256, 257, usize::MAX] {
        assert_eq!(header_with(|header| header.definition = number), 23);
        assert_eq!(header_with(|header| header.category = number), 23);
    }
    assert_eq!(header_with(|header| (header.definition, header.category) = (254, 1)), 0);
}

#[test]
fn text_is_exactly_signer_and_reference() {
    for text in
        [&b""[..], b"UTA", b"UTAB", b"UTAB0000", b"UTAB000011", b"U1AB00001", b"UTAb00001", b"UTAB0000 ", b"UTAB0000<"]
    {
        let length = text.len().wrapping_sub(4);
        assert_eq!(written(Header { length, ..header_a() }, text, &[], &[], &SIGNATURE), 21);
    }
    let four = |characters: usize| {
        let header = Header { version: 4, length: characters.wrapping_sub(4), ..header_a() };
        written(header, &[b'Z'; 300][..characters], &[], &[], &SIGNATURE)
    };
    for (characters, number) in [(0, 21), (3, 21), (4, 21), (5, 0), (6, 0), (258, 0), (259, 0), (260, 21)] {
        assert_eq!(four(characters), number);
    }
}

#[test]
fn rows_of_the_table() {
    for wrong in [
        &[1][..],
        &[1, 0],
        &[1, 0, 0],
        &[1, 0, 0, 0, 2],
        &[255, 0, 0, 0],
        &[266, 0, 0, 0],
        &[usize::MAX, 0, 0, 0],
        &[1, 0, 0, 0, 2, 0, 0, 0, 1, 0, 0, 0],
    ] {
        assert_eq!(rows(wrong), 24);
    }
    // Place plus length may equal the buffer's length and may not pass it.
    for (place, length, number) in [(300, 0, 0), (299, 1, 0), (45, 255, 0), (301, 0, 24), (300, 1, 24), (0, 301, 24)] {
        assert_eq!(rows(&[0, 0, place, length]), number);
    }
    for (place, length) in [(usize::MAX, 1), (1, usize::MAX), (usize::MAX, usize::MAX), (usize::MAX, 0)] {
        assert_eq!(rows(&[0, 0, place, length]), 24);
    }
    // Rows may share bytes. All rows are judged for 24 before any for 25.
    assert_eq!(rows(&[254, 0, 0, 200, 0, 0, 100, 200]), 0);
    assert_eq!(rows(&[254, 0, 0, 256, 0, 0, 100, 200]), 25);
    assert_eq!(rows(&[254, 0, 0, 256, 254, 0, 100, 200]), 24);
    assert_eq!(rows(&[254, 0, 0, 255]), 0);
}

#[test]
fn signature_size_and_room() {
    for length in 0..300 {
        let good = [56, 64, 96, 128, 132].contains(&length);
        assert_eq!(written(header_a(), TEXT, &[], &[], &vec![1; length]), if good { 0 } else { 26 });
    }
    let four = Header { version: 4, ..header_a() };
    assert_eq!(written(four, TEXT, &[7, 0, 0, 4014], &[9; 5000], &SIGNATURE), 0);
    assert_eq!(written(four, TEXT, &[7, 0, 0, 4015], &[9; 5000], &SIGNATURE), 27);
    let all: Vec<usize> = (0..255).flat_map(|tag| [tag, 0, 0, 5000]).collect();
    assert_eq!(written(four, TEXT, &all, &[9; 5000], &SIGNATURE), 27);
    assert_eq!(filled(4095, |out| write(&four, TEXT, &[7, 0, 0, 4014], &[9; 5000], &SIGNATURE, out)), Err((28, 0)));
    assert_eq!(filled(0, |out| write(&four, TEXT, &[7, 0, 0, 4015], &[9; 5000], &SIGNATURE, out)), Err((27, 0)));
}

#[test]
fn the_first_number_in_order_is_given() {
    let mut header = Header { version: 9, country: *b"   ", definition: 0, ..header_a() };
    header.issued_on.day = 0;
    let (table, values) = ([1, 0, 0, 256, 300], [5; 5000]);
    assert_eq!(written(header, TEXT, &table, &values, &[]), 20);
    header.version = 3;
    assert_eq!(written(header, TEXT, &table, &values, &[]), 21);
    header.country = *b"UTO";
    assert_eq!(written(header, TEXT, &table, &values, &[]), 22);
    header.issued_on.day = 1;
    assert_eq!(written(header, TEXT, &table, &values, &[]), 23);
    header.definition = 1;
    assert_eq!(written(header, TEXT, &table, &values, &[]), 24);
    assert_eq!(written(header, TEXT, &table[..4], &values, &[]), 25);
    header.version = 4;
    assert_eq!(written(header, TEXT, &[1, 0, 0, 5000], &values, &[]), 26);
    assert_eq!(written(header, TEXT, &[1, 0, 0, 5000], &values, &SIGNATURE), 27);
}

#[test]
fn c40_order_and_places() {
    let decoded = |bytes: &[u8], room| filled(room, |out| c40_read(bytes, out));
    let encoded = |text: &[u8], room| filled(room, |out| c40_write(text, out));
    assert_eq!(decoded(&[0; 4097], 0), Err((45, 0)));
    assert_eq!(decoded(&hex("00 00 00"), 0), Err((40, 3)));
    assert_eq!(decoded(&hex("FA 00 00 00 FA 01"), 0), Err((41, 2)));
    assert_eq!(decoded(&hex("FA 00 FA 00"), 5), Err((42, 0)));
    assert_eq!(decoded(&hex("FE 21"), 1), Ok(b" ".to_vec()));
    assert_eq!(decoded(&[], 0), Ok(vec![]));
    // 46 and 47 have 41's place in the order: behind 45 and 40, before 42.
    for (pair, number) in [("FA 01", 41), ("00 01", 46), ("57 81", 46), ("FE 00", 47)] {
        assert_eq!(decoded(&hex(pair).repeat(2049), 0), Err((45, 0)));
        assert_eq!(decoded(&hex(&format!("{pair} 00")), 0), Err((40, 3)));
        assert_eq!(decoded(&hex(&format!("FA 00 {pair}")), 0), Err((number, 2)));
    }
    assert_eq!(decoded(&[0xFA, 0x00].repeat(2048), 6144), Ok(vec![b'Z'; 6144]));
    assert_eq!(encoded(&[b'Z'; 6144], 4096), Ok([0xFA, 0x00].repeat(2048)));
    assert_eq!(encoded(&[b'<'; 6145], 0), Err((45, 0)));
    assert_eq!(encoded(b"XK<CD", 0), Err((43, 2)));
    assert_eq!(encoded(b"XKCD", 3), Err((44, 0)));
    assert_eq!(encoded(b"", 0), Ok(vec![]));
}

#[test]
fn integers_are_strict() {
    let wrong = [
        "",
        "02",
        "02 00",
        "02 01",
        "02 01 00 00",
        "03 01 00",
        "02 02 00 7F",
        "02 02 FF 80",
        "02 81 01 00",
        "02 80 00 00",
        "02 02 00",
        "02 09 01 00 00 00 00 00 00 00 00",
        "02 09 00 80 00 00 00 00 00 00 00",
        "02 84 FF FF FF FF",
    ];
    for bytes in wrong {
        assert_eq!(integer_read(&hex(bytes)), Integer { number: 65, ..Integer::default() });
    }
}

#[test]
fn signatures_are_strict() {
    let raw = |n, der: &str, room| filled(room, |out| signature_to_raw(n, &hex(der), out));
    let one = [vec![0; 27], vec![1]].concat();
    assert_eq!(raw(28, "30 06 02 01 01 02 01 01", 56), Ok([one.clone(), one].concat()));
    assert_eq!(raw(28, "30 06 02 01 01 02 01 01", 55), Err((63, 0)));
    assert_eq!(raw(28, "30 06 02 01 00 02 01 00", 56), Ok(vec![0; 56]));
    let wrong = [
        "",
        "30",
        "30 00",
        "31 06 02 01 01 02 01 01",
        "30 06 02 01 01 02 01 01 00",
        "30 07 02 01 01 02 01 01 00",
        "30 05 02 01 01 02 01",
        "30 81 06 02 01 01 02 01 01",
        "30 06 02 01 81 02 01 01",
        "30 07 02 02 00 01 02 01 01",
        "30 05 02 00 02 01 01",
        "30 03 02 01 01",
        "30 09 02 01 01 02 01 01 02 01 01",
        "30 07 02 81 01 01 02 01 01",
        "30 06 03 01 01 02 01 01",
        "30 06 02 01 01 02 01 80",
    ];
    for der in wrong {
        assert_eq!(raw(28, der, 0), Err((62, 0)), "{der}");
    }
    let wide = |n: usize| format!("30 {:02X} 02 {n:02X} {} 02 01 00", n + 5, "7F".repeat(n));
    assert!(raw(28, &wide(28), 56).is_ok());
    assert_eq!(raw(28, &wide(29), 56), Err((62, 0)));
}

#[test]
fn sizes_of_signatures() {
    for n in [0, 27, 29, 65, 284, usize::MAX] {
        assert_eq!(filled(0, |out| signature_to_raw(n, &[], out)), Err((60, 0)));
        assert_eq!(filled(0, |out| signature_to_der(n, &[], out)), Err((60, 0)));
        assert_eq!(hash(n), Hashed { number: 60, ..Hashed::default() });
    }
    for length in [0, 55, 57, 64] {
        assert_eq!(filled(0, |out| signature_to_der(28, &vec![1; length], out)), Err((61, 0)));
    }
    assert_eq!(filled(7, |out| signature_to_der(28, &[0; 56], out)), Err((63, 0)));
}
