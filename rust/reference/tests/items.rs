//! The item splitter and the item writer: refusals 1 and 20 to 28.

mod common;

use common::*;
use reference::*;

/// Splits a text and checks what has to stay.
fn items(text: &[u8]) -> Result<Vec<Vec<u8>>, Refusal> {
    let (before, before_ends) = (vec![0xaa; ITEM_BYTES + 3], vec![usize::MAX; ITEM_ENDS + 3]);
    let (mut bytes, mut ends) = (before.clone(), before_ends.clone());
    match split(text, &mut bytes, &mut ends) {
        Ok(Items { count, length }) => {
            assert!(bytes[length..] == before[length..]);
            assert!(ends[count..] == before_ends[count..]);
            assert_eq!(ends[..count].last().copied().unwrap_or(0), length);
            let starts = std::iter::once(0).chain(ends[..count].iter().copied());
            let parts = starts.zip(&ends[..count]);
            Ok(parts
                .map(|(start, &end)| bytes[start..end].to_vec())
                .collect())
        }
        Err(refusal) => {
            assert!(bytes == before && ends == before_ends);
            Err(refusal)
        }
    }
}

/// Writes items, with bytes behind the last end, and checks what has to stay.
fn written(items: &[&[u8]]) -> Result<Vec<u8>, Refusal> {
    let mut bytes = items.concat();
    let ends: Vec<usize> = (1..=items.len())
        .map(|n| items[..n].concat().len())
        .collect();
    bytes.extend(b"\0 no item");
    let before = vec![0xaa; WRITE_BYTES + 3];
    let mut out = before.clone();
    match write(&bytes, &ends, &mut out) {
        Ok(length) => {
            assert!(out[length..] == before[length..]);
            Ok(out[..length].to_vec())
        }
        Err(refusal) => {
            assert!(out == before);
            Err(refusal)
        }
    }
}

fn refused(text: &[u8]) -> (usize, usize) {
    let refusal = items(text).unwrap_err();
    (refusal.number, refusal.place)
}

#[test]
fn bench_cases_8_to_13() {
    assert_eq!(items(b"\"a b\" c \"\"").unwrap(), [&b"a b"[..], b"c", b""]);
    assert_eq!(refused(b"a\"b"), (22, 1));
    assert_eq!(refused(b"\"a\"b"), (22, 3));
    assert_eq!(items(br"\x41\102\u00e9").unwrap(), [b"\x41\x42\xc3\xa9"]);
    assert_eq!(refused(br"\400"), (25, 0));
    assert_eq!(refused(br"\x4"), (24, 0));
}

#[test]
fn blanks_and_quotes() {
    let none: [&[u8]; 0] = [];
    assert_eq!(items(b"").unwrap(), none);
    assert_eq!(items(b" \t ").unwrap(), none);
    assert_eq!(items(b"\t a\t\tb ").unwrap(), [b"a", b"b"]);
    assert_eq!(items(b"'' \"\"").unwrap(), [b"", b""]);
    assert_eq!(
        items(b"'a\"b' \"c'd\"\t'e\tf'").unwrap(),
        [b"a\"b", b"c'd", b"e\tf"]
    );
    assert_eq!(
        items(b"\xff=#;[ \xc3").unwrap(),
        [&b"\xff=#;["[..], b"\xc3"]
    );
    assert_eq!(refused(b"a'"), (22, 1));
    assert_eq!(refused(b"''\"\""), (22, 2));
    assert_eq!(refused(b" 'a'\\q"), (22, 4));
    assert_eq!(refused(b"a \"b"), (23, 2));
    assert_eq!(refused(b"\""), (23, 0));
    assert_eq!(refused(b"'a\" b"), (23, 0));
    // A quote behind an escape: the item has begun.
    assert_eq!(refused(br#"\sa""#), (22, 3));
    assert_eq!(refused(br#"\"""#), (22, 2));
    // An escaped quote neither opens nor closes.
    assert_eq!(
        items(br#"\"a '\'' "\"""#).unwrap(),
        [&b"\"a"[..], b"'", b"\""]
    );
}

#[test]
fn escapes() {
    let letters = items(br#"\a\b\f\n\r\t\v\\\"\'\s"#).unwrap();
    assert_eq!(letters, [b"\x07\x08\x0c\x0a\x0d\x09\x0b\\\"' "]);
    assert_eq!(items(br#""\a\s" '\v\"'"#).unwrap(), [b"\x07 ", b"\x0b\""]);
    assert_eq!(items(br"\x01\xfF\xFf").unwrap(), [b"\x01\xff\xff"]);
    assert_eq!(items(br"\001\377\0019").unwrap(), [b"\x01\xff\x019"]);
    assert_eq!(items(br"a\x20b\040c").unwrap(), [b"a b c"]);
    assert_eq!(
        items(br"\u0001\u007F\u0080").unwrap(),
        [b"\x01\x7f\xc2\x80"]
    );
    assert_eq!(
        items(br"\u07ff\u0800\uD7fF").unwrap(),
        [b"\xdf\xbf\xe0\xa0\x80\xed\x9f\xbf"]
    );
    assert_eq!(
        items(br"\uE000\uffff").unwrap(),
        [b"\xee\x80\x80\xef\xbf\xbf"]
    );
    assert_eq!(
        items(br"\U00010000\U0010fFfF").unwrap(),
        [b"\xf0\x90\x80\x80\xf4\x8f\xbf\xbf"]
    );
    assert_eq!(items(br"\U00000041").unwrap(), [b"A"]);
}

#[test]
fn bad_escapes() {
    for form in [
        r"\",
        r"\ ",
        r"\q",
        r"\e",
        r"\A",
        r"\X41",
        r"\x",
        r"\x4",
        r"\xg1",
        r"\x1g",
        r"\x 1",
        r"\0",
        r"\08",
        r"\00",
        r"\128",
        r"\40",
        r"\8",
        r"\u123",
        r"\u12g4",
        r"\U0010ffF",
        r"\U0000004g",
        r"\u+123",
        r"\x-1",
        r"\u",
        r"\U",
    ] {
        assert_eq!(refused(format!("a {form}").as_bytes()), (24, 2), "{form}");
        assert_eq!(refused(format!("'{form}").as_bytes()), (24, 1), "{form}");
    }
    for value in [
        r"\x00",
        r"\000",
        r"\400",
        r"\777",
        r"\u0000",
        r"\ud800",
        r"\uDFFF",
        r"\U00000000",
        r"\U0000d800",
        r"\U00110000",
        r"\UFFFFFFFF",
    ] {
        assert_eq!(refused(format!("a {value}").as_bytes()), (25, 2), "{value}");
        assert_eq!(refused(format!("\"{value}").as_bytes()), (25, 1), "{value}");
    }
    // An escape is met before the end of the text is.
    assert_eq!(refused(br#""a\"#), (24, 2));
    assert_eq!(refused(br#""\x4""#), (24, 1));
    assert_eq!(refused(br#""a\""#), (23, 0));
    assert_eq!(refused("\\\u{e9}".as_bytes()), (24, 0));
}

#[test]
fn order_of_splitting() {
    // 20 before 21; 21 over the whole text before the first fault.
    assert_eq!(refused(&[0; 4097]), (20, 0));
    assert_eq!(refused(&vec![b'a'; 1_000_000]), (20, 0));
    assert_eq!(refused(b"a\"b\n\x00"), (21, 3));
    for byte in 0..=255_u8 {
        let control = (byte < 0x20 && byte != 9) || byte == 0x7f;
        let answer = items(&[b'a', b' ', byte, b'\x1f']);
        assert_eq!(answer, refusal(21, if control { 2 } else { 3 }), "{byte}");
    }
    // The first fault from the left.
    assert_eq!(refused(br#"a"b \q"#), (22, 1));
    assert_eq!(refused(br#"\q a"b"#), (24, 0));
    assert_eq!(refused(br#"'a \q"#), (24, 3));
}

#[test]
fn items_256_and_257() {
    let many = b"a ".repeat(256);
    assert_eq!(items(&many).unwrap().len(), 256);
    assert_eq!(items(&[&many[..], b" \t "].concat()).unwrap().len(), 256);
    for last in [&b"a"[..], b"\"", b"\\q", b"''"] {
        assert_eq!(refused(&[&many[..], b" ", last].concat()), (26, 513));
    }
    assert_eq!(refused(&[&b"a' "[..], &many[..]].concat()), (22, 1));
    assert_eq!(items(&b"'' ".repeat(256)).unwrap().len(), 256);
}

#[test]
fn texts_of_4096_bytes() {
    assert_eq!(items(&[b'a'; 4096]).unwrap(), [[b'a'; 4096]]);
    assert_eq!(refused(&[b'a'; 4097]), (20, 0));
    assert_eq!(items(&br"\377".repeat(1024)).unwrap(), [[0xff; 1024]]);
    assert_eq!(items(&[b' '; 4096]).unwrap().len(), 0);
}

#[test]
fn buffers_of_the_splitter() {
    for (bytes, ends) in [(4095, 256), (4096, 255), (0, 0)] {
        let (mut bytes, mut ends) = (vec![7; bytes], vec![8; ends]);
        assert_eq!(split(b"a", &mut bytes, &mut ends), refusal(1, 0));
        assert_eq!(split(&[0; 5000], &mut bytes, &mut ends), refusal(1, 0));
        assert!(bytes.iter().all(|&b| b == 7) && ends.iter().all(|&n| n == 8));
    }
    let (mut bytes, mut ends) = (vec![7; 4096], vec![8; 256]);
    let found = split(b"ab '' c", &mut bytes, &mut ends);
    assert_eq!(
        found,
        Ok(Items {
            count: 3,
            length: 3
        })
    );
    assert_eq!(
        (&bytes[..4], &ends[..4]),
        (&b"abc\x07"[..], &[2, 2, 3, 8][..])
    );
}

#[test]
fn written_items() {
    assert_eq!(written(&[]).unwrap(), b"");
    assert_eq!(written(&[b""]).unwrap(), b"\"\"");
    assert_eq!(written(&[b"", b""]).unwrap(), b"\"\" \"\"");
    let bare = b"azAZ09-_./:@%,+";
    assert_eq!(written(&[bare]).unwrap(), bare);
    assert_eq!(written(&[b"a", b"b c", b"d"]).unwrap(), b"a \"b c\" d");
    let escaped = b"\x07\x08\x0c\x0a\x0d\x09\x0b\\\"'";
    assert_eq!(written(&[escaped]).unwrap(), br#""\a\b\f\n\r\t\v\\\"'""#);
    let others = b"\x01\x0e\x1f\x7f\x80\xab\xff";
    assert_eq!(
        written(&[others]).unwrap(),
        br#""\x01\x0e\x1f\x7f\x80\xab\xff""#
    );
    for byte in 1..=255_u8 {
        let text = written(&[&[byte]]).unwrap();
        let bare = byte.is_ascii_alphanumeric() || b"-_./:@%,+".contains(&byte);
        assert_eq!(text[0] != b'"', bare, "{byte}");
        assert_eq!(items(&text).unwrap(), [[byte]]);
    }
    // Bytes 20 to 7E as they are, but for the backslash and the double quote.
    assert_eq!(
        written(&[b" !#$&'()*;<=>?[]^`{|}~"]).unwrap(),
        b"\" !#$&'()*;<=>?[]^`{|}~\""
    );
}

#[test]
fn refusals_of_the_writer() {
    let ask = |bytes: &[u8], ends: &[usize]| {
        let mut out = [0xaa; WRITE_BYTES];
        let answer = write(bytes, ends, &mut out);
        assert!(answer.is_ok() || out == [0xaa; WRITE_BYTES]);
        answer
    };
    // 1, 26, 28, 27, 20.
    let mut short = [7; WRITE_BYTES - 1];
    assert_eq!(write(b"\0", &[9; 300], &mut short), refusal(1, 0));
    assert_eq!(write(b"a", &[1], &mut short), refusal(1, 0));
    assert!(short.iter().all(|&b| b == 7));
    assert_eq!(ask(b"", &[0; 256]), Ok(767));
    assert_eq!(ask(b"", &[0; 257]), refusal(26, 0));
    assert_eq!(ask(b"\0", &[9; 257]), refusal(26, 0));
    assert_eq!(ask(b"\0a", &[3]), refusal(28, 0));
    assert_eq!(ask(b"\0a", &[2, 1]), refusal(28, 0));
    assert_eq!(ask(b"ab", &[usize::MAX, 1]), refusal(28, 0));
    assert_eq!(ask(b"ab", &[1, usize::MAX]), refusal(28, 0));
    assert_eq!(ask(b"ab", &[3, 3, 2]), refusal(28, 0));
    assert_eq!(ask(b"a\0", &[1]), Ok(1));
    assert_eq!(ask(b"a\0", &[0, 2]), refusal(27, 0));
    let long = [b"\0", &[b'a'; 5000][..]].concat();
    assert_eq!(ask(&long, &[5001]), refusal(27, 0));
    assert_eq!(ask(&long[1..], &[5000]), refusal(20, 0));
    assert_eq!(ask(&long[1..], &[5]), Ok(5));
    assert_eq!(ask(&long[1..], &[]), Ok(0));
    assert_eq!(ask(&vec![b' '; 1_000_000], &[1_000_000]), refusal(20, 0));
}

#[test]
fn written_texts_of_4096_bytes() {
    assert_eq!(written(&[&[b'a'; 4096]]).unwrap(), [b'a'; 4096]);
    assert_eq!(written(&[&[b'a'; 4097]]), refusal(20, 0));
    assert_eq!(written(&[&[b' '; 4094]]).unwrap().len(), 4096);
    assert_eq!(written(&[&[b' '; 4095]]), refusal(20, 0));
    assert_eq!(written(&[&[b'a'; 4093], b""]).unwrap().len(), 4096);
    assert_eq!(written(&[&[b'a'; 4094], b""]), refusal(20, 0));
    assert_eq!(written(&[&[b'a'; 4095], b"b"]), refusal(20, 0));
    assert_eq!(written(&[&[0xff; 1023]]).unwrap().len(), 4094);
    assert_eq!(written(&[&[0xff; 1023], b"b"]).unwrap().len(), 4096);
    assert_eq!(written(&[&[0xff; 1024]]), refusal(20, 0));
}

#[test]
fn made_up_items() {
    let mut random = Random(5);
    for _ in 0..20_000 {
        let list: Vec<Vec<u8>> = (0..random.below(6))
            .map(|_| {
                let length = random.below(5);
                (0..length).map(|_| 1 + random.below(255) as u8).collect()
            })
            .collect();
        let slices: Vec<&[u8]> = list.iter().map(|item| &item[..]).collect();
        assert_eq!(items(&written(&slices).unwrap()), Ok(list));
    }
    for _ in 0..50_000 {
        let length = random.below(12);
        let text: Vec<u8> = (0..length)
            .map(|_| random.pick(b"\\\\\\\"' \tax0u1Us\x01\xff"))
            .collect();
        let _ = items(&text);
        let ends: Vec<usize> = (0..random.below(4)).map(|_| random.below(14)).collect();
        let _ = write(&text, &ends, &mut [0; WRITE_BYTES]);
    }
}
