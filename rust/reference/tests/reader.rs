//! The reader: lines, headers, entries, the table, refusals 1 to 10.

mod common;

use common::*;
use reference::*;

fn pairs(list: &[(&str, &str)]) -> Pairs {
    let owned = |&(k, v): &(&str, &str)| (k.to_string(), v.to_string());
    list.iter().map(owned).collect()
}

fn counts(text: usize, sections: usize, entries: usize) -> Counts {
    Counts {
        text,
        sections,
        entries,
    }
}

#[test]
fn bench_cases_1_to_7() {
    assert_eq!(table(b""), Ok(vec![]));
    assert_eq!(normal(b""), Ok(vec![]));
    assert_eq!(refused(b"K=1"), (9, 1));
    let case_3 = table(b"[A]\nK=a\\\\\nJ=b").unwrap();
    assert_eq!(case_3[0].1, pairs(&[("K", "a\\\\"), ("J", "b")]));
    assert_eq!(values(b"[A]\nK=a\\\n"), ["a"]);
    let case_5 = table(b"[A]\nK=a\\\n\nJ=b").unwrap();
    assert_eq!(case_5[0].1, pairs(&[("K", "a"), ("J", "b")]));
    assert_eq!(values(b"[A]\nK=a\\\n#x\\\nb"), ["a b"]);
    assert_eq!(values(b"[A]\n K = a=b "), ["a=b"]);
}

#[test]
fn numbers_of_the_table() {
    let mut b = Buffers::new(0);
    let before = b.clone();
    let file = b"[A]\nK=v1\nLong= \n[ B]\nJ=xyz\n[A]\nK=v2\n";
    assert_eq!(b.read(file), Ok(counts(17, 2, 4)));
    assert_eq!(&b.text[..17], b"AKv1Long BJxyzKv2");
    assert_eq!(b.sections[..4], [0, 1, 8, 2]);
    assert_eq!(b.entries[..5], [0, 1, 1, 2, 2]);
    assert_eq!(b.entries[5..10], [0, 4, 4, 8, 0]);
    assert_eq!(b.entries[10..15], [1, 10, 1, 11, 3]);
    assert_eq!(b.entries[15..20], [0, 14, 1, 15, 2]);
    assert!(b.kept_behind(counts(17, 2, 4), &before));
}

#[test]
fn comments() {
    assert_eq!(values(b"# a\n;b\n[A]\n#K=1\n;K=2\nK=3#4;5"), ["3#4;5"]);
    // A comment's own backslash joins nothing.
    assert_eq!(values(b"#\\\n[A]\n;\\\nK=1"), ["1"]);
    // Comments between continued lines are dropped whole.
    assert_eq!(values(b"[A]\nK=a\\\n;x\n#y\\\n;z\n b\\\n#\nc"), ["a  b c"]);
    // Only the very first byte makes a comment.
    assert_eq!(refused(b"[A]\n #x"), (7, 2));
    assert_eq!(refused(b"[A]\n\t;x=1"), (8, 2));
    assert_eq!(values(b"[A]\nK=a\\\n #x"), ["a  #x"]);
    // Comments have no limit.
    let mut file = vec![b'#'; 10_000];
    file.extend(b"\n[A]\nK=a\\\n");
    file.extend(vec![b';'; 10_000]);
    file.extend(b"\nb");
    assert_eq!(values(&file), ["a b"]);
}

#[test]
fn continued_lines() {
    // Runs of one to four backslashes.
    assert_eq!(values(b"[A]\nK=a\\\nJ=b"), ["a J=b"]);
    assert_eq!(values(b"[A]\nK=a\\\\\nJ=b"), ["a\\\\", "b"]);
    assert_eq!(values(b"[A]\nK=a\\\\\\\nJ=b"), ["a\\\\ J=b"]);
    assert_eq!(values(b"[A]\nK=a\\\\\\\\\nJ=b"), ["a\\\\\\\\", "b"]);
    // A blank after the run: not continued, and the run is data.
    assert_eq!(values(b"[A]\nK=a\\ \nJ=b"), ["a\\", "b"]);
    // Leading blanks of the following line are kept.
    assert_eq!(values(b"[A]\nK=a\\\n \t b"), ["a  \t b"]);
    // At the end of the file, also with comments after it, the line is complete.
    assert_eq!(values(b"[A]\nK=a\\"), ["a"]);
    assert_eq!(values(b"[A]\nK=a\\\n#x\n;y\\"), ["a"]);
    assert_eq!(values(b"[A]\nK=a\\\\\\"), ["a\\\\"]);
    // A line of blanks ends the joining, a line of one backslash does not.
    assert_eq!(values(b"[A]\nK=a\\\n \t \nJ=b"), ["a", "b"]);
    assert_eq!(values(b"[A]\nK=a\\\n\\\n\\\nb"), ["a   b"]);
    assert_eq!(values(b"\\\n\\\n[A]\nK=1\n\\\n"), ["1"]);
    // A header and a key may be joined too.
    assert_eq!(table(b"[A\\\nB]").unwrap()[0].0, "A B");
    assert_eq!(values(b"\\\n[A]\\\n\n\\\nK\\\n \\\n=\\\n\\\n 1"), ["1"]);
    assert_eq!(refused(b"[A]\nK\\\nJ=1"), (8, 2));
}

#[test]
fn headers() {
    let names = |file: &[u8]| -> Vec<String> {
        let table = table(file).unwrap();
        table.into_iter().map(|section| section.0).collect()
    };
    assert_eq!(
        names(b"[A]\n[ A ]\n[A ]\n \t[A]\t \n[a]"),
        ["A", " A ", "A ", "a"]
    );
    assert_eq!(
        names(b"[#x]\n[a=b]\n[A\\]\n[ ]\n[~]"),
        ["#x", "a=b", "A\\", " ", "~"]
    );
    for bad in [
        "[", "[]", "[A", "[A]x", "[A]=1", "[A]]", "[[A]", "[[]", "[]]", "[A]B]", "[A[B]", "[a\tb]",
        "[\u{e9}]", "[A] #", "[A]\\",
    ] {
        let file = format!("\n{bad}\nx\n[B]");
        assert_eq!(refused(file.as_bytes()), (6, 2), "{bad}");
    }
    assert_eq!(refused(b"]"), (7, 1));
}

#[test]
fn entries() {
    let all = b"[A]\n-=1\n_=2\n.=3\nazAZ09=4\nK==\nK= = \nK=\nK\t \t=\t v\tw \nK=[A]\n";
    let expected = pairs(&[
        ("-", "1"),
        ("_", "2"),
        (".", "3"),
        ("azAZ09", "4"),
        ("K", "="),
        ("K", "="),
        ("K", ""),
        ("K", "v\tw"),
        ("K", "[A]"),
    ]);
    assert_eq!(table(all).unwrap()[0].1, expected);
    assert_eq!(
        values("[A]\nK=\u{feff}\u{e9}\u{10ffff}".as_bytes())[0].len(),
        9
    );
    for bad in [
        "=1", " =1", "K J=1", "K:=1", "\u{e9}=1", "K/=", "a\tb=", "K]=", "K\\=1",
    ] {
        let file = format!("[A]\n#\nK=1\n{bad}\n");
        assert_eq!(refused(file.as_bytes()), (8, 4), "{bad}");
    }
    for bad in ["K", "K J", "\u{e9}", "\\ ", "."] {
        let file = format!("[A]\n{bad}\n");
        assert_eq!(refused(file.as_bytes()), (7, 2), "{bad}");
    }
    // A byte order mark is a character like any other.
    assert_eq!(refused(b"\xef\xbb\xbf[A]\n"), (7, 1));
}

#[test]
fn order_within_a_line() {
    assert_eq!(refused(b"K"), (7, 1));
    assert_eq!(refused(b"\n?=1"), (8, 2));
    assert_eq!(refused(b"\n\nK=1\n[A]"), (9, 3));
    // The first faulty line counts, whatever its number, at its first line.
    assert_eq!(refused(b"[A]\n?=1\n[\nK"), (8, 2));
    assert_eq!(refused(b"[A]\n\n#\nK\\\n#\nx\n?=1"), (7, 4));
    // 5 before 6, 7, 8 and 9.
    for start in ["[", "", "?=", "K="] {
        let file = format!("\n{start}{}", "a".repeat(4097));
        assert_eq!(refused(file.as_bytes()), (5, 2), "{start}");
    }
}

#[test]
fn logical_lines_of_4096_and_4097() {
    let file = |line: &str| format!("[A]\n#c\n{line}\nJ=1\n").into_bytes();
    let fits = format!("K={}", "a".repeat(4094));
    assert_eq!(values(&file(&fits)), [&fits[2..], "1"]);
    assert_eq!(refused(&file(&format!("{fits}a"))), (5, 3));
    // Trimmed blanks count.
    assert_eq!(
        values(&file(&format!(" K=a{}", " ".repeat(4092)))),
        ["a", "1"]
    );
    assert_eq!(refused(&file(&format!(" K=a{}", " ".repeat(4093)))), (5, 3));
    assert_eq!(values(&file(&" ".repeat(4096))), ["1"]);
    assert_eq!(refused(&file(&"\t".repeat(4097))), (5, 3));
    // Joined of two: 2 + 2000 + 1, then 2093; the comment between counts nothing.
    let (a, b) = ("a".repeat(2000), "b".repeat(2093));
    let joined = format!("K={a}\\\n#{a}\n{b}");
    assert_eq!(
        values(&file(&joined)),
        [format!("{a} {b}"), "1".to_string()]
    );
    assert_eq!(refused(&file(&format!("{joined}b"))), (5, 3));
    // The space of a line that is continued at the end of the file counts.
    let open = |n: usize| format!("[A]\nK={}\\", "a".repeat(n)).into_bytes();
    assert_eq!(values(&open(4093))[0].len(), 4093);
    assert_eq!(refused(&open(4094)), (5, 2));
    // 4,096 lines of a backslash are one logical line, the next one is too much.
    let many = |n: usize| "\\\n".repeat(n).into_bytes();
    assert_eq!(table(&many(4096)), Ok(vec![]));
    assert_eq!(refused(&many(4097)), (5, 1));
    // A header of 4,096 bytes.
    let header = format!("[{}]", "n".repeat(4094));
    assert_eq!(table(header.as_bytes()).unwrap()[0].0.len(), 4094);
}

#[test]
fn sections_64_and_65() {
    let mut file: String = (1..=64).map(|i| format!("[s{i}]\n")).collect();
    assert_eq!(table(file.as_bytes()).unwrap().len(), 64);
    file.push_str("[s64]\n[s1]\nK=1\n");
    let full = table(file.as_bytes()).unwrap();
    assert_eq!(full[0].1, pairs(&[("K", "1")]));
    // A bad header is 6 there, a new name 10, an entry fine.
    assert_eq!(refused(format!("{file}[]").as_bytes()), (6, 68));
    assert_eq!(
        refused(format!("{file}#\n[s\\\n]\n[x").as_bytes()),
        (10, 69)
    );
    assert_eq!(refused(format!("{file}[s65]").as_bytes()), (10, 68));
}

#[test]
fn entries_512_and_513() {
    let file = format!("[A]\n{}", "K=1\n".repeat(512));
    assert_eq!(values(file.as_bytes()).len(), 512);
    assert_eq!(refused(format!("{file}K=1").as_bytes()), (10, 514));
    assert_eq!(
        refused(format!("{file}[B]\n\nK\\\n=1").as_bytes()),
        (10, 516)
    );
    assert_eq!(refused(format!("{file}?=1").as_bytes()), (8, 514));
    assert_eq!(refused(format!("{file}K").as_bytes()), (7, 514));
    assert_eq!(table(format!("{file}[B]").as_bytes()).unwrap().len(), 2);
}

#[test]
fn file_lengths() {
    let comment = |n: usize| vec![b'#'; n];
    let closed = |n: usize| [vec![b'#'; n - 1], vec![b'\n']].concat();
    assert_eq!(table(&comment(65_534)), Ok(vec![]));
    assert_eq!(refused(&comment(65_535)), (2, 0));
    assert_eq!(table(&closed(65_535)), Ok(vec![]));
    assert_eq!(refused(&closed(65_536)), (2, 0));
    assert_eq!(refused(&comment(1_000_000)), (2, 0));
    assert_eq!(table(&vec![b'\n'; 65_535]), Ok(vec![]));
    // 2 before 3, 4 and the lines.
    assert_eq!(refused(&vec![0xff; 65_535]), (2, 0));
    assert_eq!(check_file(&vec![0; 65_535]), refusal(2, 0));
    assert_eq!(check_file(&vec![0; 65_534]), refusal(4, 1));
}

#[test]
fn whole_file_checks() {
    assert_eq!(check_file(b""), Ok(()));
    assert_eq!(check_file(b"K\t=\xc3\xa9\n]["), Ok(()));
    // 3: the line of the lead byte, also where an LF breaks the character.
    assert_eq!(refused(b"[A]\nK=\xe2\x82\n\x82"), (3, 2));
    assert_eq!(refused(b"[A]\n\n\xc3"), (3, 3));
    assert_eq!(refused(b"\n# \xff\n"), (3, 2));
    // 3 over the whole file before 4; 4 in comments too.
    assert_eq!(refused(b"\x01\n\nK=\xff"), (3, 3));
    assert_eq!(refused(b"[A]\r\n\x00"), (4, 1));
    assert_eq!(refused(b"?\n#\x7f\n"), (4, 2));
    for byte in 0..=0x7f_u8 {
        let control = (byte < 0x20 && byte != 9 && byte != 10) || byte == 0x7f;
        let file = [b'\n', b'#', byte, b'#', b'\n'];
        let expected = if control { refusal(4, 2) } else { Ok(()) };
        assert_eq!(check_file(&file), expected, "{byte}");
    }
    // C2 80 is no control byte of the rules.
    assert_eq!(check_file(b"\xc2\x80\xc2\x9f"), Ok(()));
}

#[test]
fn utf_8() {
    let cases: [(&[u8], usize); 21] = [
        (b"", 0),
        (b"abc", 3),
        (b"\x00\x7f", 2),
        (b"\x80", 0),
        (b"a\xc0\x80", 1),
        (b"\xc1\xbf", 0),
        (b"\xc2\x80", 2),
        (b"\xdf\xbf", 2),
        (b"\xc2a", 0),
        (b"\xe0\x9f\xbf", 0),
        (b"\xe0\xa0\x80", 3),
        (b"\xed\x9f\xbf", 3),
        (b"\xed\xa0\x80", 0),
        (b"\xee\x80\x80", 3),
        (b"ab\xe2\x82", 2),
        (b"\xf0\x8f\xbf\xbf", 0),
        (b"\xf0\x90\x80\x80", 4),
        (b"\xf4\x8f\xbf\xbf", 4),
        (b"\xf4\x90\x80\x80", 0),
        (b"\xf5\x80\x80\x80", 0),
        (b"\xc3\xa9\xf0\x90\x80", 2),
    ];
    for (text, length) in cases {
        assert_eq!(well_formed_length(text), length, "{text:x?}");
    }
    assert_eq!(
        well_formed_length(&"\u{e9}".repeat(500_000).into_bytes()),
        1_000_000
    );
}

#[test]
fn buffers_short_by_one() {
    let file = b"[A]\nK=1\n";
    for (t, s, e) in [(1, 0, 0), (0, 1, 0), (0, 0, 1), (65535, 128, 2560)] {
        for file in [&file[..], &[0xff; 70_000]] {
            let mut b = Buffers::new(0);
            b.text.truncate(TEXT_BYTES - t);
            b.sections.truncate(SECTION_NUMBERS - s);
            b.entries.truncate(ENTRY_NUMBERS - e);
            let before = b.clone();
            assert_eq!(b.read(file), refusal(1, 0));
            assert_eq!(b.normal(file), refusal(1, 0));
            assert!(b == before);
        }
    }
    let mut b = Buffers::new(0);
    assert_eq!(b.read(file), Ok(counts(3, 1, 1)));
}

#[test]
fn many_repeated_headers() {
    // 64 names, then the last of them 16,000 times.
    let names: String = (0..64)
        .map(|i| format!("[{}]\n", (b'0' + i) as char))
        .collect();
    let names = names.replace("[[]\n", "[?a]\n").replace("[]]\n", "[?b]\n");
    let file = format!("{names}{}K=1", "[o]\n".repeat(16_000));
    let table = table(file.as_bytes()).unwrap();
    assert_eq!(table.len(), 64);
    assert_eq!(table[63], ("o".to_string(), pairs(&[("K", "1")])));
}
