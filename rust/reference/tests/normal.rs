//! The normal text.

mod common;

use common::*;
use reference::*;

fn text(file: &[u8]) -> String {
    String::from_utf8(normal(file).unwrap()).unwrap()
}

#[test]
fn the_file_of_the_program() {
    let file = b"# bench 3\n[Cell]\nSerial=  A 17 \\\n; old tag\n  rev 2\nZero=\n[Link]\n\
        Wait=2min 200ms\n[Cell]\nNote=tail\\ \n";
    let expected = "[Cell]\nSerial=A 17    rev 2\nZero=\nNote=tail\\ \n[Link]\nWait=2min 200ms\n";
    assert_eq!(text(file), expected);
    assert_eq!(text(&file[..file.len() - 1]), expected);
    assert_eq!(text(expected.as_bytes()), expected);
    let sizes = Buffers::new(0).normal(file).unwrap();
    // Lines of 7 + 21 + 6 + 12 + 7 + 16 bytes.
    // Cell 4, Serial 6 + 13, Zero 4, Link 4, Wait 4 + 10, Note 4 + 5.
    let table = Counts {
        text: 54,
        sections: 2,
        entries: 4,
    };
    assert_eq!(sizes, Sizes { length: 69, table });
}

#[test]
fn sections_and_order() {
    assert_eq!(text(b""), "");
    assert_eq!(text(b"#\n \n"), "");
    assert_eq!(text(b"[A]"), "[A]\n");
    assert_eq!(text(b"[ A ]\n[A]\n[ A ]"), "[ A ]\n[A]\n");
    let mixed = b"[B]\nK=1\n[A]\nK=2\n[C]\n[B]\nJ=3\nK=\n[A]\nK=2\n[B]\nL=[A]";
    let expected = "[B]\nK=1\nJ=3\nK=\nL=[A]\n[A]\nK=2\nK=2\n[C]\n";
    assert_eq!(text(mixed), expected);
}

#[test]
fn the_space_after_an_odd_run() {
    assert_eq!(text(b"[A]\nK=\\ \nJ=b"), "[A]\nK=\\ \nJ=b\n");
    assert_eq!(text(b"[A]\nK=a\\\\ \n"), "[A]\nK=a\\\\\n");
    assert_eq!(text(b"[A]\nK=a\\\\\\\t\t"), "[A]\nK=a\\\\\\ \n");
    assert_eq!(text(b"[A]\nK=a\\\\\\\n"), "[A]\nK=a\\\\\n");
    // No space for a name that ends in a backslash.
    assert_eq!(text(b"[A\\]\n"), "[A\\]\n");
    // A line of 4,096 bytes with its space.
    let file = format!("[A]\nK={}\\ \n", "a".repeat(4092));
    assert_eq!(text(file.as_bytes()), file);
}

#[test]
fn the_longest_texts() {
    // 4 + 15 * 4,097 + 4,076 = 65,535 bytes that are their own normal text.
    let lines = format!("K={}\n", "v".repeat(4094)).repeat(15);
    let file = format!("[A]\n{lines}K={}\\ \n", "v".repeat(4071));
    assert_eq!(file.len(), 65_535);
    assert_eq!(text(file.as_bytes()), file);
    assert_eq!(text(&file.as_bytes()[..65_534]), file);
    assert_eq!(text(file.replace("\\ \n", "\\\t").as_bytes()), file);
}

#[test]
fn the_output_buffer() {
    let mut b = Buffers::new(0);
    b.out.truncate(NORMAL_BYTES - 1);
    let before = b.clone();
    assert_eq!(b.normal(b"[A]\nK=1"), refusal(1, 0));
    assert_eq!(b.normal(&[0; 70_000]), refusal(1, 0));
    assert!(b == before);
    let mut b = Buffers::new(0);
    assert_eq!(b.normal(b"[A]\nK=1").unwrap().length, 8);
    assert_eq!(&b.out[..8], b"[A]\nK=1\n");
    assert!(b.out[8..NORMAL_BYTES - 1] == before.out[8..]);
}

/// A made-up file of pieces that meet the rules now and then.
fn made_up(random: &mut Random) -> Vec<u8> {
    let pieces: [&[u8]; 24] = [
        b"[A]\n",
        b"[B]\n",
        b"[ A]\n",
        b"[A\\\n",
        b"K=",
        b"J =",
        b"\n",
        b"\n",
        b"\n",
        b"\\",
        b"\\\n",
        b"\\\\\n",
        b"#",
        b";x\\\n",
        b" ",
        b"\t",
        b"a",
        b"=",
        b"]\n",
        b"\xc3\xa9",
        b"K=1\n",
        b"\\ \n",
        b"K=a\\\n",
        b"L=\\ \n",
    ];
    let mut file = b"[A]\n".to_vec();
    for _ in 0..random.below(14) {
        file.extend(random.pick(&pieces));
    }
    file
}

#[test]
fn made_up_files() {
    let mut random = Random(7);
    let mut accepted = 0;
    for _ in 0..3_000 {
        let file = made_up(&mut random);
        let Ok(first) = normal(&file) else {
            table(&file).unwrap_err();
            continue;
        };
        accepted += 1;
        assert_eq!(normal(&first).as_deref(), Ok(&first[..]));
        assert_eq!(
            table(&first),
            table(&file),
            "{:?}",
            file.escape_ascii().to_string()
        );
    }
    assert!(accepted > 300, "{accepted}");
}

#[test]
fn any_bytes() {
    let mut random = Random(11);
    let mut b = Buffers::new(0);
    for _ in 0..20_000 {
        let length = random.below(40);
        let wide = random.below(8) == 0;
        let file: Vec<u8> = (0..length)
            .map(|_| match wide {
                true => random.below(256) as u8,
                false => random.pick(b"[]=\\\\\n\n#; \tKv\x01\xc3\xa9"),
            })
            .collect();
        let _ = b.normal(&file);
    }
}

#[test]
fn a_small_stack_is_enough() {
    let work = || {
        let file = format!("[A]\n{}", "K=a\\\n b\n".repeat(512));
        let mut b = Buffers::new(0);
        b.normal(file.as_bytes()).unwrap().length
    };
    let thread = std::thread::Builder::new().stack_size(256 * 1024);
    // `[A]` and LF, then 512 times `K=a  b` and LF.
    assert_eq!(thread.spawn(work).unwrap().join().unwrap(), 4 + 512 * 7);
}
