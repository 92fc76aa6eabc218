//! Booleans and time spans: refusals 30, 31 and 32.

mod common;

use common::refusal;
use reference::*;

fn of(text: &str) -> Result<u64, Refusal> {
    span(text.as_bytes())
}

#[test]
fn booleans() {
    for yes in ["1", "yes", "true", "on"] {
        assert_eq!(boolean(yes.as_bytes()), Ok(true));
    }
    for no in ["0", "no", "false", "off"] {
        assert_eq!(boolean(no.as_bytes()), Ok(false));
    }
    for bad in [
        "",
        " ",
        " yes",
        "yes ",
        "Yes",
        "ON",
        "y",
        "n",
        "2",
        "01",
        "on\n",
        "on\0",
        "truefalse",
    ] {
        assert_eq!(boolean(bad.as_bytes()), refusal(30, 0), "{bad}");
    }
    assert_eq!(boolean(&vec![b'1'; 1_000_000]), refusal(30, 0));
}

#[test]
fn bench_cases_14_to_16() {
    assert_eq!(of("2min 200ms"), Ok(120_200_000));
    assert_eq!(of("18446744073710"), refusal(32, 0));
    assert_eq!(of("18446744073709"), Ok(18_446_744_073_709_000_000));
    assert_eq!(of("5 20"), refusal(31, 0));
}

#[test]
fn forms() {
    for (text, answer) in [
        ("0", 0),
        ("50", 50_000_000),
        (" \t7\t ", 7_000_000),
        ("1 ", 1_000_000),
        ("007", 7_000_000),
        ("1us", 1),
        ("1ms", 1_000),
        ("1s", 1_000_000),
        ("1min", 60_000_000),
        ("1h", 3_600_000_000),
        ("1d", 86_400_000_000),
        ("1w", 604_800_000_000),
        ("1 \t s", 1_000_000),
        (" 1s2ms3us ", 1_002_003),
        ("1us \t 1w", 604_800_000_001),
        ("1s 1s", 2_000_000),
        ("0w0us", 0),
        ("1 h 2 min", 3_720_000_000),
    ] {
        assert_eq!(of(text), Ok(answer), "{text}");
    }
    for bad in [
        "", " ", "\t", "s", "-1", "+1", "1.5s", "1 0s", "1s 5", "5 1s", "5 20", "1smin", "1mins",
        "1sec", "1m", "1S", "1Min", "1s,2s", "s1", "1s\n", "\n1", "1\0", "1 s s", "1ss", "1s x",
        "0x1", "1\u{b5}s", "1y", "1month", "1 1",
    ] {
        assert_eq!(of(bad), refusal(31, 0), "{bad:?}");
    }
    assert_eq!(span(b"1s\xff"), refusal(31, 0));
}

#[test]
fn the_largest_span() {
    let most = u64::MAX;
    assert_eq!(of("18446744073709551615us"), Ok(most));
    assert_eq!(of("18446744073709551616us"), refusal(32, 0));
    assert_eq!(of("18446744073709s 551615us"), Ok(most));
    assert_eq!(of("551615us 18446744073709s"), Ok(most));
    assert_eq!(of("18446744073709s 551616us"), refusal(32, 0));
    assert_eq!(of("18446744073709551615us 0w"), Ok(most));
    assert_eq!(of("18446744073709551615us 1us"), refusal(32, 0));
    assert_eq!(of("18446744073709551ms615us"), Ok(most));
    assert_eq!(of("18446744073709552ms"), refusal(32, 0));
    // 604,800,000,000 * 30,500,568 = 18,446,743,526,400,000,000.
    assert_eq!(of("30500568w"), Ok(18_446_743_526_400_000_000));
    assert_eq!(of("30500569w"), refusal(32, 0));
    assert_eq!(of("99999999999999999999999999999"), refusal(32, 0));
}

#[test]
fn form_before_size() {
    assert_eq!(of("99999999999999999999us x"), refusal(31, 0));
    assert_eq!(of("99999999999999999999us 5"), refusal(31, 0));
    assert_eq!(of("99999999999999999999 5"), refusal(31, 0));
    assert_eq!(of("99999999999999999999us 5us"), refusal(32, 0));
    assert_eq!(of("99999999999999999999m"), refusal(31, 0));
}

#[test]
fn long_texts() {
    let zeros = "0".repeat(1_000_000);
    assert_eq!(of(&zeros), Ok(0));
    assert_eq!(of(&format!("{zeros}5")), Ok(5_000_000));
    assert_eq!(of(&format!("{zeros}5ms")), Ok(5_000));
    assert_eq!(of(&"9".repeat(1_000_000)), refusal(32, 0));
    assert_eq!(of(&"1us ".repeat(250_000)), Ok(250_000));
    assert_eq!(of(&format!("1{}s", " ".repeat(1_000_000))), Ok(1_000_000));
    assert_eq!(of(&" ".repeat(1_000_000)), refusal(31, 0));
    assert_eq!(of(&"s".repeat(1_000_000)), refusal(31, 0));
}
