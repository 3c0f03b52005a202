//! The listing and the texts that are refused (01, The proved blocks).

use crate::showing::show;

/// What is printed for a text.
fn shown(text: &str) -> String {
    String::from_utf8(show(text.as_bytes())).expect("plain text")
}

#[test]
fn the_listing() {
    let listing = "step 0 1\nlayer 0 0 1 0 0 0 0 0 0\npoint -2 2 0 0 0 0 0 0\n";
    assert_eq!(shown("3 1\n1\n0 1 0 0 0 0 0 0\n"), listing);
    assert_eq!(shown("3 1\n1\n0 1 0 0 0 0 0 0"), listing);
    assert_eq!(shown("  3   1 \n 1  \n0 1 -0 0 00 0 0   0 \n"), listing);
    assert_eq!(shown("003 01\n0000000000000001\n0 1 0 0 0 0 0 0\n"), listing);
}

#[test]
fn a_line_for_each_layer() {
    let lines = shown("2 2\n26 29\n21 7 -11 -9 3 49 16 7\n");
    let starts: Vec<&str> = lines.lines().map(|line| &line[..7]).collect();
    assert_eq!(starts, ["step 0 ", "layer 0", "layer 1", "point 2"]);
}

#[test]
fn an_empty_step_list_is_refused_by_its_rule() {
    assert_eq!(shown("3 1\n\n0 1 0 0 0 0 0 0\n"), "refused 2 0\n");
    assert_eq!(shown("3 1\n   \n0 1 0 0 0 0 0 0\n"), "refused 2 0\n");
}

#[test]
fn overload_is_refused() {
    assert_eq!(shown("2 1\n1\n0 1 0 0 0 0 0 0\n"), "refused 6 0\n");
}

#[test]
fn text_of_another_kind_is_refused() {
    let x = "0 1 0 0 0 0 0 0";
    let wrong = [
        String::new(),
        "\n".into(),
        format!("3 1\n{x}\n"),
        format!("3 1\n1\n{x}\n\n"),
        format!("3 1\n1\n{x}\n5\n"),
        format!("3\n1\n{x}\n"),
        format!("3 1 1\n1\n{x}\n"),
        format!("\n1\n{x}\n"),
        format!("3 1\n1\n{x} 0\n"),
        "3 1\n1\n0 1 0 0 0 0 0\n".into(),
        format!("3\t1\n1\n{x}\n"),
        format!("3 1\r\n1\n{x}\n"),
        format!("+3 1\n1\n{x}\n"),
        format!("3 1\n-\n{x}\n"),
        format!("3 1\n--1\n{x}\n"),
        format!("3 1\n1-2\n{x}\n"),
        format!("3 1\n- 1\n{x}\n"),
        format!("3 1\n1.0\n{x}\n"),
        format!("3 1\n0x1\n{x}\n"),
        format!("3 1\n1\0\n{x}\n"),
        format!("3 1\n2147483648\n{x}\n"),
        format!("3 1\n-2147483649\n{x}\n"),
        format!("3 1\n99999999999999999999999999\n{x}\n"),
        format!("3 1\n1 2 3 4 5 4294967296\n{x}\n"),
    ];
    for text in wrong {
        assert_eq!(shown(&text), "refused 10 0\n", "{text:?}");
    }
}

#[test]
fn numbers_of_32_bits_are_judged_by_their_rules() {
    let x = "0 1 0 0 0 0 0 0";
    assert_eq!(shown(&format!("-2147483648 2147483647\n1\n{x}\n")), "refused 1 0\n");
    assert_eq!(shown(&format!("3 1\n-2147483648\n{x}\n")), "refused 2 0\n");
    assert_eq!(shown("3 1\n1\n0 -2147483648 0 0 0 0 0 0\n"), "refused 5 1\n");
}

#[test]
fn length_of_a_text() {
    let listing = "step 0 1\nlayer 0 0 1 0 0 0 0 0 0\npoint -2 2 0 0 0 0 0 0\n";
    let text = |length: usize| format!("3 1\n1\n0 1 0 0 0 0 0 {:>1$}\n", 0, length - 21);
    assert_eq!(text(4096).len(), 4096);
    assert_eq!(shown(&text(4096)), listing);
    assert_eq!(shown(&text(4097)), "refused 10 0\n");
}
