//! What TOML forbids, and what a profile has no use for, is refused with its line and column.

use indraveck::profile_file::parse;

/// Each text, and where and how it is refused.
type Cases = &'static [(&'static str, usize, usize, &'static str)];

fn check(cases: Cases) {
    for (text, line, column, message) in cases {
        let error = match parse(text.as_bytes()) {
            Ok(named) => panic!("{:?} was read: {:?}", text, named),
            Err(error) => error,
        };
        assert_eq!(error.message(), *message, "{:?}", text);
        let place = (error.line(), error.column());
        assert_eq!(place, (Some(*line), Some(*column)), "{:?}", text);
    }
}

const NO_KEY: &str = "a key is missing here";
const NO_EQUALS: &str = "`=` is missing here";
const NO_VALUE: &str = "a value is missing here";
const B_TOO_MUCH: &str = "`b` is too much: only a comment may follow on this line";

const LINES: Cases = &[
    ("typ 0x01", 1, 5, NO_EQUALS),
    ("typ", 1, 4, NO_EQUALS),
    ("'''a''' = 1", 1, 3, NO_EQUALS),
    ("\n\r\n  = 3", 3, 3, NO_KEY),
    ("a. = 3", 1, 4, NO_KEY),
    ("a..b = 3", 1, 3, NO_KEY),
    ("é = 3", 1, 1, "`é` stands in a key only in quotes"),
    ("a = # none", 1, 5, NO_VALUE),
    ("a =\nb = 1", 1, 4, NO_VALUE),
    ("a = = 1", 1, 5, NO_VALUE),
    ("a = 1 b = 2", 1, 7, B_TOO_MUCH),
    ("a = \"éé\" b", 1, 10, B_TOO_MUCH),
    ("[a] b = 2", 1, 5, B_TOO_MUCH),
    ("[a", 1, 3, "`]` is missing here"),
    ("[a\n]", 1, 3, "`]` is missing here"),
    ("[[a]", 1, 4, "`]]` is missing here"),
    ("[[a] ]", 1, 4, "`]]` is missing here"),
    ("[]", 1, 2, NO_KEY),
    ("[ [a]]", 1, 3, NO_KEY),
];

#[test]
fn lines_that_are_no_entry() {
    check(LINES);
}

const A_AT_1: &str = "`a` is given twice, first at line 1, column 1";
const A_AT_2: &str = "`a` is given twice, first at line 1, column 2";
const A_AT_3: &str = "`a` is given twice, first at line 1, column 3";
const B_AT_3: &str = "`b` is given twice, first at line 1, column 3";
const B_AT_7: &str = "`b` is given twice, first at line 1, column 7";
const B_IN_LINE_4: &str = "`b` is given twice, first at line 4, column 1";

const TWICE: Cases = &[
    ("a = 1\nb = 2\n 'a' = 3", 3, 2, A_AT_1),
    ("a = []\n[[a]]", 2, 3, A_AT_1),
    ("a.b = 1\n[a]", 2, 2, A_AT_1),
    ("a.b = 1\na = 2", 2, 1, A_AT_1),
    ("[a]\n[b]\n[a]", 3, 2, A_AT_2),
    ("[a]\n[[a]]", 2, 3, A_AT_2),
    ("[a.b]\n[[a]]", 2, 3, A_AT_2),
    ("[[a]]\n[a]", 2, 2, A_AT_3),
    ("a.b = 1\na.b = 2", 2, 3, B_AT_3),
    ("a = { b = 1, b = 2 }", 1, 14, B_AT_7),
    ("[[a]]\nb = 1\n[[a]]\nb = 1\nb = 2", 5, 1, B_IN_LINE_4),
];

#[test]
fn what_is_given_twice() {
    check(TWICE);
}

const NUMBER: &str = "`a` is a number and has no keys, at line 1, column 1";
const TEXT: &str = "`a` is text and has no keys, at line 1, column 1";
const LIST: &str = "`a` is a list and has no keys, at line 1, column 1";
const WHOLE: &str = "`a` was given whole, at line 1, column 1";
const HEADER: &str = "`b` has a header of its own, at line 1, column 4";
const HEADERS: &str = "`b` has headers of its own, at line 1, column 5";

const CLOSED: Cases = &[
    ("a = 1\na.b = 2", 2, 1, NUMBER),
    ("a = 'x'\n[a.b]", 2, 2, TEXT),
    ("a = [{}]\n[a.b]", 2, 2, LIST),
    ("a = {}\na.b = 1", 2, 1, WHOLE),
    ("a = {}\n[a.b]", 2, 2, WHOLE),
    ("[a.b]\n[a]\nb.c = 1", 3, 1, HEADER),
    ("[[a.b]]\n[a]\nb.c = 1", 3, 1, HEADERS),
];

#[test]
fn what_nothing_can_be_added_to() {
    check(CLOSED);
}

#[test]
fn tables_that_toml_allows_are_refused_only_for_their_keys() {
    for text in [
        "a.b.c = 1\na.b.d = 2\n[a.e]\n[a.b.f]",
        "[a.b.c]\n[a.b]\n[a]\nd = 1",
        "[a.b.c]\n[a]\nb.d = 1",
        "[[a]]\n[a.b]\n[[a]]\n[a.b]\n[[a.c]]\n[[a.c]]",
        "a = [[1, 'x'], [], {b.c = 1, b.d = [\n2, # two\n]},]",
        "a = { }\n# the end",
        "'a' . b.\"\" = 1",
    ] {
        let error = parse(text.as_bytes()).expect_err("an unknown key");
        let message = error.message();
        assert!(message.starts_with("unknown key `a`; "), "{}", message);
    }
}

const OPEN_LIST: &str = "the list that starts here has no `]`";
const NO_COMMA: &str = "`,` or `]` of the list from line 1, column 5 is missing here";
const NO_BRACE: &str = "`,` or `}` on the same line is missing here";

const NESTED: Cases = &[
    ("a = [1,\n2", 1, 5, OPEN_LIST),
    ("a = [", 1, 5, OPEN_LIST),
    ("a = [1\nb = 2", 2, 1, NO_COMMA),
    ("a = [,]", 1, 6, NO_VALUE),
    ("a = [1,,]", 1, 8, NO_VALUE),
    ("a = {b = 1", 1, 11, NO_BRACE),
    ("a = {b = 1\n}", 1, 11, NO_BRACE),
    ("a = {b = 1,}", 1, 12, NO_KEY),
    ("a = {b = }", 1, 10, NO_VALUE),
    ("a = {\n}", 1, 6, NO_KEY),
];

#[test]
fn lists_and_inline_tables_that_do_not_end() {
    check(NESTED);
}

const SHORT: &str = "the text that starts here has no closing quote on its line";
const LONG: &str = "the text that starts here has no closing quotes";
const NO_X: &str = r"`\x` is no escape; a backslash is written \\";
const NO_BLANK: &str = r"`\ ` is no escape; a backslash is written \\";
const FOUR: &str = r"`\u12` needs 4 hexadecimal digits";
const EIGHT: &str = r"`\U0001234` needs 8 hexadecimal digits";
const TOO_MANY: &str = "`'` is too much: only a comment may follow on this line";

const TEXTS: Cases = &[
    ("a = \"x", 1, 5, SHORT),
    ("a = 'x\n'", 1, 5, SHORT),
    ("a = \"x\\", 1, 5, SHORT),
    ("a = \"x\\\n\"", 1, 5, SHORT),
    ("'a = 1", 1, 1, SHORT),
    ("a = \"\"\"x\n\n\"\"", 1, 5, LONG),
    ("a = '''x\n\n''", 1, 5, LONG),
    ("a = \"\"\"x\\\n", 1, 5, LONG),
    ("a = \"é\\x41\"", 1, 7, NO_X),
    ("a = \"\"\"\nx\\ y\"\"\"", 2, 2, NO_BLANK),
    ("a = \"\\u12\"", 1, 6, FOUR),
    ("a = \"\\U0001234\"", 1, 6, EIGHT),
    ("a = \"\\uD800\"", 1, 6, r"`\uD800` is no character"),
    ("a = \"\\UFFFFFFFF\"", 1, 6, r"`\UFFFFFFFF` is no character"),
    ("a = '''x''''''", 1, 14, TOO_MANY),
];

#[test]
fn texts_that_are_not_well_written() {
    check(TEXTS);
}

const UNDERSCORE: &str = "an underscore stands only between two digits";

const NUMBERS: Cases = &[
    ("a = 01", 1, 5, "`01` starts with a 0 too many"),
    ("a = -0_1", 1, 5, "`-0_1` starts with a 0 too many"),
    ("a = 1_", 1, 6, UNDERSCORE),
    ("a = 1__0", 1, 6, UNDERSCORE),
    ("a = 0x_1", 1, 7, UNDERSCORE),
    ("a = 0x", 1, 5, "`0x` has no digits"),
    ("a = 0x1G", 1, 8, "`G` is no digit of a hexadecimal number"),
    ("a = 0o18", 1, 8, "`8` is no digit of an octal number"),
    ("a = 0b12", 1, 8, "`2` is no digit of a binary number"),
    ("a = 4000h", 1, 9, "`h` is no digit of a decimal number"),
    ("a = 0X10", 1, 6, "`X` is no digit of a decimal number"),
    ("a = 12-3", 1, 7, "`-` is no digit of a decimal number"),
    (
        "a = -0x10",
        1,
        5,
        "`-0x10` has a sign; only decimal numbers may",
    ),
    (
        "a = _1",
        1,
        5,
        "`_1` is no number, and text stands in quotes",
    ),
    ("a = +", 1, 5, "`+` is no number, and text stands in quotes"),
    (
        "a = user",
        1,
        5,
        "`user` is no number, and text stands in quotes",
    ),
    (
        "a = é x",
        1,
        5,
        "`é` is no number, and text stands in quotes",
    ),
    (
        "a = 9223372036854775808",
        1,
        5,
        "`9223372036854775808` does not fit in 64 bits",
    ),
    (
        "a = 0x8000000000000000",
        1,
        5,
        "`0x8000000000000000` does not fit in 64 bits",
    ),
];

#[test]
fn numbers_that_are_not_well_written() {
    check(NUMBERS);
}

const BOOLEAN: &str = "a boolean stands here, and a profile has only numbers and text";
const FLOAT: &str = "a floating-point number stands here, and a profile has only numbers and text";
const DATE: &str = "a date stands here, and a profile has only numbers and text";
const TIME: &str = "a time stands here, and a profile has only numbers and text";

const OTHER_VALUES: Cases = &[
    ("a = true", 1, 5, BOOLEAN),
    ("a = [1,\n false]", 2, 2, BOOLEAN),
    ("a = 1.5", 1, 5, FLOAT),
    ("a = -1_0.0e3", 1, 5, FLOAT),
    ("a = 1e6", 1, 5, FLOAT),
    ("a = 4E-2", 1, 5, FLOAT),
    ("a = +inf", 1, 5, FLOAT),
    ("a = nan", 1, 5, FLOAT),
    ("a = 1979-05-27", 1, 5, DATE),
    ("a = 1979-05-27T07:32:00Z", 1, 5, DATE),
    ("a = 07:32:00", 1, 5, TIME),
];

#[test]
fn values_that_no_profile_has() {
    check(OTHER_VALUES);
}

const LONE_RETURN: &str = "a carriage return without a line feed behind it";
const ESCAPE: &str = r"a control character, U+001B; in double quotes it is written \u001B";
const NUL: &str = r"a control character, U+0000; in double quotes it is written \u0000";
const DELETE: &str = r"a control character, U+007F; in double quotes it is written \u007F";

const CONTROLS: Cases = &[
    ("a = 1\rb = 2", 1, 6, LONE_RETURN),
    ("a = '''\r'''", 1, 8, LONE_RETURN),
    ("a = 1 # x\r", 1, 10, LONE_RETURN),
    ("# é\u{1B}[2J", 1, 4, ESCAPE),
    ("\r\na = 'x\0'", 2, 7, NUL),
    ("\u{FEFF}\u{7F}", 1, 1, DELETE),
];

#[test]
fn control_characters_are_refused_everywhere() {
    check(CONTROLS);
}

#[test]
fn bytes_that_are_no_utf_8() {
    let cases: [(&[u8], &str); 4] = [
        (
            b"name = \"\xE9\"\n",
            "line 1, column 9: byte 9 is no UTF-8: E9h",
        ),
        (
            b"\xC3\xA9\r\n\xC3\xA9\xC3\n",
            "line 2, column 2: byte 7 is no UTF-8: C3h",
        ),
        (
            b"\xFF\xFEn\0a\0",
            "line 1, column 1: byte 1 is no UTF-8: FFh",
        ),
        (
            b"\xEF\xBB\xBF\x80",
            "line 1, column 1: byte 4 is no UTF-8: 80h",
        ),
    ];
    for (bytes, expected) in cases {
        let error = parse(bytes).expect_err("no text");
        assert_eq!(error.to_string(), expected);
    }
}
