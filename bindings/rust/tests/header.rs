//! Holds every declaration of `src/raw.rs` to `include/yubisorade.h`: names, parameters and results of the calls, fields of
//! the structs, the constants. Both files are read as text.

use std::collections::BTreeMap;
use std::mem::size_of;
use yubisorade::raw::*;

const HEADER: &str = include_str!("../../../include/yubisorade.h");
const RAW: &str = include_str!("../src/raw.rs");

/// Pairs of a name and a Rust type, in order.
type Named = Vec<(String, String)>;

/// What a file declares: structs by name with their fields; calls by name with their parameters and result.
#[derive(Debug, Default, PartialEq, Eq)]
struct Declared {
    structs: BTreeMap<String, Named>,
    calls: BTreeMap<String, (Named, String)>,
}

/// What stands between `open` and the next `close`, and what follows.
fn between<'a>(text: &'a str, open: &str, close: &str) -> Option<(&'a str, &'a str)> {
    let (_, rest) = text.split_once(open)?;
    rest.split_once(close)
}

/// The header without comments, preprocessor lines, enums and `YUBI_MUST_USE`.
fn c_code(header: &str) -> String {
    let mut code = String::new();
    let mut rest = header;
    while let Some((before, comment)) = rest.split_once("/*") {
        code.push_str(before);
        rest = comment.split_once("*/").expect("a comment that ends").1;
    }
    code.push_str(rest);
    let code = code.replace("\\\n", " ");
    let mut code = code.lines().filter(|line| !line.starts_with('#')).collect::<Vec<_>>().join("\n");
    while let Some(start) = code.find("typedef enum ").or_else(|| code.find("enum ")) {
        let body = code[start..].find('}').expect("an enum that ends") + start;
        let end = code[body..].find(';').expect("an enum's name") + body + 1;
        code.replace_range(start..end, "");
    }
    code.replace("YUBI_MUST_USE", "")
}

/// `const uint8_t *curve` as the name `curve` and the Rust type `*const u8`.
fn c_variable(text: &str) -> (String, String) {
    let text = text.trim();
    let start = text.rfind(|c: char| !c.is_ascii_alphanumeric() && c != '_').expect("a type and a name") + 1;
    let (kind, name) = text.split_at(start);
    (name.to_string(), c_type(kind))
}

fn c_type(text: &str) -> String {
    let words = text.replace('*', " * ");
    let words: Vec<&str> = words.split_whitespace().collect();
    let plain = |word: &str| match word {
        "uint64_t" => "u64".to_string(),
        "uint32_t" => "u32".to_string(),
        "uint8_t" => "u8".to_string(),
        "size_t" => "usize".to_string(),
        other => other.to_string(),
    };
    match words[..] {
        ["const", kind, "*"] => format!("*const {}", plain(kind)),
        [kind, "*"] => format!("*mut {}", plain(kind)),
        [kind] => plain(kind),
        _ => panic!("an unexpected type in the header: {}", text),
    }
}

fn declared_in_c(header: &str) -> Declared {
    let code = c_code(header);
    let mut declared = Declared::default();
    let mut rest = &code[..];
    let mut outside = String::new();
    while let Some((before, found)) = rest.split_once("typedef struct ") {
        outside.push_str(before);
        let (name, found) = found.split_once('{').expect("a struct's fields");
        let (fields, found) = found.split_once('}').expect("a struct that ends");
        let (again, found) = found.split_once(';').expect("a struct's name");
        assert_eq!(name.trim(), again.trim());
        let fields = fields.split(';').filter(|field| !field.trim().is_empty()).map(c_variable).collect();
        declared.structs.insert(name.trim().to_string(), fields);
        rest = found;
    }
    outside.push_str(rest);
    for statement in outside.split(';') {
        if let Some((head, parameters)) = statement.split_once('(') {
            let head = head.rsplit('}').next().unwrap_or(head).rsplit('{').next().unwrap_or(head);
            let (name, result) = c_variable(head);
            let parameters = parameters.trim_end().strip_suffix(')').expect("parameters that end");
            let parameters =
                if parameters == "void" { Vec::new() } else { parameters.split(',').map(c_variable).collect() };
            declared.calls.insert(name, (parameters, result));
        }
    }
    declared
}

fn rust_variable(text: &str) -> Option<(String, String)> {
    let (name, kind) = text.trim().split_once(':')?;
    Some((name.trim_start_matches("pub ").trim().to_string(), kind.trim().to_string()))
}

fn declared_in_rust(source: &str) -> Declared {
    let code: Vec<&str> = source.lines().filter(|line| !line.trim_start().starts_with("//")).collect();
    let code = code.join("\n");
    let mut declared = Declared::default();
    let mut rest = &code[..];
    while let Some((attributes, after)) = between(rest, "#[repr(C)]", "pub struct ") {
        assert!(!attributes.contains('}'), "repr(C) on something else than a struct");
        let (name, after) = after.split_once('{').expect("a struct's fields");
        let (fields, after) = after.split_once('}').expect("a struct that ends");
        declared.structs.insert(name.trim().to_string(), fields.split(',').filter_map(rust_variable).collect());
        rest = after;
    }
    assert_eq!(declared.structs.len(), code.matches("pub struct ").count(), "a struct without repr(C)");
    let (block, _) = between(&code, "extern \"C\" {", "\n}").expect("the calls");
    for statement in block.split(';') {
        if let Some((name, rest)) = between(statement, "fn ", "(") {
            let (parameters, result) = rest.split_once(')').expect("parameters that end");
            let result = result.trim().strip_prefix("->").expect("a result").trim();
            let parameters = parameters.split(',').filter_map(rust_variable).collect();
            declared.calls.insert(name.to_string(), (parameters, result.to_string()));
        }
    }
    declared
}

#[test]
fn declarations_are_the_headers() {
    let (c, rust) = (declared_in_c(HEADER), declared_in_rust(RAW));
    for (name, fields) in &c.structs {
        assert_eq!(rust.structs.get(name), Some(fields), "struct {}", name);
    }
    for (name, call) in &c.calls {
        assert_eq!(rust.calls.get(name), Some(call), "{}", name);
    }
    assert_eq!(c, rust);
    let calls: Vec<&str> = c.calls.keys().map(|name| &name[..]).collect();
    let wanted = [
        "yubi_add",
        "yubi_check_curve",
        "yubi_check_divisor",
        "yubi_check_order",
        "yubi_double",
        "yubi_first_repeat",
        "yubi_fresh_total",
        "yubi_multiply",
        "yubi_multiply_inversion_free",
        "yubi_next_divisor",
        "yubi_opposite",
        "yubi_read_pole_file",
        "yubi_rewrite_curve",
        "yubi_rewrite_divisor",
        "yubi_scan",
        "yubi_scan_lent",
        "yubi_split",
        "yubi_total_batch",
        "yubi_write_pole_file",
    ];
    assert_eq!(calls, wanted);
    assert_eq!(c.structs.len(), 7);
    assert_eq!(c.calls["yubi_add"].0.len(), 8);
}

/// Enums, defines that go on and `YUBI_MUST_USE` are passed over; what stands behind them isn't.
#[test]
fn what_rust_has_no_need_of_is_passed_over() {
    let more = "#define YUBI_MUST_USE \\\n    something(int else)\ntypedef enum Yubi { YUBI_A = 0, YUBI_B } Yubi;\nenum { YUBI_C = 3 };\n";
    let header = format!("{}{}", more, HEADER).replace("YubiAnswer yubi_", "YUBI_MUST_USE YubiAnswer yubi_");
    assert_eq!(declared_in_c(&header), declared_in_c(HEADER));
    let lost = format!("{}YubiAnswer yubi_other(void);\n{}", more, HEADER);
    assert_eq!(declared_in_c(&lost).calls.len(), declared_in_c(HEADER).calls.len() + 1);
}

/// The comparison sees one changed word of either file.
#[test]
fn a_changed_declaration_shows() {
    let changes = [
        ("uint64_t doublings;", "uint32_t doublings;"),
        ("uint64_t u1;", "uint64_t w1;"),
        ("const uint8_t *b,", "uint8_t *b,"),
        ("YubiTotal yubi_total_batch", "YubiAnswer yubi_total_batch"),
        ("yubi_scan(YubiRunning total,", "yubi_scan(YubiRunning *total,"),
        ("yubi_scan_lent(YubiRunning *total,", "yubi_scan_lent(const YubiRunning *total,"),
        ("YubiRunning yubi_fresh_total(uint32_t pole);", "YubiRunning yubi_fresh_total(void);"),
        ("uint32_t pole;  /*", "uint64_t pole;  /*"),
        ("YubiAnswer yubi_write_pole_file(uint32_t pole,", "YubiAnswer yubi_write_pole_file(uint64_t pole,"),
        ("YubiPole yubi_read_pole_file(", "YubiAnswer yubi_read_pole_file("),
        ("size_t scalar_length, ", ""),
        ("const uint8_t *primes,", "const uint32_t *primes,"),
        ("const uint8_t *order, size_t order_length, ", ""),
        ("yubi_opposite", "yubi_negate"),
        ("YubiAnswer yubi_split(const uint8_t *curve, size_t curve_length, ", "YubiAnswer yubi_split("),
    ];
    let rust = declared_in_rust(RAW);
    for (old, new) in changes {
        let changed = HEADER.replace(old, new);
        assert_ne!(changed, HEADER, "{}", old);
        assert_ne!(declared_in_c(&changed), rust, "{}", old);
    }
    let unmarked = RAW.replacen("out: *mut u8", "out: *const u8", 1);
    assert_ne!(declared_in_rust(&unmarked), declared_in_c(HEADER));
}

#[test]
fn constants_are_the_headers() {
    let defined = |name: &str| -> u64 {
        let line = HEADER.lines().find(|line| line.starts_with(&format!("#define {} ", name))).expect(name);
        line.split_whitespace().nth(2).expect(name).parse().expect(name)
    };
    assert_eq!(defined("YUBI_DIVISOR_ROOM"), yubisorade::DIVISOR_ROOM as u64);
    assert_eq!(defined("YUBI_CURVE_ROOM"), yubisorade::CURVE_ROOM as u64);
    assert_eq!(defined("YUBI_SPLIT_ROOM"), yubisorade::SPLIT_ROOM as u64);
    assert_eq!(defined("YUBI_POLE_FILE_ROOM"), yubisorade::POLE_FILE_ROOM as u64);
    assert_eq!(yubisorade::POLE_FILE_ROOM, 9 + yubisorade::CURVE_ROOM + 2 + 4096 * yubisorade::DIVISOR_ROOM);
    assert_eq!(defined("YUBI_SCALAR_ROOM"), yubisorade::SCALAR_ROOM as u64);
    assert_eq!(defined("YUBI_LARGEST_TRAINING"), yubisorade::LARGEST_TRAINING);
    assert_eq!(defined("YUBI_MOST_PRIMES"), yubisorade::MOST_PRIMES as u64);
    assert_eq!(defined("YUBI_MOST_RECORDS"), yubisorade::MOST_RECORDS);
}

/// Every field but a pole is 8 bytes, without gaps; 4 unused bytes stand behind a pole.
#[test]
fn sizes() {
    assert_eq!(size_of::<YubiAnswer>(), 3 * 8);
    assert_eq!(size_of::<YubiMultiple>(), 5 * 8);
    assert_eq!(size_of::<YubiTotal>(), 4 * 8);
    assert_eq!(size_of::<YubiRepeat>(), 5 * 8);
    assert_eq!(size_of::<YubiRunning>(), 9 * 8);
    assert_eq!(size_of::<YubiScanned>(), 12 * 8);
    assert_eq!(size_of::<YubiPole>(), 4 * 8);
}
