//! `include/oilwhisper.h` against what this crate links by: the same structs, sizes, offsets and numbers, read by a C compiler and by a C++ compiler.

use oilwhisper::calls::Refusal;
use oilwhisper::{calls, ffi};
use std::fmt::Write as _;
use std::io::Write as _;
use std::mem::MaybeUninit;
use std::path::Path;
use std::process::{Command, Stdio};
use std::ptr::addr_of;

/// Writes an assertion for the size of each struct and the offset of each field. A field that is left out does not compile.
macro_rules! layouts {
    ($claims:ident: $($c:ident $rust:ident { $($field:ident)* })*) => {$(
        fn $c(claims: &mut String) {
            #[allow(dead_code)]
            fn has_no_other_field(value: &ffi::$rust) {
                let ffi::$rust { $($field: _),* } = value;
            }
            let value = MaybeUninit::<ffi::$rust>::uninit();
            let start = value.as_ptr();
            let size = std::mem::size_of::<ffi::$rust>();
            writeln!(claims, "CLAIM(sizeof(struct {0}) == {1});", stringify!($c), size).unwrap();
            $(
                let field = unsafe { addr_of!((*start).$field) };
                let offset = field as usize - start as usize;
                writeln!(claims, "CLAIM(offsetof(struct {}, {}) == {});", stringify!($c), stringify!($field), offset).unwrap();
            )*
        }
        $c($claims);
    )*};
}

macro_rules! numbers {
    ($claims:ident: $($c:ident $value:expr,)*) => {$(
        writeln!($claims, "CLAIM({} == {});", stringify!($c), $value).unwrap();
    )*};
}

fn claims() -> String {
    let mut text = String::new();
    let claims = &mut text;
    layouts! { claims:
        ow_ends Ends { local_port peer_port my_tag peer_tag streams_in streams_out options }
        ow_keeping Keeping { point come dups listed }
        ow_control Control { cwnd ssthresh partial }
        ow_clock Clock { sampled srtt rttvar rto }
        ow_path Path { control clock flight running until tries }
        ow_sender Sender { acked next_tsn advertised oldest path mode }
        ow_head Head { state tries cookie_len ends keeping sender }
        ow_association Record { head held next_in places next_out cookie }
    }
    numbers! { claims:
        OW_PLACES ffi::PLACES,
        OW_STREAMS ffi::STREAMS,
        OW_STREAMS calls::STREAMS_MOST,
        OW_PAYLOAD calls::PAYLOAD,
        OW_AREA calls::AREA,
        OW_OUTPUT calls::OUTPUT,
        OW_MESSAGE_MOST calls::MESSAGE_MOST,
        OW_COOKIE_MOST ffi::COOKIE_MOST,
        OW_LISTED ffi::LISTED,
        OW_BLOCKS ffi::BLOCKS,
        OW_VERDICTS ffi::VERDICTS,
        OW_HELD_WORDS ffi::HELD_WORDS,
        OW_PLACE_WORDS ffi::PLACE_WORDS,
        OW_VERDICT_WORDS ffi::VERDICT_WORDS,
        OW_VERSION ffi::VERSION,
        OW_BOOK_9260 ffi::BOOK_9260,
        OW_BOOK_4960 ffi::BOOK_4960,
        OW_HEAD Refusal::TAG.0,
        OW_STATE Refusal::STATE.0,
        OW_DUPLICATE Refusal::DUPLICATE.0,
        OW_WEDGED Refusal::WEDGED.0,
        OW_FAR Refusal::FAR.0,
        OW_STRAY Refusal::STRAY.0,
        OW_NOTHING Refusal::NOTHING.0,
        OW_SHORT ffi::SHORT,
        OW_FULL Refusal::FULL.0,
        OW_CLASHING Refusal::CLASHING.0,
        OW_OPPOSITE Refusal::OPPOSITE.0,
        OW_CLOSED ffi::CLOSED,
        OW_COOKIE_WAIT ffi::COOKIE_WAIT,
        OW_COOKIE_ECHOED ffi::COOKIE_ECHOED,
        OW_ESTABLISHED ffi::ESTABLISHED,
        OW_SHUTDOWN_PENDING ffi::SHUTDOWN_PENDING,
        OW_SHUTDOWN_SENT ffi::SHUTDOWN_SENT,
        OW_SHUTDOWN_RECEIVED ffi::SHUTDOWN_RECEIVED,
        OW_SHUTDOWN_ACK_SENT ffi::SHUTDOWN_ACK_SENT,
        OW_SAW_NOTHING ffi::SAW_NOTHING,
        OW_SAW_INIT ffi::SAW_INIT,
        OW_SAW_COOKIE_ECHO ffi::SAW_COOKIE_ECHO,
        OW_BAD ffi::BAD,
        OW_LATE ffi::LATE,
        OW_GOOD ffi::GOOD,
        OW_ACCEPTED ffi::ACCEPTED,
        OW_REFUSED ffi::REFUSED,
        OW_SKIPPED ffi::SKIPPED,
        OW_SKIPPED_REPORTED ffi::SKIPPED_REPORTED,
        OW_STOPPED ffi::STOPPED,
        OW_STOPPED_REPORTED ffi::STOPPED_REPORTED,
        OW_UNREAD ffi::UNREAD,
        OW_NO_EVENT ffi::NO_EVENT,
        OW_UP ffi::UP,
        OW_DOWN_ABORT ffi::DOWN_ABORT,
        OW_DOWN_STALE ffi::DOWN_STALE,
        OW_DOWN_HOST_NAME ffi::DOWN_HOST_NAME,
        OW_DOWN_SHUT_DOWN ffi::DOWN_SHUT_DOWN,
        OW_CAUSE_NONE ffi::CAUSE_NONE,
        OW_CAUSE_STREAM ffi::CAUSE_STREAM,
        OW_CAUSE_STALE ffi::CAUSE_STALE,
        OW_CAUSE_NO_DATA ffi::CAUSE_NO_DATA,
        OW_CAUSE_USER ffi::CAUSE_USER,
        OW_CAUSE_VIOLATION ffi::CAUSE_VIOLATION,
    }
    text
}

/// What the compiler says to a source that includes the header, or nothing where it is content.
fn complaints(compiler: &str, language: &str, assertion: &str, claims: &str) -> String {
    let include = Path::new(env!("CARGO_MANIFEST_DIR")).join("../include");
    let mut run = Command::new(compiler)
        .args(["-fsyntax-only", "-Wall", "-Wextra", "-Werror", "-pedantic", "-x", language, "-I"])
        .arg(include)
        .arg("-")
        .stdin(Stdio::piped())
        .stderr(Stdio::piped())
        .spawn()
        .unwrap_or_else(|e| panic!("cannot run {}: {}", compiler, e));
    let source = format!("#include <oilwhisper.h>\n#define CLAIM(c) {}((c), #c)\n{}int main(void) {{ return 0; }}\n", assertion, claims);
    run.stdin.take().expect("it was piped").write_all(source.as_bytes()).expect("the compiler reads its source");
    let ended = run.wait_with_output().expect("the compiler ends");
    let said = String::from_utf8_lossy(&ended.stderr).into_owned();
    assert_eq!(ended.status.success(), said.is_empty(), "{}", said);
    said
}

#[test]
fn c_reads_the_header_as_rust_does() {
    assert_eq!(complaints("cc", "c", "_Static_assert", &claims()), "");
}

#[test]
fn cpp_reads_the_header_as_rust_does() {
    let has_cpp = Command::new("c++").arg("--version").stdout(Stdio::null()).status().is_ok();
    if !has_cpp {
        println!("this machine has no C++ compiler: the header was read as C alone");
        return;
    }
    assert_eq!(complaints("c++", "c++", "static_assert", &claims()), "");
}

#[test]
fn a_wrong_claim_is_refused() {
    let wrong = "CLAIM(offsetof(struct ow_ends, my_tag) == 5);\n";
    assert!(complaints("cc", "c", "_Static_assert", wrong).contains("ow_ends"));
    assert!(complaints("cc", "c", "_Static_assert", "CLAIM(OW_STALE == 16);\n").contains("OW_STALE"));
}

/// The functions that are linked: the same declarations in the header and in `ffi`, and as they are proved.
#[test]
fn every_function_is_declared_alike() {
    let proved: Vec<String> = exported().iter().map(|declaration| rust_of_proved(declaration)).collect();
    let header: Vec<String> = declared_in_c().iter().map(|declaration| rust_of_c(declaration)).collect();
    let ffi = include_str!("../src/ffi.rs").replace("pub(crate) fn", "pub fn");
    let linked: Vec<String> = declarations(&ffi, "pub fn ow_").iter().map(|declaration| in_numbers(declaration)).collect();
    assert_eq!(proved.len(), 19);
    for (place, others) in [("the header", header), ("ffi.rs", linked)] {
        for function in &proved {
            assert!(others.contains(function), "{} is not among those of {}: {:#?}", function, place, others);
        }
        assert_eq!(others.len(), proved.len(), "{}", place);
    }
}

/// A `bool` that is neither 0 nor 1 means nothing in C. So an answer may have one, and what is lent may not.
#[test]
fn only_answers_have_a_bool() {
    let header = include_str!("../../include/oilwhisper.h");
    let structs = header.split("\nstruct ow_").skip(1).filter_map(|after| after.split_once(" {"));
    let with_bool = structs.filter(|(_, fields)| fields.split('}').next().unwrap_or_default().contains("bool "));
    let mut names: Vec<&str> = with_bool.map(|(name, _)| name).collect();
    names.sort_unstable();
    assert_eq!(names, ["answer", "held", "message", "place", "transmitted"]);
}

/// The exported functions of the proved crate, each without its promise and on one line.
fn exported() -> Vec<String> {
    let folder = Path::new(env!("CARGO_MANIFEST_DIR")).join("../crates/face_c/src");
    let sources = std::fs::read_dir(folder).expect("the proved crate has sources").flatten();
    let texts = sources.map(|source| std::fs::read_to_string(source.path()).expect("a source is text"));
    texts.flat_map(|text| declarations(&text.replace("\n    ensures", ";"), "pub extern \"C\" fn ow_")).collect()
}

fn declared_in_c() -> Vec<String> {
    let header = include_str!("../../include/oilwhisper.h");
    ["uint32_t ow_", "void ow_"].iter().flat_map(|begins| declarations(header, begins)).collect()
}

/// The declarations of functions, each without its semicolon and on one line; one begins a line with these words.
fn declarations(text: &str, begins: &str) -> Vec<String> {
    let mut found = Vec::new();
    for (at, _) in text.match_indices(begins) {
        let starts_line = text[..at].chars().rev().take_while(|c| *c != '\n').all(char::is_whitespace);
        let mut depth = 0;
        // A semicolon within brackets is one of an array's type.
        let ends = text[at..].find(|c| {
            depth += i32::from(c == '[') - i32::from(c == ']');
            c == ';' && depth == 0
        });
        if starts_line {
            let line = text[at..at + ends.expect("a declaration ends")].split_whitespace().collect::<Vec<_>>().join(" ");
            found.push(line.replace("( ", "(").replace(", )", ")"));
        }
    }
    found
}

/// A declaration of the proved crate, `pub extern "C" fn ow_lent_t3(k: &mut Kept, held: &[u32; 512], ...) -> u32`, as one of `ffi`.
fn rust_of_proved(declaration: &str) -> String {
    let (head, rest) = declaration.split_once('(').expect("a function has parameters");
    let (parameters, answer) = rest.split_once(')').expect("parameters end");
    let each = parameters.split(", ").filter(|parameter| !parameter.is_empty()).map(|parameter| {
        let (name, of) = parameter.split_once(": ").expect("a name stands before the type");
        match of {
            "&mut Kept" => "head: *mut Head".into(),
            "&[u8]" => format!("{name}: *const u8, {name}_len: usize"),
            "&mut [u8]" => format!("{name}: *mut u8, {name}_len: usize"),
            of => format!("{}: {}", name, of.replace("&mut ", "*mut ").replace('&', "*const ")),
        }
    });
    format!("{}({}){}", head.replace("pub extern \"C\"", "pub"), each.collect::<Vec<_>>().join(", "), answer)
}

/// A declaration of C, `uint32_t ow_lent_t3(struct ow_head *head, const uint32_t held[OW_HELD_WORDS], ...)`, as one of `ffi`.
fn rust_of_c(declaration: &str) -> String {
    let (head, parameters) = declaration.split_once('(').expect("a function has parameters");
    let (answer, name) = head.rsplit_once(' ').expect("an answer stands before the name");
    let parameters = parameters.trim_end_matches(')').split(", ").filter(|parameter| *parameter != "void").map(parameter_of);
    let answer = if answer == "void" { String::new() } else { format!(" -> {}", type_of(answer)) };
    in_numbers(&format!("pub fn {}({}){}", name, parameters.collect::<Vec<_>>().join(", "), answer))
}

fn parameter_of(parameter: &str) -> String {
    let (parameter, count) = parameter.trim_end_matches(']').split_once('[').map_or((parameter, None), |(before, count)| (before, Some(count)));
    let (of, name) = parameter.rsplit_once(' ').expect("a type stands before the name");
    let (pointer, of) = of.strip_prefix("const ").map_or(("*mut", of), |of| ("*const", of));
    match (name.strip_prefix('*'), count) {
        (Some(name), _) => format!("{}: {} {}", name, pointer, type_of(of)),
        (None, Some(count)) => format!("{}: {} [{}; {}]", name, pointer, type_of(of), count.replace("OW_", "")),
        (None, None) => format!("{}: {}", name, type_of(of)),
    }
}

fn type_of(of: &str) -> &str {
    match of {
        "uint8_t" => "u8",
        "uint16_t" | "ow_stream" | "ow_ssn" => "u16",
        "uint32_t" | "ow_tsn" => "u32",
        "size_t" => "usize",
        "struct ow_head" => "Head",
        _ => panic!("{} is no type that crosses", of),
    }
}

/// Counts as numbers in place of names.
fn in_numbers(declaration: &str) -> String {
    let counts = [
        ("HELD_WORDS * PLACES", ffi::HELD_WORDS * ffi::PLACES),
        ("PLACE_WORDS * PLACES", ffi::PLACE_WORDS * ffi::PLACES),
        ("VERDICT_WORDS * VERDICTS", ffi::VERDICT_WORDS * ffi::VERDICTS),
        ("STREAMS", ffi::STREAMS),
        ("COOKIE_MOST", ffi::COOKIE_MOST),
        ("BLOCKS", ffi::BLOCKS),
        ("LISTED", ffi::LISTED),
    ];
    counts.iter().fold(declaration.into(), |text: String, (name, count)| text.replace(&format!("; {}]", name), &format!("; {}]", count)))
}
