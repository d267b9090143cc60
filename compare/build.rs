//! Makes the modules that `src/original.rs` includes from the original's files, and links the port.
//!
//! The masker is taken whole and changed in places; of lib.rs only the checks of its options are cut out.
//! The original is read from ../shared/docs/src, or from the folder that the variable LONGDUST_SRC
//! names, both seen from the repository; the archive is that of dist/x86_64, or of the folder that
//! LONGDUST_ARCHIVE names, as `make compare` does. A change names the text it replaces, which must stand exactly
//! once; otherwise the build stops and says which place has moved.

use std::path::{Path, PathBuf};
use std::{env, fs, process};

/// A place of longdust.rs: what it is, its text, and what stands there instead.
struct Change(&'static str, &'static str, &'static str);

/// Every variant tells of finds that begin before the first letter, and is otherwise what its other changes say.
const TELLING: Change = Change("telling finds", "if st2 < end {", "crate::original::tell_start(st2); if st2 < end {");

/// Starts before the first letter are raised to 0, as the request L6 asks: the one line in which the reference differs
/// from the original where a find begins before the first letter.
const RAISED: Change = Change("raised starts", "if st2 < end {", "let st2 = st2.max(0); if st2 < end {");

/// ln, exp and powi by the paper's formulas.
const FORMULAS: &[Change] = &[
    Change("ln in the ln table", "(i as f64).ln())", "crate::formulas::ln(i as f64))"),
    Change("ln in max_test", "(i as f64).ln() /", "crate::formulas::ln(i as f64) /"),
    Change("first ln of Stirling's formula", "lambda.ln()", "crate::formulas::ln(lambda)"),
    Change(
        "second ln of Stirling's formula",
        "(2.0 * PI * E * lambda).ln()",
        "crate::formulas::ln(2.0 * PI * E * lambda)",
    ),
    Change("power of GC", "(gc / 0.5).powi(i as i32)", "crate::formulas::powi(gc / 0.5, i)"),
    Change("power of AT", "((1.0 - gc) / 0.5).powi((k - i) as i32)", "crate::formulas::powi((1.0 - gc) / 0.5, k - i)"),
    Change("exp in the f table", "(-lambda).exp()", "crate::formulas::exp_neg(lambda)"),
];

/// Both tables are arguments, and max_test reads the ln table too.
const HANDED: &[Change] = &[
    Change(
        "arguments of process",
        "process(sequence: &[u8], options: LongdustOptions)",
        "process(sequence: &[u8], options: LongdustOptions, ln: Vec<f64>, f: Vec<f64>)",
    ),
    Change("where f is made", "let f = match options.gc {", "let f = match options.gc { _ if true => f,"),
    Change("where ln is made", "let c = &ln_table()[..=options.window_size];", "let c = ln;"),
    Change("type of the ln table", "c: &'static [f64],", "c: Vec<f64>,"),
    Change("ln in max_test", "(i as f64).ln() /", "c_val /"),
];

/// Wrong originals, one change each on top of HANDED and RAISED: the tests demand that random requests and the
/// recorded list tell every one of them from the right one.
const WRONG: &[Change] = &[
    Change("backward_tie", "sl >= max_sb", "sl > max_sb"),
    Change("forward_tie", "sl >= max_sf", "sl > max_sf"),
    Change("near_best", "< 1e-9", "< 1e-8"),
    Change("peak_at_zero", "last_sl > 0.0", "last_sl >= 0.0"),
    Change("noted_place", "pos: i + 1", "pos: i"),
    Change("noted_score", "pos: i + 1", "pos: { max_sb = last_sl; i + 1 }"),
    Change("xdrop_equal", "max_sb - sl > xdrop", "max_sb - sl >= xdrop"),
    Change("forward_stop", "max_back + 1e-6", "max_back"),
    Change("skipped_candidate", "pos < max_end", "pos <= max_end"),
    Change("no_skip", "pos < max_end", "false"),
    Change("second_sum", "sw - f_l < 0.0", "sw - f_l <= 0.0"),
    Change("back_check", "if s < 0.0", "if s <= 0.0"),
    Change("window_score", "swin > 0.0", "swin >= 0.0"),
    Change("max_test_zero", "sl > 0.0 {", "sl >= 0.0 {"),
    Change("start_dropped", "let st2 = st2.max(0);", ""),
    Change("start_raised_to_1", "st2.max(0)", "if st2 < 0 { 1 } else { st2 }"),
    Change("st2_at_end", "if st2 < end {", "if st2 <= end {"),
    Change("merge_touching", "intv.start <= end", "intv.start < end"),
    Change("save_touching", "start <= self.results[k - 1].end", "start < self.results[k - 1].end"),
    Change("last_q_stays", "last_q -= 1", "last_q -= 0"),
    Change(
        "last_q_each_letter",
        "self.window.push_back(packed);",
        "last_q -= (last_q > 0 && i < self.options.window_size) as i64; self.window.push_back(packed);",
    ),
    Change("scan_count_stays", "= ht_k - 1;", "= ht_k;"),
    Change("extend_early", "(i as i64) - start >= qlen", "(i as i64) - start + 1 >= qlen"),
    Change("never_extend", "j = self.extend();", "j = -1;"),
    Change("always_extend", "j = self.extend();", "j = self.extend().max(0);"),
    Change("approx_ignored", "if self.options.approx {", "if false {"),
    Change("order_of_sums", "sw += sw_val - self", "sw = sw + sw_val - self"),
];

/// The parts of lib.rs that check the options, each from its first line to the first line that is `}`.
const CHECKS: [&str; 3] = ["trait Validate {", "fn validate_base_params(", "impl Validate for LongdustOptions {"];

/// The lines of lib.rs that hold its limits, which its other files read from the root of the crate.
const LIMITS: [&str; 2] = ["const MAX_LONGDUST_KMER: ", "const MAX_LONGDUST_WINDOW_SIZE: "];

fn main() {
    let here = PathBuf::from(env::var("CARGO_MANIFEST_DIR").unwrap());
    let out = PathBuf::from(env::var("OUT_DIR").unwrap());
    let root = here.parent().unwrap();
    let folder = root.join(env::var("LONGDUST_SRC").unwrap_or("../shared/docs/src".to_string()));
    println!("cargo:rerun-if-env-changed=LONGDUST_SRC");
    println!("cargo:rerun-if-env-changed=LONGDUST_ARCHIVE");

    let longdust = read(&folder.join("longdust.rs.txt"));
    let lib = read(&folder.join("lib.rs.txt"));
    write(&out.join("limits.rs"), &LIMITS.map(|part| cut(&lib, part, "\n")).concat());
    // A sequence is bytes here, of which an original's string is a part.
    write(&out.join("checks.rs"), &CHECKS.map(|part| cut(&lib, part, "\n}\n")).concat().replace("&str", "&[u8]"));
    write(&out.join("common.rs"), &read(&folder.join("common.rs.txt")));
    for (name, changes) in [("unmodified", &[][..]), ("formulas", FORMULAS), ("handed", HANDED)] {
        let text = changed(&longdust, changes);
        write(&out.join(format!("{name}.rs")), &changed(&text, &[TELLING]));
        write(&out.join(format!("{name}_raised.rs")), &changed(&text, &[RAISED]));
    }
    let handed = changed(&changed(&longdust, HANDED), &[RAISED]);
    let mut list = String::new();
    for change in WRONG {
        let file = format!("wrong_{}.rs", change.0);
        write(&out.join(&file), &changed(&handed, std::slice::from_ref(change)));
        list += &format!("variant!({}, \"/{file}\");\n", change.0);
    }
    let names: Vec<_> = WRONG.iter().map(|change| change.0).collect();
    list += &format!("every!({});\n", names.join(", "));
    write(&out.join("wrong.rs"), &list);
    link(&env::var("LONGDUST_ARCHIVE").map_or(root.join("dist/x86_64"), PathBuf::from));
}

/// Links liblongdust_c.a where it has been made; `cfg(port)` says so to the program.
fn link(folder: &Path) {
    let archive = folder.join("liblongdust_c.a");
    println!("cargo:rerun-if-changed=build.rs");
    println!("cargo:rerun-if-changed={}", archive.display());
    println!("cargo:rustc-check-cfg=cfg(port)");
    if archive.exists() {
        println!("cargo:rustc-cfg=port");
        println!("cargo:rustc-link-search=native={}", folder.display());
        println!("cargo:rustc-link-lib=static=longdust_c");
    }
}

fn changed(text: &str, changes: &[Change]) -> String {
    let mut text = text.to_string();
    for Change(place, old, new) in changes {
        let times = text.matches(old).count();
        if times != 1 {
            stop(&format!("longdust.rs.txt: {place} has moved: `{old}` stands {times} times, not once"));
        }
        text = text.replacen(old, new, 1);
    }
    text
}

/// From a text that stands once at the start of a line to the next end.
fn cut<'a>(text: &'a str, start: &str, end: &str) -> &'a str {
    let parts: Vec<_> = text.match_indices(&format!("\n{start}")).collect();
    let [(before, _)] = parts[..] else {
        stop(&format!("lib.rs.txt: `{start}` begins {} lines, not one", parts.len()))
    };
    let part = &text[before + 1..];
    let length = part.find(end).unwrap_or_else(|| stop(&format!("lib.rs.txt: `{start}` has no end")));
    &part[..length + end.len()]
}

fn read(file: &Path) -> String {
    println!("cargo:rerun-if-changed={}", file.display());
    fs::read_to_string(file).unwrap_or_else(|error| {
        stop(&format!("{}: {error} (LONGDUST_SRC may name the folder of the original)", file.display()))
    })
}

fn write(file: &Path, text: &str) {
    fs::write(file, text).unwrap_or_else(|error| stop(&format!("{}: {error}", file.display())));
}

fn stop(message: &str) -> ! {
    eprintln!("compare: {message}");
    process::exit(1)
}
