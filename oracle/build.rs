//! Cuts the judging methods out of the AuraLang sources that AURA_SRC names.
//! No line of them stands in this repository.

#[path = "build/cut.rs"]
mod cut;
#[path = "build/sha256.rs"]
mod sha256;

use cut::Source;
use std::path::{Path, PathBuf};
use std::{env, fs, process};

/// The sources with the SHA-256 of each, as published at commit c401ce55f2.
const PINNED: [(&str, &str); 6] = [
    ("sema/ty.rs", "6615b4270c36375e3437709d69483002821e119b2264a041eec0ed6116066470"),
    ("sema/symbol.rs", "bd645701338298b0bc29ff4f904154fc65ecdd7c8abddf8e22c6116f71f9adad"),
    ("sema/checker.rs", "b4d80c75035e5e81ac0914bd329a33c3b4b72558938d881712c3cfec201b0723"),
    ("ast.rs", "38b40d056ecd416d92ea22f450513eb64280a8e237c0a1e505d4a55c5478eb67"),
    ("span.rs", "68d5c3fe90178a8b4bd286e481a8260b41db8986d04bec4e8592b4ef278cce72"),
    ("errors.rs", "2706f52c899227729c7cf99f0b9f62ff1c60bf2e8d6874ce488b86cc787a358f"),
];

const TY_METHODS: [&str; 8] =
    ["is_nullable", "non_null", "is_numeric", "is_boolean", "is_string", "is_integer", "can_assign_to", "name"];

const CHECKER_METHODS: [&str; 13] = [
    "lookup_var_ty",
    "check_expr",
    "operator_overload_return",
    "is_subclass",
    "check_binary",
    "check_unary",
    "extract_dotted_name",
    "check_call",
    "is_type_variable",
    "param_accepts",
    "check_call_args",
    "check_access",
    "check_member",
];

fn stop(message: &str) -> ! {
    eprintln!("oracle: {}", message);
    process::exit(1)
}

fn sources_folder() -> PathBuf {
    if let Ok(folder) = env::var("AURA_SRC") {
        return PathBuf::from(folder);
    }
    let here = env::var("CARGO_MANIFEST_DIR").unwrap_or_else(|_| ".".to_string());
    Path::new(&here).join("../../shared/docs/src")
}

fn read_source(folder: &Path, path: &str, pinned: &str) -> Source {
    let full = folder.join("seed/compiler/src").join(path);
    println!("cargo:rerun-if-changed={}", full.display());
    let bytes = fs::read(&full).unwrap_or_else(|e| {
        stop(&format!(
            "cannot read {} ({}); AURA_SRC must name a checkout of onlynight/AuraLang at commit c401ce55f2 (see oracle/README.md)",
            full.display(),
            e
        ))
    });
    let sum = sha256::sha256_hex(&bytes);
    if sum != pinned {
        stop(&format!("{} is not the file of commit c401ce55f2: SHA-256 {}, expected {}", full.display(), sum, pinned));
    }
    let text = String::from_utf8(bytes).unwrap_or_else(|_| stop(&format!("{} is not UTF-8", full.display())));
    Source::new(path, &text)
}

/// The text under construction, with what is known of its lines.
struct Out {
    text: String,
    methods: Vec<(String, usize, usize)>,
}

impl Out {
    fn line(&self) -> usize {
        self.text.matches('\n').count() + 1
    }

    fn piece(&mut self, piece: Result<String, String>) -> String {
        let piece = piece.unwrap_or_else(|e| stop(&e));
        self.text.push_str(&piece);
        self.text.push_str("\n\n");
        piece
    }

    fn impl_of(&mut self, source: &Source, of: &str, methods: &[&str]) {
        self.text.push_str(&format!("#[allow(dead_code)]\nimpl {} {{\n", of));
        for name in methods {
            let first = self.line();
            self.piece(source.method(of, name));
            self.methods.push((format!("{}::{}", of, name), first, self.line()));
        }
        self.text.push_str("}\n\n");
    }
}

fn list_of(name: &str, ty: &str, variants: &[String]) -> String {
    let items: Vec<String> = variants.iter().map(|v| format!("{}::{}", ty, v)).collect();
    format!("pub const {}: [{}; {}] = [{}];\n", name, ty, items.len(), items.join(", "))
}

/// A table of the places where the cut text reports, by line.
fn sites(out: &Out) -> String {
    let mut text = String::from("pub const SITES: &[Site] = &[\n");
    for (method, first, last) in &out.methods {
        let lines: Vec<&str> = out.text.lines().collect();
        let body = lines[*first - 1..*last - 1].join("\n");
        for (call, warning) in [("report", false), ("report_warning", true)] {
            for at in cut::code_places(&body, &["self", ".", call, "("]) {
                let line = first + body[..at].matches('\n').count();
                let literal = cut::literal_after(&body, at).unwrap_or_default();
                text.push_str(&format!(
                    "    Site {{ line: {}, method: {:?}, text: \"{}\", warning: {} }},\n",
                    line, method, literal, warning
                ));
            }
        }
    }
    text.push_str("];\n");
    text
}

/// The first line of the last walk over the chosen overload, and the method's last line.
fn last_walk(out: &Out) -> (usize, usize) {
    let (_, first, last) = out
        .methods
        .iter()
        .find(|m| m.0 == "Checker::check_call_args")
        .unwrap_or_else(|| stop("check_call_args was not cut"));
    let lines: Vec<&str> = out.text.lines().collect();
    let body = lines[*first - 1..*last - 1].join("\n");
    match cut::code_places(&body, &["let", "chosen"])[..] {
        [at] => (first + body[..at].matches('\n').count(), *last),
        _ => stop("the last walk over the chosen overload was not found in check_call_args"),
    }
}

fn main() {
    println!("cargo:rerun-if-env-changed=AURA_SRC");
    println!("cargo:rerun-if-changed=build.rs");
    println!("cargo:rerun-if-changed=build/cut.rs");
    println!("cargo:rerun-if-changed=build/sha256.rs");
    let folder = sources_folder();
    if !folder.join("seed/compiler/src").is_dir() {
        stop(&format!(
            "no AuraLang sources in {} (looked for seed/compiler/src); set AURA_SRC, see oracle/README.md",
            folder.display()
        ));
    }
    let [ty, symbol, checker, ast, span, errors] = PINNED.map(|(path, sum)| read_source(&folder, path, sum));

    let mut out = Out { text: String::new(), methods: Vec::new() };
    let ty_enum = out.piece(ty.data("enum", "Ty"));
    out.impl_of(&ty, "Ty", &TY_METHODS);
    let visibility = out.piece(ast.data("enum", "Visibility"));
    let bin_op = out.piece(ast.data("enum", "BinOp"));
    let un_op = out.piece(ast.data("enum", "UnOp"));
    out.piece(span.data("struct", "Span"));
    out.impl_of(&span, "Span", &["single"]);
    out.piece(errors.data("struct", "CompileError"));
    out.piece(errors.data("enum", "ErrorSeverity"));
    out.impl_of(&errors, "CompileError", &["new"]);
    for (keyword, name) in [
        ("enum", "SymbolKind"),
        ("struct", "ParamSym"),
        ("struct", "Symbol"),
        ("struct", "Scope"),
        ("struct", "SymbolTable"),
    ] {
        out.piece(symbol.data(keyword, name));
    }
    out.impl_of(&symbol, "Symbol", &["new"]);
    out.impl_of(&symbol, "Scope", &["new"]);
    out.impl_of(&symbol, "SymbolTable", &["new", "insert", "lookup_type", "lookup_function", "register_type"]);
    out.piece(checker.data("struct", "ClassAttrs"));
    out.piece(checker.data("struct", "Checker"));
    out.impl_of(&checker, "Checker", &CHECKER_METHODS);

    let (walk_first, walk_last) = last_walk(&out);
    let mut tables = list_of("BIN_OPS", "BinOp", &cut::variants(&bin_op));
    tables.push_str(&list_of("UN_OPS", "UnOp", &cut::variants(&un_op)));
    tables.push_str(&list_of("VISIBILITIES", "Visibility", &cut::variants(&visibility)));
    let kinds = cut::variants(&ty_enum);
    tables.push_str(&format!("pub const TY_KINDS: [&str; {}] = {:?};\n", kinds.len(), kinds));
    tables.push_str(&format!(
        "pub const LAST_WALK_FIRST_LINE: u32 = {};\npub const LAST_WALK_LAST_LINE: u32 = {};\n",
        walk_first, walk_last
    ));
    tables.push_str(&sites(&out));

    let target = PathBuf::from(env::var("OUT_DIR").unwrap_or_else(|_| stop("OUT_DIR is not set")));
    for (name, text) in [("cut.rs", &out.text), ("tables.rs", &tables)] {
        fs::write(target.join(name), text).unwrap_or_else(|e| stop(&format!("cannot write {}: {}", name, e)));
    }
}
