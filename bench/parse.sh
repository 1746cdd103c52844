#!/usr/bin/env bash
# CPU time and peak memory of `parse_program`, and of `lex` before it, on a source of 256 KiB and on woven texts up to 16 MiB,
# sums and declarators with many sizes among them.
# No command of the program calls `parse_program` alone, so this builds a program of its own over the crates, in a scratch
# folder. Run it from the top of the repository; it proves the crates that it stands on, which takes some minutes.
set -eu
top=$(pwd)
folder=$(mktemp -d)
trap 'rm -rf "$folder"' EXIT
mkdir -p "$folder/crates/parse_bench/src" "$folder/crates/parse_bench/data"
for crate in c_lexer c_words c_grammar c_type_names c_grouping c_nesting c_expressions c_declarations c_statements c_parser weave_base; do
  cp -r "$top/crates/$crate" "$folder/crates/"
done
grep -E '^(weave_base|c_lexer|c_words|c_grammar|c_type_names|c_grouping|c_nesting|c_expressions|c_declarations|c_statements|c_parser):' "$top/crates.txt" > "$folder/crates.txt"
echo 'parse_bench: c_grammar c_words c_lexer c_parser weave_base' >> "$folder/crates.txt"
cat > "$folder/crates/parse_bench/src/main.rt" <<'P'
//! Counts the items of the C text in the file `p.c`; a woven text begins with `/`.
#![tactic(auto)]

use c_lexer::lex;
use c_parser::{Mode, parse_program};
use std::io;
use weave_base::{DirFiles, Files};

const MOST: u64 = 16_777_216;

fn main(rt: HostRuntime) -> io::Result<()> {
    let mut files = DirFiles::new(rt);
    let Ok(text) = files.load(rt.alloc(), "p.c", MOST) else {
        return println!(rt; "no file p.c");
    };
    let Ok(tokens) = lex(rt.alloc(), &text) else {
        return println!(rt; "no tokens");
    };
    let count = tokens.len();
    let mode = if text.first() == Some(&b'/') {
        Mode::Woven
    } else {
        Mode::Source
    };
    match parse_program(rt.alloc(), &text, &tokens, mode) {
        Ok(tree) => {
            let items = tree.items.len();
            println!(rt; "{count} tokens, {items} items")
        }
        Err(_) => println!(rt; "{count} tokens, no tree"),
    }
}
P
printf 'int x;\n' > "$folder/crates/parse_bench/data/p.c"
printf '3 tokens, 1 items\n' > "$folder/crates/parse_bench/stdout"
(cd "$folder/crates/parse_bench" && rt run > "$folder/log" 2>&1) || { tail -n 20 "$folder/log"; exit 1; }
program=$folder/crates/parse_bench/out/parse_bench

python3 - "$program" "$folder" <<'P'
import os, subprocess, sys
program, folder = sys.argv[1:]
SOURCE = "int f(struct s *p, int c) { int d = 0; if (p->n < 4) { p->a[(p->h + p->n) % 4] = (unsigned char) c; d = 1; } return d; }\n"
WOVEN = SOURCE.replace("d = 1;", "/*@ assert weave_1: \\separated(&d, &x); */ d = 1;").replace("int d = 0;", "int d = 0; register int __r; /*@ ghost __g = 1; */ __r = p->n;")
FLAT = "int g(void) { return " + "a + b * c - d / e + " * 50 + "0; }\n"
print(f"{'text':>8} {'bytes':>10} {'answer':>30} {'CPU ms':>8} {'peak KiB':>9}")
for name, head, line, size in (
    ("source", "", SOURCE, 1 << 18),
    ("woven", "//\n", WOVEN, 1 << 18),
    ("woven", "//\n", WOVEN, 1 << 20),
    ("woven", "//\n", WOVEN, 1 << 22),
    ("woven", "//\n", WOVEN, 1 << 24),
    ("sums", "//\n", FLAT, 1 << 24),
    # declarators with few and with many sizes, in texts of one length
    ("sizes", "//\n", "int x" + "[1]" * 125 + ";\n", 1 << 20),
    ("sizes", "//\n", "int x" + "[1]" * 1000 + ";\n", 1 << 20),
    ("parts", "//\n", "int " + "(" * 60 + "x" + ")[1]" * 60 + ";\n", 1 << 20),
    ("parts", "//\n", "int " + "(" * 500 + "x" + ")[1]" * 500 + ";\n", 1 << 20),
):
    text = head + line * ((size - len(head)) // len(line))
    with open(os.path.join(folder, "p.c"), "w") as file:
        file.write(text)
    child = subprocess.Popen([program], cwd=folder, stdout=subprocess.PIPE)
    answer = child.stdout.read().decode().strip()
    child.stdout.close()
    _, status, usage = os.wait4(child.pid, 0)
    assert status == 0, status
    print(f"{name:>8} {len(text):10} {answer:>30} {1000 * (usage.ru_utime + usage.ru_stime):8.0f} {usage.ru_maxrss:9}")
P
