#!/usr/bin/env bash
# CPU time and peak memory of `lex` on C texts of growing sizes, up to its limit of 16 MiB.
# No command of the program calls `lex` alone, so this builds a program of its own over the crate, in a scratch folder.
# Run it from the top of the repository; it proves the crates that it stands on, which takes some minutes.
set -eu
top=$(pwd)
folder=$(mktemp -d)
trap 'rm -rf "$folder"' EXIT
mkdir -p "$folder/crates/lex_bench/src"
cp -r "$top/crates/c_lexer" "$top/crates/weave_base" "$folder/crates/"
printf 'weave_base:\nc_lexer: thiserror\nlex_bench: c_lexer weave_base\n' > "$folder/crates.txt"
cat > "$folder/crates/lex_bench/src/main.rt" <<'P'
//! Counts the tokens of the C text in the file `p.c`.
#![tactic(auto)]

use c_lexer::lex;
use std::io;
use weave_base::{DirFiles, Files};

const MOST: u64 = 16_777_216;

fn main(rt: HostRuntime) -> io::Result<()> {
    let mut files = DirFiles::new(rt);
    let Ok(text) = files.load(rt.alloc(), "p.c", MOST) else {
        return println!(rt; "no file p.c");
    };
    match lex(rt.alloc(), &text) {
        Ok(tokens) => {
            let count = tokens.len();
            println!(rt; "{count} tokens")
        }
        Err(_) => println!(rt; "no tokens"),
    }
}
P
mkdir -p "$folder/crates/lex_bench/data"
printf 'int x;\n' > "$folder/crates/lex_bench/data/p.c"
(cd "$folder/crates/lex_bench" && rt run > "$folder/log" 2>&1) || { tail -n 20 "$folder/log"; exit 1; }
program=$folder/crates/lex_bench/out/lex_bench

python3 - "$program" "$folder" <<'P'
import os, subprocess, sys
program, folder = sys.argv[1:]
LINE = "  r->cell[(r->head + r->count) % 4] = (unsigned char) 0x7fUL; /* the next byte */ count += '\\n'; // on\n"
print(f"{'bytes':>10} {'answer':>18} {'CPU ms':>8} {'peak KiB':>9}")
for size in (1 << 20, 1 << 22, 1 << 23, 1 << 24):
    text = (LINE * (size // len(LINE) + 1))[:size - 1] + "\n"
    text = text[:size - size % len(LINE)]
    with open(os.path.join(folder, "p.c"), "w") as file:
        file.write(text)
    child = subprocess.Popen([program], cwd=folder, stdout=subprocess.PIPE)
    answer = child.stdout.read().decode().strip()
    child.stdout.close()
    _, status, usage = os.wait4(child.pid, 0)
    assert status == 0, status
    print(f"{len(text):10} {answer:>18} {1000 * (usage.ru_utime + usage.ru_stime):8.0f} {usage.ru_maxrss:9}")
P
