#!/usr/bin/env bash
# CPU time and peak memory of `core_of_text`, and of reading alone (`lex` and `parse_program`), on sources of growing sizes.
# No command of the program calls `core_of_text` yet, so this builds a program of its own over the crates, in a scratch
# folder. Run it from the top of the repository; it proves the crates that it stands on, which takes some minutes.
set -eu
top=$(pwd)
folder=$(mktemp -d)
trap 'rm -rf "$folder"' EXIT
mkdir -p "$folder/crates"
for crate in "$top"/crates/*; do
  name=$(basename "$crate")
  case $name in *_tests | weave_cli) continue ;; esac
  cp -r "$crate" "$folder/crates/"
done
grep -vE '^([a-z_]*_tests|weave_cli):' "$top/crates.txt" > "$folder/crates.txt"
echo 'elaborate_bench: c_texts c_types c_parser c_grammar c_words c_lexer step_meaning weave_base' >> "$folder/crates.txt"
mkdir -p "$folder/crates/elaborate_bench/src" "$folder/crates/elaborate_bench/data"
cat > "$folder/crates/elaborate_bench/src/main.rt" <<'P'
//! Reads the C text in the file `r.c`, where there is one; else elaborates that in `p.c`.
#![tactic(auto)]

use c_lexer::lex;
use c_parser::{Mode, parse_program};
use c_texts::core_of_text;
use std::io;
use weave_base::{DirFiles, Files};

const MOST: u64 = 16_777_216;

fn main(rt: HostRuntime) -> io::Result<()> {
    let mut files = DirFiles::new(rt);
    if let Ok(text) = files.load(rt.alloc(), "r.c", MOST) {
        let Ok(tokens) = lex(rt.alloc(), &text) else {
            return println!(rt; "no tokens");
        };
        return match parse_program(rt.alloc(), &text, &tokens, Mode::Source) {
            Ok(tree) => {
                let items = tree.items.len();
                println!(rt; "{items} items")
            }
            Err(_) => println!(rt; "no tree"),
        };
    }
    let Ok(text) = files.load(rt.alloc(), "p.c", MOST) else {
        return println!(rt; "no file");
    };
    match core_of_text(rt.alloc(), &text, Mode::Source) {
        Ok(core) => {
            let functions = core.functions.len();
            let globals = core.globals.len();
            println!(rt; "{globals} variables, {functions} functions")
        }
        Err(fault) => match fault.refusal() {
            Some(refusal) => println!(rt; "{} at {}:{}", refusal.code, refusal.place.line, refusal.place.column),
            None => println!(rt; "out of memory"),
        },
    }
}
P
printf 'int x; int main(void) { return 0; }\n' > "$folder/crates/elaborate_bench/data/p.c"
printf '1 variables, 5 functions\n' > "$folder/crates/elaborate_bench/stdout"
(cd "$folder/crates/elaborate_bench" && rt run > "$folder/log" 2>&1) || { tail -n 20 "$folder/log"; exit 1; }
program=$folder/crates/elaborate_bench/out/elaborate_bench

python3 - "$program" "$folder" <<'P'
import os, subprocess, sys
program, folder = sys.argv[1:]
RING = "struct s { unsigned char a[4]; int h; int n; };\n"
FUNCTION = "int f%d(struct s *p, int c) { int d = 0; if (p->n < 4) { p->a[(p->h + p->n) %% 4] = (unsigned char) c; d = 1; } return d; }\n"
MAIN = "int main(void) { return 0; }\n"

def ring(size):
    text, number = RING, 0
    while len(text) < size:
        text += FUNCTION % number
        number += 1
    return text + MAIN

def run(name, text):
    with open(os.path.join(folder, name), "w") as file:
        file.write(text)
    child = subprocess.Popen([program], cwd=folder, stdout=subprocess.PIPE)
    answer = child.stdout.read().decode().strip()
    child.stdout.close()
    _, status, usage = os.wait4(child.pid, 0)
    os.remove(os.path.join(folder, name))
    assert status == 0, (status, answer)
    return answer, 1000 * (usage.ru_utime + usage.ru_stime), usage.ru_maxrss

print(f"{'text':>10} {'bytes':>8} {'answer':>34} {'reading ms':>10} {'with elaboration ms':>19} {'peak KiB':>9}")
for name, text in (
    ("ring", ring(1 << 16)),
    ("ring", ring(1 << 17)),
    ("ring", ring(1 << 18)),
    ("nodes", "int main(void) { int a = 0;" + " a = a + 1;" * 9990 + " return a; }\n"),
    ("variables", "".join(f"int x{i};\n" for i in range(10000)) + MAIN),
    ("functions", "".join(f"int f{i}(int a) {{ return a; }}\n" for i in range(5000)) + MAIN),
    ("members", "struct s {" + "".join(f" int m{i};" for i in range(2500)) + " } v;\n" + MAIN),
    ("members", "struct s {" + "".join(f" int m{i};" for i in range(5000)) + " } v;\n" + MAIN),
    ("uses", "struct s {" + "".join(f" int m{i};" for i in range(2500)) + " } v;\nint main(void) {" + "".join(f" v.m{i} = {i};" for i in range(2500)) + " return 0; }\n"),
    ("uses", "struct s {" + "".join(f" int m{i};" for i in range(5000)) + " } v;\nint main(void) {" + "".join(f" v.m{i} = {i};" for i in range(5000)) + " return 0; }\n"),
    ("scopes", "int main(void) {" + " { int a = 1;" * 60 + " a = 2;" + " }" * 60 + " return 0; }\n"),
):
    _, reading, _ = run("r.c", text)
    answer, both, peak = run("p.c", text)
    print(f"{name:>10} {len(text):8} {answer:>34} {reading:10.0f} {both:19.0f} {peak:9}")
P
