"""The calls that one frame really makes. Without its contracts a source is Rust: the crates are written as the modules of one Rust program in
target/house, each function says when it is entered, and the frame program is run on one line. Reading and writing, which are the kit's, have
stand-ins there."""
import re
import shutil
import subprocess
import sys

import sources

FOLDER = sources.TOP / "target" / "house"
KIT = ["io"]
MAIN = """#![allow(warnings)]
%s
pub struct HostRuntime;
impl HostRuntime {
    pub fn stdin(&self) -> std::io::Stdin {
        std::io::stdin()
    }
}
pub mod io {
    pub fn large_buffer() -> [u8; 65536] {
        [0; 65536]
    }
    pub fn count(got: isize, _: &[u8]) -> usize {
        got as usize
    }
    pub fn write_all(to: i32, bytes: &[u8]) -> bool {
        to != 1 || std::io::Write::write_all(&mut std::io::stdout(), bytes).is_ok()
    }
}
pub mod entered {
    use std::cell::RefCell;
    // the functions that are running, and the calls seen: who called whom, and how deep at most
    thread_local! { static SEEN: RefCell<(Vec<isize>, Vec<(isize, isize, usize)>)> = RefCell::new((vec![], vec![])); }
    pub struct Entered;
    pub fn enter(f: isize) -> Entered {
        SEEN.with(|s| {
            let (running, calls) = &mut *s.borrow_mut();
            let caller = running.last().copied().unwrap_or(-1);
            running.push(f);
            match calls.iter_mut().find(|c| c.0 == caller && c.1 == f) {
                Some(c) => c.2 = c.2.max(running.len()),
                None => calls.push((caller, f, running.len())),
            }
        });
        Entered
    }
    impl Drop for Entered {
        fn drop(&mut self) {
            SEEN.with(|s| s.borrow_mut().0.pop());
        }
    }
    pub fn print() {
        SEEN.with(|s| s.borrow().1.iter().for_each(|c| println!("{} {} {}", c.0, c.1, c.2)));
    }
}
fn main() {
    %s(HostRuntime);
    entered::print();
}
"""


def rust(house, module, numbers):
    """The module as Rust: no contracts, paths from the program's top, values that may be copied, and a word at the head of each body."""
    code, spots = module.code, [(a, b, "") for a, b in module.contracts]
    spots += [(f.start + 1, f.start + 1, f" let _entered = crate::entered::enter({numbers[f]});") for f in module.functions]
    for a, b, text in sorted(spots, reverse=True):
        code = code[:a] + text + code[b:]
    here = {m.path for m in house.modules}

    def path(m):
        first = m.group(2)
        if first == "crate":
            return m.group(1) + ("crate::" if code.startswith("entered", m.end()) else f"crate::{module.crate}::")
        if first not in [*house.crates, *KIT] or (not m.group(1) and module.names.get(first) in here):
            return m.group()
        return f"{m.group(1)}crate::{first}::"

    code = re.sub(r"(?m)(^(?:pub )?use |)(?<![\w:])(\w+)::", path, code)
    code = re.sub(r"(?m)^fn main\(", "pub fn main(", code)
    code = re.sub(r"\bHostRuntime\b", "crate::HostRuntime", code)
    code = re.sub(r"(?m)^\s*#!?\[tactic\([^\n]*\]$", "", code)
    # the kit's derives are others, and what clauses see of a type is for proofs
    code = re.sub(r"(?m)^\s*#\[derive\([^\n]*\]\n(?=(?:pub )?(?:struct|enum) )", "", code)
    code = re.sub(r"(?m)^use std::marker::Model;$", "", code)
    # a function of the kit's that is a cast in Rust
    code = re.sub(r"(?m)^use std::num::saturating_f64_to_u32;$", "fn saturating_f64_to_u32(x: f64) -> u32 { x as u32 }", code)
    # what holds a lent buffer is moved, and anything else may be copied
    code = re.sub(r"(?m)^((?:pub )?struct \w+<'a> \{[^}]*&'a mut )", r"#[derive(Debug, PartialEq)] \1", code)
    return re.sub(r"(?m)^((?:pub )?(?:struct|enum) )", r"#[derive(Clone, Copy, Debug, PartialEq)] \1", code)


def calls_of(house, start, lines):
    """For each line: its answer line, and the calls that it makes as (caller, function, depth), in the order in which they are met first."""
    uses, crates = sources.uses(), [start.module.crate]
    for crate in crates:
        crates += [other for other, how in uses[crate].items() if how == "code" and other not in crates]
    numbers = {f: n for n, f in enumerate(house.functions)}
    shutil.rmtree(FOLDER, ignore_errors=True)
    for module in house.modules:
        if module.crate in crates:
            file = FOLDER / module.crate / ("mod.rs" if module.inner.name in ("lib.rt", "main.rt") else module.inner.with_suffix(".rs"))
            file.parent.mkdir(parents=True, exist_ok=True)
            file.write_text(rust(house, module, numbers), encoding="utf-8")
    main = FOLDER / "main.rs"
    main.write_text(MAIN % ("\n".join(f"mod {crate};" for crate in house.crates if crate in crates), start.path), encoding="utf-8")
    made = subprocess.run(["rustc", "--edition", "2021", "-o", FOLDER / "main", main], capture_output=True, text=True)
    if made.returncode:
        sys.exit("the sources, their contracts left out, are no Rust program:\n" + made.stderr[:2000])
    found = []
    for line in lines:
        answer, *rows = subprocess.run([FOLDER / "main"], input=line + "\n", capture_output=True, text=True, check=True).stdout.splitlines()
        rows = [tuple(map(int, row.split())) for row in rows]
        found.append((answer, [(house.functions[a] if a >= 0 else None, house.functions[b], depth) for a, b, depth in rows]))
    return found
