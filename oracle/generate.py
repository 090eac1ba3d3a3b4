#!/usr/bin/env python3
"""generate.py TEXT: makes three crates under oracle/generated/ from the Rust text in the folder TEXT (the one that holds src/amos).

  text     the text with each elementary call routed to libcapi.a; no line of it changed, and in utils.rs three lines put in: the rule that a pair with
           a not-a-number part is never lost, and the routing of sin(pi x) and cos(pi x)
  counted  the same with lines put in that count terms, rungs, backward steps and branches, and that give the two refusals which docs/SCOPE.md adds
  native   the text over std's elementary functions, with no line put in: for the speed comparisons

Lines are only put in, each ends with the mark below, and taking them out gives the text back: that is checked here."""
import os
import shutil
import sys

HERE = os.path.dirname(os.path.abspath(__file__))
MARK = " //+"
CARRIED = ["types.rs"] + ["amos/" + f for f in ("mod.rs", "gamma_ln.rs", "limits.rs", "machine/mod.rs", "power_series.rs", "recurrence.rs", "right_half_plane.rs", "utils.rs")]

# (file, the line after which, which of its occurrences, what is put in)
COMPLETION = [
    ("amos/utils.rs", "pub(crate) fn will_underflow<T: BesselFloat>(y: Complex<T>, mc: &MachineConsts<T>) -> bool {", 0, "if y.re != y.re || y.im != y.im { return false; }"),
    ("amos/utils.rs", "pub(crate) fn sin_pi<T: BesselFloat>(x: T) -> T {", 0, "return num::Float::sin_pi(x);"),
    ("amos/utils.rs", "pub(crate) fn cos_pi<T: BesselFloat>(x: T) -> T {", 0, "return num::Float::cos_pi(x);"),
]


def branch(file, line, occurrence, number):
    return (file, line, occurrence, f"crate::count::branch({number});")


P, R, H, G = "amos/power_series.rs", "amos/recurrence.rs", "amos/right_half_plane.rs", "amos/gamma_ln.rs"
COUNTERS = [
    (P, "    let tolerance = mc.abs_error_tolerance * abs_half_z_sq / order_plus_one;", 0, "crate::count::sum_begins();"),
    (P, "    while error_estimate > tolerance {", 0, "crate::count::term();"),
    (P, "            // to using the unscaled values", 0, "crate::count::rung();"),
    (H, "    let mut sum_k_nu_plus_1 = neg_order_term;", 0, "crate::count::sum_begins();"),
    (H, "        for step in 1..MAX_ITERATIONS {", 0, "crate::count::term();"),
    (H, "        for _ in (0..starting_k).rev() {", 0, "crate::count::backward_step();"),
    (H, "    for _ in (0..starting_k).rev() {", 0, "crate::count::backward_step();"),
    (H, "                for offset in 2..=integer_order + 1 {", 0, "crate::count::rung();"),
    (R, "    for i in iter {", 0, "crate::count::rung();"),
    (R, "    for (i, yi) in y.iter_mut().enumerate().skip(2) {", 0, "crate::count::rung();"),
    # the refusals that the project adds: a start above 256, and a climb without two neighbours on scale or with a zero among them
    (H, "    let starting_k = determine_miller_starting_k(z, frac_order_sqr, order_rotation)?;", 0, "if starting_k > 256 { return Err(BesselError::LossOfSignificance); }"),
    (H, "                let mut recovery_buffer = [T::C_ZERO; 2];", 0, "let mut recovered = false;"),
    (H, "                            if last_good_iteration == offset - 2 {", 0, "recovered = true;"),
    (H, "                k_v_minus_1 = recovery_buffer[buf_idx];", 0, "if !recovered || k_v == T::C_ZERO || k_v_minus_1 == T::C_ZERO { return Err(BesselError::Overflow); }"),
    # branches
    branch(P, "    if abs_z < mc.underflow_limit {", 0, 0),
    branch(P, "            if ln_leading_term.re <= -mc.exponent_limit {", 0, 2),
    branch(P, "                if abs_half_z_sq > current_order {", 0, 3),
    branch(P, "            if ln_leading_term.re <= (-mc.approximation_limit) {", 0, 4),
    branch(P, "            if near_underflow && will_underflow(s2, mc) {", 0, 5),
    branch(P, "                if abs_half_z_sq > current_order {", 1, 6),
    branch(P, "                if out[k].abs() > mc.absolute_approximation_limit {", 0, 7),
    branch(P, "    if abs_half_z_sq < mc.abs_error_tolerance * order_plus_one {", 0, 8),
    branch(P, "    while error_estimate > tolerance {", 0, 9),
    branch(P, "            // to using the unscaled values", 0, 10),
    branch(H, "            if small_order_n_eq_1 {", 0, 11),
    branch(H, "            overflow_state = if (order + T::ONE) * shinc_mu.re.abs() > mc.approximation_limit {", 0, 12),
    branch(H, "                if z.re > mc.approximation_limit {", 0, 13),
    branch(H, "                for offset in 2..=integer_order + 1 {", 0, 15),
    branch(H, "                        if !will_underflow(trial_k_v, mc) {", 0, 16),
    branch(H, "                        z_shift.re -= mc.exponent_limit;", 0, 17),
    branch(H, "    let n_completed = if underflow_occurred {", 0, 18),
    branch(H, "        if n_non_zero <= 0 {", 0, 19),
    branch(H, "        if n_non_zero > 1 {", 0, 20),
    branch(H, "        if n_non_zero > 2 {", 0, 21),
    branch(H, "    let gamma_diff_over_2nu = if signed_fractional_order.abs() <= T::from_f64(0.1) {", 0, 22),
    branch(H, "    if abs_z >= mc.abs_error_tolerance {", 0, 23),
    branch(H, "    if z.im == T::ZERO {", 0, 24),
    branch(H, "    let mut unnormalized_k_plus_1 = Complex::<T>::zero();", 0, 25),
    branch(H, "        if convergence_test <= T::ONE {", 0, 26),
    branch(H, "                    converged = true;", 0, 27),
    branch(R, "    for (i, yi) in y.iter_mut().enumerate().skip(2) {", 0, 29),
    branch(R, "                    found_two_good_values = true;", 0, 30),
    branch(R, "        if ln_abs_k > half_exponent_limit {", 0, 31),
    branch("amos/limits.rs", "        if *self != OverflowState::NearOver && unscaled_s2.linf_norm() > *boundary {", 0, 32),
    branch(G, "    if z <= T::from_f64(100.1) && z.fract() == T::ZERO {", 0, 33),
    branch(G, "    let (z_increment, z_modified) = if z < mc.gamma_ln_z_min {", 0, 34),
    branch(G, "    if zp >= working_tolerance {", 0, 35),
    branch(G, "            if term.abs() < test {", 0, 36),
    branch(G, "    if z_increment != 0 {", 0, 37),
]


def put_in(text, insertions, file):
    lines = text.split("\n")
    after = {}
    for name, anchor, occurrence, new in insertions:
        if name != file:
            continue
        places = [i for i, line in enumerate(lines) if line == anchor]
        if len(places) <= occurrence:
            sys.exit(f"generate.py: {file} has no line {anchor!r} number {occurrence}")
        after.setdefault(places[occurrence], []).append(new + MARK)
    out = []
    for i, line in enumerate(lines):
        out.append(line)
        out += after.get(i, [])
    if "\n".join(line for line in out if not line.endswith(MARK)) != text:
        sys.exit(f"generate.py: {file} is not the text with lines put in")
    return "\n".join(out)


def crate(name, source, insertions, num):
    top = os.path.join(HERE, "generated", name)
    shutil.rmtree(top, ignore_errors=True)
    shutil.copytree(os.path.join(HERE, "completion"), os.path.join(top, "src"))
    for file in CARRIED:
        text = open(os.path.join(source, file), encoding="utf-8").read()
        path = os.path.join(top, "src", file)
        os.makedirs(os.path.dirname(path), exist_ok=True)
        open(path, "w", encoding="utf-8").write(put_in(text, insertions, file))
    manifest = f"""[package]
name = "{name}"
version = "0.0.0"
edition = "2024"
publish = false

[features]
std = []
alloc = []

[dependencies]
num = {{ path = "../../{num}", package = "{num}" }}
thiserror = {{ path = "../../thiserror" }}
"""
    open(os.path.join(top, "Cargo.toml"), "w", encoding="utf-8").write(manifest)


def main():
    if len(sys.argv) != 2:
        sys.exit(__doc__)
    source = os.path.join(sys.argv[1], "src")
    if not os.path.isfile(os.path.join(source, "amos", "mod.rs")):
        sys.exit(f"generate.py: there is no Rust text in {sys.argv[1]}")
    crate("text", source, COMPLETION, "num")
    crate("counted", source, COMPLETION + COUNTERS, "num")
    crate("native", source, [], "num_std")
    print("generated: text, counted, native")


main()
