//! Algorithm 644's ZBKNU (K) and ZSERI (I), over std's functions for the small routines that its six files call and do not hold.
#[cfg(not(feature = "fortran"))]
pub fn run(_: bool, _: bool, _: usize, _: f64, _: f64, _: f64) -> Option<(String, Vec<f64>)> {
    None
}

#[cfg(feature = "fortran")]
pub use compiled::run;

#[cfg(feature = "fortran")]
mod compiled {
    use std::cell::Cell;

    type Kernel = unsafe extern "C" fn(&f64, &f64, &f64, &i32, &i32, *mut f64, *mut f64, &mut i32, &f64, &f64, &f64);
    extern "C" {
        fn zbknu_(re: &f64, im: &f64, v: &f64, kode: &i32, n: &i32, yr: *mut f64, yi: *mut f64, zeros: &mut i32, tol: &f64, elim: &f64, alim: &f64);
        fn zseri_(re: &f64, im: &f64, v: &f64, kode: &i32, n: &i32, yr: *mut f64, yi: *mut f64, zeros: &mut i32, tol: &f64, elim: &f64, alim: &f64);
    }

    thread_local!(static START: Cell<i32> = const { Cell::new(-1) });

    /// Called from the line that run.sh puts in after zbknu.f:293.
    #[no_mangle]
    extern "C" fn starts_(k: &i32) {
        START.set(*k);
    }
    #[no_mangle]
    extern "C" fn d1mach_(i: &i32) -> f64 {
        [0.0, f64::MIN_POSITIVE, f64::MAX, f64::EPSILON / 2.0, f64::EPSILON, std::f64::consts::LOG10_2][*i as usize]
    }
    #[no_mangle]
    extern "C" fn i1mach_(i: &i32) -> i32 {
        [(14, 53), (15, -1021), (16, 1024)].iter().find(|p| p.0 == *i).unwrap().1
    }
    #[no_mangle]
    extern "C" fn xzabs_(re: &f64, im: &f64) -> f64 {
        re.hypot(*im)
    }
    #[no_mangle]
    extern "C" fn xzexp_(re: &f64, im: &f64, a: &mut f64, b: &mut f64) {
        let (m, t) = (re.exp(), *im);
        (*a, *b) = (m * t.cos(), m * t.sin());
    }
    #[no_mangle]
    extern "C" fn xzlog_(re: &f64, im: &f64, a: &mut f64, b: &mut f64, error: &mut i32) {
        *error = 0;
        (*a, *b) = (re.hypot(*im).ln(), im.atan2(*re));
    }
    #[no_mangle]
    extern "C" fn xzsqrt_(re: &f64, im: &f64, a: &mut f64, b: &mut f64) {
        let (m, t) = (re.hypot(*im).sqrt(), im.atan2(*re) / 2.0);
        (*a, *b) = (m * t.cos(), m * t.sin());
    }
    #[no_mangle]
    extern "C" fn zmlt_(a: *const f64, b: *const f64, c: *const f64, d: *const f64, x: *mut f64, y: *mut f64) {
        unsafe {
            let r = (*a * *c - *b * *d, *a * *d + *b * *c);
            (*x, *y) = r;
        }
    }
    #[no_mangle]
    extern "C" fn zdiv_(a: *const f64, b: *const f64, c: *const f64, d: *const f64, x: *mut f64, y: *mut f64) {
        unsafe {
            let m = 1.0 / (*c).hypot(*d);
            let (p, q) = (*c * m, *d * m);
            let r = ((*a * p + *b * q) * m, (*b * p - *a * q) * m);
            (*x, *y) = r;
        }
    }

    pub fn run(i: bool, scaled: bool, n: usize, v: f64, re: f64, im: f64) -> Option<(String, Vec<f64>)> {
        let unwritten = f64::from_bits(crate::RUBBISH);
        if n == 0 || !(v.is_finite() && re.is_finite() && im.is_finite()) || (re == 0.0 && im == 0.0) {
            return Some(("not called".to_string(), vec![]));
        }
        let (mut yr, mut yi, mut zeros) = (vec![unwritten; n], vec![unwritten; n], 0);
        let kernel: Kernel = if i { zseri_ } else { zbknu_ };
        START.set(0);
        unsafe { kernel(&re, &im, &v, &(1 + scaled as i32), &(n as i32), yr.as_mut_ptr(), yi.as_mut_ptr(), &mut zeros, &f64::EPSILON, &700.9217936944459, &664.8716455337102) };
        Some((format!("zeros {zeros}, start {}", START.get()), yr.iter().zip(&yi).flat_map(|(a, b)| [*a, *b]).collect()))
    }
}
