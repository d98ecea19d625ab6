//! The proved library, linked: a module for each crate, over the archives that
//! `rt lib` makes. Nothing is asked of a caller unless a function says so.

/// The float floor and the trigonometry, by bits.
pub mod float {
    unsafe extern "C" {
        fn float_bits(x: u64) -> u64;
        fn float_is_finite(x: u64) -> u64;
        fn float_is_sign_positive(x: u64) -> u64;
        fn float_abs(x: u64) -> u64;
        fn float_total_le(x: u64, y: u64) -> u64;
        fn float_rem_euclid(x: u64, m: u64) -> u64;
        fn float_minimum(x: u64, y: u64) -> u64;
        fn float_maximum(x: u64, y: u64) -> u64;
        fn float_clamp(x: u64) -> u64;
        fn float_floor(x: u64) -> i64;
        fn float_mul_add(a: u64, b: u64, c: u64) -> u64;
        fn float_sqrt(x: u64) -> u64;
        fn float_product_error(a: u64, b: u64) -> u64;
        fn float_sin(x: u64) -> u64;
        fn float_cos(x: u64) -> u64;
        fn float_tan(x: u64) -> u64;
        fn float_hypot(x: u64, y: u64) -> u64;
        fn float_atan(x: u64) -> u64;
        fn float_atan2(y: u64, x: u64) -> u64;
        fn float_acos(x: u64) -> u64;
        fn float_asin(x: u64) -> u64;
    }

    // SAFETY, for every call: the function is proved safe at all words, and
    // takes and gives numbers alone.

    pub fn bits(x: u64) -> u64 {
        unsafe { float_bits(x) }
    }

    pub fn is_finite(x: u64) -> u64 {
        unsafe { float_is_finite(x) }
    }

    pub fn is_sign_positive(x: u64) -> u64 {
        unsafe { float_is_sign_positive(x) }
    }

    pub fn abs(x: u64) -> u64 {
        unsafe { float_abs(x) }
    }

    pub fn total_le(x: u64, y: u64) -> u64 {
        unsafe { float_total_le(x, y) }
    }

    pub fn rem_euclid(x: u64, m: u64) -> u64 {
        unsafe { float_rem_euclid(x, m) }
    }

    pub fn minimum(x: u64, y: u64) -> u64 {
        unsafe { float_minimum(x, y) }
    }

    pub fn maximum(x: u64, y: u64) -> u64 {
        unsafe { float_maximum(x, y) }
    }

    pub fn clamp(x: u64) -> u64 {
        unsafe { float_clamp(x) }
    }

    pub fn floor(x: u64) -> i64 {
        unsafe { float_floor(x) }
    }

    pub fn mul_add(a: u64, b: u64, c: u64) -> u64 {
        unsafe { float_mul_add(a, b, c) }
    }

    pub fn sqrt(x: u64) -> u64 {
        unsafe { float_sqrt(x) }
    }

    pub fn product_error(a: u64, b: u64) -> u64 {
        unsafe { float_product_error(a, b) }
    }

    pub fn sin(x: u64) -> u64 {
        unsafe { float_sin(x) }
    }

    pub fn cos(x: u64) -> u64 {
        unsafe { float_cos(x) }
    }

    pub fn tan(x: u64) -> u64 {
        unsafe { float_tan(x) }
    }

    pub fn hypot(x: u64, y: u64) -> u64 {
        unsafe { float_hypot(x, y) }
    }

    pub fn atan(x: u64) -> u64 {
        unsafe { float_atan(x) }
    }

    pub fn atan2(y: u64, x: u64) -> u64 {
        unsafe { float_atan2(y, x) }
    }

    pub fn acos(x: u64) -> u64 {
        unsafe { float_acos(x) }
    }

    pub fn asin(x: u64) -> u64 {
        unsafe { float_asin(x) }
    }
}

/// Loops over the float floor's functions, for timing: n steps from a start,
/// each from the result of the one before, or one step at each place.
pub mod float_bench {
    unsafe extern "C" {
        fn bench_plain(start: f64, x: f64, c: f64, n: u64) -> f64;
        fn bench_mul_add(start: f64, x: f64, c: f64, n: u64) -> f64;
        fn bench_sqrt(start: f64, c: f64, n: u64) -> f64;
        fn bench_product_error(start: f64, x: f64, c: f64, n: u64) -> f64;
        fn bench_each_plain(hs: *mut f64, length: usize, x: f64, c: f64);
        fn bench_each_mul_add(hs: *mut f64, length: usize, x: f64, c: f64);
        fn bench_each_sqrt(hs: *mut f64, length: usize, c: f64);
        fn bench_each_product_error(hs: *mut f64, length: usize, x: f64, c: f64);
    }

    // SAFETY, for every call: the function is proved safe at all floats, and
    // reads and writes the lent slice alone.

    pub fn plain(start: f64, x: f64, c: f64, n: u64) -> f64 {
        unsafe { bench_plain(start, x, c, n) }
    }

    pub fn mul_add(start: f64, x: f64, c: f64, n: u64) -> f64 {
        unsafe { bench_mul_add(start, x, c, n) }
    }

    pub fn sqrt(start: f64, _: f64, c: f64, n: u64) -> f64 {
        unsafe { bench_sqrt(start, c, n) }
    }

    pub fn product_error(start: f64, x: f64, c: f64, n: u64) -> f64 {
        unsafe { bench_product_error(start, x, c, n) }
    }

    pub fn each_plain(hs: &mut [f64], x: f64, c: f64) {
        unsafe { bench_each_plain(hs.as_mut_ptr(), hs.len(), x, c) }
    }

    pub fn each_mul_add(hs: &mut [f64], x: f64, c: f64) {
        unsafe { bench_each_mul_add(hs.as_mut_ptr(), hs.len(), x, c) }
    }

    pub fn each_sqrt(hs: &mut [f64], _: f64, c: f64) {
        unsafe { bench_each_sqrt(hs.as_mut_ptr(), hs.len(), c) }
    }

    pub fn each_product_error(hs: &mut [f64], x: f64, c: f64) {
        unsafe { bench_each_product_error(hs.as_mut_ptr(), hs.len(), x, c) }
    }
}

/// The root finder.
pub mod polynomial {
    unsafe extern "C" {
        fn polynomial_roots(
            coefficients: *const f64,
            count: usize,
            lower: f64,
            upper: f64,
            result: *mut f64,
            places: usize,
            kinds: *mut u8,
            bytes: usize,
        ) -> i64;
    }

    /// The operation Roots.
    pub fn roots(
        coefficients: &[f64],
        lower: f64,
        upper: f64,
        result: &mut [f64],
        kinds: &mut [u8],
    ) -> i64 {
        // SAFETY: each slice is lent with its own length, and the function is
        // proved to stay inside them.
        unsafe {
            polynomial_roots(
                coefficients.as_ptr(),
                coefficients.len(),
                lower,
                upper,
                result.as_mut_ptr(),
                result.len(),
                kinds.as_mut_ptr(),
                kinds.len(),
            )
        }
    }
}

/// Module 4, one number at a time: the last parameter says which.
pub mod sampling_parts {
    unsafe extern "C" {
        fn parts_center(from: u64, to: u64, part: u64) -> u64;
        fn parts_limits(
            limited: u64,
            sign: u64,
            offset: u64,
            reference: u64,
            from: u64,
            to: u64,
            part: u64,
        ) -> u64;
        fn parts_interval(
            center: u64,
            tolerance: u64,
            reference: u64,
            sign: u64,
            which: u64,
            part: u64,
        ) -> u64;
        fn parts_pose(x: u64, y: u64, z: u64, w: u64, part: u64) -> u64;
    }

    // SAFETY, for every call: the function is proved safe at all words, and
    // takes and gives numbers alone.

    pub fn center([from, to]: [u64; 2], part: u64) -> u64 {
        unsafe { parts_center(from, to, part) }
    }

    pub fn limits(joint: [u64; 6], part: u64) -> u64 {
        let [limited, sign, offset, reference, from, to] = joint;
        unsafe { parts_limits(limited, sign, offset, reference, from, to, part) }
    }

    pub fn interval(range: [u64; 4], which: u64, part: u64) -> u64 {
        let [center, tolerance, reference, sign] = range;
        unsafe { parts_interval(center, tolerance, reference, sign, which, part) }
    }

    pub fn pose([x, y, z, w]: [u64; 4], part: u64) -> u64 {
        unsafe { parts_pose(x, y, z, w, part) }
    }
}

/// The operations on requests and sheets: the count, or minus the refusal's
/// number.
pub mod sheet {
    unsafe extern "C" {
        fn sheet_sample(
            request: *const u8,
            bytes: usize,
            work: *mut f64,
            places: usize,
            output: *mut u8,
            room: usize,
        ) -> i64;
        fn sheet_check(sheet: *const u8, bytes: usize, work: *mut f64, places: usize) -> i64;
    }

    // SAFETY, for both: each slice is lent with its own length, and the function
    // is proved to stay inside them.

    /// The operation Sampling.
    pub fn sample(request: &[u8], work: &mut [f64], output: &mut [u8]) -> i64 {
        unsafe {
            sheet_sample(
                request.as_ptr(),
                request.len(),
                work.as_mut_ptr(),
                work.len(),
                output.as_mut_ptr(),
                output.len(),
            )
        }
    }

    /// The operation Check.
    pub fn check(sheet: &[u8], work: &mut [f64]) -> i64 {
        unsafe { sheet_check(sheet.as_ptr(), sheet.len(), work.as_mut_ptr(), work.len()) }
    }
}

/// Pages of sheets: the text's length, or minus the refusal's number.
pub mod page {
    unsafe extern "C" {
        fn page_text(
            sheet: *const u8,
            bytes: usize,
            page: u64,
            work: *mut f64,
            places: usize,
            text: *mut u8,
            room: usize,
        ) -> i64;
        fn page_decimal(x: u64, text: *mut u8, room: usize) -> i64;
    }

    // SAFETY, for both: each slice is lent with its own length, and the function
    // is proved to stay inside them.

    /// A page of a sheet.
    pub fn text(sheet: &[u8], page: u64, work: &mut [f64], text: &mut [u8]) -> i64 {
        unsafe {
            page_text(
                sheet.as_ptr(),
                sheet.len(),
                page,
                work.as_mut_ptr(),
                work.len(),
                text.as_mut_ptr(),
                text.len(),
            )
        }
    }

    /// The columns of one angle, by its bits.
    pub fn decimal(x: u64, text: &mut [u8]) -> i64 {
        unsafe { page_decimal(x, text.as_mut_ptr(), text.len()) }
    }
}
