//! linres from Rust: a safe wrapper over the functions of linres.h, and document 01's example through it.
//!
//!     bindings/build && rustc --edition 2021 -O -o target/example_rs -L target/lib -l static=linres bindings/example.rs && target/example_rs
//!
//! Rust's references are what the header asks for: never null, aligned, as long as they say, and what is written is shared with nobody.
use std::process::ExitCode;

pub mod linres {
    const OUTPUT: usize = 1024;
    const WORK: usize = 12 * (OUTPUT + 1);
    const TEXT: usize = 11313;
    const NUMBERS: usize = 64;

    extern "C" {
        fn linres_answer_text(text: *const u8, text_len: usize, out: *mut u8, out_len: usize) -> usize;
        fn linres_resolvent(
            p: u32,
            f: *const u32,
            n: usize,
            weights: *const i32,
            r: usize,
            out: *mut u32,
            out_len: usize,
            work: *mut u32,
            work_len: usize,
            count: &mut usize,
            simple: &mut u32,
            lists: &mut u32,
        ) -> u32;
        fn linres_lists(weights: *const i32, r: usize, lists: &mut u32) -> u32;
        fn linres_read_job(
            text: *const u8,
            text_len: usize,
            coeffs: *mut u32,
            coeffs_len: usize,
            weights: *mut i32,
            weights_len: usize,
            modulus: &mut u32,
            degree: &mut usize,
            weight_count: &mut usize,
        ) -> u32;
        fn linres_read_answer(
            text: *const u8,
            text_len: usize,
            coeffs: *mut u32,
            coeffs_len: usize,
            modulus: &mut u32,
            degree: &mut usize,
            simple: &mut u32,
        ) -> u32;
        fn linres_write_job(
            modulus: u32,
            coeffs: *const u32,
            n: usize,
            weights: *const i32,
            r: usize,
            out: *mut u8,
            out_len: usize,
            len: &mut usize,
        ) -> u32;
        fn linres_write_answer(
            modulus: u32,
            simple: u32,
            coeffs: *const u32,
            n: usize,
            out: *mut u8,
            out_len: usize,
            len: &mut usize,
        ) -> u32;
    }

    /// The number of document 01's table by which a call is refused; linres.h has its words.
    #[derive(Debug, PartialEq)]
    pub struct Refused(pub u32);

    /// The coefficients b1 to bN, whether f has simple zeros, and the number of weight lists worked.
    #[derive(Debug, PartialEq)]
    pub struct Resolvent {
        pub coefficients: Vec<u32>,
        pub simple: bool,
        pub lists: u32,
    }

    /// What a job record holds.
    #[derive(Debug, PartialEq)]
    pub struct Job {
        pub modulus: u32,
        pub coefficients: Vec<u32>,
        pub weights: Vec<i32>,
    }

    /// What an answer record holds.
    #[derive(Debug, PartialEq)]
    pub struct Answer {
        pub modulus: u32,
        pub simple: bool,
        pub coefficients: Vec<u32>,
    }

    fn done<T>(code: u32, result: T) -> Result<T, Refused> {
        if code == 0 { Ok(result) } else { Err(Refused(code)) }
    }

    /// The text that answers a text: an answer record, or a line `refused=K`.
    pub fn answer_text(text: &[u8]) -> Vec<u8> {
        let mut out = vec![0; TEXT];
        let length = unsafe { linres_answer_text(text.as_ptr(), text.len(), out.as_mut_ptr(), out.len()) };
        out.truncate(length);
        out
    }

    /// The resolvent of x^n + f[0] x^(n-1) + .. for the weights, modulo p.
    pub fn resolvent(p: u32, f: &[u32], weights: &[i32]) -> Result<Resolvent, Refused> {
        let (mut out, mut work) = (vec![0; OUTPUT], vec![0; WORK]);
        let (mut count, mut simple, mut lists) = (0, 0, 0);
        let code = unsafe {
            linres_resolvent(
                p,
                f.as_ptr(),
                f.len(),
                weights.as_ptr(),
                weights.len(),
                out.as_mut_ptr(),
                out.len(),
                work.as_mut_ptr(),
                work.len(),
                &mut count,
                &mut simple,
                &mut lists,
            )
        };
        out.truncate(count);
        done(code, Resolvent { coefficients: out, simple: simple == 1, lists })
    }

    /// The number of weight lists that a job with these weights is worked by.
    pub fn lists(weights: &[i32]) -> Result<u32, Refused> {
        let mut lists = 0;
        let code = unsafe { linres_lists(weights.as_ptr(), weights.len(), &mut lists) };
        done(code, lists)
    }

    /// The values of a job record.
    pub fn read_job(text: &[u8]) -> Result<Job, Refused> {
        let (mut coefficients, mut weights) = (vec![0; NUMBERS], vec![0; NUMBERS]);
        let (mut modulus, mut degree, mut weight_count) = (0, 0, 0);
        let code = unsafe {
            linres_read_job(
                text.as_ptr(),
                text.len(),
                coefficients.as_mut_ptr(),
                coefficients.len(),
                weights.as_mut_ptr(),
                weights.len(),
                &mut modulus,
                &mut degree,
                &mut weight_count,
            )
        };
        coefficients.truncate(degree);
        weights.truncate(weight_count);
        done(code, Job { modulus, coefficients, weights })
    }

    /// The values of an answer record.
    pub fn read_answer(text: &[u8]) -> Result<Answer, Refused> {
        let mut coefficients = vec![0; OUTPUT];
        let (mut modulus, mut degree, mut simple) = (0, 0, 0);
        let code = unsafe {
            linres_read_answer(
                text.as_ptr(),
                text.len(),
                coefficients.as_mut_ptr(),
                coefficients.len(),
                &mut modulus,
                &mut degree,
                &mut simple,
            )
        };
        coefficients.truncate(degree);
        done(code, Answer { modulus, simple: simple == 1, coefficients })
    }

    /// The job record of these values.
    pub fn write_job(modulus: u32, coefficients: &[u32], weights: &[i32]) -> Result<Vec<u8>, Refused> {
        let (mut out, mut len) = (vec![0; TEXT], 0);
        let code = unsafe {
            linres_write_job(
                modulus,
                coefficients.as_ptr(),
                coefficients.len(),
                weights.as_ptr(),
                weights.len(),
                out.as_mut_ptr(),
                out.len(),
                &mut len,
            )
        };
        out.truncate(len);
        done(code, out)
    }

    /// The answer record of these values.
    pub fn write_answer(modulus: u32, simple: bool, coefficients: &[u32]) -> Result<Vec<u8>, Refused> {
        let (mut out, mut len) = (vec![0; TEXT], 0);
        let code = unsafe {
            linres_write_answer(
                modulus,
                simple.into(),
                coefficients.as_ptr(),
                coefficients.len(),
                out.as_mut_ptr(),
                out.len(),
                &mut len,
            )
        };
        out.truncate(len);
        done(code, out)
    }
}

fn main() -> ExitCode {
    let job = linres::write_job(257, &[0, 0, 0, 256], &[1, 1]).unwrap();
    let text = linres::answer_text(&job);
    print!("{}", String::from_utf8_lossy(&text));
    println!("{:?}", linres::lists(&[1, 1]));
    println!("{:?}", linres::resolvent(257, &[0, 0, 0, 256], &[1, 1]));
    println!("{:?} {:?} {:?}", linres::resolvent(251, &[], &[]), linres::resolvent(257, &[], &[]), linres::lists(&[]));
    println!("{:?} {:?}", linres::read_job(&job), linres::read_job(&text));
    println!("{:?} {:?}", linres::read_answer(&text), linres::write_job(257, &[], &[1]));
    println!("{}", linres::write_answer(257, true, &[0, 0, 0, 4, 0, 0]) == Ok(text));
    ExitCode::SUCCESS
}
