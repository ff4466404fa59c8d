//! The C interface of the proved crates for Rust: the functions that include/line.h declares, each under a safe
//! wrapper. A slice is aligned, not null and as long as it says, and two that are lent apart do not overlap, which is
//! all that the header asks of a caller.

mod raw {
    extern "C" {
        pub fn line_load(
            n: u32,
            links: *const u32,
            link_words: usize,
            holds: *const u32,
            hold_words: usize,
            area: *mut u32,
            area_words: usize,
        ) -> u32;
        pub fn line_quote(
            area: *const u32,
            area_words: usize,
            work: *mut u32,
            work_words: usize,
            path: *mut u32,
            path_words: usize,
            s: u32,
            t: u32,
            units: u32,
            delay_bound: u32,
            cost_bound: u32,
            coefficient: u32,
            answer: *mut u32,
        ) -> u32;
        pub fn line_admit(
            area: *mut u32,
            area_words: usize,
            work: *mut u32,
            work_words: usize,
            path: *mut u32,
            path_words: usize,
            circuit: u32,
            s: u32,
            t: u32,
            units: u32,
            delay_bound: u32,
            cost_bound: u32,
            coefficient: u32,
            answer: *mut u32,
        ) -> u32;
        pub fn line_release(area: *mut u32, area_words: usize, circuit: u32) -> u32;
        pub fn line_admit_jobs(
            area: *mut u32,
            area_words: usize,
            work: *mut u32,
            work_words: usize,
            jobs: *const u32,
            job_words: usize,
            answers: *mut u32,
            answer_words: usize,
            answer: *mut u32,
        ) -> u32;
        pub fn line_list(
            area: *const u32,
            area_words: usize,
            numbers: *mut u32,
            number_words: usize,
            answer: *mut u32,
        ) -> u32;
        pub fn line_free_units(area: *const u32, area_words: usize, link: u32, answer: *mut u32) -> u32;
        pub fn line_check_classes(rows: *const u32, row_words: usize) -> u32;
        pub fn line_class(rows: *const u32, row_words: usize, service_class: u32, answer: *mut u32) -> u32;
        pub fn line_sample_classes(answer: *mut u32) -> u32;
        pub fn line_read_link_file(
            file: *const u8,
            file_bytes: usize,
            table: *mut u32,
            table_words: usize,
            answer: *mut u32,
        ) -> u32;
    }
}

/// A request's numbers, in the order of the header.
#[derive(Clone, Copy, Debug, PartialEq, Eq, Hash)]
pub struct Request {
    pub s: u32,
    pub t: u32,
    pub units: u32,
    pub delay_bound: u32,
    pub cost_bound: u32,
    pub coefficient: u32,
}

pub fn load(n: u32, links: &[u32], holds: &[u32], area: &mut [u32]) -> u32 {
    unsafe {
        raw::line_load(n, links.as_ptr(), links.len(), holds.as_ptr(), holds.len(), area.as_mut_ptr(), area.len())
    }
}

pub fn quote(area: &[u32], work: &mut [u32], path: &mut [u32], r: &Request, answer: &mut [u32; 4]) -> u32 {
    unsafe {
        raw::line_quote(
            area.as_ptr(),
            area.len(),
            work.as_mut_ptr(),
            work.len(),
            path.as_mut_ptr(),
            path.len(),
            r.s,
            r.t,
            r.units,
            r.delay_bound,
            r.cost_bound,
            r.coefficient,
            answer.as_mut_ptr(),
        )
    }
}

pub fn admit(
    area: &mut [u32],
    work: &mut [u32],
    path: &mut [u32],
    circuit: u32,
    r: &Request,
    answer: &mut [u32; 4],
) -> u32 {
    unsafe {
        raw::line_admit(
            area.as_mut_ptr(),
            area.len(),
            work.as_mut_ptr(),
            work.len(),
            path.as_mut_ptr(),
            path.len(),
            circuit,
            r.s,
            r.t,
            r.units,
            r.delay_bound,
            r.cost_bound,
            r.coefficient,
            answer.as_mut_ptr(),
        )
    }
}

pub fn release(area: &mut [u32], circuit: u32) -> u32 {
    unsafe { raw::line_release(area.as_mut_ptr(), area.len(), circuit) }
}

pub fn admit_jobs(area: &mut [u32], work: &mut [u32], jobs: &[u32], answers: &mut [u32], answer: &mut [u32; 1]) -> u32 {
    unsafe {
        raw::line_admit_jobs(
            area.as_mut_ptr(),
            area.len(),
            work.as_mut_ptr(),
            work.len(),
            jobs.as_ptr(),
            jobs.len(),
            answers.as_mut_ptr(),
            answers.len(),
            answer.as_mut_ptr(),
        )
    }
}

pub fn list(area: &[u32], numbers: &mut [u32], answer: &mut [u32; 1]) -> u32 {
    unsafe { raw::line_list(area.as_ptr(), area.len(), numbers.as_mut_ptr(), numbers.len(), answer.as_mut_ptr()) }
}

pub fn free_units(area: &[u32], link: u32, answer: &mut [u32; 1]) -> u32 {
    unsafe { raw::line_free_units(area.as_ptr(), area.len(), link, answer.as_mut_ptr()) }
}

pub fn check_classes(rows: &[u32]) -> u32 {
    unsafe { raw::line_check_classes(rows.as_ptr(), rows.len()) }
}

pub fn class(rows: &[u32], service_class: u32, answer: &mut [u32; 4]) -> u32 {
    unsafe { raw::line_class(rows.as_ptr(), rows.len(), service_class, answer.as_mut_ptr()) }
}

pub fn sample_classes(answer: &mut [u32; 24]) -> u32 {
    unsafe { raw::line_sample_classes(answer.as_mut_ptr()) }
}

pub fn read_link_file(file: &[u8], table: &mut [u32], answer: &mut [u32; 2]) -> u32 {
    unsafe { raw::line_read_link_file(file.as_ptr(), file.len(), table.as_mut_ptr(), table.len(), answer.as_mut_ptr()) }
}
