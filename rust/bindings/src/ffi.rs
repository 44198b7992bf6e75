//! The functions of the library as C declares them, behind calls that take slices. All unsafe code is here.
//!
//! The library is proved to read and write nothing but the memory that its pointers and lengths name, whatever bytes stand
//! there, and its own stack. Each call below lends it the memory of whole slices for the time of the call. The borrow
//! checker keeps an output apart from the inputs.

extern "C" {
    fn gx_read_description(d: *const u8, d_len: usize) -> u64;
    fn gx_read_specimen(s: *const u8, s_len: usize) -> u64;
    fn gx_read_sheet(d: *const u8, d_len: usize) -> u64;
    fn gx_fit(s: *const u8, s_len: usize, d: *const u8, d_len: usize) -> u64;
    fn gx_fit_counted(s: *const u8, s_len: usize, d: *const u8, d_len: usize) -> u64;
    fn gx_normal(d: *const u8, d_len: usize, out: *mut u8, out_len: usize) -> u64;
    fn gx_compare(
        c: *const u8,
        c_len: usize,
        d: *const u8,
        d_len: usize,
        out: *mut u8,
        out_len: usize,
    ) -> u64;
    fn gx_fit_with(
        pairs: *const u8,
        pairs_len: usize,
        dict: *const u8,
        dict_len: usize,
        s: *const u8,
        s_len: usize,
        d: *const u8,
        d_len: usize,
    ) -> u64;
    fn gx_normal_with(
        pairs: *const u8,
        pairs_len: usize,
        dict: *const u8,
        dict_len: usize,
        d: *const u8,
        d_len: usize,
        out: *mut u8,
        out_len: usize,
    ) -> u64;
    fn gx_compare_with(
        pairs: *const u8,
        pairs_len: usize,
        dict: *const u8,
        dict_len: usize,
        c: *const u8,
        c_len: usize,
        d: *const u8,
        d_len: usize,
        out: *mut u8,
        out_len: usize,
    ) -> u64;
    fn gx_narrowest(
        pairs: *const u8,
        pairs_len: usize,
        dict: *const u8,
        dict_len: usize,
        a: *const u8,
        a_len: usize,
        b: *const u8,
        b_len: usize,
        out: *mut u8,
        out_len: usize,
    ) -> u64;
    fn gx_unfold(
        dict: *const u8,
        dict_len: usize,
        d: *const u8,
        d_len: usize,
        out: *mut u8,
        out_len: usize,
    ) -> u64;
    fn gx_catalogue(
        pairs: *const u8,
        pairs_len: usize,
        dict: *const u8,
        dict_len: usize,
        c: *const u8,
        c_len: usize,
        list: *const u8,
        list_len: usize,
        out: *mut u8,
        out_len: usize,
    ) -> u64;
    fn gx_hierarchy(
        pairs: *const u8,
        pairs_len: usize,
        list: *const u8,
        list_len: usize,
        out: *mut u8,
        out_len: usize,
    ) -> u64;
    fn gx_earning(
        pairs: *const u8,
        pairs_len: usize,
        c: *const u8,
        c_len: usize,
        d: *const u8,
        d_len: usize,
        out: *mut u8,
        out_len: usize,
    ) -> u64;
    fn gx_failing(
        pairs: *const u8,
        pairs_len: usize,
        c: *const u8,
        c_len: usize,
        d: *const u8,
        d_len: usize,
        out: *mut u8,
        out_len: usize,
    ) -> u64;
    fn gx_missing(
        pairs: *const u8,
        pairs_len: usize,
        c: *const u8,
        c_len: usize,
        d: *const u8,
        d_len: usize,
        out: *mut u8,
        out_len: usize,
    ) -> u64;
    fn gx_desk_add(desk: *mut u8, desk_len: usize, entry: u64) -> u64;
    fn gx_desk_take_off(desk: *mut u8, desk_len: usize) -> u64;
    fn gx_desk_name(desk: *mut u8, desk_len: usize, stand: u16) -> u64;
    fn gx_desk_go_back(desk: *mut u8, desk_len: usize, stand: u16) -> u64;
    fn gx_desk_drop(desk: *mut u8, desk_len: usize, stand: u16) -> u64;
    fn gx_desk_write(desk: *const u8, desk_len: usize, out: *mut u8, out_len: usize) -> u64;
    fn gx_fit_all(
        pairs: *const u8,
        pairs_len: usize,
        dict: *const u8,
        dict_len: usize,
        total: usize,
        record: *const u8,
        record_len: usize,
        d: *const u8,
        d_len: usize,
        out: *mut u8,
        out_len: usize,
    ) -> u64;
    fn gx_to_stored(d: *const u8, d_len: usize, out: *mut u8, out_len: usize) -> u64;
    fn gx_from_stored(s: *const u8, s_len: usize, out: *mut u8, out_len: usize) -> u64;
}

pub(crate) fn read_description(d: &[u8]) -> u64 {
    // SAFETY: the pointer and the length are those of a slice.
    unsafe { gx_read_description(d.as_ptr(), d.len()) }
}

pub(crate) fn read_specimen(s: &[u8]) -> u64 {
    // SAFETY: the pointer and the length are those of a slice.
    unsafe { gx_read_specimen(s.as_ptr(), s.len()) }
}

pub(crate) fn read_sheet(d: &[u8]) -> u64 {
    // SAFETY: the pointer and the length are those of a slice.
    unsafe { gx_read_sheet(d.as_ptr(), d.len()) }
}

pub(crate) fn fit(s: &[u8], d: &[u8]) -> u64 {
    // SAFETY: the pointers and lengths are those of two slices.
    unsafe { gx_fit(s.as_ptr(), s.len(), d.as_ptr(), d.len()) }
}

pub(crate) fn fit_counted(s: &[u8], d: &[u8]) -> u64 {
    // SAFETY: the pointers and lengths are those of two slices.
    unsafe { gx_fit_counted(s.as_ptr(), s.len(), d.as_ptr(), d.len()) }
}

pub(crate) fn normal(d: &[u8], out: &mut [u8]) -> u64 {
    // SAFETY: the pointers and lengths are those of two slices, and the second is ours alone.
    unsafe { gx_normal(d.as_ptr(), d.len(), out.as_mut_ptr(), out.len()) }
}

pub(crate) fn compare(c: &[u8], d: &[u8], out: &mut [u8]) -> u64 {
    // SAFETY: the pointers and lengths are those of three slices, and the third is ours alone.
    unsafe {
        gx_compare(
            c.as_ptr(),
            c.len(),
            d.as_ptr(),
            d.len(),
            out.as_mut_ptr(),
            out.len(),
        )
    }
}

pub(crate) fn fit_with(pairs: &[u8], dict: &[u8], s: &[u8], d: &[u8]) -> u64 {
    // SAFETY: the pointers and lengths are those of four slices.
    unsafe {
        gx_fit_with(
            pairs.as_ptr(),
            pairs.len(),
            dict.as_ptr(),
            dict.len(),
            s.as_ptr(),
            s.len(),
            d.as_ptr(),
            d.len(),
        )
    }
}

pub(crate) fn normal_with(pairs: &[u8], dict: &[u8], d: &[u8], out: &mut [u8]) -> u64 {
    // SAFETY: the pointers and lengths are those of four slices, and the last is ours alone.
    unsafe {
        gx_normal_with(
            pairs.as_ptr(),
            pairs.len(),
            dict.as_ptr(),
            dict.len(),
            d.as_ptr(),
            d.len(),
            out.as_mut_ptr(),
            out.len(),
        )
    }
}

pub(crate) fn compare_with(pairs: &[u8], dict: &[u8], c: &[u8], d: &[u8], out: &mut [u8]) -> u64 {
    // SAFETY: the pointers and lengths are those of five slices, and the last is ours alone.
    unsafe {
        gx_compare_with(
            pairs.as_ptr(),
            pairs.len(),
            dict.as_ptr(),
            dict.len(),
            c.as_ptr(),
            c.len(),
            d.as_ptr(),
            d.len(),
            out.as_mut_ptr(),
            out.len(),
        )
    }
}

pub(crate) fn narrowest(pairs: &[u8], dict: &[u8], a: &[u8], b: &[u8], out: &mut [u8]) -> u64 {
    // SAFETY: the pointers and lengths are those of five slices, and the last is ours alone.
    unsafe {
        gx_narrowest(
            pairs.as_ptr(),
            pairs.len(),
            dict.as_ptr(),
            dict.len(),
            a.as_ptr(),
            a.len(),
            b.as_ptr(),
            b.len(),
            out.as_mut_ptr(),
            out.len(),
        )
    }
}

pub(crate) fn unfold(dict: &[u8], d: &[u8], out: &mut [u8]) -> u64 {
    // SAFETY: the pointers and lengths are those of three slices, and the third is ours alone.
    unsafe {
        gx_unfold(
            dict.as_ptr(),
            dict.len(),
            d.as_ptr(),
            d.len(),
            out.as_mut_ptr(),
            out.len(),
        )
    }
}

pub(crate) fn catalogue(pairs: &[u8], dict: &[u8], c: &[u8], list: &[u8], out: &mut [u8]) -> u64 {
    // SAFETY: the pointers and lengths are those of five slices, and the last is ours alone.
    unsafe {
        gx_catalogue(
            pairs.as_ptr(),
            pairs.len(),
            dict.as_ptr(),
            dict.len(),
            c.as_ptr(),
            c.len(),
            list.as_ptr(),
            list.len(),
            out.as_mut_ptr(),
            out.len(),
        )
    }
}

pub(crate) fn fit_all(
    pairs: &[u8],
    dict: &[u8],
    total: usize,
    record: &[u8],
    d: &[u8],
    out: &mut [u8],
) -> u64 {
    // SAFETY: the pointers and lengths are those of five slices, and the last is ours alone.
    unsafe {
        gx_fit_all(
            pairs.as_ptr(),
            pairs.len(),
            dict.as_ptr(),
            dict.len(),
            total,
            record.as_ptr(),
            record.len(),
            d.as_ptr(),
            d.len(),
            out.as_mut_ptr(),
            out.len(),
        )
    }
}

pub(crate) fn hierarchy(pairs: &[u8], list: &[u8], out: &mut [u8]) -> u64 {
    // SAFETY: the pointers and lengths are those of three slices, and the last is ours alone.
    unsafe {
        gx_hierarchy(
            pairs.as_ptr(),
            pairs.len(),
            list.as_ptr(),
            list.len(),
            out.as_mut_ptr(),
            out.len(),
        )
    }
}

pub(crate) fn earning(pairs: &[u8], c: &[u8], d: &[u8], out: &mut [u8]) -> u64 {
    // SAFETY: the pointers and lengths are those of four slices, and the last is ours alone.
    unsafe {
        gx_earning(
            pairs.as_ptr(),
            pairs.len(),
            c.as_ptr(),
            c.len(),
            d.as_ptr(),
            d.len(),
            out.as_mut_ptr(),
            out.len(),
        )
    }
}

pub(crate) fn failing(pairs: &[u8], c: &[u8], d: &[u8], out: &mut [u8]) -> u64 {
    // SAFETY: the pointers and lengths are those of four slices, and the last is ours alone.
    unsafe {
        gx_failing(
            pairs.as_ptr(),
            pairs.len(),
            c.as_ptr(),
            c.len(),
            d.as_ptr(),
            d.len(),
            out.as_mut_ptr(),
            out.len(),
        )
    }
}

pub(crate) fn missing(pairs: &[u8], c: &[u8], d: &[u8], out: &mut [u8]) -> u64 {
    // SAFETY: the pointers and lengths are those of four slices, and the last is ours alone.
    unsafe {
        gx_missing(
            pairs.as_ptr(),
            pairs.len(),
            c.as_ptr(),
            c.len(),
            d.as_ptr(),
            d.len(),
            out.as_mut_ptr(),
            out.len(),
        )
    }
}

pub(crate) fn desk_add(desk: &mut [u8], entry: u64) -> u64 {
    // SAFETY: the pointer and the length are those of a slice that is ours alone.
    unsafe { gx_desk_add(desk.as_mut_ptr(), desk.len(), entry) }
}

pub(crate) fn desk_take_off(desk: &mut [u8]) -> u64 {
    // SAFETY: the pointer and the length are those of a slice that is ours alone.
    unsafe { gx_desk_take_off(desk.as_mut_ptr(), desk.len()) }
}

pub(crate) fn desk_name(desk: &mut [u8], stand: u16) -> u64 {
    // SAFETY: the pointer and the length are those of a slice that is ours alone.
    unsafe { gx_desk_name(desk.as_mut_ptr(), desk.len(), stand) }
}

pub(crate) fn desk_go_back(desk: &mut [u8], stand: u16) -> u64 {
    // SAFETY: the pointer and the length are those of a slice that is ours alone.
    unsafe { gx_desk_go_back(desk.as_mut_ptr(), desk.len(), stand) }
}

pub(crate) fn desk_drop(desk: &mut [u8], stand: u16) -> u64 {
    // SAFETY: the pointer and the length are those of a slice that is ours alone.
    unsafe { gx_desk_drop(desk.as_mut_ptr(), desk.len(), stand) }
}

pub(crate) fn desk_write(desk: &[u8], out: &mut [u8]) -> u64 {
    // SAFETY: the pointers and lengths are those of two slices, and the second is ours alone.
    unsafe { gx_desk_write(desk.as_ptr(), desk.len(), out.as_mut_ptr(), out.len()) }
}

pub(crate) fn to_stored(d: &[u8], out: &mut [u8]) -> u64 {
    // SAFETY: the pointers and lengths are those of two slices, and the second is ours alone.
    unsafe { gx_to_stored(d.as_ptr(), d.len(), out.as_mut_ptr(), out.len()) }
}

pub(crate) fn from_stored(s: &[u8], out: &mut [u8]) -> u64 {
    // SAFETY: the pointers and lengths are those of two slices, and the second is ours alone.
    unsafe { gx_from_stored(s.as_ptr(), s.len(), out.as_mut_ptr(), out.len()) }
}

#[cfg(test)]
mod tests {
    use super::*;
    use std::ptr::{null, null_mut};

    /// Refusal 1 of input 1, at place 0.
    const EMPTY: u64 = 256 + 65_536;

    #[test]
    fn an_empty_slice_may_come_with_any_pointer() {
        // SAFETY: no memory is lent.
        unsafe {
            assert_eq!(gx_read_description(null(), 0), EMPTY);
            assert_eq!(gx_read_specimen(null(), 0), EMPTY);
            assert_eq!(gx_read_sheet(null(), 0), EMPTY);
            assert_eq!(gx_fit(null(), 0, null(), 0), EMPTY);
            assert_eq!(gx_fit_counted(null(), 0, null(), 0), EMPTY);
            assert_eq!(gx_normal(null(), 0, null_mut(), 0), EMPTY);
            assert_eq!(gx_compare(null(), 0, null(), 0, null_mut(), 0), EMPTY);
            assert_eq!(gx_to_stored(null(), 0, null_mut(), 0), EMPTY);
            assert_eq!(gx_from_stored(null(), 0, null_mut(), 0), EMPTY);
        }
    }

    #[test]
    fn an_empty_list_and_dictionary_may_come_with_any_pointer() {
        let (no, none) = (null(), null_mut());
        // SAFETY: no memory is lent.
        unsafe {
            assert_eq!(gx_fit_with(no, 0, no, 0, no, 0, no, 0), EMPTY);
            assert_eq!(gx_normal_with(no, 0, no, 0, no, 0, none, 0), EMPTY);
            assert_eq!(gx_compare_with(no, 0, no, 0, no, 0, no, 0, none, 0), EMPTY);
            assert_eq!(gx_narrowest(no, 0, no, 0, no, 0, no, 0, none, 0), EMPTY);
            assert_eq!(gx_unfold(no, 0, no, 0, none, 0), EMPTY);
            assert_eq!(gx_catalogue(no, 0, no, 0, no, 0, no, 0, none, 0), EMPTY);
            assert_eq!(gx_earning(no, 0, no, 0, no, 0, none, 0), EMPTY);
            assert_eq!(gx_failing(no, 0, no, 0, no, 0, none, 0), EMPTY);
            assert_eq!(gx_missing(no, 0, no, 0, no, 0, none, 0), EMPTY);
            // Refusal 1 of input 2.
            assert_eq!(gx_hierarchy(no, 0, no, 0, none, 0), 256 + 2 * 65_536);
        }
    }

    #[test]
    fn an_empty_desk_may_come_with_any_pointer() {
        // Refusal 20 of input 1.
        let due = 20 * 256 + 65_536;
        let (no, none) = (null(), null_mut());
        // SAFETY: no memory is lent.
        unsafe {
            assert_eq!(gx_desk_add(none, 0, 0), due);
            assert_eq!(gx_desk_take_off(none, 0), due);
            assert_eq!(gx_desk_name(none, 0, 1), due);
            assert_eq!(gx_desk_go_back(none, 0, 1), due);
            assert_eq!(gx_desk_drop(none, 0, 1), due);
            assert_eq!(gx_desk_write(no, 0, none, 0), due);
        }
    }
}
