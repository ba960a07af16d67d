//! The proved contribution book: safe wrappers over the calls of
//! `c/contribution_book.h`, which says what each takes, gives, refuses and
//! leaves. The structs and their fields are the header's.

/// Bytes of an image's header and of each record.
pub const RECORD: usize = 24;
/// Bytes of the longest image: the header and 1,024 records.
pub const LONGEST_IMAGE: usize = 24_600;
/// Bytes of a page: 66 lines of 80 columns, each closed by a newline.
pub const PAGE: usize = 5_346;
/// The image of a fresh book.
pub const FRESH: [u8; RECORD] = *b"CHB1\0\0\0\0\0\0\0\0\0\0\0\0\0\0\0\0\0\0\0\0";

/// What `check` gives.
#[repr(C)]
#[derive(Clone, Copy, Debug, Default, PartialEq, Eq)]
pub struct CheckGiven {
    pub refusal: u8,
    pub record: u16,
    pub entries: u16,
}

/// What `post` gives.
#[repr(C)]
#[derive(Clone, Copy, Debug, Default, PartialEq, Eq)]
pub struct PostingGiven {
    pub refusal: u8,
    pub record: u16,
    pub number: u16,
    pub bytes: usize,
    pub settled: u64,
    pub paid_out: u64,
    pub retained: u64,
    pub interest: u64,
}

/// What `carry_over` gives.
#[repr(C)]
#[derive(Clone, Copy, Debug, Default, PartialEq, Eq)]
pub struct CarryGiven {
    pub refusal: u8,
    pub record: u16,
    pub bytes: usize,
}

/// What `statement` gives.
#[repr(C)]
#[derive(Clone, Copy, Debug, Default, PartialEq, Eq)]
pub struct StatementGiven {
    pub refusal: u8,
    pub record: u16,
    pub links_read: u16,
    pub complete: bool,
    pub arrears: u64,
    pub credit: u64,
    pub deposit: u64,
    pub held: u64,
    pub bills: u64,
    pub payments: u64,
}

/// What `contribution` gives.
#[repr(C)]
#[derive(Clone, Copy, Debug, Default, PartialEq, Eq)]
pub struct ContributionGiven {
    pub refusal: u8,
    pub record: u16,
    pub added: u16,
    pub closed: bool,
    pub amount: u64,
    pub to_arrears: u64,
    pub paid_out: u64,
    pub held: u64,
    pub retained: u64,
}

/// What `year` gives.
#[repr(C)]
#[derive(Clone, Copy, Debug, Default, PartialEq, Eq)]
pub struct YearGiven {
    pub refusal: u8,
    pub record: u16,
    pub entries: u16,
    pub bills: u64,
    pub payments: u64,
    pub paid_out: u64,
}

/// What `page` gives.
#[repr(C)]
#[derive(Clone, Copy, Debug, Default, PartialEq, Eq)]
pub struct PageGiven {
    pub refusal: u8,
    pub record: u16,
    pub bytes: usize,
}

extern "C" {
    fn contribution_book_check(image: *const u8, image_length: usize) -> CheckGiven;

    fn contribution_book_post(
        image: *const u8,
        image_length: usize,
        entry: *const u8,
        entry_length: usize,
        output: *mut u8,
        output_length: usize,
    ) -> PostingGiven;

    fn contribution_book_carry_over(
        image: *const u8,
        image_length: usize,
        entries: *const u8,
        entries_length: usize,
        results: *mut u8,
        results_length: usize,
        output: *mut u8,
        output_length: usize,
    ) -> CarryGiven;

    fn contribution_book_statement(
        image: *const u8,
        image_length: usize,
        account: u16,
        allowance: u64,
    ) -> StatementGiven;

    fn contribution_book_contribution(
        image: *const u8,
        image_length: usize,
        account: u16,
        node: u8,
        serial: u32,
    ) -> ContributionGiven;

    fn contribution_book_year(image: *const u8, image_length: usize, year: u16) -> YearGiven;

    fn contribution_book_page(
        image: *const u8,
        image_length: usize,
        account: u16,
        output: *mut u8,
        output_length: usize,
    ) -> PageGiven;
}

/// Checks an image.
pub fn check(image: &[u8]) -> CheckGiven {
    // SAFETY: the pointer and length are a slice's, so the pointer is not null
    // and the bytes can be read; the call keeps no pointer.
    unsafe { contribution_book_check(image.as_ptr(), image.len()) }
}

/// Posts one entry; the next image goes to the start of the output.
pub fn post(image: &[u8], entry: &[u8], output: &mut [u8]) -> PostingGiven {
    // SAFETY: as in `check`; and the output, borrowed mutably, overlaps no
    // other slice.
    unsafe {
        contribution_book_post(
            image.as_ptr(),
            image.len(),
            entry.as_ptr(),
            entry.len(),
            output.as_mut_ptr(),
            output.len(),
        )
    }
}

/// Posts each of the entries, records in turn; its refusal number, or 0, goes to its place in
/// the result list, and the next image to the start of the output.
pub fn carry_over(
    image: &[u8],
    entries: &[u8],
    results: &mut [u8],
    output: &mut [u8],
) -> CarryGiven {
    // SAFETY: as in `check`; and the result list and the output, each borrowed
    // mutably, overlap no other slice.
    unsafe {
        contribution_book_carry_over(
            image.as_ptr(),
            image.len(),
            entries.as_ptr(),
            entries.len(),
            results.as_mut_ptr(),
            results.len(),
            output.as_mut_ptr(),
            output.len(),
        )
    }
}

/// The statement of an account, reading at most `allowance` of its entries,
/// newest first.
pub fn statement(image: &[u8], account: u16, allowance: u64) -> StatementGiven {
    // SAFETY: as in `check`.
    unsafe { contribution_book_statement(image.as_ptr(), image.len(), account, allowance) }
}

/// What became of the contribution that carries this node and serial.
pub fn contribution(image: &[u8], account: u16, node: u8, serial: u32) -> ContributionGiven {
    // SAFETY: as in `check`.
    unsafe { contribution_book_contribution(image.as_ptr(), image.len(), account, node, serial) }
}

/// The totals of a calendar year.
pub fn year(image: &[u8], year: u16) -> YearGiven {
    // SAFETY: as in `check`.
    unsafe { contribution_book_year(image.as_ptr(), image.len(), year) }
}

/// The statement page of an account; it goes to the start of the output.
pub fn page(image: &[u8], account: u16, output: &mut [u8]) -> PageGiven {
    // SAFETY: as in `post`.
    unsafe {
        contribution_book_page(
            image.as_ptr(),
            image.len(),
            account,
            output.as_mut_ptr(),
            output.len(),
        )
    }
}
