//! The proved library's C calls, with slices in place of pointers and lengths.

#[link(name = "exports", kind = "static")]
extern "C" {
    fn cuudhaqil_read_name(name: *const u8, n: usize, number: *mut u64, numbers: usize) -> u64;
    fn cuudhaqil_write_name(kind: u64, value: u64, out: *mut u8, room: usize) -> u64;
    fn cuudhaqil_next_record(trace: *const u8, n: usize) -> u64;
    fn cuudhaqil_read_step(
        record: *const u8,
        n: usize,
        numbers: *mut u64,
        count: usize,
        list: *mut u64,
        places: usize,
    ) -> u64;
    fn cuudhaqil_write_step(
        numbers: *const u64,
        count: usize,
        list: *const u64,
        places: usize,
        out: *mut u8,
        room: usize,
    ) -> u64;
    fn cuudhaqil_read_verdict(
        record: *const u8,
        n: usize,
        numbers: *mut u64,
        count: usize,
        list: *mut u64,
        places: usize,
    ) -> u64;
    fn cuudhaqil_write_verdict(
        numbers: *const u64,
        count: usize,
        list: *const u64,
        places: usize,
        out: *mut u8,
        room: usize,
    ) -> u64;
    fn cuudhaqil_version() -> u64;
    fn cuudhaqil_fresh(numbers: *mut u64, count: usize) -> u64;
    fn cuudhaqil_is_sound(ledger: *const u64, size: usize) -> u64;
    fn cuudhaqil_current(ledger: *const u64, size: usize, numbers: *mut u64, count: usize) -> u64;
    fn cuudhaqil_step(
        ledger: *mut u64,
        size: usize,
        numbers: *const u64,
        count: usize,
        list: *const u64,
        names: usize,
        verdict: *mut u64,
        answers: usize,
        objects: *mut u64,
        places: usize,
    ) -> u64;
    fn cuudhaqil_run(
        trace: *const u8,
        n: usize,
        out: *mut u8,
        room: usize,
        counts: *mut u64,
        len: usize,
    ) -> u64;
    fn cuudhaqil_run_on(
        ledger: *mut u64,
        size: usize,
        trace: *const u8,
        n: usize,
        out: *mut u8,
        room: usize,
        counts: *mut u64,
        len: usize,
    ) -> u64;
}

#[link(name = "desk_exports", kind = "static")]
extern "C" {
    fn cuudhaqil_read_sheet(record: *const u8, n: usize, numbers: *mut u64, count: usize) -> u64;
    fn cuudhaqil_write_sheet(numbers: *const u64, count: usize, out: *mut u8, room: usize) -> u64;
    fn cuudhaqil_sell(
        ledger: *mut u64,
        size: usize,
        time: u64,
        sheet: *const u8,
        n: usize,
        currency: u64,
        hold: u64,
        fare: u64,
        sale: *mut u64,
        answers: usize,
    ) -> u64;
    fn cuudhaqil_fill_card(
        ledger: *mut u64,
        size: usize,
        time: u64,
        hold: u64,
        count: u64,
        card: *mut u64,
        numbers: usize,
    ) -> u64;
}

#[link(name = "listing_exports", kind = "static")]
extern "C" {
    fn cuudhaqil_read_listing(listing: *const u8, n: usize, numbers: *mut u64, count: usize)
        -> u64;
}

#[link(name = "image_exports", kind = "static")]
extern "C" {
    fn cuudhaqil_read_image(image: *const u8, n: usize, ledger: *mut u64, size: usize) -> u64;
    fn cuudhaqil_write_image(ledger: *const u64, size: usize, out: *mut u8, room: usize) -> u64;
}

#[link(name = "log_exports", kind = "static")]
extern "C" {
    fn cuudhaqil_check_log(
        image: *const u8,
        image_len: usize,
        trace: *const u8,
        trace_len: usize,
        log: *const u8,
        log_len: usize,
        at: *mut u64,
        at_len: usize,
    ) -> u64;
}

pub fn read_name(name: &[u8], number: &mut [u64]) -> u64 {
    let (numbers, place) = (number.len(), number.as_mut_ptr());
    // SAFETY: both pointers come from slices of the lengths given.
    unsafe { cuudhaqil_read_name(name.as_ptr(), name.len(), place, numbers) }
}

pub fn write_name(kind: u64, value: u64, out: &mut [u8]) -> u64 {
    // SAFETY: the pointer comes from a slice of the length given.
    unsafe { cuudhaqil_write_name(kind, value, out.as_mut_ptr(), out.len()) }
}

pub fn next_record(trace: &[u8]) -> u64 {
    // SAFETY: the pointer comes from a slice of the length given.
    unsafe { cuudhaqil_next_record(trace.as_ptr(), trace.len()) }
}

pub fn read_step(record: &[u8], numbers: &mut [u64], list: &mut [u64]) -> u64 {
    let (count, places) = (numbers.len(), list.len());
    let (numbers, list) = (numbers.as_mut_ptr(), list.as_mut_ptr());
    // SAFETY: the pointers come from slices of the lengths given.
    unsafe { cuudhaqil_read_step(record.as_ptr(), record.len(), numbers, count, list, places) }
}

pub fn write_step(numbers: &[u64], list: &[u64], out: &mut [u8]) -> u64 {
    let (count, places, room) = (numbers.len(), list.len(), out.len());
    let (numbers, list, out) = (numbers.as_ptr(), list.as_ptr(), out.as_mut_ptr());
    // SAFETY: the pointers come from slices of the lengths given.
    unsafe { cuudhaqil_write_step(numbers, count, list, places, out, room) }
}

pub fn read_verdict(record: &[u8], numbers: &mut [u64], list: &mut [u64]) -> u64 {
    let (count, places) = (numbers.len(), list.len());
    let (numbers, list) = (numbers.as_mut_ptr(), list.as_mut_ptr());
    // SAFETY: the pointers come from slices of the lengths given.
    unsafe { cuudhaqil_read_verdict(record.as_ptr(), record.len(), numbers, count, list, places) }
}

pub fn write_verdict(numbers: &[u64], list: &[u64], out: &mut [u8]) -> u64 {
    let (count, places, room) = (numbers.len(), list.len(), out.len());
    let (numbers, list, out) = (numbers.as_ptr(), list.as_ptr(), out.as_mut_ptr());
    // SAFETY: the pointers come from slices of the lengths given.
    unsafe { cuudhaqil_write_verdict(numbers, count, list, places, out, room) }
}

pub fn fresh(numbers: &mut [u64]) -> u64 {
    // SAFETY: the pointer comes from a slice of the length given.
    unsafe { cuudhaqil_fresh(numbers.as_mut_ptr(), numbers.len()) }
}

pub fn version() -> u64 {
    // SAFETY: nothing is lent.
    unsafe { cuudhaqil_version() }
}

pub fn is_sound(ledger: &[u64]) -> u64 {
    // SAFETY: the pointer comes from a slice of the length given.
    unsafe { cuudhaqil_is_sound(ledger.as_ptr(), ledger.len()) }
}

pub fn current(ledger: &[u64], numbers: &mut [u64]) -> u64 {
    let (size, count) = (ledger.len(), numbers.len());
    // SAFETY: both pointers come from slices of the lengths given.
    unsafe { cuudhaqil_current(ledger.as_ptr(), size, numbers.as_mut_ptr(), count) }
}

pub fn step(
    ledger: &mut [u64],
    numbers: &[u64],
    list: &[u64],
    verdict: &mut [u64],
    objects: &mut [u64],
) -> u64 {
    let (size, count, names) = (ledger.len(), numbers.len(), list.len());
    let (answers, places) = (verdict.len(), objects.len());
    let (ledger, numbers, list) = (ledger.as_mut_ptr(), numbers.as_ptr(), list.as_ptr());
    let (verdict, objects) = (verdict.as_mut_ptr(), objects.as_mut_ptr());
    // SAFETY: the pointers come from slices of the lengths given, and those
    // that may be written do not overlap.
    unsafe {
        cuudhaqil_step(ledger, size, numbers, count, list, names, verdict, answers, objects, places)
    }
}

pub fn run(trace: &[u8], out: &mut [u8], counts: &mut [u64]) -> u64 {
    let (n, room, len) = (trace.len(), out.len(), counts.len());
    let (out, counts) = (out.as_mut_ptr(), counts.as_mut_ptr());
    // SAFETY: the pointers come from slices of the lengths given, and those
    // that may be written do not overlap.
    unsafe { cuudhaqil_run(trace.as_ptr(), n, out, room, counts, len) }
}

pub fn run_on(ledger: &mut [u64], trace: &[u8], out: &mut [u8], counts: &mut [u64]) -> u64 {
    let (size, n, room, len) = (ledger.len(), trace.len(), out.len(), counts.len());
    let (ledger, trace) = (ledger.as_mut_ptr(), trace.as_ptr());
    let (out, counts) = (out.as_mut_ptr(), counts.as_mut_ptr());
    // SAFETY: the pointers come from slices of the lengths given, and those
    // that may be written do not overlap.
    unsafe { cuudhaqil_run_on(ledger, size, trace, n, out, room, counts, len) }
}

pub fn read_sheet(record: &[u8], numbers: &mut [u64]) -> u64 {
    let (n, count) = (record.len(), numbers.len());
    // SAFETY: both pointers come from slices of the lengths given.
    unsafe { cuudhaqil_read_sheet(record.as_ptr(), n, numbers.as_mut_ptr(), count) }
}

pub fn write_sheet(numbers: &[u64], out: &mut [u8]) -> u64 {
    let (count, room) = (numbers.len(), out.len());
    // SAFETY: both pointers come from slices of the lengths given.
    unsafe { cuudhaqil_write_sheet(numbers.as_ptr(), count, out.as_mut_ptr(), room) }
}

pub fn sell(
    ledger: &mut [u64],
    time: u64,
    sheet: &[u8],
    currency: u64,
    hold: u64,
    fare: u64,
    sale: &mut [u64],
) -> u64 {
    let (size, n, answers) = (ledger.len(), sheet.len(), sale.len());
    let (ledger, sheet, sale) = (ledger.as_mut_ptr(), sheet.as_ptr(), sale.as_mut_ptr());
    // SAFETY: the pointers come from slices of the lengths given, and those
    // that may be written do not overlap.
    unsafe { cuudhaqil_sell(ledger, size, time, sheet, n, currency, hold, fare, sale, answers) }
}

pub fn fill_card(ledger: &mut [u64], time: u64, hold: u64, count: u64, card: &mut [u64]) -> u64 {
    let (size, numbers) = (ledger.len(), card.len());
    let (ledger, card) = (ledger.as_mut_ptr(), card.as_mut_ptr());
    // SAFETY: the pointers come from slices of the lengths given, and those
    // that may be written do not overlap.
    unsafe { cuudhaqil_fill_card(ledger, size, time, hold, count, card, numbers) }
}

pub fn read_listing(listing: &[u8], numbers: &mut [u64]) -> u64 {
    let (n, count) = (listing.len(), numbers.len());
    // SAFETY: both pointers come from slices of the lengths given.
    unsafe { cuudhaqil_read_listing(listing.as_ptr(), n, numbers.as_mut_ptr(), count) }
}

pub fn read_image(image: &[u8], ledger: &mut [u64]) -> u64 {
    let (n, size) = (image.len(), ledger.len());
    // SAFETY: both pointers come from slices of the lengths given.
    unsafe { cuudhaqil_read_image(image.as_ptr(), n, ledger.as_mut_ptr(), size) }
}

pub fn write_image(ledger: &[u64], out: &mut [u8]) -> u64 {
    let (size, room) = (ledger.len(), out.len());
    // SAFETY: both pointers come from slices of the lengths given.
    unsafe { cuudhaqil_write_image(ledger.as_ptr(), size, out.as_mut_ptr(), room) }
}

pub fn check_log(image: &[u8], trace: &[u8], log: &[u8], at: &mut [u64]) -> u64 {
    let (image_len, trace_len, log_len, at_len) = (image.len(), trace.len(), log.len(), at.len());
    let (image, trace, log) = (image.as_ptr(), trace.as_ptr(), log.as_ptr());
    let at = at.as_mut_ptr();
    // SAFETY: the pointers come from slices of the lengths given.
    unsafe { cuudhaqil_check_log(image, image_len, trace, trace_len, log, log_len, at, at_len) }
}
