//! The library's functions as C has them, on slices: buffers of the caller's, nothing allocated.
//!
//! Each fills `answer`, whose first two numbers are the refusal's number (0: none) and place; after a refusal the others
//! are 0 and every buffer is as it was. `include/ranthelo.h` says what each answer holds. The functions of the
//! package's root are these with buffers that are always long enough.

mod c {
    unsafe extern "C" {
        pub fn ranthelo_read(sheet: *const u8, sheet_len: usize, answer: *mut usize);
        pub fn ranthelo_test_span(
            sheet: *const u8,
            sheet_len: usize,
            test: usize,
            answer: *mut usize,
        );
        pub fn ranthelo_write(
            states: u8,
            inputs: u8,
            outputs: u8,
            quiet: u8,
            rules: *const u8,
            rules_len: usize,
            faults: *const u8,
            faults_len: usize,
            starts: *const u8,
            starts_len: usize,
            lengths: *const u16,
            lengths_len: usize,
            presses: *const u8,
            presses_len: usize,
            buffer: *mut u8,
            buffer_len: usize,
            answer: *mut usize,
        );
        pub fn ranthelo_generate(
            seed: u32,
            states: u8,
            inputs: u8,
            outputs: u8,
            buffer: *mut u8,
            buffer_len: usize,
            answer: *mut usize,
        );
        pub fn ranthelo_renumber(
            sheet: *const u8,
            sheet_len: usize,
            buffer: *mut u8,
            buffer_len: usize,
            answer: *mut usize,
        );
        pub fn ranthelo_run(
            sheet: *const u8,
            sheet_len: usize,
            board: *const u8,
            board_len: usize,
            presses: *const u8,
            presses_len: usize,
            buffer: *mut u8,
            buffer_len: usize,
            answer: *mut usize,
        );
        pub fn ranthelo_first_failed(
            sheet: *const u8,
            sheet_len: usize,
            board: *const u8,
            board_len: usize,
            answer: *mut usize,
        );
        pub fn ranthelo_compare(
            sheet: *const u8,
            sheet_len: usize,
            board: *const u8,
            board_len: usize,
            buffer: *mut u8,
            buffer_len: usize,
            answer: *mut usize,
        );
        pub fn ranthelo_judge(
            sheet: *const u8,
            sheet_len: usize,
            board: *mut u8,
            board_len: usize,
            sequence: *mut u8,
            sequence_len: usize,
            answer: *mut usize,
        );
        pub fn ranthelo_judge_counting(
            sheet: *const u8,
            sheet_len: usize,
            board: *mut u8,
            board_len: usize,
            sequence: *mut u8,
            sequence_len: usize,
            answer: *mut usize,
            nodes: *mut u32,
        );
        pub fn ranthelo_take(
            sheet: *const u8,
            sheet_len: usize,
            place: u8,
            last: *const u8,
            last_len: usize,
            board: *mut u8,
            board_len: usize,
            sequence: *mut u8,
            sequence_len: usize,
            answer: *mut usize,
        );
        pub fn ranthelo_add_test(
            sheet: *const u8,
            sheet_len: usize,
            presses: *const u8,
            presses_len: usize,
            buffer: *mut u8,
            buffer_len: usize,
            answer: *mut usize,
        );
        pub fn ranthelo_make(
            sheet: *const u8,
            sheet_len: usize,
            buffer: *mut u8,
            buffer_len: usize,
            answer: *mut usize,
        );
        pub fn ranthelo_tray(
            sheet: *const u8,
            sheet_len: usize,
            boards: usize,
            choices: *const u8,
            choices_len: usize,
            results: *mut u16,
            results_len: usize,
            answer: *mut usize,
        );
        pub fn ranthelo_record(
            sheet: *const u8,
            sheet_len: usize,
            log: *const u8,
            log_len: usize,
            answer: *mut usize,
        );
        pub fn ranthelo_record_board(
            sheet: *const u8,
            sheet_len: usize,
            log: *const u8,
            log_len: usize,
            board: *mut u8,
            board_len: usize,
            sequence: *mut u8,
            sequence_len: usize,
            answer: *mut usize,
        );
        pub fn ranthelo_merge(
            first: *const u8,
            first_len: usize,
            second: *const u8,
            second_len: usize,
            buffer: *mut u8,
            buffer_len: usize,
            answer: *mut usize,
        );
        pub fn ranthelo_station_begin(
            sheet: *const u8,
            sheet_len: usize,
            state: *mut usize,
            answer: *mut usize,
        );
        pub fn ranthelo_station_next(
            sheet: *const u8,
            sheet_len: usize,
            state: *mut usize,
            answer: *mut usize,
        );
        pub fn ranthelo_station_sound(
            sheet: *const u8,
            sheet_len: usize,
            state: *mut usize,
            sound: u8,
            answer: *mut usize,
        );
        pub fn ranthelo_station_change(
            sheet: *const u8,
            sheet_len: usize,
            changed: *const u8,
            changed_len: usize,
            state: *const usize,
            answer: *mut usize,
        );
    }
}

/// Read. Number, place, states, presses, sounds, RULEs, FAULTs, TESTs, open pairs.
pub fn read(sheet: &[u8], answer: &mut [usize; 9]) {
    // SAFETY: the slice and the answer are valid for their lengths throughout the call.
    unsafe { c::ranthelo_read(sheet.as_ptr(), sheet.len(), answer.as_mut_ptr()) }
}

/// One test's part. Number, place, start and length of the test's PRESS commands in the sheet.
pub fn test_span(sheet: &[u8], test: usize, answer: &mut [usize; 4]) {
    // SAFETY: the slice and the answer are valid for their lengths throughout the call.
    unsafe { c::ranthelo_test_span(sheet.as_ptr(), sheet.len(), test, answer.as_mut_ptr()) }
}

/// Tables to write a sheet from.
#[derive(Clone, Copy, Debug, Default)]
pub struct Tables<'a> {
    /// How many states, presses and sounds.
    pub size: [u8; 3],
    /// Whether a press without a RULE gives sound 0 and stays (QUIET).
    pub quiet: bool,
    /// RULEs, four bytes a row: state, press, sound, next state.
    pub rules: &'a [u8],
    /// FAULTs, four bytes a row.
    pub faults: &'a [u8],
    /// The states that STARTs name.
    pub starts: &'a [u8],
    /// How many presses each test has.
    pub lengths: &'a [u16],
    /// The presses of all tests, end to end.
    pub presses: &'a [u8],
}

/// Write. Number, place, the sheet's length; the sheet at the buffer's front.
pub fn write(tables: Tables, buffer: &mut [u8], answer: &mut [usize; 3]) {
    let [states, inputs, outputs] = tables.size;
    // SAFETY: all slices and the answer are valid for their lengths throughout the call.
    unsafe {
        c::ranthelo_write(
            states,
            inputs,
            outputs,
            u8::from(tables.quiet),
            tables.rules.as_ptr(),
            tables.rules.len(),
            tables.faults.as_ptr(),
            tables.faults.len(),
            tables.starts.as_ptr(),
            tables.starts.len(),
            tables.lengths.as_ptr(),
            tables.lengths.len(),
            tables.presses.as_ptr(),
            tables.presses.len(),
            buffer.as_mut_ptr(),
            buffer.len(),
            answer.as_mut_ptr(),
        )
    }
}

/// Generate: states, presses and sounds are the size. Number, place, the sheet's length; the sheet at the buffer's
/// front.
pub fn generate(seed: u32, size: [u8; 3], buffer: &mut [u8], answer: &mut [usize; 3]) {
    let [states, inputs, outputs] = size;
    // SAFETY: the buffer and the answer are valid for their lengths throughout the call.
    unsafe {
        c::ranthelo_generate(
            seed,
            states,
            inputs,
            outputs,
            buffer.as_mut_ptr(),
            buffer.len(),
            answer.as_mut_ptr(),
        )
    }
}

/// Convert a sheet to first-reached form. Number, place, the sheet's length; the sheet at the buffer's front.
pub fn renumber(sheet: &[u8], buffer: &mut [u8], answer: &mut [usize; 3]) {
    // SAFETY: both slices and the answer are valid for their lengths throughout the call.
    unsafe {
        c::ranthelo_renumber(
            sheet.as_ptr(),
            sheet.len(),
            buffer.as_mut_ptr(),
            buffer.len(),
            answer.as_mut_ptr(),
        )
    }
}

/// Run. Number, place, how many open pairs were used, the set of them; one sound for each press at the buffer's front.
pub fn run(sheet: &[u8], board: &[u8], presses: &[u8], buffer: &mut [u8], answer: &mut [usize; 4]) {
    // SAFETY: all slices and the answer are valid for their lengths throughout the call.
    unsafe {
        c::ranthelo_run(
            sheet.as_ptr(),
            sheet.len(),
            board.as_ptr(),
            board.len(),
            presses.as_ptr(),
            presses.len(),
            buffer.as_mut_ptr(),
            buffer.len(),
            answer.as_mut_ptr(),
        )
    }
}

/// First failed test. Number, place, 1 if a test fails, that test, the position of its first wrong sound, how many
/// open pairs were used until then, the set of them.
pub fn first_failed(sheet: &[u8], board: &[u8], answer: &mut [usize; 7]) {
    // SAFETY: all slices and the answer are valid for their lengths throughout the call.
    unsafe {
        c::ranthelo_first_failed(
            sheet.as_ptr(),
            sheet.len(),
            board.as_ptr(),
            board.len(),
            answer.as_mut_ptr(),
        )
    }
}

/// Compare. Number, place, 1 if the board departs, the length of the shortest departing sequence, which is written to
/// the buffer's front.
pub fn compare(sheet: &[u8], board: &[u8], buffer: &mut [u8], answer: &mut [usize; 4]) {
    // SAFETY: all slices and the answer are valid for their lengths throughout the call.
    unsafe {
        c::ranthelo_compare(
            sheet.as_ptr(),
            sheet.len(),
            board.as_ptr(),
            board.len(),
            buffer.as_mut_ptr(),
            buffer.len(),
            answer.as_mut_ptr(),
        )
    }
}

/// Judge. Number, place, 1 if there is a survivor, the length of its sequence; the survivor's board and its sequence at
/// the buffers' fronts.
pub fn judge(sheet: &[u8], board: &mut [u8], sequence: &mut [u8], answer: &mut [usize; 4]) {
    // SAFETY: all slices and the answer are valid for their lengths throughout the call.
    unsafe {
        c::ranthelo_judge(
            sheet.as_ptr(),
            sheet.len(),
            board.as_mut_ptr(),
            board.len(),
            sequence.as_mut_ptr(),
            sequence.len(),
            answer.as_mut_ptr(),
        )
    }
}

/// Judge, and how many nodes its search looked at: a measurement, left as it was on a refusal.
pub fn judge_counting(
    sheet: &[u8],
    board: &mut [u8],
    sequence: &mut [u8],
    answer: &mut [usize; 4],
    nodes: &mut u32,
) {
    // SAFETY: all slices, the answer and the count are valid for their lengths throughout the call.
    unsafe {
        c::ranthelo_judge_counting(
            sheet.as_ptr(),
            sheet.len(),
            board.as_mut_ptr(),
            board.len(),
            sequence.as_mut_ptr(),
            sequence.len(),
            answer.as_mut_ptr(),
            nodes,
        )
    }
}

/// Take. `place` is 0 for the walk's start, 1 for the board `last`, any other number for the end. Number, place, 1 if a
/// board is taken (0 at the end), 1 if it departs, the length of its sequence; the board and its sequence at the
/// buffers' fronts.
pub fn take(
    sheet: &[u8],
    place: u8,
    last: &[u8],
    board: &mut [u8],
    sequence: &mut [u8],
    answer: &mut [usize; 5],
) {
    // SAFETY: all slices and the answer are valid for their lengths throughout the call.
    unsafe {
        c::ranthelo_take(
            sheet.as_ptr(),
            sheet.len(),
            place,
            last.as_ptr(),
            last.len(),
            board.as_mut_ptr(),
            board.len(),
            sequence.as_mut_ptr(),
            sequence.len(),
            answer.as_mut_ptr(),
        )
    }
}

/// Add a test. Number, place, the longer sheet's length; the sheet with that test last at the buffer's front.
pub fn add_test(sheet: &[u8], presses: &[u8], buffer: &mut [u8], answer: &mut [usize; 3]) {
    // SAFETY: all slices and the answer are valid for their lengths throughout the call.
    unsafe {
        c::ranthelo_add_test(
            sheet.as_ptr(),
            sheet.len(),
            presses.as_ptr(),
            presses.len(),
            buffer.as_mut_ptr(),
            buffer.len(),
            answer.as_mut_ptr(),
        )
    }
}

/// Make the list complete. Number, place, the made sheet's length, how many tests were appended; the made sheet at the
/// buffer's front.
pub fn make(sheet: &[u8], buffer: &mut [u8], answer: &mut [usize; 4]) {
    // SAFETY: both slices and the answer are valid for their lengths throughout the call.
    unsafe {
        c::ranthelo_make(
            sheet.as_ptr(),
            sheet.len(),
            buffer.as_mut_ptr(),
            buffer.len(),
            answer.as_mut_ptr(),
        )
    }
}

/// A tray of boards, their choices end to end. Number, place; the first failed test of each board, 65,535 for none, at
/// the front of the results.
pub fn tray(
    sheet: &[u8],
    boards: usize,
    choices: &[u8],
    results: &mut [u16],
    answer: &mut [usize; 2],
) {
    // SAFETY: all slices and the answer are valid for their lengths throughout the call.
    unsafe {
        c::ranthelo_tray(
            sheet.as_ptr(),
            sheet.len(),
            boards,
            choices.as_ptr(),
            choices.len(),
            results.as_mut_ptr(),
            results.len(),
            answer.as_mut_ptr(),
        )
    }
}

/// A lock's own record. Number, place, 1 if a SEEN differs from the specification, its place in the record, 1 if some
/// board gives every sound.
pub fn record(sheet: &[u8], log: &[u8], answer: &mut [usize; 5]) {
    // SAFETY: all slices and the answer are valid for their lengths throughout the call.
    unsafe {
        c::ranthelo_record(
            sheet.as_ptr(),
            sheet.len(),
            log.as_ptr(),
            log.len(),
            answer.as_mut_ptr(),
        )
    }
}

/// The first board that gives a record. Number, place, 1 if there is one, 1 if it departs, the length of its sequence;
/// the board and its sequence at the buffers' fronts.
pub fn record_board(
    sheet: &[u8],
    log: &[u8],
    board: &mut [u8],
    sequence: &mut [u8],
    answer: &mut [usize; 5],
) {
    // SAFETY: all slices and the answer are valid for their lengths throughout the call.
    unsafe {
        c::ranthelo_record_board(
            sheet.as_ptr(),
            sheet.len(),
            log.as_ptr(),
            log.len(),
            board.as_mut_ptr(),
            board.len(),
            sequence.as_mut_ptr(),
            sequence.len(),
            answer.as_mut_ptr(),
        )
    }
}

/// Merge. Number, place, the sheet that a refusal on reading concerns (1 or 2; 0 otherwise), the merged sheet's length;
/// the merged sheet at the buffer's front. The two sheets may be the same bytes.
pub fn merge(first: &[u8], second: &[u8], buffer: &mut [u8], answer: &mut [usize; 4]) {
    // SAFETY: all slices and the answer are valid for their lengths throughout the call.
    unsafe {
        c::ranthelo_merge(
            first.as_ptr(),
            first.len(),
            second.as_ptr(),
            second.len(),
            buffer.as_mut_ptr(),
            buffer.len(),
            answer.as_mut_ptr(),
        )
    }
}

/// Begin to drive a lock. Number, place; the state, as it was on a refusal: tests begun, position, 1 if a press is due,
/// verdict (0 none, 1 pass, 2 failure).
pub fn station_begin(sheet: &[u8], state: &mut [usize; 4], answer: &mut [usize; 2]) {
    // SAFETY: the slice, the state and the answer are valid for their lengths throughout the call.
    unsafe {
        c::ranthelo_station_begin(
            sheet.as_ptr(),
            sheet.len(),
            state.as_mut_ptr(),
            answer.as_mut_ptr(),
        )
    }
}

/// The station's next step. Number, place, kind (0 pulse, 1 press, 2 pass, 3 failure); of a pulse the test and 0, of a
/// press that and its position, of a failure its test and position.
pub fn station_next(sheet: &[u8], state: &mut [usize; 4], answer: &mut [usize; 5]) {
    // SAFETY: the slice, the state and the answer are valid for their lengths throughout the call.
    unsafe {
        c::ranthelo_station_next(
            sheet.as_ptr(),
            sheet.len(),
            state.as_mut_ptr(),
            answer.as_mut_ptr(),
        )
    }
}

/// The station takes a sound. Number, place, kind (0 taken, 3 failure), test and position of the failure.
pub fn station_sound(sheet: &[u8], state: &mut [usize; 4], sound: u8, answer: &mut [usize; 5]) {
    // SAFETY: the slice, the state and the answer are valid for their lengths throughout the call.
    unsafe {
        c::ranthelo_station_sound(
            sheet.as_ptr(),
            sheet.len(),
            state.as_mut_ptr(),
            sound,
            answer.as_mut_ptr(),
        )
    }
}

/// Whether the station goes on with a changed sheet. Number, place; the state is only read.
pub fn station_change(sheet: &[u8], changed: &[u8], state: &[usize; 4], answer: &mut [usize; 2]) {
    // SAFETY: both slices, the state and the answer are valid for their lengths throughout the call.
    unsafe {
        c::ranthelo_station_change(
            sheet.as_ptr(),
            sheet.len(),
            changed.as_ptr(),
            changed.len(),
            state.as_ptr(),
            answer.as_mut_ptr(),
        )
    }
}
