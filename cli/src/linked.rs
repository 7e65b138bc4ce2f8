//! The calls of the static library, as include/matgravel.h declares them. The only unsafe code.

#![allow(unsafe_code)]

/// As `matgravel_answer` of the header.
#[repr(C)]
#[derive(Clone, Copy, Debug)]
pub struct Answer {
    pub number: u64,
    pub place: u64,
    pub branch: u64,
    pub count: u64,
    pub total: u64,
    pub chosen: u64,
}

/// As `matgravel_found` of the header.
#[repr(C)]
pub struct Found {
    pub number: u64,
    pub length: u64,
    pub run: [u64; 8],
}

/// As `matgravel_clock` of the header.
#[repr(C)]
#[derive(Clone, Copy, Default)]
pub struct Clock {
    pub ticks: u64,
    pub draws: u64,
}

/// As `matgravel_ran` of the header.
#[repr(C)]
pub struct Ran {
    pub number: u64,
    pub steps: u64,
    pub words: u64,
    pub waiting: u64,
    pub count: u64,
    pub total: u64,
}

/// What an opening fills besides the model: state, saves and search under way, and the clock.
pub struct Opened<'a> {
    pub state: &'a mut [i64],
    pub saves: &'a mut [i64],
    pub search: &'a mut [i64],
    pub clock: &'a mut Clock,
}

#[rustfmt::skip]
type Opening = unsafe extern "C" fn(*const u8, usize, *mut u8, usize, *mut i64, usize, *mut i64, usize, *mut i64, usize, *mut Clock) -> Answer;

#[rustfmt::skip]
extern "C" {
    fn matgravel_open(text: *const u8, text_len: usize, model: *mut u8, model_len: usize, state: *mut i64, state_len: usize, saves: *mut i64, saves_len: usize, search: *mut i64, search_len: usize, clock: *mut Clock) -> Answer;
    fn matgravel_open_steady(text: *const u8, text_len: usize, model: *mut u8, model_len: usize, state: *mut i64, state_len: usize, saves: *mut i64, saves_len: usize, search: *mut i64, search_len: usize, clock: *mut Clock) -> Answer;
    fn matgravel_list(model: *const u8, model_len: usize, state: *const i64, state_len: usize, listing: *mut u64, listing_len: usize) -> Answer;
    fn matgravel_step(model: *const u8, model_len: usize, state: *mut i64, state_len: usize, listing: *mut u64, listing_len: usize, draw: u64) -> Answer;
    fn matgravel_run(model: *const u8, model_len: usize, state: *mut i64, state_len: usize, words: *const u64, words_len: usize, waiting: *const u16, waiting_len: usize, events: *mut u64, events_len: usize, limit: u64, clock: *mut Clock) -> Ran;
    fn matgravel_report(model: *const u8, model_len: usize, state: *const i64, state_len: usize, report: *mut u64, report_len: usize) -> Answer;
    fn matgravel_search(model: *const u8, model_len: usize, state: *const i64, state_len: usize, name: *const u8, name_len: usize, depth: u64) -> Found;
}

pub fn open(text: &[u8], model: &mut [u8], opened: Opened) -> Answer {
    opening(matgravel_open, text, model, opened)
}

pub fn open_steady(text: &[u8], model: &mut [u8], opened: Opened) -> Answer {
    opening(matgravel_open_steady, text, model, opened)
}

fn opening(call: Opening, text: &[u8], model: &mut [u8], opened: Opened) -> Answer {
    let Opened { state, saves, search, clock } = opened;
    let (text_len, model_len, state_len) = (text.len(), model.len(), state.len());
    let (saves_len, search_len) = (saves.len(), search.len());
    let (text, model, state) = (text.as_ptr(), model.as_mut_ptr(), state.as_mut_ptr());
    let (saves, search) = (saves.as_mut_ptr(), search.as_mut_ptr());
    // The call keeps no pointer, and reads and writes within the lengths given.
    unsafe { call(text, text_len, model, model_len, state, state_len, saves, saves_len, search, search_len, clock) }
}

pub fn list(model: &[u8], state: &[i64], listing: &mut [u64]) -> Answer {
    let (model_len, state_len, listing_len) = (model.len(), state.len(), listing.len());
    // As above; model and state are read only.
    unsafe { matgravel_list(model.as_ptr(), model_len, state.as_ptr(), state_len, listing.as_mut_ptr(), listing_len) }
}

pub fn step(model: &[u8], state: &mut [i64], listing: &mut [u64], draw: u64) -> Answer {
    let (model_len, state_len, listing_len) = (model.len(), state.len(), listing.len());
    let (state, listing) = (state.as_mut_ptr(), listing.as_mut_ptr());
    // As above; the model is read only.
    unsafe { matgravel_step(model.as_ptr(), model_len, state, state_len, listing, listing_len, draw) }
}

pub fn run(
    model: &[u8],
    state: &mut [i64],
    (words, waiting): (&[u64], &[u16]),
    events: &mut [u64],
    limit: u64,
    clock: &mut Clock,
) -> Ran {
    let (state_len, events_len) = (state.len(), events.len());
    let (state, events) = (state.as_mut_ptr(), events.as_mut_ptr());
    let (words_len, waiting_len) = (words.len(), waiting.len());
    let (words, waiting) = (words.as_ptr(), waiting.as_ptr());
    let model_len = model.len();
    let model = model.as_ptr();
    // As above; model, words and waiting draws are read only.
    unsafe {
        matgravel_run(
            model,
            model_len,
            state,
            state_len,
            words,
            words_len,
            waiting,
            waiting_len,
            events,
            events_len,
            limit,
            clock,
        )
    }
}

pub fn report(model: &[u8], state: &[i64], report: &mut [u64]) -> Answer {
    let (model_len, state_len, report_len) = (model.len(), state.len(), report.len());
    // As above; model and state are read only.
    unsafe { matgravel_report(model.as_ptr(), model_len, state.as_ptr(), state_len, report.as_mut_ptr(), report_len) }
}

pub fn search(model: &[u8], state: &[i64], name: &[u8], depth: u64) -> Found {
    let (model_len, state_len, name_len) = (model.len(), state.len(), name.len());
    // As above; all is read only.
    unsafe { matgravel_search(model.as_ptr(), model_len, state.as_ptr(), state_len, name.as_ptr(), name_len, depth) }
}
