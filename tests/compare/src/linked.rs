//! The engine of the static library, through the C interface of `include/matgravel.h`.

#![allow(unsafe_code)]

use second::generate::Engine;
use second::{Answer, Clock, Found, Opening, Progress, Ran, Running};

/// As `matgravel_answer` of the header.
#[repr(C)]
struct CAnswer {
    number: u64,
    place: u64,
    branch: u64,
    count: u64,
    total: u64,
    chosen: u64,
}

/// As `matgravel_found` of the header.
#[repr(C)]
struct CFound {
    number: u64,
    length: u64,
    run: [u64; 8],
}

/// As `matgravel_ran` of the header.
#[repr(C)]
struct CRan {
    number: u64,
    steps: u64,
    words: u64,
    waiting: u64,
    count: u64,
    total: u64,
}

/// As `matgravel_progress` of the header.
#[repr(C)]
struct CProgress {
    number: u64,
    count: u64,
    ended: u64,
    length: u64,
    run: [u64; 8],
}

/// As `matgravel_clock` of the header.
#[repr(C)]
struct CClock {
    ticks: u64,
    draws: u64,
}

impl From<Clock> for CClock {
    fn from(clock: Clock) -> CClock {
        CClock { ticks: clock.ticks, draws: clock.draws }
    }
}

/// Makes a call that is lent a clock.
fn with_clock<C: Into<T>, T>(clock: &mut Clock, call: impl FnOnce(&mut CClock) -> C) -> T {
    let mut lent = CClock::from(*clock);
    let result = call(&mut lent);
    *clock = Clock { ticks: lent.ticks, draws: lent.draws };
    result.into()
}

extern "C" {
    fn matgravel_open(
        text: *const u8,
        text_len: usize,
        model: *mut u8,
        model_len: usize,
        state: *mut i64,
        state_len: usize,
        saves: *mut i64,
        saves_len: usize,
        search: *mut i64,
        search_len: usize,
        clock: *mut CClock,
    ) -> CAnswer;
    fn matgravel_open_steady(
        text: *const u8,
        text_len: usize,
        model: *mut u8,
        model_len: usize,
        state: *mut i64,
        state_len: usize,
        saves: *mut i64,
        saves_len: usize,
        search: *mut i64,
        search_len: usize,
        clock: *mut CClock,
    ) -> CAnswer;
    fn matgravel_list(
        model: *const u8,
        model_len: usize,
        state: *const i64,
        state_len: usize,
        listing: *mut u64,
        listing_len: usize,
    ) -> CAnswer;
    fn matgravel_step(
        model: *const u8,
        model_len: usize,
        state: *mut i64,
        state_len: usize,
        listing: *mut u64,
        listing_len: usize,
        draw: u64,
    ) -> CAnswer;
    fn matgravel_timed_step(
        model: *const u8,
        model_len: usize,
        state: *mut i64,
        state_len: usize,
        listing: *mut u64,
        listing_len: usize,
        waiting: *const u16,
        waiting_len: usize,
        draw: u64,
        clock: *mut CClock,
    ) -> CAnswer;
    fn matgravel_report(
        model: *const u8,
        model_len: usize,
        state: *const i64,
        state_len: usize,
        report: *mut u64,
        report_len: usize,
    ) -> CAnswer;
    fn matgravel_save(
        model: *const u8,
        model_len: usize,
        state: *const i64,
        state_len: usize,
        saves: *mut i64,
        saves_len: usize,
        name: *const u8,
        name_len: usize,
        clock: CClock,
    ) -> CAnswer;
    fn matgravel_return(
        model: *const u8,
        model_len: usize,
        state: *mut i64,
        state_len: usize,
        saves: *const i64,
        saves_len: usize,
        name: *const u8,
        name_len: usize,
        clock: *mut CClock,
    ) -> CAnswer;
    fn matgravel_forget(
        model: *const u8,
        model_len: usize,
        state: *const i64,
        state_len: usize,
        saves: *mut i64,
        saves_len: usize,
        name: *const u8,
        name_len: usize,
    ) -> CAnswer;
    fn matgravel_search(
        model: *const u8,
        model_len: usize,
        state: *const i64,
        state_len: usize,
        name: *const u8,
        name_len: usize,
        depth: u64,
    ) -> CFound;
    fn matgravel_run(
        model: *const u8,
        model_len: usize,
        state: *mut i64,
        state_len: usize,
        words: *const u64,
        words_len: usize,
        waiting: *const u16,
        waiting_len: usize,
        events: *mut u64,
        events_len: usize,
        limit: u64,
        clock: *mut CClock,
    ) -> CRan;
    fn matgravel_begin(
        model: *const u8,
        model_len: usize,
        state: *const i64,
        state_len: usize,
        search: *mut i64,
        search_len: usize,
        name: *const u8,
        name_len: usize,
        depth: u64,
    ) -> CAnswer;
    fn matgravel_carry_on(
        model: *const u8,
        model_len: usize,
        state: *const i64,
        state_len: usize,
        search: *mut i64,
        search_len: usize,
        number: u64,
    ) -> CProgress;
    fn matgravel_independent(entry: *const u64, entry_len: usize, other: *const u64, other_len: usize) -> u64;
}

impl From<CAnswer> for Answer {
    fn from(answer: CAnswer) -> Answer {
        let CAnswer { number, place, branch, count, total, chosen } = answer;
        Answer { number, place, branch, count, total, chosen }
    }
}

impl From<CRan> for Ran {
    fn from(ran: CRan) -> Ran {
        let CRan { number, steps, words, waiting, count, total } = ran;
        Ran { number, steps, words, waiting, count, total }
    }
}

pub fn open(text: &[u8], lent: Opening) -> Answer {
    let Opening { model, state, saves, search, clock } = lent;
    // The call keeps no pointer, and reads and writes within the lengths given.
    with_clock(clock, |clock| unsafe {
        matgravel_open(
            text.as_ptr(),
            text.len(),
            model.as_mut_ptr(),
            model.len(),
            state.as_mut_ptr(),
            state.len(),
            saves.as_mut_ptr(),
            saves.len(),
            search.as_mut_ptr(),
            search.len(),
            clock,
        )
    })
}

pub fn open_steady(text: &[u8], lent: Opening) -> Answer {
    let Opening { model, state, saves, search, clock } = lent;
    // As above.
    with_clock(clock, |clock| unsafe {
        matgravel_open_steady(
            text.as_ptr(),
            text.len(),
            model.as_mut_ptr(),
            model.len(),
            state.as_mut_ptr(),
            state.len(),
            saves.as_mut_ptr(),
            saves.len(),
            search.as_mut_ptr(),
            search.len(),
            clock,
        )
    })
}

pub fn list(model: &[u8], state: &[i64], listing: &mut [u64]) -> Answer {
    // As above; model and state are read only.
    let answer = unsafe {
        matgravel_list(model.as_ptr(), model.len(), state.as_ptr(), state.len(), listing.as_mut_ptr(), listing.len())
    };
    answer.into()
}

pub fn step(model: &[u8], state: &mut [i64], listing: &mut [u64], draw: u64) -> Answer {
    // As above; the model is read only.
    let answer = unsafe {
        matgravel_step(
            model.as_ptr(),
            model.len(),
            state.as_mut_ptr(),
            state.len(),
            listing.as_mut_ptr(),
            listing.len(),
            draw,
        )
    };
    answer.into()
}

pub fn timed_step(
    model: &[u8],
    state: &mut [i64],
    listing: &mut [u64],
    waiting: &[u16],
    draw: u64,
    clock: &mut Clock,
) -> Answer {
    // As above; model and waiting draws are read only.
    with_clock(clock, |clock| unsafe {
        matgravel_timed_step(
            model.as_ptr(),
            model.len(),
            state.as_mut_ptr(),
            state.len(),
            listing.as_mut_ptr(),
            listing.len(),
            waiting.as_ptr(),
            waiting.len(),
            draw,
            clock,
        )
    })
}

pub fn report(model: &[u8], state: &[i64], report: &mut [u64]) -> Answer {
    // As above; model and state are read only.
    let answer = unsafe {
        matgravel_report(model.as_ptr(), model.len(), state.as_ptr(), state.len(), report.as_mut_ptr(), report.len())
    };
    answer.into()
}

pub fn save(model: &[u8], state: &[i64], saves: &mut [i64], name: &[u8], clock: Clock) -> Answer {
    // As above; model, state and name are read only.
    let answer = unsafe {
        matgravel_save(
            model.as_ptr(),
            model.len(),
            state.as_ptr(),
            state.len(),
            saves.as_mut_ptr(),
            saves.len(),
            name.as_ptr(),
            name.len(),
            clock.into(),
        )
    };
    answer.into()
}

pub fn return_to(model: &[u8], state: &mut [i64], saves: &[i64], name: &[u8], clock: &mut Clock) -> Answer {
    // As above; model, saves and name are read only.
    with_clock(clock, |clock| unsafe {
        matgravel_return(
            model.as_ptr(),
            model.len(),
            state.as_mut_ptr(),
            state.len(),
            saves.as_ptr(),
            saves.len(),
            name.as_ptr(),
            name.len(),
            clock,
        )
    })
}

pub fn forget(model: &[u8], state: &[i64], saves: &mut [i64], name: &[u8]) -> Answer {
    // As above; model, state and name are read only.
    let answer = unsafe {
        matgravel_forget(
            model.as_ptr(),
            model.len(),
            state.as_ptr(),
            state.len(),
            saves.as_mut_ptr(),
            saves.len(),
            name.as_ptr(),
            name.len(),
        )
    };
    answer.into()
}

pub fn search(model: &[u8], state: &[i64], name: &[u8], depth: u64) -> Found {
    // As above; all is read only.
    let CFound { number, length, run } = unsafe {
        matgravel_search(model.as_ptr(), model.len(), state.as_ptr(), state.len(), name.as_ptr(), name.len(), depth)
    };
    Found { number, length, run }
}

pub fn run(model: &[u8], lent: Running) -> Ran {
    let Running { state, words, waiting, events, limit, clock } = lent;
    // As above; model, words and waiting draws are read only.
    with_clock(clock, |clock| unsafe {
        matgravel_run(
            model.as_ptr(),
            model.len(),
            state.as_mut_ptr(),
            state.len(),
            words.as_ptr(),
            words.len(),
            waiting.as_ptr(),
            waiting.len(),
            events.as_mut_ptr(),
            events.len(),
            limit,
            clock,
        )
    })
}

pub fn begin(model: &[u8], state: &[i64], search: &mut [i64], name: &[u8], depth: u64) -> Answer {
    // As above; model, state and name are read only.
    let answer = unsafe {
        matgravel_begin(
            model.as_ptr(),
            model.len(),
            state.as_ptr(),
            state.len(),
            search.as_mut_ptr(),
            search.len(),
            name.as_ptr(),
            name.len(),
            depth,
        )
    };
    answer.into()
}

pub fn carry_on(model: &[u8], state: &[i64], search: &mut [i64], number: u64) -> Progress {
    // As above; model and state are read only.
    let CProgress { number, count, ended, length, run } = unsafe {
        matgravel_carry_on(
            model.as_ptr(),
            model.len(),
            state.as_ptr(),
            state.len(),
            search.as_mut_ptr(),
            search.len(),
            number,
        )
    };
    Progress { number, count, ended, length, run }
}

pub fn independent(entry: &[u64], other: &[u64]) -> bool {
    // As above; both are read only.
    let is = unsafe { matgravel_independent(entry.as_ptr(), entry.len(), other.as_ptr(), other.len()) };
    assert!(is <= 1, "it says {is}");
    is == 1
}

/// The library's engine.
pub const ENGINE: Engine = Engine {
    open,
    open_steady,
    list,
    step,
    timed_step,
    report,
    save,
    return_to,
    forget,
    search,
    run,
    begin,
    carry_on,
    independent,
};
