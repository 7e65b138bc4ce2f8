//! The specimens of 01 that have no star, the bench sheet, the starred divisions and products beyond
//! 64 bits, steady texts, searches, at once and in pieces, and runs, as lists of calls whose last answer is known.

use crate::compare::{self, Difference};
use crate::met::Met;
use second::generate::{Call, Depth, Draw, Engine, Given, Lengths, Word, RIGHT};
use second::pieces::COUNTED;
use second::{Answer, Found, Progress, Ran};

/// The bench sheet's model, as 01 has it.
pub const SHEET: &str = "\
g = 0.25;
Lamp[n] = {@pass![n],2}.Lamp[n+1] + [n<3] -> {go,g*n}.Lamp[n+1];
Post[a] = {@pass?[a..a+1](v),1.5}.Post[v];
Lamp[1] || Lamp[4] || Post[1];
";

pub struct Specimen {
    pub name: &'static str,
    pub calls: Vec<Call>,
    /// Of the last call.
    pub answer: Given,
}

fn open(text: impl Into<Vec<u8>>) -> Call {
    Call::Open { text: text.into(), lengths: RIGHT }
}

const LIST: Call = Call::List { lengths: RIGHT };

fn step(draw: u64) -> Call {
    Call::Step { lengths: RIGHT, draw: Draw::Exactly(draw) }
}

/// An answer with entry count and total.
fn counted(number: u64, count: u64, total: u64) -> Answer {
    Answer { number, count, total, ..Answer::default() }
}

fn refused(number: u64, place: u64) -> Answer {
    Answer { number, place, ..Answer::default() }
}

/// A relation that holds: it opens a gate.
fn holds(relation: &'static str) -> Specimen {
    let text = format!("A[]=[{relation}]->{{go,1}};A[];");
    Specimen { name: relation, calls: vec![open(text), LIST], answer: counted(0, 1, 100_000_000).into() }
}

/// What opening a text under the steady profile answers.
fn steady(name: &'static str, text: &str, number: u64, place: u64) -> Specimen {
    let call = Call::Steady { text: text.into(), lengths: RIGHT };
    Specimen { name, calls: vec![call], answer: refused(number, place).into() }
}

/// What a search for `go` finds in a text.
fn search(name: &'static str, text: &str, depth: u64, found: Found) -> Specimen {
    named(name, text, depth, b"go", found)
}

fn named(name: &'static str, text: &str, depth: u64, wait: &[u8], found: Found) -> Specimen {
    let call = Call::Search { lengths: RIGHT, name: wait.to_vec(), depth: Depth::Exactly(depth) };
    Specimen { name, calls: vec![open(text), call], answer: Given::Found(found) }
}

/// Of 01.
fn specimens() -> Vec<Specimen> {
    let longest = format!("{:16384}", "A[]={go,1};A[];");
    vec![
        Specimen { name: "the sheet", calls: vec![open(SHEET), LIST], answer: counted(0, 2, 325_000_000).into() },
        Specimen {
            name: "draw 299999999 takes row one",
            calls: vec![open(SHEET), step(299_999_999)],
            answer: counted(0, 2, 325_000_000).into(),
        },
        Specimen {
            name: "draw 300000000 takes row two",
            calls: vec![open(SHEET), step(300_000_000)],
            answer: Answer { chosen: 1, ..counted(0, 2, 325_000_000) }.into(),
        },
        Specimen {
            name: "draw 325000000 gives 16",
            calls: vec![open(SHEET), step(325_000_000)],
            answer: counted(16, 2, 325_000_000).into(),
        },
        Specimen { name: "`1.5` in a set: 5", calls: vec![open("A[]={c?[1.5],1};A[];")], answer: refused(5, 8).into() },
        Specimen {
            name: "rate 100000 stands",
            calls: vec![open("A[]={go,100000};A[];"), LIST],
            answer: counted(0, 1, 10_000_000_000_000).into(),
        },
        Specimen {
            name: "rate 100000.0001 gives 12",
            calls: vec![open("A[]={go,100000.0001};A[];"), LIST],
            answer: refused(12, 0).into(),
        },
        holds("-7/2==-4"),
        holds("7/-2==-4"),
        holds("-7/-2==3"),
        holds("-2147483648/-1==2147483648"),
        Specimen {
            name: "4294967297*4294967297 has no value",
            calls: vec![open("A[]={c![4294967297*4294967297],1};A[];"), LIST],
            answer: refused(12, 0).into(),
        },
        Specimen {
            name: "rate 100000*18446744074 gives 12",
            calls: vec![open("A[]={go,100000*18446744074};A[];"), LIST],
            answer: refused(12, 0).into(),
        },
        Specimen { name: "16,384 bytes stand", calls: vec![open(longest.clone())], answer: Answer::default().into() },
        Specimen { name: "16,385 bytes give 2", calls: vec![open(longest + " ")], answer: refused(2, 16_384).into() },
        Specimen {
            name: "257 processes give 10",
            calls: vec![open("A[]={go,1};256*A[]||A[];")],
            answer: refused(10, 11).into(),
        },
    ]
}

/// Of note 11: which texts are steady, and where one isn't.
fn steady_texts() -> Vec<Specimen> {
    vec![
        steady("a group of two items", "A[]={a,1}.(A[]||A[]);A[];", 29, 10),
        steady("a group of two sums", "A[]={a,1}.({b,1}||{c,1});A[];", 29, 10),
        steady("a group of two in a group of one", "A[]={a,1}.((A[]||A[]));A[];", 29, 11),
        steady("a group of a group of two and a call", "A[]={a,1}.((A[]||A[])||A[]);A[];", 29, 10),
        steady("a group of two after a prefix in a group", "A[]={a,1}.({b,1}.(A[]||A[]));A[];", 29, 17),
        steady("groups of one item", "A[]={a,1}.(((A[])))+{b,1}.({c,1});A[];", 0, 0),
        steady("a call of two sums", "A[]={a,1}.B[];B[]={b,1}||{c,1};A[];", 29, 10),
        steady("a call of two sums in a group", "A[]={a,1}.(B[]);B[]={b,1}||{c,1};A[];", 29, 11),
        steady("a call of itself, which has two sums", "A[]={a,1}||{b,1}.A[];A[];", 29, 17),
        steady("a bracket before a call", "A[]={a,1}.(B[]||A[]);B[]={b,1}||{c,1};A[];", 29, 10),
        steady("a call before a bracket", "A[]={a,1}.B[]+{b,1}.(A[]||A[]);B[]={b,1}||{c,1};A[];", 29, 10),
        steady("a definition that nobody calls", "A[]={a,1}.A[];B[]={b,1}.(B[]||B[]);A[];", 29, 24),
        steady("two sums in the system line alone", "A[]={a,1}||{b,1};A[]||2*A[];", 0, 0),
        steady("brackets of an expression", "A[n]={c![(n)],1*(2)}.A[(n+1)];A[1]||A[2];", 0, 0),
        Specimen {
            name: "256 processes take a step",
            calls: vec![Call::Steady { text: b"A[n]={a,1}.(A[n+1]);256*A[0];".to_vec(), lengths: RIGHT }, step(0)],
            answer: counted(0, 256, 25_600_000_000).into(),
        },
        Specimen {
            name: "29 closes",
            calls: vec![open(SHEET), steady("", "A[]={a,1}.(A[]||A[]);A[];", 29, 10).calls.remove(0), LIST],
            answer: refused(11, 0).into(),
        },
        steady("10 before 29", "A[]={a,1}.(A[]||A[]);256*A[]||A[];", 10, 21),
        steady("9 before 29", "A[]={a,1}.(A[]||B[]);A[];", 9, 16),
    ]
}

const NONE: Found = Found { number: 0, length: 0, run: [0; 8] };

/// Of notes 8 and 9: runs, none, 26 and 27.
fn searches() -> Vec<Specimen> {
    let (found, refused) = (Found::run, Found::refusal);
    let far = "A[n]=[n<7]->{a,1}.A[n+1]+[n==7]->{go,1};A[0];";
    let short = "A[]={x,1}.{go,1}+{go,1};A[];";
    let equal = "A[]={x,1}.{y,1}+{z,1}.({y,1}||{go,1})+{w,1}.{go,1};A[];";
    let (zero, zero_refused) = ("A[]={go,0}+{a,0}.{go,1}+{b,1};A[];", "A[n]={go,0}.A[1/n]+{b,1};A[0];");
    let (unlisted, untaken) = ("A[n]={a,1}.A[n-1]+{b,0*(1/n)};A[1];", "A[n]={go,1}.A[1/n]+{x,1}.A[n+1];A[0];");
    let beside = "A[]={x,1}.D[0]+{y,1}.{go,1};D[n]={d,1*(1/n)};A[];";
    let (now, closed) = ("A[]={go,1}+{b,1*(1/0)};A[];", "A[]={go,1}");
    let passes = "R[i]=[i<3]->{c![i],1}.R[i+1]+[i==3]->{go,1};L[i]=[i>0]->{c![i],1}.L[i-1];R[0]||L[3];";
    vec![
        search("eight entries", far, 8, found(&[0; 8])),
        search("seven aren't enough for eight", far, 7, NONE),
        search("the shortest run", short, 8, found(&[1])),
        search("the first of two as long", equal, 8, found(&[1, 1])),
        search("weight zero isn't taken", zero, 8, NONE),
        search("what weight zero would meet doesn't count", zero_refused, 8, NONE),
        search("no listing at full depth", unlisted, 1, NONE),
        search("a listing before full depth", unlisted, 2, refused(27)),
        named("a run found beside that listing", unlisted, 2, b"a", found(&[0])),
        search("the wait itself is refused", untaken, 1, refused(27)),
        search("the wait is refused and then taken", untaken, 2, found(&[1, 0])),
        search("a run found beside a refusal", beside, 8, found(&[1, 0])),
        named("the same, for another wait", beside, 8, b"z", refused(27)),
        search("the present listing is refused", now, 1, refused(27)),
        search("depth 0", now, 0, refused(26)),
        search("depth 9", now, 9, refused(26)),
        search("depth 2^32 + 1", short, (1 << 32) + 1, refused(26)),
        search("the greatest depth", short, u64::MAX, refused(26)),
        search("depth 0 of a closed engine", closed, 0, refused(11)),
        search("walkers that pass each other", passes, 8, found(&[0, 0, 0, 0])),
        named("no name", short, 8, b"", NONE),
        named("another name", short, 8, b"g", NONE),
        named("a name and a blank", short, 8, b"go ", NONE),
        named("a name of 16 bytes", "A[]={a,1}+{abcdefghijklmnop,1};A[];", 8, b"abcdefghijklmnop", found(&[1])),
        named("a name of 17 bytes", "A[]={abcdefghijklmnop,1};A[];", 8, b"abcdefghijklmnopq", NONE),
        named("a name of 100,000 bytes", short, 8, &[b'g'; 100_000], NONE),
        named("a channel's name", "A[]={go![1],1};A[];", 8, b"go", NONE),
    ]
}

/// Two entries at each state; three at that after two a, where it can go: run 9.
const TREE: &str = "A[n]=[n<2]->{a,1}.A[n+1]+{b,1}.A[0]+[n==2]->{go,1};A[0];";

fn begin(wait: &[u8], depth: u64) -> Call {
    Call::Begin { lengths: RIGHT, name: wait.to_vec(), depth: Depth::Exactly(depth) }
}

fn carry(number: u64) -> Call {
    Call::Carry { lengths: RIGHT, number }
}

/// What the last of these calls answers, after an opening of a text and a search begun to a depth.
fn piece(name: &'static str, text: &str, depth: u64, calls: &[Call], progress: Progress) -> Specimen {
    Specimen { name, calls: [&[open(text), begin(b"go", depth)], calls].concat(), answer: Given::Progress(progress) }
}

/// Of note 10: how many runs are walked, what ends a search, what doesn't.
fn pieces() -> Vec<Specimen> {
    let (going, ended, none_begun) = (Progress::going, Progress::ended, Progress::refusal(28));
    let (found, refused) = (Found::run(&[0, 0, 1]), Found::refusal(27));
    let carried = |numbers: &[u64]| numbers.iter().map(|&number| carry(number)).collect::<Vec<_>>();
    let piece_of = |name, depth, numbers: &[u64], progress| piece(name, TREE, depth, &carried(numbers), progress);
    let (now, later) = ("A[]={go,1}+{b,1*(1/0)};A[];", "A[n]={a,1}.A[n-1]+{b,0*(1/n)};A[1];");
    let set = |place, number| Call::SetSearch { place, number };
    let most = COUNTED as i64;
    let short = Call::Open { text: TREE.into(), lengths: Lengths { search: RIGHT.search - 1, ..RIGHT } };
    let save = |call: fn(Lengths, Vec<u8>) -> Call| call(RIGHT, b"s".to_vec());
    let (saved, returned) =
        (save(|lengths, name| Call::Save { lengths, name }), save(|lengths, name| Call::Return { lengths, name }));
    vec![
        piece_of("a search carried on by nothing", 8, &[0], going(0)),
        piece_of("the empty run is the first", 8, &[1], going(1)),
        piece_of("a run before that to the wait", 8, &[8], going(8)),
        piece_of("the run to the wait", 8, &[9], ended(9, found)),
        piece_of("past the run to the wait", 8, &[3, 0, 100], ended(9, found)),
        piece_of("the run to the wait by itself", 8, &[8, 1], ended(9, found)),
        piece_of("a run before the last", 2, &[3, 3], going(6)),
        piece_of("the last run ends it", 2, &[3, 4], ended(7, NONE)),
        piece_of("past the last run", 2, &[3, 5], ended(7, NONE)),
        piece_of("as many runs as there may be", 2, &[1, COUNTED - 1], ended(7, NONE)),
        piece_of("one run more than there may be", 2, &[1, COUNTED], none_begun),
        piece_of("at once as many runs as there may be", 2, &[COUNTED], ended(7, NONE)),
        piece_of("at once one run more", 2, &[COUNTED + 1], none_begun),
        piece_of("a sum of 2^64", 2, &[1, u64::MAX], none_begun),
        piece_of("28 leaves it", 2, &[1, COUNTED, 6], ended(7, NONE)),
        piece_of("28 once it ended", 2, &[7, 0], none_begun),
        piece("27 with the first run", now, 8, &[carry(5)], ended(1, refused)),
        piece("27 with the last run", later, 8, &[carry(1), carry(1)], ended(2, refused)),
        piece("no listing at full depth in pieces", later, 1, &[carry(2)], ended(2, NONE)),
        piece("26 leaves it", TREE, 8, &[carry(3), begin(b"a", 9), carry(6)], ended(9, found)),
        piece("another one in its place", TREE, 8, &[carry(3), begin(b"a", 1), carry(6)], ended(2, Found::run(&[0]))),
        piece("steps during a search", TREE, 8, &[carry(3), step(0), step(0), carry(6)], ended(9, found)),
        piece(
            "a search from a state left",
            TREE,
            8,
            &[step(0), begin(b"go", 8), carry(9)],
            ended(5, Found::run(&[0, 1])),
        ),
        piece("a return during a search", TREE, 8, &[saved, step(0), carry(3), returned, carry(6)], ended(9, found)),
        piece("28 after an opening", TREE, 8, &[carry(3), open(TREE), carry(1)], none_begun),
        piece("11 after a refused opening", TREE, 8, &[carry(3), open(";"), carry(1)], Progress::refusal(11)),
        piece("1 of an opening leaves it", TREE, 8, &[carry(3), short, carry(6)], ended(9, found)),
        piece("11 for a depth of nine", TREE, 8, &[carry(3), set(0, 9), carry(0)], Progress::refusal(11)),
        piece("11 for a run longer than the depth", TREE, 8, &[carry(4), set(0, 1), carry(0)], Progress::refusal(11)),
        piece("11 for a wait past the last", TREE, 8, &[set(1, 4), carry(0)], Progress::refusal(11)),
        piece("11 for a count past the most", TREE, 8, &[carry(3), set(2, most + 1), carry(0)], Progress::refusal(11)),
        piece("11 for a run where none was walked", TREE, 8, &[carry(3), set(2, 0), carry(0)], Progress::refusal(11)),
        piece("11 for a flag of two", TREE, 8, &[set(3, 2), carry(0)], Progress::refusal(11)),
        piece("11 for an entry that is none", TREE, 8, &[carry(3), set(5, 2), carry(0)], Progress::refusal(11)),
        piece("11 for an entry past the run", TREE, 8, &[carry(3), set(6, 1), carry(0)], Progress::refusal(11)),
        piece("11 for a state that is none", TREE, 8, &[set(13, 257), carry(0)], Progress::refusal(11)),
        piece("another wait by hand", TREE, 8, &[carry(2), set(1, 2), carry(1)], ended(3, Found::run(&[1]))),
        piece("a refusal noted by hand", TREE, 2, &[carry(2), set(3, 1), carry(9)], ended(7, refused)),
        piece("another run by hand", TREE, 2, &[carry(2), set(5, 1), carry(9)], ended(6, NONE)),
        piece("the last run by hand", TREE, 1, &[carry(2), set(5, 1), carry(1)], ended(2, NONE)),
        piece("another state by hand", TREE, 8, &[set(16, 2), carry(9)], ended(3, Found::run(&[1]))),
        piece("up to the most", TREE, 8, &[carry(3), set(2, most - 2), carry(2)], going(COUNTED)),
        piece("one past the most", TREE, 8, &[carry(3), set(2, most - 2), carry(3)], none_begun),
        Specimen {
            name: "28 before any search",
            calls: vec![open(TREE), carry(0)],
            answer: Given::Progress(none_begun),
        },
    ]
}

/// What a run of a text with room for two events gives: number, steps, words, waiting draws, count, total.
fn ran(name: &'static str, text: &str, words: &[u64], waiting: &[u16], limit: u64, numbers: [u64; 6]) -> Specimen {
    let words = words.iter().copied().map(Word::Exactly).collect();
    let lengths = Lengths { events: 23, ..RIGHT };
    let call = Call::Run { lengths, words, waiting: waiting.to_vec(), limit };
    let [number, steps, words, waiting, count, total] = numbers;
    let answer = Given::Ran(Ran { number, steps, words, waiting, count, total });
    Specimen { name, calls: vec![open(text), call], answer }
}

/// Ways in which a run ends, and words around the bound of a total.
fn runs() -> Vec<Specimen> {
    let (one, most) = ("A[n]={go,1}.A[n+1];A[0];", u64::MAX);
    let (nothing, slower) = ("A[]={go,0};A[];", "A[n]={go,1*n}.A[n-1];A[1];");
    let (unlisted, untaken) = ("A[n]={go,1*(1/n)}.A[n-1];A[1];", "A[n]={go,1}.A[n-1+0/n];A[1];");
    // 256 times 256 hundred-millionths: 2^16.
    let even = "S[]={@c![1],0.0256}.S[];R[]={@c?[1],0.0256}.R[];S[]||R[];";
    // 2^64 is 18,446,744,073,709,551,616.
    let bound = 18_446_744_073_700_000_000;
    let (waiting, evens) = ([7; 6], [2, 1, 1].repeat(32));
    let unit = 100_000_000;
    vec![
        ran("two steps of the sheet", SHEET, &[299_999_999, 325_000_000], &waiting, 2, [0, 2, 2, 4, 2, 350_000_000]),
        ran("a limit of 0", one, &[0; 3], &waiting, 0, [0; 6]),
        ran("a limit of 1", one, &[0; 3], &waiting, 1, [0, 1, 1, 2, 1, unit]),
        ran("room for two", one, &[0; 3], &waiting, most, [0, 2, 2, 4, 1, unit]),
        ran("no word", one, &[], &waiting, most, [0, 0, 0, 0, 1, unit]),
        ran("one word", one, &[5], &waiting, most, [0, 1, 1, 2, 1, unit]),
        ran("a word at the bound", one, &[bound], &waiting, most, [0, 0, 0, 0, 1, unit]),
        ran("a word at the bound and one below it", one, &[bound, bound - 1], &waiting, 1, [0, 1, 2, 2, 1, unit]),
        ran("words turned away at the end", one, &[0, most, most], &waiting, most, [0, 1, 1, 2, 1, unit]),
        ran("no word is turned away", even, &[most, most - 1], &waiting, most, [0, 2, 2, 4, 1, 65_536]),
        ran("12 after a step", unlisted, &[0; 3], &waiting, most, [12, 1, 1, 2, 0, 0]),
        ran("15 before the words", nothing, &[], &[], 1, [15, 0, 0, 0, 1, 0]),
        ran("15 after a step", slower, &[0; 3], &waiting, most, [15, 1, 1, 2, 1, 0]),
        ran("17 after a step", untaken, &[0; 3], &waiting, most, [17, 1, 1, 2, 1, unit]),
        ran("17 uses no word", untaken, &[0, most, 0], &waiting, most, [17, 1, 1, 2, 1, unit]),
        ran("17 before 23", untaken, &[0; 3], &[7; 2], most, [17, 1, 1, 2, 1, unit]),
        ran("23 at once", one, &[0; 3], &[7], most, [23, 0, 0, 0, 1, unit]),
        ran("23 after a step", one, &[0; 3], &[7; 3], most, [23, 1, 1, 2, 1, unit]),
        ran("24 at once", one, &[0; 3], &evens, most, [24, 0, 0, 0, 1, unit]),
        ran("11 of a run", "A[]={go,1}", &[0; 3], &waiting, 0, [11, 0, 0, 0, 0, 0]),
    ]
}

pub fn all() -> Vec<Specimen> {
    [specimens(), steady_texts(), searches(), pieces(), runs()].into_iter().flatten().collect()
}

pub fn names() -> Vec<&'static str> {
    all().iter().map(|specimen| specimen.name).collect()
}

/// Runs each specimen on both engines; one is met when its last answer is the known one.
pub fn run(tried: &Engine, oracle: &Engine, met: &mut Met) -> Result<(), Difference> {
    for specimen in all() {
        compare::run(tried, oracle, &specimen.calls, met)?;
        let mut buffers = second::generate::Buffers::default();
        let answers = specimen.calls.iter().map(|call| buffers.make(tried, call));
        if answers.last().flatten() == Some(specimen.answer) {
            met.note_specimen(specimen.name);
        }
    }
    Ok(())
}
