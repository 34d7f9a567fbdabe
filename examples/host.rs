// A Rust host asks the proved rules: may a coefficient array be handed to a routine that takes a slice? And
// which hidden steps lead from a name to the number that is read?
//
//   lib=$(./archive)
//   rustc -O -L "$lib" -l static=trestlejay examples/host.rs -o host && ./host

// As include/trestlejay.h has them; tools/header holds these to it.
const TJ_INT32: u64 = 3;
const TJ_ARRAY: u64 = 14;
const TJ_SLICE: u64 = 16;
const TJ_SLICE_POINTER: u64 = 17;
const TJ_STRUCT: u64 = 20;
const TJ_POINTER: u64 = 23;
const TJ_VIEW: u64 = 24;
const TJ_COERCES_AS_VALUE: u64 = 1;
const TJ_COERCES_BY_ADDRESS: u64 = 2;
const TJ_ELEMENT: u64 = 0;
const TJ_ENDLESS_UNKNOWN: u64 = 0;
const TJ_ACCEPTED: u64 = 0;
const TJ_TYPE_WORDS: usize = 48;
const TJ_PLAN_WORDS: usize = 576;
const TJ_MOST_ROUNDS: u64 = 64;

#[repr(C)]
struct Answer {
    refusal: u64,
    value: u64,
}

#[repr(C)]
struct Plan {
    refusal: u64,
    value: u64,
    steps: u64,
    taken: u64,
    layers: u64,
    address: bool,
    coerced: bool,
}

// No table is kept here, so its records are only pointed to.
#[repr(C)]
struct Symbol {
    id: u32,
    authority: bool,
    place: u64,
    state: u64,
    layers: u64,
    mark: u64,
}

#[rustfmt::skip]
extern "C" {
    fn tj_coerces(a: *const u64, na: usize, b: *const u64, nb: usize) -> Answer;
    fn tj_can_autoderef_into(a: *const u64, na: usize, b: *const u64, nb: usize) -> Answer;
    fn tj_autoderef(
        known: *const u64, nknown: usize, asked: *const u64, nasked: usize, target: *const u64, ntarget: usize,
        address_depth: u8, rounds: u64, table: *const Symbol, nt: usize, store: *const u64, ns: usize,
        steps: *mut u64, nsteps: usize, reported: *mut u64, nreported: usize,
    ) -> Plan;
    fn tj_walk(
        known: *const u64, nknown: usize, steps: *const u64, nsteps: usize, address: bool,
        table: *const Symbol, nt: usize, store: *const u64, ns: usize, out: *mut u64, nout: usize,
    ) -> Answer;
}

type Question = unsafe extern "C" fn(*const u64, usize, *const u64, usize) -> Answer;

// Any words may be asked about, also words that are no type; a slice's pointer is aligned and not null, as the header asks.
fn ask(question: Question, a: &[u64], b: &[u64]) -> Result<u64, (u64, u64)> {
    let answer = unsafe { question(a.as_ptr(), a.len(), b.as_ptr(), b.len()) };
    if answer.refusal == TJ_ACCEPTED {
        Ok(answer.value)
    } else {
        Err((answer.refusal, answer.value))
    }
}

fn is_yes(value: u64) -> bool {
    value == 1
}

#[derive(Debug)]
enum Coercion {
    None,
    AsValue,
    ByAddress,
}

// One answer tells of both coercions.
fn coerces(a: &[u64], b: &[u64]) -> Result<Coercion, (u64, u64)> {
    ask(tj_coerces, a, b).map(|value| match value {
        TJ_COERCES_AS_VALUE => Coercion::AsValue,
        TJ_COERCES_BY_ADDRESS => Coercion::ByAddress,
        _ => Coercion::None,
    })
}

// A plan's steps, the type that it reports, and whether that is then coerced.
struct Made {
    steps: Vec<u64>,
    address: bool,
    taken: u64,
    reported: Vec<u64>,
    coerced: bool,
}

// A plan for a plain read, with a table of no records.
fn plan(known: &[u64], asked: &[u64], wanted: &[u64]) -> Result<Made, (u64, u64)> {
    let (table, store): ([Symbol; 0], [u64; 0]) = ([], []);
    let (mut steps, mut reported) = (vec![0; TJ_PLAN_WORDS], vec![0; TJ_TYPE_WORDS]);
    #[rustfmt::skip]
    let p = unsafe {
        tj_autoderef(
            known.as_ptr(), known.len(), asked.as_ptr(), asked.len(), wanted.as_ptr(), wanted.len(), 0,
            TJ_MOST_ROUNDS, table.as_ptr(), 0, store.as_ptr(), 0, steps.as_mut_ptr(), steps.len(),
            reported.as_mut_ptr(), reported.len(),
        )
    };
    if p.refusal != TJ_ACCEPTED {
        return Err((p.refusal, p.value));
    }
    steps.truncate(4 * p.steps as usize);
    reported.truncate(3 * p.layers as usize);
    Ok(Made { steps, address: p.address, taken: p.taken, reported, coerced: p.coerced })
}

// Where a plan's steps lead from the known type.
fn walk(known: &[u64], made: &Made) -> Result<Vec<u64>, (u64, u64)> {
    let (table, store): ([Symbol; 0], [u64; 0]) = ([], []);
    let mut walked = vec![0; TJ_TYPE_WORDS];
    #[rustfmt::skip]
    let w = unsafe {
        tj_walk(
            known.as_ptr(), known.len(), made.steps.as_ptr(), made.steps.len(), made.address, table.as_ptr(), 0,
            store.as_ptr(), 0, walked.as_mut_ptr(), walked.len(),
        )
    };
    if w.refusal != TJ_ACCEPTED {
        return Err((w.refusal, w.value));
    }
    walked.truncate(w.value as usize);
    Ok(walked)
}

// Makes a plan, walks it, and compares the three types.
fn read(what: &str, known: &[u64], asked: &[u64], wanted: &[u64]) -> Result<(), (u64, u64)> {
    let made = plan(known, asked, wanted)?;
    let walked = walk(known, &made)?;
    println!("{what}");
    println!("  steps {:?}, asked steps taken {}", made.steps.chunks(4).collect::<Vec<_>>(), made.taken);
    println!("  reported {:?}, as wanted: {}, coerced: {}", made.reported, made.reported == wanted, made.coerced);
    println!("  walked to {:?}, as reported: {}", walked, walked == made.reported);
    Ok(())
}

fn main() {
    let coefficients = [TJ_ARRAY, 0, 5, TJ_INT32, 0, 0];
    let channels = [TJ_SLICE, 0, 0, TJ_INT32, 0, 0];
    let slice_pointer = [TJ_SLICE_POINTER, 0, 0, TJ_INT32, 0, 0];
    let profile = [TJ_STRUCT, 7, 0];
    let view = [TJ_VIEW, 0, 0, TJ_STRUCT, 7, 0];
    let cut_off = [TJ_VIEW, 0, 0]; // a View of nothing
    println!("coefficients into channels: {:?}", coerces(&coefficients, &channels));
    println!("coefficients into a slice pointer: {:?}", coerces(&coefficients, &slice_pointer));
    println!("channels into coefficients: {:?}", coerces(&channels, &coefficients));
    println!("view into profile: {:?}", ask(tj_can_autoderef_into, &view, &profile).map(is_yes));
    println!("cut off into profile: {:?}", ask(tj_can_autoderef_into, &cut_off, &profile).map(is_yes));

    let int32 = [TJ_INT32, 0, 0];
    let hidden = [TJ_VIEW, 0, 0, TJ_POINTER, 0, 0, TJ_INT32, 0, 0];
    let element = [TJ_ELEMENT, 7, TJ_ENDLESS_UNKNOWN, 0];
    let plans = [
        read("channel 7 as Int32", &channels, &element, &int32),
        read("a view of a pointer as Int32: the exception", &hidden, &[], &int32),
        read("cut off as Int32", &cut_off, &[], &int32),
    ];
    println!("refused, number and place: {:?}", plans.iter().filter_map(|p| p.err()).collect::<Vec<_>>());
}
