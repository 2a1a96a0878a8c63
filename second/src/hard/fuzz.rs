//! What libFuzzer calls: its bytes as an input of the entry that RMK_ENTRY names. The library's outcome, beside
//! unreadable pages, is judged by the second program, and plain C's too. The library is machine code that nothing
//! counts; the second program and plain C are counted, and lead the fuzzer.

mod calls;
mod edges;
mod judge;
mod pages;
mod shapes;
mod sheets;

use calls::{c_entries, told, Answer, Entry, Given, ENTRIES};
use edges::{Edges, Guarded};
use judge::Judge;
use second::answers::*;
use second::random::Random;
use std::ffi::c_int;

c_entries!(plain: plain_code_check plain_path_to_code plain_code_to_path plain_vertices plain_child
           plain_parent plain_cross plain_sheet_check plain_leaf_at plain_value_at plain_slope_at
           plain_compatible);

struct Fuzzed {
    entry: Entry,
    edges: Edges<'static, Guarded>,
}

static mut FUZZED: Option<Fuzzed> = None;

fn fuzzed() -> Fuzzed {
    let name = std::env::var("RMK_ENTRY").expect("RMK_ENTRY names no entry");
    let (entry, _) = ENTRIES.into_iter().find(|row| row.1 == name).expect("no such entry");
    let judge: &'static mut Judge = Box::leak(Box::new(Judge::new()));
    let (places, counts) = (Guarded::new(), [0; ENTRIES.len()]);
    let edges = Edges { places, judge, random: Random::new(1), counts, part: 1 };
    Fuzzed { entry, edges }
}

impl Fuzzed {
    fn one(&mut self, given: &Given, lent: usize) {
        self.edges.both(given, [lent, 0]);
        let mut cells = [vec![0xa5; lent], vec![0xa5; lent]];
        let [expected, got] = &mut cells;
        let answer = self.edges.judge.answer(given, expected, &mut []);
        let other = plain(given, got, &mut []);
        assert!(
            answer == other && expected == got,
            "plain C differs on {}",
            told(given, [lent, 0])
        );
    }
}

#[no_mangle]
pub extern "C" fn LLVMFuzzerTestOneInput(data: *const u8, size: usize) -> c_int {
    let data = if size == 0 { &[] } else { unsafe { std::slice::from_raw_parts(data, size) } };
    let fuzzed = unsafe { (*std::ptr::addr_of_mut!(FUZZED)).get_or_insert_with(fuzzed) };
    let Some(shape) = shapes::shape(fuzzed.entry, data) else { return -1 };
    let (entry, which) = (fuzzed.entry, shape.which);
    let given = Given { entry, one: &shape.one, two: &shape.two, which };
    let lent = if entry.outputs() == 0 { 0 } else { shape.lent };
    fuzzed.one(&given, lent);
    if entry == Entry::ValueAt {
        // The other queries have the same input, the leaf's an output besides.
        fuzzed.one(&Given { entry: Entry::SlopeAt, ..given }, 0);
        fuzzed.one(&Given { entry: Entry::LeafAt, ..given }, shape.lent);
    }
    0
}
