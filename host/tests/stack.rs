//! How much stack a call takes: each entry runs in a thread whose stack is marked memory of ours, and
//! what it leaves unmarked is counted. `include/notice.h` promises the bound.

#![allow(unsafe_code)]

use std::ffi::{c_int, c_void};
use std::hint::black_box;
use std::ptr::null_mut;

use host::entries::{self, MOST_DEFINITION_ROWS, MOST_SPAN_ROWS};
use host::generate::bench_notes;
use host::generate::long_labels::{self, Letters};
use host::second::{DEFINITION_ROW_WIDTH, LONGEST_LABEL, SPAN_ROW_WIDTH};

/// What `include/notice.h` promises for a call of the reader, the page writer, the enquiry and the comparison.
const PROMISED: [usize; 4] = [272 * 1024, 328 * 1024, 52 * 1024, 52 * 1024];
/// The memory of a stack, which has room for more than the promise.
const STACK: usize = 1 << 20;
const PAGE: usize = 4096;
const MARK: u8 = 0xA5;

type Attributes = [u64; 8];
type Body = extern "C" fn(*mut c_void) -> *mut c_void;

extern "C" {
    fn pthread_attr_init(attributes: *mut Attributes) -> c_int;
    fn pthread_attr_setstack(attributes: *mut Attributes, low: *mut c_void, size: usize) -> c_int;
    fn pthread_attr_destroy(attributes: *mut Attributes) -> c_int;
    fn pthread_create(
        thread: *mut usize,
        attributes: *const Attributes,
        body: Body,
        given: *mut c_void,
    ) -> c_int;
    fn pthread_join(thread: usize, result: *mut *mut c_void) -> c_int;
}

/// What the thread is given: the call, to be made or not.
struct Task<'t> {
    call: &'t mut dyn FnMut(),
    made: bool,
}

extern "C" fn run(task: *mut c_void) -> *mut c_void {
    // SAFETY: it is the task of `depth`, which waits for this thread.
    let task = unsafe { &mut *task.cast::<Task>() };
    if black_box(task.made) {
        (task.call)();
    }
    null_mut()
}

/// How many bytes of its stack a thread writes to that makes the call, or does not.
fn depth(call: &mut dyn FnMut(), made: bool) -> usize {
    let mut memory = vec![MARK; STACK + PAGE];
    let low = memory.as_mut_ptr().align_offset(PAGE);
    let stack = &mut memory[low..low + STACK];
    let mut task = Task { call, made };
    let mut attributes: Attributes = [0; 8];
    let mut thread = 0;
    // SAFETY: the stack and the task outlive the thread, which is waited for.
    unsafe {
        assert_eq!(pthread_attr_init(&mut attributes), 0);
        let low = stack.as_mut_ptr().cast();
        assert_eq!(pthread_attr_setstack(&mut attributes, low, STACK), 0);
        let given = (&raw mut task).cast();
        assert_eq!(pthread_create(&mut thread, &attributes, run, given), 0);
        assert_eq!(pthread_join(thread, null_mut()), 0);
        assert_eq!(pthread_attr_destroy(&mut attributes), 0);
    }
    let untouched = stack.iter().take_while(|byte| **byte == MARK).count();
    STACK - untouched
}

/// How many bytes of stack a call takes, beside those of the thread itself.
fn taken(mut call: impl FnMut()) -> usize {
    let without = depth(&mut call, false);
    depth(&mut call, true) - without
}

/// The notes of the benchmark beside their own sheets, and each as its own sheet; for a release and for none.
fn texts() -> Vec<(Vec<u8>, Vec<u8>, bool)> {
    let notes = bench_notes::all().into_iter();
    let texts = notes.flat_map(|note| {
        let twice = (note.bytes.clone(), note.bytes.clone());
        [(note.bytes, note.sheet), twice]
    });
    texts
        .flat_map(|(note, sheet)| [(note.clone(), sheet.clone(), false), (note, sheet, true)])
        .collect()
}

/// What an enquiry for a long label takes, and a comparison of two, in letters of each kind.
fn taken_by_labels() -> [usize; 2] {
    let mut most = [0; 2];
    for Letters { one, other, .. } in long_labels::in_letters() {
        let note = format!("[{one}]: x").into_bytes();
        let [one, other] = [one, other].map(String::into_bytes);
        let calls = [
            taken(|| {
                entries::resolve(&note, b"", &other);
            }),
            taken(|| {
                entries::same_label(&one, &other);
            }),
        ];
        most = [0, 1].map(|entry| most[entry].max(calls[entry]));
    }
    most
}

#[test]
fn a_call_keeps_to_the_promised_stack() {
    let mut defined = vec![0; MOST_DEFINITION_ROWS * DEFINITION_ROW_WIDTH];
    let mut spans = vec![0; MOST_SPAN_ROWS * SPAN_ROW_WIDTH];
    let mut page = vec![0; 1 << 20];
    let mut most = [0; 4];
    for (note, sheet, release) in texts() {
        let calls = [
            taken(|| {
                entries::read(&note, &sheet, release, &mut defined, &mut spans);
            }),
            taken(|| {
                entries::render(&note, &sheet, release, &mut defined, &mut spans, &mut page);
            }),
            taken(|| {
                entries::resolve(&note, &sheet, "ЛИМИТ 499".as_bytes());
            }),
            taken(|| {
                entries::same_label(&note, &sheet);
            }),
        ];
        most = [0, 1, 2, 3].map(|entry| most[entry].max(calls[entry]));
    }
    let [resolved, compared] = taken_by_labels();
    most[2] = most[2].max(resolved);
    most[3] = most[3].max(compared);
    println!(
        "reader {}, page writer {}, enquiry {}, comparison {}",
        most[0], most[1], most[2], most[3]
    );
    let kept = most.iter().zip(PROMISED);
    let kept = kept.filter(|(bytes, promised)| (1..*promised).contains(bytes));
    assert_eq!(kept.count(), most.len(), "{most:?}");
    // No form of a label is built: there is no room for the longest.
    assert!(
        most[2..].iter().all(|bytes| *bytes < LONGEST_LABEL),
        "{most:?}"
    );
}
