//! Measures the stack that each function of the library takes, over the largest
//! graphs, and shows the size of its code. Stacks are measured on threads of
//! Linux whose stack was filled with a pattern.

use glouds::make::{self, Xorshift};
use glouds::plain::{self, Opened};
use glouds::{owned, Tally};
use std::alloc::{self, Layout};
use std::ffi::{c_int, c_void};
use std::hint::black_box;
use std::process::{Command, ExitCode};

/// The most stack that a call may take.
const WANTED: usize = 8_192;

/// A stack's size, and the byte that fills it.
const SIZE: usize = 1 << 18;
const FILL: u8 = 0xa5;

/// Larger than any system's pthread_attr_t.
#[repr(C, align(16))]
struct Attributes([u8; 256]);

extern "C" {
    fn pthread_attr_init(attributes: *mut Attributes) -> c_int;
    fn pthread_attr_setstack(attributes: *mut Attributes, stack: *mut c_void, size: usize)
        -> c_int;
    fn pthread_create(
        thread: *mut usize,
        attributes: *const Attributes,
        start: extern "C" fn(*mut c_void) -> *mut c_void,
        argument: *mut c_void,
    ) -> c_int;
    fn pthread_join(thread: usize, result: *mut *mut c_void) -> c_int;
}

/// A call, the stack that it runs on, and what it took.
struct Task<'a> {
    call: &'a mut dyn FnMut(),
    stack: *const u8,
    taken: usize,
}

/// Runs a task: what is taken lies between this frame and the lowest byte that
/// is no longer the pattern.
extern "C" fn start(task: *mut c_void) -> *mut c_void {
    // SAFETY: `stack_of` passes its own task, which outlives the thread.
    let task = unsafe { &mut *task.cast::<Task>() };
    let here = 0u8;
    (task.call)();
    let mut lowest = task.stack;
    // SAFETY: the stack reaches up to this frame, which is not all pattern.
    while unsafe { lowest.read_volatile() } == FILL {
        lowest = lowest.wrapping_add(1);
    }
    task.taken = (&raw const here).addr() - lowest.addr();
    std::ptr::null_mut()
}

/// Bytes of stack that a call takes, a few of the caller's own included.
fn stack_of(call: &mut dyn FnMut()) -> usize {
    let layout = Layout::from_size_align(SIZE, 4_096).expect("a layout");
    // SAFETY: the thread is joined before its stack is freed and its task ends.
    unsafe {
        let stack = alloc::alloc(layout);
        assert!(!stack.is_null());
        stack.write_bytes(FILL, SIZE);
        let mut task = Task {
            call,
            stack,
            taken: 0,
        };
        let mut attributes = Attributes([0; 256]);
        let mut thread = 0;
        let made = pthread_attr_init(&mut attributes) == 0
            && pthread_attr_setstack(&mut attributes, stack.cast(), SIZE) == 0
            && pthread_create(&mut thread, &attributes, start, (&raw mut task).cast()) == 0
            && pthread_join(thread, std::ptr::null_mut()) == 0;
        assert!(made, "a thread on a stack of our own");
        alloc::dealloc(stack, layout);
        task.taken
    }
}

/// Takes a known amount of stack, to try the measure on.
fn take_20_000() {
    black_box(&mut [0u8; 20_000]);
}

/// The most that each function took.
#[derive(Default)]
struct Most {
    pack: usize,
    check: usize,
    unpack: usize,
    ask: usize,
}

impl Most {
    /// Measures all functions on one table.
    fn table(&mut self, table: &[u16]) {
        let n = usize::from(table[0]);
        let (mut order, mut work) = (vec![0; n], vec![0; 3 * n]);
        let mut image = vec![0; owned::image_room(table.len())];
        let mut length = Err(0);
        let taken =
            stack_of(&mut || length = glouds::pack(table, &mut order, &mut work, &mut image));
        self.pack = self.pack.max(taken);
        let Ok(length) = length else {
            return;
        };
        image.truncate(length);
        self.image(&image);
        // The same image with a fault in its last section.
        image.pop();
        self.image(&image);
    }

    /// Measures the functions that read an image, proper or not.
    fn image(&mut self, image: &[u8]) {
        let taken = stack_of(&mut || {
            black_box(glouds::check(image));
        });
        self.check = self.check.max(taken);
        let mut table = vec![0; owned::MOST_TABLE_WORDS];
        let taken = stack_of(&mut || {
            let _ = black_box(glouds::unpack(image, &mut table));
        });
        self.unpack = self.unpack.max(taken);
        let Ok(opened) = plain::open(image) else {
            return;
        };
        let questions = questions(&opened);
        let mut answers = vec![0; questions.len()];
        let mut tally = Tally::default();
        let taken = stack_of(&mut || {
            black_box(glouds::ask(image, &questions, &mut answers, &mut tally));
        });
        self.ask = self.ask.max(taken);
    }
}

/// Questions of all kinds over the whole image, some of them refused.
fn questions(opened: &Opened) -> Vec<u32> {
    let rng = &mut Xorshift::new(41);
    let (n, l) = (opened.operands.len(), opened.trits.len());
    let mut list = Vec::new();
    for round in 0..21_000 {
        let kind = round % 7;
        let [most_a, most_b] = match kind {
            0 => [l, 1],
            1 => [3, l],
            2 => [3, n],
            _ => [n, 4],
        };
        let question = [kind, rng.below(most_a + 1), rng.below(most_b + 1)];
        list.extend(question.map(|word| word as u32));
    }
    list
}

/// Prints one line and tells whether the figure is as wanted.
fn line(name: &str, taken: usize) -> bool {
    println!("{name:<14}{taken:>6}");
    taken <= WANTED
}

fn print_code() {
    let library = env!("GLOUDS_LIB");
    println!("\nSize of the library's code and constants (text), by `size -t`, in bytes:");
    match Command::new("size").arg("-t").arg(library).output() {
        Ok(ran) => print!("{}", String::from_utf8_lossy(&ran.stdout)),
        Err(cause) => println!("size: {cause}"),
    }
}

fn main() -> ExitCode {
    let known = stack_of(&mut take_20_000);
    assert!((20_000..20_500).contains(&known), "measured {known}");
    let rng = &mut Xorshift::new(43);
    let mut most = Most::default();
    for graph in make::largest(rng) {
        most.table(&graph.table());
    }
    most.table(&make::wild(30_000, 65_535, 1, rng).table());
    most.table(&[0, 0]);
    most.table(&[30_001]);
    println!("Most stack of a call over the largest graphs, in bytes; {WANTED} or less wanted:");
    let fits = line("glouds_pack", most.pack)
        & line("glouds_check", most.check)
        & line("glouds_unpack", most.unpack)
        & line("glouds_ask", most.ask);
    print_code();
    if fits {
        ExitCode::SUCCESS
    } else {
        ExitCode::FAILURE
    }
}
