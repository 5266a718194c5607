// The numbers of relay.h that are used here.
const RELAY_RUN_NUMBERS: usize = 6;
const RELAY_BRING_UP: u32 = 0;
const RELAY_DONE: u32 = 0;
const RELAY_NO_ROOM: u32 = 100;
const RELAY_PAUSED: u32 = 101;
const RELAY_LOG_SHORT: u32 = 102;
const RELAY_LOG_RECORD_SIZE: usize = 16;

/// Three records change in this swap, and the pair of levels: four entries and the seal.
const LOG_RECORDS: usize = 5;

#[link(name = "relay", kind = "static")]
extern "C" {
    fn relay_run(
        table: *mut u8,
        table_length: usize,
        roots: *const u8,
        roots_length: usize,
        order: *mut u8,
        order_length: usize,
        target: *const u8,
        target_length: usize,
        log: *mut u8,
        log_length: usize,
        plan: u32,
        budget: u32,
        answer: *mut u32,
        answer_length: usize,
    ) -> usize;
}

/// One slice; the numbers of its answer.
fn run<'a>(
    table: &mut [u8],
    roots: &[u8],
    order: &mut [u8],
    target: &[u8],
    log: &mut [u8],
    plan: u32,
    budget: u32,
    answer: &'a mut [u32; RELAY_RUN_NUMBERS],
) -> &'a [u32] {
    // The list holds the longest answer, so it is always written.
    let written = unsafe {
        relay_run(
            table.as_mut_ptr(),
            table.len(),
            roots.as_ptr(),
            roots.len(),
            order.as_mut_ptr(),
            order.len(),
            target.as_ptr(),
            target.len(),
            log.as_mut_ptr(),
            log.len(),
            plan,
            budget,
            answer.as_mut_ptr(),
            answer.len(),
        )
    };
    &answer[..written]
}

fn main() {
    // case A. 0: 1 (0,1); 1: 0 (0,2); 2: free; root 3; from order 0 1 to 1 0
    let mut table = [
        1, 0, 0, 0, 1, 0, 0, 0, 0, 0, 0, 0, 2, 0, 0, 0, 255, 0, 0, 0, 0, 0, 0, 0,
    ];
    let roots = [3, 0];
    let mut order = [0, 1];
    let target = [1, 0];
    let mut log = [0; LOG_RECORDS * RELAY_LOG_RECORD_SIZE];
    loop {
        match *run(
            &mut table,
            &roots,
            &mut order,
            &target,
            &mut log,
            RELAY_BRING_UP,
            8,
            &mut [0; RELAY_RUN_NUMBERS],
        ) {
            [RELAY_PAUSED, ..] => continue, // the next protection pass goes here
            [RELAY_DONE, ..] => println!("order {} {}", order[0], order[1]),
            [RELAY_NO_ROOM, _, _, level, needed, free] => {
                println!("no room at level {level}: needed {needed}, free {free}")
            }
            [RELAY_LOG_SHORT, _, _, level, needed, held] => {
                println!("log short at level {level}: needed {needed}, held {held}")
            }
            [number, place] => println!("refused {number} place {place}"),
            _ => unreachable!("no other answer has numbers"),
        }
        break;
    }
}
