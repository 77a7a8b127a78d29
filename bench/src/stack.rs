//! Each call in a thread of its own whose whole stack is as large as given, with a guard page below it: a call that
//! takes more ends the program. What the calls are lent lies on the heap.
use crate::jobs;

pub fn small(bytes: usize) {
    for make in jobs::ALL {
        let mut job = make();
        let name = job.name;
        let run = move || (job.ours)();
        let thread = std::thread::Builder::new().stack_size(bytes).spawn(run).expect("a thread");
        thread.join().unwrap_or_else(|_| panic!("{name}"));
    }
    println!("every call of ours ran in a stack of {bytes} bytes");
}
