//! Reads (or with an argument writes) one byte past lent memory: has to be stopped by the forbidden page.
use compare::Guarded;

fn main() {
    let mut guarded = Guarded::new(1000);
    if std::env::args().nth(1).is_some() {
        let row = guarded.numbers(9);
        // SAFETY: none; this is the fault that is to be stopped.
        unsafe { row.as_mut_ptr().add(9).write(1) };
    } else {
        let d = guarded.at_the_end(77);
        // SAFETY: none; this is the fault that is to be stopped.
        println!("{}", unsafe { d.as_ptr().add(77).read_volatile() });
    }
    println!("not stopped");
}
