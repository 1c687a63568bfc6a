//! Calls of the library from Rust: the verdict on history H1, and two questions about it. H1 is
//! w0[xA] w0[xB] w0[yC] c0 r1[yC] w1[xA] c1 r2[xB] w2[yC] c2. This builds and runs it, on any machine:
//!
//!     scripts/example.sh rs
//!
//! In a build of your own, on x86-64, with the library that `rt lib` makes in crates/clib:
//!
//!     mkdir -p target
//!     rustc --edition 2021 -L crates/clib/out -l static=clib docs/example.rs -o target/example-rs
//!
//! It prints, and scripts/check-examples.sh holds it to that:
//!
//!   > cycle 2
//!   > 1 1
//!   > 2 3
//!   > the edge from 2 to 1 has reason 3
//!   > record 7 reads what 0 wrote in record 1

#[repr(C)]
struct Judged { number: u64, place: u64, cycle: u64, length: u64 }

#[repr(C)]
struct Answer { number: u64, place: u64, value: u64 }

#[repr(C)]
struct Source { number: u64, place: u64, transaction: u64, record: u64 }

// As in include/fruscalenta.h. A slice is a good pointer with its length, which is all that the library asks.
extern "C" {
    fn fruscalenta_verdict(log: *const u8, len: usize, answer: *mut u8, room: usize) -> Judged;
    fn fruscalenta_edge_between(log: *const u8, len: usize, i: usize, j: usize) -> Answer;
    fn fruscalenta_source_of_record(log: *const u8, len: usize, k: usize) -> Source;
}

fn main() {
    // Records of 4 bytes: kind (1 read, 2 write, 3 commit), transaction, item, site.
    let h1: [u8; 40] = [2, 0, 0, 0, 2, 0, 0, 1, 2, 0, 1, 2, 3, 0, 0, 0, 1, 1, 1, 2,
                        2, 1, 0, 0, 3, 1, 0, 0, 1, 2, 0, 1, 2, 2, 1, 2, 3, 2, 0, 0];
    let mut answer = [0u8; 128]; // a shorter one is refused: number 3
    let judged = unsafe { fruscalenta_verdict(h1.as_ptr(), h1.len(), answer.as_mut_ptr(), answer.len()) };
    match (judged.number, judged.cycle) {
        (0, 0) => println!("serial {}", judged.length),
        (0, _) => println!("cycle {}", judged.length),
        (number, _) => println!("refused {number} {}", judged.place),
    }
    for record in answer.chunks(2).take(judged.length as usize) {
        match judged.cycle {
            0 => println!("{}", record[0]),
            _ => println!("{} {}", record[0], record[1]),
        }
    }
    // 2 read the x that 0 wrote, so it comes before 1, which wrote x later.
    let edge = unsafe { fruscalenta_edge_between(h1.as_ptr(), h1.len(), 2, 1) };
    match edge.number {
        0 => println!("the edge from 2 to 1 has reason {}", edge.value),
        number => println!("refused {number} {}", edge.place),
    }
    // That read is record 7, r2[xB], and the write is record 1, w0[xB].
    let source = unsafe { fruscalenta_source_of_record(h1.as_ptr(), h1.len(), 7) };
    match source.number {
        0 => println!("record 7 reads what {} wrote in record {}", source.transaction, source.record),
        number => println!("refused {number} {}", source.place),
    }
}
