//! The bytes of stack that each of the library's functions needs, a line each: `stack`, the function, the bytes.

use robequarry_checks::stack;

fn main() {
    for (function, bytes) in stack::needs() {
        println!("stack {function} {bytes}");
    }
}
