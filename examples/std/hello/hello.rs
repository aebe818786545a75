//! Writes a line by std alone.

fn main() {
    println!("hello");
}
