//! NAME: writes a line, and ends.

fn answer() -> u32 {
    6 * 7
}

fn main() {
    println!("hello from NAME, six times seven is {}", answer());
}

#[cfg(test)]
mod tests {
    use super::*;

    #[test]
    fn the_answer() {
        assert_eq!(answer(), 42);
    }
}
