//! A client of the server of text: each of the five kinds once.

use xous::{Answer, Connection, Pages, Returned};

fn main() -> xous::Result<()> {
    let server = Connection::to("text".try_into()?)?;
    let text = b"pages are lent, and come back";
    let words = Returned { offset: 0, valid: text.len() as u32 };
    let mut page = Pages::new(1)?;
    page[..text.len()].copy_from_slice(text);

    let counted = server.lend(1, &page, words)?;
    println!("client: {} words", counted.valid);

    let written = server.lend_mut(2, &mut page, words)?;
    println!("client: {}", String::from_utf8_lossy(&page[..written.valid as usize]));

    if let Answer::One(sum) = server.blocking_scalar(3, [1, 2, 3, 4])? {
        println!("client: the sum is {sum}");
    }

    server.give(4, page, words).map_err(|(error, _)| error)?;
    server.scalar(5, [0; 4])
}
