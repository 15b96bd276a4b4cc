//! Letters that survive the end of the program, even by `kill -9`: the program of README.

fn main() -> Result<(), seryugo::Error> {
    // Outlives power loss: JournalFile::new().keep(Keep::Disk).open("letters.journal")?
    let board = seryugo::Switchboard::open("letters.journal")?; // outlives kill -9
    let mut seat = board.seat()?;
    let letters = seat.mailbox_again::<String>(0)?;
    seat.send(letters, "Dear Ben")?;
    println!("{}", seat.recv(letters)?);
    drop(seat);
    board.close()
}
