//! `replay`: the list on standard input, one line on standard output; `replay fill`: the list with its answers.

fn main() -> std::io::Result<()> {
    let list = std::io::read_to_string(std::io::stdin())?;
    if std::env::args().any(|word| word == "fill") {
        print!("{}", twin::replay::filled(&twin::calls::Twin, &list));
        return Ok(());
    }
    let replayed = twin::replay::replay(&twin::calls::Twin, &list);
    for line in &replayed.differed {
        println!("differs: {line}");
    }
    println!("{} calls, {} differed", replayed.calls, replayed.differed.len());
    std::process::exit(i32::from(!replayed.differed.is_empty()));
}
