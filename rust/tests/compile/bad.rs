use duration_str::duration;

macro_rules! handed_over {
    ($text:expr) => {
        duration!($text)
    };
}
// bad.txt has the error of each line, with its number.
fn main() {
    duration!("1m 3-5");
    duration!("600y");
    duration!("");
    duration!("1+2", no_calc);
    duration!("3分");
    duration!("2H", lowercase);
    duration!("1h 30", require_unit);
    duration!("5 mins");
    duration!();
    duration!(5);
    duration!(b"5s");
    duration!("\u{35}s");
    duration!("5s" "5s");
    duration!("5s", calc);
    let text = "5s";
    duration!(text);
    handed_over!("5s".trim());
}
