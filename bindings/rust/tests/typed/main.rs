// Tests of the functions over records: extreme values of each kind, refusals, histories, and the recorded logs of the repository.
mod blocks;
mod extreme;
mod histories;
mod questions;
mod recordings;
mod records;

use lnav::Refusal;

fn refused<T>(number: u8, detail: usize) -> Result<T, Refusal> {
    Err(Refusal { number, detail })
}

#[test]
fn sentences() {
    let sentence = |number, detail| Refusal { number, detail }.to_string();
    assert_eq!(
        sentence(5, 3),
        "refused by 5: word 3 breaks the parity table"
    );
    assert_eq!(sentence(21, 4), "refused by 21: the detail is 4");
    for number in 1..=20 {
        assert!(!sentence(number, 0).contains("the detail is"));
    }
}
