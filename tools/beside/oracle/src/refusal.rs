//! A refusal's number in document 01.

#[derive(Clone, Copy, Debug, PartialEq, Eq)]
pub struct Refusal(pub u8);

pub fn unless(held: bool, number: u8) -> Result<(), Refusal> {
    if held {
        Ok(())
    } else {
        Err(Refusal(number))
    }
}
