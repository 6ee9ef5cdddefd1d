//! Instructions a label.

use std::error::Error;

use crate::callgrind::collected;
use crate::measured::{Shape, LABELS, SPANS};

pub fn print() -> Result<(), Box<dyn Error>> {
    println!("instructions a label, over {LABELS} labels");
    println!("row      span  instructions");
    for shape in Shape::ALL {
        for span in SPANS {
            let mean = collected(shape, span)? as f64 / LABELS as f64;
            println!("{:<8} {span:>4} {mean:>13.2}", shape.name());
        }
    }
    Ok(())
}
