//! The stacked loader, from the customer's document: blocks proved one by one, each block's bytes run before
//! the next is looked at.

use crate::answer::{Answer, RECORD};
use crate::board::Board;
use crate::machine::{Machine, Stop};
use crate::sbs::{self, Image};

#[allow(clippy::too_many_arguments)] // these are the call's
pub fn load(
    image: &[u8],
    header: &[u8],
    map: &[u8],
    cpuid: &[u8],
    mode: u64,
    signature_length: u64,
    memory: &mut [u8],
    answer: &mut [u8],
) -> u64 {
    if answer.len() != RECORD {
        return 1;
    }
    let begun = sbs::arguments(image, signature_length)
        .and_then(|()| Board::judge(map, cpuid, mode, memory.len()))
        .and_then(|board| {
            let image = Image::judge(image, header, signature_length)?;
            let machine = Machine::new(board, image.file_length())?;
            Ok((image, machine))
        });
    match begun {
        Err(code) => Answer::refusal(code),
        Ok((image, machine)) => run(image, machine, memory),
    }
    .write(answer)
}

fn run(image: Image, mut machine: Machine, memory: &mut [u8]) -> Answer {
    let mut proved = Vec::new();
    for k in 0..image.count {
        let stop = match image.prove(k) {
            Ok(data) => {
                proved.extend(data);
                machine.advance(&proved, memory)
            }
            Err(code) => Some(Stop {
                code,
                place: k as u64 + 1,
            }),
        };
        if let Some(stop) = stop {
            return machine.answer(stop);
        }
    }
    unreachable!("the end of the file stops the run")
}
