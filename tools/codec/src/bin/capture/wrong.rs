//! What can go wrong: every fault, in cells and in frames.

use crate::refused::REFUSED;
use crate::{set_message, Capture, FULL, ONE, TWO};
use codec::cell::{check_place, CELL};
use codec::hex::Hex;
use codec::Down;

/// Prints it all.
pub fn show(c: &mut Capture) {
    c.say("Bits without a meaning set: they are not read.");
    let mut bytes = c.raw([64, 0x00, 1, 2, 3, 4, 5, 6, 7, 8, 9, 10]);
    bytes[0] = 0xFF;
    c.show(&bytes);
    let bytes = c.raw([
        64, 0x02, 8, 0xAA, 0x55, 0xAA, 0xFF, 0xFF, 0xFE, 0xFF, 0xFF, 0xFF,
    ]);
    c.show(&bytes);
    let bytes = c.raw([
        5, 0x0F, 0xFF, 0x12, 0x30, 0xFF, 0xFF, 0xFF, 0xFF, 0xFF, 0xFF, 0xFF,
    ]);
    c.show(&bytes);
    let mut bytes = c.frame(FULL, [Down::NoMessage; 2]);
    bytes[CELL + 32] = 77;
    let message = Down::NoMessage.write();
    set_message(&mut bytes[CELL..], &message);
    c.say("A frame with a grant in its last place, which is left out.");
    c.show(&bytes);

    c.say("Cells that are cut, too long, or empty but for one byte.");
    let bytes = c.cell(true, ONE, Down::NoMessage);
    c.show(&bytes[..47]);
    let mut long = bytes.to_vec();
    long.push(0);
    c.show(&long);
    c.show(&bytes[..1]);

    c.say("Lines that are not hex.");
    println!("the recorder was restarted here");
    println!("{}", Hex(&bytes).to_string().replacen("00", "0x", 1));

    c.say("One wrong bit in each group of a cell: four groups of grants, then the message.");
    for group in 1..=5 {
        let mut bytes = c.cell(
            true,
            TWO,
            Down::RangingTime {
                pon_id: 5,
                delay: 777,
            },
        );
        bytes[check_place(group) - 3] ^= 0x08;
        c.show(&bytes);
    }
    c.say("A wrong check byte in each group.");
    for group in 1..=5 {
        let mut bytes = c.cell(false, ONE, Down::Popup);
        bytes[check_place(group)] ^= 0xFF;
        c.show(&bytes);
    }
    c.say("Groups 2 and 4 wrong: the first one is told.");
    let mut bytes = c.cell(true, TWO, Down::NoMessage);
    bytes[check_place(2)] ^= 1;
    bytes[check_place(4)] ^= 1;
    c.show(&bytes);

    c.say("Messages that are refused, the check bytes being right.");
    for &(text, message) in REFUSED {
        c.say(&format!("{text}."));
        let bytes = c.raw(message);
        c.show(&bytes);
    }

    c.say("Frames that are cut or too long.");
    let bytes = c.frame(TWO, [Down::NoMessage, Down::Popup]);
    c.show(&bytes[..95]);
    let mut long = bytes.to_vec();
    long.push(0xFF);
    c.show(&long);

    c.say("Frames with a wrong check byte: in the first cell, then in the second.");
    for group in 1..=5 {
        for cell in 0..2 {
            let mut bytes = c.frame(TWO, [Down::NoMessage, Down::Popup]);
            bytes[cell * CELL + check_place(group)] ^= 0x40;
            c.show(&bytes);
        }
    }
    c.say("Both cells wrong: the first one is told, whatever its fault.");
    let mut bytes = c.frame(TWO, [Down::NoMessage, Down::Popup]);
    set_message(&mut bytes[..CELL], &REFUSED[0].1);
    bytes[CELL + check_place(1)] ^= 1;
    c.show(&bytes);

    c.say("Frames with a message that is refused, in the first cell and in the second by turns.");
    for (i, (text, message)) in REFUSED.iter().enumerate() {
        let cell = i % 2;
        c.say(&format!("cell {}: {text}.", cell + 1));
        let mut bytes = c.frame(ONE, [Down::RequestPassword { pon_id: 5 }, Down::NoMessage]);
        set_message(&mut bytes[cell * CELL..(cell + 1) * CELL], message);
        c.show(&bytes);
    }
    c.say("The end: all is well again.");
    c.show_frame(ONE, [Down::NoMessage; 2]);
}
