//! Messages laid down by hand after document 01, so that any value can stand in them.

use second::{Funding, Payment};
use std::fmt::Write;

fn put_field(message: &mut Vec<u8>, tag: u8, value: &[u8]) {
    message.push(tag);
    message.extend_from_slice(&(value.len() as u16).to_be_bytes());
    message.extend_from_slice(value);
}

pub fn body(payment: Payment, note: &[u8]) -> Vec<u8> {
    let mut recipient = vec![payment.kind as u8];
    recipient.extend_from_slice(&(payment.recipient as u16).to_be_bytes());
    let mut body = Vec::new();
    put_field(&mut body, 0x01, &[payment.sender as u8]);
    put_field(&mut body, 0x02, &recipient);
    put_field(&mut body, 0x03, &(payment.amount as u32).to_be_bytes());
    put_field(&mut body, 0x04, &(payment.sequence as u16).to_be_bytes());
    put_field(&mut body, 0x05, note);
    body
}

pub fn order(body: &[u8], signature: &[u8]) -> Vec<u8> {
    let mut order = Vec::new();
    put_field(&mut order, 0x10, body);
    put_field(&mut order, 0x11, signature);
    order
}

/// A vote of each machine; what stands for a signature is its number, over and over.
pub fn certificate(body: &[u8], machines: &[u8]) -> Vec<u8> {
    let mut certificate = Vec::new();
    put_field(&mut certificate, 0x20, body);
    for machine in machines {
        put_field(&mut certificate, 0x21, &[*machine; 65]);
    }
    certificate
}

pub fn funding(funding: Funding) -> Vec<u8> {
    let mut order = Vec::new();
    put_field(&mut order, 0x30, &(funding.index as u16).to_be_bytes());
    put_field(&mut order, 0x31, &[funding.account as u8]);
    put_field(&mut order, 0x32, &(funding.amount as u32).to_be_bytes());
    order
}

pub fn hexadecimal(bytes: &[u8]) -> String {
    let mut text = String::with_capacity(2 * bytes.len());
    for byte in bytes {
        // Writing to a String cannot fail.
        let _ = write!(text, "{byte:02x}");
    }
    text
}
