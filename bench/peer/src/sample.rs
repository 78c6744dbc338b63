//! The sample device of docs/SCRIPTS.md, and the device of examples/devices/array.toml.

use crate::plan::{Calls, Plan, PlanBuilder, PlanFault, Validator};
use crate::settle::{Ctrl, CtrlFault};
use crate::types::*;

const IDS: [u32; 10] = [
    0x0098_0912,
    0x0098_0913,
    0x0098_0914,
    0x0098_0915,
    0x0098_0903,
    0x0098_0900,
    0x0098_0918,
    0x0098_090d,
    0x0098_090e,
    0x0098_090f,
];

/// The array's id, and its number.
const ARRAY: u32 = 0x0098_1000;
const ARRAY_NUMBER: usize = 10;

/// The number of a word's control; the array has a word where there is one.
pub fn word(word: &[u8], has_array: bool) -> Option<usize> {
    Some(match word {
        b"autogain" => 0,
        b"gain" => 1,
        b"hflip" => 2,
        b"vflip" => 3,
        b"hue" => 4,
        b"brightness" => 5,
        b"power" => 6,
        b"button" => 7,
        b"red" => 8,
        b"blue" => 9,
        b"weights" if has_array => ARRAY_NUMBER,
        _ => return None,
    })
}

pub fn word_id(control: usize) -> u32 {
    IDS.get(control).copied().unwrap_or(ARRAY)
}

/// A description that a control or a plan can't have.
#[derive(Debug)]
pub struct Unsound;

impl From<CtrlFault> for Unsound {
    fn from(_: CtrlFault) -> Unsound {
        Unsound
    }
}

impl From<PlanFault> for Unsound {
    fn from(_: PlanFault) -> Unsound {
        Unsound
    }
}

/// The lesser of the second value and 200.
fn limited_gain(row: &mut [Value]) -> Result<(), Errno> {
    if let [Value::Number(_), Value::Number(gain)] = row {
        *gain = (*gain).min(200);
    }
    Ok(())
}

/// No more than 384 together.
fn limited_sum(row: &mut [Value]) -> Result<(), Errno> {
    match row {
        [Value::Number(a), Value::Number(b)] if a.saturating_add(*b) > 384 => Err(Errno::Inval),
        _ => Ok(()),
    }
}

fn two_bytes(row: &[Value]) -> u64 {
    match row {
        [Value::Number(a), Value::Number(b)] => a.wrapping_mul(256).wrapping_add(*b) as u64,
        _ => 0,
    }
}

fn shifted(row: &[Value]) -> u64 {
    match row {
        [Value::Number(v)] => v.wrapping_add(64) as u64,
        _ => 0,
    }
}

/// The sample device, with the array where there is to be one.
pub fn sample_plan(has_array: bool) -> Result<Plan, Unsound> {
    use Kind::*;
    let mut plan = PlanBuilder::new();
    let (low, high) = (plan.handler()?, plan.handler()?);
    let id = |control: usize| IDS[control];
    plan.control(low, Ctrl::new(id(0), Boolean, 0, 1, 1, 1)?)?;
    plan.control(low, Ctrl::new(id(1), Integer, 0, 255, 1, 16)?)?;
    plan.control(low, Ctrl::new(id(2), Boolean, 0, 1, 1, 0)?)?;
    plan.control(low, Ctrl::new(id(3), Boolean, 0, 1, 1, 0)?)?;
    plan.control(low, Ctrl::new(id(4), Integer, 0, 10, 3, 0)?.private())?;
    plan.control(high, Ctrl::new(id(5), Integer, -64, 64, 4, 0)?)?;
    let power = plan.control(high, Ctrl::new(id(6), Menu, 0, 3, 1, 1)?.with_skip(8)?)?;
    plan.control(high, Ctrl::new(id(7), Button, 0, 0, 0, 0)?)?;
    plan.control(high, Ctrl::new(id(8), Integer, 0, 255, 1, 128)?)?;
    plan.control(high, Ctrl::new(id(9), Integer, 0, 255, 1, 128)?)?;
    if has_array {
        plan.control(high, Ctrl::new_array(ARRAY, 4, 0, 250, 10, 0)?)?;
    }
    for (index, name) in ["Disabled", "50 Hz", "60 Hz"].iter().enumerate() {
        plan.menu_name(power, index as u32, name)?;
    }
    plan.add_handler(high, low)?;
    let validated = |validator: Validator| Calls { validator: Some(validator), notifier: Some(Box::new(two_bytes)) };
    plan.auto_cluster(&[0, 1], 0, validated(Box::new(limited_gain)))?;
    plan.cluster(&[8, 9], validated(Box::new(limited_sum)))?;
    plan.cluster(&[7], Calls { validator: None, notifier: Some(Box::new(|_| 1)) })?;
    plan.cluster(&[5], Calls { validator: None, notifier: Some(Box::new(shifted)) })?;
    Ok(plan.finish())
}

#[cfg(test)]
mod tests {
    use super::*;

    #[test]
    fn words_and_ids_agree() {
        let words =
            ["autogain", "gain", "hflip", "vflip", "hue", "brightness", "power", "button", "red", "blue", "weights"];
        let plan = sample_plan(true).unwrap();
        for (control, name) in words.iter().enumerate() {
            assert_eq!(word(name.as_bytes(), true), Some(control));
            assert_eq!(plan.controls()[control].id, word_id(control));
        }
        assert_eq!(word(b"weights", false), None);
        assert_eq!(plan.cluster_of(ARRAY_NUMBER), 8);
        assert_eq!((2..7).map(|c| plan.cluster_of(c)).collect::<Vec<_>>(), [4, 5, 6, 3, 7]);
    }
}
