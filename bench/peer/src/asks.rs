//! Asks made at the device itself, without a script: what crates/device_loads makes by the same seven numbers, which docs/SPEED.md explains.

use std::sync::Arc;
use std::time::Instant;

use crate::device::{Device, ListAsk};
use crate::history::RangeArgs;
use crate::plan::{Plan, PlanBuilder};
use crate::sample::{sample_plan, Unsound};
use crate::settle::Ctrl;
use crate::types::*;

/// What is asked, and at which device.
pub struct Asks {
    mode: u32,
    /// 0 for the sample device.
    controls: u32,
    handlers: u32,
    file_handles: u32,
    subscriptions: u32,
    queued: u32,
    rounds: u32,
}

impl Asks {
    /// None for other words than seven numbers, and where there is no such mode, or would be no file handle or no handler.
    pub fn read(words: &[String]) -> Option<Asks> {
        let numbers: Vec<u32> = words.iter().map(|word| word.parse().ok()).collect::<Option<_>>()?;
        match numbers[..] {
            [mode @ 0..=12, controls, handlers, file_handles, subscriptions, queued, rounds]
                if handlers > 0 && file_handles > 0 =>
            {
                Some(Asks { mode, controls, handlers, file_handles, subscriptions, queued, rounds })
            }
            _ => None,
        }
    }

    /// Makes the asks, and says how many were refused and how long they took.
    pub fn run(&self) -> Result<(), Unsound> {
        let mut device = Device::new(Arc::new(self.plan()?));
        self.prepare(&mut device);
        let start = Instant::now();
        let refused = self.rounds(&mut device);
        let took = start.elapsed().as_micros();
        println!("mode {}: {} rounds, {refused} asks refused", self.mode, self.rounds);
        eprintln!("mode {}: {took} us, {} steps then", self.mode, device.steps().len());
        Ok(())
    }

    /// INTEGER controls, which the handlers have in turn; each handler shows those of the ones before it, too.
    fn plan(&self) -> Result<Plan, Unsound> {
        if self.controls == 0 {
            return sample_plan(false);
        }
        let mut plan = PlanBuilder::new();
        for _ in 0..self.handlers {
            plan.handler()?;
        }
        for control in 0..self.controls {
            plan.control(control % self.handlers, Ctrl::new(self.id(control), Kind::Integer, 0, 255, 1, 16)?)?;
        }
        for handler in 1..self.handlers {
            plan.add_handler(handler, handler - 1)?;
        }
        Ok(plan.finish())
    }

    /// The id of a control; of the sample device there are hflip, brightness, power and vflip, the last of which is its control 3.
    fn id(&self, control: u32) -> u32 {
        match self.controls {
            0 => [0x0098_0914, 0x0098_0900, 0x0098_0918, 0x0098_0915][control as usize % 4],
            controls => 0x0098_0900 + control % controls,
        }
    }

    /// The number of the last control, which no request names where there are two; requests name the first.
    fn far(&self) -> u32 {
        self.controls.checked_sub(1).unwrap_or(3)
    }

    /// Opens the file handles, subscribes them, and queues the requests.
    fn prepare(&self, device: &mut Device) {
        let handler = if self.controls == 0 { 1 } else { self.handlers - 1 };
        let handles: Vec<u32> = (0..self.file_handles).filter_map(|_| device.open(0, handler).ok()).collect();
        for &fh in &handles {
            for control in 0..self.subscriptions {
                device.subscribe(0, fh, self.id(control), sub::ALLOW_FEEDBACK).ok();
            }
        }
        for number in 0..self.queued {
            if let Ok(request) = device.alloc(0) {
                let value = number % if self.mode == 12 { 63 } else { 2 };
                self.queue(device, request, value.into(), &mut Vec::new());
            }
        }
    }

    /// Fills a request, gives it its buffer and queues it; answers how many of these asks were refused.
    fn queue(&self, device: &mut Device, request: u32, value: i64, answers: &mut Vec<Value>) -> u32 {
        let list = [entry(self.id(0), value)];
        let ask = ListAsk { fh: 0, which: WHICH_REQUEST, request: Some(request), list: &list };
        device.set(0, ask, answers).is_err() as u32
            + device.add_buffer(0, request, request).is_err() as u32
            + device.queue(0, request).is_err() as u32
    }

    /// Makes the rounds, and answers how many asks were refused.
    fn rounds(&self, device: &mut Device) -> u32 {
        let mut answers = Vec::new();
        let (far, far_id) = (self.far(), self.id(self.far()));
        let lists = |ids: &[u32], low: i64| {
            [low, low + 1].map(|value| ids.iter().map(|&id| entry(id, value)).collect::<Vec<_>>())
        };
        let changing = match self.mode {
            1 => lists(&[self.id(0)], 0),
            3 => lists(&[0, 1, 2, 3].map(|control| self.id(control)), 0),
            12 => lists(&[self.id(0)], 64),
            _ => lists(&[far_id], 0),
        };
        let mut refused = 0;
        for round in 0..self.rounds {
            let list = &changing[1 - round as usize % 2];
            let ask = ListAsk { fh: 0, which: WHICH_CURRENT, request: None, list };
            refused += match self.mode {
                0 | 1 | 3 | 12 => device.set(0, ask, &mut answers).is_err() as u32,
                2 => device.get(ask, &mut answers).is_err() as u32,
                4 => device.try_set(ask, &mut answers).is_err() as u32,
                5 => device.query(0, far_id).map_or(1, |info| (info.flags & flag::DISABLED != 0) as u32),
                6 => device.set(0, ask, &mut answers).is_err() as u32 + take(device, 0),
                7 => device.told(round % 2).is_err() as u32,
                8 => self.frame(device, round, &mut answers),
                9 => device.grab(0, far, round % 2 == 0).is_err() as u32,
                10 => {
                    let refused = device.set(0, ask, &mut answers).is_err() as u32;
                    (0..self.file_handles).fold(refused, |refused, fh| refused + take(device, fh))
                }
                _ => {
                    let args = RangeArgs { min: 0, max: 100 + (round % 2) as i64, step: 1, default: 16 };
                    device.modify_range(0, far, args).is_err() as u32
                }
            };
        }
        refused
    }

    /// Begins and completes a frame, and queues its request again behind the others.
    fn frame(&self, device: &mut Device, round: u32, answers: &mut Vec<Value>) -> u32 {
        match device.begin(0) {
            Ok(frame) => {
                device.complete(0).is_err() as u32
                    + device.reinit(0, frame.request).is_err() as u32
                    + self.queue(device, frame.request, (round % 2).into(), answers)
            }
            Err(_) => 1,
        }
    }
}

fn entry(id: u32, value: i64) -> ExtControl {
    ExtControl { id, value: Value::Number(value) }
}

fn take(device: &mut Device, fh: u32) -> u32 {
    device.take(0, fh).is_err() as u32
}
