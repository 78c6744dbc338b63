//! One control's range, and the value that it takes for a value asked.

use crate::types::*;

#[derive(Clone, Copy, PartialEq, Eq, Debug)]
pub enum CtrlFault {
    BadRange,
    ZeroStep,
    BadDefault,
    KindBounds,
}

#[derive(Clone, Copy, PartialEq, Eq, Debug)]
pub struct Ctrl {
    pub id: u32,
    pub kind: Kind,
    pub min: i64,
    pub max: i64,
    pub step: u64,
    pub default: i64,
    pub skip: u64,
    pub flags: u32,
    pub is_private: bool,
    pub elems: u32,
}

impl Ctrl {
    /// A control of any kind but U8; fields beyond the range are set by the `with_` calls.
    pub fn new(id: u32, kind: Kind, min: i64, max: i64, step: u64, default: i64) -> Result<Ctrl, CtrlFault> {
        // an array has elements, which `new_array` takes
        let elems = if kind == Kind::U8 { 0 } else { 1 };
        Ctrl { id, kind, min, max, step, default, skip: 0, flags: 0, is_private: false, elems }.checked()
    }

    pub fn new_array(id: u32, elems: u32, min: i64, max: i64, step: u64, default: i64) -> Result<Ctrl, CtrlFault> {
        Ctrl { id, kind: Kind::U8, min, max, step, default, skip: 0, flags: 0, is_private: false, elems }.checked()
    }

    pub fn with_skip(self, skip: u64) -> Result<Ctrl, CtrlFault> {
        Ctrl { skip, ..self }.checked()
    }

    #[cfg(test)]
    pub fn with_flags(self, flags: u32) -> Result<Ctrl, CtrlFault> {
        if flags & (flag::GRABBED | flag::INACTIVE) != 0 {
            return Err(CtrlFault::KindBounds);
        }
        Ctrl { flags: self.flags | flags, ..self }.checked()
    }

    pub fn private(self) -> Ctrl {
        Ctrl { is_private: true, ..self }
    }

    /// The same control with another range.
    pub fn with_range(&self, min: i64, max: i64, step: u64, default: i64) -> Result<Ctrl, CtrlFault> {
        Ctrl { min, max, step, default, ..*self }.checked()
    }

    fn checked(mut self) -> Result<Ctrl, CtrlFault> {
        use Kind::*;
        let Ctrl { kind, min, max, step, .. } = self;
        if min > max {
            return Err(CtrlFault::BadRange);
        }
        if step == 0 && matches!(kind, Integer | U8) {
            return Err(CtrlFault::ZeroStep);
        }
        let fits = match kind {
            Integer => min >= i32::MIN as i64 && max <= i32::MAX as i64,
            Boolean => (min, max, step) == (0, 1, 1),
            Button => (min, max, step) == (0, 0, 0),
            Menu => min >= 0 && max <= 63 && step == 1,
            U8 => min >= 0 && max <= 255 && (1..=MAX_ELEMS as u32).contains(&self.elems),
        };
        if !fits || self.skip != 0 && kind != Menu {
            return Err(CtrlFault::KindBounds);
        }
        let settled = match kind {
            U8 => Ok(self.nearest(self.default)),
            _ => self.settle_number(self.default),
        };
        if settled != Ok(self.default) {
            return Err(CtrlFault::BadDefault);
        }
        if kind == Button {
            self.flags |= flag::WRITE_ONLY | flag::EXECUTE_ON_WRITE;
        }
        Ok(self)
    }

    /// The nearest of `min, min + step, ..` not above `max`, the larger on a tie.
    #[inline]
    fn nearest(&self, v: i64) -> i64 {
        if v <= self.min {
            return self.min;
        }
        let span = self.max.wrapping_sub(self.min) as u64;
        let offset = v.min(self.max).wrapping_sub(self.min) as u64;
        if self.step == 1 {
            return v.min(self.max);
        }
        let rest = offset % self.step;
        let low = offset - rest;
        let place = if span - low >= self.step && rest >= self.step - rest { low + self.step } else { low };
        self.min.wrapping_add(place as i64)
    }

    #[inline]
    pub fn settle_number(&self, v: i64) -> Result<i64, Errno> {
        match self.kind {
            Kind::Integer => Ok(self.nearest(v)),
            Kind::Boolean => Ok((v != 0) as i64),
            Kind::Button => Ok(0),
            Kind::Menu => {
                if !(self.min..=self.max).contains(&v) {
                    Err(Errno::Range)
                } else if self.skip >> v & 1 != 0 {
                    Err(Errno::Inval)
                } else {
                    Ok(v)
                }
            }
            Kind::U8 => Err(Errno::Inval),
        }
    }

    #[inline]
    pub fn settle(&self, value: &Value) -> Result<Value, Errno> {
        match value {
            Value::Number(n) => self.settle_number(*n).map(Value::Number),
            Value::Bytes(row) => self.settle_bytes(row).map(Value::Bytes),
        }
    }

    fn settle_bytes(&self, row: &ByteRow) -> Result<ByteRow, Errno> {
        if self.kind != Kind::U8 || row.as_slice().len() != self.elems as usize {
            return Err(Errno::Inval);
        }
        let mut settled = *row;
        for byte in settled.as_mut_slice() {
            *byte = self.nearest(*byte as i64) as u8;
        }
        Ok(settled)
    }

    pub fn default_value(&self) -> Value {
        match self.kind {
            Kind::U8 => Value::Bytes(ByteRow::filled(self.default as u8, self.elems as usize)),
            _ => Value::Number(self.default),
        }
    }

    pub fn same_range(&self, other: &Ctrl) -> bool {
        (self.min, self.max, self.step, self.default) == (other.min, other.max, other.step, other.default)
    }
}

#[cfg(test)]
mod tests {
    use super::*;

    #[test]
    fn extremes_and_ties() {
        let small = Ctrl::new(1, Kind::Integer, -64, 64, 4, 0).unwrap();
        assert_eq!([2, -2, 1000].map(|v| small.nearest(v)), [4, 0, 64]);
        let wide = Ctrl { min: i64::MIN, max: i64::MAX, step: 2, ..small };
        assert_eq!([i64::MAX, i64::MIN].map(|v| wide.nearest(v)), [i64::MAX - 1, i64::MIN]);
        let two = Ctrl { step: u64::MAX, ..wide };
        assert_eq!([-1, 0, i64::MAX].map(|v| two.nearest(v)), [i64::MIN, i64::MAX, i64::MAX]);
    }

    #[test]
    fn nearest_is_the_definition() {
        for (min, max, step) in [(0, 10, 3), (-7, 8, 4), (0, 255, 1), (5, 5, 9), (-3, 4, 2), (0, 9, 10)] {
            let c = Ctrl { min, max, step, ..Ctrl::new(1, Kind::Integer, 0, 0, 1, 0).unwrap() };
            for v in -40..300 {
                let grid = (0..).map(|k| min + k * step as i64).take_while(|g| *g <= max);
                let want = grid.min_by_key(|g| ((g - v).abs(), -g)).unwrap();
                assert_eq!(c.settle_number(v), Ok(want), "{min} {max} {step} {v}");
            }
        }
    }

    #[test]
    fn faults() {
        let fault = |kind, min, max, step, default| Ctrl::new(1, kind, min, max, step, default).unwrap_err();
        assert_eq!(fault(Kind::Integer, 1, 0, 1, 0), CtrlFault::BadRange);
        assert_eq!(fault(Kind::Integer, 0, 10, 0, 0), CtrlFault::ZeroStep);
        assert_eq!(fault(Kind::Integer, 0, 10, 3, 10), CtrlFault::BadDefault);
        assert_eq!(fault(Kind::Boolean, 0, 2, 1, 0), CtrlFault::KindBounds);
        assert_eq!(fault(Kind::U8, 0, 2, 1, 0), CtrlFault::KindBounds);
    }
}
