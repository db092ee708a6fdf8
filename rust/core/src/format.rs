// Made by tools/erase of crates/duration_str_printing/src/format.rt.
//! How a duration is printed: its units, the greatest number of parts, and the style.

use crate::unit::{PRINTED, Printed, TimeUnit, UNITS};

/// How a duration is printed: the units, the greatest number of parts, and the style. A part is a
/// count with its unit, such as `3min`.
///
/// Start from [`Format::whole`], since a later version may have more fields. `largest`, `smallest`,
/// `only` and `without` each take units out of the set. So their order does not matter, and none of
/// them brings a unit back.
///
/// ```
/// use duration_str::{FORMAT_BUFFER_SIZE, Format, TimeUnit, write_format};
/// use std::time::Duration;
///
/// let days = Format::whole().largest(TimeUnit::Day);
/// let mut buffer = [0; FORMAT_BUFFER_SIZE];
/// assert_eq!(write_format(&Duration::new(120 * 86_400, 5), days, &mut buffer), "120d 5ns");
/// ```
#[derive(Clone, Copy, Debug, PartialEq, Eq, Hash)]
#[non_exhaustive]
pub struct Format {
    /// The units that the parts can have. If the set is empty, every duration prints as zero
    /// seconds, such as `0s`.
    pub units: Units,
    /// The greatest number of parts. If it is 0, every duration prints as a duration of 0 does.
    pub parts: usize,
    /// How the parts are written.
    pub style: Style,
}

/// A set of units.
///
/// ```
/// use duration_str::{FORMAT_BUFFER_SIZE, Format, TimeUnit, Units, write_format};
/// use std::time::Duration;
///
/// let half_a_year = Duration::new(180 * 86_400, 0);
/// let mut buffer = [0; FORMAT_BUFFER_SIZE];
/// let mut usual = Format::whole();
/// usual.units = Units::ALL.without(TimeUnit::Quarter).without(TimeUnit::Week);
/// assert_eq!(write_format(&half_a_year, usual, &mut buffer), "6mon");
/// ```
#[derive(Clone, Copy, Debug, PartialEq, Eq, Hash)]
pub struct Units {
    /// The bit 2^n says whether the set has the unit at index n of `UNITS`.
    bits: u16,
}

impl Units {
    /// All units.
    pub const ALL: Units = Units { bits: 0x7FF };

    /// No unit.
    pub const NONE: Units = Units { bits: 0 };

    /// Returns the set that these bits stand for. The bit 2^n stands for the unit at index n of
    /// `UNITS`: 1 is the year, 2 is the quarter, and 1,024 is the nanosecond. The result is `None`
    /// if a bit above that of the nanosecond is set.
    ///
    /// ```
    /// use duration_str::{TimeUnit, Units};
    ///
    /// assert_eq!(Units::from_bits(2_047), Some(Units::ALL));
    /// assert_eq!(Units::from_bits(1), Some(Units::NONE.with(TimeUnit::Year)));
    /// assert_eq!(Units::from_bits(2_048), None);
    /// ```
    #[inline]
    #[must_use]
    pub const fn from_bits(bits: u16) -> Option<Units> {
        if bits < 2_048 {
            Some(Units { bits })
        } else {
            None
        }
    }

    /// Returns the bits that stand for the set, as [`Units::from_bits`] takes them.
    ///
    /// ```
    /// use duration_str::Units;
    ///
    /// assert_eq!(Units::ALL.bits(), 2_047);
    /// ```
    #[inline]
    #[must_use]
    pub const fn bits(self) -> u16 {
        self.bits
    }

    /// Returns the set of these units. Their order does not matter, and a unit may occur twice.
    ///
    /// ```
    /// use duration_str::{TimeUnit, Units};
    ///
    /// let days = Units::of(&[TimeUnit::Day, TimeUnit::Year]);
    /// assert_eq!(days, Units::NONE.with(TimeUnit::Year).with(TimeUnit::Day));
    /// ```
    #[must_use]
    pub const fn of(units: &[TimeUnit]) -> Units {
        let mut set = Units::NONE;
        let mut i = 0;
        while i < units.len() {
            set = set.with(units[i]);
            i += 1;
        }
        set
    }

    #[inline]
    const fn intersection(self, other: Units) -> Units {
        Units {
            bits: self.bits & other.bits,
        }
    }

    /// Returns whether the unit is in the set.
    ///
    /// ```
    /// use duration_str::{TimeUnit, Units};
    ///
    /// assert!(Units::ALL.contains(TimeUnit::Week));
    /// assert!(!Units::NONE.contains(TimeUnit::Week));
    /// ```
    #[inline]
    #[must_use]
    pub const fn contains(self, unit: TimeUnit) -> bool {
        self.bits >> unit.rank() & 1 == 1
    }

    /// Returns the set with this unit added.
    ///
    /// ```
    /// use duration_str::{TimeUnit, Units};
    ///
    /// assert!(Units::NONE.with(TimeUnit::Week).contains(TimeUnit::Week));
    /// ```
    #[inline]
    #[must_use]
    pub const fn with(self, unit: TimeUnit) -> Units {
        Units {
            bits: self.bits | 1 << unit.rank(),
        }
    }

    /// Returns the set without this unit.
    ///
    /// ```
    /// use duration_str::{TimeUnit, Units};
    ///
    /// assert!(!Units::ALL.without(TimeUnit::Week).contains(TimeUnit::Week));
    /// ```
    #[inline]
    #[must_use]
    pub const fn without(self, unit: TimeUnit) -> Units {
        Units {
            bits: self.bits & !(1 << unit.rank()),
        }
    }

    #[inline]
    pub(crate) const fn up_to(self, largest: TimeUnit) -> Units {
        Units {
            bits: self.bits >> largest.rank() << largest.rank(),
        }
    }

    #[inline]
    const fn down_to(self, smallest: TimeUnit) -> Units {
        Units {
            bits: self.bits % (2 << smallest.rank()),
        }
    }
}

/// How the parts of a printed duration are written.
#[derive(Clone, Copy, Debug, PartialEq, Eq, Hash)]
#[non_exhaustive]
pub enum Style {
    /// `1h 30min`
    Short,
    /// `1h30min`
    Compact,
    /// `1 hour 30 minutes`
    Long,
}

impl Format {
    /// Returns the format with all units, up to 11 parts and the short style. It leaves nothing
    /// out: a duration prints as `write_human` prints it.
    ///
    /// ```
    /// assert_eq!(duration_str::Format::whole().parts, 11);
    /// ```
    #[must_use]
    pub const fn whole() -> Format {
        Format {
            units: Units::ALL,
            parts: UNITS.len(),
            style: Style::Short,
        }
    }

    /// Returns the same format without the units that are not in this list.
    ///
    /// ```
    /// use duration_str::{FORMAT_BUFFER_SIZE, Format, TimeUnit, write_format};
    /// use std::time::Duration;
    ///
    /// let days = Format::whole().only(&[TimeUnit::Year, TimeUnit::Day]);
    /// let mut buffer = [0; FORMAT_BUFFER_SIZE];
    /// assert_eq!(write_format(&Duration::new(400 * 86_400, 0), days, &mut buffer), "1y 35d");
    /// ```
    #[inline]
    #[must_use]
    pub const fn only(self, units: &[TimeUnit]) -> Format {
        Format {
            units: self.units.intersection(Units::of(units)),
            ..self
        }
    }

    /// Returns the same format without this unit.
    ///
    /// ```
    /// use duration_str::{FORMAT_BUFFER_SIZE, Format, TimeUnit, write_format};
    /// use std::time::Duration;
    ///
    /// let usual = Format::whole().without(TimeUnit::Quarter).without(TimeUnit::Week);
    /// let mut buffer = [0; FORMAT_BUFFER_SIZE];
    /// assert_eq!(write_format(&Duration::new(180 * 86_400, 0), usual, &mut buffer), "6mon");
    /// ```
    #[inline]
    #[must_use]
    pub const fn without(self, unit: TimeUnit) -> Format {
        Format {
            units: self.units.without(unit),
            ..self
        }
    }

    /// Returns the same format without the units that are longer than this one.
    ///
    /// ```
    /// use duration_str::{FORMAT_BUFFER_SIZE, Format, TimeUnit, write_format};
    /// use std::time::Duration;
    ///
    /// let minutes = Format::whole().largest(TimeUnit::Minute);
    /// let mut buffer = [0; FORMAT_BUFFER_SIZE];
    /// assert_eq!(write_format(&Duration::new(5_430, 0), minutes, &mut buffer), "90min 30s");
    /// ```
    #[inline]
    #[must_use]
    pub const fn largest(self, largest: TimeUnit) -> Format {
        Format {
            units: self.units.up_to(largest),
            ..self
        }
    }

    /// Returns the same format without the units that are shorter than this one.
    ///
    /// ```
    /// use duration_str::{FORMAT_BUFFER_SIZE, Format, TimeUnit, write_format};
    /// use std::time::Duration;
    ///
    /// let mut buffer = [0; FORMAT_BUFFER_SIZE];
    /// let minutes = Format::whole().smallest(TimeUnit::Minute);
    /// assert_eq!(write_format(&Duration::new(5_430, 0), minutes, &mut buffer), "1h 30min");
    /// assert_eq!(write_format(&Duration::new(30, 0), minutes, &mut buffer), "0min");
    /// ```
    #[inline]
    #[must_use]
    pub const fn smallest(self, smallest: TimeUnit) -> Format {
        Format {
            units: self.units.down_to(smallest),
            ..self
        }
    }

    /// Returns the same format with at most `parts` parts.
    ///
    /// ```
    /// use duration_str::{FORMAT_BUFFER_SIZE, Format, write_format};
    /// use std::time::Duration;
    ///
    /// let one_part = Format::whole().parts(1);
    /// let mut buffer = [0; FORMAT_BUFFER_SIZE];
    /// assert_eq!(write_format(&Duration::new(5_430, 0), one_part, &mut buffer), "1h");
    /// ```
    #[inline]
    #[must_use]
    pub const fn parts(self, parts: usize) -> Format {
        Format { parts, ..self }
    }

    /// Returns the same format in this style.
    ///
    /// ```
    /// use duration_str::{FORMAT_BUFFER_SIZE, Format, Style, write_format};
    /// use std::time::Duration;
    ///
    /// let long = Format::whole().style(Style::Long);
    /// let mut buffer = [0; FORMAT_BUFFER_SIZE];
    /// assert_eq!(write_format(&Duration::new(5_400, 0), long, &mut buffer), "1 hour 30 minutes");
    /// ```
    #[inline]
    #[must_use]
    pub const fn style(self, style: Style) -> Format {
        Format { style, ..self }
    }

    #[inline]
    pub(crate) fn zero_unit(self) -> TimeUnit {
        let mut smallest = TimeUnit::Second;
        for unit in &UNITS {
            if self.units.contains(*unit) {
                smallest = *unit;
            }
        }
        if smallest.nanos() < TimeUnit::Second.nanos() {
            TimeUnit::Second
        } else {
            smallest
        }
    }
}

#[inline(always)]
pub(crate) fn longest(bits: u32) -> Option<(&'static Printed, u32)> {
    let rank = bits.trailing_zeros();
    if rank as usize >= PRINTED.len() {
        return None;
    }
    Some((&PRINTED[rank as usize], bits & !(1 << rank)))
}
