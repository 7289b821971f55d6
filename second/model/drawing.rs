//! Request Two: what the state holds of the copy that a player draws, the pixel and its clocks shown,
//! and what a pulse does to them in step 6.

/// The pixel at which none is shown.
pub const NO_PIXEL: u8 = 8;

/// The most clocks that a pixel has been shown.
const MOST_SHOWN: u8 = 4;

/// A player's pixel, 0 to 8 (8: none), and its clocks shown, 0 to 4.
#[derive(Clone, Copy, Debug, PartialEq, Eq)]
pub struct Drawing {
    pub pixel: u8,
    pub shown: u8,
}

impl Drawing {
    /// That of the start state, after pixel 7 and at each new start.
    pub const NONE: Drawing = Drawing {
        pixel: NO_PIXEL,
        shown: 0,
    };

    /// That of the pulse on which a copy starts drawing: pixel 0, shown for the first time.
    pub const FIRST: Drawing = Drawing { pixel: 0, shown: 1 };

    /// Whether pixel and clocks shown are both in range.
    pub fn in_range(self) -> bool {
        self.pixel <= NO_PIXEL && self.shown <= MOST_SHOWN
    }

    /// Step 6 without the start: the drawing after a pulse that brings the copy to this age, with its
    /// size at the start and the size read now.
    pub fn pulsed(self, age: u8, size_at_start: u8, size_now: u8) -> Drawing {
        if age == first_age(size_at_start) {
            Drawing::FIRST
        } else if self.pixel == NO_PIXEL {
            self
        } else if self.shown >= size_now {
            self.next_pixel()
        } else {
            self.shown_again()
        }
    }

    /// The next pixel, shown for the first time; after pixel 7 none.
    fn next_pixel(self) -> Drawing {
        match self.pixel {
            7 => Drawing::NONE,
            pixel => Drawing {
                pixel: pixel + 1,
                shown: 1,
            },
        }
    }

    /// The same pixel, shown one clock more.
    fn shown_again(self) -> Drawing {
        Drawing {
            shown: self.shown + 1,
            ..self
        }
    }
}

/// The age at which a copy starts drawing: 5, or 6 when its size at the start is 2 or 4.
pub fn first_age(size_at_start: u8) -> u8 {
    match size_at_start {
        1 => 5,
        _ => 6,
    }
}
