//! The numbers a head holds, their order as an array, and their ranges.

/// How many numbers a state has.
pub const STATE_LENGTH: usize = 35;

/// The shortest CCD delay.
pub const LEAST_CCD_DELAY: u16 = 5;
/// The longest acquisition, in ticks.
pub const MOST_ACQUISITION_TICKS: u16 = 4238;
/// How long a housekeeping request keeps the head busy.
pub const HK_TICKS: u16 = 3;
/// How long the mirror moves (request P3; document 01 has 30).
pub const MIRROR_TICKS: u16 = 66;
/// How long the cover moves for one step.
pub const COVER_STEP_TICKS: u16 = 25;
/// How long the cover moves for the most steps.
pub const MOST_COVER_TICKS: u16 = 2025;

/// Raw value of [`State::task`]: no task.
pub const TASK_NONE: u16 = 0;
/// Raw value of [`State::task`]: an acquisition.
pub const TASK_ACQUISITION: u16 = 1;
/// Raw value of [`State::task`]: a housekeeping request.
pub const TASK_HOUSEKEEPING: u16 = 2;

/// The registers of the power-on list.
#[derive(Clone, Copy, Debug, PartialEq, Eq)]
pub struct Settings {
    pub detector: u16,
    pub window_mode: u16,
    pub vdetcom: u16,
    pub vdetadj: u16,
    pub ir_delay: u16,
    pub ir_expo: u16,
    pub ccd_delay: u16,
    pub ccd_expo: u16,
    pub x1: u16,
    pub y1: u16,
    pub x2: u16,
    pub y2: u16,
    pub ccd_lamp: u16,
    pub ir_lamp: u16,
    pub shutter: u16,
    pub annealing: u16,
    /// Magnitude in bits 0-11, sign in bit 12.
    pub sine: u16,
    pub cosine: u16,
    /// 0 is on, 1 is off.
    pub switch: u16,
    /// 1 opens.
    pub cover_direction: u16,
}

/// A mirror set that has begun and is not complete.
#[derive(Clone, Copy, Debug, Default, PartialEq, Eq)]
pub struct MirrorSet {
    /// How many of its words have come.
    pub received: u16,
    pub sin_m: u16,
    pub sin_l: u16,
    pub cos_m: u16,
}

/// A head's whole state. The values are raw: any may be out of range.
#[derive(Clone, Copy, Debug, PartialEq, Eq)]
pub struct State {
    pub settings: Settings,
    pub vdetcom_latch: u16,
    pub vdetadj_latch: u16,
    pub ir_time_flag: u16,
    pub ir_word_flag: u16,
    pub ir_scan_flag: u16,
    pub vis_time_flag: u16,
    pub vis_word_flag: u16,
    pub task: u16,
    pub busy: u16,
    pub mirror_motion: u16,
    pub cover_motion: u16,
    pub mirror_set: MirrorSet,
}

/// The five error flags, as blocks show them.
#[derive(Clone, Copy, Debug, Default, PartialEq, Eq)]
pub struct ErrorFlags {
    pub ir_time: bool,
    pub ir_word: bool,
    pub ir_scan: bool,
    pub vis_time: bool,
    pub vis_word: bool,
}

impl Settings {
    /// Length of an acquisition in ticks under these settings.
    pub fn acquisition_length(&self) -> u32 {
        let ccd = 2 * (u32::from(self.ccd_delay) + u32::from(self.ccd_expo)) + 145;
        let ir_readout = if self.window_mode == 0 { 140 } else { 60 };
        let ir = 2 * (u32::from(self.ir_delay) + u32::from(self.ir_expo)) + ir_readout;
        1 + ccd.max(ir)
    }

    fn in_range(&self) -> bool {
        let one_bit = [
            self.detector,
            self.window_mode,
            self.switch,
            self.cover_direction,
        ];
        let ten_bits = [
            self.ir_delay,
            self.ir_expo,
            self.ccd_delay,
            self.ccd_expo,
            self.x1,
            self.x2,
        ];
        fit(one_bit, 1)
            && fit([self.ccd_lamp], 3)
            && fit([self.ir_lamp, self.shutter], 5)
            && fit([self.annealing], 7)
            && fit([self.y1, self.y2], 9)
            && fit(ten_bits, 10)
            && fit([self.vdetcom, self.vdetadj, self.cosine], 12)
            && fit([self.sine], 13)
            && self.ccd_delay >= LEAST_CCD_DELAY
    }
}

impl MirrorSet {
    fn in_range(&self) -> bool {
        let received = fit([self.sin_m], 5) && fit([self.sin_l], 8) && fit([self.cos_m], 4);
        let others_zero = match self.received {
            0 => (self.sin_m | self.sin_l | self.cos_m) == 0,
            1 => (self.sin_l | self.cos_m) == 0,
            2 => self.cos_m == 0,
            3 => true,
            _ => false,
        };
        received && others_zero
    }
}

impl State {
    /// A state from its 35 numbers, in the fixed order.
    #[rustfmt::skip]
    pub fn from_array(numbers: &[u16; STATE_LENGTH]) -> State {
        let [
            detector, window_mode, vdetcom, vdetadj, ir_delay, ir_expo, ccd_delay, ccd_expo,
            x1, y1, x2, y2, ccd_lamp, ir_lamp, shutter, annealing, sine, cosine, switch,
            cover_direction, vdetcom_latch, vdetadj_latch, ir_time_flag, ir_word_flag,
            ir_scan_flag, vis_time_flag, vis_word_flag, task, busy, mirror_motion,
            cover_motion, received, sin_m, sin_l, cos_m,
        ] = *numbers;
        State {
            settings: Settings {
                detector, window_mode, vdetcom, vdetadj, ir_delay, ir_expo, ccd_delay, ccd_expo,
                x1, y1, x2, y2, ccd_lamp, ir_lamp, shutter, annealing, sine, cosine, switch,
                cover_direction,
            },
            vdetcom_latch, vdetadj_latch, ir_time_flag, ir_word_flag, ir_scan_flag,
            vis_time_flag, vis_word_flag, task, busy, mirror_motion, cover_motion,
            mirror_set: MirrorSet { received, sin_m, sin_l, cos_m },
        }
    }

    /// The 35 numbers of this state, in the fixed order.
    #[rustfmt::skip]
    pub fn to_array(&self) -> [u16; STATE_LENGTH] {
        let s = &self.settings;
        [
            s.detector, s.window_mode, s.vdetcom, s.vdetadj, s.ir_delay, s.ir_expo,
            s.ccd_delay, s.ccd_expo, s.x1, s.y1, s.x2, s.y2, s.ccd_lamp, s.ir_lamp, s.shutter,
            s.annealing, s.sine, s.cosine, s.switch, s.cover_direction,
            self.vdetcom_latch, self.vdetadj_latch, self.ir_time_flag, self.ir_word_flag,
            self.ir_scan_flag, self.vis_time_flag, self.vis_word_flag, self.task, self.busy,
            self.mirror_motion, self.cover_motion, self.mirror_set.received,
            self.mirror_set.sin_m, self.mirror_set.sin_l, self.mirror_set.cos_m,
        ]
    }

    /// The five flags as they stand.
    pub fn error_flags(&self) -> ErrorFlags {
        ErrorFlags {
            ir_time: self.ir_time_flag != 0,
            ir_word: self.ir_word_flag != 0,
            ir_scan: self.ir_scan_flag != 0,
            vis_time: self.vis_time_flag != 0,
            vis_word: self.vis_word_flag != 0,
        }
    }

    /// Clears all five flags.
    pub fn clear_error_flags(&mut self) {
        self.ir_time_flag = 0;
        self.ir_word_flag = 0;
        self.ir_scan_flag = 0;
        self.vis_time_flag = 0;
        self.vis_word_flag = 0;
    }

    /// Neither mirror nor cover moves.
    pub fn at_rest(&self) -> bool {
        self.mirror_motion == 0 && self.cover_motion == 0
    }

    fn flags_and_latches_in_range(&self) -> bool {
        let flags = [
            self.ir_time_flag,
            self.ir_word_flag,
            self.ir_scan_flag,
            self.vis_time_flag,
            self.vis_word_flag,
        ];
        fit(flags, 1) && fit([self.vdetcom_latch, self.vdetadj_latch], 4)
    }

    fn motions_in_range(&self) -> bool {
        self.mirror_motion <= MIRROR_TICKS && self.cover_motion <= MOST_COVER_TICKS
    }

    fn task_in_range(&self) -> bool {
        match self.task {
            TASK_NONE => self.busy == 0,
            TASK_ACQUISITION => (1..=MOST_ACQUISITION_TICKS).contains(&self.busy),
            TASK_HOUSEKEEPING => (1..=HK_TICKS).contains(&self.busy),
            _ => false,
        }
    }
}

/// The state of a head just switched on.
pub fn power_on() -> State {
    State {
        settings: Settings {
            detector: 0,
            window_mode: 0,
            vdetcom: 2430,
            vdetadj: 2213,
            ir_delay: 5,
            ir_expo: 1,
            ccd_delay: 5,
            ccd_expo: 1,
            x1: 0,
            y1: 0,
            x2: 875,
            y2: 511,
            ccd_lamp: 6,
            ir_lamp: 12,
            shutter: 12,
            annealing: 126,
            sine: 0,
            cosine: 4095,
            switch: 1,
            cover_direction: 0,
        },
        vdetcom_latch: 9,
        vdetadj_latch: 8,
        ir_time_flag: 0,
        ir_word_flag: 0,
        ir_scan_flag: 0,
        vis_time_flag: 0,
        vis_word_flag: 0,
        task: TASK_NONE,
        busy: 0,
        mirror_motion: 0,
        cover_motion: 0,
        mirror_set: MirrorSet::default(),
    }
}

/// Whether every number of the state is in its range.
pub fn in_range(state: &State) -> bool {
    state.settings.in_range()
        && state.flags_and_latches_in_range()
        && state.motions_in_range()
        && state.task_in_range()
        && state.mirror_set.in_range()
}

/// True when no value has a bit above its lowest `bits` bits.
fn fit<const N: usize>(values: [u16; N], bits: u32) -> bool {
    values.iter().fold(0, |all, value| all | value) >> bits == 0
}
