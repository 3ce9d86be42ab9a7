//! The settings in groups, with a mark before each value that is new.

use super::layout::{
    level, name, register_seconds, sine, switched, Names, DIRECTION, OFF_ON, SHUTTER, SWITCH,
    WINDOW_MODE,
};
use crate::state::Settings;

/// All settings, each marked where it is not as before.
pub fn groups(now: &Settings, before: &Settings) -> String {
    let marked = Marked { now, before };
    let lines = [
        ("mirror, motor", marked.mirror_and_motor()),
        ("cover", marked.cover()),
        ("IR", marked.ir()),
        ("", marked.ir_times()),
        ("CCD", marked.ccd()),
        ("lamps", marked.lamps()),
        ("shutter, annealing", marked.shutter_and_annealing()),
    ];
    let lines = lines.map(|(title, values)| format!("        {title:20}{values}\n"));
    lines.concat()
}

/// A setting, or a part of one.
type Of = fn(&Settings) -> u16;

/// Settings beside those that they are compared with.
struct Marked<'a> {
    now: &'a Settings,
    before: &'a Settings,
}

impl Marked<'_> {
    /// A value as this text, its mark before it.
    fn value(&self, of: Of, text: impl Fn(u16) -> String) -> String {
        let (now, before) = (of(self.now), of(self.before));
        let mark = if now == before { ' ' } else { '*' };
        format!("{mark}{}", text(now))
    }

    fn number(&self, of: Of, columns: usize) -> String {
        self.value(of, |number| format!("{number:>columns$}"))
    }

    fn time(&self, of: Of) -> String {
        self.value(of, |register| format!("{} s", register_seconds(register)))
    }

    fn named(&self, of: Of, names: Names, columns: usize) -> String {
        self.value(of, |value| format!("{:columns$}", name(names, value)))
    }

    fn mirror_and_motor(&self) -> String {
        let sine = self.value(|settings| settings.sine, sine);
        let cosine = self.number(|settings| settings.cosine, 4);
        let motor = self.named(|settings| settings.switch, SWITCH, 0);
        format!("sine {sine}   cosine {cosine}   motor {motor}")
    }

    fn cover(&self) -> String {
        let direction = self.named(|settings| settings.cover_direction, DIRECTION, 0);
        format!("direction {direction}")
    }

    fn ir(&self) -> String {
        let detector = self.named(|settings| settings.detector, OFF_ON, 3);
        let mode = self.named(|settings| settings.window_mode, WINDOW_MODE, 7);
        let vdetcom = self.number(|settings| settings.vdetcom, 4);
        let vdetadj = self.number(|settings| settings.vdetadj, 4);
        format!("detector {detector}   window mode {mode}   VDETCOM {vdetcom}   VDETADJ {vdetadj}")
    }

    fn ir_times(&self) -> String {
        let delay = self.time(|settings| settings.ir_delay);
        let exposure = self.time(|settings| settings.ir_expo);
        format!("delay {delay}   exposure {exposure}")
    }

    fn ccd(&self) -> String {
        let delay = self.time(|settings| settings.ccd_delay);
        let exposure = self.time(|settings| settings.ccd_expo);
        let corners: [Of; 4] = [
            |settings| settings.x1,
            |settings| settings.y1,
            |settings| settings.x2,
            |settings| settings.y2,
        ];
        let window = corners.map(|corner| self.number(corner, 4)).join(" ");
        format!("delay {delay}   exposure {exposure}   window {window}")
    }

    fn lamps(&self) -> String {
        let ccd = self.named(|settings| switched(settings.ccd_lamp), OFF_ON, 3);
        let ccd_current = self.number(|settings| level(settings.ccd_lamp), 1);
        let ir = self.named(|settings| switched(settings.ir_lamp), OFF_ON, 3);
        let ir_current = self.number(|settings| level(settings.ir_lamp), 2);
        format!("CCD lamp {ccd}  current {ccd_current}   IR lamp {ir}  current {ir_current}")
    }

    fn shutter_and_annealing(&self) -> String {
        let shutter = self.named(|settings| switched(settings.shutter), SHUTTER, 6);
        let current = self.number(|settings| level(settings.shutter), 2);
        let annealing = self.named(|settings| switched(settings.annealing), OFF_ON, 3);
        let limit = self.number(|settings| level(settings.annealing), 2);
        format!("shutter {shutter}  current {current}   annealing {annealing}  limit {limit}")
    }
}
