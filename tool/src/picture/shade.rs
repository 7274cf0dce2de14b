//! Colours: dark lines on white, walls by how they face the light. Colour-blind readers can tell blue, orange and grey.

pub const LINE: &str = "#1b2a3a";
pub const HIDDEN: &str = "#4a5b6c";
pub const WARNING: &str = "#c43c00";
pub const TEXT: &str = "#1b2a3a";

/// Where the light comes from: the left, above, and the viewer.
const LIGHT: [f64; 3] = [-0.48, 0.64, 0.6];

/// What a wall's colour says.
#[derive(Clone, Copy, Debug, PartialEq, Eq)]
pub enum Tone {
    /// A wall of the one solid.
    Only,
    /// A wall that all of several solids have.
    Shared,
    /// A wall that only some of several solids have.
    Differing,
}

impl Tone {
    /// The colours in the shadow and in the light.
    fn range(self) -> [[f64; 3]; 2] {
        match self {
            Tone::Only => [[112.0, 156.0, 204.0], [226.0, 238.0, 250.0]],
            Tone::Shared => [[160.0, 160.0, 160.0], [240.0, 240.0, 240.0]],
            Tone::Differing => [[224.0, 142.0, 40.0], [253.0, 224.0, 178.0]],
        }
    }
}

/// The colour of a wall with this normal, as `#rrggbb`.
pub fn shade(tone: Tone, normal: [f64; 3]) -> String {
    let lit = (0..3).map(|axis| LIGHT[axis] * normal[axis]).sum::<f64>().clamp(0.0, 1.0);
    let [dark, light] = tone.range();
    let part = |i: usize| (dark[i] + lit * (light[i] - dark[i])).round() as u8;
    format!("#{:02x}{:02x}{:02x}", part(0), part(1), part(2))
}
