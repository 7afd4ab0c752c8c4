//! C-18 by calls: one hall against configuring and the plain run in turn.

use crate::answer::{to_answer, values, After};
use crate::call::{Call, Case};
use crate::cases::changed::asked;
use crate::server::inside;

/// A call of one hall that was answered: what was lent, and what came back.
pub struct InTurn<'a> {
    setting: u64,
    budget: u32,
    lent: &'a [Vec<u8>],
    came: &'a [Vec<u8>],
}

/// The bytes that configuring wrote, where it was carried out.
fn written(configured: &After) -> Option<&[u8]> {
    let [length, ..] = values(inside(&configured.slices[2]))?;
    Some(&inside(&configured.slices[1])[..length as usize])
}

impl InTurn<'_> {
    pub fn of<'a>(case: &'a Case, came: &'a After) -> Option<InTurn<'a>> {
        match case.call {
            Call::OneHall { setting, budget } if came.returned => Some(InTurn {
                setting,
                budget,
                lent: &case.slices,
                came: &came.slices,
            }),
            _ => None,
        }
    }

    /// "with space enough": what is configured is never longer than its image.
    pub fn configuring(&self) -> Case {
        let (image, setting) = (&self.lent[0], self.setting);
        let out = vec![0xee; image.len()];
        asked(Call::Configure { setting }, image, vec![out])
    }

    /// Of what configuring wrote a plain run, and configuring again for setting 0.
    pub fn then(&self, configured: &After) -> Vec<Case> {
        let Some(image) = written(configured) else {
            return Vec::new();
        };
        let (numbers, budget) = (self.lent[1].clone(), self.budget);
        let out = vec![0xee; image.len()];
        vec![
            asked(Call::PlainRun { budget }, image, vec![numbers]),
            asked(Call::Configure { setting: 0 }, image, vec![out]),
        ]
    }

    /// "It answers exactly as the two in turn", where the first is refused with its refusal and the numbers as they were.
    pub fn agrees(&self, configured: &After, then: &[After]) -> Result<(), String> {
        let (numbers, answer) = match then {
            [plain, _] => (inside(&plain.slices[1]), inside(&plain.slices[2])),
            _ => (&self.lent[1][..], inside(&configured.slices[2])),
        };
        let told = to_answer(answer);
        if answer != inside(&self.came[2]) || numbers != inside(&self.came[1]) {
            return Err(format!("the two in turn answer otherwise: {told:?}"));
        }
        // "13 and 14 do not occur here"
        if matches!(told[0], 13 | 14) {
            return Err(format!("refusal {} of one hall", told[0]));
        }
        match then {
            // "configuring it again, for setting 0, gives the same bytes"
            [_, again] if written(configured) != Some(inside(&again.slices[1])) => {
                Err("configured again it differs".into())
            }
            _ => Ok(()),
        }
    }
}
