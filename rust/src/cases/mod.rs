//! Cases that are tried in any case, and random ones in rounds: an image, and calls made with it.

mod accepted;
mod budgets;
pub mod changed;
mod damaged;
pub mod every;
pub mod lent;
pub mod places;
pub mod random;
pub mod refused;
pub mod samples;
mod spaces;
pub mod texts;
pub mod written;

use crate::call::Case;
use crate::paper::check::check;
use crate::paper::conditions::condition_sets;
use crate::paper::configure::configure;
use accepted::{accepted, Shape};
use lent::Subject;
use random::Random;

pub struct Round {
    pub cases: Vec<Case>,
    /// An accepted image for which the shared run shall be compared with one hall.
    pub subject: Option<Subject>,
}

/// The same random numbers give the same round.
pub fn round(random: &mut Random) -> Round {
    let shape = shape(random);
    let image = accepted(random, shape);
    let damage = random.below(5) < 2;
    let bytes = if damage {
        damaged::damaged(random, image.clone())
    } else {
        image.write()
    };
    // damage may leave an image that is accepted, with another F
    let checked = check(&bytes);
    let header = checked
        .as_ref()
        .map_or(&image, |image| image)
        .header
        .clone();
    let subject = Subject {
        image: bytes,
        header,
    };
    let mut cases = vec![lent::checking(random, &subject), lent::of_sets(random)];
    let calls = if checked.is_ok() { 8 } else { 4 };
    for _ in 0..calls {
        cases.push(call(random, &subject));
    }
    let agree = checked.is_ok() && random.once_in(3);
    Round {
        cases,
        subject: agree.then_some(subject),
    }
}

fn call(random: &mut Random, subject: &Subject) -> Case {
    match random.below(12) {
        0 => lent::asking_condition(random, subject),
        1 => {
            let setting = lent::any_setting(random, subject);
            let space = configured_length(subject, setting);
            lent::configuring(random, subject, setting, space)
        }
        2 | 3 => lent::plain_running(random, subject),
        4 => lent::reporting(random, subject),
        5 | 6 => lent::running_one_hall(random, subject),
        _ => lent::shared_running(random, subject),
    }
}

/// The length that configuring needs; for a refused image any will do.
fn configured_length(subject: &Subject, setting: u64) -> usize {
    match check(&subject.image) {
        Ok(image) => configure(&image, &condition_sets(&image), setting).len(),
        Err(_) => 16 + 8 * subject.header.nodes,
    }
}

/// Mostly small images; now and then the greatest that is accepted, and one beyond each limit.
fn shape(random: &mut Random) -> Shape {
    let nodes = match random.below(400) {
        0 => 1024,
        1 => 1025,
        2 => 0,
        3..=8 => random.between(200, 1023),
        9..=20 => 1,
        21..=60 => random.between(41, 200),
        61..=160 => random.between(2, 8),
        _ => random.between(9, 40),
    };
    let conditions = match random.below(200) {
        0 => 256,
        1 => 257,
        2 | 3 => random.between(20, 255),
        4..=23 => 0,
        _ => random.between(1, 8),
    };
    Shape {
        options: random.one_of(&[0, 1, 1, 2, 2, 3, 3, 4, 5, 6]),
        conditions,
        nodes,
        choices: !random.once_in(3),
        deep: random.once_in(3),
    }
}
