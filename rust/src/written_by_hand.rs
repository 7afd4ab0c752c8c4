//! The written form by hand: H both ways, the places of 17 and 18, listings as they must look, and reading what is listed.

use crate::cases::places;
use crate::cases::random::Random;
use crate::cases::samples::{
    all_kinds, by_option, case_g, case_h, condition, deep_tree, h, image, node, sequences, tower,
};
use crate::cases::texts::{damaged, spaced};
use crate::cases::written;
use crate::paper::check::check;
use crate::paper::conditions::condition_sets;
use crate::paper::configure::configure;
use crate::paper::lister::list;
use crate::paper::reader::read;
use crate::viable::refused_17;

const H: &str = "options 1
{v0 := [o0 ? 380 : 310] ;
if (350 < v0) then throw 7 else skip}
";

fn answer(text: &[u8]) -> [u64; 2] {
    match read(text) {
        Ok(image) => [0, image.len() as u64],
        Err(refusal) => [refusal.number, refusal.place],
    }
}

#[test]
fn h_both_ways() {
    assert_eq!(read(H.as_bytes()), Ok(h().write()));
    assert_eq!(list(&h().write()), Ok(H.to_string()));
    let close = "options 1{v0:=[o0?380:310];if(350<v0)then throw 7 else skip}";
    assert_eq!(read(close.as_bytes()), Ok(h().write()));
}

#[test]
fn places_of_17_and_18() {
    for (text, number_and_place) in places::all() {
        assert_eq!(answer(text.as_bytes()), number_and_place, "{text}");
        let place = (number_and_place[0] == 17).then_some(number_and_place[1] as usize);
        // the other method knows no limits
        if number_and_place[0] != 18 && text.len() < 200 {
            assert_eq!(refused_17(text.as_bytes()), place, "{text}");
        }
    }
}

#[test]
fn h_cut_off() {
    for end in 0..H.len() - 2 {
        assert_eq!(answer(H[..end].as_bytes()), [17, end as u64]);
    }
    assert_eq!(answer(H[..H.len() - 1].as_bytes()), [0, 108]);
}

#[test]
fn conditions_in_text_order() {
    let text = "options 2 [(o1 or not o0) ? v0 := [o0 ? 1 : 2] : skip]";
    let image = check(&read(text.as_bytes()).unwrap()).unwrap();
    let records: Vec<_> = image
        .conditions
        .iter()
        .map(|c| [c.kind, c.option, c.left, c.right])
        .collect();
    let by_hand = [
        [2, 1, 0, 0],
        [2, 0, 0, 0],
        [3, 0, 1, 0],
        [5, 0, 0, 2],
        [2, 0, 0, 0],
    ];
    assert_eq!(records, by_hand);
    assert_eq!(image.nodes[2].fields, [4, 0, 1]);
}

#[test]
fn listings_as_they_look() {
    let g = "options 1
try
  [o0 ? throw 9 : skip]
catch v1 with
  v2 := 1
";
    assert_eq!(list(&case_g().write()), Ok(g.to_string()));
    let h = "options 1
while (v0 < [o0 ? 2 : 1]) do
  v0 := (v0 + 1)
";
    assert_eq!(list(&case_h().write()), Ok(h.to_string()));
}

#[test]
fn listed_and_read() {
    for image in [
        h(),
        case_g(),
        case_h(),
        all_kinds(),
        deep_tree(1021),
        sequences(1023),
        tower(6, 128),
    ] {
        let text = list(&image.write()).unwrap();
        let again = read(text.as_bytes()).unwrap();
        assert!(check(&again).is_ok());
        assert_eq!(list(&again).unwrap(), text);
    }
}

/// Any image that can be listed reads back to its tree, and a configured one to its own bytes.
#[test]
fn random_images_listed_and_read() {
    for number in 0..400 {
        let image = written::image(&mut Random::new(3, number));
        let Ok(text) = list(&image.write()) else {
            continue;
        };
        let again = read(text.as_bytes()).unwrap();
        assert_eq!(list(&again), Ok(text));
        let alone = configure(&image, &condition_sets(&image), 0);
        let text = list(&alone).unwrap();
        assert_eq!(read(text.as_bytes()), Ok(alone));
    }
}

#[test]
fn a_chain_of_255() {
    let chain = tower(256, 1024).write();
    let refusal = list(&chain).unwrap_err();
    assert_eq!((refusal.number, refusal.place), (18, 0));
    // conditions that no choice uses are not written
    let mut unused = tower(256, 1024).conditions;
    unused[0] = condition(2, 0, 0, 0);
    let skip = image(1, unused, vec![node(16, 0, [0; 3])]);
    assert_eq!(list(&skip.write()), Ok("options 1\nskip\n".to_string()));
}

/// 256 written conditions of one record, and one more.
#[test]
fn at_256_written_conditions() {
    let choices = |count: usize| {
        let mut nodes = vec![node(16, 0, [0; 3])];
        for _ in 0..count {
            let last = nodes.len() - 1;
            nodes.push(node(16, 0, [0; 3]));
            nodes.push(node(23, 0, [0, last, last + 1]));
        }
        by_option(nodes).write()
    };
    assert!(read(list(&choices(256)).unwrap().as_bytes()).is_ok());
    assert_eq!(list(&choices(257)).unwrap_err().number, 18);
}

/// The place of 17 against the productions tried one beside the other.
#[test]
fn places_by_another_method() {
    let sentences = [
        "options 2 {v0 := pick ((v1 < -12) ? 3 : [o1 ? v15 : (0 + 7)]) ; throw 2147483647}",
        "options 6 if both (not true and [(o5 or not false) ? true : (1 < 2)]) then skip else while false do skip",
        "options 0 try throw -2147483648 catch v10 with [(true and false) ? skip : try skip catch v1 with skip]",
    ];
    let mut random = Random::new(11, 17);
    for round in 0..1500 {
        let text = spaced(&mut random, sentences[round % sentences.len()].as_bytes());
        let text = damaged(&mut random, text);
        let place = read(&text).err().map(|refusal| refusal.place as usize);
        assert_eq!(
            place,
            refused_17(&text),
            "{}",
            String::from_utf8_lossy(&text)
        );
    }
}
