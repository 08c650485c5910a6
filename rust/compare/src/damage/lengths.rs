//! Areas of wrong lengths.

use super::{Damage, Expected};
use crate::layout::PAGE;
use crate::{Call, Engine, Plain, Store};

const LENGTH: Expected = &[
    ("format", &[1]),
    ("open", &[1]),
    ("seal", &[1]),
    ("begin", &[1]),
    ("next", &[1]),
    ("insert", &[1]),
    ("update", &[1]),
    ("delete", &[1]),
    ("read", &[1]),
    ("commit", &[1]),
    ("withdraw", &[1]),
    ("sweep", &[1]),
];

/// The area whose length is wrong.
fn area_mut(store: &mut Store, area: usize) -> &mut Vec<u8> {
    match area {
        0 => &mut store.data,
        1 => &mut store.undo,
        _ => &mut store.status,
    }
}

/// Wrong lengths of each area, with sound and unsound desks, and the largest lengths allowed.
pub fn lengths() -> Vec<Damage> {
    let mut damages = Vec::new();
    for (area, name, most) in [(0, "data", 64), (1, "undo", 64), (2, "status", 1)] {
        for length in [0, 1, 47, PAGE - 1, PAGE + 1, most * PAGE + 1, (most + 1) * PAGE] {
            let name = format!("{name} of {length} bytes");
            damages.push(Damage::new(name, LENGTH, move |store, random| {
                area_mut(store, area).resize(length, 0);
                if random.once_in(3) {
                    *store.next_mut() = 0;
                }
                Some(0)
            }));
        }
    }
    damages.push(Damage::new(
        "most pages",
        &[("format", &[0]), ("sweep", &[0])],
        |store, random| {
            Store { data: vec![0; 64 * PAGE], undo: vec![0; 64 * PAGE], ..store.clone() }
                .clone_into(store);
            Plain.call(store, &Call::Format);
            Plain.call(store, &Call::Begin);
            Some(random.pick(&[126, 127, 8126, 8127]))
        },
    ));
    damages
}
