//! Slips in lengths, buffers and nesting, and in what comes first.

use super::Slips;
use super::reading::*;

/// Lengths, buffers, nesting, and what comes first.
pub fn rows(slips: &mut Slips) {
    for row in 0..4 {
        slips.add(format!("row {row} left out"), move |rules| _ = rules.rows.remove(row));
        if row < 3 {
            slips
                .add(format!("row {} before row {row}", row + 1), move |rules| rules.rows.swap(row, row + 1));
        }
    }
    for multiple in [1, 2, 4, 8, 16] {
        slips.add(format!("a multiple of {multiple}"), move |rules| rules.multiple = multiple);
    }
    let most = Rules::new().most;
    for (fewest, most) in
        [(0, most), (11, most), (13, most), (12, most - 1), (12, most + 1), (12, usize::MAX)]
    {
        slips.add(format!("{fewest} to {most} records"), move |rules| {
            (rules.fewest, rules.most) = (fewest, most)
        });
    }
    for buffer in 0..7 {
        let each = Rules::new().bytes[buffer].0;
        let needs = [(0, 0), (each, -1), (each, 1), (each, -(each as isize)), (each - 1, 0), (each + 1, 0)];
        for (each, more) in needs {
            slips.add(format!("buffer {buffer} needs {each} and {more}"), move |rules| {
                rules.bytes[buffer] = (each, more);
            });
        }
    }
    for deepest in [63, 65, u32::MAX] {
        slips.add(format!("nesting {deepest}"), move |rules| rules.deepest = deepest);
    }
    for (name, stage) in [("form", Stage::Form), ("count", Stage::Count), ("order", Stage::Order)] {
        slips.add(format!("{name} first"), move |rules| rules.before = Some(stage));
    }
    slips.add("the highest fault".to_string(), |rules| rules.lowest = false);
}
