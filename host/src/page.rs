//! The page of the program `matrix`, on the independent scheduler: what support has on paper when a record is sent, after the terms that the call takes and before the
//! record leaves. Every line of a page begins with `|`, so that the other lines are `lift`'s.
//!
//! ```text
//! |  order 3   P 1   term 1   column 2
//! |    slot   weight   >2  1  0
//! |       0        5    1  .  1   visit
//! |       2        4    1  .  .   to visit
//! |       1        3    .  1  1
//! ```

use crate::lift;
use crate::scheduler::Scheduler;
use crate::spread::term_of;

/// What `matrix` prints for this input: `lift`'s lines, and under each record sent its page.
pub fn matrix(input: &[u8]) -> Vec<u8> {
    lift::with_pages(input, page)
}

/// The output without its pages.
pub fn without_pages(output: &[u8]) -> Vec<u8> {
    let lines = output.split_inclusive(|&byte| byte == b'\n');
    lines.filter(|line| !line.starts_with(b"|")).flatten().copied().collect()
}

/// The page of a Next on this sound state; nothing where it is refused.
pub fn page(before: &Scheduler) -> String {
    if before.rows.is_empty() {
        return String::new();
    }
    let mut now = before.clone();
    let (slot, _, terms) = now.choose(&mut |_, _| {});
    let order = now.order;
    let term = (now.scan.position > 0).then(|| term_of(order, now.scan.position));
    // That of the last term taken; else that of the list that was there before; a visit that goes on with no list scans none.
    let column = match term {
        Some(term) if terms > 0 => Some(order - term),
        _ => (!before.scan.to_visit.is_empty()).then_some(before.scan.column),
    };
    let or_none = |number: Option<u64>| number.map_or("-".to_string(), |number| number.to_string());
    let mut lines = vec![format!("|  order {order}   P {}   term {}   column {}", now.scan.position, or_none(term), or_none(column))];
    let columns = || (0..order).rev();
    let head = |number: u64| format!("{:>3}", if column == Some(number) { format!(">{number}") } else { number.to_string() });
    lines.push(format!("|{:>8}{:>9}  {}", "slot", "weight", columns().map(head).collect::<String>()));
    for &row in &now.rows {
        let weight = now.channels[row].weight;
        let cells: String = columns().map(|number| if weight >> number & 1 == 1 { "  1" } else { "  ." }).collect();
        let mark = match row {
            _ if row == slot => "   visit",
            _ if now.scan.to_visit.contains(&row) => "   to visit",
            _ => "",
        };
        lines.push(format!("|{row:>8}{weight:>9}  {cells}{mark}"));
    }
    lines.into_iter().map(|line| line + "\n").collect()
}
