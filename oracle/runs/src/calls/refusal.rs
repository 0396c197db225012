//! The refusal number of a call, as docs/RULES.md lists them. The Rust has none.
use super::call::Call;
use super::entry::Task;
use super::shape::Shape;
use crate::entries::Settings;

/// Whether the condition of a refusal number holds, whatever else does.
pub fn applies(number: u32, call: &Call) -> bool {
    let task = call.entry.task();
    match number {
        1 => call.nodes > 65_536,
        2 => call.links() > 1_048_576 || task == Some(Task::Multi) && call.wish.many.len() > 65_536,
        3 => {
            let given = [call.first.len(), call.second.len(), call.weights.len()];
            let right = |(shape, length): (&Shape, usize)| shape.size.of(call.nodes, call.links()) == length;
            !call.entry.given().iter().zip(given).all(right) || call.lengths != call.stated()
        }
        4 if call.entry.takes_rows() => {
            let (starts, columns) = (&call.first, &call.second);
            let begins = starts.first() == Some(&0);
            let falls = starts.windows(2).any(|pair| pair[1] < pair[0]);
            let ends = starts.last().is_some_and(|&end| end as usize == columns.len());
            !begins || falls || !ends || columns.iter().any(|&column| column >= call.nodes)
        }
        5 => {
            let refused = |w: f64| w.is_nan() || w.is_infinite() || w < 0.0 || w > 1_048_576.0;
            call.weights.iter().any(|&weight| refused(weight))
        }
        6 if task.is_some() => {
            let second = call.entry.pushes_both_ways() && settings_refused(&call.wish.backward_settings);
            second || settings_refused(&call.wish.settings)
        }
        7 if task == Some(Task::Watched) => refused(call.wish.precision),
        _ => false,
    }
}

/// The first number that applies; 0 where none does.
pub fn refusal(call: &Call) -> u32 {
    (1..=7).find(|&number| applies(number, call)).unwrap_or(0)
}

/// Where this reading of the table gives another number than docs/RULES.md does by hand.
pub fn misread(call: &Call, number: u32) -> Option<String> {
    let read = refusal(call);
    (read != number).then(|| format!("refusal.rs gives {read}, docs/RULES.md {number}"))
}

fn settings_refused(settings: &Settings) -> bool {
    let Settings { alpha, epsilon, queue_threshold, max_pushes, .. } = *settings;
    let of_itself = alpha_refused(alpha) || refused(epsilon) || refused(queue_threshold) || max_pushes > 1_000_000_000;
    of_itself || adaptive_numbers_refused(settings)
}

/// Whether one of the adaptive numbers is refused, which they are whether the threshold adapts or not.
fn adaptive_numbers_refused(settings: &Settings) -> bool {
    let Settings { adaptive_step, upper_size, lower_size, .. } = *settings;
    let amounts = [settings.raising_factor, settings.lowering_factor, settings.threshold_floor];
    adaptive_step == 0 || lower_size > upper_size || amounts.into_iter().any(refused)
}

/// Whether an alpha is not in 0..1, both of them included.
pub fn alpha_refused(alpha: f64) -> bool {
    alpha.is_nan() || alpha < 0.0 || alpha > 1.0
}

/// Whether a number is not finite, or below zero.
fn refused(number: f64) -> bool {
    !number.is_finite() || number < 0.0
}
