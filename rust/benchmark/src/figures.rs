//! What several rounds came to.

/// Nanoseconds a call, of several rounds.
#[derive(Clone, Copy, Debug, PartialEq)]
pub struct Figures {
    pub best: f64,
    /// The one in the middle; of an even number of rounds the slower of two.
    pub median: f64,
}

impl Figures {
    /// Of at least one round.
    pub fn of(mut rounds: Vec<f64>) -> Figures {
        rounds.sort_by(f64::total_cmp);
        Figures {
            best: rounds[0],
            median: rounds[rounds.len() / 2],
        }
    }

    /// Of rounds that were timed in slices: the best of each slice together,
    /// and the medians, divided by the number of calls.
    pub fn of_slices(rounds: &[Vec<f64>], calls: usize) -> Figures {
        let slices = 0..rounds[0].len();
        let each =
            slices.map(|slice| Figures::of(rounds.iter().map(|round| round[slice]).collect()));
        let sum = each.fold([0.0, 0.0], |[best, median], slice| {
            [best + slice.best, median + slice.median]
        });
        let [best, median] = sum.map(|sum| sum / calls as f64);
        Figures { best, median }
    }
}

/// To the nearest whole number, with a comma before every three digits.
pub fn grouped(number: f64) -> String {
    let digits = format!("{:.0}", number.abs());
    let mut shown = String::new();
    for (at, digit) in digits.chars().enumerate() {
        if at != 0 && (digits.len() - at).is_multiple_of(3) {
            shown.push(',');
        }
        shown.push(digit);
    }
    if number.round() < 0.0 {
        shown.insert(0, '-');
    }
    shown
}
