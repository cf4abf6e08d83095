//! The targets of judging, and a table of figures beside them.
use crate::table::Table;

/// Of the ratios of the judge's time to the twin's, the median.
pub const TO_TWIN: f64 = 1.0;

/// Of the ratios of the judge's time to the tuned form's, the median and the largest.
pub const TO_TUNED: f64 = 0.95;
pub const LARGEST_TO_TUNED: f64 = 1.05;

pub struct Targets(Table);

impl Targets {
    pub fn new() -> Self {
        Targets(Table::new(&["figure", "measured", "target", "met"]))
    }

    /// A figure that should be at most so much.
    pub fn at_most(&mut self, target: f64, figure: &str, measured: f64) {
        let met = if measured <= target { "yes" } else { "NO" };
        self.0.row(vec![figure.into(), format!("{measured:.3}"), format!("at most {target}"), met.into()]);
    }

    /// A figure that should be at least so much.
    pub fn at_least(&mut self, target: f64, figure: &str, measured: f64) {
        let met = if measured >= target { "yes" } else { "NO" };
        self.0.row(vec![figure.into(), format!("{measured:.3}"), format!("at least {target}"), met.into()]);
    }

    /// A figure that has no target.
    pub fn told(&mut self, figure: &str, measured: f64) {
        self.0.row(vec![figure.into(), format!("{measured:.3}"), "none".into(), "".into()]);
    }

    pub fn print(&self) {
        self.0.print();
    }
}

impl Default for Targets {
    fn default() -> Self {
        Self::new()
    }
}
