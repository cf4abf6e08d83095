//! A parser without memory: what a grammar says, followed by plain recursion, its calls counted up to a limit.

/// The limit was reached.
#[derive(Debug, PartialEq, Eq)]
pub struct TooManySteps;

pub struct Parser<'a> {
    rules: &'a [[u8; 4]],
    capture: &'a [u8],
    limit: u64,
    steps: u64,
}

/// Parses a whole capture by rule 0: whether it does, and in how many calls.
pub fn parse(rules: &[[u8; 4]], capture: &[u8], limit: u64) -> Result<(bool, u64), TooManySteps> {
    let mut parser = Parser { rules, capture, limit, steps: 0 };
    let rest = parser.rule(0, 0)?;
    Ok((rest == Some(capture.len()), parser.steps))
}

impl Parser<'_> {
    /// Where a rule leaves the capture when it starts at a place, or `None` where it fails.
    fn rule(&mut self, k: u8, at: usize) -> Result<Option<usize>, TooManySteps> {
        if self.steps == self.limit {
            return Err(TooManySteps);
        }
        self.steps += 1;
        let [kind, b, c, _] = self.rules[usize::from(k)];
        Ok(match kind {
            1 => match self.rule(b, at)? {
                Some(then) => self.rule(c, then)?,
                None => None,
            },
            2 => match self.rule(b, at)? {
                Some(rest) => Some(rest),
                None => self.rule(c, at)?,
            },
            3 => self.rule(b, at)?.is_none().then_some(at),
            4 => Some(at),
            _ => self.capture.get(at).is_some_and(|byte| (b..=c).contains(byte)).then_some(at + 1),
        })
    }
}
