//! Lists one after the other, until there were enough of them or one shows a difference.

use crate::call::Step;
use crate::damage::Damages;
use crate::events::Events;
use crate::generate::Generator;
use crate::pairs::{row_of, Pairs};
use crate::shorten::{first_difference, shorten};
use crate::trio::{Fault, Size, Tamper, Trio};

/// Steps of a list.
const STEPS: usize = 250;

/// What was covered.
#[derive(Default)]
pub struct Coverage {
    pub calls: u64,
    pub pairs: Pairs,
    pub damages: Damages,
    pub events: Events,
}

/// A list at whose last step the programs differ.
pub struct Difference {
    pub seed: u64,
    pub size: Size,
    pub step: usize,
    pub fault: Fault,
    steps: Vec<Step>,
    tamper: Tamper,
}

/// Makes the list of a seed.
pub fn run_list(seed: u64, tamper: Tamper, coverage: &mut Coverage) -> Result<(), Difference> {
    let mut generator = Generator::new(seed);
    let size = generator.size();
    let mut trio = Trio::new(size, seed, tamper);
    let mut steps = Vec::with_capacity(STEPS);
    for _ in 0..STEPS {
        let step = generator.next(&trio);
        let seen = Events::before(&step, &trio);
        let made = match &step {
            Step::Make(made) => Some((made, row_of(&made.call, &trio.given(made).state))),
            _ => None,
        };
        match (made, trio.step(&step)) {
            (Some((made, row)), Ok(Some(answer))) => {
                coverage.calls += 1;
                coverage.pairs.count(row, &answer);
                coverage.events.count(seen, made, &answer, &trio);
            }
            (_, Ok(_)) => {}
            (_, Err(fault)) => {
                steps.push(step);
                return Err(Difference {
                    seed,
                    size,
                    step: steps.len(),
                    fault,
                    steps,
                    tamper,
                });
            }
        }
        steps.push(step);
    }
    coverage.damages.add(&generator.damages);
    Ok(())
}

impl Difference {
    pub fn shortened(&self) -> Vec<Step> {
        shorten(self.steps.clone(), self.size, self.seed, self.tamper)
    }

    /// The seed, the step, what differs, and a shortened list.
    pub fn report(&self) -> String {
        let (seed, step, fault) = (self.seed, self.step, &self.fault);
        let short = self.shortened();
        let mut report = format!("seed {seed:#x}, step {step}: {fault}\n");
        report += &format!("{} of its steps show a difference:\n", short.len());
        for step in &short {
            report += &format!("  {step}\n");
        }
        if let Some((_, fault)) = first_difference(&short, self.size, seed, self.tamper) {
            report += &format!("  => {fault}\n");
        }
        report
    }
}
