//! The graph of steps and files, by number, that planning works on.

/// Steps in order and the number of files; no file is the output of two steps.
#[derive(Debug, Clone, Default, PartialEq, Eq)]
pub struct Graph {
    pub steps: Vec<Step>,
    pub files: usize,
}

/// A step's files by kind; files may be mentioned more than once as inputs.
#[derive(Debug, Clone, Default, PartialEq, Eq)]
pub struct Step {
    pub outputs: Vec<u32>,
    pub explicit: Vec<u32>,
    pub implicit: Vec<u32>,
    pub order_only: Vec<u32>,
    /// What its header list names; a phony step has none.
    pub listed: Vec<u32>,
    /// Whether it has a depfile that is missing.
    pub lacks_list: bool,
    pub phony: bool,
}

/// What a plan of a graph starts from.
#[derive(Debug, Clone, Default, PartialEq, Eq)]
pub struct Start {
    /// The card's time of each file, 0 if missing.
    pub times: Vec<u64>,
    /// No targets means the defaults, and without those every output that is no written input.
    pub targets: Vec<u32>,
    pub defaults: Vec<u32>,
}

impl Step {
    /// The inputs whose age counts: listed ones are implicit inputs after the written ones.
    pub fn dated_inputs(&self) -> impl Iterator<Item = u32> + '_ {
        self.explicit.iter().chain(&self.implicit).chain(&self.listed).copied()
    }

    /// The inputs of any kind.
    pub fn inputs(&self) -> impl Iterator<Item = u32> + '_ {
        self.dated_inputs().chain(self.order_only.iter().copied())
    }

    /// The inputs of any kind that the manifest itself gives.
    pub fn written_inputs(&self) -> impl Iterator<Item = u32> + '_ {
        self.explicit.iter().chain(&self.implicit).chain(&self.order_only).copied()
    }
}

impl Graph {
    /// The maker of each file.
    pub fn makers(&self) -> Vec<Option<u32>> {
        let mut makers = vec![None; self.files];
        for (number, step) in (0..).zip(&self.steps) {
            for &output in &step.outputs {
                makers[output as usize] = Some(number);
            }
        }
        makers
    }
}
