//! The logs that are raced, by name.

/// How far the stamps of two lines are apart.
#[derive(Clone, Copy)]
pub enum Steps {
    /// 0 to 999 ticks.
    Short,
    /// Up to 2^31 ticks.
    Long,
    /// The one or the other.
    Mixed,
}

/// What a log is like.
#[derive(Clone)]
pub struct Plan {
    pub name: String,
    /// The chips, by position.
    pub chips: Vec<u64>,
    pub steps: Steps,
    /// Whether drivers are woken.
    pub awake: bool,
    /// Whether every output of a driver follows the group.
    pub grouped: bool,
    /// Of 100 lines, so many ask.
    pub questions: u64,
}

const ALL_KINDS: [u64; 4] = [9635, 9634, 9531, 9551];

impl Plan {
    /// Boards of these kinds in turn, awake, with stamps of mixed steps.
    fn new(name: &str, boards: usize, kinds: &[u64]) -> Plan {
        Plan {
            name: format!("{name}{boards}"),
            chips: kinds.iter().copied().cycle().take(boards).collect(),
            steps: Steps::Mixed,
            awake: true,
            grouped: false,
            questions: 5,
        }
    }

    fn stepping(self, steps: Steps, name: &str) -> Plan {
        Plan {
            name: format!("{}-{name}", self.name),
            steps,
            ..self
        }
    }
}

/// Every log that is raced.
pub fn all() -> Vec<Plan> {
    let mut plans = Vec::new();
    for boards in [1, 2, 4, 8] {
        let plan = Plan::new("boards", boards, &ALL_KINDS);
        plans.push(plan.clone().stepping(Steps::Short, "short"));
        plans.push(plan.clone().stepping(Steps::Long, "long"));
        plans.push(plan.stepping(Steps::Mixed, "mixed"));
    }
    for boards in [1, 8] {
        let mut asleep = Plan::new("asleep", boards, &ALL_KINDS[..2]);
        asleep.awake = false;
        plans.push(asleep);
    }
    for boards in [1, 8] {
        plans.push(Plan::new("blinkers", boards, &ALL_KINDS[2..]));
    }
    for boards in [1, 8] {
        let mut questions = Plan::new("questions", boards, &ALL_KINDS);
        questions.questions = 75;
        plans.push(questions);
    }
    let mut grouped = Plan::new("group", 8, &[9635]);
    grouped.grouped = true;
    plans.push(grouped);
    plans
}

/// The logs of a season: one to eight boards, with stamps of each sort.
pub fn season(logs: usize) -> Vec<Plan> {
    let steps = [Steps::Short, Steps::Long, Steps::Mixed];
    let plan = |index: usize| Plan {
        steps: steps[index % 3],
        ..Plan::new("season", 1 + index % 8, &ALL_KINDS)
    };
    (0..logs).map(plan).collect()
}
