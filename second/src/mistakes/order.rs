//! Mistakes about the working out of the order.

use super::Mistake;
use crate::model::answer::Refusal;
use crate::model::planner::{Chains, Plan, SIXTY_FOURTHS};
use crate::model::rules::{Model, RIGHT};
use crate::model::tables::Tables;

pub fn mistakes() -> Vec<Mistake> {
    vec![
        Mistake::new(
            "slip: equal deadlines left to table position",
            LINKS_NOT_COUNTED,
        )
        .breaking_sampling(),
        Mistake::new("the deadline is not inherited", DEADLINE_NOT_INHERITED).breaking_sampling(),
        Mistake::new("every chain counts as one", ONE_FOR_EVERY_CHAIN).breaking_sampling(),
        Mistake::new("the shortest chain counts", SHORTEST_CHAIN).breaking_sampling(),
        Mistake::new("chains end after sixteen links", CHAINS_END_AT_SIXTEEN),
        Mistake::new("chains end after thirty links", CHAINS_END_AT_THIRTY),
        Mistake::new("criticality is not inherited", CRITICALITY_NOT_INHERITED),
        Mistake::new(
            "criticality is inherited over one link only",
            ONE_LINK_OF_CRITICALITY,
        ),
        Mistake::new(
            "the greatest criticality is inherited",
            GREATEST_CRITICALITY,
        ),
        Mistake::new("criticality goes before the deadline", CRITICALITY_FIRST),
        Mistake::new("the least critical goes first", LEAST_CRITICAL_FIRST),
        Mistake::new("the later position goes first", LATER_POSITION_FIRST),
        Mistake::new("shut out: one fixed order for every table", FIXED_ORDER).breaking_sampling(),
        Mistake::new("the order goes on past the last task", ORDER_GOES_ON),
        Mistake::new("a refused plan is not all zeros", REFUSED_PLAN_NOT_ZEROS),
        Mistake::new("shut out: all tables are refused", TABLES_REFUSED).breaking_sampling(),
    ]
}

const LINKS_NOT_COUNTED: Model = Model {
    internal_deadline: |model, tables, task, _chains| {
        least_deadline(model.reached(tables, task), tables, task, 0)
    },
    ..RIGHT
};

/// The least of the task's own deadline and those of the tasks reached less some sixty-fourths.
fn least_deadline(reached: Vec<usize>, tables: &Tables, task: usize, less: u32) -> u32 {
    let mut least = tables.tasks[task].deadline * SIXTY_FOURTHS;
    for other in reached {
        least = least.min(tables.tasks[other].deadline * SIXTY_FOURTHS - less);
    }
    least
}

const DEADLINE_NOT_INHERITED: Model = Model {
    internal_deadline: |_, tables, task, _chains| tables.tasks[task].deadline * SIXTY_FOURTHS,
    ..RIGHT
};

const ONE_FOR_EVERY_CHAIN: Model = Model {
    internal_deadline: |model, tables, task, _chains| {
        least_deadline(model.reached(tables, task), tables, task, 1)
    },
    ..RIGHT
};

const SHORTEST_CHAIN: Model = Model {
    longest_chain: |_, tables, from, to, _chains| {
        let mut reached = tables.undelayed_receivers(from);
        for length in 1..=tables.tasks.len() as u32 {
            if reached.contains(&to) {
                return Some(length);
            }
            let next = |task: &usize| tables.undelayed_receivers(*task);
            reached = reached.iter().flat_map(next).collect();
            reached.sort();
            reached.dedup();
        }
        None
    },
    ..RIGHT
};

const CHAINS_END_AT_SIXTEEN: Model = Model {
    internal_deadline: |_, tables, task, chains| bounded_chains(16, tables, task, chains),
    ..RIGHT
};

const CHAINS_END_AT_THIRTY: Model = Model {
    internal_deadline: |_, tables, task, chains| bounded_chains(30, tables, task, chains),
    ..RIGHT
};

fn bounded_chains(most: u32, tables: &Tables, task: usize, chains: &mut Chains) -> u32 {
    let mut least = tables.tasks[task].deadline * SIXTY_FOURTHS;
    for reached in RIGHT.reached(tables, task) {
        let length = RIGHT.longest_chain(tables, task, reached, chains);
        let less = length.unwrap_or(0).min(most);
        least = least.min(tables.tasks[reached].deadline * SIXTY_FOURTHS - less);
    }
    least
}

const CRITICALITY_NOT_INHERITED: Model = Model {
    internal_criticality: |_, tables, task| tables.tasks[task].criticality,
    ..RIGHT
};

const ONE_LINK_OF_CRITICALITY: Model = Model {
    internal_criticality: |_, tables, task| {
        let receivers = tables.undelayed_receivers(task).into_iter();
        let least = receivers
            .map(|receiver| tables.tasks[receiver].criticality)
            .min();
        let own = tables.tasks[task].criticality;
        least.map_or(own, |least| least.min(own))
    },
    ..RIGHT
};

const GREATEST_CRITICALITY: Model = Model {
    internal_criticality: |model, tables, task| {
        let reached = model.reached(tables, task).into_iter();
        let greatest = reached.map(|other| tables.tasks[other].criticality).max();
        greatest.unwrap_or(0).max(tables.tasks[task].criticality)
    },
    ..RIGHT
};

const CRITICALITY_FIRST: Model = Model {
    order_key: |_, plan, task| (plan.criticalities[task], plan.deadlines[task], task),
    ..RIGHT
};

const LEAST_CRITICAL_FIRST: Model = Model {
    order_key: |_, plan, task| {
        (
            plan.deadlines[task],
            u32::MAX - plan.criticalities[task],
            task,
        )
    },
    ..RIGHT
};

const LATER_POSITION_FIRST: Model = Model {
    order_key: |_, plan, task| {
        (
            plan.deadlines[task],
            plan.criticalities[task],
            usize::MAX - task,
        )
    },
    ..RIGHT
};

const FIXED_ORDER: Model = Model {
    order_key: |_, _plan, task| (0, 0, task),
    ..RIGHT
};

const ORDER_GOES_ON: Model = Model {
    work_out: |_, tables| {
        let mut plan = RIGHT.work_out(tables);
        for place in tables.tasks.len()..plan.order.len() {
            plan.order[place] = place as u32;
        }
        plan
    },
    ..RIGHT
};

const REFUSED_PLAN_NOT_ZEROS: Model = Model {
    refused_plan: |_| Plan {
        multiple: 1,
        ..Plan::zeros()
    },
    ..RIGHT
};

const TABLES_REFUSED: Model = Model {
    table_refusal: |_, _, _| Some(Refusal::new(1, 0)),
    ..RIGHT
};
