//! The rules by name. A model is a choice of one function for each rule: the right model takes
//! each from the file of its subject, a mistaken model (see `mistakes`) replaces one. Every rule is
//! handed the model it belongs to and calls other rules through it.

use super::answer::{Answer, Call, Refusal};
use super::planner::{Chains, Plan};
use super::reader::{Mark, Records};
use super::state::State;
use super::tables::{Connection, TableWords, Tables, Task};
use super::{executive, planner, programs, range, reader, refusals, words};

/// Makes the model, its methods and the right model from the list of rules.
macro_rules! rules {
    ($($subject:ident::$rule:ident($($name:ident: $given:ty),*) -> $answer:ty;)*) => {
        #[derive(Clone, Copy)]
        pub struct Model {
            $(pub $rule: fn(&Model, $($given),*) -> $answer,)*
        }

        impl Model {
            $(pub fn $rule(&self, $($name: $given),*) -> $answer {
                (self.$rule)(self, $($name),*)
            })*
        }

        /// The model with no mistake in it.
        pub const RIGHT: Model = Model {
            $($rule: $subject::$rule,)*
        };
    };
}

rules! {
    reader::read(file: &[u8], tasks: &mut [u16], connections: &mut [u16]) -> Answer;
    reader::records(file: &[u8]) -> Result<Records, Refusal>;
    reader::mark(file: &[u8], place: usize) -> Result<Mark, Refusal>;
    reader::after_end(file: &[u8], place: usize) -> Result<(), Refusal>;
    reader::has_room(records: usize, most: usize) -> bool;
    reader::body(file: &[u8], place: usize, length: usize, room: bool) -> Result<Vec<u8>, Refusal>;
    reader::task_row(body: &[u8]) -> [u16; 5];
    reader::connection_row(body: &[u8]) -> [u16; 3];
    reader::two_bytes(first: u8, second: u8) -> u16;
    reader::fill(records: &Records, tasks: &mut [u16], connections: &mut [u16]) -> ();

    refusals::table_refusal(task_words: &[u16], connection_words: &[u16]) -> Option<Refusal>;
    refusals::refusal_1(task_words: &[u16]) -> Option<Refusal>;
    refusals::refusal_2(connection_words: &[u16]) -> Option<Refusal>;
    refusals::refusal_3(tables: &Tables) -> Option<Refusal>;
    refusals::refusal_4(tables: &Tables) -> Option<Refusal>;
    refusals::refusal_5(tables: &Tables) -> Option<Refusal>;
    refusals::refusal_6(tables: &Tables) -> Option<Refusal>;
    refusals::refusal_7(tables: &Tables) -> Option<Refusal>;
    refusals::refusal_8(tables: &Tables) -> Option<Refusal>;
    refusals::task_fits(task: &Task) -> bool;
    refusals::connection_fits(row: &Connection, tasks: usize) -> bool;
    refusals::refuses_5(tables: &Tables, row: &Connection) -> bool;
    refusals::refuses_7(tables: &Tables, row: &Connection) -> bool;
    refusals::reached(tables: &Tables, from: usize) -> Vec<usize>;
    refusals::common_multiple(tables: &Tables) -> Option<u32>;

    planner::plan(task_words: &[u16], connection_words: &[u16]) -> (Answer, Plan);
    planner::refused_plan() -> Plan;
    planner::work_out(tables: &Tables) -> Plan;
    planner::order_key(plan: &Plan, task: usize) -> (u32, u32, usize);
    planner::internal_deadline(tables: &Tables, task: usize, chains: &mut Chains) -> u32;
    planner::internal_criticality(tables: &Tables, task: usize) -> u32;
    planner::longest_chain(
        tables: &Tables, from: usize, to: usize, chains: &mut Chains
    ) -> Option<u32>;

    range::refusal_16(state: &State) -> Option<Refusal>;
    range::counts_fit(state: &State) -> bool;
    range::rows_fit(state: &State) -> bool;
    range::cycles_fit(state: &State) -> bool;
    range::order_fits(state: &State) -> bool;

    executive::fresh_start(task_words: &[u16], connection_words: &[u16]) -> (Answer, State);
    executive::refused_start() -> State;
    executive::fresh_state(tables: &Tables, plan: &Plan) -> State;
    executive::call(given: &State, call: Call) -> (Answer, State);
    executive::tick(given: &State) -> (Answer, State);
    executive::complete(given: &State, word: u32) -> (Answer, State);
    executive::tick_refusal(state: &State) -> Option<Refusal>;
    executive::completion_refusal(state: &State) -> Option<Refusal>;
    executive::refusal_15(state: &State) -> Option<Refusal>;
    executive::refusal_14(state: &State) -> Option<Refusal>;
    executive::deadline_falls(state: &State, task: usize) -> bool;
    executive::missed(state: &State) -> Option<usize>;
    executive::halt(given: &State) -> State;
    executive::deliver_and_dispatch(state: &mut State) -> ();
    executive::deliver_at_deadlines(state: &mut State) -> ();
    executive::dispatch_all(state: &mut State) -> ();
    executive::dispatch(state: &mut State, task: usize) -> ();
    executive::choose(state: &mut State) -> Answer;
    executive::start(state: &mut State, task: usize) -> ();
    executive::next_cycle(given: &State) -> u32;
    executive::running_task(state: &State) -> Option<usize>;
    executive::take_inputs(state: &mut State, task: usize, kind: u32) -> ();
    executive::finish(state: &mut State, task: usize, word: u32) -> ();
    executive::receives_at_completion(state: &State, row: &Connection) -> bool;

    programs::tables_of(file: &[u8]) -> Result<TableWords, Answer>;
    programs::list(file: &[u8]) -> String;
    programs::list_line(place: usize, task: usize, deadline: u32, criticality: u32) -> String;
    programs::step(file: &[u8], calls: &[u8]) -> String;
    programs::lines(calls: &[u8]) -> Vec<Vec<u8>>;
    programs::call_of(call_line: &[u8]) -> Option<Call>;
    programs::word_of(digits: &[u8]) -> Option<u32>;

    words::lent_plan(tasks: &[u16], connections: &[u16], plan: &mut [u32]) -> u64;
    words::lent_fresh(tasks: &[u16], connections: &[u16], state: &mut [u32]) -> u64;
    words::lent_call(words: &mut [u32], call: Call) -> u64;
    words::given_state(words: &[u32]) -> Option<State>;
    words::lay_down(lent: &mut [u32], words: &[u32]) -> ();
}
