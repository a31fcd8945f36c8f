//! The answer for a program: one object.
use super::running::Run;
use super::verdict::{Plan, Verdict};
use super::words::{status_word, Variables};
use serde_json::{json, Value};

/// JSON's numbers are 64 bits wide here; what is wider is a text.
fn number(wide: i128) -> Value {
    i64::try_from(wide).map_or_else(|_| json!(wide.to_string()), |number| json!(number))
}

fn variable(plan: &Plan, index: u32) -> Value {
    json!({ "number": u64::from(index) + u64::from(plan.first), "name": plan.names.name(index) })
}

/// What stands in the end. There is no plan where it was refused, and no run where the solver never ran.
pub fn object(name: &str, solver: Option<&str>, plan: Option<&Plan>, verdict: &Verdict, run: Option<&Run>) -> String {
    let failing = verdict.rows.failing.iter().map(|it| json!({ "row": it.row, "line": it.line, "sum": it.sum, "bound": it.bound, "short": number(it.by) }));
    let trues = plan.map_or(Vec::new(), |plan| Variables::of(plan, verdict).trues.iter().map(|index| variable(plan, *index)).collect());
    let messages: Vec<&String> = verdict.remarks.iter().chain(&verdict.messages).collect();
    let object = json!({
        "plan": name,
        "exit_status": verdict.exit as u8,
        "solver": solver,
        "status": status_word(verdict),
        "value": verdict.rows.value.filter(|_| verdict.has_objective),
        "claimed": verdict.claimed.map(number),
        "checked": verdict.answer.is_some(),
        "rows": verdict.rows.constraints,
        "failing": failing.collect::<Vec<Value>>(),
        "true": trues,
        "completed": verdict.completed,
        "stopped": run.map_or(false, |run| run.stopped),
        "seconds": run.map(|run| run.seconds),
        "messages": messages,
    });
    format!("{}\n", object)
}
