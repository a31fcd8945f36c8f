//! What check says of a file, as one JSON object on one line.
use super::walk::Finding;
use super::Checked;
use crate::advice;
use crate::header::Header;
use crate::input::Input;
use crate::output::Status;
use crate::report;
use opb::Refusal;
use serde_json::{json, Value};

fn refusal(refusal: &Refusal, advice: &str) -> Value {
    json!({"number": refusal.reason.number(), "meaning": refusal.reason.meaning(), "place": refusal.place, "line": null, "column": null, "text": null, "advice": advice})
}

/// The last line differs from the line where blank lines follow one another.
fn finding(file: &[u8], finding: &Finding) -> Value {
    let (line, at) = (&finding.line, finding.refusal.place as usize - finding.line.start);
    let mut object = refusal(&finding.refusal, &advice::of(file, line, &finding.refusal));
    object["line"] = json!(line.number);
    object["column"] = json!(at + 1);
    object["text"] = json!(report::part(line, at).0);
    object["last_line"] = json!(line.number + finding.lines - 1);
    object
}

fn header(header: &Header) -> Value {
    json!({"variables": header.variables, "constraints": header.constraints})
}

fn object(name: &str, status: Status) -> Value {
    json!({
        "name": name, "accepted": status == Status::Accepted,
        "rows": null, "comments": null, "constraints": null, "objectives": null, "terms": null, "variables": null, "highest": null, "names": null, "header": null,
        "refusals": [], "refused": 0, "warnings": [], "remark": null, "status": status as u8,
    })
}

fn printed(object: &Value) -> String {
    format!("{}\n", object)
}

/// Of a file that cannot be read, or not for want of memory; standard error says why.
pub fn of_trouble(name: &str, status: Status) -> String {
    printed(&object(name, status))
}

pub(super) fn of(input: &Input, checked: &Checked, first: u32) -> String {
    let mut object = object(&input.name, checked.status());
    match checked {
        Checked::Accepted { sums, warnings, remark } => {
            let counts = [
                ("rows", sums.rows),
                ("comments", sums.comments),
                ("constraints", sums.constraints()),
                ("objectives", sums.objectives),
                ("terms", sums.terms),
                ("variables", sums.variables.len()),
                ("names", sums.names.indexes.len()),
            ];
            counts.into_iter().for_each(|(name, count)| object[name] = json!(count));
            object["highest"] = json!(sums.highest(first));
            object["header"] = sums.header.as_ref().map_or(Value::Null, header);
            object["warnings"] = json!(warnings);
            object["remark"] = json!(remark);
        }
        Checked::Refused { findings, refused } => {
            object["refusals"] = findings.iter().map(|it| finding(&input.bytes, it)).collect();
            object["refused"] = json!(refused);
        }
        Checked::TooLong(length) => object["refusals"] = json!([refusal(length, length.reason.advice())]),
    }
    printed(&object)
}
