use crate::streams::rows::{parted, written_out};
use lra_courier::classify;
use lra_model::{AskKind, Direction};
use std::alloc::Global;

// Kind, direction, code, the body between brackets, and the outcome. `~` stands for a line's end, and `^` for a line
// feed: blanks at the ends of a body don't count.
const REPLIES: &str = "complete completion 200 [Completing] -> accepted
complete completion 200 [Completed] -> done
complete completion 200 [FailedToComplete] -> failed
complete completion 200 [Compensated] -> silent
complete completion 200 [Active] -> silent
complete completion 200 [Left] -> done
complete completion 200 [completed] -> done
complete completion 200 [] -> done
complete completion 200 [ok] -> done
complete completion 200 [ FailedToComplete\t] -> failed
complete completion 200 [ \"FailedToComplete\" ] -> failed
complete completion 200 [\" FailedToComplete\"] -> done
complete completion 200 [\"\"FailedToComplete\"\"] -> done
complete completion 200 [\"FailedToComplete] -> done
complete completion 200 [\"] -> done
complete completion 201 [FailedToComplete] -> silent
complete completion 202 [Completed] -> accepted
complete completion 204 [] -> done
complete completion 404 [] -> silent
complete completion 409 [] -> failed
complete completion 410 [] -> done
complete completion 412 [] -> silent
complete completion 500 [Completed] -> silent
complete completion 999 [] -> silent
compensate compensation 200 [Compensating] -> accepted
compensate compensation 200 [Compensated] -> done
compensate compensation 200 [FailedToCompensate] -> failed
compensate compensation 200 [FailedToComplete] -> silent
compensate compensation 202 [] -> accepted
compensate compensation 204 [] -> done
compensate compensation 409 [] -> failed
compensate compensation 410 [] -> done
compensate compensation 303 [] -> silent
status completion 200 [Completing] -> accepted
status completion 200 [\"Completed\"] -> done
status completion 200 [FailedToComplete] -> failed
status completion 200 [Compensated] -> silent
status compensation 200 [Compensating] -> accepted
status compensation 200 [Compensated] -> done
status compensation 200 [FailedToCompensate] -> failed
status compensation 200 [Completed] -> silent
status completion 200 [Active] -> silent
status completion 200 [] -> silent
status completion 200 [ok] -> silent
status completion 202 [] -> accepted
status completion 204 [] -> silent
status completion 409 [] -> silent
status completion 410 [] -> done
status completion 412 [] -> silent
forget neither 199 [] -> silent
forget neither 200 [FailedToComplete] -> done
forget neither 202 [] -> done
forget neither 299 [] -> done
forget neither 300 [] -> silent
forget neither 409 [] -> silent
forget neither 410 [] -> done
after neither 200 [] -> done
after neither 204 [] -> done
after neither 300 [] -> silent
after neither 410 [] -> done
after neither 500 [] -> silent
compensate compensation 200 [~\t Compensating \t~] -> accepted
compensate compensation 200 [^\"Compensating\"^] -> accepted
compensate compensation 200 [\x0cCompensating] -> done
compensate compensation 200 [Compen sating] -> done";

// Returns the name of a reply's outcome.
fn outcome_of(kind: &str, direction: &str, code: &str, body: &str) -> Option<&'static str> {
    let kind = AskKind::from_name(kind.as_bytes())?;
    let direction = Direction::from_name(direction.as_bytes())?;
    let code = code.parse::<u16>().ok()?;
    Some(classify(kind, direction, code, body.as_bytes()).name())
}

// Returns whether a row's reply has the row's outcome.
fn row_holds(alloc: Global, row: &str) -> bool {
    let row = written_out(alloc, row);
    let (call, reply) = parted(row.as_str(), " [");
    let (kind, call) = parted(call, " ");
    let (direction, code) = parted(call, " ");
    let (body, outcome) = parted(reply, "] -> ");
    let holds = outcome_of(kind, direction, code, body) == Some(outcome);
    drop(row);
    holds
}

#[test]
fn replies_come_to_outcomes(rt: HostRuntime) {
    for row in REPLIES.lines() {
        assert!(rt; row_holds(rt.alloc(), row), "{row}");
    }
}
