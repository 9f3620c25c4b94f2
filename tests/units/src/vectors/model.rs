//! Words of the model: names, statuses, outcomes that suit, numbers of coordinators, and copies.

use crate::vectors::texts::assert_told;
use lra_model::{
    ActionStatus, AskKind, Deed, Ending, Entry, Instance, MemberStatus, Outcome, Rule, Uris,
    Version, suits,
};
use std::alloc::Global;

#[test]
fn statuses_have_the_names_of_the_standard(rt: HostRuntime) {
    assert!(rt; ActionStatus::FailedToClose.name() == "FailedToClose");
    assert!(rt; ActionStatus::from_name(b"closed").is_none());
    assert!(rt; MemberStatus::from_name(b"Left") == Some(MemberStatus::Left));
    assert!(rt; MemberStatus::from_name(b"Left ").is_none());
    assert!(rt; Ending::from_name(b"Left").is_none());
}

#[test]
fn words_are_read(rt: HostRuntime) {
    assert!(rt; AskKind::from_name(b"after") == Some(AskKind::After));
    assert!(rt; Outcome::from_name(b"accepted") == Some(Outcome::Accepted));
    assert!(rt; Version::from_name(b"3").is_none());
    assert!(rt; Rule::from_name(b"unsettled") == Some(Rule::Unsettled));
    assert!(rt; Rule::Header.name() == "header");
}

#[test]
fn statuses_are_told_apart(rt: HostRuntime) {
    assert!(rt;
        ActionStatus::Active.is_cancellable() && ActionStatus::FailedToClose.is_cancellable()
    );
    assert!(rt; !ActionStatus::Cancelled.is_cancellable());
    assert!(rt;
        ActionStatus::FailedToClose.has_ended() && !ActionStatus::FailedToClose.is_closed()
    );
    assert!(rt; MemberStatus::FailedToComplete.has_failed() && !MemberStatus::Left.has_failed());
}

#[test]
fn outcomes_suit_kinds(rt: HostRuntime) {
    assert!(rt; suits(AskKind::Status, Outcome::Accepted));
    assert!(rt; suits(AskKind::Forget, Outcome::Silent));
    assert!(rt; !suits(AskKind::Forget, Outcome::Failed));
    assert!(rt; !suits(AskKind::After, Outcome::Accepted));
}

// Returns whether a coordinator may have this number, and has it then.
fn is_number(number: u64) -> bool {
    match Instance::new(number) {
        Some(instance) => instance.number() == number,
        None => false,
    }
}

#[test]
fn numbers_of_coordinators_end_below_two_to_sixty(rt: HostRuntime) {
    assert!(rt; is_number((1 << 60) - 1));
    assert!(rt; Instance::new(1 << 60).is_none());
}

// Returns a copy of an entry, printed.
fn shown_copy(alloc: Global, entry: &Entry) -> Option<String> {
    let copy = entry.copy().ok()?;
    let shown = format!(in alloc; "{copy:?}");
    drop(copy);
    shown.ok()
}

// Returns a copy of the entry of a member's joining with this address only, printed.
fn joined(alloc: Global, after: &str) -> Option<String> {
    let after = String::from_str(alloc, after).ok()?;
    let entry = Entry {
        by: 3,
        moment: 12,
        deed: Deed::Join {
            member: 1,
            action: 2,
            uris: Uris {
                compensate: None,
                complete: None,
                status: None,
                forget: None,
                after: Some(after),
            },
        },
    };
    let shown = shown_copy(alloc, &entry);
    drop(entry);
    shown
}

#[test]
fn a_copied_entry_has_the_same_addresses(rt: HostRuntime) {
    assert_told(
        &rt,
        "a copy",
        joined(rt.alloc(), "http://n.test/a"),
        "Entry { by: 3, moment: 12, deed: Join { member: 1, action: 2, uris: Uris { compensate: None, complete: None, status: None, forget: None, after: Some(\"http://n.test/a\") } } }",
    );
}
