//! Scripts: each command has its answer, and then the lines that it appends. `|` separates scripts.

/// Scripts for a coordinator with the usual limits.
pub const SCRIPTS: &str = "\
0 0 enrol -> Clerk(1)
+ 1 0 enrol
1 0 start * 0 -> Action(1)
+ 1 0 start 1 * 0
1 5 close 1 -> Now(Closed)
+ 1 5 close 1 client
+ 1 5 end 1 Closed
1 6 close 1 -> Already(Closed)
1 7 close 2 -> refused NoSuchAction
2 8 start * 0 -> refused NoSuchClerk
audit 2 -> sound 4 entries 1 actions 0 unended 1 closed 0 cancelled
|0 0 enrol -> Clerk(1)
+ 1 0 enrol
1 10 start * 0 -> Action(1)
+ 1 10 start 1 * 0
1 11 join 1 http://p.test/u http://p.test/c http://p.test/s * * -> Member(1)
+ 1 11 join 1 1 http://p.test/u http://p.test/c http://p.test/s * *
1 12 join 1 http://q.test/u http://q.test/c * * * -> Member(2)
+ 1 12 join 2 1 http://q.test/u http://q.test/c * * *
awaited 1 0 -> AwaitsNothing
next -> never
1 20 close 1 -> Now(Closing)
+ 1 20 close 1 client
next -> at 0
1 21 ask -> ask 1 1 complete http://p.test/c
+ 1 21 ask 1 1 complete
awaited 1 0 -> Awaits { place: 0, awaited: Member { member: 1, ask: Some(1) } }
awaited 1 1 -> Awaits { place: 1, awaited: Member { member: 2, ask: None } }
1 22 ask -> ask 2 2 complete http://q.test/c
+ 1 22 ask 2 2 complete
next -> never
awaited 1 1 -> Awaits { place: 1, awaited: Member { member: 2, ask: Some(2) } }
1 23 reply 2 done -> Recorded
+ 1 23 reply 2 done
awaited 1 1 -> AwaitsNothing
listed members 1 0 -> Row { place: 0, row: Member { member: 1, status: Completing, ask: Some(1), want: None } }
listed members 1 1 -> Row { place: 1, row: Member { member: 2, status: Completed, ask: None, want: None } }
listed members 1 2 -> NoMore
listed members 2 0 -> refused NoSuchAction
counted members 1 0 -> Counted { count: 2, next: None }
counted members 1 1 -> Counted { count: 1, next: None }
counted members 2 0 -> refused NoSuchAction
1 24 reply 1 accepted -> Recorded
+ 1 24 reply 1 accepted
listed members 1 0 -> Row { place: 0, row: Member { member: 1, status: Completing, ask: None, want: Some(Want { kind: Status, repeats: 1, due: 124 }) } }
next -> at 124
awaited 1 0 -> Awaits { place: 0, awaited: Member { member: 1, ask: None } }
1 30 report 1 Completed -> MemberNow(Completed)
+ 1 30 report 1 done
+ 1 30 end 1 Closed
awaited 1 0 -> AwaitsNothing
awaited 2 0 -> refused NoSuchAction
|0 0 enrol -> Clerk(1)
+ 1 0 enrol
1 10 start * 0 -> Action(1)
+ 1 10 start 1 * 0
1 11 join 1 http://p.test/u http://p.test/c http://p.test/s * * -> Member(1)
+ 1 11 join 1 1 http://p.test/u http://p.test/c http://p.test/s * *
1 12 join 1 http://q.test/u http://q.test/c * * * -> Member(2)
+ 1 12 join 2 1 http://q.test/u http://q.test/c * * *
1 20 close 1 -> Now(Closing)
+ 1 20 close 1 client
1 21 ask -> ask 1 1 complete http://p.test/c
+ 1 21 ask 1 1 complete
1 22 ask -> ask 2 2 complete http://q.test/c
+ 1 22 ask 2 2 complete
1 23 reply 2 done -> Recorded
+ 1 23 reply 2 done
1 24 reply 1 accepted -> Recorded
+ 1 24 reply 1 accepted
1 123 ask -> Idle
1 124 ask -> ask 3 1 status http://p.test/s
+ 1 124 ask 3 1 status
1 130 report 1 Completed -> MemberNow(Completed)
+ 1 130 report 1 done
+ 1 130 end 1 Closed
1 131 report 1 Completed -> MemberAlready(Completed)
1 132 reply 3 failed -> Recorded
+ 1 132 reply 3 failed
1 133 member 1 -> MemberIs(Completed)
|0 0 enrol -> Clerk(1)
+ 1 0 enrol
1 10 start * 0 -> Action(1)
+ 1 10 start 1 * 0
1 11 join 1 http://p.test/u http://p.test/c http://p.test/s * * -> Member(1)
+ 1 11 join 1 1 http://p.test/u http://p.test/c http://p.test/s * *
1 12 join 1 http://q.test/u http://q.test/c * * * -> Member(2)
+ 1 12 join 2 1 http://q.test/u http://q.test/c * * *
1 20 close 1 -> Now(Closing)
+ 1 20 close 1 client
1 21 ask -> ask 1 1 complete http://p.test/c
+ 1 21 ask 1 1 complete
discard 1 -> discarded
1 22 ask -> ask 2 2 complete http://q.test/c
+ 1 22 ask 2 2 complete
1 23 ask -> Idle
|0 0 enrol -> Clerk(1)
+ 1 0 enrol
1 0 start * 0 -> Action(1)
+ 1 0 start 1 * 0
1 1 join 1 http://p.test/u http://p.test/c * * * -> Member(1)
+ 1 1 join 1 1 http://p.test/u http://p.test/c * * *
1 2 leave 1 1 -> Left
+ 1 2 leave 1
1 3 leave 1 1 -> refused HasLeft
1 4 close 1 -> Now(Closed)
+ 1 4 close 1 client
+ 1 4 end 1 Closed
1 5 close 1 -> Already(Closed)
1 6 ask -> Idle
|0 0 enrol -> Clerk(1)
+ 1 0 enrol
1 0 start * 0 -> Action(1)
+ 1 0 start 1 * 0
1 1 start 1 0 -> Action(2)
+ 1 1 start 2 1 0
1 2 join 2 http://n.test/u http://n.test/c * http://n.test/f http://n.test/a -> Member(1)
+ 1 2 join 1 2 http://n.test/u http://n.test/c * http://n.test/f http://n.test/a
1 3 close 2 -> Now(Closing)
+ 1 3 close 2 client
1 4 ask -> ask 1 1 complete http://n.test/c
+ 1 4 ask 1 1 complete
errand 1 -> 2 completion http://127.0.0.1:8080/lra-coordinator/00000000-0000-8007-8000-000000000002 Some(\"http://127.0.0.1:8080/lra-coordinator/00000000-0000-8007-8000-000000000001\") http://127.0.0.1:8080/lra-recovery/00000000-0000-8007-8000-000000000001 None
1 5 reply 1 done -> Recorded
+ 1 5 reply 1 done
+ 1 5 end 2 Closed
1 6 cancel 1 -> Now(Cancelling)
+ 1 6 cancel 1 client
+ 1 6 cancel 2 parent
1 7 ask -> ask 2 1 compensate http://n.test/u
+ 1 7 ask 2 1 compensate
awaited 1 0 -> Awaits { place: 0, awaited: Action { action: 2 } }
awaited 2 0 -> Awaits { place: 0, awaited: Member { member: 1, ask: Some(2) } }
listed nested 1 0 -> Row { place: 0, row: Action { action: 2, status: Cancelling, parent: Some(1) } }
listed nested 1 1 -> NoMore
listed nested 2 0 -> NoMore
listed nested 3 0 -> refused NoSuchAction
listed actions * 0 -> Row { place: 0, row: Action { action: 1, status: Cancelling, parent: None } }
listed actions * 1 -> Row { place: 1, row: Action { action: 2, status: Cancelling, parent: Some(1) } }
listed actions * 2 -> NoMore
listed actions Cancelling 1 -> Row { place: 1, row: Action { action: 2, status: Cancelling, parent: Some(1) } }
listed actions Closed 0 -> NoMore
counted nested 1 0 -> Counted { count: 1, next: None }
counted actions * 0 -> Counted { count: 2, next: None }
counted actions Cancelling 1 -> Counted { count: 1, next: None }
counted actions Closed 0 -> Counted { count: 0, next: None }
1 8 reply 2 done -> Recorded
+ 1 8 reply 2 done
+ 1 8 end 2 Cancelled
+ 1 8 end 1 Cancelled
1 9 ask -> ask 3 1 after http://n.test/a
+ 1 9 ask 3 1 after
errand 3 -> 2 neither http://127.0.0.1:8080/lra-coordinator/00000000-0000-8007-8000-000000000002 Some(\"http://127.0.0.1:8080/lra-coordinator/00000000-0000-8007-8000-000000000001\") http://127.0.0.1:8080/lra-recovery/00000000-0000-8007-8000-000000000001 Some(Cancelled)
1 10 reply 3 silent -> Recorded
+ 1 10 reply 3 silent
1 109 ask -> Idle
1 110 ask -> ask 4 1 after http://n.test/a
+ 1 110 ask 4 1 after
1 111 reply 4 done -> Recorded
+ 1 111 reply 4 done
audit 2 -> sound 18 entries 2 actions 0 unended 0 closed 2 cancelled
|0 0 enrol -> Clerk(1)
+ 1 0 enrol
1 0 start * 0 -> Action(1)
+ 1 0 start 1 * 0
1 1 start 1 0 -> Action(2)
+ 1 1 start 2 1 0
1 2 join 2 http://n.test/u http://n.test/c * http://n.test/f http://n.test/a -> Member(1)
+ 1 2 join 1 2 http://n.test/u http://n.test/c * http://n.test/f http://n.test/a
1 3 close 2 -> Now(Closing)
+ 1 3 close 2 client
1 4 ask -> ask 1 1 complete http://n.test/c
+ 1 4 ask 1 1 complete
1 5 cancel 1 -> Now(Cancelling)
+ 1 5 cancel 1 client
1 6 reply 1 done -> Recorded
+ 1 6 reply 1 done
+ 1 6 end 2 Closed
+ 1 6 cancel 2 parent
|0 0 enrol -> Clerk(1)
+ 1 0 enrol
1 0 start * 0 -> Action(1)
+ 1 0 start 1 * 0
1 1 start 1 0 -> Action(2)
+ 1 1 start 2 1 0
1 2 join 2 http://n.test/u http://n.test/c * http://n.test/f http://n.test/a -> Member(1)
+ 1 2 join 1 2 http://n.test/u http://n.test/c * http://n.test/f http://n.test/a
1 3 close 2 -> Now(Closing)
+ 1 3 close 2 client
1 4 ask -> ask 1 1 complete http://n.test/c
+ 1 4 ask 1 1 complete
1 5 reply 1 failed -> Recorded
+ 1 5 reply 1 failed
+ 1 5 end 2 FailedToClose
1 6 close 1 -> Now(FailedToClose)
+ 1 6 close 1 client
+ 1 6 end 1 FailedToClose
1 7 ask -> ask 2 1 forget http://n.test/f
+ 1 7 ask 2 1 forget
1 8 reply 2 done -> Recorded
+ 1 8 reply 2 done
1 9 ask -> ask 3 1 after http://n.test/a
+ 1 9 ask 3 1 after
audit 2 -> sound 13 entries 2 actions 0 unended 0 closed 0 cancelled failed 1 FailedToClose 1 failed 2 FailedToClose 1
|0 0 enrol -> Clerk(1)
+ 1 0 enrol
1 0 start * 0 -> Action(1)
+ 1 0 start 1 * 0
1 1 start 1 0 -> Action(2)
+ 1 1 start 2 1 0
1 2 join 2 http://n.test/u http://n.test/c * http://n.test/f http://n.test/a -> Member(1)
+ 1 2 join 1 2 http://n.test/u http://n.test/c * http://n.test/f http://n.test/a
1 3 cancel 2 -> Now(Cancelling)
+ 1 3 cancel 2 client
1 4 ask -> ask 1 1 compensate http://n.test/u
+ 1 4 ask 1 1 compensate
1 5 reply 1 done -> Recorded
+ 1 5 reply 1 done
+ 1 5 end 2 Cancelled
1 6 close 1 -> Now(Closed)
+ 1 6 close 1 client
+ 1 6 end 1 Closed
audit 2 -> sound 10 entries 2 actions 0 unended 1 closed 1 cancelled
|0 1000 enrol -> Clerk(1)
+ 1 1000 enrol
1 1000 start * 100 -> Action(1)
+ 1 1000 start 1 * 100
1 1099 tick -> Idle
next -> at 1100
1 1100 tick -> Fired(1)
+ 1 1100 cancel 1 limit
+ 1 1100 end 1 Cancelled
next -> never
1 500 start * 18446744073709551615 -> refused LimitTooFar
1 500 start * 18446744073709550515 -> Action(2)
+ 1 1100 start 2 * 18446744073709550515
next -> at 18446744073709551615
|0 0 enrol -> Clerk(1)
+ 1 0 enrol
1 0 start * 0 -> Action(1)
+ 1 0 start 1 * 0
1 1 join 1 * http://p.test/c * * * -> refused BadAddresses
1 1 join 1 * * * * * -> refused BadAddresses
1 1 join 1 https://p.test/u * * * * -> refused BadAddresses
1 1 join 1 http://p.test/u * * * * -> Member(1)
+ 1 1 join 1 1 http://p.test/u * * * *
1 2 join 1 http://p.test/u * * * * -> AlreadyMember(1)
|0 0 enrol -> Clerk(1)
+ 1 0 enrol
1 0 start * 0 -> Action(1)
+ 1 0 start 1 * 0
1 1 join 1 http://p.test/u http://p.test/c * * * -> Member(1)
+ 1 1 join 1 1 http://p.test/u http://p.test/c * * *
1 2 close 1 -> Now(Closing)
+ 1 2 close 1 client
1 3 ask -> ask 1 1 complete http://p.test/c
+ 1 3 ask 1 1 complete
1 4 restart -> Restarted
+ 1 4 restart
1 5 reply 1 done -> refused NotAsked
1 6 ask -> ask 2 1 complete http://p.test/c
+ 1 6 ask 2 1 complete
|0 0 enrol -> Clerk(1)
+ 1 0 enrol
1 0 start * 0 -> Action(1)
+ 1 0 start 1 * 0
1 1 join 1 http://p.test/u * * * * -> Member(1)
+ 1 1 join 1 1 http://p.test/u * * * *
1 2 close 1 -> Now(Closed)
+ 1 2 close 1 client
+ 1 2 skip 1
+ 1 2 end 1 Closed
|0 0 enrol -> Clerk(1)
+ 1 0 enrol
1 0 start * 100 -> Action(1)
+ 1 0 start 1 * 100
next -> at 100
1 90 renew 1 100 -> Renewed
+ 1 90 renew 1 100
1 90 renew 1 18446744073709551615 -> refused LimitTooFar
next -> at 190
1 100 tick -> Idle
1 189 tick -> Idle
1 190 tick -> Fired(1)
+ 1 190 cancel 1 limit
+ 1 190 end 1 Cancelled
1 191 renew 1 5 -> refused NotActive(Cancelled)
audit 2 -> sound 5 entries 1 actions 0 unended 0 closed 1 cancelled
audit 1 -> unsound line 4 grammar
|0 0 enrol -> Clerk(1)
+ 1 0 enrol
1 0 start * 0 -> Action(1)
+ 1 0 start 1 * 0
1 1 start 1 0 -> Action(2)
+ 1 1 start 2 1 0
1 2 join 2 http://n.test/u http://n.test/c * http://n.test/f http://n.test/a -> Member(1)
+ 1 2 join 1 2 http://n.test/u http://n.test/c * http://n.test/f http://n.test/a
1 3 close 2 -> Now(Closing)
+ 1 3 close 2 client
1 4 ask -> ask 1 1 complete http://n.test/c
+ 1 4 ask 1 1 complete
1 5 reply 1 done -> Recorded
+ 1 5 reply 1 done
+ 1 5 end 2 Closed
1 6 cancel 2 -> Now(Cancelling)
+ 1 6 cancel 2 client
1 7 ask -> ask 2 1 compensate http://n.test/u
+ 1 7 ask 2 1 compensate
1 8 reply 2 done -> Recorded
+ 1 8 reply 2 done
+ 1 8 end 2 Cancelled
1 9 close 1 -> Now(Closed)
+ 1 9 close 1 client
+ 1 9 end 1 Closed
1 10 cancel 1 -> refused NotActive(Closed)
audit 2 -> sound 14 entries 2 actions 0 unended 1 closed 1 cancelled
audit 1 -> unsound line 10 cause
";

/// Scripts for small limits. The first line has the limits: clerks, actions, members, entries, and the depth of nested
/// actions.
pub const LIMITED: &str = "\
1 2 1 4 2
0 0 enrol -> Clerk(1)
+ 1 0 enrol
1 0 start * 0 -> Action(1)
+ 1 0 start 1 * 0
1 0 start 1 0 -> Action(2)
+ 1 0 start 2 1 0
1 0 start 2 0 -> refused TooDeep
1 0 start * 0 -> refused Full(Actions)
1 0 close 1 -> refused Full(Entries)
1 0 status 1 -> ActionIs(Active)
1 0 join 1 http://p.test/u * * * * -> Member(1)
+ 1 0 join 1 1 http://p.test/u * * * *
1 0 report 1 Completed -> refused NotAsked
1 0 leave 2 1 -> refused WrongAction
|1 2 0 4 2
0 0 enrol -> Clerk(1)
+ 1 0 enrol
0 0 enrol -> refused Full(Clerks)
1 0 start * 0 -> Action(1)
+ 1 0 start 1 * 0
1 0 start * 0 -> Action(2)
+ 1 0 start 2 * 0
1 0 start * 0 -> refused Full(Actions)
1 0 join 1 http://p.test/u * * * * -> refused Full(Members)
1 0 close 1 -> refused Full(Entries)
1 0 status 1 -> ActionIs(Active)
|1 1 0 4 1
0 0 enrol -> Clerk(1)
+ 1 0 enrol
1 0 start * 0 -> Action(1)
+ 1 0 start 1 * 0
1 0 close 1 -> Now(Closed)
+ 1 0 close 1 client
+ 1 0 end 1 Closed
1 0 close 1 -> Already(Closed)
1 0 start * 0 -> refused Full(Actions)
|1 0 0 1 0
0 0 enrol -> Clerk(1)
+ 1 0 enrol
2 1 start * 18446744073709551615 -> refused NoSuchClerk
1 1 start * 18446744073709551615 -> refused LimitTooFar
1 1 start * 0 -> refused TooDeep
2 0 close 2 -> refused NoSuchClerk
1 0 close 2 -> refused NoSuchAction
0 0 enrol -> refused Full(Clerks)
|1 1 0 3 1
0 0 enrol -> Clerk(1)
+ 1 0 enrol
1 1 start * 18446744073709551614 -> Action(1)
+ 1 1 start 1 * 18446744073709551614
1 0 start * 18446744073709551615 -> refused LimitTooFar
1 0 start * 0 -> refused Full(Actions)
";

/// Number of entries that fit, the fault of the opening, and the journal.
pub const OPENED: &str = "\
100 5 ending
lra-journal 1 7
1 0 enrol
1 0 start 1 * 0
1 5 close 1 client
1 5 end 1 FailedToClose
|100 5 cause
lra-journal 2 7
1 0 enrol
1 0 start 1 * 100
1 90 renew 1 100
1 100 cancel 1 limit
|10 Full
lra-journal 2 7
1 0 enrol
1 10 start 1 * 0
1 11 join 1 1 http://p.test/u http://p.test/c http://p.test/s * *
1 12 join 2 1 http://q.test/u http://q.test/c * * *
1 20 close 1 client
1 21 ask 1 1 complete
1 22 ask 2 2 complete
1 23 reply 2 done
1 24 reply 1 accepted
1 30 report 1 done
1 30 end 1 Closed
";

/// Journal whose last block lacks its end, and a script for the coordinator that is opened from it.
pub const TORN: [&str; 2] = [
    "\
lra-journal 1 7
1 0 enrol
1 0 start 1 * 0
1 1 join 1 1 http://p.test/u * * * *
1 2 close 1 client
",
    "\
0 9 enrol -> Clerk(2)
+ 2 9 enrol
+ 2 9 skip 1
+ 2 9 end 1 Closed
2 9 restart -> Restarted
+ 2 9 restart
2 9 renew 1 5 -> refused OldJournal
",
];

/// Between `|`: a moment and the refusal of a renewal then, the journal that is reopened, and after `>` the text that
/// is written.
pub const REOPENED: &str = "\
9 OldJournal
lra-journal 1 7
1 0 enrol
1 0 start 1 * 0
1 1 join 1 1 http://p.test/u * * * *
1 2 close 1 client
1 2 sk>2 9 enrol
2 9 skip 1
2 9 end 1 Closed
2 9 restart
|40 NotActive
lra-journal 2 7
1 0 enrol
1 10 start 1 * 0
1 11 join 1 1 http://p.test/u http://p.test/c http://p.test/s * *
1 12 join 2 1 http://q.test/u http://q.test/c * * *
1 20 close 1 client
1 21 ask 1 1 complete
1 22 ask 2 2 complete
1 23 reply 2 done
1 24 reply 1 accepted
1 30 report 1 done
>2 40 enrol
2 40 end 1 Closed
2 40 restart
";
