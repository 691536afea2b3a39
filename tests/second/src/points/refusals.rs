//! The table of refusals: which number comes first.

use crate::compose::{cancel, new_order, order};
use crate::script::Script;

pub fn before_open_submit_run_and_depth_are_refused_as_no_market(script: &mut Script) {
    script.say("Refusal 2: nothing has been opened, so there is no market; a small area (1) is seen first");
    script.refused(&new_order("a"), 2);
    script.refused_in(1023, &new_order("a").bytes(), 1);
    script.refused_in(1024, b"", 2);
    script.run_refused(1024, 1, 2);
    script.run_refused(1023, 1, 1);
    script.depth_refused(1, 0, 2);
    script.depth_refused(3, 0, 2);
    script.top_refused(1, 2);
    script.top_refused(3, 2);
    script.say("Refusal 9 here leaves no market behind");
    script.open_with(["V", "P", "350"], 0, &[(10, 1)], 9);
    script.depth_refused(1, 0, 2);
}

pub fn refusals_of_submit_come_in_the_order_of_their_numbers(script: &mut Script) {
    script.say("Submit: 1 before 3, 3 before 5, 6, 7 and 8; afterwards all is as it was");
    script.open(1);
    script.taken(&new_order("a"), &["34=1"]);
    script.refused_in(1023, &new_order("b").bytes(), 1);
    script.refused_in(0, b"", 1);
    script.refused(&new_order("b"), 3);
    script.refused_in(1024, b"", 3);
    script.refused(&new_order("b").with("54", "3"), 3);
    script.refused(&new_order("b").with("55", "351"), 3);
    script.refused(&cancel("a", "b", "1"), 3);
    script.run(1, &[]);
    script.taken(&new_order("b"), &["34=2", "37=2"]);
    script.run(1, &[]);
    script.say("Submit: 1 before 5");
    script.refused_in(1023, b"", 1);
    script.refused_in(1024, b"", 5);
    script.say("Submit: 4 before 5, 6, 7 and 8");
    script.open_from(999_998_977, 1);
    script.refused_in(1023, &new_order("a").bytes(), 1);
    script.refused_in(1024, b"", 4);
    script.refused(&new_order("a"), 4);
    script.refused(&new_order("a").with("54", "3"), 4);
    script.refused(&new_order("a").with("55", "351"), 4);
    script.refused(&cancel("a", "b", "1"), 4);
    script.say("Submit: 3 before 4, with the next number at 999,998,977");
    script.open_from(999_998_976, 1);
    script.taken(&new_order("a"), &["34=999998976"]);
    script.refused(&new_order("b"), 3);
    script.run(1, &[]);
    script.refused(&new_order("b"), 4);
    script.say("Submit: 5 before 6, 6 before 7 and 8");
    script.open(1);
    script.refused(&new_order("a").with("54", "3").with_check_sum("000"), 5);
    script.session_reject(&new_order("a").with("54", "3").with("55", "351"), 5, 54);
    script.session_reject(&cancel("x", "a", "3"), 5, 54);
}

pub fn refusals_of_run_and_depth_come_in_the_order_of_their_numbers(script: &mut Script) {
    script.say("Run: 1 whatever else is the case; the order stays in work");
    script.open(1);
    script.rests(&order("a", "2", "5", "0.1"));
    script.taken(&order("b", "1", "5", "0.1"), &[]);
    script.run_refused(1023, 5, 1);
    script.run_refused(0, 0, 1);
    script.say("Depth: 3 before 10");
    script.depth_refused(1, 0, 3);
    script.depth_refused(0, 0, 3);
    script.run(2, &[&["37=1"], &["37=2"]]);
    script.depth_refused(0, 0, 10);
    script.depth_refused(3, 0, 10);
    script.depth_refused(u64::MAX, u64::MAX, 10);
    script.no_level(1, 0);
    script.no_level(2, 0);
}
