//! The hand-written walk: the paper's rehearsed cases, and every place where the paper could be read another way, as
//! far as it can be seen from outside.
//!
//! Each point is a short script in a market of its own, with what must be answered to each line, worked out by hand
//! from the paper. Together they open tests/vectors/commands; each is also a test of this program, under its name.
//! The program `book` is not this program's concern.

#[cfg(test)]
use crate::instrument::Instrument;
use crate::script::Script;

pub mod cases;

pub mod checks;

pub mod clock;

pub mod copies;

pub mod day;

pub mod feeds;

pub mod forged;

pub mod messages;

pub mod minimums;

pub mod morning;

pub mod opening;

pub mod overnight;

pub mod reading;

pub mod refusals;

pub mod reports;

pub mod running;

pub mod session;

pub mod share_examples;

pub mod share_feeds;

pub mod share_orders;

pub mod share_reading;

pub mod share_reports;

pub mod share_running;

pub mod share_tables;

pub mod top;

pub mod turns;

/// A point: it adds its lines to a script.
type Point = fn(&mut Script);

/// Lists the points of a market in their order and makes a test of each.
macro_rules! points {
    ($list:ident $tests:ident $instrument:ident $($module:ident { $($name:ident)* })*) => {
        const $list: &[Point] = &[$($($module::$name,)*)*];

        #[cfg(test)]
        mod $tests {
            $($(
                #[test]
                fn $name() {
                    super::hold(super::Instrument::$instrument, super::$module::$name);
                }
            )*)*
        }
    };
}

points! {
    OF_BONDS bonds Bonds
    refusals {
        before_open_submit_run_and_depth_are_refused_as_no_market
        refusals_of_submit_come_in_the_order_of_their_numbers
        refusals_of_run_and_depth_come_in_the_order_of_their_numbers
    }
    cases {
        case_1_cancel_newest_leaves_what_stands_behind
        case_2_cancel_oldest_goes_on
        case_3_decrement_takes_200_off_the_buy
        case_4_decrement_of_equal_sizes_cancels_both
        case_5_decrement_of_a_larger_resting_order
        case_6_orders_without_mpid_trade
        case_7_rest_of_an_ioc_is_canceled
        case_8_buy_above_sell_is_no_trade
        case_9_negative_yields_trade
        case_10_level_total_above_32_bits
        case_11_average_is_rounded
        mirror_of_case_11_is_rounded_away_from_zero
        case_12_limits_of_quantity_and_area
    }
    day {
        case_12_the_table_fills_up_and_goes_on
        an_order_id_is_the_number_of_its_accepted_report
    }
    messages {
        leading_zeros_in_34_are_taken
        leading_zeros_in_9_are_taken_up_to_four_digits
        equals_sign_in_a_value_is_a_character
        spaces_are_characters
        empty_header_values_are_garbled_and_empty_body_values_are_not
        header_tags_and_10_in_the_body_are_garbled
        tags_of_another_shape_are_garbled
        times_of_any_year_and_31_days_but_no_second_60
        other_header_fields_between_are_garbled_and_after_56_undefined
        lengths_0_1024_and_1025
        body_field_without_value_has_the_shape_of_a_field
        checksum_is_exactly_three_digits
        another_begin_string_is_garbled
        other_types_of_one_or_two_characters
        garbled_comes_before_any_session_reject
        garbled_bytes_order_and_truth
    }
    session {
        fields_are_asked_one_by_one_from_the_left
        tags_of_no_list_are_undefined
        tags_of_another_type
        session_reject_says_tag_type_and_number
        type_then_sender_then_target
        one_character_is_shape_and_the_set_is_values
        zeros_in_38_and_109
        yields_have_a_shape_only
        transact_time_shape_before_ranges
        ids_and_account_have_a_longest_length
        symbol_has_a_shape_only
        order_qty_of_a_cancel_is_looked_at_and_not_used
        smallest_missing_tag
        values_are_compared_in_their_case
        sequence_numbers_and_times_are_not_compared
    }
    clock {
        sending_time_has_17_or_21_characters
        transact_time_has_17_or_21_characters
        milliseconds_are_a_point_and_three_digits
        ranges_of_a_time_with_milliseconds
        reports_have_the_length_of_the_sending_time
        every_kind_of_report_says_the_milliseconds
        stored_time_keeps_its_milliseconds
        whole_bytes_with_milliseconds
    }
    checks {
        mpids_are_compared_as_numbers
        codes_are_compared_as_text
        reasons_103_in_their_order
        an_id_given_up_is_free_again
        new_id_equal_to_the_old_one
        reasons_102_in_their_order
        another_code_still_names_the_order
        status_of_a_cancel_reject
        quantity_of_rejected_is_written_as_a_number
        replace_keeps_everything_else
        an_ioc_has_nothing_open_afterwards
        replace_quantity_against_executed_and_decremented
        rejected_and_cancel_reject_have_their_tags_alone
    }
    running {
        a_step_of_its_own_ends_the_work
        done_within_m_plus_1_steps
        prevention_of_an_ioc_leaves_no_rest
        decremented_ioc_goes_on_and_its_rest_is_canceled
        a_decrement_keeps_the_place
        run_with_nothing_to_do
        room_is_asked_before_each_step
        sending_time_stays_while_run_stops
        a_cancel_is_done_in_submit
        a_refused_run_gives_zeros
        one_mpid_alone_does_not_prevent
        cancel_oldest_goes_on_to_the_next
        the_mode_is_that_of_the_mpid
        best_is_by_yield_then_by_place
    }
    turns {
        a_reduced_order_trades_before_the_one_that_came_after_it
        a_raised_order_trades_behind_the_one_that_came_after_it
        a_replacement_that_changes_nothing_keeps_its_place
        a_reduction_at_another_yield_takes_a_new_place
        a_reduction_raised_back_takes_a_new_place
        quantity_is_compared_with_the_one_in_force_not_with_what_is_open
        quantity_in_force_is_not_lowered_by_a_decrement
        yields_are_compared_as_numbers
        a_rejected_replacement_leaves_the_place
        places_kept_and_taken_among_many
    }
    minimums {
        a_fill_or_kill_trades_all_or_nothing
        a_minimum_in_mode_1_ends_at_the_first_order_of_ones_own
        a_minimum_in_mode_2_passes_over_ones_own
        a_minimum_in_mode_3_is_used_up_by_ones_own
        a_sell_has_a_minimum_like_a_buy
        deciding_is_part_of_the_first_step
        a_killed_order_is_canceled_like_any_other
        shape_and_values_of_a_minimum
        a_minimum_beside_other_fields
        a_minimum_belongs_to_a_new_order_alone
        reports_show_the_minimum_that_was_sent
        whole_bytes_with_minimums
    }
    opening {
        levels_past_the_last
        in_work_comes_before_a_wrong_side
        only_open_orders_make_a_level
        first_number_up_to_its_limit
        settings_that_look_odd_and_are_good
        open_starts_anew
        numbers_given_back
        spent_numbers_stop_submit_only
        limits_of_open
        a_refused_open_changes_nothing
    }
    top {
        refusals_of_top_come_in_the_order_of_their_numbers
        top_is_the_lowest_buy_and_the_highest_sell
        top_after_each_thing_that_happens
        top_after_what_changes_nothing
        top_of_large_levels_and_far_yields
    }
    forged {
        bytes_stand_at_their_places
        no_market_whatever_the_call
        headings_that_are_none
        best_levels_that_are_not_the_books
        decisions_without_cause
        minimums_out_of_their_rules
        records_that_are_none
        changed_tables_that_are_a_market
        numbers_that_do_not_suffice
    }
    reports {
        whole_bytes_of_each_kind
        tag_375_stands_before_382
        tag_378_is_absent_on_a_requested_replaced
        tag_41_on_requested_cancels_and_replaced
        tag_39_is_2_when_nothing_is_open
        tag_39_on_replaced_is_1_or_5
        account_and_mpid_only_where_the_order_has_them
        tags_11_and_44_always_stand_on_replaced
        average_is_the_nearest_millionth
        halves_of_a_millionth_go_away_from_zero
        average_of_the_largest_sums
        replace_keeps_average_and_executed
        own_yield_and_resting_yield
        transact_time_is_the_sending_time
        numbers_go_up_by_one
        contra_is_the_other_mpid
        symbol_of_rejected_is_the_messages
        short_body_length_has_two_digits
        leaves_before_matching
    }
    reading {
        read_fields_with_one_written_value
        read_three_forms_of_canceled
        read_compares_no_field_with_another
        read_ranges_of_report_numbers
        read_371_has_the_shape_of_a_tag
        read_372_is_one_or_two_characters
        read_sets_of_values
        read_ranges_of_mpids
        read_quantities_of_zero
        read_order_ids
        read_39_on_replaced
        read_yields_and_averages
        read_restatement_reasons_stand_alone
        read_texts_and_times
        read_takes_both_lengths_of_time
        read_one_report_and_nothing_after_it
        read_seven_kinds
        read_body_length_is_canonical_and_true
        read_account_and_mpid_on_the_execution_kinds_only
        read_minimums
        read_wants_tags_in_their_order
    }
    feeds {
        whole_bytes_of_each_copy
        a_full_feed_copies_all_that_happens_to_an_order
        a_reconciliation_feed_copies_trades_alone
        a_feed_counts_its_copies
        first_and_last_number_of_a_feed
        lengths_of_one_identifier
        lengths_of_two_identifiers
        bytes_of_identifiers
        an_identifier_that_is_not_shown_is_not_looked_at
        settings_that_mean_nothing
        areas_of_a_feed
        refusals_of_a_feed_come_in_their_order
        what_is_no_report_is_not_copied
        a_copy_is_the_report_but_for_six_fields
        a_fill_or_kill_is_copied_as_an_ioc_with_a_minimum
        fields_that_look_like_others_are_not_touched
        the_longest_copies
    }
    copies {
        copies_of_four_kinds_are_read
        a_report_is_no_copy
        copy_indicator_is_y_in_its_place
        identifiers_of_a_copy
        numbers_of_a_copy
        ranges_and_sets_of_a_copy_are_those_of_a_report
        minimums_of_a_copy
        forms_of_a_copy_are_those_of_a_report
        one_copy_and_nothing_beside_it
        tags_of_a_copy_stand_in_their_order
    }
    overnight {
        an_image_is_65_blocks_with_a_check_each
        an_order_in_work_is_kept_overnight
        refusals_of_save_and_restore_come_in_their_order
        a_changed_image_is_noticed
        an_image_that_is_no_market
    }
    morning {
        messages_lie_one_behind_another
        book_r_in_one_call
        buffers_cut_at_every_byte
        lengths_that_cannot_be_read
        garbled_messages_between_good_ones
        areas_that_end_at_each_place_of_a_sweep
        room_in_front_of_a_message
        refusals_of_load_come_in_their_order
        the_last_numbers_of_a_load
    }
}

points! {
    OF_EQUITIES equities Equities
    share_examples {
        cancel_newest_as_printed
        cancel_oldest_as_printed
        decrement_as_printed
    }
    share_orders {
        share_settings_of_open
        prices_have_a_shape_only
        sides_of_shares
        a_change_names_the_side_exactly
        symbols_of_shares
        cash_or_margin_is_needed_on_a_new_order
        margin_types_belong_to_margin_orders
        the_last_checks_before_missing_tags
        reasons_of_share_rejects_in_their_order
        messages_of_shares_are_garbled_like_any
    }
    share_running {
        a_higher_price_is_the_better_buy
        every_sell_stands_on_side_2
        best_prices_after_each_thing_that_happens
        refusals_of_share_calls_come_in_their_order
        shares_that_do_not_stay
        share_minimums
        share_turns
        prevention_between_kinds_of_sells
        rooms_and_budgets_of_shares
        prices_at_their_limits
        numbers_of_shares_run_out
        a_table_full_of_shares
    }
    share_reports {
        whole_bytes_of_each_share_report
        share_marks_on_reports
        average_price_is_the_nearest_ten_thousandth
        milliseconds_of_shares
    }
    share_tables {
        share_bytes_stand_at_their_places
        each_market_refuses_the_others_calls
        kinds_of_table
        share_headings_that_are_none
        share_records_that_are_none
        bond_records_with_shares_fields
        sums_at_both_ends_of_their_range
        changed_share_tables_that_are_a_market
    }
    share_reading {
        read_seven_kinds_of_share_reports
        read_prices_and_averages
        read_sides_and_symbols_of_shares
        read_share_marks
        read_no_field_of_bonds
        read_share_numbers_and_texts
        read_damaged_share_reports
        each_market_reads_its_own
    }
    share_feeds {
        whole_bytes_of_share_copies
        share_feeds_copy_what_bond_feeds_copy
        lengths_of_identifiers_of_a_share_feed
        refusals_of_a_share_feed_come_in_their_order
        a_share_fill_or_kill_is_copied_as_an_ioc
        copies_of_shares_are_read
        damaged_copies_of_shares
    }
    overnight {
        shares_are_kept_overnight
    }
    morning {
        shares_in_one_call
    }
}

/// The lines of all points about the bond market, in their order; its calls are made.
pub fn lines_of_bonds() -> Vec<String> {
    lines(OF_BONDS)
}

/// The lines of all points about the equities market, in their order; its calls are made, before and after.
pub fn lines_of_equities() -> Vec<String> {
    lines(OF_EQUITIES)
}

fn lines(points: &[Point]) -> Vec<String> {
    let mut script = Script::new();
    for point in points {
        point(&mut script);
    }
    script.lines().map(str::to_string).collect()
}

/// Runs one point and stops at the first answer that is not what was expected.
#[cfg(test)]
fn hold(instrument: Instrument, point: Point) {
    let mut script = Script::new();
    script.calls(instrument);
    point(&mut script);
    if let Err(why) = script.check() {
        panic!("{why}");
    }
}
