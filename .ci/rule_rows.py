"""What rule_index.py has by hand: the wrong bodies of each rule, and those that are of every rule."""

EDITS = {
    "L1": "scj_lexer/sign_left_out scj_lexer/tab_no_blank",
    "L2": "scj_lexer/number_one_larger",
    "L3": "scj_lexer/open_comment_as_bad_byte scj_lexer/overlapping_close",
    "L4": "scj_lexer/name_one_shorter",
    "P1": "parser_steps/place_one_token_late scj_parser/stops_are_too_deep scj_check/grammar_break_dropped",
    "P2": "scj_parser/deep_at_64 scj_parser/first_node_named "
    "scj_parser/super_call_under_no_block",
    "C1": "class_rules/later_class_has_the_name",
    "C2": "class_rules/forbidden_super_by_another_rule",
    "C3": "class_headers/cycles_forgiven",
    "C4": "class_rules/earlier_names_forgotten class_rows/class_lost symbol_table/look_up_begins_at_the_class",
    "C5": "class_rules/earlier_names_forgotten",
    "C6": "class_rules/parameters_compared_with_themselves symbol_table/names_stay_when_a_class_is_left "
    "class_rows/a_step_leads_too_far",
    "C7": "node_views/static_is_abstract class_rules/framework_methods_left_open "
    "class_rows/open_names_stay_open",
    "C8": "class_table/safelets_left_out "
    "scj_tree/first_file_left_out",
    "C9": "node_rules/cast_of_any_class",
    "C10": "class_headers/too_many_either_way class_rules/forbidden_super_by_another_rule",
    "C11": "node_rules/local_at_its_value node_rules/static_class "
    "class_rows/another_name_is_told class_table/runs_are_not_told",
    "K1": "class_rules/last_allowed_class_is_too_many",
    "K2": "node_rules/one_local_more",
    "K3": "node_rules/one_parameter_more",
    "K4": "symbol_table/fields_above_are_not_counted",
    "T1": "type_check/unknown_name_passed_over node_contexts/local_known_in_its_own_value "
    "node_contexts/local_known_below_an_if_alone",
    "T2": "program_facts/same_variable_again",
    "T3": "type_check/operands_swapped",
    "T4": "type_rules/static_field_through_a_value class_rows/field_above_lost class_rows/one_change_too_late",
    "T5": "type_rules/size_method_called class_rows/framework_root_not_asked",
    "T6": "type_rules/more_arguments_than_parameters node_views/first_parameter_twice",
    "T7": "type_rules/value_and_target_swapped",
    "T8": "type_rules/condition_of_int",
    "T9": "type_words/void_is_long",
    "T10": "type_words/loops_never_return type_words/one_branch_returns type_words/while_true_may_end",
    "T11": "type_rules/static_class_made",
    "T12": "type_rules/cast_of_any_reference",
    "T13": "program_facts/object_in_static_members",
    "T14": "type_words/largest_size_refused",
    "S1": "scope_tree/entered_under_the_parent",
    "S2": "scope_tree/place_of_the_scope",
    "S3": "scope_tree/every_scope_is_on_a_cycle",
    "S4": "scope_tree/wrong_parent_as_wrong_class",
    "S5": "scope_tree/mission_below_a_mission scope_tree/wrong_parent_as_wrong_class",
    "S6": "scope_tree/scope_written_is_missing",
    "A1": "annotation_rules/annotated_variables_passed_over "
    "annotation_rules/contradiction_as_unknown annotation_rules/result_may_be_unknown "
    "static_scopes/field_may_be_unknown",
    "A2": "annotation_rules/other_scope_in_a_subclass",
    "A3": "static_scopes/field_may_lie_inside",
    "A4": "static_scopes/field_may_lie_inside",
    "A5": "static_scopes/field_may_lie_inside",
    "A6": "annotation_rules/override_may_run_elsewhere",
    "A7": "annotation_rules/unknown_runs_in_as_other static_scopes/static_method_may_name_this",
    "A8": "static_scopes/nothing_defined_fixes_nothing class_rows/another_name_is_told",
    "A9": "annotation_rules/contradiction_as_unknown static_scopes/unknown_name_as_known_elsewhere",
    "E1": "runs_in_check/new_in_immortal_alone",
    "E2": "runs_in_check/caller_refused static_scopes/method_runs_with_its_object",
    "E3": "runs_in_check/caller_value_into_an_own_field runs_in_check/this_not_replaced static_scopes/null_fits_nothing",
    "E4": "runs_in_check/caller_value_into_an_own_field",
    "E5": "runs_in_check/caller_value_into_an_own_field static_scopes/unknown_fits_all "
    "static_scopes/lost_fits_lost static_scopes/this_of_unknown_is_unknown "
    "runs_in_check/guard_guards_its_else runs_in_check/assignment_leaves_guard "
    "runs_in_check/one_subject_is_enough runs_in_check/field_of_immortal_is_in_this",
    "E6": "runs_in_check/caller_value_into_an_own_field",
    "E7": "runs_in_check/entered_from_anywhere",
    "E8": "runs_in_check/executed_in_any_area",
    "E9": "runs_in_check/caller_value_into_an_own_field",
    "E10": "runs_in_check/array_of_inner_scope scope_tree/own_scope_is_not_outer",
}
# Of every rule.
COMMON = {
    "the order of a report, and each break once": "scj_check/not_sorted",
    "the phases": "scj_check/scopes_and_uses_together",
    "the places of the lexemes": "scj_lexer/line_ended_by_carriage_return",
    "the texts of the rules, their codes and their order": "scj_base/another_rule_code scj_base/order_turned",
}
