//! Every sentence of document 01's "Corners in ..", and of document 02's orders 2 to 6, as a test that fails if the
//! sentence is false. Tests made by `sentences!` run the named examples of that sentence, whose answers were written by
//! hand, through the Rust inside its domain and through the second reading elsewhere.

use oracle::rust::{Checker, Ty, Visibility, TY_KINDS, VISIBILITIES};
use oracle::types::{decode, encode};
use reading::examples;
use reading::gen::sweep::type_list;
use reading::name::BUILT_IN;
use reading::words::assign::can_assign_to;
use reading::words::symbols::Symbols;
use std::collections::BTreeSet;

fn check(sentence: &str) {
    let all: Vec<_> = examples::all().into_iter().filter(|e| e.sentence == sentence).collect();
    assert!(!all.is_empty(), "no example shows this sentence");
    for e in all {
        assert_eq!(oracle::printed_by(&e.table, &e.question).1, e.printed(), "{}", e.name);
    }
}

macro_rules! sentences {
    ($($name:ident)*) => {
        $(#[test]
        fn $name() {
            check(stringify!($name));
        })*
        const LISTED: &[&str] = &[$(stringify!($name)),*];
    };
}

sentences! {
    answer_samples
    nullable_nothing_the_null_literal_assigns_to_int
    nullable_string_does_not_assign_to_int
    nullable_t_assigns_to_u_whenever_t_does
    named_a_assigns_to_named_b_if_b_is_met_climbing_from_a
    only_list_array_list_and_mutable_list_as_names_assign_among_themselves
    list_assigns_to_every_list
    list_assigns_to_array_by_element_type
    array_assigns_to_array_by_element_type_size_ignored
    every_numeric_type_assigns_to_every_other
    error_and_any_assign_both_ways
    an_error_operand_gives_error_silently_before_operator_methods
    operator_methods_come_before_the_nullable_check
    long_plus_long_is_int
    long_minus_long_is_long
    double_plus_double_is_float
    any_plus_int_is_string
    assign_to_is_and_as_report_nullable_operands_too
    a_bitwise_operator_gives_the_left_type_reported_or_not
    diagnostic_kinds_of_binary_operators
    operator_methods_only_for_a_named_left_type
    the_climb_stops_at_a_class_without_an_operator_set
    a_method_without_a_function_gives_any
    not_null_gives_error_and_a_diagnostic_on_int
    a_nullable_operand_of_a_unary_operator_is_reported_earlier
    diagnostic_kinds_of_unary_operators
    an_empty_list_gives_error_silently_arguments_unvisited
    builtins_drop_out_beside_any_non_builtin
    the_unnamed_arguments_take_in_turn_the_parameters_that_no_argument_names
    an_exact_match_scores_2_an_accepted_one_1
    an_unnamed_argument_left_without_a_parameter_scores_1_and_is_not_reported
    the_first_highest_wins_ties_are_reported_with_their_count
    int_string_chooses_the_first_of_the_two_marked_overloads
    int_int_chooses_the_second_of_the_two_marked_overloads
    with_int_string_as_the_only_overload_int_string_matches
    the_marked_call_with_q_int_and_string_gives_two_mismatches
    a_int_b_int_called_with_a_twice_matches
    an_unknown_named_argument_is_reported_once_per_overload_that_fits_in_number
    argument_counts
    type_variables
    suspend
    an_empty_owner_blocks_nothing
    nor_does_internal_where_either_package_is_unknown
    access_by_visibility
    no_climb_to_superclasses
    a_name_found_only_as_a_function_gives_a_function_type_with_no_parameters
    members_of_every_base
    a_function_list_keeps_table_order
    its_first_entry_serves_access
    its_first_entry_serves_suspend
    its_first_entry_serves_operator_lookups
    its_first_entry_serves_member_lookups
    two_functions_of_a_list_may_be_equal
    a_base_that_is_not_named_or_has_no_list_gives_any_arguments_unvisited
    visibility_of_members_is_looked_up_for_named_bases_only
    refusals_of_tables
    refusals_of_questions
    table_first
    the_first_faulty_record
    the_longest_types
    what_document_01_leaves_to_the_rust
    every_class_record_climbs_and_a_superclass_without_a_record_is_met
    a_name_of_one_capital_letter_climbs_as_any_class_does
    the_list_names_rules_are_not_asked_again_for_a_class_that_is_met
    at_every_depth_where_assignability_compares_types
    pointer_map_and_function_types_are_compared_whole
    overloads_take_the_new_rule_and_a_subclass_match_scores_1
    calls_of_one_overload_take_the_new_rule
    comparisons_take_the_new_rule_in_both_directions
    protected_access_and_operator_methods_climb_as_before
    an_id_that_only_a_later_name_record_would_define_is_undefined
    the_last_name_before_a_record_is_defined_and_the_next_id_is_not
    no_other_record_counts_as_a_name
    a_question_has_all_names_of_its_table
    a_faulty_name_first_in_the_middle_and_last
    a_name_behind_a_record_of_another_kind
    each_parameter_is_taken_once_in_turn
    a_name_keeps_its_parameter_wherever_its_argument_stands
    a_name_given_twice_is_compared_twice_with_its_parameter
    an_unknown_name_takes_no_parameter_and_adds_no_mismatch
    an_argument_left_over_is_not_reported
    an_argument_left_over_scores_1_whatever_its_type_is
    a_vararg_that_is_not_last_takes_one_argument_and_lifts_no_limit
    defaults_are_not_skipped
    any_and_error_are_no_mismatch
    mismatches_come_in_argument_order_at_their_own_nodes
    sixteen_arguments_take_sixteen_parameters
    a_method_call_takes_its_arguments_as_a_call_does
    builtins_take_their_arguments_alike
    where_several_fit_and_none_matches_there_is_one_report
    every_size_in_the_kind_that_it_asks_for
    every_size_of_the_old_width_reads_as_it_did
    a_kind_22_with_a_smaller_size_or_another_flag_counts_as_malformed
    a_malformed_large_array_in_every_part_of_a_type
    a_large_array_cut_behind_each_of_its_bytes
    a_large_array_at_the_192nd_byte
    a_large_array_with_fewer_than_192_bytes_left_is_cut
    the_longest_type_with_a_large_array
    arrays_of_both_kinds_in_each_other
    ids_in_a_large_array
    error_in_a_large_array
    kinds_from_23_upward_are_malformed
    the_lowest_number_beside_a_large_array
    list_and_array_assign_to_array_by_element_type_whatever_the_widths
    named_array_list_and_mutable_list_assign_to_every_array
    nullables_around_a_large_array
    elements_of_large_arrays_decide_at_every_depth
    a_class_in_a_large_array_goes_where_its_superclass_is_expected
    what_holds_a_large_array_and_is_no_array_is_compared_whole
    equal_bytes_score_2_and_an_array_of_another_width_1
    large_arrays_as_arguments_of_every_form
    members_of_a_large_array
    comparisons_of_large_arrays
    other_operators_on_large_arrays
    unary_operators_on_large_arrays
    assignability_reaches_through_superclass_and_interfaces_alike
    a_class_is_reached_by_any_mix_of_superclass_and_interface_steps
    a_class_that_is_reached_along_two_ways
    a_tower_of_three_parents_each
    every_class_record_leads_on_in_types_or_not
    an_interface_without_a_record_is_reached_and_the_way_ends_there
    the_same_interface_twice_and_a_superclass_as_an_interface_are_taken
    an_interface_with_a_record_needs_it_earlier_else_number_6
    undefined_interfaces_get_4
    the_lowest_number_of_a_class_with_interfaces
    package_and_flag_stand_behind_the_interfaces
    a_class_record_has_12_bytes
    through_interfaces_at_every_depth_where_assignability_compares_types
    what_is_compared_whole_asks_no_interface
    the_list_names_rules_are_not_asked_for_a_class_reached_through_an_interface
    a_class_reached_through_an_interface_scores_1
    comparisons_reach_through_interfaces_in_both_directions
    protected_access_climbs_superclasses_only
    operator_methods_climb_superclasses_only
    a_page_class_that_is_printable_too
    limits_of_tables
    lengths_and_letters_of_names
    every_built_in_name_is_a_key
    a_cut_record_is_malformed
    every_kind_that_falls
    every_id_of_a_record
    every_id_in_a_type
    a_key_again_behind_another
    a_key_of_two_ids_is_both_of_them
    a_parameters_name_is_a_key_within_its_function
    a_superclass_behind_its_class
    error_in_every_part_of_a_type
    types_at_192_bytes_in_every_place
    members_in_a_table_of_every_kind
    operators_in_a_table_of_every_kind
    functions_in_a_table_of_every_kind
    headers_of_questions
    a_cut_node_and_a_byte_behind_the_tree
    the_last_operators_and_kinds
    every_id_of_a_node
    eight_before_ten_within_a_node
    counts_of_arguments_and_nodes
    types_of_leaves_at_192_bytes
}

#[test]
fn every_sentence_with_an_example_is_listed() {
    let used: BTreeSet<&str> = examples::all().iter().map(|e| e.sentence).collect();
    let listed: BTreeSet<&str> = LISTED.iter().copied().collect();
    assert_eq!(used, listed);
}

/// Sentences of which no example is inside the Rust's domain: their examples need a superclass, an interface, two unnamed
/// arguments, a vararg that is not last, a named argument where nothing matches, or a kind 22.
const BY_THE_WORDS_ALONE: &[&str] = &[
    "named_a_assigns_to_named_b_if_b_is_met_climbing_from_a",
    "the_climb_stops_at_a_class_without_an_operator_set",
    "int_string_chooses_the_first_of_the_two_marked_overloads",
    "int_int_chooses_the_second_of_the_two_marked_overloads",
    "with_int_string_as_the_only_overload_int_string_matches",
    "the_marked_call_with_q_int_and_string_gives_two_mismatches",
    "no_climb_to_superclasses",
    "a_name_of_one_capital_letter_climbs_as_any_class_does",
    "the_list_names_rules_are_not_asked_again_for_a_class_that_is_met",
    "at_every_depth_where_assignability_compares_types",
    "pointer_map_and_function_types_are_compared_whole",
    "overloads_take_the_new_rule_and_a_subclass_match_scores_1",
    "calls_of_one_overload_take_the_new_rule",
    "comparisons_take_the_new_rule_in_both_directions",
    "protected_access_and_operator_methods_climb_as_before",
    "each_parameter_is_taken_once_in_turn",
    "a_vararg_that_is_not_last_takes_one_argument_and_lifts_no_limit",
    "mismatches_come_in_argument_order_at_their_own_nodes",
    "arrays_of_both_kinds_in_each_other",
    "list_and_array_assign_to_array_by_element_type_whatever_the_widths",
    "named_array_list_and_mutable_list_assign_to_every_array",
    "nullables_around_a_large_array",
    "elements_of_large_arrays_decide_at_every_depth",
    "a_class_in_a_large_array_goes_where_its_superclass_is_expected",
    "what_holds_a_large_array_and_is_no_array_is_compared_whole",
    "equal_bytes_score_2_and_an_array_of_another_width_1",
    "large_arrays_as_arguments_of_every_form",
    "members_of_a_large_array",
    "comparisons_of_large_arrays",
    "other_operators_on_large_arrays",
    "unary_operators_on_large_arrays",
    "a_class_is_reached_by_any_mix_of_superclass_and_interface_steps",
    "a_class_that_is_reached_along_two_ways",
    "a_tower_of_three_parents_each",
    "every_class_record_leads_on_in_types_or_not",
    "an_interface_without_a_record_is_reached_and_the_way_ends_there",
    "the_same_interface_twice_and_a_superclass_as_an_interface_are_taken",
    "through_interfaces_at_every_depth_where_assignability_compares_types",
    "what_is_compared_whole_asks_no_interface",
    "the_list_names_rules_are_not_asked_for_a_class_reached_through_an_interface",
    "a_class_reached_through_an_interface_scores_1",
    "comparisons_reach_through_interfaces_in_both_directions",
    "protected_access_climbs_superclasses_only",
    "operator_methods_climb_superclasses_only",
    "a_page_class_that_is_printable_too",
];

#[test]
fn every_other_sentence_has_an_example_that_the_rust_answers() {
    let inside = |sentence: &&&str| {
        examples::all().iter().any(|e| e.sentence == **sentence && oracle::in_domain(&e.table, &e.question))
    };
    let (by_rust, by_words): (Vec<&str>, Vec<&str>) = LISTED.iter().partition(inside);
    assert_eq!(by_words, BY_THE_WORDS_ALONE);
    assert_eq!(by_rust.len() + by_words.len(), LISTED.len());
}

// What the sentences say of all types, over a list of types that has every kind.

fn names() -> Vec<String> {
    let own = ["T", "U", "Page", "Scan", "f", "x"];
    BUILT_IN.iter().chain(own.iter()).map(|n| n.to_string()).collect()
}

/// The sweeps' types, and each of them under one more Nullable, List and Array.
fn types() -> Vec<Ty> {
    let names = names();
    let mut types: Vec<Ty> = type_list().iter().map(|b| decode(b, &names).0).collect();
    for ty in types.clone() {
        types.push(Ty::Nullable(Box::new(ty.clone())));
        types.push(Ty::List(Box::new(ty.clone())));
        types.push(Ty::Array { inner: Box::new(ty), size: Some(2) });
    }
    types
}

fn pairs(mut each: impl FnMut(&Ty, &Ty)) {
    let types = types();
    for a in &types {
        for b in &types {
            each(a, b);
        }
    }
}

#[test]
fn for_all_types_nullable_t_assigns_to_u_whenever_t_does() {
    let mut shown = 0;
    pairs(|t, u| {
        if t.can_assign_to(u) {
            shown += 1;
            assert!(Ty::Nullable(Box::new(t.clone())).can_assign_to(u), "{} to {}", t.name(), u.name());
        }
    });
    assert!(shown > 1000);
}

#[test]
fn for_all_names_only_the_list_names_assign_to_another_name() {
    let lists = ["List", "ArrayList", "MutableList"];
    for a in names() {
        for b in names() {
            let assigns = Ty::Named(a.clone()).can_assign_to(&Ty::Named(b.clone()));
            let among = lists.contains(&a.as_str()) && lists.contains(&b.as_str());
            assert_eq!(assigns, a == b || among, "{} to {}", a, b);
        }
    }
}

/// Document 02, order 2, adds nothing where no class has a superclass.
#[test]
fn for_all_types_the_words_assign_as_the_rust_does_where_no_class_has_a_superclass() {
    let names = names();
    let id = |name: &str| names.iter().position(|n| n == name).expect("a name") as u16;
    let bytes = |ty: &Ty| {
        let mut bytes = Vec::new();
        encode(ty, &id, &mut bytes);
        bytes
    };
    let (symbols, mut yes, mut no) = (Symbols::default(), 0, 0);
    pairs(|t, u| {
        let assigns = t.can_assign_to(u);
        assert_eq!(can_assign_to(&symbols, &bytes(t), &bytes(u)), assigns, "{} to {}", t.name(), u.name());
        yes += assigns as usize;
        no += !assigns as usize;
    });
    assert!(yes > 1_000 && no > 1_000);
}

#[test]
fn for_all_types_lists_and_arrays_assign_as_said() {
    let list = |t: &Ty| Ty::List(Box::new(t.clone()));
    let array = |t: &Ty, size| Ty::Array { inner: Box::new(t.clone()), size };
    pairs(|t, u| {
        assert!(list(t).can_assign_to(&list(u)));
        assert_eq!(list(t).can_assign_to(&array(u, None)), t.can_assign_to(u));
        assert_eq!(array(t, Some(3)).can_assign_to(&array(u, Some(4))), t.can_assign_to(u));
        assert_eq!(array(t, None).can_assign_to(&array(u, Some(4))), t.can_assign_to(u));
    });
}

#[test]
fn for_all_numeric_types_each_assigns_to_each() {
    let numeric = [Ty::Int, Ty::Long, Ty::Short, Ty::Byte, Ty::Float, Ty::Double];
    for a in &numeric {
        for b in &numeric {
            assert!(a.can_assign_to(b));
        }
        assert!(!Ty::Boolean.can_assign_to(a) && !Ty::Char.can_assign_to(a));
    }
}

#[test]
fn for_all_types_error_and_any_assign_both_ways() {
    for t in types() {
        for other in [Ty::Error, Ty::Any] {
            assert!(t.can_assign_to(&other) && other.can_assign_to(&t), "{}", t.name());
        }
    }
}

/// Nodes 5 and 6 never ask about an empty owner, so the method is asked itself.
#[test]
fn for_all_contexts_an_empty_owner_blocks_nothing() {
    for visibility in VISIBILITIES {
        for current in [None, Some("Page")] {
            for package in [None, Some("lib")] {
                let mut checker = Checker::bare();
                checker.add_class("Page", None, Some("pkg"), true);
                checker.set_context(current, package, false);
                assert!(checker.may_access(visibility, ""));
                let other = matches!(visibility, Visibility::Public | Visibility::Internal);
                assert_eq!(checker.may_access(visibility, "Word"), other);
            }
        }
    }
}

#[test]
fn for_all_types_non_null_takes_one_nullable_off() {
    for t in types() {
        let inner = match &t {
            Ty::Nullable(inner) => inner.as_ref(),
            _ => &t,
        };
        assert_eq!(t.non_null(), inner);
    }
}

#[test]
fn for_all_types_equal_types_are_equal_bytes() {
    let (bytes, names) = (type_list(), names());
    for a in bytes {
        for b in bytes {
            assert_eq!(decode(a, &names).0 == decode(b, &names).0, a == b);
        }
    }
}

#[test]
fn kinds_follow_enum_ty_from_0_int_to_21_error() {
    let names = names();
    assert_eq!(TY_KINDS.len(), 22);
    assert_eq!((TY_KINDS[0], TY_KINDS[21]), ("Int", "Error"));
    let mut seen = BTreeSet::new();
    for bytes in type_list() {
        let debug = format!("{:?}", decode(bytes, &names).0);
        let variant: String = debug.chars().take_while(|c| c.is_alphanumeric()).collect();
        assert_eq!(variant, TY_KINDS[bytes[0] as usize]);
        seen.insert(bytes[0]);
    }
    assert_eq!(seen.len(), 22);
}

/// The type and the diagnostics of a judged case.
fn judged(table: &[u8], question: &[u8]) -> (Vec<u8>, Vec<u8>) {
    let mut buffer = [0; 100];
    let answer = oracle::answer(table, question, &mut buffer);
    assert_eq!(answer.number, 0);
    (answer.ty[..answer.len].to_vec(), buffer[..5 * answer.count].to_vec())
}

#[test]
fn for_all_types_a_bitwise_operator_gives_the_left_type() {
    use reading::bytes::*;
    let types: Vec<Bytes> = type_list().iter().filter(|t| t[0] != 12 && t[0] != ERROR).cloned().collect();
    let table = Table::with_names(&["T", "U", "Page", "Scan"]);
    let (mut reported, mut silent) = (0, 0);
    for op in BIT_AND..ASSIGN {
        for left in &types {
            for right in &types {
                let (ty, said) = judged(&table.bytes(), &question(&binary(op, &leaf(left), &leaf(right))));
                assert_eq!(&ty, left);
                if said.is_empty() {
                    silent += 1;
                } else {
                    reported += 1;
                    assert_eq!(said, [7, 0, 0, 0, 0]);
                }
            }
        }
    }
    assert!(reported > 100 && silent > 100);
}

#[test]
fn for_all_types_not_null_gives_error_the_arm_for_a_nullable_operand_is_never_reached() {
    use reading::bytes::*;
    let table = Table::with_names(&["T", "U", "Page", "Scan"]);
    for ty in type_list() {
        let kind = if ty[0] == 12 { 8 } else { 13 };
        let said = judged(&table.bytes(), &question(&unary(NOT_NULL, &leaf(ty))));
        assert_eq!(said, (vec![ERROR], vec![kind, 0, 0, 0, 0]));
    }
}

#[test]
fn for_all_types_an_error_operand_gives_error_silently() {
    use reading::bytes::*;
    let mut table = Table::with_names(&["T", "U", "Page", "Scan"]);
    table.operators(43, 0x7ff);
    for op in 0..23 {
        for ty in type_list() {
            for tree in [binary(op, &leaf(ty), &leaf(&[ERROR])), binary(op, &leaf(&[ERROR]), &leaf(ty))] {
                assert_eq!(judged(&table.bytes(), &question(&tree)), (vec![ERROR], vec![]));
            }
        }
    }
}
