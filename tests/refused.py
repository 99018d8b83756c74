"""Which tests are run with each allocation refused in turn, and what tests/refuse_allocations is told of
them."""

# Tests of calls that take no memory, by crate and by the test that only opens and closes such a domain.
NO_MEMORY = {
    "handle_tests": {
        "foundations::ledger::a_refused_opening_leaves_nothing": """
            foundations::ledger::one_share_adds_and_is_gathered""",
        "memory::one_block_is_opened_and_closed": "ending::forgotten::a_desk_holds_a_thousand_handles",
        "memory::two_blocks_are_opened_and_closed": """
            ending::cascade::an_object_ends_within_anothers_end ending::drops::a_value_is_dropped_once
            ending::drops::a_value_left_is_dropped_with_the_census
            ending::forgotten::forgotten_handles_stand_in_the_census
            ending::forgotten::a_value_of_an_unfinished_end_is_dropped_with_the_census
            ending::this::an_enabled_object_gives_itself""",
        "memory::four_blocks_are_opened_and_closed": """
            desks::shelves::spare_blocks_go_to_the_shelf_and_come_back""",
    },
}


def as_opened(crate):
    """Pairs of a crate's tests, each of which takes no more memory than the one after it."""
    return [
        name for plain, tests in NO_MEMORY[crate].items() for test in tests.split() for name in (test, plain)
    ]


# A crate, a module or a test of one, whose tests are run with each allocation refused in turn, and what
# tests/refuse_allocations is told of them: those that may not fail, each with the most allocations that it
# makes of its own (the others may say that memory was wanted), and pairs that take as many allocations.
REFUSED = {
    "handle_tests::foundations::ledger": ["foundations::ledger::a_refused_opening_leaves_nothing=0"],
    "handle_tests::foundations::arena": ["foundations::arena::an_arena_may_be_refused=0"],
    "handle_tests::memory": [
        "memory::a_refused_opening_leaves_nothing=0",
        "memory::splits::a_refused_split_hands_its_handles_back_in_order=0",
        "--",
        *as_opened("handle_tests"),
    ],
    "pointer_tests::memory": [
        "memory::tests::a_refused_run_is_made_again=0",
        "memory::tests::a_refused_leader_is_run_again=0",
    ],
    "shared_map_tests::memory": ["memory::a_refused_opening_is_made_again=0"],
    "shared_vec_tests::memory": ["memory::a_refused_sort_is_made_again=0"],
    "scene_tests::memory": ["memory::a_refused_teardown_gives_its_root_back=0"],
    "scene_tests::accesses": ["accesses::a_refused_access_is_sought_again=0"],
    "script_tests::machine::opening::a_refused_world_gives_its_program_back": [
        "machine::opening::a_refused_world_gives_its_program_back=6",
    ],
    "script_tests::workers::a_refused_run": ["workers::a_refused_run_leaves_nothing=0"],
    "script_tests::memory": [
        "memory::a_refused_run_leaves_its_world=12",
        "memory::refused_lines_are_not_begun=1",
        "memory::a_refused_script_is_read_again=0",
        "memory::a_refused_run_of_a_text_is_not_begun=2",
        "--",
        "memory::a_chain_of_all_blocks_ends",
        "memory::a_world_of_a_chain_is_made",
    ],
}
