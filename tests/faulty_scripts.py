"""Worked scripts that have a fault, a row each, by its cause: the line that is told, and the script. `check` reads
them, and tests/run_every_command has each other command refuse them so."""

FAULTS = {
    'bad byte': {
        'bad_byte_before_unknown_statement': (1, b'frob\x7f\n'),
        'carriage_return_within_a_line': (1, b'make a\rb\n'),
        'faulty_byte_in_comment': (1, b'#\x80\n'),
        'header_with_a_faulty_byte': (1, b'version 2 blocks 64\x80\n'),
    },
    'bad cell': {
        'cell_out_of_range': (1, b'load b s128\n'),
        'compare_weak_cell_out_of_range': (1, b'compare w128 b b\n'),
        'exchange_weak_cell_out_of_range': (1, b'exchange w128 a\n'),
        'faulty_compare_bad_shared_cell_before_bad_name': (
            5,
            b'make a\nempty b\nwempty v\nwempty w\ncompare s128 A b\n',
        ),
        'faulty_compare_bad_weak_cell': (5, b'make a\nempty b\nwempty v\nwempty w\ncompare w128 v w\n'),
        'faulty_compare_name_before_cell': (5, b'make a\nempty b\nwempty v\nwempty w\ncompare a s0 b\n'),
        'faulty_compare_weak_bad_shared_cell_before_bad_name': (
            5,
            b'make a\nempty b\nwempty v\nwempty w\ncompare_weak s128 A b\n',
        ),
        'faulty_compare_weak_bad_weak_cell': (5, b'make a\nempty b\nwempty v\nwempty w\ncompare_weak w128 v w\n'),
        'faulty_compare_weak_name_before_cell': (5, b'make a\nempty b\nwempty v\nwempty w\ncompare_weak a s0 b\n'),
        'faulty_member_after_two_dots': (4, b'make a\nempty b\nwempty w\nstore a..first b\n'),
        'faulty_member_compared_misspelled': (4, b'make a\nempty b\nwempty w\ncompare a.frst b B\n'),
        'faulty_member_name_misspelled': (4, b'make a\nempty b\nwempty w\nstore a.frst B\n'),
        'faulty_member_name_with_capital': (4, b'make a\nempty b\nwempty w\nstore a.First b\n'),
        'faulty_member_of_a_cell_without_name': (4, b'make a\nempty b\nwempty w\nstore s0. b\n'),
        'faulty_member_of_a_dot': (4, b'make a\nempty b\nwempty w\nstore . b\n'),
        'faulty_member_of_a_member': (4, b'make a\nempty b\nwempty w\nstore a.first.next b\n'),
        'faulty_member_of_name_of_seventeen_bytes': (4, b'make a\nempty b\nwempty w\nstore abcdefghijklmnopq.up b\n'),
        'faulty_member_of_name_with_capital': (4, b'make a\nempty b\nwempty w\nstore A.first b\n'),
        'faulty_member_of_nothing': (4, b'make a\nempty b\nwempty w\nstore a. b\n'),
        'faulty_member_of_unknown_misspelled': (4, b'make a\nempty b\nwempty w\nstore z.frst b\n'),
        'faulty_member_of_weak_misspelled': (4, b'make a\nempty b\nwempty w\nstore w.frst b\n'),
        'faulty_member_without_a_name': (4, b'make a\nempty b\nwempty w\nstore .first b\n'),
        'holds_bad_cell_before_unknown_name': (2, b'make a\nholds s128 z\n'),
        'holds_no_member': (2, b'make a\nholds a.last a\n'),
        'load_bad_cell_before_bad_name': (1, b'load A s128\n'),
        'load_cell_before_name': (1, b'load s0 b\n'),
        'load_past_the_last_name_of_a_bad_cell': (
            33,
            b'empty n0\nempty n1\nempty n2\nempty n3\nempty n4\nempty n5\nempty n6\nempty n7\nempty n8\nempty n9\n'
            b'empty n10\nempty n11\nempty n12\nempty n13\nempty n14\nempty n15\nempty n16\nempty n17\nempty n18\n'
            b'empty n19\nempty n20\nempty n21\nempty n22\nempty n23\nempty n24\nempty n25\nempty n26\nempty n27\n'
            b'empty n28\nempty n29\nempty n30\nempty n31\nload more s128\n',
        ),
        'load_weak_cell_out_of_range': (1, b'load b w128\n'),
        'shared_cell_after_the_last': (1, b'load a s128\n'),
        'store_cell_of_another_letter': (1, b'store x0 a\n'),
        'store_cell_too_large': (1, b'store s18446744073709551616 a\n'),
        'store_cell_with_a_sign': (1, b'store s+1 a\n'),
        'store_cell_with_capital': (1, b'store S0 a\n'),
        'store_cell_without_number': (1, b'store s a\n'),
        'store_shared_cell_out_of_range': (1, b'store s128 a\n'),
        'version_2_shared_cell_after_the_last': (2, b'version 2 blocks 65535\nload a s128\n'),
        'version_2_weak_cell_after_the_last': (2, b'version 2 blocks 65535\nload a w128\n'),
        'weak_cell_after_the_last': (1, b'load a w128\n'),
    },
    'bad field': {
        'alias_field_of_four': (2, b'make a\nalias b a 4\n'),
        'alias_field_of_four_after_a_good_one': (3, b'make a\nalias b a 3\nalias b a 4\n'),
        'alias_field_of_letters': (2, b'make a\nalias b a x\n'),
        'alias_field_too_large': (2, b'make a\nalias b a 18446744073709551616\n'),
        'alias_field_with_a_sign': (2, b'make a\nalias b a +1\n'),
        'alias_null_in_capitals': (2, b'make a\nalias b a NULL\n'),
        'alias_of_two_names_at_null': (2, b'make a\nalias b a a null\n'),
        'alias_of_two_names_field_of_four': (2, b'make a\nalias b a a 4\n'),
        'past_the_last_name_alias_field_of_four': (
            33,
            b'null n0\nnull n1\nnull n2\nnull n3\nnull n4\nnull n5\nnull n6\nnull n7\nnull n8\nnull n9\nnull n10\n'
            b'null n11\nnull n12\nnull n13\nnull n14\nnull n15\nnull n16\nnull n17\nnull n18\nnull n19\nnull n20\n'
            b'null n21\nnull n22\nnull n23\nnull n24\nnull n25\nnull n26\nnull n27\nnull n28\nnull n29\nnull n30\n'
            b'makethis last\nalias more last 4\n',
        ),
        'version_2_field_after_the_last': (3, b'version 2 blocks 65535\nmake a\nalias b a 4\n'),
    },
    'bad name': {
        'alias_place_name_with_capital_before_field': (2, b'make a\nalias b a A 4\n'),
        'alias_target_with_capital_before_field': (2, b'make a\nalias B a 4\n'),
        'bad_name_before_bad_number': (1, b'make A x\n'),
        'before_name_with_capital': (2, b'make a\nbefore B a\n'),
        'faulty_compare_bad_desired': (5, b'make a\nempty b\nwempty v\nwempty w\ncompare s0 a B\n'),
        'faulty_compare_bad_expected_before_unknown_desired': (
            5,
            b'make a\nempty b\nwempty v\nwempty w\ncompare s0 A c\n',
        ),
        'faulty_compare_weak_bad_desired': (5, b'make a\nempty b\nwempty v\nwempty w\ncompare_weak s0 a B\n'),
        'faulty_compare_weak_bad_expected_before_unknown_desired': (
            5,
            b'make a\nempty b\nwempty v\nwempty w\ncompare_weak s0 A c\n',
        ),
        'faulty_member_compared_with_bad_name': (4, b'make a\nempty b\nwempty w\ncompare a.first b B\n'),
        'faulty_member_gets_bad_name': (4, b'make a\nempty b\nwempty w\nstore a.first B\n'),
        'faulty_member_loaded_into_bad_name': (4, b'make a\nempty b\nwempty w\nload B a.first\n'),
        'holds_bad_name': (2, b'make a\nholds s0 A\n'),
        'load_into_name_of_seventeen_bytes': (1, b'load abcdefghijklmnopq w0\n'),
        'load_into_name_with_capital': (1, b'load A s0\n'),
        'move_of_name_with_capital': (2, b'make a\nmove w_ A\n'),
        'name_of_seventeen_bytes': (1, b'make abcdefghijklmnopq\n'),
        'name_with_capital': (1, b'make A\n'),
        'store_of_name_with_capital': (1, b'store s0 A\n'),
        'version_2_name_too_long': (2, b'version 2 blocks 65535\nmake abcdefghijklmnopq\n'),
        'weak_with_capital': (1, b'weak W a\n'),
    },
    'bad number': {
        'header_of_a_number_too_large': (1, b'version 2 blocks 18446744073709551680\n'),
        'header_of_no_number': (1, b'version 2 blocks x\n'),
        'header_too_few_blocks': (1, b'version 2 blocks 63\n'),
        'header_too_many_blocks': (1, b'version 2 blocks 65536\n'),
        'makethis_number_too_large': (1, b'makethis a 18446744073709551616\n'),
        'number_too_large': (1, b'make a 18446744073709551616\n'),
        'number_with_a_sign': (1, b'make a 1 +1\n'),
        'version_2_number_after_the_largest': (2, b'version 2 blocks 65535\nmake a 18446744073709551616\n'),
    },
    'bad version': {
        'header_of_a_version_with_a_zero': (1, b'version 02 blocks 64\n'),
        'header_other_version': (1, b'version 3 blocks 64\n'),
        'header_other_version_and_too_few_blocks': (1, b'version 1 blocks 63\n'),
        'header_other_word_and_no_number': (1, b'version 2 cells x\n'),
        'header_without_blocks': (1, b'version 2 block 64\n'),
    },
    'name used twice': {
        'exchange_with_own_member': (2, b'make a\nexchange a.next a\n'),
        'exchange_with_own_member_of_the_first_of_all_names': (
            33,
            b'empty n0\nempty n1\nempty n2\nempty n3\nempty n4\nempty n5\nempty n6\nempty n7\nempty n8\nempty n9\n'
            b'empty n10\nempty n11\nempty n12\nempty n13\nempty n14\nempty n15\nempty n16\nempty n17\nempty n18\n'
            b'empty n19\nempty n20\nempty n21\nempty n22\nempty n23\nempty n24\nempty n25\nempty n26\nempty n27\n'
            b'empty n28\nempty n29\nempty n30\nempty n31\nexchange n0.next n0\n',
        ),
        'faulty_member_first_exchanged_with_its_empty_owner': (4, b'make a\nempty b\nwempty w\nexchange b.first b\n'),
        'faulty_member_next_exchanged_with_its_owner': (4, b'make a\nempty b\nwempty w\nexchange a.next a\n'),
    },
    'too many names': {
        'load_of_a_member_past_the_last_name': (
            33,
            b'empty n0\nempty n1\nempty n2\nempty n3\nempty n4\nempty n5\nempty n6\nempty n7\nempty n8\nempty n9\n'
            b'empty n10\nempty n11\nempty n12\nempty n13\nempty n14\nempty n15\nempty n16\nempty n17\nempty n18\n'
            b'empty n19\nempty n20\nempty n21\nempty n22\nempty n23\nempty n24\nempty n25\nempty n26\nempty n27\n'
            b'empty n28\nempty n29\nempty n30\nempty n31\nload more n0.first\n',
        ),
        'load_past_the_last_name': (
            34,
            b'empty n0\nempty n1\nempty n2\nempty n3\nempty n4\nempty n5\nempty n6\nempty n7\nempty n8\nempty n9\n'
            b'empty n10\nempty n11\nempty n12\nempty n13\nempty n14\nempty n15\nempty n16\nempty n17\nempty n18\n'
            b'empty n19\nempty n20\nempty n21\nempty n22\nempty n23\nempty n24\nempty n25\nempty n26\nempty n27\n'
            b'empty n28\nempty n29\nempty n30\nempty n31\nload n31 s0\nload more s0\n',
        ),
        'past_the_last_name_alias': (
            33,
            b'null n0\nnull n1\nnull n2\nnull n3\nnull n4\nnull n5\nnull n6\nnull n7\nnull n8\nnull n9\nnull n10\n'
            b'null n11\nnull n12\nnull n13\nnull n14\nnull n15\nnull n16\nnull n17\nnull n18\nnull n19\nnull n20\n'
            b'null n21\nnull n22\nnull n23\nnull n24\nnull n25\nnull n26\nnull n27\nnull n28\nnull n29\nnull n30\n'
            b'makethis last\nalias more last 3\n',
        ),
        'past_the_last_name_alias_at_null': (
            33,
            b'null n0\nnull n1\nnull n2\nnull n3\nnull n4\nnull n5\nnull n6\nnull n7\nnull n8\nnull n9\nnull n10\n'
            b'null n11\nnull n12\nnull n13\nnull n14\nnull n15\nnull n16\nnull n17\nnull n18\nnull n19\nnull n20\n'
            b'null n21\nnull n22\nnull n23\nnull n24\nnull n25\nnull n26\nnull n27\nnull n28\nnull n29\nnull n30\n'
            b'makethis last\nalias more last null\n',
        ),
        'past_the_last_name_move': (
            33,
            b'null n0\nnull n1\nnull n2\nnull n3\nnull n4\nnull n5\nnull n6\nnull n7\nnull n8\nnull n9\nnull n10\n'
            b'null n11\nnull n12\nnull n13\nnull n14\nnull n15\nnull n16\nnull n17\nnull n18\nnull n19\nnull n20\n'
            b'null n21\nnull n22\nnull n23\nnull n24\nnull n25\nnull n26\nnull n27\nnull n28\nnull n29\nnull n30\n'
            b'makethis last\nmove more last\n',
        ),
        'past_the_last_name_of_both_kinds': (
            33,
            b'empty a0\nwempty w0\nempty a1\nwempty w1\nempty a2\nwempty w2\nempty a3\nwempty w3\nempty a4\n'
            b'wempty w4\nempty a5\nwempty w5\nempty a6\nwempty w6\nempty a7\nwempty w7\nempty a8\nwempty w8\n'
            b'empty a9\nwempty w9\nempty a10\nwempty w10\nempty a11\nwempty w11\nempty a12\nwempty w12\nempty a13\n'
            b'wempty w13\nempty a14\nwempty w14\nempty a15\nwempty w15\nlock more w0\n',
        ),
        'past_the_last_name_wthis': (
            33,
            b'null n0\nnull n1\nnull n2\nnull n3\nnull n4\nnull n5\nnull n6\nnull n7\nnull n8\nnull n9\nnull n10\n'
            b'null n11\nnull n12\nnull n13\nnull n14\nnull n15\nnull n16\nnull n17\nnull n18\nnull n19\nnull n20\n'
            b'null n21\nnull n22\nnull n23\nnull n24\nnull n25\nnull n26\nnull n27\nnull n28\nnull n29\nnull n30\n'
            b'makethis last\nwthis more last\n',
        ),
        'too_many_names': (
            33,
            b'empty n0\nempty n1\nempty n2\nempty n3\nempty n4\nempty n5\nempty n6\nempty n7\nempty n8\nempty n9\n'
            b'empty n10\nempty n11\nempty n12\nempty n13\nempty n14\nempty n15\nempty n16\nempty n17\nempty n18\n'
            b'empty n19\nempty n20\nempty n21\nempty n22\nempty n23\nempty n24\nempty n25\nempty n26\nempty n27\n'
            b'empty n28\nempty n29\nempty n30\nempty n31\nempty n32\n',
        ),
        'version_2_too_many_names': (
            34,
            b'version 2 blocks 65535\nempty n0\nempty n1\nempty n2\nempty n3\nempty n4\nempty n5\nempty n6\n'
            b'empty n7\nempty n8\nempty n9\nempty n10\nempty n11\nempty n12\nempty n13\nempty n14\nempty n15\n'
            b'empty n16\nempty n17\nempty n18\nempty n19\nempty n20\nempty n21\nempty n22\nempty n23\nempty n24\n'
            b'empty n25\nempty n26\nempty n27\nempty n28\nempty n29\nempty n30\nempty n31\nempty n32\n',
        ),
    },
    'too many threads': {
        'sixty_five_threads': (
            65,
            b'version 2 blocks 64\nthread\nthread\nthread\nthread\nthread\nthread\nthread\nthread\nthread\nthread\n'
            b'thread\nthread\nthread\nthread\nthread\nthread\nthread\nthread\nthread\nthread\nthread\nthread\n'
            b'thread\nthread\nthread\nthread\nthread\nthread\nthread\nthread\nthread\nthread\nthread\nthread\n'
            b'thread\nthread\nthread\nthread\nthread\nthread\nthread\nthread\nthread\nthread\nthread\nthread\n'
            b'thread\nthread\nthread\nthread\nthread\nthread\nthread\nthread\nthread\nthread\nthread\nthread\n'
            b'thread\nthread\nthread\nthread\nthread\nthread\n',
        ),
        'too_many_threads': (
            16,
            b'thread\nthread\nthread\nthread\nthread\nthread\nthread\nthread\nthread\nthread\nthread\nthread\n'
            b'thread\nthread\nthread\nthread\n',
        ),
        'version_2_too_many_threads': (
            65,
            b'version 2 blocks 65535\nthread\nthread\nthread\nthread\nthread\nthread\nthread\nthread\nthread\n'
            b'thread\nthread\nthread\nthread\nthread\nthread\nthread\nthread\nthread\nthread\nthread\nthread\n'
            b'thread\nthread\nthread\nthread\nthread\nthread\nthread\nthread\nthread\nthread\nthread\nthread\n'
            b'thread\nthread\nthread\nthread\nthread\nthread\nthread\nthread\nthread\nthread\nthread\nthread\n'
            b'thread\nthread\nthread\nthread\nthread\nthread\nthread\nthread\nthread\nthread\nthread\nthread\n'
            b'thread\nthread\nthread\nthread\nthread\nthread\nthread\n',
        ),
    },
    'unfinished line': {
        'header_unfinished': (1, b'version 2 blocks 64'),
        'line_feed_alone_missing': (1, b'#'),
        'unfinished_before_bad_byte': (2, b'make a\n\x80'),
        'unfinished_line': (1, b'make a 1'),
    },
    'unknown name': {
        'alias_at_unknown_before_field': (2, b'make a\nalias b a x 4\n'),
        'alias_of_itself_undeclared': (1, b'alias a a 0\n'),
        'alias_of_unknown_at_known': (2, b'make a\nalias b x a 4\n'),
        'alias_of_unknown_before_field': (1, b'alias b a 4\n'),
        'before_unknown': (2, b'make a\nbefore a b\n'),
        'copy_of_itself_undeclared': (1, b'copy a a\n'),
        'exchange_of_unknown_with_the_last_cell': (1, b'exchange w127 a\n'),
        'faulty_compare_unknown_desired': (5, b'make a\nempty b\nwempty v\nwempty w\ncompare s0 a c\n'),
        'faulty_compare_unknown_expected_before_bad_desired': (
            5,
            b'make a\nempty b\nwempty v\nwempty w\ncompare s0 c B\n',
        ),
        'faulty_compare_weak_unknown_desired': (5, b'make a\nempty b\nwempty v\nwempty w\ncompare_weak s0 a c\n'),
        'faulty_compare_weak_unknown_expected_before_bad_desired': (
            5,
            b'make a\nempty b\nwempty v\nwempty w\ncompare_weak s0 c B\n',
        ),
        'faulty_member_exchanged_with_unknown': (4, b'make a\nempty b\nwempty w\nexchange z.next z\n'),
        'faulty_member_gets_unknown': (4, b'make a\nempty b\nwempty w\nstore a.first z\n'),
        'faulty_member_of_a_name_like_a_cell': (4, b'make a\nempty b\nwempty w\nstore s0.first B\n'),
        'faulty_member_of_the_target_undeclared': (4, b'make a\nempty b\nwempty w\nload z z.first\n'),
        'faulty_member_of_unknown': (4, b'make a\nempty b\nwempty w\nstore z.first B\n'),
        'faulty_member_of_unknown_loaded_into_bad_name': (4, b'make a\nempty b\nwempty w\nload B z.first\n'),
        'holds_member_of_unknown_before_bad_name': (1, b'holds z.first A\n'),
        'holds_of_unknown': (1, b'holds s0 a\n'),
        'load_of_a_member_of_unknown_past_the_last_name': (
            33,
            b'empty n0\nempty n1\nempty n2\nempty n3\nempty n4\nempty n5\nempty n6\nempty n7\nempty n8\nempty n9\n'
            b'empty n10\nempty n11\nempty n12\nempty n13\nempty n14\nempty n15\nempty n16\nempty n17\nempty n18\n'
            b'empty n19\nempty n20\nempty n21\nempty n22\nempty n23\nempty n24\nempty n25\nempty n26\nempty n27\n'
            b'empty n28\nempty n29\nempty n30\nempty n31\nload more none.first\n',
        ),
        'lock_of_unknown': (1, b'lock a w\n'),
        'move_of_itself_undeclared': (1, b'move a a\n'),
        'name_of_the_thread_before': (3, b'make a\nthread\ncount a\n'),
        'read_of_unknown': (1, b'read a\n'),
        'store_of_unknown_in_the_last_cell': (1, b'store s127 a\n'),
        'this_of_itself_undeclared': (1, b'this a a\n'),
        'unknown_source': (1, b'copy b a\n'),
        'wcopy_of_itself_undeclared': (1, b'wcopy w w\n'),
        'weak_of_unknown': (1, b'weak w a\n'),
    },
    'unknown statement': {
        'compare_strong': (1, b'compare_strong s0 a b\n'),
        'compare_with_underscore_alone': (1, b'compare_ s0 a b\n'),
        'compareweak_in_one_word': (1, b'compareweak s0 a b\n'),
        'header_after_a_statement': (2, b'make a\nversion 2 blocks 64\n'),
        'header_after_a_thread': (2, b'thread\nversion 2 blocks 64\n'),
        'header_twice': (2, b'version 2 blocks 64\nversion 2 blocks 64\n'),
        'header_twice_is_no_statement': (2, b'version 2 blocks 64\nversion\n'),
        'header_with_a_capital': (1, b'Version 2 blocks 64\n'),
        'hold_without_its_last_letter': (1, b'hold s0 a\n'),
        'load_with_capital': (1, b'Load a s0\n'),
        'statement_with_capital': (1, b'Make a\n'),
        'unknown_statement_after_skipped_lines': (3, b'# x\n\nfrob a\n'),
        'unknown_statement_alone': (1, b'frob\n'),
    },
    'wrong kind of name': {
        'alias_at_weak_name': (3, b'make a\nwempty w\nalias b a w 4\n'),
        'alias_over_weak_name': (3, b'make a\nwempty w\nalias w a 4\n'),
        'copy_of_weak': (2, b'wempty w\ncopy a w\n'),
        'count_of_weak': (2, b'wempty w\ncount w\n'),
        'exchange_of_weak_with_shared_cell': (2, b'wempty w\nexchange s0 w\n'),
        'faulty_compare_owner_desired_of_weak_cell': (5, b'make a\nempty b\nwempty v\nwempty w\ncompare w0 v b\n'),
        'faulty_compare_owner_expected_of_weak_cell': (5, b'make a\nempty b\nwempty v\nwempty w\ncompare w0 a w\n'),
        'faulty_compare_weak_desired': (5, b'make a\nempty b\nwempty v\nwempty w\ncompare s0 a w\n'),
        'faulty_compare_weak_expected_before_unknown_desired': (
            5,
            b'make a\nempty b\nwempty v\nwempty w\ncompare s0 w c\n',
        ),
        'faulty_compare_weak_owner_desired_of_weak_cell': (
            5,
            b'make a\nempty b\nwempty v\nwempty w\ncompare_weak w0 v b\n',
        ),
        'faulty_compare_weak_owner_expected_of_weak_cell': (
            5,
            b'make a\nempty b\nwempty v\nwempty w\ncompare_weak w0 a w\n',
        ),
        'faulty_compare_weak_weak_desired': (5, b'make a\nempty b\nwempty v\nwempty w\ncompare_weak s0 a w\n'),
        'faulty_compare_weak_weak_expected_before_unknown_desired': (
            5,
            b'make a\nempty b\nwempty v\nwempty w\ncompare_weak s0 w c\n',
        ),
        'faulty_member_first_loaded_into_weak': (4, b'make a\nempty b\nwempty w\nload w a.first\n'),
        'faulty_member_next_gets_weak': (4, b'make a\nempty b\nwempty w\nstore a.next w\n'),
        'faulty_member_of_weak': (4, b'make a\nempty b\nwempty w\nstore w.first B\n'),
        'faulty_member_of_weak_loaded_into_bad_name': (4, b'make a\nempty b\nwempty w\nload B w.up\n'),
        'faulty_member_up_compared_with_owner': (4, b'make a\nempty b\nwempty w\ncompare_weak a.up w b\n'),
        'faulty_member_up_exchanged_with_its_owner': (4, b'make a\nempty b\nwempty w\nexchange a.up a\n'),
        'faulty_member_up_gets_owner': (4, b'make a\nempty b\nwempty w\nstore a.up a\n'),
        'faulty_member_up_loaded_into_owner': (4, b'make a\nempty b\nwempty w\nload a a.up\n'),
        'holds_member_of_weak': (2, b'wempty w\nholds w.up w\n'),
        'holds_owner_of_weak_cell': (2, b'make a\nholds w0 a\n'),
        'holds_weak_of_shared_member': (3, b'make a\nwempty w\nholds a.next w\n'),
        'load_of_shared_cell_into_weak': (2, b'wempty w\nload w s0\n'),
        'load_of_weak_cell_into_owner': (2, b'make a\nload a w0\n'),
        'lock_of_itself': (2, b'wempty w\nlock w w\n'),
        'lock_of_owner': (2, b'make a\nlock b a\n'),
        'null_over_weak_name': (2, b'wempty w\nnull w\n'),
        'place_of_weak': (2, b'wempty w\nplace w\n'),
        'same_with_weak': (3, b'make a\nwempty w\nsame a w\n'),
        'store_of_owner_in_weak_cell': (2, b'make a\nstore w0 a\n'),
        'this_of_weak': (2, b'wempty w\nthis a w\n'),
        'weak_of_itself': (2, b'make a\nweak a a\n'),
        'weak_over_owner_name': (2, b'make a\nweak a a\n'),
        'wreset_of_owner': (2, b'make a\nwreset a\n'),
        'wthis_over_owner_name': (2, b'make a\nwthis a a\n'),
    },
    'wrong number of words': {
        'alias_with_six_words': (1, b'alias b a a 1 2\n'),
        'alias_with_two_names_alone': (1, b'alias b a\n'),
        'before_with_one_name': (2, b'make a\nbefore a\n'),
        'copy_without_source': (1, b'copy a\n'),
        'exchange_with_two_names': (1, b'exchange s0 a b\n'),
        'expired_of_nothing': (1, b'expired\n'),
        'faulty_compare_of_no_names': (5, b'make a\nempty b\nwempty v\nwempty w\ncompare s0\n'),
        'faulty_compare_of_one_name': (5, b'make a\nempty b\nwempty v\nwempty w\ncompare s0 a\n'),
        'faulty_compare_of_three_names': (5, b'make a\nempty b\nwempty v\nwempty w\ncompare s0 a b b\n'),
        'faulty_compare_weak_of_no_names': (5, b'make a\nempty b\nwempty v\nwempty w\ncompare_weak s0\n'),
        'faulty_compare_weak_of_one_name': (5, b'make a\nempty b\nwempty v\nwempty w\ncompare_weak s0 a\n'),
        'faulty_compare_weak_of_three_names': (5, b'make a\nempty b\nwempty v\nwempty w\ncompare_weak s0 a b b\n'),
        'header_of_five_words': (1, b'version 2 blocks 64 65\n'),
        'header_of_three_words': (1, b'version 3 blocks\n'),
        'header_without_words': (1, b'version\n'),
        'holds_with_no_name': (1, b'holds s0\n'),
        'holds_with_two_names': (2, b'make a\nholds s0 a a\n'),
        'load_of_no_cell': (1, b'load a\n'),
        'load_with_two_names': (1, b'load a s0 b\n'),
        'make_with_five_numbers': (1, b'make a 1 2 3 4 5\n'),
        'make_without_name': (1, b'make\n'),
        'makethis_of_nothing': (1, b'makethis\n'),
        'makethis_with_five_numbers': (1, b'makethis a 1 2 3 4 5\n'),
        'null_of_nothing': (1, b'null\n'),
        'null_with_a_number': (1, b'null a 0\n'),
        'same_with_one_name': (2, b'make a\nsame a\n'),
        'store_of_nothing': (1, b'store s0\n'),
        'thread_with_a_word': (1, b'thread a\n'),
        'version_2_too_many_fields': (3, b'version 2 blocks 64\nmake a 1 2 3 4\nmakethis b 1 2 3 4 5\n'),
        'weak_without_source': (1, b'weak w\n'),
    },
}
# A script, of which each beginning is read.
CUT = b'make a 1\nmake b 2\nstore a.first b\nstore b.first a\n'


def case(script, status=0, stdout='', stderr=''):
    answer = {'stdout': stdout, 'stderr': stderr, 'status': f'{status}\n'}
    return {'args': b'check\n', 'script': script, **{stream: text.encode() for stream, text in answer.items()}}


def refused(line, cause, script):
    return case(script, 1, stderr=f'refused 10: line {line}: {cause}\n')


def beginning(length):
    """A beginning of whole lines has so many statements; the last line of any other is unfinished."""
    script = CUT[:length]
    count = script.count(b'\n')
    if script and not script.endswith(b'\n'):
        return refused(count + 1, 'unfinished line', script)
    return case(script, stdout=f'ok threads 1 statements {count}\n')


def made():
    """The files of each case, by its name."""
    for cause, rows in FAULTS.items():
        for name, (line, script) in rows.items():
            yield name, refused(line, cause, script)
    for length in range(len(CUT) + 1):
        yield f'cut_at_byte_{length:02}', beginning(length)
