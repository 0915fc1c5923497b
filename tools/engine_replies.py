"""What the engine has to answer over each malformed file of tools/malformed, written by hand from docs/FILE_FORMAT.md and the meaning of the statements.

A file that is damaged as a whole is not opened. Of any other the statement that comes across the damage is refused as damaged, and changes nothing; all others are answered as ever.
Where it is open whether a statement comes across it, all replies that are allowed stand beside one another: a scan may miss keys and depths that do not fit over two leaves, and
names, owners and texts of conditions are looked at by the statements that use them alone.
"""
DAMAGED = "ERROR X0004"
NAME = "ERROR 42000 name"
DONE = "00000"
ONE = "00000 1"
NONE = "02000 0"


def listed(*rows):
    return "\n".join([*rows, f"({len(rows)} rows)"])


LONG = ", ".join(f"('{letter * 200}')" for letter in "abcdefghijklmnopqrstuvwxyzabcdefghijklmnopqrstuvwxyzabcdefgh")

# The good files, each with the statements that are tried over it and over what is made of it, and their replies.
T_BEFORE = listed("1|'x'", "NULL|'it''s'", "-5|NULL")
T_AFTER = listed("1|'x'", "NULL|'it''s'", "-5|NULL", "7|'n'")
PLAIN = [
    ("SELECT A, B FROM T;", T_BEFORE),
    ("INSERT INTO T VALUES (7, 'n');", ONE),
    ("SELECT A, B FROM T;", T_AFTER),
    ("CREATE TABLE U (X VARCHAR(255));", DONE),
    ("INSERT INTO U VALUES ('x');", ONE),
    (f"INSERT INTO U VALUES {LONG};", "00000 60"),
    ("SELECT COUNT(*) FROM U;", listed("61")),
    ("ROLLBACK;", DONE),
    ("SELECT A, B FROM T;", T_BEFORE),
]
D = [str(number * number) for number in range(12)]
D_BEFORE = listed(*D)
D_AFTER = listed(*D, "-1")
DEEP = [
    ("SELECT N FROM D;", D_BEFORE),
    ("INSERT INTO D VALUES (-1);", ONE),
    ("SELECT N FROM D;", D_AFTER),
    ("CREATE TABLE U (X INTEGER);", DONE),
    ("INSERT INTO U VALUES (1);", ONE),
    ("DROP TABLE D;", DONE),
    ("SELECT X FROM U;", listed("1")),
    ("ROLLBACK;", DONE),
    ("SELECT N FROM D;", D_BEFORE),
]
K_BEFORE = listed("5|'ab'|7", "-1|NULL|7", "6|'ab'|NULL")
K_WITHOUT_ONE = listed("5|'ab'|7", "6|'ab'|NULL")
K_WITH_ONE = listed("5|'ab'|7", "-1|NULL|7", "6|'ab'|NULL", "8|'cd'|9")
INDEXED = [
    ("SELECT A, B, C FROM K;", K_BEFORE),
    ("UPDATE K SET C = 4 WHERE A = 7;", NONE),
    ("INSERT INTO K VALUES (8, 'cd', 9);", ONE),
    ("UPDATE K SET C = 3 WHERE A = 5;", ONE),
    ("DELETE FROM K WHERE A = -1;", ONE),
    ("SELECT A, B, C FROM K;", listed("5|'ab'|3", "6|'ab'|NULL", "8|'cd'|9")),
    ("UPDATE K SET A = A + 10, B = 'z', C = C + 1;", "00000 3"),
    ("DROP INDEX BYC;", DONE),
    ("DROP TABLE K;", DONE),
    ("INSERT INTO L VALUES (1);", ONE),
    ("ROLLBACK;", DONE),
    ("SELECT A, B, C FROM K;", K_BEFORE),
]
EMPTY = [
    ("SELECT A FROM T;", NAME),
    ("CREATE TABLE T (A INTEGER);", DONE),
    ("INSERT INTO T VALUES (1);", ONE),
    ("SELECT A FROM T;", listed("1")),
    ("ROLLBACK;", DONE),
    ("SELECT A FROM T;", NAME),
]
LARGE = [
    ("SELECT COUNT(*), SUM(ID) FROM MANY;", listed("2000|1999000")),
    ("UPDATE MANY SET NOTE = 'another' WHERE ID = 1234;", ONE),
    ("DELETE FROM MANY WHERE ID = 1999;", ONE),
    ("SELECT COUNT(*), SUM(ID) FROM MANY;", listed("1999|1997001")),
    ("SELECT ID, NOTE FROM MANY WHERE NOTE = 'another';", listed("1234|'another'")),
    ("DROP TABLE MANY;", DONE),
    ("ROLLBACK;", DONE),
    ("SELECT COUNT(*), SUM(ID) FROM MANY;", listed("2000|1999000")),
]
NUMBERED = [
    ("SELECT A FROM T;", listed("1")),
    ("INSERT INTO T VALUES (2);", "ERROR X0003 pages"),
    ("INSERT INTO T SELECT A FROM T;", "ERROR X0003 pages"),
    ("UPDATE T SET A = 3;", ONE),
    ("SELECT A FROM T;", listed("3")),
    ("ROLLBACK;", DONE),
]
F = "ERROR 23000 F"
REFERRING = [
    ("SELECT X FROM C;", listed("2", "NULL")),
    ("INSERT INTO C VALUES (NULL);", ONE),
    ("INSERT INTO C VALUES (9);", F),
    ("UPDATE P SET K = K + 5 WHERE K = 1;", ONE),
    ("DELETE FROM P WHERE K = 2;", F),
    ("DROP TABLE P;", "ERROR 42000 reference"),
    ("DELETE FROM C;", "00000 3"),
    ("DELETE FROM P WHERE K = 2;", ONE),
    ("DROP TABLE C;", DONE),
    ("DROP TABLE P;", DONE),
    ("ROLLBACK;", DONE),
    ("SELECT X FROM C;", listed("2", "NULL")),
]
SCRIPTS = {"numbered": NUMBERED, "plain": PLAIN, "deep": DEEP, "indexed": INDEXED, "referring": REFERRING, "empty": EMPTY, "large": LARGE, "first_format": PLAIN, "open": PLAIN}

# A line of replies below has one for each statement of its file: the good one where it says GOOD, any of several in a tuple, and for ANSWERED any answer that is no want of memory.
GOOD = None
X = DAMAGED
ANSWERED = "answered"
MAYBE = (GOOD, X)
NOT_OPENED = "not opened"

# Over "plain": the file is as good as before for the engine; what is wrong lies in the table's page or rows, in the catalogue, or in the list of free pages, at its first or its
# second page. Page 0 is written where the first page is taken. In TABLE and SECOND_FREE an INSERT meets the damage after its first write: rows are put in place, and then the table is looked at as a whole, or a second page is taken.
SOUND = [GOOD] * 9
TABLE = [X, X, X, GOOD, GOOD, GOOD, GOOD, GOOD, X]
CATALOGUE = [X, X, X, X, X, X, X, GOOD, X]
ROOT = [X, X, X, MAYBE, (GOOD, X, NAME), (GOOD, X, NAME), (GOOD, X, NAME), GOOD, X]
COLUMN = [(X, NAME), (X, ONE), (X, NAME), MAYBE, (GOOD, X, NAME), (GOOD, X, NAME), (GOOD, X, NAME), GOOD, (X, NAME)]
FIRST_FREE = [GOOD, GOOD, GOOD, GOOD, X, X, listed("0"), GOOD, GOOD]
SECOND_FREE = [GOOD, GOOD, GOOD, GOOD, GOOD, X, listed("1"), GOOD, GOOD]
NO_TABLE = [NAME, NAME, NAME, GOOD, GOOD, GOOD, GOOD, GOOD, NAME]
NO_ROWS = [listed(), GOOD, listed("7|'n'"), GOOD, GOOD, GOOD, GOOD, GOOD, listed()]

# Over "deep": an INSERT goes down to the last leaf, and looks for the greatest row number on its way, in whatever leaves; a look-up reads no link; DROP TABLE reads each page of
# the tree, and each link. LEFT: damage that a scan meets, and the last leaf is whole. RIGHT: the way to the last leaf is damaged. LINK: a leaf's link alone. MISSED: keys that do not fit over two
# leaves, which a scan may miss.
LEFT = [X, MAYBE, X, GOOD, GOOD, X, GOOD, GOOD, X]
RIGHT = [X, X, X, GOOD, GOOD, X, GOOD, GOOD, X]
LINK = [X, GOOD, X, GOOD, GOOD, X, GOOD, GOOD, X]
MISSED = [MAYBE, MAYBE, (GOOD, D_BEFORE, X), GOOD, GOOD, MAYBE, GOOD, GOOD, MAYBE]

# Over "indexed": damage in the catalogue, or in one of the three indexes: INDEX_1 of the key A, INDEX_2 of B and C, INDEX_3 of C. In INDEX_2 and INDEX_3 an INSERT, an UPDATE, a DELETE
# and a DROP TABLE meet the damage after their first write: the rows are the same before and after.
# A foreign key that says what no table has.
REFERENCE = [X, X, X, X, X, X, X, X, X, X, GOOD, X]
SCHEMA = [X, X, X, X, X, X, X, X, X, X, GOOD, X]
INDEX_1 = [GOOD, X, X, X, X, K_BEFORE, X, GOOD, X, GOOD, GOOD, GOOD]
INDEX_2 = [GOOD, GOOD, X, X, X, K_BEFORE, X, GOOD, X, GOOD, GOOD, GOOD]
INDEX_3 = [GOOD, GOOD, X, X, X, K_BEFORE, X, X, X, GOOD, GOOD, GOOD]
# A condition, or a place, that no table has: each change of rows comes across it.
RULE = [MAYBE, X, X, X, X, (K_BEFORE, X), X, MAYBE, MAYBE, MAYBE, GOOD, MAYBE]
# An index whose tree has no entries of its rows: whatever gives up a row comes across it. LEFT_ALONE: of columns that an UPDATE does not change.
NO_ENTRIES = [MAYBE, MAYBE, MAYBE, X, X, (K_BEFORE, K_WITH_ONE, X), X, MAYBE, MAYBE, MAYBE, GOOD, MAYBE]
LEFT_ALONE = [MAYBE, MAYBE, MAYBE, MAYBE, X, (ANSWERED, X), X, MAYBE, MAYBE, MAYBE, GOOD, MAYBE]
# An entry of the key A that is none of a row, behind all others: a look-up of a value behind them meets it.
MET = [GOOD, X, GOOD, GOOD, GOOD, GOOD, GOOD, GOOD, GOOD, GOOD, GOOD, GOOD]
# A row that has not its columns' types: a scan meets it, and each change of rows looks at the table as a whole.
UNTYPED = [X, GOOD, X, X, X, X, X, GOOD, GOOD, GOOD, GOOD, X]
K_WITHOUT_A_DELETE = listed("5|'ab'|3", "-1|NULL|7", "6|'ab'|NULL", "8|'cd'|9")
# What no statement here needs: whether it is found is open.
UNUSED = [MAYBE] * 12

REPLIES = {
    # Page 0.
    "a_part_of_a_page": NOT_OPENED,
    "a_byte_short": NOT_OPENED,
    "a_byte_more": NOT_OPENED,
    "a_page_short": NOT_OPENED,
    "another_magic": NOT_OPENED,
    "no_magic": NOT_OPENED,
    "page_count_0": NOT_OPENED,
    "page_count_65537": NOT_OPENED,
    "page_count_6": NOT_OPENED,
    "first_free_past_the_end": NOT_OPENED,
    "catalogue_past_the_end": NOT_OPENED,
    "catalogue_of_an_empty_file": NOT_OPENED,
    "byte_25": SOUND,
    "byte_4095": SOUND,
    "first_format_a_page_short": NOT_OPENED,
    "magic_of_format_1_cut": NOT_OPENED,
    "gate_1_without_a_journal": NOT_OPENED,
    "gate_1_of_format_1": NOT_OPENED,
    "journal_past_the_end": NOT_OPENED,
    "journal_among_the_pages": NOT_OPENED,
    "journal_with_a_page_at_its_block": NOT_OPENED,
    "journal_with_a_page_past_its_block": NOT_OPENED,
    "journal_with_a_page_twice": NOT_OPENED,
    "journal_with_pages_that_fall": NOT_OPENED,
    "journal_with_a_number_behind_the_unused": NOT_OPENED,
    "journal_an_image_short": NOT_OPENED,
    "journal_with_another_magic": NOT_OPENED,
    "journal_with_page_count_0": NOT_OPENED,
    "journal_with_too_many_pages": NOT_OPENED,
    "journal_with_a_root_past_the_end": NOT_OPENED,
    "no_first_free": SOUND,
    "no_catalogue": NO_TABLE,
    "catalogue_is_free": CATALOGUE,
    "catalogue_is_a_table": CATALOGUE,
    "a_page_of_nobody": SOUND,
    # The free pages.
    "first_free_is_a_table": FIRST_FREE,
    "free_page_is_a_leaf": FIRST_FREE,
    "free_page_leads_to_itself": SECOND_FREE,
    "free_pages_in_a_ring": SECOND_FREE,
    "free_page_past_the_end": SECOND_FREE,
    "free_page_leads_to_a_table": SECOND_FREE,
    "free_pages_end_early": SOUND,
    "free_page_with_a_slot": FIRST_FREE,
    "free_page_with_a_lowest_byte": FIRST_FREE,
    "free_page_with_a_byte_1": SECOND_FREE,
    # A page of a table.
    "kind_0": TABLE,
    "kind_4": TABLE,
    "leaf_as_inner": TABLE,
    "leaf_as_free": TABLE,
    "inner_as_leaf": [X, X, X, GOOD, GOOD, MAYBE, (GOOD, NAME), GOOD, X],
    "byte_1": TABLE,
    "byte_6": TABLE,
    "byte_15": TABLE,
    "a_slot_more": TABLE,
    "a_slot_less": TABLE,
    "slots_past_the_page": TABLE,
    "no_slots": TABLE,
    "no_cells": TABLE,
    "lowest_byte_16": TABLE,
    "lowest_byte_4096": TABLE,
    "cell_in_the_slots": TABLE,
    "cell_past_the_page": TABLE,
    "cells_overlap": TABLE,
    "one_cell_twice": TABLE,
    "cell_of_a_byte": TABLE,
    "key_past_its_cell": TABLE,
    "equal_keys": TABLE,
    "slots_exchanged": TABLE,
    "key_of_601_bytes": TABLE,
    "cell_of_1015_bytes": TABLE,
    "leaf_names_itself": TABLE,
    "leaf_names_no_page": TABLE,
    # Rows.
    "value_of_another_sort": TABLE,
    "integer_cut_off": TABLE,
    "text_without_length": TABLE,
    "text_longer_than_its_row": TABLE,
    "text_with_1f": TABLE,
    "text_with_7f": TABLE,
    "text_in_an_integer_column": TABLE,
    "integer_in_a_text_column": TABLE,
    "a_value_less": TABLE,
    "a_value_more": TABLE,
    "no_value": TABLE,
    "text_wider_than_its_column": TABLE,
    "row_number_of_7_bytes": TABLE,
    "row_number_of_9_bytes": TABLE,
    "row_number_2_to_63": TABLE,
    # Trees.
    "inner_without_cells": LEFT,
    "child_past_the_end": RIGHT,
    "child_at_the_page_count": RIGHT,
    "leftmost_child_past_the_end": LEFT,
    "child_0": RIGHT,
    "leftmost_child_0": LEFT,
    "child_shared": LEFT,
    "child_is_its_root": RIGHT,
    "child_is_its_parent": LEFT,
    "child_is_the_catalogue": [X, MAYBE, X, MAYBE, MAYBE, X, GOOD, GOOD, X],
    "child_of_5_bytes": RIGHT,
    "leaf_at_another_depth": [X, MAYBE, X, GOOD, GOOD, MAYBE, (GOOD, NAME), GOOD, X],
    "key_before_its_leaf": MISSED,
    "key_behind_its_leaf": MISSED,
    "divider_too_great": MISSED,
    "divider_too_small": MISSED,
    "divider_twice": MISSED,
    "inner_keys_fall": RIGHT,
    "leaf_link_over_a_leaf": LINK,
    "leaf_link_past_the_end": LINK,
    "leaf_link_behind_the_last_leaf": LINK,
    "leaf_link_0_in_the_middle": LINK,
    "leaves_in_a_ring": LINK,
    "leaf_link_backwards": LINK,
    "leaf_is_free": RIGHT,
    "deeper_than_16": LEFT,
    # The catalogue.
    "root_of_a_table_past_the_end": ROOT,
    "root_of_a_table_negative": CATALOGUE,
    "root_of_a_table_is_the_catalogue": ROOT,
    "root_of_a_table_is_free": ROOT,
    "root_of_a_table_0": NO_ROWS,
    "root_of_a_table_a_text": CATALOGUE,
    "two_roots_of_a_table": CATALOGUE,
    "columns_of_no_table": CATALOGUE,
    "table_of_number_1": CATALOGUE,
    "table_twice": CATALOGUE,
    "a_column_left_out": CATALOGUE,
    "a_record_of_kind_4": CATALOGUE,
    "a_record_of_kind_minus_1": CATALOGUE,
    "width_256": CATALOGUE,
    "width_minus_1": CATALOGUE,
    "column_in_lower_case": COLUMN,
    "column_without_a_name": CATALOGUE,
    "column_without_a_width": CATALOGUE,
    "record_that_is_no_row": CATALOGUE,
    "key_of_two_values": CATALOGUE,
    "kind_as_a_text": CATALOGUE,
    "table_in_lower_case": CATALOGUE,
    "key_without_an_end": CATALOGUE,
    # Constraints.
    "sort_0": SCHEMA,
    "sort_5": SCHEMA,
    "sort_as_a_text": SCHEMA,
    "column_of_a_constraint_past_the_end": RULE,
    "columns_with_a_comma_more": SCHEMA,
    "column_with_a_zero_before_it": SCHEMA,
    "no_columns": SCHEMA,
    "columns_as_a_number": SCHEMA,
    "not_null_of_two_columns": SCHEMA,
    "constraint_without_a_name": SCHEMA,
    "constraint_left_out": SCHEMA,
    # Foreign keys.
    "reference_to_no_table": REFERENCE,
    "reference_past_the_end": REFERENCE,
    "reference_of_a_column_past_the_end": REFERENCE,
    "reference_of_one_column_to_two": REFERENCE,
    "reference_to_no_columns": REFERENCE,
    "reference_without_a_table": REFERENCE,
    "reference_to_a_table_in_lower_case": REFERENCE,
    "reference_of_three_values": REFERENCE,
    "not_null_of_five_values": REFERENCE,
    # Conditions of CHECKs.
    "check_with_two_spaces": UNUSED,
    "check_in_lower_case": UNUSED,
    "check_without_spaces": UNUSED,
    "check_without_a_text": RULE,
    "check_with_an_open_string": RULE,
    "check_with_an_open_parenthesis": RULE,
    "check_with_a_character_of_no_token": RULE,
    "unique_that_owns_nothing": UNUSED,
    # The second one is of A, which the first UPDATE leaves alone.
    "key_that_owns_two": [GOOD, GOOD, MAYBE, MAYBE, X, (ANSWERED, X), X, (NAME, X), MAYBE, GOOD, GOOD, GOOD],
    "check_that_does_not_type": RULE,
    "check_of_no_column": RULE,
    "check_that_is_no_condition": RULE,
    "check_with_a_subquery": RULE,
    # Indexes.
    "owner_past_the_end": UNUSED,
    "owner_is_a_check": UNUSED,
    "owner_is_not_null": UNUSED,
    "owner_of_other_columns": LEFT_ALONE,
    "owner_negative": SCHEMA,
    "name_and_owner": UNUSED,
    "neither_name_nor_owner": [MAYBE, MAYBE, MAYBE, MAYBE, MAYBE, MAYBE, MAYBE, (NAME, X), MAYBE, MAYBE, GOOD, MAYBE],
    "index_of_a_column_past_the_end": [MAYBE, MAYBE, X, X, X, (K_BEFORE, X), X, MAYBE, MAYBE, MAYBE, GOOD, MAYBE],
    "index_left_out": SCHEMA,
    "index_at_a_table": [MAYBE, MAYBE, X, X, X, (K_BEFORE, X), X, MAYBE, MAYBE, MAYBE, GOOD, MAYBE],
    # A look-up finds no entries, since the keys of rows stand before those of an index.
    "key_at_its_table": [MAYBE, MAYBE, X, (NONE, X), (NONE, X), (K_BEFORE, X), X, MAYBE, MAYBE, MAYBE, GOOD, MAYBE],
    "index_at_an_index": NO_ENTRIES,
    "index_past_the_end": INDEX_3,
    "index_without_a_tree": NO_ENTRIES,
    "entry_left_out": [GOOD, GOOD, GOOD, GOOD, (NONE, X), K_WITHOUT_A_DELETE, X, GOOD, GOOD, GOOD, GOOD, GOOD],
    "entry_of_no_row": MET,
    # A look-up of 5 looks at the entry behind, which is not that of its row.
    "entry_of_another_value": [GOOD, X, GOOD, X, GOOD, listed("5|'ab'|7", "6|'ab'|NULL", "8|'cd'|9"), X, GOOD, GOOD, GOOD, GOOD, GOOD],
    "entry_of_another_row": [GOOD, GOOD, GOOD, GOOD, X, K_WITHOUT_A_DELETE, X, GOOD, GOOD, GOOD, GOOD, GOOD],
    # An UPDATE of all rows takes entries out by their keys, and need not look at what else they carry.
    "entry_with_a_value": [GOOD, GOOD, GOOD, GOOD, X, K_WITHOUT_A_DELETE, ("00000 4", X), GOOD, GOOD, GOOD, GOOD, GOOD],
    "entry_without_a_row_number": MET,
    "entry_that_is_no_key": MET,
    "entries_not_in_order": INDEX_3,
    "index_1_of_kind_9": INDEX_1,
    "index_2_of_kind_9": INDEX_2,
    "index_3_of_kind_9": INDEX_3,
    "index_2_with_a_byte_1": INDEX_2,
    "index_3_without_slots": INDEX_3,
    "index_3_with_a_key_past_its_cell": INDEX_3,
    "index_3_as_an_inner_page": INDEX_3,
    "indexed_row_with_a_text": UNTYPED,
    "indexed_row_with_a_value_less": UNTYPED,
    "indexed_row_too_wide": UNTYPED,
    "row_left_out": [K_WITHOUT_ONE, GOOD, GOOD, GOOD, X, GOOD, GOOD, GOOD, GOOD, GOOD, GOOD, K_WITHOUT_ONE],
    "table_of_no_rows_with_a_root": [GOOD, GOOD, GOOD, GOOD, GOOD, GOOD, GOOD, GOOD, GOOD, X, GOOD, GOOD],
}

# What the engine answers otherwise today, and why: each of these is to be mended, and to leave this list then.
KNOWN = {
}
