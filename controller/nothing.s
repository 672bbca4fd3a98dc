/* Every call as an empty function: linked in place of the libraries, it shows what of the stack
 * is the caller's, its frame and the arguments in memory. */
    .syntax unified
    .cpu cortex-m0plus
    .thumb
    .macro empty name
    .global \name
    .thumb_func
\name:
    .endm
    empty controller_label_section
    empty controller_component_tree
    empty controller_check_tree
    empty controller_pass_between
    empty controller_is_lowerable
    empty controller_watershed_of
    empty controller_fill_small_parts
    empty controller_query_place
    empty controller_touch_place
    empty controller_list_patches
    empty controller_write_file
    empty controller_store_rows
    empty controller_restore_rows
    empty board_read
    empty board_watershed
    empty board_place
    movs r0, #0
    movs r1, #0
    bx lr
    .section .note.GNU-stack, ""
