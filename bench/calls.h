/*
 * The calls that are measured: ours, of board_controller.h and of board.h,
 * and the peers, written in C, each with exactly the signature of ours.
 */

#ifndef CALLS_H
#define CALLS_H

#include "board.h"
#include "board_controller.h"

typedef __typeof__(controller_label_section) label_section_call;
typedef __typeof__(controller_component_tree) component_tree_call;
typedef __typeof__(controller_check_tree) check_tree_call;
typedef __typeof__(controller_pass_between) pass_between_call;
typedef __typeof__(controller_is_lowerable) is_lowerable_call;
typedef __typeof__(controller_watershed_of) watershed_of_call;
typedef __typeof__(controller_fill_small_parts) fill_small_parts_call;
typedef __typeof__(controller_query_place) query_place_call;
typedef __typeof__(controller_touch_place) touch_place_call;
typedef __typeof__(controller_list_patches) list_patches_call;
typedef __typeof__(controller_write_file) write_file_call;
typedef __typeof__(controller_store_rows) store_rows_call;
typedef __typeof__(controller_restore_rows) restore_rows_call;
typedef __typeof__(board_read) board_read_call;

extern label_section_call peer_label_section;
extern component_tree_call peer_component_tree;
extern check_tree_call peer_check_tree;
extern pass_between_call peer_pass_between;
extern is_lowerable_call peer_is_lowerable;
extern watershed_of_call peer_watershed_of;
extern fill_small_parts_call peer_fill_small_parts;
extern query_place_call peer_query_place;
extern touch_place_call peer_touch_place;
extern list_patches_call peer_list_patches;
extern write_file_call peer_write_file;
extern store_rows_call peer_store_rows;
extern restore_rows_call peer_restore_rows;
extern board_read_call peer_read;

/* How many pixels fell and were tested in the peer's watersheds since these were set to 0; counted only if compiled with COUNT_FALLS. */
extern unsigned long peer_falls, peer_tests;

#endif
