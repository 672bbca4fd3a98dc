/* The two parts of the harness; each prints its lines. */

#ifndef HARNESS_H
#define HARNESS_H

/*
 * Every call on every picture at 40 by 40 with both adjacencies, or with 0
 * for one that takes none. A line
 *
 *   measured|call|adjacency|picture|answer|sum over all lent memory
 *
 * is the same on every machine, and after it a line
 *
 *   used|call|adjacency|picture|bytes lent|bytes of stack
 *
 * is the controller's own.
 */
void measure_controller_calls(void);
void measure_board_calls(void);

/*
 * Every call on small and large pictures, accepted and refused. A line
 *
 *   swept|call|adjacency|width|height|change of the arguments|sum before|answer|sum after
 *
 * has the sums over all lent memory and is the same on every machine, as is
 *
 *   sized|call|adjacency|width|height|picture|least size of a part|answer|sum after
 *   touched|call|adjacency|width|height|picture|handbook|place|answer|sum after
 */
void sweep_pictures(void);
void sweep_files(void);

#endif
