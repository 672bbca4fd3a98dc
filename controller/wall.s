/* The file examples/wall.pgm; assembled from the repository's root, for both machines. */
    .section .rodata
    .global wall_file, wall_file_length
    .balign 4
wall_file_length:
    .long end - wall_file
wall_file:
    .incbin "examples/wall.pgm"
end:
    .section .note.GNU-stack, ""
