/* What the board starts with if nothing is saved in its flash: the image IMAGE. */
  .section .rodata
  .global image_begins, image_ends
image_begins: .incbin IMAGE
image_ends:
#if defined(__linux__)
  .section .note.GNU-stack,"",%progbits
#endif
