/* layout.h: how document 01 lays out a partition image: its numbers, once, for the C programs that look into one. */
#ifndef LAYOUT_H
#define LAYOUT_H

/* How long the trailer and an entry are; and flag bit 0. */
enum { IMAGE_TRAILER = 16, IMAGE_ENTRY = 4, IMAGE_PROTECTED = 0x01 };

/* Each number of the trailer, by how many bytes it stands before the end of the image. */
enum image_field { IMAGE_N = 16, IMAGE_FLAGS = 12, IMAGE_D = 8, IMAGE_L = 4 };

/* An entry: its top bit for a filemark, the others for the end of the data. */
enum { IMAGE_FILEMARK_SHIFT = 31, IMAGE_END = 0x7fffffff };

#endif
