/* Images that are wrong in a byte or in their length. */
#ifndef DAMAGED_H
#define DAMAGED_H

#include "lists.h"

/* Tries so many images, every byte of each changed, with all calls. */
void damaged_images(struct source *r, unsigned images);

#endif
