/* Where a match is found: at every place of a sentence, whatever stands beside it, and in every piece. */
#ifndef PLACES_H
#define PLACES_H

/* Books of one rule, of both kinds. What the run has to give is worked out place by place, and apart from the reference. */
void compare_places(void);

#endif
