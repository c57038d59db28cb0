/* What the desk returns to the shell: of a paper or a text, and of two models that are compared. */
#ifndef DESK_STATUS_H
#define DESK_STATUS_H

enum { ACCEPTED = 0, REFUSED = 1, UNUSABLE = 2 };
enum { SAME = ACCEPTED, DIFFERENT = REFUSED };

#endif
