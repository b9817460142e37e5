/* The text of `mquerier-live --help`. */
#ifndef HELP_H
#define HELP_H

extern const char help_text[];

#endif
