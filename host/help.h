/* The texts of --help. */
#ifndef HELP_H
#define HELP_H

extern const char HELP_PROGRAM[];
extern const char HELP_CHECK[];
extern const char HELP_PRINT[];
extern const char HELP_TRACE[];
extern const char HELP_LISTING[];
extern const char HELP_NODES[];
extern const char HELP_AUDIT[];
extern const char HELP_PROVE[];
extern const char HELP_NEW[];
extern const char HELP_APPEND[];
extern const char HELP_EXTEND[];
extern const char HELP_EQUATE[];
extern const char HELP_RECORD[];
extern const char HELP_POINT[];
extern const char HELP_WORK[];

#endif
