/* What the program answers to its caller, and how it speaks of trouble. */
#ifndef STATUS_H
#define STATUS_H

/* The exit statuses. */
enum status { STATUS_DONE = 0, STATUS_REFUSED = 1, STATUS_TROUBLE = 2 };

/* Says on standard error what could not be done to which file, and why. */
enum status trouble(const char *action, const char *path, const char *reason);

/* The same, where the reason is the present value of errno. */
enum status system_trouble(const char *action, const char *path);

#endif
