#include <stdarg.h>
#include <time.h>

#include "driver.h"

static bool shown, line_shown; /* progress is; a line of it stands on the terminal */
static double began, last;
static double size; /* of all files, or -1 if one is not a plain file */

double seconds(void) {
    struct timespec now;
    clock_gettime(CLOCK_MONOTONIC, &now);
    return (double)now.tv_sec + 1e-9 * (double)now.tv_nsec;
}

void put_error(const char *bytes, size_t length) {
    if (length > 0 && line_shown) {
        line_shown = false;
        put(STDERR_FILENO, "\r\033[K", 4);
    }
    put(STDERR_FILENO, bytes, length);
}

void say(const char *format, ...) {
    char text[4096], line[4 * sizeof text + 16] = "cisternpea: ";
    size_t length = strlen(line);
    va_list values;
    va_start(values, format);
    vsnprintf(text, sizeof text, format, values);
    va_end(values);
    for (const char *c = text; *c != 0; c++) {
        bool control = ((unsigned char)*c) < 32 || *c == 127;
        length += (size_t)sprintf(line + length, control ? "\\x%02x" : "%c", *c);
    }
    line[length++] = '\n';
    put_error(line, length);
}

void begin_progress(void) {
    struct stat file;
    shown = !plan.quiet && isatty(STDERR_FILENO);
    began = last = seconds();
    for (size_t i = 0; i < plan.inputs_len; i++) {
        bool sized = tell(plan.inputs[i], STDIN_FILENO, &file) && S_ISREG(file.st_mode);
        size = sized && size >= 0 ? size + (double)file.st_size : -1;
    }
}

void show_progress(void) {
    char line[128];
    double now = seconds(), done = (double)bytes_read, passed = now - began, left = size > done ? size - done : 0;
    if (!shown || now < last + 0.5 || done == 0) return;
    last = now;
    int length = sprintf(line, "\r\033[K%.1f MB read, %.1f MB a second", done / 1e6, done / 1e6 / passed);
    if (size > 0)
        length += sprintf(line + length, ", %.0f %%, %.0f s left", 100 - 100 * left / size, passed * left / done);
    line_shown = true;
    put(STDERR_FILENO, line, (size_t)length);
}

void end_progress(void) {
    if (shown) say("%.1f MB read in %.1f s", (double)bytes_read / 1e6, seconds() - began);
}
