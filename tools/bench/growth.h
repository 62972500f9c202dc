/* Measures messages of 10^2 to 10^8 bytes, and prints rows of a table in Markdown or, as a plot, an image in SVG. */
#include <stdbool.h>

void growth(bool plots);
