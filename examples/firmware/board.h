/* What the firmware wants of its board. */
#ifndef BOARD_H
#define BOARD_H

/* Puts a text on the board's console. */
void board_put(const char *text);

#endif
