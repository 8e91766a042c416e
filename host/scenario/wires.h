/*
 * wires.h: the words of a scenario that make a wire silent or a link lossy, and
 * that undo it; each reads the rest of its line.
 */
#ifndef WIRES_H
#define WIRES_H

void wire_hold(void);
void wire_release(void);
void wire_cut(void);
void wire_mend(void);

#endif
