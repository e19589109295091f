/* The sheet held against meaning: what it must say follows from the possible holder sets alone. */
#ifndef HOLDERS_H
#define HOLDERS_H

void every_knowledge(void);
void histories(void);

#endif
