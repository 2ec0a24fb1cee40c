/* Loaded by plugins.c, at the address where plugin_one.c was. */
int counter;



void hit(void) { counter++; } /* RACE */
