/* Loaded by plugins.c, as plugin_two.c is. */
int counter;
void hit(void) { counter++; }
