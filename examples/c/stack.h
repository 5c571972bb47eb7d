/* Runs the inputs that nest deepest on the stacks that niegluk.h states, tells which fail, and answers how many. With
 * `measure` it prints for each how much of its stack was changed. */
int stacks(int measure);
