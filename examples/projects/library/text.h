/* What the library does with a text. */
void upper(char *text);
int count(const char *text, char letter);
